"""A DDS file of one BC4 tile by document 02, 1/12: what a writer puts into its header, and what a reader answers. For dds.py and dds_calls.py."""
import struct
from collections import namedtuple

from refusals import first, size_checks

# the fields that a refusal names, from 3 on in the order of include/bc4.h
FIELDS = "header extension magic header_size four_characters format mip_count depth cube_faces array_size".split()
Read = namedtuple("Read", "width height signed start")


def header(width, height, form):
    """What our writer has to put before the blocks; for DX10 and a format, which it never writes, the same with the extension."""
    fields = {4: 124, 8: 0x81007, 12: height, 16: width, 20: width * height // 2, 28: 1, 76: 32, 80: 4, 108: 0x1000}
    made = bytearray(b"DDS " + bytes(124))
    for at, number in fields.items():
        struct.pack_into("<I", made, at, number)
    made[84:88] = form[:4].encode()
    return bytes(made) + (struct.pack("<5I", int(form[5:]), 3, 0, 1, 0) if form[4:] else b"")


def reading(file):
    """What a read answers: of the table's rows, the size's checks and 15 the first that applies; else size, format and where the blocks start."""
    word = lambda at: int.from_bytes(file[at : at + 4], "little")
    four = file[84:88]
    extended = four == b"DX10"
    start = 148 if extended else 128
    width, height = word(16), word(12)
    table = [
        (11, "header", len(file) < 128),
        (11, "extension", extended and len(file) < 148),
        (12, "magic", file[:4] != b"DDS "),
        (12, "header_size", word(4) != 124),
        (13, "four_characters", four not in (b"BC4U", b"BC4S", b"DX10")),
        (13, "format", extended and word(128) not in (80, 81)),
        (14, "mip_count", word(28) > 1),
        (14, "depth", word(24) > 1),
        (14, "cube_faces", word(112) & 0xFC00 != 0),
        (14, "array_size", extended and word(140) != 1),
    ]
    fields = [(number, f" field {FIELDS.index(field) + 3}", applies) for number, field, applies in table]
    refused = first(*fields, *size_checks(width, height), (15, len(file) - start != width * height // 2))
    return refused or Read(width, height, word(128) == 81 if extended else four == b"BC4S", start)
