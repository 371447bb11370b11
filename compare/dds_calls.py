#!/usr/bin/env python3
"""dds_calls.py OUT: the lines that the program `dds_calls` has to print, worked out from document 02, 1/12 and 2/12, and written to OUT.

Nothing of the library is asked. The order of the cases, and the bytes that they give, are those of crates/dds_calls/src and crates/cases/src."""
import sys

from dds_rules import header, reading
from refusals import FAR, Refused, first, size_checks

lines = []


def given_bytes(count):
    return bytes((i % 65521 * 37 + i % 65521 // 256 * 3 + 200) % 256 for i in range(count))


def checksum(out):
    total = 0
    for b in out:
        total = (total * 257 + b + 1) % 4294967291
    return f"{total:08x}"


def format_of(signed):
    return ", signed" if signed else ", unsigned"


# ---- writing


def write(tile, width, height, signed, out, room):
    """The line of a write into the first `room` bytes of `out`, and `out` after it."""
    size = width * height // 2
    refused = first(*size_checks(width, height), (3, len(tile) != size), (4, room < 128 + size))
    file = header(width, height, "BC4S" if signed else "BC4U") + tile if not refused else b""
    answer = refused or f"written {len(file)}"
    line = f"write {width} by {height}{format_of(signed)}, {len(tile)} bytes into {room}: {answer}"
    return line, file + out[len(file) :]


def wrote(width, height, length, room):
    line, out = write(given_bytes(length), width, height, False, b"\xa5" * 2184, room)
    lines.append(f"{line}, out {checksum(out)}")


def write_lines():
    for signed in [False, True]:
        line, out = write(given_bytes(16), 8, 4, signed, b"\xa5" * 145, 145)
        lines.append(f"{line} {out.hex()}")
    wrote(0, 4, 0, 128)
    wrote(4, 4, 8, 136)
    wrote(6, 4, 12, 140)
    wrote(1024, 4, 2048, 2176)
    wrote(1028, 4, 2056, 2184)
    wrote(FAR, 4, 8, 136)
    wrote(4, 0, 0, 128)
    wrote(4, 6, 12, 140)
    wrote(4, 1024, 2048, 2176)
    wrote(4, 1028, 2056, 2184)
    wrote(4, FAR, 8, 136)
    wrote(FAR, FAR, 8, 136)
    for length in [0, 15, 16, 17]:
        wrote(8, 4, length, 144)
    for room in [0, 16, 143, 145]:
        wrote(8, 4, 16, room)
    wrote(6, 4, 16, 144)
    wrote(6, 4, 12, 139)
    wrote(8, 4, 15, 143)
    wrote(8, 6, 15, 143)


# ---- reading


def changed(file, at, x):
    return file[:at] + x.to_bytes(4, "little") + file[at + 4 :]


def made(extension):
    """A file of 8 by 4, right in every field that is named, and any bytes elsewhere."""
    file = given_bytes(165)
    fields = [(0, 0x20534444), (4, 124), (12, 4), (16, 8), (24, 0), (28, 1), (84, 0x55344342), (112, 0x200)]
    for at, x in fields + extension * [(84, 0x30315844), (128, 80), (140, 1)]:
        file = changed(file, at, x)
    return file


def answer(file):
    found = reading(file)
    if isinstance(found, Refused):
        return str(found)
    return f"{found.width} by {found.height}{format_of(found.signed)}, from {found.start}"


def body(file):
    found = reading(file)
    return b"" if isinstance(found, Refused) else file[found.start :]


def name_of(extension, length):
    return f"read {length} bytes" + " with DX10" * extension


def read(extension, length, *changes):
    file = made(extension)
    for at, x in changes:
        file = changed(file, at, x)
    file = file[:length]
    refused = f" {answer(file)}," if isinstance(reading(file), Refused) else ""
    how = "".join(f", {at} is {x}" for at, x in changes)
    lines.append(f"{name_of(extension, length)}{how}: {answer(file)},{refused} [{body(file).hex()}]")


def read_lines():
    def field(at, *values):
        for x in values:
            read(False, 144, (at, x))

    def extension_field(at, *values):
        for x in values:
            read(True, 164, (at, x))

    def both(*changes):
        read(True, 164, *changes)

    for length in [0, 127, 128, 143, 144, 145, 148]:
        read(False, length)
    for length in [0, 127, 128, 144, 147, 148, 163, 164, 165]:
        read(True, length)
    ati1 = int.from_bytes(b"ATI1", "little")
    field(0, 0x20534445, 0x44445320)
    field(4, 123, 125, 0x017C)
    field(84, int.from_bytes(b"BC4S", "little"), ati1, int.from_bytes(b"cC4U", "little"), 0)
    extension_field(128, 79, 81, 82, 0x0150)
    field(28, 0, 2, 0x0101)
    field(24, 1, 2, 0xFFFFFFFF)
    extension_field(140, 0, 2, 0x0101)
    field(112, 0x03FF, 0x0400, 0x0800, 0x1000, 0x2000, 0x4000, 0x8000, 0xFFFF03FF)
    field(16, 0, 6, 1024, 1028, 65544, 0xFFFFFFFC, 4)
    field(12, 0, 6, 1024, 1028, 65540, 0xFFFFFFFC, 8)
    read(False, 127, (0, 0))
    read(True, 147, (0, 0), (4, 0))
    both((0, 0), (4, 0))
    both((4, 0), (84, ati1))
    both((4, 0), (128, 79))
    both((84, ati1), (28, 2))
    both((128, 79), (28, 2))
    both((28, 2), (24, 2))
    both((24, 2), (112, 0x400))
    both((112, 0x400), (140, 0))
    for width in [0, 1028, 6]:
        both((140, 0), (16, width))
    both((16, 6), (12, 6))
    read(True, 163, (12, 6))
    read(False, 144, (128, 79), (140, 0))
    for extension, length in [(False, 144), (True, 164)]:
        file = made(extension)[:length]
        others = [file[:k] + bytes([255 - file[k]]) + file[k + 1 :] for k in range(length)]
        numbers = [reading(other).number if isinstance(reading(other), Refused) else 0 for other in others]
        lines.append(f"{name_of(extension, length)}, each byte changed alone: " + " ".join(map(str, numbers)))


def large_lines():
    tile = given_bytes(524288)
    line, out = write(tile, 1024, 1024, True, b"\xa5" * 524424, 524424)
    lines.append(f"{line}, out {checksum(out)}")
    file = out[:524416]
    lines.append(f"read it: {answer(file)}, body {checksum(body(file))}")


write_lines()
read_lines()
large_lines()
with open(sys.argv[1], "w") as handle:
    handle.write("".join(line + "\n" for line in lines))
print(len(lines), "lines")
