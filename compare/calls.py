#!/usr/bin/env python3
"""calls.py ORACLE OUT: the lines that the program `calls` has to print, worked out from document 01 and document 02, 2/12, and written to OUT.

Nothing of the library is asked: refusals by refusals.py, decoding and block errors by block_rules.py, which takes encoded bytes from ORACLE, the Rust text's
program. The order of the cases is that of crates/calls/src."""
import sys
from functools import partial

import block_rules
from block_rules import bits, block_error, decoded, every_index, indexes, tile_blocks
from given import SIXTEEN, checksum, format_of, given_bytes, named, samples, write
from refusals import FAR, FARTHEST, count_check, first, nan_check, size_checks

encoded = partial(block_rules.encoded, sys.argv[1])
view = partial(block_rules.view, size=8)
lines = []


# ---- the calls


def encode(samples, **options):
    refused = first(count_check(samples, 16), nan_check(samples))
    return refused or encoded([samples], **options)[0].hex()


def decode(block, snorm, before):
    refused = first((3, len(block) != 8))
    text = f" {refused}," if refused else ""
    return text + "".join(" " + bits(x) for x in (before if refused else decoded(block, snorm)))


def error(samples, block, snorm):
    refused = first(count_check(samples, 16), (3, len(block) != 8), nan_check(samples))
    return refused or bits(block_error(samples, block, snorm))


def resend(samples, held, dither, snorm):
    refused = first(count_check(samples, 16), (3, len(held) != 8), (5, dither), nan_check(samples))
    if refused:
        return refused
    fresh = encoded([samples], snorm=snorm)[0]
    if block_error(samples, fresh, snorm) < block_error(samples, held, snorm):
        return f"fresh {fresh.hex()}"
    return f"held {held.hex()}"


def tile(samples, width, height, out, room, snorm=False):
    """The answer, and `out` after the call, which is lent its first `room` bytes."""
    refused = first(
        *size_checks(width, height),
        count_check(samples, width * height),
        (4, room < width * height // 2),
        nan_check(samples, width),
    )
    if refused:
        return refused, out
    written = b"".join(encoded(tile_blocks(samples, width, height), snorm=snorm))
    return f"written {len(written)}", written + out[len(written) :]


# ---- the lines


def encode_lines():
    def counted(count, *nans):
        lines.append(f"encode {count} samples{named(*nans)}: {encode(samples(count, *nans))}")

    def valued(name, dither=False, snorm=False, search=False):
        how = format_of(snorm) + ", dither" * dither + ", search" * search
        lines.append(f"encode {name}{how}: {encode(SIXTEEN[name], dither=dither, snorm=snorm, search=search)}")

    for count in [0, 7, 8, 9, 15, 16, 17]:
        counted(count)
    for nans in [(0,), (15,), (4, 9), (0, 15), (16,)]:
        counted(16, *nans)
    counted(15, 3)
    counted(17, 3)
    counted(17, 16)
    for dither, search in [(False, False), (True, False), (False, True)]:
        valued("slopes", dither, False, search)
        valued("slopes", dither, True, search)
    for name in ["all 0", "all 1"]:
        valued(name)
        valued(name, snorm=True)
        valued(name, search=True)
    for options in [{}, {"snorm": True}, {"dither": True}]:
        valued("0 and 1", **options)
        valued("-inf and inf", **options)
    valued("all inf")
    valued("all inf", search=True)
    valued("all -inf", snorm=True)
    valued("all -inf", search=True)


def decode_lines():
    before = SIXTEEN["slopes"]

    def long(length, snorm=False):
        lines.append(f"decode {length} bytes{format_of(snorm)}:{decode(given_bytes(length), snorm, before)}")

    def valued(block, snorm):
        lines.append(f"decode {block.hex()}{format_of(snorm)}:{decode(block, snorm, before)}")

    for length in [0, 7, 8, 9, 15, 16, 17]:
        long(length)
    for length in [7, 8, 9]:
        long(length, True)
    for pair in [(255, 0), (0, 255), (128, 127), (127, 128), (0x55, 0x55), (1, 255), (255, 1)]:
        valued(every_index(*pair), False)
    for pair in [(127, 0x81), (0x81, 127), (127, 0x80), (0x80, 127), (1, 255), (255, 1), (0x55, 0x55)]:
        valued(every_index(*pair), True)
    valued(every_index(0x81, 0x80), True)
    valued(every_index(0x80, 0x81), True)
    valued(bytes([0, 255]) + indexes([2] * 16), False)


def error_lines():
    def counted(count, length, *nans):
        answer = error(samples(count, *nans), given_bytes(length), False)
        lines.append(f"error of {count} samples and {length} bytes{named(*nans)}: {answer}")

    def valued(name, held, snorm):
        lines.append(f"error of {name} and {held.hex()}{format_of(snorm)}: {error(SIXTEEN[name], held, snorm)}")

    for count in [0, 7, 8, 9, 15, 16, 17]:
        counted(count, 8)
    for length in [0, 7, 9, 15, 16, 17]:
        counted(16, length)
    counted(16, 8, 0)
    counted(16, 8, 15)
    counted(16, 8, 9, 4)
    counted(16, 8, 16)
    counted(15, 7)
    counted(15, 8, 3)
    counted(16, 7, 3)
    counted(15, 7, 3)
    counted(17, 9, 16)
    counted(0, 0)
    six, four = every_index(200, 10), every_index(10, 200)
    for snorm in [False, True]:
        valued("slopes", six, snorm)
        valued("slopes", four, snorm)
    valued("0 and 1", six, False)
    valued("-inf and inf", six, False)
    valued("-3.5 and 2.5", six, False)
    valued("0 and 1", six, True)
    valued("-inf and inf", six, True)
    valued("all 0", bytes(8), False)
    valued("all 0", bytes([255] * 8), False)


def resend_lines():
    def counted(count, length, dither=False, *nans):
        answer = resend(samples(count, *nans), given_bytes(length), dither, False)
        how = ", dither" * dither + named(*nans)
        lines.append(f"resend {count} samples over {length} bytes{how}: {answer}")

    def valued(name, held, snorm):
        answer = resend(SIXTEEN[name], bytes.fromhex(held), False, snorm)
        lines.append(f"resend {name} over {held}{format_of(snorm)}: {answer}")

    for count in [0, 7, 8, 9, 15, 16, 17]:
        counted(count, 8)
    for length in [0, 7, 9, 15, 16, 17]:
        counted(16, length)
    counted(16, 8, True)
    for nan in [0, 15, 16]:
        counted(16, 8, False, nan)
    counted(15, 7)
    counted(15, 8, True)
    counted(15, 8, False, 3)
    counted(16, 7, True)
    counted(16, 7, False, 3)
    counted(16, 8, True, 3)
    counted(17, 9, True)
    counted(17, 9, False, 3)
    counted(17, 8, True, 3)
    counted(16, 9, True, 3)
    counted(17, 9, True, 3)
    for held in ["0000b66ddbb66ddb", "0000000000000000"]:
        valued("all 0", held, False)
    for held in ["8080b66ddbb66ddb", "8181000000000000"]:
        valued("all 0", held, True)
    for held in ["5600b95dcee5244c", "5107c95dcee5044c", "0000000000000000", "5600b95dcee52400"]:
        valued("slopes", held, False)
    for held in ["d781b95dcee5246c", "d383b95dcee5044c", "8181000000000000", "d781b95dcee52400"]:
        valued("slopes", held, True)
    valued("-inf and inf", "0000000000000000", False)
    valued("-inf and inf", "00ffb66ddbffffff", False)
    valued("-inf and inf", "807fb66ddbffffff", True)


def tiled(width, height, count, room, *nans):
    answer, out = tile(samples(count, *nans), width, height, b"\xa5" * 2064, room)
    given = f"tile {width} by {height}, {count} samples into {room} bytes{named(*nans)}"
    lines.append(f"{given}: {answer}, out {checksum(out)}")


def tile_lines():
    tiled(0, 4, 0, 0)
    tiled(4, 4, 16, 8)
    tiled(6, 4, 24, 12)
    tiled(1024, 4, 4096, 2048)
    tiled(1028, 4, 4112, 2056)
    tiled(FAR, 4, 16, 8)
    tiled(4, 0, 0, 0)
    tiled(4, 6, 24, 12)
    tiled(4, 1024, 4096, 2048)
    tiled(4, 1028, 4112, 2056)
    tiled(4, FAR, 16, 8)
    tiled(FAR, FAR, 16, 8)
    for count in [95, 96, 97]:
        tiled(8, 12, count, 48)
    for room in [47, 49, 2064, 0]:
        tiled(8, 12, 96, room)
    for nans in [(0,), (95,), (40, 17), (96,)]:
        tiled(8, 12, 96, 48, *nans)
    tiled(8, 4, 32, 16, 13)
    tiled(1024, 4, 4096, 2048, 4095)
    tiled(6, 12, 96, 48)
    tiled(6, 12, 72, 35)
    tiled(6, 12, 72, 36, 3)
    tiled(8, 12, 95, 47)
    tiled(8, 12, 97, 48, 3)
    tiled(8, 12, 96, 47, 3)
    tiled(8, 6, 47, 23)
    tiled(8, 6, 47, 24, 3)
    tiled(8, 6, 48, 23, 3)
    tiled(8, 12, 97, 47, 3)
    tiled(8, 6, 47, 23, 3)
    for snorm in [False, True]:
        block = encode(SIXTEEN["slopes"], snorm=snorm)
        lines.append(f"tile 4 by 4{format_of(snorm)}: written 8 {block}, block {block}")


def end_lines():
    """The run value of document 01, and its values 2 to 6 worked by hand, as they stand there."""
    for x, snorm, c0, c1 in [
        ("0.5", False, 128, 127),
        ("0", False, 1, 0),
        ("1", False, 255, 254),
        ("0", True, 0x82, 0x81),
        ("1", True, 0x7F, 0x7E),
        ("NaN", False, 255, 0),
    ]:
        lines.append(f"six-value ends of {x} and {x}{format_of(snorm)}: {bytes([c0, c1]).hex()}")


def viewed(width, height, length, column, row):
    answer = view(given_bytes(length), width, height, column, row)
    lines.append(f"view column {column} row {row} of {width} by {height}, {length} bytes: {answer}")


def view_lines():
    viewed(0, 4, 0, 0, 0)
    viewed(4, 4, 8, 0, 0)
    viewed(6, 4, 12, 0, 0)
    viewed(1024, 4, 2048, 255, 0)
    viewed(1028, 4, 2056, 256, 0)
    viewed(FAR, 4, 8, 0, 0)
    viewed(4, 0, 0, 0, 0)
    viewed(4, 6, 12, 0, 0)
    viewed(4, 1024, 2048, 0, 255)
    viewed(4, 1028, 2056, 0, 256)
    viewed(4, FAR, 8, 0, 0)
    viewed(FAR, FAR, 8, 0, 0)
    for length in [0, 7, 47, 48, 49]:
        viewed(8, 12, length, 0, 0)
    for column, row in [(1, 0), (2, 0), (0, 2), (0, 3), (1, 2), (2, 3), (2, 1)]:
        viewed(8, 12, 48, column, row)
    viewed(1024, 4, 2048, 256, 0)
    viewed(4, 1024, 2048, 0, 256)
    viewed(8, 12, 48, FARTHEST, 0)
    viewed(8, 12, 48, 0, FARTHEST)
    viewed(8, 12, 48, FARTHEST, FARTHEST)
    viewed(6, 12, 47, 0, 0)
    viewed(6, 12, 36, 2, 0)
    viewed(8, 12, 47, 2, 0)
    viewed(8, 6, 25, 0, 3)


def large_lines():
    n, out = 1024 * 1024, b"\xa5" * 524296
    for nans in [(n - 1,), ()]:
        answer, out = tile(samples(n, *nans), 1024, 1024, out, len(out))
        lines.append(f"tile 1024 by 1024{named(*nans)}: {answer}, out {checksum(out)}")
    lines.append(f"after it {out[n // 2:].hex()}")
    for column, row in [(0, 0), (255, 0), (255, 255), (256, 255)]:
        lines.append(f"view column {column} row {row} of 1024 by 1024: {view(out[:n // 2], 1024, 1024, column, row)}")


encode_lines()
decode_lines()
error_lines()
resend_lines()
tile_lines()
view_lines()
large_lines()
end_lines()
write(lines, sys.argv[2])
