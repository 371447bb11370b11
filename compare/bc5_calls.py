#!/usr/bin/env python3
"""bc5_calls.py ORACLE OUT TILES_OUT: the lines that the programs `bc5_calls` and `bc5_tiles` have to print, worked out from document 02, 3/12, and written to OUT
and to TILES_OUT.

Nothing of the library is asked: refusals by refusals.py, and each half by block_rules.py, which takes encoded bytes from ORACLE, the Rust text's program, one
record for each half. The order of the cases is that of crates/bc5_calls/src and crates/bc5_tiles/src."""
import sys
from functools import partial

import block_rules
from block_rules import bits, block_error, decoded, every_index, tile_blocks
from given import SIXTEEN, checksum, format_of, given_bytes, later_samples, named, samples, write
from refusals import FAR, FARTHEST, count_check, first, in_both, nan_check, size_checks

encoded = partial(block_rules.encoded, sys.argv[1])
view = partial(block_rules.view, size=16)
MALFORMED = (8, True)
# what a decode is lent
BEFORE = [SIXTEEN["slopes"], SIXTEEN["later slopes"]]


# ---- the calls: `channels` are the samples of the first and of the second, `word` what a call by a malformed word looks at last


def in_halves(block):
    return block[:8], block[8:]


def encode(channels, *word, **options):
    refused = first(*in_both(count_check, channels, 16), *in_both(nan_check, channels), *word)
    return refused or b"".join(encoded(channels, **options)).hex()


def decode(block, snorm):
    """The refusal, and what both lent arrays hold after the call."""
    refused = first((3, len(block) != 16))
    after = BEFORE if refused else [decoded(half, snorm) for half in in_halves(block)]
    shown = " |".join("".join(" " + bits(x) for x in floats) for floats in after)
    return f" {refused},{shown}" if refused else shown


def error(channels, block, snorm):
    refused = first(*in_both(count_check, channels, 16), (3, len(block) != 16), *in_both(nan_check, channels))
    return refused or " ".join(bits(block_error(*half, snorm)) for half in zip(channels, in_halves(block)))


def resend(channels, held, *word, dither, snorm):
    counts, nans = in_both(count_check, channels, 16), in_both(nan_check, channels)
    refused = first(*counts, (3, len(held) != 16), (5, dither), *nans, *word)
    if refused:
        return refused
    halves = zip([" fresh first", " fresh second"], channels, encoded(channels, snorm=snorm), in_halves(held))
    block, fresh = b"", ""
    for name, samples, new, half in halves:
        better = block_error(samples, new, snorm) < block_error(samples, half, snorm)
        block += new if better else half
        fresh += name * better
    return block.hex() + fresh


def tile(channels, width, height, out, room, *word, **options):
    """The answer, and `out` after the call, which is lent its first `room` bytes."""
    refused = first(
        *size_checks(width, height),
        *in_both(count_check, channels, width * height),
        (4, room < width * height),
        *in_both(nan_check, channels, width),
        *word,
    )
    if refused:
        return refused, out
    halves = [encoded(tile_blocks(samples, width, height), **options) for samples in channels]
    written = b"".join(a + b for a, b in zip(*halves))
    return f"written {len(written)}", written + out[len(written) :]


# ---- the lines: of each channel a count, and where it is NaN


def channels_of(one, two):
    return samples(*one), later_samples(*two)


def shown(count, *nans):
    return f"{count} samples{named(*nans)}"


def answers(channels, held, dither, snorm, *word):
    """By options, and by a word that says the same or is malformed."""
    scored = error(channels, held, snorm)
    options = {"dither": dither, "snorm": snorm}
    by_options = f"encode {encode(channels, **options)}; error {scored}; resend {resend(channels, held, **options)}"
    by_word = f"encode {encode(channels, *word, **options)}, resend {resend(channels, held, *word, **options)}"
    return f"{by_options}; by word {by_word}"


def refusal_line(one, two, length=16, dither=False):
    given = f"{shown(*one)} beside {shown(*two)}, {length} bytes{', dither' * dither}"
    return f"{given}: {answers(channels_of(one, two), given_bytes(length), dither, False, MALFORMED)}"


def behind(nan):
    """Behind an earlier NaN the last of sixteen samples is one too."""
    return (nan, 15) if nan < 15 else (nan,)


def refusal_lines():
    for one, two, length in [(0, 16, 16), (17, 16, 16), (16, 0, 16), (16, 15, 16), (0, 0, 0), (16, 16, 0), (16, 16, 8), (16, 16, 17)]:
        yield refusal_line((one,), (two,), length)


def crossed_refusal_lines():
    places = [(), behind(0), behind(14), (15,), (16,)]
    for two in places:
        for one in places:
            yield refusal_line((16, *one), (16, *two))
    for fault in range(64):
        miscounted, miscounted_there, length, dither, nan, nan_there = [fault >> k & 1 == 1 for k in range(6)]
        one = (15 if miscounted else 16, *(behind(14) if nan else ()))
        two = (17 if miscounted_there else 16, *(behind(0) if nan_there else ()))
        yield refusal_line(one, two, 15 if length else 16, dither)


def decode_lines():
    for snorm, lengths in [(False, [0, 8, 15, 16, 17]), (True, [15, 16, 17])]:
        for length in lengths:
            yield f"{length} bytes{format_of(snorm)}: decode{decode(given_bytes(length), snorm)}"


def value_line(one, two, a, b, dither=False, snorm=False):
    held = bytes.fromhex(a + b)
    given = f"{one} beside {two}, {held.hex()}{format_of(snorm)}{', dither' * dither}"
    answered = answers((SIXTEEN[one], SIXTEEN[two]), held, dither, snorm)
    return f"{given}: decode{decode(held, snorm)}: {answered}"


slope_line = partial(value_line, "slopes", "later slopes")
ZERO, ALSO_ZERO = "0000000000000000", "0000b66ddbb66ddb"
# fresh, better and worse, of the slopes and of the later ones, in either format
FIRST = ["5600b95dcee5244c", "5107c95dcee5044c", "8181000000000000"]
SECOND = ["eeaf737997773981", "f1ab737997773981", "8181000000000000"]
SIGNED_FIRST = ["d781b95dcee5246c", "d288c95dcee5044c", "8181000000000000"]
SIGNED_SECOND = ["6e2f737997773981", "712c737997773981", "8181000000000000"]


def value_lines():
    yield value_line("all 0", "all 1", ZERO, ALSO_ZERO)
    yield value_line("all 1", "all 0", ALSO_ZERO, ALSO_ZERO)
    yield value_line("all 0", "all 1", ZERO, ALSO_ZERO, snorm=True)
    yield value_line("all -inf", "all inf", ZERO, ZERO)
    ends = lambda *pair: every_index(*pair).hex()
    yield value_line("0 and 1", "-inf and inf", ends(255, 0), ends(0, 255))
    yield value_line("0 and 1", "-inf and inf", ends(127, 0x81), ends(0x81, 127), snorm=True)
    yield value_line("-3.5 and 2.5", "0 and 1", ends(0x81, 0x80), ends(0x80, 0x81), snorm=True)
    yield slope_line(FIRST[0], SECOND[0], dither=True)
    yield slope_line(SIGNED_FIRST[0], SIGNED_SECOND[0], dither=True, snorm=True)
    yield slope_line(SECOND[0], FIRST[0])


def crossed_value_lines():
    for two, signed_two in zip(SECOND, SIGNED_SECOND):
        for one, signed_one in zip(FIRST, SIGNED_FIRST):
            yield slope_line(one, two)
            yield slope_line(signed_one, signed_two, snorm=True)


def tile_line(width, height, one, two, room, snorm=False):
    given = f"tile {width} by {height}, {shown(*one)} beside {two[0]} samples into {room} bytes{named(*two[1:])}{format_of(snorm)}"
    answers = []
    for word in [(), (MALFORMED,)]:
        answer, out = tile(channels_of(one, two), width, height, b"\xa5" * 4128, room, *word, snorm=snorm)
        answers.append(f"{answer}, out {checksum(out)}")
    return f"{given}: {answers[0]}, by word {answers[1]}"


def tile_lines():
    sizes = [(4, 4, 16), (0, 4, 0), (4, 0, 0), (6, 4, 24), (4, 6, 24), (1024, 4, 4096), (4, 1024, 4096), (1028, 4, 4112), (4, 1028, 4112)]
    for width, height, count in sizes + [(FAR, 4, 16), (4, FAR, 16)]:
        yield tile_line(width, height, (count,), (count,), count)
    for room in [0, 48, 97, 4128]:
        yield tile_line(12, 8, (96,), (96,), room)
    yield tile_line(12, 8, (96,), (96,), 96, True)
    yield tile_line(8, 12, (96,), (96, 37), 96)
    yield tile_line(4, 1024, (4096,), (4096, 4095), 4096)


def crossed_tile_lines():
    for two in [95, 96, 97]:
        for one in [95, 96, 97]:
            yield tile_line(12, 8, (one,), (two,), 96)
    places = [(), (0,), (95,), (96,)]
    for two in places:
        for one in places:
            yield tile_line(12, 8, (96, *one), (96, *two), 96)
    for fault in range(32):
        miscounted, miscounted_there, room, nan, nan_there = [fault >> k & 1 == 1 for k in range(5)]
        one = (95 if miscounted else 96, *[94] * nan)
        two = (97 if miscounted_there else 96, *[37] * nan_there)
        yield tile_line(12, 8, one, two, 95 if room else 96)


def view_line(width, height, length, column, row):
    answer = view(given_bytes(length), width, height, column, row)
    return f"view column {column} row {row} of {width} by {height}, {length} bytes: {answer}"


def view_lines():
    yield view_line(4, 4, 16, 0, 0)
    yield view_line(0, 4, 0, 0, 0)
    yield view_line(4, 0, 0, 0, 0)
    yield view_line(6, 4, 24, 0, 0)
    yield view_line(4, 6, 24, 0, 0)
    yield view_line(1024, 4, 4096, 255, 0)
    yield view_line(4, 1024, 4096, 0, 255)
    yield view_line(1028, 4, 4112, 256, 0)
    yield view_line(4, 1028, 4112, 0, 256)
    yield view_line(FAR, 4, 16, 0, 0)
    yield view_line(4, FAR, 16, 0, 0)
    for length in [0, 48, 95, 97]:
        yield view_line(12, 8, length, 0, 0)
    yield view_line(6, 8, 95, 0, 0)
    yield view_line(6, 8, 48, 3, 0)
    yield view_line(12, 8, 95, 3, 0)
    yield view_line(12, 6, 95, 3, 2)
    yield view_line(1024, 4, 4096, 256, 0)
    yield view_line(4, 1024, 4096, 0, 256)
    for column, row in [(FARTHEST, 0), (0, FARTHEST), (FARTHEST, FARTHEST)]:
        yield view_line(12, 8, 96, column, row)


def crossed_view_lines():
    for row in range(3):
        for column in range(4):
            yield view_line(12, 8, 96, column, row)


def size_lines():
    """All that is looked at later is wrong too, so that of a good size the next number is told."""
    sides = [0, 6, 1024, 1026, 1028, FARTHEST]
    for height in sides:
        for width in sides:
            yield tile_line(width, height, (17, 3), (17, 3), 4)
            yield view_line(width, height, 17, FARTHEST, FARTHEST)


blocks = [*refusal_lines(), *decode_lines(), *value_lines(), *crossed_refusal_lines(), *crossed_value_lines()]
# document 02's worked value: first all 0, second all 1, unsigned
assert any(line.startswith("all 0 beside all 1, ") and f": encode {'00' * 8}ff{'00' * 7};" in line for line in blocks)
write(blocks, sys.argv[2])
write([*tile_lines(), *view_lines(), *crossed_tile_lines(), *crossed_view_lines(), *size_lines()], sys.argv[3])
