"""Blocks by document 01: what eight bytes decode to, how far off samples are, and the Rust's bytes of a block. For the scripts beside it.

Nothing of the library is asked. A step in f32 is the exact fraction rounded once. Encoded bytes come from the Rust text's program, which is given one record
of 68 bytes for each block."""
import struct
import subprocess
from fractions import Fraction

from refusals import first, size_checks

# ---- f32: a value is a float that an f32 holds


def rounded(x):
    """The f32 next to a fraction from 0 up, ties to even. Nothing here is too large for an f32."""
    if x == 0:
        return 0.0
    # the step between floats of this size, at first at most that
    digits = x.numerator.bit_length() - x.denominator.bit_length()
    step = Fraction(2) ** max(digits - 24, -149)
    while x >= 2**24 * step:
        step *= 2
    # Python rounds a fraction to the next whole number, ties to even
    return float(round(x / step) * step)


def f32(x):
    return rounded(x) if x >= 0 else -rounded(-x)


def add(a, b):
    return f32(Fraction(a) + Fraction(b))


def sub(a, b):
    return f32(Fraction(a) - Fraction(b))


def mul(a, b):
    return f32(Fraction(a) * Fraction(b))


def bits(x):
    return struct.pack(">f", x).hex()


# ---- eight bytes


def value(byte, snorm):
    if not snorm:
        return f32(Fraction(byte, 255))
    signed = byte - 256 if byte >= 128 else byte
    return f32(Fraction(max(signed, -127) + 127, 254))


def is_six(c0, c1, snorm):
    signed = lambda b: b - 256 if b >= 128 and snorm else b
    return signed(c0) > signed(c1)


def eight_values(c0, c1, snorm):
    x, y = value(c0, snorm), value(c1, snorm)
    if is_six(c0, c1, snorm):
        factor2 = mul(f32(Fraction(1, 7)), sub(x, y))
        return [x, y] + [add(mul(8 - k, factor2), y) for k in range(2, 8)]
    fifths = [f32(Fraction(k, 5)) for k in range(5)]
    return [x, y] + [add(mul(x, fifths[6 - k]), mul(y, fifths[k - 1])) for k in range(2, 6)] + [0.0, 1.0]


def decoded(block, snorm):
    values = eight_values(block[0], block[1], snorm)
    indexes = int.from_bytes(block[2:], "little")
    return [values[indexes >> 3 * i & 7] for i in range(16)]


def indexes(sixteen):
    return sum(k << 3 * i for i, k in enumerate(sixteen)).to_bytes(6, "little")


def every_index(c0, c1):
    """Two endpoints with the indexes 0 to 7, twice."""
    return bytes([c0, c1]) + indexes([*range(8)] * 2)


def clamped(x):
    return 0.0 if not x > 0 else 1.0 if not x < 1 else x


def block_error(samples, block, snorm):
    total = 0.0
    for sample, v in zip(samples, decoded(block, snorm)):
        d = sub(clamped(sample), v)
        total = add(total, mul(d, d))
    return total


# ---- encoded bytes


def encoded(oracle, blocks, dither=False, snorm=False, search=False):
    """The Rust's bytes of each block: four-value mode on, two rounds, Round."""
    word = bytes([8 + dither + 2 * snorm + 4 * search, 2, 0, 0])
    records = b"".join(word + struct.pack("<16f", *map(clamped, block)) for block in blocks)
    answers = subprocess.run([oracle], input=records, stdout=subprocess.PIPE, check=True).stdout.split()
    assert len(answers) == len(blocks)
    return [bytes.fromhex(a.decode()) for a in answers]


# ---- tiles


def tile_blocks(samples, width, height):
    """The sixteen samples of each block, row by row from the top left."""
    return [
        [samples[(4 * row + y) * width + 4 * column + x] for y in range(4) for x in range(4)]
        for row in range(height // 4)
        for column in range(width // 4)
    ]


def view(tile, width, height, column, row, size):
    """A block view's answer, of blocks of `size` bytes."""
    blocks = (width // 4, height // 4)
    refused = first(
        *size_checks(width, height),
        (3, len(tile) != size * blocks[0] * blocks[1]),
        (6, column >= blocks[0] or row >= blocks[1]),
    )
    if refused:
        return f"{refused}, []"
    at = size * (row * blocks[0] + column)
    return f"[{tile[at:at + size].hex()}]"
