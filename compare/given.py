"""What the cases of the programs give to the calls, and how a line shows it: crates/cases/src. For the scripts beside it."""

INF = float("inf")


def sample(i):
    return (i % 65521 * 1021 + i % 7 * 1500 + i % 251 * 40) % 65521 / 65536


def samples(count, *nans):
    return [float("nan") if i in nans else sample(i) for i in range(count)]


def later_samples(count, *nans):
    """Those of a second channel."""
    return [float("nan") if i in nans else sample(i + 1000) for i in range(count)]


def given_bytes(count):
    return bytes((i % 65521 * 37 + i % 65521 // 256 * 3 + 200) % 256 for i in range(count))


def halves(a, b):
    return [a] * 8 + [b] * 8


# sixteen samples by the name that a line gives them
SIXTEEN = {
    "slopes": samples(16),
    "later slopes": later_samples(16),
    "all 0": [0.0] * 16,
    "all 1": [1.0] * 16,
    "all inf": [INF] * 16,
    "all -inf": [-INF] * 16,
    "0 and 1": halves(0.0, 1.0),
    "-inf and inf": halves(-INF, INF),
    "-3.5 and 2.5": halves(-3.5, 2.5),
}


def named(*nans):
    return ", NaN at " + " and ".join(map(str, nans)) if nans else ""


def format_of(snorm):
    return ", signed" if snorm else ", unsigned"


def checksum(out):
    total = 0
    for b in out:
        total = (total * 257 + b + 1) % 4294967291
    return f"{total:08x}"


def write(lines, path):
    with open(path, "w") as handle:
        handle.write("".join(line + "\n" for line in lines))
    print(len(lines), "lines")
