"""Refusals as a line shows them, those of a size by document 02, 2/12, those of one of two channels by 3/12. For the scripts beside it."""
from collections import namedtuple

FAR = 2**64 - 4
FARTHEST = 2**64 - 1


class Refused(namedtuple("Refused", "number detail", defaults=[""])):
    def __str__(self):
        return f"refused {self.number}{self.detail}"


def first(*checks):
    """Of a call's checks in order, each a number, its detail if it has one, and whether it applies, the first that applies, or None."""
    return next((Refused(*refusal) for *refusal, applies in checks if applies), None)


def size_checks(width, height):
    """By number, and of one number the width first."""
    faults = [(1, lambda n: n == 0), (9, lambda n: n > 1024), (10, lambda n: n % 4 != 0)]
    return [(number, side, fault(n)) for number, fault in faults for side, n in [(" width", width), (" height", height)]]


def count_check(samples, count, channel=""):
    return 2, channel, len(samples) != count


def nan_check(samples, width=None, channel=""):
    """With a tile's width the row and the column too."""
    at = next((i for i, x in enumerate(samples) if x != x), len(samples))
    place = f", row {at // width}, column {at % width}" if width else ""
    return 7, f"{channel} at {at}{place}", at < len(samples)


def in_both(check, channels, *more):
    """A check of the first of two channels and then of the second, each of which the refusal says."""
    return [check(samples, *more, channel=name) for name, samples in zip([" first", " second"], channels)]
