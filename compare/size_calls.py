#!/usr/bin/env python3
"""size_calls.py OUT: the lines that the program `size_calls` has to print, worked out from document 02, 2/12, and written to OUT.

Nothing of the library is asked. The sizes, and what is wrong besides, are those of crates/size_calls/src."""
import sys

from refusals import FARTHEST, first, size_checks

SIZES = [(0, 0), (6, 0), (0, 2000), (2000, 0), (2000, 6), (6, 2000), (1026, 4), (6, 6), (1024, 1024), (1028, 1028)]
SIZES += [(FARTHEST, 4), (4, FARTHEST), (FARTHEST, FARTHEST)]


def line(width, height):
    """Each call refuses a good size for what it looks at next: a tile's sample count, the length of blocks, a file's body."""

    def said(next_number, width=width, height=height):
        return first(*size_checks(width, height), (next_number, True))

    answers = [
        f"tile {said(2)}",
        f"by word {said(2)}",
        f"view {said(3)} []",
        f"write {said(3)}",
        f"read {said(15, width % 2**32, height % 2**32)}",
    ]
    return f"{width} by {height}: " + ", ".join(answers)


with open(sys.argv[1], "w") as handle:
    handle.write("".join(line(*size) + "\n" for size in SIZES))
