#!/usr/bin/env python3
"""station_calls.py OUT: the lines that the program `station_calls` has to print, worked out from document 02, 5/12, and written to OUT.

Nothing of the library is asked. The order of the cases, and the bytes that they give, are those of crates/station_calls/src and crates/cases/src."""
import sys
from itertools import permutations

from given import checksum, given_bytes, write
from refusals import FARTHEST, first, size_checks

lines = []


def receive(tile, record, width, height, column, row, edition, block):
    """What becomes of a message. `tile` and `record` are lists, which the call changes where it takes the message or replaces by it."""
    columns, rows = width // 4, height // 4
    lengths = [len(tile) != 8 * columns * rows, len(record) != columns * rows, len(block) != 8]
    refused = first(*size_checks(width, height), *[(3, wrong) for wrong in lengths], (6, column >= columns or row >= rows))
    if refused:
        return refused
    place = row * columns + column
    held = tile[8 * place : 8 * place + 8]
    if record[place] == 0:
        outcome = "taken"
    else:
        difference = (edition - (record[place] - 1)) % 65536
        refused = first((16, difference == 0 and held != block), (17, difference == 32768))
        if refused:
            return refused
        outcome = "repeated" if difference == 0 else "replaced" if difference < 32768 else "old"
    if outcome in ["taken", "replaced"]:
        tile[8 * place : 8 * place + 8] = block
        record[place] = edition + 1
    return outcome


def eight(number):
    return [16 * number + i for i in range(8)]


def shown(tile, record):
    return "".join([", ", bytes(tile).hex(), *[f" {entry}" for entry in record]])


def lent(tile, long, record, entries, width, height, column, row, edition, block):
    """The line of a message into the first `long` bytes and the first `entries` entries, and what is in all of them after it."""
    head, kept = tile[:long], record[:entries]
    asked = f"{width} by {height}, {long} bytes, {entries} entries, at {column} {row} edition {edition} [{bytes(block).hex()}]"
    outcome = receive(head, kept, width, height, column, row, edition, block)
    tile[:long], record[:entries] = head, kept
    return f"{asked}: {outcome}"


# ---- refusals 1, 9, 10, 3 and 6


def shaped(width, height, long=48, entries=6, column=1, row=2, edition=6, count=8):
    tile, record = list(given_bytes(49)), [6] * 7
    block = [0xB0 + i for i in range(count)]
    line = lent(tile, long, record, entries, width, height, column, row, edition, block)
    lines.append(line + shown(tile, record))


def shape_lines():
    sizes = [(0, 0), (6, 0), (0, 2000), (2000, 0), (2000, 6), (6, 2000), (1026, 4), (6, 6), (1024, 1024), (1028, 1028)]
    for width, height in sizes + [(FARTHEST, 4), (4, FARTHEST), (FARTHEST, FARTHEST)]:
        shaped(width, height, 47, 5, FARTHEST, FARTHEST, 5, 7)
    for width, height, column, row in [(0, 12, 0, 0), (8, 0, 0, 0), (6, 12, 0, 0), (8, 6, 0, 0), (8, 12, 0, 0), (12, 8, 2, 1)]:
        shaped(width, height, width * height // 2, width * height // 16, column, row)
    for long in [0, 6, 47, 48, 49]:
        shaped(8, 12, long=long)
    for entries in [0, 5, 7]:
        shaped(8, 12, entries=entries)
    for count in [0, 7, 9]:
        shaped(8, 12, count=count)
    for column, row in [(0, 0), (1, 0), (0, 2), (1, 2), (2, 0), (0, 3), (2, 2), (1, 3)]:
        shaped(8, 12, column=column, row=row)
    far = [(FARTHEST, 0), (0, FARTHEST), (FARTHEST, FARTHEST), (0, 2**63), (2**64 - 2, 1)]
    for column, row in far:
        shaped(8, 12, column=column, row=row)


# ---- each refusal with each that is looked for later

# what a fault changes of a message that replaces; of the same side 0 and another fault are given as 0
RIGHT = dict(width=8, height=12, long=48, entries=6, column=1, row=1, edition=6, count=8)
FAULTS = [dict(width=0), dict(height=0), dict(width=1028), dict(height=1028), dict(width=6), dict(height=6)]
FAULTS += [dict(long=47), dict(entries=5), dict(count=7), dict(column=2), dict(edition=5), dict(edition=5 + 32768)]


def fault_lines():
    for k, one in enumerate(FAULTS):
        for other in FAULTS[k:]:
            changed = other | one
            for side in changed.keys() & {"width", "height"}:
                if (one.get(side), other.get(side)) == (1028, 6):
                    changed[side] = 1030
            shaped(**(RIGHT | changed))


# ---- a tile of one block


def over(entry, edition, block):
    tile, record = eight(10), [entry]
    asked = f"{bytes(tile).hex()} {entry}, edition {edition} {bytes(block).hex()}"
    outcome = receive(tile, record, 4, 4, 0, 0, edition, block)
    lines.append(f"{asked}: {outcome}{shown(tile, record)}")


def edition_lines():
    def twice(entry, edition):
        over(entry, edition, eight(10))
        over(entry, edition, eight(11))

    for edition in [0, 1, 32768, 65535]:
        twice(0, edition)
    for entry in [1, 6, 32769, 65536, 65537, 131072, 2**32 - 1]:
        for ahead in [0, 1, 32767, 32768, 32769, 65535]:
            twice(entry, (entry - 1 + ahead) % 65536)
    for k in range(8):
        block = eight(10)
        block[k] = 0xFF
        over(6, 5, block)
    over(6, 5, [0xA1, 0xA0] + eight(10)[2:])


# ---- messages one after the other, and clearing


def fresh():
    return list(given_bytes(48)), [0] * 6


def placed(held, column, row, edition, number):
    outcome = receive(*held, 8, 12, column, row, edition, eight(number))
    lines.append(f"at {column} {row}, edition {edition}: {outcome}{shown(*held)}")


def in_turn(name, *messages):
    """Editions and numbers, one after the other for the last place."""
    held = fresh()
    outcomes = "".join(f" {receive(*held, 8, 12, 1, 2, edition, eight(number))}" for edition, number in messages)
    lines.append(f"{name}:{outcomes}{shown(*held)}")


def clear(held, entries):
    tile, record = held
    record[:entries] = [0] * entries
    lines.append(f"clear {entries} entries{shown(tile, record)}")


def history_lines():
    held = fresh()
    for column, row, edition, number in [(1, 2, 100, 1), (0, 0, 65535, 2), (0, 2, 0, 3), (1, 0, 32768, 4), (0, 1, 7, 5), (1, 1, 7, 6)]:
        placed(held, column, row, edition, number)
    for column, row, edition, number in [(1, 2, 101, 7), (0, 0, 0, 8), (0, 2, 65535, 9), (1, 0, 0, 10), (0, 1, 7, 11), (1, 1, 7, 6)]:
        placed(held, column, row, edition, number)
    for one, other in [(65535, 0), (0, 65535), (0, 32767), (0, 32768), (0, 32769), (5, 5)]:
        in_turn(f"{one} then {other}", (one, 1), (other, 2))
    in_turn("5 then 5", (5, 1), (5, 1))
    for editions in [(65535, 0, 1), (50001, 60002, (50001 + 32767) % 65536)]:
        for a, b, c in permutations(editions):
            in_turn(f"{a} {b} {c}", *[(edition, edition % 16) for edition in [a, a, b, a, c, b, c]])
    held = fresh()
    placed(held, 1, 2, 5, 1)
    placed(held, 0, 0, 5, 2)
    clear(held, 6)
    placed(held, 1, 2, 4, 3)
    placed(held, 0, 0, 5, 4)
    placed(held, 1, 2, 5, 1)
    held = (fresh()[0], [1, 65536, 65537, 0, 2**32 - 1, 6])
    for entries in [0, 1, 5, 6, 6]:
        clear(held, entries)


# ---- sides of 1,024 and more


def large(tile, record, *message):
    line = lent(tile, *message[:1], record, *message[1:], 6, eight(11))
    lines.append(f"{line}, tile {checksum(tile)}, record {int(checksum(record), 16)}")


def large_lines():
    def lane(*message):
        large(list(given_bytes(2056)), [6] * 257, *message)

    for place in [(0, 0), (255, 0), (256, 0), (0, 1)]:
        lane(2048, 256, 1024, 4, *place)
    lane(2056, 257, 1028, 4, 0, 0)
    for place in [(0, 0), (0, 255), (0, 256), (1, 0)]:
        lane(2048, 256, 4, 1024, *place)
    lane(2056, 257, 4, 1028, 0, 0)
    tile, record = list(given_bytes(524288)), [0] * 65536
    large(tile, record, 524288, 65535, 1024, 1024, 0, 0)
    for place in [(255, 255), (255, 0), (0, 255), (255, 255), (256, 255), (255, 256)]:
        large(tile, record, 524288, 65536, 1024, 1024, *place)


shape_lines()
fault_lines()
edition_lines()
history_lines()
large_lines()
write(lines, sys.argv[1])
