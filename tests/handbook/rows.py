#!/usr/bin/env python3
"""rows.py PAGE: when each write shows, by either line table and at every reading of a pass, those that come twice both times. In a scene of which each kind of
write changes every row: after the write, steps until a row is another than without it. That row is the one which PAGE tells."""
import pathlib
import re
import sys

from device import TABLES, Device, colour, register, video

# What the page tells: its rows `| L from .. | row .. of .. |`, and the one of register 9.
text = pathlib.Path(sys.argv[1]).read_text(encoding="utf-8")
told = re.findall(r"^\| L from (\d+) (?:on, )?to (\d+) \| row (?:(L) − )?(\d+) of (this|the next) pass \|$", text, re.M)
waits = re.findall(r"^\| (register 9), .*\| in row 0 of the next pass, whatever L is ", text, re.M)


def expected(kind, line):
    """The pass, 0 this one, and the row: as the page has it, once for each line."""
    found = [(int("next" in which), line - int(row) if by_line else int(row)) for low, high, by_line, row, which in told if int(low) <= line <= int(high)]
    if len(found) != 1:
        sys.exit(f"{sys.argv[1]}: line {line} is told {len(found)} times")
    return (1, 0) if kind in waits else found[0]


def tile(codes):
    """32 bytes: of each line four, a bit of each code to a byte."""
    return [sum((codes(x, y) >> plane & 1) << 7 - x for x in range(8)) for y in range(8) for plane in range(4)]


SPRITES = range(18)  # of eight rows each, one below the other
MAP, OTHER_MAP, TABLE, OTHER_TABLE, PATTERNS = 0x3800, 0x3000, 0x3F00, 0x3700, 0x2000


def sprites(right):
    return [byte for n in SPRITES for byte in ((60, 100)[n % 2] + right, 1)]


SCENE = (
    [write for n in range(32) for write in colour(n, 7 * n % 256, n % 16)]
    + video(32 * 1, tile(lambda x, y: (x + y) % 8))
    + video(32 * 2, tile(lambda x, y: 8 + (x + 2 * y) % 8))
    + video(PATTERNS, tile(lambda x, y: 2) + tile(lambda x, y: 1))
    + video(MAP, [1, 0] * 32 * 28)
    + video(OTHER_MAP, [2, 0] * 32 * 28)
    + [write for table in (TABLE, OTHER_TABLE) for write in video(table, [23 + 8 * n for n in SPRITES] + [0xD0])]
    + video(TABLE + 128, sprites(0))
    + video(OTHER_TABLE + 128, sprites(20))
)
# What is written; the last one is of all that shows in no row.
KINDS = {
    "palette": colour(1, 0xFF, 0x0F),
    "tile": video(32 * 1, tile(lambda x, y: 8 + (x + y) % 8)),
    "map": [write for y in range(28) for write in video(MAP + 2 * (32 * y + 10), [2, 0])],
    "sprites": video(TABLE + 128, sprites(4)),
    "register 0, bit 3": register(0, 0x08),
    "register 1, bit 1": register(1, 0x02),
    "register 2": register(2, 0xFD),
    "register 5": register(5, 0x6E),
    "register 6": register(6, 0xFB),
    "register 8": register(8, 3),
    "register 9": register(9, 1),
    "no row": register(0, 0xF7) + register(1, 0xFD) + register(3, 0) + register(4, 0) + register(7, 0xFF) + register(10, 7),
}


def moments(device, steps):
    """The device after each step of the pass that begins with the next one."""
    for _ in range(steps):
        device.step()
        yield device


def shown(device, plain):
    """The pass and the row of the first one that is another than the plain one, None where none is up to the end of the next pass."""
    passes = 0
    while True:
        answer = device.step()
        passes += device.line == 0
        if passes == 2:
            return None
        if answer.drawn and bytes(device.row.bytes) != plain[answer.row]:
            return passes, answer.row


tried = 0
for table, steps in TABLES.items():
    device = Device(table)
    device.write(SCENE)
    plain = {}
    while device.line != 255:
        answer = device.step()
        if answer.drawn:
            plain[answer.row] = bytes(device.row.bytes)
    assert sorted(plain) == list(range(144))
    readings = []
    for now in moments(device, steps):
        readings.append(now.line)
        for kind, writes in KINDS.items():
            written = now.copy()
            written.write(writes)
            found, wanted = shown(written, plain), None if kind == "no row" else expected(kind, now.line)
            if found != wanted:
                sys.exit(f"table {table}, {kind}, written while the counter reads {now.line}: first shown in pass and row {found}, and the page has {wanted}")
            tried += 1
    last = steps - 262 + 0xDA
    assert readings == [*range(last + 1), *range(0xD5, 0x100)]
print(f"{tried:,} writes, at every reading of a pass by either table")
