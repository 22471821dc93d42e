#!/usr/bin/env python3
"""Writes edges-visible.trace and edges-true.trace beside this file: one scene in area 0 and in area 2. A wall with priority at a left edge that scroll
cuts, with discs behind it; two discs that the left edge cuts and that overlap; and at the right edge discs with X 206 to 214 under the early clock."""
import pathlib

trace = bytearray()
COMMAND, DATA = 0xBF, 0xBE


def write(port, *values):
    for value in values:
        trace.extend([0x50, 0x57, port, value])  # PW port value


def register(number, value):
    write(COMMAND, value, 0x80 + number)


def video(address, *values):
    write(COMMAND, address % 256, 0x40 + address // 256)
    write(DATA, *values)


def colour(number, red, green, blue):
    write(COMMAND, 2 * number, 0xC0)
    write(DATA, 16 * green + red, blue)


# Tile 1 is solid colour 1. The sprites' tiles 0 and 1, at 2000, are discs of code 2 and code 3.
DISC = (0x3C, 0x7E, 0xFF, 0xFF, 0xFF, 0xFF, 0x7E, 0x3C)
video(0x0020, *[0xFF, 0, 0, 0] * 8)
video(0x2000, *[byte for bits in DISC for byte in (0, bits, 0, 0)], *[byte for bits in DISC for byte in (bits, bits, 0, 0)])
# The early clock, and scroll 5: columns 0 to 4 of the screen show the right of the map's tile column 5, columns 5 to 12 its tile column 6.
register(0, 0x08)
register(8, 5)
# Both columns are the wall, on the screen's lines 8 to 71.
for line in range(1, 9):
    video(0x3800 + 2 * (32 * (line + 3) + 5), 1, 0x10, 1, 0x10)
# Sprites by column and row of the screen, with their tiles: behind the wall, at the left edge below it, at the right edge. A Y byte of D0 ends the list.
sprites = [(-3, 12, 0), (1, 26, 0), (5, 40, 0), (9, 54, 0), (-4, 90, 0), (0, 93, 1), (150, 12, 0), (152, 26, 0), (154, 40, 0), (156, 54, 0), (158, 68, 0)]
video(0x3F00, *[y + 23 for _, y, _ in sprites], 0xD0)
video(0x3F80, *[byte for x, _, tile in sprites for byte in (x + 56, tile)])
colour(0, 2, 2, 5)
colour(1, 8, 6, 3)
colour(18, 15, 13, 2)
colour(19, 15, 4, 2)

for name, area in (("edges-visible", 0), ("edges-true", 2)):
    (pathlib.Path(__file__).parent / f"{name}.trace").write_bytes(trace + bytes([0x4C, 0x53, area]) * 262)
