#!/usr/bin/env python3
"""Writes layers.trace beside this file: a wall and a pillar of one tile, the pillar with priority, and sprites over, behind and on each other; one pass."""
import pathlib

trace = bytearray()
COMMAND, DATA = 0xBF, 0xBE


def write(port, *values):
    for value in values:
        trace.extend([0x50, 0x57, port, value])  # PW port value


def video(address, *values):
    write(COMMAND, address % 256, 0x40 + address // 256)
    write(DATA, *values)


def colour(number, red, green, blue):
    write(COMMAND, 2 * number, 0xC0)
    write(DATA, 16 * green + red, blue)


# Tile 1 is solid colour 1. The sprites' tile 0, at 2000, is a disc of code 2.
video(0x0020, *[0xFF, 0, 0, 0] * 8)
video(0x2000, *[byte for bits in (0x3C, 0x7E, 0xFF, 0xFF, 0xFF, 0xFF, 0x7E, 0x3C) for byte in (0, bits, 0, 0)])
# On the screen: tile column 3 the wall, without priority; columns 8 and 9 the pillar, with it. The screen begins at column 6 and line 3 of the map.
for line in range(1, 17):
    video(0x3800 + 2 * (32 * (line + 3) + 3 + 6), 1, 0x00)
    video(0x3800 + 2 * (32 * (line + 3) + 8 + 6), 1, 0x10, 1, 0x10)
# Sprites by column and row of the screen; a Y byte of D0 ends the list.
sprites = [(20, 20), (26, 23), (60, 20), (66, 40), (76, 60), (100, 20), (104, 24), (108, 20), (62, 80), (68, 84)]
video(0x3F00, *[y + 23 for _, y in sprites], 0xD0)
video(0x3F80, *[byte for x, _ in sprites for byte in (x + 48, 0)])
colour(0, 2, 2, 5)
colour(1, 8, 6, 3)
colour(18, 15, 13, 2)
trace.extend(b"LS\x00" * 262)

pathlib.Path(__file__).with_suffix(".trace").write_bytes(trace)
