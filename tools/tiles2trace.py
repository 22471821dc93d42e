#!/usr/bin/env python3
"""tiles2trace.py WIDTH PALETTE < TILES > TRACE: a trace that shows tiles, as build/bin/sheet writes them, side by side in the middle of the visible screen.

WIDTH is how many stand in a row. PALETTE is the file of 32 bytes that tools/ppm2sheet.py writes. Around them is colour 0.
"""
import sys

ACROSS, DOWN = 20, 18  # the visible screen, in tiles
LEFT, TOP = 6, 3  # the map's column and row that it starts with, unscrolled: 48 and 24 pixels
MAP = 0x3800  # where a fresh device has the map: (FF AND 0E) x 1,024
EMPTY = 256  # a tile that stays zero: a sheet has at most 256


def write(port, values):
    return b"".join(bytes([0x50, 0x57, port, value]) for value in values)  # PW port value


def send(address, chosen, values):
    return write(0xBF, (address % 256, address // 256 + chosen)) + write(0xBE, values)


width, tiles = int(sys.argv[1]), sys.stdin.buffer.read()
height = -(-len(tiles) // (32 * width))
if len(tiles) % 32 or len(tiles) > 8192 or not 1 <= width <= ACROSS or height > DOWN:
    sys.exit("tiles2trace.py: these tiles do not fit the visible screen")

entries = bytearray(EMPTY.to_bytes(2, "little") * 32 * 28)
for n in range(len(tiles) // 32):
    x, y = LEFT + (ACROSS - width) // 2 + n % width, TOP + (DOWN - height) // 2 + n // width
    entries[64 * y + 2 * x : 64 * y + 2 * x + 2] = n.to_bytes(2, "little")

palette = open(sys.argv[2], "rb").read()
sys.stdout.buffer.write(send(0, 0x40, tiles) + send(MAP, 0x40, entries) + send(0, 0xC0, palette) + bytes([0x4C, 0x53, 0]) * 262)
