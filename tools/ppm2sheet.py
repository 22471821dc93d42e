#!/usr/bin/env python3
"""ppm2sheet.py [PALETTE] < PICTURE > SHEET: a drawing as the sheet that build/bin/sheet reads, one byte a code, 64 codes a tile.

PICTURE is a binary PPM (P6, 255) or a PNG (8 bits, red, green and blue or with a palette, not interlaced) whose sides are multiples of 8, of at most 256
tiles and 16 colours. Tiles go row by row. Code 0 is the colour of the first pixel, and each new colour that is met has the next code. Where PALETTE is
named, that file gets the 32 bytes that make palette 0 show them: two bytes a colour, four bits each for red, green and blue; so the picture shows as
it was drawn where its reds, greens and blues are multiples of 17.
"""
import struct
import sys
import zlib


def ppm(data):
    """Width, and the pixels of a binary PPM."""
    kind, size, most, pixels = data.split(b"\n", 3)
    width, height = map(int, size.split())
    if (kind, most, len(pixels)) != (b"P6", b"255", width * height * 3):
        sys.exit("ppm2sheet.py: not a binary PPM as snapshot writes it")
    return width, [pixels[i : i + 3] for i in range(0, len(pixels), 3)]


def png(data):
    """Width, and the pixels of a PNG."""
    at, chunks = 8, {}
    while at < len(data):
        length, name = struct.unpack(">I4s", data[at : at + 8])
        chunks[name] = chunks.get(name, b"") + data[at + 8 : at + 8 + length]
        at += 12 + length
    width, height, bits, kind, _, _, laced = struct.unpack(">IIBBBBB", chunks[b"IHDR"])
    if bits != 8 or kind not in (2, 3) or laced:
        sys.exit("ppm2sheet.py: of PNGs only those of 8 bits, red, green and blue or with a palette, not interlaced")
    size = 3 if kind == 2 else 1
    rows, raw, above = b"", zlib.decompress(chunks[b"IDAT"]), bytes(width * size)
    for y in range(height):
        way, row = raw[y * (width * size + 1)], bytearray(raw[y * (width * size + 1) + 1 : (y + 1) * (width * size + 1)])
        for i in range(len(row)):
            left, up, corner = row[i - size] if i >= size else 0, above[i], above[i - size] if i >= size else 0
            near = left + up - corner  # the PNG paper's filters: none, left, up, the mean of both, the nearest of three
            nearest = min((left, up, corner), key=lambda b: abs(near - b))
            row[i] = (row[i] + (0, left, up, (left + up) // 2, nearest)[way]) % 256
        rows, above = rows + bytes(row), row
    if kind == 3:
        return width, [chunks[b"PLTE"][3 * i : 3 * i + 3] for i in rows]
    return width, [rows[i : i + 3] for i in range(0, len(rows), 3)]


data = sys.stdin.buffer.read()
width, pixels = png(data) if data.startswith(b"\x89PNG") else ppm(data)
height = len(pixels) // width
if width % 8 or height % 8 or not 1 <= width * height // 64 <= 256:
    sys.exit("ppm2sheet.py: the sides must be multiples of 8, with 1 to 256 tiles")

codes = {}
for pixel in pixels:
    codes.setdefault(pixel, len(codes))
if len(codes) > 16:
    sys.exit(f"ppm2sheet.py: {len(codes)} colours, and a tile has at most 16")

for top in range(0, height, 8):
    for left in range(0, width, 8):
        sys.stdout.buffer.write(bytes(codes[pixels[(top + y) * width + left + x]] for y in range(8) for x in range(8)))

if len(sys.argv) > 1:
    with open(sys.argv[1], "wb") as palette:
        colours = [(r // 17, g // 17, b // 17) for r, g, b in codes] + [(0, 0, 0)] * (16 - len(codes))
        palette.write(b"".join(bytes([r + 16 * g, b]) for r, g, b in colours))
