#!/usr/bin/env python3
"""ppm2png.py [SCALE] < PICTURE.ppm > PICTURE.png: a binary PPM (P6, 255) as PNG, each pixel drawn SCALE times across and down.

Where snapshot wrote a line in place of a picture (bad, long), that line is passed on to standard error, and the exit status is 1."""
import struct
import sys
import zlib

scale = int(sys.argv[1]) if len(sys.argv) > 1 else 1
whole = sys.stdin.buffer.read()
if not whole.startswith(b"P6\n"):
    line = whole.split(b"\n", 1)[0].decode("ascii", "replace")
    said = line == "long" or line.startswith("bad ")
    sys.exit(line if said else "ppm2png.py: not a binary PPM as snapshot writes it" if whole else "ppm2png.py: no picture came")
try:
    kind, size, most, pixels = whole.split(b"\n", 3)
    width, height = map(int, size.split())
except ValueError:
    sys.exit("ppm2png.py: a binary PPM that is cut short")
if (most, len(pixels)) != (b"255", width * height * 3):
    sys.exit("ppm2png.py: not a binary PPM as snapshot writes it")

rows = b""
for y in range(height):
    row = pixels[y * width * 3 : (y + 1) * width * 3]
    wide = b"".join(row[x : x + 3] * scale for x in range(0, len(row), 3))
    rows += (b"\0" + wide) * scale  # 0: no filter


def chunk(name, data):
    return struct.pack(">I", len(data)) + name + data + struct.pack(">I", zlib.crc32(name + data))


header = struct.pack(">IIBBBBB", width * scale, height * scale, 8, 2, 0, 0, 0)  # 8 bits, red, green and blue
sys.stdout.buffer.write(b"\x89PNG\r\n\x1a\n" + chunk(b"IHDR", header) + chunk(b"IDAT", zlib.compress(rows, 9)) + chunk(b"IEND", b""))
