#!/usr/bin/env python3
"""at.py PICTURE.png X,Y=RED,GREEN,BLUE ..: the picture has these colours at these places."""
import pathlib
import sys

sys.path.insert(0, str(pathlib.Path(__file__).resolve().parents[2] / "desk"))
import png  # noqa: E402

image = png.read(pathlib.Path(sys.argv[1]).read_bytes(), 1 << 24)
for word in sys.argv[2:]:
    place, colour = word.split("=")
    x, y = map(int, place.split(","))
    found = image.colours()[y * image.width + x]
    if found != tuple(map(int, colour.split(","))):
        sys.exit(f"{sys.argv[1]}: at column {x}, row {y} it has {found}, not {colour}")
