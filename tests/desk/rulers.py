#!/usr/bin/env python3
"""rulers.py: what rulers and legends say, read back letter by letter: beside each mark its row and the line of that row, above each mark its column; and of a
picture by layers the layers that it has, each beside its colour."""
import pathlib
import sys

sys.path.insert(0, str(pathlib.Path(__file__).resolve().parents[2] / "desk"))
import layers  # noqa: E402
import lettering  # noqa: E402
import machines  # noqa: E402
import pictures  # noqa: E402

LETTERS = {shape: letter for letter, shape in lettering.FONT.items()}


def pixel(picture, x, y):
    return picture.row(y)[3 * x : 3 * x + 3] if 0 <= x < picture.width and 0 <= y < picture.height else b""


def read(picture, x, y, zoom):
    """The letters from this place on, up to one that is none."""
    text = ""
    while True:
        shape = "".join("1" if pixel(picture, x + zoom * (4 * len(text) + bit % 3), y + zoom * (bit // 3)) == lettering.INK else "0" for bit in range(15))
        if LETTERS.get(shape, " ") == " ":
            return text
        text += LETTERS[shape]


def wrong(what):
    sys.exit(f"rulers.py: {what}")


told = 0
for is_home, number, screen in [(False, number, screen) for number, screen in machines.handheld().screens.items()] + [(True, 0, machines.home().screens[0])]:
    blank = pictures.Picture(screen.columns, screen.rows, bytes(3 * screen.columns * screen.rows))
    for scale in (1, 2, 4):
        for grid in (False, True):
            zoom, (left, top, _, _) = lettering.zoom_of(scale), lettering.margins(scale)
            drawn = pictures.scaled(blank, scale, grid)
            picture = lettering.ruled(drawn, screen, scale, grid)
            for row in range(0, screen.rows, 8):
                y = top + row * scale + (row // 8 if grid else 0)
                if read(picture, left - 3 - 4 * zoom * len(str(row)), y, zoom) != str(row) or read(picture, left + drawn.width + 3, y, zoom) != str(row + screen.first_line):
                    wrong(f"area {number}, scale {scale}: row {row} is told otherwise")
                told += 2
            for column in range(0, screen.columns, 16):
                if read(picture, left + column * scale + (column // 8 if grid else 0), top - 3 - zoom * lettering.HIGH, zoom) != str(column):
                    wrong(f"area {number}, scale {scale}: column {column} is told otherwise")
                told += 1
# a legend, of many layers on a narrow picture
there = {layers.BACKGROUND, layers.HELD_BACK, layers.UNDRAWN, *(layers.SPRITE + n for n in range(0, 64, 3))}
for scale in (1, 2):
    zoom = lettering.zoom_of(scale)
    picture = lettering.with_legend(pictures.Picture(160, 8, bytes(3 * 160 * 8)), there, scale)
    found = {}
    for y in range(9, picture.height):
        for x in range(picture.width):
            text = read(picture, x, y, zoom)
            at = x - 3 - zoom * lettering.HIGH
            if text:
                found.setdefault(text, set()).add(tuple(pixel(picture, at, y)))
    for layer in there - set(layers.NAMES):
        if layers.COLOURS[layer] not in found.get(str(layer - layers.SPRITE), ()):
            wrong(f"the legend has no sprite {layer - layers.SPRITE}")
    for word in ("HELD", "NOT", "BACKGROUND", "SPRITE"):
        if word not in found:
            wrong(f"the legend has no {word}")
    told += len(there)
print(f"{told:,} numbers and names")
