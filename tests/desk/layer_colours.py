#!/usr/bin/env python3
"""layer_colours.py: the colours by which the desk shows layers: 64 for sprites and four more, no two the same, and the eye tells them apart: by their distance
in CIELAB those of any two, still more those of sprites whose numbers are at most six apart; and none is near the grey of a grid."""
import itertools
import pathlib
import sys

sys.path.insert(0, str(pathlib.Path(__file__).resolve().parents[2] / "desk"))
import layers  # noqa: E402
import pictures  # noqa: E402

ANY, NEAR, OTHERS, REACH = 20, 40, 30, 6


def lab(colour):
    """L*, a* and b* of an sRGB colour, by the white of D65."""
    linear = [part / 255 / 12.92 if part / 255 <= 0.04045 else ((part / 255 + 0.055) / 1.055) ** 2.4 for part in colour]
    weights = (0.4124, 0.3576, 0.1805, 0.9505), (0.2126, 0.7152, 0.0722, 1.0), (0.0193, 0.1192, 0.9505, 1.089)
    x, y, z = (sum(part * weight for part, weight in zip(linear, row)) / row[3] for row in weights)
    x, y, z = (value ** (1 / 3) if value > 0.008856 else 7.787 * value + 16 / 116 for value in (x, y, z))
    return 116 * y - 16, 500 * (x - y), 200 * (y - z)


def distance(one, other):
    return sum((a - b) ** 2 for a, b in zip(lab(one), lab(other))) ** 0.5


sprites = [layers.COLOURS[layers.SPRITE + n] for n in range(64)]
others = [layers.COLOURS[layer] for layer in layers.NAMES] + [tuple(pictures.GRID)]
if len(layers.COLOURS) != 68 or len(set(layers.COLOURS.values())) != 68:
    sys.exit("not 68 colours")
for (n, one), (m, other) in itertools.combinations(enumerate(sprites), 2):
    if distance(one, other) < (NEAR if m - n <= REACH else ANY):
        sys.exit(f"sprites {n} and {m}: {one} and {other} are {distance(one, other):.0f} apart")
for n, one in enumerate(sprites):
    for other in others:
        if distance(one, other) < OTHERS:
            sys.exit(f"sprite {n}: {one} and {other} are {distance(one, other):.0f} apart")
print("64 colours")
