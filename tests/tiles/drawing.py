#!/usr/bin/env python3
"""drawing.py > DRAWING.ppm: a drawing of 128 x 128 pixels, 256 tiles and 16 colours, for the way from a picture to tiles and back to a picture."""
import sys

SIZE = 128
SKY = [(0, 0, 68), (17, 17, 102), (34, 51, 136), (68, 85, 170), (119, 136, 204), (187, 187, 221)]  # from the top down
SUN, GLOW, SNOW, ROCK, SHADE = (255, 221, 119), (255, 170, 85), (238, 238, 255), (102, 102, 119), (68, 68, 85)
WATER, DEEP, PINE, TRUNK, LIGHT = (51, 119, 170), (34, 85, 136), (17, 85, 51), (85, 51, 17), (255, 255, 255)


def peak(x):
    """The top of the mountains in column x: three slopes, the highest of them."""
    return min(50 + abs(x - 40) * 3 // 4, 38 + abs(x - 84), 62 + abs(x - 118) // 2)


def pine(x, y, left, foot):
    """Whether a pine that stands at this place covers the pixel: 1 its branches, 2 its trunk."""
    if foot <= y < foot + 4:
        return 2 if abs(x - left) < 2 else 0
    return 1 if foot - 26 <= y < foot and abs(x - left) <= (y - foot + 27) % 9 // 2 + (y - foot + 27) // 9 * 2 else 0


def pixel(x, y):
    for left, foot in ((16, 112), (34, 118), (103, 114), (118, 108)):
        part = pine(x, y, left, foot)
        if part:
            return (PINE, TRUNK)[part - 1]
    if y >= 88:  # the lake: the sun's light on it, and waves
        if abs(x - 100) < 3 + (y - 88) // 6 and (x * 5 + y * 3) % 7 < 3:
            return LIGHT
        return DEEP if (x + 3 * y) % 16 < 5 + (y - 88) // 5 else WATER
    top = peak(x)
    if y >= top:
        if y < top + 7 - (x * 7 % 5):
            return SNOW
        return SHADE if (x - y) % 11 < 4 + (y - top) // 12 else ROCK
    away = (x - 100) ** 2 + (y - 26) ** 2
    if away < 100:
        return SUN
    if away < 196 and (x + y) % 2:
        return GLOW
    band = y * 6 // 60
    return SKY[min(band + ((x + y) % 2 if y % 10 > 6 else 0), 5)]


sys.stdout.buffer.write(b"P6\n%d %d\n255\n" % (SIZE, SIZE) + b"".join(bytes(pixel(x, y)) for y in range(SIZE) for x in range(SIZE)))
