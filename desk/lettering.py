"""Small letters and what is written with them around a picture: rulers beside it, and a legend below it."""
import layers
from pictures import GAP, Picture

BACK, INK, TICK = bytes([24, 24, 24]), bytes([224, 224, 224]), bytes([128, 128, 128])
WIDE, HIGH = 4, 5  # of a letter, with the space behind it
FONT = {
    "0": "111101101101111", "1": "010110010010111", "2": "111001111100111", "3": "111001111001111", "4": "101101111001001",
    "5": "111100111001111", "6": "111100111101111", "7": "111001001001001", "8": "111101111101111", "9": "111101111001111",
    "A": "010101111101101", "B": "110101110101110", "C": "011100100100011", "D": "110101101101110", "E": "111100110100111",
    "F": "111100110100100", "G": "011100101101011", "H": "101101111101101", "I": "111010010010111", "K": "101101110101101",
    "L": "100100100100111", "N": "111101101101101", "O": "010101101101010", "P": "110101110100100", "R": "110101110101101",
    "S": "011100010001110", "T": "111010010010010", "U": "101101101101111", "W": "101101111111101", " ": "000000000000000",
}


class Sheet:
    """A picture to write on."""

    def __init__(self, width, height, colour=BACK):
        self.width, self.height, self.data = width, height, bytearray(colour * (width * height))

    def box(self, x, y, width, height, colour):
        for row in range(max(y, 0), min(y + height, self.height)):
            at = 3 * (row * self.width + x)
            self.data[at : at + 3 * width] = colour * width

    def write(self, x, y, text, zoom):
        for k, letter in enumerate(str(text)):
            for bit, on in enumerate(FONT[letter]):
                if on == "1":
                    self.box(x + zoom * (WIDE * k + bit % 3), y + zoom * (bit // 3), zoom, zoom, INK)

    def paste(self, picture, x, y):
        for row in range(picture.height):
            at = 3 * ((y + row) * self.width + x)
            self.data[at : at + 3 * picture.width] = picture.row(row)

    def picture(self):
        return Picture(self.width, self.height, self.data)


def zoom_of(scale):
    return min(scale, 2)


def margins(scale):
    """How much rulers add to a picture: left, top, right, bottom."""
    zoom = zoom_of(scale)
    side = zoom * WIDE * 4 + 3
    return side, zoom * (2 * HIGH + 4) + 3, side, zoom


def ruled(picture, screen, scale, grid):
    """A picture, scaled and with a grid or without, between rulers: on the left its rows, on the right what the line counter reads when each is drawn, above
    it the columns; where nothing is written stands a mark alone."""
    zoom, (left, top, right, bottom) = zoom_of(scale), margins(scale)
    sheet = Sheet(left + picture.width + right, top + picture.height + bottom)
    sheet.paste(picture, left, top)
    sheet.write(1, zoom, "ROW", zoom)
    sheet.write(left + picture.width + 3, zoom, "LINE", zoom)

    def place(number):
        return number * scale + (number // 8 if grid else 0)

    for row in range(0, screen.rows, 8):
        y = top + place(row)
        sheet.box(left - 2, y, 2, 1, TICK)
        sheet.box(left + picture.width, y, 2, 1, TICK)
        sheet.write(left - 3 - zoom * WIDE * len(str(row)), y, row, zoom)
        sheet.write(left + picture.width + 3, y, screen.first_line + row, zoom)
    step = next(step for step in (8, 16, 32, 64) if step * scale > zoom * WIDE * 3)
    for column in range(0, screen.columns, 8):
        x = left + place(column)
        sheet.box(x, top - 2, 1, 2, TICK)
        if column % step == 0:
            sheet.write(x, top - 3 - zoom * HIGH, column, zoom)
    return sheet.picture()


def with_legend(picture, there, scale):
    """A picture with the colours of these layers named below it."""
    zoom, gap = zoom_of(scale), 3
    # what is written, each with its colour; sprites by their numbers, behind the word
    items = [(layers.NAMES[layer].upper(), layers.COLOURS[layer]) for layer in sorted(there) if layer in layers.NAMES]
    sprites = sorted(layer - layers.SPRITE for layer in there if layer not in layers.NAMES)
    items += [("SPRITE", None)] * bool(sprites) + [(str(n), layers.COLOURS[layers.SPRITE + n]) for n in sprites]
    swatch, line = zoom * HIGH, zoom * HIGH + 2 * gap
    width = max(picture.width, zoom * WIDE * 10 + swatch + 3 * gap)
    places, x, y = [], gap, gap
    for text, colour in items:
        long = zoom * WIDE * len(text) + gap + (swatch + gap if colour else 0)
        if x + long > width and x > gap:
            x, y = gap, y + line
        places.append((x, y))
        x += long
    sheet = Sheet(width, picture.height + y + line)
    sheet.paste(picture, 0, 0)
    sheet.box(0, picture.height, width, 1, GAP)
    for (text, colour), (x, y) in zip(items, places):
        if colour:
            sheet.box(x, picture.height + y, swatch, swatch, bytes(colour))
        sheet.write(x + (swatch + gap if colour else 0), picture.height + y, text, zoom)
    return sheet.picture()
