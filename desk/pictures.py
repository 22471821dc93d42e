"""Pictures: red, green and blue of each pixel, and what is done with them."""
import errors

GRID, GAP, MARK = bytes([128, 128, 128]), bytes([64, 64, 64]), bytes([255, 0, 255])
TILE = 8
MOST = 64_000_000  # pixels of a file


class Picture:
    def __init__(self, width, height, data):
        self.width, self.height, self.data = width, height, bytes(data)

    def row(self, y):
        return self.data[3 * self.width * y : 3 * self.width * (y + 1)]


def of_pixels(size, pixels):
    """Of four bytes a pixel."""
    data = bytearray(3 * len(pixels) // 4)
    for part in range(3):
        data[part::3] = pixels[part::4]
    return Picture(*size, data)


def of_layers(size, owners, colours):
    """Each pixel in the colour of the layer that owns it."""
    tables = [bytearray(256) for _ in range(3)]
    for layer, colour in colours.items():
        for part in range(3):
            tables[part][layer] = colour[part]
    data = bytearray(3 * len(owners))
    for part in range(3):
        data[part::3] = owners.translate(bytes(tables[part]))
    return Picture(*size, data)


def fits(picture, count, scale):
    """So many pictures of this one's size are not too large for a file, told before they are made."""
    width, height = picture.width * scale, picture.height * scale
    if count * width * height > MOST:
        what = f"a picture of {width:,} x {height:,} is" if count == 1 else f"{count:,} pictures of {width:,} x {height:,} are"
        raise errors.Bad(f"desk: {what} too large: a smaller --scale, or one --frame")


def scaled(picture, scale, grid=False):
    """Each pixel drawn `scale` times across and down; with a grid, a line between any two tiles."""
    fits(picture, 1, scale)
    rows = []
    for y in range(picture.height):
        row = picture.row(y)
        wide = bytearray(3 * picture.width * scale)
        for k in range(scale):
            for part in range(3):
                wide[3 * k + part :: 3 * scale] = row[part::3]
        if grid:
            piece = 3 * TILE * scale
            wide = GRID.join(wide[at : at + piece] for at in range(0, len(wide), piece))
            if y and y % TILE == 0:
                rows.append(GRID * (len(wide) // 3))
        rows += [bytes(wide)] * scale
    return Picture(len(rows[0]) // 3, len(rows), b"".join(rows))


def sheet(pictures, across=None):
    """Pictures of one size side by side, a gap between any two."""
    if len(pictures) == 1:
        return pictures[0]
    across = across or min(len(pictures), max(2, round(len(pictures) ** 0.5)))
    gap, width, height = 4, pictures[0].width, pictures[0].height
    rows = []
    for first in range(0, len(pictures), across):
        line = pictures[first : first + across]
        if rows:
            rows += [GAP * (across * (width + gap) - gap)] * gap
        for y in range(height):
            row = (GAP * gap).join(picture.row(y) for picture in line)
            rows.append(row.ljust(3 * (across * (width + gap) - gap), b"\x40"))
    return Picture(len(rows[0]) // 3, len(rows), b"".join(rows))


def differing(one, other):
    """The places where two pictures of one size differ, row by row."""
    found = []
    for y in range(one.height):
        a, b = one.row(y), other.row(y)
        if a != b:
            found += [(y, x) for x in range(one.width) if a[3 * x : 3 * x + 3] != b[3 * x : 3 * x + 3]]
    return found


def marked(picture, places):
    """The picture, darkened, with these places marked."""
    data = bytearray(value // 3 for value in picture.data)
    for y, x in places:
        at = 3 * (y * picture.width + x)
        data[at : at + 3] = MARK
    return Picture(picture.width, picture.height, data)
