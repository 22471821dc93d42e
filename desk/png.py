"""PNG files: read into palette numbers or colours, and written as red, green and blue."""
import struct
import zlib

import errors

SIGNATURE = b"\x89PNG\r\n\x1a\n"
GREY, COLOUR, PALETTE, GREY_ALPHA, COLOUR_ALPHA = 0, 2, 3, 4, 6
SAMPLES = {GREY: 1, COLOUR: 3, PALETTE: 1, GREY_ALPHA: 2, COLOUR_ALPHA: 4}
DEPTHS = {GREY: (1, 2, 4, 8, 16), COLOUR: (8, 16), PALETTE: (1, 2, 4, 8), GREY_ALPHA: (8, 16), COLOUR_ALPHA: (8, 16)}
LARGEST = 1 << 18  # pixels of a picture that becomes tiles: 4,096 of them


class Image:
    """Pixels row by row. With a palette each is a number in it; without one, red, green, blue and alpha."""

    def __init__(self, width, height, pixels, palette=None):
        self.width, self.height, self.pixels, self.palette = width, height, pixels, palette

    def clear(self):
        """Whether one of its pixels cannot be seen at all, of those that have an alpha: 1 or 0."""
        return int(self.palette is None and any(pixel[3] == 0 for pixel in self.pixels))

    def colours(self):
        """Every pixel as red, green and blue."""
        if self.palette is None:
            return [pixel[:3] for pixel in self.pixels]
        return [self.palette[pixel] for pixel in self.pixels]


def chunk(name, data):
    return struct.pack(">I", len(data)) + name + data + struct.pack(">I", zlib.crc32(name + data))


def written(width, height, pixels):
    """The file of so many pixels of three bytes."""
    line = 3 * width
    rows = b"".join(b"\0" + pixels[y * line : (y + 1) * line] for y in range(height))  # 0: no filter
    head = struct.pack(">IIBBBBB", width, height, 8, COLOUR, 0, 0, 0)
    return SIGNATURE + chunk(b"IHDR", head) + chunk(b"IDAT", zlib.compress(rows, 9)) + chunk(b"IEND", b"")


def chunks_of(data):
    """The chunks of a file by name, up to its end; those of one name joined."""
    if not data.startswith(SIGNATURE):
        raise errors.Bad("this is no PNG")
    at, chunks = len(SIGNATURE), {}
    while b"IEND" not in chunks:
        if at + 12 > len(data):
            raise errors.Bad("the PNG is cut short")
        length, name = struct.unpack(">I4s", data[at : at + 8])
        body = data[at + 8 : at + 8 + length]
        if at + 12 + length > len(data):
            raise errors.Bad("the PNG is cut short")
        if struct.unpack(">I", data[at + 8 + length : at + 12 + length])[0] != zlib.crc32(name + body):
            raise errors.Bad(f"the PNG is damaged: the checksum of its part {name.decode('latin-1')}")
        chunks[name] = chunks.get(name, b"") + body
        at += 12 + length
    return chunks


def unfiltered(raw, height, line, step):
    """The rows without the filters that the PNG paper has: none, left, up, the mean of both, the nearest of three."""
    rows, above = [], bytes(line)
    for y in range(height):
        way, row = raw[y * (line + 1)], bytearray(raw[y * (line + 1) + 1 : (y + 1) * (line + 1)])
        if way > 4:
            raise errors.Bad(f"the PNG is damaged: row {y} has filter {way}")
        for i in range(line) if way else ():
            left, up, corner = (row[i - step], above[i], above[i - step]) if i >= step else (0, above[i], 0)
            near = left + up - corner
            nearest = min((left, up, corner), key=lambda value: abs(near - value))
            row[i] = (row[i] + (0, left, up, (left + up) // 2, nearest)[way]) % 256
        rows.append(bytes(row))
        above = row
    return rows


def samples(row, depth, count):
    """The samples of a row, of 1, 2, 4, 8 or 16 bits; of 16 the upper 8."""
    if depth == 16:
        return list(row[0 : 2 * count : 2])
    if depth == 8:
        return list(row[:count])
    each = 8 // depth
    return [row[i // each] >> (8 - depth * (i % each + 1)) & (1 << depth) - 1 for i in range(count)]


def read(data, most=LARGEST):
    """The image of a file's bytes, of so many pixels at most. Not interlaced; grey, colours or a palette, with alpha or without."""
    chunks = chunks_of(data)
    if len(chunks.get(b"IHDR", b"")) != 13:
        raise errors.Bad("the PNG is damaged: it has no head")
    width, height, depth, kind, packing, filters, laced = struct.unpack(">IIBBBBB", chunks[b"IHDR"])
    if depth not in DEPTHS.get(kind, ()) or packing or filters:
        raise errors.Bad(f"the PNG is damaged: kind {kind} with {depth} bits")
    if laced:
        raise errors.Bad("the PNG is interlaced: save it without")
    if not 0 < width * height <= most:
        raise errors.Bad(f"the PNG is {width} x {height}: {f'too large, it may have {most:,} pixels' if width * height else 'it has no pixel'}")
    count = SAMPLES[kind]
    line, step = (width * count * depth + 7) // 8, max(1, count * depth // 8)
    wanted = height * (line + 1)
    try:
        raw = zlib.decompressobj().decompress(chunks.get(b"IDAT", b""), wanted)  # no more than that: a small file can unpack to a very large one
    except zlib.error:
        raise errors.Bad("the PNG is damaged: its pixels cannot be unpacked")
    if len(raw) < wanted:
        raise errors.Bad("the PNG is damaged: it has too few pixels")
    pixels = []
    for row in unfiltered(raw, height, line, step):
        values = samples(row, depth, width * count)
        if kind == PALETTE:
            pixels += values
            continue
        if depth < 8:
            values = [value * 255 // ((1 << depth) - 1) for value in values]
        if kind in (GREY, GREY_ALPHA):
            alphas = values[1::2] if kind == GREY_ALPHA else [255] * width
            pixels += [(grey, grey, grey, alpha) for grey, alpha in zip(values[::count], alphas)]
        else:
            alphas = values[3::4] if kind == COLOUR_ALPHA else [255] * width
            pixels += list(zip(values[0::count], values[1::count], values[2::count], alphas))
    if kind != PALETTE:
        return Image(width, height, pixels)
    stored = chunks.get(b"PLTE", b"")
    if len(stored) % 3:
        raise errors.Bad("the PNG is damaged: its palette has no whole number of colours")
    palette = [tuple(stored[i : i + 3]) for i in range(0, len(stored), 3)]
    if max(pixels) >= len(palette):
        raise errors.Bad("the PNG is damaged: a pixel has a number that its palette has not")
    return Image(width, height, pixels, palette)
