#!/usr/bin/env python3
"""pngs.py FOLDER: the same two tiles as PNGs of every kind, depth and filter: a script for each makes them the codes that the library then reads. And
damaged ones, which are told by line and column. The files are packed here by a writing of its own, not by the desk's."""
import contextlib
import ctypes
import io
import pathlib
import random
import struct
import sys
import zlib

sys.path.insert(0, str(pathlib.Path(__file__).resolve().parents[2] / "desk"))
import arguments  # noqa: E402
import language  # noqa: E402
import library  # noqa: E402
import play  # noqa: E402
import records  # noqa: E402

folder = pathlib.Path(sys.argv[1])
folder.mkdir(parents=True, exist_ok=True)
pick = random.Random(7)
WIDTH, HEIGHT = 16, 8
CODES = [pick.randrange(16) for _ in range(WIDTH * HEIGHT)]
# colour n of the device, and of the picture
COLOURS = [(17 * n, 17 * (15 - n), 17 * (n * 7 % 16)) for n in range(16)]
GREYS = [17 * n for n in range(16)]


def chunk(name, data):
    return struct.pack(">I", len(data)) + name + data + struct.pack(">I", zlib.crc32(name + data))


def packed(values, depth):
    """The samples of a row as bytes."""
    if depth == 16:
        return b"".join(struct.pack(">H", value * 257) for value in values)
    bits = "".join(f"{value:0{depth}b}" for value in values)
    bits += "0" * (-len(bits) % 8)
    return bytes(int(bits[i : i + 8], 2) for i in range(0, len(bits), 8))


def filtered(rows, step, way):
    out, above = b"", bytes(len(rows[0]))
    for row in rows:
        line = []
        for i, value in enumerate(row):
            a, b, c = (row[i - step] if i >= step else 0), above[i], (above[i - step] if i >= step else 0)
            p = a + b - c
            near = sorted((abs(p - v), order, v) for order, v in enumerate((a, b, c)))[0][2]
            line.append((value - (0, a, b, (a + b) // 2, near)[way]) % 256)
        out += bytes([way]) + bytes(line)
        above = row
    return out


def png(kind, depth, rows, way, extra=b"", laced=0, size=(WIDTH, HEIGHT)):
    samples = {0: 1, 2: 3, 3: 1, 4: 2, 6: 4}[kind]
    raw = filtered([packed(row, depth) for row in rows], max(1, samples * depth // 8), way)
    pixels = zlib.compress(raw)
    return (b"\x89PNG\r\n\x1a\n" + chunk(b"IHDR", struct.pack(">IIBBBBB", *size, depth, kind, 0, 0, laced)) + extra
            + chunk(b"IDAT", pixels[:20]) + chunk(b"IDAT", pixels[20:]) + chunk(b"IEND", b""))


def rows_of(samples):
    """Each code as these samples, in rows."""
    return [[value for code in CODES[y * WIDTH : (y + 1) * WIDTH] for value in samples(code)] for y in range(HEIGHT)]


def codes_after(trace, count):
    """The codes that the library reads in so many tiles, from 0 on, after a trace."""
    vram, lent, found = play.Run(records.Trace(trace, "trace"), 1).device.vram, library.Buffer(64), b""
    read = library.opened().vdp_read_tile
    read.argtypes = [ctypes.c_void_p, ctypes.c_size_t, ctypes.c_uint16, ctypes.c_void_p, ctypes.c_size_t]
    for tile in range(count):
        assert read(*vram.slice, tile, *lent.slice) == 0
        found += bytes(lent.bytes)
    return list(found)


def case(name, data, script, codes):
    """This file, by this script, becomes tiles of these codes."""
    global cases
    (folder / f"{name}.png").write_bytes(data)
    found = codes_after(language.made(script, name, folder, 1).trace, len(codes) // 64)
    if found != codes:
        sys.exit(f"{name}: the codes are {found}, not {codes}")
    cases += 1


def damaged(name, data, error, words=""):
    """This file is told by what is wrong with it, and nothing is written."""
    global cases
    (folder / f"{name}.png").write_bytes(data)
    script, trace, said = folder / f"{name}.desk", folder / f"{name}.trace", io.StringIO()
    script.write_text(f"# what is wrong is in line 2\n  tile 0 = {name}.png{words}\n")
    with contextlib.redirect_stderr(said):
        status = arguments.called(["make", str(script), "-o", str(trace)])
    wanted = f"{script}:2:12: {folder}/{name}.png: {error}\n"
    if (status, said.getvalue(), trace.exists()) != (1, wanted, False):
        sys.exit(f"{name}: status {status}, and it says {said.getvalue()}not {wanted}")
    cases += 1


def tiled(codes):
    """In the order of a sheet: tile by tile."""
    return [codes[y * WIDTH + x + left] for left in range(0, WIDTH, 8) for y in range(8) for x in range(8)]


def colours(values, first=0):
    return f"colour {first} = " + " ".join(f"{g // 17:X}{r // 17:X} 0{b // 17:X}" for r, g, b in values) + "\n"


cases = 0
plte = chunk(b"PLTE", b"".join(map(bytes, COLOURS)))
device, greys = colours(COLOURS), colours([(g, g, g) for g in GREYS])
for way in range(5):
    case(f"palette-8-{way}", png(3, 8, rows_of(lambda c: [c]), way, plte), f"tile 0 = palette-8-{way}.png\n", tiled(CODES))
    case(f"colour-8-{way}", png(2, 8, rows_of(lambda c: COLOURS[c]), way), device + f"tile 0 = colour-8-{way}.png\n", tiled(CODES))
case("palette-4", png(3, 4, rows_of(lambda c: [c]), 0, plte), "tile 0 = palette-4.png\n", tiled(CODES))
case("palette-2", png(3, 2, rows_of(lambda c: [c % 4]), 2, plte), "tile 0 = palette-2.png\n", tiled([c % 4 for c in CODES]))
case("palette-1", png(3, 1, rows_of(lambda c: [c % 2]), 1, plte), "tile 0 = palette-1.png\n", tiled([c % 2 for c in CODES]))
case("grey-8", png(0, 8, rows_of(lambda c: [GREYS[c]]), 4), greys + "tile 0 = grey-8.png\n", tiled(CODES))
case("grey-4", png(0, 4, rows_of(lambda c: [c]), 0), greys + "tile 0 = grey-4.png\n", tiled(CODES))
case("grey-2", png(0, 2, rows_of(lambda c: [c % 4]), 0), greys + "tile 0 = grey-2.png\n", tiled([c % 4 * 5 for c in CODES]))
case("grey-1", png(0, 1, rows_of(lambda c: [c % 2]), 0), greys + "tile 0 = grey-1.png\n", tiled([c % 2 * 15 for c in CODES]))
case("grey-16", png(0, 16, rows_of(lambda c: [GREYS[c]]), 3), greys + "tile 0 = grey-16.png\n", tiled(CODES))
case("grey-alpha-8", png(4, 8, rows_of(lambda c: [GREYS[c], 255]), 4), greys + "tile 0 = grey-alpha-8.png\n", tiled(CODES))
case("colour-16", png(2, 16, rows_of(lambda c: COLOURS[c]), 4), device + "tile 0 = colour-16.png\n", tiled(CODES))
# what cannot be seen is code 0, whatever its colour
case("colour-alpha-8", png(6, 8, rows_of(lambda c: (*COLOURS[c], 255) if c > 4 else (9, 9, 9, 0)), 3), device + "tile 0 = colour-alpha-8.png\n", tiled([c if c > 4 else 0 for c in CODES]))
# by the colours of palette 1; near ones count by their upper four bits
case("palette-one", png(2, 8, rows_of(lambda c: [v // 17 * 16 + 3 for v in COLOURS[c]]), 1), colours(COLOURS, 16) + 'tile 0 = "palette-one.png" palette1\n', tiled(CODES))
# of two colours that are the same the first counts
case("twice", png(2, 8, rows_of(lambda c: COLOURS[c % 8]), 1), colours(COLOURS[:8] * 2) + "tile 0 = twice.png\n", tiled([c % 8 for c in CODES]))
# one tile of a sheet
case("one-of-two", png(3, 8, rows_of(lambda c: [c]), 0, plte), "tile 0 = one-of-two.png 1\n", tiled(CODES)[64:])
# `palette` takes the picture's colours, by its palette or as they are met
case("own-palette", png(3, 8, rows_of(lambda c: [c]), 0, plte), "palette 0 = own-palette.png\ntile 0 = own-palette.png\n", tiled(CODES))
# with pixels that cannot be seen, code 0 is theirs alone: the first colour that is seen has code 1
seen = list(dict.fromkeys(c for c in CODES if c > 3))
case("own-clear", png(6, 8, rows_of(lambda c: (*COLOURS[c], 255) if c > 3 else (9, 9, 9, 0)), 0), "palette 1 = own-clear.png\ntile 0 = own-clear.png palette1\n",
     tiled([seen.index(c) + 1 if c > 3 else 0 for c in CODES]))
case("black", png(6, 8, rows_of(lambda c: (0, 0, 0, 255 * (c > 7))), 0), "palette 1 = black.png\ntile 0 = black.png palette1\n", tiled([int(c > 7) for c in CODES]))
case("own-colours", png(2, 8, rows_of(lambda c: COLOURS[c]), 0), "palette 0 = own-colours.png\ntile 0 = own-colours.png\n",
     tiled([list(dict.fromkeys(CODES)).index(c) for c in CODES]))

# tiles column by column in pairs, for sprites 16 high: of 24 x 32 pixels the upper band's three pairs, then the lower one's; and one of them
WIDE, LONG = 24, 32
PIXELS = [pick.randrange(16) for _ in range(WIDE * LONG)]
tall = png(3, 8, [PIXELS[y * WIDE : (y + 1) * WIDE] for y in range(LONG)], 0, plte, size=(WIDE, LONG))
pairs = [[PIXELS[(8 * down + y) * WIDE + 8 * across + x] for y in range(8) for x in range(8)] for band in (0, 2) for across in range(3) for down in (band, band + 1)]
case("tall", tall, "tile 0 = tall.png tall\n", [code for tile in pairs for code in tile])
case("tall-one", tall, "tile 0 = tall-one.png 9 tall\n", pairs[9])
case("not-tall", tall, "tile 0 = not-tall.png 9\n", pairs[7])

# the home machine has two bits each, in one byte: by colours, by near ones of palette 1 that raw writes have set past address 31, and by its own
HOME = [(85 * (n % 4), 85 * (n // 4), 85 * (n * 7 // 3 % 4)) for n in range(16)]
held = " ".join(f"{r // 85 + g // 85 * 4 + b // 85 * 16:02X}" for r, g, b in HOME)
case("home-colour", png(2, 8, rows_of(lambda c: HOME[c]), 0), f"home\ncolour 0 = {held}\ntile 0 = home-colour.png\n", tiled(CODES))
case("home-near", png(2, 8, rows_of(lambda c: [v // 85 * 64 + 50 for v in HOME[c]]), 1), f"home\nwrite BF = B0 C7\nwrite BE = {held}\ntile 0 = home-near.png palette1\n", tiled(CODES))
case("home-own", png(2, 8, rows_of(lambda c: HOME[c]), 2), "home\npalette 1 = home-own.png\ntile 0 = home-own.png palette1\n", tiled([list(dict.fromkeys(CODES)).index(c) for c in CODES]))

good = png(3, 8, rows_of(lambda c: [c]), 0, plte)
for name, data, error, *words in (
    ("none", b"P6\n1 1\n255\n...", "this is no PNG"),
    ("cut", good[:-20], "the PNG is cut short"),
    ("cut-head", good[:20], "the PNG is cut short"),
    ("flipped", good[:60] + bytes([good[60] ^ 1]) + good[61:], "the PNG is damaged: the checksum of its part PLTE"),
    ("laced", png(3, 8, rows_of(lambda c: [c]), 0, plte, 1), "the PNG is interlaced: save it without"),
    ("depth", png(3, 16, rows_of(lambda c: [c]), 0, plte), "the PNG is damaged: kind 3 with 16 bits"),
    ("size", png(3, 8, [row[:12] for row in rows_of(lambda c: [c])], 0, plte, size=(12, 8)), "12 x 8, and both must be multiples of 8"),
    ("tall", png(3, 8, rows_of(lambda c: [c]), 0, plte), "16 x 8, and with `tall` the height must be a multiple of 16", " tall"),
    ("large", good.replace(good[8:33], chunk(b"IHDR", struct.pack(">IIBBBBB", 4096, 4096, 8, 3, 0, 0, 0))), "the PNG is 4096 x 4096: too large, it may have 262,144 pixels"),
    ("nothing", good.replace(good[8:33], chunk(b"IHDR", struct.pack(">IIBBBBB", 0, 8, 8, 3, 0, 0, 0))), "the PNG is 0 x 8: it has no pixel"),
    ("packing", good.replace(good[8:33], chunk(b"IHDR", struct.pack(">IIBBBBB", 16, 8, 8, 3, 1, 0, 0))), "the PNG is damaged: kind 3 with 8 bits"),
    ("third", png(3, 8, rows_of(lambda c: [c]), 0, chunk(b"PLTE", bytes(50))), "the PNG is damaged: its palette has no whole number of colours"),
    ("many", png(3, 8, [[0] * 184] * 184, 0, plte, size=(184, 184)), "529 tiles, and there are 512: behind the file its tile can be named"),
    ("few", png(3, 8, rows_of(lambda c: [c])[:6], 0, plte), "the PNG is damaged: it has too few pixels"),
    ("no-palette", png(3, 8, rows_of(lambda c: [c]), 0), "the PNG is damaged: a pixel has a number that its palette has not"),
    ("seventeen", png(3, 8, rows_of(lambda c: [c + 1]), 0, chunk(b"PLTE", bytes(51))),
     f"the pixel at column {CODES.index(15) % 16}, row {CODES.index(15) // 16} has number 16 of the picture's palette, and a code is at most 15"),
    ("stranger", png(2, 8, rows_of(lambda c: (170, 0, 0)), 0), "the pixel at column 0, row 0 is red 170, green 0, blue 0, and no colour of the device's palette is"),
):
    damaged("bad-" + name, data, error, *words)
print(f"{cases} files")
