#!/usr/bin/env python3
"""wrong_scripts.py FOLDER: of every wrong script `desk make` says what is wrong, by line and column, with its status, and writes nothing."""
import contextlib
import io
import pathlib
import sys

sys.path.insert(0, str(pathlib.Path(__file__).resolve().parents[2] / "desk"))
import arguments  # noqa: E402
import language  # noqa: E402
import library  # noqa: E402

folder = pathlib.Path(sys.argv[1])
folder.mkdir(parents=True, exist_ok=True)
none = len(library.areas())  # the first number that is no area's
EVERY = ", ".join(language.STATEMENTS)
# smaller than they are, so that they are met soon
language.MOST_TRACE, language.MOST_STATEMENTS = 1 << 18, 10_000

# a script, and what is said of it: line, column, words
CASES = [
    ("foo 1\n", (1, 1, f"`foo` is no statement: {EVERY}")),
    ("\n# fine\n   Reg 1 = 40 # no capitals\n", (3, 4, f"`Reg` is no statement: {EVERY}")),
    ('"reg" 1 = 40\n', (1, 1, f"`reg` is no statement: {EVERY}")),
    ('tile 5 = "art.png\n', (1, 10, "a quotation mark without its second")),
    ("= 5\n", (1, 1, f"`=` is no statement: {EVERY}")),
    # reg
    ("reg\n", (1, 4, "the line ends too early: the register is missing")),
    ("reg 11 = 40\n", (1, 5, "`11`: the register is a number from 0 to 10")),
    ("reg -1 = 40\n", (1, 5, "`-1`: the register is a number from 0 to 10")),
    ("reg 1\n", (1, 6, "the line ends too early: `=` is missing")),
    ("reg 1 40\n", (1, 7, "`40` where `=` should be")),
    ("reg 1 =   # nothing\n", (1, 8, "the line ends too early: its byte is missing")),
    ("reg 1 = 1G\n", (1, 9, "`1G`: its byte is hexadecimal, 00 to FF")),
    ("reg 1 = 100\n", (1, 9, "`100`: its byte is hexadecimal, 00 to FF")),
    ("reg 1 = 40 41\n", (1, 12, "`41`: nothing more is taken here")),
    # colour and palette
    ("colour 32 = 00 00\n", (1, 8, "`32`: the colour is a number from 0 to 31")),
    ("colour 3 = 0F\n", (1, 14, "a colour has two bytes: green and red, then blue")),
    ("color 3 = 0F 00 00\n", (1, 19, "a colour has two bytes: green and red, then blue")),
    ("colour 31 = 0F 00 0F 00\n", (1, 13, "2 colours from 31 on: there are 32")),
    ("palette 2 = art.png\n", (1, 9, "`2`: the palette is a number from 0 to 1")),
    ("palette 0 = none.png\n", (1, 13, f"{folder}/none.png: No such file or directory"), 2),
    # vram
    ("vram 4000 = 00\n", (1, 6, "`4000`: the address is hexadecimal, 0000 to 3FFF")),
    ("vram -1 = 00\n", (1, 6, "`-1`: the address is hexadecimal, 0000 to 3FFF")),
    ("vram 2000 = \n", (1, 12, "the line ends too early: a byte is missing")),
    ("vram 3FFF = 00 11\n", (1, 13, "2 bytes from 3FFF on go past the end of video memory, 3FFF")),
    ("vram 0 = FF times 16385\n", (1, 10, "16,385 bytes from 0000 on go past the end of video memory, 3FFF")),
    ("vram 0 = FF times 0\n", (1, 19, "`0`: how many times is a number from 1 to 65,536")),
    ("vram 0 = FF times\n", (1, 18, "the line ends too early: how many times is missing")),
    ("vram 0 = FF times 2 3\n", (1, 21, "`3`: nothing more is taken here")),
    ('vram 0 = "FF"\n', (1, 10, "`FF`: a byte is hexadecimal, 00 to FF")),
    # tile
    ("tile 512 = 00000000 times 8\n", (1, 6, "`512`: the tile is a number from 0 to 511")),
    ("tile 5 =\n", (1, 9, "the line ends too early: a PNG file, or eight words of eight codes is missing")),
    ("tile 5 = 00000000\n", (1, 18, "a tile has 8 rows, and here are 1")),
    ("tile 5 = 00000000 times 9\n", (1, 26, "a tile has 8 rows, and here are 9")),
    ("tile 5 = 1111111\n", (1, 10, "`1111111`: a row of a tile is eight codes, 0 to F, and here are 7")),
    ("tile 5 = 1111111G\n", (1, 10, "`1111111G`: a row of a tile is eight codes, 0 to F; and no file has this name")),
    ("tile 5 = 00000000 111111111\n", (1, 19, "`111111111`: a row of a tile is eight codes, 0 to F, and here are 9")),
    ("tile 5 = 00000000 0000000G\n", (1, 19, "`0000000G`: a row of a tile is eight codes, 0 to F")),
    ("tile 5 = none.png\n", (1, 10, f"{folder}/none.png: No such file or directory"), 2),
    ('tile 5 = "a name with spaces.png"\n', (1, 10, f"{folder}/a name with spaces.png: No such file or directory"), 2),
    ("tile 5 = .\n", (1, 10, f"{folder}/.: Is a directory"), 2),
    # map
    ("map 32 0 = 1\n", (1, 5, "`32`: the map's column is a number from 0 to 31")),
    ("map 0 28 = 1\n", (1, 7, "`28`: the map's row is a number from 0 to 27")),
    ("map 0 0 = 512\n", (1, 11, "`512`: the tile is a number from 0 to 511")),
    ("map 0 0 = 5 sideways\n", (1, 13, "`sideways`: behind the tile stand across, down, palette1, priority or `times`")),
    ("map screen 20 0 = 1\n", (1, 12, "`20`: by tiles, the screen's column is a number from 0 to 19")),
    ("map screen 0 18 = 1\n", (1, 14, "`18`: by tiles, the screen's row is a number from 0 to 17")),
    ("map screen 0 0 = 1 times 361\n", (1, 18, "361 entries from column 0, row 0 on go past the end of the screen")),
    ("map 31 27 = 5 times 2\n", (1, 13, "2 entries from column 31, row 27 on go past the end of the map")),
    # sprite
    ("sprite 64 = 0 0 0\n", (1, 8, "`64`: the sprite is a number from 0 to 63")),
    ("sprite 3 = 208 0 0\n", (1, 12, "`208`: its column is a number from -48 to 207")),
    ("sprite 3 = 0 232 0\n", (1, 14, "`232`: its row is a number from -24 to 231")),
    ("reg 0 = 08\nsprite 3 = 200 0 0\n", (2, 12, "`200`: its column is a number from -56 to 199")),
    ("area 1\nsprite 3 = -1 0 0\n", (2, 12, "`-1`: its column is a number from 0 to 255")),
    ("sprite 3 = 0 0 256\n", (1, 16, "`256`: its tile is a number from 0 to 255")),
    ("sprite 3 = 0 185 0\n", (1, 14, "row 185 makes the Y byte D0, which ends the list of sprites: `sprite 3 end` says so")),
    ("sprite 3 end 4\n", (1, 14, "`4`: nothing more is taken here")),
    # steps, reads and writes
    ("steps\n", (1, 6, "the line ends too early: how many steps is missing")),
    ("steps 0\n", (1, 7, "`0`: how many steps is a number from 1 to 1,000,000")),
    ("steps 5A\n", (1, 7, "`5A`: how many steps is a number from 1 to 1,000,000")),
    ("until 90\n", (1, 7, "`90` where `line`, `row` or `interrupt` should be")),
    ("until row 144\n", (1, 11, "`144`: the row is a number from 0 to 143")),
    ("until interrupt\n", (1, 7, "no interrupt comes in two passes: bit 4 of register 0 turns on those of lines, bit 5 of register 1 that of the screen's end")),
    # blocks, labels and other scripts
    ("repeat 2\nsteps 1\n", (1, 1, "a `repeat` without its `end`")),
    ("steps 1\nend\n", (2, 1, "an `end` without its `repeat`")),
    ("repeat 0\nend\n", (1, 8, "`0`: how many times is a number from 1 to 100,000")),
    ("repeat 5\n  foo\nend\n", (2, 3, f"`foo` is no statement: {EVERY}")),
    ("repeat 2\nsteps 1\nlast: end\n", (3, 7, "`end` takes no label: the one of its `repeat` names the block")),
    ("change:\n", (1, 8, "a label alone: behind it stands the statement that it names")),
    ("repeat 100000\nrepeat 100000\narea 0\nend\nend\n", (3, 1, "more than 10,000 statements")),
    ("repeat 100000\npass\nend\n", (2, 1, "the trace becomes longer than 262,144 bytes")),
    ("repeat 1\n" * 9 + "end\n" * 9, (9, 1, "more than 8 blocks in one another")),
    ("include none.desk\n", (1, 9, f"{folder}/none.desk: No such file or directory"), 2),
    ("include\n", (1, 8, "the line ends too early: a script is missing")),
    ("until line 256\n", (1, 12, "`256`: the line is a number from 0 to 255")),
    ("pass 2\n", (1, 6, "`2`: nothing more is taken here")),
    ("frame 2\n", (1, 7, "`2`: nothing more is taken here")),
    ("frames 0\n", (1, 8, "`0`: how many frames is a number from 1 to 10,000")),
    ("passes 0\n", (1, 8, "`0`: how many passes is a number from 1 to 10,000")),
    ("read 17E\n", (1, 6, "`17E`: the port is hexadecimal, 00 to FF")),
    ("write BF\n", (1, 9, "the line ends too early: `=` is missing")),
    (f"area {none}\n", (1, 6, f"area {none}: the library has no such area")),
    # home
    ("home 1\n", (1, 6, "`1`: nothing more is taken here")),
    ("reg 1 = 40\n  home\ncolour 3 = 3F\n", (2, 3, "`home` stands before all other statements")),
    ("home\nhome\n", (2, 1, "`home` stands before all other statements")),
    ("home\ncolour 32 = 00\n", (2, 8, "`32`: the colour is a number from 0 to 31")),
    ("home\ncolour 31 = 00 01\n", (2, 13, "2 colours from 31 on: there are 32")),
    ("home\nsprite 3 = -1 0 0\n", (2, 12, "`-1`: its column is a number from 0 to 255")),
    ("home\nsprite 3 = 0 209 0\n", (2, 14, "row 209 makes the Y byte D0, which ends the list of sprites: `sprite 3 end` says so")),
    ("home\narea 0\n", (2, 1, "the home machine has one picture, and no areas")),
    # a command byte that waits would take the next line for its second
    ("write BF = 12\nreg 1 = 40\n", (2, 1, "a command byte waits for its second (`write BF`): the chip would take this line for it")),
]
for case in CASES:
    script, (line, column, words), status = (*case, 1)[:3]
    name, trace = folder / "wrong.desk", folder / "wrong.trace"
    name.write_text(script)
    trace.write_bytes(b"as it was")
    out, err = io.StringIO(), io.StringIO()
    with contextlib.redirect_stdout(out), contextlib.redirect_stderr(err):
        got = arguments.called(["make", str(name), "-o", str(trace)])
    wanted = f"{name}:{line}:{column}: {words}\n"
    if (got, out.getvalue(), err.getvalue(), trace.read_bytes()) != (status, "", wanted, b"as it was"):
        sys.exit(f"{script!r}: status {got}, and it says {out.getvalue()}{err.getvalue()}not {wanted}")
    if sorted(path.name for path in folder.iterdir()) != ["wrong.desk", "wrong.trace"]:
        sys.exit(f"{script!r}: it leaves files behind")
print(f"{len(CASES)} wrong scripts")
