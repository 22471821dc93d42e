#!/usr/bin/env python3
"""listed.py: what `desk list` says of statements and of odd port calls, word for word; each listing makes its trace again."""
import pathlib
import sys

sys.path.insert(0, str(pathlib.Path(__file__).resolve().parents[2] / "desk"))
import language  # noqa: E402
import library  # noqa: E402
import listing  # noqa: E402
import records  # noqa: E402

START = "line 0, before any row: "
# a script, and the statements and words of its listing, with --each where the third is True
CASES = [
    ("reg 0 = 18", [("reg 0 = 18", START + "line interrupts on, early clock on")]),
    ("reg 1 = 62", [("reg 1 = 62", START + "display on, frame interrupts on, sprites 16 high")]),
    ("reg 2 = 0C", [("reg 2 = 0C", START + "the map is at 3000")]),
    ("reg 3 = 00", [("reg 3 = 00", START + "no rule reads it")]),
    ("reg 5 = 7D", [("reg 5 = 7D", START + "the table of sprites is at 3E00")]),
    ("reg 6 = 04", [("reg 6 = 04", START + "the tiles of sprites are at 2000: a sprite's tile n is tile n + 256")]),
    ("reg 6 = FB", [("reg 6 = FB", START + "the tiles of sprites are at 0000: a sprite's tile n is tile n")]),
    ("reg 8 = 10", [("reg 8 = 10", START + "the background goes 16 to the right")]),
    ("reg 9 = 10", [("reg 9 = 10", START + "the background goes 16 up, from line 0 of the next pass on")]),
    ("reg 10 = 3B", [("reg 10 = 3B", START + "a line interrupt every 60 lines, where they are on")]),
    ("colour 3 = 8F 02 00 0F", [("colour 3 = 8F 02 00 0F", START + "colours 3 to 4")]),
    ("colour 3 = 8F 02", [("colour 3 = 8F 02", START + "red 255, green 136, blue 34")]),
    # a run, then bytes, then a run: the addresses go on
    ("vram 20 = 00 times 40\nwrite BE = 1 2 3 4 5 6 7 8 9 A B C D E F 10 FF FF", [
        ("vram 0020 = 00 times 40", START + "0020 to 0047: tiles 1 to 2"),
        ("write BE = 01 02 03 04 05 06 07 08 09 0A 0B 0C 0D 0E 0F 10", "0048 to 0057: in tile 2"),
        ("write BE = FF FF", "0058 to 0059: in tile 2")]),
    ("map 1 2 = 300 across priority", [("vram 3882 = 2C 13", START + "3882 to 3883: the map's column 1, row 2: tile 300, across, priority")]),
    ("map 31 2 = 7 times 2", [("vram 38BE = 07 00 07 00", START + "38BE to 38C1: from the map's column 31, row 2 to column 0, row 3")]),
    ("sprite 3 = 20 40 7", [("vram 3F03 = 3F", START + "3F03: sprite 3 from line 64 on, row 40"),
                            ("vram 3F86 = 44 07", START + "3F86 to 3F87: sprite 3: X 68, column 20; its tile 7 is tile 263 at 20E0 (register 6 has bit 2)")]),
    ("reg 6 = FB\nreg 1 = 02\nsprite 3 = 20 40 7", [
        ("reg 6 = FB", START + "the tiles of sprites are at 0000: a sprite's tile n is tile n"), ("reg 1 = 02", START + "display off, frame interrupts off, sprites 16 high"),
        ("vram 3F03 = 3F", START + "3F03: sprite 3 from line 64 on, row 40"),
        ("vram 3F86 = 44 07", START + "3F86 to 3F87: sprite 3: X 68, column 20; its tiles 6 and 7 from tile 6 at 00C0 (register 6 has no bit 2)")]),
    # the early clock: a sprite in column 146 has X 202, and X 208 to 215 are not drawn in area 0, but in area 2
    ("reg 0 = 08\nvram 3F80 = CA 00\nvram 3F80 = D0 00\nvram 3F80 = 30 00\narea 2\nsteps 1\nvram 3F80 = D0 00", [
        ("reg 0 = 08", START + "line interrupts off, early clock on"),
        ("vram 3F80 = CA 00", START + "3F80 to 3F81: sprite 0: X 202, column 146; its tile 0 is tile 256 at 2000 (register 6 has bit 2)"),
        ("vram 3F80 = D0 00", START + "3F80 to 3F81: sprite 0: X 208, column 152, not drawn there; its tile 0 is tile 256 at 2000 (register 6 has bit 2)"),
        ("vram 3F80 = 30 00", START + "3F80 to 3F81: sprite 0: X 48, column -8, not drawn there; its tile 0 is tile 256 at 2000 (register 6 has bit 2)"),
        ("area 2", "steps of area 2 from here on, 160 x 144"), ("steps 1", "line 1 draws no row"),
        ("vram 3F80 = D0 00", "line 1, before any row: 3F80 to 3F81: sprite 0: X 208, column 152; its tile 0 is tile 256 at 2000 (register 6 has bit 2)")]),
    # in area 1 around the circle
    ("area 1\nsteps 1\nreg 0 = 08\nsprite 0 = 252 0 1", [
        ("area 1", "steps of area 1 from here on, 256 x 224"), ("steps 1", "line 1 draws row 1"), ("reg 0 = 08", "line 1, after row 1: line interrupts off, early clock on"),
        ("vram 3F00 = FF", "line 1, after row 1: 3F00: sprite 0 from line 0 on, row 0"),
        ("vram 3F80 = 04 01", "line 1, after row 1: 3F80 to 3F81: sprite 0: X 4, column 252; its tile 1 is tile 257 at 2020 (register 6 has bit 2)")]),
    # rows that no screen has
    ("vram 3F00 = 00\nvram 3F00 = A7\nvram 3F00 = 10\nvram 3F00 = 0F\nreg 1 = 02\nvram 3F00 = 0F", [
        ("vram 3F00 = 00", START + "3F00: sprite 0 from line 1 on, off the screen"), ("vram 3F00 = A7", START + "3F00: sprite 0 from line 168 on, off the screen"),
        ("vram 3F00 = 10", START + "3F00: sprite 0 from line 17 on, row -7"), ("vram 3F00 = 0F", START + "3F00: sprite 0 from line 16 on, off the screen"),
        ("reg 1 = 02", START + "display off, frame interrupts off, sprites 16 high"), ("vram 3F00 = 0F", START + "3F00: sprite 0 from line 16 on, row -8")]),
    ("vram 3F00 = 1 2 D0", [("vram 3F00 = 01 02 D0", START + "3F00 to 3F02: the Y bytes of sprites 0 to 2")]),
    ("vram 3F80 = 1 2 3 4", [("vram 3F80 = 01 02 03 04", START + "3F80 to 3F83: X and tile of sprites 0 to 1")]),
    # an odd palette address, a palette that wraps round, and other ways to say a command: record by record
    ("write BF = 07 C0\nwrite BE = 22", [("write BF = 07", START + "the first byte of a command"), ("write BF = C0", START + "palette address 07"),
                                       ("write BE = 22", START + "REFUSED: refusal 6, data write at an odd palette address, palette latch empty: latch empty")]),
    ("write BF = 3E C0\nwrite BE = 11 02 33", [("colour 31 = 11 02", START + "red 17, green 17, blue 34"),
                                             ("write BE = 33", START + "palette address 00: latched until the odd byte comes")]),
    ("write BF = 46 C0\nwrite BE = 11 02", [("write BF = 46", START + "the first byte of a command"), ("write BF = C0", START + "palette address 06"),
                                          ("write BE = 11", START + "palette address 06: latched until the odd byte comes"), ("write BE = 02", START + "colour 3: red 17, green 17, blue 34")]),
    ("write BF = 07 C0\nwrite BE = 22 33", [("write BF = 07", START + "the first byte of a command"), ("write BF = C0", START + "palette address 07"),
                                          *[(f"write BE = {byte}", START + "REFUSED: refusal 6, data write at an odd palette address, palette latch empty: latch empty") for byte in ("22", "33")]]),
    ("write BF = 00 FF\nwrite BE = 11 02", [("write BF = 00", START + "the first byte of a command"), ("write BF = FF", START + "palette address 00"),
                                          ("write BE = 11", START + "palette address 00: latched until the odd byte comes"), ("write BE = 02", START + "colour 0: red 17, green 17, blue 34")]),
    ("write BF = 12\nsteps 1\nwrite BF = 74 81", [("write BF = 12", START + "the first byte of a command"), ("steps 1", "line 1 draws no row"),
                                                ("write BF = 74", "line 1, before any row: address 3412, to write"), ("write BF = 81", "line 1, before any row: the first byte of a command")]),
    ("write BF = 00 FF", [("write BF = 00", START + "the first byte of a command"), ("write BF = FF", START + "palette address 00")]),
    ("write BF = 12 34\nread BE", [("write BF = 12", START + "the first byte of a command"), ("write BF = 34", START + "address 3412, to read: the buffer is loaded, and the address goes up"),
                                 ("read BE", START + "data: 00; the byte at 3413 is read ahead")]),
    ("write BF = 12 74", [("write BF = 12", START + "the first byte of a command"), ("write BF = 74", START + "address 3412, to write")]),
    # a read between its bytes empties the latch
    ("write BF = 40\nread BF\nwrite BF = 81", [("write BF = 40", START + "the first byte of a command"), ("read BF", START + "the status: 00, nothing; it is 0 now"),
                                             ("write BF = 81", START + "the first byte of a command")]),
    ("reg 1 = 40", [("write BF = 40", START + "the first byte of a command"), ("write BF = 81", START + "register 1 is 40: display on, frame interrupts off, sprites 8 high")], True),
    # steps
    ("steps 25", [("steps 23", "lines 1 to 23 draw no row"), ("steps 2", "lines 24 to 25 draw rows 0 to 1")]),
    ("steps 25", [("steps 1", f"line {line} draws " + ("no row" if line < 24 else f"row {line - 24}")) for line in range(1, 26)], True),
    ("area 1\nsteps 2\nread 7E", [("area 1", "steps of area 1 from here on, 256 x 224"), ("steps 2", "lines 1 to 2 draw rows 1 to 2"), ("read 7E", "line 2, after row 2: the line counter: 02 (2)")]),
    ("reg 1 = 60\nsteps 194\nread BF", [("reg 1 = 60", START + "display on, frame interrupts on, sprites 8 high"), ("steps 23", "lines 1 to 23 draw no row"), ("steps 144", "lines 24 to 167 draw rows 0 to 143"),
                                      ("steps 25", "lines 168 to 192 draw no row"), ("steps 1", "line 193 draws no row, the screen ends, an interrupt"),
                                      ("steps 1", "line 194 draws no row, an interrupt"), ("read BF", "line 194, after row 143: the status: 80, the screen has ended; it is 0 now")]),
]
# of the home machine, behind `home`
HOME = [
    ("reg 0 = E8", [("reg 0 = E8", START + "line interrupts off, early clock on, fill on, lock of rows 0 to 15 on, lock of columns 192 to 255 on")]),
    ("reg 7 = 13", [("reg 7 = 13", START + "the fill has colour 19")]),
    ("reg 8 = 10", [("reg 8 = 10", START + "the background goes 16 to the right")]),
    ("colour 3 = CB", [("colour 3 = CB", START + "red 255, green 170, blue 0")]),
    ("colour 30 = 3F 00", [("colour 30 = 3F 00", START + "colours 30 to 31")]),
    ("write BF = 1F C0\nwrite BE = 01 02", [("colour 31 = 01", START + "red 85, green 0, blue 0"), ("write BE = 02", START + "colour 0: red 170, green 0, blue 0")]),
    ("write BF = 23 FF\nwrite BE = 30", [("write BF = 23", START + "the first byte of a command"), ("write BF = FF", START + "palette address 03"), ("write BE = 30", START + "colour 3: red 0, green 0, blue 255")]),
    ("write BF = 01 C0\nread BE", [("write BF = 01", START + "the first byte of a command"), ("write BF = C0", START + "palette address 01"),
                                  ("read BE", START + "REFUSED: refusal 5, data read while the palette is chosen: latch empty")]),
    ("sprite 3 = 20 40 7", [("vram 3F03 = 27", START + "3F03: sprite 3 from line 40 on, row 40"), ("vram 3F86 = 14 07", START + "3F86 to 3F87: sprite 3: X 20, column 20; its tile 7 is tile 263 at 20E0 (register 6 has bit 2)")]),
    ("reg 0 = 08\nvram 3F80 = 64 00\nvram 3F80 = 00 00\nvram 3F00 = F4", [
        ("reg 0 = 08", START + "line interrupts off, early clock on, fill off, lock of rows 0 to 15 off, lock of columns 192 to 255 off"),
        ("vram 3F80 = 64 00", START + "3F80 to 3F81: sprite 0: X 100, column 92; its tile 0 is tile 256 at 2000 (register 6 has bit 2)"),
        ("vram 3F80 = 00 00", START + "3F80 to 3F81: sprite 0: X 0, column -8, not drawn there; its tile 0 is tile 256 at 2000 (register 6 has bit 2)"),
        ("vram 3F00 = F4", START + "3F00: sprite 0 from line 245 on, off the screen")]),
    # 64 sprites at line 0 of a fresh device: a ninth
    ("reg 1 = 60\nsteps 194\nread BF", [("reg 1 = 60", START + "display on, frame interrupts on, sprites 8 high"), ("steps 191", "lines 1 to 191 draw rows 1 to 191"), ("steps 1", "line 192 draws no row"),
                                      ("steps 1", "line 193 draws no row, the screen ends, an interrupt"), ("steps 1", "line 194 draws no row, an interrupt"),
                                      ("read BF", "line 194, after row 191: the status: C0, the screen has ended, a ninth sprite; it is 0 now")]),
]
for script, wanted in HOME:
    trace = language.made("home\n" + script, "script", ".", 1).trace
    text, _ = listing.listed(records.Trace(trace, "trace", library.HOME), 1, False)
    if text != "".join(f"{statement:24}  # {words}\n" for statement, words in [("home", "the home machine, 256 x 192"), *wanted]):
        sys.exit(f"{script!r} of the home machine is listed as\n{text}not as\n{wanted}")
    if language.made(text, "listing", ".", 1).trace != trace:
        sys.exit(f"{script!r}: its listing makes another trace")
for script, wanted, *each in CASES:
    trace = language.made(script, "script", ".", 1).trace
    text, _ = listing.listed(records.Trace(trace, "trace"), 1, bool(each))
    if text != "".join(f"{statement:24}  # {words}\n" for statement, words in wanted):
        sys.exit(f"{script!r} is listed as\n{text}not as\n{wanted}")
    if language.made(text, "listing", ".", 1).trace != trace:
        sys.exit(f"{script!r}: its listing makes another trace")
print(f"{len(CASES) + len(HOME)} listings")
