#!/usr/bin/env python3
"""places.py: where the desk's words and its statement `sprite` put a sprite is where it is drawn. Of every area, with the early clock and without: for each X byte
the columns that the library draws, for each Y byte and either height the rows; so of the home machine, and once more by what home-snapshot draws. And the place
of the map that each corner of a screen shows is that of its window."""
import pathlib
import sys

sys.path.insert(0, str(pathlib.Path(__file__).resolve().parents[2] / "desk"))
import language  # noqa: E402
import library  # noqa: E402
import machines  # noqa: E402
import programs  # noqa: E402

PATTERNS, TABLE, MAP = 0x2000, 0x3F00, 0x3800
WHITE = b"\xff\xff\xff"


def wrong(what):
    sys.exit(f"places.py: {what}")


def held(what, screen, registers, byte, columns):
    """The columns that are drawn are those of the sprite's place, as far as they lie on the screen; or none, and the desk says so."""
    first = screen.column(registers, byte)
    wanted = [column % 256 if screen.view.around else column for column in range(first, first + 8)]
    wanted = [column for column in wanted if 0 <= column < screen.columns and (not screen.view.around or column >= first)] if screen.shows(registers, byte) else []
    if columns != wanted or screen.byte(registers, first) != byte:
        wrong(f"{what}, register 0 at {registers[0]:02X}, X {byte}: drawn at {columns}, and the desk has {wanted}")


tried = 0
for chip, number, area in [(chip, number, area) for chip in (library.HANDHELD, library.HOME) for number, area in library.areas(chip).items()]:
    screen = machines.of(chip).screens[number]
    for clock in (0, 8):
        device = library.Device(chip=chip)
        device.state.bytes[library.N["AT_REGISTERS"]] = clock
        device.vram.bytes[PATTERNS : PATTERNS + 64] = b"\xff" * 64
        device.vram.bytes[TABLE + 1] = 0xD0
        row = 40
        device.vram.bytes[TABLE] = row + area.first_line - 1
        for byte in range(256):
            device.vram.bytes[TABLE + 128] = byte
            layers = device.row_now(number, row)[1]
            held(area.named, screen, device.registers, byte, [column for column in range(area.columns) if layers[column] == 64])
            tried += 1
    for tall in (0, 2):
        device.state.bytes[library.N["AT_REGISTERS"]] = 0
        device.state.bytes[library.N["AT_REGISTERS"] + 1] = tall
        device.vram.bytes[TABLE + 128] = 100
        for byte in range(0, 256, 5):
            device.vram.bytes[TABLE] = byte
            rows = [] if byte == 0xD0 else [row for row in range(area.rows) if 64 in device.row_now(number, row)[1]]
            if byte != 0xD0 and rows != list(screen.rows_of(byte, bool(tall))[1]):
                wrong(f"{area.named}, Y {byte}, {'16' if tall else '8'} high: drawn on rows {rows}")
            tried += 1
    # a tile in a corner of the window changes that corner of the screen
    columns, rows = screen.window
    for column, x in ((columns[0], 0), (columns[-1], area.columns - 1)):
        for line, y in ((rows[0], 0), (rows[-1], area.rows - 1)):
            device = library.Device(chip=chip)
            device.vram.bytes[TABLE] = 0xD0
            device.vram.bytes[MAP + 2 * (32 * line + column) + 1] = 8  # palette 1
            device.state.bytes[chip.offsets["PALETTE"] + 16 * machines.of(chip).palette.bytes] = 0x0F
            device.state.bytes[chip.offsets["DIRTY"]] = 1
            if device.pixel(number, y, x)[0] != 255:
                wrong(f"{area.named}: column {x}, row {y} does not show the map's column {column}, row {line}")
            tried += 1
# The home machine: a sprite in each band of eight rows, its X byte written just before.
home = machines.home().screens[0]
for clock in (0, 8):
    registers = bytes([clock] + [0] * 10)
    for first in range(0, 256, 24):
        script = f"home\nreg 0 = {clock:02X}\ncolour 17 = 3F\ntile 256 = 11111111 times 8\nsprite 1 end\n"
        for band in range(24):
            script += f"vram 3F00 = {(8 * band - 1) % 256:02X}\nvram 3F80 = {(first + band) % 256:02X} 00\nuntil line {8 * band + 7}\n"
        picture = programs.picture("home-snapshot", language.made(script, "script", "", 1).trace)
        for band in range(24):
            row = picture.row(8 * band + 4)
            held("home", home, registers, (first + band) % 256, [column for column in range(256) if row[3 * column : 3 * column + 3] == WHITE])
            tried += 1
print(f"{tried:,} places")
