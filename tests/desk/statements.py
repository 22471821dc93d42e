#!/usr/bin/env python3
"""statements.py: each statement of the language makes the records that docs/RULES.md asks for, said again here by hand."""
import pathlib
import sys

sys.path.insert(0, str(pathlib.Path(__file__).resolve().parents[2] / "desk"))
import language  # noqa: E402
import library  # noqa: E402


def w(*pairs):
    return b"".join(b"PW" + bytes(pair) for pair in pairs)


def command(first, second, *data):
    return w((0xBF, first), (0xBF, second), *((0xBE, byte) for byte in data))


STEP, OTHER = b"LS\0", b"LS\1"
CASES = [
    ("", 1, b""),
    ("\n  # a comment alone\n\t\r\n", 1, b""),
    ("reg 10 = 3b", 1, command(0x3B, 0x8A)),
    ("reg 0x0A = 0x3B", 1, command(0x3B, 0x8A)),
    ("colour 17 = 0F 00", 1, command(34, 0xC0, 0x0F, 0x00)),
    ("colour 31 = 1 2", 1, command(62, 0xC0, 0x01, 0x02)),
    ("colour 3 = 0F 00 F0 00", 1, command(6, 0xC0, 0x0F, 0x00, 0xF0, 0x00)),
    ("vram 3FFF = AB", 1, command(0xFF, 0x7F, 0xAB)),
    ("vram 12 = 1 2 times 3 # and so on", 1, command(0x12, 0x40, 1, 2, 1, 2, 1, 2)),
    ("tile 511 = 80000000 00000000 0000000F 00000000 00000000 00000000 00000000 12345678", 1,
     command(0xE0, 0x7F, 0, 0, 0, 0x80, 0, 0, 0, 0, 1, 1, 1, 1, *[0] * 16, 0b10101010, 0b01100110, 0b00011110, 0b00000001)),
    # the map and the table of sprites are where the registers have them at that line
    ("map 31 27 = 511 across down palette1 priority", 1, command(0xFE, 0x7E, 0xFF, 0x1F)),
    ("reg 2 = 02\nmap 1 1 = 5 down times 2", 1, command(0x02, 0x82) + command(0x42, 0x48, 5, 4, 5, 4)),
    ("sprite 3 = 20 40 7", 1, command(0x03, 0x7F, 63) + command(0x86, 0x7F, 68, 7)),
    ("sprite 63 = -48 -24 255", 1, command(0x3F, 0x7F, 255) + command(0xFE, 0x7F, 0, 255)),
    ("reg 5 = 02\nsprite 0 = 207 231 0", 1, command(0x02, 0x85) + command(0x00, 0x41, 254) + command(0x80, 0x41, 255, 0)),
    ("area 1\nsprite 1 = 0 0 9", 1, command(0x01, 0x7F, 255) + command(0x82, 0x7F, 0, 9)),
    ("sprite 10 end", 1, command(0x0A, 0x7F, 0xD0)),
    # with the early clock a sprite stands where the statement says all the same
    ("reg 0 = 08\nsprite 3 = 20 40 7", 1, command(0x08, 0x80) + command(0x03, 0x7F, 63) + command(0x86, 0x7F, 76, 7)),
    ("reg 0 = 08\nsprite 0 = -56 0 0\nsprite 1 = 199 0 0", 1, command(0x08, 0x80) + command(0, 0x7F, 23) + command(0x80, 0x7F, 0, 0) + command(1, 0x7F, 23) + command(0x82, 0x7F, 255, 0)),
    ("area 1\nreg 0 = 08\nsprite 1 = 0 0 9\nsprite 1 = 252 0 9", 1, command(0x08, 0x80) + command(0x01, 0x7F, 255) + command(0x82, 0x7F, 8, 9) + command(0x01, 0x7F, 255) + command(0x82, 0x7F, 4, 9)),
    ("home\nreg 0 = 08\nsprite 0 = 92 0 0\nsprite 0 = -8 0 0", 1, command(0x08, 0x80) + command(0, 0x7F, 255) + command(0x80, 0x7F, 100, 0) + command(0, 0x7F, 255) + command(0x80, 0x7F, 0, 0)),
    # the map by the screen's places: from the map's column 6, row 3 on, and on the other screens from 0, 0 on
    ("map screen 0 0 = 5", 1, command(0xCC, 0x78, 5, 0)),
    ("map screen 19 17 = 5 down", 1, command(0x32, 0x7D, 5, 4)),
    ("map screen 18 0 = 5 times 3", 1, command(0xF0, 0x78, 5, 0, 5, 0) + command(0x0C, 0x79, 5, 0)),
    ("area 1\nmap screen 31 27 = 5", 1, command(0xFE, 0x7E, 5, 0)),
    ("home\nmap screen 31 23 = 5", 1, command(0xFE, 0x7D, 5, 0)),
    ("steps 3", 1, STEP * 3),
    ("area 1\nsteps 2\narea 0\nsteps 1", 1, OTHER * 2 + STEP),
    ("until line 90", 1, STEP * 90),
    # at least one step; the counter reads D5 twice in a pass
    ("until line 0\nuntil line 90\nuntil line 90", 1, STEP * (262 + 90 + 262)),
    ("until line 0xD5\nuntil line 0xD5\nuntil line 0", 1, STEP * 262),
    ("until line 0", 0, STEP * 261),
    ("until row 66", 1, STEP * 90),
    ("until row 0\nuntil row 0", 1, STEP * (24 + 262)),
    ("area 1\nuntil row 0\nuntil row 223", 1, OTHER * (262 + 223 + 6)),
    ("home\nuntil row 191", 1, STEP * 191),
    ("reg 0 = 10\nreg 10 = 5B\nuntil line 0\nuntil interrupt\nuntil interrupt", 1, command(0x10, 0x80) + command(0x5B, 0x8A) + STEP * (262 + 182)),
    ("reg 1 = 20\nuntil interrupt\nread BF\nuntil interrupt", 0, command(0x20, 0x81) + STEP * 193 + b"PR\xbf" + STEP * 261),
    # blocks and labels
    ("repeat 3\nsteps 1\nend\nsteps 1", 1, STEP * 4),
    ("repeat 2\n  repeat 3\n    steps 1\n  end\n  read 7E\nend # of both", 1, (STEP * 3 + b"PR\x7e") * 2),
    ("change: steps 2\nsteps 1", 1, STEP * 3),
    ("a-1: repeat 2\nb: steps 1\nend", 1, STEP * 2),
    ("frame", 1, STEP * 261),
    ("frames 2\nframe", 1, STEP * 785),
    ("frames 2\nframe", 0, STEP * 782),
    ("home\nframes 2", 1, STEP * 523),
    ("pass\npasses 2", 1, STEP * 786),
    ("pass\npasses 2", 0, STEP * 783),
    ("read 7E\nread BF times 2", 1, b"PR\x7ePR\xbfPR\xbf"),
    ("write BF = 00 8B\nwrite 0 = 1 times 2", 1, w((0xBF, 0), (0xBF, 0x8B), (0, 1), (0, 1))),
    # the home machine: one byte a colour, and sprites where its screen has them; steps are of area 0
    ("home\ncolour 17 = 3F", 1, command(17, 0xC0, 0x3F)),
    ("# first\n\nhome # and now\ncolor 29 = 1 FF 0", 1, command(29, 0xC0, 0x01, 0xFF, 0x00)),
    ("home\nsprite 3 = 20 40 7", 1, command(0x03, 0x7F, 39) + command(0x86, 0x7F, 20, 7)),
    ("home\nsprite 63 = 255 0 255", 1, command(0x3F, 0x7F, 255) + command(0xFE, 0x7F, 255, 255)),
    ("home\nmap 1 1 = 5\nread BF\nuntil line 0\npass", 1, command(0x42, 0x78, 5, 0) + b"PR\xbf" + STEP * 524),
]
for script, table, wanted in CASES:
    made = language.made(script, "script", "", table).trace
    if made != wanted:
        sys.exit(f"{script!r} by table {table} makes {made.hex(' ')}, not {wanted.hex(' ')}")
# lines with a label can be left out, whole blocks and what they have wrong with them
for script, without, wanted in (
    ("change: steps 2\nsteps 1", ["change"], STEP),
    ("a: repeat 2\nb: steps 1\nend\nread 7E", ["a"], b"PR\x7e"),
    ("repeat 2\nb: steps 1\nread 7E\nend", ["b"], b"PR\x7e" * 2),
    ("a: steps 1\nb: steps 2\nsteps 4", ["a", "b"], STEP * 4),
    ("a: steps 0\nsteps 4", ["a"], STEP * 4),
):
    made = language.made(script, "script", "", 1, None, without).trace
    if made != wanted:
        sys.exit(f"{script!r} without {without} makes {made.hex(' ')}, not {wanted.hex(' ')}")
# an area is one that the library takes, and no other
for number in range(256):
    try:
        taken = language.made(f"area {number}\nsteps 1", "script", "", 1).trace == b"LS" + bytes([number])
    except language.Refused:
        taken = False
    row, layers = library.Buffer(1024), library.Buffer(256)
    if taken != (library.Device().row_step(row, layers, number).refusal == 0):
        sys.exit(f"area {number}: the script is {'taken' if taken else 'refused'}, and the library says otherwise")
print(f"{len(CASES)} scripts, 256 areas")
