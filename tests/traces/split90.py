#!/usr/bin/env python3
"""Writes split90.trace beside this file: the palette is changed while the line counter reads 90, and the rest of the pass is drawn."""
import pathlib

trace = bytearray()


def write(port, *values):
    for value in values:
        trace.extend([0x50, 0x57, port, value])  # PW port value


def read(port):
    trace.extend([0x50, 0x52, port])  # PR port


def steps(count):
    trace.extend(b"LS\x00" * count)  # LS area: 0 is the visible one


COMMAND, DATA, LINE_COUNTER = 0xBF, 0xBE, 0x7E

# Tile 0, which a fresh screen shows everywhere: a line of colour 1, then seven of colour 3. A line is four bytes, one for each bit of the colour.
write(COMMAND, 0x00, 0x40)
write(DATA, 0xFF, 0x00, 0x00, 0x00)
for line in range(1, 8):
    write(DATA, 0xFF, 0xFF, 0x00, 0x00)
# No sprites: Y byte D0 at the head of their table ends the list.
write(COMMAND, 0x00, 0x7F)
write(DATA, 0xD0)
# Colour 1 is grey, colour 3 red: two bytes for each, green and red, then blue.
write(COMMAND, 0x02, 0xC0)
write(DATA, 0x66, 0x06)
write(COMMAND, 0x06, 0xC0)
write(DATA, 0x0F, 0x00)
# 90 steps: the last one sets the counter to 90 and draws row 66.
steps(90)
read(LINE_COUNTER)
# Colour 3 is blue from here on.
write(COMMAND, 0x06, 0xC0)
write(DATA, 0x00, 0x0F)
# The rest of the pass of 262 steps.
steps(172)

pathlib.Path(__file__).with_suffix(".trace").write_bytes(trace)
