#!/usr/bin/env python3
"""Writes the traces beside this file, but for those of split90.py, layers.py and edges.py.

The text beside each is what `trace` must print, as the rules written a second time in oracle/ have it: build/oracle/traces text < NAME.trace > NAME.text
Where `trace-261` prints something else, NAME.261.text has that: build/oracle/traces text --table=0 < NAME.trace > NAME.261.text
"""
import pathlib

FOLDER = pathlib.Path(__file__).parent


def write(port, *values):
    return b"".join(bytes([0x50, 0x57, port, value]) for value in values)  # PW port value


def read(port, times=1):
    return bytes([0x50, 0x52, port]) * times  # PR port


def steps(count, area=0):
    return bytes([0x4C, 0x53, area]) * count  # LS area


BF, BE, LINE = 0xBF, 0xBE, 0x7E
EXAMPLE = write(BF, 0x00, 0x40) + write(BE, 0xAB) + write(BF, 0x00, 0x00) + read(BE) + steps(1) + read(0x7F)

traces = {
    # the worked trace (docs/RULES.md, R7.12), and no input at all
    "example": EXAMPLE,
    "empty": b"",
    # the marked examples P1 to P3, P5 to P7 and P12 (R8.1)
    "p1": steps(1) + read(LINE),
    "p2": write(BF, 0x00, 0x00) + write(BE, 0x42) + read(BE, 2),
    "p3": write(BF, 0xFE, 0x7F) + write(BE, 0xA1, 0xB2) + write(BF, 0xFE, 0x3F) + read(BE, 2),
    "p5": write(BF, 0x01, 0xC0) + write(BE, 0x77),
    "p6": write(BF, 0x00, 0x8A) + write(BF, 0x00, 0x8B),
    # (the counter over a pass: 262 steps by the chart's table, which the twins go by 261 in)
    "p7": steps(262) + read(LINE),
    "p12": write(BF, 0x10, 0x80) + write(BF, 0x03, 0x8A) + steps(262 + 14),
    # all tiles in colour 3, which is red from step 263 on: after 285 steps the table with 261 has drawn row 0 of the second pass, the chart's has not
    "late": write(BF, 0x00, 0x40) + write(BE, *[0xFF, 0xFF, 0x00, 0x00] * 8) + steps(262) + write(BF, 0x06, 0xC0) + write(BE, 0x0F, 0x00) + steps(23),
    # every refusal that a trace can meet, 1 to 6, and ports by their low byte
    "refusals": write(0x00, 0x00)
    + read(0x00)
    + read(0x7F)
    + write(LINE, 0x00)
    + write(BF, 0x00, 0x8B)
    + write(BE, 0x00)
    + read(BE)
    + write(BF, 0x01, 0xC0)
    + read(BE)
    + write(BE, 0x00),
    # frame and line interrupts, the status byte and both reports
    "interrupts": write(BF, 0x60, 0x81) + steps(0xC2) + read(BF, 2) + steps(1) + write(BF, 0x00, 0x81) + steps(260) + read(BF),
    # all three areas, turn by turn
    "areas": b"".join(steps(1, line % 3) for line in range(300)),
    # a sprite met by another, and a ninth on the line: status bits 5 and 6
    "sprites": write(BF, 0x00, 0x40)
    + write(BE, *[0xFF] * 32)
    + write(BF, 0x00, 0x7F)
    + write(BE, *[99] * 9, 0xD0)
    + write(BF, 0x80, 0x7F)
    + write(BE, *[100, 0] * 9)
    + write(BF, 0x00, 0x86)
    + steps(100)
    + read(BF)
    + steps(1)
    + read(BF, 2),
}

for name, trace in traces.items():
    (FOLDER / f"{name}.trace").write_bytes(trace)
