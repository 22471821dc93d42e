#!/usr/bin/env python3
"""random_traces.py COUNT SEED FOLDER [home]: random traces, small enough for the programs: memory, registers, palette and sprites, two passes of steps of
every area that the library takes, and port calls of all kinds between them, refused ones too. For the home machine steps are of area 0, and register 0 has
its bits."""
import pathlib
import random
import sys

sys.path.insert(0, str(pathlib.Path(__file__).resolve().parents[2] / "desk"))
import library  # noqa: E402

count, seed, folder, home = int(sys.argv[1]), int(sys.argv[2]), pathlib.Path(sys.argv[3]), sys.argv[4:] == ["home"]
folder.mkdir(parents=True, exist_ok=True)
COMMAND, DATA = 0xBF, 0xBE
# mostly the visible area, and those of its size
AREAS = list(library.areas())
WEIGHTS = [40 if area.size == library.areas()[0].size else 2 for area in library.areas().values()]
if home:
    AREAS, WEIGHTS = [0], [1]


def write(port, *values):
    return b"".join(bytes([0x50, 0x57, port, value]) for value in values)


def video(address, *values):
    return write(COMMAND, address % 256, 0x40 + address // 256) + write(DATA, *values)


for number in range(count):
    pick = random.Random(seed * 1000 + number)
    byte = lambda: pick.choice((0, 255, pick.randrange(256)))  # noqa: E731
    trace = write(COMMAND, pick.choice((0xFF, 0x0E, 0xFE)), 0x82) + write(COMMAND, 0xFF, 0x85) + write(COMMAND, byte(), 0x86)
    trace += write(COMMAND, pick.choice((0x00, 0x08, 0x10, 0x18)) | (pick.randrange(8) * 32 if home else 0), 0x80) + write(COMMAND, pick.choice((0x00, 0x02, 0x40, 0x62)), 0x81)
    trace += write(COMMAND, byte(), 0x88) + write(COMMAND, byte(), 0x89)
    trace += write(COMMAND, 0, 0xC0) + write(DATA, *(pick.randrange(256) for _ in range(64)))
    for tile in range(40):
        trace += video(32 * pick.choice((tile, 256 + tile % 16)), *(byte() for _ in range(32)))
    for _ in range(200):
        trace += video(0x3800 + 2 * pick.randrange(896), pick.randrange(40), pick.choice((0, 16, 16, byte())))
    lines = [pick.randrange(20, 170) for _ in range(4)]
    trace += video(0x3F00, *((pick.choice(lines) - pick.randrange(8)) % 256 if pick.random() < 0.9 else byte() for _ in range(60)), 0xD0)
    trace += video(0x3F80, *(value for _ in range(60) for value in (pick.choice((byte(), pick.randrange(36, 60), pick.randrange(200, 220), pick.randrange(256))), pick.randrange(16))))
    for _ in range(540):
        trace += bytes([0x4C, 0x53, pick.choices(AREAS, WEIGHTS)[0]])
        if pick.random() < 0.05:
            trace += pick.choice((
                write(COMMAND, byte(), 0x80 + pick.choice((0, 1, 2, 6, 8, 8, 9, 10))),
                write(COMMAND, 2 * pick.randrange(32), 0xC0) + write(DATA, byte(), byte()),
                video(0x3F00 + pick.randrange(60), byte()),
                write(pick.choice((COMMAND, DATA, byte())), byte()),
                bytes([0x50, 0x52, pick.choice((0x7E, 0x7F, COMMAND, DATA, byte()))]),
            ))
    assert len(trace) < 65536
    (folder / f"random-{number}.trace").write_bytes(trace)
