#!/usr/bin/env python3
"""filled.py TRACE ..: of traces for the home machine the frame that the library draws, which is that of home-snapshot, beside its layers: layer 2 is in columns 0 to
7 of the rows that were drawn while register 0 had bit 5, and nowhere else; there the pixel is colour 16 + register 7 mod 16, as the palette's byte has it, and nothing
else; where a sprite owns a pixel it has a colour of palette 1. And `vdp_home_pixel` has the same at a hundred places of the last row that was drawn."""
import pathlib
import random
import sys

sys.path.insert(0, str(pathlib.Path(__file__).resolve().parents[2] / "desk"))
import layers  # noqa: E402
import library  # noqa: E402
import machines  # noqa: E402
import pictures  # noqa: E402
import play  # noqa: E402
import programs  # noqa: E402
import records  # noqa: E402

SIZE = library.N["HOME_WIDTH"], library.N["HOME_HEIGHT"]
filled = told = 0
for name in sys.argv[1:]:
    data, pick = pathlib.Path(name).read_bytes(), random.Random(1)
    colour = machines.home().palette.colour

    def watch(area, row, frame, device, pixels, owners):
        global filled
        registers, palette = device.registers, device.at("PALETTE", 32)
        assert (area.size, len(owners), len(pixels)) == (SIZE, 256, 1024)
        fill = bytes([*colour([palette[16 + registers[7] % 16]]), 255])
        for column, owner in enumerate(owners):
            here = pixels[4 * column : 4 * column + 4]
            assert (owner == layers.FILLED) == (column < 8 and bool(registers[0] & 32)), (name, row, column)
            if owner == layers.FILLED:
                assert here == fill, (name, row, column)
                filled += 1
            elif owner >= layers.SPRITE:
                assert here in [bytes([*colour([byte]), 255]) for byte in palette[17:]], (name, row, column)
        watch.last = device.copy(), row, pixels

    run = play.Run(records.Trace(data, name, library.HOME), 1, None, None, watch)
    area = run.area(None)
    assert pictures.of_pixels(area.size, run.frames(area)[run.count(area)].pixels).data == programs.picture("home-snapshot", data).data, name
    device, row, pixels = watch.last
    for column in pick.sample(range(256), 100):
        assert device.pixel(0, row, column) == pixels[4 * column : 4 * column + 4], (name, row, column)
        told += 1
    assert device.pixel(0, 192, 0) is None and device.pixel(0, 0, 256) is None
print(f"{filled:,} pixels filled, {told} asked for one by one")
sys.exit(0 if filled else "nothing is filled")
