#!/usr/bin/env python3
"""pixels.py [--home] ROWS TRACE FRAME.ppm ..: what `desk pixel` tells of every pixel of rows 0 to 14, the even ones, and of ROWS others, of each trace is what the
frame has there, which snapshot drew of it, or with --home home-snapshot; and of other areas what the desk's own picture has. Every row goes through the desk's check
of its reasons."""
import argparse
import pathlib
import random
import re
import sys

sys.path.insert(0, str(pathlib.Path(__file__).resolve().parents[2] / "desk"))
import commands  # noqa: E402
import library  # noqa: E402
import pictures  # noqa: E402
import play  # noqa: E402
import records  # noqa: E402
import row as rows  # noqa: E402

home = sys.argv[1] == "--home"
chip, words = library.HOME if home else library.HANDHELD, sys.argv[2 if home else 1 :]
count, pick, told, kinds = int(words[0]), random.Random(1), 0, set()
for trace, frame in zip(words[1::2], words[2::2]):
    run = play.Run(records.Trace(pathlib.Path(trace).read_bytes(), trace, chip), 1)
    for area in library.areas(chip).values():
        if area.number not in run.rows_drawn:
            continue
        width, height = area.size
        # areas of one size draw into one frame
        if area.size == library.areas(chip)[0].size:
            data = pathlib.Path(frame).read_bytes()[len(b"P6\n%d %d\n255\n" % area.size) :]
        else:
            data = pictures.of_pixels(area.size, run.frames(area)[run.count(area)].pixels).data
        for number in [*range(0, 16, 2), *pick.sample(range(16, height), count)]:
            options = argparse.Namespace(trace=trace, row=number, table=1, home=home, area=None if home else area.number, frame=None, now=False, progress=False, without=[])
            row, when = commands.told_row(options)
            colours = row.device.colours()
            for column in range(width):
                text = rows.pixel_text(row, column, when)
                at = 3 * (number * width + column)
                if "has not drawn" in when:
                    assert data[at : at + 3] == b"\0\0\0", (trace, number, column)
                    continue
                said = re.search(r"\n  bytes   (\w\w) (\w\w) (\w\w) FF: red (\d+), green (\d+), blue (\d+)\n", text).groups()
                assert bytes(int(part, 16) for part in said[:3]) == bytes(map(int, said[3:])) == data[at : at + 3], (trace, number, column, text)
                colour = int(re.search(r"\n  colour  (\d+): ", text).group(1))
                assert bytes(colours[colour][:3]) == data[at : at + 3], (trace, number, column, text)
                kinds |= set(re.findall(r"\n    sprite \d+ +(clear|held back|unseen|struck|drawn|ninth|after the ninth)", text) + re.findall(r"then the fill was laid over it", text))
                told += 1
print(f"{told:,} pixels; sprites that were {', '.join(sorted(kinds))}")
# no sprite of the home machine is unseen where it is on the row; and it alone has the fill
missing = {"clear", "held back", "struck", "drawn", "ninth", "after the ninth", "then the fill was laid over it" if home else "unseen"} - kinds
sys.exit(f"never told: {missing}" if missing else 0)
