#!/usr/bin/env python3
"""pictures.py FOLDER: makes the pictures of docs/PAGE.md anew, of the page as build/desk.html has it, in a browser without a window."""
import pathlib
import sys
import tempfile

import browser
import native

FOLDER = pathlib.Path(sys.argv[1])
LAYERS = native.ROOT / "tests" / "traces" / "layers.trace"
HOME = native.ROOT / "docs" / "scripts" / "home-fill.desk"
SEEN = "new Promise((done) => requestAnimationFrame(() => requestAnimationFrame(() => done(true))))"
LOOK = """(panel, row, column, layers) => {
  desk.app.view(document.getElementById("tab-look"));
  desk.app.look.toFrame(desk.app.look.frames.length);
  desk.app.look.at({ row, column, pinned: true });
  desk.app.look.panels.choose(document.getElementById("panel-" + panel));
  const slider = document.getElementById("layers");
  slider.value = layers;
  slider.dispatchEvent(new Event("input"));
}"""
# file, width, height, dark, the trace that it shows (none: the page as it opens), and the panel, place and layers of the view Look (none: What if)
PICTURES = [
    ("page-question.png", 1280, 880, False, None, None),
    ("page-look.png", 1280, 880, False, LAYERS, ("Pixel", 24, 65, 60)),
    ("page-question-dark.png", 1280, 880, True, LAYERS, None),
    ("page-home.png", 1280, 880, False, HOME, ("Pixel", 63, 3, 0)),
    ("page-narrow.png", 400, 1240, True, None, None),
    ("page-narrow-look.png", 400, 1240, False, LAYERS, ("Writes", 24, 65, 0)),
]


def main():
    page = browser.Browser()
    try:
        with tempfile.TemporaryDirectory() as folder:
            given = pathlib.Path(folder) / "given.html"
            for name, width, height, dark, trace, look in PICTURES:
                page.size(width, height, dark, width < 600)
                if trace:
                    native.desk("page", trace, "-o", given)
                page.open(given if trace else native.ROOT / "build" / "desk.html")
                if look:
                    page.ask(LOOK, *look)
                for _ in range(2):
                    page.run(SEEN)
                page.picture(FOLDER / name)
                print(f"{FOLDER / name}: {width} x {height}")
    finally:
        page.close()


main()
