#!/usr/bin/env python3
"""same.py A.png B.png: the two have the same pixels, however they were packed."""
import pathlib
import sys

sys.path.insert(0, str(pathlib.Path(__file__).resolve().parents[2] / "desk"))
import png  # noqa: E402

one, other = (png.read(pathlib.Path(name).read_bytes(), 1 << 24) for name in sys.argv[1:3])
if (one.width, one.height, one.colours()) != (other.width, other.height, other.colours()):
    sys.exit(f"{sys.argv[1]} and {sys.argv[2]} differ")
