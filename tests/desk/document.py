#!/usr/bin/env python3
"""document.py [--write] PAGE FOLDER: runs every command of a page again and holds what it prints to what the page says, and the pictures that the page
shows to those that the commands draw. With --write the page and its pictures are made anew instead.

A block ```console has commands, each behind `$ `, and below each what it prints on standard output and standard error. They run one after the other in
FOLDER, which sees the project's docs, tests and examples; a picture that the page shows is one that a command has written there."""
import difflib
import os
import pathlib
import re
import shutil
import subprocess
import sys

write = sys.argv[1] == "--write"
page, folder = map(pathlib.Path, sys.argv[2 if write else 1 :])
root = pathlib.Path(__file__).resolve().parents[2]
sys.path.insert(0, str(root / "desk"))
import png  # noqa: E402

folder.mkdir(parents=True, exist_ok=True)
for name in ("docs", "tests", "examples"):
    (folder / name).symlink_to(root / name)
environment = dict(os.environ, PATH=f"{root}/build/bin:{root}/build/cartridge:{os.environ['PATH']}", LC_ALL="C.UTF-8")
ran = 0


def again(block):
    """The block with what its commands print now."""
    global ran
    text = ""
    for line in block.group(2).split("\n"):
        if line.startswith("$ "):
            done = subprocess.run(["sh", "-c", line[2:]], cwd=folder, env=environment, stdout=subprocess.PIPE, stderr=subprocess.STDOUT, encoding="utf-8")
            text += line + "\n" + done.stdout
            ran += 1
    return block.group(1) + text + block.group(3)


def pixels(path):
    image = png.read(path.read_bytes(), 1 << 24)
    return image.width, image.height, image.colours()


before = page.read_text(encoding="utf-8")
after = re.sub(r"(^```console\n)(.*?)(^```$)", again, before, flags=re.M | re.S)
shown = set(re.findall(r"\]\(([\w-]+\.png)\)", before))
if write:
    page.write_text(after, encoding="utf-8")
    for name in shown:
        if (folder / name).exists():
            shutil.copy(folder / name, page.parent / name)
elif before != after:
    sys.exit("".join(difflib.unified_diff(before.splitlines(True), after.splitlines(True), str(page), "now")))
for name in shown:
    if not (folder / name).exists():
        sys.exit(f"{page}: no command draws {name}")
    if pixels(folder / name) != pixels(page.parent / name):
        sys.exit(f"{page}: {name} is another picture now")
print(f"{ran} commands, {len(shown)} pictures")
sys.exit(0 if ran else "no command")
