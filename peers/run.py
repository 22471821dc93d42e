#!/usr/bin/env python3
"""run.py [--here] [--write] [PAGE]: plays our own cartridges here, in MAME and in mednafen, where these are installed, and prints what each of them shows as a
table. With a PAGE its table is held to that one: all of it, or with --here the column of this chip alone, which needs no other player; --write puts it in.

Here: build/cartridge/play. MAME and mednafen run with no screen and no sound; of each the picture after some seconds is looked at, when nothing on it changes any
more."""
import os
import pathlib
import re
import shutil
import signal
import subprocess
import sys
import tempfile
import time

ROOT = pathlib.Path(__file__).resolve().parents[1]
HERE, CARTRIDGES, PLAYER = ROOT / "peers", ROOT / "examples" / "cartridge", ROOT / "build" / "cartridge" / "play"
sys.path.insert(0, str(ROOT / "desk"))
import png  # noqa: E402

PATH = os.environ["PATH"] + ":/usr/games"
FRAMES, SECONDS, TRIES = 230, 4, 5


class Picture:
    """A picture by its bright parts: each pixel is 4 where it has much red, and 2 of green, and 1 of blue."""

    def __init__(self, width, height, colours):
        self.width, self.height = width, height
        self.pixels = [sum(bit for bit, part in zip((4, 2, 1), colour) if part > 120) for colour in colours]

    def at(self, x, y):
        return self.pixels[y * self.width + x]

    def row(self, y):
        return self.pixels[y * self.width : (y + 1) * self.width]

    def cut(self, left, top, width, height):
        other = object.__new__(Picture)
        other.width, other.height = width, height
        other.pixels = [self.at(left + x, top + y) for y in range(height) for x in range(width)]
        return other


BLACK, WHITE, RED, YELLOW, BLUE = 0, 7, 4, 6, 1


def of_png(path):
    image = png.read(path.read_bytes(), 1 << 24)
    return Picture(image.width, image.height, image.colours())


def of_ppm(data):
    _, size, _, pixels = data.split(b"\n", 3)
    width, height = map(int, size.split())
    return Picture(width, height, [pixels[k : k + 3] for k in range(0, 3 * width * height, 3)])


# ---- the players, each by what it shows of a cartridge
def here(cartridge, home, folder):
    subprocess.run([str(PLAYER), *["--home"] * home, "--frames", str(FRAMES), "--picture", "here.ppm", str(cartridge)], cwd=folder, check=True, stdout=subprocess.DEVNULL)
    return of_ppm((folder / "here.ppm").read_bytes())


def mame(cartridge, home, folder):
    """Of the Mark III, the home machine that needs no BIOS, and its 268 x 224 pixels the picture begins at column 2, row 16."""
    words = ["mame", "sg1000m3" if home else "gamegear", "-cart", str(cartridge), "-video", "none", "-sound", "none", "-nothrottle", "-snapview", "native", "-skip_gameinfo",
             "-snapshot_directory", str(folder / "snap"), "-autoboot_script", str(HERE / "snap.lua"), "-seconds_to_run", "20"]
    for _ in range(TRIES):  # with no screen it sometimes ends at its start
        subprocess.run(words, cwd=folder, stdout=subprocess.DEVNULL, stderr=subprocess.DEVNULL, env=surroundings(folder))
        found = sorted((folder / "snap").rglob("*.png"))  # the Mark III has more screens behind its own: glasses
        if found:
            break
    picture = of_png(found[0])
    return picture.cut(2, 16, 256, 192) if home else picture


def mednafen(cartridge, home, folder):
    """Of its 256 x 240 pixels of the home machine rows 24 to 215."""
    running = subprocess.Popen(["mednafen", "-force_module", "sms" if home else "gg", "-video.driver", "softfb", "-sound", "0", "-qtrecord", "film.mov", "-qtrecord.vcodec", "png",
                                "-qtrecord.w_double_threshold", "0", "-qtrecord.h_double_threshold", "0", str(cartridge)],
                               cwd=folder, stdout=subprocess.DEVNULL, stderr=subprocess.DEVNULL, env=surroundings(folder))
    time.sleep(SECONDS)
    running.send_signal(signal.SIGTERM)
    running.wait(20)
    subprocess.run(["ffmpeg", "-v", "error", "-i", "film.mov", "-update", "1", "last.png"], cwd=folder, check=True)
    picture = of_png(folder / "last.png")
    return picture.cut(0, 24, 256, 192) if home else picture


def surroundings(folder):
    return dict(os.environ, PATH=PATH, HOME=str(folder), MEDNAFEN_HOME=str(folder), SDL_VIDEODRIVER="dummy", SDL_AUDIODRIVER="dummy")


def version(words, form):
    """The version that a program tells of itself; None where it is not there."""
    if not shutil.which(words[0], path=PATH):
        return None
    with tempfile.TemporaryDirectory() as folder:
        said = subprocess.run(words, stdout=subprocess.PIPE, stderr=subprocess.STDOUT, text=True, env=surroundings(pathlib.Path(folder))).stdout
    found = re.search(form, said)
    return found.group(1) if found else "?"


# ---- what is read off a picture
def first_row(colour):
    """The first row that is all of this colour."""
    return lambda picture: next((str(y) for y in range(picture.height) if set(picture.row(y)) == {colour}), "none")


def first_sea(picture):
    """Of split.gg: the first row that shows no sky, which has green in it. (Foam has, too: a row of the sea has some blue alone.)"""
    return next((str(y) for y in range(picture.height) if BLUE in picture.row(y)), "none")


def glow_worms(picture):
    """Of sprites.gg: how many of its nine glow-worms, which are yellow, stand on row 43."""
    row = picture.row(43)
    return str(sum(row[x] == YELLOW != row[x - 1] for x in range(1, picture.width)))


def number(k, count=1):
    """Byte k of the answers that a cartridge shows, or several, low byte first."""
    def read(picture):
        return sum(sum((picture.at(8 * bit + 4, 8 * row + 4) == WHITE) << (7 - bit) for bit in range(8)) << 8 * (row - k) for row in range(k, k + count))
    return read


def decimal(k, count=1):
    return lambda picture: str(number(k, count)(picture))


def hexadecimal(k):
    return lambda picture: f"{number(k)(picture):02X}"


def where(first, other):
    """Which of two bytes has what was written: its name, and that of the other."""
    (k, name), (j, other_name) = first, other
    return lambda picture: name if number(k)(picture) else other_name if number(j)(picture) else "nowhere"


def status(picture):
    value = number(0)(picture)
    return " and ".join(name for bit, name in ((0x20, "bit 5"), (0x40, "bit 6")) if value & bit) or "neither"


def moved(picture):
    """Of scroll.asm: which of its white lines have gone up by four rows."""
    lines = [y for y in range(picture.height) if set(picture.row(y)) == {WHITE}]
    shifted = [y for y in lines if y % 8]
    return "no row" if not shifted else "every row" if len(shifted) == len(lines) else f"rows from about {shifted[0]} on"


def count_red(picture):
    return sum(pixel == RED for pixel in picture.pixels)


def size_of_sprite(picture):
    return {64: "8 x 8", 256: "16 x 16"}.get(count_red(picture), f"{count_red(picture)} pixels")


def below(picture):
    return {WHITE: "the picture", BLUE: "register 7's colour", BLACK: "black"}.get(picture.at(60, 110), "another colour")


def columns_that_stay(picture):
    """Of a screen that has gone up by four: the columns that have not, from the first on."""
    row = picture.row(100)
    stay = [x for x in range(picture.width) if row[x] == WHITE]
    return "none" if not stay else f"{stay[0]} to {stay[-1]}"


def went_right(picture):
    return "register 8" if picture.at(4, 9) == BLACK else "nothing"


def first_columns(picture):
    return "the map" if picture.at(1, 9) == WHITE else "colour 0" if picture.at(1, 9) == BLACK else "another colour"


def at_the_top(picture):
    return "its lower part" if RED in picture.row(0) else "nothing"


# ---- what is asked: words, a cartridge with its settings, and what is read off it
CASES = [
    ("first row of the new colour, changed by polling the counter for 90 (question.gg)", "question", {}, first_row(BLUE)),
    ("the same by line interrupt, register 10 at 91 (split.gg)", "split", {}, first_sea),
    ("a split by line interrupt that is to begin at row 100 (first.gg)", "first", {}, first_row(BLUE)),
    ("glow-worms of nine on one line (sprites.gg)", "sprites", {}, glow_worms),
    ("line interrupts in a frame, register 10 at 0", "count", {}, decimal(0, 2)),
    ("a change of register 9 while the counter reads 90 moves", "scroll", {"at": 90}, moved),
    ("while it reads FF", "scroll", {"at": 255}, moved),
    ("while it reads 0", "scroll", {"at": 0}, moved),
    ("status after two sprites have met in lines 1 to 8", "status", {"y": 0}, status),
    ("after nine there", "status", {"y": 0, "many": 9}, status),
    ("after two behind a background of priority", "status", {"priority": 1}, status),
    ("after nine with the display off", "status", {"many": 9, "shown": 0}, status),
    ("data behind a first command byte 05 alone, address 1000, goes to", "ports", {}, where((0, "1000"), (1, "1005"))),
    ("data behind a register write, address 1000, 05 to register 8, goes to", "ports", {}, where((2, "1000"), (3, "0805"))),
    ("a read while the palette is chosen gives, with 55 read ahead", "ports", {}, hexadecimal(4)),
    ("bits 0 to 4 of the status", "ports", {}, hexadecimal(5)),
    ("a write to register 18 (hexadecimal) sets", "bits", {"reg_18": 4}, went_right),
    ("bit 5 of register 1 set at line 208, with bit 7 of the status waiting: the interrupt comes at line", "late", {}, decimal(0)),
    ("below row 67, the display turned off there", "bits", {"away": 1}, below),
    ("a sprite with bit 0 of register 1 (zoom)", "bits", {"reg_1": 1}, size_of_sprite),
    ("columns that do not scroll up with bit 7 of register 0", "bits", {"reg_0": 0x84, "reg_9": 4, "dots": 255, "top": 208}, columns_that_stay),
    ("home machine: columns 0 to 3 with register 8 at 4", "bits", {"home": 1, "reg_8": 4}, first_columns),
    ("home machine: columns that do not scroll up with bit 7 of register 0, register 8 at 0", "bits", {"home": 1, "reg_0": 0x84, "reg_9": 4, "dots": 255, "top": 208}, columns_that_stay),
    ("the same with register 8 at 4", "bits", {"home": 1, "reg_0": 0x84, "reg_8": 4, "reg_9": 4, "dots": 255, "top": 208}, columns_that_stay),
    ("home machine: of a sprite with Y byte FB shows", "bits", {"home": 1, "top": 0xFB}, at_the_top),
]


def assembled(source, settings, folder):
    """The cartridge of a source with these settings."""
    path = HERE / f"{source}.asm" if (HERE / f"{source}.asm").exists() else CARTRIDGES / f"{source}.asm"
    text = path.read_text()
    for name, value in settings.items():
        text, count = re.subn(rf"^{name}: +equ .*$", f"{name}: equ {value}", text, flags=re.M)
        assert count == 1, (source, name)
    (folder / "game.asm").write_text(text)
    name = folder / ("game.sms" if settings.get("home") else "game.gg")
    subprocess.run(["z80asm", "-I", str(CARTRIDGES), "-I", str(HERE), "-o", str(name), str(folder / "game.asm")], check=True)
    return name


def asked(player, done):
    """What a player answers to each question; a cartridge is played once."""
    found = []
    for number, (words, source, settings, read) in enumerate(CASES):
        key = source, tuple(settings.items())
        if key not in done:
            with tempfile.TemporaryDirectory() as folder:
                folder = pathlib.Path(folder)
                done[key] = player(assembled(source, settings, folder), bool(settings.get("home")), folder)
            print(f"peers: {player.__name__}: {number + 1} of {len(CASES)}", file=sys.stderr)
        found.append(read(done[key]))
    return found


def main():
    words = sys.argv[1:]
    pages = [word for word in words if not word.startswith("--")]
    if not PLAYER.exists():
        sys.exit("peers: no build/cartridge/play: `make cartridge` makes it")
    columns = [("This chip", here)]
    if "--here" not in words:
        for name, player, found in (("MAME", mame, version(["mame", "-version"], r"^([\d.]+)")), ("mednafen", mednafen, version(["mednafen"], r"Mednafen ([\d.]+)"))):
            if found is None or player is mednafen and not shutil.which("ffmpeg"):
                print(f"peers: {name} is not installed{' (it needs ffmpeg, too)' if found else ''}: apt-get install --no-install-recommends {name.lower()} ffmpeg", file=sys.stderr)
            else:
                columns.append((f"{name} {found}", player))
    answers = [asked(player, {}) for _, player in columns]
    head = "| Measured | " + " | ".join(name for name, _ in columns) + " |\n|" + "---|" * (len(columns) + 1) + "\n"
    rows = [f"| {case[0]} | " + " | ".join(column[k] for column in answers) + " |" for k, case in enumerate(CASES)]
    table = head + "\n".join(rows) + "\n"
    print(table, end="")
    for page in map(pathlib.Path, pages):
        text = page.read_text(encoding="utf-8")
        start = text.index("| Measured | This chip |")
        end = text.index("\n\n", start) + 1
        if "--write" in words:
            page.write_text(text[:start] + table + text[end:], encoding="utf-8")
            continue
        there = text[start:end]
        if "--here" in words:
            cut = re.findall(r"^\| (.*?) \| (.*?) \|", there, re.M)[1:]
            if cut != [(case[0], answer) for case, answer in zip(CASES, answers[0])]:
                sys.exit(f"peers: {page} has another column of this chip: {set(cut) ^ {(case[0], answer) for case, answer in zip(CASES, answers[0])}}")
        elif there != table:
            sys.exit(f"peers: {page} has another table")


main()
