#!/usr/bin/env python3
"""hostile.py COUNT SEED FOLDER: the desk on bad input of every kind: cases that once ended in a traceback, and COUNT scripts and calls made from a seed, of words
that are wrong, much too long or out of place. Each ends with status 0, 1 or 2, soon, with no traceback and with no more memory than there is; where it fails
it says why and leaves no file behind."""
import contextlib
import io
import os
import pathlib
import random
import resource
import signal
import subprocess
import sys
import time

root = pathlib.Path(__file__).resolve().parents[2]
sys.path.insert(0, str(root / "desk"))
import arguments  # noqa: E402
import language  # noqa: E402

count, seed, folder = int(sys.argv[1]), int(sys.argv[2]), pathlib.Path(sys.argv[3])
folder.mkdir(parents=True, exist_ok=True)
os.chdir(folder)
DESK = str(root / "build" / "bin" / "desk")
MEMORY, SECONDS = 1 << 30, 20
OUTPUT, LONG = "out.png", "n" * 250
# so that long scripts are met soon
language.MOST_TRACE, language.MOST_STATEMENTS = 1 << 20, 20_000


class Closed(io.TextIOWrapper):
    """Standard output or error, in memory, as the desk sets them up."""

    def __init__(self):
        super().__init__(io.BytesIO(), encoding="utf-8", errors="backslashreplace", write_through=True)

    def text(self):
        return self.buffer.getvalue().decode("utf-8", "replace")


def called(words, what):
    """The status of a call, and what it says on standard error."""
    out, err, began = Closed(), Closed(), time.monotonic()
    before = set(os.listdir("."))
    with contextlib.redirect_stdout(out), contextlib.redirect_stderr(err):
        try:
            status = arguments.called(words)
        except BaseException as error:
            import traceback

            traceback.print_exc(file=sys.__stderr__)
            sys.exit(f"{what!r}, {words!r}: {type(error).__name__}")
    said = err.text()
    if status not in (0, 1, 2) or (status and not said.strip()) or "Traceback" in said or "memory for this" in said or time.monotonic() - began > SECONDS:
        sys.exit(f"{what!r}, {words!r}: status {status} after {time.monotonic() - began:.1f} s, and it says {said[:2000]!r}")
    left = set(os.listdir(".")) - before - ({OUTPUT, LONG} if status == 0 else set())
    if left:
        sys.exit(f"{what!r}, {words!r}: status {status}, and it leaves {left}")
    for name in (OUTPUT, LONG):
        if os.path.exists(name):
            os.unlink(name)
    return status, said


def script(text, *words):
    pathlib.Path("q.desk").write_bytes(text if isinstance(text, bytes) else text.encode("utf-8", "surrogateescape"))
    return called(list(words) or ["make", "q.desk", "-o", OUTPUT], text[:200])


def process(words, **more):
    """The desk as a process of its own."""
    return subprocess.run([DESK, *words], stdout=subprocess.PIPE, stderr=subprocess.PIPE, timeout=SECONDS, **more)


def wrong(what):
    sys.exit(f"hostile.py: {what}")


# ---- what once went wrong
soft, hard = resource.getrlimit(resource.RLIMIT_AS)
resource.setrlimit(resource.RLIMIT_AS, (MEMORY, hard))
split, script_there = str(root / "tests" / "traces" / "split90.trace"), str(root / "docs" / "scripts" / "flicker.desk")
many = " ".join(["FF"] * 100_000)
CASES = [  # a script and the words of a call, and what it says
    ("steps 1", ["show", "q.desk", "--area", "256", "-o", OUTPUT], "area 256: the library has no such area"),
    ("steps 1", ["show", "q.desk", "-o", ""], "-o: the name of a file is missing behind it"),
    ("steps 1", ["show", "q.desk", "-o", "q.desk"], "the output is an input"),
    ("steps 1", ["make", "q.desk", "-o", "./q.desk"], "the output is an input"),
    ("steps 1", ["sprites", "q.desk", "--sprite", "64"], "argument --sprite: `64` is no number from 0 to 63"),
    ('tile 1 = "a\0b.png"', [], "no file can have this name"),
    ("tile 1 = a\0b", [], "a row of a tile is eight codes"),
    ('include "a\0b"', [], "no file can have this name"),
    ("steps " + "9" * 4301, [], "how many steps is a number from 1 to 1,000,000"),
    ("vram 0 = " + many + " times 65536", [], "6,553,600,000 bytes from 0000 on go past the end of video memory"),
    ("write BE = " + many + " times 65536", [], "the trace becomes longer than"),
    ("tile 1 = " + " ".join(["00000000"] * 100_000) + " times 65536", [], "a tile has 8 rows, and here are 6,553,600,000"),
    ("tile 1 = /dev/zero", [], "it has more than 16,777,216 bytes"),
    ("palette 0 = /dev/zero", [], "it has more than 16,777,216 bytes"),
    ("include /dev/zero", [], "it has more than 16,777,216 bytes"),
    ("include q.desk", [], "does this one include itself?"),
    ("passes 90", ["differ", "q.desk", split, "--scale", "64", "-o", OUTPUT], "too large: a smaller --scale"),
    ("passes 90", ["show", "q.desk", "--scale", "64", "-o", OUTPUT], "too large: a smaller --scale"),
    ("steps 1", ["show", "q.desk", "-o", LONG], ""),
]
for text, words, said in CASES:
    status, err = script(text, *words)
    if said not in err or (status == 0) != (not said):
        wrong(f"{text[:80]!r}, {words}: status {status}, and it says {err[:300]!r}, not {said!r}")
resource.setrlimit(resource.RLIMIT_AS, (soft, hard))
# names: bytes that are no text, and a line break, by any encoding of the terminal
odd = b"a\xff\nb.desk"
with open(odd, "wb") as file:
    file.write(b"steps 3\n")
for locale in ("C", "C.UTF-8", "POSIX"):
    done = process([b"make", odd, b"-o", b"\xfe.trace"], env=dict(os.environ, LC_ALL=locale, PYTHONIOENCODING="ascii"))
    if done.returncode or not os.path.exists(b"\xfe.trace") or b"\\xFE.trace: 9 bytes" not in done.stdout or done.stderr:
        wrong(f"an output's name that is no text, {locale}: {done}")
    os.unlink(b"\xfe.trace")
done = process([b"list", odd])
pathlib.Path("again.desk").write_bytes(done.stdout)
if process(["make", "again.desk", "-o", "-"]).stdout != b"LS\0" * 3:
    wrong(f"the listing of a file whose name has a line break is no script: {done.stdout!r}")
os.unlink(odd)
os.unlink("again.desk")
done = process(["list", b"none\xff\n"])
if done.returncode != 2 or done.stderr != b"desk: none\\xFF\\n: No such file or directory\n":
    wrong(f"a name that is no text: {done}")
# Ctrl-C, from the first moment on
stopped = set()
for moment in range(12):
    with subprocess.Popen([DESK, "make", "long.desk", "-o", OUTPUT], stdout=subprocess.PIPE, stderr=subprocess.PIPE) as running:
        if moment == 0:
            pathlib.Path("long.desk").write_text("passes 10000\n")
        time.sleep(moment * 0.025)
        while True:
            running.send_signal(signal.SIGINT)
            try:
                out, err = running.communicate(timeout=0.3)
                break
            except subprocess.TimeoutExpired:  # it came while files were loaded, and is passed over
                continue
    stopped.add(err)
    if err not in (b"", b"desk: stopped\n", b"desk: long.desk: No such file or directory\n") or os.path.exists(OUTPUT):
        wrong(f"Ctrl-C after {moment * 25} ms: {running.returncode}, {err!r}")
if b"desk: stopped\n" not in stopped:
    wrong("Ctrl-C has stopped nothing")
os.unlink("long.desk")

# ---- scripts and calls by chance
pick = random.Random(seed)
NUMBERS = ["0", "1", "-1", "7", "8", "24", "90", "144", "255", "256", "0x10", "0xFFFF", "65536", "1000001", "9" * 30, "1e3", "٣", "1_0", "+1", "", "3.5"]
WORDS = ["=", "==", "times", "end", "across", "palette1", "tall", "screen", "line", "row", "interrupt", "FF", "00000000", "1234567", "GG", '"', '"a b"', '""', "#", "\t", "\r", "é", "\0", "\x1b[2J",
         "\u2028", "\udcff", "x:", ":", "..", "/", "q.desk", "q.png", "/dev/null", "/dev/zero", "none.png", "-", "A" * 300, "=" * 50]
PNGS = sorted((root / "docs").glob("*.png"))


def word():
    kind = pick.random()
    if kind < 0.45:
        return pick.choice(NUMBERS)
    if kind < 0.9:
        return pick.choice(WORDS)
    return "".join(chr(pick.choice((pick.randrange(256), pick.randrange(32, 127)))) for _ in range(pick.randrange(1, 12)))


GOOD = ["reg {} = 40", "reg 1 = {}", "colour {} = 0F 00", "colour 3 = {} {}", "palette {} = {}", "vram {} = FF {} times {}", "tile {} = {}", "tile 5 = 00000000 times {}", "tile 5 = q.png {} {}", "map {} {} = {} {}",
        "map screen {} {} = 3 times {}", "sprite {} = {} {} {}", "sprite {} end", "steps {}", "until {} {}", "passes {}", "frames {}", "area {}", "read {} times {}", "write {} = {} {}", "repeat {}", "end", "include {}", "home", "{}: {} {}",
        "pass", "sprite 0 = 0 0 0", "reg 0 = 18", "until interrupt", "until row 3", "write BF = 00"]


def hostile_script():
    lines = []
    for _ in range(pick.randrange(1, 9)):
        form = pick.choice(GOOD)
        lines.append(form.format(*(word() for _ in range(form.count("{}")))) if pick.random() < 0.85 else " ".join(word() for _ in range(pick.randrange(5))))
    return "\n".join(lines)


def hostile_trace():
    parts = [b"LS\0", b"LS\1", b"LS\2", b"LS\3", b"PW\xbf", b"PW\xbe\0", b"PR\x7e", b"PW\xbf\x40PW\xbf\x81", b"XX", b"", b"\n", b"reg 1"]
    return b"".join(pick.choice(parts) * pick.choice((1, 1, 2, 200)) for _ in range(pick.randrange(12)))


def hostile_png():
    data = bytearray(pick.choice(PNGS).read_bytes())
    for _ in range(pick.randrange(4)):
        data[pick.randrange(len(data))] = pick.randrange(256)
    return bytes(data[: pick.randrange(len(data)) if pick.random() < 0.2 else len(data)])


COMMANDS = ["make", "list", "interrupts", "show", "differ", "pixel", "sprites", "tiles", "palette", "frob", ""]
OPTIONS = ["--table", "--without", "--frame", "--area", "--scale", "--sprite", "--grid", "--rulers", "--layers", "--check", "--home", "--sides", "--now", "--each", "--fresh", "--progress", "--help", "--", "-x"]
VALUES = {"--table", "--without", "--frame", "--area", "--scale", "--sprite"}


RIGHT = ["list", "list --each", "interrupts", "show -o out.png", "show --layers --rulers --grid -o out.png", "differ --sides -o out.png " + script_there, "pixel 44 45", "sprites", "sprites 44", "tiles -o out.png", "palette"]


def hostile_words():
    """The words of a call: half of them right ones, with an option or two that may not be."""
    if pick.random() < 0.5:
        command, *rest = pick.choice(RIGHT).split()
        words = [command, pick.choice(["q.desk", "q.trace", split, script_there]), *rest]
    else:
        words = [pick.choice(COMMANDS), pick.choice(["q.desk", "q.trace", split, script_there, "none", "", "."])]
        words += [pick.choice(NUMBERS) for _ in range(pick.choice((0, 0, 1, 2)))]
    for _ in range(pick.choice((0, 0, 1, 2, 3))):
        option = pick.choice(OPTIONS)
        words += [option] + ([pick.choice(NUMBERS + ["x", "change"])] if option in VALUES else [])
    if pick.random() < 0.4:
        words += ["-o", pick.choice([OUTPUT, OUTPUT, "", ".", "none/x", "q.desk", "/dev/null"])]
    return words


resource.setrlimit(resource.RLIMIT_AS, (MEMORY, hard))
statuses = {0: 0, 1: 0, 2: 0}
for number in range(count):
    pathlib.Path("q.desk").write_bytes(hostile_script().encode("utf-8", "surrogateescape"))
    pathlib.Path("q.trace").write_bytes(hostile_trace())
    pathlib.Path("q.png").write_bytes(hostile_png())
    for words in (["make", "q.desk", "-o", OUTPUT], hostile_words(), hostile_words()):
        status, _ = called(words, pathlib.Path("q.desk").read_bytes())
        statuses[status] += 1
print(f"{len(CASES)} cases, Ctrl-C at 12 moments, and {sum(statuses.values()):,} by chance: {', '.join(f'{number:,} with status {status}' for status, number in statuses.items())}")
sys.exit(0 if all(statuses.values()) else "a status never came")
