"""The native side of the tests: what the desk and the library of `make native` say of the same traces."""
import base64
import contextlib
import functools
import io
import pathlib
import sys

ROOT = pathlib.Path(__file__).resolve().parents[2]
sys.path.insert(0, str(ROOT / "desk"))
import arguments  # noqa: E402
import commands  # noqa: E402
import difference  # noqa: E402,F401
import language  # noqa: E402
import library  # noqa: E402
import listing  # noqa: E402
import play  # noqa: E402
import png  # noqa: E402,F401
import programs  # noqa: E402,F401
import records  # noqa: E402

COMMAND, DATA = 0xBF, 0xBE


def encoded(data):
    return base64.b64encode(bytes(data)).decode("ascii")


def desk(*words):
    """What the desk prints on standard output."""
    out = io.StringIO()
    with contextlib.redirect_stdout(out), contextlib.redirect_stderr(io.StringIO()):
        status = arguments.called([str(word) for word in words])
    if status:
        sys.exit(f"desk {' '.join(map(str, words))}: status {status}")
    return out.getvalue()


def trace(path):
    """The bytes of a trace, or of a script those that it makes."""
    return language.script(str(path), 1).trace if path.suffix == ".desk" else path.read_bytes()


def scripts(home):
    """The scripts of docs/scripts for either machine."""
    return [path for path in sorted((ROOT / "docs" / "scripts").glob("*.desk")) if language.script(str(path), 1).machine.home == home]


@functools.lru_cache(maxsize=None)
def sources():
    """The handheld's scripts and traces, as names and bytes."""
    return [(path, trace(path)) for path in scripts(False) + sorted((ROOT / "tests" / "traces").glob("*.trace"))]


def as_area(data, area):
    """The trace with every step of this area."""
    made = b""
    for record in records.Trace(data, "trace"):
        made += records.step(area) if record.kind == records.STEP else records.write(record.place, record.value) if record.kind == records.WRITE else records.read(record.place)
    return made


def frames(data, table=1, area=None, chip=library.HANDHELD):
    """The frames of a trace: the area that is looked at, and of each frame red, green and blue of its pixels, and its layers."""
    run = play.Run(records.Trace(data, "trace", chip), table, play.ALL)
    seen = run.area(area)
    kept = run.frames(seen)
    return seen, [(commands.plain(frame, False).data, frame.layers) for _, frame in sorted(kept.items())]


def insertion(data, frame, line, chip=library.HANDHELD):
    """The offset of the step that leaves this line in this frame's pass, by a device of our own beside the records; None where the counter never reads so."""
    device, area = library.Device(1, chip), library.areas(chip)[0]
    row, layers = area.row(), area.layers()
    at, number, met = 0, 1, frame == 1 and line == 0
    for record in records.Trace(data, "trace", chip):
        if record.kind == records.STEP:
            if met:
                return at
            if device.counter == 255:
                number += 1
            device.row_step(row, layers, 0)
            met = number == frame and device.counter == line
        elif record.kind == records.WRITE:
            device.out(record.place, record.value)
        else:
            device.input(record.place)
        at += records.LENGTHS[record.kind]
    return at if met else None


def change(kind, index, value):
    """The records of a change; a colour has as many bytes as its value."""
    if kind == "register":
        return records.write(COMMAND, value[0], 0x80 + index)
    address = (len(value) * index, 0xC0) if kind == "colour" else (index % 256, 0x40 + index // 256)
    return records.write(COMMAND, *address) + records.write(DATA, *value)
