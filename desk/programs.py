"""The proved programs, traces in and pictures out: what the desk's own pictures are held to where `--check` asks for it."""
import os

import errors
import header
import pictures
import records


def run(program, trace):
    """What a program of build/bin prints of a trace. Its exit status is 1 where that is bad or long."""
    import subprocess  # here, for it takes long to load and is seldom needed

    path = header.ROOT / "build" / "bin" / program
    if not os.path.exists(path):
        raise errors.Failed(f"desk: no {path}: `make` makes it")
    try:
        done = subprocess.run([str(path)], input=trace, stdout=subprocess.PIPE)
    except OSError as error:
        raise errors.Failed(f"desk: {program}: {error}")
    if done.returncode not in (0, 1):
        raise errors.Failed(f"desk: {program} ended with status {done.returncode}")
    return done.stdout


def short(program, trace):
    """The trace is not too long for a program."""
    if len(trace) > records.LIMIT:
        raise errors.Bad(f"desk: the trace has {len(trace):,} bytes, and `{program}` takes at most {records.LIMIT:,}")


def picture(program, trace):
    """The picture that a program draws of a trace (R7.13)."""
    short(program, trace)
    said = run(program, trace)
    kind, size, most, data = (said.split(b"\n", 3) + [b""] * 4)[:4]
    if kind != b"P6":
        raise errors.Failed(f"desk: {program} printed no picture, but: {kind.decode('latin-1')}")
    width, height = map(int, size.split())
    return pictures.Picture(width, height, data)
