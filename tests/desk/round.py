#!/usr/bin/env python3
"""round.py [--home] TRACE TEXT ..: what `desk list` prints of each trace, together and record by record, is a script that makes the same bytes again; and
what it says of every record is what `trace` prints of it, which is in TEXT: refusal, byte, counter, interrupt, report. With --home, `desk list --home` and
`home-trace`."""
import pathlib
import re
import sys

sys.path.insert(0, str(pathlib.Path(__file__).resolve().parents[2] / "desk"))
import language  # noqa: E402
import library  # noqa: E402
import listing  # noqa: E402
import records  # noqa: E402

REPORTS = {"0": "", "1": "the screen ends", "2": "the screen ends, with the display off"}


def wrong(statement, words, line):
    """Whether a line of the listing does not say what a line of the text does."""
    kind, refusal, *rest = line.split()
    if {"w": "write", "r": "read", "s": "steps"}[kind] != statement.split()[0]:
        return True
    if kind == "s":
        counter, interrupt, report = rest
        said = [part for part in words.split(", ")[1:] if part != "an interrupt"]
        return not (refusal == "0" and re.match(rf"line {int(counter, 16)} draws ", words) and ("an interrupt" in words) == (interrupt == "1")
                    and ", ".join(said) == REPORTS[report])
    refused = re.search(r"REFUSED: refusal (\d+),", words)
    if (refused.group(1) if refused else "0") != refusal:
        return True
    if kind == "w" or refused:
        return False
    return not re.search(rf": (the line counter|the status|data): {rest[0]}\b", words)


told, home = 0, sys.argv[1:2] == ["--home"]
names = sys.argv[2 if home else 1 :]
for name, text in zip(names[::2], names[1::2]):
    trace = pathlib.Path(name).read_bytes()
    found = records.Trace(trace, name, library.HOME if home else library.HANDHELD)
    for each in (False, True):
        for table in (0, 1):
            script, _ = listing.listed(found, table, each)
            if language.made(script, name, ".", table).trace != trace:
                sys.exit(f"{name}: its listing makes another trace")
    lines = [re.fullmatch(r"(.*?) +# (.*)", line).groups() for line in script.splitlines()]
    lines = [line for line in lines if not line[0].startswith("area ") and line[0] != "home"]
    printed = pathlib.Path(text).read_text().splitlines()
    if printed[-1] != f"end {len(lines)}":
        sys.exit(f"{name}: {len(lines)} statements, and trace prints {printed[-1]}")
    for (statement, words), line in zip(lines, printed):
        if wrong(statement, words, line):
            sys.exit(f"{name}: `{statement}  # {words}`, and trace prints {line}")
    told += len(lines)
print(f"{told:,} records of {len(names) // 2} traces")
