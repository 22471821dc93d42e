"""A trace as records (docs/RULES.md, R7.9), and back."""
import collections

import errors
import library

WRITE, READ, STEP = b"PW", b"PR", b"LS"
LENGTHS = {WRITE: 4, READ: 3, STEP: 3}
LIMIT = 65535  # what the programs take (R7.8); the library has no limit

Record = collections.namedtuple("Record", "kind place value")  # place: the port or the area; value: of a write


class Broken(errors.Bad):
    """A record that is none; the trace up to it."""

    def __init__(self, text, before):
        super().__init__(text)
        self.before = before


def write(port, *values):
    return b"".join(WRITE + bytes([port, value]) for value in values)


def read(port):
    return READ + bytes([port])


def step(area):
    return STEP + bytes([area])


def whats_wrong(data, at, chip=library.HANDHELD):
    """Why no record stands at this offset; None where one does."""
    mark = data[at : at + 2]
    if mark not in LENGTHS:
        if len(mark) < 2 and any(known.startswith(mark) for known in LENGTHS):
            return "the record is cut: the trace ends in it"
        return f"no record begins with the bytes {mark.hex(' ').upper()}"
    if at + LENGTHS[mark] > len(data):
        return "the record is cut: the trace ends in it"
    if mark == STEP and not library.is_area(data[at + 2], chip):
        return f"a step of area {data[at + 2]}, and " + ("there is no such area" if chip.has_areas else "the home machine's steps are of area 0")
    return None


def hint(data, name):
    """What to say of text where a trace should be."""
    if not all(byte in b"\t\r\n" or 0x20 <= byte < 0x7F for byte in data[:256]):
        return ""
    if name == "standard input":
        return ". Is it a script? `-` takes a trace here: `desk make - -o -` makes one of a script"
    return ". Is it a script? The name of a script ends in .desk"


class Trace:
    """The bytes of a trace for a machine, each record of them whole; Broken where one is none, as `trace`, or for the home machine `home-trace`, prints `bad`
    and its offset."""

    def __init__(self, data, name, chip=library.HANDHELD):
        self.data, self.chip, self.count = data, chip, 0
        known, at = set(library.areas(chip)), 0
        while at < len(data):
            mark = data[at : at + 2]
            length = LENGTHS.get(mark)
            if length is None or at + length > len(data) or (mark == STEP and data[at + 2] not in known):
                raise Broken(f"desk: {name}: byte {at}, record {self.count + 1}: {whats_wrong(data, at, chip)}{hint(data, name) if at == 0 else ''}", Trace(data[:at], name, chip))
            self.count += 1
            at += length

    def __iter__(self):
        data, at = self.data, 0
        while at < len(data):
            mark = data[at : at + 2]
            yield Record(mark, data[at + 2], data[at + 3] if mark == WRITE else 0)
            at += LENGTHS[mark]
