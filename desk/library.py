"""The proved library through its C calls: a device of either machine with its video memory, and what areas there are."""
import ctypes
import functools
import os
import types

import errors
import header

N = header.NUMBERS
VRAM = N["VRAM_SIZE"]
NO_SUCH_AREA = N["REFUSED_AREA"]
CHOSEN_VIDEO, CHOSEN_PALETTE = 1, 2  # at VDP_AT_CHOSEN

_pointer, _size, _byte = ctypes.c_void_p, ctypes.c_size_t, ctypes.c_uint8
_slice = [_pointer, _size]
# What both machines have, by the names behind their prefix; in the place of AREA stands that of a step or a pixel, where the machine has areas.
AREA = object()
CALLS = {
    "new_table": _slice + [_byte],
    "out": _slice * 2 + [ctypes.c_uint16, _byte],
    "input": _slice * 2 + [ctypes.c_uint16],
    "layer_step": _slice * 4 + [AREA],
    "layer_row_step": _slice * 4 + [AREA],
    "dump_tileset": _slice * 3,
    "pixel": _slice * 2 + [AREA, ctypes.c_uint32, ctypes.c_uint32],
}
OTHERS = {"vdp_version": [], "vdp_write_tile": _slice + [ctypes.c_uint16] + _slice}


class Chip:
    """A machine as the library has it: how its calls begin, the size of its block and what stands where in it, and whether there are areas."""

    def __init__(self, name, prefix, size, offsets, has_areas):
        self.name, self.prefix, self.size, self.offsets, self.has_areas = name, prefix, size, offsets, has_areas

    def area(self, number):
        """What a call is given for an area."""
        return [number] if self.has_areas else []

    @functools.lru_cache(maxsize=None)
    def calls(self):
        """Its calls, by the names behind their prefix."""
        library = opened()
        return types.SimpleNamespace(**{name: getattr(library, self.prefix + name) for name in CALLS})


def _offsets(prefix, below=1 << 16):
    return {name[len(prefix) :]: at for name, at in N.items() if name.startswith(prefix) and at < below}


HANDHELD = Chip("handheld", "vdp_", N["STATE_SIZE"], _offsets("AT_"), True)
# Up to its own part a home block is laid out as the handheld's.
HOME = Chip("home", "vdp_home_", N["HOME_STATE_SIZE"], {**_offsets("AT_", N["HOME_AT_VERTICAL_SCROLL"]), **_offsets("HOME_AT_")}, False)


@functools.lru_cache(maxsize=None)
def opened():
    """The shared library of `make native`, or the one that DESK_LIBRARY names."""
    path = os.environ.get("DESK_LIBRARY") or str(header.ROOT / "build" / "native" / "libvdp.so")
    if not os.path.exists(path):
        raise errors.Failed(f"desk: no {path}: `make desk` makes it")
    try:
        library = ctypes.CDLL(path)
        known = {chip.prefix + name: arguments for chip in (HANDHELD, HOME) for name, arguments in CALLS.items()}
        for name, arguments in {**known, **OTHERS}.items():
            call, area = getattr(library, name), not name.startswith(HOME.prefix)
            call.argtypes = [_byte if argument is AREA else argument for argument in arguments if area or argument is not AREA]
            call.restype = ctypes.c_uint64 if name.endswith("_pixel") else ctypes.c_uint32
    except (OSError, AttributeError) as error:
        raise errors.Failed(f"desk: {path}: {error}")
    wanted = (N["VERSION_MAJOR"] << 16) + (N["VERSION_MINOR"] << 8) + N["VERSION_SMALL"]
    if library.vdp_version() != wanted:
        raise errors.Failed(f"desk: {path} and include/vdp.h are not of one version: `make desk` makes the library again")
    return library


class Buffer:
    """Bytes that are lent to calls."""

    def __init__(self, size, data=b""):
        self.bytes = (ctypes.c_uint8 * size).from_buffer(bytearray(data.ljust(size, b"\0")))
        self.slice = (ctypes.addressof(self.bytes), size)

    def copy(self):
        return Buffer(len(self.bytes), bytes(self.bytes))


class Answer:
    """The word that a step answers, in its parts."""

    __slots__ = ("refusal", "interrupt", "report", "drawn", "row")

    def __init__(self, word):
        self.refusal = word & 0xFF
        self.interrupt = word >> 8 & 1
        self.report = word >> 9 & 3
        self.drawn = bool(word >> 24 & 1)
        self.row = word >> 16 & 0xFF


class Device:
    """A device of either machine and either line table, and its video memory."""

    def __init__(self, table=N["CHART_TABLE"], chip=HANDHELD):
        self.chip, self.calls = chip, chip.calls()
        self.state, self.vram = Buffer(chip.size), Buffer(VRAM)
        self.calls.new_table(*self.state.slice, table)

    def copy(self):
        other = object.__new__(Device)
        other.chip, other.calls, other.state, other.vram = self.chip, self.calls, self.state.copy(), self.vram.copy()
        return other

    def mark(self):
        """The state, to go back to; video memory is not in it."""
        return bytes(self.state.bytes)

    def back(self, mark):
        self.state.bytes[:] = mark

    def at(self, name, count=1):
        """The bytes of the block at VDP_AT_name, or VDP_HOME_AT_name: a number, or several as bytes."""
        start = self.chip.offsets[name]
        return self.state.bytes[start] if count == 1 else bytes(self.state.bytes[start : start + count])

    @property
    def counter(self):
        return self.at("COUNTER")

    @property
    def registers(self):
        return self.at("REGISTERS", 11)

    @property
    def address(self):
        low, high = self.at("ADDRESS", 2)
        return low + 256 * high

    def out(self, port, value):
        """The refusal of a write."""
        return self.calls.out(*self.state.slice, *self.vram.slice, port, value) & 0xFF

    def input(self, port):
        """The refusal of a read, and its byte."""
        word = self.calls.input(*self.state.slice, *self.vram.slice, port)
        return word & 0xFF, word >> 8 & 0xFF

    def step(self, frame, layers, area):
        """A step that draws its row in the frame, and the row's layers at the start of theirs."""
        return Answer(self.calls.layer_step(*self.state.slice, *self.vram.slice, *frame.slice, *layers.slice, *self.chip.area(area)))

    def row_step(self, row, layers, area):
        return Answer(self.calls.layer_row_step(*self.state.slice, *self.vram.slice, *row.slice, *layers.slice, *self.chip.area(area)))

    def pixel(self, area, row, column):
        """The four bytes of a pixel as its row would be drawn now, or None where there is none."""
        word = self.calls.pixel(*self.state.slice, *self.vram.slice, *self.chip.area(area), row, column)
        return (word >> 32).to_bytes(4, "little") if word >> 24 & 1 else None

    def dump(self, sheet):
        return self.calls.dump_tileset(*self.state.slice, *self.vram.slice, *sheet.slice) & 0xFF

    def row_now(self, area, row):
        """A row as it would be drawn now: its pixels, its layers, and the status bits that it sets. The device stays."""
        other, place, at = self.copy(), areas(self.chip)[area], self.chip.offsets
        other.state.bytes[at["STATUS"]] = 0
        other.state.bytes[at["REGISTERS"] + 9] = self.at("VERTICAL_SCROLL")  # which a step to line 0 takes
        other.state.bytes[at["COUNTER"]] = (place.first_line + row - 1) % 256
        other.state.bytes[at["JUMPED"]] = 1  # so that the next line is this row's, and no jump
        pixels, layers = place.row(), place.layers()
        answer = other.row_step(pixels, layers, area)
        assert answer.drawn and answer.row == row
        return bytes(pixels.bytes), bytes(layers.bytes), other.at("STATUS")

    def settled(self):
        """A copy whose colours are those of the palette: it has gone on to a row, and drawn it."""
        other, area = self.copy(), areas(self.chip)[0]
        row, layers = area.row(), area.layers()
        while not other.row_step(row, layers, area.number).drawn:
            pass
        return other

    def colours(self):
        """The 32 colours that a row would be drawn with now, each red, green, blue and 255."""
        cached = self.settled().at("COLOURS", 128)
        return [cached[4 * n : 4 * n + 4] for n in range(32)]


def tile_bytes(codes):
    """The 32 bytes of 64 codes, and the call's refusal."""
    vram, lent = Buffer(VRAM), Buffer(64, bytes(codes))
    refused = opened().vdp_write_tile(*vram.slice, 0, *lent.slice) & 0xFF
    return refused, bytes(vram.bytes[:32])


class Area:
    """An area as the library has it, or the one screen of the home machine: its size, the line that draws its first row, and the X byte of a sprite in its
    column 0."""

    def __init__(self, number, chip):
        self.number, self.chip = number, chip
        self.named = f"area {number}" if chip.has_areas else "the home machine"
        device = Device(chip=chip)
        self.rows = _most(lambda row: device.pixel(number, row, 0))
        self.columns = _most(lambda column: device.pixel(number, 0, column))
        # sprite 0, solid, at X 128 of the line that comes, until a row is drawn
        patterns, table = 0x2000, (device.registers[5] & 0x7E) * 128
        device.vram.bytes[patterns : patterns + 32] = b"\xff" * 32
        device.vram.bytes[table + 128] = 128
        row, layers, answer = self.row(), self.layers(), None
        while not (answer and answer.drawn):
            device.vram.bytes[table : table + 2] = bytes([device.counter, 0xD0])
            answer = device.row_step(row, layers, number)
        self.first_line = device.counter - answer.row
        self.left = 128 - bytes(layers.bytes).index(N["LAYER_SPRITE"])

    @property
    def size(self):
        return self.columns, self.rows

    def frame(self):
        return Buffer(4 * self.columns * self.rows)

    def row(self):
        return Buffer(4 * self.columns)

    def layers(self):
        return Buffer(self.columns)


def _most(there):
    count = 0
    while there(count) is not None:
        count += 1
    return count


def is_area(number, chip=HANDHELD):
    """Whether the library takes an area of this number. The home machine has none, and its steps stand in a trace as of area 0."""
    if not chip.has_areas:
        return number == 0
    device = _probe()
    return number < 256 and device.calls.pixel(*device.state.slice, *device.vram.slice, number, 0, 0) & 0xFF != NO_SUCH_AREA


@functools.lru_cache(maxsize=None)
def _probe():
    return Device()


def areas(chip=HANDHELD):
    """All that the library takes, by their numbers."""
    return _areas(chip)


@functools.lru_cache(maxsize=None)
def _areas(chip):
    found, number = {}, 0
    while number < 256 and is_area(number, chip):
        found[number] = Area(number, chip)
        number += 1
    return found
