"""What each machine has: its screens, as the library tells them, and in one table (machines.json) the form of its palette and the words for what is written to
its registers."""
import functools
import json
import pathlib

import errors
import library
import rules

TILE = 8


class Screen:
    """A screen of 8 x 8 tiles: its size, the line that draws its row 0, and the X byte of a sprite in its column 0. What the library has as an area is one."""

    def __init__(self, area):
        self.view = rules.view_of(area) or rules.Visible
        self.columns, self.rows, self.first_line, self.left = area.columns, area.rows, area.first_line, area.left

    def early(self, registers):
        """How far to the left the early clock puts a sprite (R5.9)."""
        return 8 if registers[0] & 8 else 0

    def column(self, registers, byte):
        """The column of the left edge of a sprite with this X byte."""
        column = byte - self.left - self.early(registers)
        return column % 256 if self.view.around else column

    def byte(self, registers, column):
        """The X byte that puts a sprite there."""
        return (column + self.left + self.early(registers)) % 256

    def columns_for_sprites(self, registers):
        """The first and the last column that an X byte can put a sprite in."""
        first = 0 if self.view.around else -self.left - self.early(registers)
        return first, first + 255

    def shows(self, registers, byte):
        """Whether any column of a sprite with this X byte is drawn."""
        stand = self.view(registers, 0, 0).stand(byte)
        return stand.seen and stand.end > stand.start and stand.x < self.columns

    def rows_of(self, y, tall):
        """The lines of a sprite with this Y byte, first and last (R5.6), and the rows that it has on the screen."""
        first = (y + 1) % 256
        last = first + (15 if tall else 7)
        return (first, last), range(max(first - self.first_line, 0), min(last - self.first_line, self.rows - 1) + 1)

    @property
    def window(self):
        """The map's columns and rows that the screen shows where nothing scrolls."""
        left, top = self.left // TILE, self.first_line // TILE
        return range(left, left + self.columns // TILE), range(top, top + self.rows // TILE)

    def window_words(self):
        columns, rows = self.window
        return f"the map's columns {columns[0]} to {columns[-1]}, rows {rows[0]} to {rows[-1]}"


class Palette:
    """The form of a colour: so many bytes, with so many bits each for red (lowest), green and blue (R4.6, R20.2)."""

    def __init__(self, form):
        self.bytes, self.bits, self.asked = form["bytes"], form["bits"], form.get("asked", "")

    def upper(self, colour):
        """What a palette holds of a colour of 8 bits each."""
        return tuple(part >> 8 - self.bits for part in colour[:3])

    def stored(self, parts):
        """The bytes of a colour that `upper` gave."""
        return sum(part << self.bits * place for place, part in enumerate(parts)).to_bytes(self.bytes, "little")

    def colour(self, stored):
        """Red, green and blue of such bytes."""
        value, most = int.from_bytes(stored, "little"), (1 << self.bits) - 1
        return tuple((value >> self.bits * place & most) * 255 // most for place in range(3))

    def words(self, stored):
        return "red {}, green {}, blue {}".format(*self.colour(stored))


class Machine:
    """A machine: its chip, its screens by the area of a step, its palette, its words. What its table has not is as in that of the handheld."""

    def __init__(self, chip):
        told = data()[chip.name]
        self.chip, self.home = chip, chip is library.HOME
        self.screens = {number: Screen(area) for number, area in library.areas(chip).items()}
        self.palette, self.registers = Palette(told["palette"]), {**data()["handheld"]["registers"], **told["registers"]}
        self.said, self.programs = told["said"], told["programs"]

    def register_words(self, number, value):
        """What the rules read in a register."""
        return ", ".join(_part(part, value) for part in self.registers.get(str(number), [])) or "no rule reads it"


def _part(part, value):
    """A part of a register in words: a bit, or a number."""
    if "bit" in part:
        word = "on" if value >> part["bit"] & 1 else "off"
        return part.get(word) or f"{part['is']} {word}"
    number = (value & part.get("mask", 255)) * part.get("times", 1) + part.get("plus", 0)
    return part["say"].format(number=number, address=f"{number:04X}")


@functools.lru_cache(maxsize=None)
def data():
    path = pathlib.Path(__file__).with_name("machines.json")
    try:
        return json.loads(path.read_text(encoding="utf-8"))
    except OSError as error:
        raise errors.could_not(path, error)


@functools.lru_cache(maxsize=None)
def handheld():
    return Machine(library.HANDHELD)


@functools.lru_cache(maxsize=None)
def home():
    return Machine(library.HOME)


def machine(is_home):
    return home() if is_home else handheld()


def of(chip):
    return machine(chip is library.HOME)


def status_words(value):
    return ", ".join(words for bit, words in data()["status"] if value & bit) or "nothing"


def sprite_tile(registers, tile):
    """Which tile of video memory a sprite's tile is, with its address, and why (R5.8)."""
    bit = registers[6] >> 2 & 1
    real = tile + 256 * bit
    return f"tile {real} at {32 * real:04X} (register 6 {'has' if bit else 'has no'} bit 2)"
