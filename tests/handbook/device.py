"""What rows.py and interrupts.py share: a device of the library with the writes of a program, and steps of the visible area."""
import pathlib
import sys

root = pathlib.Path(__file__).resolve().parents[2]
sys.path.insert(0, str(root / "desk"))
import library  # noqa: E402

TABLES = {library.N["OLD_TABLE"]: library.N["OLD_PASS_STEPS"], library.N["CHART_TABLE"]: library.N["CHART_PASS_STEPS"]}
COMMAND, DATA = library.N["PORT_COMMAND"], library.N["PORT_DATA"]
AREA = library.areas()[0]


def register(number, value):
    """The writes to ports that set a register; those of a colour, and of bytes of video memory, below."""
    return [(COMMAND, value), (COMMAND, 0x80 + number)]


def colour(number, low, high):
    return [(COMMAND, 2 * number), (COMMAND, 0xC0), (DATA, low), (DATA, high)]


def video(address, values):
    return [(COMMAND, address % 256), (COMMAND, 0x40 + address // 256)] + [(DATA, value) for value in values]


class Device:
    def __init__(self, table):
        self.chip, self.row, self.layers = library.Device(table), AREA.row(), AREA.layers()

    def copy(self):
        other = object.__new__(Device)
        other.chip, other.row, other.layers = self.chip.copy(), self.row, self.layers
        return other

    def write(self, writes):
        for port, value in writes:
            assert self.chip.out(port, value) == 0

    def step(self):
        """A step: what it answers. The row that it drew is in `row`."""
        answer = self.chip.row_step(self.row, self.layers, AREA.number)
        assert answer.refusal == 0
        return answer

    @property
    def line(self):
        return self.chip.counter
