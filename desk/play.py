"""A trace run on a device: its frames, one for each pass, or the device as it stood at one of its rows."""
import sys
import time

import difference
import errors
import layers
import library
import records

DISPLAY_OFF = library.N["SCREEN_DONE_NO_REFRESH"]
LAST_LINE = 255  # the step from it begins a pass
FIRST_LINE = 0
ALL = 0  # frames to keep
MOST = 1000  # that are kept


class Progress:
    """Lines on standard error while something takes long, or from the start where it is asked for; ever fewer of them."""

    PATIENCE, FIRST, SLOWER = 2.0, 1.0, 1.5  # seconds, seconds, times

    def __init__(self, asked=False):
        self.next = time.monotonic() + (0 if asked else self.PATIENCE)
        self.pause, self.told = self.FIRST, False

    def at(self, done, total, what):
        if time.monotonic() >= self.next:
            self.next = time.monotonic() + self.pause
            self.pause, self.told = self.pause * self.SLOWER, True
            print(f"desk: {done:,} of {total:,} {what}", file=sys.stderr, flush=True)

    def end(self, total, what):
        if self.told:
            print(f"desk: {total:,} of {total:,} {what}", file=sys.stderr, flush=True)


class Frame:
    """What the steps of one pass drew, over what was there before: red, green, blue and 255 of each pixel, and the layers."""

    def __init__(self, size, pixels, layers):
        self.size, self.pixels, self.layers = size, pixels, layers


class Tally:
    """Counts frames while steps come: a pass that draws a row of a screen is a frame of that screen's size. And which of them end with the display off."""

    def __init__(self):
        self.counts, self.fresh, self.off = {}, [], {}

    def began(self, line):
        """A step begins at this line: where a pass has ended, the frames that it has drawn, by size and number."""
        return self.ended() if line == LAST_LINE else []

    def ended(self):
        done, self.fresh = self.fresh, []
        for size in done:
            self.counts[size] = self.counts.get(size, 0) + 1
        return [(size, self.counts[size]) for size in done]

    def step(self, size, drawn, report):
        """A step of a screen of this size: whether it drew a row, and what it reported."""
        if drawn and size not in self.fresh:
            self.fresh.append(size)
        if report == DISPLAY_OFF:
            for size in self.fresh:
                self.off.setdefault(size, []).append(self.counts.get(size, 0) + 1)

    def now(self, size):
        """The number of the frame that is being drawn."""
        return self.counts.get(size, 0) + 1


def off_words(numbers):
    """What is to be said of frames that end with the display off."""
    if len(numbers) == 1:
        return f"frame {numbers[0]} ends with the display off; a player shows nothing new"
    return f"frames {difference.runs(numbers)} end with the display off; a player shows nothing new"


def begun_words(number):
    """What is to be said of a last frame that has row 0 alone."""
    return f"frame {number} has row 0 alone: the last step of the trace, to line 0, begins it (in a script, `frame` in place of `pass` ends before that step)"


def walked(trace, device, tally):
    """The records of a trace, done one after the other on a device: of each the answer, where it is a step, and the frames that ended before it."""
    areas = library.areas(device.chip)
    columns = max(area.columns for area in areas.values())
    row, layers = library.Buffer(4 * columns), library.Buffer(columns)
    for record in trace:
        answer, ended = None, []
        if record.kind == records.WRITE:
            device.out(record.place, record.value)
        elif record.kind == records.READ:
            device.input(record.place)
        else:
            ended = tally.began(device.counter)
            answer = device.row_step(row, layers, record.place)
            tally.step(areas[record.place].size, answer.drawn, answer.report)
        yield record, answer, ended


class Canvas:
    """The frame that the steps of one size of area draw into, and those of the finished frames that are kept, by their numbers from 1."""

    def __init__(self, area, keep):
        self.size, self.keep, self.kept = area.size, keep, {}
        self.frame, self.row_layers = area.frame(), area.layers()
        self.layers = bytearray([layers.UNDRAWN]) * (area.columns * area.rows)

    def finish(self, number):
        """A frame is done."""
        if self.keep in (ALL, number):
            self.store(number)

    def store(self, number):
        if len(self.kept) == MOST:
            raise errors.Bad(f"desk: the trace has more than {MOST:,} frames: --frame chooses one")
        self.kept[number] = Frame(self.size, bytes(self.frame.bytes), bytes(self.layers))


class Run:
    """A trace from its first record to its last. `keep` is the number of a frame, ALL of them, or only the last. `watch` is called after each step that
    draws: area, row, the frame's number, device, and the row's pixels and layers."""

    def __init__(self, trace, table, keep=None, progress=None, watch=None):
        self.device, self.keep, self.watch = library.Device(table, trace.chip), keep, watch
        self.areas, self.begun = library.areas(trace.chip), None  # begun: the size of the area whose row 0 the last step drew, to line 0
        self.canvases, self.rows_drawn = {}, {}  # by the size of an area; by an area's number
        self.tally = Tally()
        progress = progress or Progress()
        for index, record in enumerate(trace):
            if index % 4096 == 0:
                progress.at(index, trace.count, "records")
            if record.kind == records.WRITE:
                self.device.out(record.place, record.value)
            elif record.kind == records.READ:
                self.device.input(record.place)
            else:
                self.step(self.areas[record.place])
        progress.end(trace.count, "records")
        self.finish(self.tally.ended())

    def canvas(self, area):
        """Where an area of this size is drawn; one on which nothing was drawn, if none was."""
        if area.size not in self.canvases:
            self.canvases[area.size] = Canvas(area, self.keep)
        return self.canvases[area.size]

    def finish(self, frames):
        for size, number in frames:
            self.canvases[size].finish(number)

    def step(self, area):
        self.finish(self.tally.began(self.device.counter))
        canvas = self.canvas(area)
        answer = self.device.step(canvas.frame, canvas.row_layers, area.number)
        self.tally.step(area.size, answer.drawn, answer.report)
        self.begun = area.size if answer.drawn and self.device.counter == FIRST_LINE else None
        if not answer.drawn:
            return
        self.rows_drawn[area.number] = self.rows_drawn.get(area.number, 0) + 1
        start, end = answer.row * area.columns, (answer.row + 1) * area.columns
        layers = bytes(canvas.row_layers.bytes)
        canvas.layers[start:end] = layers
        if self.watch:
            self.watch(area, answer.row, self.tally.now(area.size), self.device, bytes(canvas.frame.bytes[4 * start : 4 * end]), layers)

    def area(self, asked):
        """The area to look at: the asked one; else the first that has drawn a row, those of area 0's size before the others; else area 0."""
        first = self.areas[0]
        drawn = [self.areas[number] for number in self.rows_drawn]
        return self.areas[asked] if asked is not None else min(drawn, key=lambda area: (area.size != first.size, area.number), default=first)

    def count(self, area):
        """How many frames there are; one, though nothing were drawn."""
        return max(self.tally.counts.get(area.size, 0), 1)

    def frames(self, area):
        """Those that were kept, by their numbers; the last one in any case."""
        canvas, last = self.canvas(area), self.count(area)
        if last not in canvas.kept:
            canvas.store(last)
        return canvas.kept

    def notes(self, area, only=None):
        """What is to be said of the frames of an area, or of one of them."""
        off = [number for number in self.tally.off.get(area.size, []) if only in (None, number)]
        begun = self.begun == area.size and self.count(area) > 1
        return ([off_words(off)] if off else []) + ([begun_words(self.count(area))] if begun else [])
