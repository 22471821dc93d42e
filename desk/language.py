"""The language of scripts (docs/DESK.md): each statement becomes records of a trace.

The device goes along while the script is read, so that `until`, `map` and `sprite` know the counter and the registers as they stand there.
"""
import os
import re

import blocks
import errors
import files
import library
import machines
import png
import records
import unseen
from line import Wrong

COMMAND, DATA = library.N["PORT_COMMAND"], library.N["PORT_DATA"]
PASS = {library.N["OLD_TABLE"]: library.N["OLD_PASS_STEPS"], library.N["CHART_TABLE"]: library.N["CHART_PASS_STEPS"]}
LAST_LINE = 255  # of a frame: the step from it, to line 0, begins the next
CODES = r"[0-9A-Fa-f]+"
FLAGS = {"across": 2, "down": 4, "palette1": 8, "priority": 16}
MOST_ERRORS = 20
MOST_TRACE = 1 << 24  # bytes that a script makes
MOST_STATEMENTS = 1_000_000  # that are done, those of blocks each time
MOST_REPEATS = 100_000


HELP = """A script has one statement a line; # begins a comment. What goes to the chip (bytes, addresses, ports) is hexadecimal;
how many and which one (steps, lines, tiles, places) is decimal, or hexadecimal with 0x.

  reg 1 = 40                  register 1 becomes 40
  colour 3 = 0F 00            colour 3: a digit each for green and red, then 0 and blue; more pairs are the colours behind it
  palette 0 = art.png         the colours of a picture, 16 at most, become palette 0 (or 1)
  vram 2000 = FF FF 00 00     bytes from address 2000 on; `times 8` behind them sends them eight times
  tile 5 = art.png            the tiles of a picture, row by row, from tile 5 on; `art.png 3` is its tile 3 alone, `palette1` matches its
                              colours with palette 1, and `tall` takes its tiles column by column in pairs, for sprites 16 high
  tile 5 = 00333300 ..        or eight rows of eight codes; `times` goes here too
  map 6 3 = 5 across          the map's column 6, row 3 shows tile 5; flags: across, down, palette1, priority; `times 20` fills on
  map screen 0 0 = 5          the same by the screen's places, where nothing scrolls: 0 0 is its upper left corner; `times` fills its rows
  sprite 3 = 20 40 0          sprite 3 with its upper left corner in column 20, row 40 of the screen, and its tile 0. While register 6 has
                              bit 2, as on a fresh device, a sprite's tile n is tile n + 256: its tile 0 is drawn by `tile 256 = ..`
  sprite 4 end                the list of sprites ends before sprite 4
  steps 90                    90 steps
  until line 90               steps, at least one, until the line counter reads 90
  until row 66                steps, at least one, until row 66 has been drawn
  until interrupt             steps, at least one, until one of them interrupts
  frame, frames 2             steps, at least one, until the line counter reads 255, where a frame has ended; or until the second has
  pass, passes 2              as many steps as a pass has, or twice as many: on a fresh device to line 0, the first of the next frame
  area 1                      steps are of this area from here on, and so are the places of sprites
  read 7E                     a read of port 7E
  write BF = 00 40            bytes to a port, just as they are; `times` goes here too
  repeat 3 .. end             the lines between these two, three times
  include scene.desk          the statements of another script; its file is looked for beside this one
  home                        before all others: the script is for the home machine (docs/HOME.md). `colour 3 = 3F` has one byte a
                              colour, sprites have the places of its screen, and there are no areas
  change: reg 8 = 04          a statement with a label; `--without change` leaves it out (of a `repeat`, the whole block)
"""


class Refused(errors.Bad):
    """All that is wrong with a script, a line each."""

    def __init__(self, lines, status):
        super().__init__("\n".join(lines))
        self.status = status


class Full(Exception):
    """So many errors that no more are looked for."""


class Maker:
    """A script on its way to a trace."""

    def __init__(self, folder, table, wanted=None, without=()):
        self.folders, self.table, self.wanted, self.pass_steps = [folder], table, wanted, PASS[table]
        self.without, self.labels = set(without), {None}
        self.statements, self.trace = 0, bytearray()
        self.unseen, self.place = unseen.Unseen(), ""
        self.wrong, self.status = [], 1
        self.on(machines.handheld())

    def on(self, machine):
        """The script is for this machine, and a fresh device goes along."""
        self.machine, self.device = machine, library.Device(self.table, machine.chip)
        self.of_area(0)

    def of_area(self, number):
        """Steps are of this area from here on; what they draw into."""
        area = library.areas(self.machine.chip)[number]
        self.area, self.screen = number, self.machine.screens[number]
        self.row, self.layers = area.row(), area.layers()

    # ---- lines and blocks
    def error(self, place, error):
        self.wrong.append(f"{place}:{error.column}: {error}")
        self.status = max(self.status, error.status)
        if error.last:
            raise Full
        if len(self.wrong) == MOST_ERRORS:
            self.wrong.append(f"{place.rpartition(':')[0]}: more errors are not shown")
            raise Full

    def run(self, text, name):
        """All the statements of a script."""
        self.block(blocks.parsed(text, errors.shown(name)))

    def block(self, statements):
        for statement in statements:
            label = statement.line and statement.line.label
            self.labels.add(label)
            if label in self.without:
                continue
            self.place = statement.place
            try:
                self.statement(statement)
            except Wrong as error:
                self.error(statement.place, error)

    def statement(self, statement):
        if statement.wrong:
            raise statement.wrong
        line = statement.line.again()
        first = line.take("a statement")
        word = "colour" if first.text == "color" else first.text
        if first.quoted or word not in STATEMENTS:
            raise Wrong(first.column, f"{first} is no statement: {', '.join(STATEMENTS)}")
        if word not in ("home", "include") and self.wanted not in (None, self.machine) and not self.wrong:  # an `include` that failed may have had it
            raise Wrong(first.column, other_machine(self.machine), last=True)
        self.statements += 1
        if self.statements > MOST_STATEMENTS:
            raise Wrong(first.column, f"more than {MOST_STATEMENTS:,} statements", last=True)
        if word == "repeat":
            self.repeat(line, statement.body)
        else:
            getattr(self, "do_" + word)(line)

    def repeat(self, line, body):
        times = line.number("how many times", MOST_REPEATS, 1)
        line.close()
        before = len(self.wrong)
        for _ in range(times):
            self.block(body)
            if len(self.wrong) > before:
                break  # the same once more would be told again

    def do_include(self, line):
        token = line.take("a script")
        line.close()
        if len(self.folders) > blocks.MOST_DEEP:
            raise Wrong(token.column, f"more than {blocks.MOST_DEEP} scripts in one another: does this one include itself?", last=True)
        path = os.path.join(self.folders[-1], token.text)
        try:
            text = files.text(path)
        except errors.Failed as error:
            raise Wrong(token.column, _behind(error), 2)
        self.folders.append(os.path.dirname(path))
        self.run(text, path)
        self.folders.pop()

    # ---- what the statements are made of
    def room(self, line, count):
        """The trace may go on by so many bytes."""
        if len(self.trace) + count > MOST_TRACE:
            raise Wrong(line.found[0].column, f"the trace becomes longer than {MOST_TRACE:,} bytes", last=True)

    def write(self, line, port, values):
        self.room(line, records.LENGTHS[records.WRITE] * len(values))
        if port == DATA and self.device.at("CHOSEN") == library.CHOSEN_VIDEO:
            self.unseen.wrote(self.device.address, len(values), self.place)
        for value in values:
            self.device.out(port, value)
        self.trace += records.write(port, *values)

    def command(self, line, first, second):
        if self.device.at("COMMAND_LATCHED"):
            raise Wrong(line.found[0].column, "a command byte waits for its second (`write BF`): the chip would take this line for it")
        self.write(line, COMMAND, [first, second])

    def video(self, line, address, values):
        self.command(line, address % 256, 0x40 + address // 256)
        self.write(line, DATA, values)

    def colours(self, line, number, stored):
        """Bytes of the palette, from this colour on."""
        self.command(line, self.machine.palette.bytes * number, 0xC0)
        self.write(line, DATA, stored)

    def step(self, line, going):
        """Steps, one at least, as long as `going` says so of the answer of each and of how many there were. The last answer."""
        device, drawn, count, record = self.device, set(), 0, records.step(self.area)
        while True:
            self.room(line, len(record))
            answer = device.row_step(self.row, self.layers, self.area)
            self.trace += record
            count += 1
            if answer.drawn:
                drawn.add((answer.row, device.at("VERTICAL_SCROLL")))
            if not going(answer, count):
                break
        if drawn:
            self.unseen.drew(self.screen, device, drawn)
        return answer

    def picture(self, token):
        path = os.path.join(self.folders[-1], token.text)
        try:
            return png.read(files.read(path, files.MOST_PICTURE))
        except errors.Failed as error:
            raise Wrong(token.column, _behind(error), 2)
        except errors.Bad as error:
            raise Wrong(token.column, f"{errors.printable(path)}: {_behind(error, path)}")

    def path(self, token):
        return errors.printable(os.path.join(self.folders[-1], token.text))

    # ---- the statements
    def do_reg(self, line):
        number = line.number("the register", 10)
        line.must("=")
        value = line.hexadecimal("its byte", 255)
        line.close()
        self.command(line, value, 0x80 + number)

    def do_colour(self, line):
        number = line.number("the colour", 31)
        line.must("=")
        start = line.peek()
        values = line.bytes("a byte of a colour")
        line.close()
        count, rest = divmod(len(values), self.machine.palette.bytes)
        if rest:
            raise Wrong(line.end, self.machine.palette.asked)
        if number + count > 32:
            raise Wrong(start.column, f"{count} colours from {number} on: there are 32")
        self.colours(line, number, values)

    def do_palette(self, line):
        number = line.number("the palette", 1)
        line.must("=")
        token = line.take("a PNG file")
        line.close()
        image, upper = self.picture(token), self.machine.palette.upper
        if image.palette is not None:
            colours = [upper(colour) for colour in image.palette[: max(image.pixels) + 1]]
        else:
            # code 0 stays for what cannot be seen, where there is such a pixel
            colours = [(0, 0, 0)] * image.clear() + list(dict.fromkeys(upper(pixel) for pixel in image.pixels if pixel[3]))
        if len(colours) > 16:
            raise Wrong(token.column, f"{self.path(token)}: {len(colours)} colours, and a palette has 16")
        self.colours(line, 16 * number, [byte for colour in colours for byte in self.machine.palette.stored(colour)])

    def do_vram(self, line):
        address = line.hexadecimal("the address", library.VRAM - 1)
        line.must("=")
        start = line.peek()
        values, times = line.bytes("a byte"), line.times()
        line.close()
        count = len(values) * times
        if address + count > library.VRAM:
            raise Wrong(start.column, f"{count:,} bytes from {address:04X} on go past the end of video memory, {library.VRAM - 1:04X}")
        self.video(line, address, values * times)

    def do_tile(self, line):
        number = line.number("the tile", 511)
        line.must("=")
        token = line.take("a PNG file, or eight words of eight codes")
        # a word of codes, of the right length or not; and one that is meant so, as no file has its name
        if not token.quoted and (re.fullmatch(CODES, token.text) or not re.search(r"[./]", token.text) and not files.there(os.path.join(self.folders[-1], token.text))):
            tiles = [self.codes(line, token)]
        else:
            tiles = self.sheet(line, token)
        if number + len(tiles) > 512:
            raise Wrong(token.column, f"{len(tiles)} tiles from {number} on: there are 512")
        data = b""
        for codes in tiles:
            refused, made = library.tile_bytes(codes)
            assert not refused
            data += made
        self.video(line, 32 * number, data)

    def codes(self, line, token):
        words = []
        while True:
            if token.quoted or not re.fullmatch(CODES, token.text):
                raise Wrong(token.column, f"{token}: a row of a tile is eight codes, 0 to F" + ("" if words else "; and no file has this name"))
            if len(token.text) != 8:
                raise Wrong(token.column, f"{token}: a row of a tile is eight codes, 0 to F, and here are {len(token.text)}")
            words.append(token.text)
            if not line.peek() or line.peek().text == "times":
                break
            token = line.take("a row of the tile")
        times = line.times()
        line.close()
        if len(words) * times != 8:
            raise Wrong(line.end, f"a tile has 8 rows, and here are {len(words) * times:,}")
        return [int(code, 16) for code in "".join(words * times)]

    def sheet(self, line, token):
        """The tiles of a picture, row by row or in pairs, or one of them. By palette number; else by the device's colours, those of palette 1 where it says so."""
        image, name = self.picture(token), self.path(token)
        if image.width % 8 or image.height % 8:
            raise Wrong(token.column, f"{name}: {image.width} x {image.height}, and both must be multiples of 8")
        only, palette, tall = None, 0, False
        while line.peek():
            if line.word("palette1"):
                palette = 16
            elif line.word("tall"):
                tall = True
            elif only is None:
                only = line.number("the tile of the sheet", image.width * image.height // 64 - 1)
            else:
                line.close()
        if tall and image.height % 16:
            raise Wrong(token.column, f"{name}: {image.width} x {image.height}, and with `tall` the height must be a multiple of 16")
        places = tile_places(image.width // 8, image.height // 8, tall)
        if only is not None:
            places = [places[only]]
        elif len(places) > 512:
            raise Wrong(token.column, f"{name}: {len(places):,} tiles, and there are 512: behind the file its tile can be named")
        shown = {}
        if image.palette is None:
            colours = self.device.colours()
            # of two that are the same the first counts; code 0 stays for what cannot be seen, where there is such a pixel
            for code in reversed(range(image.clear(), 16)):
                shown[self.machine.palette.upper(colours[palette + code])] = code
        return [[self.code(image, 8 * across + k % 8, 8 * down + k // 8, shown, token, name) for k in range(64)] for across, down in places]

    def code(self, image, x, y, shown, token, name):
        pixel = image.pixels[y * image.width + x]
        if image.palette is not None:
            if pixel > 15:
                raise Wrong(token.column, f"{name}: the pixel at column {x}, row {y} has number {pixel} of the picture's palette, and a code is at most 15")
            return pixel
        if pixel[3] == 0:
            return 0
        code = shown.get(self.machine.palette.upper(pixel))
        if code is None:
            red, green, blue = pixel[:3]
            raise Wrong(token.column, f"{name}: the pixel at column {x}, row {y} is red {red}, green {green}, blue {blue}, and no colour of the device's palette is")
        return code

    def do_map(self, line):
        window = self.screen.window if line.word("screen") else None
        columns, rows = window or (range(32), range(28))
        whose = "by tiles, the screen's" if window else "the map's"
        x, y = line.number(f"{whose} column", len(columns) - 1), line.number(f"{whose} row", len(rows) - 1)
        line.must("=")
        start = line.peek()
        tile, flags = line.number("the tile", 511), 0
        while line.peek() and line.peek().text != "times":
            token = line.word(*FLAGS)
            if token is None:
                raise Wrong(line.peek().column, f"{line.peek()}: behind the tile stand {', '.join(FLAGS)} or `times`")
            flags |= FLAGS[token.text]
        times = line.times()
        line.close()
        first = len(columns) * y + x
        if first + times > len(columns) * len(rows):
            raise Wrong(start.column, f"{times} entries from column {x}, row {y} on go past the end of the {'screen' if window else 'map'}")
        base = (self.device.registers[2] & 0x0E) * 1024
        places = [base + 2 * (32 * rows[k // len(columns)] + columns[k % len(columns)]) for k in range(first, first + times)]
        self.unseen.mapped(self.place, places, self.screen)
        # entries that stand side by side go in one go
        starts = [k for k, address in enumerate(places) if k == 0 or address != places[k - 1] + 2]
        for at, behind in zip(starts, starts[1:] + [len(places)]):
            self.video(line, places[at], [tile % 256, tile // 256 | flags] * (behind - at))

    def do_sprite(self, line):
        number = line.number("the sprite", 63)
        registers = self.device.registers
        table = (registers[5] & 0x7E) * 128
        if line.word("end"):
            line.close()
            self.video(line, table + number, [0xD0])
            return
        line.must("=")
        least, most = self.screen.columns_for_sprites(registers)
        x = line.number("its column", most, least)
        token = line.peek()
        y = line.number("its row", 255 - self.screen.first_line, -self.screen.first_line)
        tile = line.number("its tile", 255)
        line.close()
        top = (y + self.screen.first_line - 1) % 256
        if top == 0xD0:
            raise Wrong(token.column, f"row {y} makes the Y byte D0, which ends the list of sprites: `sprite {number} end` says so")
        self.video(line, table + number, [top])
        self.video(line, table + 128 + 2 * number, [self.screen.byte(registers, x), tile])

    def steps(self, line, count):
        self.room(line, count * records.LENGTHS[records.STEP])
        self.step(line, lambda answer, done: done < count)

    def do_steps(self, line):
        count = line.number("how many steps", 1000000, 1)
        line.close()
        self.steps(line, count)

    def do_pass(self, line):
        line.close()
        self.steps(line, self.pass_steps)

    def do_passes(self, line):
        count = line.number("how many passes", 10000, 1)
        line.close()
        self.steps(line, count * self.pass_steps)

    def frames(self, line, count):
        for _ in range(count):
            self.step(line, lambda answer, done: self.device.counter != LAST_LINE)

    def do_frame(self, line):
        line.close()
        self.frames(line, 1)

    def do_frames(self, line):
        count = line.number("how many frames", 10000, 1)
        line.close()
        self.frames(line, count)

    def do_until(self, line):
        token = line.take("`line`, `row` or `interrupt`")
        if token.text == "line" and not token.quoted:
            wanted = line.number("the line", 255)
            line.close()
            self.step(line, lambda answer, done: self.device.counter != wanted)
        elif token.text == "row" and not token.quoted:
            wanted = line.number("the row", self.screen.rows - 1)
            line.close()
            self.step(line, lambda answer, done: not answer.drawn or answer.row != wanted)
        elif token.text == "interrupt" and not token.quoted:
            line.close()
            last = self.step(line, lambda answer, done: not answer.interrupt and done < 2 * self.pass_steps)
            if not last.interrupt:
                raise Wrong(token.column, "no interrupt comes in two passes: bit 4 of register 0 turns on those of lines, bit 5 of register 1 that of the screen's end")
        else:
            raise Wrong(token.column, f"{token} where `line`, `row` or `interrupt` should be")

    def do_read(self, line):
        port = line.hexadecimal("the port", 255)
        times = line.times()
        line.close()
        self.room(line, times * records.LENGTHS[records.READ])
        for _ in range(times):
            self.device.input(port)
            self.trace += records.read(port)

    def do_write(self, line):
        port = line.hexadecimal("the port", 255)
        line.must("=")
        values, times = line.bytes("a byte"), line.times()
        line.close()
        self.room(line, records.LENGTHS[records.WRITE] * len(values) * times)
        self.write(line, port, values * times)

    def do_home(self, line):
        line.close()
        if self.machine.home or self.statements != len(self.folders):  # but for the `include` of each script that is open
            raise Wrong(line.found[0].column, "`home` stands before all other statements", last=True)
        if self.wanted not in (None, machines.home()):
            raise Wrong(line.found[0].column, other_machine(machines.home()), last=True)
        self.on(machines.home())

    def do_area(self, line):
        if self.machine.home:
            raise Wrong(line.found[0].column, "the home machine has one picture, and no areas")
        token = line.peek()
        number = line.number("the area", 255)
        line.close()
        if not library.is_area(number):
            raise Wrong(token.column, f"area {number}: the library has no such area")
        self.of_area(number)


STATEMENTS = sorted([name[3:] for name in dir(Maker) if name.startswith("do_")] + ["repeat", "end"])


def other_machine(machine):
    """What is told of a script for this machine, where the other one was asked for."""
    if machine.home:
        return "the script is for the home machine: --home takes it"
    return "the script is for the handheld, as no `home` stands before all other statements: without --home it is taken, or with --home the trace that `desk make` makes of it"


def _behind(error, name=None):
    """The words of an error without the desk's name, and without the file's where that stands before it already."""
    text = str(error)
    text = text[len("desk: ") :] if text.startswith("desk: ") else text
    return text[len(f"{errors.printable(name)}: ") :] if name is not None and text.startswith(f"{errors.printable(name)}: ") else text


def tile_places(across, down, tall):
    """The tiles of a sheet of so many, each by column and row of tiles, in their order: row by row, or in pairs, one above the other, column by column."""
    if not tall:
        return [(x, y) for y in range(down) for x in range(across)]
    return [(x, y + half) for y in range(0, down, 2) for x in range(across) for half in (0, 1)]


class Made:
    """What a script makes: a trace, the machine that it is for, and the notes to its author."""

    def __init__(self, maker):
        self.trace, self.machine = bytes(maker.trace), maker.machine
        self.notes = [f"{place}: {words}" if place else words for place, words in maker.unseen.notes()]


def made(text, name, folder, table, wanted=None, without=()):
    """What a script makes, for the machine that is wanted, or for either. Refused, with every error by line and column, where something is wrong."""
    maker = Maker(str(folder), table, wanted, without)
    try:
        maker.run(text, name)
    except Full:
        pass
    if maker.wrong:
        raise Refused(maker.wrong, maker.status)
    if wanted not in (None, maker.machine):  # which a script with no statements has not told
        raise errors.Bad(f"desk: {errors.shown(name)}: {other_machine(maker.machine)}")
    for label in without:
        if label not in maker.labels:
            there = ", ".join(sorted(maker.labels - {None})) or "none"
            raise errors.Bad(f"desk: {errors.shown(name)}: no line has the label `{errors.printable(label)}`; labels there are: {there}")
    return Made(maker)


def script(name, table, wanted=None, without=()):
    """The same of a file, or of standard input."""
    return made(files.text(name), name, "" if name == "-" else os.path.dirname(name), table, wanted, without)
