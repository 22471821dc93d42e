"""A trace in words: statements of the language that make the same bytes again, each with what it does."""
import header
import language
import library
import machines
import play
import records

COMMAND, DATA, LINE = language.COMMAND, language.DATA, library.N["PORT_LINE"]
REPORTS = {library.N["SCREEN_DONE"]: "the screen ends", library.N["SCREEN_DONE_NO_REFRESH"]: "the screen ends, with the display off"}
CHUNK = 16  # bytes on a line
WIDTH = 24  # of a statement, where its words begin; a longer one has them behind it


def span(first, last, word):
    return f"{word} {first}" if first == last else f"{word}s {first} to {last}"


def y_words(screen, registers, sprite, value):
    """A sprite's Y byte: the line that it begins at, and the row, where the screen shows any of it."""
    if value == 0xD0:
        return f"Y byte D0, which ends the list before sprite {sprite}"
    (first, _), rows = screen.rows_of(value, bool(registers[1] & 2))
    return f"sprite {sprite} from line {first} on, " + (f"row {first - screen.first_line}" if rows else "off the screen")


def x_words(screen, registers, sprite, x, tile):
    """A sprite's X byte and its tile."""
    column = f"X {x}, column {screen.column(registers, x)}" + ("" if screen.shows(registers, x) else ", not drawn there")
    pair = f"its tiles {tile // 2 * 2} and {tile // 2 * 2 + 1} from" if registers[1] & 2 else f"its tile {tile} is"
    return f"sprite {sprite}: {column}; {pair} {machines.sprite_tile(registers, tile // 2 * 2 if registers[1] & 2 else tile)}"


def video_words(device, screen, address, values):
    """What stands at these addresses, by the registers as they are; places of sprites are those of the screen."""
    last = address + len(values) - 1
    registers = device.registers
    table, names = (registers[5] & 0x7E) * 128, (registers[2] & 0x0E) * 1024
    where = f"{address:04X}" if address == last else f"{address:04X} to {last:04X}"
    if table <= address and last < table + 64:
        if len(values) == 1:
            return f"{where}: {y_words(screen, registers, address - table, values[0])}"
        return f"{where}: the Y bytes of {span(address - table, last - table, 'sprite')}"
    if table + 128 <= address and last < table + 256:
        first = (address - table - 128) // 2
        if len(values) == 2 and address % 2 == 0:
            return f"{where}: {x_words(screen, registers, first, *values)}"
        return f"{where}: X and tile of {span(first, (last - table - 128) // 2, 'sprite')}"
    if names <= address and last < names + 1792:
        first, end = (address - names) // 2, (last - names) // 2
        place = f"the map's column {first % 32}, row {first // 32}"
        if len(values) == 2 and address % 2 == 0:
            flags = [word for word, bit in language.FLAGS.items() if values[1] & bit]
            return f"{where}: {place}: tile {values[0] + values[1] % 2 * 256}" + "".join(", " + flag for flag in flags)
        return f"{where}: from {place} to column {end % 32}, row {end // 32}"
    return f"{where}: " + (f"in tile {address // 32}" if address // 32 == last // 32 and len(values) < 32 else span(address // 32, last // 32, "tile"))


def pieces(values):
    """Bytes as lines of at most CHUNK, and (bytes, times) where the same come again and again."""
    at = 0
    while at < len(values):
        best = (0, 1, 1)
        for period in (1, 2, 4, 8, 16):
            unit, times = values[at : at + period], 1
            while len(unit) == period and values[at + times * period : at + (times + 1) * period] == unit:
                times += 1
            if times > 1 and times * period > CHUNK and times * period > best[0]:
                best = (times * period, period, times)
        if best[0]:
            yield values[at : at + best[1]], best[2]
            at += best[0]
        else:
            yield values[at : at + CHUNK], 1
            at += CHUNK


def hexes(values):
    return " ".join(f"{value:02X}" for value in values)


class Lister:
    """Goes through the records with a device beside them, and makes lines of statement and words."""

    def __init__(self, found, table, each):
        self.found, self.each, self.at = list(found), each, 0
        self.lines, self.area, self.drawn = [], 0, None
        self.machine, self.tally = machines.of(found.chip), play.Tally()
        self.screens = self.machine.screens
        self.device = library.Device(table, found.chip)
        if self.machine.home:
            self.say("home", f"the home machine, {self.screens[0].columns} x {self.screens[0].rows}")

    def say(self, statement, words, refusals=(), place=""):
        """A line: where it stands, what was refused, what it does."""
        bad = [number for number in refusals if number]
        if bad:
            count = f" ({len(bad)} of {len(refusals)} records)" if len(refusals) > 1 else ""
            words = f"REFUSED{count}: {header.refusal(bad[0])}"
        self.lines.append((statement, ": ".join(part for part in (place, words) if part)))

    def place(self):
        return f"line {self.device.counter}, " + (f"after row {self.drawn}" if self.drawn is not None else "before any row")

    def run(self):
        while self.at < len(self.found):
            record = self.found[self.at]
            if record.kind == records.STEP:
                self.steps()
            elif record.kind == records.READ:
                self.read()
            elif self.each or not self.command():
                self.write()
        return self.lines

    # port calls
    def writes_from(self, at, port, most=None):
        """The values of the writes to this port that follow one another from here."""
        values = []
        while at < len(self.found) and self.found[at].kind == records.WRITE and self.found[at].place == port and len(values) != most:
            values.append(self.found[at].value)
            at += 1
        return values

    def out(self, count):
        refusals = []
        for record in self.found[self.at : self.at + count]:
            refusals.append(self.device.out(record.place, record.value))
        self.at += count
        return refusals

    def command(self):
        """Two command bytes, with the data behind them, as a statement; False where they are none."""
        both = self.writes_from(self.at, COMMAND, 2)
        if len(both) < 2 or self.device.at("COMMAND_LATCHED"):
            return False
        first, second = both
        data, size = self.writes_from(self.at + 2, DATA), self.machine.palette.bytes
        place = self.place()
        if 0x80 <= second <= 0x8A:
            refusals = self.out(2)
            self.say(f"reg {second - 0x80} = {first:02X}", self.machine.register_words(second - 0x80, first), refusals, place)
        elif second == 0xC0 and first < 32 * size and first % size == 0 and len(data) >= size:
            number = first // size
            data = data[: min(len(data) // size * size, size * (32 - number))]
            refusals = self.out(2 + len(data))
            words = self.machine.palette.words(data) if len(data) == size else span(number, number + len(data) // size - 1, "colour")
            self.say(f"colour {number} = {hexes(data)}", words, refusals, place)
        elif 0x40 <= second < 0x80 and data:
            address = first + 256 * (second - 0x40)
            data = data[: library.VRAM - address]
            parts = list(pieces(data))
            for k, (values, times) in enumerate(parts):
                refusals = self.out(len(values) * times + (0 if k else 2))
                statement = f"write BE = {hexes(values)}" if k else f"vram {address:04X} = {hexes(values)}"
                words = video_words(self.device, self.screens[self.area], address, values * times)
                self.say(statement + (f" times {times}" if times > 1 else ""), words, refusals, "" if k else place)
                address += len(values) * times
        else:
            return False
        return True

    def write(self):
        """A write on its own."""
        record = self.found[self.at]
        place, latched = self.place(), self.device.at("COMMAND_LATCHED")
        first, chosen, address = self.device.at("COMMAND_BYTE"), self.device.at("CHOSEN"), self.device.address
        refusals = self.out(1)
        words = ""
        if refusals[0]:
            pass
        elif record.place == COMMAND:
            words = self.second_words(first, record.value) if latched else "the first byte of a command"
        elif chosen == 1:
            words = video_words(self.device, self.screens[self.area], address, [record.value])
        else:
            words = self.palette_words(address, record.value)
        self.say(f"write {record.place:02X} = {record.value:02X}", words, refusals, place)

    def second_words(self, first, second):
        if second < 0x80:
            return f"address {(first + 256 * second) % 16384:04X}, " + ("to write" if second >= 0x40 else "to read: the buffer is loaded, and the address goes up")
        if second < 0xC0:
            return f"register {second % 128} is {first:02X}: {self.machine.register_words(second % 128, first)}"
        return f"palette address {first % (32 * self.machine.palette.bytes):02X}"

    def palette_words(self, address, value):
        """A byte that was written to the palette on its own."""
        size = self.machine.palette.bytes
        if address % size < size - 1:
            return f"palette address {address:02X}: latched until the odd byte comes"
        before = [self.device.at("PALETTE", 64)[address - 1]] if size == 2 else []
        return f"colour {address // size}: {self.machine.palette.words(before + [value])}"

    def read(self):
        record, place = self.found[self.at], self.place()
        address = self.device.address
        refusal, value = self.device.input(record.place)
        self.at += 1
        if record.place == LINE:
            words = f"the line counter: {value:02X} ({value})"
        elif record.place == COMMAND:
            words = f"the status: {value:02X}, {machines.status_words(value)}; it is 0 now"
        else:
            words = f"data: {value:02X}; the byte at {address:04X} is read ahead"
        self.say(f"read {record.place:02X}", words, [refusal], place)

    # steps
    def steps(self):
        """The steps that follow one another and are of one sort: what they answer, whether they draw, the counter going up by one."""
        area = self.found[self.at].place
        size = self.screens[area].columns, self.screens[area].rows
        if area != self.area:
            self.say(f"area {area}", f"steps of area {area} from here on, {size[0]} x {size[1]}")
            self.area = area
        place = library.areas(self.machine.chip)[area]
        row, layers = place.row(), place.layers()
        sort, count, first, last = None, 0, None, None
        while self.at < len(self.found) and self.found[self.at].kind == records.STEP and self.found[self.at].place == area:
            mark, before = self.device.mark(), self.device.counter
            answer = self.device.row_step(row, layers, area)
            here = (answer.refusal, answer.interrupt, answer.report, answer.drawn)
            follows = last is None or self.device.counter == last[0] + 1
            if sort is not None and (here != sort or not follows or (self.each and count)):
                self.device.back(mark)
                break
            sort, count, last = here, count + 1, (self.device.counter, answer.row)
            first = first or last
            self.tally.began(before)
            self.tally.step(size, answer.drawn, answer.report)
            if self.device.counter == 0:
                self.drawn = None
            if answer.drawn:
                self.drawn = answer.row
            self.at += 1
        lines = f"line {first[0]}" if count == 1 else f"lines {first[0]} to {last[0]}"
        refusal, interrupt, report, drawn = sort
        words = [("draws " if count == 1 else "draw ") + (span(first[1], last[1], "row") if drawn else "no row")]
        if report:
            words.append(REPORTS[report])
        if interrupt:
            words.append("an interrupt" if count == 1 else "an interrupt at each")
        self.say(f"steps {count}", f"{lines} {', '.join(words)}", [refusal])


    def notes(self):
        """Which frames end with the display off, those of the visible size first."""
        return [play.off_words(self.tally.off[size]) for size in sorted(self.tally.off)]


def listed(found, table, each=False):
    """The text of a listing, and what is to be said of its frames."""
    lister = Lister(found, table, each)
    return "".join(f"{statement:{WIDTH}}  # {words}\n" for statement, words in lister.run()), lister.notes()
