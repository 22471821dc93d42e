"""Sections 5, 18 and 20 of docs/RULES.md once more, in Python, for the words: which sprites are on a row and what became of each of their pixels.

The picture itself never comes from here. `told` (row.py) holds every row that is spoken of to the library's answer.
"""

DRAWN, HELD_BACK, STRUCK, UNSEEN, CLEAR = "drawn", "held back", "struck", "unseen", "clear"
MOST = 8  # sprites that are laid on a line (R5.7)


class Stand:
    """Where a sprite stands (R5.9, R5.10): tile pixels start to below end from column x on; the places that it asks the two masks for."""

    def __init__(self, seen, x, start, end, priority, mark):
        self.seen, self.x, self.start, self.end, self.priority, self.mark = seen, x, start, end, priority, mark


class View:
    """What a screen shows on a row: the map's pixel of each column, where a tile of priority marks, and where a sprite stands."""

    around = False  # whether a sprite goes around from one edge to the other
    fill = None  # the colour that columns 0 to 7 show over everything

    def cells(self):
        """The places of the map, as columns and rows of tiles, that the row shows."""
        columns = [*range(0, self.width, 8), self.width - 1]
        return {(self.map_x(x) // 8, self.map_y(x) // 8) for x in columns}

    def edge_stand(self, byte, left):
        """R18.2, R20.7: both masks go by true screen column, and no pixel outside the row draws or marks."""
        x = byte - left - self.early
        return Stand(True, max(x, 0), max(-x, 0), min(self.width - x, 8), max(x, 0), max(x, 0))


class Visible(View):
    """Area 0, R5.1, R5.5 and R5.9."""

    width, first = 160, 24

    def __init__(self, registers, scroll, row):
        self.registers, self.row, self.line = registers, row, row + self.first
        self.scroll = scroll
        self.cut = (304 - registers[8]) % 256 % 8
        self.early = 8 if registers[0] & 8 else 0

    def map_x(self, x):
        return (x + 304 - self.registers[8]) % 256

    def map_y(self, x):
        return (self.line + self.scroll) % 224

    def mark_at(self, x):
        return (x - self.cut) % 256 if x < 8 - self.cut else x

    def stand(self, byte):
        gone = 48 + self.early - byte
        x, start, seen = max(-gone, 0), max(gone, 0), 40 < byte < 208
        end = 8 if x > 160 else min(160 - x, 8)
        return Stand(seen, x, start, end, x - start, byte if seen else byte + start)


class Effective(View):
    """Area 1, R5.1 and R5.10."""

    width, around = 256, True

    def __init__(self, registers, scroll, row):
        self.line = row
        self.early = 8 if registers[0] & 8 else 0

    def map_x(self, x):
        return x

    def map_y(self, x):
        return self.line

    mark_at = map_x

    def stand(self, byte):
        x = (byte - self.early) % 256
        return Stand(True, x, 0, 8, x, byte)


class TrueEdges(Visible):
    """Area 2, R18.1 and R18.2."""

    def mark_at(self, x):
        return x

    def stand(self, byte):
        return self.edge_stand(byte, 48)


class Home(View):
    """The home machine's screen, R20.4 to R20.7."""

    width = 256

    def __init__(self, registers, scroll, row):
        self.registers, self.scroll, self.line = registers, scroll, row
        self.early = 8 if registers[0] & 8 else 0
        self.fill = 16 + registers[7] % 16 if registers[0] & 32 else None

    def map_x(self, x):
        return x if self.registers[0] & 64 and self.line < 16 else (x - self.registers[8]) % 256

    def map_y(self, x):
        return self.line if self.registers[0] & 128 and x >= 192 else (self.line + self.scroll) % 224

    def mark_at(self, x):
        return x

    def stand(self, byte):
        return self.edge_stand(byte, 0)


# By machine and by an area's number. Of an area that is not here the library's answer is told, and no reasons.
VIEWS = {"handheld": {0: Visible, 1: Effective, 2: TrueEdges}, "home": {0: Home}}


def view_of(area):
    return VIEWS[area.chip.name].get(area.number)


class Sprite:
    """A sprite on the row: its bytes, how it stands, and what became of each of its columns, by screen column."""

    def __init__(self, number, y, x, tile, shown, address, stand):
        self.number, self.y, self.x, self.tile, self.address, self.stand = number, y, x, tile, address, stand
        self.shown = shown  # its tile on the row: of one 16 high the upper or the lower of a pair
        self.real = address // 32  # and which tile of video memory that is
        self.fates = {}  # screen column: DRAWN, HELD_BACK ..
        self.codes = {}
        self.places = {}  # screen column: the place that the sprite mask was asked for, and the one of the priority mask
        self.marks = set()
        self.met = False  # one of its pixels was marked where another sprite's was

    def columns(self):
        """The screen columns that its tile covers, shown or not."""
        return range(self.stand.x, self.stand.x + max(self.stand.end - self.stand.start, 0))


class Background:
    """The background of one column: its tile, what the map's flags say, its colour."""

    def __init__(self, memory, registers, map_x, map_y):
        self.column, self.line = map_x // 8, map_y // 8
        self.entry = (registers[2] & 0x0E) * 1024 + 2 * (32 * self.line + self.column)
        low, high = memory[self.entry], memory[self.entry + 1]
        self.tile = low + 256 * (high & 1)
        self.across, self.down, self.palette, self.priority = (bool(high >> bit & 1) for bit in (1, 2, 3, 4))
        line = 7 - map_y % 8 if self.down else map_y % 8
        pixel = 7 - map_x % 8 if self.across else map_x % 8
        self.code = code_at(memory, 32 * self.tile + 4 * line, pixel)
        self.colour = self.code + 16 * self.palette


def code_at(memory, address, pixel):
    """R5.3: the code of a pixel of a tile's line."""
    return sum((memory[address + plane] >> (7 - pixel) & 1) << plane for plane in range(4))


class Row:
    """A row of a view: colour numbers, layers, status bits, and the sprites that are laid on it and those that are not."""

    def __init__(self, memory, registers, scroll, view_of_area, row):
        view = view_of_area(registers, scroll, row)
        self.view, self.line = view, view.line
        self.back = [Background(memory, registers, view.map_x(x), view.map_y(x)) for x in range(view.width)]
        self.colours = [back.colour for back in self.back]
        self.layers = [0] * view.width
        self.front = {view.mark_at(x) for x, back in enumerate(self.back) if back.priority and back.code}
        self.tall = bool(registers[1] & 2)
        self.table = (registers[5] & 0x7E) * 128
        self.end = None  # the sprite whose Y byte D0 ends the list
        on_line = []
        for n in range(64):
            y = memory[self.table + n]
            if y == 0xD0:
                self.end = n
                break
            top = (y + 1) % 256
            if top <= self.line < top + (16 if self.tall else 8):
                on_line.append(self.sprite(memory, registers, n, self.line - top))
        self.laid, self.beyond = on_line[:MOST], on_line[MOST:]
        self.ninth = bool(self.beyond)
        self.met = False
        mask = set()
        for sprite in self.laid:
            self.lay(memory, sprite, mask)
            mask |= sprite.marks
        if view.fill is not None:
            self.colours[:8], self.layers[:8] = [view.fill] * 8, [2] * 8

    def sprite(self, memory, registers, n, line):
        x, tile = memory[self.table + 128 + 2 * n], memory[self.table + 129 + 2 * n]
        shown = tile // 2 * 2 + line // 8 if self.tall else tile
        address = (8192 if registers[6] & 4 else 0) + 32 * shown + 4 * (line % 8)
        return Sprite(n, memory[self.table + n], x, tile, shown, address, self.view.stand(x))

    def lay(self, memory, sprite, mask):
        """R5.11 and R5.12: the sprite on the row, with its marks; the mask has those of the sprites before it."""
        stand = sprite.stand
        for c in range(max(stand.end - stand.start, 0)):
            column, place = stand.x + c, (stand.mark + c) % 256
            code = code_at(memory, sprite.address, stand.start + c)
            sprite.codes[column] = code
            sprite.places[column] = place, (stand.priority + c) % 256
            if not code:
                sprite.fates[column] = CLEAR
            elif stand.seen and (stand.priority + c) % 256 in self.front:
                sprite.fates[column] = HELD_BACK
                if column < self.view.width and self.layers[column] == 0:
                    self.layers[column] = 1
            else:
                sprite.marks.add(place)
                if place in mask:
                    sprite.met = self.met = True
                if not stand.seen:
                    sprite.fates[column] = UNSEEN
                elif place in mask:
                    sprite.fates[column] = STRUCK
                else:
                    sprite.fates[column] = DRAWN
                    if column < self.view.width:
                        self.colours[column], self.layers[column] = 16 + code, 64 + sprite.number
