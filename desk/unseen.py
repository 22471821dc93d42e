"""What a script has set and nobody will see, as notes to its author: places of the map that the screen never shows, and sprites that show a tile which nothing
has written beside one that something has."""
import library
import machines

MOST = 3  # notes of a kind; of more, how many there are
ENOUGH = 1_000_000  # rows that are looked at for what they show of the map; behind them nothing is said of it


class Unseen:
    """Goes along with a script: what it has written, by the place in it, and what its steps have shown."""

    def __init__(self):
        self.by = [None] * library.VRAM  # the place that wrote a byte of video memory last
        self.maps = []  # of each `map`: its place, the addresses of its entries, and the screen
        self.shown, self.sprites, self.drawn = set(), {}, False
        self.known, self.looked = set(), set()  # what was looked at before: rows of the map; rows for sprites, since the last write

    def wrote(self, address, count, place):
        for k in range(address, address + count):
            self.by[k % library.VRAM] = place
        self.looked.clear()

    def mapped(self, place, addresses, screen):
        self.maps.append((place, addresses, screen))

    def drew(self, screen, device, rows):
        """Steps have drawn these rows, each with the vertical scroll that it had, with nothing written between them."""
        self.drawn, registers = True, device.registers
        base = (registers[2] & 0x0E) * 1024
        for row, scroll in rows:
            if (screen, registers, row, scroll) not in self.known and len(self.known) < ENOUGH:
                self.known.add((screen, registers, row, scroll))
                self.shown.update(base + 2 * (32 * line + column) for column, line in screen.view(registers, scroll, row).cells())
        fresh = {row for row, _ in rows if (screen, registers, row) not in self.looked}
        if fresh:
            self.looked.update((screen, registers, row) for row in fresh)
            self.look(screen, device, registers, fresh)

    def look(self, screen, device, registers, rows):
        """The sprites on these rows whose tile nothing has written, though the tile of the same number in the other half of memory is."""
        memory, table, tall = device.vram.bytes, (registers[5] & 0x7E) * 128, bool(registers[1] & 2)
        for n in range(64):
            y, at = memory[table + n], table + 128 + 2 * n
            if y == 0xD0:
                return
            if self.by[at + 1] is None or n in self.sprites or rows.isdisjoint(screen.rows_of(y, tall)[1]) or not screen.shows(registers, memory[at]):
                continue
            tile, count = (memory[at + 1] // 2 * 2, 2) if tall else (memory[at + 1], 1)
            other = tile + 256 * (1 - (registers[6] >> 2 & 1))
            if not self.written((other + 256) % 512, count) and self.written(other, count):
                shown = f"sprite {n} shows {machines.sprite_tile(registers, tile)}, which nothing has written"
                self.sprites[n] = self.by[at + 1], f"{shown}; what was written is tile {other} at {32 * other:04X}"

    def written(self, tile, count):
        """Whether anything of these tiles is."""
        return any(self.by[32 * tile : 32 * (tile + count)])

    def notes(self):
        """Each a place of the script and words."""
        lost = [(place, f"the screen shows nothing of this part of the map: where nothing scrolls it has {screen.window_words()}, and `map screen 0 0` is its upper left corner")
                for place, addresses, screen in self.maps if self.drawn and len(self.known) < ENOUGH and self.shown.isdisjoint(addresses)]
        return [note for kind in (list(self.sprites.values()), lost) for note in _first(kind)]


def _first(notes):
    more = len(notes) - MOST
    return notes[:MOST] + ([("", f"{more} more like the last one")] if more > 0 else [])
