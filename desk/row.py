"""One row in words: what the library drew, and the reasons, which are held to it column by column."""
import errors
import layers
import machines
import rules

NINTH_BIT, MET_BIT = 0x40, 0x20  # of the status (R5.7, R5.11)


class Row:
    """A row as a device would draw it now: the library's pixels and layers, and where there are rules for its area what they say."""

    def __init__(self, device, area, row):
        self.device, self.area, self.number = device, area, row
        self.pixels, self.layers, self.status = device.row_now(area.number, row)
        self.registers = device.registers
        self.rules = None
        if rules.view_of(area):
            memory = bytes(device.vram.bytes)
            self.rules = rules.Row(memory, device.registers, device.at("VERTICAL_SCROLL"), rules.view_of(area), row)
            self.check()

    def pixel(self, column):
        return self.pixels[4 * column : 4 * column + 4]

    def check(self):
        """The rules as the desk has them say what the library says of the whole row, or nothing is told."""
        colours = self.device.colours()
        for column in range(self.area.columns):
            here = colours[self.rules.colours[column]], self.rules.layers[column]
            there = self.pixel(column), self.layers[column]
            if here != there:
                raise errors.Bad(self.wrong(f"column {column}: the library has {list(there[0])} and layer {there[1]}, the desk's reasons {list(here[0])} and layer {here[1]}"))
        for bit, said, what in ((NINTH_BIT, self.rules.ninth, "a ninth sprite"), (MET_BIT, self.rules.met, "two sprites that meet")):
            if bool(self.status & bit) != said:
                raise errors.Bad(self.wrong(f"{what}: the library says {bool(self.status & bit)}, the desk's reasons {said}"))

    def wrong(self, what):
        return f"desk: THE DESK'S REASONS DISAGREE WITH THE LIBRARY, which is proved: believe the library, and tell us.\ndesk: {self.area.named}, row {self.number}, {what}"

    def same_pixel(self, column):
        """The library's other engine has the same pixel."""
        alone = self.device.pixel(self.area.number, self.number, column)
        if alone != self.pixel(column):
            raise errors.Bad(self.wrong(f"column {column}: the row has {list(self.pixel(column))}, {self.device.chip.prefix}pixel {list(alone or b'')}"))

    def under_fill(self, sprite):
        """How many pixels of a sprite were drawn, and stand under the fill."""
        return sum(fate == rules.DRAWN and self.layers[column] == layers.FILLED for column, fate in sprite.fates.items() if column < self.area.columns)



def background_words(back):
    flags = [word for word, on in (("flipped across", back.across), ("flipped down", back.down), ("priority", back.priority)) if on]
    return (f"tile {back.tile} of the map's column {back.column}, row {back.line} (entry at {back.entry:04X}), palette {int(back.palette)}, code {back.code}"
            + "".join(", " + word for word in flags))


def fate_words(told, sprite, column):
    """What became of a sprite's pixel in a column that it reaches; None where it does not reach it."""
    row = told.rules
    if sprite in row.beyond:
        if column not in sprite.columns():
            return None
        place = len(row.laid) + row.beyond.index(sprite) + 1
        return "ninth: eight are laid before it, and it is not" if place == rules.MOST + 1 else f"after the ninth ({place}th on the row): not laid"
    fate = sprite.fates.get(column)
    if fate is None:
        return None
    place, tested = sprite.places[column]
    code = f"code {sprite.codes[column]} of its tile {sprite.shown}, {machines.sprite_tile(told.registers, sprite.shown)}"
    if fate == rules.CLEAR:
        return f"clear: {code}"
    if fate == rules.HELD_BACK:
        where = "" if tested == column else f" (the mask is asked for column {tested}: a scrolled left edge)"
        return f"held back: {code}; the background there has priority{where}"
    if fate == rules.UNSEEN:
        return f"unseen: its X byte {sprite.x:02X} is off the screen; {code} marks place {place} all the same"
    if fate == rules.STRUCK:
        by = next(other for other in row.laid if place in other.marks)
        return f"struck: {code}; sprite {by.number} has marked its place ({place}) already"
    over = told.layers[column]
    then = "" if over == layers.SPRITE + sprite.number else "; then the fill was laid over it" if over == layers.FILLED else f"; then sprite {over - layers.SPRITE} was drawn over it"
    return f"drawn: {code}; colour {16 + sprite.codes[column]}{then}"


def pixel_text(told, column, when):
    """What `desk pixel` prints."""
    told.same_pixel(column)
    red, green, blue, last = told.pixel(column)
    layer = told.layers[column]
    lines = [f"row {told.number}, column {column} of {told.area.named}, {when}",
             f"  bytes   {red:02X} {green:02X} {blue:02X} {last:02X}: red {red}, green {green}, blue {blue}"]
    if told.rules is None:
        lines.append(f"  layer   {layer}: {layers.words(layer)}")
        lines.append("  (the desk has no reasons for this area)")
        return "\n".join(lines)
    row = told.rules
    colour = row.colours[column]
    lines.append(f"  colour  {colour}: palette {colour // 16}, code {colour % 16}")
    lines.append(f"  layer   {layer}: {layers.words(layer)}")
    lines.append(f"  behind  {background_words(row.back[column])}")
    on_row = row.laid + row.beyond
    fates = [(sprite, fate_words(told, sprite, column)) for sprite in on_row]
    reach = [(sprite, words) for sprite, words in fates if words]
    lines.append(f"  sprites {len(on_row)} on the row, {len(reach)} {'reaches' if len(reach) == 1 else 'reach'} this column" + (":" if reach else ""))
    lines += [f"    sprite {sprite.number:<2}  {words}" for sprite, words in reach]
    lines.append(f"  checked with the library: its row, its layers and {told.device.chip.prefix}pixel say the same")
    return "\n".join(lines)


def columns_words(told, sprite):
    shown = [c for c in sprite.columns() if c < told.area.columns]
    if not sprite.stand.seen or not shown:
        return "off screen"
    return f"{shown[0]} to {shown[-1]}" if len(shown) > 1 else str(shown[0])


def tile_words(sprite):
    """A sprite's tile on the row, and which of video memory it is."""
    return f"{sprite.shown}: {sprite.real}, {32 * sprite.real:04X}"


def sprites_text(told, when):
    """What `desk sprites` prints of a row."""
    row = told.rules
    if row is None:
        raise errors.Bad(f"desk: the desk has no rules for the sprites of {told.area.named}")
    end = f"a Y byte of D0 ends the list before sprite {row.end}" if row.end is not None else "no Y byte of D0 ends the list"
    count = len(row.laid) + len(row.beyond)
    lines = [f"row {told.number} of {told.area.named} (line {row.line}), {when}",
             f"  {count or 'no'} sprite{'s' if count != 1 else ''} on the row, each {16 if row.tall else 8} high; their table is at {row.table:04X}; {end}",
             f"  {machines.handheld().register_words(6, told.registers[6])} (register 6)"]
    if count:
        lines.append("  place  sprite   Y   X  its tile is   columns      drawn  held back  struck  clear")
    for place, sprite in enumerate(row.laid, 1):
        fates = [fate for column, fate in sprite.fates.items() if column < told.area.columns or fate == rules.UNSEEN]
        counts = [fates.count(fate) for fate in (rules.DRAWN, rules.HELD_BACK, rules.STRUCK, rules.CLEAR)]
        under = told.under_fill(sprite)
        lines.append(f"  {place:5}  {sprite.number:6}  {sprite.y:02X}  {sprite.x:02X}  {tile_words(sprite):12}  {columns_words(told, sprite):11}"
                     f"  {counts[0]:5}  {counts[1]:9}  {counts[2]:6}  {counts[3]:5}" + ("" if sprite.stand.seen else "  unseen") + (f"  {under} under the fill" if under else ""))
    for place, sprite in enumerate(row.beyond, len(row.laid) + 1):
        why = "NINTH: not laid, and sets status bit 6" if place == rules.MOST + 1 else "after the ninth: not laid"
        lines.append(f"  {place:5}  {sprite.number:6}  {sprite.y:02X}  {sprite.x:02X}  {tile_words(sprite):12}  {columns_words(told, sprite):11}  {why}")
    if row.met:
        lines.append("  two sprites meet here: status bit 5 is set")
    lines.append("  checked with the library: its row, its layers and its status bits say the same")
    return "\n".join(lines)
