"""The sprites of every row of a frame, in words."""
import machines
import rules


class OnRow:
    """What `desk sprites` keeps of a row: the sprites on it in order, the one that ends the list, and of one sprite what became of its pixels."""

    def __init__(self, told, only):
        row = told.rules
        self.numbers, self.end, self.fates, self.tile, self.under = [sprite.number for sprite in row.laid + row.beyond], row.end, [], None, 0
        for sprite in row.laid + row.beyond:
            if sprite.number == only:
                self.fates = [fate for fate in sprite.fates.values() if fate != rules.CLEAR]
                self.tile = sprite.shown, machines.sprite_tile(told.registers, sprite.shown)
                self.under = told.under_fill(sprite)


def words(by_row, only):
    """The lists of a frame's rows, or of one sprite its place in them; rows with the same list together."""
    groups, lines = [], []  # first row, last row, the sprites, the fates, how many of those drawn are under the fill
    for row, here in sorted(by_row.items()):
        if here.numbers and only in here.numbers + [None]:
            if groups and groups[-1][1] == row - 1 and groups[-1][2] == here.numbers:
                groups[-1][1] = row
                groups[-1][3].extend(here.fates)
                groups[-1][4] += here.under
            else:
                groups.append([row, row, here.numbers, list(here.fates), here.under])
    for first, last, numbers, fates, under in groups:
        where = f"row {first}" if first == last else f"rows {first} to {last}"
        lines.append(f"  {where:16} " + (list_words(numbers) if only is None else place_words(numbers, only, fates, under)))
    for shown, tile in sorted({here.tile for here in by_row.values() if here.tile}):
        lines.append(f"  its tile {shown} is {tile}")
    if not groups:
        ends = {here.end for here in by_row.values()} - {None}
        stop = f": a Y byte of D0 ends the list before sprite {min(ends)}" if ends and (only is None or min(ends) <= only) else ""
        lines.append(("  no sprite is on any row" if only is None else f"  sprite {only} is on no row") + stop)
    return "\n".join(lines)


def list_words(numbers):
    text = " ".join(map(str, numbers[: rules.MOST]))
    if len(numbers) > rules.MOST:
        ninth, *behind = map(str, numbers[rules.MOST :])
        text += f" | NINTH {ninth}" + (f", then {' '.join(behind)}" if behind else "") + ": not laid"
    return text


def place_words(numbers, only, fates, under):
    place = numbers.index(only) + 1
    before = " ".join(map(str, numbers[: place - 1])) or "none"
    text = f"sprite {only} is number {place} of {len(numbers)}, before it {before}: "
    if place > rules.MOST:
        return text + ("NINTH, not laid" if place == rules.MOST + 1 else "after the ninth, not laid")
    counts = [f"{fates.count(fate)} {fate}" for fate in (rules.HELD_BACK, rules.STRUCK, rules.UNSEEN) if fate in fates]
    return text + f"{fates.count(rules.DRAWN)} of {len(fates)} pixels drawn" + (f" ({under} under the fill)" if under else "") + "".join(", " + count for count in counts)
