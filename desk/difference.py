"""Which pixels differ between two pictures, in words."""


def colour_words(picture, y, x):
    red, green, blue = picture.row(y)[3 * x : 3 * x + 3]
    return f"red {red}, green {green}, blue {blue}"


def runs(numbers):
    """Numbers that rise, as words: 67 to 71, 73 to 79."""
    parts = []
    for number in numbers:
        if parts and parts[-1][1] == number - 1:
            parts[-1][1] = number
        else:
            parts.append([number, number])
    return ", ".join(str(a) if a == b else f"{a} to {b}" for a, b in parts)


def words(one, other, places, told=colour_words):
    """Which pixels differ, in words; `told` says what a picture has at a place."""
    if not places:
        return "no pixel differs"
    touched = sorted({y for y, _ in places})
    first, last = touched[0], touched[-1]
    text = f"{len(places):,} of {one.width * one.height:,} pixels differ, in " + (f"rows {first} to {last}" if first != last else f"row {first}")
    at = set(touched)
    same = [y for y in range(first, last + 1) if y not in at]
    if same:
        text += f" ({len(touched)} of these {last - first + 1} rows; the same in both: {runs(same)})"
    for word, (y, x) in (("first", places[0]), ("last", places[-1])):
        text += f"\n  {word + ':':6} row {y}, column {x}: A has {told(one, y, x)}; B has {told(other, y, x)}"
    return text
