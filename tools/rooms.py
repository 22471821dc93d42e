#!/usr/bin/env python3
"""rooms.py [--check]: draws docs/rooms.svg, the crates and what each stands on, from crates.txt. With --check nothing is written: the exit status is 1 where
the picture is another than crates.txt gives, where the table of docs/ARCHITECTURE.md has not exactly these crates, each in its storey, or where one of its
other tables names a function or a definition that the file beside it has not.

Three storeys, from the ground up: what has no machine; the machines; what is made of them. A crate is of the third storey where it stands on a machine, is
a program, or serves programs alone. In a storey a crate stands a row above the highest one that it stands on there. A line goes down to each crate that it
stands on, but for those that it reaches through another one anyway."""
import pathlib
import re
import sys

ROOT = pathlib.Path(__file__).resolve().parents[1]
PICTURE = ROOT / "docs/rooms.svg"
PAGE = ROOT / "docs/ARCHITECTURE.md"
# The crates that are a machine, by the machine's name.
MACHINES = {"vdp": "handheld", "step": "handheld", "home": "home machine"}
STOREYS = ("What has no machine", "The machines", "What is made of them")
# Pixels: a letter, the margin in a box, a box's height, the way from one row to the next, between boxes at least and at most, and around a storey.
LETTER, INSIDE, HIGH, ROW, GAP, APART, AROUND = 7, 8, 24, 62, 14, 90, 40
COLOURS = ("#eef3ea", "#e9eff8", "#f8f1e6")


def crates():
    """The crates of crates.txt, each with those of them that it stands on (the toolchain's own are left out)."""
    listed = {}
    for line in (ROOT / "crates.txt").read_text(encoding="utf-8").splitlines():
        name, colon, rest = line.split("#")[0].partition(":")
        if colon:
            listed[name.split()[0]] = rest.split()
    return {name: sorted(set(on) & set(listed)) for name, on in listed.items()}


def below(on):
    """All that each crate stands on, through others too."""
    reached = {}

    def reach(name):
        if name not in reached:
            reached[name] = set(on[name]).union(*(reach(each) for each in on[name]))
        return reached[name]

    for name in on:
        reach(name)
    return reached


def storeys(on, reached):
    """The storey of each crate: 0, 1 or 2."""
    programs = {name for name in on if (ROOT / "crates" / name / "src/main.rt").exists()}
    upper = programs | {name for name in on if reached[name] & set(MACHINES)}
    while True:
        serve = {name for name in on if name not in upper and (users := [each for each in on if name in on[each]]) and set(users) <= programs}
        if not serve:
            break
        upper |= serve
    return {name: 1 if name in MACHINES else 2 if name in upper else 0 for name in on}


def rows(on, storey):
    """The rows of each storey, the lowest first."""
    height = {}

    def high(name):
        if name not in height:
            height[name] = max((1 + high(each) for each in on[name] if storey[each] == storey[name]), default=0)
        return height[name]

    floors = []
    for number in range(3):
        names = [name for name in on if storey[name] == number]
        floors.append([sorted(name for name in names if high(name) == h) for h in range(1 + max(map(high, names)))])
    return floors


def width(name):
    return LETTER * len(name) + 2 * INSIDE


def placed(floors, lines):
    """The middle of each box. In a row the boxes come in the order of the middles of what they stand on."""
    wide = max(sum(map(width, row)) + GAP * (len(row) - 1) for floor in floors for row in floor) + 2 * AROUND
    middle, top = {}, 0
    for number, floor in enumerate(floors):
        for row in floor:
            def sought(name):
                under = [middle[each][0] for each in lines[name] if each in middle]
                return (sum(under) / len(under) if under else wide / 2, name)

            boxes = sum(map(width, row))
            gap = max(GAP, min(APART, (wide - 2 * AROUND - boxes) // max(1, len(row) - 1)))
            x = (wide - boxes - gap * (len(row) - 1)) // 2
            for name in sorted(row, key=sought):
                middle[name] = (x + width(name) // 2, top)
                x += width(name) + gap
            top += ROW
        top += AROUND
    return wide, top, middle


def drawn():
    on = crates()
    reached = below(on)
    apart = [(name, each) for name in MACHINES for each in MACHINES if MACHINES[name] != MACHINES[each] and each in reached[name]]
    if apart:
        sys.exit(f"rooms.py: one machine stands on the other: {apart}")
    storey = storeys(on, reached)
    lines = {name: [each for each in on[name] if not any(each in reached[other] for other in on[name])] for name in on}
    floors = rows(on, storey)
    wide, tall, middle = placed(floors, lines)
    # The ground is at the bottom of the picture.
    place = {name: (x, tall - y - AROUND - HIGH) for name, (x, y) in middle.items()}
    out = [
        f'<svg xmlns="http://www.w3.org/2000/svg" width="{wide}" height="{tall}" viewBox="0 0 {wide} {tall}" font-family="monospace" font-size="11">',
        f'<rect width="{wide}" height="{tall}" fill="#ffffff"/>',
    ]
    for number in range(3):
        ys = [place[name][1] for name in on if storey[name] == number]
        top, bottom = min(ys) - 30, max(ys) + HIGH + 12
        out.append(f'<rect x="6" y="{top}" width="{wide - 12}" height="{bottom - top}" rx="8" fill="{COLOURS[number]}"/>')
        out.append(f'<text x="16" y="{top + 16}" font-family="sans-serif" font-size="13" font-weight="bold" fill="#444">{STOREYS[number]}</text>')
    for name in sorted(on):
        for each in sorted(lines[name]):
            (x, y), (ex, ey) = place[name], place[each]
            bend = (ey - y - HIGH) // 2
            out.append(f'<path d="M{x} {y + HIGH} C{x} {y + HIGH + bend} {ex} {ey - bend} {ex} {ey}" fill="none" stroke="#8a8a8a" stroke-opacity="0.55"/>')
    for name in sorted(on):
        x, y = place[name]
        edge = "#2f6f3a" if storey[name] == 0 else "#2a5caa" if storey[name] == 1 else "#9a6a1c"
        out.append(f'<rect x="{x - width(name) // 2}" y="{y}" width="{width(name)}" height="{HIGH}" rx="4" fill="#ffffff" stroke="{edge}"/>')
        out.append(f'<text x="{x}" y="{y + 16}" text-anchor="middle" fill="#111">{name}</text>')
    return "\n".join(out + ["</svg>"]) + "\n", storey


def told():
    """The crates of the page's table, with their storeys: a row whose first cell is a storey's name in bold begins it."""
    table, number = {}, None
    for line in PAGE.read_text(encoding="utf-8").splitlines():
        cell = line.split("|")[1].strip() if line.startswith("|") else ""
        if cell.strip("*") in STOREYS:
            number = STOREYS.index(cell.strip("*"))
        elif number is not None and not cell:
            number = None
        for name in re.findall(r"\[([a-z0-9_]+)\]\(\.\./crates/\1\)", cell) if number is not None else ():
            table[name] = number
    return table


def lost():
    """The names in the page's rows of a file, its functions, what happens and a definition with its file, that are not in these files."""
    missing = []
    for line in PAGE.read_text(encoding="utf-8").splitlines():
        cells = [cell.strip() for cell in line.split("|")]
        if len(cells) != 6 or not re.fullmatch(r"crates/\w+/src/\w+\.rt", cells[1]):
            continue
        definitions, file = re.match(r"(.*), (crates/\S+\.antt)$", cells[4]).groups()
        for path, names, form in ((cells[1], cells[2], r"\bfn {}\b"), (file, definitions, r"(?m)^ *(abbrev |unfoldable )?pub (record |data )?{}\b")):
            text = (ROOT / path).read_text(encoding="utf-8")
            missing += [f"{path} has no {name}" for name in re.findall("`([^`]+)`", names) if not re.search(form.format(re.escape(name)), text)]
    return missing


picture, storey = drawn()
if sys.argv[1:] == ["--check"]:
    wrong = 0
    if not PICTURE.exists() or PICTURE.read_text(encoding="utf-8") != picture:
        print("docs/rooms.svg is not what crates.txt gives: python3 tools/rooms.py draws it")
        wrong = 1
    if (table := told()) != storey:
        for name in sorted(set(table) | set(storey)):
            if table.get(name) != storey.get(name):
                here = STOREYS[table[name]] if name in table else "not in the table"
                there = STOREYS[storey[name]] if name in storey else "no crate"
                print(f"docs/ARCHITECTURE.md: {name}: {here}; by crates.txt: {there}")
        wrong = 1
    for each in lost():
        print(f"docs/ARCHITECTURE.md: {each}")
        wrong = 1
    sys.exit(wrong)
elif sys.argv[1:]:
    sys.exit(__doc__.split(":")[0])
PICTURE.write_text(picture, encoding="utf-8")
print(f"{PICTURE.relative_to(ROOT)}: {len(storey)} crates")
