#!/usr/bin/env python3
"""tidy.py FILE..: lays out antt files of crates/ as this project has them. What nothing uses is no longer brought in, and what comes from one place by as
few lines as there is room for; comments that name a place of the source by its line go; in the answer to a goal the places on the way to a fact,
`c.before.before..`, get names by `let at-.. = .. in`; long lines are broken where the fewest brackets are open, and there best behind an arrow, else
before a sign that joins two sides. (`rt fmt` leaves such lines as they are.)

tidy.py --check FILE..: changes nothing; prints what a file brings in and does not use, and where a line is longer than 160 characters. Status 1 where
there is any."""
import re
import sys

WIDTH = 160

USE = re.compile(r"^use ([^\s{]+?)(?:\.\{([^}]*)\}| as (\S+)|)[ \t]*$", re.M)
COMMENT = re.compile(r"(^|\s)--(\s.*)?$", re.M)
PLACE = re.compile(r"^ *-- (\S*/)?\S+\.rt:\d+:\d+.*\n", re.M)
# A place that has its name already, or a way to one that has none: how far it goes, and what is asked of the place.
PATH = re.compile(r"let \S+ =\s+c(?:\.before)+\s+in\b|(?<![\w.·'₀-₉-])c((?:\.before)+)(?:\.([^\s(){};,.]+))?")
START = {"args", "good", "pre"}
# What is declared, up to its type.
SIGNATURE = re.compile(r"^( *(?:(?:abbrev |unfoldable )?pub )?[^\s(){}]+ :) (.+)$")
# Where a line may go on below, the best first: what ends before it, and what begins there.
PLACES = [
    (re.compile(before + "$"), re.compile(after))
    for before, after in [("[→;]", ""), ("", "[×⊎↔] "), ("", "[≡≢] "), ("", r"(?:&&|\|\||∷|∙|\+\+) "), ("", "[({]"), ("", "")]
]
# And where it may not.
NEVER = re.compile(r"(?:^|[\s(])(?:[λ=:≡≢×⊎↔∷∙<≤]|&&|\|\||\+\+|Type|record)$"), re.compile(r"[.=→:]|where\b|Type \d+ where\b")


def spoken(text):
    """The names that a text speaks of; of `a.b` both."""
    names = set()
    for piece in re.split(r"[\s(){};,]+", text):
        if piece and not piece.startswith("."):
            names.add(piece)
            names.update(part for part in piece.split(".") if part)
    return names


def speaks(name, names):
    """Whether one of these is the name; of an operator, whether each of its parts is there."""
    if "◌" in name:
        return name in names or all(part in names for part in name.split("◌") if part)
    return name in names


def brought(match):
    """What a `use` line brings in, as (the name that it has here, as it is written)."""
    path, inside, alias = match.groups()
    if inside is None:
        return [(alias or path.split(".")[-1], None)]
    return [(item.split(" as ")[-1].strip(), item.strip()) for item in inside.split(",") if item.strip()]


def unused(text):
    """The names that are brought in and not spoken of. `pub use` lines hand names on, and are none."""
    names = spoken(COMMENT.sub("", USE.sub("", text)))
    return {name for match in USE.finditer(text) for name, _ in brought(match) if not speaks(name, names)}


def imports(text):
    """Each `use` line without what is not used, and none that is too long; those of one place are joined where that makes them fewer."""
    gone = unused(text)

    def laid(path, items):
        lines = [[]]
        for item in items:
            if len(f"use {path}.{{{', '.join(lines[-1] + [item])}}}") > WIDTH and lines[-1]:
                lines.append([])
            lines[-1].append(item)
        return [f"use {path}.{{{', '.join(line)}}}" for line in lines if line]

    kept, places = {}, {}
    for match in USE.finditer(text):
        kept[match.start()] = [item for name, item in brought(match) if name not in gone]
        if match.group(2) is not None and kept[match.start()]:
            places.setdefault(match.group(1), []).append(match.start())
    for path, starts in places.items():
        items = [item for start in starts for item in kept[start]]
        if len(laid(path, items)) < sum(len(laid(path, kept[start])) for start in starts):
            kept.update({start: [] for start in starts})
            kept[starts[0]] = items

    def one(match):
        path, inside, _ = match.groups()
        items = kept[match.start()]
        if not items:
            return "\0"
        return match.group(0) if inside is None else "\n".join(laid(path, items))

    return re.sub(r"\0\n?", "", USE.sub(one, text))


def named(clause):
    """The answer to a goal with names for the places that it goes by."""
    head, body = re.match(r"^(\S+ c(?: [^=\n]*?)? =)((?: |\n).*)$", clause, re.S).groups()
    places = {}
    for match in PATH.finditer(body):
        if match.group(1):
            places.setdefault(match.group(1).count(".before"), []).append(match.group(2))
    far = sorted(steps for steps in places if steps >= 2)
    if not far:
        return clause
    taken = set(re.findall(r"(?<=let )\S+|(?<=λ )\S+?(?=\.)", body))
    names, lets, last, gone = {}, [], "c", 0
    for steps in far:
        fields = [field for field in places[steps] if field]
        word = "start" if START.intersection(fields) else re.sub("[«»]", "", fields[0]).replace("_", "-") if fields else "here"
        name, more = f"at-{word}", 2
        while name in taken:
            name, more = f"at-{word}-{more}", more + 1
        taken.add(name)
        names[steps] = name
        lets.append(f"    let {name} = {last}{'.before' * (steps - gone)} in")
        last, gone = name, steps

    def put(match):
        steps, field = (match.group(1) or "").count(".before"), match.group(2)
        return match.group(0) if steps < 2 else names[steps] + (f".{field}" if field else "")

    body = re.sub(r"\((at-[\w-]+)\)", r"\1", PATH.sub(put, body))
    body = body.lstrip("\n") if body.startswith("\n") else "    " + body.lstrip(" ")
    return "\n".join([head, *lets, body])


def clauses(text):
    """Every clause `goal c .. = answer` with its places named; all else as it is."""
    return re.sub(r"^\S+ c(?: [^=\n]*)? =(?: .*)?(?:\n[ ]+\S.*)*", lambda match: named(match.group(0)), text, flags=re.M)


def place(line):
    """Where a long line is best broken."""
    depth, best = 0, None
    start = len(line) - len(line.lstrip(" "))
    for at, sign in enumerate(line[: WIDTH + 1]):
        depth += {"(": 1, "{": 1, ")": -1, "}": -1}.get(sign, 0)
        if sign == " " and at > start + 20 and not NEVER[0].search(line[:at]) and not NEVER[1].match(line, at + 1):
            rank = next(rank for rank, (before, after) in enumerate(PLACES) if before.search(line[:at]) and after.match(line, at + 1))
            if (rank == 0 or at > start + 50) and (best is None or (depth, rank) <= best[:2]):
                best = (depth, rank, at)
    return best[2] if best else line.rfind(" ", 0, WIDTH)


def broken(line):
    """A long line as several."""
    indent = len(line) - len(line.lstrip(" "))
    if len(line) <= WIDTH or line.lstrip().startswith(("--", "use ", "pub use ", "unfolding ")):
        return [line]
    head = SIGNATURE.match(line) or indent == 0 and re.match(r"^(\S.*? =) (.*)$", line)
    out = []
    if head:
        out, line = [head.group(1)], " " * (indent + 4) + head.group(2)
    while len(line) > WIDTH:
        at = place(line)
        out.append(line[:at])
        line = " " * (indent + 4) + line[at + 1 :]
    return out + [line]


def tidy(text):
    text = imports(clauses(PLACE.sub("", text)))
    return "\n".join(piece for line in text.split("\n") for piece in broken(line))


def read(name):
    with open(name, encoding="utf-8") as file:
        return file.read()


def main(words):
    if not words or words == ["--check"]:
        sys.exit("usage: tidy.py [--check] FILE..")
    if words[0] != "--check":
        for name in words:
            old = read(name)
            new = tidy(old)
            if new != old:
                with open(name, "w", encoding="utf-8") as file:
                    file.write(new)
        return 0
    found = 0
    for name in words[1:]:
        text = read(name)
        for word in sorted(unused(text)):
            print(f"{name}: brings in {word} and does not use it")
            found = 1
        for number, line in enumerate(text.split("\n"), 1):
            if len(line) > WIDTH:
                print(f"{name}:{number}: {len(line)} characters")
                found = 1
    return found


if __name__ == "__main__":
    sys.exit(main(sys.argv[1:]))
