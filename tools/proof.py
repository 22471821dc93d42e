#!/usr/bin/env python3
"""proof.py [--check]: counts the lines in docs/PROOF.md's table of what to read, and the theorems of one outcome, and writes the numbers. With --check nothing
is written: the exit status is 1 where a number is another, where a file of specs/ stands in no row or in two, or where a name that stands before a file, there
or on another page of docs/, is not in it. Lines are those of specs/ without blanks, imports and comments."""
import pathlib
import re
import sys

ROOT = pathlib.Path(__file__).resolve().parents[1]
PAGE = ROOT / "docs/PROOF.md"


def count(files):
    text = "\n".join(file.read_text(encoding="utf-8") for file in files)
    return sum(not re.match(r" *($|--|(pub )?use )", line) for line in text.split("\n"))


def read(cell):
    """The files that a row of the table names: of each crate all of its specs/, or those behind the colon."""
    files = []
    for crate, names in re.findall(r"\[(\w+)\]\(\.\./crates/\1/specs\)(?:: (\w+(?:, \w+)*))?", cell):
        folder = ROOT / "crates" / crate / "specs"
        files += [folder / f"{name}.antt" for name in names.split(", ")] if names else sorted(folder.glob("*.antt"))
    return files


# A name that a file declares, or hands on.
DECLARED = r"(?m)^ *(abbrev |unfoldable )?(pub )?(record |data |enum |fn )?{0}( |$|\()|^pub use .*[{{ ]{0}[,}}]"


def lost(page, form):
    """The names before a file, where a page has them in this form, that the file has not."""
    missing = []
    for names, path in re.findall(form, page.read_text(encoding="utf-8"), re.M):
        file = ROOT / path
        have = file.read_text(encoding="utf-8") if file.exists() else ""
        missing += [f"{page.relative_to(ROOT)}: {path} has no {name}" for name in re.findall("`([^`]+)`", names) if not re.search(DECLARED.format(re.escape(name)), have)]
    return missing


NAMES = r"((?:`[^`]+`(?:,? and the like|,? and the others|,? and with true edges| to | \([^)]*\)|, )*\s*)+)"


before = PAGE.read_text(encoding="utf-8")
after, seen, total = [], [], 0
for line in before.splitlines(keepends=True):
    cells = line.split("|")
    if len(cells) == 7 and re.fullmatch(r" \**[0-9,]+\** ", cells[3]):
        files = read(cells[2])
        seen += files
        if files:
            number = count(files)
            total += number
            cells[3] = f" {number:,} "
        else:
            cells[3] = f" **{total:,}** "
        line = "|".join(cells)
    after.append(line)
once = sum(len(re.findall(r"(?m)^pub \w+_once :", file.read_text(encoding="utf-8"))) for file in ROOT.glob("crates/demands/proofs/Outcome*.antt"))
after = re.sub(r"\d+ theorems `…_once`", f"{once} theorems `…_once`", "".join(after))
if sys.argv[1:] == ["--check"]:
    wrong = lost(PAGE, NAMES + r": (crates/\S+?\.antt)")
    for page in sorted(PAGE.parent.glob("*.md")):
        wrong += lost(page, NAMES + r"(crates/\S+?\.(?:antt|rt))")
    if after != before:
        wrong.append("docs/PROOF.md: its numbers are not those of the tree: python3 tools/proof.py writes them")
    wrong += [f"docs/PROOF.md: {file.relative_to(ROOT)} stands in two rows" for file in sorted(set(seen)) if seen.count(file) > 1]
    wrong += [f"docs/PROOF.md: {file.relative_to(ROOT)} stands in no row" for file in sorted(ROOT.glob("crates/*/specs/*.antt")) if file not in seen]
    wrong += [] if re.search("`…_once`", before) and seen else ["docs/PROOF.md: no table of what to read"]
    for each in wrong:
        print(each)
    sys.exit(1 if wrong else 0)
elif sys.argv[1:]:
    sys.exit(__doc__.split(":")[0])
PAGE.write_text(after, encoding="utf-8")
print(f"docs/PROOF.md: {total:,} lines in the table, {once} theorems of one outcome")
