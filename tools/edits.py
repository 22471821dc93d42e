#!/usr/bin/env python3
"""edits.py [--check]: makes the tables of the edits that must fail in docs/CONTRACTS.md, from the first line of each crates/*/must-fail/*.edit, and the
number of edits in docs/CONTRACTS.md and README.md. With --check nothing is written: the exit status is 1 where a page is another. It is 1, too, where an edit
has no such line, or a text to be replaced that does not stand in its file, once.

The line is `# the slip; but the fact that then fails`. A slip that a rule names begins with its number, `# R10.1: `, and stands in a table of its own."""
import pathlib
import re
import sys

ROOT = pathlib.Path(__file__).resolve().parents[1]
BEGIN, END = "<!-- made by tools/edits.py -->\n", "<!-- to here -->\n"
RULE = "R10.1: "


def told():
    """Of each edit its name, its slip and the fact."""
    rows, bare = [], []
    for edit in sorted(ROOT.glob("crates/*/must-fail/*.edit")):
        lines = edit.read_text(encoding="utf-8").splitlines()
        found = re.fullmatch(r"# (\S.*); but (\S.*)", lines[0])
        if not found or any(line.startswith("#") for line in lines[1:]) or "|" in lines[0]:
            bare.append(str(edit.relative_to(ROOT)))
        else:
            rows.append((f"{edit.parts[-3]}/`{edit.stem}`", *found.groups()))
    return rows, bare


def strays():
    """Of each edit the texts that its file has not, or has twice: it would be no edit."""
    wrong = []
    for edit in sorted(ROOT.glob("crates/*/must-fail/*.edit")):
        text = ""
        for line in edit.read_text(encoding="utf-8").splitlines():
            if line.startswith("file: "):
                file = edit.parents[1] / line[len("file: ") :]
                text = file.read_text(encoding="utf-8") if file.exists() else ""
            elif line.startswith("old: ") and text.count(line[len("old: ") :]) != 1:
                wrong.append(f"{edit.relative_to(ROOT)}: not once in its file: {line[len('old: ') :]}")
    return wrong


def table(rows):
    return "".join(["| Edit | The slip | Refused because |\n", "|---|---|---|\n"] + [f"| {name} | {slip} | {fact} |\n" for name, slip, fact in rows])


rows, bare = told()
for each in bare:
    print(f"{each}: its first line is not '# the slip; but the fact that then fails'")
lost = strays()
for each in lost:
    print(each)
if bare or lost or not rows:
    sys.exit(1)
named = [(name, slip[len(RULE) :], fact) for name, slip, fact in rows if slip.startswith(RULE)]
others = [row for row in rows if not row[1].startswith(RULE)]
made = f"{BEGIN}The slips of R10.1:\n\n{table(named)}\nThe others:\n\n{table(others)}{END}"
pages = {}
for page in (ROOT / "docs/CONTRACTS.md", ROOT / "README.md"):
    text = page.read_text(encoding="utf-8")
    if BEGIN in text:
        text = text[: text.index(BEGIN)] + made + text[text.index(END) + len(END) :]
    pages[page] = re.sub(r"\b[0-9]+ edits\b", f"{len(rows)} edits", text)
if sys.argv[1:] == ["--check"]:
    wrong = [page for page, text in pages.items() if page.read_text(encoding="utf-8") != text or not re.search(r"\b[0-9]+ edits\b", text)]
    wrong += [] if BEGIN in pages[ROOT / "docs/CONTRACTS.md"] else [ROOT / "docs/CONTRACTS.md"]
    for page in wrong:
        print(f"{page.relative_to(ROOT)} tells not of the edits that there are: python3 tools/edits.py writes it")
    sys.exit(1 if wrong else 0)
elif sys.argv[1:]:
    sys.exit(__doc__.split(":")[0])
for page, text in pages.items():
    page.write_text(text, encoding="utf-8")
print(f"{len(rows)} edits")
