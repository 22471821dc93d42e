#!/usr/bin/env python3
"""Brings the names of definitions, theorems and lemmas on the pages to the spelling that names.py has given them.

usage: python3 tools/port/pages.py OLD      at the top; OLD is a folder with the tree of the last commit in the old form

A name stands on a page in back-quotes. Where the old tree declares it and this one does not, NAMES.tsv says what it is called now, or else its form in snake case does,
if this tree declares that. What has no new name is printed, with the page, and stays.
"""

import os
import re
import sys

W = r"[^\s(){}.;,@\"«»\[\]\\:`/|…]+"
DECLARED = re.compile(r"(?m)^[ \t]*(?:abbrev |unfoldable )*(?:pub )?(?:record |data |enum )?([^\s(){}:;,.«»|]+)(?: [^\n:]*)? :(?= |$)")
CASE = re.compile(r"(?m)^[ \t]*\| ([^\s(){}:;,.«»]+) :")
FIELD = re.compile(r"(?m)^[ \t]+(?:pub )?([^\s(){}:;,.«»|]+) :(?= )")
HERE = os.path.dirname(os.path.realpath(__file__))
PAGES = "README.md CHANGELOG.md oracle/README.md oracle/VECTORS.md player/README.md examples/cartridge/README.md".split()


def declared(top):
    found, functions = set(), set()
    for folder, folders, names in os.walk(os.path.join(top, "crates")):
        folders[:] = sorted(it for it in folders if it != "out")
        for name in sorted(names):
            with open(os.path.join(folder, name), encoding="utf-8", errors="replace") as it:
                text = it.read()
            if name.endswith(".antt") and name != "Proof.antt":
                for form in (DECLARED, CASE, FIELD):
                    found |= {m[1] for m in form.finditer(text)}
            elif name.endswith(".rt"):
                functions |= set(re.findall(r"\b(?:fn|struct|enum|mod|const|trait) (\w+)", text)) | set(re.findall(r"(?m)^\s*(?:pub )?(\w+)[:,(]", text))
    return found, functions


def snake(name):
    return re.sub(r"(?<=[a-z0-9])([A-Z])", lambda m: "_" + m[1].lower(), name).replace("-", "_").replace("′", "'")


def main():
    old, _ = declared(sys.argv[1])
    new, functions = declared(".")
    with open(f"{HERE}/NAMES.tsv", encoding="utf-8") as it:
        names = dict(line.rstrip("\n").split("\t") for line in it)

    def turned(name):
        if name not in old or name in new or not re.search(r"[A-Z-]|′", name[1:]):
            return None
        for it in (names.get(name), snake(name), snake(name) + "_lem"):
            if it and it != name and it in new:
                return it
        return None

    for page in [*PAGES, *sorted(f"docs/{it}" for it in os.listdir("docs") if it.endswith(".md") and it != "PORT.md")]:
        with open(page, encoding="utf-8") as it:
            text = it.read()

        def one(m):
            word = m[0]
            to = turned(word)
            if to is None and word in old and word not in new and word not in functions:
                print(f"{page}: {word}: no new name")
            return to or word

        def quoted(m):
            return re.sub(W, one, m[0])

        # (a block of code is not a name)
        parts = re.split(r"(?ms)(^```.*?^```$)", text)
        parts = [part if part.startswith("```") else re.sub(r"`[^`\n]+`", quoted, part) for part in parts]
        if "".join(parts) != text:
            with open(page, "w", encoding="utf-8") as it:
                it.write("".join(parts))


if __name__ == "__main__":
    main()
