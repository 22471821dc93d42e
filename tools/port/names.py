#!/usr/bin/env python3
"""Brings this repository's own definitions and lemmas to the spelling of today's Rattle: a word is in snake case, and a dash stands only between two names.

usage: python3 tools/port/names.py      at the top, once, right after port.py of the toolchain

It goes by text: a name that is declared in a file of specs/ or proofs/ is renamed in every .antt and .rt file, in code and in comments. Functions of src/, strings
and what Rattle makes of a function (the goals of a Proof.antt) keep their names. A name whose new form stands in the tree already keeps its old one; each such name
is printed. NAMES.tsv beside it gets a line for each name: old, new.
"""

import os
import re
import sys

W = r"[^\s(){}.;,@\"«»\[\]\\:`]+"
TOKEN = re.compile(r"\"(?:[^\"\\\n]|\\.)*\"|" + W)
DECLARED = re.compile(r"(?m)^[ \t]*(?:abbrev |unfoldable )*(?:pub )?([^\s(){}:;,.«»|]+) :(?= |$)")
CASE = re.compile(r"(?m)^[ \t]*\| ([^\s(){}:;,.«»]+) :")
MODULE = re.compile(r"(?m)^\s*(?:pub )?use ([^\s{;]+?)(?:\.\{([^}]*)\})?(?: as (\S+))?;?$")
HERE = os.path.dirname(os.path.realpath(__file__))


# Lemmas and constructors of the repository that have the new name of a definition: the lemma gets an ending, the definition another name.
LEMMAS = "codes_at end_line front_at line_set on_line on_row row_on too_long turn_by".split()
OTHERWISE = {
    "rowStep": "row_step_of",
    "frameStep": "frame_step_of",
    "by-home-new": "by_home_new",
    "by-home-new-table": "by_home_new_table",
}


def files(top):
    for folder, folders, names in os.walk(os.path.join(top, "crates")):
        folders[:] = sorted(f for f in folders if f != "out" or "proofs" in folder.split(os.sep))
        for name in sorted(names):
            if name.endswith((".antt", ".rt")):
                yield os.path.join(folder, name)


def snake(word):
    """One part of a name in snake case. A word with a capital first is a type, and stays."""
    if not re.match(r"[a-z]", word):
        return word
    word = re.sub(r"(?<=[a-z0-9])([A-Z])", lambda m: "_" + m[1].lower(), word)
    return word


def bare_in(path, text):
    """The names that a file uses as they are: not below a dot, and of Rust's own only parameters, which hide a word of a clause."""
    text = re.sub(r"(?m)^\s*(pub )?(ghost )?use [^\n]*$", lambda m: " ".join(re.findall(r"\{([^}]*)\}", m[0])), text)
    if path.endswith(".rt"):
        clauses = " ".join(re.findall(r"(?m)^\s*(?:requires|ensures)\*? [^\n{]*(\{[^\n]*)$", text))
        return set(TOKEN.findall(clauses)) | set(re.findall(r"(?<![\w.])(\w+): [&\[\w]", text)) | set(re.findall(r"(?<![\w.])let (?:mut )?(\w+)", text))
    text = re.sub(r"--[^\n]*", "", text)
    return set(re.findall(r"(?<![^\s(){}\[\],;@])" + W, text))


def main():
    top = os.getcwd()
    texts = {p: open(p, encoding="utf-8").read() for p in files(top)}
    ending = re.compile(r"(?<![.\w'-])(" + "|".join(LEMMAS) + r")(?![.\w'-])")
    for path in texts:
        if path.endswith(".antt"):
            texts[path] = ending.sub(lambda m: m[1] + "_lem", texts[path])
    crates = set(os.listdir(os.path.join(top, "crates")))
    library = set()
    declared = set()
    plain = set()
    fields = set()
    made = set()
    for path, text in texts.items():
        for m in MODULE.finditer(re.sub(r"(?m)^ghost use", "use", text)):
            parts = m[1].split(".")
            own = parts[0] == "Rattle" and len(parts) > 1 and parts[1] in crates
            if not own and m[2]:
                library |= {it.strip().split(" as ")[0] for it in m[2].split(",")}
        if not path.endswith(".antt"):
            continue
        is_walk = path.endswith("/Proof.antt")
        for m in DECLARED.finditer(text):
            line = text[m.start() : text.find("\n", m.start())]
            if is_walk and (": tie." in line or m[1].endswith(("-spec", "_spec"))):
                made.add(m[1])
                continue
            declared.add(m[1])
            if "-" not in m[1][1:-1] and "/specs/" in path and not re.match(r"[ \t]", line):
                plain.add(m[1])
        for m in CASE.finditer(text):
            declared.add(m[1])
        for m in re.finditer(r"(?ms)^(?:abbrev |unfoldable )*(?:pub )?record (?:[^\n]*?) (?:where|:)[^\n]*\n((?:[ \t]+[^\n]*\n|[ \t]*\n)*)", text):
            fields |= {it[1] for it in DECLARED.finditer(m[1])}
        for m in re.finditer(r"(?ms)record \{(.*?)\n\s*\}", text):
            fields |= {it[1] for it in DECLARED.finditer(m[1])}
    names = plain | library
    wide = {it for it in plain if snake(it) != it}
    bare = {path: bare_in(path, text) for path, text in texts.items()}
    new = {}
    for name in sorted(declared):
        if name in library or name in made:
            continue
        parts = name.split("-") if "-" in name[1:-1] and re.match(r"[A-Za-z0-9_'-]+$", name) else [name]
        out = snake(parts[0])
        for before, part in zip(parts, parts[1:]):
            joined = name not in fields and (before in library or before in wide) and part in names
            out += ("-" if joined else "_") + snake(part)
        out = OTHERWISE.get(name, out)
        if out != name:
            new[name] = out
    # A lemma that would have its function's name gets an ending.
    turned = {out for name, out in new.items() if "-" not in name} | {it for it in declared if "-" not in it and it not in new}
    for name, out in new.items():
        if "-" in name and out in turned:
            new[name] = out + "_lem"
    count = {}
    for name, out in new.items():
        count[out] = count.get(out, 0) + 1
    taken = {out for path in bare for out in bare[path]}
    near = {name for name, out in new.items() if out in taken and any(name in it and out in it for it in bare.values())}
    kept = sorted(name for name, out in new.items() if out in declared or out in library or name in near or count[out] > 1)
    for name in kept:
        out = new.pop(name)
        print(f"kept: {name}: {out} stands in the tree already: {[os.path.relpath(p, top) for p, it in bare.items() if out in it][:4]}, {[os.path.relpath(p, top) for p, it in bare.items() if out in it and name in it][:4]}")
    for path, text in texts.items():
        is_source = path.endswith(".rt")

        def turn(m):
            it = m[0]
            if it.startswith('"'):
                return it
            if it in new and not (is_source and "-" not in it and it.islower()):
                return new[it]
            return it

        out = TOKEN.sub(turn, text)
        if out != open(path, encoding="utf-8").read():
            with open(path, "w", encoding="utf-8") as f:
                f.write(out)
    with open(os.path.join(HERE, "NAMES.tsv"), "w", encoding="utf-8") as f:
        for name in sorted(new):
            f.write(f"{name}\t{new[name]}\n")
    print(f"{len(new)} names")


if __name__ == "__main__":
    main()
