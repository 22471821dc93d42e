#!/usr/bin/env python3
"""build.py MODULE.wasm OUT.html: puts the page together, one file: markup, style, the modules of this folder as one, the tables that the
desk reads too (desk/machines.json, desk/layers.json), the numbers of include/vdp.h, the library as WebAssembly, and the author's question to
begin with (docs/PAGE.md)."""
import base64
import gzip
import json
import pathlib
import re
import sys

HERE = pathlib.Path(__file__).resolve().parent
sys.path.insert(0, str(HERE.parent / "desk"))
import header  # noqa: E402
import language  # noqa: E402
import page  # noqa: E402

START = "app.js"
# The page opens with the author's own question: colour 3 becomes blue when the line counter reads 90.
FIRST, QUESTION = HERE.parent / "docs" / "scripts" / "split-old.desk", {"line": 90, "frame": 1, "seen": 1, "kind": "colour", "index": 3, "value": [0x00, 0x0F]}
IMPORT = re.compile(r'^import \{[^}]*\} from "\./([\w-]+\.js)";\n', re.M)
DECLARED = re.compile(r"^(?:export )?(?:async )?(?:const|let|class|function\*?) (\w+)", re.M)


def modules(name, seen):
    """The module of this name behind those that it imports, each once."""
    if name in seen:
        return
    seen[name] = ""
    text = (HERE / name).read_text(encoding="utf-8")
    if re.search(r"^import\b", IMPORT.sub("", text), re.M):
        sys.exit(f"{name}: an import that build.py does not know")
    for other in IMPORT.findall(text):
        modules(other, seen)
    del seen[name]  # so that it stands behind them
    seen[name] = re.sub(r"^export ", "", IMPORT.sub("", text), flags=re.M)


def code():
    """All modules as one: what is declared in one may not be declared in another."""
    found = {}
    modules(START, found)
    names = [name for text in found.values() for name in DECLARED.findall(text)]
    twice = {name for name in names if names.count(name) > 1}
    if twice:
        sys.exit(f"declared twice: {', '.join(sorted(twice))}")
    text = "".join(found.values())
    text = re.sub(r"/\*\*.*?\*/ ?", "", text, flags=re.S)
    text = re.sub(r"^\s*//.*\n", "", text, flags=re.M)
    return re.sub(r"^\s+", "", text, flags=re.M)


def numbers():
    """Of include/vdp.h: its numbers, and its refusals in words."""
    refusals = {value: header.WORDS[name] for name, value in header.NUMBERS.items() if name.startswith("REFUSED_")}
    return {"numbers": header.NUMBERS, "refusals": refusals}


def main(module, out):
    text = (HERE / "index.html").read_text(encoding="utf-8")
    style = re.sub(r"\n\s*", "\n", (HERE / "style.css").read_text(encoding="utf-8"))
    parts = {
        "STYLE": style,
        "WORDS": page.plain({name: json.loads((HERE.parent / "desk" / f"{name}.json").read_text(encoding="utf-8")) for name in ("machines", "layers")}),
        "HEADER": page.plain(numbers()),
        "GIVEN": "",
        "MODULE": base64.b64encode(gzip.compress(pathlib.Path(module).read_bytes(), 9, mtime=0)).decode("ascii"),
        "CODE": code(),
    }
    for name, part in parts.items():
        text = text.replace(f"<!--{name}-->", part)
    table = header.NUMBERS["CHART_TABLE"]
    given = page.given(str(FIRST), language.script(str(FIRST), table).trace, FIRST.read_text(encoding="utf-8"), False, table, QUESTION)
    pathlib.Path(out).write_text(page.filled(text, given), encoding="utf-8")


if __name__ == "__main__":
    main(*sys.argv[1:])
