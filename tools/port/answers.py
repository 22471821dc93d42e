#!/usr/bin/env python3
"""Turns the proofs of functions that walk the code by hand (Proof.antt) into Invariants.antt and Answers.antt.

usage: python3 tools/port/answers.py CRATE..      at the top; CRATE's own crates below it must be proved

It asks rt for the names that the goals and steps had and have, and turns each Proof.antt: the loops' invariants and measures go into Invariants.antt; then it asks
the check which goals the tactics leave open, and puts the old answers of these into Answers.antt, with the places that they cite turned. What it cannot turn is
printed, and stays in the answer as it stood; a goal that stays open and had no answer is printed too.
"""

import json
import os
import re
import subprocess
import sys
import tempfile

ID = r"[A-Za-zα-ωΑ-Ω_][\w'₀-₉-]*"
TRIVIAL = re.compile(r"^(search rules|omega arith|refl|\(omega arith, omega arith\)|\(search rules, search rules\))$")


def fns_of(crate):
    """Of each function of a crate, by its path, the names of its parameters and of its clauses."""
    out = {}
    src = os.path.join("crates", crate, "src")
    for folder, _, names in os.walk(src):
        for name in sorted(names):
            if not name.endswith(".rt"):
                continue
            stem = os.path.relpath(os.path.join(folder, name), src)[:-3].split("/")
            module = [] if stem in (["lib"], ["main"]) else stem
            of, current = None, None
            for line in open(os.path.join(folder, name), encoding="utf-8"):
                m = re.match(r"impl(?:<[^>]*>)? (?:\w+ for )?(\w+)", line)
                if m:
                    of = m[1]
                if line.startswith("}"):
                    of = None
                m = re.match(r"\s*(?:pub )?(?:const )?(?:unsafe )?(?:extern \"C\" )?fn (\w+)", line)
                if m:
                    current = {"requires": [], "ensures": [], "params": ["self"], "lent": []}
                    out["::".join([crate, *module, *([of] if of else []), m[1]])] = current
                m = re.match(r"\s+(requires|ensures)\*? (?:(\w+) )?\{", line)
                if m and current is not None:
                    current[m[1]].append(m[2])
                elif current is not None and not current["requires"] and not current["ensures"] and not line.startswith("    //"):
                    if re.search(r"[(&\s]self[,)\s]", line):
                        current["method"] = True
                    current["params"] += re.findall(r"(\w+): [&\[\w(]", line)
                    current["lent"] += re.findall(r"(\w+): &(?:'\w+ )?mut ", line) + (["self"] if "&mut self" in line else [])
    return out


def norm(name):
    name = name.replace("_", "-")
    name = re.sub(r"^(overflow-|nonzero-)", "", name)
    name = re.sub(r"-lem$", "", name).lower()
    return name.replace("type-size", "size-of").replace("put-all", "put-all")


def blocks_of(text):
    """The declarations of a file, each with its comment above, and the head."""
    lines = text.split("\n")
    at = 0
    while at < len(lines) and (lines[at].startswith("use ") or lines[at].startswith("--") or not lines[at].strip() or lines[at].startswith("    ")):
        at += 1
    # comments right above the first declaration belong to it
    head = lines[:at]
    out, now = [], []
    for line in lines[at:]:
        if not line.strip():
            if now:
                out.append("\n".join(now))
            now = []
        else:
            now.append(line)
    if now:
        out.append("\n".join(now))
    # a block whose lines are indented, or that does not declare, goes on the block before
    merged = []
    for it in out:
        if merged and it.startswith(" "):
            merged[-1] += "\n\n" + it
        else:
            merged.append(it)
    return head, merged


class Turner:
    def __init__(self, crate, fns, names, path, text):
        self.crate, self.fns, self.path, self.text = crate, fns, path, text
        self.of = names
        self.left = []
        self.me = self.fns.get("::".join([crate, *path]), {"requires": [], "ensures": []})
        self.places = self.of["places"]
        self.index = {p[0]: k for k, p in enumerate(self.places)}
        self.args = {}
        for old, new in self.of.get("args", []):
            o, n = old.split(), new.split()
            if len(o) == 2 and len(n) == 2:
                self.args[o[1].lstrip(".")] = n[1].lstrip(".")
        params = self.me.get("params", [])
        for k, name in enumerate(params if self.me.get("method") else params[1:]):
            self.args.setdefault(f"t{k + 1}", name)
        for name in params:
            self.args.setdefault(name.replace("_", "-"), name)

    def up(self, place):
        parent = self.places[place][1]
        return self.index[parent] if parent in self.index else None

    def clause(self, names, rest):
        """The path into nested pairs, as the name of a clause. rest: the fields after it."""
        if len(names) < 2 or not rest:
            return rest
        k = 0
        rest = list(rest)
        while k < len(names) - 1:
            if rest and rest[0] == "0":
                return [names[k] or "?"] + rest[1:]
            if rest and rest[0] == "1":
                rest = rest[1:]
                k += 1
                continue
            return None
        return [names[k] or "?"] + rest

    def find(self, place, hint, name):
        """The step with this old name, at the place where the fields before led or above or below it."""
        chain, at = [], place
        while at is not None:
            chain.append(at)
            at = self.up(at)
        order = sorted(range(len(chain)), key=lambda k: (abs(k - hint), k))
        for k in order:
            step = self.places[chain[k]][2]
            if norm(step[0]) == norm(name) or norm(step[0]).replace("-", "") == norm(name).replace("-", ""):
                return chain[k]
        return None

    def fields(self, place, base, fields, where, bound=False):
        """c.before.before.STEP.FIELD.. at a place, as c.STEP.FIELD.."""
        n = base
        fields = list(fields)
        while fields and fields[0] == "before":
            n += 1
            fields = fields[1:]
        if not fields:
            return None, n
        first, rest = fields[0], fields[1:]
        if first in ("args", "ranges"):
            if rest:
                rest = [self.args.get(rest[0], rest[0])] + rest[1:]
            return ".".join(["c", first, *rest]), n
        if first == "requires":
            turned = self.clause(self.me["requires"], rest)
            if turned is None:
                self.left.append(f"{where}: requires.{'.'.join(rest)}")
                turned = rest
            return ".".join(["c", "requires", *turned]), n
        variant = re.search(r"-in-([A-Z]\w*)", where)
        if re.fullmatch(r"enum[-_]told\d*", first) and rest[:2] == ["given", "1"] and variant:
            return ".".join(["c", "in-" + variant[1], "is", *rest[2:]]), n
        at = self.find(place, n, first)
        if at is None:
            self.left.append(f"{where}: no step {first}")
            return ".".join(["c", first, *rest]), n
        step = self.places[at][2][1]
        callee = self.places[at][3]
        rest = ["type_inv" if it == "type-inv" else it for it in rest]
        if rest and re.fullmatch(r"keys\d+", rest[0]):
            rest[0] = "is"
        if rest and rest[0] == "rest" and step == "in_default":
            step = "in_default.in_default-own"
        if callee and len(rest) > 1 and rest[0] in ("auto", "new") and rest[1].isdigit():
            lent = self.fns.get(callee, {}).get("lent", [])
            k = 0
            while len(rest) > k + 1 and rest[k + 1] == "1":
                k += 1
            if len(rest) > k + 1 and rest[k + 1] == "0" and k < len(lent):
                rest = [rest[0], lent[k], *rest[k + 2 :]]
        clauses = self.fns.get(callee, {}).get("ensures", []) if callee else []
        if callee and not callee.startswith(self.crate + "::") and callee not in self.fns:
            clauses = self.fns.get("std::num::" + callee.split("::")[-1], {}).get("ensures", [])
        if rest[:2] == ["given", "1"]:
            arm = place
            while arm is not None and not re.match(r"in[-_]", self.places[arm][2][1]):
                arm = self.up(arm)
            if arm is not None:
                return ".".join(["c", self.places[arm][2][1], "is", *rest[2:]]), n
        if callee and rest == ["ensures"] and len(clauses) > 1 and not bound:
            pair = f"c.{step}.ensures.{clauses[-1]}"
            for name in reversed(clauses[:-1]):
                pair = f"(c.{step}.ensures.{name}, {pair})"
            return pair, n
        if callee and rest and rest[0] == "ensures" and len(clauses) == 1 and clauses[0]:
            rest = ["ensures", clauses[0], *rest[1:]]
        elif callee and rest and rest[0] == "ensures" and len(rest) > 1:
            turned = self.clause(clauses, rest[1:])
            if turned is None:
                self.left.append(f"{where}: {first}.{'.'.join(rest)}")
                turned = rest[1:]
            rest = ["ensures", *turned]
        return ".".join(["c", step, *rest]), n

    def callee_of(self, cited):
        """The clauses behind c.requires or c.STEP.ensures."""
        if cited == "c.requires":
            return self.me["requires"]
        m = re.fullmatch(r"c\.(.+)\.ensures", cited)
        if m:
            for p in self.places:
                if p[2][1] == m[1] and p[3]:
                    return self.fns.get(p[3], {}).get("ensures", [])
        return None

    def body(self, goal, place, body):
        where = f"{self.crate}::{'::'.join(self.path)} {goal}"
        alias = {"c": 0}
        values, arguments = {}, set()
        out = []

        def place_of(m):
            if m[2] not in alias:
                return m[0]
            alias[m[1]] = alias[m[2]] + m[3].count(".before")
            return ""

        before = None
        while before != body:
            before = body
            body = re.sub(rf"let ({ID}) = ({ID})((?:\.before)*) in(?=[\s(])[ ]*", place_of, body, count=1)
        body = "\n".join(line for k, line in enumerate(body.split("\n")) if line.strip() or k == 0)
        lines = body.split("\n")
        for line in lines:

            def turn(m):
                name, path = m[1], m[2]
                fields = [f for f in path.split(".") if f]
                if name in alias and fields:
                    bound = re.search(rf"let {ID} = $", line[: m.start()]) is not None and line[m.end() :].startswith(" in")
                    cited, n = self.fields(place, alias[name], fields, where, bound)
                    if cited is None:
                        self.left.append(f"{where}: {m[0]} is a place")
                        return m[0]
                    return cited
                if name in arguments and fields:
                    return ".".join([name, self.args.get(fields[0], fields[0]), *fields[1:]])
                if name in values and fields:
                    turned = self.clause(values[name], fields)
                    if turned is None:
                        self.left.append(f"{where}: {m[0]}")
                        return m[0]
                    return ".".join([name, *turned])
                return m[0]

            line = re.sub(rf"(?<![\w.'-])({ID})((?:\.[\w'₀-₉-]+)+)", turn, line)
            m = re.match(rf"^\s*let ({ID}) = (c\.\S+) in(?=[\s(]|$)", line)
            if m:
                arguments.discard(m[1])
                if m[2] in ("c.args", "c.ranges"):
                    arguments.add(m[1])
                clauses = self.callee_of(m[2])
                if clauses and len(clauses) > 1:
                    values[m[1]] = clauses
                elif m[1] in values:
                    del values[m[1]]
            out.append(line)
        text = "\n".join(out)
        # The test of an `if !b` says itself what b is.
        text = re.sub(r"\(not-true [\w.'-]+ (c\.[\w.-]+\.true)\)", r"\1", text)
        text = re.sub(r"\(not-false [\w.'-]+ (c\.[\w.-]+\.false)\)", r"\1", text)
        text = re.sub(r"not-(?:true|false) [\w.'-]+ (c\.[\w.-]+\.(?:true|false))(?![\w.-])", r"\1", text)
        return text

    def split(self, body, clauses):
        """A tuple of the clauses' proofs, clause by clause, each below the lets in front."""
        lets, last = peeled(body)
        front = ""
        m = re.match(r"(?s)^(rw \([^()]*\)|rw [\w.'-]+|simp \([^()]*\)|simp [\w.'-]+) (\(.*\))$", last)
        if m:
            front, last = m[1] + " ", m[2]
        parts, rest = [], last
        for k in range(len(clauses) - 1):
            two = tuple_of(rest)
            if two is None or (len(two) != 2 and len(two) != len(clauses) - k):
                return None
            if len(two) == len(clauses) - k and len(two) > 2:
                parts += two[:-1]
                rest = two[-1]
                break
            parts.append(two[0])
            rest = two[1]
        parts.append(rest)
        if len(parts) != len(clauses):
            return None
        return {name: f"{lets}    {front}{part if simple(part) or not front else '(' + part + ')'}" for name, part in zip(clauses, parts)}


def peeled(body):
    """The lets in front of a term, as whole lines, and the term that is left."""
    lets, rest = "", body.strip()
    while re.match(r"let\b", rest):
        depth, open_lets, at = 0, 0, None
        for m in re.finditer(r"[(\[{]|[)\]}]|(?<![\w.'-])(let|in)(?![\w'-])", rest):
            if m[0] in "([{":
                depth += 1
            elif m[0] in ")]}":
                depth -= 1
            elif depth == 0 and m[0] == "let":
                open_lets += 1
            elif depth == 0 and m[0] == "in":
                open_lets -= 1
                if open_lets == 0:
                    at = m.end()
                    break
        if at is None:
            break
        lets += "    " + rest[:at] + "\n"
        rest = rest[at:].strip()
    return lets, rest


def simple(term):
    return bool(re.fullmatch(r"[\w.'-]+", term.strip())) or (term.startswith("(") and tuple_of(term) is not None)


def tuple_of(term):
    term = term.strip()
    if not (term.startswith("(") and term.endswith(")")):
        return None
    depth, parts, now = 0, [], ""
    for k, ch in enumerate(term[1:-1]):
        if ch in "([{":
            depth += 1
        if ch in ")]}":
            depth -= 1
            if depth < 0:
                return None
        if ch == "," and depth == 0:
            parts.append(now.strip())
            now = ""
        else:
            now += ch
    if now.strip():
        parts.append(now.strip())
    return parts if len(parts) > 1 else None


def turn(crate, fns, names, file, left):
    text = open(file, encoding="utf-8").read()
    path = os.path.relpath(os.path.dirname(file), os.path.join("crates", crate, "proofs")).split("/")
    key = f"Rattle-{crate}-proofs.{'.'.join(path)}.Lts"
    found = [k for k in names if k == key]
    if not found:
        left.append(f"{crate}::{'::'.join(path)}: no names of it")
        return
    it = Turner(crate, fns, names[key], path, text)
    head, blocks = blocks_of(text)
    head = [line for line in head if not re.search(r"\.(Statement\.\{statement\}|Tie as tie)$", line)]
    comments = [line for line in head if line.startswith("--")]
    uses = "\n".join(line for line in head if not line.startswith("--")).strip()
    needs = it.of["needs"]
    asked = it.of["asked_at"]
    taken = set()
    invariants, answers, helpers = [], {}, []
    module = f"Rattle.{crate}.proofs.{'.'.join(path)}"
    order = [b for b in blocks if re.search(r"(?m)^\S+ : tie\.Need-", b)]
    for block in blocks:
        m = re.search(r"(?m)^(?:abbrev |unfoldable )*(?:pub )?(\S+) : (.*)$", block)
        if not m:
            helpers.append(block)
            continue
        kind = m[2]
        if "statement M" in kind:
            continue
        m2 = re.match(r"tie\.(invariant|decreases|shape)-(\S+)", kind)
        if m2:
            loop = next((lp for lp in it.of["loops"] if norm(lp[0][0]) == norm(m2[2])), None)
            clause = re.search(rf"(?ms)^{re.escape(m[1])} ([^=\n]*)=(?!=)(.*)$", block)
            if not loop or not clause:
                left.append(f"{crate}::{'::'.join(path)}: {m2[0]}")
                helpers.append(block)
                continue
            variables = loop[1]
            words = clause[1].split()
            body = clause[2].strip()
            k = 0
            swap = {}
            initial = [w for w in words if w.endswith("₀")]
            for w in words:
                if w.endswith("₀"):
                    swap[w] = "l.initial." + nearest(w[:-1], variables)
            now = [w for w in words if not w.endswith("₀")]
            for w in now:
                if w != "_":
                    swap[w] = "l." + nearest(w, variables)

            def put(m):
                return swap.get(m[0], m[0])

            body = re.sub(r"(?<![\w.'-])" + ID, put, body)
            un = re.search(r"(?m)^unfolding [^\n]*\n", block)
            invariants.append(f"abbrev pub {m2[1]}-{loop[0][1]} : goal.{m2[1]}-{loop[0][1]}\n{un[0] if un else ''}{m2[1]}-{loop[0][1]} l = {body}")
            continue
        m2 = re.match(r"tie\.Need-(\S+)", kind)
        if not m2:
            helpers.append(block)
            continue
        at = next((k for k, n in enumerate(needs) if k not in taken and norm(n[0]) == norm(m2[1])), None)
        if at is None and len(order) == len(needs):
            at = order.index(block)
        clause = re.search(rf"(?ms)^{re.escape(m[1])} ((?:\S+ )*?)=(?!=)(.*)$", block)
        body = clause[2] if clause else ""
        un = re.search(r"(?m)^unfolding ([^\n]*)\n", block)
        if TRIVIAL.match(body.strip()) and not (un and body.strip() == "refl"):
            if at is not None:
                taken.add(at)
            if not un:
                continue
        if at is None:
            if TRIVIAL.match(body.strip()):
                continue
            left.append(f"{crate}::{'::'.join(path)}: no goal for {m2[1]}")
            answers["? " + m2[1]] = {"text": block}
            continue
        taken.add(at)
        goal = needs[at][1]
        place = it.index.get(asked[at][0])
        if place is None:
            left.append(f"{crate}::{'::'.join(path)}: no place for {m2[1]}")
            place = 0
        body = it.body(goal, place, body)
        clauses, parts = None, None
        if goal.startswith("returns"):
            clauses = it.me["ensures"]
        elif re.search(r"-requires(-\d+)?$", goal) or "-requires-" in goal:
            name = re.sub(r"-requires.*$", "", goal)
            is_it = lambda f: name == f.split("::")[-1] or name.startswith(f.split("::")[-1] + "-")
            callees = [p[3] for p in it.places if p[3] and is_it(p[3])]
            each = [fns[f]["requires"] for f in sorted(fns, key=lambda f: -len(f.split("::")[-1])) if is_it(f)]
            if callees and callees[0] in fns:
                clauses = fns[callees[0]]["requires"]
            elif each:
                clauses = each[0]
        if clauses and len(clauses) > 1:
            parts = it.split(body, clauses)
        answers[goal] = {"body": body.rstrip(), "unfolding": un[1] if un else None, "clauses": clauses, "parts": parts}
    left += it.left
    folder = os.path.dirname(file)
    os.remove(file)
    about = "\n".join(comments)
    about = about + "\n" if about else ""
    if invariants:
        with open(os.path.join(folder, "Invariants.antt"), "w", encoding="utf-8") as f:
            f.write(f"{about}{uses}\nuse {module}.Given as goal\n\n" + "\n\n".join(invariants) + "\n")
    if not os.listdir(folder):
        os.rmdir(folder)
    return {"folder": folder, "about": about, "uses": uses, "module": module, "helpers": helpers, "answers": answers}


def shown(goal, unfolding, body):
    start = "" if body.startswith("\n") else " "
    if "\n" in body and not body.startswith("\n"):
        start = "\n"
    if "not-true" in body or "not-false" in body:
        print(f"look: {goal}: not-true or not-false")
    return f"pub {goal} : goal.{goal}\n{'unfolding ' + unfolding + chr(10) if unfolding else ''}{goal} c ={start}{body.rstrip()}"


def fill(crate, kept, left):
    """Puts the old answers of the goals that a check leaves open into Answers.antt."""
    said = subprocess.run(["rt", "check"], cwd=os.path.join("crates", crate), stdout=subprocess.PIPE, stderr=subprocess.STDOUT, text=True).stdout
    with open(f"/tmp/said-{crate}.txt", "w") as f:
        f.write(said)
    opened, more = {}, False
    for m in re.finditer(r"(?m)^help: (?:write|add these lines to) \./(proofs/\S+)/Answers\.antt[^\n]*\n((?:    [^\n]*\n)*)", said):
        opened[m[1]] = re.findall(r"(?m)^    pub (\S+) :\s+goal\.", m[2])
    for folder, goals in sorted(opened.items()):
        it = kept.get(os.path.join("crates", crate, folder))
        if it is None:
            left.append(f"{folder}: open, and no proof of it was kept: {' '.join(goals)}")
            continue
        path = os.path.join("crates", crate, folder)
        file = os.path.join(path, "Answers.antt")
        have = open(file, encoding="utf-8").read() if os.path.exists(file) else None
        texts = [] if have else list(it["helpers"])
        for goal in goals:
            old = it["answers"].get(goal)
            m = re.fullmatch(r"(.*)-clause-(\w+)", goal)
            if old is None and m:
                old = it["answers"].get(m[1])
                if old and old.get("parts") and m[2] in old["parts"]:
                    texts.append(shown(goal, old["unfolding"], old["parts"][m[2]]))
                    continue
                if old and "body" in old:
                    lets, last = peeled(old["body"])
                    clauses = old.get("clauses") or []
                    if m[2] in clauses and not last.startswith(("rw ", "simp ", "search", "omega", "record", "(", "let", "λ")):
                        k = clauses.index(m[2])
                        which = ".1" * k + (".0" if k < len(clauses) - 1 else "")
                        texts.append(shown(goal, old["unfolding"], f"{lets}    let whole = {last} in whole{which}"))
                        continue
                    left.append(f"{folder} {goal}: the clause is to be taken out of the whole answer")
                    texts.append(shown(goal, old["unfolding"], old["body"]))
                    continue
            elif old and "body" in old:
                if old.get("parts"):
                    lines = ";\n".join(f"      {name} = {part.strip()}" for name, part in old["parts"].items())
                    texts.append(shown(goal, old["unfolding"], f"record {{\n{lines};\n    }}"))
                else:
                    if old.get("clauses") and len(old["clauses"]) > 1:
                        left.append(f"{folder} {goal}: clauses {old['clauses']}")
                    texts.append(shown(goal, old["unfolding"], old["body"]))
                continue
            left.append(f"{folder} {goal}: open, and had no answer")
        unused = [g for g in it["answers"] if g.startswith("? ")]
        if unused and not have:
            left.append(f"{folder}: answers of goals that are gone or have another name: {' '.join(unused)}")
            texts += ["\n".join("-- " + line for line in it["answers"][g]["text"].split("\n")) for g in unused]
        new = [t for t in texts if t not in (have or "")]
        if not new:
            continue
        more = True
        os.makedirs(path, exist_ok=True)
        with open(file, "w", encoding="utf-8") as f:
            f.write((have + "\n" if have else f"{it['about']}{it['uses']}\nuse {it['module']}.Goals as goal\n\n") + "\n\n".join(new) + "\n")
    return more


def nearest(word, variables):
    if word in variables:
        return word
    for v in variables:
        if norm(v) == norm(word):
            return v
    return word


def main(crates):
    if crates[0] == "--more":
        for crate in crates[1:]:
            left = []
            kept = json.load(open(f"/tmp/kept-{crate}.json", encoding="utf-8"))
            while fill(crate, kept, left):
                pass
            print("\n".join("left: " + line for line in dict.fromkeys(left)))
        return
    fns = {}
    for crate in sorted(os.listdir("crates")):
        fns |= fns_of(crate)
    kit = os.path.dirname(os.path.realpath(subprocess.run(["rt", "doc"], stdout=subprocess.PIPE, text=True).stdout.strip()))
    for m in re.finditer(r"(?m)^pub fn (\w+)\([^\n]*\n((?:    (?:requires|ensures)[^\n]*\n)*)", open(os.path.join(kit, "rattle/core/src/num.rt"), encoding="utf-8").read()):
        fns["std::num::" + m[1]] = {
            kind: re.findall(rf"{kind}\*? (\w+) \{{", m[2]) for kind in ("requires", "ensures")
        } | {"params": [], "lent": []}
    for crate in crates:
        left = []
        with tempfile.TemporaryDirectory() as top:
            subprocess.run(["rt", "check", "--generated", os.path.join(top, "g"), "--old-names"], cwd=os.path.join("crates", crate), stdout=subprocess.PIPE, stderr=subprocess.STDOUT)
            try:
                names = json.load(open(os.path.join(top, "g", "names.json"), encoding="utf-8"))
            except OSError:
                print(f"{crate}: no names: its lower crates are not proved, or its sources have errors")
                continue
        kept = {}
        for folder, _, found in sorted(os.walk(os.path.join("crates", crate, "proofs"))):
            if "Proof.antt" in found:
                one = turn(crate, fns, names, os.path.join(folder, "Proof.antt"), left)
                if one:
                    kept[folder] = one
        with open(f"/tmp/kept-{crate}.json", "w") as f:
            json.dump(kept, f, ensure_ascii=False, indent=1)
        for _ in range(5):
            if not fill(crate, kept, left):
                break
        for line in dict.fromkeys(left):
            print("left: " + line)


if __name__ == "__main__":
    main(sys.argv[1:])
