#!/usr/bin/env python3
"""Turns the Proof.antt files of a crate, as the port's script leaves them, into Invariants.antt and Answers.antt.

usage: tools/turn_proofs.py CRATE_FOLDER NAMES.json invariants
           writes each Invariants.antt, and moves each Proof.antt aside, to Proof.old
       tools/turn_proofs.py CRATE_FOLDER NAMES.json answers CHECK.txt
           writes an Answers.antt with the old answers for the goals that the check left open (CHECK.txt: what rt check printed)

NAMES.json is written by `rt check --generated FOLDER --old-names` in the crate's folder. It goes by text: rt check decides.
"""
import json
import os
import re
import sys


def norm(name):
    return re.sub(r"[^0-9a-z]+", "-", name.lower())


def blocks(text):
    """The declarations of a file: (signature name, type, lines of the rest)."""
    head, out = [], []
    for line in text.splitlines():
        m = re.match(r"^(?:(?:abbrev|pub|unfoldable) )*([^\s:(){}]+)(?: \{[^}]*\})? :(.*)$", line)
        if m and not line.startswith((" ", "--", "use ")):
            out.append([m.group(1), m.group(2).strip(), [], line])
        elif out:
            out[-1][2].append(line)
        else:
            head.append(line)
    return head, out


def arguments(line):
    return line.split("=", 1)[0].split()


class Names:
    def __init__(self, it):
        self.needs = {norm(o): n for o, n in it["needs"]}
        self.asked = {norm(o[0]): p[0] for o, p in zip(it["needs"], it["asked_at"])}
        self.places = {p[0]: p for p in it["places"]}
        self.arms = {p[0]: k for p, k in zip(it["places"], it["arms"])}
        self.clauses = {}
        self.callee = {}
        for p, k in zip(it["places"], it["clauses"]):
            if p[2][1] and k and k.get("fields"):
                self.clauses[p[2][1]] = k["fields"]
            if p[2][1] and p[3]:
                self.callee[p[2][1]] = p[3]
        self.it = it
        self.typed = {norm(s): v for row in it["typed"] for v, s in row if s}

    def step(self, at, old):
        """The new name of the step `old`, at the place `at` or above it."""
        old = re.sub(r"_lem$", "", {"type_size": "size_of"}.get(old, old))
        old = old.strip("«»")
        m = re.fullmatch(r"fits-?(\d+)", old)
        if m:
            old = "fits" if m.group(1) == "2" else f"fits{int(m.group(1)) - 1}"
        seen = set()
        while at is not None and at in self.places and at not in seen:
            seen.add(at)
            p = self.places[at]
            if p[2][0] and norm(p[2][0]) == norm(old):
                return p[2][1]
            at = p[1]
        for p in self.places.values():
            if p[2][0] and norm(p[2][0]) == norm(old):
                return p[2][1]
        return None

    def arm(self, at, old, path):
        """What an arm of a match calls the field that went by the step `old` and a path: its new name, and how much of the path it took."""
        old = re.sub(r"_lem$", "", old)
        best = None
        while at is not None and at in self.places:
            p = self.places[at]
            k = self.arms.get(at)
            for new, step, was in (k[2] if k else []):
                if norm(step) == norm(old) and was == path[: len(was)] and (best is None or len(was) > best[1]):
                    best = (f"{k[0]}.{new}", len(was))
            if best:
                return best
            at = p[1]
        return None

    def term(self, at, text):
        alias = {"c"}
        while True:
            m = re.search(r"let ([\w']+)(?: : [^=]*)? = c(?:\.before)+ in *(?:\n *)?", text)
            if not m:
                break
            text = text[: m.start()] + re.sub(rf"(?<![\w.'-]){re.escape(m.group(1))}(?![\w'-])", "c", text[m.end():])

        def turn(m):
            head, name, rest = m.group(1), m.group(3), m.group(4)
            if head not in alias:
                return m.group()
            if name in ("args", "requires", "ranges", "before", "given", "utf8", "lifetimes", "type_inv", "auto"):
                return f"{head}.{name}{rest}"
            if norm(name) in self.typed and rest.startswith(".given"):
                return f"{head}.type_inv.{self.typed[norm(name)]}{rest[6:]}"
            path = rest.split(".")[1:]
            arm = self.arm(at, name, path)
            if arm:
                return f"{head}.{arm[0]}" + "".join("." + p for p in path[arm[1]:])
            new = self.step(at, name)
            return f"{head}.{new or name}{rest}"

        steps = {norm(s) for k in self.arms.values() if k for _, s, was in k[2] if was}
        while True:
            for m in re.finditer(r"let ([\w']+) = (c(?:\.before)*\.([\w-]+)(?:\.[\w-]+)*) in *(?:\n *)?", text):
                if norm(re.sub(r"_lem$", "", m.group(3))) in steps and ".given" in m.group(2):
                    text = text[: m.start()] + re.sub(rf"(?<![\w.'-]){re.escape(m.group(1))}(?![\w'-])", m.group(2), text[m.end():])
                    break
            else:
                break
        text = text.replace(".type-inv", ".type_inv").replace(".well-formed", ".well_formed")
        text = re.sub(r"(?<![\w.'-])([\w']+)((?:\.before)*)\.([\w«»-]+)((?:\.[\w-]+)*)", turn, text)
        text = re.sub(r"(c\.[\w-]+\.[\w-]+-own\.keys\d+)", r"(opened \1)", text)
        return self.fields(text)

    def fields(self, text):
        """The fields that went by number: clauses of a call by their names, what a call leaves in lent memory by the parameter."""
        local = {m.group(1): m.group(2) for m in re.finditer(r"let ([\w']+) = c\.([\w-]+)(?:\.ensures)? in", text)}
        whole = {m.group(1) for m in re.finditer(r"let ([\w']+) = c\.([\w-]+)\.ensures in", text)}

        def clause(m):
            step = m.group(2)
            if m.group(1) != "c":
                return m.group()
            names = self.clauses.get(step)
            return f"c.{step}.ensures.{names[int(m.group(3))]}" if names and int(m.group(3)) < len(names) else m.group()

        text = re.sub(r"(?<![\w.'-])(c)\.([\w-]+)\.ensures\.(\d+)", clause, text)

        def alone(m):
            names = self.clauses.get(m.group(1))
            return f"c.{m.group(1)}.ensures.{names[0]}" if names and len(names) == 1 else m.group()

        text = re.sub(r"(?<![\w.'-])c\.([\w-]+)\.ensures(?![\w.'-])", alone, text)

        def shaped(m):
            step = m.group(2) if m.group(1) == "c." else local.get(m.group(2))
            names = self.it["params"].get(self.callee.get(step, ""), [])
            n = m.group(3).count(".1")
            return f"{m.group(1)}{m.group(2)}.auto.{names[n]}" if n < len(names) else m.group()

        text = re.sub(r"(?<![\w.'-])(c\.|)([\w'-]+)\.auto((?:\.1)*\.0)(?![\w.])", shaped, text)

        def local_clause(m):
            names = self.clauses.get(local.get(m.group(1), ""))
            if not names or int(m.group(3)) >= len(names) or (m.group(2) or "") != ("" if m.group(1) in whole else ".ensures"):
                return m.group()
            return f"{m.group(1)}{m.group(2) or ''}.{names[int(m.group(3))]}"

        text = re.sub(r"(?<![\w.'-])([\w']+)(\.ensures)?\.(\d+)", local_clause, text)

        def left(m):
            step = m.group(2) if m.group(1) == "c" else local.get(m.group(1))
            lent = lent_by(self.callee.get(step, "")) if step else []
            n = int(m.group(3))
            head = f"c.{m.group(2)}" if m.group(1) == "c" else m.group(1)
            return f"{head}.{m.group(4)}.{lent[n]}" if n < len(lent) else m.group()

        text = re.sub(r"(?<![\w.'-])(c)\.([\w-]+)\.(?=(new|auto)\.)(?:new|auto)\.(\d+)", lambda m: left(Lent(m, 4, 3)), text)
        return re.sub(r"(?<![\w.'-])([\w']+)()\.(?=(new|auto)\.)(?:new|auto)\.(\d+)", lambda m: left(Lent(m, 4, 3)), text)

class Lent:
    """A match whose third group is the number and whose fourth the word before it."""

    def __init__(self, m, number, word):
        self.m, self.order = m, {3: number, 4: word}

    def group(self, n=0):
        return self.m.group(self.order.get(n, n))


def arrays_of(key):
    """The parameters of a function of this crate, in order: of an array the older proofs know the place alone, as t1, t2 and so on."""
    parts = folder_of(key).split("/")
    for root, _, names in os.walk(os.path.join(FOLDER, "src")):
        for name in names:
            text = open(os.path.join(root, name), encoding="utf-8").read()
            if len(parts) > 1 and name[:-3] != parts[-2]:
                continue
            m = re.search(r"fn " + re.escape(parts[-1]) + r"\(([^)]*)\)", text)
            if m:
                return [p.split(":")[0].strip().split()[-1] for p in re.split(r",(?![^\[]*\])", m.group(1)) if ":" in p]
    return []


def lent_by(callee):
    """The parameters of a function of this repository that are lent as &mut, in order."""
    parts = callee.split("::")
    if len(parts) < 2:
        return []
    top = os.path.join(FOLDER, "..", parts[0], "src")
    for root, _, names in os.walk(top):
        for name in names:
            text = open(os.path.join(root, name), encoding="utf-8").read()
            stem = name[:-3]
            if len(parts) > 2 and stem not in (parts[-2], "mod"):
                continue
            m = re.search(r"fn " + parts[-1] + r"(?:<[^>]*>)?\(([^)]*)\)", text)
            if m:
                return [p.split(":")[0].strip().split()[-1] for p in re.split(r",(?![^<\[(]*[>\])])", m.group(1)) if "&" in p and "mut " in p.split(":", 1)[1]]
    return []


def uses(head):
    return [l for l in head if l.startswith("use ") and ".Statement." not in l and not re.search(r"\.Tie as tie$", l)]


def folder_of(key):
    path = re.sub(r"^Rattle-\w+-proofs\.", "", key)
    return re.sub(r"\.Lts$", "", path).replace(".", "/")


def invariants(folder, key, it):
    where = os.path.join(folder, "proofs", folder_of(key))
    path = os.path.join(where, "Proof.antt")
    if not os.path.exists(path):
        path = os.path.join(where, "Proof.old")
    if not os.path.exists(path):
        return
    text = open(path, encoding="utf-8").read()
    head, decls = blocks(text)
    module = re.search(r"use (Rattle\.[\w.+-]+)\.Tie as tie", text)
    said, lemmas = [], []
    loops = {norm(l[0][0]): l[0][1] for l in it["loops"]}
    for d in decls:
        m = re.match(r"tie\.(invariant|decreases)-(.+)$", d[1])
        if not m:
            continue
        kind, old = m.groups()
        if norm(old) not in loops:
            print(f"left: {folder_of(key)}: {kind}-{old}")
            continue
        body = "\n".join(d[2]).rstrip()
        args = arguments(d[2][0])[1:]
        rest = body.split("=", 1)[1]
        for a in sorted(args, key=len, reverse=True):
            if a.endswith("₀"):
                new = "l.initial." + a[:-1]
            else:
                new = "l." + a
            if re.search(r"[λ(] ?" + re.escape(a) + r"(\.| :)", rest):
                print(f"look: {folder_of(key)}: {kind}-{old} binds {a}")
                continue
            rest = re.sub(r"(?<![\w.'₀-])" + re.escape(a) + r"(?![\w'₀-])", new.replace("\\", ""), rest)
        name = f"{kind}-{loops[norm(old)]}"
        said += ["", f"abbrev pub {name} : goal.{name}", f"{name} l ={rest}"]
    if said and module:
        comment = [l for l in head if l.startswith("--")]
        with open(os.path.join(where, "Invariants.antt"), "w", encoding="utf-8") as f:
            own = []
            for d in decls:
                if not d[1].startswith("tie.") and "statement M" not in d[1] and "tie." not in "".join(d[2]) + d[1] and any(d[0] in l for l in said):
                    own += ["", d[3] if "pub" in d[3].split(d[0])[0] else d[3].replace(d[0], "pub " + d[0], 1), "\n".join(d[2]).rstrip()]
            f.write("\n".join(comment + uses(head) + [f"use {module.group(1)}.Given as goal"] + own + said) + "\n")
    os.rename(path, os.path.join(where, "Proof.old"))


def answers(folder, key, it, opened):
    where = os.path.join(folder, "proofs", folder_of(key))
    path = os.path.join(where, "Proof.old")
    wanted = opened.get(folder_of(key), [])
    if not wanted:
        return
    if not os.path.exists(path):
        print(f"left: {folder_of(key)}: no old proof; open: {', '.join(wanted)}")
        return
    text = open(path, encoding="utf-8").read()
    head, decls = blocks(text)
    module = re.search(r"use (Rattle\.[\w.+-]+)\.Tie as tie", text).group(1)
    names = Names(it)
    given = {}
    lemmas = []
    for d in decls:
        body = "\n".join(d[2]).rstrip()
        m = re.match(r"tie\.Need-(\S+)", d[1])
        if m:
            for old in (norm(d[0]), norm(m.group(1))):
                if old in names.needs:
                    at = names.asked[old]
                    turned = names.term(at, body)
                    turned = re.sub(r"sym \(length-map [^()]* _\) ∙ (?=c\.well_formed)", "", turned)
                    plain = r"not-(?:true|false) (?:_|\([^()]*\)|[\w.'-]+) ([\w']+\.if-not-[\w-]+\.(?:true|false))"
                    turned = re.sub(r"\(" + plain + r"\)", r"\1", turned)
                    turned = re.sub(plain, r"\1", turned)
                    for n, a in enumerate(arrays_of(key), 1):
                        turned = re.sub(rf"(\.args|\ba)\.t{n}(?![\w'-])", rf"\1.{a}", turned)
                    turned = re.sub(r"(?m)^" + re.escape(d[0]) + r" c(?: κs)?(?= )", f"{names.needs[old]} c", turned)
                    given[names.needs[old]] = (turned, d[2])
                    break
        elif not re.match(r"tie\.|\{M|.*statement M", d[1]) and not d[0].endswith(("_spec", "-spec")):
            text_of = "\n".join([d[3]] + d[2])
            place = re.search(r"tie\.([A-Z][\w-]*)", text_of)
            if place:
                rows = {norm(p[0]): (p[0], n) for p, n in zip(it["places"], it["places_by_name"])}
                was, now = rows.get(norm(place.group(1)), (None, None))
                if now:
                    text_of = re.sub(r"tie\.[A-Z][\w-]*(?: (?:invariant|decreases)-[\w-]+)*", "goal." + now, text_of)
                    text_of = names.term(was, text_of)
                    for n, a in enumerate(arrays_of(key), 1):
                        text_of = re.sub(rf"(\.args|\ba)\.t{n}(?![\w'-])", rf"\1.{a}", text_of)
            lemmas += text_of.split("\n")
    out = []
    for goal in wanted:
        base = re.sub(r"-clause-\w+$", "", goal)
        hit = given.get(goal) or given.get(base)
        if hit:
            out += ["", f"pub {goal} : goal.{goal}", hit[0].replace(f"{base} c", f"{goal} c", 1)]
        else:
            out += ["", f"pub {goal} : goal.{goal}", f"{goal} c = ?"]
            print(f"left: {folder_of(key)}: {goal}: no old answer")
    comment = [l for l in head if l.startswith("--")]
    if any("(opened c." in l for l in out):
        head.append("use borrow.Enum.Refused.{opened}")
    with open(os.path.join(where, "Answers.antt"), "w", encoding="utf-8") as f:
        f.write("\n".join(comment + uses(head) + [f"use {module}.Goals as goal", ""] + lemmas + out).rstrip() + "\n")


def open_goals(text):
    found = {}
    for m in re.finditer(r"(?m)^fn \w+::(\S+): no proof: expected answers in \./proofs/(\S+)/Answers\.antt", text):
        found.setdefault(m.group(2), [])
    for m in re.finditer(r"(?ms)^help: write \./proofs/(\S+)/Answers\.antt with these lines.*?(?=^\S)", text):
        goals = re.findall(r"(?m)^    pub (\S+) : goal\.\1$", m.group(0))
        found[m.group(1)] = goals
    return found


if __name__ == "__main__":
    if len(sys.argv) < 4:
        sys.exit(__doc__)
    folder = FOLDER = sys.argv[1]
    names = json.load(open(sys.argv[2], encoding="utf-8"))
    funcs = {k: v for k, v in names.items() if isinstance(v, dict) and "needs" in v}
    if sys.argv[3] == "invariants":
        for k, v in funcs.items():
            invariants(folder, k, v)
    else:
        opened = open_goals(open(sys.argv[4], encoding="utf-8").read())
        for k, v in funcs.items():
            answers(folder, k, v, opened)
        print(f"{len(opened)} functions open")
