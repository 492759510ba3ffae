#!/usr/bin/env python3
"""Turns the definitions and lemmas of this repository to the spelling of today's Rattle.

usage: tools/spell_names.py [TOP]     rewrites the .antt and .rt files below TOP/crates in place and prints what it renamed
       tools/spell_names.py --map     prints the old and the new names, and writes nothing

Values are in snake case: headerCheck is header_check. A dash joins two names and stays where it does (length-put, of length and put);
elsewhere it is an underscore (copied-more is copied_more). Types, modules and what the proofs of functions are made of keep their names.
It is run once, after the port's own script.
"""
import collections
import os
import re
import sys

TOKEN = re.compile(r"[^\s(){}\[\].,;:«»\"]+")
SIGNED = re.compile(r"^(?P<indent>\s*)(?P<marks>(?:(?:pattern|unfoldable|abbrev|pub|axiom) )*)(?P<names>[^(){}\[\].,;:«»\"=]+?)(?: \{[^}]*\})?\s+:(?:\s|$)")
WORDS = {
    "length", "take", "drop", "set", "append", "get_or", "tabulate", "replicate", "cond", "ltb", "leb", "eqb", "xor", "shl", "shr", "min", "lt", "le",
    "eq", "zero", "suc", "pow", "mod", "div", "mul", "add", "sub", "sum", "reverse", "map", "paste", "one",
}

# Names already in snake case that a definition's new name would fall together with, in proofs and in records of claims.
MOVED = {
    "plain_at": "plain_at_lem", "last_bit": "last_bit_is", "laid_out": "laid_out_lem", "all_held": "all_held_lem", "row_up": "row_up_lem",
    "fields_read": "fields_read_lem", "block_size": "block_size_is", "first_part": "first_part_lem", "line_after": "line_after_is",
}
# Names whose place is taken by the library or by a definition: a lemma that would have its function's name ends in _lem.
CHOSEN = {"ones-in": "ones-ones_in", "bit-or": "bit-bit_or", "readNumber": "number_of_block"}


def files(top, ending):
    for folder, folders, names in os.walk(os.path.join(top, "crates")):
        folders[:] = sorted(f for f in folders if f not in ("out", "must-fail"))
        for name in sorted(names):
            if name.endswith(ending):
                yield os.path.join(folder, name)


def code(line):
    """A line of antt or of Rattle without its comment."""
    for mark in ("--", "//"):
        at = line.find(mark)
        if at >= 0 and (at == 0 or line[at - 1] == " "):
            line = line[:at]
    return line


def snake(name):
    return re.sub(r"(?<=[a-z0-9])([A-Z])(?=[a-z0-9'₀-₉-]|$|[A-Z])", lambda m: "_" + m.group(1).lower(), name)


def foreign(top):
    """Names that the files take from the library, which keep their spelling."""
    found = set()
    for path in list(files(top, ".antt")) + list(files(top, ".rt")):
        for m in re.finditer(r"use ([\w.·+-]+)\.\{([^}]*)\}", open(path, encoding="utf-8").read()):
            own = m.group(1).startswith("Rattle.") and m.group(1).split(".")[1] in CRATES
            if not own:
                found.update(w.split(" as ")[0].strip() for w in m.group(2).split(","))
    return found


def declared(top):
    """The names that lemma files and definitions declare, and those of them that stand in specs/."""
    names, specs = collections.Counter(), set()
    for path in files(top, ".antt"):
        if os.path.basename(path) == "Proof.antt":
            continue
        for line in open(path, encoding="utf-8"):
            m = SIGNED.match(code(line))
            if m and not m.group("names").strip().startswith(("use ", "module ", "record ", "data ", "let ")):
                for n in m.group("names").split():
                    names[n] += 1
                    if "/specs/" in path:
                        specs.add(n)
    return names, specs


def mapping(top):
    names, specs = declared(top)
    kept = foreign(top)
    lower = re.compile(r"[a-z]")
    camel = set()
    for path in list(files(top, ".antt")) + list(files(top, ".rt")):
        for line in open(path, encoding="utf-8"):
            camel.update(t for t in TOKEN.findall(code(line)) if re.match(r"[a-z][\w'-]*$", t) and re.search(r"[a-z0-9][A-Z]", t))
    todo = {n for n in names if "-" in n and lower.match(n)} | camel
    todo -= kept
    known = {snake(n) for n in specs} | WORDS
    result = {}
    for name in sorted(todo):
        if name.startswith(("Need-", "Inv-", "μ-", "loop-")) or "·" in name:
            continue
        parts = snake(name).split("-")
        new = parts[0]
        for left, right in zip(parts, parts[1:]):
            new += ("-" if left in known and right in known else "_") + right
        if new != name:
            result[name] = new
    camels = {snake(n) for n in result if "-" not in n} | {n for n in specs if "-" not in n}
    for name, new in result.items():
        if "-" in name and new in camels:
            result[name] = new + "_lem"
    result.update(CHOSEN)
    return result


def clashes(top, names):
    """New names that a file already has beside the old ones."""
    found = []
    for path in files(top, ".antt"):
        if os.path.basename(path) == "Proof.antt":
            continue
        tokens = set()
        for line in open(path, encoding="utf-8"):
            if "specs.declared" not in line and "specs.contracts" not in line:
                tokens.update(MOVED.get(t, t) for t in TOKEN.findall(code(line)))
        for old, new in names.items():
            if old in tokens and new in tokens:
                found.append(f"{path}: {old} -> {new}")
    back = collections.defaultdict(list)
    for old, new in names.items():
        back[new].append(old)
    return found + [f"{' and '.join(olds)} -> {new}" for new, olds in back.items() if len(olds) > 1]


def respell(text, names):
    out = []
    for line in text.splitlines(keepends=True):
        body = code(line)
        rest = line[len(body):]
        body = TOKEN.sub(lambda m: names.get(m.group(), m.group()), body)
        rest = TOKEN.sub(lambda m: names[m.group()] if m.group() in names and "-" not in m.group() else m.group(), rest)
        out.append(body + rest)
    return "".join(out)


if __name__ == "__main__":
    args = sys.argv[1:]
    top = next((a for a in args if not a.startswith("--")), ".")
    CRATES = set(os.listdir(os.path.join(top, "crates")))
    names = mapping(top)
    bad = clashes(top, names)
    if "--map" in args:
        for old, new in sorted(names.items()):
            print(old, new)
        print("\n".join(bad), file=sys.stderr)
        sys.exit(0)
    if bad:
        print("\n".join(bad), file=sys.stderr)
        sys.exit("names fall together: nothing was written")
    n = 0
    for path in list(files(top, ".antt")) + list(files(top, ".rt")):
        text = open(path, encoding="utf-8").read()
        new = respell(text, names if path.endswith(".rt") else MOVED | names)
        if new != text:
            n += 1
            with open(path, "w", encoding="utf-8") as f:
                f.write(new)
    print(f"{len(names)} names, {n} files")
