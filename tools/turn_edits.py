#!/usr/bin/env python3
"""Turns the must-fail edits of this repository from the text of an older Rattle to that of today's.

usage: tools/turn_edits.py COMMIT NAMES.txt [CRATE..]     rewrites crates/CRATE/must-fail/*.edit in place (all crates without a name)
       tools/turn_edits.py --tried [CRATE..]              changes nothing, and says of each edit whether it applies to the files as they stand

COMMIT has the older text of the files that the edits change, NAMES.txt lines `OLD NEW` (tools/spell_names.py --map at that commit's text).
Each line that an edit changes is looked up in the older file, found again in today's, and respelled before and after the edit. What comes out is
taken only where the respelled line before the edit is today's line. What is left to do by hand is printed.
"""
import difflib
import glob
import os
import re
import subprocess
import sys

TOKEN = re.compile(r"[^\s(){}\[\].,;:«»\"]+")


def snake(name):
    """A value's name in snake case: kindOf is kind_of."""
    if not re.fullmatch(r"[a-z][\w']*", name):
        return name
    return re.sub(r"(?<=[a-z0-9])([A-Z])", lambda m: "_" + m.group(1).lower(), name)


def read_edit(path):
    """The lines of an edit: comments as text, pairs as [file, old, new]."""
    lines, file, old = [], None, None
    for line in open(path, encoding="utf-8").read().splitlines():
        if line.startswith("file:"):
            file = line[5:].strip()
            lines.append(("file", file))
        elif line.startswith("old:"):
            old = line[5:]
        elif line.startswith("new:"):
            lines.append(("pair", [file, old, line[5:]]))
        else:
            lines.append(("text", line))
    return lines


def write_edit(path, lines):
    with open(path, "w", encoding="utf-8") as f:
        for kind, it in lines:
            f.write(f"old: {it[1]}\nnew: {it[2]}\n" if kind == "pair" else f"file: {it}\n" if kind == "file" else it + "\n")


def projected(text):
    """`r .f` is `r.f`, `f x .g` is `(f x).g`, and what stands in brackets only for that loses them."""
    parts = re.findall(r"\s+\.\w+|\s+|[()]|[{}\[\],;]|[^\s(){}\[\],;]+", text)
    stack = [[]]

    def close(group):
        return "".join(group)

    def reach(group):
        """Where the application begins that ends at the end of the group."""
        i = len(group)
        while i > 0:
            p = group[i - 1]
            if p.strip() == "":
                i -= 1
                continue
            if re.fullmatch(r"[{}\[\],;]|[-+*/%^≤<≡≢∷×=:→]|\+\+|λ", p) or p.endswith(". ") or (p.endswith(".") and len(p) > 1):
                break
            i -= 1
        while i < len(group) and group[i].strip() == "":
            i += 1
        return i

    for p in parts:
        if p == "(":
            stack.append([])
        elif p == ")":
            if len(stack) == 1:
                stack[0] = [close(stack[0]) + ")"]
                continue
            group = stack.pop()
            solid = [g for g in group if g.strip()]
            if len(solid) == 1 and re.search(r"\.\w+$", solid[0]) and (solid[0].startswith("(") or re.fullmatch(r"[\w'.]+", solid[0])):
                stack[-1].append(solid[0])
            else:
                stack[-1].append("(" + close(group) + ")")
        elif re.fullmatch(r"\s+\.\w+", p):
            group = stack[-1]
            i = reach(group)
            run = group[i:]
            solid = [g for g in run if g.strip()]
            whole = close(run)
            group[i:] = [(whole if len(solid) == 1 else "(" + whole + ")") + p.strip()]
        else:
            stack[-1].append(p)
    while len(stack) > 1:
        group = stack.pop()
        stack[-1].append("(" + close(group))
    return close(stack[0])


def respelled(line, names):
    """A line of the older text in today's spelling."""
    line = line.replace("′", "'")
    line = re.sub(r"Rattle·(\w+)·specs\.specs\.", r"Rattle.\1.specs.", line)
    line = re.sub(r"Rattle·(\w+)\.specs\.", r"Rattle.\1.specs.", line)
    line = line.replace("the-variants", "TheVariants")
    line = re.sub(r"now \((\w+) \.entry\)", r"\1.now", line)
    line = re.sub(r"\(now (\w+)\)", r"\1.now", line)
    line = re.sub(r"\((\w+\.now)\)", r"\1", line)
    m = re.match(r"^(\s*ensures \{ )λ (\w+)\. (.*)$", line)
    if m:
        line = m.group(1) + re.sub(rf"(?<![\w']){m.group(2)}(?![\w'])", "result", m.group(3))
    line = re.sub(r"⌜ (.*?) ⌝", r"\1", line)
    if re.match(r"^\s*(ghost )?use ", line):
        line = re.sub(r"(?<![\w'])_([^\w\s,{}]+)_", r"◌\1◌", line)
    line = TOKEN.sub(lambda m: names.get(m.group(), snake(m.group())), line)
    line = re.sub(r"(?<![\w'])getD(?![\w'])", "get_or", line)
    if " ." in line:
        line = projected(line)
    return line


def flat(text):
    return re.sub(r"\s+", " ", text).strip()


def today(old_lines, new_lines, at, names):
    """The line of today that the older line `at` became, by the alignment of both files."""
    a = [flat(respelled(l, names)) for l in old_lines]
    b = [flat(l) for l in new_lines]
    for tag, i1, i2, j1, j2 in difflib.SequenceMatcher(None, a, b, autojunk=False).get_opcodes():
        if i1 <= at < i2:
            if tag == "equal":
                return j1 + at - i1
            if i2 - i1 == j2 - j1:
                return j1 + at - i1
            return None
    return None


def turned(pair, old_text, new_text, names):
    """The pair in today's spelling, or what stands in the way."""
    _, old, new = pair
    if old_text.count(old) != 1:
        return None, f"{old_text.count(old)} times in the older text: {old}"
    at = old_text[: old_text.index(old)].count("\n")
    before = old_text.split("\n")
    after = old_text.replace(old, new).split("\n")
    here = today(before, new_text.split("\n"), at, names)
    want, wrong = respelled(before[at], names), respelled(after[at], names)
    if here is None:
        return None, f"no line of today's is that of: {before[at]}"
    line = new_text.split("\n")[here]
    if flat(line) != flat(want):
        return None, f"respelled, it is not today's line:\n      {want}\n      {line}"
    if line != want:
        indent = line[: len(line) - len(line.lstrip())]
        want, wrong = indent + want.strip(), indent + wrong.strip()
        if line != want:
            return None, f"laid out otherwise:\n      {want}\n      {line}"
    for o, n in ((old, new), (respelled(old, names), respelled(new, names)), (line, wrong)):
        if new_text.count(o) == 1 and line.replace(o, n) == wrong and o in line:
            return [pair[0], o, n], None
    return None, f"stands more than once: {line}"


def told(line, names):
    """A comment, with names in today's spelling."""
    line = line.replace("′", "'")
    return TOKEN.sub(lambda m: names[m.group()] if m.group() in names and ("-" not in m.group() or f".{m.group()}" in line) else m.group(), line)


def edits(crates):
    for crate in crates:
        for path in sorted(glob.glob(f"crates/{crate}/must-fail/*.edit")):
            yield crate, path


def tried(crates):
    n, bad = 0, 0
    for crate, path in edits(crates):
        n += 1
        texts = {}
        for kind, it in read_edit(path):
            if kind == "pair":
                file = f"crates/{crate}/{it[0]}"
                if file not in texts:
                    texts[file] = open(file, encoding="utf-8").read() if os.path.exists(file) else ""
                k = texts[file].count(it[1])
                if k != 1 or it[1] == it[2]:
                    bad += 1
                    print(f"{path}: {k} times in {it[0]}: {it[1]}")
                    break
                texts[file] = texts[file].replace(it[1], it[2])
    print(f"{n} edits, {bad} do not apply")
    return 1 if bad else 0


def turn(commit, names, crates):
    left = 0
    for crate, path in edits(crates):
        lines, texts, why = read_edit(path), {}, None
        for kind, it in lines:
            if kind != "pair":
                continue
            file = f"crates/{crate}/{it[0]}"
            if file not in texts:
                older = subprocess.run(["git", "show", f"{commit}:{file}"], capture_output=True, text=True, check=True).stdout
                texts[file] = [older, open(file, encoding="utf-8").read()]
            older, newer = texts[file]
            made, why = turned(it, older, newer, names)
            if why:
                break
            texts[file] = [older.replace(it[1], it[2]), newer.replace(made[1], made[2])]
            it[:] = made
        if why:
            left += 1
            print(f"left: {path}\n   {why}")
            continue
        write_edit(path, [(kind, told(it, names) if kind == "text" else it) for kind, it in lines])
    print(f"{left} left")


if __name__ == "__main__":
    args = sys.argv[1:]
    looking = args[:1] == ["--tried"]
    chosen = args[1:] if looking else args[2:]
    chosen = chosen or sorted(os.listdir("crates"))
    if looking:
        sys.exit(tried(chosen))
    with open(args[1], encoding="utf-8") as f:
        turn(args[0], dict(l.split() for l in f if len(l.split()) == 2), chosen)
