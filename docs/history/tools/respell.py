#!/usr/bin/env python3
"""Brings the repository's own definitions and lemmas to today's spelling of names.

usage: python3 tools/respell.py [FOLDER]    once, right after /opt/rattle/port/port.py ran in FOLDER (default: here)

What it does, in this order:
1. The crate `bytes` is called `byte_fields`, since the kit has a library `bytes`.
2. Names that specs/ and proofs/ define are turned to snake case, as `rowBytes` to `row_bytes`. A dash stays
   where it joins two names of definitions, as in `length-row_bytes`, and is `_` elsewhere.
3. The pages (README.md, docs/) follow, in what they quote by backticks.

It prints each name that it turned, and each two names that would fall together. Functions of src/, strings,
inputs and outputs are not touched: no name of theirs has a capital inside or a dash.
"""

import os
import re
import sys

ROOT = sys.argv[1] if len(sys.argv) > 1 else "."
HEADS = r"(?:(?:abbrev|unfoldable|pub)\s+)*"
DEFINED = re.compile(r"^\s*" + HEADS + r"([a-z][\w'-]*(?:\s+[a-z][\w'-]*)*)\s*:\s")
ANSWER = re.compile(r":\s*goal\.")
WORD = re.compile(r"[A-Za-z_][\w'-]*")
# Functions of std, and of this repository, that a lemma's name may begin with, or go on with behind a dash.
STD = "length take drop get_or slice_get append map replicate push comm".split()
# Names of the repository's functions as port.py left them: with a dash behind them a lemma speaks of them.
OWN = "be part spliced total rounded".split()
# Names that would fall together with a function's: a lemma gets _lem, a field another word.
APART = {n: n.replace("-", "_") + "_lem" for n in "buy-freed held-from held_in is-buy is-full mode-of opening-key ratio-noted same_key same-mode sell-freed sell-place table-room".split()}
APART |= {"limit-in": "limit_within", "blocked-in": "blocked_within", "third-in": "third_within"}


def files(top, ends):
    for folder, dirs, names in os.walk(top):
        dirs[:] = sorted(d for d in dirs if d not in ("out", ".git", "target"))
        for n in sorted(names):
            if n.endswith(ends):
                yield os.path.join(folder, n)


def read(path):
    with open(path, encoding="utf-8") as f:
        return f.read()


def write(path, text):
    with open(path, "w", encoding="utf-8") as f:
        f.write(text)


def snake(word):
    return re.sub(r"([a-z0-9])([A-Z])", lambda m: m.group(1) + "_" + m.group(2).lower(), word)


def turned(name, functions):
    if name.startswith("getD"):
        name = "get_or" + name[4:]
    parts = [p if re.match(r"[A-Z]", p) else snake(p) for p in name.split("-")]
    out = parts[0]
    for before, p in zip(parts, parts[1:]):
        joined = out in functions and p in functions
        out += ("-" if joined else "_") + p
    return out


def rename_crate():
    old, new = os.path.join(ROOT, "crates/bytes"), os.path.join(ROOT, "crates/byte_fields")
    if os.path.isdir(old):
        os.rename(old, new)
    path = os.path.join(ROOT, "crates.txt")
    lines = [l if l.startswith("#") else re.sub(r"\bbytes\b", "byte_fields", l) for l in read(path).splitlines(True)]
    write(path, "".join(lines))
    for p in files(os.path.join(ROOT, "crates"), (".rt", ".antt", ".edit")):
        t = read(p)
        n = t.replace("Rattle.bytes.", "Rattle.byte_fields.")
        if p.endswith((".rt", ".edit")):
            n = re.sub(r"(?<![\w:.])(crate::)?bytes::", lambda m: m.group(0) if m.group(1) else "byte_fields::", n)
        if n != t:
            write(p, n)


def defined():
    names = set()
    for p in files(os.path.join(ROOT, "crates"), ".antt"):
        for line in read(p).splitlines():
            m = DEFINED.match(line)
            if m and not ANSWER.search(line):
                names |= set(m.group(1).split())
    return names


def rename_words():
    names = defined()
    functions = set(STD) | set(OWN) | {snake(n) for n in names if "-" not in n and re.search(r"[A-Z_]", n)}
    table = {n: turned(n, functions) for n in names if re.search(r"[A-Z-]", n)} | APART
    table = {o: n for o, n in table.items() if o != n and o in names}
    back = {}
    for o, n in sorted(table.items()):
        if n in back or (n in names and n not in table):
            print(f"falls together: {o} and {back.get(n, n)} as {n}")
        back[n] = o
    # A name with neither a capital nor a dash may be a name of the source too: it is a lemma's in .antt alone.
    own = {o: n for o, n in table.items() if re.search(r"[A-Z-]", o)}
    word = lambda m: own.get(m.group(0), m.group(0))
    lemma = lambda m: m.group(0) if m.group(0) not in own and m.string[m.start() - 1 : m.start()] == "." else table.get(m.group(0), m.group(0))
    for p in files(os.path.join(ROOT, "crates"), (".rt", ".antt")):
        t = read(p)
        n = WORD.sub(lemma if p.endswith(".antt") else word, t)
        if n != t:
            write(p, n)
    for p in files(os.path.join(ROOT, "crates"), ".edit"):
        lines = [WORD.sub(word, l) if l.startswith(("old:", "new:")) else l for l in read(p).splitlines(True)]
        write(p, "".join(lines))
    quoted = lambda m: "`" + WORD.sub(lambda w: table.get(w.group(0), snake(w.group(0)) if re.match(r"[a-z]", w.group(0)) else w.group(0)), m.group(1)) + "`"
    pages = [os.path.join(ROOT, "README.md")] + list(files(os.path.join(ROOT, "docs"), ".md"))
    for p in pages:
        if os.path.exists(p):
            t = read(p)
            n = re.sub(r"`([^`\n]+)`", quoted, t)
            n = re.sub(r"(?<![\w/])`bytes`(?= \|)|(?<=\| )`bytes`", "`byte_fields`", n)
            if n != t:
                write(p, n)
    for o in sorted(table):
        print(o, table[o])


rename_crate()
rename_words()
