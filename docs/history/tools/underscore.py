#!/usr/bin/env python3
"""Writes the names of the source in answers as the source spells them, as `is-at` to `is_at`, and Rattle's own words with `_`.

usage: python3 tools/underscore.py CRATE..    at the top of the repository
"""
import os
import re
import sys

WORDS = "overflow_add overflow_sub overflow_mul overflow_shl overflow_shr overflow_cast overflow_step nonzero_div nonzero_rem slice_bounds offset_bounds in_ok in_err in_default type_inv well_formed invariant_of".split()
TOKEN = re.compile(r"[A-Za-z_][\w'-]*")


def sources():
    for folder, dirs, names in os.walk("crates"):
        dirs[:] = [d for d in dirs if d != "out"]
        for n in names:
            if n.endswith(".rt"):
                yield os.path.join(folder, n)


identifiers = set(WORDS)
for p in sources():
    identifiers |= set(re.findall(r"\b[a-z][a-z0-9]*(?:_[a-z0-9]+)+\b", open(p, encoding="utf-8").read()))
dashed = sorted(((i.replace("_", "-"), i) for i in identifiers), key=lambda x: -len(x[0]))


def turned(name):
    for d, i in dashed:
        if d in name:
            name = re.sub(r"(?<![A-Za-z0-9_])" + re.escape(d) + r"(?![A-Za-z0-9_'])", i, name)
    return name


for crate in sys.argv[1:]:
    for folder, dirs, names in os.walk(f"crates/{crate}/proofs"):
        for n in names:
            if n not in ("Answers.antt", "Invariants.antt", "Proof.antt"):
                continue
            p = os.path.join(folder, n)
            t = open(p, encoding="utf-8").read()
            imported = set()
            for line in t.splitlines():
                if line.startswith("use "):
                    imported |= set(TOKEN.findall(line))
            out = "".join(l if l.startswith("use ") else TOKEN.sub(lambda m: m.group(0) if m.group(0) in imported else turned(m.group(0)), l) for l in t.splitlines(True))
            if out != t:
                open(p, "w", encoding="utf-8").write(out)
                print(p)
