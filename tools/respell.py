#!/usr/bin/env python3
"""Brings the definitions and lemmas of specs/ and proofs/ that still have capitals inside to snake case, as
isSpace to is_space, wherever they are cited: .antt files, clauses of .rt files, must-fail edits.

usage: tools/respell.py [--check]      at the top of the repository; --check only lists names that would fall together

Text in double quotes stays as it is: it is what the program reads and prints. Functions, fields and variables of src/
have no such names.
"""

import os
import re
import sys

WORD = r"[^\W\d][\w'-]*"
DECLARED = re.compile(r"^\s*(?:(?:unfoldable|abbrev|pub) )*(" + WORD + r") :(?= |$)", re.M)
STRING = re.compile(r'b?"(?:[^"\\\n]|\\.)*"')
# std's own word for the same look-up
WORDS = {"getD": "get_or"}
# lemmas whose dash port.py took, and whose name would be that of a definition beside them: they get it back
DASHED = {
    "crates/wiresheet/proofs/Walking.antt": ["next_under", "last_under"],
    "crates/wiresheet/proofs/Sheets.antt": ["value_line"],
    "crates/wiresheet/proofs/Laws.antt": ["next_under", "last_under", "value_line"],
    "crates/xmlschema/proofs/Passing.antt": ["read_at"],
}


def files(ending):
    for folder, dirs, names in os.walk("crates"):
        dirs[:] = sorted(d for d in dirs if d not in ("out", "target"))
        for name in sorted(names):
            if name.endswith(ending):
                yield os.path.join(folder, name)


def snake(name):
    parts = []
    for part in name.split("-"):
        part = WORDS.get(part, part)
        parts.append(re.sub(r"(?<=[a-z0-9])([A-Z])", lambda m: "_" + m.group(1).lower(), part) if part[:1].islower() else part)
    return "-".join(parts)


def read(path):
    with open(path, encoding="utf-8") as f:
        return f.read()


def main():
    texts = {p: read(p) for ending in (".antt", ".rt", ".edit") for p in files(ending)}
    before = dict(texts)
    for p, names in DASHED.items():
        for n in names:
            texts[p] = re.sub("(?<![\\w'.-])" + n + "(?![\\w'-])", n.replace("_", "-"), texts[p])
    declared = set()
    for p, t in texts.items():
        if p.endswith(".antt"):
            declared |= set(DECLARED.findall(t))
    turned = {n: snake(n) for n in declared if n[:1].islower() and snake(n) != n}
    word = re.compile("(?<![\\w'-])(?:" + "|".join(sorted(map(re.escape, turned), key=len, reverse=True)) + ")(?![\\w'-])")
    together = 0
    for p, t in texts.items():
        plain = STRING.sub('""', t)
        here = set(re.findall(WORD, plain))
        for n in sorted(set(word.findall(plain))):
            if turned[n] in here:
                print(f"{p}: {n} and {turned[n]}")
                together += 1
    both = sorted(n for n, s in turned.items() if s in declared)
    for n in both:
        print(f"declared both: {n} and {turned[n]}")
    print(f"respell: {len(turned)} names, {together} files with both spellings")
    if "--check" in sys.argv:
        return
    for p, t in texts.items():
        out, at = [], 0
        for m in STRING.finditer(t):
            out += [word.sub(lambda w: turned[w.group()], t[at : m.start()]), m.group()]
            at = m.end()
        out.append(word.sub(lambda w: turned[w.group()], t[at:]))
        new = "".join(out)
        if new != before[p]:
            with open(p, "w", encoding="utf-8") as f:
                f.write(new)


main()
