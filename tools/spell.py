#!/usr/bin/env python3
"""Brings the names of this repository's definitions and lemmas to today's spelling: words in snake case, types and facts in camel case.

usage: tools/spell.py        at the top, right after the kit's port.py; it rewrites crates/*/{src,specs,proofs} and prints each name as OLD NEW

Functions of src/, answers of goals in function proofs, strings and data keep their names. It stops where two names would fall together.
"""

import collections
import os
import re
import sys

TOKEN = re.compile(r'[^\s(){}\[\].,;"`|]+')
DECLARED = re.compile(
    r"^(?:(?:abbrev|unfoldable) )?(?:pub )?(?:(?:abbrev|unfoldable) )?(?:(data|record|ruleset) )?([^\s:(){}\[\],.;|λ=]+)\s*(?:(?:\{[^}]*\}|\([^)]*\))\s*)*:(?!:)"
)
FIRST = re.compile(r"^(?:(?:abbrev|unfoldable|pub) )*([^\s:(){}\[\],.;|λ=]+)(?= |$)|^ +(?:(?:abbrev|unfoldable|pub) )*([^\s:(){}\[\],.;|λ=]+) :")
WORDS = {"use", "mod", "pub", "abbrev", "unfoldable", "unfolding", "data", "record", "ruleset", "open", "syntax", "--", "mutual"}
TYPE = re.compile(r"^(?:pub )?(data|record) (\S+)")
MEMBER = re.compile(r"^\s+(?:pub )?([^\s:(){}\[\],.;|λ=]+(?: [^\s:(){}\[\],.;|λ=]+)*)\s*:\s")
USED = re.compile(r"^\s*(?:ghost )?use (Rattle\.std|mathlib|lib|Prim|mir|borrow|native|Rattle\.core)\b[^{]*\{([^}]*)\}", re.M)


# A type of src/ has the name that this one would get.
OTHERWISE = {"Indexes-read": "ReadsIndexes"}


def files(ends):
    for folder, dirs, names in os.walk("crates"):
        dirs[:] = sorted(d for d in dirs if d != "out")
        for name in sorted(names):
            if name.endswith(ends):
                yield os.path.join(folder, name)


def declared():
    found = set()
    for path in files(".antt"):
        of_function = path.endswith("/Proof.antt")
        inside = False
        for line in open(path, encoding="utf-8"):
            if line[:1].strip():
                inside = bool(re.match(r"^(pub )?(data|record)\b", line))
            m = TYPE.match(line) or DECLARED.match(line)
            first = FIRST.match(line)
            if first and not of_function and (first.group(1) or first.group(2)) not in WORDS:
                found.add(first.group(1) or first.group(2))
            if m:
                of_goal = of_function and re.search(r":\s*(\{M : Type 1\} → )?(tie\.|statement|tie[a-z-]*\.|[\w.-]*\.Need-)", line)
                if not of_goal:
                    found.add(m.group(2))
            if inside:
                m = MEMBER.match(line)
                if m:
                    found.update(m.group(1).split())
    return found


def library():
    names = set()
    for path in files((".antt", ".rt")):
        for m in USED.finditer(open(path, encoding="utf-8").read()):
            for name in m.group(2).split(","):
                names.add(name.strip().split(" as ")[-1])
    return names


def spelled(name):
    parts = name.split("-")
    if name[:1].isupper() and any(p[1:].islower() for p in parts):
        return "".join(p[:1].upper() + p[1:] for p in parts)
    return "_".join(parts)


def main():
    own = declared()
    kit = library()
    turned = {n: OTHERWISE.get(n) or spelled(n) for n in own if "-" in n.strip("-") and not re.search(r"[◌≡∷]", n)}
    types = {m.group(1) for path in files(".rt") for m in re.finditer(r"\b(?:struct|enum|type) (\w+)", open(path, encoding="utf-8").read())}
    taken = {n for n in own if n not in turned} | kit | types
    by_new = collections.defaultdict(list)
    for old, new in turned.items():
        by_new[new].append(old)
    clash = [(new, olds) for new, olds in by_new.items() if len(olds) > 1 or (new in taken and olds != [new])]
    for new, olds in clash:
        print("falls together:", new, olds, file=sys.stderr)
    if clash:
        sys.exit(1)
    for path in files((".antt", ".rt")):
        text = open(path, encoding="utf-8").read()
        theirs = {n.strip().split(" as ")[-1] for m in USED.finditer(text) for n in m.group(2).split(",")}
        out = TOKEN.sub(lambda m: m.group(0) if m.group(0) in theirs else turned.get(m.group(0), m.group(0)), text)
        if out != text:
            open(path, "w", encoding="utf-8").write(out)
    for old, new in sorted(turned.items()):
        print(old, new)


main()
