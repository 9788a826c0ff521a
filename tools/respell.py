#!/usr/bin/env python3
"""Turns this repository's own definitions and lemmas to the spelling of today's Rattle.

usage: python3 tools/respell.py [--dry]       at the top of the repository, once, after port.py

A definition, a lemma, a field of a record: snake case (`first-failing` is `first_failing`). A record or another type: camel
case (`Is-envelope` is `IsEnvelope`). Names of the library, of generated goals, and of functions of src/ stay as they are.
Where the new name would fall together with another one, NEW says what it is called.
"""

import collections
import os
import re
import sys

# Names whose plain turning would fall together with a name that is there already.
NEW = {"All-kept": "AllLimitsKept"}

# Names that a `let`, a pattern or an `as` declares.
LOCAL = ["done-now", "refused-now", "nodes-too", "after-limits", "limits-none", "zero-code", "sheet-faults", "out-onto", "out-off", "four-there"]

WORD = r"[A-Za-z_][A-Za-z0-9_'-]*"
DEFINED = re.compile(r"^(\s*)((?:abbrev |unfoldable |pub |record |data )*)(" + WORD + r")\s*(?:[({].*|:.*)$")


def files(*ends):
    for folder, dirs, names in os.walk("crates"):
        dirs[:] = sorted(d for d in dirs if d not in ("out",))
        for name in sorted(names):
            if name.endswith(ends):
                yield os.path.join(folder, name)


def text(path):
    with open(path, encoding="utf-8") as f:
        return f.read()


def plain(name):
    if name[0].isupper():
        return "".join(p[:1].upper() + p[1:] for p in name.split("-"))
    return name.replace("-", "_")


def defined():
    """Names with a hyphen that a file of ours declares; not the answers, which are named after goals."""
    found = collections.defaultdict(set)
    for path in files(".antt"):
        for line in text(path).splitlines():
            m = DEFINED.match(line)
            if m and "-" in m.group(3) and not re.search(r":\s*goal\.", line):
                found[m.group(3)].add(path)
    return found


def library():
    """Names that some file takes from the library."""
    taken = set()
    for path in files(".antt", ".rt"):
        for m in re.finditer(r"use (?!Rattle\.(?:%s)\.)[^\n{]*\{([^}]*)\}" % "|".join(sorted(os.listdir("crates"))), text(path)):
            taken |= {w.split(" as ")[0].strip() for w in m.group(1).split(",")}
    return taken


def main(dry):
    own, lib = defined(), library()
    names = {n: NEW.get(n, plain(n)) for n in [*own, *LOCAL] if n not in lib}
    for n in sorted(n for n in own if n in lib):
        print(f"left, the library has it: {n} in {', '.join(sorted(own[n]))}")
    whole = re.compile(r"(?<![\w'-])(" + "|".join(re.escape(n) for n in sorted(names, key=len, reverse=True)) + r")(?![\w'-])")
    there = collections.defaultdict(set)
    for path in files(".antt", ".rt"):
        for w in set(re.findall(r"(?<![\w'-])" + WORD, text(path))):
            there[w].add(path)
    back = collections.Counter(names.values())
    for n, to in sorted(names.items()):
        if back[to] > 1 or to in there:
            print(f"falls together: {n} -> {to}: " + ", ".join(sorted(there[to] & set().union(*(there[n],))) or ["(no file has both) "] + sorted(there[to])[:3]))
    if dry:
        return
    for path in files(".antt", ".rt", ".edit"):
        was = text(path)
        now = whole.sub(lambda m: names[m.group(1)], was)
        if now != was:
            with open(path, "w", encoding="utf-8") as f:
                f.write(now)


main("--dry" in sys.argv[1:])
