#!/usr/bin/env python3
"""Brings the repository's own names to today's spelling, after port.py: words in snake case, types in upper camel case.

usage: python3 tools/respell.py [--tell] [FOLDER]     (the top of the repository, where none is named)

It goes by text, over the .antt and .rt files below crates/, and is run once, as port.py is. A word that begins with a small letter and has a capital
after a small letter or a digit is turned (planLatency becomes plan_latency), as is each part of a name whose parts a dash joins. Names of the
library's sources are left.
--tell writes nothing and prints each name with what it becomes, and where two names of one file fall together.
"""
import os
import re
import sys

NAME = re.compile(r"[^\W\d][\w'-]*")
CAMEL = re.compile(r"(?<=[a-z0-9'])(?=[A-Z])|(?<=[A-Z])(?=[A-Z][a-z])")
KEPT = {"ownVal", "inRange", "deallocToken"}
TYPES = {"Path-to": "PathTo", "Demand-1": "Demand1", "Demand-2": "Demand2", "Demand-3": "Demand3"}
# Names that port.py spelled as a respelled one of the same file would be: there they keep their dash.
APART = {
    "hold/specs/Mark.antt": ["operand_in", "held_in"],
    "hold/proofs/HoldMarks.antt": ["operand_in"],
    "schedule/proofs/Rounds.antt": ["operand_in", "held_in", "by_difference"],
    "pass/proofs/TurnNode.antt": ["operand_in"],
    "maps/proofs/Chosen.antt": ["best_of"],
    "relax/specs/Hold.antt": ["by_difference"],
    "relax/proofs/Held.antt": ["by_difference"],
}


def small(part):
    if not part or not part[0].islower() or not CAMEL.search(part):
        return part
    return "_".join(w.lower() for w in CAMEL.split(part))


def respelled(name):
    if name in KEPT:
        return name
    if name in TYPES:
        return TYPES[name]
    return "-".join(small(p) for p in name.split("-"))


def files(top):
    for folder, dirs, names in os.walk(os.path.join(top, "crates")):
        dirs[:] = sorted(d for d in dirs if d != "out")
        for n in sorted(names):
            if n.endswith((".antt", ".rt")):
                yield os.path.join(folder, n)


def turned(text):
    """The text with its names respelled, but for what stands in double quotes."""
    parts = re.split(r'("(?:[^"\\\n]|\\.)*")', text)
    return "".join(p if i % 2 else NAME.sub(lambda m: respelled(m.group(0)), p) for i, p in enumerate(parts))


def main(argv):
    tell = "--tell" in argv
    tops = [a for a in argv if not a.startswith("--")]
    top = tops[0] if tops else "."
    seen = {}
    for p in files(top):
        with open(p, encoding="utf-8") as f:
            text = f.read()
        for end, dashed in APART.items():
            if p.endswith("crates/" + end):
                for n in dashed:
                    text = re.sub(rf"(?<![\w'.-]){n}(?![\w'-])", n.replace("_", "-"), text)
        names = set(NAME.findall(text))
        for n in sorted(names):
            m = respelled(n)
            if m != n:
                seen[n] = m
                if tell and m in names:
                    print(f"falls together: {p}: {n} and {m}")
        new = turned(text)
        if not tell:
            with open(p, "w", encoding="utf-8") as f:
                f.write(new)
    if tell:
        for n in sorted(seen):
            print(f"{n} {seen[n]}")
    print(f"{len(seen)} names")


if __name__ == "__main__":
    main(sys.argv[1:])
