#!/usr/bin/env python3
"""Counts the places in crates/*/src/*.rt that docs/DESIGN-PASS.md speaks of, point by point; with -v it lists them. Run it at the top of a checkout."""
import glob
import re
import sys

FUNCTION = re.compile(r"^ *(?:pub )?(?:extern \"C\" )?fn (\w+)(?:<[^>(]*>)?\(([^{]*?)\)(?: -> ([^\n{]+))?(.*?)^ *\{", re.M | re.S)


def read(path):
    with open(path, encoding="utf-8") as file:
        return file.read()


SOURCES = {path: read(path) for path in sorted(glob.glob("crates/*/src/*.rt"))}


def lines(pattern):
    """Each line of code in which the pattern stands."""
    found = []
    for path, text in SOURCES.items():
        for number, line in enumerate(text.split("\n"), 1):
            if re.search(pattern, line):
                found.append(f"{path}:{number}: {line.strip()}")
    return found


def functions(test):
    """Each function whose name, parameters, result and clauses meet the test."""
    found = []
    for path, text in SOURCES.items():
        for match in FUNCTION.finditer(text):
            name, parameters, result, clauses = (part or "" for part in match.groups())
            if test(parameters, result.strip(), clauses):
                found.append(f"{path}:{text[: match.start()].count(chr(10)) + 1}: {name}")
    return found


def fact(word):
    """Functions that require a fact."""
    return functions(lambda parameters, result, clauses: any(word in line for line in clauses.split("\n") if line.strip().startswith("requires")))


def together(*names):
    """Functions that take all of these parameters."""
    return functions(lambda parameters, result, clauses: all(re.search(rf"\b{name}: ", parameters) for name in names))


POINTS = [
    ("1 enums", lines(r"^(pub )?enum ")),
    ("1 functions with a bool for an answer and a value written beside it", functions(lambda p, r, c: r.startswith("bool") and "&mut" in p)),
    ("1 numbers that mean 'none' (comments that say so)", lines(r"//.*(or [kK] \+ 1|, or n where|or `count` where|, or 0 where|255 where|until .* k \+ 1)")),
    ("1 numbers for kinds or marks (parameters)", lines(r"\b(marks|part|seen2?|held|used|code|allowed): &(mut )?\[u8(; \d+)?\]")),
    ("2 copies by hand", lines(r"fn (copy\w*|clear|start)\(")),
    ("2 the same walk or table under two names", lines(r"fn (line_step|blank_step|word_step|line_end|after_blanks|after_word|hold_up|hold_down|distinct_few|distinct_many)\(")),
    ("2 the counting copy of the cone's test", [line for line in lines(r"^(pub )?fn (visit|visit_operands|walk|cut_fits)\(") if "/counting/" in line]),
    ("2 types that differ in a size or a name", lines(r"^pub (type (PlanBytes|SheetBytes)|struct (Answer|ReadAnswer)|enum Progress)\b")),
    ("3 loops by `while` and `loop`", lines(r"^\s*(while|loop)\b")),
    ("3 loops by `for`", lines(r"^\s*for ")),
    ("4 types that derive Clone and Copy alone", lines(r"^#\[derive\(Clone, Copy\)\]")),
    ("4 order, conversion, printing by hand", lines(r"fn (later|higher|at_most|compare|mark_of|answer_of|up_to|at_least|inside_mark|is_logic|number_of|in_range)\(")),
    ("5 requires Falling", fact("Falling ")),
    ("5 requires Soon", fact("Soon ")),
    ("5 requires Summed", fact("Summed ")),
    ("5 requires Linked", fact("Linked ")),
    ("5 requires the length of an array", functions(lambda p, r, c: any(re.search(r"requires.*length \w+(\.\w+)* ≡", line) for line in c.split("\n")))),
    ("5 requires Kept", fact("Kept ")),
    ("5 requires Listed", fact("Listed ")),
    ("5 requires Shaped", fact("Shaped ")),
    ("5 requires Room", fact("Room ")),
    ("5 steps, levels together", together("steps", "levels")),
    ("5 graph, differences, limits together", together("graph", "differences", "limits")),
    ("5 first, next together", together("first", "next")),
    ("5 names, nodes, operands together", together("names", "nodes", "operands")),
    ("5 leaves, top, horizon together", together("leaves", "top", "horizon")),
    ("5 bytes, position together", together("bytes", "position")),
    ("6 tables as flat arrays", lines(r"^pub type \w+ = \[")),
    ("7 closures, impl Fn, dyn", lines(r"\bdyn\b|\bfn\(|impl Fn|FnMut|FnOnce|\|[a-z_]+\| ")),
]

for name, found in POINTS:
    print(f"{len(found):4} {name}")
    if "-v" in sys.argv[1:]:
        for line in found:
            print("       " + line)
answers = glob.glob("crates/*/proofs/**/Answers.antt", recursive=True)
print(f"{len(answers):4} 8 files of answers, {sum(read(path).count(chr(10)) for path in answers)} lines")
