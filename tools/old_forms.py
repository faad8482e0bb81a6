#!/usr/bin/env python3
"""Lists the places of src/ that are written in forms which Rattle has better ones for: docs/DESIGN-PASS.md counts them.

Usage: python3 tools/old_forms.py [POINT..]      (1 to 8; none: all) at the top of the repository.
It reads text, so it finds places to look at: a hand and an eye decide.
"""
import collections
import glob
import re
import sys

SOURCES = sorted(glob.glob("crates/*/src/*.rt"))
FAILS = {
    "Bad", "Broken", "Clean", "Done", "End", "Fault", "MaximumPassed", "Missing", "NoFault", "NoRoom", "NotValid", "Nowhere",
    "Refused", "TooLong", "Undeclared", "Unknown", "Unsound", "Wrong", "Cycle", "Clash", "DeclaredAgain", "StackTooSmall",
}
BY_HAND = {
    "equality": r"same_bytes|same_name|same_rows|ends_comment|is_missing|is_dot\b",
    "order": r"least|greatest|larger|one_less",
    "conversion": r"wide|\w+_number|relation_number|thing_sort|attribute_sort|place_unit|four_bytes|attribute_count",
    "printing": r"show_\w+|numbered|refusal_words|hex|say",
}


def code_of(path):
    """The text without comments and lines that only a proof reads."""
    lines = open(path, encoding="utf8").read().split("\n")
    lines = [re.sub(r"(?<!b')//.*", "", it) for it in lines]
    return "\n".join("" if it.startswith("ghost use") else it for it in lines)


def crate_of(path):
    return path.split("/")[1]


def functions(text):
    """Each function's name, parameters, clauses, body and line."""
    for found in re.finditer(r"^[ \t]*(?:pub |unsafe |extern \"C\" )*fn (\w+)[^(]*\(", text, re.M):
        depth, at = 1, found.end()
        while depth:
            depth += {"(": 1, ")": -1}.get(text[at], 0)
            at += 1
        params, start = text[found.end():at - 1], at
        body = re.compile(r"^[ \t]*\{|\{\n", re.M).search(text, start)
        clauses = re.compile(r"(?:requires|ensures)\b[^{]*\{").search(text, start)
        here = start
        while clauses and (not body or clauses.start() < body.start() or clauses.end() > body.start()):
            depth, here = 1, clauses.end()
            while depth:
                depth += {"{": 1, "}": -1}.get(text[here], 0)
                here += 1
            body = re.compile(r"\{").search(text, here)
            clauses = re.compile(r"\s*(?:requires|ensures)\b[^{]*\{").match(text, here)
        if not body:
            continue
        depth, end = 1, body.end()
        while depth and end < len(text):
            depth += {"{": 1, "}": -1}.get(text[end], 0)
            end += 1
        line = text.count("\n", 0, found.start(1)) + 1
        yield found.group(1), params, text[start:body.start()], text[body.end():end - 1], line


ALL = [(path, code_of(path)) for path in SOURCES]
EVERY = [(path, *it) for path, text in ALL for it in functions(text)]


def show(point, title, places):
    print(f"{point} {title}: {len(places)}")
    for it in sorted(places):
        print(f"    {it}")


def enums():
    places = []
    for path, text in ALL:
        for found in re.finditer(r"\benum (\w+)(?:<[^>]*>)? \{(.*?)^\}", text, re.S | re.M):
            variants = re.findall(r"^    (\w+)", found.group(2), re.M)
            carry = re.findall(r"^    (\w+)[ ]?[({]", found.group(2), re.M)
            if (set(variants) & FAILS) and 1 <= len(carry) <= 2:
                places.append(f"{crate_of(path)}::{found.group(1)} ({', '.join(variants)})")
    show(1, "enums of the shape of Option or Result", places)
    places = []
    for path, text in ALL:
        for found in re.finditer(r"\bconst (NO_(?!FORM)\w+|OTHER)\b", text):
            places.append(f"{crate_of(path)}::{found.group(1)}")
    show(1, "values that stand for none", places)
    places = []
    for path, text in ALL:
        for found in re.finditer(r"^impl (\w+) \{(.*?)^\}", text, re.S | re.M):
            numbers = re.findall(r"\bconst [A-Z]\w*: (?:usize|u8|u16|u32) = \d[\d_]*;", found.group(2))
            if len(numbers) > 2:
                places.append(f"{crate_of(path)}::{found.group(1)} ({len(numbers)} numbers)")
        loose = re.findall(r"^const ([A-Z]\w*): usize = \d;", text, re.M)
        if len(loose) > 2:
            places.append(f"{crate_of(path)}: {', '.join(loose)}")
    show(1, "numbers for kinds or refusals, by the type that has them", places)


def shape(body):
    words = re.findall(r"\w+|[^\w\s]", body)
    keep = {"if", "else", "while", "for", "loop", "match", "return", "let", "mut", "in", "as", "break", "continue"}
    return " ".join(it if it in keep or not re.match(r"\w", it) else "x" for it in words), len(words)


def twins():
    groups = collections.defaultdict(list)
    for path, name, _, _, body, _ in EVERY:
        key, size = shape(body)
        if size > 40:
            groups[key].append(f"{crate_of(path)}::{name}")
    show(2, "functions whose bodies differ in names and numbers alone", [" = ".join(it) for it in groups.values() if len(it) > 1])


def loops():
    places, total = [], 0
    for path, name, _, _, body, _ in EVERY:
        for found in re.finditer(r"\b(while [^{]*|loop )\{", body):
            total += 1
            depth, at = 1, found.end()
            while depth:
                depth += {"{": 1, "}": -1}.get(body[at], 0)
                at += 1
            inside = body[found.end():at]
            counted = set(re.findall(r"\b(\w+) [+-]= 1;", inside))
            tested = set(re.findall(r"\w+", found.group(1)))
            if found.group(1).startswith("while") and counted & tested:
                places.append(f"{crate_of(path)}::{name}")
    show(3, f"loops that count an index by hand, of {total} that are no `for`", places)


def by_hand():
    for what, names in BY_HAND.items():
        places = [f"{crate_of(p)}::{name}" for p, name, *_ in EVERY if re.fullmatch(names, name)]
        show(4, f"{what} written by hand", places)


def facts():
    counts = collections.defaultdict(set)
    for path, name, _, clauses, _, _ in EVERY:
        for found in re.finditer(r"requires[^{]*\{(.*?)\}\s*(?=requires|ensures|$)", clauses, re.S):
            for fact in re.split(r" × ", found.group(1)):
                fact = re.sub(r"\.(?:now|old|new)\b", "", fact.strip().strip("()"))
                counts[re.sub(r"\s+", " ", fact)].add(f"{crate_of(path)}::{name}")
    places = [f"{len(it)} functions: {fact}" for fact, it in counts.items() if len(it) >= 3]
    show(5, "facts that stand in the contracts of three or more functions", places)
    counts = collections.Counter()
    for path, name, params, *_ in EVERY:
        mine = sorted(re.sub(r"\s+", " ", it.strip().replace("&mut ", "&")) for it in params.split(",") if ":" in it)
        mine = [it for it in mine if not re.match(r"(text|at|out|input|table|self)\b", it)]
        for i, a in enumerate(mine):
            for j in range(i + 1, len(mine)):
                for b in mine[j + 1:]:
                    counts[(a, mine[j], b)] += 1
    places = [f"{n} functions: {'; '.join(it)}" for it, n in counts.items() if n >= 6]
    show(5, "three parameters, besides text, place and table, that six or more functions take together", places)


def buffers():
    places = []
    for path, name, params, *_ in EVERY:
        if re.search(r"&(?:mut )?\[\w+\]", params) and re.search(r"\b(?:len|count|size|end): usize", params):
            places.append(f"{crate_of(path)}::{name}")
    show(6, "functions that take a slice and a length or an end beside it", places)


def switches():
    places = [f"{crate_of(p)}::{name}" for p, name, _, _, body, _ in EVERY if re.search(r"match (?:way|kind|which) \{\s*(?:\d|[A-Z_]+ =>)", body)]
    show(7, "switches on a number that says which step to run", places)


def proofs():
    files = glob.glob("crates/*/proofs/**/Answers.antt", recursive=True)
    lines = sum(len(open(it, encoding="utf8").readlines()) for it in files)
    laws = glob.glob("crates/*/proofs/*.antt")
    all_lines = sum(len(open(it, encoding="utf8").readlines()) for it in laws)
    print(f"8 files of answers: {len(files)}, with {lines} lines; files of laws: {len(laws)}, with {all_lines} lines")


POINTS = {"1": enums, "2": twins, "3": loops, "4": by_hand, "5": facts, "6": buffers, "7": switches, "8": proofs}
for point in sys.argv[1:] or POINTS:
    POINTS[point]()
