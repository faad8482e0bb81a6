#!/usr/bin/env python3
"""Respells this repository's own definitions and lemmas in snake case, as the Rattle of today spells its own.

Run once, at the top of the repository, after the kit's port.py. A name that a file of specs/ or proofs/ declares,
and that has a capital letter within a word that begins with a small one (setOf, member-setOf, getD-put-in), gets
its words in small letters joined by `_` (set_of, member-set_of). Names of types and of facts (Holds, CycleAt) stay,
and so do names that no file of specs/ or proofs/ declares. In src/, only the clauses and the ghost lines are read.

With --check it changes nothing and lists names that would fall together.
"""
import collections
import glob
import re
import sys

WORD = r"[A-Za-z0-9_'₀-₉ᵣ-]"
NAME = re.compile(r"(?<![A-Za-z0-9_'₀-₉])[A-Za-z_][A-Za-z0-9_'₀-₉]*(?:-[A-Za-z0-9_'₀-₉◌+*≤≡]+)*")
DECLARED = re.compile(r"^\s*(?:(?:pub|abbrev|unfoldable|constructor|field)\s+)*((?:[^\s(){}:,;.=λ→]+\s+)*[^\s(){}:,;.=λ→]+)\s*:(?:\s|$)")

# Lemmas and fields whose names would fall together with a definition that is respelled: they get `_lem`. For each the
# files that speak of it, as CRATE/FOLDER/FILE; with a dot first, also where it is a field that is read.
LEMMAS = {
    "is_name": ["before_laws/proofs/ScanBefore"],
    "part_then": ["before_laws/proofs/WrittenNames", "code_laws/proofs/StatementShape", "reading_laws/proofs/Written"],
    "line_gives": ["code_laws/proofs/CodedMeaning"],
    "operands_of": ["code_reader/proofs/OperandLaws", "code_reader/proofs/Passes", "mentions/proofs/CycleSearch"],
    "of_one": ["constraint_writer/proofs/StackNeeds", "items/proofs/Counts", "set_grammar/proofs/Sets", "grammar/proofs/Statements"],
    "of_two": ["constraint_writer/proofs/StackNeeds", "items/proofs/Counts", "set_grammar/proofs/Sets", "grammar/proofs/Statements"],
    "in_order": ["constraints/proofs/ImageAnswers"],
    "has_room": ["declarations/proofs/ClassAnswers", "declarations/proofs/NameAnswers"],
    "compiled_by": ["demand_laws/proofs/Demand3", "roll_text/proofs/Outcomes"],
    "among_below": ["meaning_laws/proofs/Reachability"],
    ".goes_on": ["name_spelling/specs/Spelling", "name_spelling/proofs/SpellingLaws"],
    ".row_count": [
        "statement_reader/specs/Memory",
        "statement_reader/proofs/StepLaws",
        "parser/proofs/LoopInvariant",
        "compiler/proofs/ParserOutput",
        "compiler/proofs/sizes_of/Proof",
    ],
    "is_block": ["reading_laws/proofs/BlockOrStatement", "reading_laws/proofs/ReadThen", "reading_laws/proofs/LongerText"],
    "counts_of": ["soundness/proofs/SoundTable", "soundness/proofs/CountedNames", "sound_questions/proofs/Known"],
    "with_rows": ["table_parts/proofs/GivesBack"],
}


def snake_word(word):
    if not re.match(r"[a-z_]", word) or not re.search(r"[A-Z]", word):
        return word
    word = re.sub(r"([a-z0-9])([A-Z])", r"\1_\2", word)
    word = re.sub(r"([A-Z]+)([A-Z][a-z])", r"\1_\2", word)
    return word.lower()


def snake(name):
    return "-".join(snake_word(part) for part in name.split("-"))


def antt_files():
    return sorted(glob.glob("crates/*/specs/**/*.antt", recursive=True) + glob.glob("crates/*/proofs/**/*.antt", recursive=True))


def code_of(line):
    """The part of an antt line before its comment."""
    found = re.search(r"(^|\s)--(\s|$)", line)
    return (line, "") if not found else (line[: found.start()], line[found.start():])


def declared_names():
    names = collections.defaultdict(set)
    for path in antt_files():
        for line in open(path, encoding="utf-8"):
            found = DECLARED.match(code_of(line.rstrip("\n"))[0])
            if found and not line.lstrip().startswith(("let ", "use ", "(", "in ")):
                for name in found.group(1).split():
                    names[name].add(path)
    return names


def turn(text, table):
    return NAME.sub(lambda m: table.get(m.group(0), m.group(0)), text)


def rename_lemmas():
    """Before the respelling, when no definition has these names yet."""
    for name, places in LEMMAS.items():
        bare = name.lstrip(".")
        before = r"(?<![A-Za-z0-9_'-])" if name != bare else r"(?<![A-Za-z0-9_'.-])"
        word = re.compile(before + re.escape(bare) + r"(?![A-Za-z0-9_'-])")
        for place in places:
            path = "crates/" + place + ".antt"
            text = open(path, encoding="utf-8").read()
            new = word.sub(bare + "_lem", text)
            if new == text:
                sys.exit(f"{path}: no {bare}")
            open(path, "w", encoding="utf-8").write(new)


def turn_rt(text, table):
    """Only clauses, ghost lines and comments: the names of code stay."""
    out = []
    depth = 0
    for line in text.split("\n"):
        stripped = line.lstrip()
        starts = re.match(r"(ghost|requires|ensures|invariant)\b", stripped)
        if stripped.startswith("//") or starts or depth > 0:
            out.append(turn(line, table))
            depth += line.count("{") - line.count("}") if (starts or depth > 0) and not stripped.startswith("//") else 0
            depth = max(depth, 0)
        else:
            out.append(line)
    return "\n".join(out)


def main():
    names = declared_names()
    table = {name: snake(name) for name in names if snake(name) != name}
    if "--check" in sys.argv:
        fallen = collections.defaultdict(set)
        for name, new in table.items():
            fallen[new].add(name)
        for new, olds in sorted(fallen.items()):
            if len(olds) > 1:
                print("two become one:", new, sorted(olds))
        for name, new in sorted(table.items()):
            if new in names:
                print("stands already:", name, "->", new, sorted(names[name])[:3], sorted(names[new])[:3])
        return
    rename_lemmas()
    for path in antt_files():
        text = open(path, encoding="utf-8").read()
        new = turn(text, table)
        if new != text:
            open(path, "w", encoding="utf-8").write(new)
    for path in sorted(glob.glob("crates/*/src/**/*.rt", recursive=True)):
        text = open(path, encoding="utf-8").read()
        new = turn_rt(text, table)
        if new != text:
            open(path, "w", encoding="utf-8").write(new)
    for path in sorted(glob.glob("crates/*/must-fail/*.edit")):
        text = open(path, encoding="utf-8").read()
        new = turn(text, table)
        if new != text:
            open(path, "w", encoding="utf-8").write(new)


if __name__ == "__main__":
    main()
