"""Writes crates/policy/specs/Computing.antt: one name whose unfolding opens every definition that the worked examples compute with.

Run it after a definition was added, renamed or removed: python3 tools/computing.py
"""
import os
import re
import textwrap

top = os.path.join(os.path.dirname(os.path.abspath(__file__)), "..", "crates")
skip = {"Computing", "Worked", "Slips", "Objects", "Lines", "Blocks"}


def modules(crate):
    return [line.split()[-1] for line in open(os.path.join(top, crate, "specs", "Lib.antt"), encoding="utf8") if line.startswith("pub mod")]


def unfoldable(crate, module):
    names, inside = [], False
    for line in open(os.path.join(top, crate, "specs", module + ".antt"), encoding="utf8"):
        found = re.match(r"\s*unfoldable pub (\S+) ", line)
        if found:
            names.append(found.group(1))
        if line.startswith("unfoldable mutual"):
            inside = True
        elif inside and re.match(r"\S", line):
            inside = False
        found = re.match(r"  pub (\S+) :", line)
        if inside and found:
            names.append(found.group(1))
    return names


def wrapped(text, columns):
    return textwrap.wrap(text, columns, break_long_words=False, break_on_hyphens=False)


uses, names = [], []
for crate, only in [
    ("bitset", {"Sets", "Relations"}),
    ("lexer", {"Class", "Scan", "Token", "Forms"}),
    ("policy", None),
]:
    for module in modules(crate):
        if module in skip or only and module not in only:
            continue
        mine = [(n, n if n not in names else n + "-of-" + module) for n in unfoldable(crate, module)]
        if mine:
            brought = ", ".join(n if n == other else n + " as " + other for n, other in mine)
            uses += ["use Rattle.%s.specs.%s.{%s}" % (crate, module, line.rstrip(",")) for line in wrapped(brought, 110)]
            names += [other for n, other in mine]
with open(os.path.join(top, "policy", "specs", "Computing.antt"), "w", encoding="utf8") as out:
    out.write("-- `unfolding computing` opens every definition, for examples that compute. Written by tools/computing.py. Assumes nothing.\n")
    out.write("\n".join(uses) + "\n\n-- to unfold this is to unfold all of them\n")
    out.write("unfoldable pub computing : Unit {0}\nunfolding " + "\n    ".join(wrapped(" ".join(names), 140)) + "\ncomputing = tt\n")
