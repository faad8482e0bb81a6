#!/usr/bin/env python3
"""policies.py FOLDER: writes the policies that both compilers are measured on, one file each.

Every file is CIL that both Tegzhumbi and secilc read; what secilc asks besides (a sid, a level) stands in base.cil, which only it gets.
The names and numbers are fixed, so two runs write the same bytes.
"""
import os
import sys

TEXT_MAX = 65_535


def declare(users, roles, types, classes, permissions, attributes=0):
    lines = [f"(user u{n}_)" for n in range(users)]
    lines += [f"(role r{n}_)" for n in range(roles)]
    lines += [f"(type t{n}_)" for n in range(types)]
    for family in ("user", "role", "type"):
        lines += [f"({family}attribute {family[0]}a{n})" for n in range(attributes)]
    lines += ["(class process (transition dyntransition fork))"]
    for c in range(classes):
        lines.append(f"(class c{c} ({' '.join(f'p{k}' for k in range(permissions))}))")
    return lines


def relate(users, roles, types):
    lines = [f"(userrole u{n}_ r{n % roles}_)" for n in range(users)]
    lines += [f"(roletype r{n % roles}_ t{n}_)" for n in range(types)]
    lines += [f"(roleallow r{n}_ r{(n + 1) % roles}_)" for n in range(roles)]
    return lines


def small():
    """An office of three users."""
    return declare(3, 2, 3, 1, 2) + relate(3, 2, 3) + ["(constrain (c0 (p0)) (eq u1 u2))"]


def typical():
    """Some 300 names: 40 users, 20 roles, 120 types, groups, 20 constraints, 10 transitions."""
    lines = declare(40, 20, 120, 8, 12, 8) + relate(40, 20, 120)
    for n in range(8):
        lines.append(f"(userattributeset ua{n} (u{n}_ u{n + 8}_ u{n + 16}_))")
        lines.append(f"(roleattributeset ra{n} (or (r{n}_ r{n + 8}_) (r{n + 1}_)))")
        lines.append(f"(typeattributeset ta{n} (and (not (t{n}_)) (t{n + 8}_ t{n + 9}_ t{n + 10}_)))")
    for n in range(10):
        lines.append(f"(roletransition r{n}_ t{n}_ process r{n + 1}_)")
    for n in range(20):
        lines.append(f"(constrain (c{n % 8} (p{n % 12})) (or (eq u1 u2) (and (eq r1 ra{n % 8}) (neq t2 ta{n % 8}))))")
    return lines


def maxima():
    """Every maximum of names at once, and as much of the rest as the text holds."""
    lines = declare(128, 128, 512, 31, 31, 64) + relate(128, 128, 512)
    for n in range(64):
        lines.append(f"(roleattributeset ra{n} (r{n}_ r{n + 64}_))")
    for n in range(128):
        lines.append(f"(constrain (c{n % 31} (p{n % 31})) (or (eq u1 u2) (eq r1 ra{n % 64})))")
    return lines


def fill(lines, line):
    """As many more lines as the text holds: line(0), line(1), and so on."""
    size, n = sum(len(each) + 1 for each in lines), 0
    while size + len(line(n)) + 1 <= TEXT_MAX:
        size += len(line(n)) + 1
        lines.append(line(n))
        n += 1
    return lines


def full():
    """The largest: every maximum of names, sets in all families, 128 transitions, 128 constraints on one permission, and lines to the end of the text."""
    lines = declare(128, 128, 512, 31, 31, 64) + relate(128, 128, 512)
    for n in range(64):
        lines += [f"({family}attributeset {family[0]}a{n} ({family[0]}{n}_ {family[0]}{n + 64}_))" for family in ("user", "role", "type")]
    lines += [f"(roletransition r{n}_ t{n}_ process r{(n + 1) % 128}_)" for n in range(128)]
    lines += [f"(constrain (c0 (p0)) (or (eq u1 u2) (and (eq r1 ra{n % 64}) (neq t2 ta{n % 64}))))" for n in range(128)]
    return fill(lines, lambda n: f"(roletype r{n % 128}_ t{n * 7 % 512}_)")


def unions():
    """Sets of ten names each, as many as the text holds."""
    return fill(declare(60, 60, 120, 4, 8, 32), lambda n: f"(typeattributeset ta{n % 32} ({' '.join(f't{(n * 3 + k) % 120}_' for k in range(10))}))")


def expression(x, n, many):
    """A set with every operator, over so many things."""
    return f"(and (or ({x}{n % many}_ {x}{(n * 5 + 1) % many}_) (not ({x}{(n * 7 + 2) % many}_))) (xor (all) ({x}{(n * 3 + 5) % many}_)))"


def nested():
    """Sets with every operator over few roles, as many as the text holds."""
    return fill(declare(60, 60, 120, 4, 8, 32), lambda n: f"(roleattributeset ra{n % 32} {expression('r', n, 60)})")


def wide():
    """The same over as many types as there may be, behind every maximum of names."""
    return fill(declare(128, 128, 512, 31, 31, 64), lambda n: f"(typeattributeset ta{n % 64} {expression('t', n, 512)})")


def groups():
    """Relations between attributes, as many as the text holds, behind every maximum of names."""
    lines = declare(128, 128, 512, 31, 31, 64)
    for x, family in (("r", "role"), ("t", "type")):
        lines += [f"({family}attributeset {x}a{n} ({x}{n}_ {x}{n + 64}_))" for n in range(64)]
    return fill(lines, lambda n: f"(roletype ra{n % 64} ta{n * 7 % 64})")


def lines_only():
    """As many lines over few names as the text holds: what names cost apart from it."""
    return fill(declare(20, 10, 30, 2, 4), lambda n: f"(userrole u{n % 20}_ r{n // 20 % 10}_)")


def constraints(many, spread):
    """So many constraints, on one permission or spread over all."""
    lines = declare(10, 10, 10, 8, 16) + relate(10, 10, 10)
    for n in range(many):
        where = f"(c{n % 8} (p{n // 8 % 16}))" if spread else "(c0 (p0))"
        lines.append(f"(constrain {where} (or (eq u1 u2) (or (eq r1 r{n % 10}_) (neq t2 t{n % 7}_))))")
    return lines


def relabels():
    """As many validatetrans statements as there may be, all on one class."""
    lines = declare(10, 10, 10, 8, 16) + relate(10, 10, 10)
    return lines + [f"(validatetrans c0 (or (eq u1 u2) (or (eq r3 r{n % 10}_) (neq t3 t{n % 7}_))))" for n in range(64)]


def longer(size):
    """The typical mix, cut at about so many bytes: how the cost grows with the text."""
    lines = declare(40, 20, 120, 8, 12, 8) + relate(40, 20, 120)
    n = 0
    while sum(len(line) + 1 for line in lines) < size - 60:
        lines.append(f"(roletype r{n % 20}_ t{n // 20 % 120}_)")
        n += 1
    return lines


def branches():
    """The typical mix as eight branches send it: a block each, with one more inside, and what they share outside."""
    lines = declare(4, 4, 8, 8, 12, 2) + relate(4, 4, 8)
    for b in range(8):
        own = declare(5, 3, 14, 0, 0, 1)
        lines += [f"(block b{b}"] + [line for line in own if not line.startswith("(class ")] + relate(5, 3, 14)
        lines += ["(userattributeset ua0 (u0_ u1_ .u2_))", "(roleattributeset ra0 (or (r0_ .r1_) (r2_)))"]
        lines += ["(typeattributeset .ta1 (and (not (t0_)) (t1_ t2_ .t3_)))", "(roletransition r0_ t0_ process r1_)"]
        lines += [f"(constrain (c{b} (p{k})) (or (eq u1 u2) (and (eq r1 ra0) (neq t2 ta1))))" for k in range(2)]
        lines += ["(block night", "(role r9_)", "(roletype r9_ t0_)", "(userrole u0_ r9_)", ")", ")"]
    return lines


def blocks():
    """As many blocks as the text holds, none of them in another: what opening costs."""
    return fill(declare(3, 2, 3, 1, 2), lambda n: f"(block b{n})")


BASE = """(handleunknown allow)
(mls false)
(sid kernel)
(sidorder (kernel))
(user base_user)
(role base_role)
(type base_type)
(class base_class (base_permission))
(classorder (unordered base_class))
(sensitivity s0)
(sensitivityorder (s0))
(userrole base_user base_role)
(roletype base_role base_type)
(userlevel base_user (s0))
(userrange base_user ((s0) (s0)))
(sidcontext kernel (base_user base_role base_type ((s0) (s0))))
(allow base_type self (base_class (base_permission)))
"""


def full_names(keyword, lines):
    """The full names that the lines declare by a keyword: a block is opened by a line of its own and closed by another."""
    path, names = [], []
    for line in lines:
        if line.startswith("(block ") and not line.endswith(")"):
            path.append(line[7:])
        elif line == ")":
            path.pop()
        elif line.startswith(keyword):
            names.append(".".join(path + [line[len(keyword):-1]]))
    return names


def secilc_also(lines):
    """What secilc asks of the classes and users of a policy."""
    classes = [line.split()[1] for line in lines if line.startswith("(class ")]
    users = full_names("(user ", lines)
    also = [f"(classorder (unordered {' '.join(classes)}))"]
    for user in users:
        also += [f"(userlevel {user} (s0))", f"(userrange {user} ((s0) (s0)))"]
    return also


def main():
    folder = sys.argv[1]
    os.makedirs(folder, exist_ok=True)
    policies = {
        "small": small(),
        "typical": typical(),
        "maxima": maxima(),
        "full": full(),
        "unions": unions(),
        "nested": nested(),
        "wide": wide(),
        "groups": groups(),
        "lines": lines_only(),
        "one-permission": constraints(128, False),
        "spread": constraints(128, True),
        "relabels": relabels(),
        "branches": branches(),
        "blocks": blocks(),
    }
    for size in (8_000, 16_000, 32_000, 64_000):
        policies[f"bytes-{size}"] = longer(size)
    for many in (16, 32, 64, 128):
        policies[f"constraints-{many}"] = constraints(many, False)
    for name, lines in policies.items():
        text = "".join(line + "\n" for line in lines)
        if len(text) > TEXT_MAX:
            raise SystemExit(f"{name} has {len(text)} bytes")
        with open(os.path.join(folder, name + ".cil"), "w") as out:
            out.write(text)
        with open(os.path.join(folder, name + ".also"), "w") as out:
            out.write("".join(line + "\n" for line in secilc_also(lines)))
    with open(os.path.join(folder, "base.cil"), "w") as out:
        out.write(BASE)


main()
