#!/usr/bin/env python3
"""snippets: the code of a guide as one program, so that what is shown is compiled and run.

usage: tools/snippets.py c|rust|refusals GUIDE.md      prints the program

c, rust: the blocks marked so, in their order, are the body of main; a C block that starts with a static function, and every #include, go before it. An
error of the C compiler names the guide's own line. refusals: a C program that compiles each example of the guide's list of refusals, written
`text`: place, and fails at the first whose number or place is another.
"""
import re
import sys


def blocks(lines, language):
    """The blocks of a language: the number of each one's first line, and its lines."""
    found, current = [], None
    for number, line in enumerate(lines, 1):
        if current is None and line.strip() == "```" + language:
            current = []
            found.append((number + 1, current))
        elif line.strip() == "```":
            current = None
        elif current is not None:
            current.append(line)
    return found


def c_program(guide, lines):
    includes, functions, body = [], [], []
    for first, block in blocks(lines, "c"):
        code = ["" if line.startswith("#include") else line for line in block]
        includes += [line for line in block if line.startswith("#include")]
        place = functions if re.match(r"static [\w *]+\(", "\n".join(code).lstrip()) else body
        place += [f'#line {first} "{guide}"'] + code
    return includes + functions + ["int main(void) {"] + body + ["return 0;", "}"]


def rust_program(guide, lines):
    body = []
    for first, block in blocks(lines, "rust"):
        body += [f"// {guide}:{first}"] + block
    return ["fn main() -> Result<(), Box<dyn std::error::Error>> {"] + body + ["Ok(())", "}"]


def examples_of(lines):
    """The examples of the list of refusals: number, text and place of each."""
    items = re.findall(r"^- \*\*(\d+)\*\*: (.*(?:\n  .*)*)", "\n".join(lines), re.MULTILINE)
    return [(int(number), text, int(place)) for number, item in items for text, place in re.findall(r"`([^`]*)`:\s+(\d+)", item)]


def refusals_program(guide, lines):
    rows = ",\n".join('    {"%s", %d, %d}' % (text, number, place) for number, text, place in examples_of(lines))
    return ["""#include <stdio.h>
#include <string.h>
#include "tegzhumbi.h"
static const struct { const char *text; uint32_t number, place; } examples[] = {
%s
};
int main(void) {
    static uint8_t table[TEGZHUMBI_LONGEST_TABLE];
    size_t count = sizeof examples / sizeof examples[0];
    for (size_t k = 0; k < count; k++) {
        tegzhumbi_compiled got = tegzhumbi_compile((const uint8_t *)examples[k].text, strlen(examples[k].text), table, sizeof table);
        if (got.number == examples[k].number && got.place == examples[k].place) continue;
        printf("%s: refusal %%u at %%u, not as it says\\n", examples[k].text, (unsigned)got.number, (unsigned)got.place);
        return 1;
    }
    printf("%%u examples of refusals are as the guide says\\n", (unsigned)count);
    return 0;
}""" % (rows, "%s")]


PROGRAMS = {"c": c_program, "rust": rust_program, "refusals": refusals_program}

if __name__ == "__main__":
    if len(sys.argv) != 3 or sys.argv[1] not in PROGRAMS:
        sys.exit(__doc__)
    with open(sys.argv[2], encoding="utf-8") as file:
        print("\n".join(PROGRAMS[sys.argv[1]](sys.argv[2], file.read().splitlines())))
