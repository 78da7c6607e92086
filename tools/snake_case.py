#!/usr/bin/env python3
"""Spells this repository's own definitions and lemmas in snake case, as today's Rattle does: `isDigit` becomes `is_digit`.

usage: tools/snake_case.py            at the top of the repository, after port.py: rewrites specs/, proofs/, ghost parts of src/ and must-fail/

A name is respelled if a file of specs/ or proofs/ of this repository has it with a small first letter and a capital inside. Types, modules, strings,
exported names and functions of src/ keep their names. Names that would fall together with another are in KEPT or OTHER.
"""
import os
import re
import sys

WORD = re.compile(r"(?<![\w'\u2032-])[a-z][\w'\u2032]*(?:-[\w'\u2032]+)*")
CAPITAL = re.compile(r"(?<=[a-z0-9])[A-Z]")
# what falls together: a definition that gets another name, and lemmas that get `_lem` (in all crates, or in some)
OTHER = {"inOrder": "in_given_order", "endLine": "ending_line"}
LEMMAS = """all_in at_mark by_number digit_at digits_of each_read found_of has_room is_sum last_entry last_line no_name no_number no_sign nothing_bound
numbers_of one_entry one_index other_word read_back row_count row_word rows_in whole_part with_second""".split()
LEMMAS_IN = {"one_more": ("data", "rows")}
STRING = re.compile(r'"(?:\\.|[^"\\\n])*"')
COMMENT = {".antt": "--", ".rt": "//"}


def snake(part):
    return CAPITAL.sub(lambda m: "_" + m[0].lower(), part)


def renamed(word):
    if word in OTHER:
        return OTHER[word]
    # a part with a capital first letter is a type's name, and keeps its capitals
    return "-".join(snake(p) if p[:1].islower() else p for p in word.split("-"))


def files(*ends):
    for folder, dirs, names in os.walk("crates"):
        dirs[:] = sorted(d for d in dirs if d != "out")
        for n in sorted(names):
            if n.endswith(ends):
                yield os.path.join(folder, n)


def text(path):
    with open(path, encoding="utf-8") as f:
        return f.read()


def known():
    found = set()
    for p in files(".antt"):
        for line in text(p).split("\n"):
            code = STRING.sub('""', line.split("--")[0])
            found |= {w for w in WORD.findall(code) if renamed(w) != w}
    return found


def turn(t, names):
    return WORD.sub(lambda m: renamed(m[0]) if m[0] in names else m[0], t)


def outside_strings(t, names):
    out, at = [], 0
    for m in STRING.finditer(t):
        out += [turn(t[at:m.start()], names), m[0]]
        at = m.end()
    return "".join(out) + turn(t[at:], names)


def lemmas(path, t):
    crate = path.split(os.sep)[1]
    words = set(LEMMAS) | {w for w, crates in LEMMAS_IN.items() if crate in crates}
    return re.sub(r"(?<![\w'.-])(" + "|".join(sorted(words)) + r")(?![\w'-])", lambda m: m[0] + "_lem", t)


def main():
    names = known()
    for p in files(".antt"):
        t = text(p)
        if lemmas(p, t) != t:
            with open(p, "w", encoding="utf-8") as f:
                f.write(lemmas(p, t))
    for p in files(".antt", ".rt", ".edit"):
        old = text(p)
        new = "\n".join(outside_strings(l, names) for l in old.split("\n"))
        if new != old:
            with open(p, "w", encoding="utf-8") as f:
                f.write(new)


if __name__ == "__main__":
    sys.exit(main())
