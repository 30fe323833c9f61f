#!/usr/bin/env python3
"""Brings the definitions and lemmas of this repository to today's spelling: words in snake case, types in camel case.

usage: tools/respell.py [--list]     at the top of the repository, once, after the kit's port.py

Renamed is what specs/ and proofs/ declare with a dash (a definition, a lemma, a field, a local name), wherever it is
named in specs/, proofs/ and the clauses of src/. What the check itself names (goals, steps), what the library
names, strings and comments stay."""

import glob
import re
import sys

NAME = re.compile(r"[^\s(){}\[\];,.@\"`]+")
DECLARED = re.compile(
    r"\s*(?:(?:abbrev|unfoldable|pub|data|record|ruleset|let|where|mutual|in|module)\s+)*"
    r"([^\s(){}\[\];,.@\"`]+)\s*((?:[({][^)}]*[)}]\s*)*):(?!:)\s*(\S*)"
)
# names that keep their dash, and names that are respelled otherwise
KEPT = {"not-true"}
OTHERWISE = {"getD-joined": "get_or_joined"}


def masked(text, comment):
    """The text with strings and comments blanked, of the same length."""
    blank = lambda m: " " * len(m[0])
    text = re.sub(r'"(?:\\.|[^"\\\n])*"', blank, text)
    return "\n".join(re.sub(comment, blank, line) for line in text.split("\n"))


def respelled(name):
    if name in OTHERWISE:
        return OTHERWISE[name]
    if name[0].isupper():
        return "".join(part[:1].upper() + part[1:] for part in name.split("-"))
    return name.replace("-", "_").replace("′", "'")


def main():
    specs = glob.glob("crates/*/specs/**/*.antt", recursive=True)
    proofs = glob.glob("crates/*/proofs/**/*.antt", recursive=True)
    sources = glob.glob("crates/*/src/**/*.rt", recursive=True)
    texts, codes = {}, {}
    for p in specs + proofs + sources:
        texts[p] = open(p, encoding="utf-8").read()
        codes[p] = masked(texts[p], r"(?:^|(?<=\s))--(?:\s.*)?$" if p.endswith(".antt") else r"//.*$")

    declared, taken = set(), {}
    for p in specs + proofs:
        for line in codes[p].split("\n"):
            m = DECLARED.match(line)
            if m and not m[3].startswith(("goal.", "given.", "need.")):
                declared.add(m[1])
    names = {n: respelled(n) for n in declared - KEPT if re.search(r"[\w'′?]-\w|′", n)}
    for p, code in codes.items():
        for m in NAME.finditer(code):
            taken.setdefault(m[0], p)
    for old, new in sorted(names.items()):
        if new in taken:
            print(f"falls together: {old} and {new} of {taken[new]}")
    if "--list" in sys.argv:
        for old, new in sorted(names.items()):
            print(f"{old} {new}")
        return
    changed = 0
    for p, code in codes.items():
        out, end = [], 0
        for m in NAME.finditer(code):
            if m[0] in names:
                out += [texts[p][end:m.start()], names[m[0]]]
                end = m.end()
        if out:
            open(p, "w", encoding="utf-8").write("".join(out) + texts[p][end:])
            changed += 1
    print(f"{len(names)} names in {changed} files")


if __name__ == "__main__":
    main()
