#!/usr/bin/env python3
"""Brings this repository's own definitions and lemmas to the spelling of the Rattle that it is written for:
words in snake case, where they were in camel case or had dashes. Run once, at the top, after the toolchain's own script.

It renames what specs/ and proofs/ define (functions, lemmas, record fields), at each place that names it. It keeps the names
that the checker makes (goals, invariants, steps), the names of types and modules, and everything of the code in src/.
With --list it prints old and new names and what falls together, and changes nothing."""
import glob
import re
import sys

CHARS = r"[A-Za-z0-9_'\-₀-₉′·]"
TOKEN = re.compile(CHARS + "+")
HEAD = re.compile(r"^\s*(?:(?:abbrev|unfoldable|pub|private|macro)\s+)*(" + CHARS + r"+)\s*:(?!=)\s*(.*)$")

# spelled like a lemma of the library that stands beside it, whose dash it keeps
LIKE_THE_LIBRARY = {"add-mod", "add-mul", "add-zero", "mul-zero", "zero-add", "zero-mul"}

# a lemma that would get its function's name
LEMMAS = {"is-graded": "is_graded_lem", "is-blank": "is_blank_lem", "grade-of": "grade_of_lem"}

# another name that an import gives, and types in camel case
ALIASES = {"inverseIn": "inverse_in", "Sum-laws": "SumLaws", "Designs-exist": "DesignsExist"}


def snake(name):
    if name in LEMMAS:
        return LEMMAS[name]
    name = re.sub(r"(?<=[a-z0-9])([A-Z])", lambda m: "_" + m.group(1).lower(), name)
    return name.replace("-", "_")


def is_ours(name):
    return name not in LIKE_THE_LIBRARY and name[0].islower() and snake(name) != name and not name.startswith(("invariant-", "decreases-", "Inv-"))


def files(*kinds):
    found = []
    for kind in kinds:
        found += glob.glob("crates/*/" + kind, recursive=True)
    return sorted(f for f in found if "/out/" not in f)


def definitions():
    names = {}
    for path in files("specs/**/*.antt", "proofs/**/*.antt"):
        for line in open(path):
            line = line.split("--")[0] if line.lstrip().startswith("--") else line
            m = HEAD.match(line)
            if not m or not is_ours(m.group(1)):
                continue
            if re.match(r"(goal|need|given|g)\." + re.escape(m.group(1)) + r"\b", m.group(2)):
                continue
            names.setdefault(m.group(1), set()).add(path)
    return names


def rename(text, table):
    return TOKEN.sub(lambda m: table.get(m.group(0), m.group(0)), text)


def main():
    names = definitions()
    table = {name: snake(name) for name in names} | ALIASES
    paths = files("specs/**/*.antt", "proofs/**/*.antt", "src/**/*.rt")
    if "--list" in sys.argv:
        for name in sorted(names):
            print(name, table[name], *sorted(names[name]))
        seen = {}
        for name, new in table.items():
            seen.setdefault(new, []).append(name)
        for new, olds in seen.items():
            if len(olds) > 1:
                print("TOGETHER", new, olds)
        for path in paths:
            tokens = set(TOKEN.findall(open(path).read()))
            for name in tokens & set(table):
                if table[name] in tokens:
                    print("ALREADY", path, name, table[name])
        return
    for path in paths:
        text = open(path).read()
        turned = rename(text, table)
        if turned != text:
            open(path, "w").write(turned)


main()
