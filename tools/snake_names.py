#!/usr/bin/env python3
"""Brings the repository's own definitions and lemmas to today's spelling of names.

usage: python3 tools/snake_names.py            at the top of the repository, once, right after port.py

Functions, lemmas, fields and constructors of specs/ and proofs/ go to snake case, types and facts to upper camel case.
Names that the library or the prover makes, names of src/, strings, inputs and outputs stay. Comments and pages change
only between backticks. It stops, and writes nothing, where two names would fall together.
"""

import os
import re
import sys

# what can't be told from the spelling alone
BY_HAND = {
    "isName": "is_name_text",
    "isLetter": "is_letter_text",
    "isSymbol": "is_symbol_text",
    "isAlpha": "is_alpha",
    "isDigit": "is_digit",
    "isMark": "is_mark_byte",
    "isSeparator": "is_separator",
    "isPart": "is_part_byte",
    "isForeign": "is_foreign_byte",
    "each-getD": "each_get_or",
    "getD-cells": "get_or_cells",
}
SIGNATURE = re.compile(r"^\s*(?:(?:abbrev|unfoldable|pub)\s+)*((?:[^\s:(){},;.λ=]+)(?:\s+[^\s:(){},;.λ=]+)*?)\s+:\s+(.*)$")
DECLARED = re.compile(r"^\s*(?:(?:abbrev|unfoldable|pub)\s+)*(?:data|record)\s+([^\s:(){},;.λ=]+)(.*)$")
ALIAS = re.compile(r"\sas ([A-Z][\w'-]*)")
LIBRARY = re.compile(r"\s*(?:ghost )?use (?:Rattle\.std|borrow)\.[\w.]+\.\{(.*)\}")
ANSWER = re.compile(r"(goal|need|given)\b")
# a name, with no operator beside a dash
NAME = re.compile(r"(?<![\w'-])[A-Za-z_][\w']*(?:-[\w']+)*(?![\w'-]|-\+)")


def files(endings):
    for folder, dirs, names in os.walk("crates"):
        dirs[:] = sorted(d for d in dirs if d != "out")
        for name in sorted(names):
            if name.endswith(endings):
                yield os.path.join(folder, name)


def own_names():
    """The names that the repository defines, answers to the prover's goals and names of the library aside."""
    found, library = set(BY_HAND), set()
    for path in files(".antt"):
        for line in open(path, encoding="utf-8"):
            text = line.strip()
            for those in LIBRARY.findall(line):
                library.update(n.split()[0] for n in those.split(",") if n.strip())
            if text.startswith("use "):
                found.update(n for n in ALIAS.findall(text) if "-" in n)
            if text.startswith(("--", "use ")):
                continue
            m = SIGNATURE.match(line) or DECLARED.match(line)
            if not m or m[1].split()[0] == "let":
                continue
            if not ANSWER.match(m[2]):
                found.update(n for n in m[1].split() if "-" in n and NAME.fullmatch(n))
    return found - library


def spelled(name):
    if name in BY_HAND:
        return BY_HAND[name]
    if name[0].isupper():
        return "".join(part[:1].upper() + part[1:] for part in name.split("-"))
    return name.replace("-", "_")


def turn(line, names):
    return NAME.sub(lambda m: names.get(m[0], m[0]), line)


def turn_ticked(text, names):
    return re.sub(r"`[^`\n]*`", lambda m: turn(m[0], names), text)


def turn_code(text, names, comment):
    lines = []
    for line in text.split("\n"):
        code, mark, said = line.partition(comment)
        # of Rattle only what is ghost has names with a dash
        lines.append(turn(code, names) + mark + turn_ticked(said, names))
    return "\n".join(lines)


def main():
    names = {n: spelled(n) for n in own_names()}
    if len(set(names.values())) < len(names):
        seen = {}
        for old, new in sorted(names.items()):
            if new in seen:
                print(f"{seen[new]} and {old} would both be {new}")
            seen[new] = old
        return 1
    for path in list(files((".antt", ".rt"))) + [os.path.join("docs", n) for n in sorted(os.listdir("docs")) if n.endswith(".md")] + ["README.md"]:
        text = open(path, encoding="utf-8").read()
        if path.endswith(".md"):
            new = turn_ticked(text, names)
        else:
            new = turn_code(text, names, "--" if path.endswith(".antt") else "//")
        if new != text:
            open(path, "w", encoding="utf-8").write(new)
    print(f"{len(names)} names")
    return 0


if __name__ == "__main__":
    sys.exit(main())
