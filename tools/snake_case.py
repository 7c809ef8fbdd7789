#!/usr/bin/env python3
"""Brings the repository's own definitions and lemmas to the spelling of today's Rattle: snake case, a fact in upper camel case.

usage: python3 tools/snake_case.py [FOLDER]    FOLDER holds crates/ (default: the folder above this script)

Run once, right after port.py. It goes over .antt files whole and over ghost lines and clauses of .rt files;
names of functions, types, modules and strings stay as they are.
"""

import os
import re
import sys

TOKEN = re.compile(r"(?<![\w'])[A-Za-z_][\w']*(?:-[\w']+)*")
CAMEL = re.compile(r"(?<=[a-z0-9])[A-Z]")
# Where port.py turned part of a name only, or two names would fall together.
BY_HAND = {
    "getD-upTo": "get_or-up_to",
    "next-Like": "next_like",
    "row_Shows": "row_shows",
    "endLine": "end_line",
    "end_line": "end_line_lem",
    "firstRows": "first_rows",
    "first_rows": "first_rows_lem",
    "rowOther": "row_other",
    "row_other": "row_other_lem",
}
# `row_other` is a lemma in these files, and the name of a function or a step elsewhere.
LEMMA_OF = {
    "end_line": ("crates/lines/proofs/",),
    "first_rows": ("crates/node/proofs/",),
    "row_other": ("crates/hall/proofs/Entering.antt", "crates/hall/proofs/Filling.antt", "crates/hall/proofs/Rows.antt"),
}
GHOST = re.compile(r"^\s*(ghost use|requires|ensures|ghost|decreases)\b")


def snake(name):
    return CAMEL.sub(lambda m: "_" + m.group().lower(), name)


def turned(name, path):
    if name in LEMMA_OF:
        return BY_HAND[name] if path.startswith(LEMMA_OF[name]) else name
    if name in BY_HAND:
        return BY_HAND[name]
    return snake(name) if name[0].islower() and CAMEL.search(name) else name


def turn_line(line, path):
    # a string of source code, and what a line comment of source code says, are left
    return TOKEN.sub(lambda m: turned(m.group(), path), line)


def turn(path, text):
    if path.endswith(".antt"):
        return "".join(turn_line(line, path) for line in text.splitlines(True))
    return "".join(turn_line(line, path) if GHOST.match(line) else line for line in text.splitlines(True))


def main():
    root = sys.argv[1] if len(sys.argv) > 1 else os.path.join(os.path.dirname(os.path.realpath(__file__)), "..")
    for folder, dirs, files in os.walk(os.path.join(root, "crates")):
        dirs[:] = sorted(d for d in dirs if d != "out")
        for name in sorted(files):
            if not name.endswith((".antt", ".rt")):
                continue
            full = os.path.join(folder, name)
            path = os.path.relpath(full, root)
            with open(full, encoding="utf-8") as f:
                old = f.read()
            new = turn(path, old)
            if new != old:
                with open(full, "w", encoding="utf-8") as f:
                    f.write(new)


main()
