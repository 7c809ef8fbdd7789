#!/usr/bin/env python3
"""Brings lemmas and helpers of proofs/ to the spelling of today's Rattle: plain words are joined by `_`, a dash joins the names of two definitions.

usage: python3 tools/lemma_names.py [FOLDER]    FOLDER holds crates/ (default: the folder above this script)

It may run again: what it has turned it leaves. Goals, invariants, measures and the names that Rattle makes keep their dashes.
"""

import os
import re
import sys

NAME = r"[A-Za-z_][\w']*(?:-[\w'+*≡≤<]+)*"
TOKEN = re.compile(r"(?<![\w'.-])" + NAME)
# A name behind a dot: a field or a module's; below a function's goals only a module's, since the steps of goals have dashes too.
BEHIND = re.compile(r"(?<=\.)" + NAME)
OF_MODULE = re.compile(r"(?<=[A-Z])([\w']*\.)(" + NAME + ")")
DECLARED = re.compile(r"\s*(?:(?:abbrev|unfoldable|pub) )*(" + NAME + r")(?:\s*:(?!=)\s*(.*))?$")
ALIAS = re.compile(r"use \S+ as (" + NAME + r")$")
MADE = re.compile(r"(?:invariant|decreases)-|\+")
# Words of the library that lemmas here are named after.
LIBRARY = """length append take drop map set get_or replicate min max not suc cond eqb ltb leb add mul sub fall le lt zero one""".split()


def texts(root):
    for folder, dirs, files in os.walk(os.path.join(root, "crates")):
        dirs[:] = sorted(d for d in dirs if d != "out")
        for name in sorted(files):
            if name.endswith((".antt", ".edit")):
                yield os.path.join(folder, name)


def read(path):
    with open(path, encoding="utf-8") as f:
        return f.read()


def declared(path):
    """The names that a file declares, but for those that Rattle asks for; aliases of modules too."""
    for line in read(path).splitlines():
        m = ALIAS.match(line)
        if m:
            yield m.group(1)
        m = DECLARED.match(line)
        if m and m.group(2) is not None and not m.group(2).startswith(("goal.", "tie.")) and not MADE.match(m.group(1)):
            yield m.group(1)


def imported(text):
    """The names that a file takes from the library."""
    for module, names in re.findall(r"^use ([\w.'-]+)\.\{([^}]*)\}", text, re.M):
        if not module.startswith("Rattle.") or module.startswith("Rattle.std."):
            yield from re.findall(NAME, names)


def joined(name, words):
    """The name with `_` in place of each dash that does not join two definitions."""
    parts = name.split("-")
    text = parts[0]
    for before, after in zip(parts, parts[1:]):
        text += ("-" if before in words and after in words else "_") + after
    return text


def table(root):
    words, lemmas, all_names, taken = set(LIBRARY), set(), set(), set()
    for path in texts(root):
        if path.endswith(".edit"):
            continue
        all_names.update(TOKEN.findall(read(path)))
        taken.update(imported(read(path)))
        if os.sep + "specs" + os.sep in path:
            words.update(n for n in declared(path) if "-" not in n)
        lemmas.update(n for n in declared(path) if "-" in n)
    turned = {}
    for name in sorted(lemmas - taken):
        new = joined(joined(name, words), words)
        if new != name:
            turned[name] = new + "_lem" if new in all_names or new in turned.values() else new
    return turned


def turn_code(code, path, turned):
    code = TOKEN.sub(lambda m: turned.get(m.group(), m.group()), code)
    if path.endswith(("Answers.antt", "Invariants.antt", "Proof.antt")):
        return OF_MODULE.sub(lambda m: m.group(1) + turned.get(m.group(2), m.group(2)), code)
    return BEHIND.sub(lambda m: turned.get(m.group(), m.group()), code)


def turn_line(line, path, turned):
    """Of a comment only what stands in backquotes is turned."""
    at = re.search(r"^\s*#|--(?=\s)", line)
    code, comment = (line[: at.start()], line[at.start() :]) if at else (line, "")
    comment = re.sub(r"`[^`]*`", lambda m: TOKEN.sub(lambda n: turned.get(n.group(), n.group()), m.group()), comment)
    return turn_code(code, path, turned) + comment


def main():
    root = sys.argv[1] if len(sys.argv) > 1 else os.path.join(os.path.dirname(os.path.realpath(__file__)), "..")
    turned = table(root)
    for path in texts(root):
        old = read(path)
        new = "".join(turn_line(line, path, turned) for line in old.splitlines(True))
        if new != old:
            with open(path, "w", encoding="utf-8") as f:
                f.write(new)
    for old, new in turned.items():
        print(old, new)


main()
