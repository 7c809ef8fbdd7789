#!/usr/bin/env python3
"""usage: edits.py OLD NEW PORT turns NEW's must-fail edits to what PORT (the path of port.py) makes of those of OLD; edits.py --fits NEW lists those that don't fit"""

import difflib
import glob
import os
import re
import shutil
import subprocess
import sys
import tempfile
from concurrent.futures import ThreadPoolExecutor

TOKEN = re.compile(r"◌\S+?◌|[\w']+|[&|+!<>=:-]+|[^\w\s]")
NAME = re.compile(r"[A-Za-z_][\w']*(?:-[\w']+)*|\+\+|&&|\|\||(?<=\s)[-+*/%^<≡≤∷×](?=\s)")
# Edits whose plain turn takes away a name that a proof file cites.
BY_HAND = (
    "crates/gateway/must-fail/refused_records_taken.edit",
    "crates/hall/must-fail/casts_not_entered.edit",
    "crates/hall/must-fail/head_of_eight_refused.edit",
    "crates/lines/must-fail/list_never_counted_anew.edit",
    "crates/node/must-fail/other_epochs_refused.edit",
)
COMMENT = re.compile(r"(?m)(?:^|\s)(?:--|//)\s.*")


def read(*path):
    with open(os.path.join(*path), encoding="utf-8") as f:
        return f.read()


def write(text, *path):
    with open(os.path.join(*path), "w", encoding="utf-8") as f:
        f.write(text)


def edits(root):
    """The pairs (file, old, new) of each edit."""
    found = {}
    for path in sorted(glob.glob(os.path.join(root, "crates/*/must-fail/*.edit"))):
        pairs = found[os.path.relpath(path, root)] = []
        for line in read(path).split("\n"):
            key, _, text = line.partition(":")
            if key == "file":
                file = os.path.relpath(os.path.join(os.path.dirname(path), "..", text.strip()), root)
            elif key == "old":
                old = text[1:]
            elif key == "new":
                pairs.append((file, old, text[1:]))
    return found


def places(root, pairs):
    """The lines that an edit changes: {(file, number): (what they become, words kept before the change, words kept behind it)}."""
    texts, where = {}, {}
    for file, old, new in pairs:
        text = texts.setdefault(file, read(root, file))
        if text.count(old) != 1 or old == new:
            raise ValueError(f"'{old}' stands {text.count(old)} times in {file}")
        texts[file] = text.replace(old, new)
        n = text[: text.index(old)].count("\n")
        a, b = TOKEN.findall(old), TOKEN.findall(new)
        front, back = kept(a, b)
        where[file, n] = (texts[file].split("\n")[n], sum(map(word, a[:front])), sum(map(word, a[len(a) - back :])))
    return where


def word(token):
    return token[0].isalnum() or token[0] in "_◌"


def kept(a, b):
    """How many tokens at the front and at the back two lines have in common."""
    front = len(os.path.commonprefix([a, b]))
    return front, len(os.path.commonprefix([a[front:][::-1], b[front:][::-1]]))


def reach(tokens, words):
    """How many tokens it takes to have so many words."""
    return next((n for n in range(len(tokens)) if sum(map(word, tokens[:n])) == words), len(tokens))


def rounds(root, found):
    """Rounds {edit: places}; in one no two edits touch the same line of a file, and no two its imports."""
    made = []
    for path, pairs in found.items():
        where = places(root, pairs)
        if path in BY_HAND or not all(at[0].strip() for at in where.values()):
            print(f"by hand: {path}: {'a name' if path in BY_HAND else 'a line'} goes")
            continue
        keys = {(file, "imports" if at[0].startswith("use ") else n) for (file, n), at in where.items()}
        free = next((r for r in made if not r[0] & keys), None) or made.append((set(), {})) or made[-1]
        free[0].update(keys)
        free[1][path] = where
    return [edited for _, edited in made]


def turned(root, port, edited):
    """What PORT and snake_case.py make of a copy with these edits: the lines of each file of crates/."""
    with tempfile.TemporaryDirectory(prefix="edits-") as top:
        copy = shutil.copytree(root, os.path.join(top, "copy"), ignore=shutil.ignore_patterns(".git", "out"))
        for where in edited.values():
            for (file, n), at in where.items():
                lines = read(copy, file).split("\n")
                write("\n".join([*lines[:n], at[0], *lines[n + 1 :]]), copy, file)
        said, run = os.path.join(top, "said"), "import sys, port; port.SAID = sys.argv[1]; sys.exit(port.main([]))"
        for words in (
            ["git", "init", "-q"],
            ["git", "add", "-A"],
            ["git", "-c", "user.name=edits", "-c", "user.email=edits", "commit", "-qm", "edited"],
            [sys.executable, "-B", "-c", run, said],
            [sys.executable, os.path.join(os.path.dirname(os.path.realpath(__file__)), "snake_case.py"), copy],
        ):
            env = os.environ | {"PYTHONPATH": os.path.dirname(os.path.realpath(port))}
            subprocess.run(words, cwd=copy, env=env, check=True, stdout=subprocess.DEVNULL)
        files = [p for kind in ("rt", "antt") for p in glob.glob(f"{copy}/crates/**/*.{kind}", recursive=True)]
        return {os.path.relpath(p, copy): read(p).split("\n") for p in files}


def lines_today(old, new):
    """Which of the new lines each old line became, by their letters and digits."""
    plain = [[re.sub(r"[\W_]", "", line).lower() for line in lines] for lines in (old, new)]
    parts = difflib.SequenceMatcher(None, *plain, autojunk=False).get_opcodes()
    return {a + k: b + k for _, a, to, b, end in parts if to - a == end - b for k in range(to - a)}


def unpaired(text, opening, closing):
    """How many closing signs have no opening one before them."""
    open_now = alone = 0
    for sign in text:
        alone += sign == closing and not open_now
        open_now = max(0, open_now + (sign == opening) - (sign == closing))
    return alone


def cut(a, b, front, back, text):
    """The part of line a that changes, and what line b has there: with so many words around it, and more till it stands once in the text."""
    x, y = list(TOKEN.finditer(a)), list(TOKEN.finditer(b))
    tokens = [it[0] for it in x]
    same, rest = kept(tokens, [it[0] for it in y])
    while True:
        i, more = same - reach(tokens[:same][::-1], front), reach(tokens[len(x) - rest :], back)
        while True:
            j, k = len(x) - rest + more, len(y) - rest + more
            old, new = (line[at[i].start() : at[end - 1].end()] if i < end else "" for line, at, end in ((a, x, j), (b, y, k)))
            if i and tokens[i - 1] == "(" and max(unpaired(it, "(", ")") for it in (old, new)):
                i -= 1
            elif tokens[j : j + 1] == [")"] and max(unpaired(it[::-1], ")", "(") for it in (old, new)):
                more += 1
            else:
                break
        if old and text.count(old) == 1:
            return old, new
        if (i, j) == (0, len(x)):
            raise ValueError(f"'{old}' stands {text.count(old)} times")
        front, back = front + 1, back + 1


def read_off(root, where, plain, edited):
    """An edit's pairs, read off from the ported files without it and with it."""
    pairs, texts = [], {}
    for (file, n), (line, front, back) in where.items():
        a, b = plain[file], edited[file]
        if len(a) != len(b):
            raise ValueError(f"{file} was laid out anew")
        if line.startswith("use "):
            changed = [k for k in range(len(a)) if a[k] != b[k] and a[k].startswith("use ")]
        else:
            changed = [k for k in [lines_today(read(root, file).split("\n"), a).get(n)] if k is not None and a[k] != b[k]]
        if len(changed) != 1:
            raise ValueError(f"line {n + 1} of {file} is not one line today")
        text = texts.setdefault(file, "\n".join(a))
        pairs.append((file, *cut(a[changed[0]], b[changed[0]], front, back, text)))
        texts[file] = text.replace(*pairs[-1][1:])
    return pairs


def made(pairs, texts):
    """The files as an edit leaves them, or None where it doesn't fit."""
    after = {}
    for file, old, new in pairs:
        text = after.get(file) or "\n".join(texts[file])
        if text.count(old) != 1:
            return None
        after[file] = text.replace(old, new)
    return after


def bring_over(old, new, port):
    found = edits(old)
    todo = [{}, *rounds(old, found)]
    with ThreadPoolExecutor(2) as pool:
        plain, *others = pool.map(lambda edited: turned(old, port, edited), todo)
    for edited, files in zip(todo[1:], others):
        meant = {file for where in edited.values() for file, _ in where}
        for file in sorted(f for f in plain if plain[f] != files.get(f) and f not in meant):
            print(f"look: a round changed {file}, which none of its edits names")
        for path, where in edited.items():
            try:
                pairs = read_off(old, where, plain, files)
            except ValueError as why:
                print(f"by hand: {path}: {why}")
                continue
            if made(found[path], plain) == made(pairs, plain):
                pairs = found[path]
            head = [line for line in read(old, path).split("\n") if line and not line.startswith(("old:", "new:"))]
            write("\n".join([*head, *(f"old: {o}\nnew: {n}" for _, o, n in pairs)]) + "\n", new, path)
    print(f"{len(found)} edits in {len(todo) - 1} rounds")


def fits(root):
    """Lists each old text that doesn't stand once, and each name or sign of a new one that the file has not, nor what the edit imports."""
    found = edits(root)
    for path, pairs in found.items():
        texts = {}
        for file, old, new in pairs:
            text = texts.setdefault(file, read(root, file))
            if text.count(old) != 1 or old == new:
                print(f"{path}: '{old}' stands {text.count(old)} times")
            texts[file] = text.replace(old, new)
        for file, _, new in pairs:
            imports = "\n".join(line for line in texts[file].split("\n") if line.startswith("use "))
            known = set(re.findall(r"[^\s(){}\[\],;.:◌]+", COMMENT.sub("", read(root, file)) + imports.replace("◌", " ")))
            known |= set(NAME.findall(COMMENT.sub("", read(root, file))))
            for name in sorted(set(NAME.findall(new)) - known):
                if word(name) or file.endswith(".antt"):
                    print(f"{path}: '{name}' is new to {file}")
    print(f"{len(found)} edits looked at")


def main():
    if len(sys.argv) == 3 and sys.argv[1] == "--fits":
        fits(sys.argv[2])
    elif len(sys.argv) == 4:
        bring_over(*sys.argv[1:])
    else:
        sys.exit(__doc__)


main()
