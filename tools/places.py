#!/usr/bin/env python3
"""Counts the places of each point of docs/DESIGN-PASS.md.

usage: python3 tools/places.py [ROOT [POINT]]    ROOT holds crates/ (default: the folder above this script), POINT is 1 to 8 (default: all)

Prints `point crate/file:line kind: what` for each place, then how many of each kind and of each point. These are candidates; the page says how each was read.
"""

import difflib
import glob
import itertools
import os
import re
import sys
from collections import Counter, defaultdict, namedtuple

Function = namedtuple("Function", "file line name params result clauses body")
Struct = namedtuple("Struct", "file line name fields")
Const = namedtuple("Const", "file line name value public")

FN = re.compile(r'^(\s*)(?:pub(?:\(\w+\))? )?(?:const )?(?:unsafe )?(?:extern "C" )?fn (\w+)')
CONST = re.compile(r"^\s*(pub(?:\(\w+\))? )?const (\w+): \w+ = (.*);")
STRUCT = re.compile(r"^(?:pub )?struct (\w+)[^({;]*\{")
KEYWORDS = set("as break const continue else false fn for if in let loop match mut pub return struct true while".split())
UPPER = r"[A-Z][A-Z0-9_]+"
# Constants that are sizes, limits and offsets, and no kind, refusal, letter or relation.
SIZE = re.compile(r".*(?:_BYTES|_AT|_LAST|_AREA)$|MOST_|CAPACITY|PLACES|TOP_EPOCH|ROOM|LONG")
CODED = "kind|harm|word|relation|table|field|opener|told|answer|want|wanted"
# A lemma or helper: not an answer, an invariant or a measure.
DECLARED = re.compile(r"^\s*(?:(?:abbrev|unfoldable|pub) )*(?:(?:record|data) )?([A-Za-z_][\w'+*≡≤<-]*) :(?: (.*))?$")
NAME = re.compile(r"[A-Za-z_][\w'+*≡≤<-]*")
# What a line defines, which is no citation.
DEFINED = re.compile(r"^\s*(?:(?:abbrev|unfoldable|pub|record|data) )*[A-Za-z_][\w'+*≡≤<-]*(?= :(?: |$)| =(?: |$)| [^:∙]* =(?: |$))")
TRIVIAL = re.compile(r"refl|omega arith|search rules|rw \S+|c\.[\w.-]+|\(omega arith, refl\)|\(zero-le, refl\)")

LINES = {
    1: [
        ("none by a number", r"\bPlace\((?:end|size)\)|\bno_fields\(\)|\bif \w+\.count < \w+\.0|\bif \w+\.0 <= \w+\.count|\bblock\.0 == 0|\bif 0 < p\b|, (?:kept|sought): u32|\.count == 0"),
        ("an answer made by hand", r"\b(?:refused|passed_over|handed)\(Answer::|\brefused\(\)|\banswer: Answer::"),
        ("an answer or a flag asked by hand", r"\bis_taken\(|\banswer == TAKEN|\btold == 0|\bif !\w+\.more|\.closed\b"),
    ],
    4: [
        ("a field copied before use", r"^\s*let \w+ = [a-z_]\w*(?:\[[^\]]*\]|\.\w+)*\.\w+;"),
        ("an element copied before use", r"^\s*let \w+ = [a-z_][\w.]*\[\w+(?: as usize)?\];"),
        ("a number copied as an index", r"^\s*let \w+ = \(?[\w.]+(?: % \w+\))? as usize;"),
        ("a field named twice", r"\b(\w+): \1\b,"),
        ("x = x & y", r"^\s*(\w+) = \1 [&|+*-] "),
        ("numbers of two counts compared", r"\.0 (?:<|<=|==|!=|%) (?:\w+\.)*\w+\.0\b"),
        ("fields compared one by one", r"\((\w)\.\w+(?:\.0)? == \w\.\w+(?:\.0)?\)|\b(\w+) == \2_too"),
        ("elements compared or copied one by one", r"\w+(?:\[[^\]]+\])(?:\.0)? (?:==|!=) \w+\[|^\s*\w+\[[^\]]+\] = \w+\[[^\]]+\](?: != 0)?;"),
        ("a byte by a power of 256", r"(?:\* (?:second|third|fourth)\b|low_byte\(|(?:SECOND|THIRD|FOURTH)_BYTE \*)"),
    ],
}
SHAPES = {
    "a conversion of its own": re.compile(r"\(?\w+(?: % #)?\)? as (?:u8|u32|u64|usize)"),
    "the lesser, the greater or a limit by hand": re.compile(r"(?:let [^;]*; )*if (\S+) <=? (\S+) \{ (?:return )?(?:\S+)(?: \+ 1)?(?: as \w+)?;? \} (?:else \{ )?\S+(?: as \w+)?(?: \+ 1)?(?: \})?"),
    "one of two by a test": re.compile(r"if [\w.]+ \{ (?:return )?(?:true|[\w.]+|#|\d+)(?: as \w+)?;? \} (?:else \{ )?[\w.()]+(?: \})?"),
}


def functions(file, lines):
    """The functions of a file, comments apart."""
    k = 0
    while k < len(lines):
        m = FN.match(lines[k])
        if not m:
            k += 1
            continue
        start, edge = k, m.group(1)
        while not (lines[k].rstrip().endswith("{") and re.match(edge + r"\S", lines[k])) and not lines[k].endswith(";"):
            k += 1
        head = " ".join(line.strip() for line in lines[start : k + 1])
        first = k = k + 1
        while k < len(lines) and not lines[k].startswith(edge + "}"):
            k += 1
        body = [(n + 1, lines[n]) for n in range(first, k) if lines[n].strip()]
        clauses = [t.rsplit("}", 1)[0].strip() for t in re.split(r"\b(?:requires|ensures)(?: \w+)? \{", head)[1:]]
        head = re.split(r"\b(?:requires|ensures)\b", head)[0]
        inside, result = signature(head)
        params = [tuple(p.removeprefix("mut ").split(": ", 1)) for p in split(inside, ",") if ": " in p]
        yield Function(file, start + 1, m.group(2), params, result, clauses, body)


def signature(head):
    """The parameters and the result in a function's head."""
    depth, start = 0, None
    for k, c in enumerate(head):
        depth += (c == "<") - (c == ">" and head[k - 1] != "-")
        if c == "(" and depth == 0:
            start = k
            break
    for k in range(start, len(head)):
        depth += (head[k] == "(") - (head[k] == ")")
        if depth == 0:
            return head[start + 1 : k], head[k + 1 :].strip(" ->{;")


def split(text, mark):
    """Parts of a text between marks that no bracket encloses."""
    depth, parts = 0, [""]
    for c in text:
        depth += (c in "([{") - (c in ")]}")
        if c == mark and depth == 0:
            parts.append("")
        else:
            parts[-1] += c
    return [p.strip() for p in parts if p.strip()]


def structs(file, lines):
    for k, line in enumerate(lines):
        m = STRUCT.match(line)
        if m:
            end = next(j for j in range(k, len(lines)) if lines[j].startswith("}"))
            fields = [re.match(r"\s*(?:pub )?(\w+): (.*),$", x) for x in lines[k + 1 : end]]
            yield Struct(file, k + 1, m.group(1), [f.groups() for f in fields if f])


def form(f):
    """A function up to the names and numbers in it."""
    seen, out = {}, []
    head = " ".join(f"{n} : {t}" for n, t in f.params) + " -> " + f.result
    for token in re.findall(r"\w+|[^\w\s]", head + " " + " ".join(t for _, t in f.body)):
        if re.fullmatch(r"\d\w*|" + UPPER, token):
            token = "#"
        elif re.match(r"\w", token) and token not in KEYWORDS:
            token = seen.setdefault(token, f"v{len(seen)}")
        out.append(token)
    return out


def full(f):
    return f"{f.file.split('/')[0]}::{f.name}"


def bare(kind):
    """A type without its reference."""
    return re.sub(r"^&(?:'\w+ )?(?:mut )?", "", kind)


def typed(fact, f):
    """A part of a clause with types in place of the function's parameters, so that it is one fact whatever they are called."""
    while fact.startswith("(") and closes(fact):
        fact = fact[1:-1]
    fact = re.sub(r"\.(?:old|now|new)\b", "", re.sub(r"\+ \d+", "+ #", fact))
    for name, kind in f.params:
        fact = re.sub(rf"(?<![\w.]){name}(?![\w'])", bare(kind), fact)
    return fact


def closes(text):
    """Is a text in one pair of brackets."""
    depth = 0
    for k, c in enumerate(text):
        depth += (c == "(") - (c == ")")
        if depth == 0:
            return k == len(text) - 1


def body_text(f):
    return re.sub(UPPER, "#", " ".join(t.strip() for _, t in f.body))


def loops(f):
    """The loops of a function: (line, head, body)."""
    for n, text in f.body:
        m = re.match(r"(\s*)((?:while|loop|for)\b.*)\{$", text)
        if m:
            inside = [t for k, t in f.body if k > n]
            yield n, m.group(2).strip(), list(itertools.takewhile(lambda t: not t.startswith(m.group(1) + "}"), inside))


def point_1(src):
    for s in src.structs:
        flags = [n for n, t in s.fields if t in ("bool", "Answer")]
        if flags and len(s.fields) > 1:
            yield s.file, s.line, "flag or answer beside values", f"{s.name}.{', '.join(flags)}"
        for n, t in s.fields:
            if re.fullmatch(CODED, n) and re.fullmatch(r"u\d+", t):
                yield s.file, s.line, "number in a signature", f"{s.name}.{n}: {t}"
    for f in src.functions:
        for n, t in f.params:
            if re.fullmatch(CODED, n) and re.fullmatch(r"u\d+", t):
                yield f.file, f.line, "number in a signature", f"{f.name}({n}: {t})"
    for c in src.consts:
        if SIZE.match(c.name) or not re.fullmatch(r"\d\w*|b'.*'|UNIT|\d+ \* (?:UNIT|65536)|\w+ as u8", c.value):
            continue
        used = re.compile(rf"(?:[!=]= |=> |return |\.\.=|\| |^ *)\b{c.name}\b|\b{c.name}(?: =>|\.\.=| \||\n)")
        if any(used.search(t) for f in src.functions if c.public or f.file == c.file for _, t in f.body):
            yield c.file, c.line, "number for a kind, refusal, letter or relation", f"{c.name} = {c.value}"


def point_2(src):
    forms = defaultdict(list)
    for f in src.functions:
        if f.body:
            forms[" ".join(form(f))].append(f)
    for group in forms.values():
        for f in group if len(group) > 1 else []:
            yield f.file, f.line, "functions equal up to names and numbers", f"{f.name} ({len(group)}: {', '.join(sorted(map(full, group)))})"
    alone = [(f.split(), g[0]) for f, g in forms.items() if 35 <= len(f.split())]
    for (a, f), (b, g) in itertools.combinations(alone, 2):
        match = difflib.SequenceMatcher(None, a, b, autojunk=False)
        if match.real_quick_ratio() > 0.86 and match.quick_ratio() > 0.86 and match.ratio() > 0.86:
            yield f.file, f.line, "functions nearly equal", f"{f.name} and {full(g)}"
    for what, items, key in (
        ("functions of one name", src.functions, lambda x: x.name),
        ("constants of one name", src.consts, lambda x: x.name),
        ("constants of one value", [c for c in src.consts if len(c.value) > 3 and c.value.isdigit()], lambda x: x.value),
        ("structs of one form", src.structs, lambda x: str([t for _, t in x.fields if t not in ("State", "Hall")])),
    ):
        groups = defaultdict(list)
        for x in items:
            groups[key(x)].append(x)
        for k, group in groups.items():
            if len(group) > 1 and k != "main":
                for x in group:
                    yield x.file, x.line, what, f"{x.name} ({len(group)})"


def point_3(src):
    for f in src.functions:
        for n, head, inside in loops(f):
            indexed = any(re.search(r"\w\[|\.\w+\[| as usize", t) for t in inside)
            if head.startswith(("while", "loop")):
                yield f.file, n, "while or loop" + (" that indexes" if indexed else ""), f"{f.name}: {head}"
            elif re.match(r"for .+ in [^\[]*\.\.", head):
                yield f.file, n, "for over a range" + (" that indexes" if indexed else ""), f"{f.name}: {head}"


def point_4(src):
    for f in src.functions:
        text = body_text(f)
        for what, shape in SHAPES.items():
            if shape.fullmatch(text):
                yield f.file, f.line, what, f.name
        refusals = sum(bool(re.search(r"^\s*return (?:false|true);", t)) for _, t in f.body)
        if refusals > 1:
            yield f.file, f.line, "a conjunction by early returns", f"{f.name} ({refusals} returns)"
    for file, n, line in src.lines:
        m = re.match(r"#\[derive\((.*)\)\]", line)
        if m and "PartialEq" not in m.group(1):
            yield file, n, "a type without derived equality", m.group(1)


def point_5(src):
    facts = defaultdict(list)
    for f in src.functions:
        for fact in {typed(p, f) for c in f.clauses for p in split(c, "×")}:
            facts[fact].append(f)
    for fact, group in sorted(facts.items()):
        for f in group if len(group) > 2 else []:
            yield f.file, f.line, "a fact of three or more contracts", f"{f.name}: {fact} ({len(group)})"
    for crate, group in itertools.groupby(sorted(src.functions, key=lambda f: f.file), lambda f: f.file.split("/")[0]):
        sets = [(f, frozenset((n, bare(t)) for n, t in f.params if not t.lstrip("&mut ").startswith("impl"))) for f in group]
        shared = {a & b for (_, a), (_, b) in itertools.combinations(sets, 2) if len(a & b) > 1}
        support = {g: [f for f, s in sets if g <= s] for g in shared}
        for g in sorted(shared, key=lambda g: (-len(g), sorted(g))):
            if len(support[g]) > 2 and not any(g < h and len(support[h]) == len(support[g]) for h in shared):
                yield support[g][0].file, support[g][0].line, "parameters that travel together", f"{', '.join(f'{n}: {t}' for n, t in sorted(g))} in {', '.join(f.name for f in support[g])}"


def point_6(src):
    for s in src.structs:
        arrays = [(n, t) for n, t in s.fields if t.startswith("[")]
        if arrays and any(re.fullmatch(r"u32|usize", t) and n in ("n", "count", "size", "length", "commas") for n, t in s.fields):
            yield s.file, s.line, "an array with a number beside it", s.name
        if len({t.rsplit(";")[-1] for _, t in arrays}) < len(arrays):
            yield s.file, s.line, "parallel arrays", f"{s.name}: {', '.join(n for n, _ in arrays)}"
    for f in src.functions:
        arrays = [(n, bare(t)) for n, t in f.params if bare(t).startswith("[") and ";" in t]
        if len({t.rsplit(";")[-1] for _, t in arrays}) < len(arrays) and len({t for _, t in arrays}) > 1:
            yield f.file, f.line, "parallel arrays", f"{f.name}({', '.join(n for n, _ in arrays)})"
        buffers = [n for n, t in f.params if re.search(r"\[u8", t)]
        places = [n for n, t in f.params if t == "usize"]
        if buffers and places:
            yield f.file, f.line, "a buffer with an index or a length beside it", f"{f.name}({', '.join(buffers + places)})"
        own = [m.group(1) for _, t in f.body for m in [re.match(r"\s*let mut (\w+)(?:: [^=]*)? = \[", t)] if m]
        for n, t in f.body:
            m = re.search(r"&(?:mut )?(\w+)\[(?:0)?\.\.(\w+)\]", t)
            if m and m.group(1) in own + buffers:
                yield f.file, n, "a buffer with an index or a length beside it", f"{f.name}: {m.group(0)}"
        for n, head, inside in loops(f):
            if any(re.match(r"\s*return\b", t) for t in inside):
                yield f.file, n, "a search by hand", f"{f.name}: {head}"
        for n, t in f.body:
            if re.search(r"\b(?:lower|lower_at|parent_row)\(", t):
                yield f.file, n, "a walk or a step by index", f"{f.name}: {t.strip()}"


def point_7(src):
    for f in src.functions:
        chain = Counter(m.group(1) for _, t in f.body for m in [re.match(rf"\s*(?:\}} else )?if ([\w.]+) (?:==|<|<=) {UPPER}\b", t)] if m)
        for name, count in chain.items():
            if count > 1:
                yield f.file, f.line, "tests of one number against constants", f"{f.name}: {name} ({count})"
        arms = [n for n, t in f.body if re.match(rf"\s*(?:{UPPER}|b'.+'|\d+)(?:(?: \| |\.\.=)(?:{UPPER}|b'.+'|\d+))* =>", t)]
        for n, t in f.body:
            if re.match(r".*\bmatch \w+ \{", t):
                yield f.file, n, "match over constants" if arms else "match over an enum", f"{f.name}: {t.strip()} ({len(arms)} arms)"
        guards = sum(bool(re.match(r"\s*return \w*(?:refused|handed|passed_over)\(", t)) for _, t in f.body)
        if guards > 1:
            yield f.file, f.line, "rows one after the other", f"{f.name} ({guards} refusals)"


def point_8(src):
    entries, repeated, helpers, stated = (defaultdict(list) for _ in range(4))
    cited = Counter(w for text in src.words for line in text.split("\n") for w in NAME.findall(DEFINED.sub("", line)))
    for file, lines in src.proofs:
        of_function = file.endswith(("Answers.antt", "Invariants.antt"))
        own = {n for t in lines for m in [re.match(r"use Rattle\.(?!std\.)[^{]*\.\{(.*)\}", t)] if m for n in NAME.findall(m.group(1))}
        own |= {m.group(1) for t in lines for m in [DECLARED.match(t)] if m}
        for k, line in enumerate(lines):
            if len(line.strip()) > 24 and not line.startswith(("use ", "--")) and not re.search(r": goal\.| : ", line):
                repeated[line.strip()].append((file, k + 1))
            m = DECLARED.match(line)
            if not m:
                continue
            name, goal = m.group(1), m.group(2) or ""
            if goal.startswith(("goal.", "tie.")):
                after = list(itertools.takewhile(lambda t: t.strip(), lines[k + 1 :]))
                body = " ".join(t.strip() for t in after if not t.startswith("unfolding")).partition(" = ")[2]
                yield file, k + 1, "an answer of a function" if file.endswith("Answers.antt") else "an invariant or a measure", name
                if file.endswith("Answers.antt") and TRIVIAL.fullmatch(body):
                    yield file, k + 1, "an answer that is one step", f"{name} = {body}"
                if len(body) > 30:
                    entries[body].append((file, k + 1, name))
            elif of_function:
                helpers[name].append((file, k + 1))
                yield file, k + 1, "a helper in a function's folder", name
            elif not cited[name]:
                yield file, k + 1, "a name that nothing cites", name
            if not line.startswith(" ") and not of_function and re.search(r"→[^→]*[≡≤<⊥⊎]", goal) and not (own | {"Post"}) & set(NAME.findall(goal)):
                yield file, k + 1, "a lemma on the library's terms alone", f"{name} : {goal}"
            if not of_function and re.search(r"[≡≤<⊥⊎]", goal):
                stated[goal].append((file, k + 1, name))
    for what, groups in (("a helper of three or more folders", helpers), ("a line of three or more files", repeated)):
        for text, group in groups.items():
            if len({f for f, _ in group}) > 2:
                for file, n in group:
                    yield file, n, what, f"{text[:100]} ({len(group)})"
    for what, groups in (("an answer given twice", entries), ("a lemma stated twice", stated)):
        for group in groups.values():
            if len({f for f, _, _ in group}) > 1:
                for file, n, name in group:
                    yield file, n, what, f"{name} ({len(group)})"


class Source:
    def __init__(self, root):
        self.functions, self.structs, self.consts, self.lines, self.proofs, self.words = [], [], [], [], [], []
        for path in sorted(glob.glob(os.path.join(root, "crates/*/src/**/*.rt"), recursive=True)):
            file = os.path.relpath(path, os.path.join(root, "crates")).replace("/src/", "/")
            lines = [re.sub(r"(?:^|\s)//.*$", "", t) for t in read(path).split("\n")]
            self.lines += [(file, n + 1, t) for n, t in enumerate(lines)]
            self.functions += functions(file, lines)
            self.structs += structs(file, lines)
            self.consts += [Const(file, n + 1, m.group(2), m.group(3), bool(m.group(1))) for n, t in enumerate(lines) for m in [CONST.match(t)] if m]
            self.words.append("\n".join(lines))
        for folder in ("proofs", "specs"):
            for path in sorted(glob.glob(os.path.join(root, f"crates/*/{folder}/**/*.antt"), recursive=True)):
                text = read(path)
                self.words.append(re.sub(r"(?m)^\s*--.*$", "", text))
                if folder == "proofs":
                    self.proofs.append((os.path.relpath(path, os.path.join(root, "crates")), text.split("\n")))
        for path in glob.glob(os.path.join(root, "docs/*.md")) + [os.path.join(root, "README.md")]:
            self.words.append(read(path))


def read(path):
    with open(path, encoding="utf-8") as f:
        return f.read()


def main():
    root = sys.argv[1] if len(sys.argv) > 1 else os.path.join(os.path.dirname(os.path.abspath(__file__)), "..")
    src, counts = Source(root), []
    for point, of_point in enumerate((point_1, point_2, point_3, point_4, point_5, point_6, point_7, point_8), 1):
        if len(sys.argv) > 2 and sys.argv[2] != str(point):
            continue
        found = list(of_point(src))
        for kind, pattern in LINES.get(point, []):
            found += [(f.file, n, kind, f"{f.name}: {t.strip()}") for f in src.functions for n, t in f.body if re.search(pattern, t)]
        found.sort(key=lambda p: p[2])
        for file, n, kind, what in found:
            print(f"{point} {file}:{n} {kind}: {what}")
        counts += [f"point {point}, {kind}: {count}" for kind, count in sorted(Counter(p[2] for p in found).items())] + [f"point {point}: {len(found)}"]
    print("\n".join(counts))


if __name__ == "__main__":
    main()
