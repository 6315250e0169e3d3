#!/usr/bin/env python3
"""Lists the places in crates/*/src where the code has an older form than today's Rattle allows.

    python3 tools/places.py        counts, by point
    python3 tools/places.py 3      the places of point 3, one a line

What it finds are places to read: docs/DESIGN-PASS.md says of each whether it was changed or is kept.
"""
import collections
import glob
import itertools
import re
import sys

POINTS = {
    1: "own enums like Option or Result, flags beside values, numbers for kinds, None and Err passed on by hand",
    2: "functions that differ only in names and constants",
    3: "loops that count by hand",
    4: "casts, types without a derived equality and Debug, printing by hand",
    5: "clauses in three functions or more, parameters that travel together",
    6: "buffers with a length beside them",
    7: "runs of calls that differ in one argument",
    8: "proof files: answers and invariants, and files of lemmas",
}
FILES = sorted(glob.glob("crates/*/src/**/*.rt", recursive=True))
FN = re.compile(r"^( *)(?:pub(?:\(crate\))? )?(?:const )?fn (\w+)", re.M)


def code(path):
    return re.sub(r"//[^\n]*", "", open(path).read())


def functions(text):
    """Each function with a body: its name, its parameters, its clauses and its body."""
    for m in FN.finditer(text):
        end = text.find("\n" + m.group(1) + "}\n", m.start())
        semi = text.find(";\n", m.start())
        start = text.find("{\n", m.start())
        if end < 0 or (0 < semi < start and "{" not in text[m.start():semi]):
            continue
        whole = text[m.start():end]
        head, _, body = whole.partition("\n" + m.group(1) + "{\n")
        if not body:
            head, _, body = whole.partition("{\n")
        params = head[head.find("("):].split("->")[0]
        yield m.group(2), params, body, text[:m.start()].count("\n") + 1


def lines(pattern):
    for f in FILES:
        text = code(f)
        for m in re.finditer(pattern, text, re.M):
            yield f"{f}:{text[:m.start()].count(chr(10)) + 1}: {m.group(0).strip()}"


def like_option():
    for f in FILES:
        for m in re.finditer(r"enum (\w+) \{\n(.*?)\n\}", code(f), re.S):
            variants = [v.strip() for v in m.group(2).split(",\n") if v.strip(" \n,")]
            empty = [v for v in variants if re.fullmatch(r"\w+,?", v)]
            if len(variants) <= 3 and len(empty) >= 1 and (len(empty) < len(variants) or len(variants) == 3):
                yield f"{f}: enum {m.group(1)} {{ {', '.join(variants)} }}"


def shape(body):
    """The body with each name replaced by the place where it first stands."""
    names = {}
    tokens = re.findall(r"[A-Za-z_]\w*|\d[\w.]*|\S", body)
    keep = {"match", "if", "else", "for", "in", "while", "loop", "let", "mut", "return", "self", "Ok", "Err", "Some", "None"}
    out = []
    for t in tokens:
        if re.match(r"[A-Za-z_]", t) and t not in keep:
            t = f"n{names.setdefault(t, len(names))}"
        elif t[0].isdigit():
            t = "#"
        out.append(t)
    return " ".join(out)


def twins():
    by_shape = collections.defaultdict(list)
    for f in FILES:
        if f.endswith("facts.rt"):
            continue
        for name, _, body, line in functions(code(f)):
            s = shape(body)
            if s.count(" ") >= 12:
                by_shape[s].append(f"{f}:{line} {name}")
    for found in by_shape.values():
        if len(found) > 1:
            yield " = ".join(found)


def clauses():
    seen = collections.defaultdict(list)
    for f in FILES:
        if f.endswith("facts.rt"):
            continue
        for m in re.finditer(r"^\s*(requires|ensures)\*?\s*\w*\s*\{(.*)\}\s*$", code(f), re.M):
            seen[" ".join(m.group(2).split())].append(f)
            for part in re.findall(r"\w+\.old\.\w+ \+ ", m.group(2)):
                if m.group(1) == "requires":
                    seen["requires room: " + part].append(f)
    for clause, where in seen.items():
        if len(where) >= 3:
            yield f"{len(where)} times: {clause}"


def together():
    seen = collections.defaultdict(list)
    for f in FILES:
        for name, params, _, _ in functions(code(f)):
            ps = [p.strip() for p in params.strip("() \n").split(",") if ":" in p]
            for pair in itertools.combinations(ps, 2):
                seen[(f.split("/")[1],) + pair].append(name)
    for (crate, a, b), names in seen.items():
        if len(names) >= 3 and not {"read", "write"} >= set(names):
            yield f"{crate}: {a}, {b}: {' '.join(names)}"


def runs():
    for f in FILES:
        for name, _, body, line in functions(code(f)):
            calls = re.findall(r"^\s*(\w+)\(", body, re.M)
            for call, n in collections.Counter(calls).items():
                if n >= 4:
                    yield f"{f}:{line} {name} calls {call} {n} times"


def places(point):
    if point == 1:
        yield from like_option()
        yield from lines(r"^\s*(pub )?fn \w+\(&mut self[^)]*\) -> bool|^    \) -> bool")
        yield from lines(r"\b(cause|kind|refusal|status): u\d+")
        yield from lines(r"None => (return )?Err\(.*|Err\(\w+\) => (return )?Err\(.*|None => unreachable.*|\.is_(none|err)\(\)")
    elif point == 2:
        yield from twins()
    elif point == 3:
        yield from lines(r"^\s*(while|loop)\b.*|^\s*for \w+ in \(?0\.\..*|^\s*for .*enumerate\(\).*|^.*\+= 1;")
    elif point == 4:
        yield from lines(r".*\b as (u|i)(8|16|32|64|size)\b.*")
        for f in FILES:
            for m in re.finditer(r"((?:#\[.*\]\n)*)pub (struct|enum) (\w+)", code(f)):
                if "PartialEq" not in m.group(1) or "Debug" not in m.group(1):
                    yield f"{f}: {m.group(2)} {m.group(3)} {m.group(1).strip()}"
        yield from lines(r"^.*b'0' \+.*|^.*:03\}.*")
    elif point == 5:
        yield from clauses()
        yield from together()
    elif point == 6:
        yield from lines(r"^\s*\w+: \[\w+; \w+\],\n\s*len: usize|^\s*count: usize,\n\s*\w+: \[\w+; \w+\]")
        yield from lines(r"^\s*let mut \w+ = \[\w+; \w+\];")
    elif point == 7:
        yield from runs()
    elif point == 8:
        for kind in ("Answers", "Invariants", "Proof"):
            yield from sorted(glob.glob(f"crates/*/proofs/**/{kind}.antt", recursive=True))
        yield from (p for p in sorted(glob.glob("crates/*/proofs/*.antt")) if not p.endswith("Lib.antt"))


def main():
    if len(sys.argv) > 1:
        print("\n".join(places(int(sys.argv[1]))))
        return
    for point, what in POINTS.items():
        print(f"{point}  {len(list(places(point))):3}  {what}")


main()
