#!/usr/bin/env python3
"""Brings the repository's own definitions, lemmas, fields and local names to today's spelling.

usage: python3 tools/respell.py            at the top of the repository, once, right after the kit's port.py
       python3 tools/respell.py --list     there, prints each old and new name, and which names would fall together

It rewrites files in place: specs/ and proofs/, the clauses of src/, and names between backticks in README.md and docs/.
It has been run (docs/PORT.md tells when), finds nothing more in the crates, and need not be run again.

A name in lower case gets `_` for each dash; a name that begins with a capital, which is a type, loses its dashes and gets a capital at each part.
Names that Rattle makes (goals, loops, steps) and names of the kit's library keep their dashes.
"""

import glob
import re
import sys

OWN = "Rattle.({}).".format("|".join(
    "board book books clock datapoint float house houseboard joined listing model moment octet points showroom text vectors whole".split()
))
WORD = re.compile(r"[^\s(){}\[\],;.@⟦⟧⌜⌝\"]+")
USE = re.compile(r"^\s*(?:pub )?(?:ghost )?use ([^\s{;]+?)\.?\{([^}]*)\}", re.M)
GOAL = re.compile(r"^\s*(?:abbrev )?(?:pub )?(\S+)\s*:\s*goal\.", re.M)
DECLARED = re.compile(r"^\s*(?:(?:pub|abbrev|unfoldable|record|data|ruleset)\s+)*([^\s(:{]+)(?:\s+[({][^\n]*)?\s*:", re.M)
BOUND = re.compile(r"\blet\s+([^\s:=(]+)|[(λ]\s*([^\s():]+-[^\s():]+)")


def code_of(line):
    """The part of a line of antt before its comment."""
    at = re.search(r"(^|\s)--(\s|$)", line)
    return (line[:at.start()], line[at.start():]) if at else (line, "")


def antt_files():
    return sorted(glob.glob("crates/*/specs/**/*.antt", recursive=True) + glob.glob("crates/*/proofs/**/*.antt", recursive=True))


def own_names():
    names, kits, goals = set(), set(), set()
    for path in antt_files():
        with open(path, encoding="utf-8") as f:
            text = "\n".join(code_of(line)[0] for line in f.read().split("\n"))
        for module, imported in USE.findall(text):
            if not re.match(OWN, module + "."):
                kits.update(n.strip().split(" as ")[0] for n in imported.split(","))
            else:
                names.update(n.strip().split(" as ")[1].strip() for n in imported.split(",") if re.search(r" as \S+-", n))
        goals.update(GOAL.findall(text))
        names.update(n for n in DECLARED.findall(text) if "-" in n)
        names.update(n for pair in BOUND.findall(text) for n in pair if "-" in n)
    return {n for n in names if re.fullmatch(r"[A-Za-z][\w'-]*", n)} - kits - goals


def respelled(name):
    parts = name.split("-")
    if name[0].isupper():
        return "".join(p[0].upper() + p[1:] for p in parts)
    return "_".join(parts)


def respell(text, new):
    """Each own name in the text, but a step that Rattle names, as `c.read-out`, stays."""

    def one(m):
        step = re.search(r"(?:^|[\s(])(?:c|l|w|goal)\.$", text[:m.start()])
        return m.group(0) if step else new.get(m.group(0), m.group(0))

    return WORD.sub(one, text)


def respell_antt(text, new):
    lines = []
    for line in text.split("\n"):
        code, comment = code_of(line)
        lines.append(respell(code, new) + re.sub(r"`([^`]+)`", lambda m: "`" + respell(m.group(1), new) + "`", comment))
    return "\n".join(lines)


def respell_clauses(text, new):
    """Ghost imports, clauses and ghost members of a source file."""
    lines = []
    for line in text.split("\n"):
        ghost = re.match(r"\s*(ghost|requires|ensures)\b", line)
        lines.append(respell(line, new) if ghost else line)
    return "\n".join(lines)


def respell_page(text, new):
    """What stands between backticks."""
    return re.sub(r"`([^`\n]+)`", lambda m: "`" + respell(m.group(1), new) + "`", text)


def main():
    names = own_names()
    new, port = {n: respelled(n) for n in names}, set()
    if "--list" in sys.argv[1:]:
        for n in sorted(names):
            same = [m for m in sorted(names) if m != n and new[m] == new[n]]
            print(n, new[n], *(["falls together with"] + same if same else []))
        return
    for path in antt_files():
        with open(path, encoding="utf-8") as f:
            port.update(n for n in DECLARED.findall(f.read()) if "_" in n)
    # Pages still have the dashes of names that port.py has turned.
    in_pages = {n.replace("_", "-"): n for n in port} | new
    pages = ["README.md"] + sorted(set(glob.glob("docs/*.md")) - {"docs/PORT.md"})
    for path in antt_files() + sorted(glob.glob("crates/*/src/**/*.rt", recursive=True)) + pages:
        with open(path, encoding="utf-8") as f:
            old = f.read()
        turn = {"antt": respell_antt, "rt": respell_clauses, "md": respell_page}[path.rsplit(".", 1)[1]]
        out = turn(old, in_pages if path.endswith(".md") else new)
        if out != old:
            with open(path, "w", encoding="utf-8") as f:
                f.write(out)


if __name__ == "__main__":
    main()
