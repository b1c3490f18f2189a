#!/usr/bin/env python3
"""Respells this repository's own definitions and lemmas as today's Rattle spells names: words in snake case, types in camel case.

usage: tools/respell-names.py            at the top of the repository, once, right after /opt/rattle/port/port.py

port.py respells the names that its library knows, and few of ours. This script takes every name that a file of specs/, or a lemma file of proofs/, declares
(definitions, lemmas, fields, constructors, local lemmas), and writes it in snake case wherever it stands: in specs/ and proofs/, in the clauses and ghost
imports of src/, and between backquotes in comments and pages. Names of functions of src/, strings, inputs and outputs stay. A name of ours that the kit's
library declares too keeps its dash, since a text may mean the library's. Where a lemma would meet a definition, it gets `_lem`. It prints what it renamed.
"""
import collections
import glob
import os
import re
import sys

KIT = "/opt/rattle/rattle"
IDENT = r"[^\s(){}\[\];,.:=→λ]+"
DECLARED = re.compile(rf"(\s*)((?:abbrev |unfoldable |pub |record |data |syntax |ruleset )*)({IDENT})((?:\s+[({{].*?)?)\s+:\s")
# names that only these words tell apart
GIVEN = {"Played-here": "PlayedHere"}
# lemmas and local lemmas that port.py left with the name that a definition of ours gets here
LEMMAS = ["address_word", "line_after", "no_other"]


def declared(paths):
    found = collections.defaultdict(set)
    for path in paths:
        with open(path, encoding="utf-8", errors="replace") as f:
            for line in f:
                m = DECLARED.match(line)
                if m and not line.lstrip().startswith("--"):
                    found[m[3]].add("abbrev" in m[2] or "unfoldable" in m[2])
    return found


def kit():
    for folder, _, files in os.walk(KIT):
        for f in files:
            if f.endswith((".antt", ".rt")):
                yield os.path.join(folder, f)


def snake(name):
    return re.sub(r"(?<=[a-z0-9])[A-Z]", lambda m: "_" + m[0], name).replace("-", "_").lower()


def renaming():
    ours = [p for p in glob.glob("crates/*/specs/**/*.antt", recursive=True)]
    ours += glob.glob("crates/*/proofs/*.antt")
    names, known = declared(ours), declared(kit())
    to = dict(GIVEN)
    # what port.py respelled, for the pages that still have the older spelling
    pages = {n: n for n in names if re.fullmatch(r"[a-z]\w*_\w+", n)}
    functions = {snake(n) for n, kinds in names.items() if re.match("[a-z]", n) and True in kinds and "-" not in n}
    for n, kinds in names.items():
        if not re.match("[a-z]", n) or n in known and "-" in n:
            continue
        if re.search(r"[a-z0-9][A-Z]", n) and "-" not in n:
            to[n] = snake(n)
        elif "-" in n:
            s = snake(n)
            to[n] = s + "_lem" if s in functions and True not in kinds else s
    return to, pages


TOKEN = re.compile(r"[^\s(){}\[\];,.:=`→λ\"]+")


def respell(text, to):
    return TOKEN.sub(lambda m: to.get(m[0], m[0]), text)


def md(text, to, pages):
    return re.sub(r"`[^`\n]*`", lambda m: TOKEN.sub(lambda t: to.get(t[0]) or (pages.get(snake(t[0]), t[0]) if t[0][0].islower() else t[0]), m[0]), text)


def in_backquotes(text, to):
    return re.sub(r"`[^`\n]*`", lambda m: respell(m[0], to), text)


def antt(text, to):
    return "".join(in_backquotes(line, to) if line.lstrip().startswith("--") else respell(line, to) for line in text.splitlines(True))


def rt(text, to):
    out = []
    for line in text.splitlines(True):
        if line.lstrip().startswith("//"):
            out.append(in_backquotes(line, to))
            continue
        parts = re.split(r"(\"(?:[^\"\\]|\\.)*\")", line)
        out.append("".join(x if x.startswith('"') else respell(x, to) for x in parts))
    return "".join(out)


TURNS = {".antt": antt, ".rt": rt, ".md": md, ".py": respell}


def main():
    to, pages = renaming()
    lemmas = {n: n + "_lem" for n in LEMMAS}
    for folder, dirs, files in os.walk("."):
        dirs[:] = [d for d in dirs if d not in ("out", "target", ".git")]
        for f in files:
            path = os.path.join(folder, f)
            turn = next((t for ending, t in TURNS.items() if f.endswith(ending)), None)
            if f.endswith(".py") and not folder.startswith("./crates"):
                continue
            if not turn or os.path.islink(path):
                continue
            with open(path, encoding="utf-8") as g:
                text = g.read()
            names = {**lemmas, **to} if re.search(r"/proofs/[^/]*\.antt$", path) else to
            new = turn(text, names, pages) if turn is md else turn(text, names)
            if new != text:
                with open(path, "w", encoding="utf-8") as g:
                    g.write(new)
    for n in sorted(to):
        print(f"{n} {to[n]}")


if __name__ == "__main__":
    main()
