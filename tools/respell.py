#!/usr/bin/env python3
"""Brings the names of definitions and lemmas to snake case: `kindOf` and `act-tests` become `kind_of` and `act_tests`.

usage: python3 tools/respell.py [--dry]      at the top of the repository, once, after port.py

A name is the repository's own where an .antt file of it declares it, and keeps its spelling where a file brings it in from a library. Names that
Rattle makes (answers to goals) stay. A lemma that would have the name of a definition gets `_lem`. A name after a dot that is a function of src/ is that
function's in a generated record, and follows it.
"""
import collections
import glob
import os
import re
import sys

CRATES = sorted(os.listdir("crates"))
TOKEN = re.compile(r"[^\s(){}\[\];,.:«»\"`|]+")
DECL = re.compile(r"^\s*(?:(?:abbrev|unfoldable|pub|private|opaque|let|in)\s+)*([^\s(){}\[\];,.:«»\"`|=]+) :(?= )(.*)$")
LET = re.compile(r"\blet ([^\s(){}\[\];,.:«»\"`|=]+) (?:=|:)")
USE = re.compile(r"^\s*(?:ghost |pub )*use ([^\s{;]+?)(?:\.\{([^}]*)\})?(?: as \S+)?;?\s*$", re.M)


def snake(n):
    n = re.sub(r"(?<=[a-z0-9])([A-Z])|(?<=[A-Z])([A-Z])(?=[a-z])", lambda m: "_" + m.group(0).lower(), n)
    return n.replace("-", "_")


def wants(n):
    return re.match(r"^[a-z]", n) and ("-" in n or re.match(r"^[a-z][A-Za-z0-9_'-]*[a-z0-9][A-Z]", n)) and not re.match(r"^[a-z]'*-$", n)


def files():
    return [p for k in ("specs", "proofs") for p in sorted(glob.glob(f"crates/*/{k}/**/*.antt", recursive=True))], sorted(glob.glob("crates/*/src/*.rt"))


def outside(text):
    """The names that a file brings in from a library."""
    found = set()
    for m in USE.finditer(text):
        if m.group(1).split(".")[:1] == ["Rattle"] and m.group(1).split(".")[1:2] and m.group(1).split(".")[1] in CRATES:
            continue
        for n in (m.group(2) or "").split(","):
            for w in n.replace(" as ", " ").split():
                found.add(w)
    return found


def functions():
    found = set()
    for p in glob.glob("crates/*/src/*.rt"):
        found |= set(re.findall(r"\bfn (\w+)", open(p, encoding="utf-8").read()))
    return found


def own(antts):
    names = collections.defaultdict(set)
    for p in antts:
        for line in open(p, encoding="utf-8"):
            if line.lstrip().startswith("--"):
                continue
            m = DECL.match(line)
            if m and not re.match(r"\s*(?:tie|goal|given)\.", m.group(2)) and wants(m.group(1)):
                names[m.group(1)].add(p)
            for n in LET.findall(line):
                if wants(n):
                    names[n].add(p)
    return names


def spelled(names, antts):
    """What each name becomes."""
    declared = set()
    for p in antts:
        for line in open(p, encoding="utf-8"):
            m = DECL.match(line)
            if m and "_" in m.group(1) and "-" not in m.group(1):
                declared.add(m.group(1))
    words = {n: snake(n) for n in names if "-" not in n}
    taken = set(words.values())
    to = dict(words)
    for n in names:
        if "-" in n:
            to[n] = snake(n) + ("_lem" if snake(n) in taken | declared else "")
    # a lemma that the port spelled so before
    for n in declared & taken:
        to[n] = n + "_lem"
    return to


def turned(text, to, kept, fields, antt):
    out = []
    for line in text.split("\n"):
        code, mark, note = line, "", ""
        at = re.search(r"(?:^|\s)--(?:\s|$)" if antt else r"//", line)
        if at:
            code, note = line[: at.start()], line[at.start():]

        def one(m):
            w = m.group(0)
            after_dot = m.start() > 0 and code[m.start() - 1] == "."
            if after_dot and snake(w.removesuffix("_lem")) in fields and (w.endswith("_lem") or "-" in w):
                return snake(w.removesuffix("_lem"))
            if after_dot and w in fields:
                return w
            return w if w in kept else to.get(w, w)

        if antt or '"' not in code:
            code = TOKEN.sub(one, code)
        note = re.sub(r"(?<![\w-])[a-z]\w*[a-z0-9][A-Z]\w*(?![\w-])", lambda m: m.group(0) if m.group(0) in kept else to.get(m.group(0), m.group(0)), note)
        out.append(code + note)
    return "\n".join(out)


def main():
    antts, rts = files()
    names = own(antts)
    to = spelled(names, antts)
    fields = functions()
    dry = "--dry" in sys.argv
    for p in antts + rts:
        text = open(p, encoding="utf-8").read()
        antt = p.endswith(".antt")
        kept = {n for n in outside(text) if n in to} | (set() if antt else fields)
        new = turned(text, to, kept, fields, antt)
        olds = collections.defaultdict(set)
        for n in set(TOKEN.findall(text)):
            olds[n if n in kept else to.get(n, n)].add(n)
        for n, falls in sorted(olds.items()):
            if len(falls) > 1:
                print(f"{p}: {' and '.join(sorted(falls))} fall together as {n}")
        if new != text and not dry:
            open(p, "w", encoding="utf-8").write(new)


main()
