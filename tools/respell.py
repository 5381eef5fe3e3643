#!/usr/bin/env python3
"""Respells the repository's own definitions and lemmas: words in snake case, types in camel case.

usage: python3 tools/respell.py      once, at the top, after the kit's own script for an older repository

The names are those that specs/ and proofs/ declare: definitions, lemmas, fields, constructors, and what a signature or a `where` binds.
A name that an import brings from another library keeps its spelling, and so does each name that Rattle makes of a function's code
(those stand in proofs/F/, where only the names of the other files are respelled). Rust's own names have no dash and stay.
It prints each name with its new spelling, and stops before it writes anything where two names would fall together.
"""

import glob
import os
import re
import sys

WORD = r"[A-Za-z][\w'ᵢ]*(?:-[\w'ᵢ]+)*"
OF_CODE = ("Answers.antt", "Invariants.antt", "Proof.antt")
KIND = r"(?:(?:abbrev|unfoldable|pub|data|record)\s+)*"
DECLARED = re.compile(rf"^\s*{KIND}((?:{WORD}\s+)*{WORD})\s*(?:(?:\([^()]*(?:\([^()]*\)[^()]*)*\)|\{{[^{{}}]*\}})\s*)*:(?!:)\s*(.*)$")
BOUND = re.compile(rf"[({{]((?:{WORD}\s+)*{WORD})\s*:(?!:)")
ALIAS = re.compile(rf"\bas\s+({WORD})")
IMPORT = re.compile(r"^\s*(?:ghost\s+)?use\s+(\S+?)\.\{(.*)\};?\s*$")


def own_crates():
    return {os.path.basename(p) for p in glob.glob("crates/*")}


def names_of(path, crates, found, borrowed):
    of_code = os.path.basename(path) in OF_CODE
    for line in open(path, encoding="utf-8"):
        if line.lstrip().startswith(("--", "//")):
            continue
        if m := IMPORT.match(line):
            part = m[1].split(".")
            ours = part[0] == "Rattle" and part[1] in crates
            for item in m[2].split(","):
                word = item.strip().split(" as ")
                if not ours:
                    borrowed.add(word[0])
                if len(word) == 2:
                    found.add(word[1])
            continue
        if line.lstrip().startswith("use "):
            found.update(ALIAS.findall(line))
            continue
        if m := DECLARED.match(line):
            if not (of_code and re.match(r"(goal|given|need)\.", m[2])):
                found.update(m[1].split())
        if not of_code:
            for m in BOUND.finditer(line):
                found.update(m[1].split())


def respelled(name):
    if name[0].isupper():
        return "".join(p[0].upper() + p[1:] for p in name.split("-"))
    return name.replace("-", "_")


def main():
    if not os.path.isdir("crates"):
        sys.exit("respell: no crates/ here")
    crates = own_crates()
    antt = sorted(glob.glob("crates/*/specs/**/*.antt", recursive=True) + glob.glob("crates/*/proofs/**/*.antt", recursive=True))
    rust = sorted(glob.glob("crates/*/src/**/*.rt", recursive=True))
    found, borrowed = set(), set()
    for p in antt:
        names_of(p, crates, found, borrowed)
    for p in rust:
        for line in open(p, encoding="utf-8"):
            if m := IMPORT.match(line):
                found.update(w.split(" as ")[1].strip() for w in m[2].split(",") if " as " in w)
    turn = {n: respelled(n) for n in found - borrowed if "-" in n}
    seen = {}
    for old, new in sorted(turn.items()):
        if new in seen or new in found:
            sys.exit(f"respell: {old} and {seen.get(new, new)} fall together")
        seen[new] = old
    token = re.compile(WORD)
    for p in antt + rust:
        t = open(p, encoding="utf-8").read()
        u = token.sub(lambda m: turn.get(m[0], m[0]), t)
        if u != t:
            open(p, "w", encoding="utf-8").write(u)
    for old, new in sorted(turn.items()):
        print(old, new)


main()
