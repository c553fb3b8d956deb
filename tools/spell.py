#!/usr/bin/env python3
"""Spells the repository's own definitions and lemmas as today's Rattle does: snake case for what isn't a type or a fact.

usage: python3 tools/spell.py        at the top, once, after port.py

tools/spelling.tsv has a line for each name: the old spelling and the new one. A lemma that would fall together with a definition ends in _lem; behind a dot the name is a step's, not the lemma's.
Definitions are renamed wherever they stand (.antt, clauses of .rt, .edit); names with a dash, and lemmas that were in snake case already, in .antt and .edit alone.
"""
import glob
import re

ID = r"[^\s(){}\[\];,.λ∷·@:«»\"`⌜⌝×≡≤<>→←=+*/|&?!#]+"
TOKEN = re.compile(r"(?<![^\W\d_])(\.?)(" + ID + r")")

new = dict(line.rstrip("\n").split("\t") for line in open("tools/spelling.tsv"))
old_snake = {n for n in new if "-" not in n and n == n.lower()}
USE = re.compile(r"^use ([^\s{]+)\.\{([^}]*)\}", re.M)


def library(text):
    """The names that a file brings in from the library: there they stay as they are."""
    found = set()
    for module, names in USE.findall(text):
        if not re.match(r"Rattle\.(?!std\b)", module):
            found |= {n.strip().split(" as ")[0] for n in names.split(",")}
    return found


def spelled(text, path):
    theirs = library(text)

    def one(m):
        dot, t = m.groups()
        if t in new and t not in theirs:
            in_rust = path.endswith(".rt")
            if "-" in t and in_rust:
                return m.group(0)
            if t in old_snake and (in_rust or dot or text[m.end():m.end() + 1] in (".", ":") or text[m.start(2) - 1:m.start(2)] == ":"):
                return m.group(0)
            return dot + (new[t].removesuffix("_lem") if dot else new[t])
        if path.endswith("Proof.antt") and re.fullmatch(r"[a-z0-9]+(-[a-z0-9]+)*-spec", t):
            return dot + t.replace("-", "_")
        return m.group(0)

    return TOKEN.sub(one, text)


for pattern in ("crates/*/src/**/*.rt", "crates/*/specs/**/*.antt", "crates/*/proofs/**/*.antt", "crates/*/must-fail/*.edit"):
    for path in sorted(glob.glob(pattern, recursive=True)):
        text = open(path, encoding="utf-8").read()
        turned = spelled(text, path)
        if turned != text:
            open(path, "w", encoding="utf-8").write(turned)
