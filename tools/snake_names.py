#!/usr/bin/env python3
"""Spells this repository's own names in snake case: the definitions, lemmas, fields, constructors and variables of specs/
and proofs/, wherever they stand, in clauses, proofs, must-fail edits and comments.

usage: snake_names.py, at the top of the repository: rewrites the files of crates/ in place

Functions of src/, exported names, strings, inputs and outputs keep their spelling, and so does what a file imports from a
library. It refuses to begin where two names would fall together in one file.
"""

import os
import re
import sys

WORD = r"[^\s(){}.;,@\"«»\[\]\\`]+"
TOKEN = re.compile(r"(--[^\n]*|//[^\n]*)|(\"(?:[^\"\\\n]|\\.)*\")|(\.?)(" + WORD + ")")
NAME = re.compile(r"[^\W\d][^-]*(-[^-]+)+$")
USE = re.compile(r"^(?:pub )?(?:ghost )?use ([^\s{;]+?)\.\{([^}]*)\}", re.M)
DECLARED = re.compile(r"^\s*(?:(?:unfoldable|abbrev|pub|data|record) )*(" + WORD + r")(?: [({][^\n]*)? :(?: |$)", re.M)
ALIAS = re.compile(r" as ([^\W\d][\w']*(?:-[\w']+)+)(?=[,}])")
FIELD = re.compile(r"^  +(?:pub )?(" + WORD + r") :(?: |$)", re.M)
# What Rattle makes for the proof of a function keeps its spelling there.
MADE = re.compile(
    r"(Need|After|At|In|Then|Else|Joined)-|.*-(requires|ensures)(-\d+)?$|(invariant|decreases)-|(loop|in|if|then|else|returns)-"
)


def read(path):
    with open(path, encoding="utf-8") as file:
        return file.read()


def files(ends):
    for folder, folders, names in os.walk("crates"):
        folders[:] = sorted(f for f in folders if f != "out")
        for name in sorted(names):
            if name.endswith(ends):
                yield os.path.join(folder, name)


def ours():
    return {f for f in os.listdir("crates")}


def imported(text):
    """The names that a file has from a library, and not from a crate of this repository."""
    crates, found = ours(), set()
    for path, items in USE.findall(text):
        parts = path.split(".")
        if len(parts) > 1 and parts[0] == "Rattle" and parts[1] in crates:
            continue
        for item in items.split(","):
            found |= {word.strip() for word in item.split(" as ")}
    return found


# The plain spelling of these is a library's word.
OTHERWISE = {"bit-and": "one_bit_and", "bit-or": "one_bit_or"}


def snake(name):
    return OTHERWISE.get(name, name.replace("-", "_"))


def turn(text, names, fields, theirs, proof, loose):
    """The text with own names in snake case. In the proof of a function, only the fields of own records are turned."""

    def one(match):
        comment, string, dot, word = match.groups()
        if comment:
            return re.sub(r"`([^`\n]+)`", lambda m: "`" + turn(m[1], names, fields, theirs, proof, False) + "`", comment)
        if string or not NAME.match(word) or word in theirs:
            return match[0]
        if dot and proof:
            return "." + snake(word) if word in fields and not MADE.match(word) else match[0]
        if proof and MADE.match(word) and word not in names:
            return match[0]
        return dot + snake(word) if loose or word in names else match[0]

    return TOKEN.sub(one, text)


def words(text):
    return {m[4] for m in TOKEN.finditer(text) if m[4]}


def survey():
    """The names that specs/ and proofs/ declare, and among them the fields of their records."""
    names, fields = set(), set()
    for path in files((".antt",)):
        text = read(path)
        names |= {n for n in DECLARED.findall(text) if NAME.match(n)}
        if not path.endswith("/Proof.antt"):
            fields |= {n for n in FIELD.findall(text) if NAME.match(n)}
    return names, fields


def main():
    names, fields = survey()
    turned, clashes = {}, []
    for path in files((".antt", ".rt", ".edit")):
        text = read(path)
        theirs = imported(text)
        of_source = path.endswith((".rt", ".edit"))
        proof = path.endswith("/Proof.antt")
        # In a source file, what an import is called there is a name too.
        called = set(ALIAS.findall(text)) if path.endswith(".rt") else set()
        new = turn(text, names | called, fields, theirs - called, proof, not of_source)
        if new != text:
            turned[path] = new
        if path.endswith(".antt"):
            old = words(text)
            clashes += [(path, w) for w in old if NAME.match(w) and w not in theirs and snake(w) in old and not proof]
    for clash in clashes:
        print("falls together:", *clash)
    if clashes:
        raise SystemExit(1)
    for path, new in turned.items():
        with open(path, "w", encoding="utf-8") as file:
            file.write(new)
    print(len(turned), "files turned")


main()
