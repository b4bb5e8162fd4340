#!/usr/bin/env python3
"""Spells the repository's own definitions and lemmas in snake case: run once, at the top of the repository.

The toolchain's script respells only some of the names of specs/ and proofs/. This one takes every name of an .antt
file that is in lower camel case and writes it in snake case, there, in the clauses of the sources, in the must-fail
edits and in the pages. Types, facts and modules keep their upper camel case, and names of the sources keep theirs.
"""
import os
import re
import sys

WORD = re.compile(r"(?<![A-Za-z0-9_«'])([a-z][a-z0-9_]*[A-Z][A-Za-z0-9_]*)(?![A-Za-z0-9_])")
# Names that Rattle makes, or that std has.
KEPT = {"cases_Bool"}
# Names whose snake case is not what they say.
SPECIAL = {"getD": "get_or"}
# Lemmas that would fall together with the definition they are about: file, old name, new name.
APART = [
    ("crates/history/proofs/Named.antt", "or_same", "or_same-some"),
    ("crates/history/proofs/Keeping.antt", "or_same", "or_same-some"),
    ("crates/book/proofs/Opened.antt", "or_same", "or_same-some"),
    ("crates/book/proofs/Booked.antt", "or_same", "or_same-some"),
    ("crates/history/proofs/Conservation.antt", "or_same", "or_same-unmoved"),
    ("crates/determination/proofs/CallLaws.antt", "rest_in", "rest_in-within"),
]
ENDINGS = (".antt", ".rt", ".edit", ".md")


def snake(word):
    return SPECIAL.get(word) or re.sub(r"(?<=[a-z0-9])([A-Z])", lambda m: "_" + m.group(1).lower(), word)


def files(top):
    for folder, folders, names in os.walk(top):
        folders[:] = [f for f in folders if f not in (".git", "out", "target")]
        for name in names:
            if name.endswith(ENDINGS):
                yield os.path.join(folder, name)


def main():
    names = set()
    for path in files("crates"):
        if path.endswith(".antt"):
            names.update(WORD.findall(open(path, encoding="utf-8").read()))
    names -= KEPT
    for path, old, new in APART:
        if os.path.exists(path):
            text = open(path, encoding="utf-8").read()
            text = re.sub(r"(?<![A-Za-z0-9_-])" + old + r"(?![A-Za-z0-9_-])", new, text)
            open(path, "w", encoding="utf-8").write(text)
    changed = 0
    for path in files("."):
        text = open(path, encoding="utf-8").read()
        new = WORD.sub(lambda m: snake(m.group(1)) if m.group(1) in names else m.group(1), text)
        if new != text:
            open(path, "w", encoding="utf-8").write(new)
            changed += 1
    print(f"spelling: {len(names)} names, {changed} files")
    return 0


if __name__ == "__main__":
    sys.exit(main())
