#!/usr/bin/env python3
"""Brings the repository's own definitions and lemmas to the library's spelling: definitions and fields in snake case, lemmas too, with a dash left where it joins two names.

usage: python3 tools/respell.py [FOLDER]    once, at the top of the repository or of FOLDER, after the kit's port.py

tools/respelled.tsv lists the names. A line `turned` holds a name as port.py leaves it, and the new one: these are turned in crates/, but for code, where no such name stands.
A line `landed` holds a name as it was before port.py, which turns no edit and no page: these are turned, with the others, in must-fail edits, README.md and docs/.
"""

import os
import re
import sys

HERE = os.path.dirname(os.path.realpath(__file__))
# A name of antt: no dot, bracket or blank.
NAME = re.compile(r"[^\s(){}\[\];,.:\"`|\\]+")
# Two lemmas would have their definition's name.
FIRST = {"crates/cleaning/proofs/HeldLaws.antt": {"keep_all": "keep_all_lem"}, "crates/cleaning/proofs/keeping/keep_all/Proof.antt": {"keep_all": "keep_all_lem"}}


def table():
    turned, landed = {}, {}
    with open(os.path.join(HERE, "respelled.tsv"), encoding="utf-8") as f:
        for line in f:
            kind, old, new = line.rstrip("\n").split("\t")
            (turned if kind == "turned" else landed)[old] = new
    return turned, landed


def respell(text, names, behind_dots=frozenset()):
    def new(m):
        word = m.group(0)
        behind = m.start() > 0 and text[m.start() - 1] == "."
        if "-" in word and behind and word not in behind_dots:
            return word
        if behind and word == "keep_all":
            return word
        return names.get(word, word)

    return NAME.sub(new, text)


def code(text, names):
    """A .rt file: a name in camel case stands in clauses, imports and comments alone, and a dashed one in comments between backquotes."""
    plain = {a: b for a, b in names.items() if "-" not in a}
    text = re.sub(r"\b[a-z]\w*[A-Z]\w*\b", lambda m: plain.get(m.group(0), m.group(0)), text)
    return re.sub(r"`([\w'-]+)`", lambda m: f"`{names.get(m.group(1), m.group(1))}`", text)


def fields(folder):
    """Dashed names of records' fields, which stand behind a dot too."""
    found = set()
    for path in texts(folder, (".antt",)):
        inside = False
        with open(path, encoding="utf-8") as f:
            for line in f:
                if line.strip() and not line.startswith(" "):
                    inside = bool(re.match(r"(?:abbrev |pub |unfoldable )*record .*where", line))
                elif inside:
                    found |= set(re.findall(r"^ +(?:pub )?([\w'-]+) :", line))
    return {f for f in found if "-" in f}


def texts(folder, endings):
    for top, dirs, names in os.walk(folder):
        dirs[:] = sorted(d for d in dirs if d not in ("out", ".git"))
        for n in sorted(names):
            if n.endswith(endings):
                yield os.path.join(top, n)


def main(argv):
    root = os.path.realpath(argv[0] if argv else os.path.join(HERE, ".."))
    turned, landed = table()
    both = dict(landed) | turned
    behind = fields(os.path.join(root, "crates"))
    for path in texts(os.path.join(root, "crates"), (".antt", ".rt", ".edit")):
        with open(path, encoding="utf-8") as f:
            old = f.read()
        names = FIRST.get(os.path.relpath(path, root), {}) | turned
        if path.endswith(".antt"):
            new = respell(old, names, behind)
        elif path.endswith(".rt"):
            new = code(old, turned)
        else:
            new = "\n".join(respell(line, both) if re.match(r"file: (specs|proofs)/", old) or re.search(r"requires|ensures|ghost", line) else line for line in old.split("\n"))
            new = re.sub(r"\b[a-z]\w*[A-Z]\w*\b", lambda m: both.get(m.group(0), m.group(0)), new)
        if new != old:
            with open(path, "w", encoding="utf-8") as f:
                f.write(new)
    pages = [os.path.join(root, "README.md")] + list(texts(os.path.join(root, "docs"), (".md",)))
    for path in pages:
        with open(path, encoding="utf-8") as f:
            old = f.read()
        new = code(old, both)
        if new != old:
            with open(path, "w", encoding="utf-8") as f:
                f.write(new)


if __name__ == "__main__":
    main(sys.argv[1:])
