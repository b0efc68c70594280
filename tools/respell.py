#!/usr/bin/env python3
"""Brings the names of this repository's definitions and lemmas to snake case, as tools/names.txt lists them.

usage: tools/respell.py [FOLDER]    rewrites crates/*/{specs,proofs,src,must-fail} below FOLDER, once, after port.py

Functions of src/, strings, inputs and outputs keep their names. In a proof of a function a name after a dot is a step or
a field, and only its dashes are respelled.
"""
import glob
import os
import re
import sys

HERE = os.path.dirname(os.path.realpath(__file__))
NAMES = dict(l.split() for l in open(os.path.join(HERE, "names.txt"), encoding="utf-8") if l.strip() and l[0] != "#")
WORD = re.compile(r"[^\s(){}\[\];,.\"⌜⌝`:!?&*/]+")
STRING = re.compile(r'b?"(?:[^"\\]|\\.)*"')
OWN = None  # the repository's crates


def words(text, foreign, walk):
    def one(m):
        w = m.group(0)
        if w not in NAMES or w in foreign:
            return w
        if walk and "-" in w and text[m.start() - 1 : m.start()] == ".":
            return w.replace("-", "_")
        return NAMES[w]

    return WORD.sub(one, text)


def foreign_names(text):
    """What the file takes from the kit: such a name stays, whatever the repository calls so elsewhere."""
    found = set()
    for path, names in re.findall(r"(?m)^\s*(?:ghost )?use (\S+?)\.\{([^}]*)\}", text):
        parts = path.split(".")
        if not (parts[0] == "Rattle" and len(parts) > 1 and parts[1] in OWN):
            found |= {n.strip() for n in names.split(",")}
    return found


def turn(path):
    text = open(path, encoding="utf-8").read()
    foreign = foreign_names(text)
    walk = "/proofs/" in path and path.split("/proofs/")[1].count("/") > 0
    if path.endswith(".rt"):
        out, at = [], 0
        for m in STRING.finditer(text):
            out += [words(text[at : m.start()], foreign, walk), m.group(0)]
            at = m.end()
        new = "".join(out) + words(text[at:], foreign, walk)
    else:
        new = words(text, foreign, walk)
    if new != text:
        open(path, "w", encoding="utf-8").write(new)
        return 1
    return 0


def main(root):
    global OWN
    OWN = {os.path.basename(p) for p in glob.glob(os.path.join(root, "crates", "*"))}
    turned = 0
    for kind in ("specs/**/*.antt", "proofs/**/*.antt", "src/**/*.rt", "must-fail/*.edit"):
        for path in sorted(glob.glob(os.path.join(root, "crates", "*", kind), recursive=True)):
            turned += turn(path)
    print(f"respell: {turned} files")


if __name__ == "__main__":
    main(sys.argv[1] if len(sys.argv) > 1 else ".")
