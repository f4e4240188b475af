#!/usr/bin/env python3
"""Gives the definitions and lemmas of specs/ and proofs/ the spelling of today's Rattle: words in snake case.

usage: python3 tools/respell.py      at the top of the repository, once, after port.py: a second run would turn five names again

tools/respell.tsv has each old name and its new one. A lemma whose name would fall together with its function's ends in `_lem`.
Functions of src/, exported names, strings, inputs and outputs keep their names.
"""

import glob
import os
import re

HERE = os.path.dirname(os.path.realpath(__file__))
TOP = os.path.dirname(HERE)
TOKEN = re.compile(r"\"(?:[^\"\\]|\\.)*\"|[^\s(){}.;,@\"«»\[\]\\:`]+")


def names():
    with open(os.path.join(HERE, "respell.tsv"), encoding="utf-8") as f:
        return dict(line.rstrip("\n").split("\t") for line in f)


def respelled(text, new, generated):
    """In a function's own proof a name after a full stop is of Rattle's making, and stays: there only names with a capital turn."""

    def turn(m):
        word = m.group(0)
        if word not in new or word.startswith('"'):
            return word
        after_stop = m.start() > 0 and text[m.start() - 1] == "." and text[m.start() - 2 : m.start()] not in ("{.",)
        if generated and after_stop and not re.search("[A-Z]", word):
            return word
        return new[word]

    return TOKEN.sub(turn, text)


def main():
    new = names()
    capital = {a: b for a, b in new.items() if re.fullmatch(r"\w+", a) and re.search("[A-Z]", a)}
    below = lambda form: glob.glob(os.path.join(TOP, "crates/*", form), recursive=True)
    for path in sorted(below("specs/**/*.antt") + below("proofs/**/*.antt") + below("src/**/*.rt")):
        if os.sep + "out" + os.sep in path:
            continue
        with open(path, encoding="utf-8") as f:
            text = f.read()
        to = respelled(text, capital if path.endswith(".rt") else new, path.endswith("Proof.antt"))
        if to != text:
            with open(path, "w", encoding="utf-8") as f:
                f.write(to)


if __name__ == "__main__":
    main()
