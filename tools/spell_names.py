#!/usr/bin/env python3
"""Spells the names of this repository's own definitions and lemmas as Rattle does today: words in snake case, a dash only
between two names of definitions. tools/names.txt has a line 'OLD NEW' for each name that
the toolchain's own script left.

use: tools/spell_names.py [FILE..]    in the repository's top folder, once, after the toolchain's own script.
With no FILE it goes over every .antt, .rt and .edit file of crates/. A name is replaced only as a whole word."""

import os
import re
import sys

HERE = os.path.dirname(os.path.realpath(__file__))
WORD = re.compile(r"[A-Za-z_0-9ℕℤ'₀-₉]+(?:-[A-Za-z_0-9ℕℤ'₀-₉]+)*")


def table():
    with open(os.path.join(HERE, "names.txt"), encoding="utf-8") as f:
        return dict(line.split() for line in f if line.strip())


def files():
    for folder, dirs, names in os.walk("crates"):
        dirs[:] = sorted(d for d in dirs if d != "out")
        for name in sorted(names):
            if name.endswith((".antt", ".rt", ".edit")):
                yield os.path.join(folder, name)


def main():
    names = table()
    for path in sys.argv[1:] or files():
        with open(path, encoding="utf-8") as f:
            text = f.read()
        new = WORD.sub(lambda m: names.get(m.group(0), m.group(0)), text)
        if new != text:
            with open(path, "w", encoding="utf-8") as f:
                f.write(new)
            print(path)


main()
