#!/usr/bin/env python3
"""Spells the repository's own definitions, lemmas, constructors and fields in snake case, by respell.tsv beside this file,
and by respell-local.tsv what is local to the files of definitions and lemmas, where no name is the checker's own.

usage: python3 tools/respell.py        at the top of the repository, once, after port.py

It turns whole words of the .antt files and of the clauses in the .rt files below crates/, and in comments those in code spans.
No name of a Rust item has a capital behind a small letter or a dash, so none of these words is one.
"""

import os
import re
import sys

HERE = os.path.dirname(os.path.realpath(__file__))
WORD = re.compile(r'[^\s(){}.;,@"«»`]+')


def table(name):
    with open(os.path.join(HERE, name), encoding="utf-8") as f:
        return dict(line.rstrip("\n").split("\t") for line in f)


def turned(text, names, mark):
    def word(m):
        return names.get(m.group(0), m.group(0))

    lines = []
    for line in text.split("\n"):
        code, sep, comment = line, "", ""
        if line.lstrip().startswith(mark):
            code, sep, comment = "", "", line
        elif f" {mark} " in line:
            at = line.index(f" {mark} ")
            code, comment = line[:at], line[at:]
        comment = re.sub(r"`[^`]*`", lambda m: WORD.sub(word, m.group(0)), comment)
        lines.append(WORD.sub(word, code) + sep + comment)
    return "\n".join(lines)


def main():
    names = table("respell.tsv")
    local = names | table("respell-local.tsv")
    for folder, dirs, files in os.walk("crates"):
        dirs[:] = sorted(d for d in dirs if d != "out")
        for f in sorted(files):
            path = os.path.join(folder, f)
            if f.endswith(".antt"):
                mark = "--"
            elif f.endswith(".rt"):
                mark = "//"
            else:
                continue
            with open(path, encoding="utf-8") as it:
                old = it.read()
            new = turned(old, local if os.path.basename(folder) in ("specs", "proofs") else names, mark)
            if new != old:
                with open(path, "w", encoding="utf-8") as it:
                    it.write(new)
    return 0


if __name__ == "__main__":
    sys.exit(main())
