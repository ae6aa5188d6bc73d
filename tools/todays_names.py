#!/usr/bin/env python3
"""Spells the repository's own definitions and lemmas as Rattle does today, by todays_names.tsv beside this file.

usage: tools/todays_names.py [FOLDER]      the top of a checkout in which port.py has run; without it, this one

A line of the table has an old name, its new one, and how it is meant: 'word' changes wherever the name stands, 'lemma' only where no dot
stands before it (behind a dot the same letters name a step of a proof or a function). Files of specs/, proofs/ and src/ are rewritten, and
the texts of must-fail edits. It is to run once: some lemma was called what a definition is called now.
"""

import os
import re
import sys

HERE = os.path.dirname(os.path.realpath(__file__))
EDGE = r'\s(){}.;,@"«»'


def table():
    with open(os.path.join(HERE, "todays_names.tsv"), encoding="utf-8") as f:
        rows = [line.rstrip("\n").split("\t") for line in f if line.strip()]
    return {old: new for old, new, how in rows if how == "word"}, {old: new for old, new, how in rows if how == "lemma"}


def main(top):
    words, lemmas = table()
    token = re.compile(rf"(?<![^{EDGE}])[^{EDGE}]+(?![^{EDGE}])")

    def turned(m):
        name = m.group(0)
        behind_dot = m.string[m.start() - 1 : m.start()] == "."
        if name in words:
            return words[name]
        if name in lemmas and not behind_dot:
            return lemmas[name]
        return name

    ghost = re.compile(r"(?m)^\s*(ghost|requires|ensures|#!?\[tactic)\b.*$")
    count = 0
    for folder, dirs, files in os.walk(os.path.join(top, "crates")):
        dirs[:] = sorted(d for d in dirs if d != "out")
        for f in sorted(files):
            path = os.path.join(folder, f)
            if not f.endswith((".antt", ".rt", ".edit")):
                continue
            with open(path, encoding="utf-8") as it:
                was = it.read()
            if f.endswith(".rt"):
                now = ghost.sub(lambda m: token.sub(turned, m.group(0)), was)
            elif f.endswith(".edit"):
                now = re.sub(r"(?m)^(old|new): .*$", lambda m: token.sub(turned, m.group(0)), was)
            else:
                now = token.sub(turned, was)
            if now != was:
                count += 1
                with open(path, "w", encoding="utf-8") as it:
                    it.write(now)
    print(f"{count} files changed")


if __name__ == "__main__":
    main(sys.argv[1] if len(sys.argv) > 1 else os.path.dirname(HERE))
