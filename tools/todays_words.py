#!/usr/bin/env python3
"""Leaves the library's operators to the library, as `rt ci` asks, once port.py and tools/todays_names.py have run.

usage: tools/todays_words.py [FOLDER]      the top of a checkout; without it, this one

1. The choice of crate laws has a name of its own, `when b then x else y`: `if b then x else y` is the library's.
2. What a proof takes from Rattle.laws.proofs.Common and what is an operator of the library's Prelude comes from there.
It may run again: what is turned stays as it is. Comments, code of src/ and must-fail edits of code are left alone.
"""

import os
import re
import sys

EDGE = r'\s(){}.;,@"«»'
IF = re.compile(rf"(?<![^{EDGE}])if(◌then◌else◌)?(?![^{EDGE}])")
LIBRARY = "◌%◌ ◌&&◌ ◌*◌ ◌++◌ ◌+◌ ◌-◌ ◌/◌ ◌<◌ ◌==◌ ◌^◌ ◌||◌ ◌↔◌ ◌∷◌ ◌≡◌ ◌≢◌ ◌≤◌ ◌⊎◌".split()
COMMON = re.compile(r"(?m)^use Rattle\.laws\.proofs\.Common\.\{([^}]*)\}\n")
PRELUDE = re.compile(r"(?m)^use Rattle\.std\.specs\.Prelude\.\{([^}]*)\}\n")
OF_LIBRARY = re.compile(r"(?m)^(ghost )?use Rattle\.std\.[^\n]*if◌then◌else◌")


def names(text):
    return [n for n in re.split(r"[\s,]+", text) if n]


def when(code):
    return IF.sub(lambda m: "when" + (m.group(1) or ""), code)


def turned_antt(text):
    if not OF_LIBRARY.search(text):
        lines = []
        for line in text.split("\n"):
            cut = re.search(r"(^|\s)--(\s|$)", line)
            at = cut.start() if cut else len(line)
            lines.append(when(line[:at]) + line[at:])
        text = "\n".join(lines)
    moved = [n for m in COMMON.finditer(text) for n in names(m.group(1)) if n in LIBRARY]
    if moved:
        place = COMMON.search(text).start()

        def kept(m):
            left = [n for n in names(m.group(1)) if n not in LIBRARY]
            return "use Rattle.laws.proofs.Common.{" + ", ".join(left) + "}\n" if left else ""

        text = COMMON.sub(kept, text)
        p = PRELUDE.search(text)
        has = names(p.group(1)) if p else []
        line = "use Rattle.std.specs.Prelude.{" + ", ".join(dict.fromkeys(has + moved)) + "}\n"
        text = text[: p.start()] + line + text[p.end() :] if p else text[:place] + line + text[place:]
    return text


def turned_rt(text):
    if OF_LIBRARY.search(text):
        return text
    return re.sub(r"(?m)^\s*(ghost|requires|ensures)\b.*$", lambda m: when(m.group(0)), text)


def turned_edit(text):
    lines, proof = [], False
    for line in text.split("\n"):
        if line.startswith("file: "):
            proof = line.endswith(".antt")
        if proof and line.startswith(("old:", "new:")):
            line = when(line)
        lines.append(line)
    return "\n".join(lines)


def main(top):
    count = 0
    for folder, dirs, files in os.walk(os.path.join(top, "crates")):
        dirs[:] = sorted(d for d in dirs if d != "out")
        for f in sorted(files):
            turn = turned_antt if f.endswith(".antt") else turned_rt if f.endswith(".rt") else turned_edit if f.endswith(".edit") else None
            if not turn:
                continue
            path = os.path.join(folder, f)
            with open(path, encoding="utf-8") as it:
                was = it.read()
            now = turn(was)
            if now != was:
                count += 1
                with open(path, "w", encoding="utf-8") as it:
                    it.write(now)
    print(f"{count} files changed")


if __name__ == "__main__":
    main(sys.argv[1] if len(sys.argv) > 1 else os.path.dirname(os.path.dirname(os.path.realpath(__file__))))
