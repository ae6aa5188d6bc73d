#!/usr/bin/env python3
"""Lists the places of src/ that docs/DESIGN-PASS.md counts, by the eight points of that page.

usage: tools/design_places.py [POINT..]      from the top of a checkout; without a point, the counts of all

It finds shapes, not meanings: what it lists is read by a person, and the page says of each place what became of it.
"""
import collections
import glob
import re
import sys

WORD = re.compile(r"'[a-z_]+\b|[A-Za-z_][A-Za-z0-9_]*|\d[\d_]*|0x[0-9A-Fa-f]+|b'(?:\\.|[^'])'|b?\"(?:\\.|[^\"])*\"|[^\sA-Za-z0-9_]")
KEEP = set("""if else while for in let mut return match fn pub struct enum impl as true false break continue loop use const self Self ref move where
Some None Ok Err""".split())
# arms that say that something is refused or is not there
EMPTY_ARM = re.compile(r"^    (Refused|NoRoom|BadContents|Unreadable|Empty|Free|None|Undriven)\b", re.M)
SENTINEL = re.compile(r"^const [A-Z_]+: u(?:32|64) = .*;|return (?:4|32|513|65536|8589934592);|\b(?:end|last|length|found|why|first|said\.number|x\.number) (?:==|!=|>) (?:0|4|32)\b|\b65535 < n\b|Free => 65536", re.M)


def files():
    for path in sorted(glob.glob("crates/*/src/**/*.rt", recursive=True)):
        yield path.split("/")[1], path, open(path, encoding="utf-8").read()


def strip(text):
    text = re.sub(r"//[^\n]*", "", text)
    return text.split("#[cfg(test)]")[0]


def functions():
    """Each function outside tests: crate, name, parameters, clauses, body."""
    for crate, path, text in files():
        text = strip(text)
        for m in re.finditer(r"\bfn (\w+)(<[^(]*>)?\(", text):
            at, depth = m.end(), 1
            while depth:
                depth += {"(": 1, ")": -1}.get(text[at], 0)
                at += 1
            params = text[m.end():at - 1]
            rest = text[at:]
            body_at = re.search(r"(?:^|\s)\{\n", rest)
            end = re.search(r"\n\s*\}\n", rest[body_at.end() - 2:]) if body_at else None
            if not body_at or rest[:body_at.start()].count(";\n"):
                continue
            start = body_at.end() - 2
            depth, i = 0, start
            while True:
                c = rest[i]
                depth += {"{": 1, "}": -1}.get(c, 0)
                i += 1
                if depth == 0:
                    break
            yield crate, m.group(1), params, rest[:body_at.start()], rest[start:i]


def shape(body):
    names, out = {}, []
    for t in WORD.findall(body):
        if t in KEEP or not re.match(r"[A-Za-z_0-9b]", t):
            out.append(t)
        elif t[0].isdigit() or t[0] == "b" and len(t) > 1 and t[1] in "'\"":
            out.append("N")
        else:
            out.append(names.setdefault(t, f"v{len(names)}"))
    return tuple(out)


def point1():
    for crate, path, text in files():
        for m in re.finditer(r"^(?:pub )?enum (\w+) \{\n(.*?)^\}", text, re.M | re.S):
            if EMPTY_ARM.search(m.group(2)):
                yield f"{crate}: enum {m.group(1)}"
        for m in re.finditer(r"^(?:pub )?struct (\w+) \{\n(.*?)^\}", text, re.M | re.S):
            if re.search(r"\b(number|kind|contents|internal): (u8|u32|bool)", m.group(2)):
                yield f"{crate}: struct {m.group(1)} (a number or a flag says which)"
        for m in SENTINEL.finditer(strip(text)):
            yield f"{crate}: {m.group(0).strip()}"


def point2():
    groups = collections.defaultdict(list)
    for crate, name, params, clauses, body in functions():
        s = shape(body)
        if len(s) >= 7:
            groups[s].append(f"{crate}::{name}")
    for s, names in sorted(groups.items(), key=lambda g: g[1]):
        names = [n for n in names if not n.startswith(("thurafeqa::", "ti_exports::", "card_exports::"))]
        if len(names) > 1:
            yield f"{len(names)} alike ({len(s)} tokens): " + ", ".join(names)
    for crate, name, params, clauses, body in functions():
        if re.fullmatch(r"\s*\{\s*true\s*\}\s*", body):
            yield f"copy of a line for proofs: {crate}::{name}"


def point3():
    for crate, path, text in files():
        for n, line in enumerate(text.split("\n"), 1):
            if re.match(r"\s*(while|loop)\b", line):
                yield f"{crate}: {path}:{n}: {line.strip()}"
    for crate, name, params, clauses, body in functions():
        if len(re.findall(r"\[(?:first|at)? ?\+? ?1?\d\]", body)) >= 15:
            yield f"{crate}::{name}: an index written out, {body.count('[')} times"


def point4():
    for crate, name, params, clauses, body in functions():
        one = re.fullmatch(r"\s*(\w+): (\w+),?\s*", params)
        if one and re.search(r"\bb'|\b\d|\w+::\w+", body) and not re.search(r"\w+::\w+\(w|settings_in|\bs\.", body) and re.search(r"\b(if|match)\b|as u", body):
            yield f"{crate}::{name}({params.strip()}): a value as another, by hand"
        if re.search(r"48 \+|n / 10000", body):
            yield f"{crate}::{name}: digits by hand"
    for crate, path, text in files():
        for m in re.finditer(r"impl (?:PartialEq|Eq|Clone|Copy|Ord|Debug)\b.*", text):
            yield f"{crate}: {m.group(0)}"


def point5():
    facts = collections.defaultdict(list)
    packs = collections.defaultdict(list)
    for crate, name, params, clauses, body in functions():
        for m in re.finditer(r"requires (?:\w+ )?\{ (.*) \}", clauses):
            for fact in re.split(r" × ", m.group(1)):
                fact = re.sub(r"^\((.*)\)$", r"\1", fact.strip()) if fact.count("(") == fact.count(")") else fact.replace("(", "", 1).strip() if fact.count("(") > fact.count(")") else fact.strip()[:-1]
                facts[(crate, fact)].append(name)
        head = re.sub(r"\s+", " ", params)
        for pair in (r"out: &mut \[u8(?:; \d+)?\], at: usize", r"sck: bool, sdi: bool(?:, ss: bool)?", r"none: bool, cke: bool", r"(?:session|script): &\[u8\]", r"old: Shown, new: Shown", r"f: &\[u8\], next: &\[u16; 16384\]"):
            if re.search(pair, head):
                packs[(crate, pair)].append(name)
    for (crate, fact), names in sorted(facts.items()):
        if len(names) >= 3:
            yield f"{crate}: requires {fact}: {', '.join(names)}"
    for (crate, pair), names in sorted(packs.items()):
        if len(names) >= 3:
            yield f"{crate}: travel together, /{pair}/: {', '.join(names)}"


def point6():
    for crate, name, params, clauses, body in functions():
        if re.search(r"out: &mut \[u8", params) and re.search(r"\bat: usize|from: usize", params):
            yield f"{crate}::{name}: a buffer with its place beside it"
        elif re.search(r"sizes: &(mut )?\[u16; 64\]|lent: &\[u8\], length", params):
            yield f"{crate}::{name}: an array with its length beside it"
    for crate, path, text in files():
        for m in re.finditer(r"^\s+(?:pub )?words: \[u16; 16\],", text, re.M):
            yield f"{crate}: {m.group(0).strip()} with a count"


def point7():
    for crate, name, params, clauses, body in functions():
        if len(re.findall(r"\bif (?:kind|register|protocol|length|words|n|bits) (?:==|<|!=) \w+ ", body)) >= 3:
            yield f"{crate}::{name}: a chain of tests of a number says which step"


def point8():
    for path in sorted(glob.glob("crates/*/proofs/**/Answers.antt", recursive=True)):
        yield f"{path}: {len(open(path, encoding='utf-8').read().splitlines())} lines"


POINTS = {"1": point1, "2": point2, "3": point3, "4": point4, "5": point5, "6": point6, "7": point7, "8": point8}

if __name__ == "__main__":
    asked = sys.argv[1:]
    for p in asked or POINTS:
        places = list(POINTS[p]())
        print(f"point {p}: {len(places)}")
        if asked:
            print("\n".join("  " + x for x in places))
