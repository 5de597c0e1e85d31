#!/usr/bin/env python3
"""Brings the names of the repository's own definitions and lemmas to the spelling of the present Rattle.

usage: python3 tools/respell.py        at the top, once, right after /opt/rattle/port/port.py, before any edit by hand

Words are in snake case: signedHalf -> signed_half, atPSW -> at_psw, MAP-WORDS -> MAP_WORDS. In a lemma's name a dash stays between
two names (decode-encodes) and is an underscore before or after a plain word (signed-fits -> signed_fits). Types keep their capitals, and
so do the names of constants. Names that Rattle makes (goals, steps) are left alone, and so are all names of src/. It rewrites the
.antt files, the clauses of the .rt files, the must-fail edits and, in the pages, what stands between backticks.
"""

import glob
import os
import re
import sys

TOKEN = re.compile(r"[^\s(){}\[\]:,.;`]+")
DEF = re.compile(r"^\s*((?:abbrev |pub |unfoldable )*)([^\s(){}\[\]:,.;λ=]+) ?: ?(.*)$")
# Lemmas that would have the name of the definition that they speak of.
LEMMAS = {"core-in", "map-in", "marks-in", "nums-in", "set-z", "with-z", "word-of", "set-flags"}
# Words of the library that a dash may join to one of ours.
LIBRARY = {"take", "drop", "append", "length", "cons", "map"}


def files(*patterns):
    return sorted(p for pat in patterns for p in glob.glob(pat, recursive=True) if "/out/" not in p)


def read(path):
    with open(path, encoding="utf-8") as f:
        return f.read()


def defined():
    """Names with a signature of their own: all, those that are public, and those that are no answer to a goal."""
    every, public = set(), set()
    for path in files("crates/*/specs/*.antt", "crates/*/proofs/**/*.antt"):
        for line in read(path).split("\n"):
            m = DEF.match(line)
            if not m or "Need-" in m.group(3) or m.group(2).startswith("μ") or "tie." in m.group(3) or m.group(3).startswith(("statement ", "{M : Type 1} → statement")):
                continue
            every.add(m.group(2))
            if "pub" in m.group(1) and "/specs/" in path:
                public.add(m.group(2))
    return every, public


def functions():
    return {n for p in files("crates/*/src/*.rt") for n in re.findall(r"\bfn (\w+)", read(p))}


def snake(name):
    if re.fullmatch(r"[A-Z0-9_]+", name) or name[:1].isupper():
        return name
    name = re.sub(r"(?<=[a-z0-9])([A-Z]+)", lambda m: "_" + m.group(1).lower(), name)
    return name.lower() if name.isascii() else name


def joined(name, names):
    parts = name.split("-")
    if any(not p for p in parts):
        return name
    if all(re.fullmatch(r"[A-Z0-9]+", p) for p in parts):
        return "_".join(parts)
    out = snake(parts[0])
    for before, p in zip(parts, parts[1:]):
        both = before in names and p in names
        out += ("-" if both else "_") + snake(p)
    return out


def turn(text, names, comment):
    """Renames whole tokens; in comments only what stands between backticks, or has a capital within."""

    def whole(part):
        return TOKEN.sub(lambda m: names.get(m.group(0), m.group(0)), part)

    def wordy(part):
        part = re.sub(r"`[^`\n]*`", lambda m: whole(m.group(0)), part)
        return TOKEN.sub(lambda m: names.get(m.group(0), m.group(0)) if re.search("[a-z][A-Z]", m.group(0)) else m.group(0), part)

    out = []
    for line in text.split("\n"):
        at = re.search(r"(^|\s)" + comment, line)
        head, tail = (line, "") if not at else (line[: at.start()], line[at.start() :])
        out.append(whole(head) + wordy(tail))
    return "\n".join(out)


def main():
    every, public = defined()
    plain = {n for n in public if "-" not in n} | functions() | LIBRARY
    names = {}
    for n in sorted(every):
        new = joined(n, plain) if "-" in n else snake(n)
        if n in LEMMAS:
            new += "_lem"
        if n == "goes_on":  # a lemma, which port.py spelled as what goesOn becomes
            new = "goes_on_lem"
        if new != n:
            names[n] = new
    texts = files("crates/*/specs/*.antt", "crates/*/proofs/**/*.antt", "crates/*/src/*.rt")
    tokens = {t for p in texts for t in TOKEN.findall(read(p))}
    for old, new in names.items():
        if new in tokens or list(names.values()).count(new) > 1:
            print(f"falls together: {old} -> {new}")
    if "--list" in sys.argv:
        for old, new in sorted(names.items()):
            print(old, new)
        return
    for p in texts:
        old = read(p)
        new = turn(old, names, "--" if p.endswith(".antt") else "//")
        if new != old:
            with open(p, "w", encoding="utf-8") as f:
                f.write(new)
    for p in files("crates/*/must-fail/*.edit"):
        old = read(p)
        lines = [turn(x, names, "//") if x.startswith(("old:", "new:")) else x for x in old.split("\n")]
        with open(p, "w", encoding="utf-8") as f:
            f.write("\n".join(lines))
    for p in files("*.md", "docs/*.md", "tests/**/*.md"):
        old = read(p)
        with open(p, "w", encoding="utf-8") as f:
            f.write(re.sub(r"`[^`\n]*`", lambda m: TOKEN.sub(lambda t: names.get(t.group(0), t.group(0)), m.group(0)), old))


main()
