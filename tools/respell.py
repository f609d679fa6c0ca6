#!/usr/bin/env python3
"""Respells the repository's own definitions, lemmas and fields as today's Rattle does: in snake case, and a field's
dashes as underscores. Run once, at the top, right after /opt/rattle/port/port.py; a second run changes nothing.

Only whole names change, in crates/ (sources, definitions, proofs, must-fail edits) and in the pages that name them.
Names of the library, facts (which keep their capital), functions of src/ and strings stay.

usage: tools/respell.py [--collisions]      the second form lists the files where a new name stood already
"""
import glob
import re
import sys

NAME = re.compile(r"[^\s(){}\[\].,;:=→λ⌜⌝\"`@«»|⟨⟩]+")
CAMEL = re.compile(r"(^|[-◌<≤])[a-z][a-z0-9_']*[A-Z]")
# facts as parts of a name keep their capital; the last is a word of the library
KEPT = {"x_Fits", "rel_of_Pairwise-cons", "at_Edge"}
# fields that would hide a definition of the same name
OTHERWISE = {"as-held": "answer_as_held", "in-range": "all_in_range"}
RECORD = re.compile(r"(abbrev |unfoldable )?(pub )?(record|data)\b")
FIELD = re.compile(r"\s+pub ([^\s:]+)( [^:]*)?:")
PAGES = ["README.md", "docs/ARCHITECTURE.md", "docs/DECISIONS.md", "docs/SPECIFICATION.md"]


def snake(part):
    part = re.sub(r"([a-z0-9'])([A-Z])", lambda m: m.group(1) + "_" + m.group(2), part)
    return re.sub(r"([A-Z])(?=[A-Z][a-z])", r"\1_", part).lower()


def respelled(name):
    """A dash joins two names: each is respelled, but a fact keeps its capital."""
    return "-".join(snake(p) if re.match(r"[◌<≤ℤ]*[a-z]", p) else p for p in name.split("-"))


def antt():
    return sorted(glob.glob("crates/**/*.antt", recursive=True))


def read(path):
    with open(path, encoding="utf-8") as f:
        return f.read()


def renamings():
    new = {}
    for path in antt():
        in_record = False
        for line in read(path).split("\n"):
            if RECORD.match(line):
                in_record = True
            elif line and not line.startswith(" "):
                in_record = False
            field = FIELD.match(line) if in_record else None
            if field and "-" in field.group(1) and not field.group(1).startswith(("invariant-", "decreases-")):
                new[field.group(1)] = OTHERWISE.get(field.group(1)) or snake(field.group(1)).replace("-", "_")
            for name in NAME.findall(line):
                if CAMEL.search(name) and name not in KEPT and name not in new:
                    new[name] = respelled(name)
    return {a: b for a, b in new.items() if a != b}


def main():
    new = renamings()
    paths = antt() + sorted(glob.glob("crates/*/src/**/*.rt", recursive=True)) + sorted(glob.glob("crates/*/must-fail/*")) + PAGES
    if sys.argv[1:] == ["--collisions"]:
        made = {}
        for a, b in new.items():
            made.setdefault(b, []).append(a)
        print([m for m in made.items() if len(m[1]) > 1])
        for path in paths:
            there = set(NAME.findall(read(path)))
            both = sorted(a for a in there if a in new and new[a] in there)
            if both:
                print(path, both)
        return
    for path in paths:
        text = read(path)
        to = NAME.sub(lambda m: new.get(m.group(), m.group()), text)
        if to != text:
            with open(path, "w", encoding="utf-8") as f:
                f.write(to)
    for a, b in sorted(new.items()):
        print(a, b)


main()
