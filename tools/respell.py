#!/usr/bin/env python3
"""Spells the repository's own definitions, lemmas and fields as today's kit does, by respell.tsv beside this file: words in snake case.

usage: respell.py [FOLDER]    (the top of the repository; run once, after the kit's port.py)

Of each row the first name becomes the second: in .antt files and in the clauses, ghost items and comments of .rt files as whole words, in the
spec lines of must-fail edits, and in the pages of README and docs/ inside code spans. CHANGES.md tells of its time and stays.
"""
import glob
import os
import re
import sys

HERE = os.path.dirname(os.path.abspath(__file__))
WORD = re.compile(r"[^\s(){}.;,@\"«»`]+")
CLAUSE = re.compile(r"^\s*(requires|ensures|ghost)\b|^\s*//")


def table():
    with open(os.path.join(HERE, "respell.tsv"), encoding="utf-8") as rows:
        return dict(row.rstrip("\n").split("\t") for row in rows if row.strip())


def turned(text, names):
    text = WORD.sub(lambda m: names.get(m[0], m[0]), text)
    # an item that is brought in under its own name
    return re.sub(r"(?<=[{ ])(\S+) as \1(?=[,}])", r"\1", text)


def rust(text, names):
    return "".join(
        turned(line, names) if CLAUSE.search(line) else line
        for line in text.splitlines(keepends=True)
    )


def edit(text, names):
    lines, spec = [], False
    for line in text.splitlines(keepends=True):
        if line.startswith("file: "):
            spec = line.rstrip().endswith(".antt")
        clause = re.match(r"(old|new): *(requires|ensures|ghost)\b", line)
        lines.append(turned(line, names) if spec or clause or line.startswith("#") else line)
    return "".join(lines)


def page(text, names):
    return re.sub(r"`[^`\n]+`", lambda m: turned(m[0], names), text)


def main():
    top = sys.argv[1] if len(sys.argv) > 1 else "."
    names = table()
    kinds = [
        ("crates/*/specs/**/*.antt", turned),
        ("crates/*/proofs/**/*.antt", turned),
        ("crates/*/src/**/*.rt", rust),
        ("crates/*/must-fail/*.edit", edit),
        ("README.md", page),
        ("CONTRIBUTING.md", page),
        ("docs/*.md", page),
    ]
    changed = 0
    for pattern, turn in kinds:
        for path in sorted(glob.glob(os.path.join(top, pattern), recursive=True)):
            with open(path, encoding="utf-8") as f:
                was = f.read()
            now = turn(was, names)
            if now != was:
                changed += 1
                with open(path, "w", encoding="utf-8") as f:
                    f.write(now)
    print(f"respell: {len(names)} names, {changed} files changed")


main()
