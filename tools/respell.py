#!/usr/bin/env python3
"""Brings this repository's definitions and lemmas to snake case, by the table beside this script. Run once, right after the port's own script.

usage: tools/respell.py         at the top of the repository; rows of the table: old, new, and where it is not everywhere, the beginning of the paths

Whole words of .antt and .rt files turn, in wrong edits and in counter/ too; of README.md and docs/ what stands in code spans.
"""
import os
import re

WORD = re.compile(r"[^\s(){}.;,@\"«»:`]+")
HERE = os.path.dirname(os.path.realpath(__file__))
KINDS = (".antt", ".rt", ".edit", ".antt.txt", ".part.txt")


def paths():
    for top in ("crates", "counter", "docs"):
        for folder, folders, names in os.walk(top):
            folders[:] = sorted(d for d in folders if d not in ("out", "target"))
            for name in sorted(names):
                yield os.path.join(folder, name)
    yield "README.md"


def main():
    with open(os.path.join(HERE, "respelled.tsv"), encoding="utf-8") as f:
        rows = [line.rstrip("\n").split("\t") for line in f]
    everywhere = {row[0]: row[1] for row in rows if len(row) == 2}
    there = [row for row in rows if len(row) == 3]
    for path in paths():
        table = everywhere | {old: new for old, new, where in there if path.startswith(where)}
        turn = lambda text: WORD.sub(lambda m: table.get(m[0], m[0]), text)
        if path.endswith(KINDS):
            how = turn
        elif path.endswith(".md"):
            how = lambda text: re.sub(r"`[^`\n]+`", lambda m: turn(m[0]), text)
        else:
            continue
        with open(path, encoding="utf-8") as f:
            old = f.read()
        new = how(old)
        if new != old:
            with open(path, "w", encoding="utf-8") as f:
                f.write(new)


main()
