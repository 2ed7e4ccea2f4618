#!/usr/bin/env python3
"""Prints the table of tools/respell.py: each name of a definition or lemma of this repository, and its spelling in snake case.

usage: tools/respell_table.py KIT >tools/respelled.tsv      KIT: the folder of Rattle's library, whose names stay

A dash stays between two names of definitions or types, as in `length-each`; a plain word is joined by an underscore. A name that another one
would meet, or that a function's proof has as a label, stays.
"""
import collections
import os
import re
import sys

WORD = r"[^\s(){}.;,@\"«»:]+"
DECLARED = re.compile(rf"(?m)^ *(?:(?:pub|abbrev|unfoldable|let|in) +)*({WORD})(?: \{{[^{{}}\n]*\}})* :(?= |$)")
CALLED = re.compile(r"\w+(?=(<[^()\n]*>)?\()")
BOUND = re.compile(rf"[({{]((?:{WORD} +)*{WORD}) : |\blet ({WORD}) :(?= )|λ ([^.()]+)\.")


def files(root, kinds):
    for folder, folders, names in os.walk(root):
        folders[:] = sorted(d for d in folders if d not in ("out", "target", ".git"))
        for name in sorted(names):
            if name.endswith(kinds):
                yield os.path.join(folder, name)


def bare(path):
    with open(path, encoding="utf-8", errors="replace") as f:
        return re.sub(r"(?m)(^|\s)(--|//)(?=\s)[^\n]*", r"\1", f.read())


def free(text):
    """The names that stand alone: no step of a path, no field, no argument's name at a call."""
    text = re.sub(r"\buse [^\s;{]+", "use ", text)
    return re.findall(rf"(?<![.\w'-])({WORD})(?! =[^=])", text)


def own(path):
    """A file of lemmas or definitions, not of one function's proof."""
    parts = path.split(os.sep)
    return "specs" in parts or parts[-2] == "proofs"


def snake(word):
    return re.sub(r"(?<=[a-z0-9])[A-Z](?![A-Z0-9]*$)|(?<=[a-z0-9])[A-Z]", lambda m: "_" + m[0].lower(), word)


def main(kit):
    library = set()
    for part in ("std", "logic", "core", "std_alloc", "std_collections", "std_heap", "antt"):
        for path in files(os.path.join(kit, part), ".antt"):
            library.update(DECLARED.findall(bare(path)))
    mine = set(os.listdir("crates"))
    for path in files("crates", (".antt", ".rt")):
        for head, names in re.findall(r"\buse ([^\s;{]+)\.\{([^}]*)\}", bare(path)):
            steps = head.split(".")
            if steps[0] != "Rattle" or steps[1] not in mine:
                library.update(re.findall(WORD, names))
    declared, definitions, labels, tokens = collections.Counter(), set(), set(), set()
    bound = set()
    for path in files("crates", ".antt"):
        text = bare(path)
        tokens.update(free(text))
        if own(path):
            found = DECLARED.findall(text)
            declared.update(found)
            for a, b, c in BOUND.findall(text):
                bound.update((a + " " + b + " " + c).split())
            if os.sep + "specs" + os.sep in path:
                definitions.update(found)
        else:
            labels.update(DECLARED.findall(text))
            labels.update(re.findall(rf"\.({WORD})", text))
    for path in files("crates", ".rt"):
        tokens.update(free(CALLED.sub(" ", bare(path))))
    prelude = os.path.join(kit, "std", "specs", "Prelude.antt")
    known = definitions | set(re.findall(WORD, bare(prelude)))

    def is_name(part):
        return part in known or part[:1].isupper() or not part[:1].isalpha()

    def spelled(name):
        parts = name.split("-")
        said = snake(parts[0])
        for a, b in zip(parts, parts[1:]):
            said += ("-" if is_name(a) and is_name(b) else "_") + snake(b)
        return said

    table = {}
    for name in sorted(set(declared) | bound):
        if name in library or not re.match(r"[a-z]", name) or name not in tokens:
            continue
        new = spelled(name)
        if new != name:
            table[name] = new
    meets = collections.Counter(table.values())
    for name, new in sorted(table.items()):
        if "-" in name and (meets[new] > 1 or new in tokens) and new + "_lem" not in tokens:
            table[name] = new + "_lem"
    meets = collections.Counter(table.values())
    for name, new in sorted(table.items()):
        if meets[new] > 1 or new in tokens:
            print(f"meets: {name} {new}", file=sys.stderr)
        elif name in labels and "-" in name:
            print(f"label: {name}", file=sys.stderr)
        else:
            print(f"{name}\t{new}")


main(sys.argv[1])
