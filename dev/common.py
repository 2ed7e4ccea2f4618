"""What the scripts of this folder share: the repository, its crates, rt, copies, and edits."""
import argparse
import hashlib
import os
import pathlib
import re
import shutil
import subprocess
import sys
import tempfile

ROOT = pathlib.Path(__file__).resolve().parent.parent
TARGET = ROOT / 'target'
# The folders of a crate that a check reads.
PARTS = ('src', 'specs', 'proofs')
# Copies lie outside the repository: below it rt ci refuses the files of any crate but its own.
COPIES = pathlib.Path(tempfile.gettempdir()) / f'{ROOT.name}-copies-{hashlib.sha256(str(ROOT).encode()).hexdigest()[:8]}'


def fail(text):
    """Ends with a sentence and the status of wrong usage."""
    print(f'{pathlib.Path(sys.argv[0]).name}: {text}', file=sys.stderr)
    sys.exit(2)


def parser(usage):
    """A parser of the command line whose help is the script's own text."""
    return argparse.ArgumentParser(description=usage, formatter_class=argparse.RawDescriptionHelpFormatter)


def processors():
    """How many processors there are for this command."""
    return len(os.sched_getaffinity(0))


# ---- crates

def rows():
    """The lines of crates.txt by the names of the crates."""
    lines = [line.split('#')[0].strip() for line in (ROOT / 'crates.txt').read_text().splitlines()]
    return {re.split('[ :]', line)[0]: line for line in lines if line}


def uses():
    """The crates that crates.txt lists, each with the names of what it uses."""
    return {name: line.partition(':')[2].split() for name, line in rows().items()}


def crate(name):
    """The folder of a crate that crates.txt lists."""
    if name not in uses():
        fail(f'crates.txt lists no crate {name}')
    return ROOT / 'crates' / name


def reached(name):
    """The crate and all crates of the repository below it."""
    listed, found, todo = uses(), set(), [name]
    while todo:
        next_one = todo.pop()
        if next_one in listed and next_one not in found:
            found.add(next_one)
            todo += listed[next_one]
    return sorted(found)


# ---- rt

def rt(*words, at=ROOT):
    """Runs rt in a folder; its exit status and all that it said."""
    try:
        run = subprocess.run(['rt', *words], cwd=at, stdin=subprocess.DEVNULL, stdout=subprocess.PIPE, stderr=subprocess.STDOUT)
    except FileNotFoundError:
        fail("the command 'rt' of the Rattle kit is not on the PATH")
    return run.returncode, run.stdout.decode(errors='replace')


def copied(name, kind):
    """A repository of this crate and those below it alone, in COPIES/KIND. What rt check proved of them in any copy on this machine, rt
    takes from there."""
    room = COPIES / kind
    shutil.rmtree(room, ignore_errors=True)
    listed = rows()
    for each in reached(name):
        for part in PARTS:
            if (ROOT / 'crates' / each / part).is_dir():
                shutil.copytree(ROOT / 'crates' / each / part, room / 'crates' / each / part)
    (room / 'crates.txt').write_text(''.join(f'{listed[each]}\n' for each in reached(name)))
    return room


def blocks(text):
    """What rt said, in parts: a line at the margin and those below it that are further in."""
    parts = [[]]
    for line in text.splitlines():
        if line and not line.startswith(' '):
            parts.append([])
        parts[-1].append(line)
    return [part for part in parts if part]


def shown(text):
    """The lines with errors, goals and verdicts; without advice, files to write, what stayed proved and what was loaded."""
    dull = re.compile(r'help: (write|if|try)|note: (to see how|a goal may be|antt|finished)|.*: note: |checked \S+, \d+ of|ahead of'
                      r'|(statements|library|logic|axioms|crate) |rt: (rt |chose|\S+: begins)')
    return [line for part in blocks(text) if not dull.match(part[0]) for line in part]


def show(lines, cut):
    """Prints lines, each cut off."""
    for line in lines:
        print(line[:cut])


# ---- edits

class Fault(Exception):
    """Why an edit is none."""


def edit_pairs(path):
    """The replacements of an edit file: (file, old, new). rt passes over every other line in silence."""
    pairs, name, old = [], None, None
    for number, line in enumerate(path.read_text().split('\n'), 1):
        if line.startswith('file: '):
            name = line[len('file: '):]
        elif line.startswith('old: ') and old is None:
            old = line[len('old: '):]
        elif line.startswith('new:') and old:
            pairs.append((name, old, line[len('new:'):].removeprefix(' ')))
            old = None
        elif line.strip() and not line.startswith(('#', 'at: ')):
            raise Fault(f'line {number} is no part of a pair: {line}')
    if old is not None or not pairs:
        raise Fault("an 'old:' line without its 'new:' line" if old else "no 'old:' and 'new:' pair")
    return pairs


def edited(folder, *paths):
    """The files of the crate that edits change, with their new text. Pairs are applied one after the other, as rt does."""
    texts = {}
    for name, old, new in (pair for path in paths for pair in edit_pairs(path)):
        if not name or '..' in name.split('/') or name.split('/')[0] not in PARTS:
            raise Fault(f"'file: {name}' is no file under src/, specs/ or proofs/")
        if not (folder / name).is_file():
            raise Fault(f'the crate has no {name}')
        text = texts.get(name) or (folder / name).read_text()
        if text.count(old) != 1:
            raise Fault(f'{text.count(old)} times in {name}: {old}')
        if old == new:
            raise Fault(f"'old:' and 'new:' are the same: {old}")
        texts[name] = text.replace(old, new)
    return texts
