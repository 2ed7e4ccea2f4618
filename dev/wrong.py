"""Wrong programs: the edits of crates/CRATE/wrong/, the groups of them that crates/CRATE/must-fail/ holds for rt, and what a check
said of each. A check of a crate takes about as long with many wrong functions as with one, so many are tried at once. That each is
refused for itself is read from what the check of its group says: at the place that its `at:` line names, a fact fails. A place is a
declaration of a proof file, or a goal of a function that rattle's search does not prove (`at: proofs/bytes/Answers.antt returns`,
`at: fn qcow2_under::against::capped returns-2`)."""
import re
import shutil
from collections import defaultdict
from concurrent.futures import ThreadPoolExecutor

from common import Fault, copied, edit_pairs, edited, rt

# What antt says of a fact that does not hold: an equation, a bound, a proposition that is another one, or one without the term that
# the proof goes on from.
FACT = re.compile('no proof of|found no proof|the goal does not follow|the two types|expected type|missing equation|do not join'
                  '|of that as the last argument|no occurrence of the path|has an instance in the goal|rewrites nothing'
                  '|stopped at its own limit|≟')
# What follows from another error, or says only that the proof has not the shape of the code: a name that is missing, or the proof
# of one goal handed over for another.
MISFIT = re.compile('was not admitted|was rejected|has no (field )?`|can be named from here|is not in scope|projects from a record'
                    r'|expected type `\S*Need-[^`]*`,?\s+but this has type `\S*Need-')
ERROR = re.compile(r'(?:so far: )?(?:\./)?(\S+):\d+:\d+: error: `([^`]*)`: (.*)', re.DOTALL)
# The answers that are not looked at, since what they rest on was refused; and an error that is none of one declaration, after which
# the whole file may be unread.
UNCHECKED = re.compile(r'(?:so far: )?(?:\./)?(proofs/\S+):\d+:\d+: error: \d+ declarations? .* not checked: (.*?)( and \d+ more)?$',
                       re.MULTILINE)
UNREAD = re.compile(r'(?:so far: )?(?:\./)?(proofs/\S+):\d+:\d+: error: (?!`[^`]*`: )')
# A goal that the search did not prove comes before its function's own line, and where the function has no file in that line too.
OPEN = re.compile(r'note: \S+:\d+:\d+: it is not proved that .*\(`([^`]+)`\)')
FUNCTION = re.compile(r'fn (.+?): (.*)')
UNPROVED = re.compile('`search` did not prove ([^;]*)')
# Every kind of goal.
ALL = ''

ITEM = re.compile(r'^(?!where\b)(?:(?:pub|extern "C"|fn|const|struct|enum|data|record|unfoldable|abbrev) )*([^\W\d][\w-]*)', re.MULTILINE)
METHOD = re.compile(r'^    (?:pub )?fn (\w+)', re.MULTILINE)
IMPL = re.compile(r' (?:(\w+)(?:<(\w+)>)? for )?(\w+)')


def lost_answers(parts):
    """The kinds of goals whose answers each function has lost: a goal of such a kind that the search does not prove may be one that has
    only another name than its answer. The first word of a goal's name is its kind. An invariant that is gone, and a file that was not
    read, may have been for any."""
    lost = defaultdict(set)
    for part in parts:
        error, unchecked, unread = ERROR.match(part), UNCHECKED.match(part), UNREAD.match(part)
        if error and error[1].startswith('proofs/') and MISFIT.search(error[3]):
            kind = error[2].split('-')[0]
            lost[proof_of(f'{error[1]} {error[2]}')].add(ALL if kind in ('invariant', 'decreases') else kind)
        elif unchecked:
            names = unchecked[2].split(', ')
            lost[proof_of(f'{unchecked[1]} _')].update([ALL] if unchecked[3] else [name.split('-')[0] for name in names])
        elif unread:
            lost[proof_of(f'{unread[1]} _')].add(ALL)
    return lost


def places(log):
    """Each place with an error that a check's output has, in order, and whether a fact fails there."""
    found, left = {}, []
    parts = re.split(r'\n(?=\S)', log)
    lost = lost_answers(parts)
    for part in parts:
        if error := ERROR.match(part):
            place = f'{error[1]} {error[2]}'
            found[place] = found.get(place, False) or bool(FACT.search(error[3]) and not MISFIT.search(error[3]))
        elif goal := OPEN.match(part):
            left.append(goal[1])
        elif function := FUNCTION.match(part):
            said = UNPROVED.search(function[2])
            goals = dict.fromkeys([*left, *(re.findall('`([^`]*)`', said[1]) if said else [])])
            kinds = lost[proof_of(f'fn {function[1]} _')]
            found.update({f'fn {function[1]} {goal}': not {ALL, goal.split('-')[0]} & kinds for goal in goals})
            left = []
    return found


# ---- one wrong program

def programs(folder):
    """The wrong programs of a crate: the path of each by its label."""
    return {path.stem: path for path in sorted(folder.glob('wrong/*.edit'))}


def place_of(path):
    """The place at which a wrong program must be refused; None where no line says it. A function may stand without its crate."""
    found = re.findall('^at: (.*)$', path.read_text(), re.MULTILINE)
    name = path.parent.parent.name
    return re.sub(f'^fn (?!{name}::)', f'fn {name}::', found[0]) if len(found) == 1 else None


def item(text):
    """The function, constant or definition in which a text ends; a method has its type's name before its own, and one of a trait the
    name of the trait after that, as the folders of proofs/ have it: `U32Word` of `impl Word for u32`, `RefusalFromCause`."""
    last = list(ITEM.finditer(text))[-1]
    methods = METHOD.findall(text[last.end():])
    if last[1] != 'impl' or not methods:
        return last[1]
    trait, of, kind = IMPL.match(text[last.end():]).groups()
    return f'{kind[0].upper() + kind[1:] + trait + (of or "") if trait else kind}::{methods[-1]}'


def changes(folder, path):
    """What each pair of a wrong program changes: the file, its text up to the old one's end, and the old text."""
    texts = {}
    for name, old, new in edit_pairs(path):
        before, _, after = (texts.get(name) or (folder / name).read_text()).partition(old)
        texts[name] = before + new + after
        yield name, before + old, old


def items(folder, path):
    """The functions, constants and definitions that a wrong program changes; lines that only import are none."""
    found = {f'{name} {item(text)}' for name, text, _ in changes(folder, path)}
    return {changed for changed in found if not changed.endswith(' use')}


def in_contract(text, old):
    """Whether an old text, with which a text of a source file ends, stands in a line of a contract."""
    line = text[:len(text) - len(old)].rpartition('\n')[2] + old
    return line.split()[:1] in (['requires'], ['ensures'])


def functions(folder, path):
    """The functions whose bodies a wrong program changes, as their proofs' folders are named; None where it changes what other
    functions or lemmas see: a definition, a constant or a contract."""
    changed = [found.split(' ') for found in items(folder, path)]
    if any(in_contract(text, old) for _, text, old in changes(folder, path)):
        return None
    if not all(file.startswith('src/') and name.split('::')[-1].islower() for file, name in changed):
        return None
    return {f"{file[len('src/'):-len('.rt')]}/{name}".replace('lib/', '', 1).replace('::', '/') for file, name in changed}


def proof_of(place):
    """The function in whose proof a place is, likewise."""
    file, name = place.split(' ')[:2]
    if file == 'fn':
        return name.partition('::')[2].replace('::', '/')
    return file[len('proofs/'):].rpartition('/')[0].replace('+', '')


def is_own(folder, path, place):
    """Whether a place is one for this wrong program. A wrong body is refused in its function's own proof, which the body of no other
    function can break; what more of the crate sees is refused wherever that is used."""
    bodies = functions(folder, path)
    return bodies is None or proof_of(place) in bodies


def is_there(folder, place):
    """Whether the crate has a place, as far as texts tell: a declaration of a file."""
    file, name = place.split(' ')[:2]
    if file == 'fn':
        return True
    declared = rf'^ *(?:(?:pub|abbrev|unfoldable|record|data) )*{re.escape(name)}(?= |$)'
    return (folder / file).is_file() and bool(re.search(declared, (folder / file).read_text(), re.MULTILINE))


# ---- groups

def group_text(folder, labels):
    """The edit file that holds these wrong programs, each under its label."""
    bodies = [re.sub('^(at: |#).*\n', '', (folder / f'wrong/{label}.edit').read_text(), flags=re.MULTILINE) for label in labels]
    return ''.join(f'# {label}\n{body}' for label, body in zip(labels, bodies))


def groups(folder):
    """The groups of a crate: the labels of each by its name."""
    return {path.stem: re.findall('^# (.*)$', path.read_text(), re.MULTILINE) for path in sorted(folder.glob('must-fail/*.edit'))}


def applies(folder, labels):
    """Whether these wrong programs can be one: they change different functions, and each text is there when its turn comes."""
    paths = [folder / f'wrong/{label}.edit' for label in labels]
    try:
        edited(folder, *paths)
        changed = [found for path in paths for found in items(folder, path)]
    except Fault:
        return False
    return len(changed) == len(set(changed))


def program_fault(folder, path):
    """What is wrong with a wrong program as it is written; None where nothing is."""
    try:
        edited(folder, path)
    except Fault as why:
        return str(why)
    place = place_of(path)
    if not place:
        return "not one 'at:' line"
    if not is_own(folder, path, place):
        return f'its place is in the proof of another function: {place}'
    return None if is_there(folder, place) else f'the crate has not its place: {place}'


def group_faults(folder):
    """What is wrong with the wrong programs and the groups of a crate as they are written, a line each."""
    wrong, held = programs(folder), groups(folder)
    members = [label for labels in held.values() for label in labels]
    for label, path in wrong.items():
        if members.count(label) != 1:
            yield f'{label}: in {members.count(label)} groups of must-fail/'
        if fault := program_fault(folder, path):
            yield f'{label}: {fault}'
    for name, labels in held.items():
        at = [place_of(wrong[label]) for label in labels if label in wrong]
        if not set(labels) <= set(wrong) or (folder / f'must-fail/{name}.edit').read_text() != group_text(folder, labels):
            yield f'{name}: not what wrong/ has'
        elif len(set(at)) < len(at) or not applies(folder, labels):
            yield f'{name}: two that cannot be told apart'


def not_shown(folder, labels, log):
    """Those of a group at whose place a check's output has no fact that fails."""
    found, wrong = places(log), programs(folder)
    return [label for label in labels if label in wrong and not found.get(place_of(wrong[label]))]


# ---- trying

def is_refused(status, log):
    """Whether the prover refused what was checked. A text that the front end refuses, and a limit, are no refusal."""
    return status == 1 and '\nlogic=not-proved' in log


def checked(folder, texts):
    """The check of a copy of a crate with these texts in the place of its own: its status and what it said."""
    were = {name: (folder / name).read_text() for name in texts}
    try:
        for name, new in texts.items():
            (folder / name).write_text(new)
        return rt('check', '--jobs', '1', at=folder)
    finally:
        for name, old in were.items():
            (folder / name).write_text(old)


def tried(name, edits, kind, at_once=1):
    """What the check of a crate says with each of these edits, which are new texts of its files, by their labels. Each is checked over
    what the check of the crate as it is kept, in copies that are removed again."""
    def some(number):
        folder = copied(name, f'{kind}/{name}.{number}') / 'crates' / name
        try:
            if checked(folder, {})[0] != 0:
                raise Fault('it is not proved as it is')
            return {label: checked(folder, edits[label]) for label in list(edits)[number::at_once]}
        finally:
            shutil.rmtree(folder.parent.parent)

    at_once = min(at_once, len(edits))
    if not edits:
        return {}
    with ThreadPoolExecutor(at_once) as pool:
        return {label: said for part in pool.map(some, range(at_once)) for label, said in part.items()}
