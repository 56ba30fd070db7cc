"""Wrong bodies of a crate: what an edit changes, which of them share a check, and by what each was refused."""
import pathlib
import re
import shutil

from beside import COMMANDS, MEMORY
from common import TOP, copy_crate, room_beside
from sources import PLACE, function_at, functions

# Where they stand: those that tell most, and the others.
FOLDERS = ('must-fail', 'more-must-fail')
NOTE = re.compile(r'note: (\./)?src/.*: it is not proved that .*')
# What is said of a proof by hand that names what an edit took away, which says little of the edit.
GONE = re.compile(r"has no field|is not in scope|has no `|was not admitted")
# The crate of each check that was made.
CHECKS = []


class Edit:
    """A wrong body: its name, the texts that it replaces, and the functions that these are in, by file and first line."""

    def __init__(self, path, crate):
        self.name, self.pairs, self.places = path.stem, [], set()
        self.text = path.read_text(encoding='utf-8')
        file = old = None
        for line in self.text.splitlines():
            word, _, text = line.partition(': ')
            if word == 'file':
                file = text
            elif word == 'old':
                old = text
            elif word == 'new':
                self.pairs.append((file, old, text))
        for file, old, _ in self.pairs:
            text = (crate / file).read_text(encoding='utf-8')
            at = text[:text.find(old)].count('\n') + 1 if old in text else 0
            self.places.add((file, function_at(functions(text), at) and function_at(functions(text), at).first))

    def is_of_functions(self):
        return all(file.startswith('src/') and first is not None for file, first in self.places)

    def apply(self, crate):
        """Replaces its texts, and says whether each stood there once."""
        for file, old, new in self.pairs:
            text = (crate / file).read_text(encoding='utf-8')
            if text.count(old) != 1:
                return False
            (crate / file).write_text(text.replace(old, new), encoding='utf-8')
        return True

    def fits(self, others):
        """Whether it changes no function of these, and its texts stand in none that they write."""
        return not any(self.places & it.places or any(old in new or mine in theirs for _, old, mine in self.pairs for _, theirs, new in it.pairs)
                       for it in others)


def rounds(edits):
    """The edits in as few rounds as follow from taking each into the first that it fits."""
    found = []
    for edit in edits:
        fitting = [it for it in found if edit.is_of_functions() and it[0].is_of_functions() and edit.fits(it)]
        if fitting:
            fitting[0].append(edit)
        else:
            found.append([edit])
    return found


def check(name, edits):
    """What the toolchain says of the crate with these edits, and whether each could be made."""
    CHECKS.append(name)
    room = room_beside()
    try:
        copy_crate(name, room)
        begun = pathlib.Path('crates', name, 'out', 'incremental')
        if (TOP / begun).is_dir():
            shutil.copytree(TOP / begun, room / begun)
        made = {it.name: it.apply(room / 'crates' / name) for it in edits}
        with MEMORY:
            return COMMANDS.said(['nice', 'rt', 'check', '--jobs', '1'], room / 'crates' / name).splitlines(), made
    finally:
        shutil.rmtree(room, ignore_errors=True)


def by_hand(file, function):
    """What the error of a proof of the function by hand begins with: proofs stand under a method's type, or else under the module."""
    module = file.removeprefix('src/').removesuffix('.rt').removesuffix('lib').removesuffix('main').rstrip('/')
    folder = r'(.*/)?' + function.type + r'\w*/' if function.type else module + '/' if module else ''
    return re.compile(r'(\./)?proofs/' + folder + r'\+?' + function.name + r'[/.].*: error')


def refusal(edit, crate, said):
    """The first that is said of a function of an edit: a note on it, or the error of a proof of it by hand."""
    texts = {file: functions((crate / file).read_text(encoding='utf-8')) for file, _ in edit.places if file.startswith('src/')}
    changed = [(file, it) for file, its in texts.items() for it in its if (file, it.first) in edit.places]
    errors = [by_hand(file, it) for file, it in changed]
    found = []
    for line in said:
        place = PLACE.match(line) if NOTE.match(line) else None
        if place and any(file == place[1] and it.first < int(place[2]) <= it.last + 1 for file, it in changed) or any(it.match(line) for it in errors):
            found.append(line)
    return next((line for line in found if not GONE.search(line)), found[0] if found else None)


def is_spoilt_by(edit, crate, said):
    """Whether an error stands in a function of the edit: where a text does not compile, nothing is said of the others."""
    errors = [PLACE.match(line) for line in said if re.match(r'(\./)?src/\S+: error', line)]
    places = [(match[1], int(match[2])) for match in errors if match]
    texts = {file: functions((crate / file).read_text(encoding='utf-8')) for file, _ in places if (crate / file).exists()}
    return any((file, it.first) in edit.places for file, line in places for it in [function_at(texts.get(file, []), line)] if it)


def verdicts(name, edits):
    """What came of each edit of a round: whether it was refused, and the line to print."""
    said, made = check(name, edits)
    crate, found = TOP / 'crates' / name, {}
    is_judged = any(line.startswith('logic=not-proved') for line in said)
    others = [it for it in edits if made[it.name] and not is_spoilt_by(it, crate, said)]
    if not is_judged and 0 < len(others) < len(edits):
        for its in [others, *([it] for it in edits if it not in others)]:
            found.update(verdicts(name, its))
        return found
    for edit in edits:
        label = f'must-fail {name}/{edit.name}.edit: '
        why = refusal(edit, crate, said) if is_judged and made[edit.name] else None
        if why:
            found[edit.name] = True, f'{label}refused, as it must be: {why}'
        elif len(edits) > 1:
            found.update(verdicts(name, [edit]))
        elif not made[edit.name]:
            found[edit.name] = False, f'{label}BAD EDIT: a text of it does not stand there once'
        elif is_judged:
            first = next((line for line in said if NOTE.match(line) or re.match(r'(\./)?(proofs|src|specs)/\S+: error', line)), '')
            found[edit.name] = True, f'{label}refused, as it must be: {first}'
        else:
            found[edit.name] = False, f'{label}{"NOT REFUSED" if any(line.startswith("logic=proved") for line in said) else "BAD EDIT: " + " ".join(said[-3:])}'
    return found


def edits_of(name, folders=FOLDERS):
    """The wrong bodies in these folders of a crate."""
    crate = TOP / 'crates' / name
    return [Edit(path, crate) for folder in folders for path in sorted((crate / folder).glob('*.edit'))]
