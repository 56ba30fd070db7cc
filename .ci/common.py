"""What the scripts of this folder share: the crates of crates.txt, what stands on what, copies of crates, and what a log says of edits."""
import os
import pathlib
import re
import shutil
import tempfile

TOP = pathlib.Path(__file__).resolve().parent.parent
PROGRAM = 'tally'
CORES = len(os.sched_getaffinity(0))


def lines(name):
    """The lines of a file of the repository, without comments and empty ones."""
    text = (TOP / name).read_text(encoding='utf-8')
    return [line for line in (line.partition('#')[0].strip() for line in text.splitlines()) if line]


def needs_of_crates():
    """The crates of this repository that each crate uses, by its name."""
    found = {line.split(':')[0].split()[0]: line.partition(':')[2].split() for line in lines('crates.txt')}
    return {name: [it for it in words if it in found] for name, words in found.items()}


NEEDS = needs_of_crates()


def below(name):
    """The crates that a crate stands on, each after those that it stands on itself."""
    found = []
    for need in NEEDS[name]:
        found += [it for it in (*below(need), need) if it not in found]
    return found


def with_below(names):
    """These crates and those that they stand on, from the bottom up."""
    return list(dict.fromkeys(it for name in names for it in (*below(name), name)))


# The crates that the program is made of, from the bottom up.
OF_PROGRAM = with_below([PROGRAM])


def room_beside():
    """A new folder beside the repository, where files can be linked and moved, or in the temporary one where that is refused."""
    try:
        return pathlib.Path(tempfile.mkdtemp(prefix='tally-room-', dir=TOP.parent))
    except OSError:
        return pathlib.Path(tempfile.mkdtemp(prefix='tally-room-'))


def linked(source, target):
    """Gives a file a second name, or copies it where that cannot be."""
    try:
        os.link(source, target)
    except OSError:
        shutil.copy2(source, target)


def copy_crate(name, to):
    """Copies the sources of a crate and of those below it, with the libraries of these, into a folder that stands for the repository."""
    lower = below(name)
    for crate in (*lower, name):
        shutil.copytree(TOP / 'crates' / crate, to / 'crates' / crate, ignore=shutil.ignore_patterns('out', '*must-fail'))
    for crate in lower:
        library = pathlib.Path('crates', crate, 'out', 'rlib')
        shutil.copytree(TOP / library, to / library, copy_function=linked)
    named = {*lower, name}
    kept = [line for line in lines('crates.txt') if line.split(':')[0].split()[0] in named]
    (to / 'crates.txt').write_text('\n'.join(kept) + '\n', encoding='utf-8')
    shutil.copy2(TOP / 'HANDLES', to / 'HANDLES')


REFUSED = re.compile(r'(?:rt: )?must-fail (\S+)\.edit: refused, as it must be(.*)')
RECORDED = re.compile(r'must-fail (\S+)\.edit: recorded as refused')


def edits_in(*folders):
    """The must-fail edits that stand in these folders of the crates, as crate/name."""
    return {f'{it.parent.parent.name}/{it.stem}' for folder in folders for it in TOP.glob(f'crates/*/{folder}/*.edit')}


def refused_in(log):
    """By what each edit that a log says was refused was refused."""
    with open(log, encoding='utf-8', errors='replace') as file:
        return dict(match.groups() for match in map(REFUSED.match, file) if match)


def recorded_in(log):
    """The edits that a log says were not tried, since .ci/tried has them as refused."""
    with open(log, encoding='utf-8', errors='replace') as file:
        return {match[1] for match in map(RECORDED.match, file) if match}
