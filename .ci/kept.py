"""What is known of wrong bodies that were refused before, by the checksum of all that this rests on: on this machine the line that said
so, below XDG_CACHE_HOME, and in .ci/tried the crates of which all were refused.

A function is proved from the contracts of those that it calls, never from their bodies. So of the crates below a crate its verdicts rest
on definitions, lemmas and sources without the bodies of functions, and not on the proofs of functions or on worked values.
"""
import functools
import hashlib
import os
import pathlib
import re
import subprocess

from common import TOP, below, lines
from sources import without_bodies

SCRIPTS = ('bodies.py', 'sources.py')
# The proof of one function, which no crate above can cite.
OF_FUNCTIONS = ('Answers.antt', 'Invariants.antt', 'Proof.antt')
# Worked values, which none may cite: their files, the lines that name these, and what would cite them.
OF_VALUES = 'Worked*.antt'
NAMES_VALUES = re.compile(rb'^(pub )?mod Worked\w+\n?', re.M)
CITES_VALUES = re.compile(rb'\bproofs\.Worked')
TRIED = TOP / '.ci' / 'tried'
HEAD = """# The crates whose proofs cost no more than .ci/costs allows, and of which every wrong body was refused, with the checksum of all that this rests
# on: the gate does neither again. `make test-edits` writes this file after it has done both.
"""


@functools.lru_cache(maxsize=None)
def folder():
    """The folder of what is kept, or None where there is none to be had."""
    try:
        top = pathlib.Path(os.environ.get('XDG_CACHE_HOME') or pathlib.Path.home() / '.cache') / 'tally' / 'edits'
        top.mkdir(parents=True, exist_ok=True)
        return top
    except (OSError, RuntimeError):
        return None


def checksum(parts):
    return hashlib.sha256(b''.join(hashlib.sha256(it).digest() for it in parts)).hexdigest()


def files_of(crate, part):
    return sorted(it for it in (TOP / 'crates' / crate / part).rglob('*') if it.is_file())


def seen_text(it):
    """The text of a definition or lemma without what names worked values, which it may not cite."""
    text = it.read_bytes()
    if CITES_VALUES.search(text):
        raise SystemExit(f'{it.relative_to(TOP)} cites a worked value')
    return NAMES_VALUES.sub(b'', text) if it.name == 'Lib.antt' else text


@functools.lru_cache(maxsize=None)
def own_sum(crate):
    """The checksum of a crate whole."""
    its = [it for part in ('src', 'specs', 'proofs') for it in files_of(crate, part)]
    return checksum(part for it in its for part in (it.relative_to(TOP).as_posix().encode(), it.read_bytes()))


@functools.lru_cache(maxsize=None)
def surface_sum(crate):
    """The checksum of what the crates above can see of a crate."""
    sources = [(it, without_bodies(it.read_text(encoding='utf-8')).encode()) for it in files_of(crate, 'src')]
    lemmas = [it for it in files_of(crate, 'proofs') if it.name not in OF_FUNCTIONS and not it.match(OF_VALUES)]
    its = sources + [(it, seen_text(it)) for it in [*files_of(crate, 'specs'), *lemmas]]
    return checksum(part for it, text in its for part in (it.relative_to(TOP).as_posix().encode(), text))


@functools.lru_cache(maxsize=None)
def crate_sum(name):
    """The checksum of what a verdict on an edit of this crate rests on beside the edit: the crate, what it sees of those below, the logic, and scripts."""
    named = [*below(name), name]
    said = subprocess.run(['rt', 'version'], stdout=subprocess.PIPE, check=True).stdout
    logic = said[said.index(b'logic'):]
    uses = [line.encode() for line in lines('crates.txt') if line.split(':')[0].split()[0] in named]
    sums = [*map(surface_sum, below(name)), own_sum(name)]
    scripts = [(TOP / '.ci' / it).read_bytes() for it in SCRIPTS]
    return checksum([logic, (TOP / 'HANDLES').read_bytes(), *uses, *(it.encode() for it in sums), *scripts])


def place(name, edit):
    """The file that keeps what an edit of a crate was refused by."""
    its = hashlib.sha256(f'{crate_sum(name)} {edit.name}\n{edit.text}'.encode()).hexdigest()
    return folder() / its if folder() else None


def line(name, edit):
    """The line that says by what the edit was refused, where a run has kept it."""
    file = place(name, edit)
    return file.read_text(encoding='utf-8') if file and file.exists() else None


def keep(name, edit, said):
    """Keeps such a line, whole or not at all."""
    file = place(name, edit)
    if file:
        new = file.with_name(f'{file.name}.{os.getpid()}')
        new.write_text(f'{said}\n', encoding='utf-8')
        new.replace(file)


def whole_sum(name, edits):
    """The checksum of all that the verdicts on these edits of a crate rest on."""
    return checksum([crate_sum(name).encode(), *(part.encode() for it in sorted(edits, key=lambda it: it.name) for part in (it.name, it.text))])


@functools.lru_cache(maxsize=None)
def recorded():
    """The checksum of each crate whose wrong bodies were all refused."""
    return dict(line.split() for line in lines('.ci/tried')) if TRIED.exists() else {}


def is_recorded(name, edits):
    """Whether .ci/tried has the crate, with all its wrong bodies, as it stands."""
    return recorded().get(name) == whole_sum(name, edits)


def record(sums):
    """Writes the checksums of these crates into the file, beside those that stand there."""
    its = recorded() | sums
    TRIED.write_text(HEAD + ''.join(f'{name} {its[name]}\n' for name in sorted(its)), encoding='utf-8')
