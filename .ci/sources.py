"""The functions of a crate's sources: what each is of, the labels of its clauses, and the lines that it takes."""
import re

from common import TOP

FUNCTION = re.compile(r'( {4}|)(pub(?:\([a-z]+\))? )?(?:const )?fn (\w+)')
OWNER = re.compile(r'(?:pub )?trait (\w+)|impl(?:<.*?>)? (?:(\w+)(?:<.*>)? for )?(\w+)')
CLAUSE = re.compile(r' +ensures (?:(\w+) )?\{')
PLACE = re.compile(r'(?:note: )?(?:\./)?(src/\S+?\.rt):(\d+):\d+: ')
LABEL = re.compile(r'-clause-(\w+)')


class Function:
    """A function, the type or trait that it is of, the labels of its clauses, and by number from 0 the line of its name, its first one with its
    attributes, the one that opens its body, and its last."""

    def __init__(self, owner, lines, at):
        indent, self.pub, self.name = FUNCTION.match(lines[at]).groups()
        self.trait, self.type = owner if indent else (None, None)
        self.at, self.first, self.clauses = at, at, []
        while self.first > 0 and lines[self.first - 1].startswith(indent + '#['):
            self.first -= 1
        end = at
        for end in range(at, len(lines)):
            line = lines[end]
            if clause := CLAUSE.match(line):
                self.clauses.append(clause[1] or 'ensures')
            if line.rstrip().endswith((' {', ';')) and not CLAUSE.match(line) or line in (indent + '{', indent + '{}') or line.endswith('};'):
                break
        self.opened, ends = end, (indent + '}', indent + '{}')
        has_body = not lines[end].endswith(';')
        self.last = next((k for k in range(end, len(lines)) if lines[k] in ends or k == end and lines[k].endswith(' {}')), end) if has_body else end

    def title(self):
        return f'{self.type}::{self.name}' if self.type else self.name


def functions(text):
    """The functions of a file, in its order."""
    lines, owner, found = text.split('\n'), (None, None), []
    for at, line in enumerate(lines):
        if match := OWNER.match(line):
            owner = (match[1] or match[2], match[1] or match[3])
        if FUNCTION.match(line):
            found.append(Function(owner, lines, at))
    return found


def function_at(its, line):
    """The function, of those of a file, that a line is in, counted from 1."""
    return next((it for it in its if it.first < line <= it.last + 1), None)


def without_bodies(text):
    """A file without the lines between the brace that opens a function's body and the one that ends it. A `const fn` stays as it is."""
    lines = text.split('\n')
    inside = {at for it in functions(text) if 'const fn' not in lines[it.at] for at in range(it.opened + 1, it.last)}
    return '\n'.join(line for at, line in enumerate(lines) if at not in inside)


class Crate:
    def __init__(self, name):
        self.name, self.top = name, TOP / 'crates' / name
        self.files = {it.relative_to(self.top).as_posix(): functions(it.read_text(encoding='utf-8')) for it in sorted((self.top / 'src').rglob('*.rt'))}
        root = self.top / 'src' / 'lib.rt'
        lines = re.findall(r'^pub use (?:crate::)?([^;]*);', root.read_text(encoding='utf-8'), re.M) if root.exists() else []
        self.exported = {word for line in lines for word in re.findall(r'\w+', line.rpartition('::')[2])}
        for function in self.all():
            if function.trait and not function.clauses:
                its = [it for it in self.all() if it.type == it.trait == function.trait and it.name == function.name]
                function.clauses = its[0].clauses if its else []

    def all(self):
        return [function for path, its in self.files.items() if not path.startswith('src/tests') for function in its]

    def is_public(self, function):
        is_open = function.pub == 'pub ' or function.trait
        return bool(is_open) and (function.type or function.name) in self.exported and function.trait != 'Model'
