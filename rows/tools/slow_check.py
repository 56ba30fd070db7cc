"""What `check` prints, slowly, from the definitions of docs/SPECIFICATION.md. Nothing here is taken from the program's code or its output.
What records say stands in records.py, sessions and tables in slow.py, what the rows of a database mean in tables.py.
"""
import os
import re
import struct
import tempfile

import tables
from choices import NO_TABLE
from records import SIZES, Fault, login, process
from slow import clock_of, iso, moment, shift, shown, stays_of, table

TYPES = ('EMPTY', 'RUN_LVL', 'BOOT_TIME', 'NEW_TIME', 'OLD_TIME', 'INIT_PROCESS', 'LOGIN_PROCESS', 'USER_PROCESS', 'DEAD_PROCESS', 'ACCOUNTING')
NAMES = ('kind,size,records,' + ','.join(TYPES).lower() + ',version_2,version_3,first,first_at,last,last_at,open,open_seconds,crashed,crashed_seconds,'
         'zeros,zeros_at_end,first_zeros,unknown,first_unknown,steps_back,greatest_step,rest,doubtful')

MARKS = {'gzip': b'\x1f\x8b', 'xz': b'\xfd7zXZ\0', 'zstd': b'\x28\xb5\x2f\xfd', 'sqlite': b'SQLite format 3\0'}
UNPACKERS = {'gzip': 'zcat', 'xz': 'xzcat', 'zstd': 'zstdcat', 'bzip2': 'bzcat'}
OTHERS = {
    'empty': 'empty', **{kind: 'packed by ' + kind for kind in UNPACKERS},
    'sqlite': 'an SQLite database, as of wtmpdb',
    'login_400': 'login records of 400 bytes, as 64-bit ARM and s390x write them',
    'login_big_endian': 'login records of a big-endian machine',
    'process_big_endian': 'process records of a big-endian machine',
    'lastlog': 'the last login of each user, as lastlog(8) shows it',
    'savacct': 'the sums by command of sa(8), as savacct keeps them',
    'usracct': 'the sums by user of sa(8), as usracct keeps them',
    'text': 'text',
    'unknown': 'of no known kind',
}


# Kinds

def has_text(field):
    return not field.partition(b'\0')[2].strip(b'\0')


def is_login(raw, order):
    kind, = struct.unpack_from(order + 'H', raw)
    return kind <= 9 and all(has_text(raw[at:at + size]) for at, size in ((8, 32), (44, 32), (76, 256)))


def is_process(raw, high):
    return raw[1] == 2 + high and has_text(raw[36:53]) or raw[1] == 3 + high and has_text(raw[48:64])


def is_lastlog(raw):
    return has_text(raw[4:36]) and raw[35] == 0 and has_text(raw[36:]) and raw[291] == 0


def has_sums(raw):
    """A count of calls and eight doubles, each 0 or from 2^-31 up to 2^81."""
    calls, = struct.unpack_from('<Q', raw)
    return 1 <= calls < 2 ** 32 and all(not any(raw[at:at + 8]) or 2.0 ** -31 <= struct.unpack_from('<d', raw, at)[0] < 2.0 ** 81 for at in range(8, 72, 8))


def is_savacct(raw):
    return has_text(raw[:16]) and raw[16] <= 1 and has_sums(raw[24:])


def is_usracct(raw):
    return has_text(raw[:32]) and raw[0] != 0 and has_sums(raw[32:])


TESTS = (('login', 384, lambda it: is_login(it, '<')), ('login_400', 400, lambda it: is_login(it, '<')), ('login_400', 400, lambda it: is_login(it, '>')),
         ('login_big_endian', 384, lambda it: is_login(it, '>')), ('process', 64, lambda it: is_process(it, 0)),
         ('process_big_endian', 64, lambda it: is_process(it, 128)), ('lastlog', 292, is_lastlog), ('savacct', 96, is_savacct), ('usracct', 104, is_usracct))


def looks(front, length):
    """What a file looks like by its first 4,096 bytes and its size."""
    def has(size, test):
        return (length % size == 0 and len(front) >= size and any(front)
                and all(test(front[at:at + size]) for at in range(0, len(front) - size + 1, size)))

    if not front:
        return 'empty'
    for name, mark in MARKS.items():
        if front.startswith(mark):
            return name
    if re.match(b'BZh[1-9]', front):
        return 'bzip2'
    for name, size, test in TESTS:
        if has(size, test):
            return name
    return 'text' if re.fullmatch(b'[\t\n\r -~\x80-\xff]*', front) else 'unknown'


def kind_of(raw):
    """The guess by the front alone; what is no guess is by most of the records."""
    guess = looks(raw[:4096], 0)
    if guess == 'login' and looks(raw[:4096], len(raw)) == 'login_400':
        return 'login_400'
    if guess != 'unknown':
        return guess
    return 'login' if is_mostly(raw, 'login') else 'process' if is_mostly(raw, 'process') else 'unknown'


# Records

READ = {'login': (SIZES['w'], login), 'process': (SIZES['p'], process)}


def seen(raw, kind):
    """Of each whole record: 'zeros', 'unknown', or its type or version with the second that it names."""
    size, read = READ[kind]
    for at in range(len(raw) // size):
        record = raw[at * size:at * size + size]
        if not any(record):
            yield 'zeros'
            continue
        try:
            found = read(record, at)
            yield (found['kind'], found['time']) if kind == 'login' else (record[1], found['begin'])
        except Fault:
            yield 'unknown'


def is_mostly(raw, kind):
    found = list(seen(raw, kind))
    return found.count('unknown') < sum(isinstance(it, tuple) and it[0] > 0 for it in found)


def first(found, what):
    return found.index(what) if what in found else ''


def steps(host):
    """How far each record steps back: by its time without what it moves the clock."""
    return [max(0, host[at - 1]['time'] - (host[at]['time'] - shift(host, at))) for at in range(1, len(host))]


def sessions(raw, found):
    """How often records step back and the greatest step; how many sessions are open, their seconds, and the same of those that a boot ended."""
    host = [login(raw[at * 384:at * 384 + 384], at) for at, it in enumerate(found) if isinstance(it, tuple)]
    stays = [stay for stay in stays_of(host, None) if not stay['is_boot']]
    weighing = [[stay['seconds'] for stay in stays if stay['end'] == end] for end in ('Still', 'crash')]
    back = steps(host)
    return [sum(step > 0 for step in back), max(back, default=0)], [it for seconds in weighing for it in (len(seconds), sum(seconds))]


# Databases

def rows_or_fault(path, raw):
    """The rows of a database of wtmpdb, or in their place why no login records are made of it. None of another file, and of one in a pipe."""
    if path == '/dev/stdin' or not raw.startswith(MARKS['sqlite']):
        return None
    with tempfile.TemporaryDirectory() as folder:
        copy = os.path.join(folder, 'wtmp.db')
        with open(copy, 'wb') as file:
            file.write(raw)
        rows = tables.read(copy)
    return rows if isinstance(rows, str) else tables.fault(rows) or rows


def fields_of_database(rows, size, clock):
    """The fields of the login records that are made of these rows, in which nothing is doubtful."""
    types, span, stays = tables.counted(rows)
    if not span:
        return ['wtmpdb', size] + 29 * [''] + [0]
    times = [it for time in span for it in (time, iso(time, clock))]
    return ['wtmpdb', size, sum(types.values()), *(types.get(at, 0) for at in range(10)), '', '', *times, *(it for stay in stays for it in stay),
            0, 0, '', 0, '', 0, 0, 0, 0]


# Rows

def fields(raw, clock, made=None):
    """The fields of a row after those of the file, of which a database has rows or a fault."""
    if isinstance(made, list):
        return fields_of_database(made, len(raw), clock)
    kind = kind_of(raw)
    if kind not in READ:
        return [kind, len(raw)] + 29 * [''] + [int(kind != 'empty')]
    found = list(seen(raw, kind))
    known = [it for it in found if isinstance(it, tuple)]
    counts = [sum(it[0] == value for it in known) for value in (range(10) if kind == 'login' else (2, 3))]
    times = sorted(time for _, time in known)
    span = [it for time in (times[0], times[-1]) for it in (time, iso(time, clock))] if times else 4 * ['']
    zeros, at_end = found.count('zeros'), len(found) - max((at + 1 for at, it in enumerate(found) if it != 'zeros'), default=0)
    back, stays = sessions(raw, found) if kind == 'login' else (['', ''], 4 * [''])
    rest, unknown = len(raw) % READ[kind][0], found.count('unknown')
    types = counts + ['', ''] if kind == 'login' else 10 * [''] + counts
    return [kind, len(raw), len(found), *types, *span, *stays, zeros, at_end, first(found, 'zeros'), unknown, first(found, 'unknown'), *back, rest,
            int(bool(zeros or unknown or back[0] or rest))]


# Sections

def length(seconds):
    return '%d:%02d:%02d' % (seconds // 3600, seconds // 60 % 60, seconds % 60)


def number(count, one, more):
    return '%d %s' % (count, one if count == 1 else more)


def quoted(path):
    """A path in a command, as a shell reads it."""
    word = path if re.fullmatch('[A-Za-z0-9%+,./:@_-]*', path) else "'%s'" % shown(path.encode()).replace("'", "'\\''")
    return './' * path.startswith('-') + word


def name_of(row):
    if row['kind'] == 'wtmpdb':
        return 'login records of a database'
    if row['kind'] == 'login':
        counts = [row[name.lower()] for name in TYPES]
        return 'login records' + ', maybe failed logins' * (sum(counts[6:8]) > 0 and sum(counts[1:6] + counts[8:]) == 0)
    if row['kind'] == 'process':
        versions = [version for version in (2, 3) if row['version_%d' % version]]
        return 'process records' + (', version' + 's' * (len(versions) > 1) + ' ' + ' and '.join(map(str, versions))) * bool(versions)
    return OTHERS[row['kind']]


def doubts(row):
    """What makes totals doubtful, a text for each thing."""
    def records(count, at, what):
        place = 'record %s' if count == 1 else 'the first is record %s'
        return [number(count, 'record ' + what, 'records ' + what) + ': ' + place % at] if count else []

    at_end, what = row['zeros_at_end'], 'type' if row['kind'] == 'login' else 'version'
    yield from records(row['zeros'] - at_end, row['first_zeros'], 'of zeros before other records')
    yield from records(at_end, row['records'] - at_end, 'of zeros at the end')
    yield from records(row['unknown'], row['first_unknown'], 'of no known ' + what)
    if row['steps_back']:
        yield '%s without a clock change, %s at most' % (number(row['steps_back'], 'step back in time', 'steps back in time'), length(row['greatest_step']))
    if row['rest']:
        yield number(row['rest'], 'byte', 'bytes') + ' after the last whole record'


def lines_of(row, clock):
    """The lines between the size and what is doubtful, each its label and its text."""
    yield 'records', '%d' % row['records']
    types = ', '.join('%d %s' % (row[name.lower()], name) for name in TYPES if row[name.lower()])
    if types:
        yield 'types', types
    if row['version_2'] and row['version_3']:
        yield 'versions', '%d of version 2, %d of version 3' % (row['version_2'], row['version_3'])
    if row['first'] != '':
        yield from (('first', moment(row['first'], clock)), ('last', moment(row['last'], clock)), ('span', length(row['last'] - row['first'])))
    for label, name in (('still open', 'open'), ('ended by a boot', 'crashed')) if row['kind'] != 'process' else ():
        yield label, number(row[name], 'session', 'sessions') + (', ' + length(row[name + '_seconds'])) * (row[name] > 0)


def reason(row, path, made):
    """Why a database has no records that are read, or what reads a packed file."""
    if row['kind'] in UNPACKERS:
        return ': try %s %s | tally check /dev/stdin' % (UNPACKERS[row['kind']], quoted(path))
    return ': ' + made if made else ''


def section(path, raw, clock):
    made = rows_or_fault(path, raw)
    row = dict(zip(NAMES.split(','), fields(raw, clock, made)))
    lines = [('size', '%d' % row['size'])]
    if row['records'] != '':
        lines += [*lines_of(row, clock), *(('doubtful', what) for what in doubts(row))]
    elif row['doubtful']:
        lines.append(('doubtful', 'no records that are read' + reason(row, path, made)))
    if not row['doubtful']:
        lines.append(('doubtful', 'nothing'))
    return ''.join(['%s: %s\n' % (shown(path.encode()), name_of(row))] + ['%-15s %s\n' % line for line in lines]), row['doubtful']


def output(job, files):
    """Status, standard output and standard error of a check of files, each a path and bytes."""
    clock = clock_of(job)
    if job.get('paths') and not job.get('csv'):
        return 2, '', NO_TABLE
    if job.get('csv'):
        rows = [[number, *[shown(path.encode())] * bool(job.get('paths')), *fields(raw, clock, rows_or_fault(path, raw))]
                for number, (path, raw) in enumerate(files, 1)]
        return 3 if any(row[-1] for row in rows) else 0, table('file,' + 'path,' * bool(job.get('paths')) + NAMES, rows), ''
    sections = [section(path, raw, clock) for path, raw in files]
    return 3 if any(doubtful for _, doubtful in sections) else 0, '\n'.join(text for text, _ in sections), ''
