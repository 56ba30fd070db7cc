#!/usr/bin/env python3
"""Times tally on a database of wtmpdb, beside the same logins as a wtmp file.

    databases.py [--rows N] [--rounds N] [--indexed] TALLY_BINARY       (default: 200000 and 5)

The reports of both have to be the same. Times are the least processor seconds, memory is the greatest peak. With --indexed the
database has an index on Login and one on User too.
"""
import argparse
import os
import random
import sqlite3
import struct
import subprocess
import sys
import tempfile

sys.dont_write_bytecode = True
HERE = os.path.dirname(os.path.abspath(__file__))
sys.path.insert(0, os.path.join(HERE, '..', 'rows', 'tools'))
import random_databases
import tables

LOGIN_RECORD = struct.Struct('<hhi32s4s32s256shhiii36x')
REPORTS = (['ac'], ['ac', '-p'], ['ac', '-d'], ['last'], ['last', '-n', '10'], ['last', '--csv'])


def measured(measure, words):
    """Processor seconds, and the peak in kB."""
    said = subprocess.run([measure, '/dev/null'] + words, stdout=subprocess.PIPE, check=True).stdout.split()
    if int(said[4]):
        sys.exit('%s: status %d' % (' '.join(words), int(said[4])))
    return float(said[1]) + float(said[2]), int(said[3])


def moments(rows):
    """What happens, in order: when, what, at which row."""
    found = []
    for place, row in enumerate(rows):
        if tables.is_boot(row):
            found += [(row[3], tables.BOOT, place)] + ([(max(row[3], row[4]), tables.DOWN, place)] if row[4] is not None else [])
        elif tables.is_session(row):
            at_once = row[4] is not None and row[4] <= row[3]
            found.append((row[3], tables.LOGIN, place))
            if row[4] is not None:
                found.append((max(row[3], row[4]), tables.LOGOUT_AT_ONCE if at_once else tables.LOGOUT, place))
    return sorted(found)


def records(rows):
    """The login records that stand for the rows, in one pass: second, type, line, user, host."""
    lines, texts = {}, {}
    for micros, what, place in moments(rows):
        row, second = rows[place], micros // tables.MICROS
        if what in (tables.BOOT, tables.DOWN):
            lines, texts = {}, {}
            yield (second, 2, b'~', b'reboot', row[6]) if what == tables.BOOT else (second, 1, b'~', b'shutdown', row[6])
        elif what == tables.LOGIN:
            mark = b'#%d' % row[0] if texts.get(row[5]) else b''
            lines[place] = row[5][:32 - len(mark)] + mark
            texts[row[5]] = texts.get(row[5], 0) + 1
            yield second, 7, lines[place], row[2], row[6] or b''
        elif place in lines:
            texts[row[5]] -= 1
            yield second, 8, lines.pop(place), b'', b''


def write(folder, count, indexed):
    """The paths of a database, and of its logins as records."""
    database, log = (os.path.join(folder, name) for name in ('wtmp.db', 'wtmp'))
    base = sqlite3.connect(database, isolation_level=None)
    base.execute(tables.TABLE)
    for words in ('CREATE INDEX by_login ON wtmp(Login)', 'CREATE INDEX by_user ON wtmp(User)') if indexed else ():
        base.execute(words)
    random_databases.add_rows(base, random_databases.long_rows(random.Random(count), count))
    base.close()
    with open(log, 'wb') as out:
        for second, kind, line, user, host in records(tables.read(database)):
            out.write(LOGIN_RECORD.pack(kind, 0, 0, line, b'', user, host, 0, 0, 0, second, 0))
    return database, log


def main():
    parser = argparse.ArgumentParser(description=__doc__.splitlines()[0])
    parser.add_argument('--rows', type=int, default=200000)
    parser.add_argument('--rounds', type=int, default=5)
    parser.add_argument('--indexed', action='store_true')
    parser.add_argument('binary')
    given = parser.parse_args()
    binary = os.path.abspath(given.binary)
    with tempfile.TemporaryDirectory() as folder:
        measure = os.path.join(folder, 'measure')
        subprocess.run(['cc', '-O2', '-o', measure, os.path.join(HERE, 'measure.c')], check=True)
        paths = write(folder, given.rows, given.indexed)
        print('database %d bytes, records %d bytes' % tuple(os.path.getsize(path) for path in paths))
        for report in REPORTS:
            one, other = (subprocess.run([binary, *report, path], stdout=subprocess.PIPE, check=True).stdout for path in paths)
            costs = [zip(*(measured(measure, [binary, *report, '--feeders', '1', path]) for _ in range(given.rounds))) for path in paths]
            (time, peak), (other_time, other_peak) = ((min(times), max(peaks) >> 10) for times, peaks in costs)
            print('%-14s database %.3f s %d MB, records %.3f s %d MB%s' % (
                ' '.join(report), time, peak, other_time, other_peak, '' if one == other else ', NOT THE SAME'))


main()
