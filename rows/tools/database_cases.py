"""Runs over databases in surroundings that a folder of data cannot say: through a link, on standard input, and at the limits.

Each case is a function of a place, with what it wants in its first line.
"""
import os
import sqlite3

from make import TOTAL_ONE
from places import other_user, same
from tables import INSERT, MICROS, TABLE
from wtmpdb_files import BASE, LOG

ONE = TOTAL_ONE.encode()
# Bytes of a database, and login records that are made of one, at most.
LARGEST, MOST = 512 << 20, 1048576


def with_log(place):
    """A database whose log is needed for the session of an hour."""
    place.put('far/wtmp.db', BASE)
    place.put('far/wtmp.db-wal', LOG)


def database_by_a_link(place):
    """The log beside the file itself is read, and not one beside the link."""
    with_log(place)
    os.symlink('far/wtmp.db', place.path('near.db'))
    place.put('near.db-wal', b'')
    done = place.run('ac', 'near.db')
    same((done.returncode, done.stdout, done.stderr), (0, ONE, b''))


def database_as_standard_input(place):
    """A database that standard input is a file of is read with its log."""
    with_log(place)
    with open(place.path('far/wtmp.db'), 'rb') as file:
        done = place.run('ac', '/dev/stdin', stdin=file)
    same((done.returncode, done.stdout, done.stderr), (0, ONE, b''))


def database_is_left_as_it_was(place):
    """In a folder that may not be written, a database is read, and nothing stands beside it afterwards."""
    with_log(place)
    folder, times = place.path('far'), {}
    os.chmod(folder, 0o555)
    for name in os.listdir(folder):
        os.chmod(os.path.join(folder, name), 0o444)
        times[name] = os.stat(os.path.join(folder, name)).st_mtime_ns
    done = place.run('ac', 'far/wtmp.db', preexec_fn=other_user)
    same((done.returncode, done.stdout, done.stderr), (0, ONE, b''))
    same({name: os.stat(os.path.join(folder, name)).st_mtime_ns for name in os.listdir(folder)}, times)


def database_of_another_user(place):
    """One that may not be read is not opened; of one whose log may not be read a read fails."""
    with_log(place)
    os.chmod(place.path('far/wtmp.db-wal'), 0)
    done = place.run('ac', 'far/wtmp.db', preexec_fn=other_user)
    same((done.returncode, done.stdout, done.stderr), (1, b'', b'tally: far/wtmp.db: read failed\n'))
    os.chmod(place.path('far/wtmp.db'), 0)
    done = place.run('ac', 'far/wtmp.db', preexec_fn=other_user)
    same((done.returncode, done.stdout, done.stderr), (1, b'', b'tally: far/wtmp.db: cannot be opened\n'))


def largest_database(place):
    """A byte more than 512 MiB, of which the system keeps none, is too much, in a database or in its log."""
    fault = b'tally: far/wtmp.db: a database of more than 512 MiB\n'
    for name in (b'far/wtmp.db-wal', b'far/wtmp.db'):
        with_log(place)
        os.truncate(place.path(name), LARGEST + 1)
        done = place.run('ac', 'far/wtmp.db')
        same((done.returncode, done.stdout, done.stderr), (1, b'', fault), '%s: ' % name)


def most_records_of_a_database(place):
    """As many login records as a report or a check reads are made of a database; with a session more, of which there are two, they are too many."""
    base = sqlite3.connect(place.path('wtmp.db'))
    base.execute(TABLE)
    base.executemany(INSERT, ((3, 'ann', second * MICROS, second * MICROS + 1, 'tty1', None, None) for second in range(MOST // 2)))
    base.commit()
    done = place.run('ac', 'wtmp.db')
    same((done.returncode, done.stdout, done.stderr), (0, b'total                        0.00\n', b''))
    same(place.run('check', 'wtmp.db').stdout.splitlines()[0], b'wtmp.db: login records of a database')
    base.execute(INSERT, (3, 'ann', MOST * MICROS, MOST * MICROS + 1, 'tty1', None, None))
    base.commit()
    base.close()
    done = place.run('ac', 'wtmp.db')
    same((done.returncode, done.stdout, done.stderr), (1, b'', b'tally: wtmp.db: 1048578 login records are too many\n'))
    done = place.run('check', 'wtmp.db')
    same((done.returncode, done.stdout.splitlines()[-1]), (3, b'doubtful        no records that are read: 1048578 login records are too many'))


CASES = (database_by_a_link, database_as_standard_input, database_is_left_as_it_was, database_of_another_user)
BIG = (largest_database, most_records_of_a_database)
