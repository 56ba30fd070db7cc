#!/usr/bin/env python3
"""Times tally on files that are made to be slow, beside ordinary files of their size.

    hostile.py [--records N] [--most RATIO] TALLY_BINARY       (default: 100000 and 3)

The names of a `colliding` file have one hash under the hasher that indexmap takes by itself, so that a table of
any size has them in one place. Times are the least processor seconds of three runs. A line is wrong where the hostile
file takes more than RATIO times what the ordinary one takes, 2 milliseconds left out; `rows` compares the time
of a row with twice as many rows. The last line counts.
"""
import os
import resource
import struct
import subprocess
import sys
import tempfile

LOGIN, LOGOUT, BOOT, OLD, NEW = 7, 8, 2, 4, 3
LOGIN_RECORD = struct.Struct('<hhi32s4s32s256shhiii36x')
FACTOR = struct.pack('<Q', 0x9E3779B97F4A7C15)      # what the hasher's second factor is combined with: the two make 0
LEAST, MOST = -2 ** 31, 2 ** 31 - 1
RULE = 'EST5EDT4,M3.2.0,M11.1.0'                         # its clock changes 272 times within these


def login(kind, line, user, time):
    return LOGIN_RECORD.pack(kind, 0, 1, line, b'', user, b'', 0, 0, 0, time, 0)


def number(n, width):
    """A text of so many bytes without a NUL."""
    return b'%0*d' % (width, n)


def plain(n, width):
    return number(n, 8)


def colliding(n, width):
    return number(n, width - 8) + FACTOR


def pairs(name_of):
    """Each session on a line and by a user of its own."""
    def make(n):
        for i in range(n // 2):
            name = name_of(i, 32)
            yield login(LOGIN, name, name, i)
            yield login(LOGOUT, name, b'', i + 60)
    return make


def commands(name_of):
    def make(n):
        for i in range(n):
            yield bytes([0, 2]) + struct.pack('<HHHI', 0, 0, 0, i) + struct.pack('<13H', *[9] * 13)[:24] + name_of(i, 17).ljust(17, b'\0') + bytes(11)
    return make


def sessions(begin, end):
    def make(n):
        for i in range(n // 2):
            yield login(LOGIN, b'tty1', b'ann', begin)
            yield login(LOGOUT, b'tty1', b'', end)
    return make


def open_lines(rest):
    """Half of the records open a session on a line of its own, and then come the others."""
    def make(n):
        for i in range(n // 2):
            yield login(LOGIN, number(i, 8), b'ann', i)
        for i in range(n // 2):
            yield rest(i, n // 2 + i)
    return make


def boot(i, time):
    return login(BOOT, b'~', b'reboot', time)


def clock(i, time):
    return login(OLD if i % 2 == 0 else NEW, b'|', b'', time)


def message(i, time):
    return login(0, b'', b'', time)


def users_on_all_days(n):
    for i in range(n):
        yield login(LOGIN, number(i, 8), number(i, 8), LEAST)
    for i in range(n):
        yield login(LOGOUT, number(i, 8), b'', MOST)


CASES = [
    ('colliding lines and users', ['ac'], pairs(colliding), pairs(plain)),
    ('colliding users by user', ['ac', '-p'], pairs(colliding), pairs(plain)),
    ('colliding commands', ['sa', '-a'], commands(colliding), commands(plain)),
    ('sessions over all days', ['ac', '-d'], sessions(LEAST, MOST), sessions(0, 3600)),
    ('sessions over all days, by user', ['ac', '-d', '-p'], sessions(LEAST, MOST), sessions(0, 3600)),
    ('sessions over all days of a zone', ['ac', '-d', '--zone', RULE], sessions(LEAST, MOST), sessions(0, 3600)),
    ('sessions over all days of a zone, by user', ['ac', '-d', '-p', '--zone', RULE], sessions(LEAST, MOST), sessions(0, 3600)),
    ('boots after many lines', ['ac'], open_lines(boot), open_lines(message)),
    ('clock changes in many sessions', ['ac'], open_lines(clock), open_lines(message)),
]


def room_for(words, path):
    """The option by which a report that keeps login records takes those of a file, where they are more than a million."""
    millions = -(-os.path.getsize(path) // (LOGIN_RECORD.size * 1048576))
    return ['--millions', str(millions)] if millions > 1 and words[0] != 'sa' else []


def seconds(binary, words, path):
    """The least processor seconds of three runs, and how many bytes were written."""
    least = None
    for _ in range(3):
        before = resource.getrusage(resource.RUSAGE_CHILDREN)
        done = subprocess.run([binary] + words + room_for(words, path) + ['--feeders', '1', path], stdout=subprocess.PIPE, check=True)
        after = resource.getrusage(resource.RUSAGE_CHILDREN)
        spent = after.ru_utime + after.ru_stime - before.ru_utime - before.ru_stime
        least = spent if least is None else min(least, spent)
    return least, done.stdout.count(b'\n')


def written(path, records):
    with open(path, 'wb', buffering=1 << 20) as out:
        for record in records:
            out.write(record)
    return path


def main():
    words, records, most, binary = sys.argv[1:], 100000, 3.0, None
    while words:
        word = words.pop(0)
        if word == '--records':
            records = int(words.pop(0))
        elif word == '--most':
            most = float(words.pop(0))
        elif word.startswith('-'):
            sys.exit(__doc__)
        else:
            binary = os.path.abspath(word)
    if not binary:
        sys.exit(__doc__)
    passed = failed = 0

    def print_case(name, hostile, ordinary, rows):
        nonlocal passed, failed
        well = hostile <= most * ordinary + 0.002
        passed, failed = passed + well, failed + (not well)
        print('%-42s %8.3f s %8.3f s   x %.1f   %d lines%s' % (name, hostile, ordinary, hostile / max(ordinary, 0.001), rows, '' if well else '   TOO SLOW'), flush=True)

    with tempfile.TemporaryDirectory() as folder:
        one, other = os.path.join(folder, 'hostile'), os.path.join(folder, 'ordinary')
        print('%d records, at most %g times an ordinary file' % (records, most))
        for name, report, hostile, ordinary in CASES:
            slow, lines = seconds(binary, report, written(one, hostile(records)))
            fast, _ = seconds(binary, report, written(other, ordinary(records)))
            # a report of all days has 49,713 lines to print, however few the records are
            days = seconds(binary, report, written(other, hostile(2)))[0] if lines > 1000 and fast < slow else 0
            print_case(name, slow, fast + days, lines)
        few = max(records // 10000, 1)
        once, lines = seconds(binary, ['ac', '-d', '-p'], written(one, users_on_all_days(few)))
        twice, _ = seconds(binary, ['ac', '-d', '-p'], written(one, users_on_all_days(2 * few)))
        print_case('rows of every user on every day', twice / 2, once, lines)
    print('%d passed, %d failed' % (passed, failed))
    return 1 if failed else 0


if __name__ == '__main__':
    sys.exit(main())
