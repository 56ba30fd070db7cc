#!/usr/bin/env python3
"""Builds the worked rows: one folder each, with the input files, the words of the
command line, and what is wanted on standard output and standard error.

    make.py            writes every row and README.md beside the folder of this script
    make.py --check    says what stands there that it would not write, or would write otherwise

The wanted texts are written out here by hand; nothing computes them.
"""
import os
import shutil
import struct
import sys

sys.dont_write_bytecode = True
from attempt_rows import add_example as add_attempt_example, add_rows as add_attempt_rows
from by_file_rows import add_rows as add_by_file_rows
from check_rows import add_example as add_check_example, add_rows as add_check_rows
from choice_faults import add_rows as add_choice_faults
from choice_rows import add_rows as add_choice_rows
from common import ROOMS, TOP
from connect_by_file_rows import add_rows as add_connect_by_file_rows
from file_rows import add_rows as add_file_rows
from moment_rows import add_rows as add_moment_rows
from moments import NO_RANGE
from path_rows import add_rows as add_path_rows
from people_rows import add_example as add_people_example, add_rows as add_people_rows
from stream_rows import add_rows as add_stream_rows
from usage_rows import add_example as add_usage_example, add_rows as add_usage_rows
from wtmpdb_rows import add_example as add_wtmpdb_example, add_rows as add_wtmpdb_rows
from zone_rows import BERLIN, add_rows as add_zone_rows


def field(value, size):
    raw = value if isinstance(value, bytes) else (b'' if value == '-' else value.encode('ascii'))
    assert len(raw) <= size, value
    return raw.ljust(size, b'\0')


def U(kind, line, user, remote, time):
    """A utmp record of 384 bytes."""
    b = struct.pack('<hh i', kind, 0, 0) + field(line, 32) + bytes(4) + field(user, 32) + field(remote, 256)
    b += bytes(8) + struct.pack('<i', time)
    return b.ljust(384, b'\0')


def A(flag, uid, utime, stime, etime, mem, io, comm, version=2):
    """An acct record of version 2, 64 bytes. The comp_t fields are given as their words."""
    b = bytes([flag, version]) + bytes(10) + struct.pack('<5H', utime, stime, etime, mem, io)
    b = b.ljust(36, b'\0') + field(comm, 17)
    return b.ljust(56, b'\0') + struct.pack('<I', uid) + bytes(4)


def A3(flag, uid, utime, stime, etime_word, mem, io, comm, version=3):
    """An acct record of version 3, 64 bytes. etime_word is the 32-bit word."""
    b = bytes([flag, version]) + bytes(6) + struct.pack('<I', uid) + bytes(16) + struct.pack('<I', etime_word)
    b += struct.pack('<4H', utime, stime, mem, io)
    return b.ljust(48, b'\0') + field(comm, 16)


def lines(*rows):
    return ''.join(row + '\n' for row in rows)


def escaped(word):
    """A word as it stands in `args`: a byte that does not print is \\xNN."""
    raw = word if isinstance(word, bytes) else word.encode('ascii')
    return ''.join(chr(b) if 0x20 <= b <= 0x7E and b != 0x5C else '\\x%02x' % b for b in raw)


ROWS = []


def row(name, needs, about, args, stdout='', stderr='', status=0, files=None, stdin=None, stdout_to=None,
        closed=None):
    """stdout or stderr None: its text is not fixed. A word may be bytes."""
    ROWS.append(dict(name=name, needs=needs.split(','), about=about, args=args, stdout=stdout, stderr=stderr,
                     status=status, files=files or {}, stdin=stdin, stdout_to=stdout_to, closed=closed))


# Inputs that several rows share.
ONE_HOUR = U(7, 'tty1', 'ann', '-', 1000000) + U(8, 'tty1', '-', '-', 1003600)
ONE_HOUR_LAST = lines(
    'ann      tty1                          1970-01-12 13:46:40 - 1970-01-12 14:46:40 (01:00)',
    '',
    'wtmp begins 1970-01-12 13:46:40')
NO_RECORDS = lines('wtmp has no records')
TOTAL_ZERO = lines('total                        0.00')
TOTAL_ONE = lines('total                        1.00')
SA_NOTHING = lines('       0         0.00re         0.00cp          0avio          0k')
TWO_USERS = U(7, 'tty1', 'ann', '-', 1000) + U(7, 'tty1', 'bob', '-', 1600) + U(8, 'tty1', '-', '-', 2200)
HOST_A = (U(7, 'tty1', 'a', '-', 100) + U(7, 'tty2', 'b', '-', 200) + U(7, 'tty3', 'c', '-', 300)
          + U(2, '~', 'reboot', '-', 1000))
HOST_B = U(7, 'tty1', 'd', '-', 150)
DOWN_AND_BOOT = (U(2, '~', 'reboot', '-', 100) + U(7, 'tty1', 'ann', '-', 200) + U(1, '~', 'runlevel', '-', 300)
                 + U(1, '~', 'shutdown', '-', 1000) + U(2, '~', 'reboot', '-', 1100))
DOWN_AND_BOOT_TAIL = lines(
    'ann      tty1                          1970-01-01 00:03:20 - down                (00:13)',
    'reboot   system boot                   1970-01-01 00:01:40 - down                (00:15)',
    '',
    'wtmp begins 1970-01-01 00:01:40')
MIDNIGHT = U(7, 'tty1', 'ann', '-', 84600) + U(8, 'tty1', '-', '-', 88200)
BACKWARDS = U(7, 'tty1', 'ann', '-', 2000) + U(8, 'tty1', '-', '-', 1000)
MAKE = A(0, 1000, 120, 60, 600, 500, 1000, 'make') + 2 * A(1, 1000, 60, 0, 60, 200, 3, 'make')
MAKE_V3 = A3(0, 1000, 120, 60, 0x44160000, 500, 1000, 'make') + 2 * A(1, 1000, 60, 0, 60, 200, 3, 'make')
SA_TOTAL = '       3         0.12re         0.05cp        335avio        380k'
SA_OTHER = '       1         0.10re         0.03cp       1000avio        500k ***other'
SA_PLAIN = '       1         0.10re         0.03cp       1000avio        500k make'
SA_FORKED = '       2         0.02re         0.02cp          3avio        200k make*'
SA_USERS = lines('total             3         0.12re         0.05cp        335avio        380k',
                 '1000              3         0.12re         0.05cp        335avio        380k')
BLOCKS_ANN = U(7, 'tty1', 'ann', '-', 0) + 1023 * U(0, '-', '-', '-', 0) + U(8, 'tty1', '-', '-', 3600)
BLOCKS_BOB = U(7, 'tty1', 'bob', '-', 0) + 1023 * U(0, '-', '-', '-', 0) + U(8, 'tty1', '-', '-', 7200)
TWO_HOSTS_ALL = lines(
    'ann      tty1                          1970-01-01 00:00:00 - 1970-01-01 01:00:00 (01:00)',
    '',
    'wtmp begins 1970-01-01 00:00:00',
    '',
    'bob      tty1                          1970-01-01 00:00:00 - 1970-01-01 02:00:00 (02:00)',
    '',
    'wtmp begins 1970-01-01 00:00:00',
    '',
    'total                        3.00',
    '',
    '       0         0.00re         0.00cp          0avio          0k')

# --- ac, without flags

row('empty-file-ac', 'ac', 'An empty file has a total of 0.00.', ['ac', 'f'], TOTAL_ZERO, files={'f': b''})
row('one-hour-session', 'ac', 'A login and its logout one hour later are 1.00 hours.',
    ['ac', 'f'], TOTAL_ONE, files={'f': ONE_HOUR})
row('one-hour-session-from-standard-input', 'ac', 'The same records on standard input, named /dev/stdin.',
    ['ac', '/dev/stdin'], TOTAL_ONE, stdin=ONE_HOUR)
row('login-record-without-user-is-a-logout', 'ac', 'A USER_PROCESS record with a line and no user ends the session.',
    ['ac', 'f'], TOTAL_ONE, files={'f': U(7, 'tty1', 'ann', '-', 1000000) + U(7, 'tty1', '-', '-', 1003600)})
row('dead-record-without-line-ends-nothing', 'ac',
    'A DEAD_PROCESS record without a line is no event; the open session counts up to the last record.',
    ['ac', 'f'], TOTAL_ONE, files={'f': U(7, 'tty1', 'ann', '-', 1000000) + U(8, '-', '-', '-', 1003600)})
row('next-login-ends-the-open-session', 'ac', 'A second login on the line ends the first: 600 and 600 seconds.',
    ['ac', 'f'], lines('total                        0.33'), files={'f': TWO_USERS})
row('boot-ends-all-open-sessions', 'ac', 'A boot ends the sessions of every line of its host: 900, 800 and 700 seconds.',
    ['ac', 'f'], lines('total                        0.67'), files={'f': HOST_A})
row('session-longer-than-a-block', 'ac', 'A login in the first block of 1,024 records and its logout in the second.',
    ['ac', 'f'], TOTAL_ONE, files={'f': BLOCKS_ANN})
row('logout-before-login-in-time', 'ac', 'An end before the start is a session of length 0.',
    ['ac', 'f'], TOTAL_ZERO, files={'f': BACKWARDS})

def dirty(record):
    """A utmp record with 0xFF in every byte that is read past."""
    b = bytearray(record)
    for start, end in ((2, 8), (40, 44), (332, 340), (344, 384)):
        b[start:end] = bytes([0xFF]) * (end - start)
    return bytes(b)


row('bytes-read-past', 'ac', 'Process id, id, exit, session, microseconds, address and padding may hold anything.',
    ['ac', 'f'], TOTAL_ONE, files={'f': dirty(ONE_HOUR[:384]) + dirty(ONE_HOUR[384:])})
row('bytes-after-the-first-nul', 'ac', 'A name ends at its first NUL: the line of the logout is that of the login.',
    ['ac', 'f'], TOTAL_ONE,
    files={'f': U(7, b'tty1\0zz', b'ann\0x', '-', 1000000) + U(8, 'tty1', '-', '-', 1003600)})
row('empty-line-with-bytes-after-it', 'ac', 'A line whose first byte is NUL is empty: no login.',
    ['ac', 'f'], TOTAL_ZERO,
    files={'f': U(7, b'\0tty1', b'ann', '-', 1000000) + U(0, '-', '-', '-', 1003600)})

# --- faults of inputs and of the command line

row('torn-after-one-record', 'ac', 'One record and one byte more.', ['ac', 'f'], '',
    'tally: f: torn after 1 records, 1 bytes left\n', 1, {'f': ONE_HOUR[:385]})
row('torn-inside-the-first-record', 'ac', '383 bytes.', ['ac', 'f'], '',
    'tally: f: torn after 0 records, 383 bytes left\n', 1, {'f': ONE_HOUR[:383]})
row('torn-inside-the-second-record', 'ac', '767 bytes.', ['ac', 'f'], '',
    'tally: f: torn after 1 records, 383 bytes left\n', 1, {'f': ONE_HOUR[:767]})
row('login-type-ten', 'ac', 'The third record has a type past the last one.', ['ac', 'f'], '',
    'tally: f: record 2 has login type 10\n', 1, {'f': ONE_HOUR + U(10, 'tty1', 'ann', '-', 1003600)})
row('login-type-minus-one', 'ac', 'The type is a signed number.', ['ac', 'f'], '',
    'tally: f: record 0 has login type -1\n', 1, {'f': U(-1, 'tty1', 'ann', '-', 0)})
row('bad-record-in-the-second-block', 'ac', 'Record numbers count from the start of the file.', ['ac', 'f'], '',
    'tally: f: record 1025 has login type 10\n', 1, {'f': BLOCKS_ANN + U(10, '-', '-', '-', 0)})
row('torn-block-comes-before-its-bad-record', 'ac',
    'In one block, the end inside a record is named and not the bad record before it.', ['ac', 'f'], '',
    'tally: f: torn after 1 records, 5 bytes left\n', 1, {'f': U(10, '-', '-', '-', 0) + bytes(5)})
row('bad-block-comes-before-a-torn-one', 'ac',
    'A bad record in an earlier block is named and not the torn end of a later one.', ['ac', 'f'], '',
    'tally: f: record 3 has login type 10\n', 1,
    {'f': 3 * U(0, '-', '-', '-', 0) + U(10, '-', '-', '-', 0) + 1020 * U(0, '-', '-', '-', 0) + bytes(5)})
row('file-not-there', 'ac', 'A file that cannot be opened.', ['ac', 'f'], '', 'tally: f: cannot be opened\n', 1)
row('a-folder-cannot-be-read', 'ac', 'A folder is opened, and the read fails.', ['ac', '.'], '',
    'tally: .: read failed\n', 1)
row('no-file-named', 'all', 'A report of all without a file is refused; the others then read the file that their peers read.', ['all'], '', None, 2)
row('unknown-subcommand', 'ac', 'A subcommand that does not exist is refused.', ['who', 'f'], '', None, 2, {'f': b''})
row('no-words', 'ac', 'No words at all are refused.', [], '', None, 2)
row('help-of-ac', 'ac', 'Help goes to standard output, with status 0.', ['ac', '--help'], None, '', 0)
row('output-takes-nothing', 'ac,full-device', 'A write that fails is a fault.', ['ac', 'f'], '',
    'tally: write failed\n', 1, {'f': ONE_HOUR}, stdout_to='/dev/full')
row('endless-zeros-ac', 'ac,big', 'An input that never ends is refused after 1,048,576 records (402 MB are read).',
    ['ac', '/dev/zero'], '', 'tally: /dev/zero: more than 1048576 records\n', 1)

# --- sa

row('empty-file-sa', 'sa', 'An empty file has the line of the totals alone.', ['sa', 'f'], SA_NOTHING, files={'f': b''})
row('commands-by-cpu', 'sa', 'A command that was called once goes to ***other; a fork mark makes a group of its own.',
    ['sa', 'f'], lines(SA_TOTAL, SA_OTHER, SA_FORKED), files={'f': MAKE})
row('output-takes-nothing-sa', 'sa,full-device', 'A write that fails is a fault.', ['sa', 'f'], '',
    'tally: write failed\n', 1, {'f': MAKE}, stdout_to='/dev/full')
row('all-commands', 'sa,sa -a', 'Every command has its row.', ['sa', '-a', 'f'],
    lines(SA_TOTAL, SA_PLAIN, SA_FORKED), files={'f': MAKE})
row('commands-by-calls', 'sa,sa -n', 'Ordered by the number of calls.', ['sa', '-n', 'f'],
    lines(SA_TOTAL, SA_FORKED, SA_OTHER), files={'f': MAKE})
row('commands-reversed', 'sa,sa -r', 'The reversed list; the line of the totals stays first.', ['sa', '-r', 'f'],
    lines(SA_TOTAL, SA_FORKED, SA_OTHER), files={'f': MAKE})
row('users-of-commands', 'sa,sa -m', 'One row for each uid.', ['sa', '-m', 'f'], SA_USERS, files={'f': MAKE})
row('users-ignore-all-commands', 'sa,sa -m,sa -a', 'With -m, -a has no effect.', ['sa', '-m', '-a', 'f'], SA_USERS,
    files={'f': MAKE})
row('no-cpu-gives-k-zero', 'sa,sa -a', 'k is 0 where the cpu is 0.', ['sa', '-a', 'f'],
    lines('       1         0.10re         0.00cp       1000avio          0k',
          '       1         0.10re         0.00cp       1000avio          0k make'),
    files={'f': A(0, 1000, 0, 0, 600, 500, 1000, 'make')})
row('greatest-field-values', 'sa,sa -a', 'Every comp_t field at 0xFFFF; long numbers stand whole.', ['sa', '-a', 'f'],
    lines('       1   2862962.01re   5725924.01cp 17177772032avio 17177772032k',
          '       1   2862962.01re   5725924.01cp 17177772032avio 17177772032k x'),
    files={'f': A(0, 0, 0xFFFF, 0xFFFF, 0xFFFF, 0xFFFF, 0xFFFF, 'x')})
row('two-words-of-one-value', 'sa,sa -a', 'The words 0x0008 and 0x2001 are both 8: a base-8 exponent.',
    ['sa', '-a', 'f'],
    lines('       2         0.00re         0.00cp          8avio          0k',
          '       2         0.00re         0.00cp          8avio          0k x'),
    files={'f': A(0, 0, 0, 0, 0, 0, 0x0008, 'x') + A(0, 0, 0, 0, 0, 0, 0x2001, 'x')})
row('command-named-like-the-joined-group', 'sa', 'A tie: the command of that name stands before the group.',
    ['sa', 'f'],
    lines('       3         0.00re         0.00cp          1avio          0k',
          '       2         0.00re         0.00cp          2avio          0k ***other',
          '       1         0.00re         0.00cp          0avio          0k ***other'),
    files={'f': 2 * A(0, 0, 0, 0, 0, 0, 2, '***other') + A(0, 0, 0, 0, 0, 0, 0, 'x')})
row('unprintable-command', 'sa', 'A name with an unprintable byte goes to ***other, however often it was called.',
    ['sa', 'f'],
    lines('       2         0.00re         0.00cp          0avio          0k',
          '       2         0.00re         0.00cp          0avio          0k ***other'),
    files={'f': 2 * A(0, 0, 0, 0, 0, 0, 0, b'a\x1b')})
row('unprintable-command-shown', 'sa,sa -a', 'With all commands it stands, with ? for the byte.', ['sa', '-a', 'f'],
    lines('       2         0.00re         0.00cp          0avio          0k',
          '       2         0.00re         0.00cp          0avio          0k a?'),
    files={'f': 2 * A(0, 0, 0, 0, 0, 0, 0, b'a\x1b')})
row('big-endian-version-byte', 'sa', 'Bit 0x80 of the version byte is refused.', ['sa', 'f'], '',
    'tally: f: record 0 has version 130\n', 1, {'f': A(0, 0, 0, 0, 0, 0, 0, 'x', version=0x82)})
row('torn-process-record', 'sa', 'One record and one byte more.', ['sa', 'f'], '',
    'tally: f: torn after 1 records, 1 bytes left\n', 1, {'f': MAKE[:65]})
row('endless-zeros-sa', 'sa', 'The first block of zeros has no version.', ['sa', '/dev/zero'], '',
    'tally: /dev/zero: record 0 has version 0\n', 1)

# --- clock changes, users, days

row('clock-change-moves-the-start', 'ac,clock', 'The clock is set from 2000 to 5000: begin 4000, length 2000.',
    ['ac', 'f'], lines('total                        0.56'),
    files={'f': U(7, 'tty1', 'ann', '-', 1000) + U(4, '~', '-', '-', 2000) + U(3, '~', '-', '-', 5000)
           + U(8, 'tty1', '-', '-', 6000)})
row('new-time-without-old-time', 'ac,clock', 'A NEW_TIME record alone shifts by 0: length 5000.',
    ['ac', 'f'], lines('total                        1.39'),
    files={'f': U(7, 'tty1', 'ann', '-', 1000) + U(3, '~', '-', '-', 5000) + U(8, 'tty1', '-', '-', 6000)})
row('second-new-time-shifts-nothing', 'ac,clock', 'An OLD_TIME record pairs with one NEW_TIME record: length 900.',
    ['ac', 'f'], lines('total                        0.25'),
    files={'f': U(7, 'tty1', 'ann', '-', 0) + U(4, '~', '-', '-', 100) + U(3, '~', '-', '-', 200)
           + U(3, '~', '-', '-', 300) + U(8, 'tty1', '-', '-', 1000)})
row('clock-change-in-an-open-session', 'ac,clock', 'Still open: end 5000, begin 3000, length 2000.',
    ['ac', 'f'], lines('total                        0.56'),
    files={'f': U(7, 'tty1', 'ann', '-', 0) + U(4, '~', '-', '-', 2000) + U(3, '~', '-', '-', 5000)})
row('clock-pair-spans-the-login', 'ac,clock', 'The pair begins before the login and ends in it: begin 600, length 100.',
    ['ac', 'f'], lines('total                        0.03'),
    files={'f': U(4, '~', '-', '-', 100) + U(7, 'tty1', 'ann', '-', 200) + U(3, '~', '-', '-', 500)
           + U(8, 'tty1', '-', '-', 700)})
CLOCK_UP = U(4, '~', '-', '-', -2147483648) + U(3, '~', '-', '-', 2147483647)
CLOCK_DOWN = U(4, '~', '-', '-', 2147483647) + U(3, '~', '-', '-', -2147483648)
row('start-clamped-at-the-greatest-time', 'ac,clock', 'Two great shifts: begin 2147483647, length 0.',
    ['ac', 'f'], TOTAL_ZERO,
    files={'f': U(7, 'tty1', 'ann', '-', 0) + 2 * CLOCK_UP + U(8, 'tty1', '-', '-', 2147483647)})
row('start-clamped-at-the-least-time', 'ac,clock', 'A great shift back: begin -2147483648, length 4294967295.',
    ['ac', 'f'], lines('total                  1193046.47'),
    files={'f': U(7, 'tty1', 'ann', '-', 0) + CLOCK_DOWN + U(8, 'tty1', '-', '-', 2147483647)})
row('users-round-by-themselves', 'ac,ac -p', 'Each row is rounded by itself.', ['ac', '-p', 'f'],
    lines('ann                          0.17', 'bob                          0.17', 'total                        0.33'),
    files={'f': TWO_USERS})
row('user-without-time-has-no-row', 'ac,ac -p', 'A user whose sum is 0 has no row.', ['ac', '-p', 'f'], TOTAL_ZERO,
    files={'f': BACKWARDS})
row('session-over-midnight-by-day', 'ac,ac -d', 'Each day gets its part.', ['ac', '-d', 'f'],
    lines('1970-01-01 total                        0.50', '1970-01-02 total                        0.50',
          'total                        1.00'), files={'f': MIDNIGHT})
row('session-over-midnight-one-hour-east', 'ac,ac -d,offset', 'Days are those of the offset.',
    ['ac', '-d', '--east', '60', 'f'],
    lines('1970-01-02 total                        1.00', 'total                        1.00'), files={'f': MIDNIGHT})
row('session-over-midnight-by-day-and-user', 'ac,ac -d,ac -p', 'By day and user.', ['ac', '-d', '-p', 'f'],
    lines('1970-01-01 ann                          0.50', '1970-01-02 ann                          0.50',
          'total                        1.00'), files={'f': MIDNIGHT})
row('users-on-days-far-apart', 'ac,ac -d,ac -p', 'Three users, each over three midnights, thousands of days apart.',
    ['ac', '-d', '-p', 'f'],
    lines('1970-01-01 ann                          1.00', '1970-01-02 ann                         24.00',
          '1970-01-03 ann                         24.00', '1970-01-04 ann                          2.00',
          '1975-06-24 bob                          1.00', '1975-06-25 bob                         24.00',
          '1975-06-26 bob                         24.00', '1975-06-27 bob                          2.00',
          '2024-10-04 cid                          1.00', '2024-10-05 cid                         24.00',
          '2024-10-06 cid                         24.00', '2024-10-07 cid                          2.00',
          'total                      153.00'),
    files={'f': b''.join(U(7, 'tty1', user, '-', 86400 * day + 82800) + U(8, 'tty1', '-', '-', 86400 * (day + 3) + 7200)
                         for user, day in (('ann', 0), ('bob', 2000), ('cid', 20000)))})
row('days-before-1970', 'ac,ac -d', 'A session from one hour before 1970 to one hour after.', ['ac', '-d', 'f'],
    lines('1969-12-31 total                        1.00', '1970-01-01 total                        1.00',
          'total                        2.00'),
    files={'f': U(7, 'tty1', 'ann', '-', -3600) + U(8, 'tty1', '-', '-', 3600)})

# --- last

row('empty-file-last', 'last', 'A file without records.', ['last', 'f'], NO_RECORDS, files={'f': b''})
row('one-hour-session-last', 'last', 'One session with its end.', ['last', 'f'], ONE_HOUR_LAST, files={'f': ONE_HOUR})
row('login-record-without-user-last', 'last', 'A USER_PROCESS record with a line and no user is a logout.',
    ['last', 'f'], ONE_HOUR_LAST,
    files={'f': U(7, 'tty1', 'ann', '-', 1000000) + U(7, 'tty1', '-', '-', 1003600)})
row('dead-record-without-line-last', 'last', 'The session is still open.', ['last', 'f'],
    lines('ann      tty1                          1970-01-12 13:46:40   still logged in', '',
          'wtmp begins 1970-01-12 13:46:40'),
    files={'f': U(7, 'tty1', 'ann', '-', 1000000) + U(8, '-', '-', '-', 1003600)})
row('shutdown-and-reboot', 'last', 'A shutdown ends the session and the running time; a run level does not.',
    ['last', 'f'],
    lines('reboot   system boot                   1970-01-01 00:18:20   still running') + DOWN_AND_BOOT_TAIL,
    files={'f': DOWN_AND_BOOT})
row('boot-ends-all-open-sessions-last', 'last', 'A boot without a shutdown before it: crash.', ['last', 'f'],
    lines('reboot   system boot                   1970-01-01 00:16:40   still running',
          'c        tty3                          1970-01-01 00:05:00 - crash               (00:11)',
          'b        tty2                          1970-01-01 00:03:20 - crash               (00:13)',
          'a        tty1                          1970-01-01 00:01:40 - crash               (00:15)',
          '', 'wtmp begins 1970-01-01 00:01:40'), files={'f': HOST_A})
row('logout-before-login-in-time-last', 'last', 'Printed as recorded, with a span of 0.', ['last', 'f'],
    lines('ann      tty1                          1970-01-01 00:33:20 - 1970-01-01 00:16:40 (00:00)', '',
          'wtmp begins 1970-01-01 00:33:20'), files={'f': BACKWARDS})
row('long-name-and-unprintable-remote', 'last', 'A user of all 32 bytes stands whole; a byte 0x1B is shown as ?.',
    ['last', 'f'],
    lines('abcdefghijklmnopqrstuvwxyz012345 tty1         h?1              1970-01-01 00:01:00   still logged in', '',
          'wtmp begins 1970-01-01 00:01:00'),
    files={'f': U(7, 'tty1', 'abcdefghijklmnopqrstuvwxyz012345', b'h\x1b1', 60)})
row('session-of-more-than-a-day', 'last', 'The span has its days.', ['last', 'f'],
    lines('ann      tty1                          1970-01-01 00:00:00 - 1970-01-02 01:01:01 (1+01:01)', '',
          'wtmp begins 1970-01-01 00:00:00'),
    files={'f': U(7, 'tty1', 'ann', '-', 0) + U(8, 'tty1', '-', '-', 90061)})
row('first-stays-only', 'last,last -n', '-n 1 gives the latest stay; the beginning is that of the file.',
    ['last', '-n', '1', 'f'],
    lines('bob      tty1                          1970-01-01 00:26:40 - 1970-01-01 00:36:40 (00:10)', '',
          'wtmp begins 1970-01-01 00:16:40'), files={'f': TWO_USERS})
row('records-without-a-stay', 'last', 'One record that is no event.', ['last', 'f'],
    lines('', 'wtmp begins 1970-01-01 00:00:00'), files={'f': U(0, '-', '-', '-', 0)})
row('count-of-zero', 'last,last -n', '-n 0 is refused.', ['last', '-n', '0', 'f'], '', None, 2, {'f': ONE_HOUR})
row('clock-change-last', 'last,clock', 'Start and end stand as recorded; the span is that of the moved start.',
    ['last', 'f'],
    lines('ann      tty1                          1970-01-01 00:16:40 - 1970-01-01 01:40:00 (00:33)', '',
          'wtmp begins 1970-01-01 00:16:40'),
    files={'f': U(7, 'tty1', 'ann', '-', 1000) + U(4, '~', '-', '-', 2000) + U(3, '~', '-', '-', 5000)
           + U(8, 'tty1', '-', '-', 6000)})
row('one-hour-session-west', 'last,offset', 'Five hours west.', ['last', '--west', '300', 'f'],
    lines('ann      tty1                          1970-01-12 08:46:40 - 1970-01-12 09:46:40 (01:00)', '',
          'wtmp begins 1970-01-12 08:46:40'), files={'f': ONE_HOUR})
row('output-takes-nothing-last', 'last,full-device', 'A write that fails is a fault.', ['last', 'f'], '',
    'tally: write failed\n', 1, {'f': DOWN_AND_BOOT}, stdout_to='/dev/full')

# --- several files

row('users-over-two-files', 'ac,ac -p,files', 'One section over both files: ann has 600 and 3600 seconds.',
    ['ac', '-p', 'f', 'g'],
    lines('ann                          1.17', 'bob                          0.17', 'total                        1.33'),
    files={'f': TWO_USERS, 'g': ONE_HOUR})
row('two-hosts-do-not-touch', 'ac,files', "One host's boot ends no session of another: 2400 seconds.",
    ['ac', 'f', 'g'], lines('total                        0.67'), files={'f': HOST_A, 'g': HOST_B})
row('two-files-of-last', 'last,files', 'A section for each file, with one empty line between.', ['last', 'f', 'g'],
    ONE_HOUR_LAST + '\n' + NO_RECORDS, files={'f': ONE_HOUR, 'g': b''})
row('later-file-not-there', 'ac,files', 'Files are opened before any is read: the missing one is named, not the torn one.',
    ['ac', 'f', 'g'], '', 'tally: g: cannot be opened\n', 1, {'f': ONE_HOUR[:385]})
row('least-file-that-fails-is-named', 'ac,files', 'Two files fail; the first is named.', ['ac', 'e', 'f', 'g'], '',
    'tally: f: record 0 has login type 10\n', 1,
    {'e': ONE_HOUR, 'f': U(10, '-', '-', '-', 0), 'g': ONE_HOUR[:385]})
row('too-many-files', 'ac,files', '129 files are more than the callers of a book.', ['ac'] + 129 * ['f'], '',
    'tally: 129 callers, 1 to 128 are allowed\n', 1, {'f': b''})
row('most-files', 'ac,files', '128 files are read.', ['ac'] + 128 * ['f'], lines('total                      128.00'),
    files={'f': ONE_HOUR})

# --- feeders and all

row('no-feeders', 'last,feeders', '--feeders 0 is refused.', ['last', '--feeders', '0', 'f'], '', None, 2, {'f': b''})
row('no-millions', 'ac,millions', 'A run takes one million of records at least.', ['ac', '--millions', '0', 'f'], '', None, 2, {'f': b''})
row('17-millions', 'last,millions', 'And 16 millions at most.', ['last', '--millions', '17', 'f'], '', None, 2, {'f': b''})
row('many-millions', 'lastb,millions', 'A word is no number.', ['lastb', '--millions', 'many', 'f'], '', None, 2, {'f': b''})
row('millions-of-sa', 'sa,millions', 'sa keeps no record, and has no such option.', ['sa', '--millions', '2', 'f'], '', None, 2, {'f': MAKE})
row('millions-of-a-check', 'check,millions', 'Nor has check.', ['check', '--millions', '2', 'f'], '', None, 2, {'f': b''})
row('16-millions', 'last,millions', 'A short file is read as without the option.', ['last', '--millions', '16', 'f'], ONE_HOUR_LAST, files={'f': ONE_HOUR})
row('16-millions-of-all', 'all,feeders,askers,millions', 'So are the files of all, while askers ask.',
    ['all', '--millions', '16', '--feeders', '2', '--askers', '1', 'w:f', 'w:g'], TWO_HOSTS_ALL, files={'f': BLOCKS_ANN, 'g': BLOCKS_BOB})
row('limit-of-last-too-great', 'last,last -n', 'At most 16,777,216 stays.', ['last', '-n', '16777217', 'f'], '', None, 2, {'f': b''})
row('two-feeders', 'ac,files,feeders', 'Two files of two blocks each through two feeders.',
    ['ac', '--feeders', '2', 'f', 'g'], lines('total                        3.00'),
    files={'f': BLOCKS_ANN, 'g': BLOCKS_BOB})
row('all-reports', 'all,feeders,askers', 'last for each login file, then ac, then sa.',
    ['all', '--feeders', '2', '--askers', '1', 'w:f', 'w:g'], TWO_HOSTS_ALL, files={'f': BLOCKS_ANN, 'g': BLOCKS_BOB})
row('all-reports-one-feeder', 'all,feeders', 'The same with one feeder and no asker.',
    ['all', '--feeders', '1', 'w:f', 'w:g'], TWO_HOSTS_ALL, files={'f': BLOCKS_ANN, 'g': BLOCKS_BOB})
row('all-without-login-files', 'all', 'No last section; ac and sa stand.', ['all', 'p:f'],
    TOTAL_ZERO + '\n' + lines(SA_TOTAL, SA_OTHER, SA_FORKED), files={'f': MAKE})
row('all-of-mixed-kinds', 'all', 'A process file between two login files.', ['all', 'w:f', 'p:g', 'w:h'],
    ONE_HOUR_LAST + '\n' + NO_RECORDS + '\n' + TOTAL_ONE + '\n' + lines(SA_TOTAL, SA_OTHER, SA_FORKED),
    files={'f': ONE_HOUR, 'g': MAKE, 'h': b''})
row('all-with-a-torn-file', 'all', 'Nothing is written; the path stands without its prefix.', ['all', 'w:g', 'w:f'], '',
    'tally: f: torn after 1 records, 1 bytes left\n', 1, {'g': ONE_HOUR, 'f': ONE_HOUR[:385]})
row('no-prefix', 'all', 'A file without a prefix; the whole word is named.', ['all', 'x:f'], '',
    'tally: x:f: no prefix w: or p:\n', 2)
row('files-and-askers-too-many', 'all,askers', '65 files and 64 askers are 129 callers.',
    ['all', '--askers', '64'] + 65 * ['w:f'], '', 'tally: 129 callers, 1 to 128 are allowed\n', 1, {'f': b''})
row('most-askers', 'all,askers', 'One file and 64 askers.', ['all', '--askers', '64', 'w:f'],
    ONE_HOUR_LAST + '\n' + TOTAL_ONE + '\n' + SA_NOTHING, files={'f': ONE_HOUR})

# --- acct version 3

# --- sa over several files: each is counted by itself, and the sums are joined

TWO_MAKES = lines('       6         0.24re         0.10cp        335avio        380k',
                  '       2         0.20re         0.06cp       1000avio        500k make',
                  '       4         0.04re         0.04cp          3avio        200k make*')
row('processes-of-two-files', 'sa,files', 'A command that each file calls once is called twice: all files say what is joined.',
    ['sa', 'f', 'g'], TWO_MAKES, files={'f': MAKE, 'g': MAKE})
row('process-file-named-twice', 'sa,files', 'A file that is named twice counts twice.', ['sa', 'f', 'f'], TWO_MAKES,
    files={'f': MAKE})
row('processes-of-two-files-by-one-feeder', 'sa,files,feeders', 'One thread counts both.',
    ['sa', '--feeders', '1', 'f', 'g'], TWO_MAKES, files={'f': MAKE, 'g': MAKE})
row('processes-of-two-files-by-64-feeders', 'sa,files,feeders', 'Threads that no file is dealt to are not started.',
    ['sa', '--feeders', '64', 'f', 'g'], TWO_MAKES, files={'f': MAKE, 'g': MAKE})
row('users-of-two-files', 'sa,sa -m,files', 'One row for each uid of all files.', ['sa', '-m', 'f', 'g'],
    lines('total             6         0.24re         0.10cp        335avio        380k',
          '1000              6         0.24re         0.10cp        335avio        380k'), files={'f': MAKE, 'g': MAKE})
row('empty-process-file-first', 'sa,files', 'Sums of no records take the others as they are.', ['sa', 'e', 'f', 'e'],
    lines(SA_TOTAL, SA_OTHER, SA_FORKED), files={'e': b'', 'f': MAKE})
row('torn-process-file-after-a-good-one', 'sa,files', 'Nothing is printed where a later file is at fault.', ['sa', 'f', 'g'], '',
    'tally: g: torn after 3 records, 1 bytes left\n', 1, {'f': MAKE, 'g': MAKE + b'\0'})
row('first-process-file-at-fault', 'sa,files,feeders', 'Of two files at fault the first is named, whichever is found first.',
    ['sa', '--feeders', '3', 'f', 'g', 'h'], '', 'tally: g: record 1 has version 9\n', 1,
    {'f': MAKE, 'g': A(0, 0, 0, 0, 0, 0, 0, 'a') + A(0, 0, 0, 0, 0, 0, 0, 'a', version=9), 'h': b'\0'})
row('process-files-too-many', 'sa,files', 'More than 128 files are refused, and none is read.', ['sa'] + ['f'] * 129, '',
    'tally: 129 callers, 1 to 128 are allowed\n', 1, {'f': b'\0'})
row('most-process-files', 'sa,files', '128 files are read: 384 calls.', ['sa'] + ['f'] * 128,
    lines('     384        15.36re         6.40cp        335avio        380k',
          '     128        12.80re         3.84cp       1000avio        500k make',
          '     256         2.56re         2.56cp          3avio        200k make*'), files={'f': MAKE})

row('commands-of-mixed-versions', 'sa,version3', 'A version 3 record among records of version 2.', ['sa', 'f'],
    lines(SA_TOTAL, SA_OTHER, SA_FORKED), files={'f': MAKE_V3})
row('users-of-mixed-versions', 'sa,sa -m,version3', 'The uid stands at another offset.', ['sa', '-m', 'f'], SA_USERS,
    files={'f': MAKE_V3})
row('big-endian-version-three', 'sa,version3', 'Bit 0x80 of the version byte is refused.', ['sa', 'f'], '',
    'tally: f: record 0 has version 131\n', 1, {'f': A3(0, 0, 0, 0, 0, 0, 0, 'x', version=0x83)})
row('command-name-of-sixteen-bytes', 'sa,sa -a,version3', 'A name that fills its field.', ['sa', '-a', 'f'],
    lines('       1         0.10re         0.00cp          0avio          0k',
          '       1         0.10re         0.00cp          0avio          0k abcdefghijklmnop'),
    files={'f': A3(0, 0, 0, 0, 0x44160000, 0, 0, 'abcdefghijklmnop')})
for name, words, wanted in [
        ('elapsed-of-less-than-a-tick', [0x00000000, 0x3F000000, 0x00000001], '0.00'),
        ('elapsed-with-the-sign-bit', [0x80000000, 0xBF800000], '0.00'),
        ('elapsed-rounded-down', 30 * [0x3F800000] + 30 * [0x3FC00000], '0.01'),
        ('elapsed-greatest-that-is-a-number', [0x5F7FFFFF], '3074457162366320.64'),
        ('elapsed-past-the-numbers', [0x5F800000], '3074457345618258.60'),
        ('elapsed-no-number', [0x7FC00000], '3074457345618258.60')]:
    total = '%8d %12sre         0.00cp          0avio          0k' % (len(words), wanted)
    row(name, 'sa,sa -a,version3', 'ac_etime of ' + ', '.join(sorted({'0x%08X' % w for w in words})) + '.',
        ['sa', '-a', 'f'], lines(total, total + ' x'),
        files={'f': b''.join(A3(0, 0, 0, 0, w, 0, 0, 'x') for w in words)})

# --- where numbers turn: half a hundredth, a day, the bytes that print

def session(user, line, begin, seconds):
    return U(7, line, user, '-', begin) + U(8, line, '-', '-', begin + seconds)


row('hours-round-at-half-a-hundredth', 'ac,ac -p', '17, 18, 53 and 54 seconds; 142 in all.', ['ac', '-p', 'f'],
    lines('a                            0.00',
          'b                            0.01',
          'c                            0.01',
          'd                            0.02',
          'total                        0.04'),
    files={'f': session('a', 'tty1', 0, 17) + session('b', 'tty1', 100, 18) + session('c', 'tty1', 200, 53)
           + session('d', 'tty1', 300, 54)})
row('one-second-has-a-row', 'ac,ac -p', 'A row stands for each user with a second and more.', ['ac', '-p', 'f'],
    lines('ann                          0.00',
          'total                        0.00'), files={'f': session('ann', 'tty1', 0, 1)})
row('minutes-round-at-half-a-hundredth', 'sa,sa -m', '29, 30, 89 and 90 ticks; a uid of more than 16 bits.', ['sa', '-m', 'f'],
    lines('total             4         0.04re         0.00cp          0avio          0k',
          '1                 1         0.00re         0.00cp          0avio          0k',
          '2                 1         0.01re         0.00cp          0avio          0k',
          '3                 1         0.01re         0.00cp          0avio          0k',
          '66536             1         0.02re         0.00cp          0avio          0k'),
    files={'f': A(0, 1, 0, 0, 29, 0, 0, 'x') + A(0, 2, 0, 0, 30, 0, 0, 'x') + A(0, 3, 0, 0, 89, 0, 0, 'x')
           + A(0, 66536, 0, 0, 90, 0, 0, 'x')})
row('spans-of-minutes-and-days', 'last', '59, 60, 3599, 86399 and 86400 seconds.', ['last', 'f'],
    lines('e        tty1                          1970-01-02 03:46:40 - 1970-01-03 03:46:40 (1+00:00)',
          'd        tty1                          1970-01-01 02:46:40 - 1970-01-02 02:46:39 (23:59)',
          'c        tty1                          1970-01-01 00:16:40 - 1970-01-01 01:16:39 (00:59)',
          'b        tty1                          1970-01-01 00:01:40 - 1970-01-01 00:02:40 (00:01)',
          'a        tty1                          1970-01-01 00:00:00 - 1970-01-01 00:00:59 (00:00)',
          '',
          'wtmp begins 1970-01-01 00:00:00'),
    files={'f': session('a', 'tty1', 0, 59) + session('b', 'tty1', 100, 60) + session('c', 'tty1', 1000, 3599)
           + session('d', 'tty1', 10000, 86399) + session('e', 'tty1', 100000, 86400)})
row('midnight-to-the-second', 'ac,ac -d', 'An hour up to midnight, and an hour from it on.', ['ac', '-d', 'f'],
    lines('1970-01-01 total                        1.00',
          '1970-01-02 total                        1.00',
          'total                        2.00'),
    files={'f': session('ann', 'tty1', 82800, 3600) + session('bob', 'tty1', 86400, 3600)})
row('bytes-that-print', 'ac,ac -p', 'Names with 0x1F, 0x20, 0x7E, 0x7F, 0x80 and 0xFF; ordered by their bytes.', ['ac', '-p', 'f'],
    lines('a?                           1.00',
          'a                            1.00',
          'a~                           1.00',
          'a?                           1.00',
          'a?                           1.00',
          'a?                           1.00',
          'total                        6.00'),
    files={'f': b''.join(session(b'a' + bytes([byte]), 'tty1', 4000 * n, 3600)
                         for n, byte in enumerate([0x1F, 0x20, 0x7E, 0x7F, 0x80, 0xFF]))})
row('command-name-of-seventeen-bytes', 'sa,sa -a', 'A name that fills its field in version 2.', ['sa', '-a', 'f'],
    lines('       1         0.00re         0.00cp          0avio          0k',
          '       1         0.00re         0.00cp          0avio          0k abcdefghijklmnopq'),
    files={'f': A(0, 0, 0, 0, 0, 0, 0, 'abcdefghijklmnopq')})
row('shutdown-by-its-name-and-line', 'ac', 'Only `shutdown` on a line that begins with ~ ends a session.', ['ac', 'f'],
    TOTAL_ONE, files={'f': U(7, 'tty1', 'ann', '-', 0) + U(1, '~', 'shutdownx', '-', 100) + U(1, 'tty1', 'shutdown', '-', 200)
                      + U(1, '~', 'shutdown', '-', 3600) + U(8, 'tty1', '-', '-', 7200)})

# --- records of zeros, as a crash leaves them

ZEROS = 2 * bytes(384)
ANN_AND_BOB = (U(7, 'tty1', 'ann', '-', 1000000) + U(7, 'tty2', 'bob', '-', 1000000) + U(8, 'tty2', '-', '-', 1003600))
row('zeros-before-a-boot', 'ac', 'Between other records they change nothing: the boot ends the session.', ['ac', 'f'], TOTAL_ONE,
    files={'f': ONE_HOUR[:384] + ZEROS + U(2, '~', 'reboot', '-', 1003600)})
row('zeros-at-the-end', 'ac,ac -p', 'The last time is 1970, so that the open session of ann has no length.', ['ac', '-p', 'f'],
    lines('bob                          1.00', 'total                        1.00'), files={'f': ANN_AND_BOB + ZEROS})
row('zeros-at-the-end-up-to-a-moment', 'ac,ac -p,until', '--until gives it one: two hours.', ['ac', '-p', '--until', '1007200', 'f'],
    lines('ann                          2.00', 'bob                          1.00', 'total                        3.00'),
    files={'f': ANN_AND_BOB + ZEROS})
row('zeros-at-the-beginning', 'last', 'The first time is 1970.', ['last', 'f'],
    lines('ann      tty1                          1970-01-12 13:46:40 - 1970-01-12 14:46:40 (01:00)', '',
          'wtmp begins 1970-01-01 00:00:00'), files={'f': ZEROS + ONE_HOUR})
row('process-record-of-zeros', 'sa', 'It has no version.', ['sa', 'f'], '', 'tally: f: record 3 has version 0\n', 1,
    {'f': MAKE + bytes(64)})

# --- until

row('open-session-up-to-a-moment', 'ac,files,until', 'd is open on one host and has 1850 seconds; 4250 in all.',
    ['ac', '--until', '2000', 'f', 'g'], lines('total                        1.18'), files={'f': HOST_A, 'g': HOST_B})
row('until-before-the-login', 'ac,until', 'A moment before the login gives length 0.', ['ac', '--until', '0', 'f'],
    TOTAL_ZERO, files={'f': ONE_HOUR[:384]})
row('until-with-a-clock-change', 'ac,clock,until', 'The start moves by the changes up to the last record: length 3000.',
    ['ac', '--until', '6000', 'f'], lines('total                        0.83'),
    files={'f': U(7, 'tty1', 'ann', '-', 0) + U(4, '~', '-', '-', 2000) + U(3, '~', '-', '-', 5000)})
row('until-leaves-ended-sessions', 'ac,until', 'A session that has ended keeps its end.',
    ['ac', '--until', '2000000', 'f'], TOTAL_ONE, files={'f': ONE_HOUR})
row('still-running-up-to-a-moment', 'last,until', 'The open boot has a span; the other lines stay.',
    ['last', '--until', '5000', 'f'],
    lines('reboot   system boot                   1970-01-01 00:18:20 - still running       (01:05)')
    + DOWN_AND_BOOT_TAIL, files={'f': DOWN_AND_BOOT})
row('still-logged-in-up-to-a-moment', 'last,until', 'The open session has a span.', ['last', '--until', '1003600', 'f'],
    lines('ann      tty1                          1970-01-12 13:46:40 - still logged in     (01:00)', '',
          'wtmp begins 1970-01-12 13:46:40'), files={'f': ONE_HOUR[:384]})
row('until-in-all-reports', 'all,until', 'last and ac carry the moment.', ['all', '--until', '1003600', 'w:f'],
    lines('ann      tty1                          1970-01-12 13:46:40 - still logged in     (01:00)', '',
          'wtmp begins 1970-01-12 13:46:40', '') + TOTAL_ONE + '\n' + SA_NOTHING, files={'f': ONE_HOUR[:384]})
row('sa-has-no-until', 'sa,until', '--until is no option of sa.', ['sa', '--until', '5', 'f'], '', None, 2, {'f': b''})
row('until-out-of-range', 'ac,until,moment', '2147483648 is past the last moment.', ['ac', '--until', '2147483648', 'f'],
    '', NO_RANGE, 2, {'f': b''})

ODD_OFFSET = ("error: --east and --west take minutes, without a sign or a leading zero: for +0200 write --east 120\n\n"
              "For more information, try '--help'.\n")
row('offset-with-a-sign', 'ac,offset', '+0200 is no number of minutes.', ['ac', '--east', '+0200', 'f'], '', ODD_OFFSET, 2,
    {'f': ONE_HOUR})
row('offset-with-a-leading-zero', 'ac,offset', '060 may mean 60 minutes, or an hour.', ['ac', '--west', '060', 'f'], '',
    ODD_OFFSET, 2, {'f': ONE_HOUR})
row('offset-of-zero', 'ac,offset', 'A single zero is a number of minutes.', ['ac', '--east', '0', '--west', '0', 'f'], TOTAL_ONE,
    files={'f': ONE_HOUR})

# --- local time by the rules of a zone

add_zone_rows(row, lines, session)

# --- moments

add_moment_rows(row, lines, U, ODD_OFFSET)

# --- some users, some lines, a part of time

add_choice_rows(row, lines, U, session)
add_choice_faults(row, session)

# --- some users and a period of processes, users by name

add_usage_rows(row, lines, A, A3)
add_people_rows(row, lines, A, A3)

# --- usage of each file

add_by_file_rows(row, lines, A)
add_connect_by_file_rows(row, lines, U)
add_path_rows(row, lines, U, A)

# --- failed logins

add_attempt_rows(row, lines, U)

# --- checks of files

add_check_rows(row, lines, U, A, A3)

# --- files of an option

add_file_rows(row, lines, U)

# --- databases of wtmpdb

add_wtmpdb_rows(row, lines, U)

# --- closed standard streams

add_stream_rows(row, lines, ONE_HOUR, TOTAL_ONE)

# --- odd paths

row('path-that-is-empty', 'ac', 'An empty path.', ['ac', ''], '', 'tally: : cannot be opened\n', 1)
row('path-that-ends-in-a-blank', 'ac,files', 'A blank at the end is a part of the path.', ['ac', 'f '], TOTAL_ONE,
    files={'f ': ONE_HOUR, 'f': TWO_USERS})
row('path-with-a-line-feed', 'ac', 'Elsewhere than on a terminal a path stands as given.', ['ac', b'a\nb\x1b'], '',
    'tally: a\nb\x1b: cannot be opened\n', 1)
row('path-that-is-no-text', 'ac', 'A word that is no UTF-8.', ['ac', b'f\xff'], '', 'tally: a word is no UTF-8 text\n', 2,
    {'f': ONE_HOUR})
row('device-that-is-not-there', 'ac', 'No other path stands for standard input.', ['ac', '/dev/nosuch'], '',
    'tally: /dev/nosuch: cannot be opened\n', 1, stdin=ONE_HOUR)

# What README.md and the manual show, over the files of examples/.


def example(name):
    with open(os.path.join(TOP, os.pardir, 'examples', name), 'rb') as file:
        return file.read()


row('example-total-of-a-morning', 'ac', 'The first example of README and manual: 6.75 hours.', ['ac', 'morning.wtmp'],
    lines('total                        6.75'), files={'morning.wtmp': example('morning.wtmp')})
row('example-users-of-a-morning', 'ac,ac -p', 'ann 1.50 and 1.75 hours, bob 3.25 and 0.25.', ['ac', '-p', 'morning.wtmp'],
    lines('ann                          3.25',
          'bob                          3.50',
          'total                        6.75'), files={'morning.wtmp': example('morning.wtmp')})
row('example-latest-stay-of-a-morning', 'last,last -n,offset', 'The latest stay, an hour east of UTC.',
    ['last', '-n', '1', '--east', '60', 'morning.wtmp'],
    lines('bob      tty1                          2026-03-02 12:55:00 - 2026-03-02 13:10:00 (00:15)',
          '',
          'wtmp begins 2026-03-02 08:55:00'), files={'morning.wtmp': example('morning.wtmp')})
row('example-all-stays-of-a-morning', 'last', 'A boot, sessions that a shutdown ends, and a second boot.', ['last', 'morning.wtmp'],
    lines('bob      tty1                          2026-03-02 11:55:00 - 2026-03-02 12:10:00 (00:15)',
          'reboot   system boot  6.1.0-18-amd64   2026-03-02 11:50:00   still running',
          'ann      tty1                          2026-03-02 10:00:00 - down                (01:45)',
          'bob      pts/0        192.0.2.7        2026-03-02 08:30:00 - down                (03:15)',
          'ann      tty1                          2026-03-02 08:00:00 - 2026-03-02 09:30:00 (01:30)',
          'reboot   system boot  6.1.0-18-amd64   2026-03-02 07:55:00 - down                (03:50)',
          '',
          'wtmp begins 2026-03-02 07:55:00'), files={'morning.wtmp': example('morning.wtmp')})
row('example-open-up-to-half-past-ten', 'ac,ac -p,until,moment,zone', 'bob is open from 00:30 to 10:30 of Berlin: 10.00 hours.',
    ['ac', '-p', '--zone', BERLIN, '--until', '2026-08-01T10:30', 'july.1.wtmp'],
    lines('ann                          3.00',
          'bob                         10.00',
          'total                       13.00'), files={'july.1.wtmp': example('july.1.wtmp')})
row('example-up-to-now', 'ac,until,moment', 'All sessions of the morning have ended.', ['ac', '--until', 'now', 'morning.wtmp'],
    lines('total                        6.75'), files={'morning.wtmp': example('morning.wtmp')})
row('example-who-was-on', 'last,choice', 'Who was logged in at 10:30, and the running time.', ['last', '--at', '2026-03-02 10:30', 'morning.wtmp'],
    lines('ann      tty1                          2026-03-02 10:00:00 - down                (01:45)',
          'bob      pts/0        192.0.2.7        2026-03-02 08:30:00 - down                (03:15)',
          'reboot   system boot  6.1.0-18-amd64   2026-03-02 07:55:00 - down                (03:50)', '',
          'wtmp begins 2026-03-02 07:55:00'), files={'morning.wtmp': example('morning.wtmp')})
row('example-latest-stay-of-a-user', 'last,last -n,choice', 'The latest session of ann.', ['last', '-n', '1', '--user', 'ann', 'morning.wtmp'],
    lines('ann      tty1                          2026-03-02 10:00:00 - down                (01:45)', '',
          'wtmp begins 2026-03-02 07:55:00'), files={'morning.wtmp': example('morning.wtmp')})
row('example-running-times-of-a-morning', 'last,choice', 'Two running times.', ['last', '--user', 'reboot', 'morning.wtmp'],
    lines('reboot   system boot  6.1.0-18-amd64   2026-03-02 11:50:00   still running',
          'reboot   system boot  6.1.0-18-amd64   2026-03-02 07:55:00 - down                (03:50)', '',
          'wtmp begins 2026-03-02 07:55:00'), files={'morning.wtmp': example('morning.wtmp')})
LONDON = 'GMT0BST,M3.5.0/1,M10.5.0'
row('example-july-of-a-user', 'ac,choice,zone', 'July of bob by the days of London, over a rotated log: half an hour of 8.50.',
    ['ac', '--user', 'bob', '--in', '2026-07', '--zone', LONDON, '/dev/stdin'], lines('total                        0.50'),
    stdin=example('july.1.wtmp') + example('july.wtmp'))
row('example-july-of-a-user-as-a-table', 'last,csv,choice,zone', 'The same 1800 seconds from a row.',
    ['last', '--csv', '--user', 'bob', '--in', '2026-07', '--zone', LONDON, '/dev/stdin'],
    lines('file,user,line,remote,start,start_at,begin,end,end_time,end_at,seconds,within',
          '1,bob,pts/0,host7.example,1785537000,2026-07-31T23:30:00+01:00,1785537000,logout,1785567600,2026-08-01T08:00:00+01:00,30600,1800'),
    stdin=example('july.1.wtmp') + example('july.wtmp'))
row('example-commands-of-a-server', 'sa,version3', 'Records of version 3, as the kernel writes them.', ['sa', 'server.acct'],
    lines('       9     20637.87re         0.81cp          0avio      92787k',
          '       2         0.72re         0.68cp          0avio     102491k cc1',
          '       3     20636.14re         0.12cp          0avio      39177k ***other',
          '       2         0.01re         0.00cp          0avio       9000k cron*',
          '       2         1.01re         0.00cp          0avio       5500k sleep'), files={'server.acct': example('server.acct')})
row('example-users-of-a-build', 'sa,sa -m', 'The usage of each user of a small build.', ['sa', '-m', 'build.acct'],
    lines('total             8         1.00re         0.66cp       1081avio       3617k',
          '1000              6         0.89re         0.66cp       1433avio       3648k',
          '0                 1         0.10re         0.00cp         10avio        250k',
          '1001              1         0.01re         0.00cp         40avio        300k'), files={'build.acct': example('build.acct')})
add_usage_example(row, lines, example)
add_people_example(row, lines, example)
add_attempt_example(row, lines, example)
add_check_example(row, lines, example)
add_wtmpdb_example(row, lines, example)

# --- CSV

STAY_NAMES = 'file,user,line,remote,start,start_at,begin,end,end_time,end_at,seconds'
COMMAND_NAMES = 'command,forked,other,calls,real_ticks,cpu_ticks,io,mem_cpu'
USER_NAMES = 'uid,calls,real_ticks,cpu_ticks,io,mem_cpu'
HOSTILE_STAYS = (U(7, 'tty1', 'a,b', b'say "hi"\nx\xff', 1000) + U(8, 'tty1', '-', '-', 4600)
                 + U(7, 'pts/0', '"', '=1+1', 5000) + U(8, 'pts/0', '-', '-', 5060))
HOSTILE_COMMANDS = (A(0, 1000, 120, 60, 600, 500, 1000, b'a,"b\n') + A(0, 0, 1, 0, 2, 0, 0, '***other')
                    + A(1, 1000, 0, 0, 5, 7, 1, '***other'))

row('table-of-one-stay', 'last,csv', 'A header, and a row with times in seconds and as moments.', ['last', '--csv', 'f'],
    lines(STAY_NAMES, '1,ann,tty1,,1000000,1970-01-12T13:46:40+00:00,1000000,logout,1003600,1970-01-12T14:46:40+00:00,3600'),
    files={'f': ONE_HOUR})
row('table-of-two-files', 'last,csv,files', 'One header over the stays of all files; files count from 1.',
    ['last', '--csv', 'f', 'e', 'g'],
    lines(STAY_NAMES, '1,ann,tty1,,1000000,1970-01-12T13:46:40+00:00,1000000,logout,1003600,1970-01-12T14:46:40+00:00,3600',
          '3,ann,tty1,,84600,1970-01-01T23:30:00+00:00,84600,logout,88200,1970-01-02T00:30:00+00:00,3600'),
    files={'f': ONE_HOUR, 'e': b'', 'g': MIDNIGHT})
row('table-of-no-stays', 'last,csv', 'An empty report is its header.', ['last', '--csv', 'f'], lines(STAY_NAMES),
    files={'f': b''})
row('table-of-running-times', 'last,csv,offset', 'A running time has no line; moments have the offset.',
    ['last', '--csv', '--west', '330', 'f'],
    lines(STAY_NAMES,
          '1,reboot,,,1100,1969-12-31T18:48:20-05:30,1100,still,1100,1969-12-31T18:48:20-05:30,0',
          '1,ann,tty1,,200,1969-12-31T18:33:20-05:30,200,down,1000,1969-12-31T18:46:40-05:30,800',
          '1,reboot,,,100,1969-12-31T18:31:40-05:30,100,down,1000,1969-12-31T18:46:40-05:30,900'),
    files={'f': DOWN_AND_BOOT})
row('table-with-a-clock-change', 'last,csv,clock', 'The start as recorded, and by the clock of the end.',
    ['last', '--csv', 'f'],
    lines(STAY_NAMES, '1,ann,tty1,,1000,1970-01-01T00:16:40+00:00,4000,logout,6000,1970-01-01T01:40:00+00:00,2000'),
    files={'f': U(7, 'tty1', 'ann', '-', 1000) + U(4, '~', '-', '-', 2000) + U(3, '~', '-', '-', 5000)
           + U(8, 'tty1', '-', '-', 6000)})
row('table-of-the-first-stays', 'last,last -n,csv', 'The latest stay alone, counted up to a moment.',
    ['last', '--csv', '-n', '1', '--until', '100', 'f'],
    lines(STAY_NAMES, '1,ann,tty1,,0,1970-01-01T00:00:00+00:00,0,still,100,1970-01-01T00:01:40+00:00,100'),
    files={'f': BLOCKS_BOB[:384] + U(7, 'tty1', 'ann', '-', 0)})
row('table-of-hostile-stays', 'last,csv', 'Commas and quotes are quoted, a quote twice; other bytes are question marks.',
    ['last', '--csv', 'f'],
    lines(STAY_NAMES,
          '1,"""",pts/0,=1+1,5000,1970-01-01T01:23:20+00:00,5000,logout,5060,1970-01-01T01:24:20+00:00,60',
          '1,"a,b",tty1,"say ""hi""?x?",1000,1970-01-01T00:16:40+00:00,1000,logout,4600,1970-01-01T01:16:40+00:00,3600'),
    files={'f': HOSTILE_STAYS})
row('table-of-a-total', 'ac,csv', 'With neither -d nor -p the total is the one row.', ['ac', '--csv', 'f'],
    lines('seconds', '3600'), files={'f': ONE_HOUR})
row('table-by-day', 'ac,ac -d,csv', 'No row for the total.', ['ac', '-d', '--csv', 'f'],
    lines('day,seconds', '1970-01-01,1800', '1970-01-02,1800'), files={'f': MIDNIGHT})
row('table-by-day-and-user', 'ac,ac -d,ac -p,csv', 'Columns that the report has, in one order.', ['ac', '-p', '-d', '--csv', 'f'],
    lines('day,user,seconds', '1970-01-01,ann,1800', '1970-01-02,ann,1800'), files={'f': MIDNIGHT})
row('table-of-hostile-users', 'ac,ac -p,csv', 'Users with a comma and a quote.', ['ac', '-p', '--csv', 'f'],
    lines('user,seconds', '"""",60', '"a,b",3600'), files={'f': HOSTILE_STAYS})
row('table-of-no-users', 'ac,ac -p,csv', 'An empty report is its header.', ['ac', '-p', '--csv', 'f'],
    lines('user,seconds'), files={'f': b''})
row('table-of-commands', 'sa,csv', 'Ticks and sums; the row that joins commands has a mark.', ['sa', '--csv', 'f'],
    lines(COMMAND_NAMES, '***other,0,1,1,600,180,1000,90000', 'make,1,0,2,120,120,6,24000'), files={'f': MAKE})
row('table-of-hostile-commands', 'sa,sa -a,csv', 'A command that is named as the joined row has no mark.',
    ['sa', '-a', '--csv', 'f'],
    lines(COMMAND_NAMES, '"a,""b?",0,0,1,600,180,1000,90000', '***other,0,0,1,2,1,0,0', '***other,1,0,1,5,0,1,0'),
    files={'f': HOSTILE_COMMANDS})
row('table-of-users', 'sa,sa -m,csv', 'Usage by user.', ['sa', '-m', '--csv', 'f'],
    lines(USER_NAMES, '1000,3,720,300,1006,114000'), files={'f': MAKE})
row('table-of-no-commands', 'sa,csv', 'An empty report is its header.', ['sa', '--csv', 'f'], lines(COMMAND_NAMES),
    files={'f': b''})
row('table-of-a-torn-file', 'last,csv', 'A fault is named as ever, and nothing is printed.', ['last', '--csv', 'f'], '',
    'tally: f: torn after 1 records, 1 bytes left\n', 1, {'f': ONE_HOUR[:385]})
row('table-that-is-not-taken', 'ac,csv,full-device', 'A write that fails is a fault.', ['ac', '--csv', 'f'], '',
    'tally: write failed\n', 1, {'f': ONE_HOUR}, stdout_to='/dev/full')
row('all-has-no-table', 'all,csv', 'All reports are text alone.', ['all', '--csv', 'w:f'], '', None, 2, {'f': ONE_HOUR})

# --- what the manual's DIFFERENCES say of tally, where no other row shows it

NO_EVENTS = b''.join(U(kind, 'tty1', user, '-', 1000000 + 600 * number)
                     for number, (kind, user) in enumerate(((0, '-'), (0, 'bob'), (5, '-'), (5, 'bob'), (6, '-'),
                                                            (6, 'bob'), (9, '-'), (9, 'bob')), 1))
AROUND_THEM = U(7, 'tty1', 'ann', '-', 1000000) + NO_EVENTS + U(8, 'tty1', '-', '-', 1007200)

row('records-that-are-no-event', 'ac,ac -p', 'Types 0, 5, 6 and 9 end no session and begin none, with a user or without.',
    ['ac', '-p', 'f'], lines('ann                          2.00', 'total                        2.00'), files={'f': AROUND_THEM})
row('records-that-are-no-event-last', 'last', 'The same in the list.', ['last', 'f'],
    lines('ann      tty1                          1970-01-12 13:46:40 - 1970-01-12 15:46:40 (02:00)', '',
          'wtmp begins 1970-01-12 13:46:40'), files={'f': AROUND_THEM})
row('boot-ends-a-running-time', 'last', 'A running time without a shutdown ends at the next boot: crash.', ['last', 'f'],
    lines('reboot   system boot                   1970-01-01 01:06:40   still running',
          'ann      tty1                          1970-01-01 00:03:20 - crash               (01:03)',
          'reboot   system boot                   1970-01-01 00:01:40 - crash               (01:05)', '',
          'wtmp begins 1970-01-01 00:01:40'),
    files={'f': U(2, '~', 'reboot', '-', 100) + U(7, 'tty1', 'ann', '-', 200) + U(2, '~', 'reboot', '-', 4000)})
row('count-reads-the-whole-file', 'last,last -n', 'With -n too, a bad record before the latest stay is refused.',
    ['last', '-n', '1', 'f'], '', 'tally: f: record 0 has login type 10\n', 1,
    {'f': U(10, '-', '-', '-', 0) + ONE_HOUR})
row('joined-commands-have-no-mark', 'sa', 'Commands that forked are joined without the asterisk.', ['sa', 'f'],
    lines('       2         0.02re         0.02cp          0avio          0k',
          '       2         0.02re         0.02cp          0avio          0k ***other'),
    files={'f': A(1, 0, 60, 0, 60, 0, 0, 'a') + A(1, 0, 60, 0, 60, 0, 0, 'b')})
row('commands-that-tie', 'sa,sa -a', 'At a tie commands are in the order of their names.', ['sa', '-a', 'f'],
    lines('       2         0.02re         0.02cp          0avio          0k',
          '       1         0.01re         0.01cp          0avio          0k a',
          '       1         0.01re         0.01cp          0avio          0k b'),
    files={'f': A(0, 0, 60, 0, 60, 0, 0, 'b') + A(0, 0, 60, 0, 60, 0, 0, 'a')})
row('login-file-given-to-sa', 'sa', 'A login record is no process record.', ['sa', 'f'], '',
    'tally: f: record 0 has version 0\n', 1, {'f': ONE_HOUR})
row('process-file-given-to-ac', 'ac', 'Nor is a process record a login record.', ['ac', 'f'], '',
    'tally: f: record 0 has login type 512\n', 1, {'f': 6 * A(0, 1000, 120, 60, 600, 500, 1000, 'make')})
row('whole-records-of-a-torn-file', 'ac', 'What `head -c` leaves of the file of torn-after-one-record.', ['ac', '/dev/stdin'],
    TOTAL_ZERO, stdin=ONE_HOUR[:384])
row('one-file-twice', 'ac,files', 'A file that is named twice counts twice.', ['ac', 'f', 'f'],
    lines('total                        2.00'), files={'f': ONE_HOUR})
row('rotated-log-as-two-files', 'ac,files', 'A session that goes on in the next file lasts to the end of its own.',
    ['ac', 'july.1.wtmp', 'july.wtmp'], lines('total                        3.00'),
    files={'july.1.wtmp': example('july.1.wtmp'), 'july.wtmp': example('july.wtmp')})
row('rotated-log-as-one-input', 'ac,ac -d,ac -p,offset', 'The same two files as one input, an hour east of UTC.',
    ['ac', '-d', '-p', '--east', '60', '/dev/stdin'],
    lines('2026-07-30 ann                          1.00', '2026-07-31 ann                          2.00',
          '2026-07-31 bob                          0.50', '2026-08-01 bob                          8.00',
          'total                       11.50'), stdin=example('july.1.wtmp') + example('july.wtmp'))
row('version', 'ac', 'The version goes to standard output, with status 0.', ['--version'],
    lines('tally 1.0.0', 'proved with Rattle, logic dac8208d650f15bf'))
row('help-as-a-word', 'ac', 'The same help as by --help.', ['help', 'ac'], None, '', 0)
row('negative-count', 'last,last -n', 'A negative number is refused.', ['last', '-n', '-1', 'f'], '', None, 2, {'f': ONE_HOUR})


def room(r):
    """The folder of rows in which a row stands: that of its report, where it has none of its own."""
    if r['status'] in (1, 2):
        return 'faults'
    if r['name'].startswith('example-'):
        return 'examples'
    if r['args'][0] in ('help', '--version') or '--help' in r['args']:
        return 'help'
    return r['args'][0]


README_HEAD = '''# Worked rows

Each row is one run of the program: a folder with its input files, its words and what it must write. They stand by report, `ac/`, `last/`,
`lastb/`, `sa/`, `all/` and `check/`; apart from these the runs that end with a fault, `faults/`, those that ask for help, `help/`, and those that README and manual
show, `examples/`. No two have one name.

    tools/run TALLY_BINARY                    every row
    tools/run TALLY_BINARY NAME..             these rows
    tools/run --only ac,clock TALLY_BINARY    the rows that need nothing else
    tools/run --list                          names and needs
    tools/refusals TALLY_BINARY NAME..        these rows, with each allocation, read, write and call for random bytes or the time refused in turn
    tools/fuzz TALLY_BINARY                   random files and words, beside the slow definitions of slow.py
    tools/fuzz_check TALLY_BINARY             random files, whole and damaged, beside the slow definitions of slow_check.py
    tools/databases TALLY_BINARY              random databases of wtmpdb, whole, damaged and foreign, beside the slow definitions of tables.py
    tools/sizes TALLY_BINARY                  every report over files of many sizes, with ample memory
    tools/volume TALLY_BINARY                 `sa` over more records than a book holds, and the memory that it takes
    tools/millions TALLY_BINARY               reports that keep records over more than one million of them
    tools/thresholds TALLY_BINARY             users on days, and named users, over files at and over each size at which `ac` goes another way
    tools/readers TALLY_BINARY                tables, as other programs read them
    tools/schedules TALLY_BINARY              many files with many numbers of threads
    tools/surroundings TALLY_BINARY           runs on a terminal, with odd inputs, and with little of what the system gives
    tools/growths SCRIPTS_BINARY STDOUT       the scripts of tally_tests, with each allocation refused in turn

Each row runs in a time zone that is not UTC (`TZ`), on which nothing depends.
Each prints `N passed, M failed` and ends with status 0 where none failed.

In a folder:

| file | what |
|---|---|
| `args` | the words, one a line; a byte that does not print, and a backslash, stands as `\\xNN` |
| `files/` | the folder in which the program runs, with its input files |
| `stdin` | what stands on standard input, where it matters |
| `stdout`, `stderr` | the wanted bytes; where one is missing, its text is not fixed |
| `status` | the wanted exit status |
| `needs` | what the program must have for the row, one a line |
| `stdout_to` | a device that takes the place of standard output |
| `closed` | the standard streams that are closed, by number |

Needs: `ac`, `last`, `lastb`, `sa`, `all`, `check` are the subcommands, with `ac -d` and the like for flags; `offset` is
`--east` and `--west`; `clock` that clock changes move sessions; `files` several files; `feeders`, `askers`,
`until`, `csv`, `zone` and `millions` these options; `moment` that `--until` takes more than a number of seconds; `choice` reports on some users,
some lines or a period; `uid` and `period` the same of `sa`, users by number; `names` the names of users from a file; `by-file` that `ac` and
`sa` report on each file by itself; `paths` that a table has the paths of files; `database` that a login file may be a database of wtmpdb; `version3` acct records of version 3; `big` an input of 402 MB; `full-device` /dev/full.

What is refused with status 2 has no fixed text where it is that of the command line parser.

`tools/make.py` writes all but `tools/`; `U` and `A` there build records, with the wanted texts written out by hand. The gate compares what it
would write with what stands here (`tools/make.py --check`).
'''


def files_of(r):
    """The files of a row by their paths in its folder."""
    files = {'args': lines(*map(escaped, r['args'])), 'needs': lines(*r['needs']), 'status': '%d\n' % r['status']}
    for name in ('stdout', 'stderr', 'stdin', 'stdout_to', 'closed'):
        if r[name] is not None:
            files[name] = r[name]
    for name, data in (r['files'] or {'.keep': b''}).items():
        files['files/' + name] = data
    return {name: data if isinstance(data, bytes) else data.encode('ascii') for name, data in files.items()}


def readme():
    text = README_HEAD
    for place in ROOMS:
        text += '\n## %s\n\n| row | needs | shows |\n|---|---|---|\n' % place
        for r in ROWS:
            if room(r) == place:
                text += '| `%s` | %s | %s |\n' % (r['name'], ', '.join('`%s`' % n for n in r['needs']), r['about'])
    return text


def tree():
    """Every file beside `tools/` with its bytes, by its path."""
    names = [r['name'] for r in ROWS]
    assert len(set(names)) == len(names)
    files = {'README.md': readme().encode('ascii')}
    for r in ROWS:
        for name, data in files_of(r).items():
            files[os.path.join(room(r), r['name'], name)] = data
    return files


def there():
    """What stands beside `tools/`, by its path."""
    found = {}
    for folder, folders, names in os.walk(TOP):
        if folder == TOP:
            folders.remove('tools')
        for name in names:
            path = os.path.join(folder, name)
            with open(path, 'rb') as file:
                found[os.path.relpath(path, TOP)] = file.read()
    return found


def check():
    """How many files stand as they would be written, and how many do not."""
    wanted, found = tree(), there()
    wrong = sorted(path for path in wanted.keys() | found.keys() if wanted.get(path) != found.get(path))
    for path in wrong:
        what = 'is not there' if path not in found else 'is not written' if path not in wanted else 'is written otherwise'
        print('FAILED %s %s' % (path, what))
    print('%d passed, %d failed' % (len(wanted.keys() | found.keys()) - len(wrong), len(wrong)))
    return 1 if wrong else 0


def write():
    for place in ROOMS:
        shutil.rmtree(os.path.join(TOP, place), ignore_errors=True)
    for path, data in tree().items():
        os.makedirs(os.path.dirname(os.path.join(TOP, path)), exist_ok=True)
        with open(os.path.join(TOP, path), 'wb') as out:
            out.write(data)
    print('%d rows written' % len(ROWS))
    return 0


if __name__ == '__main__':
    sys.exit(check() if sys.argv[1:] == ['--check'] else write())
