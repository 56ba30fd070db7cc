"""The worked rows of `check`. What is wanted was worked out by hand, and has to be what slow_check.py gives, which knows nothing of the program."""
import os

import slow_check
from choices import NO_TABLE
from clocks import fixed
from kinds import KINDS, acct, utmp
from usage_rows import began
from zone_rows import TWO_CLOCKS

ZEROS = bytes(384)
HEADER = 'file,' + slow_check.NAMES

# A boot, a session of an hour, and one that is open when the last record is written.
NIGHT_TIMES = ('first           1970-01-01 00:16:40', 'last            1970-01-01 02:40:00', 'span            2:23:20')
NIGHT_TYPES = 'types           1 BOOT_TIME, 1 LOGIN_PROCESS, 2 USER_PROCESS, 1 DEAD_PROCESS'
NIGHT_STAYS = ('still open      1 session, 1:00:00', 'ended by a boot 0 sessions')
NO_STAYS = ('still open      0 sessions', 'ended by a boot 0 sessions')
NOTHING = 'doubtful        nothing'
UNREAD = 'doubtful        no records that are read'


def night(U):
    return (U(2, '~', 'reboot', '-', 1000) + U(7, 'tty1', 'ann', '-', 2000) + U(8, 'tty1', '-', '-', 5600)
            + U(7, 'tty2', 'bob', '-', 6000) + U(6, 'tty3', 'LOGIN', '-', 9600))


def bad(U):
    """The same with two records of zeros and one of type 77 after the boot, and one of zeros at the end."""
    return night(U)[:384] + 2 * ZEROS + U(77, 'tty1', 'ann', '-', 1500) + night(U)[384:] + ZEROS


class Checks:
    """Adds rows of checks, whose texts are as the definitions of slow_check.py have them."""

    def __init__(self, row, lines):
        self.row, self.lines = row, lines

    def add(self, name, about, files, by_hand, status=0, needs='', words=(), job=None, stdin=None):
        """`by_hand` has the lines of standard output; files stand by their paths, in the order of the words."""
        paths, text = list(files) or ['/dev/stdin'], self.lines(*by_hand)
        wanted = slow_check.output(job or {}, [(path, files.get(path, stdin)) for path in paths])
        assert wanted == (status, text, ''), (name, wanted, text)
        self.row(name, 'check' + needs + ',files' * (len(paths) > 1), about, ['check', *words, *paths], text, status=status,
                 files={os.path.normpath(path): raw for path, raw in files.items()}, stdin=stdin)

    def logins(self, name, about, raw, shown, status=0, **others):
        self.add(name, about, {'f': raw}, ['f: login records', *shown], status, **others)


def add_rows(row, lines, U, A, A3):
    checks = Checks(row, lines)
    add_logs(checks, U)
    add_clocks(checks, U)
    add_processes(checks, A, A3)
    add_kinds(checks, U)
    add_paths(checks, U)
    add_tables(checks, U, A3)
    add_refused(row, lines, U)


def add_logs(checks, U):
    check = checks.logins
    check('healthy-log', 'A log in which nothing is doubtful; an open session is normal.', night(U),
          ['size            1920', 'records         5', NIGHT_TYPES, *NIGHT_TIMES, *NIGHT_STAYS, NOTHING])
    check('checked-zeros-at-the-end', 'A crash leaves records of zeros. They end no session and are no last time.', night(U) + 3 * ZEROS,
          ['size            3072', 'records         8', NIGHT_TYPES, *NIGHT_TIMES, *NIGHT_STAYS,
           'doubtful        3 records of zeros at the end: the first is record 5'], 3)
    check('records-that-say-nothing', 'Zeros in between and at the end, and a type that is none: each is named, and what is around them is read.', bad(U),
          ['size            3456', 'records         9', NIGHT_TYPES, *NIGHT_TIMES, *NIGHT_STAYS,
           'doubtful        2 records of zeros before other records: the first is record 1',
           'doubtful        1 record of zeros at the end: record 8', 'doubtful        1 record of no known type: record 3'], 3)
    check('torn-log', 'Bytes after the last whole record.', night(U) + b'\7\0',
          ['size            1922', 'records         5', NIGHT_TYPES, *NIGHT_TIMES, *NIGHT_STAYS, 'doubtful        2 bytes after the last whole record'], 3)
    check('log-torn-after-one-byte', 'The same of one byte.', night(U)[:384] + b'\7',
          ['size            385', 'records         1', 'types           1 BOOT_TIME', 'first           1970-01-01 00:16:40',
           'last            1970-01-01 00:16:40', 'span            0:00:00', *NO_STAYS, 'doubtful        1 byte after the last whole record'], 3)
    check('checked-sessions-that-a-boot-ended', 'Three sessions of 900, 800 and 700 seconds.',
          U(7, 'tty1', 'a', '-', 100) + U(7, 'tty2', 'b', '-', 200) + U(7, 'tty3', 'c', '-', 300) + U(2, '~', 'reboot', '-', 1000),
          ['size            1536', 'records         4', 'types           1 BOOT_TIME, 3 USER_PROCESS', 'first           1970-01-01 00:01:40',
           'last            1970-01-01 00:16:40', 'span            0:15:00', 'still open      0 sessions', 'ended by a boot 3 sessions, 0:40:00', NOTHING])
    check('checked-zeros-fill-a-block', 'More records than are read at once, 1,023 of them of zeros.',
          U(7, 'tty1', 'ann', '-', 100) + 1023 * ZEROS + U(8, 'tty1', '-', '-', 3700),
          ['size            393600', 'records         1025', 'types           1 USER_PROCESS, 1 DEAD_PROCESS', 'first           1970-01-01 00:01:40',
           'last            1970-01-01 01:01:40', 'span            1:00:00', *NO_STAYS,
           'doubtful        1023 records of zeros before other records: the first is record 1'], 3)
    check('every-type-is-counted', 'A record of each type, EMPTY with a time, and one of type 10.', b''.join(U(kind, 'tty%d' % kind, '-', '-', 60 * kind) for kind in (*range(10), 10)),
          ['size            4224', 'records         11',
           'types           1 EMPTY, 1 RUN_LVL, 1 BOOT_TIME, 1 NEW_TIME, 1 OLD_TIME, 1 INIT_PROCESS, 1 LOGIN_PROCESS, 1 USER_PROCESS, 1 DEAD_PROCESS, 1 ACCOUNTING',
           'first           1970-01-01 00:00:00', 'last            1970-01-01 00:09:00', 'span            0:09:00', *NO_STAYS,
           'doubtful        1 record of no known type: record 10'], 3)
    failed = U(6, 'ssh:notty', 'root', '192.0.2.1', 1000)
    checks.add('checked-failed-logins', 'What btmp files have is told by its types.', {'f': failed},
               ['f: login records, maybe failed logins', 'size            384', 'records         1', 'types           1 LOGIN_PROCESS',
                'first           1970-01-01 00:16:40', 'last            1970-01-01 00:16:40', 'span            0:00:00', *NO_STAYS, NOTHING])


def add_clocks(checks, U):
    check, boot, ann = checks.logins, U(2, '~', 'reboot', '-', 1000), U(7, 'tty1', 'ann', '-', 5000)
    check('step-back', 'A time an hour before that of the record before it; bob counts up to the last record.',
          boot + ann + U(7, 'tty2', 'bob', '-', 1400) + U(8, 'tty1', '-', '-', 5600),
          ['size            1536', 'records         4', 'types           1 BOOT_TIME, 2 USER_PROCESS, 1 DEAD_PROCESS', 'first           1970-01-01 00:16:40',
           'last            1970-01-01 01:33:20', 'span            1:16:40', 'still open      1 session, 1:10:00', 'ended by a boot 0 sessions',
           'doubtful        1 step back in time without a clock change, 1:00:00 at most'], 3)
    check('steps-back', 'Steps of 100, 400 and 1 seconds.', U(2, '~', 'reboot', '-', 5000) + U(6, 'tty1', 'LOGIN', '-', 4900) + U(6, 'tty2', 'LOGIN', '-', 4500)
          + U(6, 'tty3', 'LOGIN', '-', 4499),
          ['size            1536', 'records         4', 'types           1 BOOT_TIME, 3 LOGIN_PROCESS', 'first           1970-01-01 01:14:59',
           'last            1970-01-01 01:23:20', 'span            0:08:21', *NO_STAYS,
           'doubtful        3 steps back in time without a clock change, 0:06:40 at most'], 3)
    check('step-back-by-a-clock-change', 'A pair of old and new time accounts for the step.',
          boot + ann + U(4, '|', 'date', '-', 5100) + U(3, '{', 'date', '-', 1500) + U(8, 'tty1', '-', '-', 2000),
          ['size            1920', 'records         5', 'types           1 BOOT_TIME, 1 NEW_TIME, 1 OLD_TIME, 1 USER_PROCESS, 1 DEAD_PROCESS',
           'first           1970-01-01 00:16:40', 'last            1970-01-01 01:25:00', 'span            1:08:20', *NO_STAYS, NOTHING])
    check('new-time-without-an-old-one', 'It accounts for nothing.', boot + ann + U(3, '{', 'date', '-', 1400),
          ['size            1152', 'records         3', 'types           1 BOOT_TIME, 1 NEW_TIME, 1 USER_PROCESS', 'first           1970-01-01 00:16:40',
           'last            1970-01-01 01:23:20', 'span            1:06:40', 'still open      1 session, 0:00:00', 'ended by a boot 0 sessions',
           'doubtful        1 step back in time without a clock change, 1:00:00 at most'], 3)
    check('zeros-are-no-step-back', 'A record of zeros has no time.', boot + ZEROS + ann,
          ['size            1152', 'records         3', 'types           1 BOOT_TIME, 1 USER_PROCESS', 'first           1970-01-01 00:16:40',
           'last            1970-01-01 01:23:20', 'span            1:06:40', 'still open      1 session, 0:00:00', 'ended by a boot 0 sessions',
           'doubtful        1 record of zeros before other records: record 1'], 3)
    check('times-of-a-check-an-hour-east', 'Times an hour east of UTC; a length is the same everywhere.', boot + ann,
          ['size            768', 'records         2', 'types           1 BOOT_TIME, 1 USER_PROCESS', 'first           1970-01-01 01:16:40',
           'last            1970-01-01 02:23:20', 'span            1:06:40', 'still open      1 session, 0:00:00', 'ended by a boot 0 sessions', NOTHING],
          needs=',offset', words=['--east', '60'], job={'east': 60})
    check('times-of-a-check-in-a-zone', 'Berlin is an hour ahead in winter, and two in summer.', U(2, '~', 'reboot', '-', 1767225600) + U(1, '~', 'runlevel', '-', 1782864000),
          ['size            768', 'records         2', 'types           1 RUN_LVL, 1 BOOT_TIME', 'first           2026-01-01 01:00:00',
           'last            2026-07-01 02:00:00', 'span            4344:00:00', *NO_STAYS, NOTHING],
          needs=',zone', words=['--zone', 'Europe/Berlin'], job={'zone': 'Europe/Berlin'})
    check('times-of-a-check-before-1970', 'The least time that a record has, and a leap day.', U(2, '~', 'reboot', '-', -2147483648) + U(1, '~', 'runlevel', '-', 951782400),
          ['size            768', 'records         2', 'types           1 RUN_LVL, 1 BOOT_TIME', 'first           1901-12-13 20:45:52',
           'last            2000-02-29 00:00:00', 'span            860907:14:08', *NO_STAYS, NOTHING])


def add_processes(checks, A, A3):
    def check(name, about, raw, shown, status=0, **others):
        checks.add(name, about, {'f': raw}, shown, status, ',version3', **others)

    late = began(A3(0, 1000, 120, 60, 0x44160000, 500, 1000, 'make'), 3600)
    early = began(A(1, 1000, 60, 0, 60, 200, 3, 'make'), 60) + began(A(1, 1000, 60, 0, 60, 200, 3, 'make'), 120)
    check('process-file-of-both-versions', 'Times are when processes began: they stand in the order in which these ended.', late + early,
          ['f: process records, versions 2 and 3', 'size            192', 'records         3', 'versions        2 of version 2, 1 of version 3',
           'first           1970-01-01 00:01:00', 'last            1970-01-01 01:00:00', 'span            0:59:00', NOTHING])
    check('process-file-of-version-two', 'Of one version.', early,
          ['f: process records, version 2', 'size            128', 'records         2',
           'first           1970-01-01 00:01:00', 'last            1970-01-01 00:02:00', 'span            0:01:00', NOTHING])
    check('torn-process-file', 'Ten bytes after a record of version 3.', late + bytes(10),
          ['f: process records, version 3', 'size            74', 'records         1',
           'first           1970-01-01 01:00:00', 'last            1970-01-01 01:00:00', 'span            0:00:00',
           'doubtful        10 bytes after the last whole record'], 3)
    check('process-records-that-say-nothing', 'A record of zeros, and one of version 9.', late + bytes(64) + late[:1] + b'\11' + late[2:] + late,
          ['f: process records, version 3', 'size            256', 'records         4',
           'first           1970-01-01 01:00:00', 'last            1970-01-01 01:00:00', 'span            0:00:00',
           'doubtful        1 record of zeros before other records: record 1', 'doubtful        1 record of no known version: record 2'], 3)
    check('process-in-2106', 'The latest second at which a process can have begun.', began(A3(0, 0, 0, 0, 0, 0, 0, 'make'), 4294967295),
          ['f: process records, version 3', 'size            64', 'records         1',
           'first           2106-02-07 06:28:15', 'last            2106-02-07 06:28:15', 'span            0:00:00', NOTHING])


def add_kinds(checks, U):
    """A file of each kind that no report reads, and files whose kind is told by most of their records, or by their size."""
    log = [utmp(2, b'~', b'reboot', b'', 999000, 'big'), utmp(2, b'~', b'reboot', b'', 999000, long_times=True)]
    found = {
        'a.gz': (b'\x1f\x8b\x08\x00', 'packed by gzip', ': try zcat a.gz | tally check /dev/stdin'),
        'b.xz': (b'\xfd7zXZ\x00\x00', 'packed by xz', ': try xzcat b.xz | tally check /dev/stdin'),
        'c.zst': (b'\x28\xb5\x2f\xfd\x20', 'packed by zstd', ': try zstdcat c.zst | tally check /dev/stdin'),
        'd.bz2': (b'BZh9\x00', 'packed by bzip2', ': try bzcat d.bz2 | tally check /dev/stdin'),
        'e.db': (b'SQLite format 3\x00\x10\x00', 'an SQLite database, as of wtmpdb', ': a damaged database'),
        'f': (log[0], 'login records of a big-endian machine'),
        'g': (log[1], 'login records of 400 bytes, as 64-bit ARM and s390x write them'),
        'h': (acct(b'make', 'big'), 'process records of a big-endian machine'),
        'i': (KINDS['lastlog'][:292], 'the last login of each user, as lastlog(8) shows it'),
        'j': (KINDS['savacct'], 'the sums by command of sa(8), as savacct keeps them'),
        'k': (KINDS['usracct'], 'the sums by user of sa(8), as usracct keeps them'),
        'l': (b'no records\n', 'text'),
        'm': (ZEROS, 'of no known kind'),
        'n': (b'\x01', 'of no known kind'),
    }
    shown = [['', '%s: %s' % (name, what), 'size            %d' % len(raw), UNREAD + ''.join(to_do)] for name, (raw, what, *to_do) in found.items()]
    checks.add('other-kinds', 'A file of each kind that no report reads.', {name: its[0] for name, its in found.items()}, sum(shown, [])[1:], 3)
    checks.add('empty-file-check', 'In an empty file nothing is doubtful.', {'f': b''}, ['f: empty', 'size            0', NOTHING])
    checks.add('check-of-standard-input', 'A log on standard input, named /dev/stdin.', {},
               ['/dev/stdin: login records', 'size            1920', 'records         5', NIGHT_TYPES, *NIGHT_TIMES, *NIGHT_STAYS, NOTHING], stdin=night(U))
    checks.add('torn-log-of-400-bytes', 'A torn file is of the kind that its whole records are of.', {'f': KINDS['logins400'] + b'\7'},
               ['f: login records of 400 bytes, as 64-bit ARM and s390x write them', 'size            1201', UNREAD], 3)
    checks.logins('log-with-a-bad-beginning', 'Of a file that looks like nothing, the kind is that of most records.', U(500, 'tty1', 'ann', '-', 0) + night(U),
                  ['size            2304', 'records         6', NIGHT_TYPES, *NIGHT_TIMES, *NIGHT_STAYS, 'doubtful        1 record of no known type: record 0'], 3)
    checks.add('as-many-bad-records-as-good-ones', 'Of two records one is of no type: the file is of no known kind.',
               {'f': U(500, 'tty1', 'ann', '-', 0) + night(U)[:384]}, ['f: of no known kind', 'size            768', UNREAD], 3)


def add_paths(checks, U):
    checks.add('paths-of-checked-files', 'A path is printed as a table has it; in a command it stands as a shell reads it.',
               {"it's\x1b": b'\x1f\x8b', './-a b': b'\x1f\x8b', './a:1%': b'\x1f\x8b'},
               ["it's?: packed by gzip", 'size            2', UNREAD + ": try zcat 'it'\\''s?' | tally check /dev/stdin", '',
                './-a b: packed by gzip', 'size            2', UNREAD + ": try zcat './-a b' | tally check /dev/stdin", '',
                './a:1%: packed by gzip', 'size            2', UNREAD + ': try zcat ./a:1% | tally check /dev/stdin'], 3)
    wanted = slow_check.section('-a', b'BZh1', fixed(0))
    assert wanted == ('-a: packed by bzip2\nsize            4\n' + UNREAD + ': try bzcat ./-a | tally check /dev/stdin\n', True), wanted
    checks.row('path-of-a-check-that-begins-with-a-dash', 'check', 'A word after -- is a file. In a command it has its folder.', ['check', '--', '-a'], wanted[0], status=3,
               files={'-a': b'BZh1'})


def add_tables(checks, U, A3):
    proc = began(A3(0, 1000, 120, 60, 0x44160000, 500, 1000, 'make'), 3600)
    files, kinds = {'f': bad(U), 'g': proc, 'h': b'ann\n', 'i': b''}, ['text,4', 'empty,0', 'savacct,%d' % len(KINDS['savacct']), 'usracct,%d' % len(KINDS['usracct'])]
    logins = 'login,3456,9,0,0,1,0,0,0,1,2,1,0,,,1000,1970-01-01T00:16:40+00:00,9600,1970-01-01T02:40:00+00:00,1,3600,0,0,3,1,1,1,3,0,0,0,1'
    procs = 'process,64,1,,,,,,,,,,,0,1,3600,1970-01-01T01:00:00+00:00,3600,1970-01-01T01:00:00+00:00,,,,,0,0,,0,,,,0,0'
    none = 30 * ','
    checks.add('check-as-a-table', 'A row for each file: of login records, of process records, of text and of nothing.', files,
               [HEADER, '1,' + logins, '2,' + procs, '3,' + kinds[0] + none + '1', '4,' + kinds[1] + none + '0'], 3, ',csv', ['--csv'], {'csv': True})
    checks.add('sums-of-sa-in-the-table-of-a-check', 'A kind is one word.', {'j': KINDS['savacct'], 'k': KINDS['usracct']},
               [HEADER, '1,' + kinds[2] + none + '1', '2,' + kinds[3] + none + '1'], 3, ',csv', ['--csv'], {'csv': True})
    paths = HEADER.replace('file,', 'file,path,')
    checks.add('paths-of-a-check', 'The path of each file, by the rules for text.', {'logs/f': bad(U), './g,"\x1b': proc, 'i': b''},
               [paths, '1,logs/f,' + logins, '2,"./g,""?",' + procs, '3,i,' + kinds[1] + none + '0'], 3, ',csv,paths', ['--csv', '--paths'], {'csv': True, 'paths': True})
    checks.add('path-of-checked-standard-input', 'The word as it was given.', {}, [paths, '1,/dev/stdin,' + kinds[1] + none + '0'], 0, ',csv,paths', ['--paths', '--csv'],
               {'csv': True, 'paths': True}, stdin=b'')
    checks.add('table-of-a-check-five-hours-west', 'Moments have the offset at which they are shown.', {'f': U(2, '~', 'reboot', '-', 1000)},
               [HEADER, '1,login,384,1,0,0,1,0,0,0,0,0,0,0,,,1000,1969-12-31T19:16:40-05:00,1000,1969-12-31T19:16:40-05:00,0,0,0,0,0,0,,0,,0,0,0,0'], 0, ',csv,offset',
               ['--csv', '--west', '300'], {'csv': True, 'west': 300})


def add_example(row, lines, example):
    row('example-check-of-a-morning', 'check', 'What a log has: nothing is doubtful in it.', ['check', 'morning.wtmp'],
        lines('morning.wtmp: login records', 'size            4608', 'records         12',
              'types           2 RUN_LVL, 2 BOOT_TIME, 2 LOGIN_PROCESS, 4 USER_PROCESS, 2 DEAD_PROCESS',
              'first           2026-03-02 07:55:00', 'last            2026-03-02 12:10:00', 'span            4:15:00', *NO_STAYS, NOTHING),
        files={'morning.wtmp': example('morning.wtmp')})
    row('example-check-of-a-torn-morning', 'check', 'The first 4,000 bytes of it: ten records, and a part of one.', ['check', '/dev/stdin'],
        lines('/dev/stdin: login records', 'size            4000', 'records         10',
              'types           2 RUN_LVL, 2 BOOT_TIME, 2 LOGIN_PROCESS, 3 USER_PROCESS, 1 DEAD_PROCESS',
              'first           2026-03-02 07:55:00', 'last            2026-03-02 11:50:00', 'span            3:55:00', *NO_STAYS,
              'doubtful        160 bytes after the last whole record'), status=3, stdin=example('morning.wtmp')[:4000])


def add_refused(row, lines, U):
    row('check-of-a-file-that-is-not-there', 'check,files', 'Then nothing is printed of the others.', ['check', 'f', 'g'], '', lines('tally: g: cannot be opened'), 1,
        files={'f': night(U)})
    row('check-of-a-folder', 'check', 'A folder has no bytes.', ['check', '.'], '', lines('tally: .: read failed'), 1)
    row('check-without-a-file', 'check', 'It wants files.', ['check'], '', None, 2)
    row('feeders-of-check', 'check', 'It has no threads.', ['check', '--feeders', '2', 'f'], '', None, 2, files={'f': b''})
    row('period-of-check', 'check', 'It looks at whole files.', ['check', '--in', '2026', 'f'], '', None, 2, files={'f': b''})
    row('prefix-of-check', 'check', 'A file of check has no prefix: it is of any kind.', ['check', 'w:f'], '', lines('tally: w:f: cannot be opened'), 1, files={'f': b''})
    row('zone-and-offset-of-check', 'check,zone,offset', 'Local time is by one of them.', ['check', '--zone', 'UTC', '--east', '60', 'f'], '', TWO_CLOCKS, 2, files={'f': b''})
    row('paths-of-check-without-a-table', 'check,paths', 'The lines of a check are below the path of their file.', ['check', '--paths', 'f'], '', NO_TABLE, 2, files={'f': b''})
    row('check-of-a-closed-input', 'check', 'No file stands in for it.', ['check', '/dev/stdin'], '', lines('tally: /dev/stdin: read failed'), 1, closed='0')
    row('check-to-a-closed-output', 'check', 'Nor for a closed output.', ['check', 'f'], '', lines('tally: write failed'), 1, files={'f': b''}, closed='1')
    row('check-to-a-full-device', 'check,full-device', 'What could not be written is a fault.', ['check', 'f'], '', lines('tally: write failed'), 1,
        files={'f': b''}, stdout_to='/dev/full')
    row('help-of-check', 'check', 'Help goes to standard output, with status 0.', ['check', '--help'], None, '', 0)
