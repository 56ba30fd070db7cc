"""The worked rows of `lastb`. What is wanted was worked out by hand.

SSHD is the file that sshd(8) of OpenSSH 9.2 and su(1) of util-linux 2.38 wrote: a wrong password of ann, one of a user who is not
there (sshd writes two records), one of root, all by ssh from the same host, and `su root` without a terminal. PEER is what lastb(8) of
util-linux 2.38 prints of it in UTC, with `-w --time-format iso`: the same but for the end, which is the begin, and the name of the file.
"""
import base64
import re
import zlib

from choices import MANY_USERS
from moments import BACKWARD
from zone_rows import BERLIN

SSHD = zlib.decompress(base64.b85decode(
    'c-muQU|`VIV_+yQ&aleMFDa>Hzzq`f@)+;|LnCuN10XbH7}<d58GAN}u4iCiB&3!Nh)szM|GfO9{FKU!)S}eU@W%&uN5g+W0UwFsZ$o7G7v<-djFvxyfdGl&Z=z3}'
    'xrD-h6hMF!F#KJZc!^RA00Yo2cm'))

PEER = (
    'root                                   2026-11-26T07:56:10+00:00 - 2026-11-26T07:56:10+00:00  (00:00)',
    'root     ssh:notty    127.0.0.1        2026-11-26T07:56:00+00:00 - 2026-11-26T07:56:00+00:00  (00:00)',
    'nobodyhere ssh:notty    127.0.0.1        2026-11-26T07:55:58+00:00 - 2026-11-26T07:55:58+00:00  (00:00)',
    'nobodyhere ssh:notty    127.0.0.1        2026-11-26T07:55:57+00:00 - 2026-11-26T07:55:57+00:00  (00:00)',
    'ann      ssh:notty    127.0.0.1        2026-11-26T07:55:56+00:00 - 2026-11-26T07:55:56+00:00  (00:00)',
    '',
    'sshd.btmp begins 2026-11-26T07:55:56+00:00')

NAMES = 'file,user,line,remote,time,at'
SUM_NAMES = 'user,remote,attempts'

# The attempts of NIGHT: three by ssh, `su root` without a terminal, one of ann at a terminal, and one that gave no user.
NO_USER = '         tty1                          1970-01-01 01:01:00'
ANN = 'ann      tty1                          1970-01-01 01:00:00'
SU_ROOT = 'root                                   1970-01-01 00:33:20'
ROOT_AGAIN = 'root     ssh:notty    192.0.2.1        1970-01-01 00:18:40'
ADMIN = 'admin    ssh:notty    192.0.2.7        1970-01-01 00:17:40'
ROOT = 'root     ssh:notty    192.0.2.1        1970-01-01 00:16:40'
BEGINS = ('', 'btmp begins 1970-01-01 00:16:40')


def night(U):
    return (U(6, 'ssh:notty', 'root', '192.0.2.1', 1000) + U(6, 'ssh:notty', 'admin', '192.0.2.7', 1060)
            + U(6, 'ssh:notty', 'root', '192.0.2.1', 1120) + U(6, '-', 'root', '-', 2000) + U(7, 'tty1', 'ann', '-', 3600)
            + U(6, 'tty1', '-', '-', 3660))


def without_ends(text):
    """A line of lastb(8) as it is here: without the end, and with a blank in its moment."""
    return re.sub(r'(\d)T(\d\d:\d\d:\d\d)\+00:00( - \S+  \(00:00\))?$', r'\1 \2', text).replace('sshd.btmp', 'btmp')


def add_rows(row, lines, U):
    add_attempts(row, lines, U)
    add_chosen(row, lines, U)
    add_clocks(row, lines, U)
    add_sums(row, lines, U)
    add_tables(row, lines, U)
    add_faults(row, U)
    add_words(row, U)


def add_attempts(row, lines, U):
    def lastb(name, about, raw, shown, needs='lastb', words=()):
        row(name, needs, about, ['lastb', *words, 'f'], lines(*shown), files={'f': raw})

    lastb('attempts', 'The failed logins of a file, the latest first.', night(U), [NO_USER, ANN, SU_ROOT, ROOT_AGAIN, ADMIN, ROOT, *BEGINS])
    of_sshd = ['root                                   2026-11-26 07:56:10', 'root     ssh:notty    127.0.0.1        2026-11-26 07:56:00',
               'nobodyhere ssh:notty    127.0.0.1        2026-11-26 07:55:58', 'nobodyhere ssh:notty    127.0.0.1        2026-11-26 07:55:57',
               'ann      ssh:notty    127.0.0.1        2026-11-26 07:55:56', '', 'btmp begins 2026-11-26 07:55:56']
    assert of_sshd == [without_ends(line) for line in PEER]
    lastb('attempts-of-sshd', 'What sshd and su wrote, as lastb(8) prints it, but for the ends and `(00:00)`.', SSHD, of_sshd)
    lastb('attempts-of-an-empty-file', 'As last says it of a file without records.', b'', ['btmp has no records'])
    lastb('record-without-line-and-user', 'It is no attempt, but the file begins with it.', U(6, '-', '-', '192.0.2.1', 60) + night(U)[:384],
          [ROOT, '', 'btmp begins 1970-01-01 00:01:00'])
    lastb('empty-records-among-attempts', 'A crash leaves records of zeros, which are passed over.', night(U)[:384] + 2 * bytes(384) + night(U)[384:768],
          [ADMIN, ROOT, *BEGINS])
    lastb('empty-record-of-a-user', 'A record of type 0 is no attempt, whatever else it says.', night(U)[:384] + U(0, 'tty1', 'ann', '-', 1001), [ROOT, *BEGINS])
    lastb('empty-records-alone', 'A file without an attempt.', 2 * bytes(384), ['', 'btmp begins 1970-01-01 00:00:00'])
    lastb('attempts-in-the-order-of-the-file', 'The order is that of the records, not that of their times.',
          U(6, 'tty1', 'bob', '-', 3600) + U(6, 'tty1', 'ann', '-', 60),
          ['ann      tty1                          1970-01-01 00:01:00', 'bob      tty1                          1970-01-01 01:00:00', '',
           'btmp begins 1970-01-01 01:00:00'])
    lastb('texts-of-an-attempt-that-do-not-print', 'A byte that does not print is shown as a question mark; a long text moves what follows it.',
          U(6, b'\xff', b'a\tb', 'a-remote-host.example', 60),
          ['a?b      ?            a-remote-host.example 1970-01-01 00:01:00', '', 'btmp begins 1970-01-01 00:01:00'])
    lastb('latest-attempts', 'The two latest.', night(U), [NO_USER, ANN, *BEGINS], 'lastb,lastb -n', ['-n', '2'])
    lastb('more-than-all-attempts', 'A limit above their number.', night(U)[:768], [ADMIN, ROOT, *BEGINS], 'lastb,lastb -n', ['-n', '1048576'])
    lastb('attempts-of-two-blocks', 'An attempt in the first block of 1,024 records, and one in the second.',
          night(U)[:384] + 1023 * bytes(384) + night(U)[384:768], [ADMIN, ROOT, *BEGINS])
    row('attempts-of-two-files', 'lastb,files', 'A section for each file.', ['lastb', 'f', 'g', 'h'],
        lines(ADMIN, ROOT, *BEGINS, '', ANN, '', 'btmp begins 1970-01-01 01:00:00', '', 'btmp has no records'),
        files={'f': night(U)[:768], 'g': night(U)[1536:1920], 'h': b''})
    row('attempts-from-standard-input', 'lastb', 'The same on standard input, named /dev/stdin.', ['lastb', '/dev/stdin'],
        lines(ADMIN, ROOT, *BEGINS), stdin=night(U)[:768])
    row('last-of-failed-logins', 'last', 'last takes such a file, of which no record is a login.', ['last', 'f'], lines(*BEGINS).replace('btmp', 'wtmp'),
        files={'f': night(U)[:1152]})


def add_chosen(row, lines, U):
    def lastb(name, about, words, shown, needs='lastb,choice'):
        row(name, needs, about, ['lastb', *words, 'f'], lines(*shown, *BEGINS), files={'f': night(U)})

    lastb('attempts-of-a-user', 'By ssh and by su.', ['--user', 'root'], [SU_ROOT, ROOT_AGAIN, ROOT])
    lastb('attempts-of-users', 'Any of the users.', ['--user', 'ann', '--user', 'admin'], [ANN, ADMIN])
    lastb('attempts-on-a-line', 'On one line, also where no user was given.', ['--line', 'tty1'], [NO_USER, ANN])
    lastb('attempts-of-a-user-on-a-line', 'One of the users, on one of the lines.', ['--line', 'ssh:notty', '--user', 'root', '--user', 'ann'], [ROOT_AGAIN, ROOT])
    lastb('attempts-of-nobody', 'A user without an attempt.', ['--user', 'reboot'], [])
    lastb('latest-attempt-of-a-user', '-n counts what is shown.', ['-n', '1', '--user', 'admin'], [ADMIN], 'lastb,lastb -n,choice')
    lastb('attempts-of-a-period', 'From the first second, and without the last.', ['--from', '@1060', '--to', '@2000'], [ROOT_AGAIN, ADMIN], 'lastb,choice')
    lastb('attempts-of-a-period-in-short', 'The same by the letters that lastb(8) has.', ['-s', '@1060', '-t', '@2000'], [ROOT_AGAIN, ADMIN], 'lastb,choice')
    lastb('attempts-of-an-hour', 'What comes after.', ['--from', '1970-01-01 01:00'], [NO_USER, ANN], 'lastb,choice')
    lastb('attempts-of-a-day', 'A day that has them all.', ['--in', '1970-01-01'], [NO_USER, ANN, SU_ROOT, ROOT_AGAIN, ADMIN, ROOT], 'lastb,choice')
    lastb('attempts-of-another-day', 'A day that has none.', ['--in', '1970-01-02'], [], 'lastb,choice')
    lastb('attempts-of-a-user-in-a-period', 'All at once.', ['-n', '1', '--user', 'root', '--to', '@2000'], [ROOT_AGAIN], 'lastb,lastb -n,choice')


def add_clocks(row, lines, U):
    row('attempts-an-hour-east', 'lastb,offset', 'Times are those of the offset.', ['lastb', '--east', '60', 'f'],
        lines('root     ssh:notty    192.0.2.1        1970-01-01 01:16:40', '', 'btmp begins 1970-01-01 01:16:40'), files={'f': night(U)[:384]})
    row('attempts-in-a-zone', 'lastb,zone', 'Times are those of the zone, at each second.', ['lastb', '--zone', BERLIN, 'f'],
        lines('ann      tty1                          2026-03-29 03:00:00', 'ann      tty1                          2026-03-29 01:59:59', '',
              'btmp begins 2026-03-29 01:59:59'),
        files={'f': U(6, 'tty1', 'ann', '-', 1774745999) + U(6, 'tty1', 'ann', '-', 1774746000)})
    row('attempts-of-a-day-in-a-zone', 'lastb,choice,zone', 'A day begins at its midnight in the zone.', ['lastb', '--zone', BERLIN, '--in', '2026-03-29', 'f'],
        lines('ann      tty1                          2026-03-29 00:00:00', '', 'btmp begins 2026-03-28 23:59:59'),
        files={'f': U(6, 'tty1', 'ann', '-', 1774738799) + U(6, 'tty1', 'ann', '-', 1774738800)})


def add_sums(row, lines, U):
    def sums(name, about, words, shown, needs='lastb,lastb --sum', raw=None, more=()):
        row(name, needs, about, ['lastb', '--sum', *words, 'f', *(place for place, _ in more)], lines(*shown),
            files={'f': night(U) if raw is None else raw, **dict(more)})

    sums('attempts-by-user-and-host', 'The most first; ties by the bytes of the user and then of the remote host, and no bytes come first.', [],
         ['       2 root     192.0.2.1', '       1          ', '       1 admin    192.0.2.7', '       1 ann      ', '       1 root     '])
    sums('attempts-of-sshd-by-user', 'What sshd and su wrote.', [],
         ['       2 nobodyhere 127.0.0.1', '       1 ann      127.0.0.1', '       1 root     ', '       1 root     127.0.0.1'], raw=SSHD)
    sums('sums-of-an-empty-file', 'No attempt, and no line.', [], [], raw=b'')
    sums('sums-over-two-files', 'Both files together.', [], ['       3 root     192.0.2.1', '       1 admin    192.0.2.7'], 'lastb,lastb --sum,files',
         night(U)[:768], [('g', night(U)[768:1152] + night(U)[:384])])
    sums('most-attempts', '-n counts the rows.', ['-n', '1'], ['       2 root     192.0.2.1'], 'lastb,lastb --sum,lastb -n')
    sums('sums-of-a-user', 'Those of the user.', ['--user', 'root'], ['       2 root     192.0.2.1', '       1 root     '], 'lastb,lastb --sum,choice')
    sums('sums-on-a-line', 'Those on the line, whatever lines there are besides.', ['--line', 'tty1'], ['       1          ', '       1 ann      '],
         'lastb,lastb --sum,choice')
    sums('sums-of-a-period', 'Those of the period.', ['--to', '@1120'], ['       1 admin    192.0.2.7', '       1 root     192.0.2.1'], 'lastb,lastb --sum,choice')
    sums('lines-are-one-sum', 'Attempts of one user from one host on two lines are one sum.', [], ['       2 ann      h'],
         raw=U(6, 'tty1', 'ann', 'h', 60) + U(7, 'tty2', 'ann', 'h', 61))
    sums('texts-of-sums-that-do-not-print', 'Two users who are shown alike are two.', [], ['       1 ?        h?', '       1 ?        h?'],
         raw=U(6, 'tty1', b'\x01', b'h\xff', 60) + U(6, 'tty1', b'\x02', b'h\xff', 60))


def add_tables(row, lines, U):
    row('table-of-attempts', 'lastb,csv', 'A row for each attempt.', ['lastb', '--csv', 'f'],
        lines(NAMES, '1,,tty1,,3660,1970-01-01T01:01:00+00:00', '1,ann,tty1,,3600,1970-01-01T01:00:00+00:00',
              '1,root,,,2000,1970-01-01T00:33:20+00:00', '1,root,ssh:notty,192.0.2.1,1120,1970-01-01T00:18:40+00:00',
              '1,admin,ssh:notty,192.0.2.7,1060,1970-01-01T00:17:40+00:00', '1,root,ssh:notty,192.0.2.1,1000,1970-01-01T00:16:40+00:00'),
        files={'f': night(U)})
    row('table-of-attempts-of-two-files', 'lastb,csv,files,lastb -n,offset', 'The number of the file, the limit for each, and the offset.',
        ['lastb', '--csv', '-n', '1', '--west', '90', 'f', 'g'],
        lines(NAMES, '1,admin,ssh:notty,192.0.2.7,1060,1969-12-31T22:47:40-01:30', '2,ann,tty1,,3600,1969-12-31T23:30:00-01:30'),
        files={'f': night(U)[:768], 'g': night(U)[1536:1920]})
    row('table-of-hostile-attempts', 'lastb,csv', 'A text with a comma or a quote stands in quotes.', ['lastb', '--csv', 'f'],
        lines(NAMES, '1,"a,""b",tty1,"=h, ",60,1970-01-01T00:01:00+00:00'), files={'f': U(6, 'tty1', 'a,"b', '=h, ', 60)})
    row('table-of-no-attempts', 'lastb,csv', 'The names of the columns alone.', ['lastb', '--csv', 'f'], lines(NAMES), files={'f': bytes(384)})
    row('table-of-sums', 'lastb,csv,lastb --sum', 'A row for each user and remote host.', ['lastb', '--csv', '--sum', 'f'],
        lines(SUM_NAMES, 'root,192.0.2.1,2', ',,1', 'admin,192.0.2.7,1', 'ann,,1', 'root,,1'), files={'f': night(U)})
    row('table-of-no-sums', 'lastb,csv,lastb --sum', 'The names of the columns alone.', ['lastb', '--csv', '--sum', 'f'], lines(SUM_NAMES), files={'f': b''})


def add_faults(row, U):
    def refused(name, about, raw, fault='no file of failed logins'):
        row(name, 'lastb', about, ['lastb', 'f'], '', 'tally: f: %s\n' % fault, 1, {'f': raw})

    root = night(U)[:384]
    for kind, name in ((1, 'a-run-level'), (2, 'a-boot'), (3, 'a-new-time'), (4, 'an-old-time'), (5, 'an-init-process'), (8, 'a-logout'), (9, 'accounting')):
        refused('%s-among-attempts' % name, 'A record of type %d is of no file of failed logins.' % kind, root + U(kind, '~', 'x', '-', 1001) + root)
    refused('boot-before-an-unknown-type', 'The record that stands first is the fault.', U(2, '~', 'reboot', '-', 0) + U(10, '-', '-', '-', 0))
    refused('unknown-type-before-a-boot', 'The record that stands first is the fault.', root + U(10, '-', '-', '-', 0) + U(2, '~', 'reboot', '-', 0),
            'record 1 has login type 10')
    refused('boot-before-a-torn-end', 'The boot stands before the end.', U(2, '~', 'reboot', '-', 0) + bytes(5))
    refused('unknown-type-before-a-torn-end', 'So does a type that is none.', root + U(-1, '-', '-', '-', 0) + bytes(5), 'record 1 has login type -1')
    refused('attempts-with-a-torn-end', 'One record and one byte more.', root + b'x', 'torn after 1 records, 1 bytes left')
    refused('boot-in-the-second-block', 'After 1,024 attempts.', 1024 * root + U(2, '~', 'reboot', '-', 0))
    row('second-file-of-attempts-is-none', 'lastb,files', 'The file at fault is named, and nothing is printed.', ['lastb', 'f', 'g'], '',
        'tally: g: no file of failed logins\n', 1, {'f': root, 'g': root + U(8, 'tty1', '-', '-', 1001)})
    row('sums-of-no-file-of-attempts', 'lastb,lastb --sum', 'The same with --sum.', ['lastb', '--sum', 'f'], '',
        'tally: f: no file of failed logins\n', 1, {'f': U(2, '~', 'reboot', '-', 0)})


def add_words(row, U):
    def refused(name, about, words, needs='lastb', text=None):
        row(name, needs, about, ['lastb', *words, 'f'], '', text, 2, {'f': b''})

    refused('until-of-lastb', 'Nothing goes on in such a file.', ['--until', '0'])
    refused('at-of-lastb', 'An attempt takes no time.', ['--at', '@0'])
    refused('days-of-lastb', 'A flag of ac.', ['-d'])
    refused('limit-of-lastb-zero', 'At least 1.', ['-n', '0'], 'lastb,lastb -n')
    refused('limit-of-lastb-too-great', 'At most 16,777,216.', ['-n', '16777217'], 'lastb,lastb -n')
    refused('nine-users-of-lastb', 'Up to eight times.', [word for letter in 'abcdefghi' for word in ('--user', letter)], 'lastb,choice', MANY_USERS)
    refused('from-after-to-of-lastb', 'A period goes forward.', ['--from', '@2', '--to', '@1'], 'lastb,choice', BACKWARD)
    row('sum-of-last', 'last', 'An option of lastb alone.', ['last', '--sum', 'f'], '', None, 2, {'f': b''})
    row('help-of-lastb', 'lastb', 'Help goes to standard output, with status 0.', ['lastb', '--help'], None, '', 0)


def add_example(row, lines, example):
    """What the manual shows: the latest failed logins of a user, and who tried most by ssh."""
    files = {'night.btmp': example('night.btmp')}
    row('example-failed-logins', 'lastb,lastb -n,choice', 'The latest failed logins of root.', ['lastb', '-n', '2', '--user', 'root', 'night.btmp'],
        lines('root                                   2026-03-02 09:12:44', 'root     ssh:notty    203.0.113.5      2026-03-02 02:41:30', '',
              'btmp begins 2026-03-02 00:10:05'), files=files)
    row('example-failed-logins-by-user', 'lastb,lastb --sum,choice', 'Who tried most by ssh, and from where.',
        ['lastb', '--sum', '--line', 'ssh:notty', 'night.btmp'],
        lines('       2 root     198.51.100.9', '       1 admin    198.51.100.9', '       1 root     203.0.113.5'), files=files)
