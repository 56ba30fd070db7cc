"""The worked rows of `sa --by-file`. What is wanted was worked out by hand, and has to be what the definitions below give, which know
nothing of the program.

In text each file has its report below its path, and an empty line after it; the report of all files stands at the end. In a table the
rows of each file stand after its number, from 1, and no row is of all files.
"""
import os

import slow
import usage_rows
from usage_rows import began

PASSWD = b'ann:x:1000:1000:Ann:/home/ann:/bin/sh\n'
COMMAND_NAMES = 'file,command,forked,other,calls,real_ticks,cpu_ticks,io,mem_cpu'
USER_NAMES = 'file,uid,calls,real_ticks,cpu_ticks,io,mem_cpu'
NAMED_USER_NAMES = 'file,uid,name,calls,real_ticks,cpu_ticks,io,mem_cpu'

# What was used: by one call of make, by two that forked, by these three, by two calls of make, by these four, and by none.
ONE = '       1         0.10re         0.03cp       1000avio        500k'
FORKED = '       2         0.02re         0.02cp          3avio        200k'
THREE = '       3         0.12re         0.05cp        335avio        380k'
TWO = '       2         0.20re         0.06cp       1000avio        500k'
FOUR = '       4         0.22re         0.08cp        501avio        425k'
NONE = '       0         0.00re         0.00cp          0avio          0k'

# What f has: in a table, and in text. A command that was called once is joined.
F_ROWS = ['***other,0,1,1,600,180,1000,90000', 'make,1,0,2,120,120,6,24000']
G_ROWS = ['***other,0,1,1,600,180,1000,90000']
F_LINES = [THREE, ONE + ' ***other', FORKED + ' make*']
G_LINES = [ONE, ONE + ' ***other']
BOTH_LINES = [FOUR, TWO + ' make', FORKED + ' make*']


# --- definitions

def wanted(words, passwd, paths, raws):
    """What `sa --by-file` prints with these words more over files of process records."""
    at = words.index('--names') if '--names' in words else len(words)
    job = dict(usage_rows.job_of(words[:at] + words[at + 2:]), **{'by-file': True})
    if at < len(words):
        job['names'] = ('passwd', passwd)
    status, text, said = slow.output(job, [('p', path, raw) for path, raw in zip(paths, raws)])
    assert (status, said) == (0, ''), said
    return text


# --- rows

class ByFile:
    """Adds rows of `sa --by-file` whose texts are as the definitions have them."""

    def __init__(self, row, lines, files):
        self.row, self.lines, self.files = row, lines, files

    def sa(self, name, about, words, paths, by_hand, needs='', files=None, stdin=None):
        names = [os.path.normpath(path) for path in paths if path != '/dev/stdin']
        files = files or {path: self.files[path] for path in names}
        text, read = self.lines(*by_hand), {**files, '/dev/stdin': stdin}
        assert text == wanted(words, PASSWD, paths, [read[os.path.normpath(path)] for path in paths]), name
        named = {'passwd': PASSWD} if '--names' in words else {}
        self.row(name, 'sa,by-file' + ',files' * (len(paths) > 1) + needs, about, ['sa', '--by-file', *words, *paths], text,
                 files={**files, **named}, stdin=stdin)


def add_rows(row, lines, A):
    one = A(0, 1000, 120, 60, 600, 500, 1000, 'make')
    forked = A(1, 1000, 60, 0, 60, 200, 3, 'make')
    files = {'f': one + 2 * forked, 'g': one, 'e': b''}
    reports = ByFile(row, lines, files)
    add_texts(reports)
    add_tables(reports)
    add_numbers_of_files(reports)
    add_paths(reports)
    add_feeders(reports, A)
    add_chosen(reports, A)
    add_names(reports, A)
    add_faults(row, files)


def add_texts(reports):
    sa = reports.sa
    sa('commands-by-file', 'A command that was called once in a file is joined there, and not over both.', [], ['f', 'g'],
       ['f:', *F_LINES, '', 'g:', *G_LINES, '', *BOTH_LINES])
    sa('commands-by-file-in-the-order-of-the-words', 'The files stand as they are named.', [], ['g', 'f'],
       ['g:', *G_LINES, '', 'f:', *F_LINES, '', *BOTH_LINES])
    sa('all-commands-by-file', 'The order of the lines is that of each report.', ['-a', '-n', '-r'], ['f', 'g'],
       ['f:', THREE, ONE + ' make', FORKED + ' make*', '', 'g:', ONE, ONE + ' make', '', FOUR, FORKED + ' make*', TWO + ' make'],
       ',sa -a,sa -n,sa -r')
    sa('users-by-file', 'The users of each file.', ['-m'], ['g', 'f'],
       ['g:', 'total      ' + ONE, '1000       ' + ONE, '', 'f:', 'total      ' + THREE, '1000       ' + THREE, '',
        'total      ' + FOUR, '1000       ' + FOUR], ',sa -m')
    sa('empty-file-by-file', 'A file without a record has the line of the totals.', [], ['e', 'g'], ['e:', NONE, '', 'g:', *G_LINES, '', *G_LINES])
    sa('users-of-an-empty-file-by-file', 'And with -m that of the total.', ['-m'], ['e'], ['e:', 'total      ' + NONE, '', 'total      ' + NONE], ',sa -m')


def add_tables(reports):
    def sa(name, about, words, paths, rows, needs=''):
        reports.sa(name, about, ['--csv', *words], paths, rows, ',csv' + needs)

    first = ['1,' + row for row in F_ROWS]
    sa('table-of-commands-by-file', 'The rows of each file after its number.', [], ['f', 'g'], [COMMAND_NAMES, *first, *['2,' + row for row in G_ROWS]])
    sa('table-of-all-commands-by-file', 'The first row of a file follows the last of the one before it.', ['-a', '-r'], ['g', 'f'],
       [COMMAND_NAMES, '1,make,0,0,1,600,180,1000,90000', '2,make,1,0,2,120,120,6,24000', '2,make,0,0,1,600,180,1000,90000'], ',sa -a,sa -r')
    sa('table-of-users-by-file', 'A user has a row of each file.', ['-m'], ['f', 'g'],
       [USER_NAMES, '1,1000,3,720,300,1006,114000', '2,1000,1,600,180,1000,90000'], ',sa -m')
    sa('table-of-an-empty-file-by-file', 'An empty file has no row, and a number.', [], ['f', 'e', 'g'],
       [COMMAND_NAMES, *first, *['3,' + row for row in G_ROWS]])
    sa('table-of-nothing-by-file', 'Where no file has a record the header stands alone.', [], ['e', 'e'], [COMMAND_NAMES])
    sa('table-of-no-users-by-file', 'So with -m.', ['-m'], ['e'], [USER_NAMES], ',sa -m')


def add_numbers_of_files(reports):
    sa = reports.sa
    sa('commands-of-one-file-by-file', 'One file has a report of its own, too.', [], ['f'], ['f:', *F_LINES, '', *F_LINES])
    sa('table-of-one-file-by-file', 'Its number is 1.', ['--csv'], ['f'], [COMMAND_NAMES, *['1,' + row for row in F_ROWS]], ',csv')
    sa('commands-of-a-file-twice-by-file', 'A file that is named twice has two reports, and counts twice.', [], ['g', 'g'],
       ['g:', *G_LINES, '', 'g:', *G_LINES, '', TWO, TWO + ' make'])
    sa('table-of-a-file-twice-by-file', 'It has two numbers.', ['--csv', '-m'], ['g', 'e', 'g'],
       [USER_NAMES, '1,1000,1,600,180,1000,90000', '3,1000,1,600,180,1000,90000'], ',csv,sa -m')
    most = '     128        12.80re         3.84cp       1000avio        500k'
    sa('most-files-by-file', '128 files, and one call of each.', [], 128 * ['g'], 128 * ['g:', *G_LINES, ''] + [most, most + ' make'])
    sa('table-of-most-files-by-file', 'Numbers up to 128.', ['--csv', '-m'], 128 * ['g'],
       [USER_NAMES] + ['%d,1000,1,600,180,1000,90000' % number for number in range(1, 129)], ',csv,sa -m')


def add_paths(reports):
    sa, one = reports.sa, reports.files['g']
    sa('standard-input-by-file', 'A path stands as it was given.', [], ['/dev/stdin', './g'],
       ['/dev/stdin:', *F_LINES, '', './g:', *G_LINES, '', *BOTH_LINES], stdin=reports.files['f'])
    sa('table-of-standard-input-by-file', 'It has a number as any file.', ['--csv'], ['g', '/dev/stdin'],
       [COMMAND_NAMES, *['1,' + row for row in G_ROWS], *['2,' + row for row in F_ROWS]], ',csv', stdin=reports.files['f'])
    sa('path-that-does-not-print-by-file', 'A byte of a path that does not print is a question mark.', [], ['g\x1b[1m\t'],
       ['g?[1m?:', *G_LINES, '', *G_LINES], files={'g\x1b[1m\t': one})
    sa('path-with-marks-by-file', 'A colon, a comma, a quote and a blank stand as they are.', [], ['a:, "b"'],
       ['a:, "b":', *G_LINES, '', *G_LINES], files={'a:, "b"': one})
    long = '/'.join(1000 * ['.'] + ['g'])
    sa('long-path-by-file', 'A path of 2,001 bytes stands whole.', [], [long], [long + ':', *G_LINES, '', *G_LINES])


def add_feeders(reports, A):
    both = ['f:', *F_LINES, '', 'g:', *G_LINES, '', *BOTH_LINES]
    for number, name in ((1, 'one-feeder'), (4, 'four-feeders'), (64, '64-feeders')):
        reports.sa(f'{name}-by-file', 'Whatever the number of threads is.', ['--feeders', str(number)], ['f', 'g'], both, ',feeders')
    many, all_calls = '    1025        10.25re        10.25cp          0avio          0k', '    2050        20.50re        20.50cp          0avio          0k'
    blocks = {name: 1025 * A(0, 1000, 60, 0, 60, 0, 0, 'x') for name in ('f', 'g')}
    reports.sa('blocks-by-file', 'Two files of two blocks each by four threads.', ['--feeders', '4'], ['f', 'g'],
               ['f:', many, many + ' x', '', 'g:', many, many + ' x', '', all_calls, all_calls + ' x'], ',feeders', blocks)


def add_chosen(reports, A):
    """Users and a part of time: x of 1 began at 1000 in f and at 2000 in g, x of 2 at 1000 in g."""
    def process(uid, second):
        return began(A(0, uid, 60, 0, 60, 0, 0, 'x'), second)

    files = {'f': process(1, 1000), 'g': process(1, 2000) + process(2, 1000)}
    one, two = '       1         0.01re         0.01cp          0avio          0k', '       2         0.02re         0.02cp          0avio          0k'

    def sa(name, about, words, by_hand, needs):
        reports.sa(name, about, words, ['f', 'g'], by_hand, needs, files)

    reports.sa('uid-without-a-process-by-file', 'Nothing of the user in any file.', ['--uid', '7'], ['f', 'g'],
               ['f:', NONE, '', 'g:', NONE, '', NONE], ',uid')
    sa('uid-by-file', 'One call in each file, and two in both.', ['--uid', '1'],
       ['f:', one, one + ' ***other', '', 'g:', one, one + ' ***other', '', two, two + ' x'], ',uid')
    sa('users-by-number-and-file', 'A user who is in one file alone has no line of the other.', ['-m', '--uid', '2'],
       ['f:', 'total      ' + NONE, '', 'g:', 'total      ' + one, '2          ' + one, '', 'total      ' + one, '2          ' + one], ',sa -m,uid')
    sa('table-of-a-user-by-file', 'Nor a row.', ['--csv', '-a', '--uid', '2'], [COMMAND_NAMES, '2,x,0,0,1,60,60,0,0'], ',csv,sa -a,uid')
    sa('period-by-file', 'What began in it, of each file.', ['--to', '@2000'],
       ['f:', one, one + ' ***other', '', 'g:', one, one + ' ***other', '', two, two + ' x'], ',period')
    sa('table-of-a-period-by-file', 'A file in which nothing began then has no row.', ['--csv', '-m', '--from', '@2000'],
       [USER_NAMES, '2,1,1,60,60,0,0'], ',csv,sa -m,period')
    sa('uid-in-a-period-by-file', 'A user in a period.', ['-m', '--uid', '1', '--from', '@1000', '--to', '@1001'],
       ['f:', 'total      ' + one, '1          ' + one, '', 'g:', 'total      ' + NONE, '', 'total      ' + one, '1          ' + one], ',sa -m,uid,period')
    sa('day-by-file-an-hour-east', 'A day of the clock that is asked for.', ['--in', '1970-01-01', '--east', '60', '-a'],
       ['f:', one, one + ' x', '', 'g:', two, two + ' x', '', '       3         0.03re         0.03cp          0avio          0k',
        '       3         0.03re         0.03cp          0avio          0k x'], ',sa -a,period,offset')


def add_names(reports, A):
    sa = reports.sa
    sa('users-by-name-and-file', 'The name of a user in each report.', ['-m', '--names', 'passwd'], ['f', 'g'],
       ['f:', 'total      ' + THREE, 'ann        ' + THREE, '', 'g:', 'total      ' + ONE, 'ann        ' + ONE, '',
        'total      ' + FOUR, 'ann        ' + FOUR], ',sa -m,names')
    sa('table-of-users-by-name-and-file', 'The file, the number of the user, and its name.', ['-m', '--csv', '--names', 'passwd'], ['f', 'g'],
       [NAMED_USER_NAMES, '1,1000,ann,3,720,300,1006,114000', '2,1000,ann,1,600,180,1000,90000'], ',sa -m,csv,names')
    nobody = {'f': A(0, 7, 60, 0, 60, 0, 0, 'x'), 'g': A(0, 1000, 60, 0, 60, 0, 0, 'x')}
    sa('table-of-users-without-a-name-by-file', 'The name is empty where the number has none.', ['-m', '--csv', '--names', 'passwd'], ['f', 'g'],
       [NAMED_USER_NAMES, '1,7,,1,60,60,0,0', '2,1000,ann,1,60,60,0,0'], ',sa -m,csv,names', nobody)
    sa('table-of-no-users-by-name-and-file', 'The header alone.', ['-m', '--csv', '--names', 'passwd'], ['e'], [NAMED_USER_NAMES], ',sa -m,csv,names')
    one = '       1         0.01re         0.01cp          0avio          0k'
    sa('uid-by-name-and-file', 'A user who is named by number, and printed by name.', ['-m', '--names', 'passwd', '--uid', '1000'], ['f', 'g'],
       ['f:', 'total      ' + NONE, '', 'g:', 'total      ' + one, 'ann        ' + one, '', 'total      ' + one, 'ann        ' + one],
       ',sa -m,names,uid', nobody)


def add_faults(row, files):
    torn = 'tally: t: torn after 1 records, 16 bytes left\n'
    broken = dict(files, t=files['f'][:80], v=files['f'] + bytes(64), passwd=PASSWD)

    def fault(name, about, words, stderr=None, status=2, needs=''):
        row(name, 'sa,by-file' + needs, about, ['sa', '--by-file', *words], '', stderr, status, broken)

    fault('torn-file-by-file', 'Nothing is printed of the file before it.', ['f', 't'], torn, 1, ',files')
    fault('torn-file-by-file-in-a-table', 'And no header.', ['--csv', 'f', 't', 'g'], torn, 1, ',csv,files')
    fault('torn-file-by-file-and-name', 'Nor beside good names.', ['-m', '--names', 'passwd', 'f', 't'], torn, 1, ',sa -m,names,files')
    fault('bad-record-by-file', 'The fourth record of a file is none.', ['g', 'v'], 'tally: v: record 3 has version 0\n', 1, ',files')
    fault('file-not-there-by-file', 'A file that cannot be opened.', ['f', 'h'], 'tally: h: cannot be opened\n', 1, ',files')
    fault('names-that-are-not-there-by-file', 'Nor is anything printed without the names.', ['-m', '--names', 'nobody', 'f'],
          'tally: nobody: cannot be opened\n', 1, ',sa -m,names')
    fault('too-many-files-by-file', 'One file more than there may be.', 129 * ['f'], 'tally: 129 callers, 1 to 128 are allowed\n', 1, ',files')
    fault('names-by-file-without-users', 'Names are shown by -m alone.', ['--names', 'passwd', 'f'], needs=',names')
    fault('by-file-twice', 'An option that is said twice.', ['--by-file', 'f'])
    row('by-file-with-a-value', 'sa,by-file', 'It takes no value.', ['sa', '--by-file=1', 'f'], '', None, 2, files)
    for report, file in (('last', 'e'), ('lastb', 'e'), ('all', 'p:e')):
        row('by-file-of-' + report, report + ',by-file', 'The option is one of ac and sa alone.', [report, '--by-file', file], '', None, 2, files)
