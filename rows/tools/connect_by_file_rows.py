"""The worked rows of `ac --by-file`. What is wanted was worked out by hand, and has to be what slow.py gives, which knows nothing of the
program.

In text each file has its report below its path, and an empty line after it; the report of all files stands at the end. In a table the
rows of each file stand after its number, from 1, and no row is of all files: with neither -d nor -p each file has one row, its total.
"""
import os

import slow

TOTAL_A, TOTAL_B, NOTHING = 'total                        1.00', 'total                        0.50', 'total                        0.00'
ANN, HALF_OF_ANN, BOB = 'ann                          1.00', 'ann                          0.50', 'bob                          0.50'
BOTH = 'total                        1.50'
TWO_HOURS = 'total                        2.00'
FIRST_DAY, SECOND_DAY = '1970-01-01 total                        0.50', '1970-01-02 total                        0.50'
WITH_VALUES = ('until', 'from', 'to', 'in')


def files_of(U):
    """An hour of ann in a, half an hour of bob in b, an hour of ann over midnight in m, and no record in e. In o ann logs in and stays:
    up to the logout on another line half an hour later. In n is a logout of that line."""
    return {'a': U(7, 'tty1', 'ann', '-', 100) + U(8, 'tty1', '-', '-', 3700),
            'b': U(7, 'tty2', 'bob', '-', 200) + U(8, 'tty2', '-', '-', 2000),
            'm': U(7, 'tty1', 'ann', '-', 84600) + U(8, 'tty1', '-', '-', 88200), 'e': b'',
            'o': U(7, 'tty1', 'ann', '-', 100) + U(8, 'tty9', '-', '-', 1900), 'n': U(8, 'tty1', '-', '-', 3700)}


def job_of(words):
    """What is asked for: flags by their letters, names of users and lines, and the value of any other option."""
    job, rest = {'command': 'ac', 'by-file': True}, list(words)
    while rest:
        word = rest.pop(0)
        name = word.lstrip('-')
        if name in ('user', 'line'):
            job.setdefault(name, []).append(rest.pop(0).encode())
        elif name in WITH_VALUES:
            job[name] = rest.pop(0)
        elif name in ('east', 'feeders'):
            job[name] = int(rest.pop(0))
        else:
            job.update({word: True for word in ([name] if word.startswith('--') else name)})
    return job


# --- rows

class ByFile:
    """Adds rows of `ac --by-file` whose texts are as the definitions of slow.py have them."""

    def __init__(self, row, lines, files):
        self.row, self.lines, self.files = row, lines, files

    def ac(self, name, about, words, paths, by_hand, needs='', files=None, stdin=None):
        names = [os.path.normpath(path) for path in paths if path != '/dev/stdin']
        files, text = files or {path: self.files[path] for path in names}, self.lines(*by_hand)
        read = {**files, '/dev/stdin': stdin}
        status, wanted, said = slow.output(job_of(words), [('w', path, read[os.path.normpath(path)]) for path in paths])
        assert (status, said, wanted) == (0, '', text), (name, said, wanted)
        self.row(name, 'ac,by-file' + ',files' * (len(paths) > 1) + needs, about, ['ac', '--by-file', *words, *paths], text, files=files, stdin=stdin)


def add_rows(row, lines, U):
    reports = ByFile(row, lines, files_of(U))
    add_texts(reports)
    add_days(reports)
    add_hosts(reports, U)
    add_tables(reports)
    add_paths(reports)
    add_feeders(reports, U)
    add_chosen(reports)
    add_faults(row, reports.files)


def add_texts(reports):
    ac = reports.ac
    ac('connect-by-file', 'The total of each file below its path, and that of both at the end.', [], ['a', 'b'],
       ['a:', TOTAL_A, '', 'b:', TOTAL_B, '', BOTH])
    ac('connect-by-file-in-the-order-of-the-words', 'The files stand as they are named.', [], ['b', 'a'], ['b:', TOTAL_B, '', 'a:', TOTAL_A, '', BOTH])
    ac('connect-of-one-file-by-file', 'One file has a report of its own, too.', [], ['b'], ['b:', TOTAL_B, '', TOTAL_B])
    ac('connect-of-an-empty-file-by-file', 'A file without a record has a total of 0.00.', [], ['e'], ['e:', NOTHING, '', NOTHING])
    ac('connect-of-a-file-twice-by-file', 'A file that is named twice has two reports, and counts twice.', [], ['a', 'e', 'a'],
       ['a:', TOTAL_A, '', 'e:', NOTHING, '', 'a:', TOTAL_A, '', TWO_HOURS])
    ac('connect-of-users-by-file', 'The users of each file.', ['-p'], ['b', 'a'],
       ['b:', BOB, TOTAL_B, '', 'a:', ANN, TOTAL_A, '', ANN, BOB, BOTH], ',ac -p')
    ac('user-in-two-files-by-file', 'A user who is in two files has a line of each, and one line of both.', ['-p'], ['a', 'b', 'm'],
       ['a:', ANN, TOTAL_A, '', 'b:', BOB, TOTAL_B, '', 'm:', ANN, TOTAL_A, '', 'ann                          2.00', BOB, 'total                        2.50'],
       ',ac -p')
    ac('most-files-of-connect-by-file', '128 files, half an hour in each.', [], 128 * ['b'],
       128 * ['b:', TOTAL_B, ''] + ['total                       64.00'])


def add_days(reports):
    ac = reports.ac
    ac('connect-of-days-by-file', 'The days of each file.', ['-d'], ['m', 'a'],
       ['m:', FIRST_DAY, SECOND_DAY, TOTAL_A, '', 'a:', '1970-01-01 total                        1.00', TOTAL_A, '',
        '1970-01-01 total                        1.50', SECOND_DAY, TWO_HOURS], ',ac -d')
    days_of_ann = ['1970-01-01 ann                          0.50', '1970-01-02 ann                          0.50', TOTAL_A]
    ac('connect-of-days-of-users-by-file', 'By day and user; a file without a record has its total alone.', ['-d', '-p'], ['e', 'm'],
       ['e:', NOTHING, '', 'm:', *days_of_ann, '', *days_of_ann], ',ac -d,ac -p')
    ac('connect-of-days-by-file-an-hour-east', 'Days of the clock that is asked for.', ['-d', '--east', '60'], ['m', 'b'],
       ['m:', '1970-01-02 total                        1.00', TOTAL_A, '', 'b:', FIRST_DAY, TOTAL_B, '',
        FIRST_DAY, '1970-01-02 total                        1.00', BOTH], ',ac -d,offset')


def add_hosts(reports, U):
    ac, files = reports.ac, reports.files
    ac('open-session-by-file', 'A session goes on to the end of its own file; a logout in the next file ends nothing.', ['-p'], ['o', 'n'],
       ['o:', HALF_OF_ANN, TOTAL_B, '', 'n:', NOTHING, '', HALF_OF_ANN, TOTAL_B], ',ac -p')
    ac('open-session-after-another-file-by-file', 'Nor is it ended by a later record of the file before it.', [], ['a', 'o'],
       ['a:', TOTAL_A, '', 'o:', TOTAL_B, '', BOTH])
    boot = U(7, 'tty1', 'ann', '-', 100) + U(2, '~', 'reboot', '-', 1900)
    ac('boot-in-one-file-by-file', 'A boot ends the sessions of its own file.', [], ['r', 'b'], ['r:', TOTAL_B, '', 'b:', TOTAL_B, '', TOTAL_A],
       files={'r': boot, 'b': files['b']})
    moved = U(7, 'tty1', 'ann', '-', 1000) + U(3, '~', '-', '-', 2000) + U(4, '~', '-', '-', 5000) + U(8, 'tty1', '-', '-', 6000)
    back = U(7, 'tty1', 'ann', '-', 1000) + U(4, '~', '-', '-', 2000) + U(3, '~', '-', '-', 5000) + U(8, 'tty1', '-', '-', 6000)
    ac('clock-change-in-one-file-by-file', 'A clock that is set forward by 3,000 seconds moves no session of another file.', [], ['k', 'a'],
       ['k:', 'total                        0.56', '', 'a:', TOTAL_A, '', 'total                        1.56'], ',clock', {'k': back, 'a': files['a']})
    ac('half-clock-change-in-one-file-by-file', 'A new time without the old one before it changes nothing.', [], ['k'],
       ['k:', 'total                        1.39', '', 'total                        1.39'], ',clock', {'k': moved})


def add_tables(reports):
    def ac(name, about, words, paths, rows, needs=''):
        reports.ac(name, about, ['--csv', *words], paths, rows, ',csv' + needs)

    ac('table-of-connect-by-file', 'A row for each file, and none for all of them.', [], ['b', 'a', 'e'], ['file,seconds', '1,1800', '2,3600', '3,0'])
    ac('table-of-connect-of-most-files', 'Numbers up to 128.', [], 128 * ['b'], ['file,seconds'] + ['%d,1800' % number for number in range(1, 129)])
    ac('table-of-connect-of-one-file-by-file', 'Its number is 1.', [], ['a'], ['file,seconds', '1,3600'])
    ac('table-of-connect-of-a-file-twice', 'It has two numbers.', [], ['b', 'b'], ['file,seconds', '1,1800', '2,1800'])
    ac('table-of-connect-of-users-by-file', 'A file without a session has no row, and a number.', ['-p'], ['e', 'b', 'a'],
       ['file,user,seconds', '2,bob,1800', '3,ann,3600'], ',ac -p')
    ac('table-of-a-user-in-two-files', 'A row of each file.', ['-p'], ['a', 'm'], ['file,user,seconds', '1,ann,3600', '2,ann,3600'], ',ac -p')
    ac('table-of-connect-of-days-by-file', 'The days of each file.', ['-d'], ['m', 'a'],
       ['file,day,seconds', '1,1970-01-01,1800', '1,1970-01-02,1800', '2,1970-01-01,3600'], ',ac -d')
    ac('table-of-connect-of-days-of-users-by-file', 'The columns in the order of the report on all files.', ['-d', '-p'], ['m', 'e', 'b'],
       ['file,day,user,seconds', '1,1970-01-01,ann,1800', '1,1970-01-02,ann,1800', '3,1970-01-01,bob,1800'], ',ac -d,ac -p')
    ac('table-of-no-days-by-file', 'The header alone.', ['-d'], ['e', 'n'], ['file,day,seconds'], ',ac -d')
    ac('table-of-an-open-session-by-file', 'Up to the end of its own file.', [], ['o', 'n'], ['file,seconds', '1,1800', '2,0'])


def add_paths(reports):
    ac, hour = reports.ac, reports.files['a']
    ac('standard-input-of-connect-by-file', 'A path stands as it was given.', [], ['/dev/stdin', './b'],
       ['/dev/stdin:', TOTAL_A, '', './b:', TOTAL_B, '', BOTH], stdin=hour)
    ac('path-that-does-not-print-of-connect', 'A byte of a path that does not print is a question mark.', [], ['a\x1b[1m\t'],
       ['a?[1m?:', TOTAL_A, '', TOTAL_A], files={'a\x1b[1m\t': hour})
    ac('path-with-marks-of-connect', 'A colon, a comma, a quote and a blank stand as they are.', [], ['a:, "b"'],
       ['a:, "b":', TOTAL_A, '', TOTAL_A], files={'a:, "b"': hour})
    ac('paths-of-connect-by-file', 'In a table the path stands after the number, as the word has it.', ['--csv', '--paths'], ['./b', 'a'],
       ['file,path,seconds', '1,./b,1800', '2,a,3600'], ',csv,paths')
    ac('paths-with-marks-of-connect', 'A path with a comma or a quote stands in quotes.', ['--csv', '--paths'], ['a,"b', 'a'],
       ['file,path,seconds', '1,"a,""b",1800', '2,a,3600'], ',csv,paths', {'a,"b': reports.files['b'], 'a': hour})
    ac('paths-of-connect-of-days-of-users', 'And before the day.', ['--csv', '--paths', '-dp'], ['m', 'e', './a'],
       ['file,path,day,user,seconds', '1,m,1970-01-01,ann,1800', '1,m,1970-01-02,ann,1800', '3,./a,1970-01-01,ann,3600'], ',ac -d,ac -p,csv,paths')
    ac('paths-of-connect-of-users', 'A path for each row of its file.', ['--paths', '--csv', '-p'], ['b', 'b'],
       ['file,path,user,seconds', '1,b,bob,1800', '2,b,bob,1800'], ',ac -p,csv,paths')
    ac('paths-of-no-days', 'The header alone.', ['--paths', '--csv', '-d'], ['e'], ['file,path,day,seconds'], ',ac -d,csv,paths')


def add_feeders(reports, U):
    both = ['a:', ANN, TOTAL_A, '', 'b:', BOB, TOTAL_B, '', ANN, BOB, BOTH]
    for number, name in ((1, 'one-feeder'), (4, 'four-feeders'), (64, '64-feeders')):
        reports.ac(f'{name}-of-connect-by-file', 'Whatever the number of threads is.', ['-p', '--feeders', str(number)], ['a', 'b'], both, ',ac -p,feeders')
    blocks = {name: U(7, 'tty1', user, '-', 0) + 1023 * U(0, '-', '-', '-', 0) + U(8, 'tty1', '-', '-', seconds)
              for name, user, seconds in (('f', 'ann', 3600), ('g', 'ann', 7200))}
    reports.ac('blocks-of-connect-by-file', 'The same line in two files of two blocks each, whose records are stored in turn.', ['--feeders', '4'], ['f', 'g'],
               ['f:', TOTAL_A, '', 'g:', TWO_HOURS, '', 'total                        3.00'], ',feeders', blocks)
    reports.ac('table-of-blocks-of-connect-by-file', 'And in a table.', ['--csv', '-p', '--feeders', '4'], ['f', 'g', 'f'],
               ['file,user,seconds', '1,ann,3600', '2,ann,7200', '3,ann,3600'], ',ac -p,csv,feeders', blocks)


def add_chosen(reports):
    ac = reports.ac
    ac('user-of-connect-by-file', 'A file without a session of the user has its report.', ['--user', 'ann'], ['a', 'b'],
       ['a:', TOTAL_A, '', 'b:', NOTHING, '', TOTAL_A], ',choice')
    ac('table-of-a-users-connect-by-file', 'And in a table its row.', ['--csv', '--user', 'bob'], ['a', 'b'], ['file,seconds', '1,0', '2,1800'], ',csv,choice')
    ac('table-of-a-users-days-by-file', 'But none where it has no day.', ['--csv', '-d', '--user', 'bob'], ['a', 'b'], ['file,day,seconds', '2,1970-01-01,1800'],
       ',ac -d,csv,choice')
    ac('line-of-connect-by-file', 'A line in each file.', ['--line', 'tty2'], ['a', 'b'], ['a:', NOTHING, '', 'b:', TOTAL_B, '', TOTAL_B], ',choice')
    ac('period-of-connect-by-file', 'Half an hour of ann, and 100 seconds of bob.', ['-p', '--from', '@1900', '--to', '@3700'], ['a', 'b'],
       ['a:', HALF_OF_ANN, TOTAL_B, '', 'b:', 'bob                          0.03', 'total                        0.03', '',
        HALF_OF_ANN, 'bob                          0.03', 'total                        0.53'], ',ac -p,choice')
    ac('table-of-a-day-of-connect-by-file', 'A day of the clock that is asked for: an hour east it has all of m.', ['--csv', '--in', '1970-01-02', '--east', '60'],
       ['m', 'a'], ['file,seconds', '1,3600', '2,0'], ',csv,choice,offset')
    ac('until-of-connect-by-file', 'What is open counts up to the moment in each file.', ['--until', '7300'], ['o', 'b', 'o'],
       ['o:', TWO_HOURS, '', 'b:', TOTAL_B, '', 'o:', TWO_HOURS, '', 'total                        4.50'], ',until')
    ac('table-of-days-until-by-file', 'On two days.', ['--csv', '-d', '-p', '--until', '90000'], ['o', 'a'],
       ['file,day,user,seconds', '1,1970-01-01,ann,86300', '1,1970-01-02,ann,3600', '2,1970-01-01,ann,3600'], ',ac -d,ac -p,csv,until')


def add_faults(row, files):
    torn = 'tally: t: torn after 1 records, 16 bytes left\n'
    broken = dict(files, t=files['b'][:400], v=files['a'] + files['e'] + b'\x0a\0' + bytes(382))

    def fault(name, about, words, stderr=None, status=2, needs=''):
        row(name, 'ac,by-file' + needs, about, ['ac', '--by-file', *words], '', stderr, status, broken)

    fault('torn-file-of-connect-by-file', 'Nothing is printed of the file before it.', ['a', 't'], torn, 1, ',files')
    fault('torn-file-of-connect-by-file-in-a-table', 'And no header.', ['--csv', 'a', 't', 'b'], torn, 1, ',csv,files')
    fault('bad-record-of-connect-by-file', 'The third record of a file is none.', ['b', 'v'], 'tally: v: record 2 has login type 10\n', 1, ',files')
    fault('file-not-there-of-connect-by-file', 'A file that cannot be opened.', ['a', 'h'], 'tally: h: cannot be opened\n', 1, ',files')
    fault('too-many-files-of-connect-by-file', 'One file more than there may be.', 129 * ['b'], 'tally: 129 callers, 1 to 128 are allowed\n', 1, ',files')
    fault('connect-by-file-twice', 'An option that is said twice.', ['--by-file', 'a'])
    row('connect-by-file-with-a-value', 'ac,by-file', 'It takes no value.', ['ac', '--by-file=1', 'a'], '', None, 2, files)
