"""The worked rows of `sa -m --names FILE`. What is wanted was worked out by hand, and has to be what slow.py gives, which knows nothing of
the program.

The processes of DAY: cron of root, make of 1000 twice (one of version 3), ls of 1001, and odd of the greatest number.
"""
from choices import NAMES_ALONE
from moments import BACKWARD
from passwd import LARGEST, MOST
from usage_rows import wanted

USER_NAMES = 'uid,name,calls,real_ticks,cpu_ticks,io,mem_cpu'
TEN_SECONDS = 0x44160000          # 600 ticks as a float
NO_NAMES = 'tally: nobody: cannot be opened\n'

OF_1000 = '       2         0.30re         0.05cp        501avio        380k'
OF_1001 = '       1         0.10re         0.01cp          5avio        100k'
OF_ROOT = '       1         0.10re         0.01cp         10avio        100k'
OF_MOST = '       1         0.01re         0.00cp          0avio         10k'
OF_ALL = '       5         0.51re         0.07cp        203avio        295k'
ONE = '       1         0.01re         0.01cp          0avio          0k'
TWO = '       2         0.02re         0.02cp          0avio          0k'

PASSWD = (b'root:x:0:0:root:/root:/bin/bash\n'
          b'ann:x:1000:1000:Ann,,,:/home/ann:/bin/bash\n'
          b'bob:x:1001:1001::/home/bob:\n')


class People:
    """Adds rows of `sa -m --names passwd` whose texts are as slow.py has them."""

    def __init__(self, row, lines):
        self.row, self.lines = row, lines

    def sa(self, name, about, words, by_hand, files, passwd=PASSWD, needs=''):
        text = self.lines(*by_hand)
        assert text == wanted(['-m', *words], files.values(), names=('passwd', passwd)), name
        self.row(name, 'sa,sa -m,names' + needs, about, ['sa', '-m', '--names', 'passwd', *words, *files], text, files={**files, 'passwd': passwd})


def add_rows(row, lines, A, A3):
    day = (A(0, 0, 60, 0, 600, 100, 10, 'cron') + A(0, 1000, 120, 60, 1200, 500, 1000, 'make')
           + A3(0, 1000, 60, 60, TEN_SECONDS, 200, 3, 'make') + A(0, 1001, 30, 30, 600, 100, 5, 'ls') + A(0, MOST, 6, 0, 60, 10, 0, 'odd'))
    people = People(row, lines)
    add_names(people, day)
    add_odd_names(people, A)
    add_orders(people, day, A)
    add_tables(people, day, A)
    add_passwd(people, A)
    add_faults(row, day)


def process_of(A, uid):
    return A(0, uid, 60, 0, 60, 0, 0, 'x')


def add_names(people, day):
    total = 'total      ' + OF_ALL

    def sa(name, about, shown_lines, passwd=PASSWD):
        people.sa(name, about, [], [total, *shown_lines], {'f': day}, passwd, ',version3')

    sa('users-by-name', 'The name of each number; one without a line is a number.',
       ['ann        ' + OF_1000, 'root       ' + OF_ROOT, 'bob        ' + OF_1001, '4294967295 ' + OF_MOST])
    sa('users-without-names', 'A file without a line names nobody.',
       ['1000       ' + OF_1000, '0          ' + OF_ROOT, '1001       ' + OF_1001, '4294967295 ' + OF_MOST], b'')
    sa('user-of-the-greatest-number', 'A name for 4294967295.',
       ['ann        ' + OF_1000, 'root       ' + OF_ROOT, 'bob        ' + OF_1001, 'nobody     ' + OF_MOST],
       PASSWD + b'nobody:x:4294967295:65534::/:/sbin/nologin\n')
    people.sa('names-without-a-process', 'No process: the total alone.', [], ['total             0         0.00re         0.00cp          0avio          0k'],
              {'f': b''})


def add_odd_names(people, A):
    def name(row_name, about, raw, printed):
        people.sa(row_name, about, [], ['total      ' + ONE, f'{printed:<10} ' + ONE], {'f': process_of(A, 0)}, raw + b':x:0:0:::\n')

    name('name-of-ten-bytes', 'A name that fills its column.', b'abcdefghij', 'abcdefghij')
    name('name-of-eleven-bytes', 'A name stands whole: a byte more moves the columns.', b'abcdefghijk', 'abcdefghijk')
    name('name-of-seventy-bytes', 'However long it is.', 7 * b'abcdefghij', 7 * 'abcdefghij')
    name('name-that-does-not-print', 'Other bytes are question marks.', b'r\xc3\xb6\x1b\x7ft', 'r????t')
    name('name-with-a-nul', 'A name is printed up to its first NUL.', b'ro\0ot', 'ro')
    name('name-that-begins-with-nul', 'Nothing of it is printed, and it is a name.', b'\0root', '')
    name('name-of-digits', 'A name may look like a number.', b'1000', '1000')
    name('name-of-blanks', 'Blanks are bytes like others.', b'a b ', 'a b ')


def add_orders(people, day, A):
    total = 'total      ' + OF_ALL
    people.sa('users-by-name-reversed', 'The order is that of the numbers, reversed.', ['-r'],
              [total, '4294967295 ' + OF_MOST, 'bob        ' + OF_1001, 'root       ' + OF_ROOT, 'ann        ' + OF_1000], {'f': day},
              needs=',sa -r,version3')
    two = {'f': process_of(A, 2) + process_of(A, 1)}
    people.sa('names-change-no-order', 'At a tie the smaller number is first, whatever its name.', ['-n'],
              ['total      ' + TWO, 'zoe        ' + ONE, 'ann        ' + ONE], two, b'ann:x:2:0:::\nzoe:x:1:0:::\n', ',sa -n')
    people.sa('users-of-one-name', 'Two numbers of one name stay two lines.', [], ['total      ' + TWO, 'ann        ' + ONE, 'ann        ' + ONE],
              two, b'ann:x:1:0:::\nann:x:2:0:::\n')
    people.sa('names-by-calls-reversed', 'Both options: fewest calls first, at a tie the greater number.', ['-n', '-r'],
              ['total             4         0.04re         0.04cp          0avio          0k', '3          ' + ONE, 'zoe        ' + ONE, 'ann        ' + TWO],
              {'f': process_of(A, 2) + process_of(A, 1) + process_of(A, 2) + process_of(A, 3)}, b'ann:x:2:0:::\nzoe:x:1:0:::\n', ',sa -n,sa -r')
    people.sa('one-user-by-name', 'One user in a period.', ['--uid', '1000', '--in', '1970'], ['total      ' + OF_1000, 'ann        ' + OF_1000],
              {'f': day}, needs=',uid,period,version3')
    people.sa('names-over-two-files', 'The processes of both files, and the names of one.', [], ['total      ' + TWO, 'root       ' + TWO],
              {'f': process_of(A, 0), 'g': process_of(A, 0)}, needs=',files')


def add_tables(people, day, A):
    ann, root, bob = '1000,ann,2,1800,300,1003,114000', '0,root,1,600,60,10,6000', '1001,bob,1,600,60,5,6000'
    most, one = '4294967295,,1,60,6,0,60', ',1,60,60,0,0'

    def sa(name, about, words, rows, files, passwd=PASSWD, needs=''):
        people.sa(name, about, ['--csv', *words], [USER_NAMES, *rows], files, passwd, ',csv' + needs)

    sa('table-of-users-by-name', 'A column for the name, which is empty where no line has the number.', [], [ann, root, bob, most], {'f': day}, needs=',version3')
    sa('table-of-users-by-name-reversed', 'The same rows, the last first.', ['-r'], [most, bob, root, ann], {'f': day}, needs=',sa -r,version3')
    sa('table-of-users-by-name-and-calls', 'By calls, a tie by number.', ['-n'], ['2,ann,2,120,120,0,0', '1,zoe' + one, '3,' + one],
       {'f': process_of(A, 2) + process_of(A, 3), 'g': process_of(A, 1) + process_of(A, 2)}, b'ann:x:2:0:::\nzoe:x:1:0:::\n', ',sa -n,files')
    sa('table-of-users-without-names', 'Without a name the column is empty in each row.', [], ['0,' + one], {'f': process_of(A, 0)}, b'')
    sa('table-of-names-without-a-process', 'An empty report is its header.', [], [], {'f': b''})
    sa('table-of-hostile-names', 'Commas and quotes are quoted, a quote twice; bytes that do not print are question marks.', [],
       ['0,"a,""b"""' + one, '1,?' + one, '2,???' + one, '3,' + one, '4, x' + one],
       {'f': b''.join(process_of(A, uid) for uid in range(5))}, b'a,"b":x:0:0:::\n\t:x:1:0:::\n\r\xc3\xa9:x:2:0:::\n\0:x:3:0:::\n x:x:4:0:::\n')


def add_passwd(people, A):
    """What a line of passwd(5) is: the name of the number 1, or none."""
    def names(name, about, passwd, printed):
        people.sa('passwd-' + name, about, [], ['total      ' + ONE, f'{printed:<10} ' + ONE], {'f': process_of(A, 1)}, passwd)

    good = b'ann:x:1:0:::\n'
    names('first-line', 'The first line with the number counts.', good + b'bob:x:1:0:::\n', 'ann')
    names('last-line-without-an-end', 'A last line without a line feed is a line.', b'root:x:0:0:::\n' + good[:-1], 'ann')
    names('number-with-zeros', 'Zeros before the number.', b'ann:x:0001:0:::\n', 'ann')
    names('number-with-many-zeros', 'However many.', b'ann:x:' + 40 * b'0' + b'1:0:::\n', 'ann')
    names('line-with-a-carriage-return', 'It is a byte of the last field.', b'ann:x:1:0:::\r\n', 'ann')
    names('name-of-a-sign', 'Any byte may be in a name but a colon and a line feed.', b' +:x:1:0:::\n', ' +')
    names('number-of-the-group', 'The third field is the number, and no other is.', b'bob:x:2:1:::\nbob:1:3:1:1:1:1\n' + good, 'ann')
    for name, about, line in (
            ('line-that-is-empty', 'It has one field.', b''),
            ('line-of-a-comment', 'It has one field.', b'# 1'),
            ('line-of-six-fields', 'A field is missing.', b'bob:x:1:0::'),
            ('line-of-eight-fields', 'There is one field more.', b'bob:x:1:0::::'),
            ('line-without-a-name', 'The name is empty.', b':x:1:0:::'),
            ('line-without-a-number', 'The number is empty.', b'bob:x::0:::'),
            ('line-of-a-sign', 'A plus is no digit.', b'bob:x:+1:0:::'),
            ('line-of-a-negative-number', 'A dash is no digit.', b'bob:x:-1:0:::'),
            ('line-of-a-blank', 'A blank is no digit.', b'bob:x: 1:0:::'),
            ('line-of-a-blank-at-the-end', 'Nor is one after the digits.', b'bob:x:1 :0:::'),
            ('line-of-a-nul', 'NUL is no digit.', b'bob:x:1\0:0:::'),
            ('line-of-letters', 'Digits are 0 to 9.', b'bob:x:0x1:0:::'),
            ('line-of-2-to-the-32', '4294967297 is 1 after a wrap, and too great.', b'bob:x:4294967297:0:::'),
            ('line-of-2-to-the-64', '18446744073709551617 is 1 after a wrap, and too great.', b'bob:x:18446744073709551617:0:::'),
            ('line-of-another-service', 'A line for another service.', b'+::::::')):
        names(name, about + ' Another line has the name.', line + b'\n' + good, 'ann')
    names('line-of-another-number', 'No line has the number.', b'ann:x:11:0:::\n', '1')
    names('last-line-that-is-cut-off', 'A line that is cut off has too few fields.', b'root:x:0:0:::\nann:x:1:0', '1')


def add_faults(row, day):
    def fault(name, about, words, stderr=None, status=2, needs='sa,sa -m,names', files=None):
        row(name, needs, about, ['sa', *words, 'f'], '', stderr, status, files or {'f': day, 'passwd': PASSWD})

    fault('names-without-users', 'Names are shown by -m alone.', ['--names', 'passwd'], NAMES_ALONE, needs='sa,names')
    fault('names-without-users-of-all-commands', 'And not by -a.', ['-a', '--names', 'passwd'], NAMES_ALONE, needs='sa,sa -a,names')
    fault('names-without-users-in-a-table', 'In a table neither.', ['--csv', '--names', 'passwd'], NAMES_ALONE, needs='sa,csv,names')
    fault('names-without-users-that-are-not-there', 'The words are refused before the file is opened.', ['--names', 'nobody'], NAMES_ALONE, needs='sa,names')
    fault('names-twice', 'One file has the names.', ['-m', '--names', 'passwd', '--names', 'passwd'])
    row('names-without-a-file', 'sa,sa -m,names', 'The option wants a file.', ['sa', '-m', 'f', '--names'], '', None, 2, {'f': day, 'passwd': PASSWD})
    for report, file in (('last', 'f'), ('ac', 'f'), ('all', 'w:f')):
        row('names-of-' + report, report + ',names', 'The option is one of sa alone.', [report, '--names', 'passwd', file], '', None, 2, {'f': b'', 'passwd': PASSWD})
    fault('names-that-are-not-there', 'A file that cannot be opened.', ['-m', '--names', 'nobody'], NO_NAMES, 1)
    fault('names-that-are-not-there-in-a-table', 'Nothing is printed then, no header either.', ['-m', '--csv', '--names', 'nobody'],
          NO_NAMES, 1, 'sa,sa -m,csv,names')
    fault('names-of-a-folder', 'A folder is opened, and cannot be read.', ['-m', '--names', '.'], 'tally: .: no file of users\n', 1)
    fault('names-without-end', f'No more than {LARGEST:,} bytes are a file of users, and no more is read than shows that there are more.',
          ['-m', '--names', '/dev/zero'], 'tally: /dev/zero: no file of users\n', 1)
    fault('names-beside-a-torn-file', 'Good names, and a file of records that is not.', ['-m', '--names', 'passwd'],
          'tally: f: torn after 1 records, 1 bytes left\n', 1, files={'f': day[:65], 'passwd': PASSWD})
    fault('names-beside-a-zone-that-is-not-there', 'The zone is read first.', ['-m', '--names', 'nobody', '--zone', './none'],
          'tally: ./none: no such zone\n', 1, 'sa,sa -m,names,zone')
    fault('names-beside-a-period-that-goes-back', 'Moments are judged first.', ['-m', '--names', 'nobody', '--from', '2026-07-02', '--to', '2026-07-01'],
          BACKWARD, needs='sa,sa -m,names,period')
    row('names-beside-a-log-that-is-not-there', 'sa,sa -m,names', 'The file of users is read before a log is opened.',
        ['sa', '-m', '--names', 'nobody', 'none'], '', NO_NAMES, 1, {'f': day})


def add_example(row, lines, example):
    """What the manual shows: the users of the small build, by the names of `examples/passwd`."""
    files = {'passwd': example('passwd'), 'build.acct': example('build.acct')}
    text = lines('total             8         1.00re         0.66cp       1081avio       3617k',
                 'ann               6         0.89re         0.66cp       1433avio       3648k',
                 'root              1         0.10re         0.00cp         10avio        250k',
                 'bob               1         0.01re         0.00cp         40avio        300k')
    assert text == wanted(['-m'], [files['build.acct']], names=('passwd', files['passwd']))
    row('example-users-by-name', 'sa,sa -m,names', 'The users of a build by their names.', ['sa', '-m', '--names', 'passwd', 'build.acct'], text, files=files)
