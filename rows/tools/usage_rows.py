"""The worked rows of `--uid` and of periods on `sa`. What is wanted was worked out by hand, and has to be what slow.py gives, which knows
nothing of the program: the report is over the processes of these users that began in the period.

The processes of DAY: cron of root, make of 1000 twice (one of version 3), ls of 1001, and odd of the greatest number.
"""
import struct

import slow
from choices import MANY_UIDS, NO_UID
from moments import BACKWARD, NO_FROM_RANGE, NO_TO_RANGE, TWO_PERIODS, no_form
from zone_rows import BERLIN

COMMAND_NAMES = 'command,forked,other,calls,real_ticks,cpu_ticks,io,mem_cpu'
USER_NAMES = 'uid,calls,real_ticks,cpu_ticks,io,mem_cpu'
TEN_SECONDS = 0x44160000          # 600 ticks as a float
MOST = 2 ** 32 - 1

# Where a record has the second at which its process began, by its version.
BEGIN_AT = {2: 8, 3: 24}

NOTHING = '       0         0.00re         0.00cp          0avio          0k'
OF_1000 = '       2         0.30re         0.05cp        501avio        380k'
OF_1001 = '       1         0.10re         0.01cp          5avio        100k'
OF_ROOT = '       1         0.10re         0.01cp         10avio        100k'
OF_MOST = '       1         0.01re         0.00cp          0avio         10k'
ONE = '       1         0.01re         0.01cp          0avio          0k'
TWO = '       2         0.02re         0.02cp          0avio          0k'


def job_of(words):
    """What is asked for: the value of an option once or, of --uid, of each; flags by their letters. Berlin is an hour east in the winter, in
    which its rows are."""
    job, rest = {'command': 'sa'}, list(words)
    while rest:
        name = rest.pop(0).lstrip('-')
        if name == 'uid':
            job.setdefault('uid', []).append(rest.pop(0))
        elif name in ('from', 'to', 'in'):
            job[name] = rest.pop(0)
        elif name in ('zone', 'east'):
            job['east'] = {BERLIN: 60, '60': 60}[rest.pop(0)]
        else:
            job[name] = True
    return job


def wanted(words, raws, **more):
    """What `sa` prints with these words over files of process records."""
    status, text, said = slow.output(dict(job_of(words), **more), [('p', 'f', raw) for raw in raws])
    assert (status, said) == (0, ''), said
    return text


# --- rows

class Usage:
    """Adds rows of `sa` whose texts are as slow.py has them."""

    def __init__(self, row, lines):
        self.row, self.lines = row, lines

    def sa(self, name, about, words, by_hand, files, needs):
        text = self.lines(*by_hand)
        assert text == wanted(words, files.values()), name
        self.row(name, 'sa' + needs, about, ['sa', *words, *files], text, files=files)


def began(record, second):
    """The record of a process that began at this second."""
    at = BEGIN_AT[record[1]]
    return record[:at] + struct.pack('<I', second) + record[at + 4:]


def add_rows(row, lines, A, A3):
    day = (began(A(0, 0, 60, 0, 600, 100, 10, 'cron'), 1000) + began(A(0, 1000, 120, 60, 1200, 500, 1000, 'make'), 2000)
           + began(A3(0, 1000, 60, 60, TEN_SECONDS, 200, 3, 'make'), 3000) + began(A(0, 1001, 30, 30, 600, 100, 5, 'ls'), 4000)
           + began(A(0, MOST, 6, 0, 60, 10, 0, 'odd'), MOST))
    reports = Usage(row, lines)
    add_numbers(reports, day, A)
    add_periods(reports, day, A, A3)
    add_days(reports, A)
    add_faults(row, day)


def add_numbers(reports, day, A):
    def sa(name, about, words, by_hand, needs=''):
        reports.sa(name, about, words, by_hand, {'f': day}, needs + ',uid,version3')

    both = '       3         0.40re         0.06cp        336avio        333k'
    sa('commands-of-a-user', 'The commands of one user, which was called twice.', ['--uid', '1000'], [OF_1000, OF_1000 + ' make'])
    sa('commands-of-a-user-who-made-one-call', 'A command that this user called once is joined.', ['--uid', '1001'], [OF_1001, OF_1001 + ' ***other'])
    sa('commands-of-two-users', 'Any of the users.', ['-a', '--uid', '1001', '--uid', '1000'], [both, OF_1000 + ' make', OF_1001 + ' ls'], ',sa -a')
    sa('users-by-number', 'A line for each of them.', ['-m', '--uid', '1001', '--uid', '1000'],
       ['total      ' + both, '1000       ' + OF_1000, '1001       ' + OF_1001], ',sa -m')
    sa('user-who-is-named-twice', 'A number that stands twice counts once.', ['-m', '--uid', '1001', '--uid', '1001'],
       ['total      ' + OF_1001, '1001       ' + OF_1001], ',sa -m')
    sa('commands-of-root', 'The number 0.', ['-a', '--uid', '0'], [OF_ROOT, OF_ROOT + ' cron'], ',sa -a')
    sa('commands-of-the-greatest-number', 'The number 4294967295.', ['-a', '--uid', '4294967295'], [OF_MOST, OF_MOST + ' odd'], ',sa -a')
    sa('commands-of-nobody', 'A number without a process.', ['--uid', '7'], [NOTHING])
    sa('most-numbers', 'Eight numbers.', ['-a'] + [word for number in range(1, 8) for word in ('--uid', str(number))] + ['--uid', '0'],
       [OF_ROOT, OF_ROOT + ' cron'], ',sa -a')
    sa('table-of-a-users-commands', 'Its sums are those of the user.', ['--csv', '--uid', '1000'], [COMMAND_NAMES, 'make,0,0,2,1800,300,1003,114000'], ',csv')
    sa('table-of-users-by-number', 'Its rows are those of the users.', ['-m', '--csv', '--uid', '1001', '--uid', '0'],
       [USER_NAMES, '0,1,600,60,10,6000', '1001,1,600,60,5,6000'], ',sa -m,csv')
    two = A(0, 1, 60, 0, 60, 0, 0, 'x') + A(0, 2, 60, 0, 60, 0, 0, 'x')
    reports.sa('command-that-another-user-called-too', 'Two calls of two users: one call of each.', ['--uid', '1'], [ONE, ONE + ' ***other'],
               {'f': two}, ',uid')
    reports.sa('number-over-two-files', 'The processes of both files.', ['-m', '--uid', '1'], ['total      ' + TWO, '1          ' + TWO],
               {'f': two, 'g': A(0, 1, 60, 0, 60, 0, 0, 'y')}, ',sa -m,uid,files')


def add_periods(reports, day, A, A3):
    def sa(name, about, words, by_hand, needs='', data=day):
        reports.sa(name, about, ['-a', *words], by_hand, {'f': data}, ',sa -a,period,version3' + needs)

    sa('processes-of-a-period', 'Those that began in it: at 2000, 3000, and not at 4000.', ['--from', '@2000', '--to', '@4000'], [OF_1000, OF_1000 + ' make'])
    sa('process-that-begins-at-the-beginning', 'One that began at its one second.', ['--from', '@4000', '--to', '@4001'], [OF_1001, OF_1001 + ' ls'])
    sa('processes-before-a-moment', 'Up to 2000, at which make began.', ['--to', '@2000'], [OF_ROOT, OF_ROOT + ' cron'])
    sa('process-of-the-greatest-time', 'A process of 2106.', ['--from', '@4001'], [OF_MOST, OF_MOST + ' odd'])
    sa('processes-of-an-empty-period', 'No process began in it.', ['--from', '@2000', '--to', '@2000'], [NOTHING])
    sa('processes-of-a-user-in-a-period', 'make of 1000 began at 2000, before the period too.', ['--uid', '1000', '--uid', '1001', '--from', '@2001'],
       ['       2         0.20re         0.03cp          4avio        166k', '       1         0.10re         0.02cp          3avio        200k make',
        OF_1001 + ' ls'], ',uid')
    late = began(A(0, 1, 60, 0, 60, 0, 0, 'first'), 2208988799) + began(A3(0, 1, 60, 0, 0x42700000, 0, 0, 'second'), 2208988800)
    sa('processes-of-the-year-2040', 'A process that began at its first second, and not the one before it.', ['--in', '2040'], [ONE, ONE + ' second'], data=late)
    reports.sa('table-of-processes-of-a-period', 'What stands out of it joins nothing.', ['--csv', '--from', '@3000', '--to', '@4001'],
               [COMMAND_NAMES, '***other,0,1,2,1200,180,8,30000'], {'f': day}, ',csv,period,version3')
    reports.sa('users-of-a-period', 'Who called a command in it.', ['-m', '--from', '@1000', '--to', '@2000'],
               ['total      ' + OF_ROOT, '0          ' + OF_ROOT], {'f': day}, ',sa -m,period,version3')


def add_days(reports, A):
    before_midnight = began(A(0, 1, 60, 0, 60, 0, 0, 'x'), 82800)

    def sa(name, about, words, by_hand, needs=''):
        reports.sa(name, about, ['-a', '--in', '1970-01-02', *words], by_hand, {'f': before_midnight}, ',sa -a,period' + needs)

    sa('process-of-a-day', 'At 23:00 of UTC the 2nd has not begun.', [], [NOTHING])
    sa('process-of-a-day-in-a-zone', 'In Berlin it has.', ['--zone', BERLIN], [ONE, ONE + ' x'], ',zone')
    sa('process-of-a-day-an-hour-east', 'So it has an hour east.', ['--east', '60'], [ONE, ONE + ' x'], ',offset')


def add_faults(row, day):
    def fault(name, about, words, said, status=2, needs='uid', data=day):
        row(name, 'sa,' + needs, about, ['sa', *words, 'f'], '', said, status, {'f': data})

    for name, about, word in (('negative', 'A number below 0.', '-1'), ('of-2-to-the-32', 'A number above 4294967295.', '4294967296'),
                              ('of-2-to-the-64', '18446744073709551617 is 1 after a wrap, and too great.', '18446744073709551617'),
                              ('that-is-a-name', 'A name is no number.', 'ann'), ('that-is-empty', 'An empty word.', ''),
                              ('with-a-fraction', 'Numbers are whole.', '1.0')):
        fault(f'uid-{name}', about, [f'--uid={word}'], NO_UID)
    fault('nine-uids', 'One more than there may be.', [word for number in range(9) for word in ('--uid', str(number))], MANY_UIDS)
    fault('from-after-to-of-sa', 'A period that goes back.', ['--from', '@2', '--to', '@1'], BACKWARD, needs='period')
    fault('in-beside-from-of-sa', 'One of them says all.', ['--in', '1970', '--from', '@1'], TWO_PERIODS, needs='period')
    fault('no-moment-of-sa', 'The shapes are those of other reports.', ['--from', '20260701'], no_form('from'), needs='period')
    fault('from-of-sa-too-early', 'The range is that of other reports.', ['--from', '@-2147483649'], NO_FROM_RANGE, needs='period')
    fault('to-of-sa-too-late', 'And its end.', ['--to', '@4294967296'], NO_TO_RANGE, needs='period')
    for option, word in (('-s', '@1'), ('-t', '@1'), ('--at', '@1')):
        fault('no-option-of-sa-' + option.strip('-'), 'It is one of last.', [option, word], None, needs='period')
    for report, file in (('last', 'f'), ('ac', 'f'), ('all', 'w:f')):
        row('uid-of-' + report, report + ',uid', 'The option is one of sa alone.', [report, '--uid', '1', file], '', None, 2, {'f': b''})
    bad = day[:64] + bytes([0, 9]) + day[66:]
    fault('bad-process-that-is-not-chosen', 'All records are checked, whoever is asked for.', ['--uid', '0'], 'tally: f: record 1 has version 9\n', 1, data=bad)
    fault('bad-process-out-of-a-period', 'And whatever period.', ['--from', '@4000'], 'tally: f: record 1 has version 9\n', 1, 'period', bad)
    fault('torn-file-of-nobody', 'A file of which nothing is chosen is read to its end.', ['--uid', '7'], 'tally: f: torn after 1 records, 1 bytes left\n', 1,
          data=day[:65])


def add_example(row, lines, example):
    """What the manual shows: the commands of a user in a month."""
    words, files = ['--uid', '1000', '--in', '2026-03'], {'server.acct': example('server.acct')}
    text = lines('       6        61.73re         0.69cp          0avio     102032k',
                 '       2         0.72re         0.68cp          0avio     102491k cc1',
                 '       2        60.01re         0.00cp          0avio       8000k ***other',
                 '       2         1.01re         0.00cp          0avio       5500k sleep')
    assert text == wanted(words, files.values())
    row('example-month-of-a-user', 'sa,uid,period,version3', 'The commands of a user in a month.', ['sa', *words, 'server.acct'], text, files=files)
