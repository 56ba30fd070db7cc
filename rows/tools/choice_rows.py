"""The worked rows of `--user`, `--line` and of periods, on `last` and `ac`. What is wanted was worked out by hand.

A stay is in a period where one of its seconds is. `last` shows such a stay whole, `ac` counts its seconds in the period.
"""
from zone_rows import BERLIN

HOUR = 3600
STAY_NAMES = 'file,user,line,remote,start,start_at,begin,end,end_time,end_at,seconds'

# A day of TEAM, in hours: the host runs from 0 to 6 and from 7 on; ann is on tty1 from 1 to 3, bob on tty2 from 2 to 5 and on
# tty1 from 4 to 6, cid on pts/0 from 5:30 to 6, and ann on tty1 from 8 on, which is the last record. These are 7.50 hours:
# 2 of ann, 5 of bob and a half of cid.
ANN_AT_8 = 'ann      tty1                          1970-01-01 08:00:00   still logged in'
BOOT_AT_7 = 'reboot   system boot                   1970-01-01 07:00:00   still running'
CID_AT_530 = 'cid      pts/0                         1970-01-01 05:30:00 - down                (00:30)'
BOB_AT_4 = 'bob      tty1                          1970-01-01 04:00:00 - down                (02:00)'
BOB_AT_2 = 'bob      tty2                          1970-01-01 02:00:00 - 1970-01-01 05:00:00 (03:00)'
ANN_AT_1 = 'ann      tty1                          1970-01-01 01:00:00 - 1970-01-01 03:00:00 (02:00)'
BOOT_AT_0 = 'reboot   system boot                   1970-01-01 00:00:00 - down                (06:00)'
BEGINS = ('', 'wtmp begins 1970-01-01 00:00:00')


def team(U):
    return (U(2, '~', 'reboot', '-', 0) + U(7, 'tty1', 'ann', '-', 3600) + U(7, 'tty2', 'bob', '-', 7200)
            + U(8, 'tty1', '-', '-', 10800) + U(7, 'tty1', 'bob', '-', 14400) + U(8, 'tty2', '-', '-', 18000)
            + U(7, 'pts/0', 'cid', '-', 19800) + U(1, '~', 'shutdown', '-', 21600) + U(2, '~', 'reboot', '-', 25200)
            + U(7, 'tty1', 'ann', '-', 28800))


def add_rows(row, lines, U, session):
    add_users_of_last(row, lines, U)
    add_odd_names(row, lines, U, session)
    add_users_of_ac(row, lines, U, session)
    add_periods_of_last(row, lines, U)
    add_lone_seconds(row, lines, U, session)
    add_open_stays(row, lines, U)
    add_periods_of_ac(row, lines, U)
    add_days_of_ac(row, lines, session)
    add_tables(row, lines, session)
    add_tables_of_open_stays(row, lines, U)


def add_users_of_last(row, lines, U):
    def last(name, about, words, shown, needs=''):
        row(name, 'last,choice' + needs, about, ['last', *words, 'f'], lines(*shown, *BEGINS), files={'f': team(U)})

    last('user-of-last', 'The sessions of one user; running times are of another.', ['--user', 'bob'], [BOB_AT_4, BOB_AT_2])
    last('users-of-last', 'Any of the users, in whatever order they are named; what is named twice is shown once.',
         ['--user', 'cid', '--user', 'bob', '--user', 'cid'], [CID_AT_530, BOB_AT_4, BOB_AT_2])
    last('user-with-other-letters', 'Names are compared byte by byte: ANN is not ann, and neither is an.', ['--user', 'ANN', '--user', 'an'], [])
    last('line-of-last', 'The sessions on one line; running times are on none.', ['--line', 'tty1'], [ANN_AT_8, BOB_AT_4, ANN_AT_1])
    last('user-and-line-of-last', 'One of the users, and one of the lines.', ['--line', 'tty2', '--user', 'ann', '--user', 'bob'], [BOB_AT_2])
    last('line-by-its-digits', 'A line is its whole name.', ['--line', '2', '--line', 'tty'], [])
    last('running-times-alone', 'Running times are of the user reboot.', ['--user', 'reboot'], [BOOT_AT_7, BOOT_AT_0])
    last('running-times-are-on-no-line', 'Not on the line of their records either.', ['--user', 'reboot', '--line', '~'], [])
    last('most-users-and-lines', 'Eight users and eight lines.', [word for letter in 'abcdefg' for word in ('--user', letter, '--line', letter)]
         + ['--user', 'cid', '--line', 'pts/0'], [CID_AT_530])
    last('count-of-what-is-shown', '-n counts the sessions of the user, of whom the latest is no latest of all.', ['-n', '1', '--user', 'bob'],
         [BOB_AT_4], ',last -n')
    row('choice-hides-no-record', 'last,choice', "bob's login ends ann's session, though bob is not shown.", ['last', '--user', 'ann', 'f'],
        lines('ann      tty1                          1970-01-01 00:16:40 - 1970-01-01 00:26:40 (00:10)', '', 'wtmp begins 1970-01-01 00:16:40'),
        files={'f': U(7, 'tty1', 'ann', '-', 1000) + U(7, 'tty1', 'bob', '-', 1600) + U(8, 'tty1', '-', '-', 2200)})


def add_odd_names(row, lines, U, session):
    begins = ('', 'wtmp begins 1970-01-01 00:01:00')
    full = 'abcdefghijklmnopqrstuvwxyz012345'
    row('user-who-is-named-reboot', 'last,choice', 'A session of a user of that name is on its line.', ['last', '--user', 'reboot', '--line', 'tty1', 'f'],
        lines('reboot   tty1                          1970-01-01 00:01:40 - 1970-01-01 00:02:40 (00:01)', *BEGINS),
        files={'f': U(2, '~', 'reboot', '-', 0) + session('reboot', 'tty1', 100, 60)})
    row('user-of-32-bytes', 'last,choice', 'A name that fills its field; one with a byte less is another.', ['last', '--user', full, 'f'],
        lines(full + ' tty1                          1970-01-01 00:01:00 - 1970-01-01 00:02:00 (00:01)', *begins),
        files={'f': session(full, 'tty1', 60, 60) + session(full[:31], 'tty1', 180, 60)})
    row('user-with-a-colon', 'last,choice', 'A colon, a blank and a dash at the beginning are bytes like others.',
        ['last', '--user', 'a:b', '--user', 'c d', '--user=-e', 'f'],
        lines('-e       tty1                          1970-01-01 00:05:00 - 1970-01-01 00:06:00 (00:01)',
              'c d      tty1                          1970-01-01 00:03:00 - 1970-01-01 00:04:00 (00:01)',
              'a:b      tty1                          1970-01-01 00:01:00 - 1970-01-01 00:02:00 (00:01)', *begins),
        files={'f': session('a:b', 'tty1', 60, 60) + session('c d', 'tty1', 180, 60) + session('-e', 'tty1', 300, 60)})
    row('user-whose-name-does-not-print', 'last,choice', 'A letter of two bytes is chosen by its bytes and shown as two question marks.',
        ['last', '--user', b'\xc3\xa9', 'f'],
        lines('??       tty1                          1970-01-01 00:01:00 - 1970-01-01 00:02:00 (00:01)', *begins),
        files={'f': session(b'\xc3\xa9', 'tty1', 60, 60) + session(b'\xc3\xa8', 'tty1', 180, 60) + session('??', 'tty1', 300, 60)})
    row('user-of-three-files', 'last,choice,files', 'A section for each file, also where nothing in it is shown.', ['last', '--user', 'bob', 'f', 'g', 'h'],
        lines(BOB_AT_4, BOB_AT_2, *BEGINS, '', '', 'wtmp begins 1970-01-12 13:46:40', '', 'wtmp has no records'),
        files={'f': team(U), 'g': session('ann', 'tty1', 1000000, HOUR), 'h': b''})


def add_users_of_ac(row, lines, U, session):
    def ac(name, about, words, hours, needs=''):
        row(name, 'ac,choice' + needs, about, ['ac', *words, 'f'], lines(*(f'{who:<28}{time:>5}' for who, time in hours)), files={'f': team(U)})

    ac('user-of-ac', 'bob has 3 and 2 hours.', ['--user', 'bob'], [('total', '5.00')])
    ac('users-of-ac', "The other users: with bob's 5 hours these are all of the 7.50.", ['-p', '--user', 'cid', '--user', 'ann'],
       [('ann', '2.00'), ('cid', '0.50'), ('total', '2.50')], ',ac -p')
    ac('line-of-ac', 'ann and bob have 2 hours each on tty1.', ['--line', 'tty1'], [('total', '4.00')])
    add_users_by_turns(row, lines, U)


def add_users_by_turns(row, lines, U):
    # Each quarter of an hour ann, bob or cid logs in on tty1, by turns, and ends the session before. Of 100 logins 99 are ended,
    # 33 of each, which are 8.25 hours; the last, of ann, is open, and has an hour more up to 92,700.
    turns = b''.join(U(7, 'tty1', ('ann', 'bob', 'cid')[at % 3], '-', 900 * at) for at in range(100))

    def ac(name, about, words, hours, needs=''):
        row(name, 'ac,choice' + needs, about, ['ac', *words, 'f'], lines(*(f'{who:<28}{time:>5}' for who, time in hours)), files={'f': turns})

    ac('user-by-turns', 'A third of 99 quarters of an hour on one line.', ['--user', 'bob'], [('total', '8.25')])
    ac('users-by-turns', "A user who is named twice counts once, also of many sessions; ann's last one is an hour long.",
       ['-p', '--user', 'ann', '--user', 'cid', '--user', 'ann', '--until', '92700'],
       [('ann', '9.25'), ('cid', '8.25'), ('total', '17.50')], ',ac -p,until')


def add_periods_of_last(row, lines, U):
    def last(name, about, words, shown, needs=''):
        row(name, 'last,choice' + needs, about, ['last', *words, 'f'], lines(*shown, *BEGINS), files={'f': team(U)})

    last('period-of-last', 'From 3 up to 5: ann has left at 3. Who was there is shown whole.', ['--from', '1970-01-01T03:00', '--to', '1970-01-01T05:00'],
         [BOB_AT_4, BOB_AT_2, BOOT_AT_0])
    last('last-second-of-a-session', "ann's last second is the first of the period, whose options are letters as last(1) has them.",
         ['-s', '1970-01-01T02:59:59', '-t1970-01-01T03:00'],
         [BOB_AT_2, ANN_AT_1, BOOT_AT_0])
    last('session-that-begins-at-the-end', 'cid comes at the second that the period does not have.', ['--from', '1970-01-01T05:00', '--to', '1970-01-01T05:30'],
         [BOB_AT_4, BOOT_AT_0])
    last('period-without-an-end', 'From 6 on: what a shutdown ended at 6 is over.', ['--from', '1970-01-01 06:00'], [ANN_AT_8, BOOT_AT_7])
    last('period-without-a-beginning', 'Up to 2.', ['--to', '1970-01-01 02:00'], [ANN_AT_1, BOOT_AT_0])
    last('who-was-on', 'At 4 the host is running, and bob is on two lines; the letter is that of last(1).', ['-p', '1970-01-01T04:00'],
         [BOB_AT_4, BOB_AT_2, BOOT_AT_0])
    last('who-is-on-now', 'Who has not left is on.', ['--at', 'now'], [ANN_AT_8, BOOT_AT_7])
    last('period-that-is-empty', 'A period that begins where it ends has no second.', ['--from', '1970-01-01T04:00', '--to', '1970-01-01T04:00'], [])
    last('longest-period', 'From the first moment up to the last, in seconds.', ['--from', '@-2147483648', '--to', '4294967295', '--user', 'cid'],
         [CID_AT_530])
    last('day-of-last', 'A day: all of them.', ['--in', '1970-01-01', '-n', '2'], [ANN_AT_8, BOOT_AT_7], ',last -n')


def add_lone_seconds(row, lines, U, session):
    """What has no seconds, and what a clock change moves."""
    none = ('', 'wtmp begins 1970-01-01 00:16:40')
    ann_of_no_seconds = 'ann      tty1                          1970-01-01 00:16:40 - 1970-01-01 00:16:40 (00:00)'
    for name, about, words, shown in (
            ('at-the-end', 'It stands at the second that the period does not have.', ['--to', '@1000'], []),
            ('before-the-end', 'It stands at the only second of the period.', ['--from', '@1000', '--to', '@1001'], [ann_of_no_seconds])):
        row('session-of-no-seconds-' + name, 'last,choice', about, ['last', *words, 'f'], lines(*shown, *none),
            files={'f': session('ann', 'tty1', 1000, 0)})
    row('backward-session-at-its-begin', 'last,choice', 'It stands at its begin, and not between its end and its begin.',
        ['last', '--from', '@2000', '--to', '@2001', 'f'],
        lines('ann      tty1                          1970-01-01 00:33:20 - 1970-01-01 00:16:40 (00:00)', '', 'wtmp begins 1970-01-01 00:33:20'),
        files={'f': session('ann', 'tty1', 2000, -1000)})
    row('record-after-the-period-ends-a-session', 'last,choice', 'A boot after the period ends what was open in it.',
        ['last', '--from', '@250', '--to', '@260', 'f'],
        lines('b        tty2                          1970-01-01 00:03:20 - crash               (00:13)',
              'a        tty1                          1970-01-01 00:01:40 - crash               (00:15)', '', 'wtmp begins 1970-01-01 00:01:40'),
        files={'f': U(7, 'tty1', 'a', '-', 100) + U(7, 'tty2', 'b', '-', 200) + U(7, 'tty3', 'c', '-', 300) + U(2, '~', 'reboot', '-', 1000)})
    moved = U(7, 'tty1', 'ann', '-', 1000) + U(4, '~', '-', '-', 2000) + U(3, '~', '-', '-', 5000) + U(8, 'tty1', '-', '-', 6000)
    shown = 'ann      tty1                          1970-01-01 00:16:40 - 1970-01-01 01:40:00 (00:33)'
    for name, about, second, found in (
            ('before', 'By the clock of its end the session began at 4000.', '@3999', []),
            ('at', 'It is shown from there on, with its start as recorded.', '@4000', [shown])):
        row('period-by-the-moved-start-' + name, 'last,choice,clock', about, ['last', '--at', second, 'f'], lines(*found, *none), files={'f': moved})
    row('part-of-a-session-with-a-clock-change', 'ac,csv,choice,clock', 'It began at 4000 by the clock of its end: 1000 seconds up to 5000.',
        ['ac', '--csv', '--to', '@5000', 'f'], lines('seconds', '1000'), files={'f': moved})


def add_open_stays(row, lines, U):
    ann = 'ann      tty1                          1970-01-12 13:46:40   still logged in'

    def last(name, about, words, shown, needs=''):
        row(name, 'last,choice' + needs, about, ['last', *words, 'f'], lines(*shown, '', 'wtmp begins 1970-01-12 13:46:40'),
            files={'f': U(7, 'tty1', 'ann', '-', 1000000)})

    last('open-session-after-the-last-record', 'What nothing has ended goes on, in a year that no record can reach too.', ['--in', '2040'], [ann])
    last('open-session-until-the-moment', 'With --until it ends there.', ['--until', '1003600', '--at', '@1003600'], [], ',until')
    last('open-session-until-a-second-later', 'A second before its end it is still there, with its span.', ['--until', '1003600', '--at', '@1003599'],
         ['ann      tty1                          1970-01-12 13:46:40 - still logged in     (01:00)'], ',until')
    row('open-session-up-to-its-end-time', 'ac,ac -p,choice', 'ac counts it up to the last record: 1000 of 2000 seconds, and bob none.',
        ['ac', '-p', '--from', '@2000', 'f'], lines('ann                          0.28', 'total                        0.28'),
        files={'f': U(7, 'tty1', 'ann', '-', 1000) + U(7, 'tty2', 'bob', '-', 3000)})


def add_periods_of_ac(row, lines, U):
    def ac(name, about, words, hours):
        row(name, 'ac,ac -p,choice', about, ['ac', '-p', *words, 'f'], lines(*(f'{who:<28}{time:>5}' for who, time in hours)), files={'f': team(U)})

    ac('period-of-ac', 'From 2:30 up to 4:30: ann half an hour, bob 2 hours and half an hour.', ['--from', '1970-01-01T02:30', '--to', '1970-01-01T04:30'],
       [('ann', '0.50'), ('bob', '2.50'), ('total', '3.00')])
    ac('period-up-to-a-moment', 'Up to 2:30.', ['--to', '1970-01-01T02:30'], [('ann', '1.50'), ('bob', '0.50'), ('total', '2.00')])
    ac('period-from-a-moment', 'From 2:30 on: with what is before it, 7.50.', ['--from', '1970-01-01T02:30'],
       [('ann', '0.50'), ('bob', '4.50'), ('cid', '0.50'), ('total', '5.50')])


def add_days_of_ac(row, lines, session):
    """A session from noon of 29 July to 6 of 1 August 2026: the days of July add up to the month, and the year has the rest."""
    summer = session('ann', 'tty1', 1785326400, 66 * HOUR)
    for name, about, word, hours in (
            ('first-day-of-a-month', 'The half of the 29th.', '2026-07-29', '12.00'),
            ('second-day-of-a-month', 'All of the 30th.', '2026-07-30', '24.00'),
            ('third-day-of-a-month', 'All of the 31st: with the days before, 60 hours.', '2026-07-31', '24.00'),
            ('year-of-ac', 'The year has 6 hours of August too.', '2026', '66.00')):
        row(name, 'ac,choice', about, ['ac', '--in', word, 'f'], lines(f'total{hours:>28}'), files={'f': summer})
    row('month-of-ac', 'ac,ac -d,choice', 'The month has its days alone.', ['ac', '-d', '--in', '2026-07', 'f'],
        lines('2026-07-29 total                       12.00', '2026-07-30 total                       24.00',
              '2026-07-31 total                       24.00', 'total                       60.00'), files={'f': summer})
    midnight = session('ann', 'tty1', 84600, HOUR)
    row('day-of-a-session-an-hour-east', 'ac,ac -d,choice,offset', 'A day is one of the clock: all of it is on the 2nd.',
        ['ac', '-d', '--in', '1970-01-02', '--east', '60', 'f'],
        lines('1970-01-02 total                        1.00', 'total                        1.00'), files={'f': midnight})
    two_days = session('ann', 'tty1', 1774699200, 48 * HOUR) + session('bob', 'tty2', 1774746000, HOUR)
    row('day-of-23-hours', 'ac,ac -d,ac -p,choice,zone', 'All of a day that has 23 hours.',
        ['ac', '-d', '-p', '--in', '2026-03-29', '--zone', BERLIN, 'f'],
        lines('2026-03-29 ann                         23.00', '2026-03-29 bob                          1.00', 'total                       24.00'),
        files={'f': two_days})
    row('month-of-a-user-in-a-zone', 'ac,ac -d,ac -p,csv,choice,zone', 'March ends at 22:00 of UTC: all of the 48 hours are in it.',
        ['ac', '-d', '-p', '--csv', '--user', 'ann', '--in', '2026-03', '--zone', BERLIN, 'f'],
        lines('day,user,seconds', '2026-03-28,ann,39600', '2026-03-29,ann,82800', '2026-03-30,ann,50400'), files={'f': two_days})
    row('month-that-ends-in-a-session', 'ac,choice,zone', 'Two hours up to the end of July, and not four as by UTC.',
        ['ac', '--in', '2026-07', '--zone', BERLIN, 'f'], lines('total                        2.00'),
        files={'f': session('ann', 'tty1', 1785528000, 12 * HOUR)})
    row('period-over-two-files', 'ac,ac -p,choice,files', 'The seconds within of each host.',
        ['ac', '-p', '--from', '1970-01-01T02:00', '--to', '1970-01-01T03:30', 'f', 'g'],
        lines('ann                          2.50', 'total                        2.50'),
        files={'f': session('ann', 'tty1', HOUR, 2 * HOUR), 'g': session('ann', 'tty1', 2 * HOUR, 3 * HOUR)})


def add_tables(row, lines, session):
    hour = session('ann', 'tty1', 1000000, HOUR)
    whole = '1,ann,tty1,,1000000,1970-01-12T13:46:40+00:00,1000000,logout,1003600,1970-01-12T14:46:40+00:00,3600'
    row('seconds-within', 'last,csv,choice', 'The length, and the seconds in the period.', ['last', '--csv', '--from', '@1001000', '--to', '@1002000', 'f'],
        lines(STAY_NAMES + ',within', whole + ',1000'), files={'f': hour})
    row('table-of-who-was-on', 'last,csv,choice', 'No seconds within: the period is one second.', ['last', '--csv', '--at', '@1003599', 'f'],
        lines(STAY_NAMES, whole), files={'f': hour})
    row('table-of-nobody-who-was-on', 'last,csv,choice', 'At the second of the logout there is nobody.', ['last', '--csv', '--at', '@1003600', 'f'],
        lines(STAY_NAMES), files={'f': hour})
    row('table-of-a-user', 'last,csv,choice', 'A user alone adds no column.', ['last', '--csv', '--user', 'ann', 'f'], lines(STAY_NAMES, whole),
        files={'f': hour + session('bob', 'tty1', 1003600, HOUR)})
    row('seconds-within-of-three-files', 'last,last -n,csv,choice,files', 'Files count as they are named, the latest stay of each that is shown.',
        ['last', '--csv', '-n', '1', '--user', 'ann', '--in', '1970-01-01', 'f', 'g', 'h'],
        lines(STAY_NAMES + ',within', '1,ann,tty1,,80000,1970-01-01T22:13:20+00:00,80000,logout,90000,1970-01-02T01:00:00+00:00,10000,6400',
              '3,ann,tty2,,0,1970-01-01T00:00:00+00:00,0,logout,60,1970-01-01T00:01:00+00:00,60,60'),
        files={'f': session('ann', 'tty1', 0, 60) + session('ann', 'tty1', 80000, 10000) + session('ann', 'tty1', 90000, 60),
               'g': session('bob', 'tty1', 0, 60), 'h': session('ann', 'tty2', 0, 60)})
    row('seconds-within-in-a-zone', 'last,csv,choice,zone', 'One of two hours is in the month.', ['last', '--csv', '--in', '2026-07', '--zone', BERLIN, 'f'],
        lines(STAY_NAMES + ',within', '1,ann,tty1,,1785531600,2026-07-31T23:00:00+02:00,1785531600,logout,1785538800,2026-08-01T01:00:00+02:00,7200,3600'),
        files={'f': session('ann', 'tty1', 1785531600, 2 * HOUR)})


def add_tables_of_open_stays(row, lines, U):
    down = (U(2, '~', 'reboot', '-', 100) + U(7, 'tty1', 'ann', '-', 200) + U(1, '~', 'shutdown', '-', 1000) + U(2, '~', 'reboot', '-', 1100)
            + U(7, 'tty1', 'bob', '-', 1200))
    row('seconds-within-of-open-stays', 'last,csv,choice', 'Those that nothing has ended have seconds up to the last record.',
        ['last', '--csv', '--from', '@500', 'f'],
        lines(STAY_NAMES + ',within', '1,bob,tty1,,1200,1970-01-01T00:20:00+00:00,1200,still,1200,1970-01-01T00:20:00+00:00,0,0',
              '1,reboot,,,1100,1970-01-01T00:18:20+00:00,1100,still,1200,1970-01-01T00:20:00+00:00,100,100',
              '1,ann,tty1,,200,1970-01-01T00:03:20+00:00,200,down,1000,1970-01-01T00:16:40+00:00,800,500',
              '1,reboot,,,100,1970-01-01T00:01:40+00:00,100,down,1000,1970-01-01T00:16:40+00:00,900,500'), files={'f': down})
    row('seconds-within-after-the-last-record', 'last,csv,choice', 'They are there in a later period, and have no second of it.',
        ['last', '--csv', '--from', '@5000', 'f'],
        lines(STAY_NAMES + ',within', '1,bob,tty1,,1200,1970-01-01T00:20:00+00:00,1200,still,1200,1970-01-01T00:20:00+00:00,0,0',
              '1,reboot,,,1100,1970-01-01T00:18:20+00:00,1100,still,1200,1970-01-01T00:20:00+00:00,100,0'), files={'f': down})
    row('seconds-within-until', 'last,csv,choice,until', 'Up to the moment that is given, and the end of the period.',
        ['last', '--csv', '--user', 'bob', '--from', '@2000', '--to', '@5000', '--until', '4000', 'f'],
        lines(STAY_NAMES + ',within', '1,bob,tty1,,1200,1970-01-01T00:20:00+00:00,1200,still,4000,1970-01-01T01:06:40+00:00,2800,2000'), files={'f': down})
