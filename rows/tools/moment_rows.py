"""The worked rows of `--until MOMENT`: its forms, clocks that leave a time out or have it twice, and what is refused.

One session begins at the second 0 and is open. So `ac --csv --until MOMENT` prints the second that MOMENT names. The seconds were
worked out by hand: 2026-01-01 is day 20454 from 1970-01-01, and 2026-07-01 is 181 days later, the second 1782864000.
"""
from moments import NO_FORM, NO_RANGE
from zone_rows import APIA, BERLIN, SAO_PAULO, ST_JOHNS, TWO_CLOCKS

HOUR = 3600


def add_rows(row, lines, U, odd_offset):
    open_session = U(7, 'tty1', 'ann', '-', 0)

    def until(name, needs, about, words, second, file=None):
        files = {'f': open_session} if file is None else {'f': open_session, 'zone': file}
        row('until-' + name, 'ac,csv,until' + needs, about, ['ac', '--csv', *words, 'f'], lines('seconds', str(second)), files=files)

    def no_until(name, about, words, said, status=2, needs=''):
        row('no-until-' + name, 'ac,until,moment' + needs, about, ['ac', *words, 'f'], '', said, status, {'f': open_session})

    add_numbers(until)
    add_forms(until)
    add_clocks(until)
    add_reports(row, lines, U)
    add_no_forms(no_until)
    add_no_range(no_until)
    add_orders(row, no_until, odd_offset)


def add_numbers(until):
    for name, about, word, second in (
            ('eight-digits', 'Digits alone are seconds, though eight could be a date.', '20260701', 20260701),
            ('fourteen-digits', 'So are fourteen.', '00001782901800', 1782901800),
            ('a-number-with-a-plus', 'A plus sign before them.', '+1782901800', 1782901800),
            ('a-number-with-zeros', 'Zeros before them.', '000001782901800', 1782901800),
            ('zero-with-a-dash', 'A dash before a zero.', '-0', 0),
            ('the-last-number', 'The greatest second of a login record.', '2147483647', 2147483647)):
        until(name, '', about, ['--until=' + word], second)


def add_forms(until):
    for name, about, word, second in (
            ('a-date', 'The first second of a day.', '2026-07-01', 1782864000),
            ('a-leap-day', 'The 29th of February 2024.', '2024-02-29', 1709164800),
            ('a-time', 'Half past ten.', '2026-07-01T10:30', 1782901800),
            ('a-time-with-a-blank', 'A blank for the T.', '2026-07-01 10:30', 1782901800),
            ('a-time-with-seconds', 'A quarter of a minute later.', '2026-07-01T10:30:15', 1782901815),
            ('a-time-as-last-prints-it', 'A moment as the list has it.', '2026-07-01 10:30:15', 1782901815),
            ('the-last-second-of-a-day', 'The last hour, minute and second.', '2026-07-01T23:59:59', 1782950399),
            ('an-offset-of-z', 'Z is UTC.', '2026-07-01T10:30Z', 1782901800),
            ('an-offset-east', 'Two hours east of UTC.', '2026-07-01T10:30:15+02:00', 1782894615),
            ('an-offset-west', 'Two hours and a half west of UTC.', '2026-07-01 10:30-02:30', 1782910800),
            ('an-offset-of-four-digits', 'The same without the colon.', '2026-07-01 10:30-0230', 1782910800),
            ('the-greatest-offset', '23 hours and 59 minutes.', '2026-07-01T00:00+23:59', 1782777660),
            ('an-offset-of-1969', 'The date is before 1970, and the second is not.', '1969-12-31T23:00-02:00', 3600),
            ('seconds', 'Seconds since 1970.', '@1782901800', 1782901800),
            ('seconds-of-eight-digits', 'After the sign, too, digits are seconds.', '@20260701', 20260701),
            ('seconds-of-zero', 'A dash may stand after the sign.', '@-0', 0),
            ('the-first-date', 'The first second that it can be.', '1970-01-01', 0),
            ('the-last-date', 'The last day that begins in time.', '2038-01-19', 2147472000),
            ('the-last-second', 'The last second, as a time.', '2038-01-19T03:14:07', 2147483647)):
        until(name, ',moment', about, ['--until', word], second)


def add_clocks(until):
    def on_clock(name, about, word, zone, second, file=None, option='--zone'):
        until(name, ',moment,' + ('zone' if option == '--zone' else 'offset'), about, [option, zone, '--until', word], second, file)

    on_clock('a-date-an-hour-east', 'The day begins an hour earlier.', '2026-07-01', '60', 1782860400, option='--east')
    on_clock('a-time-an-hour-west', 'The clock shows it an hour later.', '2026-07-01T10:30', '60', 1782905400, option='--west')
    on_clock('an-offset-beside-an-offset', 'The offset of the word is that of the time.', '2026-07-01T10:30Z', '60', 1782901800, option='--east')
    on_clock('the-first-second-an-hour-east', 'The clock shows one when the seconds begin.', '1970-01-01T01:00', '60', 0, option='--east')
    on_clock('a-date-in-summer-time', 'In July Berlin is two hours east.', '2026-07-01', BERLIN, 1782856800)
    on_clock('a-time-in-summer-time', 'By the clock of the zone.', '2026-07-01 10:30:15', BERLIN, 1782894615)
    on_clock('an-offset-in-a-zone', 'The offset of the word goes before the zone.', '2026-07-01T10:30Z', BERLIN, 1782901800)
    on_clock('seconds-in-a-zone', 'Seconds are of no zone.', '@1782901800', BERLIN, 1782901800)
    on_clock('a-time-left-out', 'From 2:00 to 3:00 the clock has no time: by the offset before, it shows 3:30.', '2026-03-29T02:30', BERLIN, 1774747800)
    on_clock('a-time-after-those-left-out', 'The first second of summer time, by its own name.', '2026-03-29T03:00', BERLIN, 1774746000)
    on_clock('a-time-twice', '2:30 in summer time, the first of the two.', '2026-10-25T02:30', BERLIN, 1792888200)
    on_clock('a-time-twice-by-its-offset', 'The second of the two, by its offset.', '2026-10-25T02:30+01:00', BERLIN, 1792891800)
    on_clock('a-time-after-those-twice', 'An hour and a half later than half past two.', '2026-10-25T03:00', BERLIN, 1792893600)
    on_clock('a-midnight-left-out', 'The day begins at 1:00.', '2018-11-04', './zone', 1541300400, SAO_PAULO)
    on_clock('a-midnight-twice', 'The day before has 23:00 to 24:00 twice: the 18th begins after the second.', '2018-02-18', './zone', 1518922800, SAO_PAULO)
    on_clock('a-date-left-out', 'The 30th of December never was: it is the first second of the 31st.', '2011-12-30', './zone', 1325239200, APIA)
    on_clock('a-time-on-a-date-left-out', 'By the offset before, of 10 hours west.', '2011-12-30T12:00', './zone', 1325282400, APIA)
    on_clock('a-date-twice', 'The first second of the first part.', '2006-10-29', './zone', 1162089000, ST_JOHNS)
    on_clock('a-date-and-seconds-of-offset', 'Local mean time, 19 minutes and 32 seconds east.', '1970-01-02', 'AMT-0:19:32', 85228)
    on_clock('the-last-second-in-a-zone', 'In winter Berlin is an hour east.', '2038-01-19T04:14:07', BERLIN, 2147483647)


def add_reports(row, lines, U):
    hour = U(7, 'tty1', 'ann', '-', 1000000) + U(8, 'tty1', '-', '-', 1003600)
    row('until-now', 'last,until,moment', 'A session of 1970 has ended long before now.', ['last', '--until', 'now', 'f'],
        lines('ann      tty1                          1970-01-12 13:46:40 - 1970-01-12 14:46:40 (01:00)', '', 'wtmp begins 1970-01-12 13:46:40'),
        files={'f': hour})
    row('until-a-time-in-a-list', 'last,until,moment,zone', 'The list has the same clock.', ['last', '--zone', BERLIN, '--until', '1970-01-12 15:46:40', 'f'],
        lines('ann      tty1                          1970-01-12 14:46:40 - still logged in     (01:00)', '', 'wtmp begins 1970-01-12 14:46:40'),
        files={'f': hour[:384]})
    row('until-a-time-twice-in-a-table', 'last,csv,until,moment,zone', 'The table has the second of the first of the two.',
        ['last', '--csv', '--zone', BERLIN, '--until', '2026-10-25 02:30', 'f'],
        lines('file,user,line,remote,start,start_at,begin,end,end_time,end_at,seconds',
              '1,ann,tty1,,1792843200,2026-10-24T14:00:00+02:00,1792843200,still,1792888200,2026-10-25T02:30:00+02:00,45000'),
        files={'f': U(7, 'tty1', 'ann', '-', 1792843200)})
    row('until-a-date-by-day', 'ac,ac -d,until,moment,zone', 'Up to a date no second of it counts: 11 hours of the day before.',
        ['ac', '-d', '--zone', BERLIN, '--until', '2026-03-29', 'f'],
        lines('2026-03-28 total                       11.00', 'total                       11.00'), files={'f': U(7, 'tty1', 'ann', '-', 1774699200)})
    row('until-a-time-in-all-reports', 'all,until,moment', 'all takes the same forms.', ['all', '--until', '1970-01-12 14:46:40', 'w:f'],
        lines('ann      tty1                          1970-01-12 13:46:40 - still logged in     (01:00)', '', 'wtmp begins 1970-01-12 13:46:40', '',
              'total                        1.00', '', '       0         0.00re         0.00cp          0avio          0k'), files={'f': hour[:384]})


def add_no_forms(no_until):
    for name, about, word in (
            ('that-is-empty', 'An empty word.', ''),
            ('that-is-a-blank', 'A blank.', ' '),
            ('of-a-month-13', 'There is no such month.', '2026-13-01'),
            ('of-a-month-0', 'There is no such month.', '2026-00-01'),
            ('of-a-day-0', 'There is no such day.', '2026-07-00'),
            ('of-a-day-31', 'June has 30 days.', '2026-06-31'),
            ('of-a-day-too-many', 'The year has no 29th of February.', '2026-02-29'),
            ('of-a-day-too-many-in-2100', 'Nor has 2100, though four divides it.', '2100-02-29'),
            ('of-a-time-of-a-day-too-many', 'A time has a date of the calendar.', '2026-02-29T10:30'),
            ('of-an-hour-24', 'Midnight is 00:00 of the next day.', '2026-07-01T24:00'),
            ('of-a-minute-60', 'There is no such minute.', '2026-07-01T10:60'),
            ('of-a-second-60', 'A leap second is none of the clock.', '2026-07-01T10:30:60'),
            ('of-a-t-alone', 'A time follows the T.', '2026-07-01T'),
            ('of-an-hour-alone', 'A time has minutes.', '2026-07-01T10'),
            ('of-an-hour-of-one-digit', 'An hour has two digits.', '2026-07-01T9:30'),
            ('of-digits-without-a-colon', 'A time has a colon.', '2026-07-01T1030'),
            ('of-a-fraction', 'Seconds are whole.', '2026-07-01T10:30:00.5'),
            ('of-a-fraction-after-a-comma', 'Seconds are whole.', '2026-07-01T10:30:00,5'),
            ('of-a-zone', 'A zone is one of the run.', '2026-07-01T10:30[Europe/Berlin]'),
            ('of-a-date-with-an-offset', 'A date has no offset.', '2026-07-01Z'),
            ('of-a-date-with-hours-of-offset', 'A date has no offset.', '2026-07-01+02:00'),
            ('of-a-small-t', 'A small letter.', '2026-07-01t10:30'),
            ('of-a-small-z', 'A small letter.', '2026-07-01T10:30z'),
            ('of-a-t-and-a-blank', 'One mark stands between a date and a time.', '2026-07-01T 10:30'),
            ('of-two-blanks', 'One mark stands between a date and a time.', '2026-07-01  10:30'),
            ('with-a-blank-before-it', 'Nothing stands around a moment.', ' 2026-07-01'),
            ('with-a-blank-after-it', 'Nothing stands around a moment.', '2026-07-01 '),
            ('with-a-line-feed', 'Nothing stands around a moment.', '2026-07-01\n'),
            ('with-a-blank-before-its-offset', 'An offset follows the time.', '2026-07-01T10:30 +02:00'),
            ('with-an-offset-of-hours', 'An offset has minutes.', '2026-07-01T10:30+02'),
            ('with-an-offset-of-seconds', 'An offset has no seconds.', '2026-07-01T10:30+02:00:00'),
            ('with-an-offset-of-24-hours', 'There is no such hour.', '2026-07-01T10:30+24:00'),
            ('with-an-offset-of-60-minutes', 'There is no such minute.', '2026-07-01T10:30+0260'),
            ('of-a-month-of-one-digit', 'A month has two digits.', '2026-7-01'),
            ('of-a-day-of-one-digit', 'A day has two digits.', '2026-07-1'),
            ('of-a-year-of-two-digits', 'A year has four digits.', '26-07-01'),
            ('of-a-year-of-five-digits', 'A year has four digits.', '12026-07-01'),
            ('of-a-month', 'A month has many days.', '2026-07'),
            ('of-slashes', 'Dashes stand in a date.', '2026/07/01'),
            ('of-a-time-alone', 'A time has a date.', '10:30'),
            ('of-another-word', 'The one word is now.', 'today'),
            ('of-great-letters', 'The one word is now.', 'NOW'),
            ('of-now-and-more', 'Nothing stands around it.', 'now+1'),
            ('of-a-sign-alone', 'Digits follow the sign.', '@'),
            ('of-a-dash-alone', 'Digits follow the dash.', '@-'),
            ('of-a-plus-after-the-sign', 'No plus stands after the sign.', '@+5'),
            ('of-a-plus-alone', 'Digits follow the plus.', '+'),
            ('of-a-fraction-of-seconds', 'Seconds are whole.', '5.0'),
            ('of-a-negative-number', 'Before 1970 a number has its sign.', '-5'),
            ('of-hexadecimal-digits', 'Digits are 0 to 9.', '0x5'),
            ('of-other-digits', 'Digits are 0 to 9.', '\u0665'),
            ('of-64-bits', 'A number of seconds is below 2^63.', '9223372036854775808'),
            ('of-many-digits', 'No number of seconds is so long.', '@99999999999999999999999999')):
        no_until(name, about, [('--until=' + word).encode()], NO_FORM)


def add_no_range(no_until):
    for name, about, word in (
            ('of-a-second-before-1970', 'A second before the first.', '@-1'),
            ('of-a-date-before-1970', 'A day before the first.', '1969-12-31'),
            ('of-an-offset-before-1970', 'The date is of 1970, and the second is not.', '1970-01-01T00:00+00:01'),
            ('of-the-year-0', 'The first date.', '0000-01-01'),
            ('of-a-second-after-2038', 'A second after the last.', '@2147483648'),
            ('of-a-time-after-2038', 'A second after the last.', '2038-01-19T03:14:08'),
            ('of-a-date-after-2038', 'The first day that begins after the last second.', '2038-01-20'),
            ('of-the-last-year', 'The last time.', '9999-12-31T23:59:59'),
            ('of-a-date-of-digits', 'Fourteen digits are seconds, and too many.', '20260701103000'),
            ('of-63-bits', 'The greatest number of seconds.', '@9223372036854775807')):
        no_until(name, about, ['--until', word], NO_RANGE)
    no_until('of-1970-an-hour-east', 'The day begins an hour before the first second.', ['--east', '60', '--until', '1970-01-01'], NO_RANGE, needs=',offset')
    no_until('after-2038-in-a-zone', 'A second after the last by the clock of the zone.', ['--zone', BERLIN, '--until', '2038-01-19T04:14:08'], NO_RANGE,
             needs=',zone')


def add_orders(row, no_until, odd_offset):
    no_zone = 'tally: ./none: no such zone\n'
    for name, about, word, said, status in (
            ('of-no-form-before-a-zone', 'What is no moment is refused before a zone is read.', 'tomorrow', NO_FORM, 2),
            ('of-seconds-before-a-zone', 'So are seconds out of range.', '@-1', NO_RANGE, 2),
            ('of-an-offset-before-a-zone', 'So is a time with an offset.', '1969-12-31T23:59:59Z', NO_RANGE, 2),
            ('of-a-date-after-a-zone', 'A date waits for the clock, so that the zone is named.', '1969-12-31', no_zone, 1),
            ('of-a-time-after-a-zone', 'So does a time.', '2038-01-20T10:30', no_zone, 1)):
        no_until(name, about, ['--zone', './none', '--until', word], said, status, ',zone')
    for name, about, words, said, needs in (
            ('after-an-odd-offset', 'An offset that is not plain is named first.', ['--east', '+0200'], odd_offset, ',offset'),
            ('after-a-zone-beside-an-offset', 'Then a zone beside an offset.', ['--zone', BERLIN, '--east', '60'], TWO_CLOCKS, ',zone,offset'),
            ('after-three-mistakes', 'All three: the offset is named.', ['--zone', BERLIN, '--east', '+0200'], odd_offset, ',zone,offset')):
        no_until(name, about, [*words, '--until', 'tomorrow'], said, needs=needs)
    row('no-until-before-a-file', 'ac,until,moment,zone', 'A date out of range is refused before a file is opened.',
        ['ac', '--zone', BERLIN, '--until', '2038-01-20', 'f'], '', NO_RANGE, 2)
