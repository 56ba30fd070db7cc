"""The worked rows of `--zone`. The days and moments were worked out by hand from the zones' rules, and are those of
Python's zoneinfo too. The zones stand in the rows, as rules or as small files, so that no row needs those of the system.
"""
import struct

HOUR = 3600


def header(changes, offsets, names, leaps=0):
    return b'TZif2' + bytes(15) + struct.pack('>6l', 0, 0, leaps, changes, offsets, names)


def zone_file(kinds, changes, rule='', leaps=()):
    """A file of time zone rules, as `zic -b slim` writes it: kinds of local time (seconds east of UTC, 1 in summer time, name),
    of which the first holds before all changes, each change as its second and the place of its kind, and the rule for what
    comes after the last change, which has to agree with it. Leap seconds are the seconds at which each has been counted."""
    first = header(0, 1, 1) + struct.pack('>lBB', 0, 0, 0) + b'\0'
    names = [name.encode() + b'\0' for _, _, name in kinds]
    data = b''.join(struct.pack('>q', second) for second, _ in changes)
    data += bytes(place for _, place in changes)
    data += b''.join(struct.pack('>lBB', offset, summer, sum(map(len, names[:at]))) for at, (offset, summer, _) in enumerate(kinds))
    data += b''.join(names)
    data += b''.join(struct.pack('>ql', second, count) for count, second in enumerate(leaps, 1))
    return (first + header(len(changes), len(kinds), sum(map(len, names)), len(leaps)) + data
            + b'\n' + rule.encode() + b'\n')


TWO_CLOCKS = "error: --zone cannot be used with --east or --west\n\nFor more information, try '--help'.\n"
BERLIN = 'CET-1CEST,M3.5.0,M10.5.0/3'
# 2018-02-18 00:00 goes back to 23:00, and 2018-11-04 00:00 on to 01:00.
SAO_PAULO = zone_file([(-3 * HOUR, 0, '-03'), (-2 * HOUR, 1, '-02')], [(1508036400, 1), (1518919200, 0), (1541300400, 1)])
# 2006-10-29 00:01 goes back to 2006-10-28 23:01.
ST_JOHNS = zone_file([(-12600, 0, 'NST'), (-9000, 1, 'NDT')], [(1143948660, 1), (1162089060, 0)])
# 2011-12-30 00:00 goes on to 2011-12-31 00:00.
APIA = zone_file([(-11 * HOUR, 0, '-11'), (-10 * HOUR, 1, '-10'), (14 * HOUR, 1, '+14')], [(1316872800, 1), (1325239200, 2)])
# Changes of 1945, one of 1996, and the rule of the European Union after that.
BERLIN_FILE = zone_file([(HOUR, 0, 'CET'), (2 * HOUR, 1, 'CEST'), (3 * HOUR, 1, 'CEMT')],
                        [(-781052400, 2), (-776563200, 1), (-765936000, 0), (828234000, 1), (846378000, 0)], BERLIN)


def add_rows(row, lines, session):
    def days(name, about, zone, begin, seconds, texts, file=None):
        total = f'total{seconds / HOUR:28.2f}'
        wanted = lines(*(f'{day} total{hours:>28}' for day, hours in texts), total)
        files = {'f': session('ann', 'tty1', begin, seconds)}
        if file is not None:
            files['zone'] = file
        row(name, 'ac,ac -d,zone', about, ['ac', '-d', '--zone', zone, 'f'], wanted, files=files)

    days('zone-day-of-23-hours', 'Two days over the change to summer time: 11, 23 and 14 hours.', BERLIN, 1774699200, 48 * HOUR,
         [('2026-03-28', '11.00'), ('2026-03-29', '23.00'), ('2026-03-30', '14.00')])
    days('zone-day-of-25-hours', 'Two days over the change to winter time: 10, 25 and 13 hours.', BERLIN, 1792843200, 48 * HOUR,
         [('2026-10-24', '10.00'), ('2026-10-25', '25.00'), ('2026-10-26', '13.00')])
    days('zone-hour-before-midnight-twice', 'The day has 25 hours, since 23:00 to 24:00 comes twice.', './zone', 1518876000, 25 * HOUR,
         [('2018-02-17', '13.00'), ('2018-02-18', '12.00')], SAO_PAULO)
    days('zone-midnight-left-out', 'The day begins at 01:00.', './zone', 1541257200, 23 * HOUR,
         [('2018-11-03', '12.00'), ('2018-11-04', '11.00')], SAO_PAULO)
    days('zone-date-that-comes-twice', 'One minute of the 29th, and then the last 59 of the 28th again.', './zone', 1162081800, 5 * HOUR,
         [('2006-10-28', '2.98'), ('2006-10-29', '2.02')], ST_JOHNS)
    days('zone-half-an-hour-twice', 'Clocks go back by half an hour: a day of 24.5.', '<+1030>-10:30<+11>-11,M10.1.0,M4.1.0', 1775304000,
         25 * HOUR + 1800, [('2026-04-04', '1.00'), ('2026-04-05', '24.50')])
    days('zone-date-that-is-left-out', 'The 30th of December never was.', './zone', 1325232000, 4 * HOUR,
         [('2011-12-29', '2.00'), ('2011-12-31', '2.00')], APIA)
    days('zone-of-the-southern-half', 'Summer time ends in April, on a day of 25 hours.', 'NZST-12NZDT,M9.5.0,M4.1.0/3', 1775300400, 25 * HOUR,
         [('2026-04-05', '25.00')])
    days('zone-before-1970', 'A change in 1945, from one hour east to three.', './zone', -781056000, 3 * HOUR,
         [('1945-04-02', '3.00')], BERLIN_FILE)
    days('zone-past-the-last-row', 'The rule of a file holds after its last row, in 2037 as well.', './zone', 2121894000, 24 * HOUR,
         [('2037-03-29', '23.00'), ('2037-03-30', '1.00')], BERLIN_FILE)

    row('zone-moments-an-hour-apart-print-alike', 'last,zone', 'From 02:30 in summer time to 02:30 in winter time is an hour.',
        ['last', '--zone', BERLIN, 'f'], lines(
            'ann      tty1                          2026-10-25 02:30:00 - 2026-10-25 02:30:00 (01:00)',
            '', 'wtmp begins 2026-10-25 02:30:00'), files={'f': session('ann', 'tty1', 1792888200, HOUR)})
    row('zone-table-tells-them-apart', 'last,csv,zone', 'The offset that held at each moment.',
        ['last', '--csv', '--zone', BERLIN, 'f'], lines(
            'file,user,line,remote,start,start_at,begin,end,end_time,end_at,seconds',
            '1,ann,tty1,,1792888200,2026-10-25T02:30:00+02:00,1792888200,logout,1792891800,2026-10-25T02:30:00+01:00,3600'),
        files={'f': session('ann', 'tty1', 1792888200, HOUR)})
    row('zone-second-of-the-change', 'last,zone', 'A second before it and at it: 01:59:59 is followed by 03:00:00.',
        ['last', '--zone', BERLIN, 'f'], lines(
            'ann      tty1                          2026-03-29 01:59:59 - 2026-03-29 03:00:00 (00:00)',
            '', 'wtmp begins 2026-03-29 01:59:59'), files={'f': session('ann', 'tty1', 1774745999, 1)})
    row('zone-offset-with-seconds', 'last,csv,zone', 'Local mean time, 19 minutes and 32 seconds east: the offset is printed without its seconds.',
        ['last', '--csv', '--zone', 'AMT-0:19:32', 'f'], lines(
            'file,user,line,remote,start,start_at,begin,end,end_time,end_at,seconds',
            '1,ann,tty1,,-1104537600,1935-01-01T00:19:32+00:19,-1104537600,logout,-1104537540,1935-01-01T00:20:32+00:19,60'),
        files={'f': session('ann', 'tty1', -1104537600, 60)})
    row('zone-days-of-each-user', 'ac,ac -d,ac -p,zone', 'By day and user over the change to summer time.',
        ['ac', '-d', '-p', '--zone', BERLIN, 'f'], lines(
            '2026-03-28 ann                         11.00', '2026-03-29 ann                         23.00',
            '2026-03-29 bob                          1.00', '2026-03-30 ann                         14.00',
            'total                       49.00'),
        files={'f': session('ann', 'tty1', 1774699200, 48 * HOUR) + session('bob', 'tty2', 1774746000, HOUR)})
    row('zone-summer-of-two-days', 'ac,ac -d,ac -p,zone', 'Six days with the 4th and the 5th of January an hour ahead: days of 23 and of 25 hours.',
        ['ac', '-d', '-p', '--zone', 'AAA0BBB,J4/0,J6/0', 'f'], lines(
            '1970-01-01 ann                          1.00', '1970-01-02 bob                         24.00',
            '1970-01-03 bob                         24.00', '1970-01-04 bob                         23.00',
            '1970-01-05 bob                         25.00', '1970-01-06 bob                         24.00',
            '1970-01-07 bob                         24.00', 'total                      145.00'),
        files={'f': session('ann', 'tty1', 0, HOUR) + session('bob', 'tty2', 24 * HOUR, 144 * HOUR)})
    add_fault_rows(row, lines)


def add_fault_rows(row, lines):
    def fault(name, about, zone, what, status=1, files=None):
        """A zone that is not taken, though the file of records is not there either."""
        row(name, 'ac,zone', about, ['ac', '--zone', zone, 'f'], '', f'tally: {zone}: {what}\n', status, files=files)

    def no_zone(name, about, zone):
        fault(name, about, zone, 'no such zone')

    def no_file(name, about, zone, file=None):
        fault(name, about, zone, 'no time zone file', files=None if file is None else {'zone': file})

    no_zone('zone-that-is-not-there', 'A name with no file, and no rule either.', 'Nowhere/City')
    no_zone('zone-file-that-is-not-there', 'A path that cannot be opened: the zone is read before any file of records is opened.', './zone')
    no_zone('zone-name-with-dots', 'No name goes out of the folder of zones.', 'Europe/../UTC')
    no_zone('zone-name-with-two-slashes', 'No part of a name is empty.', 'Europe//Berlin')
    no_zone('zone-of-three-letters', 'A rule has an offset.', 'XYZ')
    no_zone('zone-rule-without-its-end', 'A rule of summer time has its begin and its end.', 'CET-1CEST,M3.5.0')
    no_zone('zone-name-of-utc-and-letters', 'Letters after the digits are no offset from UTC, and here no rule.', 'UTC+2x')
    row('zone-is-read-for-sa', 'sa,zone', 'sa shows no times, and its zone is read as well.', ['sa', '--zone', './zone', 'f'], '',
        'tally: ./zone: no such zone\n', 1)

    whole = zone_file([(2 * HOUR, 1, 'CEST'), (HOUR, 0, 'CET')], [(0, 1)], BERLIN)
    no_file('zone-that-is-a-folder', 'A folder.', '.')
    no_file('zone-that-is-empty-file', 'A file without bytes.', './zone', b'')
    no_file('zone-that-is-no-zone-file', 'A file of another kind.', './zone', b'CET-1CEST,M3.5.0,M10.5.0/3\n')
    no_file('zone-file-cut-off', 'All but the last byte of a time zone file.', './zone', whole[:-1])
    no_file('zone-file-with-a-bad-rule', 'Its rule is none.', './zone', zone_file([(HOUR, 0, 'CET')], [], 'CET'))
    no_file('zone-file-with-a-rule-of-another-hour', 'Its last change is to two hours east, and its rule has one.', './zone',
            zone_file([(HOUR, 0, 'CET'), (2 * HOUR, 0, 'CET')], [(0, 1)], 'CET-1'))
    no_file('zone-file-with-leap-seconds', 'It counts 27 leap seconds, which no record does.', './zone',
            zone_file([(HOUR, 0, 'CET')], [], 'CET-1', leaps=range(78796800, 78796800 + 27 * 15811200, 15811200)))
    no_file('zone-file-of-65537-bytes', 'A byte more than a time zone file may have.', './zone', whole.ljust(65537, b'\n'))
    no_file('zone-file-without-end', 'No more is read than shows that it is too large.', '/dev/zero')
    row('zone-file-of-65536-bytes', 'ac,zone', 'As many bytes as a time zone file may have.', ['ac', '--zone', './zone', 'f'],
        lines('total                        0.00'), files={'f': b'', 'zone': whole.ljust(65536, b'\n')})

    for name, about, zone, what in (
            ('east-of-utc', 'POSIX reads it as two hours west, and others as two hours east.', 'UTC+2', '<+02>-2'),
            ('west-of-utc', 'Three and a half hours west.', 'GMT-3:30', '<-0330>+3:30'),
            ('of-utc-without-a-sign', 'The sign is left out.', 'UTC2', '<+02>-2'),
            ('of-ut', 'A name of two letters.', 'UT+5:45', '<+0545>-5:45')):
        fault('zone-offset-' + name, about, zone, 'write ' + what, 2)
    for name, about, zone in (('without-hours', 'Nothing follows the sign.', 'UTC+'),
                              ('of-four-digits', 'Hours and minutes without a colon.', 'UTC+0530'),
                              ('of-a-day-and-more', 'No rule has so many hours.', 'GMT+25')):
        fault('zone-offset-' + name, about, zone, 'write a rule, as <+02>-2', 2)

    for option in ('east', 'west'):
        row(f'zone-beside-{option}', 'ac,zone,offset', 'A zone and an offset are not taken together.',
            ['ac', '--zone', BERLIN, f'--{option}', '0', 'f'], '', TWO_CLOCKS, 2, files={'f': b''})
    row('zone-without-a-word', 'ac,zone', 'An empty word names no zone.', ['ac', '--zone', '', 'f'], '', None, 2, files={'f': b''})
    row('zone-twice', 'ac,zone', 'A run has one zone.', ['ac', '--zone', 'UTC', '--zone', 'UTC', 'f'], '', None, 2, files={'f': b''})
