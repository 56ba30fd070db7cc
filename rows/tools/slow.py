"""What the program prints, slowly, from the definitions of docs/SPECIFICATION.md.

Each rule looks at the whole list of records, as the definitions do. Nothing here is taken from the
program's code or its output. Records stand in records.py, what a report is over in choices.py, moments and periods in moments.py,
local time in clocks.py, the names of users in passwd.py.
"""
import csv
import datetime
import io

import moments
from choices import cut, is_attempt_chosen, is_chosen, is_met, is_process_chosen, look
from clocks import fixed, of_zone
from passwd import fault_of, name_in
from records import Fault, records_of, text_of

ENDS = {'Login': 'Next', 'Logout': 'Logout', 'Down': 'down', 'Boot': 'crash'}


class Asked:
    """What a job asks for: its clock, if it is no other, the moment up to which open stays are counted, its period, its file of users, its
    words, and the paths of its files."""

    def __init__(self, job, clock=None, paths=()):
        look(job)
        self.job, self.limit, self.clock, self.paths = job, job.get('limit'), clock or clock_of(job), paths
        self.until, self.period = moments.settled(job, self.clock)
        self.has_within = any(name in job for name in ('from', 'to', 'in'))
        self.passwd = job['names'][1] if 'names' in job else None

    def has(self, flag):
        return self.job.get(flag, False)


# Sessions

def shift(host, at):
    """How far record `at` of the host sets the clock."""
    if host[at]['event'] != 'NewTime':
        return 0
    for earlier in reversed(host[:at]):
        if earlier['event'] == 'NewTime':
            return 0
        if earlier['event'] == 'OldTime':
            return host[at]['time'] - earlier['time']
    return 0


def ends(stay, record):
    if record['event'] in ('Down', 'Boot'):
        return True
    return stay['event'] == 'Login' and record['event'] in ('Login', 'Logout') and record['line'] == stay['line']


def stay_of(host, at, until):
    start = host[at]
    later = [k for k in range(at + 1, len(host)) if ends(start, host[k])]
    last = later[0] if later else len(host) - 1
    end_time = host[last]['time'] if later or until is None else until
    moved = start['time'] + sum(shift(host, k) for k in range(at + 1, last + 1))
    begin = max(-2 ** 31, min(2 ** 31 - 1, moved))
    return dict(start, is_boot=start['event'] == 'Boot', end=ENDS[host[last]['event']] if later else 'Still',
                begin=begin, end_time=end_time, seconds=max(0, end_time - begin))


def stays_of(host, until):
    return [stay_of(host, at, until) for at in reversed(range(len(host))) if host[at]['event'] in ('Login', 'Boot')]


def stays_shown(host, asked):
    """The stays of a host that are asked for and have some part in the period, whole."""
    chosen = [stay for stay in stays_of(host, asked.until) if is_chosen(asked.job, stay)]
    return [stay for stay in chosen if is_met(stay, asked.period, asked.until)][:asked.limit]


def sessions_of(hosts, asked):
    """The sessions that are asked for, cut to the period."""
    stays = [stay for host in hosts for stay in stays_of(host, asked.until) if not stay['is_boot']]
    return [cut(stay, asked.period) for stay in stays if is_chosen(asked.job, stay)]


# Failed logins

def attempts_of(host, asked):
    return [record for record in host if is_attempt_chosen(asked.job, record, asked.period)]


def attempts_shown(host, asked):
    return attempts_of(host, asked)[::-1][:asked.limit]


def attempt_sums(hosts, asked):
    """User, remote host and number of failed logins of each row."""
    groups = grouped([record for host in hosts for record in attempts_of(host, asked)], lambda r: (r['user'], r['remote']))
    rows = [(group[0]['user'], group[0]['remote'], len(group)) for group in groups]
    return sorted(rows, key=lambda row: (-row[2], row[0], row[1]))[:asked.limit]


# Text

def shown(text):
    return ''.join(chr(byte) if 0x20 <= byte <= 0x7E else '?' for byte in text)


def hundredths(number):
    return '%d.%02d' % (number // 100, number % 100)


def moment(time, clock):
    return local_moment(time + clock.at(time))


def local_moment(time):
    return '%04d-%02d-%02d %02d:%02d:%02d' % (datetime.datetime(1970, 1, 1) + datetime.timedelta(seconds=time)).timetuple()[:6]


def date_of(day):
    return local_moment(86400 * day)[:10]


def span(seconds):
    days, clock = seconds // 86400, '%02d:%02d' % (seconds // 3600 % 24, seconds // 60 % 60)
    return '(%d+%s)' % (days, clock) if days else '(%s)' % clock


def tail(stay, asked):
    length = span(stay['seconds'])
    if stay['end'] == 'Still':
        how = 'still running' if stay['is_boot'] else 'still logged in'
        return '   ' + how if asked.until is None else ' - %-19s %s' % (how, length)
    if stay['end'] in ('down', 'crash'):
        return ' - %-19s %s' % (stay['end'], length)
    return ' - %s %s' % (moment(stay['end_time'], asked.clock), length)


def last_text(host, asked):
    if not host:
        return 'wtmp has no records\n'
    text = ''
    for stay in stays_shown(host, asked):
        user, line = ('reboot', 'system boot') if stay['is_boot'] else (shown(stay['user']), shown(stay['line']))
        start = moment(stay['time'], asked.clock)
        text += '%-8s %-12s %-16s %s%s\n' % (user, line, shown(stay['remote']), start, tail(stay, asked))
    return text + '\nwtmp begins %s\n' % moment(host[0]['time'], asked.clock)


def attempts_text(host, asked):
    if not host:
        return 'btmp has no records\n'
    text = ''.join('%-8s %-12s %-16s %s\n' % (shown(r['user']), shown(r['line']), shown(r['remote']), moment(r['time'], asked.clock))
                   for r in attempts_shown(host, asked))
    return text + '\nbtmp begins %s\n' % moment(host[0]['time'], asked.clock)


def attempt_sums_text(hosts, asked):
    return ''.join('%8d %-8s %s\n' % (number, shown(user), shown(remote)) for user, remote, number in attempt_sums(hosts, asked))


def ac_line(name, seconds, day=None):
    date = '' if day is None else date_of(day) + ' '
    return '%s%-20s %12s\n' % (date, name, hundredths((seconds + 18) // 36))


def ac_rows(stays, asked):
    """Day, user and seconds of each row; the day or the user is None where it is not asked for."""
    by_day, names = asked.has('d'), sorted({stay['user'] for stay in stays}) if asked.has('p') else [None]
    by_days = [(stay['user'], asked.clock.seconds_by_day(stay['begin'], stay['end_time']) if by_day else {None: stay['seconds']})
               for stay in stays]
    rows = []
    for day in sorted({day for _, days in by_days for day in days}) if by_day or asked.has('p') else []:
        for name in names:
            seconds = sum(days.get(day, 0) for user, days in by_days if name is None or user == name)
            if seconds:
                rows.append((day, name, seconds))
    return rows


def ac_text(hosts, asked):
    stays = sessions_of(hosts, asked)
    text = ''
    for day, name, seconds in ac_rows(stays, asked):
        text += ac_line('total' if name is None else shown(name), seconds, day)
    return text + ac_line('total', sum(stay['seconds'] for stay in stays))


def usage(records):
    return {key: sum(r[key] for r in records) for key in ('real', 'cpu', 'io', 'mem_cpu')} | {'count': len(records)}


def columns(use):
    minutes = [hundredths((use[key] + 30) // 60) for key in ('real', 'cpu')]
    avio = use['io'] // use['count'] if use['count'] else 0
    k = use['mem_cpu'] // use['cpu'] if use['cpu'] else 0
    return '%8d %12sre %12scp %10davio %10dk' % (use['count'], *minutes, avio, k)


def is_stray(records):
    return len(records) == 1 or any(not 0x20 <= byte <= 0x7E for byte in records[0]['name'])


def grouped(records, key):
    return [[r for r in records if key(r) == value] for value in sorted({key(r) for r in records})]


def sa_rows(records, show_all, by_calls, reverse):
    """Name, fork mark, whether it joins others, and usage of each row."""
    strays, rows, order = [], [], 'count' if by_calls else 'cpu'
    for group in grouped(records, lambda r: (r['name'], r['forked'])):
        if not show_all and is_stray(group):
            strays += group
        else:
            rows.append((group[0]['name'], group[0]['forked'], False, usage(group)))
    if strays:
        rows.append((b'***other', False, True, usage(strays)))
    return sorted(rows, key=lambda row: (-row[3][order], row[0], row[1], row[2]), reverse=reverse)


def sa_text(records, show_all, by_calls, reverse):
    rows = sa_rows(records, show_all, by_calls, reverse)
    text = columns(usage(records)) + '\n'
    return text + ''.join('%s %s%s\n' % (columns(row[3]), shown(row[0]), '*' if row[1] else '') for row in rows)


def user_rows(records, by_calls, reverse):
    order = 'count' if by_calls else 'cpu'
    rows = [(group[0]['uid'], usage(group)) for group in grouped(records, lambda r: r['uid'])]
    return sorted(rows, key=lambda row: (-row[1][order], row[0]), reverse=reverse)


def user_word(uid, passwd):
    """The name of a user in a file of users, or else the number."""
    name = None if passwd is None else name_in(passwd, uid)
    return '%d' % uid if name is None else shown(text_of(name))


def users_text(records, by_calls, reverse, passwd):
    rows = user_rows(records, by_calls, reverse)
    text = '%-10s %s\n' % ('total', columns(usage(records)))
    return text + ''.join('%-10s %s\n' % (user_word(uid, passwd), columns(use)) for uid, use in rows)


def usage_text(parts, asked):
    records = sum(parts, [])
    if asked.has('m'):
        return users_text(records, asked.has('n'), asked.has('r'), asked.passwd)
    return sa_text(records, asked.has('a'), asked.has('n'), asked.has('r'))


def of_all_and_each(text, parts, asked):
    """The text of all files, and by file before it that of each file alone, below its path."""
    each = ['%s:\n%s' % (shown(path.encode()), text([part], asked)) for path, part in zip(asked.paths, parts)]
    return each * asked.has('by-file') + [text(parts, asked)]


# Tables

def table(names, rows):
    out = io.StringIO()
    csv.writer(out, lineterminator='\n').writerows([names.split(',')] + [list(row) for row in rows])
    return out.getvalue()


def iso(time, clock):
    offset = clock.at(time)
    zone = '%s%02d:%02d' % ('-' if offset < 0 else '+', abs(offset) // 3600, abs(offset) // 60 % 60)
    return moment(time, clock).replace(' ', 'T') + zone


def file_names(asked):
    return 'file,' + 'path,' * asked.has('paths')


def file_fields(number, asked):
    """What says of which file a row is: its number, from 1, and its path where that is asked for."""
    return (number, shown(asked.paths[number - 1].encode())) if asked.has('paths') else (number,)


def of_all_or_each(names, fields, parts, asked):
    """The table of the rows of all files together, or by file of those of each alone, after what says of which file they are."""
    if not asked.has('by-file'):
        return table(names, fields(parts, asked))
    return table(file_names(asked) + names, [(*file_fields(number, asked), *row) for number, part in enumerate(parts, 1) for row in fields([part], asked)])


def last_table(hosts, asked):
    rows = []
    for number, host in enumerate(hosts, 1):
        for stay in stays_shown(host, asked):
            who = ('reboot', '') if stay['is_boot'] else (shown(stay['user']), shown(stay['line']))
            within = (cut(stay, asked.period)['seconds'],) if asked.has_within else ()
            rows.append((*file_fields(number, asked), *who, shown(stay['remote']), stay['time'], iso(stay['time'], asked.clock), stay['begin'],
                         stay['end'].lower(), stay['end_time'], iso(stay['end_time'], asked.clock), stay['seconds'], *within))
    names = file_names(asked) + 'user,line,remote,start,start_at,begin,end,end_time,end_at,seconds'
    return table(names + ',within' * asked.has_within, rows)


def attempts_table(hosts, asked):
    return table(file_names(asked) + 'user,line,remote,time,at',
                 [(*file_fields(number, asked), shown(r['user']), shown(r['line']), shown(r['remote']), r['time'], iso(r['time'], asked.clock))
                  for number, host in enumerate(hosts, 1) for r in attempts_shown(host, asked)])


def attempt_sums_table(hosts, asked):
    return table('user,remote,attempts', [(shown(user), shown(remote), number) for user, remote, number in attempt_sums(hosts, asked)])


def ac_fields(hosts, asked):
    stays = sessions_of(hosts, asked)
    if not asked.has('d') and not asked.has('p'):
        return [(sum(stay['seconds'] for stay in stays),)]
    return [([date_of(day)] if asked.has('d') else []) + ([shown(name)] if asked.has('p') else []) + [seconds]
            for day, name, seconds in ac_rows(stays, asked)]


def ac_table(hosts, asked):
    return of_all_or_each('day,' * asked.has('d') + 'user,' * asked.has('p') + 'seconds', ac_fields, hosts, asked)


def sums(use):
    return tuple(use[key] for key in ('count', 'real', 'cpu', 'io', 'mem_cpu'))


def command_fields(parts, asked):
    rows = sa_rows(sum(parts, []), asked.has('a'), asked.has('n'), asked.has('r'))
    return [(shown(row[0]), int(row[1]), int(row[2]), *sums(row[3])) for row in rows]


def user_fields(parts, asked):
    rows, passwd = user_rows(sum(parts, []), asked.has('n'), asked.has('r')), asked.passwd
    name = lambda uid: () if passwd is None else (shown(text_of(name_in(passwd, uid) or b'')),)
    return [(uid, *name(uid), *sums(use)) for uid, use in rows]


def usage_table(parts, asked):
    first = 'uid,' + 'name,' * (asked.passwd is not None) if asked.has('m') else 'command,forked,other,'
    return of_all_or_each(first + 'calls,real_ticks,cpu_ticks,io,mem_cpu', user_fields if asked.has('m') else command_fields, parts, asked)


def clock_of(job):
    return of_zone(job['zone']) if 'zone' in job else fixed(job.get('east', 0) - job.get('west', 0))


def output(job, files):
    """Status, standard output and standard error of a job over files, each a kind, a path and bytes. A file of users is a path and bytes,
    or None where it is not there."""
    try:
        asked = Asked(job, paths=[path for _, path, _ in files])
    except moments.Refused as refused:
        return 2, '', str(refused)
    if 'names' in job and fault_of(asked.passwd):
        return 1, '', 'tally: %s: %s\n' % (job['names'][0], fault_of(asked.passwd))
    read = []
    for kind, path, raw in files:
        try:
            read.append((kind, records_of(kind, raw)))
        except Fault as fault:
            return 1, '', 'tally: %s: %s\n' % (path, fault)
    hosts = [records for kind, records in read if kind in 'wb']
    parts = [[record for record in records if is_process_chosen(job, record, asked.period)] for kind, records in read if kind == 'p']
    if asked.has('csv'):
        return 0, {
            'last': lambda: last_table(hosts, asked),
            'lastb': lambda: (attempt_sums_table if asked.has('sum') else attempts_table)(hosts, asked),
            'ac': lambda: ac_table(hosts, asked),
            'sa': lambda: usage_table(parts, asked),
        }[job['command']](), ''
    lasts = lambda: [last_text(host, asked) for host in hosts]
    sections = {
        'last': lasts,
        'lastb': lambda: [attempt_sums_text(hosts, asked)] if asked.has('sum') else [attempts_text(host, asked) for host in hosts],
        'ac': lambda: of_all_and_each(ac_text, hosts, asked),
        'sa': lambda: of_all_and_each(usage_text, parts, asked),
        'all': lambda: lasts() + [ac_text(hosts, asked), sa_text(sum(parts, []), False, False, False)],
    }[job['command']]()
    return 0, '\n'.join(sections), ''
