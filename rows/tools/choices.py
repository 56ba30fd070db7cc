"""What a report is over, slowly: some users, some lines and a part of time. Users of processes have numbers."""
import math

from moments import TRY_HELP, Refused
from passwd import number_of

MOST, LONGEST = 8, 32             # names of one kind, and the bytes of one
MANY_USERS, MANY_LINES, MANY_UIDS = ('error: --%s can be used eight times at most' % option + TRY_HELP for option in ('user', 'line', 'uid'))
NO_USER = 'error: --user takes a name of 1 to 32 bytes' + TRY_HELP
NO_LINE = 'error: --line takes a name of 1 to 32 bytes, as tty1' + TRY_HELP
NO_UID = 'error: --uid takes a number from 0 to 4294967295' + TRY_HELP
NAMES_ALONE = 'error: --names cannot be used without -m' + TRY_HELP
NO_TABLE = 'error: --paths cannot be used without --csv' + TRY_HELP
NO_TABLE_BY_FILE = 'error: --paths cannot be used without --csv and --by-file' + TRY_HELP
PATHS_OF_SUMS = 'error: --paths cannot be used with --sum' + TRY_HELP


def look(job):
    """Refuses the names and numbers of a job where they are too many, or one of them is none; names of users where no user is shown; and
    paths where no row is of a file."""
    for option, many, other in (('user', MANY_USERS, NO_USER), ('line', MANY_LINES, NO_LINE)):
        names = job.get(option, [])
        if len(names) > MOST:
            raise Refused(many)
        if not all(1 <= len(name) <= LONGEST for name in names):
            raise Refused(other)
    if len(job.get('uid', [])) > MOST:
        raise Refused(MANY_UIDS)
    if not all(number_of(word.encode()) is not None for word in job.get('uid', [])):
        raise Refused(NO_UID)
    if 'names' in job and not job.get('m'):
        raise Refused(NAMES_ALONE)
    if job.get('paths'):
        look_at_paths(job)


def look_at_paths(job):
    """Refuses paths where the rows are no table, or each is of all files."""
    if job['command'] in ('ac', 'sa') and not (job.get('csv') and job.get('by-file')):
        raise Refused(NO_TABLE_BY_FILE)
    if not job.get('csv'):
        raise Refused(NO_TABLE)
    if job.get('sum'):
        raise Refused(PATHS_OF_SUMS)


def is_chosen(job, stay):
    """Whether a stay is of a user and on a line that are chosen; a running time is of reboot, and on no line."""
    user, line = (b'reboot', None) if stay['is_boot'] else (stay['user'], stay['line'])
    return user in job.get('user', [user]) and line in job.get('line', [line])


def is_attempt_chosen(job, record, period):
    """Whether a record is a failed login, of a user, on a line and at a time that are chosen."""
    first, last = bounds(period)
    return (record['kind'] in (6, 7) and record['line'] + record['user'] != b'' and is_chosen(job, dict(record, is_boot=False))
            and first <= record['time'] < last)


def bounds(period):
    """From which number up to which the seconds of a period are."""
    first, last = period
    return -math.inf if first is None else first, math.inf if last is None else last


def is_met(stay, period, until):
    """Whether some second of a stay is in the period. One that nothing has ended goes on, or up to the moment that is given.
    One without seconds stands at its begin alone."""
    first, last = bounds(period)
    end = math.inf if stay['end'] == 'Still' and until is None else max(stay['end_time'], stay['begin'] + 1)
    return max(first, stay['begin']) < min(last, end)


def cut(stay, period):
    """The part of a stay that is in the period."""
    first, last = bounds(period)
    begin, end_time = max(first, stay['begin']), min(last, stay['end_time'])
    return dict(stay, begin=begin, end_time=end_time, seconds=max(0, end_time - begin))


def is_process_chosen(job, process, period):
    """Whether a process is of a user that is chosen, and began in the period."""
    first, last = bounds(period)
    return process['uid'] in map(int, job.get('uid', [process['uid']])) and first <= process['begin'] < last
