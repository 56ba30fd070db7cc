"""The moments and periods that words name, slowly: dates by Python's calendar, local times by its zones."""
import datetime
import re

from clocks import EPOCH, FIRST, LAST

UNTIL = (0, 2 ** 31 - 1)              # the seconds that --until takes
PERIOD = (-2 ** 31, 2 ** 32 - 1)      # those that the other options take
LARGEST = 2 ** 63                     # no number of seconds is so large
DAYS_OF_400_YEARS = 146097
HOUR, MINUTE = '([01][0-9]|2[0-3])', '([0-5][0-9])'
DATE = '([0-9]{4})-([0-9]{2})-([0-9]{2})'
OFFSET = '(Z|[+-]%s:?%s)?' % (HOUR, MINUTE)
TIME = '%s[T ]%s:%s(?::%s)?%s' % (DATE, HOUR, MINUTE, MINUTE, OFFSET)
SECONDS = '[+]?([0-9]+)|(-0+)|@(-?[0-9]+)'
DATES = '([0-9]{4})(?:-([0-9]{2})(?:-([0-9]{2}))?)?'

TRY_HELP = "\n\nFor more information, try '--help'.\n"
BY_UTC = ' is not from 1901-12-13 20:45:52 to 2106-02-07 06:28:15 by UTC' + TRY_HELP
NO_RANGE = 'error: --until is not from 1970-01-01 00:00:00 to 2038-01-19 03:14:07 by UTC' + TRY_HELP
NO_FROM_RANGE = 'error: --from, or the beginning of --in,' + BY_UTC
NO_TO_RANGE = 'error: --to, or the end of --in,' + BY_UTC
NO_AT_RANGE = 'error: --at' + BY_UTC
BACKWARD = 'error: --from is after --to' + TRY_HELP
TWO_PERIODS = 'error: --at and --in cannot be used with each other, with --from or with --to' + TRY_HELP
NO_IN = 'error: --in takes a year as 2026, a month as 2026-07 or a day as 2026-07-31' + TRY_HELP


def no_form(option):
    """What is said of a word of this option that names no moment."""
    return 'error: --%s takes a date as 2026-07-01, a time as 2026-07-01T10:30, seconds as @1782864000, or now' % option + TRY_HELP


NO_FORM = no_form('until')


class Refused(Exception):
    """A word that names no moment, or none that is taken, with what is said of it."""


def day_of(year, month, day):
    """The days from 1970-01-01 to a date of four digits of a year; Python's calendar has no year 0, but one that is alike."""
    rounds, alike = divmod(int(year), 400)
    try:
        found = datetime.date(2000 + alike, int(month), int(day)) - datetime.date(1970, 1, 1)
    except ValueError:
        raise Refused from None
    return found.days + DAYS_OF_400_YEARS * (rounds - 5)


def number(digits):
    if abs(int(digits)) >= LARGEST:
        raise Refused
    return int(digits)


def local_second(local, clock):
    """The second at which a clock shows a local time; the first of two, and what Python takes where the clock leaves it out."""
    if not clock.zone or not FIRST <= local <= LAST:
        return local - clock.offsets[0 if local < 0 else -1]
    shown = datetime.datetime(1970, 1, 1, tzinfo=clock.zone, fold=0) + datetime.timedelta(seconds=local)
    return int((shown - EPOCH).total_seconds())


def second_of(word, clock):
    """The second that a word names, in range or not; None where no clock is given and it needs one."""
    seconds, date, time = (re.fullmatch(form, word) for form in (SECONDS, DATE, TIME))
    if seconds:
        return number(seconds[1] or seconds[2] or seconds[3])
    if date:
        day = day_of(*date.groups())
        return clock and clock.first_at(86400 * day)
    if not time:
        raise Refused
    *date, hour, minute, second, offset, hours, minutes = time.groups()
    local = 86400 * day_of(*date) + 3600 * int(hour) + 60 * int(minute) + int(second or 0)
    if not offset:
        return clock and local_second(local, clock)
    east = 0 if offset == 'Z' else 3600 * int(hours) + 60 * int(minutes)
    return local + east if offset[0] == '-' else local - east


def days_of(word):
    """The first day of a year, a month or a day, and the first day after it."""
    found = re.fullmatch(DATES, word)
    if not found:
        raise Refused
    year, month, day = found.groups()
    first = day_of(year, month or '01', day or '01')
    if day:
        return first, first + 1
    following = divmod(12 * int(year) + int(month), 12) if month else (int(year) + 1, 0)
    return first, day_of(following[0], following[1] + 1, 1)


def ends_of(word, clock):
    """The seconds from which a period of --in goes, and up to which."""
    return tuple(clock and clock.first_at(86400 * day) for day in days_of(word))


def named(job, clock):
    """The seconds of --until, of both ends of a period, and of --at: None of an option that is not there, and without a clock of one that
    needs one. By any word but `now`, which is of no clock here."""

    def read(option, text, second=second_of):
        word = job.get(option)
        if word is None:
            return None
        if option != 'until' and re.fullmatch('[+]?([0-9]{8}|[0-9]{14})', word):
            raise Refused(text)
        try:
            return second(word, clock)
        except Refused:
            raise Refused(text) from None

    if 'at' in job and {'from', 'to', 'in'} & job.keys() or 'in' in job and {'from', 'to'} & job.keys():
        raise Refused(TWO_PERIODS)
    first, last = read('from', no_form('from')), read('to', no_form('to'))
    ends = read('in', NO_IN, ends_of)
    first, last = ends or (first, last)
    at = read('at', no_form('at'))
    return read('until', NO_FORM), first, last, at


def judged(until, first, last, at):
    """The same, where each is in range and a period does not go back."""
    for second, (least, most), text in ((until, UNTIL, NO_RANGE), (first, PERIOD, NO_FROM_RANGE), (last, PERIOD, NO_TO_RANGE),
                                        (at, PERIOD, NO_AT_RANGE)):
        if second is not None and not least <= second <= most:
            raise Refused(text)
    if None not in (first, last) and last < first:
        raise Refused(BACKWARD)
    return until, first, last, at


def settled(job, clock):
    """The second up to which open stays are counted, and the period: from which second, and up to which. What is wrong on every
    clock is refused first."""
    judged(*named(job, None))
    until, first, last, at = judged(*named(job, clock))
    return until, (first, last) if at is None else (at, at + 1)
