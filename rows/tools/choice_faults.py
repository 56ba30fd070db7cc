"""The worked rows of what is refused of `--user`, `--line` and of periods, and of the order in which that is found."""
from choices import MANY_LINES, MANY_USERS, NO_LINE, NO_USER
from moments import BACKWARD, NO_AT_RANGE, NO_FROM_RANGE, NO_IN, NO_TO_RANGE, TWO_PERIODS, no_form

NO_ZONE = 'tally: ./none: no such zone\n'


def add_rows(row, session):
    hour = session('ann', 'tty1', 1000000, 3600)

    def fault(name, about, words, said, status=2, needs=''):
        row(name, words[0] + ',choice' + needs, about, [*words, 'f'], '', said, status, {'f': hour})

    add_names(fault)
    add_words_of_periods(fault)
    add_ranges(fault)
    add_orders(fault)
    for name, about, words in (
            ('user-of-sa', 'The option is none of sa.', ['sa', '--user', 'ann']),
            ('from-of-all', 'The option is none of all.', ['all', '--from', '5']),
            ('at-of-ac', 'The option is one of last alone.', ['ac', '--at', '5']),
            ('from-twice', 'The letter is the same option.', ['last', '-s', '5', '--from', '5'])):
        fault(name, about, words, None)


def add_names(fault):
    fault('user-that-is-empty', 'An empty name, beside another.', ['ac', '--user', 'ann', '--user='], NO_USER)
    for option, none, many in (('user', NO_USER, MANY_USERS), ('line', NO_LINE, MANY_LINES)):
        fault(f'{option}-of-33-bytes', 'No record can hold it.', ['last', f'--{option}', 33 * 'x'], none)
        fault(f'nine-{option}s', 'One more than there may be.', ['ac'] + [word for name in 'abcdefghi' for word in (f'--{option}', name)], many)


def add_words_of_periods(fault):
    for first, second in (('at', 'in'), ('in', 'to')):
        fault(f'{first}-beside-{second}', 'One of them says all.', ['last', f'--{first}', '1970-01-12', f'--{second}', '1970-01-12'], TWO_PERIODS)
    for option, name, about, word in (
            ('from', 'of-eight-digits', 'They would be a second of 1970, and may be a date.', '20260701'),
            ('from', 'of-fourteen-digits', 'They may be a date and a time.', '+20260701103000'),
            ('to', 'of-a-month', 'A month has many seconds.', '2026-07'),
            ('at', 'of-a-time-alone', 'A time has a date.', '10:30')):
        fault(f'{option}-{name}', about, ['last', f'--{option}', word], no_form(option))
    fault('in-of-a-month-13', 'There is no such month.', ['ac', '--in', '2026-13'], NO_IN)


def add_ranges(fault):
    fault('from-too-early', 'A second before the first moment.', ['last', '--from', '@-2147483649'], NO_FROM_RANGE)
    fault('to-too-late', 'A second after the last moment.', ['ac', '--to', '4294967296'], NO_TO_RANGE)
    fault('at-too-late', 'The first day that begins after the last moment.', ['last', '--at', '2106-02-08'], NO_AT_RANGE)
    fault('from-after-to', 'A period that goes back.', ['ac', '--from', '@1000001', '--to', '@1000000'], BACKWARD)


def add_orders(fault):
    fault('from-after-to-before-a-zone', 'What is wrong on every clock is refused before a zone is read.',
          ['ac', '--zone', './none', '--from', '@2', '--to', '@1'], BACKWARD, needs=',zone')
    fault('from-after-to-after-a-zone', 'Dates wait for the clock, so that the zone is named.',
          ['ac', '--zone', './none', '--from', '2026-07-02', '--to', '2026-07-01'], NO_ZONE, 1, ',zone')
    fault('names-before-moments', 'Of a name and a moment the name is refused.', ['last', '--at', 'noon', '--user', ''], NO_USER)
