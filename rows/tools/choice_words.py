"""Random words for what a report is over: users, lines, numbers, periods, each file by itself, and some that are refused; and files of users."""
from passwd import LARGEST
from until_words import EDGES, SHIFTS, local_near, moment_word, text_of

ODD_NAMES = tuple(name.encode() for name in ('\u00e9', 'a:b', 'a,"b', '-e', 'x' * 32))
USERS = 3 * (b'ann', b'bob', b'cid') + (b'an', b'reboot', b'nobody') + ODD_NAMES
LINES = 3 * (b'tty1', b'tty2', b'pts/0') + (b'~', b'tty9') + ODD_NAMES
NO_NAMES = (b'', b'x' * 33, '\u00e9'.encode() * 17)
UIDS = 3 * ('0', '1000', '1001') + ('7', '4294967295', '0001000')
NO_UIDS = ('', '-1', '4294967296', '4294968296', '18446744073709552616', 'ann', '1e3', '1000.0', '0x3e8', ' 1000', '1000 ', '1,1')
PASSWD = (b'root:x:0:0:root:/root:/bin/bash', b'ann:x:1000:1000::/home/ann:/bin/sh', b'bob:x:1001:1001:Bob,,,:/home/bob:/bin/sh',
          b'later:x:1000:0:::', b'a_name_of_many_bytes:x:1000:0:::', b'a,"b:x:1001:0:::', b'\xff\t:x:1000:0:::', b'total:x:00001001:0:::',
          b'most:x:4294967295:0:::', b'more:x:4294967296:0:::', b'less:x:-1:0:::', b'blank:x: 1000:0:::', b':x:1000:0:::', b'six:x:1000:0::',
          b'eight:x:1000:0::::', b'none:x::0:::', b'signed:x:+1000:0:::', b'', b'#', b'+::::::', b'feed:x:1000:0:::\r', b'nul\0:x:1001:0:::',
          b'group:x:7:1000:::', b'wrap:x:18446744073709552616:0:::', b'\0:x:0:0:::')
NO_PERIODS = ('', '26', '2026-', '2026-00', '2026-13', '2026-02-30', '2026-7', '202607', '20260731', '2026-07-01T10:30', '@5', 'now', '9999', '1901',
              '2106', '0000')
LETTERS = {'from': '-s', 'to': '-t', 'at': '-p'}


def time_near(generator, base):
    if generator.random() < 0.05:
        return generator.choice(EDGES[:7])
    return base + generator.choice(SHIFTS + (generator.randrange(-100000, 100000), generator.randrange(-5000, 1000000)))


def period(generator, clock, base):
    if generator.random() < 0.05:
        return generator.choice(NO_PERIODS)
    form = generator.choice(('%Y', '%Y-%m', '%Y-%m-%d', '%Y-%m-%d'))
    return text_of(local_near(generator, clock, time_near(generator, base)), form)


def option(generator, names, word):
    """An option with its value, in one of the forms that it can have."""
    name = generator.choice(names)
    if word[:1] not in ('', '-') and generator.random() < 0.5:
        return [name, word]
    return [name + ('=' if name[1] == '-' or word == '' else '') + word]


def some_names(generator, texts):
    """One of the texts, or some of them; seldom a ninth, or one that is too long or empty."""
    count = generator.choice((1, 1, 2, 3, 8)) if generator.random() > 0.03 else 9
    names = [generator.choice(texts) for _ in range(count)]
    if generator.random() < 0.03:
        names[0] = generator.choice(NO_NAMES)
    return names


def some_numbers(generator):
    """Numbers of users, as names above."""
    count = generator.choice((1, 1, 2, 3, 8)) if generator.random() > 0.03 else 9
    numbers = [generator.choice(UIDS) for _ in range(count)]
    if generator.random() < 0.05:
        numbers[generator.randrange(count)] = generator.choice(NO_UIDS)
    return numbers


def users(generator):
    """The bytes of a file of users, seldom as many as it may have or one more, or none where it is not there."""
    odd = generator.random()
    if odd < 0.02:
        return None
    lines = [generator.choice(PASSWD) for _ in range(generator.choice((0, 1, 3, 8, 20)))]
    raw = b'\n'.join(lines) + generator.choice((b'\n', b''))
    return raw + b'#' * (LARGEST - len(raw) + generator.randrange(2)) if odd < 0.04 else raw


def choose_flag(generator, job, name, chance):
    """Puts a flag into a job in so many of the cases, and gives its words, and whether the parser refuses them: twice, or with a value."""
    if generator.random() >= chance:
        return [], False
    job[name], flag = True, '--' + name
    flags = [flag] if generator.random() > 0.02 else generator.choice(([flag, flag], [flag + '=1']))
    return [[flag] for flag in flags], len(flags) > 1 or '=' in flags[0]


def choose_files(generator, command, job):
    """Puts into a job whether it is by file, and whether its table has the paths of files: mostly where there are rows of files."""
    words, is_refused = choose_flag(generator, job, 'by-file', 0.35 if command in ('ac', 'sa') else 0)
    has_files = job.get('csv') and not job.get('sum') and (job.get('by-file') or command in ('last', 'lastb'))
    paths, is_bad = choose_flag(generator, job, 'paths', 0.5 if has_files else 0.02)
    return words + paths, is_refused or is_bad


def choose_processes(generator, job):
    """Puts numbers and a file of users into a job of `sa`, and gives the words, and whether the parser refuses them."""
    words, is_refused = [], False
    if generator.random() < 0.3:
        job['uid'] = some_numbers(generator)
        words += [option(generator, ['--uid'], number) for number in job['uid']]
    if generator.random() < (0.5 if job.get('m') else 0.02):
        job['names'] = ('names', users(generator))
        is_refused = generator.random() < 0.01
        words += [option(generator, ['--names'], 'names') for _ in range(2 if is_refused else 1)]
    return words, is_refused


def choose(generator, command, job, clock, base):
    """Puts a choice into a job, and gives its words in groups that stay together, and whether the parser refuses them: an option of a
    period that is given twice, or a flag with a value."""
    words, is_refused = choose_files(generator, command, job)
    if command == 'sa':
        more, is_bad = choose_processes(generator, job)
        words, is_refused = words + more, is_refused or is_bad
    for key, texts, chance in (('user', USERS, 0.25), ('line', LINES, 0.2)) if command != 'sa' else ():
        if generator.random() < chance:
            job[key] = some_names(generator, texts)
            words += [option(generator, ['--' + key], name.decode()) for name in job[key]]
    ways = ('from', 'to', 'in', 'at') if command == 'last' else ('from', 'to', 'in')
    way = generator.choice((('from',), ('to',), ('from', 'to'), ('from', 'to'), ('in',), ('in',), ways[-1:], generator.sample(ways, 2)))
    for key in way if generator.random() < 0.5 else ():
        names = ['--' + key] + ([LETTERS[key]] if command in ('last', 'lastb') and key in LETTERS else [])
        later = generator.choice((0, 100000, 1000000)) if key == 'to' else 0
        for _ in range(2 if generator.random() < 0.01 else 1):
            is_refused = is_refused or key in job
            job[key] = period(generator, clock, base) if key == 'in' else moment_word(generator, clock, time_near(generator, base + later))
            words.append(option(generator, names, job[key]))
    return words, is_refused
