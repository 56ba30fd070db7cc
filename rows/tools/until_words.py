"""Random words of moments: in each form but `now`, near the changes of a clock, out of range, and none at all."""
import datetime

EDGES = (-2 ** 31, -1, 0, 1, 2 ** 31 - 1, 2 ** 31, 2 ** 32, 2 ** 63 - 1, 2 ** 63)
BASES = (0, 84600, 10 ** 9, 1782864000)
SHIFTS = (-86400, -3600, -1800, -1, 0, 1, 60, 1800, 3600, 86400)
NO_MOMENTS = (' ', '2026-02-30', '2026-13-01', '2026-7-1', '2026-07-01 ', '2026-07-01Z', '2026-07', '2026-07-01T24:00', '2026-07-01T10:60',
              '2026-07-01T10:30:60', '2026-07-01t10:30', '2026-07-01T10:30z', '2026-07-01T10', '2026-07-01T10:30:00.5',
              '2026-07-01T10:30[Europe/Berlin]', '2026-07-01T10:30+24:00', '2026-07-01T10:30+02', '2026-07-01T10:30 +02:00',
              '2026-07-01T10:30+0260', '2026-07-01  10:30', '@', '@+5', '@1.5', '5 ', '0x5', 'NOW', 'today', '10:30', '-5', '12026-07-01')
SIGNS = '0123456789-:+@TZ .'


def text_of(time, form):
    return (datetime.datetime(1970, 1, 1) + datetime.timedelta(seconds=time)).strftime(form)


def time_near(generator, clock):
    """A second near one of a few, or near a change of the clock."""
    bases = [start for start in clock.starts if start >= 0]
    near = generator.choice(bases if bases and generator.random() < 0.75 else BASES)
    return near + generator.choice(SHIFTS + (generator.randrange(-7200, 7200), generator.randrange(-100000, 1000000)))


def local_near(generator, clock, time):
    """What a clock shows at a second, by the offset that holds some time before it or after it."""
    return time + clock.at(time + generator.choice((-7200, 0, 7200)))


def offset(generator):
    if generator.random() < 0.3:
        return 'Z'
    return '%s%02d%s%02d' % (generator.choice('+-'), generator.choice((0, 1, 2, 14, 23)), generator.choice((':', '')), generator.choice((0, 30, 59)))


def word_of(generator, clock, time):
    """A word that names a second, in range or not: mostly one near another."""
    odd = generator.random()
    if odd < 0.1:
        return generator.choice(('@%d', '%d')) % generator.choice(EDGES)
    if odd < 0.2:
        return '@%d' % time
    if odd < 0.4:
        return generator.choice(('%d', '%d', '+%d', '%012d', '%014d')) % abs(time)
    if odd < 0.6:
        return text_of(local_near(generator, clock, time), '%Y-%m-%d')
    form = '%Y-%m-%d' + generator.choice('T ') + '%H:%M' + generator.choice(('', ':%S', ':%S'))
    return text_of(local_near(generator, clock, time), form) + (offset(generator) if generator.random() < 0.3 else '')


def bent(generator, word):
    """A word with one sign more, one less or another one."""
    at = generator.randrange(len(word))
    return word[:at] + generator.choice(('', generator.choice(SIGNS), word[at] + generator.choice(SIGNS))) + word[at + 1:]


def moment_word(generator, clock, time):
    """The same, or a word that is none."""
    odd = generator.random()
    if odd < 0.05:
        return generator.choice(NO_MOMENTS)
    word = word_of(generator, clock, time)
    return bent(generator, word) if odd < 0.12 else word


def until_word(generator, clock):
    return moment_word(generator, clock, time_near(generator, clock))
