"""Runs on a terminal: what it is shown of a path, which hint follows a fault line, and how far a run is.

Each case is a function of a place, with what it wants in its first line.
"""
import os
import re
import threading
import time

import slow_check
from clocks import fixed
from hints import DOUBTFUL, READ, REFUSED
from kinds import KINDS
from make import MAKE, ONE_HOUR, ONE_HOUR_LAST, SA_FORKED, SA_OTHER, SA_TOTAL, TOTAL_ONE, lines
from places import other_user, same

ONE, TORN = TOTAL_ONE.encode(), b'a\nb\x1b[2J'
# What erases the line that a terminal is in.
ERASE = rb'\r\x1b\[K'


def path_on_a_terminal(place):
    """A byte of a path that does not print is a question mark on a terminal, and stands elsewhere."""
    path = b'no\n\x1b[2J\xc3\xa9\x7f'
    same(place.on_terminal(b'ac', path)[1], b'tally: no??[2J???: cannot be opened\nhint: no??[2J??? is not there\n')
    same(place.run(b'ac', path).stderr, b'tally: ' + path + b': cannot be opened\n')


def faulty_file_on_a_terminal(place):
    """So in the line of a file that was read, and where a prefix is missing."""
    place.put(TORN, ONE_HOUR[:385])
    done, said = place.on_terminal(b'ac', TORN)
    same((done.returncode, said), (1, b'tally: a?b?[2J: torn after 1 records, 1 bytes left\n'))
    done, said = place.on_terminal(b'all', b'w:f', TORN)
    same((done.returncode, said), (2, b'tally: a?b?[2J: no prefix w: or p:\n'))


def refused_word_on_a_terminal(place):
    """The parser's text names a word as the terminal shows it, and as given elsewhere."""
    done, said = place.on_terminal(b'ac', b'--no\n\x1b[2J', b'f')
    plain = place.run(b'ac', b'--no??[2J', b'f')
    same((done.returncode, said), (2, plain.stderr))
    assert b"--no??[2J" in said, said
    assert b'--no\n\x1b[2J' in place.run(b'ac', b'--no\n\x1b[2J', b'f').stderr


def report_on_a_terminal(place):
    """A terminal as standard error changes no report."""
    done, said = place.on_terminal(b'ac', b'f')
    same((done.returncode, done.stdout, said), (0, ONE, b''))


def hinted(place, words, hint, status, **options):
    """On a terminal the hint alone comes after what is said elsewhere."""
    plain = place.run(*words, **options)
    done, said = place.on_terminal(*words, **options)
    same((done.returncode, done.stdout), (plain.returncode, plain.stdout), '%s: ' % (words,))
    same((done.returncode, said), (status, plain.stderr + (b'hint: %s\n' % hint.encode() if hint else b'')), '%s: ' % (words,))


def hints_on_a_terminal(place):
    """What a refused file looks like is said after the fault line, and which files that were read seem to have failed logins."""
    for name, data in KINDS.items():
        place.put(name, data)
    for words, hint in REFUSED:
        hinted(place, words, hint, 1)
    for words, hint in READ:
        hinted(place, words, hint, 0)
    for words, hint in DOUBTFUL:
        hinted(place, words, hint, 3)


def hint_on_a_path(place):
    """In its hint too a byte of a path that does not print is a question mark. In the command a path that a shell would read otherwise is quoted."""
    for path, shown, quoted in (('a\x1bb', 'a?b', "'a?b'"), ('a b', 'a b', "'a b'"), ("it's;x", "it's;x", "'it'\\''s;x'"), ('-b', '-b', './-b'),
                                ('$(x)', '$(x)', "'$(x)'"), ('a-b_c.%+,:@/../Z9', 'a-b_c.%+,:@/../Z9', 'a-b_c.%+,:@/../Z9')):
        os.makedirs(os.path.dirname(os.path.join(place.folder, path)), exist_ok=True)
        with open(os.path.join(place.folder, path), 'wb') as file:
            file.write(KINDS['gzip'])
        done, said = place.on_terminal('ac', '--', path)
        hint = 'hint: %s is packed by gzip: try zcat %s | tally ac /dev/stdin' % (shown, quoted)
        same(said.splitlines()[1:], [hint.encode()])


def pipe_of(place, name, *pieces):
    """Makes a named pipe, and a thread that writes these into it, with more than a second between each two."""
    path = place.path(name)
    os.mkfifo(path)

    def write():
        with open(path, 'wb', buffering=0) as pipe:
            pipe.write(pieces[0])
            for piece in pieces[1:]:
                time.sleep(1.2)
                pipe.write(piece)
    writer = threading.Thread(target=write)
    writer.start()
    return writer


def no_hint_on_what_is_read_once(place):
    """Standard input and a named pipe are not looked at again."""
    packed = KINDS['gzip']
    place.put('packed', packed)
    with open(place.path('packed'), 'rb') as file:
        said = place.on_terminal('ac', '/dev/stdin', stdin=file)[1]
    same(said, b'tally: /dev/stdin: torn after 0 records, %d bytes left\n' % len(packed))
    writer = pipe_of(place, 'pipe', packed)
    said = place.on_terminal('ac', 'pipe')[1]
    writer.join()
    same(said, b'tally: pipe: torn after 0 records, %d bytes left\n' % len(packed))


def hint_on_a_file_of_another_user(place):
    """A file that only its user may read, and a folder. A named pipe is not opened again, which could wait."""
    os.chmod(place.path('f'), 0)
    os.mkdir(place.path('closed'), 0)
    os.mkfifo(place.path('pipe'), 0)
    hinted(place, ('last', 'f'), 'f may not be read by this user', 1, preexec_fn=other_user)
    hinted(place, ('sa', 'closed/f'), 'closed/f may not be read by this user', 1, preexec_fn=other_user)
    hinted(place, ('last', 'closed'), 'closed is a folder', 1, preexec_fn=other_user)
    hinted(place, ('last', 'pipe'), '', 1, preexec_fn=other_user)


FAILED = lines('ann      :0                            1970-01-12 13:48:20',
               'root     ssh:notty    203.0.113.7      1970-01-12 13:46:40', '', 'btmp begins 1970-01-12 13:46:40')
# Reports that read a file in two pieces: the words, the pieces, what is said of the file, and the report.
FOLLOWED = (
    (('ac',), (ONE_HOUR[:384], ONE_HOUR[384:]), b'768 bytes, 2 records', ONE),
    (('last',), (ONE_HOUR[:384], ONE_HOUR[384:]), b'768 bytes, 2 records', ONE_HOUR_LAST.encode()),
    (('sa',), (MAKE[:64], MAKE[64:]), b'192 bytes, 3 records', lines(SA_TOTAL, SA_OTHER, SA_FORKED).encode()),
    (('lastb',), (KINDS['failed'][:384], KINDS['failed'][384:]), b'768 bytes, 2 records', FAILED.encode()),
)


def hint_on_room(place):
    """Which option takes the records of files that were too many, where their sizes tell it; without a size, which takes more."""
    for name, records in (('long', 1048577), ('half', 786432), ('longer', 3145729), ('longest', 16777217)):
        with open(place.path(name), 'wb') as file:
            file.truncate(384 * records)
    with open(place.path('torn'), 'wb') as file:
        file.truncate(384 * 786432 + 1)
    many, full = b'tally: %s: more than %d records\n', b'tally: half: too many login records\n'
    for words, fault, hint in (
            (('ac', 'long'), many % (b'long', 1048576), b'--millions 2 takes as many'),
            (('last', 'longer'), many % (b'longer', 1048576), b'--millions 4 takes as many'),
            (('ac', '--millions', '2', 'longer'), many % (b'longer', 2097152), b'--millions 4 takes as many'),
            (('lastb', '--feeders', '1', 'half', 'half'), full, b'--millions 2 takes as many'),
            (('ac', 'half', 'half'), full, b'--millions 2 takes as many'),
            (('ac', '-p', '--feeders', '1', 'half', 'long'), full.replace(b'half', b'long'), b'--millions 2 takes as many'),
            (('ac', '--feeders', '1', 'half', 'torn'), full.replace(b'half', b'torn'), b'--millions 2 takes as many'),
            (('ac', 'longest'), many % (b'longest', 1048576), None)):
        done, said = place.on_terminal(*words)
        said = re.sub(rb'(%s[^\r\n]*records)+%s' % (ERASE, ERASE), b'', said)
        same((done.returncode, done.stdout, said), (1, b'', fault + (b'hint: ' + hint + b'\n' if hint else b'')), '%s: ' % (words,))
    with open(place.path('long'), 'rb') as file:
        said = place.on_terminal('ac', '/dev/stdin', stdin=file)[1]
    assert said.endswith(many % (b'/dev/stdin', 1048576) + b'hint: --millions 2 takes more\n'), said


def followed_on_a_terminal(place):
    """Where a run takes more than a second, a terminal says how far it is, by the end of a long path, and nothing of it is left."""
    path = 'p' * 10 + '\x1b' + 'q' * 39
    for words, pieces, read, report in FOLLOWED:
        writer = pipe_of(place, path, *pieces)
        done, said = place.on_terminal(*words, path)
        writer.join()
        os.remove(place.path(path))
        same((done.returncode, done.stdout), (0, report), '%s: ' % (words,))
        assert re.fullmatch(rb'(%s\?q{39}: %s)+%s' % (ERASE, read, ERASE), said), '%s: %r' % (words, said)


def followed_check_on_a_terminal(place):
    """A check, whose files may be of any kind, says how many bytes it has read. Nothing is left of that before a fault line."""
    for raw in (ONE_HOUR, MAKE, KINDS['gzip']):
        writer = pipe_of(place, 'slow', raw[:64], raw[64:])
        done, said = place.on_terminal('check', 'slow')
        writer.join()
        os.remove(place.path('slow'))
        wanted, is_doubtful = slow_check.section('slow', raw, fixed(0))
        same((done.returncode, done.stdout), (3 if is_doubtful else 0, wanted.encode()))
        assert re.fullmatch(rb'(%sslow: %d bytes)+%s' % (ERASE, len(raw), ERASE), said), said
    writer = pipe_of(place, 'slow', ONE_HOUR[:64], ONE_HOUR[64:])
    done, said = place.on_terminal('check', 'slow', 'gone')
    writer.join()
    same((done.returncode, done.stdout), (1, b''))
    fault = b'tally: gone: cannot be opened\nhint: gone is not there\n'
    assert re.fullmatch(rb'(%sslow: %d bytes)+%s%s' % (ERASE, len(ONE_HOUR), ERASE, fault), said), said


def followed_up_to_the_report(place):
    """The line is gone before the report is printed, and before a fault line."""
    for pieces, status, last in (((ONE_HOUR[:384], ONE_HOUR[384:]), 0, ONE),
                                 ((ONE_HOUR[:384], ONE_HOUR[384:385]), 1, b'tally: slow: torn after 1 records, 1 bytes left\n')):
        writer = pipe_of(place, 'slow', *pieces)
        done, said = place.on_terminal('ac', 'slow', is_whole=True)
        writer.join()
        os.remove(place.path('slow'))
        wanted = rb'(%sslow: %d bytes, %d records)+%s%s' % (ERASE, sum(map(len, pieces)), 2 - status, ERASE, re.escape(last))
        assert done.returncode == status and re.fullmatch(wanted, said), said


def followed_nowhere_else(place):
    """Elsewhere such a run says nothing."""
    for words, pieces, _, report in FOLLOWED:
        writer = pipe_of(place, 'slow', *pieces)
        done = place.run(*words, 'slow')
        writer.join()
        os.remove(place.path('slow'))
        same((done.returncode, done.stdout, done.stderr), (0, report, b''), '%s: ' % (words,))


CASES = (path_on_a_terminal, faulty_file_on_a_terminal, refused_word_on_a_terminal, report_on_a_terminal, hints_on_a_terminal,
         hint_on_a_path, no_hint_on_what_is_read_once, hint_on_a_file_of_another_user, hint_on_room, followed_on_a_terminal, followed_check_on_a_terminal,
         followed_up_to_the_report, followed_nowhere_else)
