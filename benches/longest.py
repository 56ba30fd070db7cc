#!/usr/bin/env python3
"""Times tally on the longest login records: each text fills its field, and each record has names of its own.

    longest.py [--records N] [--rounds N] TALLY_BINARY..       (default: 1000000 and 5)

Each session is on a line and by a user of its own from a host of its own, all of full length. With several binaries they are
run in turn, so that one machine's hour is shared. Times are the least processor seconds, memory is the greatest peak; `bytes a
record` is what the peak of ac exceeds that of one record by.
"""
import os
import struct
import subprocess
import sys
import tempfile

HERE = os.path.dirname(os.path.abspath(__file__))
LOGIN_RECORD = struct.Struct('<hhi32s4s32s256shhiii36x')
REPORTS = (['ac'], ['ac', '-p'], ['ac', '-d'], ['last'], ['last', '-n', '10'])


def text(n, width):
    """A text of so many bytes without a NUL, another for each number."""
    return b'%0*d' % (width, n)


def write_records(path, count):
    with open(path, 'wb') as out:
        for i in range(count // 2):
            line, user = text(i, 32), text(i * 7919, 32)
            for kind, who, time in ((7, user, i), (8, user, i + 60)):
                out.write(LOGIN_RECORD.pack(kind, 0, 1, line, b'', who, text(i, 256), 0, 0, 0, time, 0))


def measured(measure, words):
    said = subprocess.run([measure, '/dev/null'] + words, stdout=subprocess.PIPE, check=True).stdout.split()
    if int(said[4]):
        sys.exit('%s: status %d' % (' '.join(words), int(said[4])))
    return float(said[1]) + float(said[2]), int(said[3])


def main():
    words, count, rounds = sys.argv[1:], 1000000, 5
    while words and words[0] in ('--records', '--rounds'):
        name, number = words.pop(0), int(words.pop(0))
        count, rounds = (number, rounds) if name == '--records' else (count, number)
    if not words:
        sys.exit(__doc__)
    with tempfile.TemporaryDirectory() as folder:
        measure, many, one = (os.path.join(folder, name) for name in ('measure', 'many', 'one'))
        subprocess.run(['cc', '-O2', '-o', measure, os.path.join(HERE, 'measure.c')], check=True)
        write_records(many, count)
        with open(many, 'rb') as source, open(one, 'wb') as out:
            out.write(source.read(384))
        for report in REPORTS:
            runs = {binary: [] for binary in words}
            for _ in range(rounds):
                for binary in words:
                    runs[binary].append(measured(measure, [binary] + report + [many]))
            for binary in words:
                seconds, peak = min(r[0] for r in runs[binary]), max(r[1] for r in runs[binary])
                more = (peak - measured(measure, [binary] + report + [one])[1]) * 1024 / count
                print('%-12s %-40s %.3f s %6.0f MB %6.0f bytes a record' % (' '.join(report), binary, seconds, peak / 1024, more), flush=True)


main()
