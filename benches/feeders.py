#!/usr/bin/env python3
"""Times runs over several files by how many feeders read them, run by run in turn.

    feeders.py [--data FOLDER] [--rounds N] [--load N] TALLY_BINARY..

    --data FOLDER    the files of make_data.py (default: bench-data in the system's temporary folder)
    --rounds N       runs of each (default 7)
    --load N         so many other programs keep a core busy meanwhile (default 0)

With several binaries each runs in each round, so that they share the machine's moods.  The control
shares nothing: a program for each of the eight files, one after the other and four at a time.
Columns: the least and the median wall time in seconds, and the least processor time (user and system).
"""
import os
import resource
import statistics
import subprocess
import sys
import tempfile
import time
from concurrent.futures import ThreadPoolExecutor


def timed(run):
    """The wall and processor seconds of what `run` starts and waits for."""
    before, start = resource.getrusage(resource.RUSAGE_CHILDREN), time.monotonic()
    run()
    wall, after = time.monotonic() - start, resource.getrusage(resource.RUSAGE_CHILDREN)
    return wall, after.ru_utime + after.ru_stime - before.ru_utime - before.ru_stime


def program(words):
    def run():
        subprocess.run(words, stdout=subprocess.DEVNULL, check=True)
    return run


def apart(binary, files, at_once):
    def run():
        with ThreadPoolExecutor(at_once) as pool:
            list(pool.map(lambda file: program([binary, 'ac', '--feeders', '1', file])(), files))
    return run


def cut(wtmp, folder, count, records):
    names = [os.path.join(folder, 'part%d.%d' % (records, number)) for number in range(count)]
    with open(wtmp, 'rb') as big:
        for name in names:
            with open(name, 'wb') as out:
                out.write(big.read(384 * records))
    return names


def main():
    words, data, rounds, load, binaries = sys.argv[1:], os.path.join(tempfile.gettempdir(), 'bench-data'), 7, 0, []
    while words:
        word = words.pop(0)
        if word == '--data':
            data = words.pop(0)
        elif word == '--rounds':
            rounds = int(words.pop(0))
        elif word == '--load':
            load = int(words.pop(0))
        elif word.startswith('-'):
            sys.exit(__doc__)
        else:
            binaries.append(os.path.abspath(word))
    if not binaries:
        sys.exit(__doc__)
    with tempfile.TemporaryDirectory() as folder:
        wtmp = os.path.join(data, 'wtmp')
        eight, forty, ten = cut(wtmp, folder, 8, 125_000), cut(wtmp, folder, 40, 5_000), cut(wtmp, folder, 1, 10)
        runs = {}
        for binary in binaries:
            name = binary if len(binaries) > 1 else 'tally'
            for feeders in ('1', '2', '4', '8'):
                runs[name, '8 files of 125,000, --feeders ' + feeders] = program([binary, 'ac', '--feeders', feeders] + eight)
            for at_once in (1, 4):
                runs[name, '8 programs, %d at a time' % at_once] = apart(binary, eight, at_once)
            for feeders in ('1', '4', '64'):
                runs[name, '40 files of 5,000, --feeders ' + feeders] = program([binary, 'ac', '--feeders', feeders] + forty)
            every = ['w:' + file for file in forty]
            runs[name, '40 files of 5,000, all, 1 feeder'] = program([binary, 'all', '--feeders', '1'] + every)
            runs[name, '40 files of 5,000, all, 64 feeders, 64 askers'] = program(
                [binary, 'all', '--feeders', '64', '--askers', '64'] + every)
            runs[name, '10 records'] = program([binary, 'ac'] + ten)
        busy = [subprocess.Popen([sys.executable, '-c', 'while True: pass']) for _ in range(load)]
        try:
            taken = {key: [] for key in runs}
            for _ in range(rounds):
                for key, run in runs.items():
                    taken[key].append(timed(run))
        finally:
            for other in busy:
                other.kill()
    for (name, what), times in taken.items():
        walls = [wall for wall, _ in times]
        print('%-10s %-46s wall %.4f, %.4f  processor %.4f' % (
            name[-10:], what, min(walls), statistics.median(walls), min(cpu for _, cpu in times)))


if __name__ == '__main__':
    main()
