#!/usr/bin/env python3
"""Times tally beside its peers on the same files, run by run in turn.

    bench.py [options] [TALLY_BINARY]       without a binary: the peers alone

    --data FOLDER    the files of make_data.py (default: bench-data in the system's temporary folder; made where missing)
    --rounds N       runs of each (default 5)
    --only TEXT,..   the lines whose name is one of these (as `ac` or `sa -m v2`)
    --feeders N      --feeders for tally (default: what tally takes by itself)
    --check          compare tally's output with floor's, byte for byte
    --markdown       tables in Markdown

Peers: GNU acct's ac and sa, util-linux's last.  `floor` is floor.c of this folder, a plain
single pass in C with the lines that tally prints; `cat` reads the file and does nothing.
All write to /dev/null; files are in the page cache.  Memory is the peak resident size.

Columns: the least wall time, then the median, the least processor time (user and system) and
the peak memory of floor, peer and tally.  `x peer` is tally's median wall time over the peer's,
`x cpu` the same of the least processor times, `x floor` tally's processor time over floor's.
"""
import os
import statistics
import subprocess
import sys
import tempfile

HERE = os.path.dirname(os.path.abspath(__file__))


def main():
    words, data, rounds, only, feeders, check, markdown, binary = sys.argv[1:], os.path.join(tempfile.gettempdir(), 'bench-data'), 5, None, None, False, False, None
    while words:
        w = words.pop(0)
        if w == '--data':
            data = words.pop(0)
        elif w == '--rounds':
            rounds = int(words.pop(0))
        elif w == '--only':
            only = words.pop(0).split(',')
        elif w == '--feeders':
            feeders = words.pop(0)
        elif w == '--check':
            check = True
        elif w == '--markdown':
            markdown = True
        elif w.startswith('-'):
            sys.exit(__doc__)
        else:
            binary = os.path.abspath(w)
    wtmp, two, three = (os.path.join(data, name) for name in ('wtmp', 'pacct2', 'pacct3'))
    if not all(os.path.exists(path) for path in (wtmp, two, three)):
        subprocess.run([sys.executable, os.path.join(HERE, 'make_data.py'), data], check=True)
    spare = tempfile.mkdtemp()
    measure, floor = os.path.join(spare, 'measure'), os.path.join(spare, 'floor')
    subprocess.run(['cc', '-O2', '-o', measure, os.path.join(HERE, 'measure.c')], check=True)
    subprocess.run(['cc', '-O2', '-o', floor, os.path.join(HERE, 'floor.c')], check=True)
    more = ['--feeders', feeders] if feeders else []

    def tally(*words):
        return [binary, words[0]] + more + list(words[1:]) if binary else None
    small = os.path.join(data, 'small')
    if not os.path.exists(small):
        with open(wtmp, 'rb') as big, open(small, 'wb') as out:
            out.write(big.read(384 * 10))
    parts = [os.path.join(data, 'wtmp.eighth%d' % i) for i in range(8)]
    if not all(os.path.exists(part) for part in parts):
        size = os.path.getsize(wtmp) // 384 // 8 * 384
        with open(wtmp, 'rb') as big:
            for part in parts:
                with open(part, 'wb') as out:
                    out.write(big.read(size))
    lines = [('ac 10 records', small, ['ac', '-f', small]), ('ac', wtmp, ['ac', '-f', wtmp]), ('ac -d', wtmp, ['ac', '-d', '-y', '-f', wtmp]),
             ('ac -p', wtmp, ['ac', '-p', '-f', wtmp]), ('ac -d -p', wtmp, ['ac', '-d', '-p', '-y', '-f', wtmp]),
             ('last', wtmp, ['last', '--time-format=iso', '-f', wtmp]),
             ('last -n 10', wtmp, ['last', '--time-format=iso', '-n', '10', '-f', wtmp])]
    for version, path in ((' v2', two), (' v3', three)):
        for flags in ((), ('-m',), ('-a',), ('-n',)):
            lines.append((' '.join(('sa',) + flags) + version, path, ['sa', '-i'] + list(flags) + [path]))
    results = []
    for name, path, peer in lines:
        if only and name not in only:
            continue
        words = name.replace(' v2', '').replace(' v3', '').replace(' 10 records', '').split()
        commands = {'peer': peer, 'floor': [floor] + words + [path], 'cat': ['cat', path]}
        if binary:
            commands['tally'] = tally(*words, path)
        if name == 'last -n 10':
            del commands['floor']
        runs = {who: [] for who in commands}
        order = list(commands)
        subprocess.run(['cat', path], stdout=subprocess.DEVNULL)
        for turn in range(rounds):
            for who in order[turn % len(order):] + order[:turn % len(order)]:
                said = subprocess.run([measure, '/dev/null'] + commands[who], stdout=subprocess.PIPE, check=True).stdout.split()
                runs[who].append((float(said[0]), float(said[1]) + float(said[2]), int(said[3]), int(said[4])))
        agrees = ''
        if check and binary and 'floor' in commands:
            a = subprocess.run(commands['tally'], stdout=subprocess.PIPE, stderr=subprocess.PIPE)
            b = subprocess.run(commands['floor'], stdout=subprocess.PIPE)
            agrees = 'same' if a.stdout == b.stdout else 'DIFFERS'
        results.append((name, runs, agrees))
        show(name, runs, agrees, markdown, first=len(results) == 1)
    if binary and not only:
        print('\ntally ac on the eight parts of wtmp, as eight hosts:')
        for n in ('1', '2', '4', '8'):
            got = []
            for _ in range(rounds):
                said = subprocess.run([measure, '/dev/null', binary, 'ac', '--feeders', n] + parts,
                                      stdout=subprocess.PIPE, check=True).stdout.split()
                got.append((float(said[0]), float(said[1]) + float(said[2]), int(said[3]) / 1024, int(said[4])))
            print('--feeders %s: least %.3f, median %.3f, processor %.3f, %.0f MB, status %d' % (
                n, min(g[0] for g in got), statistics.median(g[0] for g in got), min(g[1] for g in got),
                max(g[2] for g in got), got[0][3]), flush=True)
    for name in ('measure', 'floor'):
        os.unlink(os.path.join(spare, name))
    os.rmdir(spare)


HEAD = ['report', 'cat', 'floor', 'median', 'cpu', 'MB', 'peer', 'median', 'cpu', 'MB', 'tally', 'median', 'cpu', 'MB',
        'x peer', 'x cpu', 'x floor', 'output']
WIDTHS = [13, 6] + 3 * [6, 6, 6, 4] + [7, 7, 7, 7]


def column(runs, who):
    """Least and middle wall seconds, least processor seconds, greatest MB, statuses other than 0."""
    if who not in runs:
        return None
    return dict(best=min(r[0] for r in runs[who]), median=statistics.median(r[0] for r in runs[who]),
                cpu=min(r[1] for r in runs[who]), memory=max(r[2] for r in runs[who]) / 1024,
                failed=sorted({r[3] for r in runs[who]} - {0}))


def show(name, runs, agrees, markdown, first):
    cat, floor, peer, tally = (column(runs, who) for who in ('cat', 'floor', 'peer', 'tally'))
    parts = [name, '%.3f' % cat['best']]
    for c in (floor, peer, tally):
        if c is None:
            parts += 4 * ['']
        elif c['failed']:
            parts += ['st. %s' % c['failed'][0], '', '', '']
        else:
            parts += ['%.3f' % c['best'], '%.3f' % c['median'], '%.3f' % c['cpu'], '%.0f' % c['memory']]
    if tally and not tally['failed']:
        parts += ['%.2f' % (tally['median'] / peer['median']), '%.2f' % (tally['cpu'] / peer['cpu']),
                  '%.2f' % (tally['cpu'] / floor['cpu']) if floor else '']
    else:
        parts += 3 * ['']
    parts.append(agrees)
    if markdown:
        if first:
            print('| ' + ' | '.join(HEAD) + ' |')
            print('|' + '---|' * len(HEAD))
        print('| ' + ' | '.join(parts) + ' |', flush=True)
    else:
        if first:
            print(' '.join(h.rjust(w) for h, w in zip(HEAD, WIDTHS)))
        print(' '.join(p.rjust(w) for p, w in zip(parts, WIDTHS)), flush=True)


if __name__ == '__main__':
    main()
