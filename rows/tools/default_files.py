"""Runs without a file, where the program's root is a folder of the test: which file is read then.

Where another root may not be taken, as only root may, the case is left out, and said. What is wanted is written out by hand.
"""
import os
import shutil
import subprocess

from make import MAKE, ONE_HOUR, ONE_HOUR_LAST, SA_FORKED, SA_NOTHING, SA_OTHER, SA_TOTAL, SA_USERS, TOTAL_ONE, U, lines
from places import Root, same
from wtmpdb_files import BASE, LOG

WTMP, BTMP = 'var/log/wtmp', 'var/log/btmp'
# Where login records stand on a system without wtmp.
WTMPDB = 'var/lib/wtmpdb/wtmp.db'
# Where Debian keeps process records, and where Red Hat does.
DEBIAN, RED_HAT = 'var/log/account/pacct', 'var/account/pacct'
NAMED = 'var/named'
TWO_HOURS = U(7, 'tty1', 'bob', '-', 2000000) + U(8, 'tty1', '-', '-', 2007200)
ATTEMPTS = U(6, 'tty1', 'ann', '-', 60) + U(6, 'tty1', 'ann', '-', 120)
LASTB = lines('ann      tty1                          1970-01-01 00:02:00',
              'ann      tty1                          1970-01-01 00:01:00', '', 'btmp begins 1970-01-01 00:01:00')
COMMANDS = lines(SA_TOTAL, SA_OTHER, SA_FORKED)
TWO_HOURS_LAST = lines('bob      tty1                          1970-01-24 03:33:20 - 1970-01-24 05:33:20 (02:00)', '',
                       'wtmp begins 1970-01-24 03:33:20')
ALL_FILES = {WTMP: ONE_HOUR, BTMP: ATTEMPTS, DEBIAN: MAKE}

# The files that are there, the words, and the report.
READ = (
    (ALL_FILES, ('last',), ONE_HOUR_LAST),
    (ALL_FILES, ('ac',), TOTAL_ONE),
    (ALL_FILES, ('lastb',), LASTB),
    (ALL_FILES, ('sa',), COMMANDS),
    (ALL_FILES, ('sa', '-m'), SA_USERS),
    (ALL_FILES, ('sa', '--by-file'), lines('/var/log/account/pacct:', SA_TOTAL, SA_OTHER, SA_FORKED, '', SA_TOTAL, SA_OTHER, SA_FORKED)),
    (ALL_FILES, ('ac', '--by-file'), '/var/log/wtmp:\n' + TOTAL_ONE + '\n' + TOTAL_ONE),
    (ALL_FILES, ('ac', '--by-file', '--csv', '--paths'), lines('file,path,seconds', '1,/var/log/wtmp,3600')),
    (ALL_FILES, ('lastb', '--csv', '--paths', '-n', '1'), lines('file,path,user,line,remote,time,at', '1,/var/log/btmp,ann,tty1,,120,1970-01-01T00:02:00+00:00')),
    ({RED_HAT: MAKE}, ('sa',), COMMANDS),
    ({WTMPDB: BASE}, ('ac',), lines('total                        0.17')),
    ({WTMPDB: BASE, WTMPDB + '-wal': LOG}, ('ac',), TOTAL_ONE),
    ({WTMPDB: BASE, BTMP: ATTEMPTS}, ('last',), lines('ann      tty1                          1970-01-01 00:18:20 - 1970-01-01 00:28:20 (00:10)',
                                                      'reboot   system boot  6.12.48-amd64    1970-01-01 00:16:40 - down                (01:56)', '',
                                                      'wtmp begins 1970-01-01 00:16:40')),
    ({WTMPDB: BASE}, ('ac', '--by-file', '--csv', '--paths'), lines('file,path,seconds', '1,/var/lib/wtmpdb/wtmp.db,600')),
    # Of two the first is read, even if it has nothing.
    ({DEBIAN: MAKE, RED_HAT: b''}, ('sa',), COMMANDS),
    ({DEBIAN: b'', RED_HAT: MAKE}, ('sa',), SA_NOTHING),
    ({WTMP: ONE_HOUR, WTMPDB: BASE}, ('ac',), TOTAL_ONE),
    ({WTMP: b'', WTMPDB: BASE}, ('ac',), lines('total                        0.00')),
    ({WTMPDB: BASE, BTMP: ATTEMPTS}, ('lastb',), LASTB),
    # A file that is named is read alone.
    ({WTMPDB: BASE, NAMED: TWO_HOURS}, ('last', NAMED), TWO_HOURS_LAST),
    ({WTMP: ONE_HOUR, NAMED: TWO_HOURS}, ('last', NAMED), TWO_HOURS_LAST),
    ({WTMP: ONE_HOUR, NAMED: TWO_HOURS}, ('last', '-f', NAMED), TWO_HOURS_LAST),
    ({WTMP: ONE_HOUR, NAMED: TWO_HOURS}, ('ac', '-f' + NAMED), lines('total                        2.00')),
    ({DEBIAN: b'', NAMED: MAKE}, ('sa', NAMED), COMMANDS),
)
# Where the file is not there, or is of another kind: the files, the words, and the fault line. On a terminal a hint follows.
REFUSED = (
    ({BTMP: ATTEMPTS, DEBIAN: MAKE}, ('last',), '/var/log/wtmp: cannot be opened', '/var/log/wtmp is not there'),
    ({BTMP: ATTEMPTS, DEBIAN: MAKE}, ('ac', '-d'), '/var/log/wtmp: cannot be opened', '/var/log/wtmp is not there'),
    ({WTMP: ONE_HOUR, DEBIAN: MAKE}, ('lastb', '--sum'), '/var/log/btmp: cannot be opened', '/var/log/btmp is not there'),
    ({WTMP: ONE_HOUR, BTMP: ATTEMPTS}, ('sa',), '/var/log/account/pacct: cannot be opened', '/var/log/account/pacct is not there'),
    ({WTMPDB: b'', WTMP + '/wtmp': ONE_HOUR}, ('ac',), '/var/log/wtmp: read failed', '/var/log/wtmp is a folder'),
    ({RED_HAT + '/pacct': MAKE}, ('sa',), '/var/account/pacct: read failed', '/var/account/pacct is a folder'),
    ({DEBIAN: ONE_HOUR}, ('sa', '-m'), '/var/log/account/pacct: record 0 has version 0',
     '/var/log/account/pacct has login records: try tally last /var/log/account/pacct'),
)


def with_files(root, files):
    """The root, with these files below var/ and no others."""
    shutil.rmtree(root.path('var'), ignore_errors=True)
    for path, data in files.items():
        root.put(path, data)
    return root


def files_of_the_system(place):
    """Without FILE a report reads the file of its peer: of the two of process records the first, unless only the other is there."""
    os.mkdir(place.path('root'))
    root = Root(place.binary, os.path.join(place.folder, 'root'))
    try:
        root.run('--version')
    except subprocess.SubprocessError:
        print('  left out, since another root may not be taken here')
        return
    for files, words, wanted in READ:
        done = with_files(root, files).run(*words)
        same((done.returncode, done.stdout, done.stderr), (0, wanted.encode(), b''), '%s: ' % (words,))
    for files, words, fault, hint in REFUSED:
        done, fault = with_files(root, files).run(*words), b'tally: %s\n' % fault.encode()
        same((done.returncode, done.stdout, done.stderr), (1, b'', fault), '%s: ' % (words,))
        done, said = root.on_terminal(*words)
        same((done.returncode, done.stdout, said), (1, b'', fault + b'hint: %s\n' % hint.encode()), '%s: ' % (words,))


def no_file_of_all(place):
    """A report of all has no such file, and is refused as a mistaken command line."""
    done = place.run('all')
    same((done.returncode, done.stdout), (2, b''))


CASES = (files_of_the_system, no_file_of_all)
