"""Which hint follows the fault line of a file on a terminal: words of the command line, with files of kinds.py, and the text after `hint: `.

The texts are written out by hand. None where there is no hint.
"""

FAILED = 'may have failed logins: try tally lastb'
NOT_READ = 'which are not read'
DATABASE = 'sqlite is an SQLite database, as of wtmpdb: try tally last sqlite'
LONG = 'has login records of 400 bytes, as 64-bit ARM and s390x write them, ' + NOT_READ
BIG_LOGINS = 'logins-big has login records of a big-endian machine, ' + NOT_READ
BIG_PROCESSES = 'processes-big has process records of a big-endian machine, ' + NOT_READ
LASTLOG = 'has the last login of each user, as lastlog(8) shows it, which is not read'
SAVACCT = 'savacct has the sums by command of sa(8), as savacct keeps them, ' + NOT_READ
USRACCT = 'usracct has the sums by user of sa(8), as usracct keeps them, ' + NOT_READ

# Files that are refused.
REFUSED = (
    (('last', 'gzip'), 'gzip is packed by gzip: try zcat gzip | tally last /dev/stdin'),
    (('ac', '-d', 'xz'), 'xz is packed by xz: try xzcat xz | tally ac /dev/stdin'),
    (('sa', 'zstd'), 'zstd is packed by zstd: try zstdcat zstd | tally sa /dev/stdin'),
    (('sa', '-m', 'bzip2'), 'bzip2 is packed by bzip2: try bzcat bzip2 | tally sa /dev/stdin'),
    (('lastb', 'gzip'), 'gzip is packed by gzip: try zcat gzip | tally lastb /dev/stdin'),
    (('lastb', '--sum', 'xz'), 'xz is packed by xz: try xzcat xz | tally lastb /dev/stdin'),
    (('all', 'w:logins', 'p:gzip'), 'gzip is packed by gzip: try zcat gzip | tally all p:/dev/stdin'),
    (('all', 'w:gzip', 'p:processes'), 'gzip is packed by gzip: try zcat gzip | tally all w:/dev/stdin'),
    (('last', '-f', 'gzip'), 'gzip is packed by gzip: try zcat gzip | tally last /dev/stdin'),
    (('sa', 'sqlite'), DATABASE),
    (('lastb', 'sqlite'), DATABASE),
    (('all', 'w:logins', 'p:sqlite'), DATABASE),
    (('last', 'sqlite-torn'), None),
    (('last', 'processes'), 'processes has process records: try tally sa processes'),
    (('ac', 'logins', 'processes'), 'processes has process records: try tally sa processes'),
    (('lastb', '--sum', 'processes'), 'processes has process records: try tally sa processes'),
    (('all', 'w:processes'), 'processes has process records: try tally sa processes'),
    (('sa', 'logins'), 'logins has login records: try tally last logins'),
    (('lastb', 'logins'), 'logins has login records: try tally last logins'),
    (('all', 'p:logins'), 'logins has login records: try tally last logins'),
    (('sa', 'failed'), 'failed %s failed' % FAILED),
    (('last', 'logins400'), 'logins400 ' + LONG),
    (('ac', 'logins400-big'), 'logins400-big ' + LONG),
    (('sa', 'logins400'), 'logins400 ' + LONG),
    (('last', 'logins-big'), BIG_LOGINS),
    (('sa', 'logins-big'), BIG_LOGINS),
    (('sa', 'processes-big'), BIG_PROCESSES),
    (('ac', 'processes-big'), BIG_PROCESSES),
    (('last', 'lastlog'), 'lastlog ' + LASTLOG),
    (('sa', 'lastlog'), 'lastlog ' + LASTLOG),
    (('sa', 'savacct'), SAVACCT),
    (('last', 'savacct'), SAVACCT),
    (('sa', '-m', '-n', 'usracct'), USRACCT),
    (('ac', '-p', 'usracct'), USRACCT),
    (('sa', 'savacct-torn'), None),
    (('sa', 'usracct-bad'), None),
    (('last', 'text'), 'text is text, which is not read'),
    (('last', 'torn'), None),
    (('sa', 'zeros'), None),
    (('last', 'absent'), 'absent is not there'),
    (('sa', 'processes', 'absent/p'), 'absent/p is not there'),
    (('sa', '-m', '--names', 'absent', 'processes'), 'absent is not there'),
    (('last', '.'), '. is a folder'),
    (('check', 'absent'), 'absent is not there'),
    (('check', '--csv', 'gzip', 'absent/p'), 'absent/p is not there'),
    (('check', 'logins', '.'), '. is a folder'),
)

# Files that are read.
READ = (
    (('last', 'failed'), 'failed %s failed' % FAILED),
    (('ac', '-p', 'logins', 'failed'), 'failed %s failed' % FAILED),
    (('lastb', 'failed'), None),
    (('lastb', '--sum', 'failed'), None),
    (('all', 'w:failed'), None),
    (('last', 'logins'), None),
    (('last', 'sqlite'), None),
    (('ac', 'zeros'), None),
    (('last', 'nothing'), None),
    (('sa', 'processes'), None),
    (('check', 'logins', 'failed', 'processes', 'nothing', 'sqlite'), None),
)

# Checks that find something doubtful say so on standard output alone.
DOUBTFUL = (
    (('check', 'gzip'), None),
    (('check', 'savacct', 'torn'), None),
    (('check', 'sqlite-torn'), None),
)
