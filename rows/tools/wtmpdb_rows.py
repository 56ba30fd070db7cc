"""The worked rows of databases of wtmpdb, whose rows wtmpdb_files.py has. What is wanted was worked out by hand."""
from check_rows import HEADER, Checks
from damages import JOURNAL
from tables import AUTO_VACUUM, DAMAGED, NO_TABLE, NOT_READ, UNFINISHED, UTF_16
from wtmpdb_files import BASE, BESIDE, DAY, DESCENDING, EMPTY, FEWER, INDEXED, LATE, LOG, LONG, LONGER, NONE, OTHER, VACUUMED, WIDE

BEGINS = ('', 'wtmp begins 1970-01-01 00:16:40')
SESSIONS = ('cat      tty2                          1970-01-01 02:33:20   still logged in',
            'cat      ssh          192.0.2.7        1970-01-01 02:31:40 - 1970-01-01 02:31:40 (00:00)',
            'reboot   system boot  6.12.48-amd64    1970-01-01 02:30:00   still running',
            'ann      ssh#4        192.0.2.9        1970-01-01 00:21:40 - 1970-01-01 00:36:40 (00:15)',
            'bob      ssh          192.0.2.7        1970-01-01 00:20:00 - down                (01:53)',
            'ann      tty1                          1970-01-01 00:18:20 - 1970-01-01 00:28:20 (00:10)',
            'reboot   system boot  6.12.48-amd64    1970-01-01 00:16:40 - down                (01:56)')
TOTAL = 'total                        '


def add_rows(row, lines, U):
    add_reports(row, lines, U)
    add_logs(row, lines)
    add_more(row, lines)
    add_checks(row, lines)
    add_faults(row)


def add_reports(row, lines, U):
    day = {'wtmp.db': DAY}
    row('sessions-of-a-database', 'last,database', 'Sessions and boots of wtmpdb\'s table; a line has the row\'s number where another by ssh is open. A shutdown ends the session that has no Logout, and the run level is passed over.',
        ['last', 'wtmp.db'], lines(*SESSIONS, *BEGINS), files=day)
    row('connect-time-of-a-database', 'ac -p,database', 'Whole seconds: 600 and 900 of ann, 6800 of bob up to the shutdown.', ['ac', '-p', 'wtmp.db'],
        lines('ann                          0.42', 'bob                          1.89', TOTAL + '2.31'), files=day)
    row('line-of-a-database', 'last,choice,database', 'Two sessions by ssh, the later after a shutdown; one that was open beside the first has a mark.', ['last', '--line', 'ssh', 'wtmp.db'],
        lines(SESSIONS[1], SESSIONS[4], *BEGINS), files=day)
    row('period-of-a-database', 'last,last -f,choice,moment,database', 'Who was logged in 10 seconds after the second login by ssh.', ['last', '--at', '@1310', '-f', 'wtmp.db'],
        lines(*SESSIONS[3:], *BEGINS), files=day)
    row('table-of-a-database', 'last,last -n,csv,paths,database', 'The latest session, which is open up to the last record, its own.', ['last', '--csv', '--paths', '-n', '1', 'wtmp.db'],
        lines('file,path,user,line,remote,start,start_at,begin,end,end_time,end_at,seconds',
              '1,wtmp.db,cat,tty2,,9200,1970-01-01T02:33:20+00:00,9200,still,9200,1970-01-01T02:33:20+00:00,0'), files=day)
    row('database-without-logins', 'last,database', 'A run level alone gives no record.', ['last', 'wtmp.db'], lines('wtmp has no records'), files={'wtmp.db': NONE})
    row('database-beside-a-log', 'ac,by-file,files,database', 'A host with a database, and one with login records: 8300 and 3600 seconds.', ['ac', '--by-file', 'wtmp.db', 'wtmp'],
        lines('wtmp.db:', TOTAL + '2.31', '', 'wtmp:', TOTAL + '1.00', '', TOTAL + '3.31'),
        files={**day, 'wtmp': U(7, 'tty1', 'ann', '-', 1000) + U(8, 'tty1', '-', '-', 4600)})
    row('database-beside-a-process-file', 'all,files,database', 'A login file of all may be a database.', ['all', 'w:wtmp.db', 'p:pacct'],
        lines(*SESSIONS, *BEGINS, '', TOTAL + '2.31', '', '       0         0.00re         0.00cp          0avio          0k'), files={**day, 'pacct': b''})
    row('database-in-a-pipe', 'ac,database', 'A pipe is read as records: a database in it may lack its log.', ['ac', '/dev/stdin'], '',
        'tally: /dev/stdin: torn after 2 records, 256 bytes left\n', 1, stdin=DAY)
    row('database-given-to-lastb', 'lastb,database', 'It has no failed logins, and is read as records: the first has the letters SQ as its type, 0x5153.', ['lastb', 'wtmp.db'], '',
        'tally: wtmp.db: record 0 has login type 20819\n', 1, day)


def add_logs(row, lines):
    def ac(name, about, files, hours):
        row(name, 'ac,database', about, ['ac', 'wtmp.db'], lines(TOTAL + hours), files=files)

    ac('database-with-a-log', 'The log beside the database has a later Logout: 3600 seconds.', {'wtmp.db': BASE, 'wtmp.db-wal': LOG}, '1.00')
    ac('database-without-its-log', 'The same without the log: 600 seconds.', {'wtmp.db': BASE}, '0.17')
    ac('database-with-a-cut-log', 'A commit that is not whole in the log does not count.', {'wtmp.db': BASE, 'wtmp.db-wal': LOG[:-1]}, '0.17')
    ac('database-with-an-empty-journal', 'A journal whose head has zeros alone is done with.', {'wtmp.db': BASE, 'wtmp.db-journal': bytes(512)}, '0.17')


def add_more(row, lines):
    """What else may stand in a database, which is passed over."""
    def ac(name, about, raw, *users, hours):
        row(name, 'ac,ac -p,database', about, ['ac', '-p', 'wtmp.db'], lines(*users, TOTAL + hours), files={'wtmp.db': raw})

    ann = 'ann                          0.17'
    ac('database-with-an-index', 'Two indexes, and the table that ANALYZE makes.', INDEXED, ann, hours='0.17')
    ac('database-with-more-than-a-table', 'Another table, a view and a trigger.', BESIDE, ann, hours='0.17')
    ac('database-with-a-column-more', 'A column that a later version could add; rows from before lack it.', LONGER, ann, 'bob                          0.17', hours='0.33')


def add_checks(row, lines):
    checks, ending = Checks(row, lines), ',database'
    checks.add('check-of-a-database', 'The records made of its rows: two boots and a shutdown, five logins and three logouts. The size is the file\'s.', {'wtmp.db': DAY},
               ['wtmp.db: login records of a database', 'size            1024', 'records         11',
                'types           1 RUN_LVL, 2 BOOT_TIME, 5 USER_PROCESS, 3 DEAD_PROCESS',
                'first           1970-01-01 00:16:40', 'last            1970-01-01 02:33:20', 'span            2:16:40',
                'still open      1 session, 0:00:00', 'ended by a boot 0 sessions', 'doubtful        nothing'], needs=ending)
    checks.add('check-of-a-database-without-logins', 'It gives no record, and there is nothing to doubt.', {'wtmp.db': NONE},
               ['wtmp.db: login records of a database', 'size            1024', 'doubtful        nothing'], needs=ending)
    checks.add('check-of-a-refused-database', 'Why it gives no login records stands where it is doubtful.', {'wtmp.db': LATE},
               ['wtmp.db: an SQLite database, as of wtmpdb', 'size            1024', 'doubtful        no records that are read: row 3 has a time outside 1901 to 2038'],
               3, needs=ending)
    checks.add('check-of-a-database-in-a-pipe', 'Of a pipe the bytes alone are looked at.', {},
               ['/dev/stdin: an SQLite database, as of wtmpdb', 'size            1024', 'doubtful        no records that are read'], 3, needs=ending, stdin=DAY)
    checks.add('table-of-checked-databases', 'One of wtmpdb, and one of another table.', {'wtmp.db': DAY, 'other.db': OTHER},
               [HEADER, '1,wtmpdb,1024,11,0,1,2,0,0,0,0,5,3,0,,,1000,1970-01-01T00:16:40+00:00,9200,1970-01-01T02:33:20+00:00,1,0,0,0,0,0,,0,,0,0,0,0',
                '2,sqlite,1024' + 30 * ',' + '1'], 3, needs=',csv' + ending, words=['--csv'], job={'csv': True})


def add_faults(row):
    def refused(name, about, fault, **files):
        files = {'wtmp.db' if at == 'db' else 'wtmp.db-' + at: raw for at, raw in files.items()}
        row(name, 'last,database', about, ['last', 'wtmp.db'], '', 'tally: wtmp.db: %s\n' % fault, 1, files)

    refused('unfinished-change-of-a-database', 'The journal of a writer that did not come to an end.', UNFINISHED, db=BASE, journal=JOURNAL + bytes(504))
    refused('database-of-another-table', 'A table of people.', NO_TABLE, db=OTHER)
    refused('database-of-fewer-columns', 'The table lacks the service of a session.', NO_TABLE, db=FEWER)
    refused('database-without-a-table', 'A page that lists nothing.', NO_TABLE, db=EMPTY)
    refused('cut-database', 'The first of its two pages.', DAMAGED, db=DAY[:512])
    refused('database-with-a-damaged-table', 'The page of the table has zeros alone.', NOT_READ, db=DAY[:512] + bytes(512))
    refused('database-with-an-index-of-another-order', 'Entries that descend look as damaged ones do.', NOT_READ, db=DESCENDING)
    refused('database-with-auto-vacuum', 'Its header names the largest of its root pages.', AUTO_VACUUM, db=VACUUMED)
    refused('database-in-utf-16', 'Its header has the number of this encoding.', UTF_16, db=WIDE)
    refused('long-user-in-a-database', 'A user of 33 bytes could become another when it is cut.', 'row 3 has a user of more than 32 bytes', db=LONG)
    refused('late-time-in-a-database', 'A second that 32 bits do not hold.', 'row 3 has a time outside 1901 to 2038', db=LATE)


def add_example(row, lines, example):
    row('example-logins-of-a-database', 'last,database', 'A morning of a system with wtmpdb; of two sessions by ssh that are open at one time the later has the number of its row.',
        ['last', 'morning.db'],
        lines('bob      tty1                          2026-03-02 11:55:00 - 2026-03-02 12:10:00 (00:15)',
              'reboot   system boot  6.12.48-amd64    2026-03-02 11:50:00   still running',
              'ann      tty1                          2026-03-02 10:00:00 - down                (01:45)',
              'bob      ssh#3        192.0.2.9        2026-03-02 08:30:00 - down                (03:15)',
              'ann      ssh          192.0.2.7        2026-03-02 08:00:00 - 2026-03-02 09:30:00 (01:30)',
              'reboot   system boot  6.12.48-amd64    2026-03-02 07:55:00 - down                (03:50)', '',
              'wtmp begins 2026-03-02 07:55:00'), files={'morning.db': example('morning.db')})
