"""What rows of wtmpdb's table mean, by a slow definition that looks at the rows alone, and the rows that SQLite reads in a database.

A row is number, type, user, Login, Logout, TTY, remote host: texts as bytes, and None for what is no number or no text.
"""
import bisect
import re
import sqlite3

# What the text of the table begins with; a parenthesis or a comma follows.
COLUMNS = ('CREATE TABLE wtmp(ID INTEGER PRIMARY KEY, Type INTEGER, User TEXT NOT NULL, Login INTEGER, Logout INTEGER, TTY TEXT, '
           'RemoteHost TEXT, Service TEXT')
TABLE = COLUMNS + ') STRICT'
INSERT = 'INSERT INTO wtmp(Type, User, Login, Logout, TTY, RemoteHost, Service) VALUES (?, ?, ?, ?, ?, ?, ?)'
ROWS = 'SELECT %s FROM wtmp NOT INDEXED ORDER BY rowid' % ', '.join("CASE typeof(%s) WHEN '%s' THEN %s END" % (name, kind, name) for name, kind in (
    ('ID', 'integer'), ('Type', 'integer'), ('User', 'text'), ('Login', 'integer'), ('Logout', 'integer'), ('TTY', 'text'), ('RemoteHost', 'text')))
LOGOUT, DOWN, BOOT, LOGIN, LOGOUT_AT_ONCE = range(5)
HOW = {LOGOUT: 'logout', LOGOUT_AT_ONCE: 'logout', DOWN: 'down', BOOT: 'crash'}
OWN = (LOGOUT, LOGOUT_AT_ONCE)
MICROS = 10 ** 6

# Why a database has no report.
REMEDY = ", run sqlite3 OLD '.dump wtmp' | sqlite3 NEW"
DAMAGED = 'a damaged database'
NO_TABLE = 'no table of wtmpdb'
NOT_READ = DAMAGED + ', or one with a table or an index that is not read' + REMEDY
AUTO_VACUUM = 'a database with auto-vacuum' + REMEDY
UTF_16 = 'a database in UTF-16' + REMEDY
UNFINISHED = 'an unfinished change, run wtmpdb once'
CHANGING = 'changes while it is read'


# ---- what rows mean

def is_session(row):
    return row[1] == 3 and row[3] is not None and bool(row[2]) and row[2][:1] != b'\0' and bool(row[5]) and row[5][:1] != b'\0'


def is_boot(row):
    return row[1] == 1 and row[3] is not None


def cut(text, size):
    """What a field of so many bytes keeps of a text."""
    return (text or b'').split(b'\0')[0][:size]


def shown(text):
    return ''.join(chr(byte) if 0x20 <= byte <= 0x7E else '?' for byte in text)


def fault(rows):
    """Why the rows have no report, if that is so: the first row with such a fault."""
    for row in filter(lambda row: is_session(row) or is_boot(row), rows):
        if is_session(row) and len(row[2]) > 32:
            return 'row %d has a user of more than 32 bytes' % row[0]
        if any(time is not None and not -2 ** 31 <= time // MICROS < 2 ** 31 for time in row[3:5]):
            return 'row %d has a time outside 1901 to 2038' % row[0]
    return None


def sessions_of(rows):
    """Where each session begins and ends, in the order of what happens, with its row; None for an end that is not there. And boots and shutdowns."""
    boots = list(filter(is_boot, rows))
    halts = sorted([(row[3], BOOT) for row in boots] + [(max(row[3], row[4]), DOWN) for row in boots if row[4] is not None])
    found = []
    for place, row in enumerate(rows):
        if not is_session(row):
            continue
        login, logout = row[3:5]
        ends = halts[bisect.bisect_right(halts, (login, LOGIN)):][:1]
        if logout is not None:
            ends.append((logout, LOGOUT) if logout > login else (login, LOGOUT_AT_ONCE))
        found.append(((login, LOGIN, place), min(ends) if ends else None, row))
    return sorted(found, key=lambda session: session[0]), halts


def line_of(begin, row, others):
    """A line has a mark where an earlier session on its text is open, and where its text could be such a line."""
    is_taken = any(other < begin and (end is None or end > begin[:2]) for other, end in others)
    text = cut(row[5], 32)
    mark = b'#%d' % row[0] if is_taken or b'#' in text else b''
    return text[:32 - len(mark)] + mark


def seconds_of(sessions, halts):
    """The second of each login record: of boots and shutdowns, logins, and the logouts that end a session."""
    moments = [*halts, *(begin for begin, _, _ in sessions), *(end for _, end, _ in sessions if end and end[1] in OWN)]
    return [moment[0] // MICROS for moment in moments]


def span_of(session, last):
    """The seconds from which and up to which a session is; what is open counts up to the last record."""
    begin, end, _ = session
    return begin[0] // MICROS, end[0] // MICROS if end else last


def wanted(rows):
    """What is listed of each session, and the seconds of all."""
    sessions, halts = sessions_of(rows)
    same = {}
    for begin, end, row in sessions:
        same.setdefault(cut(row[5], 32), []).append((begin, end))
    last = max(seconds_of(sessions, halts), default=0)
    listed, seconds = [], 0
    for session in sessions:
        begin, end, row = session
        start, stop = span_of(session, last)
        line = line_of(begin, row, same[cut(row[5], 32)])
        listed.append((shown(cut(row[2], 32)), shown(line), shown(cut(row[6], 256)), start, HOW[end[1]] if end else 'still', stop))
        seconds += stop - start
    return sorted(listed), seconds


def counted(rows):
    """What a check counts: login records by type, the first and the last second, and how many sessions are open or ended by a boot, with their seconds."""
    sessions, halts = sessions_of(rows)
    times = seconds_of(sessions, halts)
    ends = [end and end[1] for _, end, _ in sessions]
    types = {1: sum(what == DOWN for _, what in halts), 2: sum(what == BOOT for _, what in halts), 7: len(ends), 8: sum(end in OWN for end in ends)}
    spans = [span_of(session, max(times)) for session in sessions]
    weighing = [[stop - start for (start, stop), end in zip(spans, ends) if end == how] for how in (None, BOOT)]
    return types, sorted(times)[:1] + sorted(times)[-1:], [(len(seconds), sum(seconds)) for seconds in weighing]


# ---- what SQLite reads

# What SQLite says of values and of an index beside the table, at which the table is looked at as before.
OF_VALUES = re.compile(r'(NULL|non-\w+|NUMERIC|TEXT|numeric) value in |row \d+ missing from index |wrong # of entries in index |non-unique entry in index |CHECK constraint failed')


def is_table(kind, name, text):
    return (kind, name) == (b'table', b'wtmp') and (text or b'').startswith(COLUMNS.encode()) and text[len(COLUMNS):len(COLUMNS) + 1] in (b')', b',')


def read(path):
    """The rows of the table as SQLite reads them in a database. In their place DAMAGED where it does not, or finds more unsound than values, and
    NO_TABLE where there is none."""
    base = sqlite3.connect(path)
    base.text_factory = bytes
    try:
        # A view or a trigger of which SQLite can make nothing is passed over so.
        base.execute('PRAGMA writable_schema=ON')
        said = base.execute('PRAGMA integrity_check').fetchall()
        if said != [(b'ok',)] and not all(OF_VALUES.match(line.decode('latin1')) for line, in said):
            return DAMAGED
        if not any(is_table(*entry) for entry in base.execute('SELECT type, name, sql FROM sqlite_schema').fetchall()):
            return NO_TABLE
        return base.execute(ROWS).fetchall()
    except (sqlite3.Error, OverflowError, UnicodeDecodeError):
        return DAMAGED
    finally:
        base.close()
