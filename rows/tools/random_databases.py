"""Databases of random rows: with wtmpdb's table alone, with more beside it, and foreign ones."""
import sqlite3

from tables import AUTO_VACUUM, COLUMNS, INSERT, NO_TABLE, NOT_READ, TABLE, UTF_16


# ---- rows

def close_rows(r):
    """Rows whose times are close together, so that many are equal."""
    rows = []
    for _ in range(r.choice((0, 1, 5, 30, 200))):
        kind = r.choice((1, 2, 3, 3, 3, 3, 3, 3))
        login = r.choice((None, r.randrange(-5_000_000, 5_000_000), 1_700_000_000_000_000 + r.randrange(40) * 500_000))
        logout = None if login is None or r.random() < .3 else login + r.choice((0, 1, -1, 500_000, r.randrange(20_000_000)))
        tty = r.choice(('ssh', 'ssh', 'tty1', 'pts/0', 'ssh#2', '', 'x' * 32, 'x' * 40))
        rows.append((kind, r.choice(('ann', 'bob', 'c' * 32, '')), login, logout, tty, r.choice((None, '', '192.0.2.7', 'h' * 300)), 'sshd'))
    return rows


def long_rows(r, count):
    """Rows of a host over weeks: sessions that overlap, some open, some cut by a boot with a shutdown before it or without."""
    rows, now = [], 1_700_000_000_000_000
    for _ in range(count):
        now += r.randrange(120_000_000)
        if r.random() < .005:
            rows.append((1, 'reboot', now, None if r.random() < .3 else now + r.randrange(10 ** 11), '~', '6.12.48-amd64', None))
            continue
        tty = r.choice(('ssh', 'ssh', 'pts/%d' % r.randrange(20), 'tty%d' % r.randrange(7)))
        logout = None if r.random() < .02 else now + r.randrange(1, 3_600_000_000)
        host = '192.0.2.%d' % r.randrange(256) if tty == 'ssh' else ''
        rows.append((3, 'user%d' % r.randrange(60), now, logout, tty, host, r.choice(('sshd', 'login'))))
    return rows


def some_rows(r):
    odd = r.random()
    return long_rows(r, r.choice((10, 100, 1000))) if odd < .15 else long_rows(r, 10_000) if odd < .17 else close_rows(r)


# ---- what stands beside the table

INSERT_OTHER = "INSERT INTO other SELECT User, Login * 0.5, CAST(TTY AS BLOB), nullif(RemoteHost, '') FROM wtmp"
INSERT_MORE = INSERT.replace('Service)', 'Service, More)').replace('?)', "?, 'more')")
# Statements that may come before or after rows, none of which keeps the table from being read.
MORE = (
    ('CREATE INDEX by_login ON wtmp(Login)',), ('CREATE INDEX by_user ON wtmp(User, Login, TTY)', 'CREATE UNIQUE INDEX by_id ON wtmp(ID)'),
    ("CREATE INDEX sessions ON wtmp(Logout) WHERE Type = 3",), ('CREATE INDEX spans ON wtmp(Logout - Login)',), ('CREATE INDEX texts ON wtmp(Service COLLATE BINARY ASC)',),
    ('CREATE TABLE other(a TEXT, b REAL, c BLOB, d)', INSERT_OTHER), ('CREATE TABLE other(a, b, c, d)', 'CREATE INDEX by_all ON other(d, c, b, a)', INSERT_OTHER),
    ('CREATE TABLE other(a TEXT, b REAL, c BLOB, d, UNIQUE (a, b, c, d) ON CONFLICT REPLACE)', INSERT_OTHER), ('CREATE TABLE other(x INTEGER PRIMARY KEY AUTOINCREMENT)', 'INSERT INTO other VALUES (7)'),
    ('CREATE TABLE wtmp2(x)',), ('CREATE TABLE other(a TEXT, b REAL, c BLOB, d)', INSERT_OTHER, 'DROP TABLE other'),
    ('CREATE VIEW users AS SELECT DISTINCT User FROM wtmp',), ('CREATE TRIGGER t AFTER INSERT ON wtmp BEGIN DELETE FROM wtmp WHERE Type = 9; END',),
    ('ALTER TABLE wtmp ADD COLUMN More TEXT', INSERT_MORE), ('ALTER TABLE wtmp ADD COLUMN More REAL DEFAULT 1.5', 'ALTER TABLE wtmp ADD COLUMN Most INTEGER NOT NULL DEFAULT 3'),
    ('ALTER TABLE wtmp ADD COLUMN Span INTEGER GENERATED ALWAYS AS (Logout - Login) VIRTUAL',), ('ANALYZE',), ('CREATE INDEX by_tty ON wtmp(TTY)', 'ANALYZE'),
)
# The table's own text, with more after its columns.
TABLES = (TABLE, TABLE, TABLE, TABLE.replace(' STRICT', ''), COLUMNS + ', More TEXT) STRICT', COLUMNS + ', UNIQUE (ID, Login)) STRICT', COLUMNS + ', CHECK (Type > 0)) STRICT')


def add_rows(base, rows):
    base.execute('BEGIN')
    base.executemany(INSERT, rows)
    base.execute('COMMIT')


def add_more(r, base):
    """Adds something beside the table, which may be there already."""
    for words in r.choice(MORE):
        try:
            base.execute(words, (3, 'ann', 1_700_000_000_000_000, None, 'tty9', None, None) if words == INSERT_MORE else ())
        except sqlite3.Error:
            pass


def open_base(r, path):
    base = sqlite3.connect(path, isolation_level=None)
    base.execute('PRAGMA synchronous=OFF')
    base.execute('PRAGMA page_size=%d' % r.choice((512, 1024, 4096, 65536)))
    base.execute('PRAGMA journal_mode=%s' % r.choice(('DELETE', 'WAL')))
    return base


def make(r, path, has_more):
    """Makes a database that has to be read at path, and gives its connection."""
    base = open_base(r, path)
    if has_more and r.random() < .3:
        base.execute('CREATE TABLE first(x)')
    base.execute(r.choice(TABLES) if has_more else TABLE)
    for _ in range(r.randrange(3)):
        add_rows(base, some_rows(r))
        if r.random() < .3:
            base.execute('DELETE FROM wtmp WHERE ID % 3 = 0')
        if has_more and r.random() < .7:
            add_more(r, base)
        if r.random() < .3:
            base.execute('VACUUM')
    if has_more:
        add_more(r, base)
    return base


# ---- foreign databases

BAD_NAME = "UPDATE sqlite_schema SET name = CAST(x'78ff' AS TEXT), tbl_name = CAST(x'78ff' AS TEXT) WHERE name = 'other'"
OTHER_KEY = COLUMNS.replace('ID INTEGER PRIMARY KEY', 'ID INTEGER')
# What comes before the table, the table, what comes after it, and why it is refused, which may be read where something else stands beside its table.
FOREIGN = (
    ('PRAGMA auto_vacuum=FULL', TABLE, (), AUTO_VACUUM), ('PRAGMA auto_vacuum=INCREMENTAL', TABLE, (), AUTO_VACUUM), ("PRAGMA encoding='UTF-16le'", TABLE, (), UTF_16),
    ("PRAGMA encoding='UTF-16be'", TABLE, (), UTF_16),
    ('', TABLE.replace('wtmp', 'login', 1), (), NO_TABLE), ('', TABLE.replace('wtmp', '"wtmp"', 1), (), NO_TABLE), ('', OTHER_KEY + ') STRICT', (), NO_TABLE),
    ('', OTHER_KEY + ', PRIMARY KEY (ID)) WITHOUT ROWID, STRICT', (), NO_TABLE), ('', COLUMNS.replace(', Service TEXT', '') + ') STRICT', (), NO_TABLE),
    ('', COLUMNS.replace('Login INTEGER, Logout INTEGER', 'Logout INTEGER, Login INTEGER') + ') STRICT', (), NO_TABLE), ('', COLUMNS + ' NOT NULL) STRICT', (), NO_TABLE),
    ('', 'CREATE VIEW wtmp AS SELECT 1', (), NO_TABLE), ('CREATE TABLE wtmp2(x)', 'CREATE INDEX wtmp ON wtmp2(x)', (), NO_TABLE), ('CREATE TABLE other(x)', 'DROP TABLE other', (), NO_TABLE),
    ('', TABLE.replace(' STRICT', ' WITHOUT ROWID, STRICT'), (), NOT_READ),
    ('', TABLE, ('CREATE INDEX by_login ON wtmp(Login DESC)',), NOT_READ), ('', TABLE, ('CREATE INDEX by_user ON wtmp(User COLLATE NOCASE)', "UPDATE wtmp SET User = 'Bob' WHERE ID % 2"), NOT_READ),
    ('', TABLE, ('CREATE INDEX by_host ON wtmp(RemoteHost COLLATE RTRIM)', "UPDATE wtmp SET RemoteHost = RemoteHost || '  ' WHERE ID % 2"), NOT_READ),
    ('', TABLE, ('CREATE TABLE other(a, b, PRIMARY KEY (a, b)) WITHOUT ROWID', 'INSERT OR REPLACE INTO other SELECT Login, TTY FROM wtmp WHERE Login > 0'), NOT_READ),
    ('', TABLE, ('CREATE VIRTUAL TABLE texts USING fts5(a)', 'INSERT INTO texts SELECT User FROM wtmp'), NOT_READ), ('', TABLE, ('CREATE VIRTUAL TABLE boxes USING rtree(id, low, high)',), NOT_READ),
    ('', TABLE, ('CREATE TABLE other(x)', 'PRAGMA writable_schema=ON', BAD_NAME), NOT_READ),
)


def make_foreign(r, path):
    """Makes a database of another form at path, and says why it is refused."""
    before, table, after, why = r.choice(FOREIGN)
    base = sqlite3.connect(path, isolation_level=None)
    base.execute('PRAGMA page_size=%d' % r.choice((512, 4096)))
    base.execute(before or 'SELECT 1')
    base.execute(table)
    try:
        add_rows(base, close_rows(r) + long_rows(r, 10))
    except sqlite3.Error:
        # Another table of this name, or none: it has no such rows.
        base.rollback()
    for words in after:
        base.execute(words)
    base.close()
    return why
