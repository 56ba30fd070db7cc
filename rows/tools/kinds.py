"""Files of each kind that `tally_kinds` tells, as other programs and machines write them, by the name of the kind.

    kinds.py FOLDER    writes them there

Nothing here knows the code: packed files and the database come from Python's own modules, records from the headers of Linux
(bits/utmp.h, linux/acct.h, lastlog.h), the frame of zstd from RFC 8878, and the sums of sa from files that GNU acct 6.6.4 wrote on x86-64.
"""
import bz2
import gzip
import lzma
import os
import sqlite3
import struct
import sys
import tempfile

from tables import INSERT, TABLE

ORDERS = {'little': '<', 'big': '>'}


def utmp(kind, line, user, host, seconds, order='little', long_times=False):
    """struct utmp: of 384 bytes, or of 400 where ut_session and ut_tv have 64 bits each (aarch64, s390x)."""
    times = struct.pack(ORDERS[order] + ('3q' if long_times else '3i'), 0, seconds, 0)
    front = struct.pack(ORDERS[order] + 'h2xi32s4s32s256s2h', kind, 4711, line, b'ts/0', user, host, 0, 0)
    record = front + times + bytes(16) + bytes(20)
    return record.ljust(400 if long_times else 384, b'\0')


def acct(comm, order='little', version=3):
    """struct acct_v3, or struct acct for version 2: 64 bytes. A big-endian machine sets the version's high bit."""
    word = version + (0x80 if order == 'big' else 0)
    if version == 3:
        return struct.pack(ORDERS[order] + 'BBH6If8H16s', 0, word, 0, 0, 1000, 1000, 9, 1, 1000000, 5.0, 1, 1, 1, 0, 0, 0, 0, 0, comm)
    return struct.pack(ORDERS[order] + 'BB3HI9H2xI17sBHII', 0, word, 0, 0, 0, 1000000, 1, 1, 5, 1, 0, 0, 0, 0, 0, 0, comm, 0, 0, 1000, 1000)


def lastlog(seconds, line, host):
    """struct lastlog, 292 bytes."""
    return struct.pack('<i32s256s', seconds, line, host)


def savacct(command, has_forked, calls, *sums):
    """An entry of savacct, 96 bytes: sa sets none of the 7 bytes after the flag."""
    return struct.pack('<16sB7sQ8d', command, has_forked, b'\0\0\0\0\0Y@', calls, *sums)


def usracct(user, calls, *sums):
    """An entry of usracct, 104 bytes."""
    return struct.pack('<32sQ8d', user, calls, *sums)


def zstd(data):
    """One frame of one raw block, without a checksum."""
    assert len(data) < 256
    return b'\x28\xb5\x2f\xfd' + bytes([0x20, len(data)]) + (1 | len(data) << 3).to_bytes(3, 'little') + data


def sqlite():
    """A database with the table of wtmpdb(8), and a session in it."""
    with tempfile.TemporaryDirectory() as folder:
        path = os.path.join(folder, 'wtmp.db')
        base = sqlite3.connect(path)
        base.execute(TABLE)
        base.execute(INSERT, (3, 'ann', 10 ** 12, None, 'tty1', 'far.example', 'login'))
        base.commit()
        base.close()
        with open(path, 'rb') as file:
            return file.read()


def sessions(**of):
    """A boot, a login and a logout, as a machine writes them."""
    return (utmp(2, b'~', b'reboot', b'', 999000, **of) + utmp(7, b'tty1', b'ann', b'far.example', 1000000, **of)
            + utmp(8, b'tty1', b'', b'', 1003600, **of))


LOG = sessions()
# Of commands the first forked and went on by itself once, another has no name; of users the second has no name but its number.
NO_USAGE = (0.0,) * 8
SAVACCT = (savacct(b'make', 0, 1, 2.4, 0.6, 3.1, 125.0, 10.0, 812.0, 0.0, 0.0) + savacct(b'make', 1, 1, 0.03, 0.03, 0.25, 50.0, 0.0, 0.0, 0.0, 0.0)
           + savacct(b'', 0, 2, *NO_USAGE) + savacct(b'***other', 0, 70000, 32.0, 2.2, 86400.0, 2050.0, 56.0, 3.0, 1.0, 0.0))
USRACCT = usracct(b'ann', 70003, 34.43, 2.83, 86403.35, 2225.0, 66.0, 815.0, 1.0, 0.0) + usracct(b'1001', 1, *NO_USAGE)
KINDS = {
    'nothing': b'',
    'gzip': gzip.compress(LOG, mtime=0),
    'xz': lzma.compress(LOG),
    'zstd': zstd(b'tally'),
    'bzip2': bz2.compress(LOG),
    'sqlite': sqlite(),
    'failed': utmp(6, b'ssh:notty', b'root', b'203.0.113.7', 1000000) + utmp(7, b':0', b'ann', b'', 1000100),
    'logins': LOG,
    'logins400': sessions(long_times=True),
    'logins400-big': sessions(long_times=True, order='big'),
    'logins-big': sessions(order='big'),
    'processes': acct(b'make') + acct(b'cc1', version=2),
    'processes-big': acct(b'make', order='big') + acct(b'cc1', order='big', version=2),
    'lastlog': lastlog(1000000, b'tty1', b'far.example') + bytes(292 * 999) + lastlog(1000000, b'tty2', b''),
    'savacct': SAVACCT,
    'usracct': USRACCT,
    'text': b'ann tty1 far.example\nna\xc3\xafve\n',
    # None of these: zeros alone, a log, a database and sums that are torn, and sums of which one is negative.
    'zeros': bytes(3840),
    'torn': LOG[:1000],
    'sqlite-torn': sqlite()[:1000],
    'savacct-torn': SAVACCT[:100],
    'usracct-bad': USRACCT + usracct(b'bob', 1, -0.05, *NO_USAGE[1:]),
}


def main():
    if len(sys.argv) != 2:
        print(__doc__, file=sys.stderr)
        return 2
    for name, data in KINDS.items():
        with open(os.path.join(sys.argv[1], name), 'wb') as file:
            file.write(data)
    return 0


if __name__ == '__main__':
    sys.exit(main())
