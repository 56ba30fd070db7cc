"""What the bytes of record files say, slowly, from the definitions of docs/SPECIFICATION.md."""
import struct

BLOCK = 1024                      # records that are read at once
SIZES = {'w': 384, 'b': 384, 'p': 64}
VERSIONS = (2, 3)
FAILED = (0, 6, 7)                # types of login records that a file of failed logins has


class Fault(Exception):
    pass


def text_of(field):
    return field.split(b'\0')[0]


def comp(word):
    return (word % 8192) * 8 ** (word // 8192)


def elapsed(word):
    """The ticks of a word of version 3, rounded down."""
    sign, exponent, fraction = word >> 31, (word >> 23) % 256, word % 2 ** 23
    if sign or exponent == 0:
        return 0
    if exponent > 190:
        return 2 ** 64 - 1
    return (2 ** 23 + fraction) * 2 ** exponent // 2 ** 150


def login(raw, at):
    kind, = struct.unpack_from('<h', raw)
    if not 0 <= kind <= 9:
        raise Fault('record %d has login type %d' % (at, kind))
    time, = struct.unpack_from('<i', raw, 340)
    record = dict(line=text_of(raw[8:40]), user=text_of(raw[44:76]), remote=text_of(raw[76:332]), time=time)
    return dict(record, kind=kind, event=event(kind, record['line'], record['user']))


def failed_login(raw, at):
    record = login(raw, at)
    if record['kind'] not in FAILED:
        raise Fault('no file of failed logins')
    return record


def event(kind, line, user):
    if kind == 7 and user and line:
        return 'Login'
    if kind in (7, 8) and line and (kind == 8 or not user):
        return 'Logout'
    if kind == 1 and user == b'shutdown' and line[:1] == b'~':
        return 'Down'
    return {2: 'Boot', 3: 'NewTime', 4: 'OldTime'}.get(kind, 'Nothing')


def process(raw, at):
    version = raw[1]
    if version not in VERSIONS:
        raise Fault('record %d has version %d' % (at, version))
    if version == 2:
        user, system, real, mem, io = map(comp, struct.unpack_from('<5H', raw, 12))
        name, (uid,), (begin,) = raw[36:53], struct.unpack_from('<I', raw, 56), struct.unpack_from('<I', raw, 8)
    else:
        (uid,), (begin,), (word,) = (struct.unpack_from('<I', raw, offset) for offset in (8, 24, 28))
        user, system, mem, io = map(comp, struct.unpack_from('<4H', raw, 32))
        real, name = elapsed(word), raw[48:64]
    cpu = user + system
    return dict(name=text_of(name), forked=raw[0] % 2 == 1, uid=uid, begin=begin, real=real, cpu=cpu, io=io, mem_cpu=mem * cpu)


def torn(raw, size):
    return Fault('torn after %d records, %d bytes left' % (len(raw) // size, len(raw) % size))


def failed_logins_of(raw):
    """The records of a file of failed logins, or what stands first in it that is none."""
    size = SIZES['b']
    found = [failed_login(raw[size * at:size * at + size], at) for at in range(len(raw) // size)]
    if len(raw) % size:
        raise torn(raw, size)
    return found


def records_of(kind, raw):
    """The records of a file, or the fault of its first faulty block."""
    if kind == 'b':
        return failed_logins_of(raw)
    size, found = SIZES[kind], []
    for start in range(0, len(raw), BLOCK * size):
        block = raw[start:start + BLOCK * size]
        if len(block) % size:
            raise torn(raw, size)
        for at in range(0, len(block), size):
            read = login if kind == 'w' else process
            found.append(read(block[at:at + size], (start + at) // size))
    return found
