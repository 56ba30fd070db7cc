"""Databases whose bytes are damaged, and journals beside them."""
import os

HEAD = 100
# The first bytes of a journal, whose change is not finished.
JOURNAL = b'\xd9\xd5\x05\xf9\x20\xa1\x63\xd7'


def bytes_of(path):
    if not os.path.exists(path):
        return b''
    with open(path, 'rb') as file:
        return file.read()


def put(path, raw):
    with open(path, 'wb') as file:
        file.write(raw)


def is_cut(r, raw):
    return raw[:r.choice((0, 1, 15, 16, HEAD - 1, HEAD, 511, 512, r.randrange(len(raw) + 1), r.randrange(len(raw) + 1)))]


def is_longer(r, raw):
    return raw + (bytes if r.random() < .5 else r.randbytes)(r.choice((1, 511, 512, 4096, 65536)))


def has_bytes_changed(r, raw):
    raw = bytearray(raw)
    for _ in range(r.choice((1, 1, 1, 2, 8)) if raw else 0):
        raw[r.choice((r.randrange(len(raw)), min(r.randrange(HEAD + 12), len(raw) - 1)))] = r.randrange(256)
    return bytes(raw)


def has_bits_flipped(r, raw):
    raw = bytearray(raw)
    for _ in range(r.choice((1, 1, 2)) if raw else 0):
        raw[r.randrange(len(raw))] ^= 1 << r.randrange(8)
    return bytes(raw)


def has_zeros(r, raw):
    size = r.choice((16, 512, 4096))
    at = r.randrange(len(raw) + 1) // size * size
    return raw[:at] + bytes(len(raw[at:at + size])) + raw[at + size:]


def is_noise(r, raw):
    return raw[:r.choice((16, HEAD, 512))] + r.randbytes(r.choice((1, 412, 4096, 100_000)))


def is_all_zeros(r, raw):
    return raw[:r.choice((16, HEAD, 512))] + bytes(r.choice((512, 4096, 1_000_000, 20_000_000)))


def is_shuffled(r, raw):
    pages = [raw[at:at + 512] for at in range(0, len(raw), 512)]
    for _ in range(r.choice((1, 2))):
        if len(pages) > 2:
            at, to = r.randrange(1, len(pages)), r.randrange(1, len(pages))
            pages[at], pages[to] = pages[to], pages[at]
    return b''.join(pages)


OF_BYTES = (is_cut, is_longer, has_bytes_changed, has_bytes_changed, has_bits_flipped, has_zeros, is_noise, is_all_zeros, is_shuffled)


def damage_bytes(r, path):
    """The database, or its log where it has one, with other bytes."""
    end = r.choice(('', '-wal')) if bytes_of(path + '-wal') else ''
    put(path + end, r.choice(OF_BYTES)(r, bytes_of(path + end)))


def damage_journal(r, path):
    put(path + '-journal', r.choice((bytes(28), bytes(1000), r.randbytes(28), JOURNAL + r.randbytes(512))))
