"""The worked rows of `-f FILE`. What is wanted was worked out by hand."""

ANN = 'ann      tty1                          1970-01-01 00:01:40 - 1970-01-01 01:01:40 (01:00)'
BOB = 'bob      tty2                          1970-01-01 00:03:20 - 1970-01-01 00:33:20 (00:30)'
CAT = 'cat      tty3                          1970-01-01 00:05:00 - 1970-01-01 00:20:00 (00:15)'
ROOT = 'root     ssh:notty    192.0.2.1        1970-01-01 00:16:40'


def sections(lines, *files):
    """The sections of `last`, each a stay and the first moment of its file."""
    return '\n'.join(lines(stay, '', 'wtmp begins ' + first) for stay, first in files)


def add_rows(row, lines, U):
    ann = U(7, 'tty1', 'ann', '-', 100) + U(8, 'tty1', '-', '-', 3700)
    bob = U(7, 'tty2', 'bob', '-', 200) + U(8, 'tty2', '-', '-', 2000)
    cat = U(7, 'tty3', 'cat', '-', 300) + U(8, 'tty3', '-', '-', 1200)
    three = {'a': ann, 'b': bob, 'c': cat}
    ann_first = (ANN, '1970-01-01 00:01:40')
    bob_first = (BOB, '1970-01-01 00:03:20')
    cat_first = (CAT, '1970-01-01 00:05:00')

    row('file-of-an-option', 'last,last -f', 'With -f alone no other file is read.', ['last', '-f', 'a'], sections(lines, ann_first), files={'a': ann})
    row('files-in-the-order-of-the-words', 'last,last -f,last -n,files', 'A file of -f stands where its word does.',
        ['last', 'b', '-f', 'a', '-n', '1', 'c'], sections(lines, bob_first, ann_first, cat_first), files=three)
    row('files-of-two-options', 'last,last -f,csv,files', 'The option may be given again, its file joined to the letter.',
        ['last', '-fc', '--csv', '-f', 'a', 'b'],
        lines('file,user,line,remote,start,start_at,begin,end,end_time,end_at,seconds',
              '1,cat,tty3,,300,1970-01-01T00:05:00+00:00,300,logout,1200,1970-01-01T00:20:00+00:00,900',
              '2,ann,tty1,,100,1970-01-01T00:01:40+00:00,100,logout,3700,1970-01-01T01:01:40+00:00,3600',
              '3,bob,tty2,,200,1970-01-01T00:03:20+00:00,200,logout,2000,1970-01-01T00:33:20+00:00,1800'), files=three)
    row('file-that-begins-with-a-dash', 'last,last -f,files', 'Joined to the letter, or after two dashes.', ['last', '-f-a', '--', '-b'],
        sections(lines, ann_first, bob_first), files={'-a': ann, '-b': bob})
    row('file-of-an-option-of-ac', 'ac,ac -p,ac -f,files', 'The letter may end a word of flags.', ['ac', '-pf', 'a', 'c'],
        lines('ann                          1.00', 'cat                          0.25', 'total                        1.25'), files=three)
    row('file-of-an-option-twice', 'ac,ac -f,files', 'With -f and without it, the file counts twice.', ['ac', '-f', 'a', 'a'],
        lines('total                        2.00'), files={'a': ann})
    row('standard-input-of-an-option', 'ac,ac -f', 'The same records on standard input, named by -f.', ['ac', '-f', '/dev/stdin'],
        lines('total                        1.00'), stdin=ann)
    row('file-of-an-option-of-lastb', 'lastb,lastb -f,files', 'Files of failed logins.', ['lastb', 'e', '-ff'],
        lines('btmp has no records', '', ROOT, '', 'btmp begins 1970-01-01 00:16:40'),
        files={'e': b'', 'f': U(6, 'ssh:notty', 'root', '192.0.2.1', 1000)})
    row('file-of-an-option-that-is-torn', 'ac,ac -f,files', 'It is named as any file is.', ['ac', 'a', '-f', 'b'], '',
        'tally: b: torn after 1 records, 16 bytes left\n', 1, {'a': ann, 'b': bob[:400]})
    row('file-of-an-option-that-is-not-there', 'last,last -f,files', 'The first in the order of the words is named.', ['last', '-f', 'b', 'c'], '',
        'tally: b: cannot be opened\n', 1, {'a': ann})
    row('files-of-options-too-many', 'ac,ac -f,files', 'Files of -f count among the 128.', ['ac', *64 * ('-f', 'a'), *65 * 'a'], '',
        'tally: 129 callers, 1 to 128 are allowed\n', 1, {'a': ann})
    row('file-of-the-203rd-word', 'ac,ac -f,files', 'The last of 101 files is read, and the others have no records.', ['ac', *100 * ('-f', 'e'), '-f', 'a'],
        lines('total                        1.00'), files={'a': ann, 'e': b''})
    row('option-without-its-file', 'last,last -f', '-f wants a file.', ['last', 'a', '-f'], '', None, 2, {'a': ann})
    row('option-in-place-of-a-file', 'last,last -f,last -n', '-n is no file.', ['last', '-f', '-n', '1', 'a'], '', None, 2, {'a': ann})
    row('file-of-an-option-of-sa', 'sa', 'sa has no -f.', ['sa', '-f', 'f'], '', None, 2, {'f': b''})
    row('file-of-an-option-of-all', 'all', 'Nor has all.', ['all', '-f', 'w:a'], '', None, 2, {'a': ann})
