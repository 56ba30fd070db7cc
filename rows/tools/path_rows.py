"""The worked rows of `--paths` on `last`, `lastb` and `sa`. What is wanted was worked out by hand, and has to be what slow.py gives, which
knows nothing of the program. Those of `ac` stand beside its other tables, in connect_by_file_rows.py.

The column `path` stands after the number of a file, and has the word of the command line as it was given.
"""
import os

import slow
from by_file_rows import F_ROWS, G_ROWS, PASSWD
from choices import NO_TABLE, NO_TABLE_BY_FILE, NO_USER, PATHS_OF_SUMS
from moments import no_form

STAYS = 'file,path,user,line,remote,start,start_at,begin,end,end_time,end_at,seconds'
ATTEMPTS = 'file,path,user,line,remote,time,at'
COMMANDS = 'file,path,command,forked,other,calls,real_ticks,cpu_ticks,io,mem_cpu'
USERS = 'file,path,uid,calls,real_ticks,cpu_ticks,io,mem_cpu'
NAMED_USERS = 'file,path,uid,name,calls,real_ticks,cpu_ticks,io,mem_cpu'

ANN = 'ann,tty1,,100,1970-01-01T00:01:40+00:00,100,logout,3700,1970-01-01T01:01:40+00:00,3600'
BOB = 'bob,tty2,,200,1970-01-01T00:03:20+00:00,200,logout,2000,1970-01-01T00:33:20+00:00,1800'
ROOT = 'root,ssh:notty,192.0.2.1,1000,1970-01-01T00:16:40+00:00'
CID = 'cid,ssh:notty,192.0.2.7,1060,1970-01-01T00:17:40+00:00'

KINDS = {'last': 'w', 'lastb': 'b', 'sa': 'p'}


class Paths:
    """Adds rows of tables with paths, whose texts are as the definitions of slow.py have them."""

    def __init__(self, row, lines, files):
        self.row, self.lines, self.files = row, lines, files

    def add(self, command, name, about, job, words, paths, by_hand, needs='', files=None, stdin=None):
        """`job` is what is asked for besides the table and the paths, and `words` all options."""
        names = [os.path.normpath(path) for path in paths if path != '/dev/stdin']
        files, text = files or {path: self.files[path] for path in names}, self.lines(*by_hand)
        read, asked = {**files, '/dev/stdin': stdin}, dict(job, command=command, csv=True, paths=True)
        named = {'passwd': PASSWD} if '--names' in words else {}
        status, wanted, said = slow.output(asked, [(KINDS[command], path, read[os.path.normpath(path)]) for path in paths])
        assert (status, said, wanted) == (0, '', text), (name, said, wanted)
        self.row(name, command + ',csv,paths' + ',files' * (len(paths) > 1) + needs, about, [command, *words, *paths], text,
                 files={**files, **named}, stdin=stdin)


def add_rows(row, lines, U, A):
    one = A(0, 1000, 120, 60, 600, 500, 1000, 'make')
    files = {'a': U(7, 'tty1', 'ann', '-', 100) + U(8, 'tty1', '-', '-', 3700), 'b': U(7, 'tty2', 'bob', '-', 200) + U(8, 'tty2', '-', '-', 2000),
             'c': U(7, 'tty3', 'cat', '-', 300) + U(8, 'tty3', '-', '-', 1200), 'e': b'',
             'r': U(6, 'ssh:notty', 'root', '192.0.2.1', 1000), 's': U(6, 'ssh:notty', 'cid', '192.0.2.7', 1060) + U(6, 'ssh:notty', 'root', '192.0.2.1', 1000),
             'f': one + 2 * A(1, 1000, 60, 0, 60, 200, 3, 'make'), 'g': one}
    tables = Paths(row, lines, files)
    add_stays(tables)
    add_attempts(tables)
    add_usage(tables)
    add_refusals(row, files)


def add_stays(tables):
    files = tables.files

    def last(name, about, paths, by_hand, words=('--csv', '--paths'), needs='', job=None, **others):
        tables.add('last', name, about, job or {}, words, paths, by_hand, needs, **others)

    last('paths-of-stays', 'The path stands after the number, as the word has it.', ['./a', 'b'], [STAYS, '1,./a,' + ANN, '2,b,' + BOB])
    last('path-of-one-file', 'So with one file.', ['a'], [STAYS, '1,a,' + ANN])
    last('path-of-a-file-twice', 'Each time that it is named.', ['a', 'b', './a'], [STAYS, '1,a,' + ANN, '2,b,' + BOB, '3,./a,' + ANN])
    last('paths-beside-an-empty-file', 'A file without a stay has no row.', ['b', 'e', 'a'], [STAYS, '1,b,' + BOB, '3,a,' + ANN])
    last('paths-of-no-stays', 'The header alone.', ['e'], [STAYS])
    last('path-of-standard-input', 'The word as it was given.', ['/dev/stdin'], [STAYS, '1,/dev/stdin,' + ANN], stdin=files['a'])
    last('path-in-a-folder', 'With its folders.', ['logs/2026/a', './logs/../logs/b'], [STAYS, '1,logs/2026/a,' + ANN, '2,./logs/../logs/b,' + BOB],
         files={'logs/2026/a': files['a'], 'logs/b': files['b']})
    last('paths-with-marks', 'A path with a comma or a quote stands in quotes; a byte that does not print is a question mark.', ['a,"b', 'b\x1b\t\x7f', ' a'],
         [STAYS, '1,"a,""b",' + ANN, '2,b???,' + BOB, '3, a,' + ANN], files={'a,"b': files['a'], 'b\x1b\t\x7f': files['b'], ' a': files['a']})
    last('path-with-a-carriage-return', 'It begins no row.', ['a\rb'], [STAYS, '1,a?b,' + ANN], files={'a\rb': files['a']})
    long = '/'.join(1000 * ['.'] + ['a'])
    last('long-path-of-stays', 'A path of 2,001 bytes stands whole.', [long], [STAYS, '1,%s,%s' % (long, ANN)])
    last('most-files-with-paths', 'Numbers up to 128.', 127 * ['e'] + ['a'], [STAYS, '128,a,' + ANN])
    last('paths-of-stays-within', 'In a period too. An hour from 00:31:40 on has half an hour of ann and 100 seconds of bob.', ['c', 'b', 'a'],
         [STAYS + ',within', '2,b,' + BOB + ',100', '3,a,' + ANN + ',1800'], ('--paths', '--csv', '--from', '@1900', '--to', '@5500'), ',choice',
         {'from': '@1900', 'to': '@5500'})
    last('paths-of-no-stays-within', 'The header with both.', ['a'], [STAYS + ',within'], ('--csv', '--paths', '--from', '@3700'), ',choice', {'from': '@3700'})
    last('paths-of-the-latest-stays', 'The latest of each file.', ['d', 'b'], [STAYS, '1,d,bob,tty2,,200,1970-01-01T00:03:20+00:00,200,logout,2000,1970-01-01T00:33:20+00:00,1800', '2,b,' + BOB],
         ('--csv', '--paths', '-n', '1'), ',last -n', {'limit': 1}, files={'d': files['a'] + files['b'], 'b': files['b']})
    last('paths-of-a-users-stays', 'Of the stays that are asked for.', ['b', 'a'], [STAYS, '2,a,' + ANN], ('--csv', '--paths', '--user', 'ann'), ',choice', {'user': [b'ann']})
    tables.row('path-of-an-option', 'last,csv,paths,last -f,files', 'A file of -f, joined to its letter or after it.', ['last', '-fb', '--csv', '--paths', '-f', './a', 'c'],
               tables.lines(STAYS, '1,b,' + BOB, '2,./a,' + ANN, '3,c,cat,tty3,,300,1970-01-01T00:05:00+00:00,300,logout,1200,1970-01-01T00:20:00+00:00,900'),
               files={name: files[name] for name in 'abc'})


def add_attempts(tables):
    files = tables.files

    def lastb(name, about, paths, by_hand, words=('--csv', '--paths'), needs='', job=None, **others):
        tables.add('lastb', name, about, job or {}, words, paths, by_hand, needs, **others)

    lastb('paths-of-attempts', 'Of the failed logins of two files.', ['r', 's'], [ATTEMPTS, '1,r,' + ROOT, '2,s,' + ROOT, '2,s,' + CID])
    lastb('paths-of-attempts-beside-an-empty-file', 'A file without a failed login has no row.', ['e', './s'], [ATTEMPTS, '2,./s,' + ROOT, '2,./s,' + CID])
    lastb('paths-of-no-attempts', 'The header alone.', ['e'], [ATTEMPTS])
    lastb('paths-of-attempts-with-marks', 'A path with a comma, a quote and a byte that does not print.', ['r, "x"', 'r\x07'],
          [ATTEMPTS, '1,"r, ""x""",' + ROOT, '2,r?,' + ROOT], files={'r, "x"': files['r'], 'r\x07': files['r']})
    lastb('paths-of-attempts-in-folders', 'Files of the same name in two folders.', ['one/btmp', 'two/btmp'],
          [ATTEMPTS, '1,one/btmp,' + ROOT, '2,two/btmp,' + ROOT, '2,two/btmp,' + CID], files={'one/btmp': files['r'], 'two/btmp': files['s']})
    lastb('path-of-attempts-from-standard-input', 'The word as it was given.', ['/dev/stdin'], [ATTEMPTS, '1,/dev/stdin,' + ROOT], stdin=files['r'])
    lastb('paths-of-the-latest-attempts', 'The latest of each file.', ['s', 'r'], [ATTEMPTS, '1,s,' + ROOT, '2,r,' + ROOT], ('-n', '1', '--csv', '--paths'), ',lastb -n',
          {'limit': 1})
    lastb('paths-of-attempts-in-a-period', 'Of those that are asked for.', ['r', 's'], [ATTEMPTS, '2,s,' + CID], ('--paths', '--csv', '--from', '@1001'), ',choice',
          {'from': '@1001'})
    moved = 'root,ssh:notty,192.0.2.1,1000,1970-01-01T01:16:40+01:00'
    lastb('paths-of-attempts-an-hour-east', 'By the clock that is asked for.', ['r'], [ATTEMPTS, '1,r,' + moved], ('--csv', '--paths', '--east', '60'), ',offset', {'east': 60})


def add_usage(tables):
    files = tables.files

    def sa(name, about, paths, by_hand, words=(), needs='', job=None, **others):
        tables.add('sa', name, about, dict(job or {}, **{'by-file': True}), ['--by-file', '--csv', '--paths', *words], paths, by_hand, ',by-file' + needs, **others)

    sa('paths-of-commands', 'The path of each file before its commands.', ['./f', 'g'],
       [COMMANDS, *['1,./f,' + row for row in F_ROWS], *['2,g,' + row for row in G_ROWS]])
    sa('paths-of-users', 'And before its users.', ['g', 'f'], [USERS, '1,g,1000,1,600,180,1000,90000', '2,f,1000,3,720,300,1006,114000'], ['-m'], ',sa -m', {'m': True})
    sa('paths-of-users-by-name', 'With their names.', ['f'], [NAMED_USERS, '1,f,1000,ann,3,720,300,1006,114000'], ['-m', '--names', 'passwd'], ',sa -m,names',
       {'m': True, 'names': ('passwd', PASSWD)})
    sa('paths-of-no-commands', 'The header alone.', ['e', 'e'], [COMMANDS])
    sa('paths-of-no-users-by-name', 'So with names.', ['e'], [NAMED_USERS], ['-m', '--names', 'passwd'], ',sa -m,names', {'m': True, 'names': ('passwd', PASSWD)})
    sa('paths-of-commands-beside-an-empty-file', 'A file without a process has no row.', ['e', 'g'], [COMMANDS, *['2,g,' + row for row in G_ROWS]])
    sa('paths-of-commands-with-marks', 'A path with a comma, a quote and a byte that does not print.', ['g,"\x1b'], [COMMANDS, *['1,"g,""?",' + row for row in G_ROWS]],
       files={'g,"\x1b': files['g']})


def add_refusals(row, files):
    def refuse(name, about, words, said, file='a', needs=''):
        row(name, words[0] + ',paths' + needs, about, [*words, file], '', said, 2, {file: files[file]})

    refuse('paths-without-a-table', 'The lines of last are of the file above which they stand.', ['last', '--paths'], NO_TABLE)
    refuse('paths-of-attempts-without-a-table', 'So are those of lastb.', ['lastb', '--paths'], NO_TABLE, 'r')
    refuse('paths-of-sums', 'A sum of failed logins is over all files.', ['lastb', '--csv', '--paths', '--sum'], PATHS_OF_SUMS, 'r', ',csv')
    refuse('paths-of-sums-without-a-table', 'What is missing is said first.', ['lastb', '--sum', '--paths'], NO_TABLE, 'r')
    refuse('paths-of-connect-of-all-files', 'So is connect time, unless it is by file.', ['ac', '--csv', '--paths'], NO_TABLE_BY_FILE, needs=',csv')
    refuse('paths-of-connect-without-a-table', 'By file a report has the path above it.', ['ac', '--paths', '--by-file'], NO_TABLE_BY_FILE, needs=',by-file')
    refuse('paths-of-connect-alone', 'Nor is it a table by file.', ['ac', '-p', '--paths'], NO_TABLE_BY_FILE, needs=',ac -p')
    refuse('paths-of-commands-of-all-files', 'Usage of all files has no path.', ['sa', '--csv', '--paths'], NO_TABLE_BY_FILE, 'f', ',csv')
    refuse('paths-of-commands-without-a-table', 'By file a report has the path above it.', ['sa', '--by-file', '--paths'], NO_TABLE_BY_FILE, 'f', ',by-file')
    refuse('paths-of-users-of-all-files', 'Nor has usage by user.', ['sa', '-m', '--csv', '--paths'], NO_TABLE_BY_FILE, 'f', ',sa -m,csv')
    refuse('paths-before-moments', 'Of paths and a moment the paths are refused.', ['last', '--at', 'noon', '--paths'], NO_TABLE, needs=',choice')
    refuse('moments-after-paths', 'Where there is a table, the moment.', ['last', '--at', 'noon', '--csv', '--paths'], no_form('at'), needs=',csv,choice')
    refuse('names-before-paths', 'Of a name and paths the name is refused.', ['last', '--paths', '--user', ''], NO_USER, needs=',choice')
    refuse('paths-twice', 'An option that is said twice.', ['last', '--csv', '--paths', '--paths'], None, needs=',csv')
    refuse('paths-with-a-value', 'It takes no value.', ['last', '--csv', '--paths=a'], None, needs=',csv')
    row('paths-of-all', 'all', 'All reports are text alone.', ['all', '--paths', 'w:a'], '', None, 2, {'a': files['a']})
