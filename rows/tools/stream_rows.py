"""The worked rows of closed standard streams. What is wanted was worked out by hand."""

BESIDE = 'A file and standard input, with '


def add_rows(row, lines, one_hour, total):
    files = {'f': one_hour}
    for name, closed, about, stdout, stderr in (
            ('standard-input-beside-a-file', None, 'all streams open.', lines('total                        2.00'), ''),
            ('closed-input', '0', 'input closed: no file stands in for it.', '', 'tally: /dev/stdin: read failed\n'),
            ('closed-output', '1', 'output closed.', '', 'tally: write failed\n'),
            ('closed-error', '2', 'error closed.', lines('total                        2.00'), ''),
            ('closed-input-and-output', '0 1', 'input and output closed.', '', 'tally: /dev/stdin: read failed\n'),
            ('closed-input-and-error', '0 2', 'input and error closed.', '', ''),
            ('closed-output-and-error', '1 2', 'output and error closed.', '', ''),
            ('closed-streams', '0 1 2', 'all streams closed.', '', '')):
        row(name, 'ac,files', BESIDE + about, ['ac', 'f', '/dev/stdin'], stdout, stderr, 0 if stdout else 1, files, stdin=one_hour, closed=closed)
    row('closed-input-that-is-not-named', 'ac', 'Who does not name standard input needs none.', ['ac', 'f'], total, files=files, closed='0')
    row('closed-output-named-as-a-file', 'ac,files', 'No file stands in for a closed output either.', ['ac', 'f', '/dev/fd/1'], '',
        'tally: /dev/fd/1: read failed\n', 1, files, closed='1')
    row('closed-error-named-as-a-file', 'ac,files', 'Nor for a closed error: the status alone says that it cannot be read.', ['ac', 'f', '/dev/fd/2'],
        '', '', 1, files, closed='2')
    row('refused-words-with-a-closed-error', 'ac', 'The status alone says that they are refused.', ['ac', '--no', 'f'], '', '', 2, files, closed='2')
    row('no-prefix-with-a-closed-error', 'all', 'So it does of a missing prefix.', ['all', 'f'], '', '', 2, files, closed='2')
    row('no-moment-with-a-closed-error', 'ac,until,moment', 'And of a moment that no clock helps.', ['ac', '--until', '1969-12-31', 'f'], '', '', 2, files,
        closed='2')
