"""Runs with closed standard streams, in whose place the program holds a folder while it reads files."""
import errno
import os
import subprocess
import time

from make import ONE_HOUR
from places import Root, other_user, same

STREAMS = (0, 1, 2)


def writer_of(pipe, running):
    """The end of a pipe that is written to, once a running program has opened the other."""
    for _ in range(6000):
        try:
            return os.open(pipe, os.O_WRONLY | os.O_NONBLOCK)
        except OSError as error:
            assert error.errno == errno.ENXIO and running.poll() is None, 'the pipe was not opened'
            time.sleep(0.01)
    raise AssertionError('the pipe was not opened in a minute')


def stands_for(stream, running):
    """What has the number of a standard stream in a running program."""
    try:
        return os.readlink('/proc/%d/fd/%d' % (running.pid, stream))
    except FileNotFoundError:
        return None


def close(streams):
    for stream in streams:
        os.close(stream)


def folders_for_closed_streams(place):
    """While a file is read, a folder stands in the place of each standard stream that is closed, and of no other."""
    pipe = place.path('pipe')
    os.mkfifo(pipe)
    for closed in ((), (0,), (1,), (2,), (0, 1), (0, 2), (1, 2), STREAMS):
        running = subprocess.Popen((place.binary, 'ac', 'pipe'), cwd=place.folder, env={}, stdin=subprocess.DEVNULL, stdout=subprocess.DEVNULL,
                                   stderr=subprocess.DEVNULL, preexec_fn=lambda streams=closed: close(streams))
        writer = writer_of(pipe, running)
        held = tuple(stream for stream in STREAMS if stands_for(stream, running) == '/')
        os.write(writer, ONE_HOUR)
        os.close(writer)
        same((held, running.wait(timeout=120)), (closed, int(1 in closed)))


def folder_that_may_not_be_read(place):
    """Where that folder cannot be opened, no file is read."""
    os.mkdir(place.path('root'))
    root = Root(place.binary, os.path.join(place.folder, 'root'))
    root.put('f', ONE_HOUR)
    os.chmod(root.folder, 0o711)
    enter = root.enter
    root.enter = lambda: (enter(), other_user())
    try:
        root.run('--version')
    except subprocess.SubprocessError:
        print('  left out, since another root may not be taken here')
        return
    for words in (('ac', 'f'), ('check', 'f')):
        done = root.run(*words)
        same((done.returncode, done.stdout, done.stderr), (1, b'', b'tally: /: cannot be opened\n'), '%s: ' % (words,))


CASES = (folders_for_closed_streams, folder_that_may_not_be_read)
