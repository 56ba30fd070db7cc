"""Where scripts of this folder run the program: a folder with files, which may be the root of what it sees."""
import os
import pty
import re
import select
import shutil
import subprocess
import termios

# The number of a user that no machine names.
NOBODY = 54321


def same(found, wanted, of=''):
    assert found == wanted, '%s%r, wanted %r' % (of, found, wanted)


def other_user():
    """Takes another user, before the program runs. Only root may."""
    if os.geteuid() == 0:
        os.setgroups([])
        os.setgid(NOBODY)
        os.setuid(NOBODY)


class Place:
    """A folder with files, in which the program runs."""

    def __init__(self, binary, folder):
        self.folder, self.binary = folder, os.path.join(folder, 'tally')
        shutil.copy(binary, self.binary)
        os.chmod(self.binary, 0o755)
        os.chmod(folder, 0o755)

    def path(self, name):
        return os.path.join(os.fsencode(self.folder), os.fsencode(name))

    def put(self, name, data):
        """Writes a file, and the folders above it."""
        os.makedirs(os.path.dirname(self.path(name)), exist_ok=True)
        with open(self.path(name), 'wb') as file:
            file.write(data)

    def run(self, *words, **options):
        options.setdefault('stdin', subprocess.DEVNULL)
        return subprocess.run((self.binary,) + words, cwd=self.folder, env={}, stdout=subprocess.PIPE,
                              stderr=subprocess.PIPE, timeout=120, **options)

    def on_terminal(self, *words, is_whole=False, **options):
        """What a terminal is sent as standard error, or as standard output too."""
        options.setdefault('stdin', subprocess.DEVNULL)
        ours, theirs = pty.openpty()
        flags = termios.tcgetattr(theirs)
        flags[1] &= ~termios.OPOST
        termios.tcsetattr(theirs, termios.TCSANOW, flags)
        done = subprocess.run((self.binary,) + words, cwd=self.folder, env={}, stdout=theirs if is_whole else subprocess.PIPE,
                              stderr=theirs, timeout=120, **options)
        os.close(theirs)
        said = b''
        while select.select([ours], [], [], 0.2)[0]:
            try:
                piece = os.read(ours, 65536)
            except OSError:
                break
            said += piece
        os.close(ours)
        return done, said


class Root(Place):
    """A folder that is the root of what the program sees. Beside the program it has what that is linked with. Only root may run it so."""

    def __init__(self, binary, folder):
        super().__init__(binary, folder)
        told = subprocess.run(('ldd', self.binary), stdout=subprocess.PIPE, stderr=subprocess.DEVNULL, timeout=120).stdout
        for path in map(os.fsdecode, re.findall(rb'(/\S+) \(0x', told)):
            os.makedirs(os.path.dirname(folder + path), exist_ok=True)
            shutil.copy(path, folder + path)
        self.binary = '/tally'

    def enter(self):
        os.chroot(self.folder)
        os.chdir('/')

    def run(self, *words, **options):
        return super().run(*words, preexec_fn=self.enter, **options)

    def on_terminal(self, *words, **options):
        return super().on_terminal(*words, preexec_fn=self.enter, **options)
