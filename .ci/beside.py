"""Commands that go on side by side while there is memory for them, and end with the program that started them."""
import os
import signal
import subprocess
import sys
import threading
import time

# What a check holds in memory at most, in kB, how long it takes to get there, and which part of the machine's memory is left to others.
NEED, GROWING, REST = 3_000_000, 60.0, 0.2


class Memory:
    """Lets a check begin where there is memory for it, and for those that began a while ago, which may still grow. One goes on in any case."""

    def __init__(self):
        self.lock, self.begun, self.running = threading.Condition(), [], 0

    def has_room(self):
        with open('/proc/meminfo', encoding='ascii') as file:
            sizes = {line.partition(':')[0]: int(line.split()[1]) for line in file}
        self.begun = [it for it in self.begun if time.monotonic() - it < GROWING]
        return sizes['MemAvailable'] - NEED * len(self.begun) >= NEED + REST * sizes['MemTotal']

    def __enter__(self):
        with self.lock:
            while self.running and not self.has_room():
                self.lock.wait(2)
            self.running += 1
            self.begun.append(time.monotonic())

    def __exit__(self, *_):
        with self.lock:
            self.running -= 1
            self.lock.notify_all()


class Commands:
    """The commands that are at work, which are ended with this program."""

    def __init__(self):
        self.lock, self.running, self.is_ended = threading.Lock(), set(), False

    def said(self, words, folder):
        """What a command says up to its end."""
        with self.lock:
            if self.is_ended:
                raise RuntimeError('ended by a signal')
            command = subprocess.Popen(words, cwd=folder, stdin=subprocess.DEVNULL, stdout=subprocess.PIPE, stderr=subprocess.STDOUT,
                                       text=True, errors='replace', preexec_fn=os.setpgrp)
            self.running.add(command)
        text = command.communicate()[0]
        with self.lock:
            self.running.remove(command)
            if self.is_ended:
                raise RuntimeError('ended by a signal')
        return text

    def end(self, number, _):
        with self.lock:
            self.is_ended = True
            for it in self.running:
                os.killpg(it.pid, signal.SIGTERM)
        sys.exit(128 + number)


MEMORY, COMMANDS = Memory(), Commands()
