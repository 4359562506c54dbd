"""Programs that are held at a call while others run.

A call is named by its kind and its number among the calls of that kind in its thread. strace sends the program SIGSTOP as it
makes the call: the call is done, and then all threads stand still until the program is told to go on. What another program
does between two calls of this one, it does after the first of them.
"""
import fcntl
import os
import re
import signal
import subprocess
import tempfile
import time
from collections import Counter
from dataclasses import dataclass, replace

from fault_injection.trace import CHANGES, joined

# Calls that change and open nothing, and all after which a program may be held.
LOOKS = ("statx", "newfstatat", "fstat", "lstat", "stat", "read", "pread64", "getdents64", "readlink", "close")
CALLS = tuple(dict.fromkeys([*CHANGES, "chown", "fchown", "copy_file_range", "flock", *LOOKS]))
CALL = re.compile(r"^(\d+) +(\w+)\(")
STOPPED = re.compile(r"^\d+ +--- stopped by SIGSTOP ---$")
# Seconds between two looks at a program that runs, and after which it counts as hung.
POLL, PATIENCE = 0.002, 120
# The status of a program that hung and was killed.
HUNG = -1


def can_trace():
    """Whether strace is there and may trace and stop a program."""
    words = ["strace", "-f", "-e", "trace=openat", "-e", "inject=openat:signal=CONT:when=1", "-o", "/dev/null", "true"]
    try:
        return subprocess.run(words, capture_output=True).returncode == 0
    except FileNotFoundError:
        return False


class Run:
    """A program under strace; if a call is given, it is held after that."""

    def __init__(self, words, call=None):
        self.trace, self.said, self.seen, self.begun = tempfile.NamedTemporaryFile("r"), tempfile.TemporaryFile("w+"), 0, time.monotonic()
        run = ["strace", "-f", "--quiet=attach", "-y", "-s", "16", "-e", "signal=SIGSTOP", "-e", f"trace={','.join('?' + it for it in CALLS)}"]
        run += ["-e", f"inject={call.kind}:signal=STOP:when={call.number}"] if call else []
        self.process = subprocess.Popen([*run, "-o", self.trace.name, *words], stdin=subprocess.DEVNULL, stdout=self.said, stderr=self.said)

    def lines(self):
        """The whole lines of the trace so far."""
        self.trace.seek(0)
        return self.trace.read().split("\n")[:-1]

    def stops(self):
        """Whether it was stopped since this was asked last."""
        before, lines = self.seen, self.lines()
        self.seen = len(lines)
        return any(map(STOPPED.match, lines[before:]))

    def is_held(self):
        """Waits until it is held; no if it ended first."""
        while not self.stops():
            if self.process.poll() is not None or time.monotonic() > self.begun + PATIENCE:
                return False
            time.sleep(POLL)
        return True

    def end(self):
        """Lets it go on to its end: its status, and what it said."""
        begun = time.monotonic()
        self.signal(signal.SIGCONT)
        while self.process.poll() is None:
            if time.monotonic() > begun + PATIENCE:
                self.signal(signal.SIGKILL)
                self.process.wait()
                return HUNG, "it hung"
            if self.stops():
                self.signal(signal.SIGCONT)
            time.sleep(POLL)
        self.said.seek(0)
        return self.process.returncode, self.said.read()

    def signal(self, number):
        """Sends a signal to the program itself, whose first thread made the first call."""
        if lines := self.lines():
            try:
                os.kill(int(lines[0].split()[0]), number)
            except ProcessLookupError:
                pass


@dataclass(frozen=True)
class Call:
    """A call of a program, with its number among those of its kind in its thread, and how many calls up to it changed or locked
    something."""
    thread: str
    kind: str
    number: int
    line: str
    changes: int = 0

    def word(self):
        return f"{self.kind}:{self.number}"

    def found_nothing(self):
        """Whether it was to remove what wasn't there."""
        return self.kind == "unlink" and "ENOENT" in self.line

    def acts(self):
        """Whether it changes, opens or locks something, or tries to."""
        return self.kind not in LOOKS

    def changes_more(self):
        """Whether what other programs find differs afterwards."""
        return "= -1 " not in self.line and self.kind not in (*LOOKS, "fsync", "fdatasync") and (self.kind != "openat" or "O_CREAT" in self.line)


def calls_of(words, room):
    """The calls of a program that is not held; those that change something count if they are made in a room."""
    run, numbers, found, changes = Run(words), Counter(), [], 0
    run.end()
    for line in joined(run.lines()):
        if match := CALL.match(line):
            thread, kind = match.groups()
            numbers[thread, kind] += 1
            call = Call(thread, kind, numbers[thread, kind], line)
            changes += room in line and call.changes_more()
            found.append(replace(call, changes=changes))
    return found


def is_locked(path):
    """Whether a program has the file at a path locked; None if it isn't there."""
    try:
        with open(path) as file:
            try:
                fcntl.flock(file, fcntl.LOCK_SH | fcntl.LOCK_NB)
            except BlockingIOError:
                return True
            return False
    except OSError:
        return None
