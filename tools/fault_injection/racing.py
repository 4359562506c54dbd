"""Two programs in one folder: the first is held after a call, the second runs, and the first goes on."""
import os
import re
import shutil
import subprocess
from collections.abc import Callable
from dataclasses import dataclass, field

from fault_injection.holding import HUNG, PATIENCE, Run, calls_of, is_locked
from fault_injection.stores import copied, thing

# What differs from run to run in an answer: the times and the memory of a drill.
MEASURED = re.compile(r"slowest: .*|\b\d+(\.\d+)? ?(s|ms|µs|us|MB|MiB|KB|KiB|kB)\b")


@dataclass(frozen=True)
class Case:
    """Two programs, and who judges what comes of them.

    Each is a line of words. `@name` is a path in the folder. STORE is the store, with its SITES file if it has one;
    --sites-of-new and --new-sites have that of a new one, and are left out if there is none. The second may also be what the
    tool does itself. `meanwhile` happens when the second has ended. `reader` is the one that changes no store.
    """
    name: str
    begins: str
    first: str
    second: str | Callable
    judge: Callable
    meanwhile: Callable | None = None
    reader: str = ""
    # Whether it takes folders of sites.
    is_sited: bool = False


@dataclass
class Race:
    """What came of two programs: of each its status and what it said."""
    case: Case
    start: "Start"
    room: str
    # Whether the record of work was locked as the second began; None if none was there.
    was_locked: bool | None = None
    # What the second program would have answered then, had there been no record of work.
    found: tuple = ()
    # The files of the store as the second began, as it ended, and as the first went on.
    files: list = field(default_factory=list)
    # Whether the second was held too, and ended after the first.
    is_double: bool = False
    first: tuple = (HUNG, "")
    second: tuple = (HUNG, "")
    # Whether the second found all as it left it.
    is_unchanged: bool = False
    # The calls of each, in the order in which they had their turns.
    log: list = field(default_factory=list)

    def runs(self):
        return [("first", *self.first), ("second", *self.second)]


class Start:
    """A folder in which two programs begin."""

    def __init__(self, verb, parent):
        self.verb, self.parent, self.path, self.known = verb, parent, verb.begun(parent), {}

    def words(self, room, line):
        found = [self.verb.program]
        for word in line.split():
            if word == "STORE":
                found += self.verb.store(room)
            elif word in ("--sites-of-new", "--new-sites"):
                found += [word.removesuffix("-of-new"), f"{room}/new.toml"] if self.verb.sited else []
            else:
                found.append(f"{room}/{word[1:]}" if word[0] == "@" else word)
        return found

    def run(self, room, does):
        """Runs a program to its end."""
        if callable(does):
            return does(room)
        try:
            done = subprocess.run(self.words(room, does), stdin=subprocess.DEVNULL, capture_output=True, text=True, timeout=PATIENCE)
            return done.returncode, plain(room, done.stdout + done.stderr)
        except subprocess.TimeoutExpired:
            return HUNG, "it hung"

    def after(self, *does, path=None):
        """What is in a copy of the folder, or of another, when these have run there one after the other, and what each answered."""
        key = does, path and repr(thing(path))
        if key not in self.known:
            room = copied(path or self.path, self.parent)
            if path and os.path.lexists(f"{room}/store/RESTORING"):
                os.remove(f"{room}/store/RESTORING")
            answers = [self.run(room, it) for it in does]
            self.known[key] = thing(room), answers
            shutil.rmtree(room)
        return self.known[key]

    def holds(self, line, every):
        """The calls after which a program is held: those on what is in its folder, if it is to be every one, or else each after
        which it acts there, and the last."""
        room = copied(self.path, self.parent)
        calls = calls_of(self.words(room, line), room)
        shutil.rmtree(room)
        inside = [call for call in calls if room in call.line]
        before, chosen = {}, []
        for call in calls:
            last = before.get(call.thread)
            if room in call.line and call.acts() and last and not (last.found_nothing() and call.found_nothing()):
                chosen.append(last)
            before[call.thread] = call
        return list({call.word(): call for call in (inside if every else chosen + inside[-1:])}.values())


def plain(room, said):
    """What a program said, but for the path of its folder and what it measured."""
    return MEASURED.sub("#", said.replace(room, "ROOM"))


def race(start, case, call, second_call=None, is_logged=False):
    """Runs a case with its first program held: what came of it, and what of that is wrong; None if the call was not made."""
    room = copied(start.path, start.parent)
    try:
        it, first = Race(case, start, room), Run(start.words(room, case.first), call)
        if not first.is_held():
            first.end()
            return None
        if os.path.lexists(f"{room}/store/RESTORING"):
            it.was_locked = is_locked(f"{room}/store/RESTORING")
        if case.reader == "second":
            it.found = start.after(case.second, path=room)[1][0]
        go_on(it, first, second_call, is_logged)
        return it, case.judge(it)
    finally:
        shutil.rmtree(room)


def go_on(it, first, second_call, is_logged):
    """Runs the second program, and lets the first go on; or first the first, if the second is held too."""
    begun, files, second = first.lines(), it.start.verb.files, None
    it.log.append(("first", begun))
    it.files.append(files(it.room))
    found = thing(it.room)
    if callable(it.case.second) or not (second_call or is_logged):
        it.second = it.start.run(it.room, it.case.second)
    else:
        second = Run(it.start.words(it.room, it.case.second), second_call)
        it.is_double = bool(second_call) and second.is_held()
        it.second = it.second if it.is_double else second.end()
        it.log.append(("second", second.lines()))
    it.is_unchanged = found == thing(it.room)
    it.files.append(files(it.room))
    if it.case.meanwhile:
        it.case.meanwhile(it)
    it.files.append(files(it.room))
    it.first = first.end()
    it.log.append(("first", first.lines()[len(begun):]))
    if it.is_double:
        it.second = second.end()
        it.log.append(("second", second.lines()[len(it.log[1][1]):]))
    it.first, it.second = ((status, plain(it.room, said)) for status, said in (it.first, it.second))
