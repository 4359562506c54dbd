"""One failing call in a run of a verb, and what is wrong with what comes of it."""
import os
import re
import shutil
import subprocess
from collections import Counter
from dataclasses import dataclass

from fault_injection.holding import calls_of
from fault_injection.racing import MEASURED
from fault_injection.stores import copied, thing
from fault_injection.trace import traced
from fault_injection.verbs import VERBS, IntoNew, verb_of

DONE, REFUSED, DEVICE, DOUBTFUL = 0, 1, 4, 5
# The errors that calls fail with, and what the system says of each.
ERRORS = {"ENOSPC": "No space left on device", "EIO": "Input/output error", "EACCES": "Permission denied", "EPERM": "Operation not permitted",
          "EROFS": "Read-only file system"}
# Those that fit each call; of a file that is opened to be written, the last.
READS, WRITES = ("EIO", "EACCES"), ("EIO", "EACCES", "EROFS", "ENOSPC")
CHANGES = ("EIO", "EACCES", "EROFS", "EPERM")
FITTING = {"openat": READS, "statx": READS, "read": ("EIO",), "getdents64": ("EIO",), "flock": ("EIO",), "write": ("EIO", "ENOSPC"),
           "ftruncate": ("EIO",), "fsync": ("EIO", "ENOSPC"), "link": (*CHANGES, "ENOSPC"), "rename": (*CHANGES, "ENOSPC"), "mkdir": WRITES,
           **dict.fromkeys(("unlink", "unlinkat", "rmdir", "chmod", "fchmod", "chown", "fchown"), CHANGES)}
REMOVALS = ("unlink", "unlinkat", "rmdir")
# Why a site is away, and what to do then.
REASONS = re.compile(r": could not .*|^(next|if that cannot be done): .*\n", re.MULTILINE)
# What only a run that was killed may leave.
TEMPORARY = re.compile(r"\.restoring$|^RESTORING\.\d+$|\.partial$")
# Verbs that change no file, by form: each judges or shows a whole store.
READING = {"check": "check STORE", "show": "show STORE", "show FILE": "show STORE p0.s1.seg", "diagnose": "diagnose STORE",
           "diagnose --manifest": "diagnose --manifest @manifest STORE", "drill": "drill --at-most 1 STORE", "manifest": "manifest STORE",
           "verify": "verify --manifest @manifest STORE", "dump to standard output": "dump --quiet STORE",
           "design to standard output": "design @catalog.toml", "restore --dry-run": "restore --quiet --dry-run STORE"}
FORMS = (*READING, *VERBS)


class Reading(IntoNew):
    """A verb that changes no file."""

    def prepare(self, room):
        self.furnish(room)
        with open(f"{room}/manifest", "wb") as file:
            file.write(subprocess.run([self.program, "manifest", self.example], stdout=subprocess.PIPE, check=True).stdout)

    def words(self, room):
        line = READING[self.name].replace("@", f"{room}/").split()
        at = line.index("STORE") if "STORE" in line else len(line)
        return [*line[:at], *(self.store(room) if at < len(line) else []), *line[at + 1:]]

    def answer(self, room):
        """How it ends if no call fails, and what it says."""
        done = subprocess.run([self.program, *self.words(room)], stdin=subprocess.DEVNULL, capture_output=True, text=True)
        return done.returncode, MEASURED.sub("#", (done.stdout + done.stderr).replace(f"{room}/", ""))

    def answer_without(self, room, site):
        """How it ends if the folder of a site is not there, and what it says."""
        os.rename(f"{room}/{site}", f"{room}/{site}.away")
        answer = self.answer(room)
        os.rename(f"{room}/{site}.away", f"{room}/{site}")
        return answer

    def wrong(self, room, path, status, said):
        """What is wrong with an answer if a call on this path failed: it is that without a failure, or says that a file could not be
        read, or whether a run is at work. A restore that reads a file once and the next time cannot read it is in doubt. A site
        whose folder or catalog can't be read is away."""
        if status == DEVICE or "cannot be told" in said or self.name.split()[0] in ("show", "diagnose") and "unreadable" in said:
            return []
        if self.name == "restore --dry-run" and status == DOUBTFUL:
            return []
        answer = status, MEASURED.sub("#", said)
        if self.sited and (site := re.match(r"s\d+\b", path)):
            without = self.answer_without(room, site[0])
            if (status, REASONS.sub("", answer[1])) == (without[0], REASONS.sub("", without[1])):
                return []
        return [] if answer == self.answer(room) else [f"status {status}, {first_line(said)}"]


def form_of(name, program, example, sited):
    return Reading(name, program, example, sited) if name in READING else verb_of(name, program, example, sited)


def first_line(said):
    return said.partition("\n")[0] or "no word"


@dataclass(frozen=True)
class Case:
    """A call that is to fail: by its kind, its path in the folder of the verb, and its number among those in its thread."""
    kind: str
    path: str
    number: int
    error: str

    def __str__(self):
        return f"{self.kind} {self.path} {self.number} {self.error}"


def cases(verb, parent):
    """The calls of a run on what is in its folder, each with every error that it may fail with; and how many calls they are."""
    room, numbers, found = copied(verb.begun(parent), parent), Counter(), {}
    for call in calls_of([verb.program, *verb.words(room)], room):
        path = re.search(f'["<]{room}/([^">]*)[">]', call.line)
        if path and call.kind in FITTING:
            numbers[call.thread, call.kind, path[1]] += 1
            writes = call.kind == "openat" and ("O_WRONLY" in call.line or "O_RDWR" in call.line)
            found[call.kind, path[1], numbers[call.thread, call.kind, path[1]]] = WRITES if writes else FITTING[call.kind]
    shutil.rmtree(room)
    return [Case(*key, error) for key, errors in found.items() for error in errors], len(found)


def paths_in(found, path=""):
    """The paths of all that is in a folder."""
    inner = found.items() if isinstance(found, dict) else ()
    return {path, *(it for name, below in inner for it in paths_in(below, f"{path}/{name}"))}


def left_behind(before, room):
    """What a run left that is temporary."""
    over = sorted(path for path in paths_in(thing(room)) - paths_in(before) if TEMPORARY.search(path.rpartition("/")[2]))
    return [f"left behind: {' '.join(path.strip('/') for path in over[:3])}"] if over else []


def changing_wrong(verb, room, before, kind, status, said):
    """What is wrong with how a run ended that changes or makes something, and with how it is gone on with."""
    wrong = []
    if status == DONE:
        wrong += [] if verb.has_ended(room) else ["not done, and the status is 0"]
    elif status == REFUSED:
        wrong += [] if thing(room) == before else [f"refused, and something has changed: {first_line(said)}"]
    elif status != DEVICE:
        wrong += [f"status {status}, {first_line(said)}"]
    if not verb.can_do_next(room, said):
        wrong.append("the next step that is named can't be done")
    if kind not in REMOVALS and verb.does not in ("load", "relayout"):
        wrong += left_behind(before, room)
    return wrong + (verb.go_on(room, verb.run) or verb.faults(room))


def words_wrong(line, said, error):
    """What the words of a failed run lack: a path of the call that failed, or what the system said."""
    paths = [os.fsdecode(bytes.fromhex(it.replace("\\x", ""))) for it in re.findall(r"(?:\\x[0-9a-f]{2})+", line)]
    wrong = [] if any(path in said for path in paths) else [f"no path: {first_line(said)}"]
    return wrong + ([] if ERRORS[error] in said else [f"not what the system said: {first_line(said)}"])


def failed(verb, parent, case, has_words):
    """What is wrong once a call has failed; None if it was not made."""
    room = copied(verb.begun(parent), parent)
    try:
        before, inject = thing(room), f"{case.kind}:error={case.error}:when={case.number}"
        status, said, lines = traced([verb.program, *verb.words(room)], (case.kind,), inject, f"{room}/{case.path}")
        line = next((line for line in lines if "(INJECTED)" in line), None)
        if line is None:
            return None
        wrong = words_wrong(line, said, case.error) if has_words and status == DEVICE else []
        said = said.replace(f"{room}/", "")
        if isinstance(verb, Reading):
            return wrong + verb.wrong(room, case.path, status, said) + ([] if thing(room) == before else ["something has changed"])
        return wrong + changing_wrong(verb, room, before, case.kind, status, said)
    finally:
        shutil.rmtree(room)
