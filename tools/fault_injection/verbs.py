"""The verbs that change files: what each begins with, how it is gone on with, and what has to come of it."""
import hashlib
import json
import os
import re
import shutil
import stat
import subprocess
import tempfile
from functools import cache

from fault_injection.stores import HALF_MODE, LOST, RUINS, copied, files_of, lost_names, name_folders, names_in, ruin, site_of, spread, thing
from fault_injection.trace import is_below, traced

# Where a site has a folder of its own, each folder of a room is a disk.
SITED = "--sites"


def digest_of(found):
    """The size and the digest of a file as the journal has them."""
    return {"bytes": len(found), "sha256": hashlib.sha256(found).hexdigest()} if isinstance(found, bytes) else None


def ended(words, status, said):
    """What is wrong with how a program ended: nothing if its status is 0. Paths are those in its folder."""
    line = re.sub(r"\S*/[a-z]+-[a-z]+-\w+/\w+/", "", said.partition("\n")[0])
    return [] if status == 0 else [f"{' '.join(word for word in words if '/' not in word)}: status {status}, {line}"]


class Verb:
    """A verb in a folder of its own, with the program that does it."""

    def __init__(self, name, program, example, sited, lost=LOST):
        self.name, self.program, self.example, self.sited, self.lost_sites = name, program, example, sited, lost
        self.does = name.removeprefix("resume-").replace("kept", "restore")

    @cache
    def begun(self, parent):
        """A folder in which the verb may begin: copies of it are what it is tried on."""
        room = tempfile.mkdtemp(dir=parent)
        self.prepare(room)
        return room

    def run(self, *words):
        """Runs the program, and says what is wrong with how it ended."""
        done = subprocess.run([self.program, *words], stdin=subprocess.DEVNULL, capture_output=True, text=True)
        return ended(words, done.returncode, done.stdout + done.stderr)

    def can_do_next(self, room, said):
        """Whether what is to be resumed by the words of a fault is unfinished."""
        return "--resume" not in said or os.path.lexists(f"{room}/store/RESTORING")

    def stop_halfway(self, room, words, kinds, names):
        """Runs the program in a room, and kills it at half of its calls of these kinds on one of these names."""
        copy = copied(room, os.path.dirname(room))
        _, _, lines = traced([self.program, *words(copy)], kinds)
        shutil.rmtree(copy)
        calls = [line for line in lines if any(is_below(line, f"/{name}") for name in names)]
        half = calls[len(calls) // 2]
        # strace counts the calls of each thread.
        begin = half.partition("(")[0]
        number = sum(line.startswith(begin) for line in lines[:lines.index(half) + 1])
        call = begin.split()[1]
        traced([self.program, *words(room)], (call,), f"{call}:signal=KILL:when={number}")

    def folders(self, room, kind="s"):
        """The folders of the sites of a store."""
        return [f"{room}/{kind}{site}" for site in sorted(set(site_of(f"{self.example}/catalog.toml").values()))] if self.sited else []

    def store(self, room):
        """The store of a room, as words of a command line."""
        return [SITED, f"{room}/sites.toml", f"{room}/store"] if self.sited else [f"{room}/store"]


class InPlace(Verb):
    """`restore`, or `undo` of one."""

    def prepare(self, room):
        shutil.copytree(self.example, f"{room}/store")
        for at, name in enumerate(lost_names(self.example, self.lost_sites)):
            ruin(f"{room}/store/{name}", RUINS[at % len(RUINS)])
        if self.sited:
            spread(room)
        broken, whole = self.files(room), files_of([self.example])
        self.changed = sorted(name for name in whole if whole[name] != broken.get(name))
        self.before, self.after = (broken, whole) if self.does == "restore" else (whole, broken)
        if self.does == "undo" and (failed := self.run("restore", "--quiet", *self.store(room), *LOST)):
            raise RuntimeError(failed[0])

    def all_folders(self, room):
        return [f"{room}/store", *self.folders(room)]

    def files(self, room):
        return files_of(self.all_folders(room))

    def path(self, room, name):
        """The path of a file of the store."""
        site = site_of(f"{self.example}/catalog.toml")[".".join(name.split(".")[:2])]
        return f"{room}/s{site}/{name}" if self.sited else f"{room}/store/{name}"

    def words(self, room):
        return ["restore", "--quiet", *self.store(room), *self.lost_sites] if self.does == "restore" else ["undo", *self.store(room), "1"]

    def has_ended(self, room):
        return not os.path.lexists(f"{room}/store/RESTORING") and self.files(room) == self.after

    def go_on(self, room, run):
        """Goes on as the documents say."""
        if os.path.lexists(f"{room}/store/RESTORING"):
            return run(self.does, "--resume", *self.store(room))
        if self.has_ended(room):
            return []
        if self.files(room) != self.before:
            return ["changed, and RESTORING is gone"]
        return run(*self.words(room))

    def faults(self, room):
        """What is wrong with a store in which the verb has ended, and with what is left of it after an undo."""
        if self.files(room) != self.after:
            return [f"not right: {' '.join(name for name in self.changed if self.files(room).get(name) != self.after.get(name))}"]
        wrong = self.lost(room) + self.told(f"{room}/store/restores.jsonl")
        # What replaces a file has its mode.
        paths = names_in(self.all_folders(room))
        halves = lost_names(self.example, self.lost_sites)[::len(RUINS)]
        wrong += [f"another mode: {name}" for name in halves if stat.S_IMODE(os.lstat(paths[name]).st_mode) != HALF_MODE]
        wrong += self.run("undo", *self.store(room))
        if not wrong and self.files(room) != self.before:
            wrong.append("an undo gives back something else")
        over = [name for name in names_in(self.all_folders(room)) if name.startswith("RESTORING") or name.endswith(".restoring")]
        return wrong + ([f"left over: {' '.join(sorted(over))}"] if over else [])

    def lost(self, room):
        """Names of which nothing keeps what they had."""
        kept = [files_of([path]) for folder in self.all_folders(room) for path in names_in([f"{folder}/replaced"]).values()]
        return [f"lost: {name}" for name in self.changed if name in self.before and all(it.get(name) != self.before[name] for it in kept)]

    def told(self, journal):
        """What is wrong with the line of the journal."""
        found = []
        for line in (thing(journal) or b"").splitlines():
            try:
                found.append(json.loads(line))
            except ValueError:
                continue
        found = [line for line in found if line["what"] == self.does]
        if len(found) != 1:
            return [f"{len(found)} lines in the journal"]
        wanted = {name: [digest_of(self.before.get(name)), digest_of(self.after.get(name))] for name in self.changed}
        told = {file["path"]: [file["before"], file["after"]] for file in found[0]["files"]}
        # Of an old file that can't be read the digest is null.
        for name, (before, _) in told.items():
            if before and before["sha256"] is None:
                told[name][0] = wanted.get(name, [None])[0]
        # A file that stood as it was, but could not be read at first, is replaced by the same bytes.
        for name in [it for it in told if it not in wanted]:
            right = digest_of(self.after.get(name))
            if told[name][1] == right and told[name][0] in (None, right):
                del told[name]
        return [] if told == wanted else ["a wrong line in the journal"]


class Resumed(InPlace):
    """`restore --resume` or `undo --resume`, after a kill among the changes of names, or among the second names that are given
    to what is kept."""
    KINDS = {"resume-restore": ("rename", "unlink"), "resume-undo": ("rename", "unlink"), "resume-kept": ("link",)}

    def prepare(self, room):
        super().prepare(room)
        self.stop_halfway(room, super().words, self.KINDS[self.name], self.changed)
        if not os.path.lexists(f"{room}/store/RESTORING"):
            raise RuntimeError("not killed")

    def words(self, room):
        return [self.does, "--resume", *self.store(room)]


class IntoNew(Verb):
    """A verb that makes something new at a path, and does nothing else."""

    def furnish(self, room):
        """What a new store is made of, and the folders of its sites."""
        shutil.copytree(self.example, f"{room}/store")
        shutil.copy(f"{self.example}/catalog.toml", f"{room}/catalog.toml")
        self.run("dump", self.example, f"{room}/table.csv")
        if self.name == "recover":
            os.remove(f"{room}/store/{lost_names(self.example, self.lost_sites)[0]}")
        if self.sited:
            spread(room)
            name_folders(room, "new.toml", sorted(set(site_of(f"{room}/catalog.toml").values())), "n")
            for folder in self.folders(room, "n"):
                os.mkdir(folder)

    def prepare(self, room):
        self.furnish(room)
        self.beside = self.not_made(room)
        copy = copied(room, os.path.dirname(room))
        if failed := self.run(*self.words(copy)):
            raise RuntimeError(failed[0])
        self.after = self.made(copy)
        shutil.rmtree(copy)

    def words(self, room):
        new, to = f"{room}/new", [SITED, f"{room}/new.toml"] if self.sited else []
        return {"load": ["load", "--replace-partial", *to, f"{room}/catalog.toml", f"{room}/table.csv", new],
                "relayout": ["relayout", "--replace-partial", *[word.replace(SITED, "--new-sites") for word in to], *self.store(room), f"{room}/catalog.toml", new],
                "recover": ["recover", "--quiet", *self.store(room), new, *self.lost_sites],
                "dump": ["dump", *self.store(room), new],
                "design": ["design", "--svg", new, f"{room}/catalog.toml"]}[self.name]

    def made(self, room):
        """What was made."""
        return [thing(f"{room}/new"), *[thing(folder) for folder in self.folders(room, "n")]]

    def not_made(self, room):
        """What the verb has to leave alone."""
        return [thing(folder) for folder in [f"{room}/store", *self.folders(room)]]

    def has_ended(self, room):
        mark = f"{room}/new/DONE" if self.name == "recover" else f"{room}/new"
        return os.path.lexists(mark)

    def go_on(self, room, run):
        """Goes on as the documents say: once a folder of a site has its catalog, it is emptied first. All have their files by then."""
        if self.has_ended(room):
            return []
        shutil.rmtree(f"{room}/new", ignore_errors=True)
        folders = [folder for folder in self.folders(room, "n") if os.path.lexists(f"{folder}/catalog.toml")]
        if folders and any({**it, "catalog.toml": None} != {**right, "catalog.toml": None} for it, right in zip(self.without_partial(room), self.after[1:])):
            return ["a folder has its catalog, and not all files have their names"]
        for folder in folders:
            shutil.rmtree(folder)
            os.mkdir(folder)
        return run(*self.words(room))

    def without_partial(self, room):
        """What stands in the folders of sites, but for the copies of the catalog that have no name yet."""
        found = [thing(folder) for folder in self.folders(room, "n")]
        return [{name: it for name, it in names.items() if name != "catalog.toml.partial"} for names in found]

    def faults(self, room):
        made = self.made(room)
        if self.name == "recover":
            # the name of the mark tells all
            made[0]["DONE"] = self.after[0]["DONE"]
        elif self.name in ("load", "relayout"):
            # a store that has its name is whole, also with the mark of the run that made it
            made[0].pop("LOADING", None)
        wrong = [] if made == self.after else ["not right: what was made"]
        return wrong + ([] if self.not_made(room) == self.beside else ["the store has changed"])


def verb_of(name, program, example, sited):
    kind = Resumed if name.startswith("resume-") else InPlace if name in ("restore", "undo") else IntoNew
    return kind(name, program, example, sited)


VERBS = ("restore", "undo", "resume-restore", "resume-undo", "resume-kept", "load", "relayout", "recover", "dump", "design")
