"""Which two programs are run over one store, and in which folder they begin."""
import os
import shutil
import subprocess

from fault_injection.race_judges import DONE, REFUSED, answered, made, restored, stays
from fault_injection.racing import Case
from fault_injection.stores import LOST
from fault_injection.verbs import SITED, InPlace, IntoNew, Resumed

# Each verb that judges or copies a store. What it makes is at `out`.
READERS = ("check STORE", "show STORE", "diagnose STORE", "drill --at-most 1 STORE", "manifest STORE", "verify --manifest @manifest STORE",
           "dump STORE @out", "recover STORE @out 2 3", "relayout STORE @catalog.toml @out")
RESTORE, ACCEPTED = "restore --quiet STORE 2 3", "restore --quiet --accept-loss STORE 2 3"
RESUME, UNDO = "restore --quiet --resume STORE", "undo STORE 1"
LOAD, OTHER_LOAD = (f"load --quiet --sites-of-new @catalog.toml @{table}.csv @new" for table in ("table", "other"))
RELAYOUT, REPLACE = "relayout --quiet --new-sites STORE @catalog.toml @new", "load --replace-partial"
DUMP, PICTURE, RECOVER = "dump --quiet STORE @out", "design --svg @out @catalog.toml", "recover --quiet STORE @out 2 3"


class Broken(InPlace):
    """A store of which sites are lost, with its catalog and the manifest that it had before beside it."""

    def prepare(self, room):
        super().prepare(room)
        shutil.copy(f"{self.example}/catalog.toml", room)
        lines = subprocess.run([self.program, "manifest", self.example], stdout=subprocess.PIPE, check=True).stdout
        with open(f"{room}/manifest", "wb") as file:
            file.write(lines)


class Making(IntoNew):
    """A store and what new ones are made of: two tables, and the folders of its sites."""

    def prepare(self, room):
        self.furnish(room)
        with open(f"{room}/table.csv") as file:
            lines = file.readlines()
        with open(f"{room}/other.csv", "w") as file:
            file.writelines(lines[:-1])
        self.run("load", f"{room}/catalog.toml", f"{room}/other.csv", f"{room}/other")
        if self.name == "left":
            self.stop_halfway(room, self.words, ("fsync",), ("",))
        elif self.name in STRANGE:
            STRANGE[self.name](room)

    def files(self, _room):
        """What changes in place: nothing."""
        return {}

    def words(self, room):
        to = [SITED, f"{room}/new.toml"] if self.sited else []
        return ["load", *to, f"{room}/catalog.toml", f"{room}/table.csv", f"{room}/new"]


def write(path):
    with open(path, "x") as file:
        file.write("of a stranger")


def write_folder(path):
    os.mkdir(path)
    write(f"{path}/file")


def link_folder(path):
    write_folder(f"{os.path.dirname(path)}/folder")
    os.symlink("folder", path)


# What a stranger has where a program keeps what has no name yet.
STRANGE = {"strange folder": lambda room: write_folder(f"{room}/new.partial"),
           "strange file": lambda room: [write(f"{room}/{name}.partial") for name in ("new", "out")],
           "strange link": lambda room: link_folder(f"{room}/new.partial")}


def stranger(name, make):
    """A stranger who makes something under a name, unless it is taken."""
    def run(room):
        try:
            make(f"{room}/{name}")
            return DONE, ""
        except FileExistsError:
            return REFUSED, "already exists"
    return run


def damage(race):
    """Puts other bytes in the place of the files that the second restored."""
    verb = race.start.verb
    for name in verb.changed if race.second[0] == DONE else ():
        path = verb.path(race.room, name)
        os.remove(path)
        with open(path, "w") as file:
            file.write(f"damaged again: {name}")


def undo(race):
    """Undoes what the second did."""
    if race.second[0] == DONE:
        race.start.run(race.room, UNDO)


def of_stores():
    """Two that work on one store."""
    yield Case("two restores", "broken", RESTORE, RESTORE, restored)
    yield Case("two restores, damaged again between", "broken", RESTORE, RESTORE, restored, meanwhile=damage)
    yield Case("restores that share a site", "broken 3", ACCEPTED, "restore --quiet STORE 3", restored)
    yield Case("restores that share a site, the other first", "broken 3", "restore --quiet STORE 3", ACCEPTED, restored)
    yield Case("restores of other sites", "broken 3", "restore --quiet STORE 3", "restore --quiet --accept-loss STORE 2", restored)
    yield Case("two undos", "restored", UNDO, UNDO, restored)
    yield Case("undo beside restore", "restored", UNDO, ACCEPTED, restored)
    yield Case("restore beside undo", "restored", ACCEPTED, UNDO, restored)
    yield Case("two resumes", "half restored", RESUME, RESUME, restored)
    yield Case("two resumes, stopped while it kept", "half kept", RESUME, RESUME, restored)
    yield Case("two resumes of an undo", "half undone", "undo --resume STORE", "undo --resume STORE", restored)
    yield Case("resume beside restore", "half restored", RESUME, RESTORE, restored)


def of_readers():
    """One that reads a store, and one that works on it."""
    for line in READERS:
        verb = line.split()[0]
        yield Case(f"restore inside {verb}", "broken", line, RESTORE, answered, reader="first")
        yield Case(f"{verb} inside restore", "broken", RESTORE, line, answered, reader="second")
    yield Case("restore and its undo inside check", "broken", "check STORE", RESTORE, answered, meanwhile=undo, reader="first")


def of_names():
    """Two that make something of one name."""
    yield Case("two loads", "new", LOAD, OTHER_LOAD, made)
    yield Case("two loads with --replace-partial", "left", LOAD.replace("load", REPLACE), OTHER_LOAD.replace("load", REPLACE), made)
    yield Case("load --replace-partial beside load", "new", LOAD.replace("load", REPLACE), OTHER_LOAD, made)
    yield Case("load beside load --replace-partial", "new", LOAD, OTHER_LOAD.replace("load", REPLACE), made)
    yield Case("two loads of other names into the folders", "new", LOAD, f"{OTHER_LOAD}2", made, is_sited=True)
    yield Case("relayout beside load", "new", RELAYOUT, OTHER_LOAD, made)
    yield Case("load, and a stranger's folder", "new", LOAD, stranger("new", write_folder), made)
    yield Case("two dumps to one file", "new", DUMP, DUMP.replace("STORE", "@other"), made)
    yield Case("dump, and a stranger's file", "new", DUMP, stranger("out", write), made)
    yield Case("two pictures", "new", PICTURE, PICTURE.replace("--svg", "--lost 1 --svg"), made)
    yield Case("picture, and a stranger's file", "new", PICTURE, stranger("out", write), made)
    yield Case("two recovers into one folder", "new", RECOVER, RECOVER[:-2], made)
    yield Case("recover, and a stranger's folder", "new", RECOVER, stranger("out", write_folder), made)
    for begins in STRANGE:
        yield Case(f"load --replace-partial over a {begins}", begins, LOAD.replace("load", REPLACE), nothing, stays)
    yield Case("dump beside a strange file", "strange file", DUMP, nothing, stays)


def nothing(_room):
    return DONE, ""


def verb_of(begins, program, example, sited):
    """The verb whose folder is the one in which a case begins."""
    if begins in ("broken", "broken 3"):
        return Broken("restore", program, example, sited, ("3",) if "3" in begins else LOST)
    if begins == "restored":
        return Broken("undo", program, example, sited)
    if begins in HALF:
        return Resumed(HALF[begins], program, example, sited)
    return Making(begins, program, example, sited)


HALF = {"half restored": "resume-restore", "half kept": "resume-kept", "half undone": "resume-undo"}
CASES = [*of_stores(), *of_readers(), *of_names()]
