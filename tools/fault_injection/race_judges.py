"""What is wrong with what came of two programs in one folder. Each judge answers with a list, empty if all is right."""
import json
import os
import re

from fault_injection.stores import files_of, names_in, thing

# By these words a program says that another one is at work, and that it read while another one wrote.
AT_WORK, CHANGED = "at work", "changed while it was read"
DONE, REFUSED, FAILED, DOUBTFUL = 0, 1, 4, 5


def first_line(said):
    return said.partition("\n")[0] or "no word"


def done(race):
    """Which of the programs that change or make something ended with status 0."""
    return [which for which, status, _ in race.runs() if status == DONE and which != race.case.reader]


def named(paths):
    """Some paths, and how many more there are."""
    return " ".join(paths[:3]) + (f" and {len(paths) - 3} more" if len(paths) > 3 else "")


def may_resume(race, which):
    """Whether a program may tell of `--resume`: work that nobody was at was unfinished then, or is now."""
    if which == "second" and race.was_locked is not None:
        return not race.was_locked
    return os.path.lexists(f"{race.room}/store/RESTORING")


def ended(race, allowed=(DONE, REFUSED), may_fail=True):
    """What is wrong with how the programs ended, and with what they tell to do. Each may fail as it does alone, if it may."""
    alone = {which: race.start.after(line)[1][0][0] for which, line in (("first", race.case.first), ("second", race.case.second))}
    wrong = ["nothing ended with 0"] if not done(race) and not any(alone.values()) else []
    for which, status, said in race.runs():
        if status not in allowed and which != race.case.reader and not (may_fail and status == alone[which]):
            wrong.append(f"{which}: status {status}, {first_line(said)}")
        if "--resume" in said and not may_resume(race, which):
            wrong.append(f"{which}: told of --resume beside a run at work: {first_line(said)}")
    return wrong


def differences(found, wanted, path=""):
    """The paths that differ."""
    if not (isinstance(found, dict) and isinstance(wanted, dict)):
        return [] if found == wanted else [path or "."]
    return [it for name in sorted({*found, *wanted}) for it in differences(found.get(name), wanted.get(name), f"{path}/{name}".lstrip("/"))]


def is_told(race, path):
    """Whether a program that failed says that it leaves what stands under the first name of a path: names it, or what it is a
    part of with the option that replaces it."""
    name = f"ROOM/{path.partition('/')[0]}"
    for _, status, said in race.runs():
        names = [name] + ([name.removesuffix(".partial")] if "--replace-partial" in said else [])
        if status != DONE and {*names} & {*re.split(r"[\s,()]+", said)}:
            return True
    return False


def is_in(tree, path):
    """Whether something stands at a path below a folder."""
    for name in path.split("/"):
        if not isinstance(tree, dict) or name not in tree:
            return False
        tree = tree[name]
    return True


def made(race):
    """Of two programs that make something of one name one makes it. The other one is refused, or fails if the name was taken after
    its last look. It changes nothing of what has the name, and says what it leaves."""
    wrong = ended(race, (DONE, REFUSED, FAILED))
    if len(done(race)) > 1:
        return [*wrong, "both ended with 0"]
    right, _ = race.start.after(*[race.case.first if which == "first" else race.case.second for which in done(race)])
    differ = [it for it in differences(thing(race.room), right) if is_in(right, it) or not is_told(race, it)]
    return wrong + ([f"not as after the {' '.join(done(race)) or 'neither'} alone: {named(differ)}"] if differ else [])


def stays(race):
    """What stood there stays as it was."""
    before, now = race.start.after()[0], thing(race.room)
    strange = [name for name in before if name.endswith(".partial") or name == "folder"]
    return ended(race, may_fail=False) + [f"a stranger's {it} was changed" for name in strange for it in differences(now.get(name), before[name], name)]


def lost(race, versions):
    """Names of which something that stood there neither stands nor is kept."""
    verb, now = race.start.verb, race.start.verb.files(race.room)
    kept = [files_of([path]) for folder in verb.all_folders(race.room) for path in names_in([f"{folder}/replaced"]).values()]
    gone = {name for files in versions for name, it in files.items() if now.get(name) != it and all(had.get(name) != it for had in kept)}
    return [f"lost: {named(sorted(gone))}"] if gone else []


def target(verb, line):
    """The files that a store has to have after the work of a line."""
    return verb.after if line.split()[0] == verb.does else verb.before


def placed(race):
    """What is wrong with the files of a store: a program that ended with 0 made them what it had to, another one changed none."""
    verb, now, wrong = race.start.verb, race.start.verb.files(race.room), []
    rights = {which: target(verb, line) for which, line in zip(("first", "second"), (race.case.first, race.case.second)) if which in done(race)}
    if race.is_double:
        return [] if now in rights.values() else ["the files are of neither"]
    found, left, again = race.files
    if differ := differences(left, rights.get("second", found)):
        wrong.append(f"second, {'done' if 'second' in rights else 'not done'}, but not right: {named(differ)}")
    # what had done its work when the second began does nothing more
    ends = [rights.get("first", again)] + ([again] if found == rights.get("first") else [])
    if now not in ends:
        wrong.append(f"first, {'done' if 'first' in rights else 'not done'}, but not right: {named(differences(now, ends[0]))}")
    return wrong


def lines_of(room):
    """The lines of the journal."""
    return [json.loads(line) for line in (thing(f"{room}/store/restores.jsonl") or b"").splitlines()]


def recorded(race):
    """What is wrong with the numbers of works, their records and their lines, and with the undo of each, the last one first."""
    verb, store = race.start.verb, f"{race.room}/store"
    numbers = {int(name) for folder in verb.all_folders(race.room) for name in names_in([f"{folder}/replaced"])}
    lines = lines_of(race.room)
    with_record = [number for number in sorted(numbers) if os.path.lexists(f"{store}/replaced/{number}/RECORD")]
    if not len(lines) == len(numbers) == len(with_record):
        return [f"{len(lines)} lines, {len(with_record)} records, {len(numbers)} numbers of works"]
    before = len(lines_of(race.start.path))
    changes = sum(was != now for was, now in (race.files[:2], (race.files[2], verb.files(race.room))))
    wrong = [f"{changes} runs changed files, {len(lines) - before} lines were added"] if len(lines) - before < changes else []
    if race.case.meanwhile and race.case.reader:
        return wrong
    for number in sorted(numbers, reverse=True)[:len(numbers) - before]:
        wrong += verb.run("undo", *verb.store(race.room), str(number))
    if not wrong and (differ := differences(verb.files(race.room), verb.before)):
        wrong.append(f"undone, but not as before: {named(differ)}")
    return wrong


def left_over(race):
    over = [name for name in names_in(race.start.verb.all_folders(race.room)) if name.startswith("RESTORING") or name.endswith(".restoring")]
    return [f"left over: {' '.join(sorted(over))}"] if over else []


def restored(race):
    """Of two programs that work on one store each does all that it is to do, or is refused and changes nothing; what was
    replaced is kept, each work has its line and can be undone, and nothing is left over."""
    wrong, (status, said) = ended(race, (DONE, REFUSED, DOUBTFUL)), race.second
    if race.was_locked and race.case.reader != "second" and not (status == REFUSED and AT_WORK in said):
        wrong.append(f"second, beside one at work: status {status}, {first_line(said)}")
    wrong += placed(race) + lost(race, [race.start.verb.before, race.files[0], race.files[2]]) + left_over(race)
    return wrong + recorded(race)


def answered(race):
    """A program that reads a store answers what was true before or after, or as it found it, or says that it can't; the other
    one does its work."""
    start, case = race.start, race.case
    reader, other = (case.first, case.second) if case.reader == "first" else (case.second, case.first)
    status, said = race.first if case.reader == "first" else race.second
    before, after = start.after(reader), start.after(other, reader)
    true = [before[1][-1], after[1][-1], race.found]
    if status == REFUSED and (AT_WORK in said or CHANGED in said):
        wrong, right = [], {}
    else:
        wrong = [] if (status, said) in true else [f"{reader.split()[0]}: not true: status {status}, {' '.join(said.splitlines()[-2:])}"]
        right = {name: it for name, it in after[0].items() if name.startswith("out")} if status == DONE else {}
    out = {name: it for name, it in thing(race.room).items() if name.startswith("out")}
    return wrong + ([] if out == right else [f"not the right output: {named(differences(out, right))}"]) + restored(race)
