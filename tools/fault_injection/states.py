"""The states of a folder that a crash may leave, by what a file system promises.

A synced file has its data and its mode, and a synced folder its names. A mode that was not synced is gone. Of what was done since then
- `journal` leaves the changes of names in their order, of all folders of a disk together, and of each file the data that was
  written up to some moment; a sync brings all earlier changes of names to its disk, as a journal of metadata does;
- `ordered` leaves the changes of each folder in their order, whatever became of other folders and of files;
- `weak` leaves any of the changes of names, and zeros may stand for data.
A rename is one step in each of them. Data whose sync failed is gone, unless it was written again.

How many states differ depends on what is pending, that is, not synced yet. The program syncs each file before it makes the
next one (only recover writes some at the same time), so the data of one file is pending at most. In `journal` that sync
brings all earlier names to the disk as well: pending are no more names than a rename and the next new file, or the second
names that a restore gives to what it keeps. In `ordered` all names of a folder are pending until it is synced, but they stay
in order, so most of what a crash may leave is what an earlier one leaves too. So both models have some six states for each
file that a restore changes (kept, made, half written, written, with its mode, in place), three for each that a load makes,
and twenty beside. Only more files make more of them. `weak` has a state for each set of the names that are pending.
"""
import os
from dataclasses import dataclass
from functools import lru_cache

MODELS = ("journal", "ordered", "weak")


@dataclass(frozen=True)
class Choice:
    """Which changes of names a crash leaves, how many of the writes to each file, whether the last of these in part, and
    whether zeros stand for data."""
    names: frozenset
    writes: dict
    halves: frozenset = frozenset()
    zeros: frozenset = frozenset()


def part_of(log, model, node):
    """That of which the names stay in their order, and are synced at once: a disk, or a folder."""
    return log.disks[node] if model == "journal" else node


def parts_of(log, model, op):
    return {part_of(log, model, folder) for folder, _, _ in op.names}


@lru_cache(4096)
def pending_names(log, count, model):
    """The changes of names, of so many first changes, that a crash may undo."""
    pending, synced = [], set()
    for at in reversed(range(count)):
        op = log.ops[at]
        if op.kind == "sync":
            synced.add(part_of(log, model, op.node))
        elif op.kind == "names" and not parts_of(log, model, op) & synced:
            pending.append(at)
    return pending[::-1]


@lru_cache(4096)
def pending_writes(log, count):
    """By file, the writes to it that no sync followed, and all those that are gone since a sync of them failed."""
    pending, gone = {}, set()
    for at in range(count):
        op = log.ops[at]
        if op.kind in ("write", "truncate"):
            pending.setdefault(op.node, []).append(at)
        elif op.kind == "sync":
            pending.pop(op.node, None)
        elif op.kind == "unsynced":
            gone.update(pending.pop(op.node, []))
    return pending, gone


@lru_cache(4096)
def modes_of(log, count):
    """The mode of each file that was synced since it was given."""
    given, modes = {}, {}
    for op in log.ops[:count]:
        if op.kind == "mode":
            given[op.node] = op.at
        elif op.kind == "sync" and op.node in given:
            modes[op.node] = given.pop(op.node)
    return modes


def in_order(log, pending, model, random):
    """Of these changes those that are left if each folder, or each disk, keeps its own up to some moment."""
    parts = sorted({part for at in pending for part in parts_of(log, model, log.ops[at])})
    until = {part: random.choice([-1, *pending]) for part in parts}
    left = set()
    for at in pending:
        parts = parts_of(log, model, log.ops[at])
        if all(at <= until[part] for part in parts):
            left.add(at)
        else:
            until.update(dict.fromkeys(parts, -1))
    return frozenset(left)


def extremes(log, count, model):
    """The states in which all or nothing is left."""
    names, (writes, _) = frozenset(pending_names(log, count, model)), pending_writes(log, count)
    none, all_of = dict.fromkeys(writes, 0), {node: len(ats) for node, ats in writes.items()}
    yield from (Choice(kept, chosen) for kept in (names, frozenset()) for chosen in (all_of, none))


def chosen(log, count, model, random):
    """One of the states that a crash after so many changes may leave."""
    names, (writes, _) = pending_names(log, count, model), pending_writes(log, count)
    is_weak = model == "weak"
    kept = frozenset(at for at in names if random.random() < 0.6) if is_weak else in_order(log, names, model, random)
    counts = {node: random.randint(0, len(ats)) for node, ats in writes.items()}
    some = [node for node in writes if counts[node] > 0]
    halves = frozenset(node for node in some if random.random() < 0.3)
    zeros = frozenset(node for node in some if is_weak and random.random() < 0.3)
    return Choice(kept, counts, halves, zeros)


def left(log, count, model, choice):
    """The names of each folder, and the data and the mode of each file that are left."""
    pending, (writes, gone) = set(pending_names(log, count, model)), pending_writes(log, count)
    last = {node: ats[choice.writes[node] - 1] for node, ats in writes.items() if choice.writes[node] > 0}
    dropped = gone | {at for node, ats in writes.items() for at in ats[choice.writes[node]:]}
    names = {at: dict(node.names) for at, node in enumerate(log.nodes)}
    data = {at: bytearray(node.data) for at, node in enumerate(log.nodes)}
    for at, op in enumerate(log.ops[:count]):
        if op.kind == "names" and (at not in pending or at in choice.names):
            for folder, name, node in op.names:
                if node is None:
                    names[folder].pop(name, None)
                else:
                    names[folder][name] = node
        elif op.kind in ("write", "truncate") and at not in dropped:
            part = op.data
            if at == last.get(op.node):
                part = part[:len(part) // 2] if op.node in choice.halves else part
            if op.node in choice.zeros and op.node in writes and at in writes[op.node]:
                part = bytes(len(part))
            change_data(data[op.node], op, part)
    return names, data, modes_of(log, count)


def change_data(data, op, part):
    """Does a write or a truncation to data. Where a file ended before, zeros come between."""
    end = op.at if op.kind == "truncate" else op.at + len(part)
    data.extend(bytes(max(0, end - len(data))))
    if op.kind == "truncate":
        del data[end:]
    else:
        data[op.at:end] = part


def key_of(log, state, at=0):
    """What tells a state from others."""
    names, data, modes = state
    node = log.nodes[at]
    if node.kind == "folder":
        return tuple((name, key_of(log, state, names[at][name])) for name in sorted(names[at]))
    return node.kind, at, bytes(data[at]), modes.get(at)


def write_state(log, state, path):
    """Makes the state at a path."""
    names, data, modes = state
    made = {}

    def make(at, path):
        node = log.nodes[at]
        if at in made:
            os.link(made[at], path, follow_symlinks=False)
        elif node.kind == "folder":
            os.mkdir(path)
            for name, child in sorted(names[at].items()):
                make(child, f"{path}/{name}")
        elif node.kind == "link":
            os.symlink(bytes(data[at]), path)
        elif node.kind == "pipe":
            os.mkfifo(path)
        else:
            with open(path, "wb") as file:
                file.write(data[at])
            os.chmod(path, modes.get(at, node.mode))
        if node.kind != "folder":
            made.setdefault(at, path)

    make(0, path)
