"""The calls of a traced program that change files, as a log over the files and folders that stood there before."""
import copy
import os
import re
import stat
import subprocess
import tempfile
from dataclasses import dataclass, field

# Calls that change files, and those by which it is known on which file they are done.
CHANGES = ("openat", "write", "pwrite64", "ftruncate", "link", "linkat", "rename", "renameat", "renameat2", "unlink",
           "unlinkat", "rmdir", "mkdir", "mkdirat", "symlink", "symlinkat", "chmod", "fchmod", "fsync", "fdatasync", "close")
LINE = re.compile(r"^(\d+) +(\w+)\((.*)\) += (-?\d+)(.*)$")
UNFINISHED = re.compile(r"^(\d+) +(.*) <unfinished \.\.\.>$")
CLOSING = re.compile(r"^(\d+ +close\(.*) <unfinished \.\.\.>$")
RESUMED = re.compile(r"^(\d+) +<\.\.\. \w+ resumed>(.*)$")


@dataclass
class Node:
    """A file, a folder, a link or a pipe, as it stood on the disk at first."""
    kind: str
    data: bytes = b""
    names: dict = field(default_factory=dict)
    mode: int = 0o644


@dataclass
class Op:
    """A change: of names (folder, name, node or None) at one blow, of the data or the mode of a node, or that a node is synced."""
    kind: str
    names: tuple = ()
    node: int = -1
    at: int = 0
    data: bytes = b""


class Log:
    """The changes below a folder, over all programs that were traced, with what each of them sees.

    All is on one disk, or each folder in it is a disk.
    """

    def __init__(self, root, has_disks=False):
        self.root, self.has_disks = os.path.realpath(root), has_disks
        self.nodes, self.ops, self.seen = [], [], {}
        self.names, self.sizes, self.disks = {}, {}, []
        self.scan(self.root, "")

    def until(self, count, state, root):
        """The log after so many changes, of a folder at another place in which this state was made."""
        log = copy.copy(self)
        log.root, log.nodes, log.disks, log.ops = os.path.realpath(root), list(self.nodes), list(self.disks), self.ops[:count]
        log.names = {at: dict(names) for at, names in state[0].items()}
        log.sizes = {at: len(data) for at, data in state[1].items()}
        return log

    def scan(self, path, disk):
        """The node of what stands at a path."""
        found = os.lstat(path)
        if (at := self.seen.get(found.st_ino)) is not None:
            return at
        at = self.seen[found.st_ino] = self.add(Node("pipe"), disk)
        node = self.nodes[at]
        if stat.S_ISDIR(found.st_mode):
            node.kind = "folder"
            node.names = {name: self.scan(f"{path}/{name}", disk or self.disk_of(f"{path}/{name}")) for name in sorted(os.listdir(path))}
            self.names[at] = dict(node.names)
        elif stat.S_ISLNK(found.st_mode):
            node.kind, node.data = "link", os.readlink(path).encode()
        elif stat.S_ISREG(found.st_mode):
            with open(path, "rb") as file:
                node.kind, node.data, node.mode = "file", file.read(), stat.S_IMODE(found.st_mode)
            self.sizes[at] = len(node.data)
        return at

    def disk_of(self, path):
        """The disk of what stands in the root, as the name of its folder, or none."""
        return os.path.basename(path) if self.has_disks and os.path.isdir(path) else ""

    def add(self, node, disk):
        self.nodes.append(node)
        self.disks.append(disk)
        at = len(self.nodes) - 1
        self.names[at], self.sizes[at] = {}, 0
        return at

    def place(self, path):
        """The folder's node and the name of a path below the root, as far as it is there."""
        path = os.path.normpath(path)
        if path != self.root and not path.startswith(self.root + "/"):
            return None
        at, name = 0, ""
        for part in path[len(self.root):].split("/")[1:]:
            if name:
                at = self.names[at][name]
            name = part
        return at, name

    def node(self, path):
        place = self.place(path)
        if place is None or not place[1]:
            return None if place is None else 0
        return self.names[place[0]].get(place[1])

    def change(self, *names):
        """Names that change at one blow."""
        if len({self.disks[folder] for folder, _, _ in names}) > 1:
            raise ValueError(f"a name from one disk to another: {names}")
        for folder, name, node in names:
            if node is None:
                self.names[folder].pop(name, None)
            else:
                self.names[folder][name] = node
        self.ops.append(Op("names", names=names))

    def make(self, kind, path, data=b""):
        if (place := self.place(path)) is not None:
            self.change((*place, self.add(Node(kind, data), self.disks[place[0]])))

    def write(self, node, at, data):
        self.sizes[node] = max(self.sizes[node], at + len(data))
        self.ops.append(Op("write", node=node, at=at, data=data))

    def truncate(self, node, size):
        self.sizes[node] = size
        self.ops.append(Op("truncate", node=node, at=size))

    def read(self, lines):
        """Takes the calls of one program, in the order in which they ended."""
        files = {}
        for call, words, result in calls(lines):
            if result >= 0 or call in ("fsync", "fdatasync"):
                self.take(files, call, words, result)

    def take(self, files, call, words, result):
        paths = [text_of(word) for word in words if word.startswith('"')]
        if call == "openat":
            files[result] = self.opened(paths[0], words[2])
        elif call == "close":
            files.pop(number_of(words[0]), None)
        elif call in ("write", "pwrite64", "ftruncate", "fchmod", "fsync", "fdatasync"):
            if (file := files.get(number_of(words[0]))) is not None:
                self.on_file(file, call, words, result)
        elif call.startswith("mkdir"):
            self.make("folder", paths[0])
        elif call.startswith("symlink"):
            self.make("link", paths[1], paths[0].encode())
        elif (place := self.place(paths[0])) is None:
            return
        elif call in ("unlink", "unlinkat", "rmdir"):
            self.change((*place, None))
        elif call == "chmod":
            self.ops.append(Op("mode", node=self.node(paths[0]), at=int(words[1], 8)))
        else:
            node = self.names[place[0]][place[1]]
            gone = [(*place, None)] if call.startswith("rename") else []
            self.change(*gone, (*self.place(paths[1]), node))

    def opened(self, path, flags):
        """The node, the position and whether all is written at the end, of a file below the root."""
        if (place := self.place(path)) is None:
            return None
        node = self.node(path)
        if node is None:
            node = self.add(Node("file"), self.disks[place[0]])
            self.change((*place, node))
        elif "O_TRUNC" in flags and self.sizes[node] > 0:
            self.truncate(node, 0)
        return [node, 0, "O_APPEND" in flags]

    def on_file(self, file, call, words, result):
        node, at, appends = file
        if call in ("fsync", "fdatasync"):
            self.ops.append(Op("sync" if result == 0 else "unsynced", node=node))
        elif call == "ftruncate":
            self.truncate(node, int(words[1]))
        elif call == "fchmod":
            self.ops.append(Op("mode", node=node, at=int(words[1], 8)))
        else:
            data = bytes_of(words[1])[:result]
            if call == "pwrite64":
                at = int(words[3])
            elif appends:
                at = self.sizes[node]
            self.write(node, at, data)
            file[1] = at + len(data)


def number_of(word):
    return int(word.partition("<")[0])


def bytes_of(word):
    if not word.endswith('"'):
        raise ValueError("a string of the trace is cut")
    return bytes.fromhex(word.strip('"').replace("\\x", ""))


def text_of(word):
    return os.fsdecode(bytes_of(word))


def joined(lines):
    """The lines of a trace, each with a whole call: the two parts of one that another thread came between are joined.

    A close stands where it began: another thread may get its number before it ends.
    """
    begun = {}
    for line in lines:
        if found := CLOSING.match(line):
            yield f"{found[1]}) = 0"
        elif found := UNFINISHED.match(line):
            begun[found[1]] = found[2]
        elif (found := RESUMED.match(line)) and found[1] in begun:
            yield f"{found[1]} {begun.pop(found[1])}{found[2]}"
        else:
            yield line


def calls(lines):
    """Each call that changes files, with its words and its result, as they ended."""
    for line in lines:
        if (found := LINE.match(line)) and found[2] in CHANGES:
            yield found[2], found[3].split(", "), int(found[4])


def is_below(line, path):
    """Whether a call is made on what stands below a path."""
    return "".join(f"\\x{byte:02x}" for byte in os.fsencode(path)) in line


def traced(words, calls=CHANGES, inject=None, path=None):
    """Runs a program under strace: its status, what it said, and its calls, a line each; those on a path alone if one is given."""
    with tempfile.NamedTemporaryFile("r") as trace:
        run = ["strace", "-f", "--quiet=attach,path-resolution", "-y", "-yy", "-xx", "-s", "16777216", "-e", "signal=none", "-e", f"trace={','.join(calls)}"]
        run += ["-e", f"inject={inject}"] if inject else []
        run += ["-P", path] if path else []
        done = subprocess.run([*run, "-o", trace.name, *words], stdin=subprocess.DEVNULL, capture_output=True, text=True)
        return done.returncode, done.stdout + done.stderr, list(joined(trace.read().splitlines()))
