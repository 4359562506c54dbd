"""Work in several processes of this machine, as many as the memory allows."""
from __future__ import annotations

import os
import pickle
import re
import signal
import sys
import tempfile
from collections import deque
from collections.abc import Callable, Iterable, Iterator
from typing import IO, Any, Generic, NoReturn, TypeVar

from .errors import DEVICE, DataError
from .program import ending_with

Item = TypeVar("Item")
UNITS = {"": 1, "K": 10**3, "M": 10**6, "G": 10**9, "T": 10**12}
# What a process of Python takes beside the store that it works on.
PROCESS = 50_000_000


def size_of(text: str) -> int:
    """The bytes that a text such as `4G` says. A ValueError if it says none."""
    found = re.fullmatch(r"([1-9][0-9]{0,14})([KMGT]?)B?", text.upper())
    if not found:
        raise ValueError(f"{text!r} is no size such as 4G or 500M")
    return int(found[1]) * UNITS[found[2]]


def available() -> int:
    """The bytes of memory that can be had now."""
    with open("/proc/meminfo", encoding="ascii") as file:
        return next(int(line.split()[1]) * 1024 for line in file if line.startswith("MemAvailable:"))


def jobs_for(memory: int | None, each: int) -> int:
    """How many processes that take so many bytes each fit into the memory: one at least, at most one a processor."""
    return max(1, min(os.cpu_count() or 1, (available() if memory is None else memory) // (each + PROCESS)))


def share_of(memory: int | None) -> int:
    """What of the memory a process may take for its store, if each processor has one that is worth it."""
    memory = available() if memory is None else memory
    share = memory // jobs_for(memory, 3 * PROCESS)
    return max(share - PROCESS, share // 2)


def in_order(work: Callable[[Item, IO[bytes]], Any], items: Iterable[Item], jobs: int) -> Iterator[tuple[Any, IO[bytes]]]:
    """What `work` answers for each item, and the file that it wrote, in the order of the items.

    Each item has a process of its own, at most `jobs` at a time. What a process raises is raised here, and the others end.
    Items are made one by one, as there is room for them.
    """
    running: deque[Job[Item]] = deque()
    try:
        for item in items:
            running.append(Job(work, item))
            if len(running) == jobs:
                yield from running[0].results()
                running.popleft()
        while running:
            yield from running[0].results()
            running.popleft()
    finally:
        for it in running:
            it.stop(signal.SIGTERM)
            it.close()


class Job(Generic[Item]):
    """A process that works on an item. It ends with this one."""

    def __init__(self, work: Callable[[Item, IO[bytes]], Any], item: Item) -> None:
        self.output, self.answer = tempfile.TemporaryFile(), tempfile.TemporaryFile()
        sys.stdout.flush()
        sys.stderr.flush()
        parent = os.getpid()
        self.status: int | None = None
        self.process = os.fork()
        if not self.process:
            self.work(work, item, parent)

    def work(self, work: Callable[[Item, IO[bytes]], Any], item: Item, parent: int) -> NoReturn:
        """The life of the process."""
        try:
            signal.signal(signal.SIGTERM, lambda *_: sys.exit())
            ending_with(parent)()
            try:
                found = True, work(item, self.output)
                self.output.flush()
            except (Exception, KeyboardInterrupt) as error:
                found = False, error
            pickle.dump(found, self.answer)
            self.answer.flush()
        finally:
            os._exit(0)

    def results(self) -> Iterator[tuple[Any, IO[bytes]]]:
        """What the work answered, and its file, which is open until the next step."""
        try:
            self.stop(0)
            self.answer.seek(0)
            data = self.answer.read()
            if not data:
                raise DataError(f"a process was ended by signal {os.WTERMSIG(self.status or 0)}", "run it again, with less --memory if it was short", DEVICE)
            good, found = pickle.loads(data)
            if not good:
                raise found
            self.output.seek(0)
            yield found, self.output
        finally:
            self.close()

    def stop(self, by: int) -> None:
        """Waits for the end of the process. A signal, if it is not 0, ends it sooner."""
        if self.status is None:
            os.kill(self.process, by)
            self.status = os.waitpid(self.process, 0)[1]

    def close(self) -> None:
        self.output.close()
        self.answer.close()
