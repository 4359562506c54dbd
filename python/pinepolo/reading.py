"""What is read of a partitioned table: its rows, the check of all its stores, and any verb for each."""
from __future__ import annotations

import io
import marshal
import os
import subprocess
from collections.abc import Callable, Iterator, Sequence
from typing import IO, Any

from . import program
from .columns import Column
from .database import sql_values
from .dumped import dumped
from .errors import DataError
from .generations import about, need_own, sites_of
from .kinds import Stored
from .making import CHUNK, TIMES
from .parallel import in_order, jobs_for
from .partitioned import FIELD, Partition, PartitionedTable
from .types import make_type

Blocks = Iterator[list[list[Stored]]]


class Reading:
    """The stores of a table, each with a process of its own, as many at a time as the memory allows."""

    def __init__(self, folder: str, table: PartitionedTable, memory: int | None = None, lost: str | None = None) -> None:
        self.folder, self.table, self.lost = folder.rstrip("/") or folder, table, lost
        self.types = table.types
        self.jobs = jobs_for(memory, TIMES * table.row_bytes * max(it.rows for it in table.partitions))

    def each(self, work: Callable[[Partition, IO[bytes]], Any]) -> Iterator[tuple[Any, IO[bytes]]]:
        """What `work` answers and writes for each store, in the order of the key."""
        def own(it: Partition, out: IO[bytes]) -> Any:
            with about(self.path(it)):
                need_own(self.folder, it)
                return work(it, out)

        return in_order(own, self.table.partitions, self.jobs)

    def path(self, it: Partition) -> str:
        return os.path.join(self.folder, it.store)

    def blocks(self, it: Partition, columns: list[Column] | None = None) -> Blocks:
        return dumped(self.path(it), self.table.types, self.sites(it), self.lost, columns)

    def texts(self, head: str, make: Callable[[Blocks], Iterator[str]]) -> Iterator[str]:
        """A head, and the texts that are made of the rows, in the order of the key."""
        def work(it: Partition, file: IO[bytes]) -> None:
            for text in make(self.blocks(it)):
                file.write(text.encode())

        for _, file in self.each(work):
            with io.TextIOWrapper(file, encoding="utf-8", newline="") as made:
                while text := made.read(CHUNK):
                    yield head + text
                    head = ""
        yield head

    def values(self, columns: Sequence[Column]) -> Iterator[list[list[Any]]]:
        """Blocks of the values of columns as SQL has them."""
        def work(it: Partition, file: IO[bytes]) -> None:
            for block in self.blocks(it, list(columns)):
                marshal.dump(list(map(sql_values, columns, block)), file)

        for _, file in self.each(work):
            while True:
                try:
                    yield marshal.load(file)
                except EOFError:
                    break

    def check(self) -> Iterator[str]:
        """Checks each store, and that its rows are those of its range."""
        key = Column(self.table.catalog.key, make_type(self.table.catalog.kind(self.table.catalog.key)))
        bounds = [*(it.start for it in self.table.partitions[1:]), None]
        ends = dict(zip(self.table.partitions, bounds))

        def work(it: Partition, _: IO[bytes]) -> str:
            told = program.check(self.path(it), self.sites(it))
            rows, first, last = 0, None, None
            for block in self.blocks(it, [key]):
                keys = block[0][0]
                first, last, rows = keys[0] if not rows else first, keys[-1], rows + len(keys)
            end = ends[it]
            if (rows, last) != (it.rows, it.last) or rows and not (it.start is None or it.start <= first) or rows and not (end is None or last < end):
                raise DataError(f"{self.path(it)}: {rows} rows with keys from {first!r} to {last!r} are not those that table.toml names",
                                "put the right store, or the right table.toml there")
            return f"{it.store}: {told}"

        for told, _ in self.each(work):
            yield told
        yield f"ok rows={self.table.rows()} stores={len(self.table.partitions)}\n"

    def sites(self, it: Partition) -> str | None:
        return sites_of(self.folder, self.table, it.store)

    def verbs(self, words: Sequence[str], only: str | None = None) -> Iterator[tuple[int, str, bytes]]:
        """The status, the store and what it printed, of a verb of pinepolo for each store, or for one."""
        chosen = [it for it in self.table.partitions if only in (None, it.store)]
        if not chosen:
            raise DataError(f"{self.folder} has no store {only}", "an append may have made it anew: take the stores of table.toml")

        def work(it: Partition, file: IO[bytes]) -> int:
            command = [program.find(), words[0], *program.site_words(self.sites(it)), *self.filled(words[1:], it)]
            return subprocess.run(command, stdin=subprocess.DEVNULL, stdout=file, stderr=subprocess.STDOUT,
                                  preexec_fn=program.ending_with(os.getpid()), check=False).returncode

        for (status, file), it in zip(in_order(work, chosen, self.jobs), chosen):
            yield status, it.store, file.read()

    def filled(self, words: Sequence[str], it: Partition) -> list[str]:
        """Words with the path of a store in the place of `{}`, or behind them, and with its name in that of `{store}`."""
        behind = [] if "{}" in words else ["{}"]
        return [self.path(it) if word == "{}" else word.replace(FIELD, it.store) for word in [*words, *behind]]

