"""The folder of a partitioned table, TABLE: who writes it, who reads it, and what is removed when.

    table.toml  names the stores that are the table: one rename of it commits a run
    LOCK        locked by the run that writes, and by all that it starts
    READERS     locked for others too by those who read: old generations go only if nobody holds it
    NNN.G       a store: partition NNN, of the run that took the number G
    NNN.G.new   what is needed to make the store, and to remove it again: it goes after the commit
    rows.new    rows that wait to be sorted

A run takes the next number by writing table.toml, before it makes anything. So no name is used twice, also after a kill.
"""
from __future__ import annotations

import fcntl
import hashlib
import os
import re
import shutil
from collections.abc import Iterable, Iterator, Sequence
from contextlib import contextmanager
from dataclasses import replace
from types import TracebackType

from .catalog import read_catalog
from .errors import DataError, device
from .partitioned import FILE, STORE, Partition, PartitionedTable, read_table
from .places import CATALOG, read, read_sites
from .types import FILE as FILE_OF_TYPES
from .workshop import LOCK, PARTIAL, locked, remove, sync, write

READERS, NEW, ROWS, SITES = "READERS", ".new", "rows.new", "sites.toml"
# What a restore of a site leaves in its folder: what it replaced, and a file that it was writing when it was killed.
REPLACED, RESTORING = "replaced", ".restoring"
# (a `load` that begins has a number behind its partial folder for a moment)
MADE = re.compile(rf"({STORE.pattern})(?:{re.escape(NEW)}|{re.escape(PARTIAL)}(?:\.\d+)?)?")


def is_table(path: str) -> bool:
    """Whether a folder is a partitioned table's."""
    return os.path.lexists(os.path.join(path, FILE))


@contextmanager
def reading(folder: str) -> Iterator[PartitionedTable]:
    """The table as one reading of table.toml has it. Its stores stay until the block ends."""
    try:
        readers = os.open(os.path.join(folder, READERS), os.O_RDONLY)
    except OSError as error:
        raise device(error, "check that it is the folder of a table") from None
    try:
        # (the exclusive lock is held for a moment only, without other work)
        fcntl.flock(readers, fcntl.LOCK_SH)
        table = read_table(folder)
        if not table.partitions:
            raise DataError(f"{folder} has no stores: its import did not end", "run the import again")
        yield table
    finally:
        os.close(readers)


def sites_of(folder: str, table: PartitionedTable, store: str) -> str | None:
    """The SITES file of a store, if its sites have folders of their own."""
    return os.path.join(folder, store, SITES) if table.sites else None


@contextmanager
def about(path: str) -> Iterator[None]:
    """What is refused in the block is said of this store."""
    try:
        yield
    except DataError as error:
        if path not in error.message:
            error.message = f"{path}: {error.message}"
        raise


def need_own(folder: str, it: Partition) -> None:
    """Refuses a store that is not the one which table.toml names."""
    path = os.path.join(folder, it.store)
    if not os.path.isdir(path):
        raise DataError(f"{path} is missing, and {FILE} names it", "put the store back there: there may be a copy of it")
    data = read(os.path.join(path, CATALOG))
    if hashlib.sha256(data).hexdigest() != it.catalog:
        raise DataError(f"{path}: its {CATALOG} is not the one that {FILE} names: it is a store of another table or generation",
                        "put the right store there")


class Writing:
    """A table that is written: one run at a time. What it made and did not commit is removed at the end."""

    def __init__(self, folder: str, first: PartitionedTable | None = None) -> None:
        self.folder = folder.rstrip("/") or folder
        self.first = first
        self.lock = -1
        self.table: PartitionedTable

    def path(self, *names: str) -> str:
        return os.path.join(self.folder, *names)

    def __enter__(self) -> Writing:
        try:
            if self.first and not os.path.lexists(self.folder):
                os.mkdir(self.folder)
                sync(os.path.dirname(os.path.abspath(self.folder)))
            self.take_lock()
            try:
                self.begin()
            except BaseException:
                self.leave()
                raise
        except OSError as error:
            raise self.failed(error) from None
        return self

    def failed(self, error: OSError) -> DataError:
        return device(OSError(error.errno, error.strerror, error.filename or self.folder), "check the path and the room on its disk")

    def take_lock(self) -> None:
        if self.first and not set(os.listdir(self.folder)) <= {LOCK, READERS, FILE, FILE + NEW} and not is_table(self.folder):
            raise DataError(f"{self.folder} is there, and is no table", "give another path")
        if not self.first and not is_table(self.folder):
            raise DataError(f"{self.folder} is no table: it has no {FILE}", "check the path, or import one by --rows-per-store or --memory")
        self.lock = locked(self.path(LOCK))
        if self.lock < 0:
            raise DataError(f"an import or an append to {self.folder} is at work", "wait for it to end")

    def begin(self) -> None:
        """Removes what killed runs left, and takes a number."""
        before = read_table(self.folder) if is_table(self.folder) else None
        for found in filter(None, map(STORE.fullmatch, os.listdir(self.folder))):
            if before and int(found[2]) > before.generation:
                raise DataError(f"{self.path(FILE)} is an older copy: {found[0]} is of a later run", f"put the {FILE} of that run there")
        self.table = before or self.first  # type: ignore[assignment]
        self.clear()
        if self.first and before:
            if before.partitions:
                raise DataError(f"{self.folder} already exists", "give another path, or take append")
            self.table = replace(self.first, generation=before.generation)
        if not os.path.exists(self.path(READERS)):
            write(self.path(READERS), b"")
        self.put(replace(self.table, generation=self.table.generation + 1))

    def put(self, table: PartitionedTable) -> None:
        """Writes table.toml. All that it names is on the disk by then."""
        write(self.path(FILE + NEW), table.text().encode())
        sync(self.folder)
        os.rename(self.path(FILE + NEW), self.path(FILE))
        self.table = table
        sync(self.folder)

    def commit(self, partitions: Sequence[Partition]) -> list[str]:
        """Makes these stores the table, and answers which old ones could not be removed yet."""
        self.put(replace(self.table, partitions=tuple(partitions)))
        return self.clear()

    def clear(self) -> list[str]:
        """Removes what table.toml does not name. What can't be removed now is left for the next run, and answered."""
        named = {it.store for it in self.table.partitions}
        made: dict[str, set[str]] = {}
        for name in sorted(os.listdir(self.folder)):
            if found := MADE.fullmatch(name):
                made.setdefault(found[1], set()).add(name)
        left = []
        for store, names in made.items():
            try:
                if store in named:
                    rmtree(self.path(store + NEW))
                elif store + NEW in names or self.nobody_reads():
                    self.remove(store, names)
                else:
                    left.append(store)
            except (OSError, DataError):
                left.append(store)
        rmtree(self.path(ROWS))
        remove(self.path(FILE + NEW))
        return left

    def nobody_reads(self) -> bool:
        """Whether nobody reads what table.toml named before. Who begins to read now, reads what it names now."""
        readers = locked(self.path(READERS))
        if readers >= 0:
            os.close(readers)
        return readers >= 0

    def remove(self, store: str, names: set[str]) -> None:
        """Removes a store with all these names, and the folder of each of its sites that has its catalog; last what says where all
        this was."""
        at = self.path(store + NEW if store + NEW in names else store)
        if os.path.isfile(os.path.join(at, SITES)) and os.path.isfile(os.path.join(at, CATALOG)):
            catalog = read(os.path.join(at, CATALOG))
            for folder in read_sites(os.path.join(at, SITES)).values():
                if os.path.isdir(folder):
                    remove_site(folder, catalog)
        for name in (*(names - {store + NEW}), store + NEW):
            rmtree(self.path(name))

    def __exit__(self, kind: type[BaseException] | None, error: BaseException | None, trace: TracebackType | None) -> None:
        self.leave()
        if isinstance(error, OSError):
            raise self.failed(error) from None

    def leave(self) -> None:
        """Removes what was not committed; of a first import that failed all. What can't be removed is left for the next run."""
        try:
            left = self.clear()
            if self.first and not self.table.partitions and not left:
                for name in (FILE, READERS, LOCK):
                    remove(self.path(name))
                os.rmdir(self.folder)
        except (OSError, DataError, AttributeError):
            pass
        finally:
            os.close(self.lock)


def remove_site(folder: str, catalog: bytes) -> None:
    """Removes a store from the folder of a site, if the catalog there is this one, whole or half written. It goes last, and then
    the folder, if nothing is in it that is not the store's."""
    names = os.listdir(folder)
    own = [it for it in (CATALOG, CATALOG + PARTIAL) if it in names and catalog.startswith(read(os.path.join(folder, it)))]
    if own:
        files = [*(it for it, _ in read_catalog(catalog, folder).file_names()), FILE_OF_TYPES]
        kept = os.path.join(folder, REPLACED)
        for number in os.listdir(kept) if os.path.isdir(kept) else ():
            remove_files(os.path.join(kept, number), files)
        remove_empty(kept)
        remove_files(folder, [it + end for it in files for end in ("", PARTIAL, RESTORING)])
        remove_files(folder, own)
    remove_empty(folder)


def remove_files(folder: str, names: Iterable[str]) -> None:
    """Removes the files of these names, and then the folder, if nothing else is in it."""
    if os.path.isdir(folder):
        for name in names:
            path = os.path.join(folder, name)
            if os.path.islink(path) or not os.path.isdir(path):
                remove(path)
        remove_empty(folder)


def remove_empty(folder: str) -> None:
    if os.path.isdir(folder) and not os.path.islink(folder) and not os.listdir(folder):
        os.rmdir(folder)


def rmtree(path: str) -> None:
    """Removes a file or a folder, if it is there."""
    if os.path.isdir(path) and not os.path.islink(path):
        shutil.rmtree(path)
    else:
        remove(path)
