"""The folder beside STORE in which an import makes it, `STORE.importing`.

    LOCK          locked by the import at work, and by its `load`
    IMPORTING     in JSON, the site folders in which files of an uncompared store may be
    COMPARED      the same mark, renamed after the comparison: from here on nothing may be removed
    catalog.toml  the catalog that is loaded
    NAME/         the store; NAME is never used twice

A catalog that goes into the folders of sites begins with a line that has NAME, so files that are removed there are those
of this import and no other's.
"""
from __future__ import annotations

import fcntl
import json
import os
import shutil
from collections.abc import Iterable
from types import TracebackType

from .catalog import read_catalog
from .errors import DataError, device
from .places import CATALOG, read, read_sites
from .types import FILE

MARK, COMPARED, LOCK = "IMPORTING", "COMPARED", "LOCK"
PARTIAL = ".partial"


def sync(path: str) -> None:
    """Brings a file or the names of a folder to the disk."""
    opened = os.open(path, os.O_RDONLY)
    try:
        os.fsync(opened)
    finally:
        os.close(opened)


def write(path: str, data: bytes) -> None:
    with open(path, "wb") as file:
        file.write(data)
        file.flush()
        os.fsync(file.fileno())


def give(folders: Iterable[str], name: str, data: bytes) -> None:
    """Writes a file into folders, and brings it and its names to the disk."""
    for folder in folders:
        write(os.path.join(folder, name), data)
        sync(folder)


def locked(path: str) -> int:
    """An exclusive lock of a file, which is made if it is not there; below 0 if somebody has one. It does not wait."""
    lock = os.open(path, os.O_CREAT | os.O_RDWR, 0o644)
    try:
        fcntl.flock(lock, fcntl.LOCK_EX | fcntl.LOCK_NB)
        same = os.path.samestat(os.fstat(lock), os.stat(path))
    except (BlockingIOError, FileNotFoundError):
        same = False
    if not same:
        os.close(lock)
    return lock if same else -1


def remove(path: str) -> None:
    try:
        os.remove(path)
    except FileNotFoundError:
        pass


def clear_site(folder: str, catalog: bytes) -> None:
    """Removes what an uncompared load left in a site's folder, if its catalog there is this one, the catalog last."""
    for name in (CATALOG, CATALOG + PARTIAL):
        path = os.path.join(folder, name)
        found = read(path) if os.path.isfile(path) else None
        if found == catalog:
            files = [file for file, _ in read_catalog(catalog, path).file_names()]
            for file in [*files, FILE]:
                remove(os.path.join(folder, file))
                remove(os.path.join(folder, file + PARTIAL))
            sync(folder)
            remove(path)
        elif found is not None and name != CATALOG and catalog.startswith(found):
            # (killed while it was written: no other file is there yet)
            remove(path)


class Workshop:
    """The folder at work. Left without `finish`, it takes away all that was made."""

    def __init__(self, drafted: str, store: str, sites: str | None) -> None:
        self.named = store.rstrip("/") or store
        self.folder = f"{self.named}.importing"
        self.sites = sites
        self.site_folders = [os.path.abspath(it) for it in read_sites(sites).values()] if sites else []
        self.name = os.urandom(8).hex()
        self.store = self.path(self.name)
        self.catalog = self.path(CATALOG)
        self.drafted = drafted
        self.lock = -1

    def path(self, name: str) -> str:
        return os.path.join(self.folder, name)

    def __enter__(self) -> Workshop:
        try:
            self.refuse_existing()
            if not os.path.isdir(self.folder):
                os.mkdir(self.folder)
            self.take_lock()
            try:
                self.refuse_existing()
                self.clear()
                self.begin()
            except BaseException:
                self.leave()
                raise
        except OSError as error:
            raise device(error, "check the path and the room on its disk") from None
        return self

    def refuse_existing(self) -> None:
        if os.path.lexists(self.named):
            raise DataError(f"{self.named} already exists", "give another path")

    def take_lock(self) -> None:
        strange = set(os.listdir(self.folder))
        if strange and LOCK not in strange:
            raise DataError(f"{self.folder} is there, and is no folder of an import", "move it away, or give another path")
        self.lock = locked(self.path(LOCK))
        if self.lock < 0:
            raise DataError(f"another import of {self.named} is running", "wait for it to end")

    def clear(self) -> None:
        """Removes what a killed import left."""
        names = set(os.listdir(self.folder)) - {LOCK}
        stores = [it for it in names if os.path.isdir(self.path(it))]
        if COMPARED in names and stores:
            raise DataError(f"{self.path(stores[0])} was imported and compared, and lacks only its name",
                            f"mv {self.path(stores[0])} {self.named}; rm -r {self.folder}")
        if MARK in names:
            catalog = read(self.catalog)
            for folder in json.loads(read(self.path(MARK)))["folders"]:
                if os.path.isdir(folder):
                    clear_site(folder, catalog)
        for name in sorted(names - {MARK, CATALOG}):
            shutil.rmtree(self.path(name)) if name in stores else os.remove(self.path(name))
        for name in (MARK, CATALOG):
            remove(self.path(name))

    def begin(self) -> None:
        catalog = read(os.path.join(self.drafted, CATALOG))
        if self.sites:
            catalog = f"# pinepolo-data import {self.name}\n".encode() + catalog
        write(self.catalog, catalog)
        mark = self.path(MARK)
        write(mark + PARTIAL, json.dumps({"folders": self.site_folders}).encode())
        os.rename(mark + PARTIAL, mark)
        sync(self.folder)

    def finish(self) -> None:
        """Gives the store its types, and its name last. All is on the disk by then."""
        try:
            types = os.path.join(self.drafted, FILE)
            if os.path.isfile(types):
                give([self.store, *self.site_folders], FILE, read(types))
            os.rename(self.path(MARK), self.path(COMPARED))
            sync(self.folder)
            os.rename(self.store, self.named)
            sync(os.path.dirname(os.path.abspath(self.named)))
        except OSError as error:
            raise device(error, "mend the disk, and run the import again") from None

    def __exit__(self, kind: type[BaseException] | None, error: BaseException | None, trace: TracebackType | None) -> None:
        self.leave()

    def leave(self) -> None:
        """Takes away what was made. What can't be taken away is left for the next import of this store."""
        try:
            self.clear()
            os.remove(self.path(LOCK))
            os.rmdir(self.folder)
        except (OSError, DataError):
            pass
        finally:
            os.close(self.lock)
