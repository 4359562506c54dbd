"""The folders of a store's sites (docs/formats.md, "A SITES file")."""
from __future__ import annotations

import os
from typing import Any

from .catalog import Catalog, read_catalog
from .errors import DEVICE, USAGE, DataError
from .places import CATALOG, copies, one_of, read_sites

def identity(folder: str) -> Any:
    """What tells a folder from others: its device and inode. Of one that is not there, those of the folder around it, and its
    name."""
    folder = os.path.abspath(folder)
    try:
        found = os.stat(folder)
        return found.st_dev, found.st_ino
    except OSError:
        around, name = os.path.split(folder)
        return (identity(around), name) if name else folder


def need_sites(path: str, folders: dict[int, str], catalog: Catalog) -> None:
    """Raises a DataError, unless the folders are those of the catalog's sites, and are different."""
    for number in folders:
        if number > catalog.sites:
            raise DataError(f"{path}: the catalog has no site {number}", status=USAGE)
    seen: dict[Any, int] = {}
    for number in range(1, catalog.sites + 1):
        if number not in folders:
            raise DataError(f"{path}: site {number} is missing", status=USAGE)
        other = seen.setdefault(identity(folders[number]), number)
        if other != number:
            raise DataError(f"{path}: sites {other} and {number} have one folder", status=USAGE)


class Places:
    """Where the files of a store are: in its folder, or each in that of its site if there is a SITES file.

    A site is away if its folder has no catalog.toml: nothing in it is read.
    """

    def __init__(self, store: str, sites: str | None) -> None:
        self.store, self.sites = store, sites
        self.folders = read_sites(sites) if sites is not None else None
        found = copies(CATALOG, [store, *(self.folders or {}).values()])
        if not found:
            raise DataError(f"could not read the catalog at {store}",
                            "check that it is a store, and that its catalog is a regular file of at most 1 MiB", DEVICE)
        path, data = one_of(CATALOG, found)
        self.catalog = read_catalog(data, path)
        if sites is not None and self.folders is not None:
            need_sites(sites, self.folders, self.catalog)
        self.away = {it for it, folder in (self.folders or {}).items() if os.path.join(folder, CATALOG) not in found}

    def path(self, name: str, site: int) -> str:
        """The path of a file of a site."""
        return os.path.join(self.store if self.folders is None else self.folders[site], name)

    def has(self, name: str, site: int) -> bool:
        """Whether a file is there."""
        return site not in self.away and os.path.isfile(self.path(name, site))
