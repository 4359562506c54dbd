"""A partitioned table: the stores of ranges of its key, and `table.toml`, which names them.

    table = read_table(folder)              # what TABLE/table.toml says
    table.text()                            # the text of table.toml
    for it in table.partitions:             # the stores, in the order of the key
        it.store                            # its folder in TABLE, such as 003.7: partition and generation
        it.start                            # its keys begin here, and end where the next one's begin

The first partition has no `start`: each key belongs to exactly one partition.
"""
from __future__ import annotations

import os
import re
import tomllib
from dataclasses import dataclass, replace
from typing import Any

from .catalog import Catalog, catalog_in
from .errors import DataError
from .layout import catalog_text, value_text
from .places import read, sites_in
from .toml_text import toml_string
from .types import Types, TypesReader, known, string

FILE, VERSION = "table.toml", 1
LONGEST = 1 << 26
STORE = re.compile(r"([0-9]{3,9})\.([0-9]{1,9})")
FIELD = "{store}"
ADVICE = "mend it by docs/data.md"


@dataclass(frozen=True)
class Partition:
    """A store of the table: its folder, the bound from which on its keys are (None: from the least), its greatest key (None
    without rows), its rows, and the SHA-256 digest of its catalog."""

    store: str
    start: Any
    last: Any
    rows: int
    catalog: str

    def text(self) -> str:
        bounds = [f"{name} = {value_text(it)}\n" for name, it in (("from", self.start), ("last", self.last)) if it is not None]
        return f'\n[[partition]]\nstore = "{self.store}"\n{"".join(bounds)}rows = {self.rows}\ncatalog = "{self.catalog}"\n'

    def number(self) -> int:
        return int(self.store.partition(".")[0])


@dataclass(frozen=True)
class PartitionedTable:
    """What table.toml says. `generation` is the last one that a run has taken, `row_bytes` what a row takes in a store about,
    and `sites` are folders with `{store}`."""

    id: str
    generation: int
    rows_per_store: int
    row_bytes: int
    types: Types
    catalog: Catalog
    sites: dict[int, str]
    partitions: tuple[Partition, ...] = ()

    def text(self) -> str:
        """The text of table.toml."""
        sites = [f"\n[[site]]\nnumber = {number}\nfolder = {toml_string(folder)}\n" for number, folder in sorted(self.sites.items())]
        return "".join([f'version = {VERSION}\nid = "{self.id}"\ngeneration = {self.generation}\nrows_per_store = {self.rows_per_store}\n'
                        f"row_bytes = {self.row_bytes}\n",
                        f"\n[types]\n{self.types.text('types.')}\n[catalog]\n{catalog_text(self.catalog, 'catalog.')}",
                        *sites, *(it.text() for it in self.partitions)])

    def rows(self) -> int:
        return sum(it.rows for it in self.partitions)

    def folders(self, store: str) -> dict[int, str]:
        """The folder of each site for one of the stores."""
        return {number: folder.replace(FIELD, store) for number, folder in self.sites.items()}

    def store_catalog(self, store: str, catalog: Catalog) -> bytes:
        """A catalog with a first line that no other store has."""
        return f"# pinepolo-data {self.id} {store}\n{catalog_text(catalog)}".encode()


def read_table(folder: str) -> PartitionedTable:
    """The table in a folder."""
    path = os.path.join(folder, FILE)
    return parse_table(read(path, LONGEST), path)


def parse_table(data: bytes, path: str) -> PartitionedTable:
    """The table that the bytes of a table.toml say."""
    try:
        return TableReader(tomllib.loads(data.decode()), path).table()
    except ValueError as error:
        raise DataError(f"{path}: {error}", ADVICE) from None


class TableReader:
    """Reads a table.toml. Each fault is a ValueError that says where, or a DataError."""

    def __init__(self, document: dict[str, Any], path: str) -> None:
        self.document, self.path = document, path

    def table(self) -> PartitionedTable:
        it = self.document
        version = integer(it, "the top", "version", 0)
        if version != VERSION:
            raise ValueError(f"version {version}, and this program knows version {VERSION}")
        known(it, "the top", {"version", "id", "generation", "rows_per_store", "row_bytes", "types", "catalog", "site", "partition"})
        catalog = self.catalog()
        found = PartitionedTable(string(it, "the top", "id"), integer(it, "the top", "generation", 0), integer(it, "the top", "rows_per_store", 1),
                                 integer(it, "the top", "row_bytes", 1), TypesReader(section(it, "types")).types(), catalog, self.sites(catalog))
        kind = int if catalog.kind(catalog.key) == "int" else str
        tables = sections(it, "partition")
        partitions = tuple(read_partition(table, number, kind) for number, table in enumerate(tables))
        follow(partitions)
        return replace(found, partitions=partitions)

    def catalog(self) -> Catalog:
        table = section(self.document, "catalog")
        known(table, "[catalog]", {"version", "table", "key", "sites", "safety", "column", "projection"})
        for it in sections(table, "column"):
            known(it, "[[catalog.column]]", {"name", "kind"})
        for it in sections(table, "projection"):
            known(it, "[[catalog.projection]]", {"name", "columns", "codes", "sort", "cuts", "sites", "joins"})
        return catalog_in(table, self.path)

    def sites(self, catalog: Catalog) -> dict[int, str]:
        if not self.document.get("site"):
            return {}
        for it in sections(self.document, "site"):
            known(it, "[[site]]", {"number", "folder"})
        return templates(sites_in(self.document, os.path.dirname(os.path.abspath(self.path))), catalog)


def templates(folders: dict[int, str], catalog: Catalog) -> dict[int, str]:
    """The folders of a table's sites. A ValueError says what is wrong with them."""
    if sorted(folders) != list(range(1, catalog.sites + 1)):
        raise ValueError(f"there are not the folders of sites 1 to {catalog.sites}")
    for number, folder in folders.items():
        if FIELD not in os.path.basename(folder):
            raise ValueError(f"site {number}: {folder} does not end with a name that has {FIELD}: each store has a folder of its own")
    return folders


def read_partition(table: dict[str, Any], number: int, kind: type) -> Partition:
    where = f"[[partition]] {number}"
    known(table, where, {"store", "from", "last", "rows", "catalog"})
    store, digest = string(table, where, "store"), string(table, where, "catalog")
    if not STORE.fullmatch(store):
        raise ValueError(f"{where}: {store!r} is no name of a store, such as 003.7")
    if not re.fullmatch(r"[0-9a-f]{64}", digest):
        raise ValueError(f"{where}: catalog is no SHA-256 digest")
    for name in ("from", "last"):
        if name in table and type(table[name]) is not kind:
            raise ValueError(f"{where}: {name} is no key of this table")
    found = Partition(store, table.get("from"), table.get("last"), integer(table, where, "rows", 0), digest)
    if (found.start is None) != (number == 0) or (found.last is None) != (found.rows == 0):
        raise ValueError(f"{where}: each but the first has from, and each with rows has last")
    return found


def follow(partitions: tuple[Partition, ...]) -> None:
    """Raises a ValueError, unless ranges follow each other."""
    if len({it.store for it in partitions}) < len(partitions):
        raise ValueError("a store stands twice")
    for it in partitions:
        if it.last is not None and it.start is not None and it.last < it.start:
            raise ValueError(f"{it.store}: last is below from")
    for it, other in zip(partitions, partitions[1:]):
        low = it.start if it.last is None else it.last
        if low is not None and low >= other.start:
            raise ValueError(f"{it.store} and {other.store} overlap: keys reach {low!r}, and begin at {other.start!r}")


def section(table: dict[str, Any], name: str) -> dict[str, Any]:
    found = table.get(name)
    if not isinstance(found, dict):
        raise ValueError(f"there is no [{name}]")
    return found


def sections(table: dict[str, Any], name: str) -> list[dict[str, Any]]:
    found = table.get(name, [])
    if not isinstance(found, list) or not all(isinstance(it, dict) for it in found):
        raise ValueError(f"{name} is no list of tables")
    return found


def integer(table: dict[str, Any], where: str, name: str, least: int) -> int:
    found = table.get(name)
    if type(found) is not int or found < least:
        raise ValueError(f"{where}: {name} is missing, or no integer from {least} on")
    return found
