"""Makes the stores of a partitioned table: out of rows in the order of their keys, at most so many a store."""
from __future__ import annotations

import hashlib
import io
import os
from collections.abc import Iterable, Iterator, Sequence
from dataclasses import dataclass, replace
from itertools import islice
from typing import IO, Any

from . import program
from .catalog import Catalog
from .choice import cell_bytes
from .cuts import Counts, candidates
from .digest import RowsDigest
from .draft import cut
from .dumped import blocks
from .errors import DataError
from .generations import NEW, SITES, Writing, about
from .importing import given_back, load
from .layout import uncut
from .ordered import Row
from .partitioned import Partition
from .places import CATALOG, read
from .sample import Sample
from .table_csv import BLOCK, lines
from .toml_text import toml_string
from .types import FILE, Types
from .workshop import give, sync, write

SPOOL, CHUNK = "rows.csv", 1 << 20
# What `dump` takes, in bytes of the store that it dumps (docs/data.md).
TIMES = 3


def row_bytes(rows: Sequence[Row], types: Types, catalog: Catalog) -> int:
    """The bytes of a row in a store, plainly encoded, as some rows have them."""
    columns = types.plain_columns()
    found = next(blocks(io.StringIO(text_of(types, (line for _, line, _ in rows)), newline=""), columns), [[()] for _ in columns])
    sizes = {it.name: cell_bytes(cells[0]) for it, cells in zip(columns, found)}
    return max(1, round(sum(sizes[name] for it in catalog.projections for name in it.columns)))


def text_of(types: Types, rows: Iterable[str]) -> str:
    """The CSV of rows as a store keeps them."""
    return "".join(f"{it}\n" for it in [lines([[name] for name, _ in types.stored()])[0], *rows])


@dataclass(frozen=True)
class Spool:
    """The rows of a store that is to be made, in a file: what of the partition is known, and some of the lines."""

    partition: Partition
    sample: str


class Maker:
    """Makes stores in a table's folder."""

    def __init__(self, work: Writing) -> None:
        self.work, self.table = work, work.table
        self.free = max((it.number() for it in self.table.partitions), default=-1) + 1

    def name(self, number: int | None) -> str:
        """The name of a new store, for a partition that is there or for a new one."""
        if number is None:
            number, self.free = self.free, self.free + 1
        return f"{number:03}.{self.table.generation}"

    def spools(self, rows: Iterator[Row], most: int, number: int | None, start: Any) -> Iterator[Spool]:
        """The rows in files, one for each store of at most `most` rows; the first is of the partition `number`, from `start` on."""
        is_first = True
        # (a spool takes more than this one row)
        for row in rows:
            yield self.spool(row, rows, most, self.name(number), start if is_first else row[0])
            is_first, number = False, None

    def spool(self, first: Row | None, rows: Iterator[Row], most: int, store: str, start: Any) -> Spool:
        """The next rows in a file of their own."""
        os.mkdir(self.work.path(store + NEW))
        sample: Sample[str] = Sample()
        block, last, size = [first] if first else [], None, 0
        with open(self.work.path(store + NEW, SPOOL), "w", encoding="utf-8", newline="") as file:
            file.write(text_of(self.table.types, ()))
            while block:
                text = [line for _, line, _ in block]
                file.write("\n".join(text) + "\n")
                sample.take(len(text), text.__getitem__)
                size, last = size + len(block), block[-1][0]
                block = list(islice(rows, min(BLOCK, most - size)))
        return Spool(Partition(store, start, last, size, ""), text_of(self.table.types, sample.items))

    def make(self, spool: Spool, _: IO[bytes]) -> tuple[Partition, RowsDigest]:
        """Makes the store of a spool, checks it, and reads its rows back. All of it is on the disk then."""
        with about(self.work.path(spool.partition.store)):
            return self.checked(spool)

    def checked(self, spool: Spool) -> tuple[Partition, RowsDigest]:
        table, store = self.table, spool.partition.store
        new, made = self.work.path(store + NEW), self.work.path(store)
        catalog = table.store_catalog(store, self.cut(spool))
        folders = table.folders(store)
        sites = os.path.join(new, SITES) if folders else None
        if sites:
            write(sites, "".join(f"[[site]]\nnumber = {it}\nfolder = {toml_string(folder)}\n\n" for it, folder in folders.items()).encode())
        write(os.path.join(new, CATALOG), catalog)
        sync(new)
        sync(self.work.folder)
        with open(os.path.join(new, SPOOL), "rb") as file:
            load(os.path.join(new, CATALOG), made, sites, iter(lambda: file.read(CHUNK), b""), [self.work.lock])
        os.remove(os.path.join(new, SPOOL))
        program.check(made, sites)
        digest = given_back(made, table.types, sites)
        if digest.rows != spool.partition.rows:
            raise DataError(f"{made} gives {digest.rows} rows back, and {spool.partition.rows} were loaded", "run it again, and report this if it stays")
        give([made, *folders.values()], FILE, table.types.text().encode())
        if sites:
            give([made], SITES, read(sites))
        for folder in folders.values():
            sync(os.path.dirname(folder))
        return replace(spool.partition, catalog=hashlib.sha256(catalog).hexdigest()), digest

    def cut(self, spool: Spool) -> Catalog:
        """The catalog of a spool's store: the table's, cut by exact counts of its rows between candidates of its sample."""
        table = self.table
        names = list(dict.fromkeys(it.sort[0] for it in table.catalog.projections))
        columns = [next(it for it in table.types.plain_columns() if it.name == name) for name in names]
        sample: list[list[Any]] = [[] for _ in names]
        for block in blocks(io.StringIO(spool.sample, newline=""), columns):
            for values, cells in zip(sample, block):
                values += cells[0]
        counts = {name: Counts(candidates(values)) for name, values in zip(names, sample)}
        with open(self.work.path(spool.partition.store + NEW, SPOOL), encoding="utf-8", newline="") as file:
            for block in blocks(file, columns):
                for name, cells in zip(names, block):
                    counts[name].take(cells[0])
        projections = [uncut(it) for it in table.catalog.projections]
        for it in projections:
            cut(it, counts[it.sort[0]], table.types)
        return replace(table.catalog, projections=tuple(it.placed() for it in projections))
