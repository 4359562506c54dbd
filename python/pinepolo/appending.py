"""`pinepolo-data import` into a partitioned table, and `append` to it. An import is an append to a table without stores."""
from __future__ import annotations

import heapq
import io
import os
from bisect import bisect_right
from collections.abc import Iterable, Iterator
from itertools import chain, groupby, islice, repeat
from operator import itemgetter

from .catalog import Catalog, read_catalog
from .cuts import AIM, SEGMENTS, above
from .digest import RowsDigest
from .dumped import blocks, dumped
from .errors import USAGE, DataError
from .generations import ROWS, Writing, about, need_own, sites_of
from .kinds import Stored
from .making import TIMES, Maker, Spool, row_bytes, text_of
from .ordered import Row, Source, Survey
from .parallel import in_order, jobs_for, share_of
from .partitioned import Partition, PartitionedTable, templates
from .places import CATALOG, read, read_sites, types_of
from .summary import number_of, size_text
from .table_csv import BLOCK, Table, lines

# Most rows that are asked for a store: half of what its segments hold, since rows with one value stay together.
MOST = AIM * SEGMENTS // 2


def import_partitioned(drafted: str, path: str, folder: str, sites: str | None, memory: int | None, rows: int | None) -> Iterator[str]:
    """Makes a table of as many stores as it takes. Texts tell what is done."""
    types, catalog = types_of(drafted, {}), read_catalog(read(os.path.join(drafted, CATALOG)), os.path.join(drafted, CATALOG))
    source = Source(Table(path, types.delimiter, types.encoding, may_be_pipe=True), types, catalog.key)
    survey = source.survey() if source.table.is_regular() else None
    own = source.rows()
    begin = list(islice(own, BLOCK))
    size = row_bytes(begin, types, catalog)
    if rows is None:
        rows = share_of(memory) // (size * TIMES)
    table = PartitionedTable(os.urandom(8).hex(), 0, max(1, min(rows, MOST)), size, types, catalog, site_folders(sites, catalog))
    with Writing(folder, table) as work:
        if survey and not survey.ascends:
            yield f"{path} is not in the order of {catalog.key}: its rows take about {size_text(os.path.getsize(path))} of disk more in {folder} until the end\n"
        run = Run(work, source, survey, jobs_for(memory, size * TIMES * table.rows_per_store))
        yield run.ends(run.made(run.whole(chain(begin, own))))


def append(folder: str, path: str, is_replacing: bool, memory: int | None) -> Iterator[str]:
    """Adds the rows of a CSV to a table: stores are made anew for the partitions that have some of them. Texts tell what is done."""
    with Writing(folder) as work:
        table = work.table
        if not table.partitions:
            raise DataError(f"{folder} has no stores: its import did not end", "run the import again")
        last = table.partitions[-1]
        source = Source(Table(path, table.types.delimiter, table.types.encoding), table.types, table.catalog.key, last.last or 0)
        ranges = [*table.partitions]
        # (so that what is appended day by day does not make a large store anew each day)
        if 2 * last.rows >= table.rows_per_store and (start := above(last.last)) is not None:
            ranges.append(Partition("", start, None, 0, ""))
        survey = source.survey([it.start for it in ranges[1:]])
        # (one more process gives the rows of the old stores)
        jobs = max(1, jobs_for(memory, table.row_bytes * TIMES * table.rows_per_store) - 1)
        run = Run(work, source, survey, jobs, is_replacing)
        yield run.ends(run.made(run.merged(ranges)))


def site_folders(sites: str | None, catalog: Catalog) -> dict[int, str]:
    if sites is None:
        return {}
    try:
        return templates({number: os.path.abspath(folder) for number, folder in read_sites(sites).items()}, catalog)
    except ValueError as error:
        raise DataError(f"{sites}: {error}", "mend it by docs/data.md", USAGE) from None


class Run:
    """A run that makes stores: what they have to have, and what they have."""

    def __init__(self, work: Writing, source: Source, survey: Survey | None, jobs: int, is_replacing: bool = False) -> None:
        self.work, self.source, self.survey, self.jobs, self.is_replacing = work, source, survey, jobs, is_replacing
        self.maker = Maker(work)
        self.kept, self.found = RowsDigest(), RowsDigest()
        self.staying: list[Partition] = list(work.table.partitions)
        self.replaced: list[str] = []
        self.replacements = 0

    def in_order(self, rows: Iterator[Row]) -> Iterator[Row]:
        # (what is sorted in memory is less than what `dump` takes of a store)
        return self.source.in_order(rows, self.survey, self.work.path(ROWS), -(-self.work.table.rows_per_store // 4))

    def whole(self, rows: Iterator[Row]) -> Iterator[Spool]:
        """The spools of a table that has no stores yet."""
        found = self.in_order(rows)
        most = self.work.table.rows_per_store
        first = next(found, None)
        if first is None:
            yield self.maker.spool(None, found, most, self.maker.name(None), None)
        else:
            yield from self.maker.spools(chain([first], found), most, None, None)

    def merged(self, ranges: list[Partition]) -> Iterator[Spool]:
        """The spools of the partitions that get rows, with those that they have. These partitions don't stay."""
        assert self.survey
        bounds, sizes = [it.start for it in ranges[1:]], self.survey.counts.sizes()
        for at, rows in groupby(self.in_order(self.source.rows()), lambda row: bisect_right(bounds, row[0])):
            it, most = ranges[at], self.work.table.rows_per_store
            size = it.rows + sizes[at]
            both = heapq.merge(self.old(it) if it.store else (), rows, key=itemgetter(0))
            if it.store:
                self.staying.remove(it)
            yield from self.maker.spools(self.single(both), -(-size // -(-size // most)), it.number() if it.store else None, it.start)

    def old(self, it: Partition) -> Iterator[Row]:
        """The rows of a store."""
        need_own(self.work.folder, it)
        types, key = self.work.table.types, self.source.names.index(self.source.key)
        sites = sites_of(self.work.folder, self.work.table, it.store)
        with about(self.work.path(it.store)):
            for block in dumped(self.work.path(it.store), types, sites, None, types.plain_columns()):
                cells = [lists[0] for lists in block]
                self.add(self.kept, cells)
                yield from zip(cells[key], lines([list(map(str, own)) for own in cells]), repeat(0))

    def add(self, digest: RowsDigest, cells: list[Stored]) -> None:
        """Adds rows as a store keeps them, by columns, to a digest of canonical ones."""
        stored = dict(zip(self.source.names, cells))
        digest.add([it.unmap([stored[name] for name in it.stored]) for it in self.work.table.types.columns])

    def single(self, rows: Iterable[Row]) -> Iterator[Row]:
        """The rows, of two with one key the new one, if that may replace the other."""
        before: Row | None = None
        for row in rows:
            if before is not None and before[0] == row[0]:
                if not self.is_replacing:
                    raise DataError(f"{self.source.table.path}: record {row[2]}: {self.source.key} {row[0]} is in the table already",
                                    "take it out, or replace what is there by --replace")
                self.replaced.append(before[1])
            elif before is not None:
                yield before
            before = row
            if len(self.replaced) >= BLOCK:
                self.forget()
        if before is not None:
            yield before

    def forget(self) -> None:
        """Takes the rows that were replaced out of what the new stores have to have."""
        types, gone = self.work.table.types, RowsDigest()
        for block in blocks(io.StringIO(text_of(types, self.replaced), newline=""), types.plain_columns()):
            self.add(gone, [lists[0] for lists in block])
        self.kept.join(gone, -1)
        self.replacements += len(self.replaced)
        self.replaced.clear()

    def made(self, spools: Iterator[Spool]) -> list[Partition]:
        """The stores of spools, several at a time."""
        made: list[Partition] = []
        for (it, digest), _ in in_order(self.maker.make, spools, self.jobs):
            made.append(it)
            self.found.join(digest)
        self.forget()
        return made

    def ends(self, made: list[Partition]) -> str:
        """Compares the rows of the new stores with those that they have to have, and commits them."""
        rows, path, work = self.source.digest.rows, self.source.table.path, self.work
        if self.survey and self.survey.rows != rows:
            raise DataError(f"{path}: {self.survey.rows} rows, then {rows}: it changed while it was read", "run it again")
        self.kept.join(self.source.digest)
        if self.found != self.kept:
            raise DataError(f"the new stores give {self.found.rows} rows back that are not the {self.kept.rows} of {path} and of the table",
                            "nothing has changed: run it again, and report this if it stays")
        left = work.commit(sorted([*self.staying, *made], key=lambda it: (it.start is not None, it.start)))
        table = work.table
        told = f"ok rows={table.rows()} stores={len(table.partitions)}\ncompared with {path}: {number_of(rows, 'row')}"
        told += f", {self.replacements} of which replaced others\n" if self.is_replacing else "\n"
        told += f"made: {', '.join(it.store for it in made)}\n" if made else ""
        return told + (f"old stores that are still read, or can't be removed, go with the next run: {', '.join(left)}\n" if left else "")
