"""Which projection is read for a table's rows, and which of its segments; and the rows that come of it."""
from __future__ import annotations

import shlex
from bisect import bisect_left, bisect_right
from collections.abc import Iterator, Sequence
from dataclasses import dataclass
from itertools import chain
from operator import itemgetter
from typing import Any

from .catalog import Catalog, Projection
from .codes import BATCH
from .errors import USAGE, DataError
from .images import Batch, Image, named
from .sites import Places


@dataclass(frozen=True)
class Scan:
    """Rows of some columns of the catalog: in any order, or in that of a projection, with the values of its first sort
    column from `low` on and below `high`."""

    catalog: Catalog
    places: Places
    names: Sequence[str]
    order: Projection | None = None
    low: Any = None
    high: Any = None

    def batches(self) -> Iterator[Batch]:
        """The rows by batches of columns. Which projection is read is found at once."""
        asked = self.order
        if asked and not set(self.names) <= set(asked.columns):
            lacks = next(name for name in self.names if name not in asked.columns)
            raise DataError(f"{asked.name} has no column {lacks}", f"read {', '.join(asked.columns)}, or another order", USAGE)
        if asked and self.is_whole(asked):
            return self.in_range(self.stored(asked, [*self.names, asked.sort[0]]))
        if asked:
            # (the same rows in the same order, as long as there is memory for them)
            order = list(dict.fromkeys([*asked.sort, self.catalog.key]))
            return self.sorted(self.stored(self.other([*order, *self.names]), [*order, *self.names]), len(order))
        return self.stored(self.other(self.names), self.names)

    def segments(self, it: Projection) -> range:
        """The segments of a projection that may have rows of the scan."""
        if it is not self.order:
            return range(len(it.sites))
        first = 0 if self.low is None else bisect_right(it.cuts, self.low)
        last = len(it.cuts) if self.high is None else bisect_left(it.cuts, self.high)
        return range(first, last + 1)

    def is_whole(self, it: Projection) -> bool:
        """Whether the files that the scan reads of a projection are there."""
        p = self.catalog.projections.index(it)
        return all(self.places.has(named(p, s) + end, it.sites[s]) for s in self.segments(it) for end in (".seg", ".del"))

    def other(self, names: Sequence[str]) -> Projection:
        """The first projection that has some columns and all its files."""
        able = [it for it in self.catalog.projections if set(names) <= set(it.columns)]
        for it in able:
            if self.is_whole(it):
                return it
        lost = {site for name, site in self.catalog.file_names() if not self.places.has(name, site)}
        lose = f"--lost {','.join(map(str, sorted(lost)))} " if lost else ""
        sites = f"--sites {shlex.quote(self.places.sites)} " if self.places.sites else ""
        what = "each projection that has them has lost a file" if able else "no projection has them all"
        raise DataError(f"{', '.join(dict.fromkeys(names))}: {what}",
                        f"pinepolo dump {lose}{sites}{shlex.quote(self.places.store)}")

    def stored(self, it: Projection, names: Sequence[str]) -> Iterator[Batch]:
        """The batches of a projection's segments, with some of its columns."""
        p, own = self.catalog.projections.index(it), [it.columns.index(name) for name in names]
        for s in self.segments(it):
            for batch in Image(self.catalog, self.places, p, s).batches():
                yield [batch[at] for at in own]

    def in_range(self, batches: Iterator[Batch]) -> Iterator[Batch]:
        """The rows whose last column, which ascends and is dropped, is in the scan's range."""
        for *columns, first in batches:
            begin = 0 if self.low is None else bisect_left(first, self.low)
            end = len(first) if self.high is None else bisect_left(first, self.high)
            if begin < end:
                yield [column[begin:end] for column in columns] if end - begin < len(first) else columns

    def sorted(self, batches: Iterator[Batch], width: int) -> Iterator[Batch]:
        """The rows whose first column is in the scan's range, ordered by the first `width` columns, which are dropped."""
        low, high = self.low, self.high
        rows = [row for row in chain.from_iterable(zip(*batch) for batch in batches)
                if (low is None or low <= row[0]) and (high is None or row[0] < high)]
        rows.sort(key=itemgetter(*range(width)))
        for first in range(0, len(rows), BATCH):
            yield [list(column) for column in zip(*rows[first:first + BATCH])][width:]
