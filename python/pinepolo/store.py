"""A store that is opened for reading."""
from __future__ import annotations

import os
from collections.abc import Iterator, Sequence
from dataclasses import dataclass
from decimal import Decimal
from itertools import chain
from typing import TYPE_CHECKING, Any

from .catalog import Catalog, Projection
from .errors import USAGE, BadCell, DataError
from .places import types_beside
from .scans import Scan
from .sites import Places
from .types import Column, Types, make_type

if TYPE_CHECKING:
    import pandas


@dataclass(frozen=True)
class File:
    """A file of a store: its name, the number of its site, its path, and whether it is there."""

    name: str
    site: int
    path: str
    is_there: bool


def cell_of(value: Any) -> str:
    """The cell of a CSV that has a value."""
    if isinstance(value, bool):
        return str(value).lower()
    return format(value, "f") if isinstance(value, Decimal) else str(value)


class Store:
    """The table of a store, read from its files alone (docs/formats.md).

    Rows come from one projection, with its deltas. Of each segment that is read the digests are compared, all columns are
    decoded, and the rows are seen to be in its range and in order, each batch before it is given. The copies that other
    projections hold are not compared, and neither are join indexes: `pinepolo check` does both.
    """

    def __init__(self, path: str | os.PathLike[str], sites: str | os.PathLike[str] | None = None) -> None:
        self.path = os.fspath(path)
        self.places = Places(self.path, None if sites is None else os.fspath(sites))
        self.catalog: Catalog = self.places.catalog
        self.types: Types = types_beside([self.path, *(self.places.folders or {}).values()], self.catalog)

    @property
    def columns(self) -> list[str]:
        """The names of the table's columns."""
        return [it.name for it in self.types.columns]

    @property
    def projections(self) -> tuple[Projection, ...]:
        """The projections: `order` is the name of one."""
        return self.catalog.projections

    @property
    def files(self) -> list[File]:
        """The files of the catalog, in the order of their names."""
        return [File(name, site, self.places.path(name, site), self.places.has(name, site))
                for name, site in self.catalog.file_names()]

    def rows(self, columns: Sequence[str] | None = None, order: str | None = None, start: Any = None,
             stop: Any = None) -> Iterator[tuple[Any, ...]]:
        """The rows as tuples of these columns, or of all: Python values, None for NULL.

        `order` is the name of a projection, and `start` and `stop` are values of its first sort column: rows come in its
        order, from `start` on and below `stop`, and segments outside are not read. If one that is needed is lost, the rows
        are taken from another projection that has the columns, and sorted in memory if an order was asked for. Without an
        order, they come as the first projection has them that has the columns and all its files.
        """
        return chain.from_iterable(zip(*batch) for batch in self.batches(columns, order, start, stop))

    def batches(self, columns: Sequence[str] | None = None, order: str | None = None, start: Any = None,
                stop: Any = None) -> Iterator[list[list[Any]]]:
        """What `rows` gives, by batches of at most 65,536 rows: a list for each column."""
        chosen = self.chosen(columns)
        return (undone(chosen, batch) for batch in self.scan(chosen, order, start, stop).batches())

    def to_pandas(self, columns: Sequence[str] | None = None, order: str | None = None, start: Any = None,
                  stop: Any = None) -> pandas.DataFrame:
        """What `rows` gives, as a DataFrame (docs/data.md has the dtypes). It needs pandas."""
        try:
            from .frames import frame_of
        except ImportError as error:
            raise DataError(f"to_pandas: {error}", "install pandas, or take rows or batches") from None
        chosen = self.chosen(columns)
        return frame_of(chosen, self.scan(chosen, order, start, stop).batches())

    def chosen(self, columns: Sequence[str] | None) -> list[Column]:
        named = {it.name: it for it in self.types.columns}
        for name in columns or ():
            if name not in named:
                raise DataError(f"{name} is no column", f"there are {', '.join(named)}", USAGE)
        return [named[name] for name in (named if columns is None else columns)]

    def scan(self, chosen: list[Column], order: str | None, start: Any, stop: Any) -> Scan:
        names = [name for it in chosen for name in it.stored]
        if not names:
            raise DataError("no column is asked for", f"there are {', '.join(self.columns)}", USAGE)
        if order is None:
            if start is not None or stop is not None:
                raise DataError("start and stop are values of an order, and none is named", self.orders(), USAGE)
            return Scan(self.catalog, self.places, names)
        found = [it for it in self.projections if it.name == order]
        if not found:
            raise DataError(f"{order} is no projection", self.orders(), USAGE)
        first = found[0].sort[0]
        return Scan(self.catalog, self.places, names, found[0], self.bound(first, start), self.bound(first, stop))

    def orders(self) -> str:
        return "order= is one of " + ", ".join(f"{it.name} (by {', '.join(it.sort)})" for it in self.projections)

    def bound(self, name: str, value: Any) -> Any:
        """What a column of the catalog keeps for a value of the table."""
        if value is None:
            return None
        own = Column(name, make_type(self.catalog.kind(name)))
        # (a drafted key is no column of the table, and is kept as it is)
        column = next((it for it in self.types.columns if it.stored == [name]), own)
        try:
            return column.map([cell_of(value)])[0][0]
        except BadCell as error:
            raise DataError(f"{value!r} is no value of {name}: {error.why}", status=USAGE) from None


def undone(chosen: list[Column], batch: list[Any]) -> list[list[Any]]:
    """The values of columns, from what is stored."""
    stored = iter(batch)
    return [it.values([next(stored) for _ in it.stored]) for it in chosen]


def open_store(path: str | os.PathLike[str], sites: str | os.PathLike[str] | None = None) -> Store:
    """Opens the store in a folder for reading, with the folders of its sites if a SITES file names them.

    The catalog is read, and no other file of the store before its rows are asked for.
    """
    return Store(path, sites)
