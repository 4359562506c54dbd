"""The rows of a store or of a partitioned table, whichever a path has: as `pinepolo dump` gives them, by primary key."""
from __future__ import annotations

from collections.abc import Callable, Iterator, Sequence
from contextlib import contextmanager
from typing import Any

from .columns import Column
from .database import sql_values
from .dumped import dumped
from .errors import USAGE, DataError
from .generations import is_table, reading
from .places import living_sites, types_of
from .reading import Blocks, Reading


class StoreRows:
    """The rows of a store."""

    def __init__(self, store: str, sites: str | None, lost: str | None) -> None:
        self.store, self.sites, self.lost = store, sites, lost
        self.types = types_of(store, living_sites(sites, lost))

    def texts(self, head: str, make: Callable[[Blocks], Iterator[str]]) -> Iterator[str]:
        """A head, and the texts that are made of the rows."""
        for text in make(dumped(self.store, self.types, self.sites, self.lost)):
            yield head + text
            head = ""
        yield head

    def values(self, columns: Sequence[Column]) -> Iterator[list[list[Any]]]:
        """Blocks of the values of columns as SQL has them."""
        for block in dumped(self.store, self.types, self.sites, self.lost, list(columns)):
            yield list(map(sql_values, columns, block))


@contextmanager
def opened(path: str, sites: str | None = None, lost: str | None = None, memory: int | None = None) -> Iterator[StoreRows | Reading]:
    """The rows of a store or of a table, as long as the block lasts."""
    if not is_table(path):
        yield StoreRows(path, sites, lost)
        return
    if sites:
        raise DataError(f"{path} is a table of many stores, and knows the folders of its sites", "leave --sites out", USAGE)
    with reading(path) as table:
        yield Reading(path, table, memory, lost)
