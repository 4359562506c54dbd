"""The first pass of a draft: the types of the columns, a sample of the rows, and how many there are."""
from __future__ import annotations

from collections.abc import Sequence
from dataclasses import replace

from .block import header_places, taken
from .errors import DataError
from .guess import Guess
from .layout import COLUMNS
from .naming import name_of
from .sample import Sample
from .table_csv import Table
from .types import Types


def place_of(name: str, headers: Sequence[str], path: str) -> int:
    """The place of a column, given by its header or by the name that is made of it."""
    for found in (list(headers), [name_of(it) for it in headers]):
        if name in found:
            return found.index(name)
    raise DataError(f"{path}: record 0 has no column {name!r}", f"its columns are {', '.join(headers[:COLUMNS])}")


class Seen:
    """What a pass over the table finds. `wanted` are the columns to keep, all if there are none.

    If the types are given, each cell is taken by them, and there are no guesses.
    """

    def __init__(self, table: Table, wanted: Sequence[str], types: Types | None = None) -> None:
        self.table, self.types = table, types
        header = table.header
        if types:
            self.places = header_places(table, types)
        else:
            self.places = list(dict.fromkeys(place_of(it, header, table.path) for it in wanted)) or list(range(len(header)))
        if len(self.places) > COLUMNS:
            raise DataError(f"{table.path}: {len(self.places)} columns, and a store has at most {COLUMNS}", "name those to keep by --columns")
        self.headers = [header[at] for at in self.places]
        self.guesses = [] if types else [Guess(it) for it in self.headers]
        self.rows = 0
        self.sample: Sample[list[str]] = Sample()
        self.read()

    def look(self, first: int, columns: list[list[str]]) -> None:
        """Looks at a block, whose first record has this number."""
        if self.types:
            taken(self.table, replace(self.types, key=None), range(len(columns)), columns, first)
        for guess, cells in zip(self.guesses, columns):
            guess.take(cells, first)

    def read(self) -> None:
        for first, columns in self.table.blocks(self.places):
            self.look(first, columns)
            size = len(columns[0])
            self.rows += size
            self.sample.take(size, lambda at, columns=columns: [cells[at] for cells in columns])

    def columns(self) -> list[list[str]]:
        """The sample by columns."""
        return [list(it) for it in zip(*self.sample.items)] or [[] for _ in self.headers]
