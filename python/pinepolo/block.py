"""What a store keeps of a CSV by its types, block by block."""
from __future__ import annotations

from collections.abc import Sequence

from .columns import Column
from .errors import BadCell, DataError
from .keys import packed
from .kinds import Stored, Text
from .table_csv import Table
from .types import Key, Types


def header_places(table: Table, types: Types) -> list[int]:
    """The places of the columns in the CSV."""
    headers = [it.header for it in types.columns]
    for name in headers:
        if name not in table.header:
            raise DataError(f"{table.path}: record 0: there is no column {name!r}", "mend the CSV, or types.toml")
    known = {*headers, *types.left_out}
    for name in table.header:
        if name not in known:
            raise DataError(f"{table.path}: record 0: {name!r} is no column of types.toml", "name it in left_out there, or draft again with it")
    return [table.header.index(it) for it in headers]


def taken(table: Table, types: Types, places: Sequence[int], cells: Sequence[list[str]], first: int) -> tuple[dict[str, Stored], list[list[str]]]:
    """The stored cells by names of the catalog, those of a drafted key among them, and the canonical cells by columns.

    `places` are the columns' places in the types; `first` is the number of the block's first record.
    """
    found: dict[str, Stored] = {}
    canonical: list[list[str]] = []
    for at, own in zip(places, cells):
        column = types.columns[at]
        lists, again = kept(table, column, own, first)
        found.update(zip(column.stored, lists))
        canonical.append(again)
    if key := types.key:
        keys = drafted_key(key, found, range(first, first + len(cells[0])))
        found[key.name] = kept(table, Column(key.name, Text()), list(keys), first)[0][0] if key.columns else keys
    return found, canonical


def drafted_key(key: Key, found: dict[str, Stored], records: range) -> Stored:
    """The drafted keys of records whose stored cells are found."""
    return packed([found[it] for it in key.columns]) if key.columns else records


def kept(table: Table, column: Column, cells: list[str], first: int) -> tuple[list[Stored], list[str]]:
    """What a column keeps of a block. A cell that it can't keep is refused with its record."""
    try:
        return column.take(cells)
    except BadCell as error:
        raise DataError(f"{table.path}: record {first + error.index}: {column.name}: {error.why}: {shown(cells[error.index])}",
                        "mend the CSV, or the type in types.toml") from None


def shown(cell: str) -> str:
    """A cell in a message: escaped, and no more than its beginning."""
    return repr(cell) if len(cell) <= 40 else f"{cell[:40]!r} .."
