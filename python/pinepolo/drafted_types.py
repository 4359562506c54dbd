"""The types that a draft writes: names, types and NULLs of the columns, and the key."""
from __future__ import annotations

from collections.abc import Sequence

from .columns import Column
from .errors import DataError
from .kinds import PART_BYTES, PARTS, TEXT_BYTES
from .layout import COLUMNS
from .naming import name_of
from .seen import Seen, place_of
from .types import Key, Types


def drafted_types(seen: Seen, key: Sequence[str]) -> tuple[Types, str]:
    """The types, and the name of the catalog's key. `key` has headers or names; if it is empty, rows are numbered."""
    columns = list(seen.types.columns) if seen.types else named_columns(seen)
    table = seen.table
    parts = [place_of(it, seen.headers, table.path) for it in key]
    for at in parts:
        sortable(seen, at, columns[at], "a key")
        if columns[at].null:
            record = f"record {seen.guesses[at].empty}: " if seen.guesses else ""
            raise DataError(f"{table.path}: {record}{columns[at].name} has NULL, and a key has none", "give another --key")
    drafted = None
    if len(parts) != 1:
        taken = [name for it in columns for name in it.stored]
        drafted = Key(name_of("key" if parts else "row", taken), tuple(columns[at].name for at in parts))
    left_out = tuple(it for it in table.header if it not in seen.headers)
    types = Types(tuple(columns), drafted, table.delimiter, table.encoding.removesuffix("-sig"), left_out)
    if (count := len(types.stored())) > COLUMNS:
        raise DataError(f"{table.path}: {count} columns with those of long texts and of the key, and a store has at most {COLUMNS}",
                        "name those to keep by --columns")
    return types, drafted.name if drafted else columns[parts[0]].name


def named_columns(seen: Seen) -> list[Column]:
    columns: list[Column] = []
    taken: list[str] = []
    for guess in seen.guesses:
        if not guess.fits():
            raise DataError(f"{seen.table.path}: record {guess.longest_record}: {guess.header} has {guess.longest} bytes, and a text "
                            f"has at most {PARTS * PART_BYTES}", "leave the column out: name the others by --columns")
        name = name_of(guess.header, taken)
        while set(guess.column(name).stored) & set(taken):
            name = name_of(guess.header, [*taken, name])
        columns.append(guess.column(name))
        taken += [name, *columns[-1].stored]
    return columns


def sortable(seen: Seen, at: int, column: Column, what: str) -> None:
    """Refuses a column of text(parts) where order counts."""
    if column.type.parts > 1:
        record = f"record {seen.guesses[at].too_long}: " if seen.guesses else ""
        raise DataError(f"{seen.table.path}: {record}{column.name} has more than {TEXT_BYTES} bytes, so the column can't be {what}",
                        "choose another column: text(parts) keeps no order")
