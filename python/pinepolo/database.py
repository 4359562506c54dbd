"""A table of a store in SQLite: the table `t_scaled`, and the view `t`.

In `t_scaled` a decimal is its scaled int, a date or a timestamp ISO text, a bool 0 or 1, a float a real. A NaN is the
text `nan`, since SQLite has none. In `t` a decimal is a real.
"""
from __future__ import annotations

import re
import sqlite3
from collections.abc import Iterable, Sequence
from typing import Any

from .columns import Column
from .errors import USAGE, DataError
from .kinds import DecimalType, Float, LongText, Stored, Text
from .times import DateType, Timestamp

DECIMAL = re.compile(r"([+-]?)([0-9]*)(?:\.([0-9]*))?")


def name(text: str) -> str:
    return f'"{text}"'


def kind(column: Column) -> str:
    if isinstance(column.type, Float):
        return "REAL"
    return "TEXT" if isinstance(column.type, (DateType, Timestamp, Text, LongText)) else "INTEGER"


def real(column: Column) -> str:
    """A column of `t_scaled` as `t` has it."""
    scale = column.type.scale if isinstance(column.type, DecimalType) else 0
    return f"{name(column.name)} / 1{'0' * scale}.0 AS {name(column.name)}" if scale else name(column.name)


def make_tables(database: sqlite3.Connection, columns: Sequence[Column]) -> None:
    database.execute(f"CREATE TABLE t_scaled ({', '.join(f'{name(it.name)} {kind(it)}' for it in columns)})")
    database.execute(f"CREATE VIEW t AS SELECT {', '.join(map(real, columns))} FROM t_scaled")


def sql_values(column: Column, lists: Sequence[Stored]) -> list[Any]:
    """The values of a block of a column as `t_scaled` has them."""
    if isinstance(column.type, Float):
        return ["nan" if it != it else it for it in column.values(lists)]
    if isinstance(column.type, (DateType, Timestamp)):
        return column.back(lists, column.type.unmap, None)
    if column.type.kind == "text":
        return column.values(lists)
    return column.back(lists, list, None)


def fill(database: sqlite3.Connection, columns: Sequence[Column], blocks: Iterable[list[list[Any]]]) -> None:
    """Inserts blocks of values of these columns."""
    marks = ", ".join("?" for _ in columns)
    insert = f"INSERT INTO t_scaled ({', '.join(name(it.name) for it in columns)}) VALUES ({marks})"
    for block in blocks:
        database.executemany(insert, zip(*block))


def dec(text: str | None) -> int | None:
    """The scaled int of a decimal, by its own digits: `0.05` is 5."""
    if text is None:
        return None
    found = DECIMAL.fullmatch(str(text))
    if not found or not (found[2] or found[3]):
        raise ValueError(f"dec: {text!r} is no decimal")
    value = int((found[2] or "") + (found[3] or ""))
    return -value if found[1] == "-" else value


class DecSum:
    """The exact sum of ints, as an int, or as a text if it has more than 64 bits. With a scale it is a decimal's text."""

    def __init__(self) -> None:
        self.total: int | None = None
        self.scale: int | None = None

    def step(self, value: Any, scale: int | None = None) -> None:
        if value is None:
            return
        if not isinstance(value, int):
            raise ValueError(f"dec_sum: {value!r} is no int: take the columns of t_scaled; a product above 64 bits is none")
        self.total, self.scale = (self.total or 0) + value, scale

    def finalize(self) -> int | str | None:
        if self.total is None:
            return None
        if self.scale is not None:
            return DecimalType(self.scale).unmap([self.total])[0]
        return self.total if -2**63 <= self.total < 2**63 else str(self.total)


class Functions:
    """The functions of SQL, which keep the words of what they refuse: SQLite's own say only that one failed."""

    def __init__(self, database: sqlite3.Connection) -> None:
        self.refusal = ""
        functions = self

        class Sum(DecSum):
            def step(self, value: Any, scale: int | None = None) -> None:
                functions.told(lambda: DecSum.step(self, value, scale))

        database.create_function("dec", 1, lambda text: self.told(lambda: dec(text)), deterministic=True)
        for count in (1, 2):
            database.create_aggregate("dec_sum", count, Sum)  # type: ignore[arg-type]

    def told(self, call: Any) -> Any:
        try:
            return call()
        except ValueError as error:
            self.refusal = str(error)
            raise

    def fault(self, error: Exception) -> DataError:
        return DataError(f"SQL: {self.refusal or error}", "mend the query", USAGE)
