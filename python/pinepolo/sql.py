"""`pinepolo-data sql`: a query over a table, by SQLite."""
from __future__ import annotations

import sqlite3
from collections.abc import Iterator
from typing import Any

from .columns import Column
from .database import Functions, fill, make_tables
from .exporting import Rows
from .table_csv import lines

ROWS = 4096


def query(rows: Rows, text: str) -> Iterator[str]:
    """The answer of a query as CSV, a text for some lines each. Rows are read first, of those columns that it names."""
    types = rows.types
    database = sqlite3.connect("", isolation_level=None)
    functions = Functions(database)
    try:
        database.execute("PRAGMA synchronous = OFF")
        make_tables(database, types.columns)
        columns = named(database, types.columns, text)
        database.execute("BEGIN")
        fill(database, columns, rows.values(columns))
        database.execute("COMMIT")
        database.execute("PRAGMA query_only = ON")
        found = database.execute(text)
        yield from answer(found)
    except (sqlite3.Error, sqlite3.Warning) as error:
        raise functions.fault(error) from None
    finally:
        database.close()


def named(database: sqlite3.Connection, columns: tuple[Column, ...], text: str) -> list[Column]:
    """The columns that a query reads, one at least."""
    read: set[str] = set()

    def note(action: int, table: Any, column: Any, _: Any, view: Any) -> int:
        # (that the view itself reads all columns says nothing)
        if action == sqlite3.SQLITE_READ and table in ("t", "t_scaled") and view is None:
            read.add(column)
        return sqlite3.SQLITE_OK

    database.set_authorizer(note)
    database.execute(f"EXPLAIN {text}").close()
    database.set_authorizer(None)
    return [it for it in columns if it.name in read] or [columns[0]]


def answer(found: sqlite3.Cursor) -> Iterator[str]:
    if not found.description:
        return
    yield "\n".join(lines([[it[0]] for it in found.description])) + "\n"
    while rows := found.fetchmany(ROWS):
        yield "\n".join(lines([list(map(shown, it)) for it in zip(*rows)])) + "\n"


def shown(value: Any) -> str:
    """A value of SQL as a cell: NULL is empty, bytes are hexadecimal."""
    if value is None:
        return ""
    return value.hex() if isinstance(value, bytes) else str(value)
