"""`pinepolo-data export`: a table as CSV, as lines of JSON, or in a file of SQLite."""
from __future__ import annotations

import json
import math
import os
import sqlite3
import tempfile
from collections.abc import Iterable, Iterator, Sequence
from typing import Any

from .columns import Column
from .database import fill, make_tables
from .errors import DEVICE, DataError, device
from .kinds import Bool, DecimalType, Float, Int, Stored
from .reading import Blocks, Reading
from .rows import StoreRows
from .table_csv import lines

Rows = StoreRows | Reading


def csv_text(rows: Rows) -> Iterator[str]:
    """The table as CSV, with the headers that it came with, block by block."""
    columns = rows.types.columns

    def texts(blocks: Blocks) -> Iterator[str]:
        for block in blocks:
            yield "\n".join(lines([it.unmap(lists) for it, lists in zip(columns, block)])) + "\n"

    return rows.texts(lines([[it.header] for it in columns])[0] + "\n", texts)


def json_cells(column: Column, lists: Sequence[Stored]) -> list[str]:
    """The texts of a column's values in JSON: numbers as they are, also decimals; an infinity or a NaN is a string."""
    if isinstance(column.type, (Int, DecimalType, Bool)):
        return column.back(lists, column.type.unmap, "null")
    if isinstance(column.type, Float):
        return column.back(lists, lambda kept: list(map(json_float, column.type.values(kept))), "null")
    encode = json.JSONEncoder(ensure_ascii=False).encode
    return ["null" if it is None else encode(it) for it in column.back(lists, column.type.unmap, None)]


def json_float(value: float) -> str:
    return repr(value) if math.isfinite(value) else f'"{value!r}"'


def json_text(rows: Rows) -> Iterator[str]:
    """The table as an object of JSON a line, block by block."""
    columns = rows.types.columns
    heads = [json.dumps(it.name) + ":" for it in columns]

    def texts(blocks: Blocks) -> Iterator[str]:
        for block in blocks:
            cells = [[head + it for it in json_cells(column, lists)] for head, column, lists in zip(heads, columns, block)]
            yield "".join(f"{{{','.join(row)}}}\n" for row in zip(*cells))

    return rows.texts("", texts)


def to_sqlite(rows: Rows, path: str) -> None:
    """Makes a file of SQLite with `t_scaled` and `t`. It has its name only when it is whole, and takes none that is there."""
    if os.path.lexists(path):
        raise DataError(f"{path} already exists", "give another path")
    around, name = os.path.split(os.path.abspath(path))
    try:
        with tempfile.TemporaryDirectory(prefix=f"{name}.partial.", dir=around) as folder:
            partial = os.path.join(folder, name)
            write_sqlite(partial, rows.types.columns, rows.values(rows.types.columns))
            take_name(partial, path)
    except FileExistsError:
        raise DataError(f"{path} already exists", "give another path") from None
    except sqlite3.Error as error:
        raise DataError(f"could not write {path}: {error}", "check the path and the room on its disk", DEVICE) from None
    except OSError as error:
        raise device(error, "check the path and the room on its disk") from None


def take_name(partial: str, path: str) -> None:
    """Gives a file a name that nothing has. A FileExistsError says that something has it."""
    try:
        os.link(partial, path)
    except FileExistsError:
        raise
    except OSError:
        # (a file system without hard links)
        open(path, "x").close()
        os.replace(partial, path)


def write_sqlite(path: str, columns: Sequence[Column], blocks: Iterable[list[list[Any]]]) -> None:
    database = sqlite3.connect(path, isolation_level=None)
    try:
        database.execute("PRAGMA journal_mode = OFF")
        database.execute("BEGIN")
        make_tables(database, columns)
        fill(database, columns, blocks)
        database.execute("COMMIT")
    finally:
        database.close()
