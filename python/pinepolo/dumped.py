"""Rows of a store as `pinepolo dump` gives them: verified, by primary key, also while sites are lost."""
from __future__ import annotations

import csv
import io
import subprocess
from collections.abc import Iterator
from itertools import islice
from typing import TextIO

from . import program
from .columns import Column
from .errors import DataError
from .kinds import Stored
from .table_csv import BLOCK, CELL
from .types import Types


def dump_words(store: str, sites: str | None, lost: str | None) -> list[str]:
    return ["dump", "--quiet", *program.site_words(sites), *(["--lost", lost] if lost else []), "--", store]


def dumped(store: str, types: Types, sites: str | None = None, lost: str | None = None,
           columns: list[Column] | None = None) -> Iterator[list[list[Stored]]]:
    """Blocks of rows: for each column of the table, or of those chosen, a list for each of its stored columns."""
    chosen = list(types.columns) if columns is None else columns
    with program.started(dump_words(store, sites, lost), stdout=subprocess.PIPE) as process:
        assert process.stdout
        text = io.TextIOWrapper(process.stdout, encoding="utf-8", newline="")
        try:
            yield from blocks(text, chosen)
        except (csv.Error, ValueError) as error:
            # (a dump that failed says so itself)
            text.close()
            if not process.wait():
                raise DataError(f"pinepolo dump gave no CSV of this table: {error}",
                                "check that pinepolo and pinepolo-data are of one version") from None


def blocks(text: TextIO, chosen: list[Column]) -> Iterator[list[list[Stored]]]:
    """The blocks of a dump."""
    csv.field_size_limit(CELL)
    records = csv.reader(text, strict=True)
    header = next(records, [])
    if header:
        places = [[header.index(name) for name in it.stored] for it in chosen]
        while rows := [it for it in islice(records, BLOCK) if it]:
            cells = list(zip(*rows, strict=True))
            yield [[kept(it, cells[at]) for at in own] for it, own in zip(chosen, places)]


def kept(column: Column, cells: tuple[str, ...]) -> Stored:
    """The cells of a dump as the store keeps them."""
    return list(map(int, cells)) if column.type.kind == "int" else list(cells)

