"""CSV in and out: blocks of columns of a file, and lines of columns."""
from __future__ import annotations

import codecs
import csv
import os
import stat
from collections.abc import Iterator, Sequence
from contextlib import contextmanager
from itertools import islice
from typing import TextIO

from .errors import DEVICE, USAGE, DataError
from .naming import first_repeated

BLOCK = 1024
CELL = 131_072
SPECIAL = ('"', ",", "\r", "\n")


class Table:
    """A CSV file that is read block by block, more than once if need be. If it may be a pipe, that is read once.

    The first record is the header, record 0. Empty lines are skipped, and are no records.
    """

    def __init__(self, path: str, delimiter: str = ",", encoding: str = "utf-8", may_be_pipe: bool = False) -> None:
        self.path, self.delimiter = path, delimiter
        self.encoding = checked(encoding)
        self.may_be_pipe = may_be_pipe
        self.pipe: TextIO | None = None
        file = self.opened()
        self.header = self.read_header(file)
        if self.is_regular():
            file.close()
        else:
            self.pipe = file

    def is_regular(self) -> bool:
        return stat.S_ISREG(os.stat(self.path).st_mode)

    def opened(self) -> TextIO:
        try:
            if not self.may_be_pipe and not self.is_regular():
                raise DataError(f"{self.path} is no regular file", "write the table into a file: it is read twice", DEVICE)
            return open(self.path, newline="", encoding=self.encoding)
        except OSError as error:
            raise DataError(f"could not read {self.path}: {error.strerror}", "check the path and the permissions", DEVICE) from None

    def records(self, file: TextIO) -> Iterator[list[str]]:
        csv.field_size_limit(CELL)
        return csv.reader(file, delimiter=self.delimiter, strict=True)

    def read_header(self, file: TextIO) -> list[str]:
        rows: list[list[str]] = []
        self.fill(rows, filter(None, self.records(file)), 1, -1)
        if not rows:
            raise DataError(f"{self.path} is empty: it has no header", "the first record names the columns")
        header = rows[0]
        if (name := first_repeated(header)) is not None:
            raise DataError(f"{self.path}: record 0: {name!r} stands twice", "give each column a name of its own")
        return header

    def fill(self, rows: list[list[str]], records: Iterator[list[str]], most: int, before: int) -> None:
        """Appends the next records, at most so many, to an empty list. `before` is the number of the last one read."""
        try:
            rows.extend(islice(records, most))
        except csv.Error as error:
            raise DataError(f"{self.path}: record {before + 1 + len(list(filter(None, rows)))}: {reason(error)}",
                            "mend the CSV: a quote in a cell is doubled, and the cell quoted") from None
        except UnicodeDecodeError:
            where = "" if self.pipe else f", from byte {self.bad_byte()} on"
            raise DataError(f"{self.path}: not {self.encoding.removesuffix('-sig')}{where}",
                            "mend the text, or name its encoding by --encoding") from None
        except OSError as error:
            raise DataError(f"could not read {self.path}: {error.strerror}", "mend the device", DEVICE) from None

    def bad_byte(self) -> int:
        """The offset of the first byte that can't be decoded."""
        decoder, fed = codecs.getincrementaldecoder(self.encoding.removesuffix("-sig"))(), 0
        with open(self.path, "rb") as file:
            while True:
                chunk, kept = file.read(1 << 20), decoder.getstate()[0]
                try:
                    decoder.decode(chunk, final=not chunk)
                except UnicodeDecodeError as error:
                    return fed - len(kept) + error.start
                fed += len(chunk)
                if not chunk:
                    return fed

    @contextmanager
    def body(self) -> Iterator[TextIO]:
        """The text behind the header."""
        if self.pipe:
            yield self.pipe
            return
        with self.opened() as file:
            self.fill([], filter(None, self.records(file)), 1, -1)
            yield file

    def blocks(self, places: Sequence[int] | None = None) -> Iterator[tuple[int, list[list[str]]]]:
        """The number of the first record of each block, and the block's columns, or those at some places of the header."""
        width = len(self.header)
        chosen = range(width) if places is None else places
        with self.body() as file:
            records, number = self.records(file), 0
            while True:
                rows: list[list[str]] = []
                self.fill(rows, records, BLOCK, number)
                if not rows:
                    return
                if set(map(len, rows)) != {width}:
                    rows = self.whole(rows, number)
                if rows:
                    columns = list(zip(*rows))
                    yield number + 1, [list(columns[at]) for at in chosen]
                    number += len(rows)

    def whole(self, rows: list[list[str]], before: int) -> list[list[str]]:
        """The records without the empty lines. One of another length than the header's is refused."""
        rows = [it for it in rows if it]
        for at, row in enumerate(rows):
            if len(row) != len(self.header):
                raise DataError(f"{self.path}: record {before + 1 + at}: {len(row)} cells, but the header has {len(self.header)}",
                                "mend the CSV, or give its --delimiter")
        return rows


def checked(encoding: str) -> str:
    """The name of an encoding as Python writes it; UTF-8 takes a byte order mark."""
    try:
        name = codecs.lookup(encoding).name
        "".encode(encoding)
    except LookupError:
        raise DataError(f"{encoding!r} is no encoding of text", "give one such as utf-8, latin-1, cp1252, utf-16", USAGE) from None
    return "utf-8-sig" if name == "utf-8" else name


def reason(error: csv.Error) -> str:
    text = str(error)
    if "unexpected end of data" in text:
        return "a quote is not closed"
    if "field larger" in text:
        return f"a cell of more than {CELL} characters, or a quote that is not closed"
    if "expected after" in text:
        return "text behind a closing quote"
    return text


def lines(columns: Sequence[Sequence[str]]) -> list[str]:
    """Records of columns, one text each without its line break. A cell is quoted if and only if it has to be."""
    rows = list(map(",".join, zip(*columns)))
    text = "\n".join(rows)
    if '"' not in text and "\r" not in text and text.count("\n") == max(0, len(rows) - 1) \
            and text.count(",") == len(rows) * (len(columns) - 1) and (len(columns) > 1 or "" not in columns[0]):
        return rows
    alone = len(columns) == 1
    return list(map(",".join, zip(*([quoted(it, alone) for it in column] for column in columns))))


def quoted(cell: str, alone: bool) -> str:
    """A cell as a CSV has it. Alone in its record, an empty one is quoted: an empty line would be no record."""
    if any(it in cell for it in SPECIAL) or alone and not cell:
        return '"' + cell.replace('"', '""') + '"'
    return cell
