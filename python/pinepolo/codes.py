"""The four codes of a column (docs/formats.md, "Cells and columns").

Each reads the body of a column of so many rows, and gives its cells by batches: lists, or arrays of ints. A body that is not
exactly that of such a column raises one of `BROKEN`, at the latest when the batches end; one batch holds the cells of at most
65,536 rows. Room is taken for what the body has bytes for, and by runs and bitmaps for the rows that they stand for, of which
a segment has at most 1,048,576.
"""
from __future__ import annotations

import struct
import sys
from array import array
from collections.abc import Callable, Iterator, Sequence
from itertools import accumulate
from typing import Any

from .broken import need
from .kinds import GREATEST, LEAST

# Some cells of a column, and how one is read: the cell at an offset of a body, and the offset behind it.
Cells = Sequence[Any]
ReadCell = Callable[[bytes, int], tuple[Any, int]]

BATCH = 65_536
# Positions of a block of differences, of which the first has its value in full.
BLOCK = 128
# Bytes of a body in which texts are looked for at once; all bytes but control characters; and line breaks for these.
PIECE = 2**18
OTHERS = bytes(range(32, 256))
LINES = bytes.maketrans(bytes(range(32)), b"\n" * 32)
RUN = struct.Struct(">II")
ANCHOR = struct.Struct(">Iq")
INT = struct.Struct(">q")


def counts(rows: int) -> Iterator[int]:
    """The numbers of rows of the batches."""
    return (min(BATCH, rows - first) for first in range(0, rows, BATCH))


def slices(cells: Cells) -> Iterator[Cells]:
    """The batches of a list."""
    return (cells[first:first + BATCH] for first in range(0, len(cells), BATCH))


def int_cell(body: bytes, at: int) -> tuple[int, int]:
    """The int at an offset, and the offset behind it."""
    return INT.unpack_from(body, at)[0], at + 8


def text_cell(body: bytes, at: int) -> tuple[str, int]:
    """The text at an offset, and the offset behind it."""
    end = at + 1 + body[at]
    need(end <= len(body))
    return body[at + 1:end].decode(), end


def plain_ints(body: bytes, rows: int) -> Iterator[Cells]:
    need(len(body) == 8 * rows)
    for first in range(0, len(body), 8 * BATCH):
        cells = array("q", body[first:first + 8 * BATCH])
        if sys.byteorder == "little":
            cells.byteswap()
        yield cells


def short_texts(body: bytes, at: int, count: int) -> list[str]:
    """Of a body in ASCII at most so many texts from an offset on, if all control characters there are lengths: the texts stand
    between them. None if that is not so."""
    piece = body[at:at + PIECE]
    lengths = piece.translate(None, OTHERS)
    cells = piece.translate(LINES).decode("ascii").split("\n")
    if at + PIECE < len(body):
        # (the last one may be cut)
        cells.pop()
    found = cells[1:count + 1]
    return found if cells[:1] == [""] and list(map(len, found)) == list(lengths[:len(found)]) else []


def plain_texts(body: bytes, rows: int) -> Iterator[Cells]:
    """Bodies in ASCII, whose lengths are ASCII too, are decoded as a whole: a slice of them is a cell."""
    is_ascii, at = body.isascii(), 0
    text: Any = body.decode("ascii") if is_ascii else body
    for count in counts(rows):
        length = body[at]
        size = length + 1
        end = at + size * count
        if body[at:end:size] == bytes([length]) * count:
            # (all of one length)
            cells = [text[begin:begin + length] for begin in range(at + 1, end + 1, size)]
            at = end
        else:
            cells = []
            while is_ascii and len(cells) < count and (some := short_texts(body, at, count - len(cells))):
                cells += some
                at += len(some) + sum(map(len, some))
            add = cells.append
            for _ in range(count - len(cells)):
                begin = at + 1
                at = begin + body[at]
                add(text[begin:at])
        need(at <= len(body))
        yield cells if is_ascii else [cell.decode() for cell in cells]
    need(at == len(body))


def short_numbers(body: bytes, at: int, count: int) -> tuple[list[int], int]:
    """So many unsigned numbers below 2^64 at an offset, in groups of seven bits, and the offset behind them."""
    numbers = []
    for _ in range(count):
        value, shift = body[at] & 127, 0
        while body[at] > 127:
            at, shift = at + 1, shift + 7
            need(shift < 64)
            value |= (body[at] & 127) << shift
        # (the shortest form: a last group of zeros is one too many)
        need(value < 2**64 and (body[at] or not shift))
        numbers.append(value)
        at += 1
    return numbers, at


def block(body: bytes, at: int, first: int, count: int, before: int) -> tuple[list[int], int]:
    """The cells of a block that begins at the position `first`, from 0, and the offset behind it."""
    position, value = ANCHOR.unpack_from(body, at)
    need(position == first + 1 and value >= before)
    at += ANCHOR.size
    end = at + count - 1
    gaps: Sequence[int] = body[at:end]
    if not body[at:end].isascii():
        gaps, end = short_numbers(body, at, count - 1)
    need(len(gaps) == count - 1)
    cells = list(accumulate(gaps, initial=value))
    need(cells[-1] <= GREATEST)
    return cells, end


def differences(body: bytes, rows: int) -> Iterator[Cells]:
    at, before = 0, LEAST
    for first in range(0, rows, BATCH):
        batch: list[int] = []
        stop = min(first + BATCH, rows)
        for place in range(first, stop, BLOCK):
            cells, at = block(body, at, place, min(BLOCK, stop - place), before)
            before = cells[-1]
            batch += cells
        yield batch
    need(at == len(body))


def runs(body: bytes, rows: int, cell: ReadCell) -> Iterator[Cells]:
    cells: list[Any] = []
    at, last = 0, None
    while at < len(body):
        value, at = cell(body, at)
        position, count = RUN.unpack_from(body, at)
        at += RUN.size
        need(position == len(cells) + 1 and 0 < count <= rows - len(cells) and value != last)
        cells += [value] * count
        last = value
    need(len(cells) == rows)
    yield from slices(cells)


def bitmaps(body: bytes, rows: int, cell: ReadCell) -> Iterator[Cells]:
    cells: list[Any] = [None] * rows
    at, last, filled = 0, None, 0
    while at < len(body):
        value, at = cell(body, at)
        need(last is None or last < value)
        last, place = value, 0
        lengths, = struct.unpack_from(">I", body, at)
        at += 4
        need(0 < lengths <= (len(body) - at) // 4 and lengths % 2 == 0)
        for zeros, ones in RUN.iter_unpack(body[at:at + 4 * lengths]):
            place += zeros
            # (only the first run of zeros may be empty)
            need(ones and (zeros or place == 0) and place + ones <= rows)
            need(cells[place:place + ones].count(None) == ones)
            cells[place:place + ones] = [value] * ones
            place, filled = place + ones, filled + ones
        at += 4 * lengths
    need(filled == rows)
    yield from slices(cells)


def cells_of(code: int, kind: str, body: bytes, rows: int) -> Iterator[Cells]:
    """The batches of a column, by its code and kind."""
    is_int = kind == "int"
    cell: ReadCell = int_cell if is_int else text_cell
    if code == 1:
        return runs(body, rows, cell)
    if code == 2:
        return bitmaps(body, rows, cell)
    if code == 3:
        return differences(body, rows)
    return plain_ints(body, rows) if is_int else plain_texts(body, rows)
