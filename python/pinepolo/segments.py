"""The file of a segment (docs/formats.md, "A segment")."""
from __future__ import annotations

from collections import deque
from collections.abc import Iterator

from .broken import BROKEN, Broken, front_of, need, need_name, need_seal, number
from .codes import Cells, cells_of

SEGMENT_ROWS = 1_048_576
HEAD = 18
COLUMN_HEAD = 6
KINDS = {"int": 1, "text": 2}
# The code and the kind of each column of a projection, as the catalog has them.
Shape = list[tuple[int, str]]


def head_rows(front: bytes, shape: Shape, p: int, s: int) -> int:
    """The number of rows in the head of a segment, which has columns of this shape."""
    need_name(front, [b"CSSEG001"], p, s)
    rows = number(front, 12, 0, SEGMENT_ROWS)
    need(front[16:HEAD] == len(shape).to_bytes(2, "big"), 16)
    return rows


def bodies(front: bytes, shape: Shape) -> Iterator[tuple[int, int, str, bytes]]:
    """Of each column in turn its offset, code, kind and body."""
    at = HEAD
    for code, kind in shape:
        need(front[at:at + 2] == bytes([code, KINDS[kind]]) and at + COLUMN_HEAD <= len(front), at)
        length, begin = int.from_bytes(front[at + 2:at + COLUMN_HEAD], "big"), at + COLUMN_HEAD
        need(begin + length <= len(front), at)
        yield at, code, kind, front[begin:begin + length]
        at = begin + length
    need(at == len(front), at)


def look(data: bytes, shape: Shape, p: int, s: int) -> None:
    """Raises Broken at the first part of the file of segment `s` of projection `p` that makes no sense, if there is one."""
    front = front_of(data)
    rows = head_rows(front, shape, p, s)
    for at, code, kind, body in bodies(front, shape):
        try:
            deque(cells_of(code, kind, body, rows), maxlen=0)
        except BROKEN as broken:
            raise Broken(at) from broken
    need_seal(data)


def read(data: bytes, shape: Shape, p: int, s: int) -> tuple[int, list[Iterator[Cells]]]:
    """The number of rows of a segment's file, and the batches of each column.

    If the file is not one of this segment, that raises one of `BROKEN`: at once if the digest or the head of a column is
    wrong, and else when the batch is reached; `look` says where.
    """
    need_seal(data)
    front = front_of(data)
    rows = head_rows(front, shape, p, s)
    return rows, [cells_of(code, kind, body, rows) for _, code, kind, body in bodies(front, shape)]
