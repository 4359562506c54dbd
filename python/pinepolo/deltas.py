"""The file of a delta (docs/formats.md, "A delta"), and the image of a segment under it."""
from __future__ import annotations

from collections.abc import Iterable, Iterator, Sequence
from typing import Any, NamedTuple

from .broken import BROKEN, Broken, front_of, need, need_name, need_seal, number
from .codes import Cells, int_cell, slices
from .segments import SEGMENT_ROWS

KEYS = 4_194_304
LAYERS = 3
INSERT, DELETE, MODIFY = 1, 2, 3


class Item(NamedTuple):
    """A change at a position of the rows below. `what` is the key of an inserted row, or the number of a modified column;
    `cells` are those of the row, or the one cell."""

    tag: int
    position: int
    what: int
    cells: Sequence[Any]


class Delta:
    """The changes of a segment of so many rows: layers of items."""

    def __init__(self, rows: int, layers: list[list[Item]]) -> None:
        self.rows, self.layers = rows, layers

    def counts(self) -> list[int]:
        """The number of rows of the base, and of the image of each layer."""
        found = [self.rows]
        for items in self.layers:
            tags = [item.tag for item in items]
            found.append(found[-1] + tags.count(INSERT) - tags.count(DELETE))
        return found

    def merges(self, rows: int) -> bool:
        """Whether the delta merges with a segment of so many rows."""
        return rows == self.rows and max(self.counts()) <= SEGMENT_ROWS


def stored_cell(front: bytes, at: int, kind: str) -> tuple[int | bytes, int]:
    """A cell of an item, a text as its bytes, and the offset behind it."""
    if kind == "int":
        return int_cell(front, at)
    end = at + 1 + front[at]
    need(end <= len(front))
    return front[at + 1:end], end


def stored_item(front: bytes, at: int, kinds: Sequence[str]) -> tuple[Item, int]:
    """The item at an offset, and the offset behind it."""
    tag, begin = front[at], at + 5
    need(begin <= len(front))
    position = int.from_bytes(front[at + 1:begin], "big")
    if tag == DELETE:
        return Item(tag, position, 0, ()), begin
    if tag == MODIFY:
        cell, end = stored_cell(front, begin + 1, kinds[front[begin]])
        return Item(tag, position, front[begin], (cell,)), end
    need(tag == INSERT)
    cells: list[Any] = []
    end = begin + 4
    key = int.from_bytes(front[begin:end], "big")
    for kind in kinds:
        cell, end = stored_cell(front, end, kind)
        cells.append(cell)
    return Item(tag, position, key, cells), end


def stored_layer(front: bytes, at: int, kinds: Sequence[str]) -> tuple[list[Item], int]:
    """The items of the layer at an offset, and the offset behind it."""
    items: list[Item] = []
    count, at = number(front, at, 0, 2**32 - 1), at + 4
    for _ in range(count):
        try:
            item, end = stored_item(front, at, kinds)
        except BROKEN as broken:
            raise Broken(at) from broken
        items.append(item)
        at = end
    return items, at


def decoded(item: Item) -> Item:
    """An item with its texts as texts."""
    return item._replace(cells=[it.decode() if isinstance(it, bytes) else it for it in item.cells])


def follows(item: Item, before: Item) -> bool:
    """Whether an item may come right after another."""
    if item.position != before.position:
        return item.position > before.position
    return before.tag == INSERT or item.tag == before.tag == MODIFY and item.what > before.what


def need_order(delta: Delta, top: int) -> None:
    """Raises Broken(0), unless the items are in order and in range, and no key comes twice."""
    keys: set[int] = set()
    for below, items in zip(delta.counts(), delta.layers):
        before = None
        for item in items:
            need(item.position < below + (item.tag == INSERT), 0)
            need(before is None or follows(item, before), 0)
            if item.tag == INSERT:
                need(delta.rows < item.what <= top and item.what not in keys, 0)
                keys.add(item.what)
            before = item


def read(data: bytes, kinds: Sequence[str], p: int, s: int) -> Delta:
    """Reads the file of a delta. Raises Broken at the first part that makes no sense, if there is one.

    `kinds` are those of the columns of projection `p`.
    """
    front = front_of(data)
    mark = need_name(front, [b"CSDEL001", b"CSDEL002"], p, s)
    rows = number(front, 12, 0, SEGMENT_ROWS)
    top, at, layers = number(front, 16, rows, KEYS), 20, 1
    found: list[list[Item]] = []
    if mark == b"CSDEL002":
        need(front[20:21] in (b"\1", b"\2", b"\3"), 20)
        layers, at = front[20], 21
    for _ in range(layers):
        items, at = stored_layer(front, at, kinds)
        found.append(items)
    need(at == len(front), at)
    need_seal(data)
    try:
        delta = Delta(rows, [[decoded(item) for item in items] for items in found])
    except UnicodeDecodeError as error:
        raise Broken(0) from error
    need_order(delta, top)
    return delta


def edits_of(items: Sequence[Item], column: int) -> Iterator[tuple[int, int, Any]]:
    """Of a layer the changes of one column: position, tag and cell."""
    for item in items:
        if item.tag == INSERT:
            yield item.position, INSERT, item.cells[column]
        elif item.tag == DELETE:
            yield item.position, DELETE, None
        elif item.what == column:
            yield item.position, MODIFY, item.cells[0]


def edited(batches: Iterable[Cells], items: Sequence[Item], column: int) -> Iterator[Cells]:
    """The cells of a column under a layer, by batches that hold the same rows for each column."""
    edits, start = edits_of(items, column), 0
    edit = next(edits, None)
    for batch in batches:
        cells: list[Any] = []
        stop, done = start + len(batch), start
        while edit and edit[0] < stop:
            position, tag, cell = edit
            cells += batch[done - start:position - start]
            cells += [] if tag == DELETE else [cell]
            done = position + (tag != INSERT)
            edit = next(edits, None)
        yield from slices([*cells, *batch[done - start:]] if done > start or cells else batch)
        start = stop
    yield from slices([cell for _, _, cell in ([edit] if edit else []) + list(edits)])


def image(columns: Sequence[Iterable[Cells]], delta: Delta) -> Iterator[tuple[Cells, ...]]:
    """The batches of a segment's rows under a delta that merges with it, from the batches of each column."""
    for items in delta.layers:
        if items:
            columns = [edited(batches, items, at) for at, batches in enumerate(columns)]
    return zip(*columns, strict=True)
