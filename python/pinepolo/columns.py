"""A column of a table: its type, its NULLs, and the columns of the catalog that keep it."""
from __future__ import annotations

from collections.abc import Sequence
from typing import Any

from .errors import BadCell
from .kinds import LEAST, Stored, Type

ZERO = "\0"


class Column:
    """A column of the table.

    Cells that are in `null` are NULL, and NULL is written as the first of them. NULL is kept as the least int or, of
    texts, as the empty text: then the empty text is one U+0000, and a text that begins with U+0000 gets one more. A
    column without `null` has no NULLs, and keeps its ints and texts as they are.
    """

    def __init__(self, name: str, kind: Type, header: str | None = None, null: Sequence[str] = ()) -> None:
        self.name, self.type, self.null = name, kind, tuple(null)
        self.header = name if header is None else header
        self.least: Any = LEAST if kind.kind == "int" else ""
        parts = kind.parts
        self.stored = [name] if parts == 1 else [f"{name}_{number}" for number in range(1, parts + 1)]
        self.nulls = frozenset(null)

    def take(self, cells: list[str]) -> tuple[list[Stored], list[str]]:
        """A list for each stored column, and the cells in canonical form. A BadCell names the first that can't be kept."""
        if self.nulls.isdisjoint(cells):
            kept, canonical = self.present(cells)
            return self.spread(kept), canonical
        places = [at for at, cell in enumerate(cells) if cell not in self.nulls]
        try:
            present, again = self.present([cells[at] for at in places])
        except BadCell as error:
            raise BadCell(places[error.index], error.why) from None
        none = self.least if self.type.parts == 1 else ("",) * self.type.parts
        stored: list[Any] = [none] * len(cells)
        canonical = [self.null[0]] * len(cells)
        for at, value, cell in zip(places, present, again):
            stored[at], canonical[at] = value, cell
        return self.spread(stored), canonical

    def present(self, cells: list[str]) -> tuple[Stored, list[str]]:
        """What is kept of cells none of which is NULL, and their canonical form."""
        escaped = self.escape(cells)
        kept = self.type.quick(escaped)
        if kept is None:
            kept = self.type.map(escaped)
            cells = self.unescape(self.type.unmap(kept))
            if not self.nulls.isdisjoint(cells):
                at = next(at for at, cell in enumerate(cells) if cell in self.nulls)
                raise BadCell(at, f"{cells[at]!r} in canonical form, which stands for NULL in this column")
        if self.null and self.least in kept:
            raise BadCell(list(kept).index(self.least), "the least integer, which stands for NULL in this column")
        return kept, cells

    def escape(self, cells: list[str]) -> list[str]:
        if self.null and self.type.kind == "text" and ("" in cells or ZERO in "".join(cells)):
            return [ZERO + it if it[:1] in ("", ZERO) else it for it in cells]
        return cells

    def unescape(self, cells: list[str]) -> list[str]:
        if self.null and self.type.kind == "text" and ZERO in "".join(cells):
            return [it[1:] if it[:1] == ZERO else it for it in cells]
        return cells

    def spread(self, kept: Stored) -> list[Stored]:
        if self.type.parts == 1:
            return [kept]
        return [list(it) for it in zip(*kept)] or [[] for _ in self.stored]

    def map(self, cells: list[str]) -> list[Stored]:
        """A list for each stored column."""
        return self.take(cells)[0]

    def unmap(self, lists: Sequence[Stored]) -> list[str]:
        """The canonical cells of a list for each stored column."""
        return self.back(lists, self.type.unmap, self.null[0] if self.null else "")

    def values(self, lists: Sequence[Stored]) -> list[Any]:
        """The values as Python has them, None for NULL."""
        return self.back(lists, self.type.values, None)

    def back(self, lists: Sequence[Stored], undo: Any, none: Any) -> list[Any]:
        """What `undo` makes of the stored cells that are not NULL, and `none` for those that are."""
        first = lists[0]
        kept: Stored = first if self.type.parts == 1 else list(zip(*lists))
        if not self.null or self.least not in first:
            return self.unescape(undo(kept)) if self.type.kind == "text" else undo(kept)
        least = self.least
        found = undo([it for it, head in zip(kept, first) if head != least])
        values = iter(self.unescape(found) if self.type.kind == "text" else found)
        return [none if head == least else next(values) for head in first]
