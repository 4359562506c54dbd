"""The second pass of a draft: how many rows lie between candidate cuts, and whether a key stands twice."""
from __future__ import annotations

from collections.abc import Iterator, Sequence
from dataclasses import replace

from .block import drafted_key, taken
from .cuts import Counts, candidates
from .errors import DataError
from .keys import Repeats
from .kinds import Stored
from .seen import Seen
from .types import Types


class Counted:
    """Counts of the rows of each order's first column."""

    def __init__(self, seen: Seen, types: Types, key: str, names: Sequence[str]) -> None:
        self.seen, self.types, self.key = seen, types, key
        cells = seen.columns()
        sample, _ = taken(seen.table, replace(types, key=None), range(len(types.columns)), cells, 1)
        if types.key:
            sample[types.key.name] = drafted_key(types.key, sample, range(len(cells[0])))
        self.sample = {name: list(it) for name, it in sample.items()}
        self.counts = {name: Counts(candidates(self.sample[name])) for name in names}
        own = types.key.columns if types.key else (key,)
        needed = {*names, *own}
        # (some column is read even if only row numbers are counted)
        self.places = [at for at, it in enumerate(types.columns) if it.name in needed] or [0]
        self.keys = own
        self.read()

    def blocks(self) -> Iterator[tuple[int, dict[str, Stored]]]:
        table = self.seen.table
        for first, cells in table.blocks([self.seen.places[at] for at in self.places]):
            yield first, taken(table, self.types, self.places, cells, first)[0]

    def read(self) -> None:
        repeats, rows = Repeats(), 0
        for first, block in self.blocks():
            for name, counts in self.counts.items():
                counts.take(block[name])
            if self.keys:
                repeats.take(self.texts(block))
            rows = first + len(block[self.key]) - 1
        if rows != self.seen.rows:
            raise DataError(f"{self.seen.table.path}: {self.seen.rows} rows, then {rows}: it changed while it was read", "draft it again")
        if suspects := repeats.suspects():
            self.look_again(suspects)

    def texts(self, block: dict[str, Stored]) -> list[str]:
        """The keys as texts: their hashes are spread well."""
        return list(map(str, block[self.key]))

    def look_again(self, suspects: set[int]) -> None:
        """A third pass, over keys with equal hashes."""
        found: dict[str, int] = {}
        for first, block in self.blocks():
            for at, text in enumerate(self.texts(block)):
                if hash(text) not in suspects:
                    continue
                if text in found:
                    cells = [f"{it.name} {it.unmap([[block[it.name][at]]])[0]}" for it in self.types.columns if it.name in self.keys]
                    raise DataError(f"{self.seen.table.path}: record {first + at}: {', '.join(cells)} already exists (record {found[text]})",
                                    "give a --key whose rows are all different, or --key none, which numbers the rows")
                found[text] = first + at
