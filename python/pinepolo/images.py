"""The image of a segment: its rows with its delta applied, which are looked at for their range and their order."""
from __future__ import annotations

from collections.abc import Iterable, Iterator
from itertools import chain, islice
from operator import le, lt
from typing import Any

from . import deltas, segments
from .broken import BROKEN, Broken
from .catalog import Catalog
from .errors import DEVICE, DataError
from .sites import Places

Batch = list[Any]


def named(p: int, s: int) -> str:
    return f"p{p}.s{s}"


class Image:
    """Reads the image of segment `s` of projection `p`."""

    def __init__(self, catalog: Catalog, places: Places, p: int, s: int) -> None:
        self.catalog, self.places, self.p, self.s = catalog, places, p, s
        self.projection = catalog.projections[p]
        self.shape = catalog.shape(p)
        self.site = self.projection.sites[s]

    def data(self, end: str) -> bytes:
        name = named(self.p, self.s) + end
        path = self.places.path(name, self.site)
        try:
            with open(path, "rb") as file:
                return file.read()
        except OSError as error:
            raise DataError(f"could not read {path}: {error.strerror}", "mend the device or the permissions", DEVICE) from None

    def damaged(self, end: str, what: str) -> DataError:
        where = self.places.store
        return DataError(f"{named(self.p, self.s)}{end} (site {self.site}) is damaged: {what}", f"pinepolo diagnose {where}")

    def invalid(self, end: str, at: int | None, data: bytes) -> DataError:
        return self.damaged(end, f"invalid at byte {at} of {len(data)}")

    def delta(self) -> deltas.Delta:
        data, kinds = self.data(".del"), [kind for _, kind in self.shape]
        try:
            return deltas.read(data, kinds, self.p, self.s)
        except Broken as broken:
            raise self.invalid(".del", broken.at, data) from None

    def batches(self) -> Iterator[Batch]:
        """The rows by batches of columns, in the projection's order. A DataError says what is wrong with a file."""
        delta, data = self.delta(), self.data(".seg")
        try:
            rows, columns = segments.read(data, self.shape, self.p, self.s)
            if not delta.merges(rows):
                raise self.damaged(".del", f"it does not merge with the {rows} rows of {named(self.p, self.s)}.seg")
            yield from self.looked_at(deltas.image(columns, delta))
        except (*BROKEN, DataError):
            # (what is wrong with the segment's own bytes comes first)
            try:
                segments.look(data, self.shape, self.p, self.s)
            except Broken as broken:
                raise self.invalid(".seg", broken.at, data) from None
            raise

    def looked_at(self, batches: Iterable[Batch]) -> Iterator[Batch]:
        """The batches, each once its rows are seen to be in the segment's range and in order."""
        it = self.projection
        own = [it.columns.index(name) for name in dict.fromkeys([*it.sort, self.catalog.key]) if name in it.columns]
        # (without the primary key, rows may be equal in what they are sorted by)
        ascends = lt if self.catalog.key in it.columns else le
        low, high = [None, *it.cuts][self.s], [*it.cuts, None][self.s]
        last: list[Any] = []
        for batch in batches:
            columns = [batch[at] for at in own]
            rows = columns[0] if len(own) == 1 else list(zip(*columns))
            first, greatest = columns[0][0], columns[0][-1]
            in_range = (low is None or low <= first) and (high is None or greatest < high)
            if not in_range or not all(map(ascends, chain(last, rows), islice(rows, 1 - len(last), None))):
                raise DataError(f"{named(self.p, self.s)} (site {self.site}): its rows are not those of its range, in order",
                                f"pinepolo diagnose {self.places.store}")
            last = [rows[-1]]
            yield batch
