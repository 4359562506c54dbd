"""Cuts of an order: candidates from a sample, exact counts between them, and the cuts that make segments even."""
from __future__ import annotations

from bisect import bisect_left
from collections import Counter
from collections.abc import Sequence
from typing import Any

from .kinds import GREATEST, TEXT_BYTES, utf8_length

CANDIDATES = 1024
WAITING = 1 << 16
# A value with more than this share of a sample is counted by itself.
COMMON = 4000
AIM, FULL, SEGMENTS = 1_000_000, 1_048_576, 16


def above(value: Any) -> Any:
    """The value next above another, or None if there is none that can be a cut."""
    if isinstance(value, int):
        return value + 1 if value < GREATEST else None
    return value + "\0" if utf8_length(value) < TEXT_BYTES else None


def candidates(sample: Sequence[Any]) -> list[Any]:
    """Cuts to choose from: about a thousand values of a sample, common ones among them, each with the value next above."""
    ordered = sorted(sample)
    common = [it for it, count in Counter(ordered).most_common(200) if count * COMMON > len(ordered)]
    found = set(ordered[::max(1, len(ordered) // CANDIDATES)])
    found.update(common)
    found.update(it for it in map(above, common) if it is not None)
    return sorted(found)


class Counts:
    """The rows of a column between cuts."""

    def __init__(self, cuts: Sequence[Any]) -> None:
        self.cuts = cuts
        self.counts = [0] * (len(self.cuts) + 1)
        self.waiting: list[Any] = []

    def take(self, values: Sequence[Any]) -> None:
        self.waiting.extend(values)
        if len(self.waiting) >= WAITING:
            self.count()

    def count(self) -> None:
        """Counts the waiting values. Sorted, they cost a search for each cut and not one for each value."""
        values = self.waiting
        values.sort()
        before = 0
        for at, cut in enumerate(self.cuts):
            place = bisect_left(values, cut, before)
            self.counts[at] += place - before
            before = place
        self.counts[-1] += len(values) - before
        values.clear()

    def sizes(self) -> list[int]:
        """The rows below the first cut, between each two, and from the last on."""
        self.count()
        return self.counts

    def fullest(self) -> tuple[Any, int]:
        """The cut with the most rows from it up to the next one, and how many they are."""
        sizes = self.sizes()
        at = max(range(len(sizes)), key=sizes.__getitem__)
        return self.cuts[max(0, at - 1)], sizes[at]


def filled(among: Sequence[Any], sizes: Sequence[int], most: int) -> tuple[list[Any], list[int]]:
    """Cuts, and the rows of each segment, if segments are filled from the left to at most so many rows."""
    cuts, rows = [], [0]
    for at, size in enumerate(sizes):
        if rows[-1] and rows[-1] + size > most:
            cuts.append(among[at - 1])
            rows.append(0)
        rows[-1] += size
    if not rows[-1] and cuts:
        cuts.pop()
        rows.pop()
    return cuts, rows


def even_cuts(among: Sequence[Any], sizes: Sequence[int], wanted: int) -> tuple[list[Any], list[int]] | None:
    """Cuts into the wanted number of segments, or more if these would be above 1,000,000 rows, as even as can be.

    None if a range between two candidates is too large for a segment, or 16 segments are too few.
    """
    for most in (AIM, FULL):
        segments = len(filled(among, sizes, most)[1])
        if segments <= SEGMENTS:
            break
    else:
        return None
    if max(sizes) > FULL:
        return None
    wanted = min(SEGMENTS, max(wanted, segments))
    low, high = max(1, -(-sum(sizes) // wanted)), max(most, max(sizes))
    while low < high:
        middle = (low + high) // 2
        if len(filled(among, sizes, middle)[1]) <= wanted:
            high = middle
        else:
            low = middle + 1
    return filled(among, sizes, high)
