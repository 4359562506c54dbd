"""Chooses the encodings of a projection's columns by the bytes that a sample would take."""
from __future__ import annotations

import math
from collections import Counter
from collections.abc import Sequence
from typing import Any

from .kinds import utf8_length

RUNS, BITMAPS, DIFFERENCES, PLAIN = 1, 2, 3, 4
# Another encoding than plain has to save a quarter. Bitmaps are for columns of few values.
SAVING, FEW = 0.75, 256
ANCHOR, ANCHOR_BYTES = 128, 12


def cell_bytes(values: Sequence[Any]) -> float:
    """The mean bytes of a plain cell."""
    if not values or isinstance(values[0], int):
        return 8.0
    return 1 + sum(map(utf8_length, values)) / len(values)


def distinct(values: Sequence[Any], rows: int) -> float:
    """An estimate of the number of different values in all rows: those that a sample has once stand for more."""
    counts = Counter(values)
    once = sum(1 for it in counts.values() if it == 1)
    return len(counts) + (math.sqrt(rows / len(values)) - 1) * once


def runs(values: Sequence[Any]) -> int:
    return 1 + sum(map(lambda a, b: a != b, values, values[1:])) if values else 0


def difference_bytes(values: Sequence[int], rows: int) -> float:
    """The mean bytes of a difference, if rows come closer together than those of the sample."""
    share = len(values) / rows
    steps = [int((b - a) * share) for a, b in zip(values, values[1:])]
    groups = sum(max(1, -(-step.bit_length() // 7)) for step in steps) / max(1, len(steps))
    return ((ANCHOR - 1) * groups + ANCHOR_BYTES) / ANCHOR


def code_of(values: Sequence[Any], rows: int, first: bool) -> tuple[int, float]:
    """The encoding of a column and its bytes a row, given a sample in the projection's order, of so many rows.

    `first` says that it is the first sort column.
    """
    plain = cell_bytes(values)
    if not values:
        return PLAIN, plain
    changes = min(1.0, distinct(values, rows) / rows) if first else runs(values) / len(values)
    sizes = {RUNS: (plain + 8) * changes}
    if first and isinstance(values[0], int):
        sizes[DIFFERENCES] = difference_bytes(values, rows)
    if not first and (different := len(set(values))) <= FEW:
        sizes[BITMAPS] = 8 * changes + different * (plain + 4) / rows
    best = min(sizes, key=sizes.__getitem__)
    return (best, sizes[best]) if sizes[best] < SAVING * plain else (PLAIN, plain)
