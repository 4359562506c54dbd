"""A table as a DataFrame of pandas."""
from __future__ import annotations

from collections.abc import Iterable
from itertools import chain
from typing import Any

import numpy
import pandas

from .kinds import LEAST
from .types import Column

# The nanoseconds of the units in which types keep dates and timestamps.
NANOSECONDS = {"date": 86_400 * 10**9, "timestamp(s)": 10**9, "timestamp(ms)": 10**6, "timestamp(us)": 1000, "timestamp(ns)": 1}


def frame_of(chosen: list[Column], batches: Iterable[list[Any]]) -> pandas.DataFrame:
    """The frame of columns, from the batches of what is stored."""
    parts = list(zip(*batches)) or [()] * sum(len(it.stored) for it in chosen)
    stored = iter(parts)
    return pandas.DataFrame({it.name: series(it, [next(stored) for _ in it.stored]) for it in chosen})


def joined(parts: Iterable[Any], dtype: Any) -> Any:
    return numpy.concatenate([numpy.empty(0, dtype), *(numpy.array(part, dtype) for part in parts)])


def series(column: Column, parts: list[Any]) -> Any:
    """A column, from the batches of each of its stored columns."""
    name = column.type.name
    if name in NANOSECONDS and (found := moments(joined(parts[0], numpy.int64), NANOSECONDS[name])) is not None:
        return found
    if name in ("int", "text") and not column.null:
        dtype = numpy.int64 if name == "int" else object
        return pandas.Series(joined(parts[0], dtype), dtype=dtype)
    values = column.values([list(chain.from_iterable(it)) for it in parts])
    dtypes = {"int": "Int64", "bool": "boolean" if column.null else "bool", "float": "float64"}
    return pandas.Series(values, dtype=dtypes.get(name, "object"))


def moments(stored: Any, nanoseconds: int) -> Any:
    """Stored moments as datetime64[ns], or None if one is outside 1677-09-21 to 2262-04-11. The least int is NULL, and NaT."""
    known = stored != LEAST
    some = stored[known]
    if len(some) and max(-int(some.min()), int(some.max())) > -(LEAST + 1) // nanoseconds:
        return None
    return numpy.where(known, stored * numpy.where(known, nanoseconds, 1), LEAST).view("datetime64[ns]")
