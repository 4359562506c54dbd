"""Types of cells: date and timestamp(unit). Both keep their order; years are 1 to 9999 of the Gregorian calendar."""
from __future__ import annotations

import re
from datetime import date, datetime, timedelta
from typing import Any

from .kinds import GREATEST, LEAST, Stored, Type, joined

EPOCH = date(1970, 1, 1).toordinal()
DAY = 86400
FIRST, LAST = date.min.toordinal() - EPOCH, date.max.toordinal() - EPOCH
REMEMBERED = 100_000
UNITS = {"s": 0, "ms": 3, "us": 6, "ns": 9}
# How a column may write its timestamps: `T` or a blank, with `Z` or without. Digits of the unit stand before the `Z`.
LIKES = ("2000-01-01T00:00:00Z", "2000-01-01T00:00:00", "2000-01-01 00:00:00", "2000-01-01 00:00:00Z")
LIKE = LIKES[0]


class DayOf(dict[str, int]):
    """Days since 1970-01-01 of dates, as `2024-02-29`. What was asked for once is remembered."""

    form = re.compile(r"[0-9]{4}-[0-9]{2}-[0-9]{2}")

    def __missing__(self, text: str) -> int:
        if not self.form.fullmatch(text):
            raise ValueError("not a date such as 2024-02-29")
        try:
            found = date.fromisoformat(text).toordinal() - EPOCH
        except ValueError:
            raise ValueError("no day of the calendar, years 0001 to 9999") from None
        if len(self) >= REMEMBERED:
            self.clear()
        self[text] = found
        return found


class DateOf(dict[int, str]):
    """Dates of days since 1970-01-01."""

    def __missing__(self, day: int) -> str:
        if len(self) >= REMEMBERED:
            self.clear()
        self[day] = found = date.fromordinal(day + EPOCH).isoformat()
        return found


class SecondOf(dict[str, int]):
    """Seconds since midnight of times, as `23:59:59`."""

    form = re.compile(r"([01][0-9]|2[0-3]):([0-5][0-9]):([0-5][0-9])")

    def __missing__(self, text: str) -> int:
        found = self.form.fullmatch(text)
        if not found:
            raise ValueError("no time of day, 00:00:00 to 23:59:59")
        self[text] = seconds = int(found[1]) * 3600 + int(found[2]) * 60 + int(found[3])
        return seconds


class TimeOf(dict[int, str]):
    """Times of seconds since midnight."""

    def __missing__(self, second: int) -> str:
        self[second] = found = f"{second // 3600:02}:{second // 60 % 60:02}:{second % 60:02}"
        return found


DAYS, DATES, SECONDS, TIMES = DayOf(), DateOf(), SecondOf(), TimeOf()


class DateType(Type):
    """Dates as `2024-02-29`, stored as days since 1970-01-01."""

    name = "date"

    def quick(self, cells: list[str]) -> Stored | None:
        try:
            return list(map(DAYS.__getitem__, cells))
        except ValueError:
            return None

    def slow(self, cell: str) -> int:
        return DAYS[cell]

    def unmap(self, stored: Stored) -> list[str]:
        return list(map(DATES.__getitem__, stored))

    def values(self, stored: Stored) -> list[Any]:
        return list(map(date.fromordinal, [it + EPOCH for it in stored]))


class Timestamp(Type):
    """Moments in UTC, stored as `unit`s since 1970-01-01: s, ms, us, or ns from 1677-09-21 to 2262-04-11.

    `like` is the way in which the column writes midnight of 2000-01-01. A cell with another offset than `Z` is
    converted if `convert`, else refused.
    """

    form = re.compile(r"([0-9]{4}-[0-9]{2}-[0-9]{2})[T ]([0-9]{2}:[0-9]{2}:[0-9]{2})(?:\.([0-9]+))?"
                      r"(Z|([+-])([0-9]{2})(?::?([0-9]{2}))?)?")

    def __init__(self, unit: str, like: str = LIKE, convert: bool = False) -> None:
        self.unit, self.like, self.convert, self.name = unit, like, convert, f"timestamp({unit})"
        self.digits = UNITS[unit]
        self.scale = 10**self.digits
        self.between, self.zone = like[10], like[19:]
        part = rf"\.[0-9]{{{self.digits}}}" if self.digits else ""
        self.lines = re.compile(rf"(?:[0-9-]{{10}}{self.between}[0-9:]{{8}}{part}{self.zone}\n)*")

    def quick(self, cells: list[str]) -> Stored | None:
        text = joined(cells)
        if text is None or not self.lines.fullmatch(text):
            return None
        try:
            days = map(DAYS.__getitem__, [it[:10] for it in cells])
            seconds = map(SECONDS.__getitem__, [it[11:19] for it in cells])
            stored = [day * DAY + second for day, second in zip(days, seconds)]
        except ValueError:
            return None
        if self.digits:
            end, scale = 20 + self.digits, self.scale
            stored = [it * scale + int(cell[20:end]) for it, cell in zip(stored, cells)]
        return stored if not stored or LEAST < min(stored) and max(stored) <= GREATEST else None

    def slow(self, cell: str) -> int:
        found = self.form.fullmatch(cell)
        if not found:
            raise ValueError("not a timestamp such as 2024-02-29T23:59:59Z")
        part = found[3] or ""
        if len(part) > self.digits:
            raise ValueError(f"more than {self.digits} digits of a second" if self.digits else "parts of a second")
        seconds = DAYS[found[1]] * DAY + SECONDS[found[2]] - self.offset(found)
        if not FIRST <= seconds // DAY <= LAST:
            raise ValueError("no day of the calendar, years 0001 to 9999")
        value = seconds * self.scale + int(part.ljust(self.digits, "0") or "0")
        if not LEAST < value <= GREATEST:
            raise ValueError("outside 1677-09-21 to 2262-04-11, the range of nanoseconds")
        return value

    def offset(self, found: re.Match[str]) -> int:
        """The seconds by which a cell's offset is east of UTC."""
        if not found[5]:
            return 0
        if not self.convert:
            raise ValueError('an offset: types.toml can say offset = "convert"')
        hours, minutes = int(found[6]), int(found[7] or "0")
        if hours > 23 or minutes > 59:
            raise ValueError("no offset, -23:59 to +23:59")
        return (hours * 3600 + minutes * 60) * (-1 if found[5] == "-" else 1)

    def unmap(self, stored: Stored) -> list[str]:
        scale, between, zone, digits = self.scale, self.between, self.zone, self.digits
        seconds = [it // scale for it in stored] if digits else stored
        heads = [f"{DATES[it // DAY]}{between}{TIMES[it % DAY]}" for it in seconds]
        if not digits:
            return [head + zone for head in heads] if zone else heads
        return [f"{head}.{it % scale:0{digits}}{zone}" for head, it in zip(heads, stored)]

    def values(self, stored: Stored) -> list[Any]:
        """Datetimes without a zone, in UTC. Python's have no nanoseconds: timestamp(ns) gives the canonical texts."""
        if self.digits > 6:
            return self.unmap(stored)
        start, units = datetime(1970, 1, 1), 10**(6 - self.digits)
        return [start + timedelta(microseconds=it * units) for it in stored]
