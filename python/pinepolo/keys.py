"""A drafted key: the cells of several columns in one text, or the number of the row."""
from __future__ import annotations

from array import array
from bisect import bisect_left
from collections import Counter
from collections.abc import Sequence

from .kinds import GREATEST, LEAST, Stored

# Hashes are kept in sorted chunks, and compared by ranges with so many of them.
CHUNK, PART = 1 << 16, 1 << 14
SUSPECTS = 1000


def packed_int(value: int) -> str:
    """A text of an int: a letter for its sign and length, then its hexadecimal digits. It keeps the order."""
    if value >= 0:
        digits = f"{value:x}"
        return chr(ord("a") + len(digits) - 1) + digits
    digits = f"{-value - 1:x}"
    complement = "".join(f"{15 - int(it, 16):x}" for it in digits)
    return chr(ord("P") - len(digits) + 1) + complement


def packed_text(value: str) -> str:
    """A text that ends itself by two U+0000; one inside is followed by U+0001. It keeps the order."""
    return value.replace("\0", "\0\1") + "\0\0"


def packed(lists: Sequence[Stored]) -> list[str]:
    """The texts of the stored cells of several columns, row by row: different for different rows, and in their order."""
    parts: list[list[str]] = []
    for at, values in enumerate(lists):
        if values and isinstance(values[0], str):
            last = at == len(lists) - 1
            parts.append(list(values) if last else list(map(packed_text, values)))
        else:
            parts.append(list(map(packed_int, values)))
    return list(map("".join, zip(*parts)))


class Repeats:
    """Finds keys that stand twice, with 8 bytes a row for their hashes."""

    def __init__(self) -> None:
        self.chunks: list[array[int]] = []
        self.waiting: list[int] = []

    def take(self, keys: Sequence[str]) -> None:
        self.waiting.extend(map(hash, keys))
        if len(self.waiting) >= CHUNK:
            self.keep()

    def keep(self) -> None:
        self.waiting.sort()
        self.chunks.append(array("q", self.waiting))
        self.waiting.clear()

    def suspects(self) -> set[int]:
        """Hashes that occurred twice, some thousand of them at most. Different keys may have one hash."""
        self.keep()
        step = 2**64 // max(1, sum(map(len, self.chunks)) // PART)
        found: set[int] = set()
        for low in range(LEAST, GREATEST + 1, step):
            part: list[int] = []
            for chunk in self.chunks:
                part += chunk[bisect_left(chunk, low):bisect_left(chunk, low + step)]
            if len(set(part)) < len(part):
                found.update(it for it, count in Counter(part).items() if count > 1)
                if len(found) >= SUSPECTS:
                    break
        return found
