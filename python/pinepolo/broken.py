"""That bytes of a file make no sense, and where; and what the files of a store have in common."""
from __future__ import annotations

import hashlib
import struct
from collections.abc import Sequence

DIGEST = 32


class Broken(Exception):
    """Bytes make no sense as what they are read as. `at` is the offset of that part in its file, if it is known there."""

    def __init__(self, at: int | None = None) -> None:
        super().__init__(at)
        self.at = at


# What reading past the end of a body, or a text that is not UTF-8, raises.
BROKEN = (Broken, IndexError, struct.error, UnicodeDecodeError)


def need(holds: object, at: int | None = None) -> None:
    """Raises Broken at this offset, unless something holds."""
    if not holds:
        raise Broken(at)


def front_of(data: bytes) -> bytes:
    """What stands before the digest of a file; all bytes if there is no room for one."""
    return data[:-DIGEST] if len(data) >= DIGEST else data


def is_sealed(data: bytes) -> bool:
    """Whether a file ends with the SHA-256 digest of what stands before."""
    return len(data) >= DIGEST and hashlib.sha256(memoryview(data)[:-DIGEST]).digest() == data[-DIGEST:]


def need_seal(data: bytes) -> None:
    """Raises Broken at the place of the digest, if that is wrong."""
    need(is_sealed(data), max(len(data) - DIGEST, 0))


def need_name(front: bytes, marks: Sequence[bytes], p: int, s: int) -> bytes:
    """Looks at the mark of a file, one of these, and at the projection and segment of its name. Gives the mark."""
    mark = front[:8]
    need(mark in marks, 0)
    need(front[8:10] == p.to_bytes(2, "big"), 8)
    need(front[10:12] == s.to_bytes(2, "big"), 10)
    return mark


def number(front: bytes, at: int, least: int, most: int) -> int:
    """The number of four bytes at an offset, which is from `least` to `most`."""
    need(at + 4 <= len(front), at)
    value = int.from_bytes(front[at:at + 4], "big")
    need(least <= value <= most, at)
    return value
