"""A digest of a table that does not depend on the order of its rows."""
from __future__ import annotations

from collections.abc import Sequence
from hashlib import sha256

from .table_csv import lines

MODULUS = 1 << 256


class RowsDigest:
    """The number of rows, and the sum of the SHA-256 digests of their lines of CSV, modulo 2^256."""

    def __init__(self) -> None:
        self.rows, self.total = 0, 0

    def add(self, columns: Sequence[Sequence[str]]) -> None:
        """Adds rows that are given by columns of cells in canonical form."""
        rows = lines(columns)
        self.rows += len(rows)
        total = self.total
        for row in rows:
            total += int.from_bytes(sha256(row.encode()).digest(), "big")
        self.total = total % MODULUS

    def join(self, other: RowsDigest, sign: int = 1) -> None:
        """Adds the rows of another table, or takes them away if the sign is -1."""
        self.rows, self.total = self.rows + sign * other.rows, (self.total + sign * other.total) % MODULUS

    def __eq__(self, other: object) -> bool:
        return isinstance(other, RowsDigest) and (self.rows, self.total) == (other.rows, other.total)
