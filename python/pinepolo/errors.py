"""What the package refuses or fails at, with the statuses of pinepolo."""
from __future__ import annotations

REFUSED, USAGE, MEMORY, DEVICE = 1, 2, 3, 4


class DataError(Exception):
    """A fault that ends a command: its status, what is wrong and where, what to do next, and lines that lead to it."""

    def __init__(self, message: str, advice: str = "", status: int = REFUSED, before: str = "") -> None:
        super().__init__(message)
        self.message, self.advice, self.status, self.before = message, advice, status, before

    def lines(self) -> str:
        """The fault as pinepolo prints one: a line `fault: ..`, and a line `next: ..` if there is an advice."""
        return self.before + f"fault: {self.message}" + (f"\nnext: {self.advice}" if self.advice else "")


class BadCell(ValueError):
    """A cell that its column's type can't keep: its place in the list of cells, from 0, and why."""

    def __init__(self, index: int, why: str) -> None:
        super().__init__(why)
        self.index, self.why = index, why


def device(error: OSError, advice: str = "") -> DataError:
    """A failed call of the system, with its own words and its path."""
    where = f"{error.filename}: " if error.filename else ""
    return DataError(f"{where}{error.strerror or error}", advice, DEVICE)
