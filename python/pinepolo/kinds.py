"""Types of cells: int, decimal(scale), bool, float, text and text(parts).

A type maps cells, texts of a CSV, to what a store keeps: ints of 64 bits or texts of at most 255 bytes of UTF-8. Each
mapping but that of text(parts) keeps the order of the values. NULL is no matter of a type: columns.py deals with it.
"""
from __future__ import annotations

import re
from array import array
from collections.abc import Callable, Sequence
from decimal import Decimal
from typing import Any

from .errors import BadCell

LEAST, GREATEST = -2**63, 2**63 - 1
TEXT_BYTES = 255
PARTS = 8
# A character of UTF-8 has at most 4 bytes, so a part that is cut between characters holds at least this many.
PART_BYTES = TEXT_BYTES - 3
Stored = Sequence[Any]


class Type:
    """A type of cells. `kind` is the catalog's kind of what is stored, `int` or `text`.

    Stored cells are Python ints or texts; of text(parts), which alone has `parts` above 1, a tuple of texts.
    """

    name = ""
    kind = "int"
    parts = 1

    def quick(self, cells: list[str]) -> Stored | None:
        """The stored cells if each cell is in canonical form, else None."""
        raise NotImplementedError

    def slow(self, cell: str) -> Any:
        """The stored cell of a cell in any form of the type. A ValueError says why there is none."""
        raise NotImplementedError

    def canonical(self, cells: list[str]) -> bool:
        """Whether each cell is in canonical form."""
        return self.quick(cells) is not None

    def unmap(self, stored: Stored) -> list[str]:
        """The canonical cells of stored cells."""
        raise NotImplementedError

    def values(self, stored: Stored) -> list[Any]:
        """The values of stored cells as Python has them."""
        return list(stored)

    def map(self, cells: list[str]) -> Stored:
        """The stored cells of cells in any form. A BadCell names the first that can't be kept."""
        stored = self.quick(cells)
        return each(self.slow, cells) if stored is None else stored


def each(slow: Callable[[str], Any], cells: list[str]) -> list[Any]:
    """What a function makes of each cell, or a BadCell of the first that it refuses."""
    stored: list[Any] = []
    try:
        stored.extend(map(slow, cells))
    except ValueError as error:
        raise BadCell(len(stored), str(error)) from None
    return stored


def joined(cells: list[str]) -> str | None:
    """The cells as lines, or None if one has a line feed."""
    text = "\n".join(cells) + "\n"
    return text if text.count("\n") == len(cells) else None


class Int(Type):
    """Ints of 64 bits. Canonical: no sign but a minus, no leading zeros, zero without a sign."""

    name = "int"
    form = re.compile(r"[+-]?[0-9]+")
    lines = re.compile(r"(?:(?:-?[1-9][0-9]{0,17}|0)\n)*")

    def quick(self, cells: list[str]) -> Stored | None:
        try:
            values = list(map(int, cells))
        except ValueError:
            return None
        fits = not values or LEAST <= min(values) and max(values) <= GREATEST
        return values if fits and list(map(str, values)) == cells else None

    def canonical(self, cells: list[str]) -> bool:
        text = joined(cells)
        return text is not None and self.lines.fullmatch(text) is not None or self.quick(cells) is not None

    def slow(self, cell: str) -> int:
        if not self.form.fullmatch(cell):
            raise ValueError("not an integer")
        # (no number of 64 bits has more digits: what is longer is not made at all)
        value = int(cell) if len(cell.lstrip("+-0")) <= 19 else GREATEST + 1
        if not LEAST <= value <= GREATEST:
            raise ValueError("not an integer of 64 bits")
        return value

    def unmap(self, stored: Stored) -> list[str]:
        return list(map(str, stored))


class DecimalType(Type):
    """Decimals of at most 18 digits, `scale` of them behind the point; stored as ints of units of the last one."""

    digits = 18
    form = re.compile(r"([+-]?)([0-9]*)(?:\.([0-9]*))?")

    def __init__(self, scale: int) -> None:
        self.scale, self.name = scale, f"decimal({scale})"
        whole = f"(?:0|[1-9][0-9]{{0,{max(0, self.digits - scale - 1)}}})" if scale < self.digits else "0"
        part = rf"\.[0-9]{{{scale}}}" if scale else ""
        zero = "-0" + (r"\." + "0" * scale if scale else "")
        self.lines = re.compile(rf"(?:(?!{zero}\n)-?{whole}{part}\n)*")

    def canonical(self, cells: list[str]) -> bool:
        text = joined(cells)
        return text is not None and self.lines.fullmatch(text) is not None

    def quick(self, cells: list[str]) -> Stored | None:
        text = "\n".join(cells)
        return list(map(int, text.replace(".", "").split())) if self.canonical(cells) else None

    def slow(self, cell: str) -> int:
        found = self.form.fullmatch(cell)
        if not found or not (found[2] or found[3]):
            raise ValueError("not a decimal")
        part = (found[3] or "").rstrip("0")
        if len(part) > self.scale:
            raise ValueError(f"more than {self.scale} digits behind the point")
        digits = (found[2] + part.ljust(self.scale, "0")).lstrip("0")
        if len(digits) > self.digits:
            raise ValueError(f"more than {self.digits} digits")
        return -int(digits or "0") if found[1] == "-" else int(digits or "0")

    def unmap(self, stored: Stored) -> list[str]:
        scale = self.scale
        if not scale:
            return list(map(str, stored))
        texts = [str(it).zfill(scale + 1) if it >= 0 else "-" + str(-it).zfill(scale + 1) for it in stored]
        return [f"{it[:-scale]}.{it[-scale:]}" for it in texts]

    def values(self, stored: Stored) -> list[Any]:
        return list(map(Decimal, self.unmap(stored)))


class Bool(Type):
    """`false` and `true`, stored as 0 and 1."""

    name = "bool"
    words = {"false": 0, "true": 1}
    forms = words | {"False": 0, "True": 1, "FALSE": 0, "TRUE": 1, "f": 0, "t": 1, "no": 0, "yes": 1, "0": 0, "1": 1}

    def quick(self, cells: list[str]) -> Stored | None:
        try:
            return list(map(self.words.__getitem__, cells))
        except KeyError:
            return None

    def slow(self, cell: str) -> int:
        if cell not in self.forms:
            raise ValueError("not true or false")
        return self.forms[cell]

    def unmap(self, stored: Stored) -> list[str]:
        return ["true" if it else "false" for it in stored]

    def values(self, stored: Stored) -> list[Any]:
        return list(map(bool, stored))


class Float(Type):
    """Floats of 64 bits, IEEE 754. Canonical: the shortest text that gives the same float back, as Python's repr.

    Stored is the pattern of bits as an int, all but the first bit flipped if that is set. So -0.0 is -1 and 0.0 is 0,
    infinities are kept, and any NaN is one, above infinity.
    """

    name = "float"
    flip = 2**63 - 1
    nan = 0x7FF8 << 48
    form = re.compile(r"[+-]?(?:(?:[0-9]+(?:\.[0-9]*)?|\.[0-9]+)(?:[eE][+-]?[0-9]+)?|(inf|infinity|nan))", re.IGNORECASE)

    def quick(self, cells: list[str]) -> Stored | None:
        try:
            floats = list(map(float, cells))
        except ValueError:
            return None
        return self.bits(floats) if list(map(repr, floats)) == cells else None

    def bits(self, floats: list[float]) -> list[int]:
        flip, nan = self.flip, self.nan
        patterns = array("q", array("d", floats).tobytes())
        stored = [it if it >= 0 else it ^ flip for it in patterns]
        if any(map(float.__ne__, floats, floats)):
            stored = [nan if it != it else bits for it, bits in zip(floats, stored)]
        return stored

    def slow(self, cell: str) -> int:
        found = self.form.fullmatch(cell)
        if not found:
            raise ValueError("not a float")
        value = float(cell)
        if value in (float("inf"), float("-inf")) and not found[1]:
            raise ValueError("beyond the floats of 64 bits")
        return self.bits([value])[0]

    def values(self, stored: Stored) -> list[Any]:
        flip = self.flip
        return array("d", array("q", [it if it >= 0 else it ^ flip for it in stored]).tobytes()).tolist()

    def unmap(self, stored: Stored) -> list[str]:
        return list(map(repr, self.values(stored)))


def utf8_length(cell: str) -> int:
    return len(cell) if cell.isascii() else len(cell.encode())


class Text(Type):
    """Texts of at most 255 bytes of UTF-8, stored as they are."""

    name = "text"
    kind = "text"

    def quick(self, cells: list[str]) -> Stored | None:
        longest = max(map(len, cells), default=0)
        if 4 * longest > TEXT_BYTES and max(map(utf8_length, cells)) > TEXT_BYTES:
            return None
        return cells

    def slow(self, cell: str) -> str:
        if (length := utf8_length(cell)) > TEXT_BYTES:
            raise ValueError(f"{length} bytes, and a text has at most {TEXT_BYTES}")
        return cell

    def unmap(self, stored: Stored) -> list[str]:
        return list(stored)


class LongText(Type):
    """Texts in `parts` stored columns, each of at most 255 bytes and cut between characters. Equality is kept, not order."""

    kind = "text"

    def __init__(self, parts: int) -> None:
        self.parts, self.name = parts, f"text({parts})"

    def quick(self, cells: list[str]) -> Stored | None:
        try:
            return list(map(self.slow, cells))
        except ValueError:
            return None

    def slow(self, cell: str) -> tuple[str, ...]:
        data = cell.encode()
        found: list[str] = []
        for _ in range(self.parts):
            end = min(TEXT_BYTES, len(data))
            while end < len(data) and data[end] & 0xC0 == 0x80:
                end -= 1
            found.append(data[:end].decode())
            data = data[end:]
        if data:
            raise ValueError(f"{utf8_length(cell)} bytes, and {self.name} has at most {PART_BYTES * self.parts}")
        return tuple(found)

    def unmap(self, stored: Stored) -> list[str]:
        return list(map("".join, stored))

    def values(self, stored: Stored) -> list[Any]:
        return self.unmap(stored)
