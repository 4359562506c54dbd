"""Finds the type of a column from its cells, block by block."""
from __future__ import annotations

import re
from .columns import Column
from .kinds import LEAST, PART_BYTES, PARTS, TEXT_BYTES, Bool, DecimalType, Float, Int, LongText, Text, Type, utf8_length
from .times import LIKES, UNITS, DateType, Timestamp

PLAIN = re.compile(r"[+-]?([0-9]*)(?:\.([0-9]*))?")
LEAST_LENGTH = len(str(LEAST))
OFFSET = re.compile(r":[0-9]{2}(?:\.[0-9]+)?[+-]")
MOMENT = re.compile(r"[0-9]{4}-[0-9]{2}-[0-9]{2}[T ][0-9:]{8}(?:\.([0-9]+))?")


def canonical_types(cell: str) -> list[Type]:
    """The types, simplest first, of which a cell is in canonical form."""
    types: list[Type] = [Int(), Bool(), DateType()]
    part = cell.rpartition(".")[2]
    if len(cell) > 18 and cell[4:5] == "-":
        digits = len(part.rstrip("Z")) if "." in cell else 0
        types += [Timestamp(unit, like) for unit, count in UNITS.items() if count == digits for like in LIKES]
    elif "." in cell and 0 < len(part) <= DecimalType.digits:
        types.append(DecimalType(len(part)))
    return [it for it in [*types, Float()] if it.quick([cell]) is not None]


def unit_of(digits: int) -> str | None:
    """The unit of a timestamp with so many digits behind the second."""
    return next((unit for unit, most in UNITS.items() if most >= digits), None)


class Loose:
    """What the cells of a column are if any form of a type is taken: numbers with so many digits, or moments."""

    def __init__(self) -> None:
        self.number = self.whole = self.bool = self.moment = True
        self.digits = self.scale = self.fraction = 0
        self.offset = False

    def take(self, cells: list[str]) -> None:
        several = set(cells)
        if self.bool:
            self.bool = several <= Bool.forms.keys()
        if self.number:
            self.take_numbers(several)
        if self.moment:
            self.take_moments(several)

    def take_numbers(self, cells: set[str]) -> None:
        for cell in cells:
            found = PLAIN.fullmatch(cell)
            if found and (found[1] or found[2]):
                self.digits = max(self.digits, len(found[1].lstrip("0")))
                if found[2]:
                    self.scale, self.whole = max(self.scale, len(found[2])), False
            elif Float.form.fullmatch(cell):
                self.digits, self.whole = max(self.digits, DecimalType.digits + 1), False
            else:
                self.number = False
                return

    def take_moments(self, cells: set[str]) -> None:
        for cell in cells:
            found = MOMENT.match(cell)
            unit = unit_of(len(found[1] or "")) if found else None
            try:
                if not found or not unit:
                    raise ValueError
                Timestamp(unit, convert=True).slow(cell)
            except ValueError:
                self.moment = False
                return
            self.fraction = max(self.fraction, len(found[1] or ""))
            self.offset |= OFFSET.search(cell) is not None

    def advice(self) -> str:
        """The type that types.toml could say, or nothing."""
        if self.moment:
            return f"timestamp({unit_of(self.fraction)})" + (' with offset = "convert"' if self.offset else "")
        if self.bool:
            return "bool"
        if not self.number:
            return ""
        if self.digits + self.scale <= DecimalType.digits:
            return "int" if self.whole else f"decimal({self.scale})"
        return "" if self.whole else "float"


class Guess:
    """The type of a column, as far as its cells were seen."""

    def __init__(self, header: str) -> None:
        self.header = header
        self.types: list[Type] | None = None
        self.empty = 0                      # the first record with an empty cell
        self.least = False                  # whether the least int is among the ints
        self.loose = Loose()
        self.longest, self.longest_record = 0, 0
        self.too_long = 0                   # the first record with a text above 255 bytes

    def take(self, cells: list[str], first: int) -> None:
        """Takes the cells of a block, whose first record has this number."""
        if "" in cells:
            self.empty = self.empty or first + cells.index("")
            cells_in = [it for it in cells if it]
        else:
            cells_in = cells
        if not cells_in:
            return
        if self.types is None:
            self.types = canonical_types(cells_in[0])
        self.types = [it for it in self.types if it.canonical(cells_in)]
        self.loosen(cells_in)
        if not self.types:
            self.measure(cells, first)

    def loosen(self, cells: list[str]) -> None:
        """Of cells in one canonical form, the longest tells the digits of all, and its sign counts as one."""
        loose, kind = self.loose, self.types[0] if self.types else None
        if isinstance(kind, (Int, DecimalType)):
            digits = max(map(len, cells))
            if digits > LEAST_LENGTH - 1 and str(LEAST) in cells:
                self.least = True
            if isinstance(kind, DecimalType):
                digits, loose.scale, loose.whole = digits - 1 - kind.scale, kind.scale, False
            loose.digits = max(loose.digits, digits)
            loose.bool = loose.bool and set(cells) <= Bool.forms.keys()
            loose.moment = False
        elif isinstance(kind, Float):
            loose.digits, loose.whole, loose.bool, loose.moment = DecimalType.digits + 1, False, False, False
        elif isinstance(kind, Timestamp):
            loose.fraction, loose.bool, loose.number = max(loose.fraction, kind.digits), False, False
        elif loose.number or loose.moment or loose.bool:
            loose.take(cells)

    def measure(self, cells: list[str], first: int) -> None:
        if 4 * max(map(len, cells)) <= TEXT_BYTES and self.longest:
            return
        lengths = list(map(utf8_length, cells))
        if (longest := max(lengths)) > self.longest:
            self.longest, self.longest_record = longest, first + lengths.index(longest)
        if longest > TEXT_BYTES and not self.too_long:
            self.too_long = first + next(at for at, length in enumerate(lengths) if length > TEXT_BYTES)

    def found(self) -> tuple[Type, tuple[str, ...]]:
        """The type, and the cells that are NULL."""
        types = [it for it in self.types or [] if not (self.empty and self.least and isinstance(it, Int))]
        if types:
            return types[0], ("",) if self.empty else ()
        if self.longest > TEXT_BYTES:
            return LongText(-(-self.longest // PART_BYTES)), ()
        return Text(), ()

    def column(self, name: str) -> Column:
        kind, null = self.found()
        return Column(name, kind, self.header, null)

    def fits(self) -> bool:
        """Whether no text is longer than a store can keep."""
        return self.longest <= PARTS * PART_BYTES

    def advice(self) -> str:
        """The type that types.toml could say for a column that is drafted as text, or nothing."""
        is_text = self.types is not None and not self.least and isinstance(self.found()[0], Text)
        return self.loose.advice() if is_text else ""
