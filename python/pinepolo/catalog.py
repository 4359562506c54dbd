"""The catalog of a store, by its rules (docs/formats.md, "The catalog")."""
from __future__ import annotations

import re
import tomllib
from collections.abc import Iterable
from dataclasses import dataclass
from typing import Any

from .errors import DataError
from .kinds import TEXT_BYTES

NAME = re.compile(r"[a-z][a-z0-9_]{0,31}")
TEXTS, INTEGERS = ("columns", "sort", "joins"), ("codes", "sites")


@dataclass(frozen=True)
class Field:
    """A column of the catalog: its `kind` is `int` or `text`."""

    name: str
    kind: str


@dataclass(frozen=True)
class Projection:
    """Some columns in an order of their own. `sites` has the site of each segment, one more than there are `cuts`."""

    name: str
    columns: tuple[str, ...]
    codes: tuple[int, ...]
    sort: tuple[str, ...]
    cuts: tuple[int, ...] | tuple[str, ...]
    sites: tuple[int, ...]
    joins: tuple[str, ...]


@dataclass(frozen=True)
class Catalog:
    """What a catalog says. Projections, columns and segments are numbered from 0, sites from 1."""

    table: str
    key: str
    sites: int
    safety: str
    columns: tuple[Field, ...]
    projections: tuple[Projection, ...]

    def kind(self, name: str) -> str:
        """The kind of a column."""
        return next(it.kind for it in self.columns if it.name == name)

    def shape(self, p: int) -> list[tuple[int, str]]:
        """The code and the kind of each column of a projection."""
        it = self.projections[p]
        return [(code, self.kind(name)) for code, name in zip(it.codes, it.columns)]

    def file_names(self) -> Iterable[tuple[str, int]]:
        """The name and the site of each file, in the order of names."""
        numbers = {it.name: q for q, it in enumerate(self.projections)}
        for p, it in enumerate(self.projections):
            joins = sorted(numbers[name] for name in it.joins)
            for s, site in enumerate(it.sites):
                for end in (".seg", ".del", *(f".q{q}.jix" for q in joins)):
                    yield f"p{p}.s{s}{end}", site


class Rule(Exception):
    """A catalog breaks the rule of this number."""


def need(holds: bool, rule: int) -> None:
    if not holds:
        raise Rule(rule)


def read_catalog(data: bytes, where: str) -> Catalog:
    """Reads a catalog. A DataError says which rule the bytes of the file `where` break first."""
    try:
        document = tomllib.loads(data.decode())
        need_words(document)
    except ValueError:
        raise DataError(f"{where}: catalog: not TOML", "mend the catalog") from None
    return catalog_in(document, where)


def catalog_in(document: dict[str, Any], where: str) -> Catalog:
    """The catalog that a document of TOML has. A DataError says which rule it breaks first."""
    try:
        catalog = typed(document)
        for rule in RULES:
            rule(catalog)
    except Rule as broken:
        raise DataError(f"{where}: catalog: rule {broken}", "mend the catalog by docs/formats.md") from None
    return catalog


def need_words(value: Any) -> None:
    """Raises ValueError for an integer of more than 64 bits, which is none of TOML's."""
    if isinstance(value, dict):
        value = list(value.values())
    if isinstance(value, list):
        for it in value:
            need_words(it)
    elif isinstance(value, int) and not -2**63 <= value < 2**63:
        raise ValueError


def at(table: Any, name: str, kind: type) -> Any:
    """What a table has under a name, if it is of a type: rule 2. (A bool is an int to Python, and none to TOML.)"""
    need(isinstance(table, dict) and type(table.get(name)) is kind, 2)
    return table[name]


def list_at(table: Any, name: str, kind: type) -> tuple[Any, ...]:
    items = at(table, name, list)
    need(all(type(it) is kind for it in items), 2)
    return tuple(items)


def typed(document: dict[str, Any]) -> Catalog:
    """A document whose keys have their types: rules 1 and 2."""
    version = document.get("version")
    need(type(version) is int and version in (1, 2), 1)
    columns = [Field(at(it, "name", str), at(it, "kind", str)) for it in at(document, "column", list)]
    projections = [
        Projection(name=at(it, "name", str), cuts=tuple(at(it, "cuts", list)), **{key: list_at(it, key, str) for key in TEXTS},
                   **{key: list_at(it, key, int) for key in INTEGERS}) for it in at(document, "projection", list)]
    return Catalog(at(document, "table", str), at(document, "key", str), at(document, "sites", int),
                   at(document, "safety", str) if version == 2 else "whole", tuple(columns), tuple(projections))


def distinct(names: Iterable[str]) -> bool:
    found = list(names)
    return len(found) == len(set(found))


def names_hold(it: Catalog) -> None:
    columns, projections = [c.name for c in it.columns], [p.name for p in it.projections]
    need(all(map(NAME.fullmatch, [it.table, *columns, *projections])) and distinct(columns) and distinct(projections), 3)


def sizes_hold(it: Catalog) -> None:
    need(1 <= it.sites <= 16 and 1 <= len(it.columns) <= 32 and 1 <= len(it.projections) <= 8, 4)


def table_holds(it: Catalog) -> None:
    need(all(c.kind in ("int", "text") for c in it.columns), 5)
    need(it.key in {c.name for c in it.columns}, 6)


def columns_hold(it: Catalog) -> None:
    names = {c.name for c in it.columns}
    for p in it.projections:
        need(len(p.columns) > 0 and names.issuperset(p.columns) and distinct(p.columns), 7)
    for p in it.projections:
        need(len(p.codes) == len(p.columns) and all(1 <= code <= 4 for code in p.codes), 8)


def sorts_hold(it: Catalog) -> None:
    for p in it.projections:
        need(1 <= len(p.sort) <= 4 and set(p.sort) <= set(p.columns) and distinct(p.sort), 9)
    for p in it.projections:
        for name, code in zip(p.columns, p.codes):
            need(code != 3 or name == p.sort[0] and it.kind(name) == "int", 10)


def cuts_hold(it: Catalog) -> None:
    for p in it.projections:
        kind = int if it.kind(p.sort[0]) == "int" else str
        need(len(p.cuts) <= 15 and all(type(cut) is kind for cut in p.cuts), 11)
        need(all(len(cut.encode()) <= TEXT_BYTES for cut in p.cuts if isinstance(cut, str)), 11)
        # (texts in the order of their characters are in that of their bytes)
        need(all(low < high for low, high in zip(p.cuts, p.cuts[1:])), 11)  # type: ignore[operator]


def places_hold(it: Catalog) -> None:
    for p in it.projections:
        need(len(p.sites) == len(p.cuts) + 1 and all(1 <= site <= it.sites for site in p.sites), 12)
    names = {p.name for p in it.projections}
    for p in it.projections:
        need(names.issuperset(p.joins) and distinct(p.joins) and p.name not in p.joins, 13)
    stored = {name for p in it.projections for name in p.columns}
    need(all(c.name in stored for c in it.columns), 14)
    need(it.safety in ("whole", "rows"), 15)


RULES = (names_hold, sizes_hold, table_holds, columns_hold, sorts_hold, cuts_hold, places_hold)
