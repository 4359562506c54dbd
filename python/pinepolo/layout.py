"""Lays projections out: which orders, which sites, and the text of catalog.toml."""
from __future__ import annotations

from collections.abc import Sequence
from dataclasses import dataclass, field
from typing import Any

from .catalog import Catalog
from .catalog import Projection as Placed
from .naming import name_of
from .toml_text import toml_list, toml_string

PROJECTIONS, SITES, COLUMNS, SORT = 8, 16, 32, 4


@dataclass
class Projection:
    """A copy of some columns in an order: names of the catalog, cuts with the rows of each segment, and sites."""

    sort: list[str]
    sites: list[int]
    name: str
    columns: list[str]
    joins: list[str] = field(default_factory=list)
    cuts: list[Any] = field(default_factory=list)
    rows: list[int] = field(default_factory=list)
    codes: list[int] = field(default_factory=list)
    row_bytes: float = 0.0

    def segment_sites(self) -> list[int]:
        """The site of each segment: neighbours share one if there are more segments than sites."""
        segments = len(self.rows)
        return [self.sites[at * len(self.sites) // segments] for at in range(segments)]

    def placed(self) -> Placed:
        """The projection as a catalog has it."""
        return Placed(self.name, tuple(self.columns), tuple(self.codes), tuple(self.sort), tuple(self.cuts),
                      tuple(self.segment_sites()), tuple(self.joins))


def uncut(it: Placed) -> Projection:
    """A projection of a catalog that is to be cut anew, on the same sites."""
    return Projection(list(it.sort), list(dict.fromkeys(it.sites)), it.name, list(it.columns), list(it.joins), codes=list(it.codes))


def orders_of(key: str, given: Sequence[list[str]], k: int) -> list[list[str]]:
    """The orders of the projections: those that are given, that of the key if they are too few, and again from the first."""
    orders = [list(it) for it in given]
    if len(orders) <= k and [key] not in orders:
        orders.insert(0, [key])
    return orders + [orders[at % len(orders)] for at in range(k + 1 - len(orders))]


def projections_of(orders: Sequence[list[str]], sites: int, columns: Sequence[str]) -> list[Projection]:
    """The projections of all columns on their sites. Each has sites of its own, as long as there are enough of them.

    So K is one less than the number of projections, or than the number of sites if these are fewer.
    """
    groups = min(len(orders), sites)
    found: list[Projection] = []
    for at, order in enumerate(orders):
        group = at % groups
        own = range(group * sites // groups, (group + 1) * sites // groups)
        name = name_of("by_" + "_".join(order), [it.name for it in found])
        found.append(Projection(order, [it + 1 for it in own], name, list(columns)))
    return found


def value_text(value: Any) -> str:
    return str(value) if isinstance(value, int) else toml_string(value)


def catalog_text(catalog: Catalog, within: str = "") -> str:
    """The text of catalog.toml, or of the tables of TOML below a name such as `catalog.`"""
    version, safety = (2, f"safety = {toml_string(catalog.safety)}\n") if catalog.safety != "whole" else (1, "")
    parts = [f"version = {version}\ntable = {toml_string(catalog.table)}\nkey = {toml_string(catalog.key)}\nsites = {catalog.sites}\n{safety}"]
    parts += [f"\n[[{within}column]]\nname = {toml_string(it.name)}\nkind = {toml_string(it.kind)}\n" for it in catalog.columns]
    for it in catalog.projections:
        parts.append(f"\n[[{within}projection]]\nname = {toml_string(it.name)}\ncolumns = {toml_list(it.columns)}\ncodes = {list(it.codes)}\n"
                     f"sort = {toml_list(it.sort)}\ncuts = [{', '.join(map(value_text, it.cuts))}]\n"
                     f"sites = {list(it.sites)}\njoins = {toml_list(it.joins)}\n")
    return "".join(parts)
