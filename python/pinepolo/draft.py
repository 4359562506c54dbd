"""`pinepolo-data draft`: a catalog and types for a CSV, in two passes over it."""
from __future__ import annotations

import os
import shutil
from collections.abc import Sequence
from dataclasses import dataclass, field

from .catalog import Catalog, Field
from .choice import code_of
from .counted import Counted
from .cuts import AIM, FULL, SEGMENTS, Counts, even_cuts
from .drafted_types import drafted_types, sortable
from .errors import DataError, device
from .layout import PROJECTIONS, SITES, SORT, Projection, catalog_text, orders_of, projections_of
from .naming import name_of
from .seen import Seen, place_of
from .summary import summary
from .table_csv import Table
from .types import FILE, Types

# Rows of the sample by which codes are chosen.
MEASURED = 8192
# Rows of one store of a table that a store can't hold, as the draft takes them.
STORE_ROWS = 2 * AIM


@dataclass(frozen=True)
class Wanted:
    """What the command line asks for. `key`, `orders` and `columns` have headers or names; an empty key numbers the rows."""

    key: list[str]
    k: int
    sites: int
    orders: list[list[str]] = field(default_factory=list)
    columns: list[str] = field(default_factory=list)


def draft(table: Table, wanted: Wanted, folder: str, given: Types | None = None) -> str:
    """Makes the folder with catalog.toml and types.toml, those that are given or else drafted ones, and answers the summary."""
    if os.path.lexists(folder):
        raise DataError(f"{folder} already exists", "give another folder")
    possible(wanted)
    seen = Seen(table, wanted.columns, given)
    types, key = drafted_types(seen, wanted.key)
    orders = orders_of(key, given_orders(seen, types, wanted.orders), wanted.k)
    projections = projections_of(orders, wanted.sites, [name for name, _ in types.stored()])
    counted = Counted(seen, types, key, list(dict.fromkeys(it.sort[0] for it in projections)))
    stores = 1 if seen.rows <= FULL * SEGMENTS else -(-seen.rows // STORE_ROWS)
    for it in projections:
        cut(it, counted.counts[it.sort[0]], types, stores)
        encode(it, counted)
    stem = os.path.splitext(os.path.basename(table.path))[0]
    columns = tuple(Field(name, kind) for name, kind in types.stored())
    catalog = Catalog(name_of(stem), key, wanted.sites, "whole", columns, tuple(it.placed() for it in projections))
    write_folder(folder, {"catalog.toml": catalog_text(catalog), FILE: types.text()})
    return summary(types, seen, projections, wanted.sites, stores)


def possible(wanted: Wanted) -> None:
    """Refuses what no table can have."""
    copies = wanted.k + 1
    if not 0 < copies <= wanted.sites <= SITES:
        raise DataError(f"k={wanted.k} takes {copies} sites, and there are {wanted.sites}", f"give --sites {copies} to {SITES}, or a lower --k")
    if max(copies, len(wanted.orders)) > PROJECTIONS:
        raise DataError(f"{max(copies, len(wanted.orders))} copies, and a store has at most {PROJECTIONS}", "give fewer --order, or a lower --k")
    for order in wanted.orders:
        if len(order) > SORT:
            raise DataError(f"--order {','.join(order)} has more than {SORT} columns", "rows that are equal in these are sorted by the key")


def given_orders(seen: Seen, types: Types, orders: Sequence[list[str]]) -> list[list[str]]:
    """The orders by names of the catalog."""
    found = []
    for order in orders:
        places = [place_of(it, seen.headers, seen.table.path) for it in order]
        for at in places:
            sortable(seen, at, types.columns[at], "sorted by")
        found.append(list(dict.fromkeys(types.columns[at].name for at in places)))
    return found


def cut(projection: Projection, counts: Counts, types: Types, stores: int = 1) -> None:
    """Cuts a projection into a segment for each of its sites, or into more if these were too large.

    The counted rows are those of so many stores, of which each has its part.
    """
    name = projection.sort[0]
    sizes = [-(-it // stores) for it in counts.sizes()]
    found = even_cuts(counts.cuts, sizes, len(projection.sites))
    if found is None:
        value, rows = counts.fullest()
        if (rows := -(-rows // stores)) > FULL:
            cell = next((it.unmap([[value]])[0] for it in types.columns if it.stored == [name]), str(value))
            raise DataError(f"order {name}: {rows} rows have the value {cell!r}, and a segment holds at most {FULL}",
                            "sort by a column whose commonest value has fewer rows first")
        raise DataError(f"order {name}: {sum(sizes)} rows do not fit into {SEGMENTS} segments, each of whole values and at most {FULL} rows",
                        "sort by a column with more values first, or import it into several stores (docs/data.md)")
    projection.cuts, projection.rows = found


def encode(projection: Projection, counted: Counted) -> None:
    """Chooses codes by a part of the sample, in the projection's order."""
    sample = {name: values[::-(-len(values) // MEASURED) or 1] for name, values in counted.sample.items()}
    keys = list(zip(*(sample[it] for it in [*projection.sort, counted.key])))
    order = sorted(range(len(keys)), key=keys.__getitem__)
    for name in (name for name, _ in counted.types.stored()):
        code, size = code_of([sample[name][at] for at in order], counted.seen.rows, name == projection.sort[0])
        projection.codes.append(code)
        projection.row_bytes += size


def write_folder(folder: str, files: dict[str, str]) -> None:
    """Makes a folder with these files, as a whole or not at all."""
    partial = f"{folder}.partial"
    try:
        os.mkdir(partial)
    except FileExistsError:
        raise DataError(f"{partial} is left from an unfinished run", "check that no other run writes it, and remove it") from None
    except OSError as error:
        raise device(error, "check the path and the permissions") from None
    try:
        for name, text in files.items():
            with open(os.path.join(partial, name), "w", encoding="utf-8", newline="\n") as file:
                file.write(text)
        os.rename(partial, folder)
    except OSError as error:
        shutil.rmtree(partial, ignore_errors=True)
        raise device(error, "check the path and the room on its disk") from None
