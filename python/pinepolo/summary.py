"""What a draft tells: types, rows, bytes a site, and estimates of memory and time."""
from __future__ import annotations

from collections.abc import Sequence

from .layout import Projection
from .seen import Seen
from .types import Types

# Measured (docs/data.md). An import takes most memory in `dump`: so many times the bytes of the store. Its time is that of
# the cells of the table, mapped there and back, and of the cells of the store.
STORE_TIMES, TABLE_CELLS, STORE_CELLS = 3, 400_000, 5_000_000
FILE_BYTES = 140


def summary(types: Types, seen: Seen, projections: Sequence[Projection], sites: int, stores: int = 1) -> str:
    """The lines of a summary. The projections are those of one of so many stores."""
    lines = [f"{seen.table.path}: {number_of(seen.rows, 'row')}, {number_of(len(types.columns), 'column')}", "", *columns_table(types, seen), ""]
    if stores > 1:
        lines += [f"these are more rows than one store holds: import them into stores by --memory; what follows is of one of {stores}", ""]
    lines += ["projection, its sort columns, and the rows of each segment"]
    for it in projections:
        lines.append(f"  {it.name} ({', '.join(it.sort)}): {', '.join(map(str, it.rows))}")
    sizes = site_bytes(projections, sites)
    lines += ["", "about " + ", ".join(f"{size_text(size)} on site {site}" for site, size in enumerate(sizes, 1))]
    memory = STORE_TIMES * sum(sizes) + 20_000_000
    cells = -(-seen.rows // stores) * len(types.stored())
    seconds = cells / TABLE_CELLS + cells * len(projections) / STORE_CELLS
    lines.append(f"an import takes about {size_text(memory)} of memory and {max(1, round(seconds))} s")
    return "\n".join(lines)


def number_of(number: int, what: str) -> str:
    return f"{number} {what}{'' if number == 1 else 's'}"


def columns_table(types: Types, seen: Seen) -> list[str]:
    rows = [("column", "type", "NULL", "")]
    if types.key:
        rows.append((types.key.name, "key", "", f"drafted: {' and '.join(types.key.columns) or 'the number of the row'}"))
    advices = [it.advice() for it in seen.guesses] or [""] * len(types.columns)
    for it, advice in zip(types.columns, advices):
        notes = [f"header {it.header!r}"] if it.header != it.name else []
        notes += [f"in several forms: types.toml could say {advice}"] if advice else []
        rows.append((it.name, it.type.name, "yes" if it.null else "", "; ".join(notes)))
    widths = [max(len(row[at]) for row in rows) for at in range(3)]
    return ["  ".join([*(text.ljust(width) for text, width in zip(row, widths)), row[3]]).rstrip() for row in rows]


def site_bytes(projections: Sequence[Projection], sites: int) -> list[float]:
    sizes = [0.0] * sites
    for it in projections:
        for rows, site in zip(it.rows, it.segment_sites()):
            sizes[site - 1] += rows * it.row_bytes + FILE_BYTES
    return sizes


def size_text(size: float) -> str:
    for unit in ("bytes", "KB", "MB"):
        if size < 1000:
            return f"{size:.0f} {unit}"
        size /= 1000
    return f"{size:.1f} GB"
