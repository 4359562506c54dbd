"""The store that is measured: its table, and its catalog of three copies on six sites, any two of which may fail."""
import os
import shutil

from drawn_rows import CUSTOMERS, DAYS, HEADER, customer, write_table
from fault_injection.stores import lost_names, names_of

# Rows of a segment, and segments of a projection, at most.
SEGMENT, SEGMENTS = 1_000_000, 16
LEAST_ROWS, MOST_ROWS = 1000, SEGMENT * SEGMENTS
SITES = 6
INTS = ("id", "quantity")
# Of each copy its first column, that column's encoding, and its sites.
COPIES = (("id", 3, (1, 2)), ("day", 1, (3, 4)), ("customer", 1, (5, 6)))
# (six colours take fewer bytes as bitmaps)
CODES = {"colour": 2}
PLAIN = 4


def cut(column: str, part: float, rows: int) -> str:
    """The value at which this part of the rows ends, by a column."""
    if column == "id":
        return str(int(rows * part) + 1)
    return f'"{DAYS[int(len(DAYS) * part)] if column == "day" else customer(int(CUSTOMERS * part))}"'


def projection(first: str, code: int, sites: tuple[int, int], rows: int) -> str:
    columns = [first, *(it for it in HEADER.strip().split(",") if it != first)]
    count = max(2, -(-rows // SEGMENT))
    places = [sites[0] if at < count // 2 else sites[1] for at in range(count)]
    codes = [code, *(CODES.get(it, PLAIN) for it in columns[1:])]
    cuts = ", ".join(cut(first, at / count, rows) for at in range(1, count))
    return f"""
[[projection]]
name = "by_{first}"
columns = [{", ".join(f'"{it}"' for it in columns)}]
codes = {codes}
sort = ["{first}"]
cuts = [{cuts}]
sites = {places}
joins = []
"""


def catalog(rows: int) -> str:
    """The text of a catalog for so many drawn rows."""
    head = 'version = 1\ntable = "sales"\nkey = "id"\nsites = %d\n' % SITES
    columns = "".join(f'\n[[column]]\nname = "{it}"\nkind = "{"int" if it in INTS else "text"}"\n' for it in HEADER.strip().split(","))
    return head + columns + "".join(projection(*it, rows) for it in COPIES)


def write_inputs(room: str, rows: int) -> None:
    """Writes a catalog, a table, and another table of which the last row differs."""
    with open(f"{room}/catalog.toml", "w", encoding="utf-8") as file:
        file.write(catalog(rows))
    write_table(f"{room}/table.csv", rows)
    shutil.copyfile(f"{room}/table.csv", f"{room}/other.csv")
    with open(f"{room}/other.csv", "r+b") as file:
        file.seek(-2, os.SEEK_END)
        file.write(b"x")


def redundancy(store: str, blocks: int) -> tuple[int, int]:
    """The size of a block, if all files have about so many, and how many blocks any two sites have at most."""
    sizes = {name: os.path.getsize(f"{store}/{name}") for name in names_of(store)}
    block = -(-sum(sizes.values()) // (4 * blocks)) * 4
    counts = sorted(sum(-(-sizes[it] // block) for it in lost_names(store, (str(site),))) for site in range(1, SITES + 1))
    return block, sum(counts[-2:])
