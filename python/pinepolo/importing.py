"""`pinepolo-data import`: a CSV into a store, which gets its name only after its rows were compared with the CSV."""
from __future__ import annotations

import subprocess
from collections.abc import Iterable, Iterator, Sequence

from . import program
from .block import header_places, taken
from .digest import RowsDigest
from .dumped import dumped
from .errors import DataError
from .places import types_of
from .table_csv import Table, lines
from .types import Types
from .workshop import Workshop


def import_table(folder: str, path: str, store: str, sites: str | None = None) -> str:
    """Makes a store of a CSV by the catalog and the types in a folder, and answers what `load` said of it."""
    types = types_of(folder, {})
    table = Table(path, types.delimiter, types.encoding)
    places = header_places(table, types)
    with Workshop(folder, store, sites) as shop:
        wanted = RowsDigest()
        told = load(shop.catalog, shop.store, sites, mapped(table, types, places, wanted), [shop.lock])
        found = given_back(shop.store, types, sites)
        if found != wanted:
            raise DataError(f"the store gives {found.rows} rows back that are not the {wanted.rows} of {path}",
                            "nothing is left of the store: import it again, and report this if it stays")
        shop.finish()
    return f"{told}compared with {path}: {wanted.rows} rows"


def load(catalog: str, store: str, sites: str | None, blocks: Iterable[bytes], locks: Sequence[int]) -> str:
    """Makes a store of blocks of CSV, and answers what `load` said. The program keeps the locks."""
    words = ["load", "--quiet", *program.site_words(sites), "--", catalog, "-", store]
    try:
        with program.started(words, stdin=subprocess.PIPE, stdout=subprocess.PIPE, kept=locks) as process:
            assert process.stdin and process.stdout
            for block in blocks:
                process.stdin.write(block)
            process.stdin.close()
            told = process.stdout.read().decode()
    except DataError as error:
        # (what `load` left goes anyhow)
        error.advice = error.advice.replace(" with --replace-partial", "")
        raise
    return told


def given_back(store: str, types: Types, sites: str | None) -> RowsDigest:
    """The digest of the canonical rows that a store gives back."""
    found = RowsDigest()
    for block in dumped(store, types, sites):
        found.add([it.unmap(lists) for it, lists in zip(types.columns, block)])
    return found


def mapped(table: Table, types: Types, places: list[int], digest: RowsDigest) -> Iterator[bytes]:
    """The CSV that `load` takes, block by block. The digest takes the canonical rows."""
    names = [name for name, _ in types.stored()]
    everything = range(len(types.columns))
    yield (lines([[it] for it in names])[0] + "\n").encode()
    for first, cells in table.blocks(places):
        found, canonical = taken(table, types, everything, cells, first)
        digest.add(canonical)
        yield ("\n".join(lines([list(map(str, found[it])) for it in names])) + "\n").encode()
