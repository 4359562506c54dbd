"""The command line of `pinepolo-data`."""
from __future__ import annotations

import argparse
import gc
import io
import os
import sys
from collections.abc import Iterable, Sequence
from typing import Any

from . import program
from .appending import append, import_partitioned
from .draft import Wanted, draft
from .errors import MEMORY, USAGE, DataError, device
from .exporting import csv_text, json_text, to_sqlite
from .generations import reading
from .importing import import_table
from .parallel import size_of
from .places import read
from .reading import Reading
from .rows import opened
from .sql import query
from .table_csv import Table
from .types import parse_types

EPILOG = "Statuses: 0 done, 1 refused, 2 usage error, 3 out of memory, 4 a file, a folder or a stream failed; 5 and 6 as pinepolo dump has them."


def names(text: str) -> list[str]:
    return text.split(",")


def delimiter(text: str) -> str:
    found = {"tab": "\t", "\\t": "\t"}.get(text, text)
    if len(found) != 1 or found in "\"\r\n":
        raise argparse.ArgumentTypeError("one character, or the word tab")
    return found


def size(text: str) -> int:
    try:
        return size_of(text)
    except ValueError as error:
        raise argparse.ArgumentTypeError(str(error)) from None


def count(text: str) -> int:
    if not text.isascii() or not text.isdigit() or not int(text):
        raise argparse.ArgumentTypeError("a number from 1 on")
    return int(text)


def parser() -> argparse.ArgumentParser:
    top = argparse.ArgumentParser("pinepolo-data", description="Takes CSV files into stores of pinepolo, and stores into SQL and pandas.",
                                  epilog=EPILOG, allow_abbrev=False)
    verbs = top.add_subparsers(dest="verb", required=True, metavar="VERB")
    add_draft(verbs)
    add_import(verbs)
    add_append(verbs)
    add_export(verbs)
    add_sql(verbs)
    add_check(verbs)
    add_each(verbs)
    return top


def add_draft(verbs: Any) -> None:
    it = verbs.add_parser("draft", help="draft a catalog and types for a CSV", allow_abbrev=False,
                          description="Reads the CSV twice, and makes DIR with catalog.toml and types.toml. Ends with pinepolo design.")
    it.add_argument("table", metavar="TABLE.csv")
    it.add_argument("--key", required=True, type=names, metavar="COLUMN,..",
                    help="the primary key; several columns are packed into one; none numbers the rows")
    it.add_argument("--k", required=True, type=int, metavar="K", help="any K sites may fail")
    it.add_argument("--sites", required=True, type=int, metavar="N", help="the number of sites")
    it.add_argument("--order", action="append", default=[], type=names, metavar="COLUMN,..",
                    help="a projection sorted by these columns; give it once for each")
    it.add_argument("--columns", default=[], type=names, metavar="COLUMN,..", help="the columns to keep [default: all]")
    it.add_argument("--delimiter", type=delimiter, metavar="C", help="what separates cells, or tab [default: a comma]")
    it.add_argument("--encoding", metavar="NAME", help="the encoding of the CSV [default: utf-8]")
    it.add_argument("--types", metavar="FILE", help="take the columns and their types from this types.toml")
    it.add_argument("-o", dest="folder", required=True, metavar="DIR", help="the folder to make")
    it.set_defaults(run=run_draft)


def run_draft(words: argparse.Namespace) -> None:
    program.find()
    types = parse_types(read(words.types), words.types) if words.types else None
    if types and (words.columns or words.delimiter or words.encoding):
        raise DataError("--types says the columns, the delimiter and the encoding", "give --types alone, or not at all", USAGE)
    table = Table(words.table, types.delimiter, types.encoding) if types else Table(words.table, words.delimiter or ",", words.encoding or "utf-8")
    wanted = Wanted([] if words.key == ["none"] else words.key, words.k, words.sites, words.order, words.columns)
    print(draft(table, wanted, words.folder, types))
    print(program.answer(["design", os.path.join(words.folder, "catalog.toml")]), end="")


def add_import(verbs: Any) -> None:
    it = verbs.add_parser("import", help="make a store, or a table of many stores, of a CSV", allow_abbrev=False,
                          description="Maps the CSV into pinepolo load, compares what the store gives back with the CSV, and names the store last. "
                                      "With --memory or --rows-per-store it makes a table of as many stores as it takes.")
    it.add_argument("folder", metavar="DIR", help="the folder of a draft: catalog.toml and types.toml")
    it.add_argument("table", metavar="TABLE.csv", help="the CSV; of a table of many stores it may be a pipe, /dev/stdin for standard input, sorted by the key")
    it.add_argument("store", metavar="STORE", help="the folder to make for the store, or for the table")
    it.add_argument("--sites", metavar="FILE", help="each site gets the empty folder that this file names for it; of a table a folder with {store} in its name")
    cut = it.add_mutually_exclusive_group()
    cut.add_argument("--memory", type=size, metavar="SIZE", help="make a table whose stores can be read with this much memory, a processor each")
    cut.add_argument("--rows-per-store", type=count, metavar="N", help="make a table whose stores have at most this many rows")
    it.set_defaults(run=run_import)


def run_import(words: argparse.Namespace) -> None:
    if words.memory or words.rows_per_store:
        put(import_partitioned(words.folder, words.table, words.store, words.sites, words.memory, words.rows_per_store))
    else:
        print(import_table(words.folder, words.table, words.store, words.sites))


def add_append(verbs: Any) -> None:
    it = verbs.add_parser("append", help="add the rows of a CSV to a table of many stores", allow_abbrev=False,
                          description="Makes the stores anew that get rows, compares what they give back, and names all of them in table.toml at once.")
    it.add_argument("table", metavar="TABLE")
    it.add_argument("rows", metavar="NEW.csv")
    it.add_argument("--replace", action="store_true", help="a row whose key is there replaces the other [default: it is refused]")
    add_memory(it)
    it.set_defaults(run=lambda words: put(append(words.table, words.rows, words.replace, words.memory)))


def add_memory(it: argparse.ArgumentParser) -> None:
    it.add_argument("--memory", type=size, metavar="SIZE", help="what all processes together may take [default: what is free]")


def add_reading(it: argparse.ArgumentParser) -> None:
    it.add_argument("--sites", metavar="FILE", help="each site stands in the folder that this file names for it; a table knows them")
    it.add_argument("--lost", metavar="SITE,..", help="the sites that are lost: they are not read")
    add_memory(it)


def add_export(verbs: Any) -> None:
    it = verbs.add_parser("export", help="write the rows of a store or of a table", allow_abbrev=False,
                          description="Takes the rows from pinepolo dump, which refuses copies that disagree, and undoes the types.")
    it.add_argument("store", metavar="STORE")
    form = it.add_mutually_exclusive_group()
    form.add_argument("--csv", action="store_true", help="CSV on standard output, as it came [default]")
    form.add_argument("--json-lines", action="store_true", help="an object of JSON a line, on standard output")
    form.add_argument("--sqlite", metavar="FILE", help="a new file of SQLite: table t_scaled, view t")
    add_reading(it)
    it.set_defaults(run=run_export)


def run_export(words: argparse.Namespace) -> None:
    with opened(words.store, words.sites, words.lost, words.memory) as rows:
        if words.sqlite is not None:
            to_sqlite(rows, words.sqlite)
        else:
            put((json_text if words.json_lines else csv_text)(rows))


def add_sql(verbs: Any) -> None:
    it = verbs.add_parser("sql", help="answer a query over the rows of a store or of a table", allow_abbrev=False,
                          description="Answers in CSV. The view t has decimals as reals, the table t_scaled as scaled ints; dec(TEXT) "
                                      "is the scaled int of a decimal, and dec_sum(X [, SCALE]) an exact sum.")
    it.add_argument("store", metavar="STORE")
    it.add_argument("query", metavar="QUERY", help="of SQLite, such as: select count(*) from t")
    add_reading(it)
    it.set_defaults(run=run_sql)


def run_sql(words: argparse.Namespace) -> None:
    with opened(words.store, words.sites, words.lost, words.memory) as rows:
        put(query(rows, words.query))


def add_check(verbs: Any) -> None:
    it = verbs.add_parser("check", help="check the stores of a table, and that each has the rows of its range", allow_abbrev=False)
    it.add_argument("table", metavar="TABLE")
    add_memory(it)
    it.set_defaults(run=run_check)


def run_check(words: argparse.Namespace) -> None:
    with reading(words.table) as table:
        put(Reading(words.table, table, words.memory).check())


def add_each(verbs: Any) -> None:
    it = verbs.add_parser("each", help="run a verb of pinepolo for each store of a table", allow_abbrev=False,
                          description="Prints what the verb prints, each line behind the name of the store and a tab. The status is the greatest one.")
    it.add_argument("table", metavar="TABLE")
    it.add_argument("words", metavar="-- VERB WORD", nargs="+",
                    help="the verb, and its words: {} stands for the path of the store, which else comes last, and {store} for its name")
    it.add_argument("--store", metavar="NAME", help="run it for this store alone")
    add_memory(it)
    it.set_defaults(run=run_each)


def run_each(words: argparse.Namespace) -> None:
    statuses = []
    with reading(words.table) as table:
        for status, store, said in Reading(words.table, table, words.memory).verbs(words.words, words.store):
            put(f"{store}\t{line}\n" for line in said.decode(errors="replace").splitlines())
            statuses.append(status)
    if any(statuses):
        raise DataError(f"pinepolo {words.words[0]}: {len(statuses) - statuses.count(0)} of {len(statuses)} stores ended with another status than 0",
                        "see their lines", max(map(abs, statuses)))


def put(texts: Iterable[str]) -> None:
    for text in texts:
        sys.stdout.write(text)
        sys.stdout.flush()


def main(words: Sequence[str] | None = None) -> int:
    """Runs a command, and answers its status."""
    # (blocks of cells are no garbage in cycles, and looking for it doubles the time)
    gc.disable()
    if isinstance(sys.stdout, io.TextIOWrapper):
        sys.stdout.reconfigure(encoding="utf-8")
    parsed = parser().parse_args(words)
    try:
        parsed.run(parsed)
        sys.stdout.flush()
        return 0
    except DataError as error:
        found = error
    except UnicodeEncodeError:
        found = DataError("the table has half of a character: a surrogate without its other one", "give the right --encoding")
    except MemoryError:
        found = DataError("out of memory", "run it with more memory", MEMORY)
    except BrokenPipeError:
        os.dup2(os.open(os.devnull, os.O_WRONLY), 1)
        return 4
    except KeyboardInterrupt:
        return 130
    except OSError as error:
        found = device(error)
    print(found.lines(), file=sys.stderr)
    return found.status
