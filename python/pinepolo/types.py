"""The types of a table's columns, and `types.toml`, which keeps them.

The interface in short:

    types = parse_types(data, path)         # what the bytes of a types.toml say
    types = plain_types(catalog)            # each column of the catalog as it is
    for column in types.columns:            # the table's columns, in the CSV's order
        column.name                         # its name
        column.stored                       # the catalog's columns that keep it: one, but of text(parts)
        column.map(cells)                   # cells of a CSV -> a list for each of `stored`
        column.unmap(lists)                 # a list for each of `stored` -> cells in canonical form
        column.values(lists)                # .. -> Python values, None for NULL

A drafted key (`types.key`) is a column of the catalog that is none of the table.
"""
from __future__ import annotations

import re
import tomllib
from dataclasses import dataclass, field
from typing import Any

from .columns import Column
from .errors import REFUSED, DataError
from .kinds import PARTS, Bool, DecimalType, Float, Int, LongText, Text, Type
from .naming import first_repeated
from .times import LIKE, LIKES, DateType, Timestamp
from .toml_text import toml_list, toml_string

FILE = "types.toml"
VERSION = 1
NAMES: dict[str, type[Type]] = {"int": Int, "bool": Bool, "float": Float, "date": DateType, "text": Text}
TYPES = "int, decimal(0) to decimal(18), date, timestamp(s), (ms), (us) or (ns), bool, float, text, text(2) to text(8)"


@dataclass(frozen=True)
class Key:
    """A drafted key: the catalog's key column, made of the cells of some columns, or of the row's number if of none."""

    name: str
    columns: tuple[str, ...]


@dataclass(frozen=True)
class Types:
    """What types.toml says: the columns, the drafted key if there is one, and how the CSV is written."""

    columns: tuple[Column, ...]
    key: Key | None = None
    delimiter: str = ","
    encoding: str = "utf-8"
    left_out: tuple[str, ...] = field(default=())

    def stored(self) -> list[tuple[str, str]]:
        """Name and kind of each column that the catalog has."""
        own = [(self.key.name, "text" if self.key.columns else "int")] if self.key else []
        return own + [(name, it.type.kind) for it in self.columns for name in it.stored]

    def plain_columns(self) -> list[Column]:
        """The columns that the catalog has, as ints and texts."""
        return [Column(name, make_type(kind)) for name, kind in self.stored()]

    def text(self, within: str = "") -> str:
        """The text of types.toml, or of the tables of TOML below a name such as `types.`"""
        parts = [f"version = {VERSION}\ndelimiter = {toml_string(self.delimiter)}\nencoding = {toml_string(self.encoding)}\n"
                 f"left_out = {toml_list(self.left_out)}\n"]
        if self.key:
            parts.append(f"\n[{within}key]\nname = {toml_string(self.key.name)}\ncolumns = {toml_list(self.key.columns)}\n")
        return "".join(parts + [column_text(it, within) for it in self.columns])


def column_text(column: Column, within: str) -> str:
    lines = ["", f"[[{within}column]]", f"name = {toml_string(column.name)}", f"type = {toml_string(column.type.name)}"]
    if column.header != column.name:
        lines.append(f"header = {toml_string(column.header)}")
    if column.null:
        lines.append(f"null = {toml_list(column.null)}")
    if isinstance(column.type, Timestamp):
        lines += [f"like = {toml_string(column.type.like)}", f'offset = "{"convert" if column.type.convert else "refuse"}"']
    return "\n".join(lines) + "\n"


def make_type(name: str, like: str = LIKE, convert: bool = False) -> Type:
    """The type of a name such as `decimal(2)`. A ValueError says what names there are."""
    if name in NAMES:
        return NAMES[name]()
    if (found := re.fullmatch(r"decimal\((0|[1-9][0-9]?)\)", name)) and int(found[1]) <= DecimalType.digits:
        return DecimalType(int(found[1]))
    if found := re.fullmatch(r"timestamp\((s|ms|us|ns)\)", name):
        return Timestamp(found[1], like, convert)
    if (found := re.fullmatch(r"text\(([2-9])\)", name)) and int(found[1]) <= PARTS:
        return LongText(int(found[1]))
    raise ValueError(f"{name!r} is no type; there are {TYPES}")


def plain_types(columns: list[tuple[str, str]]) -> Types:
    """Types of a catalog's columns, given by name and kind, for a store without a types.toml."""
    return Types(tuple(Column(name, make_type(kind)) for name, kind in columns))


def parse_types(data: bytes, path: str) -> Types:
    """The types in the bytes of a types.toml."""
    try:
        return TypesReader(tomllib.loads(data.decode())).types()
    except ValueError as error:
        raise DataError(f"{path}: {error}", "mend it by docs/data.md, or draft it again", REFUSED) from None


class TypesReader:
    """Reads a types.toml. Each fault is a ValueError that says where."""

    def __init__(self, document: dict[str, Any]) -> None:
        self.document = document

    def types(self) -> Types:
        it = self.document
        if type(it.get("version")) is not int:
            raise ValueError("version is missing, or no integer")
        if it["version"] != VERSION:
            raise ValueError(f"version {it['version']}, and this program knows version {VERSION}")
        known(it, "the top", {"version", "delimiter", "encoding", "left_out", "key", "column"})
        tables = it.get("column")
        if not isinstance(tables, list) or not tables or not all(isinstance(each, dict) for each in tables):
            raise ValueError("there is no [[column]]")
        columns = tuple(read_column(table, number) for number, table in enumerate(tables, 1))
        key = self.key(columns) if "key" in it else None
        result = Types(columns, key, string(it, "the top", "delimiter", ","), string(it, "the top", "encoding", "utf-8"),
                       strings(it, "the top", "left_out"))
        if len(result.delimiter) != 1 or result.delimiter in "\"\r\n":
            raise ValueError(f"delimiter {result.delimiter!r} is not one character, or none that separates cells")
        distinct("column", [it.name for it in columns])
        distinct("header", [it.header for it in columns] + list(result.left_out))
        distinct("stored column", [name for name, _ in result.stored()])
        return result

    def key(self, columns: tuple[Column, ...]) -> Key:
        table = self.document["key"]
        if not isinstance(table, dict):
            raise ValueError("key is no table")
        known(table, "[key]", {"name", "columns"})
        key = Key(string(table, "[key]", "name"), strings(table, "[key]", "columns"))
        for name in key.columns:
            found = [it for it in columns if it.name == name]
            if not found or found[0].null or found[0].type.parts > 1:
                raise ValueError(f"[key]: {name} is no column, or one that can't be part of a key: NULL or text(parts)")
        return key


def read_column(table: dict[str, Any], number: int) -> Column:
    where = f"[[column]] {number}"
    name = string(table, where, "name")
    where = f"column {name}"
    known(table, where, {"name", "type", "header", "null", "like", "offset"})
    like, offset = string(table, where, "like", LIKE), string(table, where, "offset", "refuse")
    if like not in LIKES:
        raise ValueError(f"{where}: like is one of {', '.join(LIKES)}")
    if offset not in ("refuse", "convert"):
        raise ValueError(f"{where}: offset is refuse or convert")
    try:
        found = make_type(string(table, where, "type"), like, offset == "convert")
    except ValueError as error:
        raise ValueError(f"{where}: {error}") from None
    if not isinstance(found, Timestamp) and {"like", "offset"} & set(table):
        raise ValueError(f"{where}: only a timestamp has like and offset")
    return Column(name, found, string(table, where, "header", name), strings(table, where, "null"))


def known(table: dict[str, Any], where: str, names: set[str]) -> None:
    if unknown := sorted(set(table) - names):
        raise ValueError(f"{where}: {unknown[0]} is no key of version {VERSION}")


def string(table: dict[str, Any], where: str, name: str, default: str | None = None) -> str:
    found = table.get(name, default)
    if not isinstance(found, str):
        raise ValueError(f"{where}: {name} is missing, or no string")
    return found


def strings(table: dict[str, Any], where: str, name: str) -> tuple[str, ...]:
    found = table.get(name, [])
    if not isinstance(found, list) or not all(isinstance(it, str) for it in found):
        raise ValueError(f"{where}: {name} is no list of strings")
    return tuple(found)


def distinct(what: str, names: list[str]) -> None:
    if (twice := first_repeated(names)) is not None:
        raise ValueError(f"{what} {twice!r} stands twice")
