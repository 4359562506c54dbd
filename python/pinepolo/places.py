"""Where the folders of a store's sites are, and its types.toml."""
from __future__ import annotations

import os
import tomllib
from typing import Any

from .catalog import Catalog, read_catalog
from .errors import DEVICE, USAGE, DataError
from .types import FILE, Types, parse_types, plain_types

CATALOG = "catalog.toml"
LONGEST, SITES_BYTES = 1 << 20, 65_536


def read(path: str, longest: int = LONGEST) -> bytes:
    try:
        with open(path, "rb") as file:
            data = file.read(longest + 1)
    except OSError as error:
        raise DataError(f"could not read {path}: {error.strerror}", "check the path and the permissions", DEVICE) from None
    if len(data) > longest:
        raise DataError(f"{path} has more than {longest} bytes", "check that it is the right file")
    return data


def copies(name: str, folders: list[str]) -> dict[str, bytes]:
    """The copies of a file that can be read, by their paths. If there are some and none can be read, that is raised."""
    found: dict[str, bytes] = {}
    faults: list[DataError] = []
    for path in (os.path.join(it, name) for it in folders):
        if os.path.lexists(path):
            try:
                found[path] = read(path)
            except DataError as error:
                faults.append(error)
    if faults and not found:
        raise faults[0]
    return found


def one_of(name: str, found: dict[str, bytes]) -> tuple[str, bytes]:
    """The path and the bytes of a file, if all copies of it are the same."""
    (path, data), *others = found.items()
    for other, again in others:
        if again != data:
            raise DataError(f"two copies of {name} differ: {path} and {other}", "put the right one in the place of the other")
    return path, data


def read_sites(path: str) -> dict[int, str]:
    """The folder of each site that a SITES file names; a relative path begins at the folder of the file."""
    try:
        data = read(path)
        if len(data) > SITES_BYTES:
            raise ValueError(f"more than {SITES_BYTES} bytes")
        return sites_in(tomllib.loads(data.decode()), os.path.dirname(path))
    except (tomllib.TOMLDecodeError, UnicodeDecodeError):
        what = "not TOML"
    except ValueError as error:
        what = str(error)
    raise DataError(f"{path}: {what}", "mend it by docs/formats.md", USAGE)


def sites_in(document: dict[str, Any], around: str) -> dict[int, str]:
    """The folder of each site that a document of TOML names, from a folder on. A ValueError says what is wrong."""
    tables = document.get("site")
    if not isinstance(tables, list):
        raise ValueError("no [[site]] tables")
    found: dict[int, str] = {}
    for place, table in enumerate(tables):
        values: dict[str, Any] = table if isinstance(table, dict) else {}
        number, folder = values.get("number"), values.get("folder")
        if type(number) is not int or not 1 <= number <= 16:
            raise ValueError(f"[[site]] {place}: number is missing or not an integer between 1 and 16")
        if not isinstance(folder, str):
            raise ValueError(f"[[site]] {place}: folder is missing or not a string")
        if number in found:
            raise ValueError(f"site {number} specified more than once")
        found[number] = os.path.join(around, folder)
    return found


def living_sites(sites: str | None, lost: str | None = None) -> dict[int, str]:
    """The folders of the sites that are not lost, by a SITES file; none without one."""
    gone = set((lost or "").split(","))
    return {number: folder for number, folder in read_sites(sites).items() if str(number) not in gone} if sites else {}


def types_of(store: str, sites: dict[int, str]) -> Types:
    """The types of a store, or of a drafted folder: those of its types.toml, or plain ones if it has none."""
    folders = [store, *(sites[number] for number in sorted(sites))]
    catalogs = copies(CATALOG, folders)
    if not catalogs:
        raise DataError(f"could not read the catalog at {store}", "check that it is a store, or give --sites", DEVICE)
    path, data = one_of(CATALOG, catalogs)
    return types_beside(folders, read_catalog(data, path))


def types_beside(folders: list[str], catalog: Catalog) -> Types:
    """The types that the folders of a store's sites have beside this catalog."""
    columns = [(it.name, it.kind) for it in catalog.columns]
    found = copies(FILE, folders)
    if not found:
        return plain_types(columns)
    where, text = one_of(FILE, found)
    types = parse_types(text, where)
    if sorted(types.stored()) != sorted(columns):
        differ = sorted(set(types.stored()) ^ set(columns))[0]
        raise DataError(f"{where}: column {differ[0]} ({differ[1]}) is not in both, {FILE} and {CATALOG}", "draft both again, or mend one of them")
    if any(it.null and catalog.key in it.stored for it in types.columns):
        raise DataError(f"{where}: {catalog.key} is the key, and a key has no NULL", "take its null out")
    return types
