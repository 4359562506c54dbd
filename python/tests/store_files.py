"""Writes the files of stores by docs/formats.md, with nothing of the reader: what the tests read is not what it wrote."""
from __future__ import annotations

import hashlib
import json
import os
import random
import struct
from dataclasses import dataclass, field
from typing import Any

Row = list[Any]
KINDS = {"int": 1, "text": 2}
INSERT, DELETE, MODIFY = 1, 2, 3
# A catalog of one projection with two segments.
CATALOG = """version = 1
table = "t"
key = "id"
sites = 2
column = [{name = "id", kind = "int"}, {name = "w", kind = "text"}]
[[projection]]
name = "p"
columns = ["id", "w"]
codes = [3, 4]
sort = ["id"]
cuts = [5]
sites = [1, 2]
joins = []
"""


def sealed(front: bytes) -> bytes:
    return front + hashlib.sha256(front).digest()


def cell(value: int | str) -> bytes:
    if isinstance(value, int):
        return value.to_bytes(8, "big", signed=True)
    return bytes([len(value.encode())]) + value.encode()


def short(number: int) -> bytes:
    """A number in groups of seven bits."""
    groups = []
    while number > 127:
        groups.append(number & 127 | 128)
        number >>= 7
    return bytes([*groups, number])


def run_lengths(cells: list[Any]) -> list[tuple[Any, int]]:
    found: list[tuple[Any, int]] = []
    for value in cells:
        same = bool(found) and found[-1][0] == value
        found[len(found) - same:] = [(value, found[-1][1] + 1 if same else 1)]
    return found


def runs(cells: list[Any]) -> bytes:
    parts, position = [], 1
    for value, count in run_lengths(cells):
        parts.append(cell(value) + struct.pack(">II", position, count))
        position += count
    return b"".join(parts)


def bitmaps(cells: list[Any]) -> bytes:
    parts = []
    for value in sorted(set(cells)):
        lengths = [count for _, count in run_lengths([it == value for it in cells])]
        if cells[0] == value:
            lengths.insert(0, 0)
        lengths = lengths[:len(lengths) // 2 * 2]
        parts.append(cell(value) + struct.pack(f">I{len(lengths)}I", len(lengths), *lengths))
    return b"".join(parts)


def differences(cells: list[int]) -> bytes:
    return b"".join(struct.pack(">Iq", at + 1, value) if at % 128 == 0 else short(value - cells[at - 1])
                    for at, value in enumerate(cells))


def body(code: int, cells: list[Any]) -> bytes:
    return {1: runs, 2: bitmaps, 3: differences, 4: lambda it: b"".join(map(cell, it))}[code](cells)


def segment_file(p: int, s: int, rows: list[Row], kinds: list[str], codes: list[int]) -> bytes:
    parts = [b"CSSEG001", struct.pack(">HHIH", p, s, len(rows), len(kinds))]
    for at, (kind, code) in enumerate(zip(kinds, codes)):
        text = body(code, [row[at] for row in rows])
        parts.append(struct.pack(">BBI", code, KINDS[kind], len(text)) + text)
    return sealed(b"".join(parts))


def item_bytes(item: tuple[Any, ...]) -> bytes:
    """An item: (INSERT, position, key, row), (DELETE, position) or (MODIFY, position, column, value)."""
    head = struct.pack(">BI", *item[:2])
    if item[0] == INSERT:
        return head + struct.pack(">I", item[2]) + b"".join(map(cell, item[3]))
    return head + (bytes([item[2]]) + cell(item[3]) if item[0] == MODIFY else b"")


def delta_file(p: int, s: int, rows: int, top: int, layers: list[list[Any]], version: int = 2) -> bytes:
    """A delta of `rows` rows. Version 1 has one layer."""
    head = b"CSDEL00%d" % version + struct.pack(">HHII", p, s, rows, top)
    texts = [struct.pack(">I", len(items)) + b"".join(map(item_bytes, items)) for items in layers]
    return sealed(head + (bytes([len(layers)]) if version == 2 else b"") + b"".join(texts))


@dataclass
class Made:
    """A store that was written: its folder, and of each projection its rows in order; the bytes of its files."""

    folder: str
    kinds: list[str]
    rows: list[list[Row]]
    files: dict[str, bytes] = field(default_factory=dict)

    def write(self, name: str, data: bytes) -> None:
        with open(os.path.join(self.folder, name), "wb") as file:
            file.write(data)


class Maker:
    """Draws a store by a seed: the codes in turn, one or two segments, no to three layers of deltas, both versions."""

    names = ["id", "v", "w"]
    columns = [[0, 1, 2], [1, 0, 2]]

    def __init__(self, seed: int, folder: str) -> None:
        self.draw = random.Random(seed)
        self.seed = seed
        kinds = ["int", self.draw.choice(["int", "text"]), "text"]
        count = self.draw.choice([0, 1, 5, 127, 128, 129, 300])
        pool = [self.value(kinds[1]) for _ in range(self.draw.choice([1, 3, 50]))]
        reach = self.draw.choice([1000, 2**63])
        ids = sorted({self.draw.randrange(-reach, reach) for _ in range(count)})
        rows = [[it, self.draw.choice(pool), self.value("text")] for it in ids]
        by_v = sorted(([row[at] for at in self.columns[1]] for row in rows), key=lambda row: row[:2])
        self.cut = ids[len(ids) // 2] if count and self.draw.random() < .5 else None
        self.made = Made(folder, kinds, [rows, by_v])

    def value(self, kind: str) -> int | str:
        draw = self.draw
        if kind == "int":
            return draw.choice([draw.randrange(5), draw.randrange(-2**63, 2**63), 2**63 - 1, -2**63])
        length = draw.choice([0, 1, 2, 3, 9, 100, 255])
        return "".join(draw.choices("ab\0é,\"\n€", k=length)).encode()[:length].decode(errors="ignore")

    def codes(self, p: int) -> list[int]:
        """The first column of a projection has each code in turn; differences are for ints alone."""
        first = (self.seed + p) % 4 + 1
        if first == 3 and self.made.kinds[self.columns[p][0]] != "int":
            first = 2
        return [first, self.draw.choice([1, 2, 4]), self.draw.choice([1, 2, 4])]

    def below(self, rows: list[Row], kinds: list[str], keeps_order: bool) -> tuple[list[Row], list[Any]]:
        """Rows and the items of a layer on them, whose image is `rows`. Keys are given later."""
        draw = self.draw
        base: list[Row] = []
        items: list[Any] = []
        for row in rows:
            if draw.random() < .15:
                items.append([INSERT, len(base), None, row])
                continue
            while not keeps_order and draw.random() < .1:
                items.append([DELETE, len(base)])
                base.append([self.value(kind) for kind in kinds])
            old = list(row)
            for at in range(1 if keeps_order else 0, len(kinds)):
                if draw.random() < .1:
                    old[at] = self.value(kinds[at])
                    items.append([MODIFY, len(base), at, row[at]])
            base.append(old)
        return base, items

    def segment(self, p: int, s: int, rows: list[Row], codes: list[int]) -> None:
        kinds = [self.made.kinds[at] for at in self.columns[p]]
        layers: list[list[Any]] = []
        for _ in range(self.draw.randrange(4)):
            rows, items = self.below(rows, kinds, codes[0] == 3)
            layers.insert(0, items)
        inserts = [item for items in layers for item in items if item[0] == INSERT]
        top = len(rows) + len(inserts) + self.draw.randrange(3)
        for item, key in zip(inserts, self.draw.sample(range(len(rows) + 1, top + 1), len(inserts))):
            item[2] = key
        version = self.draw.choice([1, 2]) if len(layers) < 2 else 2
        files = {".seg": segment_file(p, s, rows, kinds, codes),
                 ".del": delta_file(p, s, len(rows), top, layers or [[]], version)}
        for end, data in files.items():
            self.made.files[f"p{p}.s{s}{end}"] = data

    def catalog(self, codes: list[list[int]]) -> str:
        lines = ["version = 1", 'table = "t"', 'key = "id"', "sites = 3"]
        for name, kind in zip(self.names, self.made.kinds):
            lines += ["[[column]]", f'name = "{name}"', f'kind = "{kind}"']
        for p, columns in enumerate(self.columns):
            names = [self.names[at] for at in columns]
            cut = p == 0 and self.cut is not None
            lines += ["[[projection]]", f'name = "p{p}"', f"columns = {json.dumps(names)}", f"codes = {codes[p]}",
                      f'sort = ["{names[0]}"]', f"cuts = {[self.cut] if cut else []}", "joins = []",
                      f"sites = {[1, 2] if cut else [3] if p else [1]}"]
        return "\n".join(lines) + "\n"

    def make(self) -> Made:
        made, codes = self.made, [self.codes(0), self.codes(1)]
        os.makedirs(made.folder, exist_ok=True)
        made.write("catalog.toml", self.catalog(codes).encode())
        for p, rows in enumerate(made.rows):
            if p or self.cut is None:
                parts = [rows]
            else:
                parts = [[it for it in rows if it[0] < self.cut], [it for it in rows if it[0] >= self.cut]]
            for s, part in enumerate(parts):
                self.segment(p, s, part, codes[p])
        for name, data in made.files.items():
            made.write(name, data)
        return made


def write_store(folder: str, kinds: dict[str, str], projections: list[dict[str, Any]], rows: list[Row]) -> None:
    """Writes a store without changes, whose key is the first column. A projection has its `name`, `columns`, `sort`, `cuts` and
    `sites`; `codes` if they are not all plain."""
    os.makedirs(folder, exist_ok=True)
    names = list(kinds)
    lines = ["version = 1", 'table = "t"', f'key = "{names[0]}"', f"sites = {max(max(it['sites']) for it in projections)}"]
    lines += [f'[[column]]\nname = "{name}"\nkind = "{kind}"' for name, kind in kinds.items()]
    for p, it in enumerate(projections):
        codes = it.get("codes", [4] * len(it["columns"]))
        lines += ["[[projection]]", f'name = "{it["name"]}"', f"codes = {codes}", "joins = []"]
        lines += [f"{key} = {json.dumps(it[key])}" for key in ("columns", "sort", "cuts", "sites")]
        order = [names.index(name) for name in [*it["sort"], names[0]]]
        own = [names.index(name) for name in it["columns"]]
        bounds = [None, *it["cuts"], None]
        for s, (low, high) in enumerate(zip(bounds, bounds[1:])):
            first = order[0]
            part = [row for row in rows if (low is None or low <= row[first]) and (high is None or row[first] < high)]
            part.sort(key=lambda row: [row[at] for at in order])
            cells = [[row[at] for at in own] for row in part]
            files = {".seg": segment_file(p, s, cells, [kinds[name] for name in it["columns"]], codes),
                     ".del": delta_file(p, s, len(cells), len(cells), [[]], 1)}
            for end, data in files.items():
                with open(os.path.join(folder, f"p{p}.s{s}{end}"), "wb") as file:
                    file.write(data)
    with open(os.path.join(folder, "catalog.toml"), "w", encoding="utf-8") as file:
        file.write("\n".join(lines) + "\n")
