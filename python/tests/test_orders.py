"""Orders, ranges, and what comes in place of a lost segment."""
from __future__ import annotations

import os
import random
import unittest
from typing import Any

from store_folder import BY_ID, BY_V, BY_W, KINDS, Folder

import pinepolo
from store_files import delta_file, segment_file, write_store


class Orders(Folder):
    def setUp(self) -> None:
        super().setUp()
        draw = random.Random(7)
        self.rows = [[at, draw.randrange(10), draw.choice(["", "a", "b", "é"])] for at in range(0, 300, 2)]
        write_store(self.folder, KINDS, [BY_ID, BY_V, BY_W], self.rows)
        self.store = pinepolo.open(self.folder)

    def wanted(self, order: dict[str, Any], start: Any, stop: Any) -> list[tuple[Any, ...]]:
        names = list(KINDS)
        rows = sorted(self.rows, key=lambda row: [row[names.index(name)] for name in [*order["sort"], "id"]])
        first = names.index(order["sort"][0])
        return [tuple(row) for row in rows if (start is None or start <= row[first]) and (stop is None or row[first] < stop)]

    def every_range(self) -> None:
        ids, numbers, texts = [-1, 0, 99, 100, 101, 199, 200, 298, 299], [0, 4, 5, 9, 10], ["", "a", "b", "é"]
        for order, bounds in ((BY_ID, ids), (BY_V, numbers), (BY_W, texts)):
            for start in [None, *bounds]:
                for stop in [None, *bounds]:
                    rows = list(self.store.rows(order=order["name"], start=start, stop=stop))
                    self.assertEqual(rows, self.wanted(order, start, stop))

    def test_ranges(self) -> None:
        self.every_range()

    def test_what_is_outside_is_not_read(self) -> None:
        for name in ("p0.s0.seg", "p0.s2.seg", "p1.s0.seg"):
            os.remove(os.path.join(self.folder, name))
        self.assertEqual(list(self.store.rows(order="by_id", start=100, stop=200)), self.wanted(BY_ID, 100, 200))

    def test_a_lost_segment(self) -> None:
        """The same rows in the same order come from what is left."""
        for name in ("p0.s1.seg", "p1.s1.del", "p2.s0.seg"):
            os.rename(os.path.join(self.folder, name), os.path.join(self.room.name, name))
            self.every_range()
            os.rename(os.path.join(self.room.name, name), os.path.join(self.folder, name))
        for name in ("p0.s1.seg", "p1.s0.seg", "p2.s1.del"):
            os.remove(os.path.join(self.folder, name))
        self.assertEqual([it.name for it in self.store.files if not it.is_there], ["p0.s1.seg", "p1.s0.seg", "p2.s1.del"])
        for words in ({}, {"order": "by_v"}):
            self.refused("v, id: each projection that has them has lost a file", "pinepolo dump --lost 2,4,6 store",
                         self.store.rows, ["v", "id"], **words)

    def test_words(self) -> None:
        orders = "order= is one of by_id (by id), by_v (by v), by_w (by w, v)"
        rows = self.store.rows
        self.refused("x is no column", "there are id, v, w", rows, ["x"])
        self.refused("no column is asked for", "there are id, v, w", rows, [])
        self.refused("x is no projection", orders, rows, order="x")
        self.refused("start and stop are values of an order, and none is named", orders, rows, start=1)
        self.refused("'x' is no value of id: not an integer", "", rows, order="by_id", start="x")

    def test_columns_in_no_projection(self) -> None:
        parts = [BY_ID | {"columns": ["id", "v"], "codes": [4, 4]}, BY_W | {"columns": ["w", "v"], "codes": [4, 4]}]
        write_store(self.folder, KINDS, parts, self.rows)
        store = pinepolo.open(self.folder)
        self.assertEqual(sorted(store.rows(["w", "v"])), sorted((w, v) for _, v, w in self.rows))
        self.refused("id, w: no projection has them all", "pinepolo dump store", store.rows, ["id", "w"])
        self.refused("by_id has no column w", "read id, v, or another order", store.rows, ["w"], order="by_id")

    def test_rows_out_of_place(self) -> None:
        fault = "p0.s1 (site 2): its rows are not those of its range, in order"
        sound = [row for row in self.rows if 100 <= row[0] < 200]
        for wrong in (sound[1::-1] + sound[2:], sound[:1] + sound, [[99, 0, ""], *sound], [*sound, [200, 0, ""]]):
            self.put("p0.s1.seg", segment_file(0, 1, wrong, list(KINDS.values()), [4, 4, 4]))
            self.put("p0.s1.del", delta_file(0, 1, len(wrong), len(wrong), [[]]))
            catalog = os.path.join(self.folder, "catalog.toml")
            with open(catalog, encoding="utf-8") as file:
                text = file.read().replace("codes = [3, 4, 4]", "codes = [4, 4, 4]")
            self.put("catalog.toml", text.encode())
            for s, part in ((0, (0, 100)), (2, (200, 300))):
                cells = [row for row in self.rows if part[0] <= row[0] < part[1]]
                self.put(f"p0.s{s}.seg", segment_file(0, s, cells, list(KINDS.values()), [4, 4, 4]))
            self.refused(fault, "pinepolo diagnose store", pinepolo.open(self.folder).rows, order="by_id")


if __name__ == "__main__":
    unittest.main()
