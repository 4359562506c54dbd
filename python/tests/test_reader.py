"""What the reader gives of sound files, and of deltas that do not merge."""
from __future__ import annotations

import os
import random
import unittest
from typing import Any

from store_folder import EXAMPLE, Folder

import pinepolo
from pinepolo.codes import cells_of
from store_files import DELETE, INSERT, MODIFY, Maker, body, delta_file, segment_file, write_store

STORES = int(os.environ.get("PINEPOLO_STORES", "20"))


class Stores(Folder):
    def test_seeded_stores(self) -> None:
        """Each code, deltas of both versions, up to three layers: the rows that were written."""
        for seed in range(STORES):
            with self.subTest(seed=seed):
                folder = f"{self.folder}{seed}"
                made, store = Maker(seed, folder).make(), pinepolo.open(folder)
                self.assertEqual([list(map(list, store.rows(["id", "v", "w"], order="p0"))),
                                  list(map(list, store.rows(["v", "id", "w"], order="p1")))], made.rows)

    def test_example(self) -> None:
        store = pinepolo.open(EXAMPLE)
        self.assertEqual([store.columns, [it.name for it in store.projections]], [["id", "v"], ["a", "b", "c"]])
        self.assertEqual([it.name for it in store.files][:3], ["p0.s0.seg", "p0.s0.del", "p0.s1.seg"])
        self.assertEqual(list(store.rows()), [(1, 30), (2, 10), (3, 20), (4, 10)])
        self.assertEqual(list(store.rows(["v"], order="a", start=3)), [(20,), (10,)])
        self.assertEqual(list(store.batches(order="c")), [[[2, 4, 3], [10, 10, 20]], [[1], [30]]])

    def test_batches(self) -> None:
        """Columns of more than one batch, by each code; texts of one length, of several, empty, of 255 bytes, not ASCII, with control
        characters."""
        draw, rows = random.Random(1), 70_000
        numbers = sorted(draw.randrange(-2**63, 2**63) for _ in range(rows))
        few = [draw.randrange(3) for _ in range(rows)]
        texts = [[""] * rows, ["ab"] * rows, ["é"] * rows, draw.choices(["", "a", "ab", "x" * 255], k=rows),
                 draw.choices(["", "é"], k=rows), draw.choices(["", "a", "ab", "x" * 31], k=rows),
                 [*draw.choices(["a", "ab"], k=rows - 2_000), *draw.choices(["a", "b\n", "x" * 32, "\0"], k=2_000)]]
        cases = [(3, numbers), (3, list(range(rows))), (4, numbers), (1, sorted(few)), (2, few), (2, texts[4]),
                 *((4, it) for it in texts)]
        for number, (code, cells) in enumerate(cases):
            with self.subTest(number):
                kind = "int" if isinstance(cells[0], int) else "text"
                batches = [list(it) for it in cells_of(code, kind, body(code, cells), rows)]
                self.assertEqual(([len(it) for it in batches], sum(batches, [])), ([65_536, 4_464], cells))


class Deltas(Folder):
    def look(self, base: list[Any], rows: int, *layers: Any) -> list[Any]:
        self.put("p0.s0.seg", segment_file(0, 0, base, ["int", "int"], [4, 1]))
        self.put("p0.s0.del", delta_file(0, 0, rows, rows + 3, list(layers)))
        return list(pinepolo.open(self.folder).rows())

    def setUp(self) -> None:
        super().setUp()
        one = {"name": "a", "columns": ["id", "v"], "codes": [4, 1], "sort": ["id"], "cuts": [], "sites": [1]}
        write_store(self.folder, {"id": "int", "v": "int"}, [one], [])

    def test_layers(self) -> None:
        base = [[5, 0], [9, 0], [6, 0]]
        first = [[INSERT, 0, 4, [4, 1]], [MODIFY, 0, 1, 2], [DELETE, 1], [INSERT, 3, 5, [8, 3]]]
        second = [[DELETE, 0], [INSERT, 3, 6, [7, 4]]]
        self.assertEqual(self.look(base, 3, first), [(4, 1), (5, 2), (6, 0), (8, 3)])
        self.assertEqual(self.look(base, 3, first, [], second), [(5, 2), (6, 0), (7, 4), (8, 3)])

    def test_a_delta_of_many_batches(self) -> None:
        base = [[at, 0] for at in range(200_000)]
        found = self.look(base, 200_000, [[DELETE, at] for at in range(70_000)], [[MODIFY, 0, 1, 1]])
        self.assertEqual(found, [(70_000, 1), *((at, 0) for at in range(70_001, 200_000))])

    def test_deltas_that_do_not_merge(self) -> None:
        fault = "p0.s0.del (site 1) is damaged: it does not merge with the {} rows of p0.s0.seg"
        self.refused(fault.format(1), "pinepolo diagnose store", self.look, [[1, 0]], 2, [])
        most = 1_048_576
        one = {"name": "a", "columns": ["v"], "codes": [1], "sort": ["v"], "cuts": [], "sites": [1]}
        other = {"name": "b", "columns": ["id"], "sort": ["id"], "cuts": [], "sites": [1]}
        write_store(self.folder, {"id": "int", "v": "int"}, [one, other], [])
        self.put("p0.s0.seg", segment_file(0, 0, [[0]] * most, ["int"], [1]))
        self.put("p0.s0.del", delta_file(0, 0, most, most, [[]]))
        self.assertEqual(sum(len(it[0]) for it in pinepolo.open(self.folder).batches(["v"])), most)
        self.put("p0.s0.del", delta_file(0, 0, most, most + 1, [[[INSERT, 0, most + 1, [0]]], [[DELETE, 0]]]))
        self.refused(fault.format(most), "pinepolo diagnose store", pinepolo.open(self.folder).rows, ["v"])


if __name__ == "__main__":
    unittest.main()
