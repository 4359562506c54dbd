"""Cuts, keys that stand twice, and packed keys."""
import random
import sys
import unittest
from pathlib import Path

sys.path.insert(0, str(Path(__file__).resolve().parent.parent))

from pinepolo.cuts import FULL, Counts, candidates, even_cuts, filled
from pinepolo.keys import CHUNK, Repeats, packed
from pinepolo.layout import Projection, orders_of, projections_of


class TestCuts(unittest.TestCase):
    def test_a_value_with_too_many_rows(self):
        self.assertEqual(even_cuts([5], [0, FULL], 1), ([], [FULL]))
        self.assertIsNone(even_cuts([5], [0, FULL + 1], 1))
        self.assertIsNone(even_cuts([5, 6], [0, FULL + 1, 3], 4))

    def test_more_rows_than_segments(self):
        cuts, rows = even_cuts(list(range(160)), [0, *[100_000] * 160], 6)
        self.assertEqual((len(cuts), rows), (15, [1_000_000] * 16))
        self.assertEqual(even_cuts(list(range(16)), [0, *[FULL] * 16], 1)[1], [FULL] * 16)
        self.assertIsNone(even_cuts(list(range(17)), [0, *[FULL - 5] * 17], 1))

    def test_even(self):
        self.assertEqual(even_cuts([1, 2, 3, 4], [0, 1, 1, 1, 1], 2), ([3], [2, 2]))
        self.assertEqual(even_cuts([1, 2], [0, 9, 1], 4), ([2], [9, 1]))
        self.assertEqual(even_cuts([], [0], 3), ([], [0]))
        self.assertEqual(filled([1, 2, 3], [0, 5, 5, 5], 5), ([2, 3], [5, 5, 5]))

    def test_counts_are_exact(self):
        """Whatever the sample, each segment has the rows that are said."""
        chance = random.Random(5)
        for of in (lambda it: it, lambda it: f"{it:x}"):
            values = [of(int(chance.gauss(0, 300))) for _ in range(70_000)] + [of(77)] * 9000
            chance.shuffle(values)
            counts = Counts(candidates(chance.sample(values, 3000)))
            for at in range(0, len(values), 1000):
                counts.take(values[at:at + 1000])
            cuts, rows = even_cuts(counts.cuts, counts.sizes(), 5)
            bounds = [min(values), *cuts, None]
            self.assertEqual(rows, [sum(low <= it and (high is None or it < high) for it in values) for low, high in zip(bounds, bounds[1:])])
            self.assertLess(max(rows) - min(rows), 9000)
            self.assertEqual(counts.fullest(), (of(77), values.count(of(77))))


class TestKeys(unittest.TestCase):
    def test_repeats(self):
        keys = [f"key {it}" for it in range(CHUNK + 5000)]
        found = Repeats()
        for text in (keys, ["key 7", "other", "key 65540"]):
            found.take(text)
        self.assertEqual(found.suspects(), {hash("key 7"), hash("key 65540")})

    def test_packed_keys_differ_and_keep_the_order(self):
        chance = random.Random(5)
        ints = [0, 1, -1, 15, 16, -16, -17, 2**63 - 1, -2**63, *(chance.randrange(-2**63, 2**63) for _ in range(50))]
        texts = ["", "\0", "\0\0", "\1", "a", "ab", "a\0", "é"]
        rows = sorted({(chance.choice(texts), chance.choice(ints), chance.choice(texts)) for _ in range(3000)})
        keys = packed(list(zip(*rows)))
        self.assertEqual((keys, len(set(keys))), (sorted(keys), len(rows)))


class TestLayout(unittest.TestCase):
    def test_orders(self):
        self.assertEqual(orders_of("id", [], 2), [["id"], ["id"], ["id"]])
        self.assertEqual(orders_of("id", [["day"], ["x", "y"]], 2), [["id"], ["day"], ["x", "y"]])
        self.assertEqual(orders_of("id", [["day"], ["x"]], 1), [["day"], ["x"]])
        self.assertEqual(orders_of("id", [["id"]], 1), [["id"], ["id"]])

    def test_sites(self):
        self.assertEqual([it.sites for it in projections_of([["a"]] * 3, 7, ["a"])], [[1, 2], [3, 4], [5, 6, 7]])
        self.assertEqual([(it.name, it.sites) for it in projections_of([["a"]] * 3, 2, ["a"])], [("by_a", [1]), ("by_a_2", [2]), ("by_a_3", [1])])
        self.assertEqual(Projection(["a"], [1, 2], "a", ["a"], rows=[9] * 5).segment_sites(), [1, 1, 1, 2, 2])
        self.assertEqual(Projection(["a"], [1, 2, 3], "a", ["a"], rows=[9, 9]).segment_sites(), [1, 2])


if __name__ == "__main__":
    unittest.main()
