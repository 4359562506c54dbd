"""The rules of a catalog: the reader names the rule that pinepolo names."""
from __future__ import annotations

import os
import re
import subprocess
import tempfile
import unittest

from store_files import CATALOG as GOOD
from tables import program

import pinepolo
from pinepolo.catalog import read_catalog

SECOND = GOOD[GOOD.index("[[projection]]"):].replace('"p"', '"q"').replace('["id"]', '["w"]').replace("[3, 4]", "[4, 4]")
BY_TEXT = [('sort = ["id"]', 'sort = ["w"]'), ("codes = [3, 4]", "codes = [4, 4]")]
# What is changed of GOOD, and the rule that it breaks then; 0 is no TOML, and None is a catalog.
CASES = [
    (None, []),
    (None, [("version = 1", 'version = 2\nsafety = "rows"')]),
    (None, [("version = 1", "version = 1\nsafety = 7")]),
    (None, [("cuts = [5]", f"cuts = [{-2**63}]")]),
    (None, [*BY_TEXT, ("cuts = [5]", f'cuts = ["{"é" * 127}"]')]),
    (None, [("joins = []", 'joins = ["q"]\n' + SECOND.replace("cuts = [5]", 'cuts = ["\\u007f"]'))]),
    (0, [("sites = 2", "sites = ")]),
    (0, [("sites = 2", f"sites = {2**63}")]),
    (0, [("table", f"other = [{{a = {-2**63 - 1}}}]\ntable")]),
    (1, [("version = 1", "")]),
    (1, [("version = 1", "version = 3")]),
    (1, [("version = 1", "version = true")]),
    (2, [("sites = 2\n", "")]),
    (2, [("sites = 2", "sites = true")]),
    (2, [("version = 1", "version = 2")]),
    (2, [('"t"', "1")]),
    (2, [("codes = [3, 4]", "codes = [3, true]")]),
    (2, [("cuts = [5]", "cuts = 5")]),
    (2, [("column = [", "column = [1, ")]),
    (3, [('"t"', '"T"')]),
    (3, [('"t"', f'"{"t" * 33}"')]),
    (3, [('"t"', '"té"')]),
    (3, [('"t"', '"t\\n"')]),
    (3, [('{name = "w"', '{name = "id"')]),
    (4, [("sites = 2", "sites = 17")]),
    (4, [("sites = 2", "sites = 0")]),
    (4, [("column = [", "column = [" + ", ".join(f'{{name = "c{at}", kind = "int"}}' for at in range(31)) + ", ")]),
    (5, [('"text"', '"float"')]),
    (6, [('key = "id"', 'key = "p"')]),
    (7, [('columns = ["id", "w"]', "columns = []"), ("codes = [3, 4]", "codes = []")]),
    (7, [('columns = ["id", "w"]', 'columns = ["id", "id"]')]),
    (7, [('columns = ["id", "w"]', 'columns = ["id", "v"]')]),
    (8, [("codes = [3, 4]", "codes = [3]")]),
    (8, [("codes = [3, 4]", "codes = [3, 5]")]),
    (9, [('sort = ["id"]', "sort = []")]),
    (9, [('sort = ["id"]', 'sort = ["id", "id"]')]),
    (10, [("codes = [3, 4]", "codes = [3, 3]")]),
    (10, [('sort = ["id"]', 'sort = ["w", "id"]'), ("cuts = [5]", 'cuts = ["a"]')]),
    (11, [("cuts = [5]", "cuts = [true]")]),
    (11, [("cuts = [5]", 'cuts = ["5"]')]),
    (11, [("cuts = [5]", "cuts = [5, 5]")]),
    (11, [("cuts = [5]", f"cuts = {list(range(16))}")]),
    (11, [*BY_TEXT, ("cuts = [5]", f'cuts = ["{"é" * 128}"]')]),
    (11, [*BY_TEXT, ("cuts = [5]", 'cuts = ["\\U00010000", "\\uffff"]')]),
    (12, [("sites = [1, 2]", "sites = [1]")]),
    (12, [("sites = [1, 2]", "sites = [1, 3]")]),
    (13, [("joins = []", 'joins = ["p"]')]),
    (13, [("joins = []", 'joins = ["r"]')]),
    (14, [('columns = ["id", "w"]', 'columns = ["id"]'), ("codes = [3, 4]", "codes = [3]")]),
    (15, [("version = 1", 'version = 2\nsafety = "none"')]),
]


def rule_of(text: str) -> int | None:
    found = re.search(r"catalog: (?:not TOML|rule (\d+))", text)
    return int(found[1] or 0) if found else None


class Rules(unittest.TestCase):
    def texts(self) -> list[tuple[int | None, str]]:
        found = []
        for rule, changes in CASES:
            text = GOOD
            for old, new in changes:
                self.assertEqual(text.count(old), 1, old)
                text = text.replace(old, new)
            found.append((rule, text))
        return found

    def test_reader(self) -> None:
        for rule, text in self.texts():
            with self.subTest(rule, text=text):
                try:
                    read_catalog(text.encode(), "c")
                    said = ""
                except pinepolo.DataError as error:
                    said = error.message
                self.assertEqual(rule_of(said), rule)

    def test_program(self) -> None:
        name = program()
        if not name:
            self.skipTest("there is no program pinepolo on PATH, in PINEPOLO or in crates/pinepolo/out")
        with tempfile.TemporaryDirectory() as room:
            path = os.path.join(room, "catalog.toml")
            for rule, text in self.texts():
                with open(path, "w", encoding="utf-8") as file:
                    file.write(text)
                done = subprocess.run([name, "design", path], capture_output=True, text=True)
                with self.subTest(rule, text=text):
                    self.assertEqual(rule_of(done.stderr), rule, done.stderr)


if __name__ == "__main__":
    unittest.main()
