"""What the tests of the reader share: a folder for each, and a table in three orders."""
from __future__ import annotations

import os
import tempfile
import unittest
from typing import Any

from tables import TOP

import pinepolo

EXAMPLE = str(TOP / "examples/store")
KINDS = {"id": "int", "v": "int", "w": "text"}
BY_ID = {"name": "by_id", "columns": ["id", "v", "w"], "codes": [3, 4, 4], "sort": ["id"], "cuts": [100, 200],
         "sites": [1, 2, 3]}
BY_V = {"name": "by_v", "columns": ["v", "id", "w"], "codes": [1, 4, 4], "sort": ["v"], "cuts": [5], "sites": [4, 4]}
BY_W = {"name": "by_w", "columns": ["w", "v", "id"], "codes": [2, 4, 4], "sort": ["w", "v"], "cuts": ["b"], "sites": [5, 6]}


class Folder(unittest.TestCase):
    """A folder of its own for each test."""

    def setUp(self) -> None:
        self.room = tempfile.TemporaryDirectory(prefix="pinepolo-reader-")
        self.folder = os.path.join(self.room.name, "store")

    def tearDown(self) -> None:
        self.room.cleanup()

    def put(self, name: str, data: bytes) -> None:
        with open(os.path.join(self.folder, name), "wb") as file:
            file.write(data)

    def refused(self, fault: str, advice: str, work: Any, *words: Any, **named: Any) -> None:
        with self.assertRaises(pinepolo.DataError) as caught:
            list(work(*words, **named))
        found = caught.exception
        self.assertEqual([it.replace(self.room.name + "/", "") for it in (found.message, found.advice)], [fault, advice])
