"""Files that the reader refuses: those that pinepolo refuses, at the byte that `pinepolo show STORE FILE` names.

A few stores are tried, or as many as PINEPOLO_STORES says: PINEPOLO_STORES=200 python3 -m unittest test_damaged
"""
from __future__ import annotations

import os
import random
import re
import subprocess
import tempfile
import unittest
from typing import Any

from tables import program

import pinepolo
from pinepolo.images import Image
from store_files import CATALOG, DELETE, INSERT, MODIFY, Made, Maker, delta_file, sealed, segment_file

STORES = int(os.environ.get("PINEPOLO_STORES", "12"))
DAMAGED_FILES = 8
NAME = re.compile(r"p(\d+)\.s(\d+)\..*")


def place(folder: str, name: str) -> int | None:
    """Where the reader finds that the bytes of a file stop making sense, or None if they are a file of this name."""
    store = pinepolo.open(folder)
    p, s = NAME.fullmatch(name).groups()  # type: ignore[union-attr]
    try:
        for _ in Image(store.catalog, store.places, int(p), int(s)).batches():
            pass
    except pinepolo.DataError as error:
        found = re.fullmatch(rf"{name} .* invalid at byte (\d+) of \d+", error.message)
        return int(found[1]) if found else None
    return None


def damaged(draw: random.Random, data: bytes) -> bytes:
    """A file with one to three of its bytes changed, cut off or put in. The digest is mostly made right again."""
    front = bytearray(data[:-32])
    how = draw.randrange(4)
    for _ in range(draw.randrange(1, 4)):
        if how == 0 and front:
            del front[draw.randrange(len(front)):]
        elif how == 1:
            front.insert(draw.randrange(len(front) + 1), draw.randrange(256))
        elif front:
            at = draw.randrange(min(len(front), draw.choice([30, len(front)])))
            front[at] = draw.choice([0, 1, 127, 128, 255, draw.randrange(256)])
    if draw.random() < .7:
        return sealed(bytes(front))
    return bytes(front) + data[-32:] if draw.random() < .7 else bytes(front)[:draw.randrange(40)]


class Beside(unittest.TestCase):
    """The reader beside the program."""

    def setUp(self) -> None:
        self.program = program()
        if not self.program:
            self.skipTest("there is no program pinepolo on PATH, in PINEPOLO or in crates/pinepolo/out")

    def said(self, *words: str) -> str:
        done = subprocess.run([self.program, *words], capture_output=True, text=True)  # type: ignore[list-item]
        self.assertGreaterEqual(done.returncode, 0, f"killed by a signal: {words}")
        return done.stdout + done.stderr

    def shown(self, folder: str, name: str) -> int | None:
        found = re.search(r"^damaged: invalid at byte (\d+) of", self.said("show", folder, name), re.MULTILINE)
        return int(found[1]) if found else None


class Seeded(Beside):
    def test_seeded_stores(self) -> None:
        """Each store that was written is sound, and each damaged file is refused at the same byte."""
        tried = 0
        for seed in range(STORES):
            with self.subTest(seed=seed), tempfile.TemporaryDirectory() as folder:
                made = Maker(seed, folder).make()
                store = pinepolo.open(folder)
                self.assertEqual(self.said("check", "--quiet", folder), f"ok rows={len(made.rows[0])} k=1\n")
                self.assertEqual([list(map(list, store.rows(["id", "v", "w"], order="p0"))),
                                  list(map(list, store.rows(["v", "id", "w"], order="p1")))], made.rows)
                tried += self.damage(made, random.Random(seed))
        self.assertEqual(tried, DAMAGED_FILES * STORES)

    def damage(self, made: Made, draw: random.Random) -> int:
        for _ in range(DAMAGED_FILES):
            name, data = draw.choice(list(made.files.items()))
            changed = damaged(draw, data)
            made.write(name, changed)
            self.assertEqual(place(made.folder, name), self.shown(made.folder, name), (name, changed.hex()))
            made.write(name, data)
        return DAMAGED_FILES


ONE_SEGMENT = CATALOG.replace("cuts = [5]", "cuts = []").replace("sites = [1, 2]", "sites = [1]").encode()
ROWS = [[1, "a"], [2, "b"], [300, "c"]]
KINDS, CODES = ["int", "text"], [3, 4]
SEGMENT = segment_file(0, 0, ROWS, KINDS, CODES)[:-32]
# What is wrong is seen last, once the digest is right.
ORDER = "order"
# The second column begins at byte 39: 18 of the head, 6 of the first column's and 15 of its body.
SEGMENTS = [
    ("sound", SEGMENT, None),
    ("another mark", SEGMENT.replace(b"SEG001", b"SEG002"), 0),
    ("another projection, segment", SEGMENT[:9] + b"\1\0\1" + SEGMENT[12:], 8),
    ("another segment", SEGMENT[:11] + b"\1" + SEGMENT[12:], 10),
    ("cut in the number of rows", SEGMENT[:14], 12),
    ("too many rows", SEGMENT[:12] + b"\0\x10\0\1" + SEGMENT[16:], 12),
    ("another number of columns", SEGMENT[:17] + b"\3" + SEGMENT[18:], 16),
    ("another code", SEGMENT[:18] + b"\4" + SEGMENT[19:], 18),
    ("another kind", SEGMENT[:19] + b"\2" + SEGMENT[20:], 18),
    ("a body longer than the file", SEGMENT[:20] + b"\xff" + SEGMENT[21:], 18),
    ("another position", SEGMENT[:27] + b"\2" + SEGMENT[28:], 18),
    ("both columns", (SEGMENT[:27] + b"\2" + SEGMENT[28:])[:40], 18),
    ("a longer form of a difference", SEGMENT[:23] + b"\x10" + SEGMENT[24:36] + b"\x81\0" + SEGMENT[37:], 18),
    ("the head of the second column", SEGMENT[:41], 39),
    ("a text that is not UTF-8", SEGMENT[:-1] + b"\xff", 39),
    ("one row more than cells", SEGMENT[:15] + b"\4" + SEGMENT[16:], 18),
    ("bytes left over", SEGMENT + b"\0", len(SEGMENT)),
]
EMPTY = delta_file(0, 0, 3, 3, [[]], 1)[:-32]
NO_TEXT = [INSERT, 0, 4, [9, "\x80"]]


def layers(*items: Any, top: int = 9) -> bytes:
    return delta_file(0, 0, 3, top, list(items))[:-32]


DELTAS = [
    ("sound", EMPTY, None),
    ("another mark", EMPTY.replace(b"DEL001", b"DEL003"), 0),
    ("too many rows", EMPTY[:12] + b"\0\x10\0\1" + EMPTY[16:], 12),
    ("the highest key below the rows", EMPTY[:19] + b"\2" + EMPTY[20:], 16),
    ("no layer", layers(), 20),
    ("four layers", layers([], [], [], []), 20),
    ("cut in the number of items", EMPTY[:-1], 20),
    ("an item too many", EMPTY[:-1] + b"\1", 24),
    ("a layer that is missing", layers([], [])[:-4], 25),
    ("another tag", layers([[4, 0]]), 25),
    ("no such column", layers([[MODIFY, 0, 2, "x"]]), 25),
    ("bytes left over", layers([[DELETE, 0]]) + b"\0", 30),
    ("the second item is cut", layers([[DELETE, 0], [MODIFY, 1, 1, "xy"]])[:-1], 30),
    ("a text that is not UTF-8", layers([NO_TEXT]).replace(b"\xc2\x80", b"\xff\x80"), ORDER),
    ("items out of order", layers([[DELETE, 1], [DELETE, 0]]), ORDER),
    ("a delete and a modify", layers([[DELETE, 1], [MODIFY, 1, 1, "x"]]), ORDER),
    ("an insert behind a delete", layers([[DELETE, 1], [INSERT, 1, 4, [1, "x"]]]), ORDER),
    ("columns that do not ascend", layers([[MODIFY, 1, 1, "x"], [MODIFY, 1, 0, 5]]), ORDER),
    ("an insert behind the last place", layers([[INSERT, 4, 4, [1, "x"]]]), ORDER),
    ("a delete behind the last row", layers([[DELETE, 3]]), ORDER),
    ("a key of the base", layers([[INSERT, 0, 3, [1, "x"]]]), ORDER),
    ("a key above the highest", layers([[INSERT, 0, 10, [1, "x"]]]), ORDER),
    ("a key twice, in two layers", layers([[INSERT, 0, 4, [1, "x"]]], [[INSERT, 0, 4, [0, "x"]]]), ORDER),
    ("places of the layer below", layers([[DELETE, 0]], [[DELETE, 2]]), ORDER),
]


class Rule(Beside):
    """The rule for the place of what is damaged, a case each."""

    def setUp(self) -> None:
        super().setUp()
        self.room = tempfile.TemporaryDirectory()
        self.made = Made(self.room.name, KINDS, [ROWS])
        for name, data in (("catalog.toml", ONE_SEGMENT), ("p0.s0.seg", sealed(SEGMENT)), ("p0.s0.del", sealed(EMPTY))):
            self.made.write(name, data)

    def tearDown(self) -> None:
        self.room.cleanup()

    def both(self, name: str, data: bytes) -> list[int | None]:
        """What the reader and the program say of a file."""
        self.made.write(name, data)
        return [place(self.room.name, name), self.shown(self.room.name, name)]

    def look(self, name: str, cases: list[tuple[str, bytes, int | str | None]]) -> None:
        for what, front, at in cases:
            unsealed = len(front) if at in (None, ORDER) else at
            for data, expected in ((sealed(front), 0 if at == ORDER else at), (front + bytes(32), unsealed)):
                with self.subTest(what, expected=expected):
                    self.assertEqual(self.both(name, data), [expected] * 2)

    def test_segments(self) -> None:
        self.look("p0.s0.seg", SEGMENTS)

    def test_deltas(self) -> None:
        self.look("p0.s0.del", DELTAS)

    def test_short_segments(self) -> None:
        """Of fewer bytes than a digest has, all are looked at."""
        found = [self.both("p0.s0.seg", SEGMENT[:length]) for length in range(0, 36, 3)]
        self.assertEqual(found, [[at, at] for at in (0, 0, 0, 8, 12, 12, 18, 18, 18, 18, 18, 0)])

    def test_short_deltas(self) -> None:
        found = [self.both("p0.s0.del", EMPTY[:length]) for length in range(0, 36, 3)]
        self.assertEqual(found, [[at, at] for at in (0, 0, 0, 8, 12, 12, 16, 20, 0, 0, 0, 0)])


if __name__ == "__main__":
    unittest.main()
