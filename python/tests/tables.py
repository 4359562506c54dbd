"""What the tests of the command line share: runs of it, the program, and random tables."""
import contextlib
import csv
import io
import os
import random
import shutil
import sys
import tempfile
import unittest
from pathlib import Path

TOP = Path(__file__).resolve().parent.parent.parent
sys.path.insert(0, str(TOP / "python"))

from pinepolo.cli import main


def program():
    """The program pinepolo: that of PINEPOLO, of PATH, or the one that was built here."""
    return shutil.which(os.environ.get("PINEPOLO") or "pinepolo") or shutil.which(str(TOP / "crates/pinepolo/out/pinepolo"))


class CommandLine(unittest.TestCase):
    """A folder of its own for each test, and a pinepolo."""

    def setUp(self):
        found = program()
        if not found:
            self.skipTest("there is no program pinepolo on PATH, in PINEPOLO or in crates/pinepolo/out")
        self.before, os.environ["PINEPOLO"] = os.environ.get("PINEPOLO"), found
        self.room = tempfile.TemporaryDirectory(prefix="pinepolo-data-")
        self.at = Path(self.room.name)

    def tearDown(self):
        self.room.cleanup()
        if self.before is None:
            del os.environ["PINEPOLO"]
        else:
            os.environ["PINEPOLO"] = self.before

    def run_data(self, *words):
        """Status, standard output and standard error of a command."""
        out, faults = io.StringIO(), io.StringIO()
        with contextlib.redirect_stdout(out), contextlib.redirect_stderr(faults):
            try:
                status = main([str(it) for it in words])
            except SystemExit as ended:
                status = int(ended.code or 0)
        return status, out.getvalue(), faults.getvalue()

    def good(self, *words):
        """Standard output of a command that has to end well."""
        status, out, faults = self.run_data(*words)
        self.assertEqual((status, faults), (0, ""), words)
        return out

    def refused(self, status, fault, *words):
        """A command that has to end with this status and this first line of a fault, which has an advice. Nothing is written."""
        before = sorted(self.at.rglob("*"))
        found, out, faults = self.run_data(*words)
        lines = [it.replace(f"{self.at}/", "") for it in faults.splitlines()]
        self.assertEqual((found, lines[-2], lines[-1][:6]), (status, f"fault: {fault}", "next: "), faults)
        self.assertEqual(sorted(self.at.rglob("*")), before)

    def write(self, name, data):
        path = self.at / name
        path.write_bytes(data if isinstance(data, bytes) else data.encode())
        return path


def csv_text(rows, delimiter=",", end="\n"):
    """CSV by Python's own writer."""
    out = io.StringIO()
    quoting = csv.QUOTE_ALL if len(rows[0]) == 1 or any("\r" in it for row in rows for it in row) else csv.QUOTE_MINIMAL
    csv.writer(out, delimiter=delimiter, lineterminator=end, quoting=quoting).writerows(rows)
    return out.getvalue()


CELLS = {
    "int": lambda it: str(it.choice([it.randrange(-5, 5), it.randrange(-2**63 + 1, 2**63)])),
    "decimal": lambda it: f"{it.choice('-  ').strip()}{it.randrange(1, 10**it.randrange(1, 12))}.{it.randrange(100):02}",
    "date": lambda it: f"{it.randrange(1, 10000):04}-{it.randrange(1, 13):02}-{it.randrange(1, 29):02}",
    "second": lambda it: f"{it.randrange(1, 10000):04}-01-{it.randrange(1, 29):02} {it.randrange(24):02}:{it.randrange(60):02}:00",
    "micro": lambda it: f"2024-01-{it.randrange(1, 29):02}T00:00:00.{it.randrange(10**6):06}Z",
    "bool": lambda it: it.choice(["true", "false"]),
    "float": lambda it: repr(it.choice([it.random(), -it.random() * 1e300, 0.0, -0.0, float("inf"), float("nan")])),
    "few": lambda it: it.choice(["red", "green", "é,\"\n", ""]),
    "text": lambda it: "".join(it.choice("ab,\"\n\r é\0\U0001f600;\t") for _ in range(it.randrange(6))),
    "mixed": lambda it: it.choice(["1", "01", "+1", "1.5", "x", ""]),
    "long": lambda it: it.choice("aé") * it.randrange(0, 700),
}


def random_table(seed):
    """Rows with a header, the first column a key, and the names of the kinds of the others."""
    chance = random.Random(seed)
    kinds = [chance.choice(list(CELLS)) for _ in range(chance.randrange(1, 7))]
    rows = chance.choice([0, 1, 2, 40])
    header = ["id", *(f"{chance.choice(['Column', 'c é', 'order', 'x'])} {at}" for at in range(len(kinds)))]
    keys = chance.sample(range(-100, 100), rows)
    empty = [chance.random() < 0.3 and it not in ("text", "long") for it in kinds]
    body = [[str(key), *("" if hole and chance.random() < 0.3 else CELLS[kind](chance) for kind, hole in zip(kinds, empty))] for key in keys]
    return [header, *body], kinds
