"""Tables of many stores: table.toml, and what import makes."""
import atexit
import os
import re
import shutil
import subprocess
import sys
import tempfile
import unittest
from unittest import mock

from tables import TOP, CommandLine

from pinepolo.errors import DataError
from pinepolo.partitioned import parse_table, read_table

HEAD = "id,day,v\n"
ROWS = [f"{it},2026-01-{1 + it % 3:02},{it}.50\n" for it in range(10, 20)]
TABLE = HEAD + "".join(ROWS)


class Partitions(CommandLine):
    """A table of ten rows, four a store."""

    # Where a table lies that was made, for those who copy it.
    kept = []

    def setUp(self):
        super().setUp()
        self.csv = self.write("t.csv", TABLE)
        self.drafted, self.table = self.at / "d", self.at / "t"
        self.good("draft", self.csv, "--key", "id", "--k", 1, "--sites", 2, "--order", "day", "-o", self.drafted)

    def make(self, *words):
        return self.good("import", "--rows-per-store", 4, *words, self.drafted, self.csv, self.table)

    def have(self):
        """The table, for tests that don't ask how it is made: a copy of one that was made once."""
        if not self.kept:
            self.make()
            room = tempfile.TemporaryDirectory(prefix="pinepolo-data-")
            atexit.register(room.cleanup)
            self.kept.append(shutil.copytree(self.table, f"{room.name}/t"))
        else:
            shutil.copytree(self.kept[0], self.table)

    def sites(self, folder="disks/{number}/{{store}}"):
        """A SITES file with a folder in each of two disks."""
        for number in (1, 2):
            (self.at / f"disks/{number}").mkdir(parents=True, exist_ok=True)
        return self.write("sites.toml", "".join(f'[[site]]\nnumber = {it}\nfolder = "{folder.format(number=it)}"\n' for it in (1, 2)))

    def partitions(self):
        return [(it.store, it.start, it.last, it.rows) for it in read_table(str(self.table)).partitions]

    def edit(self, before, after):
        path = self.table / "table.toml"
        text = path.read_text()
        self.assertIn(before, text)
        path.write_text(text.replace(before, after, 1))


class TestTableFile(Partitions):
    def test_there_and_back(self):
        self.make("--sites", self.sites())
        text = (self.table / "table.toml").read_text()
        found = read_table(str(self.table))
        self.assertEqual(found.text(), text)
        self.assertEqual(found.sites, {it: str(self.at / f"disks/{it}/{{store}}") for it in (1, 2)})
        self.assertEqual((found.generation, found.rows_per_store, found.row_bytes), (1, 4, 48))
        self.refused_texts(text)

    def refused_texts(self, text):
        for fault, before, after in (
                ("version 2, and this program knows version 1", "version = 1", "version = 2"),
                ("the top: x is no key of version 1", "version = 1", "version = 1\nx = 1"),
                ("[[partition]] 0: x is no key of version 1", "rows = 4\ncatalog", "x = 1\nrows = 4\ncatalog"),
                ("[[catalog.projection]]: x is no key of version 1", "joins = []", "joins = []\nx = 1"),
                ("column id: x is no key of version 1", 'type = "int"', 'type = "int"\nx = 1'),
                ("[[partition]] 0: '../x' is no name of a store, such as 003.7", '"000.1"', '"../x"'),
                ("[[partition]] 1: from is no key of this table", "from = 14", 'from = "14"'),
                ("000.1 and 001.1 overlap: keys reach 13, and begin at 12", "from = 14", "from = 12"),
                ("a store stands twice", '"001.1"', '"000.1"'),
                ("[[partition]] 1: each but the first has from, and each with rows has last", "from = 14\n", ""),
                ("there are not the folders of sites 1 to 2", "number = 2", "number = 3"),
                ("Invalid statement (at line 1, column 1)", "version", "=version")):
            with self.subTest(fault), self.assertRaises(DataError) as caught:
                parse_table(text.replace(before, after, 1).encode(), "table.toml")
            self.assertEqual(caught.exception.message, f"table.toml: {fault}")


class TestImport(Partitions):
    def test_sorted(self):
        self.assertEqual(self.make(), f"ok rows=10 stores=3\ncompared with {self.csv}: 10 rows\nmade: 000.1, 001.1, 002.1\n")
        self.assertEqual(self.partitions(), [("000.1", None, 13, 4), ("001.1", 14, 17, 4), ("002.1", 18, 19, 2)])
        self.assertEqual(sorted(os.listdir(self.table)), ["000.1", "001.1", "002.1", "LOCK", "READERS", "table.toml"])
        self.assertEqual(self.good("export", self.table), TABLE)
        first = (self.table / "000.1/catalog.toml").read_text().splitlines()
        self.assertRegex(first[0], r"^# pinepolo-data [0-9a-f]{16} 000\.1$")
        self.refused(1, "t already exists", "import", "--rows-per-store", 4, self.drafted, self.csv, self.table)

    def test_out_of_order(self):
        """Rows go into files by their ranges first."""
        self.csv.write_text(HEAD + "".join(sorted(ROWS, key=lambda it: it[1:2] + it[::-1])[::-1]))
        told = self.make()
        self.assertRegex(told.splitlines()[0], rf"^{self.csv} is not in the order of id: its rows take about \d+ bytes of disk more in {self.table} until the end$")
        self.assertEqual(self.partitions(), [("000.1", None, 13, 4), ("001.1", 14, 17, 4), ("002.1", 18, 19, 2)])
        self.assertEqual(self.good("export", self.table), TABLE)

    def test_a_pipe(self):
        """Rows that are made as they are read, of a table of one store and of none."""
        for rows, stores in ((10, "000.1, 001.1, 002.1"), (0, "000.1")):
            done = subprocess.run([sys.executable, "-m", "pinepolo", "import", "--rows-per-store", "4", self.drafted, "/dev/stdin", self.table],
                                  input=(HEAD + "".join(ROWS[:rows])).encode(), env=os.environ | {"PYTHONPATH": str(TOP / "python")}, capture_output=True)
            self.assertEqual((done.stdout.decode(), done.stderr), (f"ok rows={rows} stores={len(stores.split())}\ncompared with /dev/stdin: {rows} rows\nmade: {stores}\n", b""))
            self.assertEqual(self.good("export", self.table), HEAD + "".join(ROWS[:rows]))
            shutil.rmtree(self.table)
        done = subprocess.run([sys.executable, "-m", "pinepolo", "import", "--rows-per-store", "4", self.drafted, "/dev/stdin", self.table],
                              input=(HEAD + "".join(ROWS[::-1])).encode(), env=os.environ | {"PYTHONPATH": str(TOP / "python")}, capture_output=True)
        self.assertEqual(done.stderr.decode().splitlines()[0], "fault: /dev/stdin: record 2: id 18 comes behind a greater key, of record 1")
        self.assertFalse(self.table.exists())

    def test_sites(self):
        """Each store has a folder of its own on each disk."""
        self.make("--sites", self.sites())
        self.assertEqual(sorted(os.listdir(self.at / "disks/1")), ["000.1", "001.1", "002.1"])
        self.assertEqual(sorted(os.listdir(self.at / "disks/1/000.1")), ["catalog.toml", "p0.s0.del", "p0.s0.seg", "types.toml"])
        # (another table would have its stores in the same folders)
        self.refused(1, "other/000.1: disks/1/000.1 is not an empty folder and cannot be made", "import", "--memory", "4G", "--sites", self.sites(), self.drafted, self.csv,
                     self.at / "other")
        self.assertEqual(self.good("export", self.table), TABLE)
        shutil.rmtree(self.at / "disks/1")
        self.assertEqual(self.good("export", "--lost", 1, self.table), TABLE)
        shutil.rmtree(self.table)
        self.refused(2, f"sites.toml: site 1: {self.at}/disks/1 does not end with a name that has {{store}}: each store has a folder of its own"
                     .replace(f"{self.at}/", ""), "import", "--rows-per-store", 4, "--sites", self.sites("disks/{number}"), self.drafted, self.csv, self.table)

    def test_rows_of_one_value(self):
        """Smaller segments stand in for large stores: the value is said, and the store."""
        with mock.patch("pinepolo.cuts.FULL", 2), mock.patch("pinepolo.cuts.AIM", 2), mock.patch("pinepolo.draft.FULL", 2):
            self.csv.write_text(HEAD + "".join(re.sub(r",2026-01-..", ",2026-01-01", it) for it in ROWS))
            self.refused(1, "t/000.1: order day: 4 rows have the value '2026-01-01', and a segment holds at most 2", "import", "--rows-per-store", 4,
                         self.drafted, self.csv, self.table)

    def test_a_draft_of_more_rows_than_a_store_holds(self):
        """Smaller segments stand in for large tables: what is drafted is one of several stores."""
        words = ["draft", self.write("more.csv", HEAD + "".join(f"{it},2026-01-{1 + it % 25:02},1.00\n" for it in range(1000))), "--key", "id", "--k", 1, "--sites", 2]
        with mock.patch.multiple("pinepolo.cuts", FULL=40, AIM=40, CANDIDATES=100, COMMON=1), mock.patch.multiple("pinepolo.draft", FULL=40, STORE_ROWS=500):
            told = self.good(*words, "--order", "day", "-o", self.at / "more").splitlines()
        self.assertEqual(told[7:11], ["these are more rows than one store holds: import them into stores by --memory; what follows is of one of 2", "",
                                      "projection, its sort columns, and the rows of each segment", f"  by_id (id): {', '.join(['40'] * 12)}, 20"])

    def test_refused(self):
        words = ["import", "--rows-per-store", 4, self.drafted]
        self.refused(1, "bad.csv: record 11: id 12 already exists (record 3)", *words, self.write("bad.csv", TABLE + ROWS[2]), self.table)
        self.refused(1, "bad.csv: record 10: v: not a decimal: 'x'", *words, self.write("bad.csv", TABLE.replace("19.50", "x")), self.table)
        self.refused(4, "none/t: No such file or directory", *words, self.csv, self.at / "none/t")
        self.table.mkdir()
        (self.table / "mine").mkdir()
        self.refused(1, "t is there, and is no table", *words, self.csv, self.table)
        os.rmdir(self.table / "mine")
        self.assertEqual(self.run_data("import", "--memory", "4Q", self.drafted, self.csv, self.table)[0], 2)
        self.good(*words, self.csv, self.table)


if __name__ == "__main__":
    unittest.main()
