"""Append: the table is the old one or the new one; what is refused, and what stays as long as it is read."""
import csv
import fcntl
import io
import os
import re
import shutil
import subprocess
import unittest

from tables import csv_text
from test_partitions import HEAD, ROWS, TABLE, Partitions


class TestAppend(Partitions):
    def append(self, *rows):
        """An append of rows that is to end well."""
        return self.good("append", "--replace", self.table, self.write("new.csv", HEAD + "".join(rows)))

    def rows(self, *rows):
        return HEAD + "".join(sorted(rows, key=lambda it: int(it.split(",")[0])))

    def test_all_over_the_table(self):
        """Partitions without new rows stay; one that would pass its rows is cut in two; the last one is followed by a new one."""
        self.have()
        other = "15,2026-03-01,1.00\n"
        told = self.append("21,2026-02-02,1.00\n", other, "5,2026-02-01,1.00\n", "20,2026-02-02,1.00\n")
        self.assertEqual(told, f"ok rows=13 stores=6\ncompared with {self.at}/new.csv: 4 rows, 1 of which replaced others\nmade: 000.2, 003.2, 001.2, 004.2, 005.2\n")
        self.assertEqual(self.partitions(), [("000.2", None, 11, 3), ("003.2", 12, 13, 2), ("001.2", 14, 16, 3), ("004.2", 17, 17, 1), ("002.1", 18, 19, 2),
                                             ("005.2", 20, 21, 2)])
        self.assertEqual(self.good("export", self.table), self.rows("5,2026-02-01,1.00\n", *ROWS[:5], other, *ROWS[6:], "20,2026-02-02,1.00\n", "21,2026-02-02,1.00\n"))
        self.assertEqual(sorted(os.listdir(self.table)), ["000.2", "001.2", "002.1", "003.2", "004.2", "005.2", "LOCK", "READERS", "table.toml"])

    def test_numbered_rows(self):
        """Numbers that a drafted key gives go on."""
        folder, table = self.at / "d2", self.at / "numbered"
        self.good("draft", self.csv, "--key", "none", "--k", 0, "--sites", 1, "-o", folder)
        self.good("import", "--rows-per-store", 6, folder, self.csv, table)
        self.good("append", table, self.csv)
        self.assertEqual(self.good("export", table), TABLE + "".join(ROWS))

    def test_keys_of_any_text(self):
        """Texts with commas, quotes, line breaks and U+0000 are bounds of ranges too, and rows that others replace."""
        keys = ["", "\0", "a", "a,b", 'a"', "a\nb", "a\r", "b", "\u00e9", "\U0001f600", "\u00e9\n", "z" * 250]
        rows = [[key, str(at % 5), key[::-1]] for at, key in enumerate(keys)]
        folder, table = self.at / "d2", self.at / "texts"
        for at, key in enumerate(("k", "v,w")):
            self.good("draft", self.write("all.csv", csv_text([["k", "v", "w"], *rows])), "--key", key, "--k", 1, "--sites", 2, "--order", "w", "-o", folder)
            self.good("import", "--rows-per-store", 3, folder, self.write("some.csv", csv_text([["k", "v", "w"], *rows[::-2]])), table)
            changed = [[rows[3][0], rows[3][1], rows[3][2]]] if at else [[rows[3][0], "9", "\n"]]
            self.good("append", "--replace", table, self.write("more.csv", csv_text([["k", "v", "w"], *rows[::2], *changed])))
            wanted = {tuple(it) for it in [*rows[:3], *changed, *rows[4:]]}
            self.assertEqual({tuple(it) for it in list(csv.reader(io.StringIO(self.good("export", table), newline="")))[1:]}, wanted)
            self.good("check", table)
            shutil.rmtree(folder)
            shutil.rmtree(table)

    def test_refused(self):
        self.have()
        words = ["append", self.table]
        bad = self.write("bad.csv", HEAD + "30,2026-02-01,1.00\n15,2026-02-01,1.00\n")
        self.refused(1, "bad.csv: record 2: id 15 is in the table already", *words, bad)
        bad.write_text(HEAD + "30,2026-02-01,1.00\n30,2026-02-02,1.00\n")
        self.refused(1, "bad.csv: record 2: id 30 already exists (record 1)", *words, bad)
        bad.write_text(HEAD + "9,2026-02-01,1.001\n")
        self.refused(1, "bad.csv: record 1: v: more than 2 digits behind the point: '1.001'", *words, bad)
        self.refused(1, "d is no table: it has no table.toml", "append", self.drafted, bad)
        with open(self.table / "LOCK", "w") as lock:
            fcntl.flock(lock, fcntl.LOCK_EX)
            self.refused(1, "an import or an append to t is at work", *words, bad)
        self.edit("version = 1", "version = 2")
        self.refused(1, "t/table.toml: version 2, and this program knows version 1", *words, bad)

    def test_foreign_stores(self):
        """A store that is gone, an older one, and one of another table: said with the folder, before anything is read of it."""
        self.have()
        other, new = self.at / "other", self.write("new.csv", HEAD + "9,2026-02-01,1.00\n")
        self.good("import", "--rows-per-store", 4, self.drafted, self.csv, other)
        shutil.copytree(self.table / "000.1", self.at / "kept")
        verbs = (["append", self.table, new], ["export", self.table], ["sql", self.table, "select 1 from t"], ["check", self.table])
        (self.table / "000.1").rename(self.at / "away")
        for words in verbs:
            self.refused(1, "t/000.1 is missing, and table.toml names it", *words)
        (other / "000.1").rename(self.table / "000.1")
        for words in verbs:
            self.refused(1, "t/000.1: its catalog.toml is not the one that table.toml names: it is a store of another table or generation", *words)
        shutil.rmtree(self.table / "000.1")
        (self.at / "away").rename(self.table / "000.1")
        self.good("append", self.table, new)
        store = self.partitions()[0][0]
        shutil.rmtree(self.table / store)
        (self.at / "kept").rename(self.table / store)
        self.refused(1, f"t/{store}: its catalog.toml is not the one that table.toml names: it is a store of another table or generation", "export", self.table)

    def test_an_older_table_file(self):
        """The stores that it does not name are not removed."""
        self.have()
        older = (self.table / "table.toml").read_text()
        self.append("9,2026-02-01,1.00\n")
        newer = (self.table / "table.toml").read_text()
        (self.table / "table.toml").write_text(older)
        status, _, faults = self.run_data("append", self.table, self.csv)
        self.assertEqual((status, re.sub("00[03].2", "STORE", faults.splitlines()[0])), (1, f"fault: {self.table}/table.toml is an older copy: STORE is of a later run"))
        self.refused(1, "t/000.1 is missing, and table.toml names it", "export", self.table)
        (self.table / "table.toml").write_text(newer)
        self.assertEqual(self.good("export", self.table), self.rows("9,2026-02-01,1.00\n", *ROWS))

    def test_while_it_is_read(self):
        """Old stores stay as long as somebody reads what named them, and go with the next run."""
        self.make("--sites", self.sites())
        with open(self.table / "READERS") as readers:
            fcntl.flock(readers, fcntl.LOCK_SH)
            told = self.append("9,2026-02-01,1.00\n").splitlines()[-1]
            self.assertEqual(told, "old stores that are still read, or can't be removed, go with the next run: 000.1")
            self.assertTrue((self.at / "disks/1/000.1/catalog.toml").exists())
        self.append("40,2026-02-01,1.00\n")
        self.assertEqual(sorted(os.listdir(self.at / "disks/1")), ["000.2", "001.1", "002.1", "003.2", "004.3"])
        self.assertEqual(sorted(os.listdir(self.table)), sorted([*os.listdir(self.at / "disks/1"), "LOCK", "READERS", "table.toml"]))

    def test_begun_stores(self):
        """What a killed `load` left that had just begun goes with the next run."""
        self.have()
        for name in ("001.2.partial", "001.2.partial.1", "007.9.partial.12"):
            (self.table / name).mkdir()
        (self.table / "001.2.partial.mine").mkdir()
        self.append("15,2026-03-01,1.00\n")
        self.assertEqual(sorted(os.listdir(self.table)), ["000.1", "001.2", "001.2.partial.mine", "002.1", "003.2", "LOCK", "READERS", "table.toml"])

    def test_strangers_in_the_folders_of_sites(self):
        """Old stores go from the disks with what a restore left of them, and what is somebody else's stays."""
        self.make("--sites", self.sites())
        disks = [self.at / f"disks/{it}/000.1" for it in (1, 2)]
        for name in ("notes.txt", "mine/p0.s0.seg", "replaced/mine", "replaced/1/p0.s0.seg", "replaced/1/notes.txt", "replaced/2/p0.s0.del", "p0.s0.seg.restoring"):
            (disks[0] / name).parent.mkdir(exist_ok=True)
            (disks[0] / name).write_text("")
        (disks[0] / "replaced/3/p0.s0.del").mkdir(parents=True)
        self.append("9,2026-02-01,1.00\n")
        self.assertEqual([it.exists() for it in disks], [True, False])
        self.assertEqual(sorted(str(it.relative_to(disks[0])) for it in disks[0].rglob("*")),
                         ["mine", "mine/p0.s0.seg", "notes.txt", "replaced", "replaced/1", "replaced/1/notes.txt", "replaced/3", "replaced/3/p0.s0.del", "replaced/mine"])
        self.append("8,2026-02-01,1.00\n")
        self.assertEqual(self.good("export", self.table), self.rows("9,2026-02-01,1.00\n", "8,2026-02-01,1.00\n", *ROWS))
        self.assertTrue((disks[0] / "notes.txt").exists())

    def test_a_full_disk(self):
        """The table stays, and what was made goes. It can be appended to once there is room."""
        self.table.mkdir()
        if subprocess.run(["mount", "-t", "tmpfs", "-o", "size=1m", "none", self.table], stderr=subprocess.DEVNULL, check=False).returncode:
            self.skipTest("no tmpfs can be mounted here")
        try:
            self.make()
            new = self.write("new.csv", HEAD + "".join(f"{it},2026-02-01,1.00\n" for it in range(20, 60)))
            for free in (4096, 16_384, 65_536):
                room = os.statvfs(self.table)
                with open(self.table / "LOCK", "wb") as file:
                    file.write(bytes(room.f_bavail * room.f_frsize - free))
                status, out, faults = self.run_data("append", self.table, new)
                self.assertEqual((status, out, str(self.table) in faults), (4, "", True), faults)
                self.assertEqual(sorted(os.listdir(self.table)), ["000.1", "001.1", "002.1", "LOCK", "READERS", "table.toml"])
                self.assertEqual(self.good("export", self.table), TABLE)
                (self.table / "LOCK").write_bytes(b"")
            self.good("append", self.table, self.write("new.csv", HEAD + "20,2026-02-01,1.00\n"))
        finally:
            subprocess.run(["umount", self.table], check=True)


if __name__ == "__main__":
    unittest.main()
