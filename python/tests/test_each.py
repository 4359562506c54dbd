"""What is read of a table of many stores, and verbs for each of them."""
import json
import os
import shutil
import sqlite3
import unittest

from test_partitions import TABLE, Partitions


class TestReading(Partitions):
    def test_all_forms(self):
        """The same as of one store."""
        self.have()
        self.good("import", self.drafted, self.csv, self.at / "one")
        for words in (["--csv"], ["--json-lines"], ["--memory", "1M"]):
            self.assertEqual(self.good("export", *words, self.table), self.good("export", *words, self.at / "one"))
        query = "select day, count(*), dec_sum(v, 2) from t_scaled where id > 10 group by day"
        self.assertEqual(self.good("sql", self.table, query), "day,count(*),\"dec_sum(v, 2)\"\n2026-01-01,3,46.50\n2026-01-02,3,40.50\n2026-01-03,3,43.50\n"
                         .replace("46.50", self.sum(1)).replace("40.50", self.sum(2)).replace("43.50", self.sum(3)))
        self.good("export", "--sqlite", self.at / "t.db", self.table)
        self.assertEqual(sqlite3.connect(self.at / "t.db").execute("select count(*), min(id), max(id) from t").fetchall(), [(10, 10, 19)])
        self.refused(2, "t is a table of many stores, and knows the folders of its sites", "export", "--sites", self.csv, self.table)

    def sum(self, day):
        return f"{sum(it for it in range(11, 20) if 1 + it % 3 == day) + 1.5:.2f}"

    def test_check(self):
        self.have()
        self.assertEqual(self.good("check", self.table), "000.1: ok rows=4 k=1\n001.1: ok rows=4 k=1\n002.1: ok rows=2 k=1\nok rows=10 stores=3\n")
        for before, after, fault in (("last = 17", "last = 16", "001.1: 4 rows with keys from 14 to 17"), ("rows = 2", "rows = 3", "002.1: 2 rows with keys from 18 to 19"),
                                     ("from = 14", "from = 15", "001.1: 4 rows with keys from 14 to 17")):
            self.edit(before, after)
            status, _, faults = self.run_data("check", self.table)
            self.assertEqual((status, faults.splitlines()[0]), (1, f"fault: {self.table}/{fault} are not those that table.toml names"))
            self.edit(after, before)
        os.remove(self.table / "001.1/p0.s0.seg")
        status, told, faults = self.run_data("check", self.table)
        self.assertEqual((status, told, faults), (1, "000.1: ok rows=4 k=1\n", "site 1  missing  p0.s0.seg\n"
                                                  f"fault: {self.table}/001.1: bad files: 1\nnext: pinepolo restore {self.table}/001.1 1\n"))

    def test_each(self):
        self.have()
        lines = [it.split("\t") for it in self.good("each", self.table, "--", "check", "--json").splitlines()]
        self.assertEqual([(store, json.loads(answer)["rows"]) for store, answer in lines], [("000.1", 4), ("001.1", 4), ("002.1", 2)])
        self.good("each", self.table, "--", "recover", "{}", self.at / "out-{store}", 1)
        self.assertEqual(sorted(it.name for it in self.at.glob("out-*")), ["out-000.1", "out-001.1", "out-002.1"])
        self.assertEqual(self.good("each", "--store", "002.1", self.table, "--", "check"), "002.1\tok rows=2 k=1\n")
        self.refused(1, "t has no store 002.7", "each", "--store", "002.7", self.table, "--", "check")
        os.remove(self.table / "001.1/p0.s0.seg")
        status, told, faults = self.run_data("each", self.table, "--", "check", "--quiet")
        self.assertEqual((status, faults.splitlines()[0]), (1, "fault: pinepolo check: 1 of 3 stores ended with another status than 0"))
        self.assertEqual(told.splitlines()[1:3], ["001.1\tsite 1  missing  p0.s0.seg", "001.1\tpinepolo: fault: bad files: 1"])

    def test_a_lost_disk(self):
        """One disk is lost for all stores, and restored on another one."""
        self.make("--sites", self.sites())
        shutil.rmtree(self.at / "disks/1")
        self.assertEqual(self.good("sql", "--lost", 1, self.table, "select count(*) from t"), "count(*)\n10\n")
        for store, *_ in self.partitions():
            (self.at / "disks/3" / store).mkdir(parents=True)
        self.good("each", self.table, "--", "restore", "--quiet", "--to", f"1={self.at}/disks/3/{{store}}", "{}", 1)
        self.edit("disks/1/", "disks/3/")
        self.assertEqual(self.good("export", self.table), TABLE)
        self.good("append", "--replace", self.table, self.csv)
        self.assertEqual(sorted(os.listdir(self.at / "disks/3")), sorted(it[0] for it in self.partitions()))
        self.good("check", self.table)


if __name__ == "__main__":
    unittest.main()
