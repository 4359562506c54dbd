"""Bad input: a clear fault, pinepolo's status, and nothing left behind."""
import os
import unittest
from unittest import mock

from tables import CommandLine

GOOD = "id,v\n1,a\n2,b\n"
KEY = ["--key", "id", "--k", 0, "--sites", 1]


class TestDraft(CommandLine):
    def bad(self, fault, data, *words, status=1):
        table = self.write("t.csv", data)
        with self.subTest(fault):
            self.refused(status, fault, "draft", table, *(words or KEY), "-o", self.at / "d")

    def test_csv(self):
        self.bad("t.csv is empty: it has no header", "")
        self.bad("t.csv is empty: it has no header", "\n\n")
        self.bad("t.csv: record 0: 'id' stands twice", "id,id\n1,2\n")
        self.bad("t.csv: record 2: 1 cells, but the header has 2", "id,v\n1,a\n2\n")
        self.bad("t.csv: record 2: 3 cells, but the header has 2", "id,v\n\n1,a\n\n2,b,c\n")
        self.bad("t.csv: record 2: a quote is not closed", 'id,v\n1,a\n2,"b\n3,c\n')
        self.bad("t.csv: record 2: a cell of more than 131072 characters, or a quote that is not closed", 'id,v\n1,a\n2,"b\n' + "3,cc\n" * 30000)
        self.bad("t.csv: record 2: text behind a closing quote", 'id,v\n1,a\n2,"b"c\n')
        self.bad("t.csv: not utf-8, from byte 14 on", b"id,v\n1,a\n2,b\xc3\xa9\xff\n")
        self.bad("t.csv: not utf-8, from byte 8 on", b"\xef\xbb\xbfid,v\n\xc3\n")
        self.bad("t.csv: not utf-8, from byte 100009 on", b"id,v\n1,a\n" + b"#" * 100000 + b"\xe2\x82")
        self.bad("t.csv: not utf-16, from byte 6 on", b"\xff\xfei\x00d\x00\x00\xdc\n\x00", *KEY, "--encoding", "utf-16")
        self.bad("t.csv: 300 columns, and a store has at most 32", ",".join(f"c{it}" for it in range(300)) + "\n", "--key", "c0", *KEY[2:])
        self.bad("t.csv: record 0 has no column 'id'", "key,v\n1,2\n")

    def test_keys(self):
        self.bad("t.csv: record 3: id 1 already exists (record 1)", "id,v\n1,a\n2,b\n1,c\n")
        self.bad("t.csv: record 3: id 1, day 2024-02-29 already exists (record 1)", "id,day\n1,2024-02-29\n2,2024-02-29\n1,2024-02-29\n",
                 "--key", "id,day", *KEY[2:])
        self.bad(f"t.csv: record 2: key: 256 bytes, and a text has at most 255: '{'x' * 40}' ..", f"id,v\n,a\n{'x' * 250},{'y' * 4}\n", "--key", "id,v", *KEY[2:])
        self.bad("t.csv: record 2: id has NULL, and a key has none", "id,v\n1,a\n,b\n")
        self.bad("t.csv: record 1: id has more than 255 bytes, so the column can't be a key", f"id,v\n{'x' * 256},a\n")
        self.bad("t.csv: record 2: v has more than 255 bytes, so the column can't be sorted by", f"id,v\n1,a\n2,{'x' * 256}\n", *KEY, "--order", "v")
        self.bad("t.csv: record 2: v has 2017 bytes, and a text has at most 2016", f"id,v\n1,a\n2,{'x' * 2017}\n")

    def test_a_value_with_too_many_rows(self):
        """Smaller segments stand in for large tables."""
        rows = "".join(f"{it},2024-02-{1 + it // 5:02}\n" for it in range(12))
        with mock.patch("pinepolo.cuts.FULL", 4), mock.patch("pinepolo.cuts.AIM", 4), mock.patch("pinepolo.draft.FULL", 4), mock.patch("pinepolo.cuts.COMMON", 3):
            self.bad("order day: 5 rows have the value '2024-02-01', and a segment holds at most 4", "id,day\n" + rows, *KEY, "--order", "day")

    def test_words(self):
        self.bad("k=2 takes 3 sites, and there are 2", GOOD, "--key", "id", "--k", 2, "--sites", 2)
        self.bad("k=0 takes 1 sites, and there are 17", GOOD, "--key", "id", "--k", 0, "--sites", 17)
        self.bad("9 copies, and a store has at most 8", GOOD, "--key", "id", "--k", 8, "--sites", 9)
        self.bad("--order id,v,id,v,id has more than 4 columns", GOOD, *KEY, "--order", "id,v,id,v,id")
        self.bad("'utf-9' is no encoding of text", GOOD, *KEY, "--encoding", "utf-9", status=2)
        self.bad("'base64' is no encoding of text", GOOD, *KEY, "--encoding", "base64", status=2)
        self.assertEqual(self.run_data("draft", "t.csv")[0], 2)
        (self.at / "d").mkdir()
        self.bad("d already exists", GOOD)

    def test_devices(self):
        self.refused(4, "could not read none.csv: No such file or directory", "draft", self.at / "none.csv", *KEY, "-o", self.at / "d")
        self.refused(4, f"{self.at} is no regular file", "draft", self.at, *KEY, "-o", self.at / "d")
        table = self.write("t.csv", GOOD)
        self.refused(4, "none/d.partial: No such file or directory", "draft", table, *KEY, "-o", self.at / "none/d")
        os.environ["PINEPOLO"] = str(self.at / "none")
        self.refused(4, "there is no program pinepolo", "draft", table, *KEY, "-o", self.at / "d")

    def test_names_and_forms_that_are_fine(self):
        table = self.write("t.csv", "\ufeff2nd Key,Übung,_,2ND KEY\r\n01,+5,1.10,true\r\n2,1,2.5,f\r\n\r\n")
        told = self.good("draft", table, "--key", "2nd Key", "--k", 1, "--sites", 3, "-o", self.at / "d")
        self.assertEqual([" ".join(line.split()) for line in told.splitlines()[2:7]], [
            "column type NULL", "c_2nd_key text header '2nd Key'; in several forms: types.toml could say int",
            "bung text header 'Übung'; in several forms: types.toml could say int", "c text header '_'; in several forms: types.toml could say decimal(2)",
            "c_2nd_key_2 text header '2ND KEY'; in several forms: types.toml could say bool"])
        self.good("import", self.at / "d", table, self.at / "s")
        self.assertEqual(self.good("export", self.at / "s"), "2nd Key,Übung,_,2ND KEY\n01,+5,1.10,true\n2,1,2.5,f\n")

    def test_types_that_types_toml_says(self):
        """Cells in any form of a type are taken, and given back in the canonical one."""
        table = self.write("t.csv", "id,v,w\n1,1,x\n2,0.5,\n3,NA,y\n")
        self.good("draft", table, *KEY, "--columns", "id,v", "-o", self.at / "d")
        types = self.at / "types.toml"
        text = (self.at / "d/types.toml").read_text()
        types.write_text(text.replace('name = "v"\ntype = "text"', 'name = "v"\ntype = "decimal(1)"\nnull = ["NA"]'))
        again = ["draft", table, *KEY, "--order", "v", "--types", types, "-o", self.at / "d2"]
        self.good(*again)
        self.good("import", self.at / "d2", table, self.at / "s")
        self.assertEqual(self.good("export", self.at / "s"), "id,v\n1,1.0\n2,0.5\n3,NA\n")
        self.refused(2, "--types says the columns, the delimiter and the encoding", *again[:-1], self.at / "d3", "--encoding", "utf-8")
        types.write_text(types.read_text().replace("NA", "none"))
        self.refused(1, "t.csv: record 3: v: not a decimal: 'NA'", *again[:-1], self.at / "d3")


if __name__ == "__main__":
    unittest.main()
