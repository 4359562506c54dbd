"""From a CSV into a store and back: random tables, with what draft makes of them."""
import json
import os
import random
import sqlite3
import unittest

from tables import CommandLine, csv_text, random_table
from pinepolo.table_csv import lines

TABLES = int(os.environ.get("PINEPOLO_TABLES", "24"))


class TestRoundTrip(CommandLine):
    def test_random_tables(self):
        for seed in range(TABLES):
            with self.subTest(seed=seed):
                self.there_and_back(seed)

    def there_and_back(self, seed):
        """`load` accepts what is drafted, and the CSV comes back: its rows by key, its headers, each cell as it was."""
        chance = random.Random(seed)
        rows, kinds = random_table(seed)
        delimiter, end = chance.choice([",", ";", "\t"]), chance.choice(["\n", "\r\n"])
        bom = chance.choice(["", "\ufeff"])
        table = self.write(f"t{seed}.csv", bom + csv_text(rows, delimiter, end))
        folder, store = self.at / f"d{seed}", self.at / f"s{seed}"
        key = chance.choice([["id"], ["none"], ["id", rows[0][-1]]]) if kinds[-1] in ("date", "few", "bool") and all(row[-1] for row in rows) else ["id"]
        sortable = [name for name, kind in zip(rows[0][1:], kinds) if kind != "long"]
        orders = [["--order", it] for it in chance.sample(sortable, min(len(sortable), chance.randrange(3)))]
        k = chance.randrange(3)
        words = ["--key", ",".join(key), "--k", k, "--sites", chance.randrange(k + 1, 7), "--delimiter", delimiter, *sum(orders, [])]
        self.good("draft", table, *words, "-o", folder)
        self.good("import", folder, table, store)
        self.assertEqual(sorted(os.listdir(self.at)), sorted(it.name for it in self.at.iterdir() if ".importing" not in it.name))
        wanted = [rows[0], *sorted(rows[1:], key=lambda row: int(row[0]))] if key != ["none"] else rows
        self.assertEqual(self.good("export", store), "".join(f"{it}\n" for it in lines(list(zip(*wanted)))) if len(rows) > 1 else lines([[it] for it in rows[0]])[0] + "\n")

    def test_encodings(self):
        for encoding in ("latin-1", "utf-16"):
            with self.subTest(encoding):
                table = self.write(f"{encoding}.csv", "\u00fcber,v\n\u00e9,1\n\u00e4,2\n".encode(encoding))
                self.good("draft", table, "--key", "\u00fcber", "--k", 0, "--sites", 1, "--encoding", encoding, "-o", self.at / f"d{encoding}")
                self.good("import", self.at / f"d{encoding}", table, self.at / f"s{encoding}")
                self.assertEqual(self.good("export", self.at / f"s{encoding}"), "\u00fcber,v\n\u00e4,2\n\u00e9,1\n")


class TestExport(CommandLine):
    TABLE = "id,Price (EUR),seen,at,ok,ratio,note,blob\n" \
            "1,12.30,2024-02-29,2024-02-29 23:59:59,true,0.5,\"a \"\"b\"\", c\",x\n" \
            "2,,1999-12-31,,false,-inf,,\n" \
            "3,-0.05,,2000-01-01 00:00:00,,nan,\"two\nlines\",{}\n".format("é" * 200)

    def make(self):
        table = self.write("t.csv", self.TABLE)
        self.good("draft", table, "--key", "id", "--k", 1, "--sites", 2, "--order", "seen", "-o", self.at / "d")
        self.good("import", self.at / "d", table, self.at / "store")
        return self.at / "store"

    def test_types_that_are_drafted(self):
        self.make()
        found = [line for line in (self.at / "d/types.toml").read_text().splitlines() if line.startswith(("name", "type", "null", "header", "like"))]
        self.assertEqual(found, [
            'name = "id"', 'type = "int"', 'name = "price_eur"', 'type = "decimal(2)"', 'header = "Price (EUR)"', 'null = [""]',
            'name = "seen"', 'type = "date"', 'null = [""]', 'name = "at"', 'type = "timestamp(s)"', 'null = [""]', 'like = "2000-01-01 00:00:00"',
            'name = "ok"', 'type = "bool"', 'null = [""]', 'name = "ratio"', 'type = "float"', 'name = "note"', 'type = "text"', 'name = "blob"', 'type = "text(2)"'])

    def test_csv_also_while_a_site_is_lost(self):
        store = self.make()
        self.assertEqual(self.good("export", "--csv", store), self.TABLE)
        for name in store.glob("p0.*"):
            name.unlink()
        self.assertEqual(self.good("export", "--lost", 1, store), self.TABLE)
        status, out, faults = self.run_data("export", store)
        self.assertEqual((status, out, faults.splitlines()[-2:]), (1, "", ["fault: bad files: 2", f"next: pinepolo diagnose {store}"]))

    def test_json_lines(self):
        found = [json.loads(line) for line in self.good("export", "--json-lines", self.make()).splitlines()]
        self.assertEqual(found, [
            {"id": 1, "price_eur": 12.3, "seen": "2024-02-29", "at": "2024-02-29 23:59:59", "ok": True, "ratio": 0.5, "note": 'a "b", c', "blob": "x"},
            {"id": 2, "price_eur": None, "seen": "1999-12-31", "at": None, "ok": False, "ratio": "-inf", "note": "", "blob": ""},
            {"id": 3, "price_eur": -0.05, "seen": None, "at": "2000-01-01 00:00:00", "ok": None, "ratio": "nan", "note": "two\nlines", "blob": "é" * 200}])

    def test_sqlite(self):
        store, path = self.make(), self.at / "t.db"
        self.good("export", "--sqlite", path, store)
        with sqlite3.connect(path) as database:
            self.assertEqual(database.execute("SELECT id, price_eur, seen, ok, ratio, note FROM t_scaled").fetchall(), [
                (1, 1230, "2024-02-29", 1, 0.5, 'a "b", c'), (2, None, "1999-12-31", 0, float("-inf"), ""), (3, -5, None, None, "nan", "two\nlines")])
            self.assertEqual(database.execute("SELECT id, price_eur FROM t").fetchall(), [(1, 12.3), (2, None), (3, -0.05)])
        self.refused(1, "t.db already exists", "export", "--sqlite", path, store)

    def test_sql(self):
        store = self.make()
        self.assertEqual(self.good("sql", store, "select count(*), sum(price_eur), dec_sum(price_eur, 2) from t_scaled"), 'count(*),sum(price_eur),"dec_sum(price_eur, 2)"\n3,1225,12.25\n')
        self.assertEqual(self.good("sql", store, "select id, price_eur as price, note from t where seen < '2000' or seen is null"), 'id,price,note\n2,,\n3,-0.05,"two\nlines"\n')
        self.assertEqual(self.good("sql", store, "select id from t_scaled where price_eur = dec('12.30')"), "id\n1\n")
        self.assertEqual(self.good("sql", store, "with n(x) as (values (9223372036854775807), (9223372036854775807), (null)) select dec_sum(x), dec_sum(x, 2) from n"),
                         'dec_sum(x),"dec_sum(x, 2)"\n18446744073709551614,184467440737095516.14\n')
        for text, fault in (("select no from t", "SQL: no such column: no"), ("select dec('1e3')", "SQL: dec: '1e3' is no decimal"), ("selec", 'SQL: near "selec": syntax error'),
                            ("select dec_sum(price_eur) from t", "SQL: dec_sum: 12.3 is no int: take the columns of t_scaled; a product above 64 bits is none"),
                            ("delete from t_scaled", "SQL: attempt to write a readonly database"), ("select 1; select 2", "SQL: You can only execute one statement at a time.")):
            with self.subTest(text):
                self.refused(2, fault, "sql", store, text)


if __name__ == "__main__":
    unittest.main()
