"""Types that are undone, and sites in folders of their own."""
from __future__ import annotations

import datetime
import os
import shutil
import unittest
from decimal import Decimal
from typing import Any

from store_folder import BY_ID, BY_V, EXAMPLE, KINDS, Folder

import pinepolo
from store_files import write_store

TYPES = """version = 1
delimiter = ","
encoding = "utf-8"
left_out = []

[[column]]
name = "day"
type = "date"

[[column]]
name = "euro"
type = "decimal(2)"
null = [""]

[[column]]
name = "note"
type = "text"
null = ["NA"]
"""


class Types(Folder):
    def setUp(self) -> None:
        super().setUp()
        rows = [[19_000, 1250, ""], [19_001, -2**63, "\0"], [19_002, -5, "\0\0x"]]
        by_day = {"name": "by_day", "columns": ["day", "euro", "note"], "sort": ["day"], "cuts": [19_001], "sites": [1, 1]}
        write_store(self.folder, {"day": "int", "euro": "int", "note": "text"}, [by_day], rows)
        self.put("types.toml", TYPES.encode())
        self.store = pinepolo.open(self.folder)

    def test_types_are_undone(self) -> None:
        days = [datetime.date(2022, 1, 8), datetime.date(2022, 1, 9), datetime.date(2022, 1, 10)]
        rows = list(zip(days, [Decimal("12.50"), None, Decimal("-0.05")], [None, "", "\0x"]))
        self.assertEqual(list(self.store.rows()), rows)
        for start in (days[1], "2022-01-09"):
            self.assertEqual(list(self.store.rows(order="by_day", start=start)), rows[1:])
        self.refused("'2022-02-30' is no value of day: no day of the calendar, years 0001 to 9999", "", self.store.rows,
                     order="by_day", start="2022-02-30")

    def test_frames(self) -> None:
        try:
            import numpy  # noqa: F401
            import pandas
        except ImportError as error:
            return self.refused(f"to_pandas: {error}", "install pandas, or take rows or batches", self.store.to_pandas)
        frame = self.store.to_pandas()
        self.assertEqual([str(it) for it in frame.dtypes], ["datetime64[ns]", "object", "object"])
        days = [pandas.Timestamp(it) for it in ("2022-01-08", "2022-01-09", "2022-01-10")]
        columns = [frame[name].tolist() for name in ("day", "euro", "note")]
        self.assertEqual(columns, [days, [Decimal("12.50"), None, Decimal("-0.05")], [None, "", "\0x"]])
        self.put("types.toml", TYPES.replace("decimal(2)", "date").encode())
        moments = pinepolo.open(self.folder).to_pandas(["euro"]).euro
        self.assertEqual(moments.dt.strftime("%F").tolist()[::2], ["1973-06-04", "1969-12-27"])
        self.assertTrue(pandas.isna(moments[1]))
        self.put("types.toml", TYPES.replace("decimal(2)", "int").encode())
        self.assertEqual(str(pinepolo.open(self.folder).to_pandas(["euro"]).euro.dtype), "Int64")
        plain = pinepolo.open(EXAMPLE).to_pandas(["v"], order="a")
        self.assertEqual((str(plain.dtypes.v), plain.v.tolist()), ("int64", [30, 10, 20, 10]))
        self.assertEqual(len(self.store.to_pandas(order="by_day", start="2030-01-01")), 0)


class Sites(Folder):
    def setUp(self) -> None:
        super().setUp()
        self.rows = [[at, at % 3, "x"] for at in range(300)]
        write_store(self.folder, KINDS, [BY_ID, BY_V], self.rows)
        self.tables = [(number, f"site{number}") for number in range(1, 5)]
        for number, name in self.tables:
            os.mkdir(os.path.join(self.room.name, name))
            shutil.copy(os.path.join(self.folder, "catalog.toml"), self.path(name))
        for it in pinepolo.open(self.folder).files:
            os.rename(it.path, self.path(f"site{it.site}/{it.name}"))

    def path(self, name: str) -> str:
        return os.path.join(self.room.name, name)

    def sites(self, tables: Any = None) -> str:
        tables = self.tables if tables is None else tables
        lines = [f'[[site]]\nnumber = {number}\nfolder = "{name}"\n' for number, name in tables]
        with open(self.path("sites.toml"), "w", encoding="utf-8") as file:
            file.writelines(lines)
        return self.path("sites.toml")

    def open(self, tables: Any = None) -> list[Any]:
        return list(pinepolo.open(self.folder, sites=self.sites(tables)).rows(order="by_id"))

    def test_sites(self) -> None:
        self.assertEqual(self.open(), list(map(tuple, self.rows)))
        os.remove(self.path("site2/catalog.toml"))
        self.assertEqual(self.open(), list(map(tuple, self.rows)))
        os.remove(self.path("store/catalog.toml"))
        self.assertEqual(self.open(), list(map(tuple, self.rows)))
        shutil.rmtree(self.path("site4"))
        self.refused("id, v, w: each projection that has them has lost a file",
                     "pinepolo dump --lost 2,4 --sites sites.toml store", self.open)

    def test_refused(self) -> None:
        mend = "mend it by docs/formats.md"
        self.refused("sites.toml: no [[site]] tables", mend, self.open, [])
        self.refused("sites.toml: [[site]] 0: number is missing or not an integer between 1 and 16", mend,
                     self.open, [(0, "a")])
        self.refused("sites.toml: site 1 specified more than once", mend, self.open, [(1, "a"), (1, "b")])
        self.refused("sites.toml: site 4 is missing", "", self.open, self.tables[:3])
        self.refused("sites.toml: the catalog has no site 5", "", self.open, [*self.tables, (5, "e")])
        self.refused("sites.toml: sites 1 and 4 have one folder", "", self.open, [*self.tables[:3], (4, "site1/../site1")])
        with open(self.path("site3/catalog.toml"), "a", encoding="utf-8") as file:
            file.write("\n")
        self.refused("two copies of catalog.toml differ: store/catalog.toml and site3/catalog.toml",
                     "put the right one in the place of the other", self.open)


if __name__ == "__main__":
    unittest.main()
