"""Types: their ends, random round trips, order, NULL, and what is refused."""
import random
import struct
import sys
import unittest
from datetime import date, datetime
from decimal import Decimal
from pathlib import Path

sys.path.insert(0, str(Path(__file__).resolve().parent.parent))

from pinepolo.columns import Column
from pinepolo.errors import BadCell, DataError
from pinepolo.kinds import LEAST
from pinepolo.types import Key, Types, make_type, parse_types

ENDS = {
    "int": ["-9223372036854775808", "-1", "0", "9223372036854775807"],
    "decimal(0)": ["-999999999999999999", "0", "999999999999999999"],
    "decimal(2)": ["-9999999999999999.99", "-0.01", "0.00", "0.01", "9999999999999999.99"],
    "decimal(18)": ["-0.999999999999999999", "0.000000000000000000", "0.999999999999999999"],
    "date": ["0001-01-01", "1969-12-31", "1970-01-01", "2024-02-29", "9999-12-31"],
    "timestamp(s)": ["0001-01-01T00:00:00Z", "1969-12-31T23:59:59Z", "9999-12-31T23:59:59Z"],
    "timestamp(ms)": ["0001-01-01T00:00:00.000Z", "1969-12-31T23:59:59.999Z", "9999-12-31T23:59:59.999Z"],
    "timestamp(us)": ["0001-01-01T00:00:00.000000Z", "9999-12-31T23:59:59.999999Z"],
    "timestamp(ns)": ["1677-09-21T00:12:43.145224193Z", "2262-04-11T23:47:16.854775807Z"],
    "bool": ["false", "true"],
    "float": ["-inf", "-1.7976931348623157e+308", "-1.0", "-5e-324", "-0.0", "0.0", "5e-324", "1e+16", "inf", "nan"],
    "text": ["", "\0", "a", "a,\"\r\n", "z" * 255, "é" * 127, "\U0010ffff"],
    "text(2)": ["", "\0", "x" * 504, "\U0010ffff" * 126],
    "text(8)": ["", "x" * 2016, "é" * 1008, "\U0010ffff" * 504],
}
REFUSED = {
    "int": ["", "-", "1_000", " 1", "1 ", "１", "1.0", "1e3", "9223372036854775808", "-9223372036854775809", "9" * 5000],
    "decimal(2)": ["", ".", "1.001", "1e3", "1,00", "١.00", "10000000000000000.00", "inf"],
    "decimal(0)": ["0.5", "1000000000000000000"],
    "date": ["", "2024-02-30", "0000-01-01", "10000-01-01", "2024-1-01", "20240101", "2024-W01-1", "2024-01-01T00:00:00Z", "２024-01-01"],
    "timestamp(s)": ["2024-01-01", "2024-01-01T24:00:00Z", "2016-12-31T23:59:60Z", "2024-W01-1T00:00:00Z", "2024-01-01T00:00:00.0Z",
                     "2024-01-01T00:00Z", "2024-01-01T00:00:00+02:00", "2024-01-01T00:00:00z", "2024-01-01T0０:00:00Z"],
    "timestamp(us)": ["2024-01-01T00:00:00.1234567Z"],
    "timestamp(ns)": ["1677-09-21T00:12:43.145224192Z", "2262-04-11T23:47:16.854775808Z", "2024-01-01T00:00:00.1234567891Z"],
    "bool": ["", "2", "Yes", "truth"],
    "float": ["", "1_000", " 1", "0x10", "1e999", "-1e999", "１"],
    "text": ["z" * 256, "é" * 128],
    "text(2)": ["x" * 511],
}
LOOSE = {
    "int": {"01234": "1234", "+5": "5", "-0": "0", "-007": "-7"},
    "decimal(2)": {"1": "1.00", "2.5": "2.50", "-0.00": "0.00", "+.5": "0.50", "007.": "7.00", "1.1000": "1.10"},
    "timestamp(us)": {"2024-01-01 00:00:00": "2024-01-01T00:00:00.000000Z", "2024-01-01T00:00:00.5": "2024-01-01T00:00:00.500000Z"},
    "bool": {"True": "true", "f": "false", "1": "true", "no": "false"},
    "float": {"1": "1.0", "1e5": "100000.0", "1E5": "100000.0", ".5": "0.5", "1.10": "1.1", "NaN": "nan", "-nan": "nan", "Infinity": "inf",
              "0.1000000000000000055": "0.1"},
}


def random_cells(name: str, chance: random.Random, count: int) -> list[str]:
    """Canonical cells, by way of their stored values."""
    kind = make_type(name)
    if kind.kind == "text":
        letters = "\0a,\"\n\r\x7fé\uffff\U00010000"
        return ["".join(chance.choice(letters) for _ in range(chance.randrange(8))) for _ in range(count)]
    if name == "float":
        bits = [struct.unpack(">d", chance.randbytes(8))[0] for _ in range(count)]
        return [repr(it) if it == it else "nan" for it in bits]
    first, last = (kind.map([it])[0] for it in (ENDS[name][0], ENDS[name][-1]))
    return kind.unmap([chance.choice([chance.randint(first, last), chance.randint(max(first, -99), min(last, 99))]) for _ in range(count)])


def value_of(name: str, cell: str):
    """What orders cells, found without the types."""
    if name.startswith(("int", "decimal")):
        return Decimal(cell)
    if name == "float":
        return (cell == "nan", 0.0 if cell == "nan" else float(cell), not cell.startswith("-"))
    return cell.encode()


class TestTypes(unittest.TestCase):
    def test_ends_and_random_cells_come_back_in_order(self):
        chance = random.Random(7)
        for name, ends in ENDS.items():
            for null in ((), ("",), ("NA", "")):
                with self.subTest(name, null=null):
                    own = [it for it in ends if it not in null and not (null and it == ENDS["int"][0])]
                    own = [it for it in own if not null or len(it.encode()) < 255 or "(" in name]
                    cells = own + [it for it in random_cells(name, chance, 2000) if it not in null]
                    column = Column("c", make_type(name), null=null)
                    lists, canonical = column.take(cells)
                    self.assertEqual(canonical, cells)
                    self.assertEqual(column.unmap(lists), cells)
                    if column.type.parts == 1:
                        self.assertEqual(sorted(cells, key=lambda it: value_of(name, it)), column.unmap([sorted(lists[0])]))
                    self.same_one_by_one(column, cells[:200])

    def same_one_by_one(self, column: Column, cells: list[str]) -> None:
        """The way of single cells gives what the way of columns gives."""
        for cell in cells:
            if cell not in column.null:
                escaped = column.escape([cell])
                self.assertEqual(column.type.slow(escaped[0]), column.type.map(escaped)[0])

    def test_null_is_the_least(self):
        for name, ends in ENDS.items():
            with self.subTest(name):
                column = Column("c", make_type(name), null=("NA", "-"))
                cells = ["NA", ends[-1][:200], "-", "NA"]
                lists, canonical = column.take(cells)
                self.assertEqual(canonical, ["NA", ends[-1][:200], "NA", "NA"])
                self.assertEqual(column.unmap(lists), canonical)
                self.assertEqual(lists[0][0], LEAST if column.type.kind == "int" else "")
                self.assertLess(lists[0][0], column.map([ends[1 if name == "int" else 0]])[0][0])
                self.assertEqual([it is None for it in column.values(lists)], [True, False, True, True])

    def test_refused(self):
        for name, cells in REFUSED.items():
            for cell in cells:
                with self.subTest(name, cell=cell[:40]):
                    good = ENDS[name][-1] if name in ENDS else "0"
                    with self.assertRaises(BadCell) as found:
                        Column("c", make_type(name)).map([good, good, cell])
                    self.assertEqual(found.exception.index, 2)

    def test_refused_behind_null(self):
        column = Column("c", make_type("int"), null=("",))
        for cell in ("x", "-9223372036854775808"):
            with self.assertRaises(BadCell) as found:
                column.map(["", "1", "", cell])
            self.assertEqual(found.exception.index, 3)
        with self.assertRaises(BadCell) as found:
            Column("c", make_type("int"), null=("0",)).map(["0", "1", "00"])
        self.assertEqual((found.exception.index, found.exception.why), (2, "'0' in canonical form, which stands for NULL in this column"))

    def test_loose_forms(self):
        for name, forms in LOOSE.items():
            column = Column("c", make_type(name))
            for cell, wanted in forms.items():
                with self.subTest(name, cell=cell):
                    lists, canonical = column.take([cell])
                    self.assertEqual((canonical, column.unmap(lists)), ([wanted], [wanted]))

    def test_offsets(self):
        column = Column("c", make_type("timestamp(s)", convert=True))
        cells = ["2024-01-01T00:00:00+02:00", "2024-01-01 00:00:00-0530", "2024-01-01T00:00:00+00", "2024-01-01T00:00:00"]
        wanted = ["2023-12-31T22:00:00Z", "2024-01-01T05:30:00Z", "2024-01-01T00:00:00Z", "2024-01-01T00:00:00Z"]
        self.assertEqual(column.take(cells)[1], wanted)
        for cell in ("0001-01-01T00:00:00+00:01", "9999-12-31T23:59:59-00:01", "2024-01-01T00:00:00+24:00", "2024-01-01T00:00:00+00:60"):
            with self.assertRaises(BadCell):
                column.map([cell])
        blank = Column("c", make_type("timestamp(ms)", "2000-01-01 00:00:00"))
        self.assertEqual(blank.take(["2024-01-01 10:20:30.123", "2024-01-01T10:20:30Z"])[1], ["2024-01-01 10:20:30.123", "2024-01-01 10:20:30.000"])

    def test_values(self):
        found = {name: Column("c", make_type(name)).values(Column("c", make_type(name)).map([cell])) for name, cell in (
            ("int", "7"), ("decimal(2)", "1.50"), ("date", "2024-02-29"), ("timestamp(ms)", "2024-02-29T01:02:03.004Z"),
            ("timestamp(ns)", "2024-02-29T01:02:03.000000004Z"), ("bool", "true"), ("float", "0.5"), ("text", "é"), ("text(2)", "x" * 300))}
        self.assertEqual(found, {"int": [7], "decimal(2)": [Decimal("1.50")], "date": [date(2024, 2, 29)],
                                 "timestamp(ms)": [datetime(2024, 2, 29, 1, 2, 3, 4000)], "timestamp(ns)": ["2024-02-29T01:02:03.000000004Z"],
                                 "bool": [True], "float": [0.5], "text": ["é"], "text(2)": ["x" * 300]})


class TestTypesFile(unittest.TestCase):
    def test_there_and_back(self):
        types = Types((Column("a", make_type("int")), Column("b", make_type("decimal(2)"), "B \"b\"\n", ("", "\\N")),
                       Column("at", make_type("timestamp(us)", "2000-01-01 00:00:00", True)), Column("note", make_type("text(3)"))),
                      Key("key", ("a", "at")), ";", "latin-1", ("left", "out"))
        again = parse_types(types.text().encode(), "types.toml")
        self.assertEqual(again.text(), types.text())
        self.assertEqual(again.stored(), [("key", "text"), ("a", "int"), ("b", "int"), ("at", "int"), ("note_1", "text"), ("note_2", "text"), ("note_3", "text")])

    def test_refused(self):
        good = 'version = 1\n[[column]]\nname = "a"\ntype = "int"\n'
        for text, wanted in ((good.replace("1", "2", 1), "version 2, and this program knows version 1"), ("", "version is missing, or no integer"),
                             ("version = true\n", "version is missing, or no integer"), ("version = 1\n", "there is no [[column]]"),
                             (good + "x = 1\n", "column a: x is no key of version 1"), ("x = 1\n" + good, "the top: x is no key of version 1"),
                             (good.replace("int", "decimal(19)"), "column a: 'decimal(19)' is no type"), (good.replace("int", "text(9)"), "'text(9)' is no type"),
                             (good + 'null = "x"\n', "column a: null is no list of strings"), (good + 'like = "2000-01-01T00:00:00Z"\n', "only a timestamp"),
                             (good + '[[column]]\nname = "a"\ntype = "int"\n', "column 'a' stands twice"), (good + "[key]\n", "[key]: name is missing"),
                             (good + '[key]\nname = "k"\ncolumns = ["b"]\n', "[key]: b is no column"), ('delimiter = ""\n' + good, "delimiter ''")):
            with self.subTest(wanted):
                with self.assertRaises(DataError) as found:
                    parse_types(text.encode(), "types.toml")
                self.assertIn(wanted, found.exception.message)


if __name__ == "__main__":
    unittest.main()
