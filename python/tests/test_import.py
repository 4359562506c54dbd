"""Import: the name comes last, after a comparison; what is refused, and what a killed import leaves."""
import fcntl
import os
import random
import shutil
import signal
import subprocess
import sys
import time
import unittest

from tables import TOP, CommandLine

TABLE = "id,v,w\n1,1.50,a\n2,0.25,\"b,\"\n3,,\n"
KILLS = int(os.environ.get("PINEPOLO_KILLS", "8"))


class Import(CommandLine):
    def setUp(self):
        super().setUp()
        self.table = self.write("t.csv", TABLE)
        self.folder = self.at / "d"
        self.good("draft", self.table, "--key", "id", "--k", 1, "--sites", 2, "--order", "w", "-o", self.folder)

    def sites(self):
        """A SITES file with a folder for each of two sites."""
        return self.write("sites.toml", "".join(f'[[site]]\nnumber = {it}\nfolder = "site{it}"\n' for it in (1, 2)))

    def around(self, text):
        """Puts a script in the place of pinepolo; it finds the program in REAL."""
        script = self.write("around", f"#!/bin/sh\nREAL={os.environ['PINEPOLO']}\n{text}\n")
        script.chmod(0o755)
        os.environ["PINEPOLO"] = str(script)

    def import_again(self, *words):
        """An import behind a killed one, whose `load` ends a moment later."""
        until = time.monotonic() + 60
        while (found := self.run_data("import", self.folder, self.table, self.at / "s", *words))[0] and time.monotonic() < until:
            self.assertIn("another import", found[2])
            time.sleep(0.05)
        self.assertEqual(found[0], 0, found[2])

    def spawn(self, *words):
        """An import in a process of its own."""
        environment = os.environ | {"PYTHONPATH": str(TOP / "python")}
        return subprocess.Popen([sys.executable, "-m", "pinepolo", "import", *map(str, words)], env=environment, stdout=subprocess.DEVNULL,
                                stderr=subprocess.DEVNULL, start_new_session=True)


class TestImport(Import):
    def test_refused(self):
        store, types = self.at / "s", self.folder / "types.toml"
        text = types.read_text()
        for fault, before, after in (
                (": version 2, and this program knows version 1", "version = 1", "version = 2"),
                (": the top: x is no key of version 1", "version = 1", "version = 1\nx = 1"),
                (": id is the key, and a key has no NULL", 'type = "int"', 'type = "int"\nnull = [""]'),
                (": column v (int) is not in both, types.toml and catalog.toml", 'type = "decimal(2)"', 'type = "text"')):
            types.write_text(text.replace(before, after))
            self.refused(1, f"d/types.toml{fault}", "import", self.folder, self.table, store)
        types.write_text(text)
        for fault, table in (("record 0: there is no column 'w'", "id,v\n"), ("record 0: 'x' is no column of types.toml", "id,v,w,x\n"),
                             ("record 2: v: not a decimal: '1.5x'", "w,id,v\na,1,1.50\na,2,1.5x\n"), ("record 1: id: not an integer: ''", "id,v,w\n,1.50,a\n"),
                             ("record 1: v: more than 2 digits behind the point: '0.001'", "id,v,w\n1,0.001,a\n"),
                             (f"record 1: w: 256 bytes, and a text has at most 255: '{'z' * 40}' ..", f"id,v,w\n1,,{'z' * 256}\n")):
            self.write("bad.csv", table)
            self.refused(1, f"bad.csv: {fault}", "import", self.folder, self.at / "bad.csv", store)
        self.write("bad.csv", "id,v,w\n1,,a\n2,,b\n1,,c\n")
        self.refused(1, "record 3: id 1 already exists (record 1)", "import", self.folder, self.at / "bad.csv", store)
        store.mkdir()
        self.refused(1, "s already exists", "import", self.folder, self.table, store)
        self.refused(1, "s already exists", "import", self.folder, self.table, f"{store}/")
        self.refused(4, "none/s.importing: No such file or directory", "import", self.folder, self.table, self.at / "none/s")

    def test_a_pipe_that_breaks_off_is_found(self):
        """`load` takes a text that ends in mid-cell for a whole one."""
        for lost in (1, 3, 8):
            with self.subTest(lost=lost):
                self.around(f'if [ "$1" = load ]; then head -c -{lost} | "$REAL" "$@"; else exec "$REAL" "$@"; fi')
                status, _, faults = self.run_data("import", self.folder, self.write("t2.csv", "id,v,w\n1,,abc\n2,,abcdefghijk\n"), self.at / "s")
                self.assertEqual((status, "that are not the 2 of" in faults), (0, False) if lost == 1 else (1, True), faults)
                self.assertEqual((self.at / "s").exists(), lost == 1)
                shutil.rmtree(self.at / "s", ignore_errors=True)
                os.environ["PINEPOLO"] = self.around_what()

    def around_what(self):
        return next(it[5:] for it in (self.at / "around").read_text().splitlines() if it.startswith("REAL="))

    def test_other_rows_are_found(self):
        self.around('"$REAL" "$@" | if [ "$1" = dump ]; then sed s/25/26/; else cat; fi')
        self.refused(1, f"the store gives 3 rows back that are not the 3 of {self.table}".replace(f"{self.at}/", ""), "import", self.folder, self.table, self.at / "s")

    def test_a_full_disk(self):
        """A bound of the size of files stands in for a full disk."""
        self.write("t.csv", "id,v,w\n" + "".join(f"{it},,{'x' * 200}\n" for it in range(9)))
        self.around('trap "" XFSZ\nulimit -f 1\nexec "$REAL" "$@"')
        status, _, faults = self.run_data("import", self.folder, self.table, self.at / "s")
        self.assertEqual((status, faults.startswith("fault: could not write"), sorted(os.listdir(self.at))), (4, True, ["around", "d", "t.csv"]), faults)

    def test_two_at_a_time(self):
        work = self.at / "s.importing"
        work.mkdir()
        with open(work / "LOCK", "w") as lock:
            fcntl.flock(lock, fcntl.LOCK_EX)
            self.refused(1, "another import of s is running", "import", self.folder, self.table, self.at / "s")
        self.good("import", self.folder, self.table, self.at / "s")
        self.assertFalse(work.exists())
        work.mkdir()
        (work / "mine").mkdir()
        self.refused(1, "s2.importing is there, and is no folder of an import", "import", self.folder, self.table, self.moved(work))

    def moved(self, work):
        work.rename(self.at / "s2.importing")
        return self.at / "s2"

    def test_killed_at_any_moment(self):
        """No STORE is there, or a whole one; nothing of `load` is left at work; the next import ends well."""
        chance, store, span = random.Random(3), self.at / "s", 1.0
        for _ in range(KILLS):
            begun = time.monotonic()
            process = self.spawn(self.folder, self.table, store)
            time.sleep(chance.random() * span)
            process.send_signal(signal.SIGKILL)
            process.wait()
            if store.exists():
                self.good("export", store)
                shutil.rmtree(store)
                span = time.monotonic() - begun
            compared = self.at / "s.importing/COMPARED"
            if compared.exists() and any(it.is_dir() for it in compared.parent.iterdir()):
                self.assertEqual(self.run_data("import", self.folder, self.table, store)[0], 1)
                shutil.rmtree(compared.parent)
            self.import_again()
            self.assertEqual(self.good("export", store), TABLE)
            shutil.rmtree(store)
            self.assertEqual(sorted(os.listdir(self.at)), ["d", "t.csv"])


class TestSites(Import):
    def test_export_while_a_site_is_away(self):
        sites, store = self.sites(), self.at / "s"
        self.good("import", self.folder, self.table, store, "--sites", sites)
        self.assertEqual(sorted(os.listdir(store)), ["catalog.toml", "types.toml"])
        self.assertEqual(sorted(os.listdir(self.at / "site1")), ["catalog.toml", "p0.s0.del", "p0.s0.seg", "types.toml"])
        self.assertEqual(self.good("export", store, "--sites", sites), TABLE)
        shutil.rmtree(self.at / "site1")
        shutil.rmtree(store)
        self.assertEqual(self.good("export", store, "--sites", sites, "--lost", 1), TABLE)
        with open(self.at / "site2/types.toml", "a") as file:
            file.write("\n")
        (self.at / "site1").mkdir()
        shutil.copy(self.folder / "types.toml", self.at / "site1")
        self.refused(1, "two copies of types.toml differ: site1/types.toml and site2/types.toml", "export", store, "--sites", sites)

    def test_after_a_kill(self):
        """Killed before the comparison, the folders of sites have a finished load. The next import removes it, and no other's."""
        sites, store, real = self.sites(), self.at / "s", os.environ["PINEPOLO"]
        self.around('if [ "$1" = dump ]; then kill -9 $PPID; fi\nexec "$REAL" "$@"')
        self.spawn(self.folder, self.table, store, "--sites", sites).wait()
        self.assertEqual((store.exists(), (self.at / "site1/catalog.toml").exists()), (False, True))
        os.environ["PINEPOLO"] = real
        self.refused(1, "site1 is not an empty folder and cannot be made", "import", self.folder, self.table, self.at / "other", "--sites", sites)
        shutil.copytree(self.at / "s.importing", self.at / "kept")
        self.import_again("--sites", sites)
        self.assertEqual(self.good("export", store, "--sites", sites), TABLE)
        store.rename(self.at / "moved")
        (self.at / "kept").rename(self.at / "s.importing")
        self.assertEqual(self.run_data("import", self.folder, self.table, store, "--sites", sites)[0], 1)
        self.assertEqual(self.good("export", self.at / "moved", "--sites", sites), TABLE)

    def test_half_a_load(self):
        """Killed amid `load`, its files have no names yet."""
        sites, store, real = self.sites(), self.at / "s", os.environ["PINEPOLO"]
        self.around('if [ "$1" = load ]; then cd "${0%/*}"; mkdir -p site1; cp s.importing/catalog.toml site1/catalog.toml.partial\n'
                    'echo > site1/p0.s0.seg.partial; kill -9 $PPID; fi\nexec "$REAL" "$@"')
        self.spawn(self.folder, self.table, store, "--sites", sites).wait()
        self.assertEqual(sorted(os.listdir(self.at / "site1")), ["catalog.toml.partial", "p0.s0.seg.partial"])
        os.environ["PINEPOLO"] = real
        self.import_again("--sites", sites)
        self.assertEqual(self.good("export", store, "--sites", sites), TABLE)


if __name__ == "__main__":
    unittest.main()
