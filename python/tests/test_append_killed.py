"""Appends and imports of tables of many stores that are killed."""
import os
import subprocess
import sys
import unittest

from tables import TOP
from test_partitions import TABLE, Partitions

KILLS = os.environ.get("PINEPOLO_KILLS", "3")


class TestKills(Partitions):
    def test_killed_at_any_moment(self):
        done = subprocess.run([sys.executable, TOP / "tools/kill-append", os.environ["PINEPOLO"], KILLS, "--sites"], capture_output=True, check=False)
        self.assertEqual((done.returncode, done.stderr), (0, b""), done.stdout)

    def test_a_killed_import(self):
        """There is no table after it, and the next import ends well. It also removes what is on the disks."""
        sites, real = self.sites(), os.environ["PINEPOLO"]
        script = self.write("around", f'#!/bin/sh\nif [ "$1" = check ]; then kill -9 $PPID; fi\nexec {real} "$@"\n')
        script.chmod(0o755)
        words = ["import", "--rows-per-store", "4", "--sites", sites, self.drafted, self.csv, self.table]
        os.environ["PINEPOLO"] = str(script)
        self.assertEqual(self.run_data(*words)[2].splitlines()[0], "fault: a process was ended by signal 9")
        # (what a killed job's `load` still wrote after the clean-up goes with the next run)
        if self.table.exists():
            self.assertIn("has no stores: its import did not end", self.run_data("export", self.table)[2])
        script.write_text(script.read_text().replace("$PPID", "$(ps -o ppid= $PPID)"))
        process = subprocess.Popen([sys.executable, "-m", "pinepolo", *map(str, words)], env=os.environ | {"PYTHONPATH": str(TOP / "python")}, start_new_session=True)
        self.assertEqual(process.wait(), -9)
        os.environ["PINEPOLO"] = real
        self.assertTrue(list(self.at.glob("disks/1/*/catalog.toml")))
        status, _, faults = self.run_data("export", self.table)
        self.assertEqual((status, faults.splitlines()[0]), (1, f"fault: {self.table} has no stores: its import did not end"))
        # (a killed run's `load` may live for a moment)
        while "is at work" in self.run_data(*words)[2]:
            pass
        self.assertEqual(self.good("export", self.table), TABLE)
        self.assertEqual(sorted(it[:3] for it in os.listdir(self.at / "disks/1")), ["000", "001", "002"])


if __name__ == "__main__":
    unittest.main()
