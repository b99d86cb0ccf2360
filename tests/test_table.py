#!/usr/bin/env python3
"""Runs scripts/table on the worked grid (SCOPE W2), and on tables that it must refuse."""
import csv
import io
import json
import pathlib
import subprocess
import sys
import unittest

ROOT = pathlib.Path(__file__).resolve().parent.parent
WORKED = (ROOT / "tests/vectors/worked/worked_input.out").read_text()
GRID = (ROOT / "tests/vectors/worked/worked_grid.out").read_text()
MISSES = {  # SCOPE W2: for each b and s the misses at 1 to 4 ways
    (4, 0): [8, 8, 5, 4], (4, 1): [7, 5, 4, 4], (4, 2): [5, 4, 4, 4],
    (5, 0): [6, 4, 3, 3], (5, 1): [4, 3, 3, 3], (5, 2): [3, 3, 3, 3],
}  # fmt: skip
NAMES = ["b", "s", "w", "block_bytes", "sets", "bytes", "kib", "misses", "miss_ratio"]
WANTED = [
    [b, s, w, 2**b, 2**s, 2**b * 2**s * w, 2**b * 2**s * w / 1024, misses, misses / 8]
    for (b, s), row in MISSES.items()
    for w, misses in enumerate(row, 1)
]


def table(text, *options):
    return subprocess.run([sys.executable, ROOT / "scripts/table", *options], input=text, capture_output=True, text=True)


class Tables(unittest.TestCase):
    def test_csv(self):
        ended = table(GRID, "--csv")
        self.assertEqual((ended.returncode, ended.stderr), (0, ""))
        names, *rows = csv.reader(io.StringIO(ended.stdout))
        self.assertEqual(names, NAMES)
        self.assertEqual([list(map(float, row)) for row in rows], WANTED)
        self.assertIn("\n4,1,2,16,2,64,0.0625,5,0.625\n", ended.stdout)
        self.assertNotIn("\r", ended.stdout)

    def test_json(self):
        ended = table(GRID, "--json")
        self.assertEqual((ended.returncode, ended.stderr), (0, ""))
        made = json.loads(ended.stdout)
        self.assertEqual((made["edition"], made["refs"], made["skipped"], made["flushes"]), (2, 8, 0, 0))
        self.assertEqual([list(cache) for cache in made["caches"]], [NAMES] * 24)
        self.assertEqual([list(cache.values()) for cache in made["caches"]], WANTED)

    def test_flushes(self):
        made = json.loads(table((ROOT / "tests/vectors/flush/flushes_and_skipped_lines.out").read_text(), "--json").stdout)
        self.assertEqual((made["refs"], made["skipped"], made["flushes"]), (2, 3, 2))

    def test_edition_1(self):
        """A table that was kept from edition 1: the same caches, and null for the flushes, which it skipped."""
        old = GRID.replace("edition=2", "edition=1").replace("flushes=0\n", "")
        made = json.loads(table(old, "--json").stdout)
        self.assertEqual((made["edition"], made["refs"], made["skipped"], made["flushes"]), (1, 8, 0, None))
        self.assertEqual(made["caches"], json.loads(table(GRID, "--json").stdout)["caches"])
        self.assertEqual(table(old, "--csv").stdout, table(GRID, "--csv").stdout)

    def test_a_full_disk(self):
        with open("/dev/full", "w") as full:
            command = [ROOT / "scripts/table", "--csv", ROOT / "tests/vectors/worked/worked_input.out"]
            ended = subprocess.run(command, stdout=full, stderr=subprocess.PIPE, text=True)
        self.assertEqual((ended.returncode, ended.stderr.count("\n")), (1, 1))
        self.assertIn("standard output cannot be written", ended.stderr)

    def test_from_a_file(self):
        path = str(ROOT / "tests/vectors/worked/worked_input.out")
        self.assertEqual(table("", "--csv", path).stdout, table(WORKED, "--csv", "-").stdout)
        self.assertEqual(table("", "--csv", "nowhere").returncode, 1)

    def test_no_references(self):
        none = "edition=2\nrefs=0\nskipped=1\nflushes=1\nb=4 s=0 w=1 misses=0\n"
        self.assertEqual(table(none, "--csv").stdout.splitlines()[1], "4,0,1,16,1,16,0.015625,0,")
        self.assertIsNone(json.loads(table(none, "--json").stdout)["caches"][0]["miss_ratio"])

    def test_refused(self):
        refused = "refused=16 line=13 column=4\n"
        for text, said in [(refused, "the program printed " + refused), (WORKED[:-1], "may be cut off"), ("", "line 1")]:
            for form in ("--csv", "--json"):
                ended = table(text, form)
                self.assertEqual((ended.returncode, ended.stdout, ended.stderr.count("\n")), (1, "", 1))
                self.assertIn(said, ended.stderr)

    def test_help_and_wrong_use(self):
        self.assertIn("KiB", table("", "--help").stdout)
        self.assertEqual(table(WORKED).returncode, 2)
        self.assertEqual(table(WORKED, "--csv", "--json").returncode, 2)


if __name__ == "__main__":
    unittest.main()
