#!/usr/bin/env python3
"""Checks the stored outputs against the simulator, the vectors against their rows in README.md, and scripts/renew-vectors itself."""
import pathlib
import re
import shutil
import subprocess
import sys
import tempfile
import unittest

ROOT = pathlib.Path(__file__).resolve().parent.parent


def renew(root, *options):
    command = [sys.executable, root / "scripts/renew-vectors", *options]
    return subprocess.run(command, capture_output=True, text=True)


class Stored(unittest.TestCase):
    def test_outputs(self):
        ended = renew(ROOT, "--check")
        self.assertEqual(ended.returncode, 0, ended.stdout + ended.stderr)

    def test_rows(self):
        """Each vector has one row, below the heading that names its folder, and an input, an output and a sentence of SCOPE."""
        rows, folder, scope = [], None, (ROOT / "docs/SCOPE.md").read_text()
        for line in (ROOT / "tests/README.md").read_text().splitlines():
            heading = re.fullmatch(r"## .*: `(\w+)/`", line)
            folder = heading.group(1) if heading else folder
            row = re.match(r"\| (\w+) \| (?:table|\d+ at line \d+(?:, column \d+)?) \| (\w+) \| ", line)
            if row:
                rows.append("%s/%s" % (folder, row.group(1)))
                self.assertRegex(scope, r"\*\*%s\.?\*\*" % row.group(2), line)
        for ending in ("in", "out"):
            there = ROOT.glob("tests/vectors/*/*." + ending)
            self.assertEqual(sorted(rows), sorted("%s/%s" % (path.parent.name, path.stem) for path in there))
        self.assertEqual(len(rows), len({row.split("/")[1] for row in rows}))  # no name stands in two folders
        self.assertEqual(list(ROOT.glob("tests/vectors/*.in")) + list(ROOT.glob("tests/vectors/*.out")), [])


class Renewal(unittest.TestCase):
    VECTOR = "tests/vectors/worked/worked_input.out"
    SAMPLE = "samples/small.out"

    def setUp(self):
        folder = tempfile.TemporaryDirectory()
        self.addCleanup(folder.cleanup)
        self.copy = pathlib.Path(folder.name)
        for name in ("scripts", "samples", "crates/sweep", "tests/vectors"):
            (self.copy / name).mkdir(parents=True)
        own_run = ("crates/sweep/stdin", "crates/sweep/stdout")
        for name in ("scripts/renew-vectors", "tests/simulator.py", "tests/inputs.py", "tests/README.md", *own_run):
            shutil.copy(ROOT / name, self.copy / name)
        for name in ("worked", "comment", "label"):
            shutil.copytree(ROOT / "tests/vectors" / name, self.copy / "tests/vectors" / name)
        shutil.copy(ROOT / "tests/vectors/worked/worked_grid.in", self.copy / "samples/small.in")
        shutil.copy(ROOT / "tests/vectors/worked/worked_grid.out", self.copy / self.SAMPLE)

    def change(self, name, old, new):
        path = self.copy / name
        right = path.read_text()
        self.assertIn(old, right)
        path.write_text(right.replace(old, new))
        return right

    def test_nothing_to_renew(self):
        for options in [(), ("--check",)]:
            ended = renew(self.copy, *options)
            self.assertEqual((ended.returncode, ended.stderr, ended.stdout.count("\n")), (0, "", 1))
            self.assertRegex(ended.stdout, "^[0-9]+ expected, 0 (renewed|differ)\n$")

    def test_shown_and_renewed(self):
        for name, old, new in [
            (self.VECTOR, "misses=5", "misses=6"),
            (self.SAMPLE, "misses=5", "misses=6"),
            ("crates/sweep/stdout", "refs=8", "refs=9"),
            ("tests/vectors/label/label_5.out", "refused=14 line=8 column=1", "refused=14 line=8 column=2"),
            ("tests/README.md", "| label_5 | 14 at line 8, column 1 |", "| label_5 | table |"),
            ("tests/README.md", "| label_9 | 14 at line 8, column 1 |", "| label_9 | 14 at line 8 |"),
        ]:
            right = self.change(name, old, new)
            wrong = (self.copy / name).read_text()
            ended = renew(self.copy, "--check")
            self.assertEqual((ended.returncode, (self.copy / name).read_text()), (1, wrong))
            self.assertTrue(ended.stdout.endswith(" expected, 1 differ\n"))
            ended = renew(self.copy)
            self.assertEqual((ended.returncode, (self.copy / name).read_text()), (0, right))
            self.assertTrue(ended.stdout.endswith(" expected, 1 renewed\n"))
            self.assertIn("--- %s\n" % name, ended.stdout)
            self.assertRegex(ended.stdout, r"(?m)^-.*%s" % re.escape(new))
            self.assertRegex(ended.stdout, r"(?m)^\+.*%s" % re.escape(old))

    def test_an_output_that_is_missing(self):
        (self.copy / self.VECTOR).unlink()
        self.assertEqual(renew(self.copy, "--check").returncode, 1)
        self.assertFalse((self.copy / self.VECTOR).exists())
        self.assertEqual(renew(self.copy).returncode, 0)
        self.assertEqual((self.copy / self.VECTOR).read_bytes(), (ROOT / self.VECTOR).read_bytes())

    def test_bytes_stay_bytes(self):
        (self.copy / self.VECTOR).write_bytes((ROOT / self.VECTOR).read_bytes().replace(b"\n", b"\r\n"))
        self.assertIn("\\r", renew(self.copy).stdout)
        self.assertEqual((self.copy / self.VECTOR).read_bytes(), (ROOT / self.VECTOR).read_bytes())

    def test_help(self):
        ended = renew(self.copy, "--help")
        self.assertEqual(ended.returncode, 0)
        self.assertIn("--check", ended.stdout)


if __name__ == "__main__":
    unittest.main()
