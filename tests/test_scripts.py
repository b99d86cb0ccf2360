#!/usr/bin/env python3
"""Holds the scripts to the pages: each is named on one, and those for users have --help, a line in README and a test."""
import pathlib
import re
import subprocess
import unittest

ROOT = pathlib.Path(__file__).resolve().parent.parent
README = (ROOT / "README.md").read_text()
PAGES = README + "".join(path.read_text() for path in ROOT.glob("docs/*.md"))
USERS = ["lackey_to_din.py", "picture.py", "record", "size", "sweep", "table"]


class Scripts(unittest.TestCase):
    def test_each_is_named(self):
        there = [path.name for path in ROOT.glob("scripts/*") if path.is_file()]
        self.assertEqual([name for name in there if "scripts/" + name not in PAGES], [])
        self.assertEqual([name for name in USERS if not re.search(r"^\| `scripts/%s[ `]" % re.escape(name), README, re.MULTILINE)], [])

    def test_what_is_named_is_there(self):
        named = set(re.findall(r"scripts/([\w.-]*\w)", PAGES))
        self.assertEqual([name for name in named if not (ROOT / "scripts" / name).exists()], [])

    def test_help(self):
        """--help says what the head of the script says, and ends with 0."""
        for name in USERS:
            ended = subprocess.run([ROOT / "scripts" / name, "--help"], capture_output=True, text=True)
            self.assertEqual((ended.returncode, ended.stderr), (0, ""), name)
            self.assertIn((ROOT / "scripts" / name).read_text().split('"""')[1].splitlines()[0], ended.stdout)

    def test_help_of_the_others(self):
        """The scripts for developers say what they are for, and do nothing else."""
        others = [path for path in ROOT.glob("scripts/*") if path.is_file() and path.name not in USERS and path.suffix != ".c"]
        for path in others:
            ended = subprocess.run([path, "--help"], capture_output=True, text=True, timeout=20)
            self.assertEqual((ended.returncode, ended.stderr), (0, ""), path.name)
            self.assertGreater(len(ended.stdout), 40, path.name)

    def test_each_has_a_test(self):
        tests = "".join(path.read_text() for path in ROOT.glob("tests/test_*.py") if path.name != "test_scripts.py")
        self.assertEqual([name for name in USERS if '"scripts/%s"' % name not in tests], [])

    def test_lines_and_lengths(self):
        """At most 150 columns and about 200 lines."""
        for path in [ROOT / "scripts" / name for name in USERS] + [*ROOT.glob("scripts/kk/*.py"), ROOT / "scripts/qemu_din.c"]:
            lines = path.read_text().splitlines()
            self.assertLessEqual(max(map(len, lines)), 150, path)
            self.assertLessEqual(len(lines), 210, path)


if __name__ == "__main__":
    unittest.main()
