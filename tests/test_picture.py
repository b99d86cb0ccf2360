#!/usr/bin/env python3
"""Runs scripts/picture.py on the worked table (SCOPE, "The worked trace"), on its grid, and on damaged tables."""
import pathlib
import re
import subprocess
import sys
import unittest
import xml.etree.ElementTree as ElementTree

import simulator

ROOT = pathlib.Path(__file__).resolve().parent.parent
SVG = "{http://www.w3.org/2000/svg}"
WORKED = (ROOT / "tests/vectors/worked/worked_input.out").read_text()
GRID = (ROOT / "tests/vectors/worked/worked_grid.out").read_text()
WORDS = """\
8 references taken, 0 lines skipped, 0 flushes.
4 caches asked for: blocks of 16 bytes, 1 to 2 sets, 1 to 2 ways.
Fewest misses: blocks of 16 bytes, 64 bytes (2 sets of 2 ways, 5 misses, ratio 0.625000).
The size that matters is 64 bytes: below, no block size has done nine tenths of its fall; there, each has a cache within 1% \
of its fewest misses asked for.
Not known because the order ends: how far the misses fall on, at blocks of 16 bytes; what to raise is said below.

Blocks of 16 bytes (b=4):
  Most misses: 16 bytes (1 set of 1 way, 8 misses, ratio 1.000000).
  The misses are still falling at the largest cache asked for, 64 bytes (2 sets of 2 ways, 5 misses, ratio 0.625000): \
raise smax (now 1) and ways (now 2), and ask again.
  The curve bends at 64 bytes (2 sets of 2 ways, 5 misses, ratio 0.625000): \
nine tenths of the fall to the fewest misses asked for are done.
  Smallest cache within 1% of the fewest misses asked for: 64 bytes (2 sets of 2 ways, 5 misses, ratio 0.625000).
"""


def picture(table, *options):
    command = [sys.executable, str(ROOT / "scripts/picture.py"), *options]
    return subprocess.run(command, input=table, capture_output=True, text=True)


def grid_of(misses, refs=100, b=4):
    """A table of one block size: misses[s][w - 1]."""
    rows = ["b=%d s=%d w=%d misses=%d\n" % (b, s, w, m) for s, row in enumerate(misses) for w, m in enumerate(row, 1)]
    return "edition=2\nrefs=%d\nskipped=0\nflushes=0\n" % refs + "".join(rows)


class Edge(unittest.TestCase):
    """At the edge of what was asked for, words and picture say that the misses still fall, and what to raise."""

    def expect(self, misses, said, not_said="stop falling at", sign="falling"):
        table = grid_of(misses)
        words = picture(table, "--words").stdout
        self.assertIn(said, words)
        self.assertNotIn(not_said, words)
        drawn = picture(table).stdout
        root = ElementTree.fromstring(drawn)
        signs = [path.get("class") for path in root.iter(SVG + "path") if path.get("class")]
        self.assertEqual(signs, [sign])
        if sign == "falling":
            self.assertNotIn("▼", drawn)
            self.assertIn(said.rpartition(": ")[2] if ": " in said else "not known to stop falling", drawn)

    def test_largest_cache(self):
        said = "still falling at the largest cache asked for, 64 bytes (2 sets of 2 ways, 30 misses, ratio 0.300000): raise smax (now 1)"
        self.expect([[90, 60], [70, 30]], said + " and ways (now 2)")

    def test_most_sets(self):
        said = "still falling at the most sets asked for, 32 bytes (2 sets of 1 way, 30 misses, ratio 0.300000): raise smax (now 1)"
        self.expect([[90, 60], [30, 30]], said, not_said="ways (now")

    def test_most_ways(self):
        said = "still falling at the most ways asked for, 32 bytes (1 set of 2 ways, 30 misses, ratio 0.300000): raise ways (now 2)"
        self.expect([[90, 30], [80, 30]], said, not_said="smax (now")

    def test_inside(self):
        misses = [[90, 60, 60], [50, 30, 30], [40, 30, 30]]
        said = "stop falling at 64 bytes (2 sets of 2 ways, 30 misses, ratio 0.300000); larger caches asked for, up to 192 bytes"
        self.expect(misses, said, not_said="still falling", sign="near")

    def test_inside_and_at_the_edge(self):
        """The smallest cache with the fewest misses has the most ways, but one inside has as few: more ways saved nothing there."""
        misses = [[90, 80, 30], [70, 30, 30], [50, 30, 30]]
        self.expect(misses, "stop falling at 48 bytes (1 set of 3 ways, 30 misses", not_said="still falling", sign="near")

    def test_one_way(self):
        """With one way only, nothing tells what more ways would save."""
        said = "Whether the misses fall further is not known; the fewest stand at the most ways asked for, 32 bytes"
        self.expect([[90], [30], [30]], said, not_said="still falling at")
        self.expect([[90], [30], [30]], ": raise ways (now 1)")

    def test_one_cache(self):
        self.expect([[90]], "Whether the misses fall further is not known; the fewest stand at the largest cache asked for", "still falling at")
        self.expect([[90]], "raise smax (now 0) and ways (now 1)")

    def test_limits(self):
        """Where smax is 14 or ways 16, raising is no advice."""
        falling = [[100 - 2 * s - w for w in range(1, 3)] for s in range(15)]
        self.expect(falling, ": raise ways (now 2)", not_said="smax (now")
        falling = [[100 - 2 * s - w for w in range(1, 17)] for s in range(15)]
        self.expect(falling, ": smax=14 and ways=16 are the most", not_said="ask again")

    def test_the_sample(self):
        """At smax=7 the sample's misses still fall at 8,192 bytes; at smax=10, as shipped, they stop at 24,576."""
        addresses = [int(line.split()[1], 16) for line in (ROOT / "samples/bc_fibonacci.in").read_bytes().splitlines()[8:]]
        misses = [[simulator.misses(addresses, 4, s, w) for w in range(1, 5)] for s in (0, 1, 7)]
        misses[2:2] = [misses[1]] * 5  # the set counts between do not matter here
        words = picture(grid_of(misses, len(addresses)), "--words").stdout
        self.assertIn("still falling at the largest cache asked for, 8,192 bytes", words)
        words = picture((ROOT / "samples/bc_fibonacci.out").read_text(), "--words").stdout
        self.assertEqual(words.count("stop falling at 24,576 bytes"), 3)
        self.assertNotIn("still falling", words)


class Words(unittest.TestCase):
    def test_worked_table(self):
        self.assertEqual(picture(WORKED, "--words").stdout, WORDS)

    def test_within_one_percent(self):
        table = "edition=2\nrefs=2000\nskipped=0\nflushes=0\n" + "".join(
            "b=4 s=%d w=1 misses=%d\n" % (s, misses) for s, misses in enumerate([1102, 1011, 1010, 1000])
        )
        self.assertIn("within 1% of the fewest misses asked for: 64 bytes (4 sets of 1 way, 1,010", picture(table, "--words").stdout)

    def test_flat(self):
        words = picture(grid_of([[7, 7, 7], [7, 7, 7], [7, 7, 7]]), "--words").stdout
        self.assertIn("stop falling at 16 bytes", words)
        self.assertIn("All caches asked for miss as often.", words)

    def test_every_cache(self):
        """--all names each of the 24 caches of the worked grid, with its misses (SCOPE W2)."""
        words = picture(GRID, "--words", "--all").stdout
        self.assertTrue(words.startswith(picture(GRID, "--words").stdout))
        told = [line for line in words.partition("Every cache with")[2].splitlines() if line.startswith("  ")]
        self.assertEqual(len(told), 24)
        self.assertIn("  128 bytes (2 sets of 4 ways, 4 misses, ratio 0.500000)", told)
        self.assertIn("  64 bytes (1 set of 2 ways, 4 misses, ratio 0.500000)", told)
        for line in GRID.splitlines()[4:]:
            b, s, w, misses = (int(word.split("=")[1]) for word in line.split())
            start = "  {:,} bytes ({} set".format(2 ** (b + s) * w, 2**s)
            self.assertTrue(any(one.startswith(start) and " of %d way" % w in one and " %d miss" % misses in one for one in told), line)
        self.assertEqual(picture(GRID, "--all").returncode, 2)

    def test_summary(self):
        """By hand: at blocks of 16 bytes the fall is from 90 to 10, so 18 is the bend and 10 is within 1%; at 32 from 80 to 20."""
        rows = [(4, 0, 90), (4, 1, 50), (4, 2, 18), (4, 3, 10), (4, 4, 10), (5, 0, 80), (5, 1, 30), (5, 2, 20), (5, 3, 20), (5, 4, 20)]
        table = "edition=2\nrefs=100\nskipped=0\nflushes=0\n" + "".join(
            "b=%d s=%d w=%d misses=%d\n" % (b, s, w, misses) for b, s, misses in rows for w in (1, 2)
        )
        words = picture(table, "--words").stdout
        self.assertIn("20 caches asked for: blocks of 16 to 32 bytes, 1 to 16 sets, 1 to 2 ways.", words)
        self.assertIn("Fewest misses: blocks of 16 bytes, 128 bytes (8 sets of 1 way, 10 misses, ratio 0.100000).", words)
        self.assertIn("The sizes that matter are 64 to 128 bytes:", words)
        self.assertIn("The curve bends at 64 bytes (4 sets of 1 way, 18 misses", words)
        self.assertNotIn("Not known", words)

    def test_a_full_disk(self):
        with open("/dev/full", "w") as full:
            command = [ROOT / "scripts/picture.py", "--words", ROOT / "tests/vectors/worked/worked_input.out"]
            ended = subprocess.run(command, stdout=full, stderr=subprocess.PIPE, text=True)
        self.assertEqual((ended.returncode, ended.stderr.count("\n")), (1, 1))
        self.assertIn("standard output cannot be written", ended.stderr)

    def test_from_a_file(self):
        path = str(ROOT / "tests/vectors/worked/worked_input.out")
        self.assertEqual(picture("", "--words", path).stdout, WORDS)
        self.assertEqual(picture(WORKED, "--words", "-").stdout, WORDS)
        for name, why in [("nowhere", "No such file"), (str(ROOT), "Is a directory")]:
            answer = picture("", name)
            self.assertEqual((answer.returncode, answer.stdout), (1, ""))
            self.assertIn(why, answer.stderr)

    def test_flushes(self):
        """How many there were is told in the first sentence, and stands above the picture."""
        for name, said in [
            ("flush_last_line", "3 references taken, 0 lines skipped, 1 flush."),
            ("flushes_and_skipped_lines", "2 references taken, 3 lines skipped, 2 flushes."),
        ]:
            table = (ROOT / "tests/vectors/flush" / (name + ".out")).read_text()
            self.assertTrue(picture(table, "--words").stdout.startswith(said + "\n"))
            texts = [one.text for one in ElementTree.fromstring(picture(table).stdout).iter(SVG + "text")]
            self.assertIn(said, texts)

    def test_edition_1(self):
        """A table that was kept from edition 1 gives the same words, but for the flushes, which it skipped."""
        said = WORDS.replace(", 0 flushes.", " (edition 1, which skips flush lines).")
        self.assertEqual(picture(WORKED.replace("edition=2", "edition=1").replace("flushes=0\n", ""), "--words").stdout, said)

    def test_no_references(self):
        table = "edition=2\nrefs=0\nskipped=1\nflushes=1\nb=4 s=0 w=1 misses=0\n"
        self.assertIn("nothing to compare", picture(table, "--words").stdout)
        self.assertEqual(picture(table).returncode, 1)


class Pictures(unittest.TestCase):
    def test_worked_grid(self):
        for options in [(), ("--misses",), ("--log",), ("--misses", "--log")]:
            drawn = picture(GRID, *options)
            self.assertEqual((drawn.returncode, drawn.stderr), (0, ""))
            root = ElementTree.fromstring(drawn.stdout)
            self.assertEqual(len(root.findall(SVG + "g")), 2)  # a panel for each block size
            self.assertEqual(len(root.findall(".//" + SVG + "polyline")), 8)  # in each a line for each number of ways

    def test_ways_drawn(self):
        """Of 16 ways five lines are drawn, or those asked for; a label for each, and a word about the others."""
        table = grid_of([[100 - s - w for w in range(1, 17)] for s in range(3)])
        for options, wanted in [((), "1, 2, 4, 8 and 16"), (("--ways", "3,1"), "1 and 3"), (("--ways", "16"), "16")]:
            root = ElementTree.fromstring(picture(table, *options).stdout)
            texts = [one.text for one in root.iter(SVG + "text")]
            count = wanted.count(",") + wanted.count("and") + 1
            self.assertEqual(len(root.findall(".//" + SVG + "polyline")), count)
            self.assertEqual(len([one for one in texts if re.fullmatch("[0-9]+ ways?", one)]), count)
            self.assertTrue(any(one.endswith("Of 1 to 16 ways %s are drawn." % wanted) for one in texts), texts)
        for wrong, status in [("17", 1), ("0", 1), ("x", 2)]:
            self.assertEqual(picture(table, "--ways", wrong).returncode, status)

    def test_described_in_words(self):
        """The title alone is the accessible name; the words are the description."""
        root = ElementTree.fromstring(picture(WORKED).stdout)
        self.assertEqual((root.get("role"), root.get("aria-labelledby"), root.get("aria-describedby")), ("img", "title", "desc"))
        self.assertEqual((root.find(SVG + "title").get("id"), root.find(SVG + "desc").get("id")), ("title", "desc"))
        self.assertEqual(root.find(SVG + "title").text, "Miss ratio of LRU caches against their size")
        self.assertEqual(root.find(SVG + "desc").text + "\n", WORDS)

    def test_places(self):
        """16 to 64 bytes are two octaves wide, and misses of 8, 7 and 5 have their heights."""
        root = ElementTree.fromstring(picture(WORKED, "--misses").stdout)
        lines = [line.get("points").split() for line in root.iter(SVG + "polyline")]
        (x16, y8), (x32, y7) = [tuple(map(float, point.split(","))) for point in lines[0]]
        (x32_again, y8_again), (x64, y5) = [tuple(map(float, point.split(","))) for point in lines[1]]
        self.assertEqual((x32, y8), (x32_again, y8_again))
        self.assertAlmostEqual(x64 - x32, x32 - x16)
        self.assertAlmostEqual(y5 - y8, 3 * (y7 - y8), delta=0.3)


class Damaged(unittest.TestCase):
    def test_refused(self):
        lines = WORKED.splitlines(keepends=True)
        for table, message in [
            ("refused=6 line=13\n", "the program printed refused=6 line=13"),
            ("", "line 1"),
            ("\n", "line 1"),
            (WORKED[:-1], "may be cut off"),
            (WORKED.replace("edition=2", "edition=3"), "only editions 1 and 2"),
            (WORKED.replace("edition=2", "edition=1"), "line 4 is no line of a table"),
            (WORKED.replace("flushes=0\n", ""), "line 4 is not flushes= and a number"),
            (WORKED.replace("flushes=0", "flushes=00"), "line 4"),
            (WORKED.replace("refs=8", "refs=x"), "line 2"),
            (WORKED.replace("refs=8", "refs=08"), "line 2"),
            ("".join(lines[:2]), "line 3"),
            ("".join(lines[:3]), "line 4"),
            ("".join(lines[:4]), "no cache"),
            ("".join(lines[:-1]), "whole grid"),
            ("".join(lines[:5] + lines[6:]), "whole grid"),
            ("".join(lines + lines[-1:]), "whole grid"),
            ("".join(lines[:4] + lines[:3:-1]), "whole grid"),
            (WORKED.replace("misses=7", "misses=9"), "line 7: more misses than references"),
            (WORKED.replace("misses=7", "misses=-7"), "line 7 is no line of a table"),
            (WORKED.replace("\n", "\r\n"), "line 1"),
            (WORKED.replace("w=2", "w=17"), "no order has this cache"),
            (WORKED + "\n", "is no line of a table"),
            ("<svg/>\n", "line 1"),
        ]:
            for options in [(), ("--words",)]:
                answer = picture(table, *options)
                self.assertEqual((answer.returncode, answer.stdout), (1, ""), table)
                self.assertIn(message, answer.stderr)
                self.assertEqual(answer.stderr.count("\n"), 1)


if __name__ == "__main__":
    unittest.main()
