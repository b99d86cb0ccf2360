#!/usr/bin/env python3
"""Runs scripts/size: words to an order, counting, what fits, compressed recordings, progress.

The simulator stands in for the program, and the numbers of blocks are counted here from the addresses themselves.
"""
import bz2
import gzip
import lzma
import os
import pathlib
import pty
import random
import shutil
import subprocess
import sys
import tempfile
import unittest

import simulator
import standin

ROOT = pathlib.Path(__file__).resolve().parent.parent
TRACE = (ROOT / "tests/vectors/worked/worked_input.in").read_bytes().partition(b"begin=din\n")[2]


def order(bmin, bmax, smax, ways, room, kinds="all"):
    numbers = "bmin=%d bmax=%d smax=%d ways=%d room=%d refs=4000000000 kinds=%s begin=din" % (bmin, bmax, smax, ways, room, kinds)
    return numbers.replace(" ", "\n") + "\n"


class Size(unittest.TestCase):
    def setUp(self):
        folder = tempfile.TemporaryDirectory()
        self.addCleanup(folder.cleanup)
        self.folder = pathlib.Path(folder.name)
        self.program = standin.script(self.folder / "program", standin.SIMULATOR)

    def size(self, *words, data=TRACE, name=None, **more):
        path = self.folder / (name or "trace.din")
        if data is not None:
            path.write_bytes(data)
        return subprocess.run([ROOT / "scripts/size", "--program", self.program, path, *words], capture_output=True, **more)

    def expect_order(self, words, wanted, data=TRACE):
        ended = self.size("--order", *words.split(), data=data)
        self.assertEqual((ended.returncode, ended.stdout.decode()), (0, wanted), ended.stderr)
        return ended.stderr.decode()

    def test_words(self):
        """The worked trace has 4 blocks of 16 bytes, 3 of 32 and 2 of 64 (by hand: 0, 10, 20, 14 and 40 are its addresses)."""
        for words, wanted in [
            ("16..64 up to 32K 8 ways", order(4, 6, 11, 8, 4)),
            ("8 ways, up to 32K, 16..64", order(4, 6, 11, 8, 4)),
            ("8-way <=32k 16-64 all", order(4, 6, 11, 8, 4)),
            ("UP TO 32KiB blocks of 16 to 64 bytes up to 8 ways", order(4, 6, 11, 8, 4)),
            ("fetch 1..2 ways blocks of 64 up to 1024 bytes", order(6, 6, 4, 2, 1, "fetch")),
            ("instructions 64 bytes up to 100K 1 way", order(6, 6, 10, 1, 1, "fetch")),
            ("data 32-byte up to 32 bytes 16 ways", order(5, 5, 0, 16, 1, "data")),
            ("", order(4, 6, 14, 4, 4)),
        ]:
            self.expect_order(words, wanted)

    def test_words_that_are_none(self):
        for words, said in [
            ("sixteen", "'sixteen' is not understood"),
            ("16..48", "a power of two"),
            ("2..8", "a power of two"),
            ("4..1024", "1 to 8 sizes"),
            ("64..16", "the smaller first"),
            ("17 ways", "1 to 16"),
            ("0 ways", "1 to 16"),
            ("up to 8", "not even one block"),
            ("up to", "is not understood"),
        ]:
            ended = self.size(*words.split())
            self.assertEqual((ended.returncode, ended.stdout), (2, b""), words)
            self.assertIn(said, ended.stderr.decode())

    def test_sets_end(self):
        said = self.expect_order("16..16 up to 1M 2 ways", order(4, 4, 14, 2, 4))
        self.assertIn("16,384 sets are the most, so blocks of 16 bytes end at 262,144 bytes at 1 way, 524,288 at 2", said)

    def test_flushes(self):
        """By hand: blocks of 32 bytes, 3 before the flush and 2 after; where the line is malformed, all 4 stay together."""
        for flush, all_kinds, fetch in [("4 0", 3, 2), ("4\tffffffff  c", 3, 2), ("4 0x0", 4, 3), ("4", 4, 3), ("40 0", 4, 3)]:
            data = ("2 0\n2 20\n0 40\n2 20\n%s\n2 60\n2 0\n" % flush).encode()
            self.expect_order("32..32 up to 32", order(5, 5, 0, 4, all_kinds), data)
            self.expect_order("32..32 up to 32 fetch", order(5, 5, 0, 4, fetch, "fetch"), data)
            self.expect_order("32..32 up to 32", order(5, 5, 0, 4, all_kinds), data[:-1])
        self.expect_order("32..32 up to 32", order(5, 5, 0, 4, 1), b"4 0\n4 0\n")

    def test_flushes_counted(self):
        """Random runs of references: room is the most different blocks in one of them. The table is whole, so no stack was full."""
        for seed in range(4):
            chance = random.Random(seed)
            sizes = [chance.choice([0, 1, 40, 300]) for _ in range(30)]
            runs = [[(chance.choice("0123"), chance.getrandbits(chance.choice([8, 14]))) for _ in range(size)] for size in sizes]
            data = "4 0\n".join("".join("%s %x\n" % ref for ref in run) for run in runs).encode()
            for kinds, labels in [("all", "0123"), ("fetch", "2"), ("data", "01")]:
                need = max(len({address >> 5 for label, address in run if label in labels}) for run in runs)
                self.expect_order("32..64 up to 1K " + kinds, order(5, 6, 5, 4, need, kinds), data)
                ended = self.size("32..64", "up", "to", "64", kinds, data=data)
                self.assertEqual((ended.returncode, ended.stdout.splitlines()[3]), (0, b"flushes=29"))

    def test_counts(self):
        """Random traces with comments, tabs and capitals: room is the number of different blocks of the smallest size."""
        for seed in range(4):
            chance = random.Random(seed)
            refs = [(chance.choice("0123"), chance.getrandbits(chance.choice([8, 12, 32]))) for _ in range(1500)]
            lines = [chance.choice(["%s %x", "%s\t%X c", "%s  %08x \x00 %%"]) % ref for ref in refs]
            chance.shuffle(lines)
            data = "\n".join(lines).encode() + b"\n" * (seed % 2)
            for kinds, labels in [("all", "0123"), ("fetch", "2"), ("data", "01")]:
                needs = {b: len({address >> b for label, address in refs if label in labels}) for b in (5, 6)}
                said = self.expect_order("32..64 up to 1K " + kinds, order(5, 6, 5, 4, needs[5], kinds), data)
                self.assertIn("blocks of 32 bytes need room {:,}\nblocks of 64 bytes need room {:,}\n".format(needs[5], needs[6]), said)

    def test_table(self):
        ended = self.size("16..32", "up", "to", "64", "4", "ways")
        self.assertEqual((ended.returncode, ended.stdout), (0, simulator.sweep(order(4, 5, 2, 4, 4).encode() + TRACE)))
        self.assertIn(b"b=5 s=2 w=4 misses=3\n", ended.stdout)

    def test_what_fits(self):
        """Blocks of 16 bytes: 5,000 fetched and 3,500 read; of 64: 1,250 and 875; the data lie apart."""
        lines = [b"2 %x\n" % (16 * n) for n in range(5000)] + [b"0 %x\n" % (0x1000000 + 16 * n) for n in range(3500)]
        data = b"".join(lines)
        self.expect_order("64..128", order(6, 7, 12, 4, 2125), data)
        ended = self.size("16..64", data=data)
        self.assertEqual((ended.returncode, ended.stdout), (1, b""))
        for words in [
            "blocks of 16 bytes need room 8,500", "3 block sizes x room 8,500 are 25,500, and the program has 8,192",
            "of these sizes fit: 32..32, or 64..64", "with fetch alone fit: 16..16, or 32..64\n", "with data alone fit: 16..32, or 32..64\n",
        ]:  # fmt: skip
            self.assertIn(words, ended.stderr.decode())
        self.assertIn("none of these sizes fits alone; blocks of 32 bytes do", self.size("16..16", data=data).stderr.decode())

    def test_compressed(self):
        wanted = self.size("16..16").stdout
        ways = {"gz": gzip.compress, "xz": lzma.compress, "bz2": bz2.compress, "zst": None}
        for ending, packed in ways.items():
            tool = {"gz": "gzip", "xz": "xz", "bz2": "bzip2", "zst": "zstd"}[ending]
            if not shutil.which(tool):
                continue
            data = packed(TRACE) if packed else subprocess.run(["zstd", "-qc"], input=TRACE, stdout=subprocess.PIPE).stdout
            ended = self.size("16..16", data=data, name="trace.din." + ending)
            self.assertEqual((ended.returncode, ended.stdout), (0, wanted), ended.stderr)
            ended = subprocess.run([ROOT / "scripts/size", "--program", self.program, "-", "16..16"], input=data, capture_output=True)
            self.assertEqual((ended.returncode, ended.stdout), (0, wanted), ended.stderr)
            cut = self.size("16..16", data=data[:-9])
            self.assertEqual((cut.returncode, cut.stdout), (3, b""))
            self.assertIn(b"cannot be decompressed", cut.stderr)

    def test_a_tool_that_is_missing(self):
        (self.folder / "python3").symlink_to(sys.executable)
        ended = self.size(data=gzip.compress(TRACE), env={"PATH": str(self.folder)})
        self.assertEqual(ended.returncode, 3)
        self.assertIn(b"gzip is missing (Debian package gzip)", ended.stderr)

    def test_from_standard_input(self):
        ended = subprocess.run([ROOT / "scripts/size", "--program", self.program, "-", "16..16"], input=TRACE, capture_output=True)
        self.assertEqual((ended.returncode, ended.stdout), (0, self.size("16..16").stdout))

    def test_refusals_and_no_answers(self):
        ended = self.size("16..16", data=TRACE + b"2 0x40\n")
        self.assertEqual((ended.returncode, ended.stdout), (1, b"refused=16 line=17 column=4\n"))
        self.assertIn(b"refused with 16 at line 17 (line 9 of the recording), byte 4: `x` cannot stand in an address", ended.stderr)
        self.assertIn(b"  the line: 2 0x40\n               ^\n", ended.stderr)
        ended = self.size("16..16", data=TRACE + b"2 40 ".ljust(256, b"c"))
        self.assertEqual((ended.returncode, ended.stdout), (1, b"refused=17 line=17 column=256\n"))
        self.assertIn(b"line 17 (line 9 of the recording), byte 256: a trace line has more than 255 bytes\n", ended.stderr)
        lackey = b"lackey_to_din.py"
        for data, said in [(b"bmin=4\n" + TRACE, b"scripts/sweep"), (b"==3== Lackey\n", lackey), (b"I  04001000,3\n", lackey)]:
            ended = self.size(data=data)
            self.assertEqual((ended.returncode, ended.stdout), (3, b""))
            self.assertIn(said, ended.stderr)
        ended = self.size(data=None, name="nowhere")
        self.assertEqual(ended.returncode, 3)
        self.assertIn(b"No such file", ended.stderr)

    def test_progress(self):
        """On a terminal there is progress; otherwise none."""
        self.assertNotIn(b"a second", self.size("16..16").stderr)
        terminal, end = pty.openpty()
        command = [ROOT / "scripts/size", "--program", self.program, self.folder / "trace.din", "16..16"]
        subprocess.run(command, stdout=subprocess.PIPE, stderr=end)
        os.close(end)
        said, more = "", True
        while more:
            try:
                more = os.read(terminal, 65536).decode()
                said += more
            except OSError:  # how a terminal ends
                more = ""
        os.close(terminal)
        self.assertRegex(said, r"counting blocks: 8 lines, [0-9,]+ a second, done")
        self.assertRegex(said, r"sweeping: 8 lines, [0-9,]+ a second, done")

    def test_help(self):
        ended = subprocess.run([ROOT / "scripts/size", "--help"], capture_output=True, text=True)
        self.assertEqual(ended.returncode, 0)
        self.assertIn("up to 32K", ended.stdout)

    @unittest.skipUnless(standin.built_runs(), "the program is not built, or cannot be run here")
    def test_the_program(self):
        wanted = self.size("16..32").stdout
        self.program = standin.BUILT
        ended = self.size("16..32")
        self.assertEqual((ended.returncode, ended.stdout), (0, wanted))


if __name__ == "__main__":
    unittest.main()
