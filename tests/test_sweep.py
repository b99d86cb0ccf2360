#!/usr/bin/env python3
"""Runs scripts/sweep: its exit status, what it says on standard error, and that standard output stays as it is.

The simulator stands in for the program, so nothing need be built; where the program is built, the last test runs it too.
"""
import contextlib
import gzip
import os
import pathlib
import subprocess
import tempfile
import time
import unittest

import inputs
import simulator
import standin

ROOT = pathlib.Path(__file__).resolve().parent.parent
WORKED = (ROOT / "tests/vectors/worked/worked_input.in").read_bytes()
HEAD, _, TRACE = WORKED.partition(b"begin=din\n")
HEAD += b"begin=din\n"


class Sweep(unittest.TestCase):
    def setUp(self):
        folder = tempfile.TemporaryDirectory()
        self.addCleanup(folder.cleanup)
        self.folder = pathlib.Path(folder.name)
        self.program = self.stub(standin.SIMULATOR)

    def stub(self, text):
        return standin.script(self.folder / "program", text)

    def sweep(self, data=b"", name="-", out=subprocess.PIPE, **more):
        command = [ROOT / "scripts/sweep", "--program", self.program, name]
        return subprocess.run(command, input=data, stdout=out, stderr=subprocess.PIPE, **more)

    def both(self, data):
        """Runs on a file and on a pipe, which must say the same. Hands back the status, standard output and standard error."""
        path = self.folder / "input"
        path.write_bytes(data)
        ended = [self.sweep(data), self.sweep(name=path)]
        self.assertEqual(len({(one.returncode, one.stdout, one.stderr) for one in ended}), 1, ended)
        return ended[0].returncode, ended[0].stdout, ended[0].stderr.decode()

    def expect_refused(self, data, *said):
        status, printed, errors = self.both(data)
        self.assertEqual((status, printed), (1, simulator.sweep(data)))
        for words in said:
            self.assertIn(words, errors)

    def expect_no_answer(self, ended, said):
        self.assertEqual((ended.returncode, ended.stderr.count(b"\n")), (3, 1), ended)
        self.assertIn(said, ended.stderr.decode())

    def test_table(self):
        self.assertEqual(self.both(WORKED), (0, simulator.sweep(WORKED), ""))

    def test_each_refusal(self):
        order = dict(line.split(b"=") for line in HEAD.splitlines())

        def changed(**numbers):
            return b"".join(b"%s=%s\n" % (name, numbers.get(name.decode(), value)) for name, value in order.items()) + TRACE

        self.expect_refused(changed(ways=b"17"), "refused with 1 at line 7", "the line: begin=din", "ways=17 is not within 1 to 16")
        self.expect_refused(changed(bmin=b"5"), "bmin=5 is above bmax=4")
        self.expect_refused(changed(bmin=b"2", bmax=b"10"), "9 block sizes are asked for")
        self.expect_refused(changed(bmax=b"5", room=b"5000"), "refused with 2", "2 block sizes x room=5000 are 10000; room=4096 would fit")
        self.expect_refused(changed(refs=b"7"), "refused with 5 at line 15", "the line: 2 20", "raise refs", "refs=7 is reached")
        self.expect_refused(changed(room=b"3"), "refused with 6 at line 13", "the line: 0 40", "raise room", "blocks of 16 bytes fill room=3", "8192")

    def test_order_hints(self):
        for data, *said in [
            (b"", "refused with 10 at line 1", "the input ends before it", "the input is empty"),
            (gzip.compress(WORKED), "refused with 10", "gzip -dc FILE"),
            (b"\xef\xbb\xbf" + WORKED, "byte order mark", r"the line: \xef\xbb\xbfbmin=4"),
            (WORKED.decode().encode("utf-16"), "UTF-16"),
            (WORKED.replace(b"\n", b"\r\n"), "CR LF", r"the line: bmin=4\r"),
            (TRACE, "the line: 2 0", "the order above it is not whole", "scripts/size"),
            (b"==12== Lackey, an example Valgrind tool\n", "lackey_to_din.py"),
            (b"I  0401ae40,4\n", "lackey_to_din.py"),
            (WORKED.replace(b"smax", b"sets"), "refused with 10 at line 3", "line 3 must be smax= and a number"),
            (WORKED.replace(b"ways=2", b"ways = 2"), "no blanks"),
            (WORKED.replace(b"refs=100", b"refs=1,000"), "without sign, commas"),
            (WORKED.replace(b"begin=din\n", b""), "at line 7", "this is a line of the trace"),
            (HEAD.replace(b"begin=din\n", b"kinds=all\n"), "at line 8", "the input ends before it", "line 8 must be begin=din"),
        ]:
            self.expect_refused(data, *said)

    def expect_told(self, line, *told):
        """All that is said of a trace line, the sixteenth of the input. What follows it is not read."""
        data = WORKED + line + b"\n2 0\n"
        self.assertEqual(self.both(data), (1, simulator.sweep(data), "".join(text + "\n" for text in told)))

    def test_where_a_trace_line_is_wrong(self):
        """The mark stands below the byte as it is shown, or one past the end; the first line says the same in words."""
        mend = "  what to do: mend or cut that line"
        crlf = "  hint: the line ends in CR LF: tr -d '\\r' <FILE | scripts/sweep -"
        missing = "  hint: the address is missing; perhaps the trace was cut here"
        after = "  hint: after an address the line ends, or a blank and a comment follow"
        for line, *told in [
            (
                b"7 40",
                "refused with 14 at line 16, byte 1: `7` cannot stand as a label: 0 to 4 must",
                "  the line: 7 40",
                "            ^",
                mend,
                "  hint: the labels are 0 read, 1 write, 2 fetch, 3 unknown, 4 flush",
            ),
            (
                b"",
                "refused with 14 at line 16, byte 1: the line ends where a label, 0 to 4, must stand",
                "  the line: (empty)",
                "            ^",
                mend,
                "  hint: sed '/^$/d' takes empty lines out",
            ),
            (
                b"\t2 40",
                "refused with 14 at line 16, byte 1: a tab cannot stand as a label: 0 to 4 must",
                "  the line: \\t2 40",
                "            ^^",
                mend,
                "  hint: sed 's/^[ \\t]*//' takes blanks before a label out",
            ),
            (
                b"22 0",
                "refused with 15 at line 16, byte 2: `2` cannot stand right after the label: a space or a tab must",
                "  the line: 22 0",
                "             ^",
                mend,
                "  hint: a label is one digit",
            ),
            (
                b"2",
                "refused with 15 at line 16, byte 2: the line ends where a space or a tab must stand",
                "  the line: 2",
                "             ^",
                mend,
                missing,
            ),
            (
                b"2\r",
                "refused with 15 at line 16, byte 2: a carriage return cannot stand right after the label: a space or a tab must",
                "  the line: 2\\r",
                "             ^^",
                mend,
                crlf,
            ),
            (
                b"2 ",
                "refused with 16 at line 16, byte 3: the line ends where a hex digit must stand",
                "  the line: 2 ",
                "              ^",
                mend,
                missing,
            ),
            (
                b"2 -1",
                "refused with 16 at line 16, byte 3: `-` cannot stand in an address",
                "  the line: 2 -1",
                "              ^",
                mend,
            ),
            (
                b"2 0x10",
                "refused with 16 at line 16, byte 4: `x` cannot stand in an address, nor right after it",
                "  the line: 2 0x10",
                "               ^",
                mend,
                "  hint: addresses are without 0x: sed 's/0[xX]//' takes it out",
            ),
            (
                b"2\t \t1g c",
                "refused with 16 at line 16, byte 6: `g` cannot stand in an address, nor right after it",
                "  the line: 2\\t \\t1g c",
                "                   ^",
                mend,
                after,
            ),
            (
                b"2 10\r",
                "refused with 16 at line 16, byte 5: a carriage return cannot stand in an address, nor right after it",
                "  the line: 2 10\\r",
                "                ^^",
                mend,
                crlf,
            ),
            (
                b"2 10\0",
                "refused with 16 at line 16, byte 5: a zero byte cannot stand in an address, nor right after it",
                "  the line: 2 10\\x00",
                "                ^^^^",
                mend,
                after,
            ),
            (
                b"2 10\x80c",
                "refused with 16 at line 16, byte 5: byte 0x80 cannot stand in an address, nor right after it",
                "  the line: 2 10\\x80c",
                "                ^^^^",
                mend,
                after,
            ),
            (
                b"2 123456789",
                "refused with 16 at line 16, byte 11: `9` is a ninth hex digit, and an address has at most 8",
                "  the line: 2 123456789",
                "                      ^",
                mend,
                "  hint: the last 8 digits are the low 32 bits of an address; keep these",
            ),
            (
                b"2 12345678;c",
                "refused with 16 at line 16, byte 11: `;` cannot stand right after an address",
                "  the line: 2 12345678;c",
                "                      ^",
                mend,
                after,
            ),
        ]:
            self.expect_told(line, *told)

    def test_where_a_long_line_is_wrong(self):
        """What is shown fits 80 columns, so that the mark stays below its byte: 32 characters before it, 48 in all."""
        mend = "  what to do: mend or cut that line"
        self.expect_told(
            b"2".ljust(200) + b"g" + b"c" * 54,
            "refused with 16 at line 16, byte 201: `g` cannot stand in an address",
            "  the line: .. " + " " * 32 + "g" + "c" * 15 + " .. (255 bytes)",
            "               " + " " * 32 + "^",
            mend,
        )
        self.expect_told(
            b"2".ljust(255),
            "refused with 16 at line 16, byte 256: the line ends where a hex digit must stand",
            "  the line: .. " + " " * 32,
            "               " + " " * 32 + "^",
            mend,
            "  hint: the address is missing; perhaps the trace was cut here",
        )
        self.expect_told(
            b"2 1-".ljust(255, b"\0"),
            "refused with 16 at line 16, byte 4: `-` cannot stand in an address, nor right after it",
            "  the line: 2 1-" + r"\x00" * 11 + " .. (255 bytes)",
            "               ^",
            mend,
            "  hint: after an address the line ends, or a blank and a comment follow",
        )
        self.expect_told(
            b"7 0x".ljust(5000, b"c"),
            "refused with 17 at line 16, byte 256: a trace line has more than 255 bytes",
            "  the line: .. " + "c" * 48 + " .. (more than 255 bytes)",
            "               " + " " * 32 + "^",
            "  what to do: shorten its comment, or cut that line",
        )

    def test_trace_hints(self):
        for line, *said in [
            (b" 0 40", "takes blanks before a label out"),
            (b" L 1fff000520,8", "lackey_to_din.py"),
            (b"==7== Exit code: 0", "lackey_to_din.py"),
            (b"# a comment", "no comment lines"),
            (b"r 40", "`r` cannot stand as a label", "the labels are 0 read, 1 write, 2 fetch, 3 unknown, 4 flush"),
            (b"4", "the address is missing"),
            (b"bmin=4", "two orders"),
            (b"\xef\xbb\xbf2 40", "byte 0xef cannot stand as a label", "byte order mark"),
            (b"2 1`", "a backquote cannot stand in an address"),
            (b"2\v40", "a vertical tab cannot stand right after the label"),
            (b"2 40\f", "a form feed cannot stand in an address, nor right after it"),
        ]:
            self.expect_refused(WORKED + line + b"\n2 0\n", "at line 16, byte ", "mend or cut", *said)

    def test_a_line_far_down(self):
        """The offending line is found in a file and in what a pipe gave last, across the edges of what is read at once."""
        far = HEAD.replace(b"refs=100", b"refs=4000000") + b"2 10 a comment that makes the line long\n" * 40000
        said = "refused with 16 at line 40008, byte 6", "the line: 2 bad#\n                 ^\n"
        self.expect_refused(far + b"2 bad#\n" + b"2 20\n" * 9, *said)
        self.expect_refused(far + b"2 bad#", *said)

    def test_a_line_long_before_the_last(self):
        """The offending line is found where lines come one by one and the program begins late."""
        self.stub("sleep 1\n" + standin.SIMULATOR)
        command = [ROOT / "scripts/sweep", "--program", self.program, "-"]
        with subprocess.Popen(command, stdin=subprocess.PIPE, stdout=subprocess.PIPE, stderr=subprocess.PIPE) as sweep:
            with contextlib.suppress(BrokenPipeError):  # where a busy machine makes us slower than the program
                for piece in [HEAD + b"2 0\n2 0x1\n"] + [b"2 0\n"] * 600:
                    sweep.stdin.write(piece)
                    sweep.stdin.flush()
                    time.sleep(0.001)
            printed, errors = sweep.communicate()
        self.assertEqual((sweep.returncode, printed), (1, b"refused=16 line=9 column=4\n"))
        self.assertIn(b"  the line: 2 0x1\n               ^\n", errors)

    def test_no_answer(self):
        self.expect_no_answer(self.sweep(name=self.folder), "Is a directory")
        self.expect_no_answer(self.sweep(name="nowhere"), "No such file")
        with open("/dev/full", "wb") as full:
            self.expect_no_answer(self.sweep(WORKED, out=full), "standard output cannot be written")
        for ending, said in [
            ("exec >&-", "the program printed nothing"),
            ("kill -KILL $$", "ended with status -9, by a signal"),
            ("exit 4", "ended with status 4"),
            ("printf 'refused=14 line=16\\n'", "no whole table was printed: there is no table: the program printed refused=14 line=16"),
            ("printf 'edition=2\\nrefs=8\\n'", "no whole table was printed"),
            ("printf 'edition=2\\nrefs=8\\nskipped=0\\nflushes=0\\nb=4 s=0 w=2 misses=8\\n'", "no whole table was printed"),
        ]:
            self.stub("cat >/dev/null\n" + ending)
            self.expect_no_answer(self.sweep(WORKED), said)
        self.program = self.folder / "none"
        self.expect_no_answer(self.sweep(WORKED), "none")

    def test_a_refusal_that_is_not_known(self):
        for printed, where in [("refused=11 line=8", "line 8"), ("refused=99 line=8 column=3", "line 8, byte 3")]:
            self.stub("cat >/dev/null\necho " + printed)
            status, _, errors = self.both(WORKED)
            told = ["refused with %s at %s: a refusal that this script does not know" % (printed[8:10], where), "  the line: 2 0"]
            self.assertEqual((status, errors.splitlines()[:2]), (1, told))

    def test_closed(self):
        for closed in ("<&-", ">&-"):
            command = '"%s" --program "%s" - %s' % (ROOT / "scripts/sweep", self.program, closed)
            self.expect_no_answer(subprocess.run(command, shell=True, stderr=subprocess.PIPE, input=WORKED), "is closed")

    def test_help_and_wrong_use(self):
        for words, status in [(["--help"], 0), ([], 2), (["one", "two"], 2)]:
            ended = subprocess.run([ROOT / "scripts/sweep", *words], capture_output=True, text=True)
            self.assertEqual(ended.returncode, status)
        ended = subprocess.run([ROOT / "scripts/sweep", "--help"], capture_output=True, text=True)
        self.assertIn("exit status is 0 only where a whole table", ended.stdout)

    def test_building_is_told(self):
        """Where the program is missing, what rt says is told as it comes, and a failure ends with 3."""
        copy = self.folder / "copy"
        for name in ("scripts", "crates/sweep/src"):
            (copy / name).mkdir(parents=True)
        (copy / "crates/sweep/stdin").write_bytes(WORKED)
        subprocess.run(["cp", "-r", ROOT / "scripts/kk", ROOT / "scripts/sweep", ROOT / "scripts/run-program", copy / "scripts"], check=True)
        (copy / "input").write_bytes(WORKED)
        program = self.program.read_text()
        for rt, status, said in [
            ("[ $* = run ] && cmp -s - ../../input && echo rt: lists proved; sleep 1; cp %s out/sweep" % self.program, 0, "  lists proved\n"),
            ("echo it cannot be; exit 1", 3, "build.log ends:\n  it cannot be\n"),
        ]:
            standin.script(self.folder / "rt", rt)
            ways = {**os.environ, "PATH": "%s:%s" % (self.folder, os.environ["PATH"])}
            ended = subprocess.run([copy / "scripts/sweep", copy / "input"], capture_output=True, env=ways)
            self.assertEqual(ended.returncode, status, ended)
            self.assertIn("building the program", ended.stderr.decode())
            self.assertIn(said, ended.stderr.decode())
            if status == 0:
                self.assertEqual(ended.stdout, simulator.sweep(WORKED))
                (copy / "crates/sweep/out/sweep").unlink()
        self.assertEqual(self.program.read_text(), program)

    @unittest.skipUnless(standin.built_runs(), "the program is not built, or cannot be run here")
    def test_the_program(self):
        self.program = standin.BUILT
        self.assertEqual(self.both(WORKED), (0, simulator.sweep(WORKED), ""))
        self.expect_refused(WORKED + b"2 0x1\n", "refused with 16 at line 16, byte 4", "the line: 2 0x1")
        for name, data in list(inputs.fixed_inputs())[:3]:
            self.assertEqual(self.both(data)[:2], (1, simulator.sweep(data)), name)


if __name__ == "__main__":
    unittest.main()
