#!/usr/bin/env python3
"""Runs scripts/lackey_to_din.py on logs written by hand, and scripts/record with a stand-in for valgrind, and with valgrind where it is.

The qemu way is run on Arm programs where qemu-arm and a cross compiler are installed (Debian packages qemu-user, gcc and
gcc-arm-linux-gnueabihf), and on this machine's own where its qemu is; what is left out for want of a package is told.
"""
import os
import pathlib
import platform
import re
import shutil
import subprocess
import sys
import tempfile
import time
import unittest

ROOT = pathlib.Path(__file__).resolve().parent.parent
OPENING = "==7== Lackey, an example Valgrind tool\n==7== Command: x\n==7== \n"
TRACE = "I  0401ae40,4\n L 1fff000520,8\nI  0401ae44,4\n S 00000000,1\n M 04a6fdc0,16\n"
CLOSING = "==7== \n==7== Executed:\n==7==   guest instrs:  {:,}\n==7== \n==7== Exit code:       0\n"
LOG = OPENING + TRACE + CLOSING.format(2)
DIN = "2 401ae40\n0 ff000520\n2 401ae44\n1 0\n0 4a6fdc0\n1 4a6fdc0\n"


def flushed(lines, every):
    """Lines of references, with a line that flushes after every so many."""
    return "".join(line + "4 0\n" * (number % every == 0) for number, line in enumerate(lines, 1))


def convert(log, *options):
    return subprocess.run([ROOT / "scripts/lackey_to_din.py", *options], input=log, capture_output=True, text=True)


class Converted(unittest.TestCase):
    def test_whole(self):
        ended = convert(LOG)
        self.assertEqual((ended.returncode, ended.stdout), (0, DIN))
        for said in ("8 other lines", "1 different addresses were cut", "6 references written"):
            self.assertIn(said, ended.stderr)
        self.assertEqual(convert(LOG[:-1]).returncode, 0)
        warned = convert(OPENING + "--7-- WARNING: unhandled\n" + TRACE + "**7** a word\n==7== Warning\n" + CLOSING.format(2))
        self.assertEqual((warned.returncode, warned.stdout), (0, DIN))

    def test_window(self):
        lines = DIN.splitlines(True)
        for skip in range(8):
            for count in range(1, 8):
                ended = convert(LOG, "--skip", str(skip), "--count", str(count))
                self.assertEqual(ended.stdout, "".join(lines[skip : skip + count]))
                self.assertEqual(ended.returncode, 0 if ended.stdout else 1)
            self.assertEqual(convert(LOG, "--skip", str(skip)).stdout, "".join(lines[skip:]))
        for wrong in (("--skip", "-1"), ("--count", "0"), ("--flush-every", "0"), ("--flush-every", "-1"), ("--flush-every", "x")):
            self.assertEqual(convert(LOG, *wrong).returncode, 2)
        self.assertEqual(convert(OPENING + TRACE, "--count", "6").returncode, 0)
        self.assertEqual(convert(OPENING + TRACE, "--count", "7").returncode, 1)

    def test_flushes(self):
        """A flush after every so many references written, whatever their kind; it is no reference itself."""
        lines = DIN.splitlines(True)
        self.assertEqual(convert(LOG, "--flush-every", "4").stdout, "".join(lines[:4]) + "4 0\n" + "".join(lines[4:]))
        for every in range(1, 8):
            ended = convert(LOG, "--flush-every", str(every))
            self.assertEqual((ended.returncode, ended.stdout), (0, flushed(lines, every)))
            self.assertIn("6 references written", ended.stderr)
            ended = convert(LOG, "--skip", "1", "--count", "4", "--flush-every", str(every))
            self.assertEqual((ended.returncode, ended.stdout), (0, flushed(lines[1:5], every)))

    def test_not_whole(self):
        for log, said in [
            (OPENING + TRACE, "without its closing lines"),
            (OPENING + TRACE + "I  0401", "without its closing lines"),
            ("", "no references"),
            (OPENING + CLOSING.format(0), "no references"),
            (OPENING + TRACE + CLOSING.format(1), "another process"),
            (OPENING + TRACE + "==8== \n" + CLOSING.format(2), "another process"),
            (OPENING + TRACE + "I  04I  0401ae40,4\n" + CLOSING.format(2), "another process"),
        ]:
            ended = convert(log)
            self.assertEqual(ended.returncode, 1, log)
            self.assertIn(said, ended.stderr)

    def test_from_a_file(self):
        with tempfile.NamedTemporaryFile("w") as log:
            log.write(LOG)
            log.flush()
            self.assertEqual(convert("", log.name).stdout, DIN)
        self.assertEqual(convert(LOG, "-").stdout, DIN)
        self.assertEqual(convert("", "nowhere").returncode, 1)

    def test_a_full_disk(self):
        with open("/dev/full", "w") as full:
            ended = subprocess.run([ROOT / "scripts/lackey_to_din.py"], input=LOG, stdout=full, stderr=subprocess.PIPE, text=True)
        self.assertEqual((ended.returncode, ended.stderr.count("\n")), (1, 1))
        self.assertIn("No space left", ended.stderr)

    def test_many(self):
        """Across the edges of what is read at once; a word at each million; and not slower than a microsecond a line."""
        times = 400000
        begun = time.process_time() + sum(os.times()[2:4])
        ended = convert(OPENING + TRACE * times + CLOSING.format(2 * times))
        spent = time.process_time() + sum(os.times()[2:4]) - begun
        self.assertEqual((ended.returncode, ended.stdout == DIN * times), (0, True))
        self.assertIn("\n2,000,000 references\n", "\n" + ended.stderr)
        self.assertEqual(ended.stderr.count(",000,000 references"), 2)
        self.assertLess(spent, 5 * times / 10**6 + 1)
        ended = convert(OPENING + TRACE * times + CLOSING.format(2 * times), "--flush-every", "700001")
        self.assertTrue(ended.stdout == flushed((DIN * times).splitlines(True), 700001))


class Recorded(unittest.TestCase):
    def setUp(self):
        folder = tempfile.TemporaryDirectory()
        self.addCleanup(folder.cleanup)
        self.folder = pathlib.Path(folder.name)

    def write(self, name, text):
        path = self.folder / name
        path.write_text(text)
        path.chmod(0o755)
        return path

    def record(self, *words, path=None):
        ways = {**os.environ, "PATH": path or "%s:%s" % (self.folder, os.environ["PATH"])}
        return subprocess.run([sys.executable, ROOT / "scripts/record", *words], capture_output=True, text=True, env=ways)

    def stub(self, log):
        """A valgrind that writes this log, and what it was called with to standard output."""
        (self.folder / "log").write_text(log)
        find = 'for word; do case $word in --log-fd=*) cat "%s/log" >"/dev/fd/${word#*=}" ;; esac; done\n' % self.folder
        self.write("valgrind", "#!/bin/sh\necho called: $*\n" + find)

    def test_recorded(self):
        self.stub(LOG)
        ended = self.record("true", "one", "--skip", "two")
        self.assertEqual((ended.returncode, ended.stdout), (0, DIN))
        self.assertRegex(ended.stderr, "called: --tool=lackey --trace-mem=yes .*true one --skip two\n")
        self.assertEqual(self.record("--skip", "1", "--count", "2", "true").stdout, "".join(DIN.splitlines(True)[1:3]))
        self.assertEqual(self.record("--skip", "1", "--flush-every", "2", "true").stdout, flushed(DIN.splitlines(True)[1:], 2))

    def test_not_whole(self):
        self.stub(OPENING + TRACE)
        ended = self.record("true")
        self.assertEqual((ended.returncode, ended.stdout), (1, DIN))
        self.assertIn("put another in its place", ended.stderr)

    def test_scripts_are_refused(self):
        self.stub(LOG)
        for first, told in [("#!/bin/sh", "/bin/sh"), ("#!/usr/bin/env python3", "python3"), ("#! /usr/bin/env -S perl -w", "perl -w")]:
            shim = self.write("shim", first + "\necho\n")
            ended = self.record("shim", "an argument")
            self.assertEqual((ended.returncode, ended.stdout), (2, ""))
            self.assertIn("scripts/record %s %s 'an argument'" % (told, shim), ended.stderr)

    def test_missing(self):
        self.assertIn("no program nowhere", self.record("nowhere").stderr)
        ended = self.record("/bin/true", path=str(self.folder))
        self.assertEqual(ended.returncode, 2)
        self.assertIn("valgrind is missing (Debian package valgrind)", ended.stderr)

    def test_help_and_wrong_use(self):
        self.assertEqual(self.record("--help").returncode, 0)
        self.assertEqual(self.record().returncode, 2)
        for wrong in (("--count", "0"), ("--flush-every", "0")):
            self.assertEqual(self.record(*wrong, "true").returncode, 2)

    @unittest.skipUnless(shutil.which("valgrind"), "valgrind is not installed")
    def test_valgrind(self):
        true, shell = shutil.which("true"), shutil.which("sh")
        ended = self.record(true)
        self.assertEqual(ended.returncode, 0, ended.stderr)
        self.assertRegex(ended.stdout, r"\A(?:[012] [0-9a-f]{1,8}\n){1000,}\Z")
        self.assertIn("put another in its place", self.record(shell, "-c", "exec " + true).stderr)
        self.assertIn("another process", self.record(shell, "-c", true + "; " + true).stderr)
        self.assertEqual(self.record("--count", "100", true).stdout.count("\n"), 100)

    def test_another_machine(self):
        """An Arm program goes by qemu, and where that is missing the package is named."""
        self.write("device", "").write_bytes(b"\x7fELF\x01\x01\x01" + bytes(9) + b"\x02\x00\x28\x00" + bytes(32))
        ended = self.record(str(self.folder / "device"), path=str(self.folder))
        self.assertEqual(ended.returncode, 2)
        self.assertIn("qemu-arm is missing (Debian package qemu-user)", ended.stderr)
        self.write("qemu-arm", "#!/bin/sh\n")
        self.assertIn("gcc is missing (Debian package gcc)", self.record(str(self.folder / "device"), path=str(self.folder)).stderr)
        self.write("text", "no program\n")
        self.assertIn("no program that the qemu way knows", self.record("--by", "qemu", str(self.folder / "text")).stderr)


ARM_PROGRAM = """\
    .arm
    .global _start
_start: movw r1, #:lower16:words
    movt r1, #:upper16:words
    mov r2, #3
again: ldr r0, [r1], #4
    subs r2, r2, #1
    bne again
    str r0, [r1]
    mov r7, #1
    mov r0, #0
    svc 0
    .data
words: .word 1, 2, 3, 4
"""
ARM_TOOLS = ["qemu-arm", "gcc", "arm-linux-gnueabihf-gcc"]
OWN = "qemu-" + platform.machine()
BOTH_WAYS = ["valgrind", OWN, "gcc", "nm"]
OWN_PROGRAM = """\
static volatile unsigned words[256];
__attribute__((noinline)) void work(void) { for (int turn = 0; turn < 1000; turn++) words[turn * 7 % 256] += turn; }
int main(void) { work(); return 0; }
"""


class ByQemu(unittest.TestCase):
    setUp, write, record = Recorded.setUp, Recorded.write, Recorded.record

    @unittest.skipUnless(all(map(shutil.which, ARM_TOOLS)), "one of %s is not installed" % ", ".join(ARM_TOOLS))
    def test_an_arm_program(self):
        """Its 16 fetches, 3 loads and a store, in the order that its text has by hand."""
        source, program = self.write("words.s", ARM_PROGRAM), self.folder / "words"
        subprocess.run(["arm-linux-gnueabihf-gcc", "-nostdlib", "-static", "-Wl,--build-id=none", "-o", program, source], check=True)
        ended = self.record(str(program))
        self.assertEqual(ended.returncode, 0, ended.stderr)
        references = [(line[0], int(line[2:], 16)) for line in ended.stdout.splitlines()]
        start, words = references[0][1], references[4][1]
        circle = [[("2", start + 12), ("0", words + 4 * turn), ("2", start + 16), ("2", start + 20)] for turn in range(3)]
        wanted = [("2", start + 4 * place) for place in range(3)] + sum(circle, [])
        wanted += [("2", start + 24), ("1", words + 12)] + [("2", start + 4 * place) for place in (7, 8, 9)]
        self.assertEqual(references, wanted)
        self.assertIn("20 references written", ended.stderr)
        ended = self.record("--skip", "3", "--count", "5", str(program))
        self.assertEqual((ended.returncode, [(line[0], int(line[2:], 16)) for line in ended.stdout.splitlines()]), (0, wanted[3:8]))
        lines = ["%s %x\n" % reference for reference in wanted]
        for every in (1, 4, 20, 21):
            ended = self.record("--flush-every", str(every), str(program))
            self.assertEqual((ended.returncode, ended.stdout), (0, flushed(lines, every)))
            self.assertIn("20 references written", ended.stderr)
        ended = self.record("--skip", "3", "--count", "6", "--flush-every", "2", str(program))
        self.assertEqual((ended.returncode, ended.stdout), (0, flushed(lines[3:9], 2)))

    @unittest.skipUnless(shutil.which(OWN) and shutil.which("gcc"), "%s or gcc is not installed" % OWN)
    def test_this_machine(self):
        true, shell = os.path.realpath(shutil.which("true")), os.path.realpath(shutil.which("sh"))
        ended = self.record("--by", "qemu", true)
        self.assertEqual(ended.returncode, 0, ended.stderr)
        self.assertRegex(ended.stdout, r"\A(?:[012] [0-9a-f]{1,8}\n){1000,}\Z")
        for words, said in [
            ("exec " + true, "put another in its place"),
            (true + "; " + true, "started another"),
            ("(:); :", "started another"),
            ("kill -9 $$", "the recording has no end"),
        ]:
            ended = self.record("--by", "qemu", shell, "-c", words)
            self.assertEqual(ended.returncode, 1, words)
            self.assertIn(said, ended.stderr)
        ended = self.record("--by", "qemu", shell, "-c", "echo a word; exit 3")
        self.assertEqual(ended.returncode, 0)
        self.assertIn("a word\n", ended.stderr)
        self.assertIn("the program ended with status 3", ended.stderr)

    @unittest.skipUnless(all(map(shutil.which, BOTH_WAYS)), "one of %s is not installed" % ", ".join(BOTH_WAYS))
    def test_both_ways(self):
        """What a program itself fetches is the same by lackey and by qemu, whatever its start does (docs/RECORDING.md)."""
        source, program = self.write("own.c", OWN_PROGRAM), self.folder / "own"
        subprocess.run(["gcc", "-O1", "-static", "-no-pie", "-fno-pie", "-o", program, source], check=True)
        symbols = subprocess.run(["nm", "-S", program], stdout=subprocess.PIPE, text=True).stdout
        start, size = (int(word, 16) for word in re.search(r"^(\w+) (\w+) T work$", symbols, re.MULTILINE).groups())
        fetched = []
        for way in ("lackey", "qemu"):
            ended = self.record("--by", way, str(program))
            self.assertEqual(ended.returncode, 0, ended.stderr)
            addresses = [int(line[2:], 16) for line in ended.stdout.splitlines() if line[0] == "2"]
            fetched.append([address for address in addresses if start <= address < start + size])
        self.assertGreater(len(fetched[0]), 1000)
        self.assertTrue(fetched[0] == fetched[1])

    @unittest.skipUnless(shutil.which(OWN) and shutil.which("gcc"), "%s or gcc is not installed" % OWN)
    def test_a_full_disk(self):
        with open("/dev/full", "w") as full:
            command = [ROOT / "scripts/record", "--by", "qemu", os.path.realpath(shutil.which("true"))]
            ended = subprocess.run(command, stdout=full, stderr=subprocess.PIPE, text=True)
        self.assertEqual(ended.returncode, 1)
        self.assertIn("the trace not written", ended.stderr)


if __name__ == "__main__":
    unittest.main()
