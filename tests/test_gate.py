#!/usr/bin/env python3
"""Runs a copy of the gate, .ci/run, with stubs in place of rt and of all that it calls: its last line and its exit status.

The stubs write down that they were called. One of them at a time fails, crashes or is not there, or rt says something else.
"""
import os
import pathlib
import shutil
import subprocess
import tempfile
import unittest

ROOT = pathlib.Path(__file__).resolve().parent.parent
CALLED = 'echo "$0" >>called\n'
GOOD = CALLED + "echo 3 checked, 0 wrong\n"
PYTHON = 'exec sh "$@"\n'  # the stubs of the Python tests are written in sh too
OK = "echo 'rt: ok; handles allowed: none; must-fail edits: 65 refused%s; every proof and must-fail edit was done in this run'\n"
PASSED = "echo 81 passed, 0 failed;"
RT_SAYS = "echo proved lists\n" + OK % "" + PASSED


class Gate(unittest.TestCase):
    def setUp(self):
        folder = tempfile.TemporaryDirectory()
        self.addCleanup(folder.cleanup)
        self.copy = pathlib.Path(folder.name)
        for name in (".ci", "tests", "scripts", "bin"):
            (self.copy / name).mkdir()
        for name in (".ci/run", ".ci/kit"):
            shutil.copy(ROOT / name, self.copy / name)
        for path in [*ROOT.glob("scripts/*"), *ROOT.glob("tests/*.py")]:
            self.write(str(path.relative_to(ROOT)), GOOD)
        self.write("bin/python3", PYTHON)
        self.rt()

    def write(self, name, text):
        path = self.copy / name
        path.write_text("#!/bin/sh\n" + text)
        path.chmod(0o755)

    def rt(self, ci=RT_SAYS, ci_status=0):
        self.write("bin/rt", "echo rt $* >>rt_called\ncase $* in\nci) %s exit %d ;;\nversion) cat .ci/kit ;;\n*) exit 2 ;;\nesac\n" % (ci, ci_status))

    def run_gate(self, ways_to=("/usr/bin", "/bin")):
        """The last line and the status; what was called."""
        for name in ("called", "rt_called"):
            (self.copy / name).write_text("")
        path = os.pathsep.join([str(self.copy / "bin"), *ways_to])
        ended = subprocess.run([self.copy / ".ci/run"], capture_output=True, text=True, env={"PATH": path})
        called = (self.copy / "called").read_text().split()
        return ended.stdout.splitlines()[-1], ended.returncode, called

    def expect(self, passed, failed):
        last, status, _ = self.run_gate()
        self.assertEqual((last, status), ("%d passed, %d failed" % (passed, failed), 1 if failed else 0))

    def expect_some_failed(self):
        last, status, _ = self.run_gate()
        self.assertRegex(last, "^[0-9]+ passed, [1-9][0-9]* failed$")
        self.assertEqual(status, 1)

    def checks(self):
        """The checks that the gate calls beside rt, all of them passing."""
        return self.run_gate()[2]

    def needs_no_build(self):
        """Those of them that are called also where rt ci fails."""
        return [name for name in self.checks() if name.startswith("tests/")]

    def test_all_is_well(self):
        checks = self.checks()
        self.assertEqual(len(checks), len(set(checks)))
        self.assertIn("tests/test_gate.py", checks)
        self.expect(81 + len(checks), 0)  # rt's own, and the checks

    def test_rt_ci_is_plain_and_comes_first(self):
        """It is given all crates, in the checkout itself, as it stands before any check."""
        self.rt("[ -s called ] && exit 1\n" + RT_SAYS)
        self.expect(81 + len(self.checks()), 0)
        self.assertEqual((self.copy / "rt_called").read_text().splitlines(), ["rt version", "rt ci"])

    def test_every_script_that_compares_is_called(self):
        there = [*ROOT.glob("tests/test_*.py"), *ROOT.glob("scripts/compare*"), *ROOT.glob("scripts/check-*")]
        self.assertEqual({str(path.relative_to(ROOT)) for path in there} - set(self.checks()), set())

    def test_each_check_failing(self):
        checks = self.checks()
        for check in checks:
            for ill in ("echo 81 passed, 0 failed\nexit 1\n", "exit 127\n", "kill -KILL $$\n"):
                self.write(check, ill)
                self.expect(80 + len(checks), 1)
            (self.copy / check).unlink()
            self.expect(80 + len(checks), 1)
            self.write(check, GOOD)

    def test_all_checks_failing(self):
        checks = self.checks()
        for check in checks:
            self.write(check, "exit 1\n")
        self.expect(81, len(checks))

    def test_layout(self):
        """Files in another layout are refused by rt ci itself."""
        self.rt("echo rt: run rt fmt in the crate\\'s folder; echo rt: FAILED: lists; echo 80 passed, 1 failed;", 1)
        self.expect(80 + len(self.needs_no_build()), 1)

    def test_bad_edits(self):
        """Edits that cannot be tried fail nothing in rt ci, and each of them the gate. What was built is compared all the same."""
        checks = self.checks()
        for said, bad in [(", 1 bad", 1), (", 12 bad", 12), (", 3 of them only by a limit, 2 bad", 2), (", 3 of them only by a limit", 0)]:
            self.rt("echo rt: note: bad must-fail edits\n" + OK % said + PASSED)
            self.expect(81 + len(checks), bad)
            self.assertEqual(self.run_gate()[2], checks)
        self.rt("echo 'rt: ok; handles allowed: none; must-fail edits: 9 refused, 2 bad; done in this run: 1 of the 26 proofs'\n" + PASSED)
        self.expect(81 + len(checks), 2)

    def test_no_word_of_the_edits(self):
        self.rt(PASSED)
        self.expect(81 + len(self.checks()), 1)

    def test_no_edits(self):
        self.rt("echo 'rt: ok; handles allowed: none; every proof and must-fail edit was done in this run'\n" + PASSED)
        self.expect(81 + len(self.checks()), 0)

    def test_rt_fails(self):
        needs_no_build = len(self.needs_no_build())
        for says, status, passed, failed in [
            ("echo 79 passed, 2 failed;", 1, 79, 2),
            ("echo 81 passed, 0 failed;", 2, 81, 1),
            ("echo 79 passed, 2 failed;", 0, 79, 2),
            (RT_SAYS, 2, 81, 1),
            (OK % ", 5 bad" + "echo 79 passed, 2 failed;", 1, 79, 2),
            ("", 0, 0, 1),
            ("", 2, 0, 1),
            ("echo 81 passed, 0 failed; echo rt: and then something else;", 0, 0, 1),
            ("echo 81 passed, 0 failed, or so;", 0, 0, 1),
            (OK % "" + "echo '81 passed, 0 failed (lists and the crates below alone: not the gate)';", 0, 0, 1),
        ]:
            self.rt(says, status)
            self.expect(passed + needs_no_build, failed)
            self.assertEqual([name for name in self.run_gate()[2] if name.startswith("scripts/")], [])

    def test_rt_is_killed(self):
        self.rt(RT_SAYS + " kill -KILL $$;")
        self.expect_some_failed()

    def test_no_rt(self):
        (self.copy / "bin/rt").unlink()
        tools = [self.copy / "bin" / tool for tool in "sh dirname mktemp cat tail tee sed rm".split()]
        for tool in tools:
            tool.symlink_to(shutil.which(tool.name))
        last, status, _ = self.run_gate(ways_to=[])
        self.assertRegex(last, "^[0-9]+ passed, 1 failed$")  # the proofs
        self.assertEqual(status, 1)

    def test_no_temporary_folder(self):
        self.write("bin/mktemp", "exit 1\n")
        self.expect(0, 1)

    def test_ended_from_outside(self):
        self.rt("kill -TERM $PPID;")
        self.expect_some_failed()


if __name__ == "__main__":
    unittest.main()
