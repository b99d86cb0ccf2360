"""For tests of scripts that run the program: the simulator in its place, so that nothing need be built, and whether the built one runs here."""
import pathlib
import subprocess
import sys

ROOT = pathlib.Path(__file__).resolve().parent.parent
BUILT = ROOT / "crates/sweep/out/sweep"
SIMULATOR = 'exec "%s" "%s" sweep' % (sys.executable, ROOT / "tests/simulator.py")


def script(path, text):
    """Writes a program in sh there."""
    path.write_text("#!/bin/sh\n%s\n" % text)
    path.chmod(0o755)
    return path


def built_runs():
    """Whether the program is built and runs: empty input is refused at line 1."""
    if not BUILT.exists():
        return False
    ended = subprocess.run([ROOT / "scripts/run-program", BUILT], stdin=subprocess.DEVNULL, stdout=subprocess.PIPE, stderr=subprocess.DEVNULL)
    return ended.stdout == b"refused=10 line=1\n"
