"""Finding, building and running the sweep program, and the exit status that the kit gives no program."""
import collections
import contextlib
import os
import pathlib
import stat
import subprocess
import sys
import time

from kk import refusals
from kk.table import Malformed, Table

ROOT = pathlib.Path(__file__).resolve().parent.parent.parent
PROGRAM = ROOT / "crates/sweep/out/sweep"
WHOLE, REFUSED, NO_ANSWER = 0, 1, 3  # argparse exits with 2 where a script is called wrongly
CHUNK = 1 << 16
STATUSES = """\
The exit status is 0 only where a whole table was printed; 1 upon a refusal; 2 where the script was called wrongly; 3 where there is no
answer: the input cannot be read, the output not written, the program not built or not run to its end. Standard error says which."""


class NoAnswer(Exception):
    """Why neither a table nor a refusal was printed."""


def build():
    """Builds the program where it is missing or older than a source, and says what is going on meanwhile."""
    sources = list(ROOT.glob("crates/*/src/**/*.rt"))
    if PROGRAM.exists() and PROGRAM.stat().st_mtime >= max((path.stat().st_mtime for path in sources), default=0):
        return
    crates = len({path.relative_to(ROOT).parts[1] for path in sources})
    say("building the program: rt run in crates/sweep proves what it rests on, up to %d crates, and takes some minutes" % crates)
    folder = ROOT / "crates/sweep"
    log = folder / "out/build.log"
    log.parent.mkdir(exist_ok=True)
    begun = told = time.time()
    shown = 0
    with open(log, "wb") as out, open(folder / "stdin") as worked:
        try:
            check = subprocess.Popen(["rt", "run"], cwd=folder, stdin=worked, stdout=out, stderr=out)
        except OSError:
            raise NoAnswer("the kit's command rt is not in the path, and the program is not built")
        while check.poll() is None:
            time.sleep(0.5)
            proved = [line for line in log.read_text(errors="replace").splitlines() if line.startswith("rt: ")]
            for line in proved[shown:]:
                say("  " + line[4:])
            if len(proved) == shown and time.time() - told < 30:
                continue
            if len(proved) == shown:
                say("  still building, after %d seconds" % (time.time() - begun))
            shown, told = len(proved), time.time()
    if check.returncode != 0 or not PROGRAM.exists():
        last = log.read_text(errors="replace").splitlines()[-5:]
        raise NoAnswer("the program could not be built; %s ends:\n  %s" % (log.relative_to(ROOT), "\n  ".join(last)))
    say("built in %d seconds" % (time.time() - begun))


def say(text):
    print(text, file=sys.stderr, flush=True)


def words_of(program):
    """The command that runs a program: the built one by scripts/run-program, a script by itself."""
    with open(program, "rb") as file:
        return [str(program)] if file.read(2) == b"#!" else [str(ROOT / "scripts/run-program"), str(program)]


def opened(name):
    """The file of that name, or standard input for `-`."""
    if sys.stdout is None:
        raise NoAnswer("standard output is closed")
    if name == "-" and sys.stdin is None:
        raise NoAnswer("standard input is closed")
    try:
        return sys.stdin.buffer if name == "-" else open(name, "rb")
    except OSError as why:
        raise NoAnswer("%s cannot be read: %s" % (name, why.strerror))


class Input:
    """What the program is given, and how a line of it is found again. `file` is an open file, or `chunks` an iterator of bytes,
    of which the first `above` lines are an order that the script put there."""

    def __init__(self, file=None, chunks=None, above=0):
        self.regular = file is not None and stat.S_ISREG(os.fstat(file.fileno()).st_mode)
        self.file = file
        self.start = file.tell() if self.regular else 0
        self.chunks = chunks if chunks is not None else iter(lambda: file.read1(CHUNK), b"")
        self.head = b""
        self.above = above
        self.kept = collections.deque(maxlen=256)  # pairs: the number of a chunk's first line, the chunk, small ones joined
        self.lines = 1

    def feed(self, pipe):
        """Writes all to the program, or as much as it takes."""
        with contextlib.suppress(BrokenPipeError):
            for chunk in self.chunks:
                self.keep(chunk)
                pipe.write(chunk)
        with contextlib.suppress(BrokenPipeError):
            pipe.close()

    def keep(self, chunk):
        """Keeps a chunk in mind, and says whether there was one."""
        if len(self.head) < 4096:
            self.head += chunk[:4096]
        if self.kept and len(self.kept[-1][1]) < CHUNK:
            self.kept[-1][1].extend(chunk)
        else:
            self.kept.append((self.lines, bytearray(chunk)))
        self.lines += chunk.count(b"\n")
        return chunk != b""

    def line(self, number):
        """Line `number`, without its LF, or None where the input ends before it. The program has stopped there, so it was given of late."""
        if self.regular:
            self.file.seek(self.start)
            while self.lines <= number and self.keep(self.file.read(CHUNK)):
                pass
        before = [place for place, (first, _) in enumerate(self.kept) if first < number]
        kept = list(self.kept)[before[-1] if before else 0 :]
        lines = b"".join(chunk for _, chunk in kept).split(b"\n")
        place = number - kept[0][0] if kept else 0
        return None if lines[place:] in ([], [b""]) else lines[place]


def answer(program, given):
    """Runs the program and passes on what it prints, byte for byte. Hands back the exit status, and says why it is not 0."""
    start = given.file if given.regular else subprocess.PIPE
    try:
        running = subprocess.Popen(words_of(program), stdin=start, stdout=subprocess.PIPE)
    except OSError as why:
        raise NoAnswer("the program cannot be run: %s" % why)
    if not given.regular:
        given.feed(running.stdin)
    printed = running.stdout.read()
    ended = running.wait()
    write_out(printed)
    if ended != 0:
        raise NoAnswer("the program ended with status %d%s" % (ended, ", by a signal" if ended < 0 else ""))
    if not printed:
        raise NoAnswer("the program printed nothing")
    refused = refusals.parse(printed)
    if refused:
        line = given.line(refused.line)
        for text in refusals.explained(refused, line, given.head, given.above):
            say(text)
        return REFUSED
    try:
        Table(printed.decode("ascii", "replace"))
    except Malformed as why:
        raise NoAnswer("no whole table was printed: %s" % why)
    return WHOLE


def write_out(printed):
    """Writes all to standard output, or says why not."""
    try:
        view = memoryview(printed)
        while view:
            view = view[os.write(1, view) :]
    except BrokenPipeError:
        sys.exit(NO_ANSWER)  # the reader has gone, and knows it
    except OSError as why:
        raise NoAnswer("the output is not whole; standard output cannot be written: %s" % why.strerror)


def failed(script, why):
    """Says why there is no answer, and hands back the exit status for that."""
    say("%s: %s" % (script, why))
    return NO_ANSWER
