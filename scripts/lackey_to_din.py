#!/usr/bin/env python3
"""Turns a memory trace of valgrind's lackey tool into din lines.

    valgrind --tool=lackey --trace-mem=yes --log-file=LOG PROGRAM ARGS..
    scripts/lackey_to_din.py [--skip N] [--count N] [--flush-every N] [LOG] >trace.din       `-`, or no LOG, is standard input

Lackey's I (instruction) becomes label 2, L (load) label 0, S (store) label 1, and M (modify) a load and then a store.
Addresses are cut to their low 32 bits. Sizes are dropped: a reference stands for its first byte. `--skip` leaves out the
first N references, and `--count` stops after N more. `--flush-every` writes a line that flushes, `4 0`, after every N references
written. Other lines of the log are passed over. Standard error has a line for every million references, and says how many of each
there were.

The exit status is 0 only where the recording is whole: 1 where the log has no references, ends without its closing lines (the program
was ended, or put another in its place), or has lines of another process (the program started one). `--count` asks for no closing lines.
"""
import argparse
import os
import re
import sys

LACKEY_LINE = re.compile(rb"(I | L| S| M) ([0-9a-f]+),[0-9]+")
LABELS = {b"I ": (2,), b" L": (0,), b" S": (1,), b" M": (0, 1)}
TOLD_BY_VALGRIND = re.compile(rb"(?:==|--|\*\*)([0-9]+)(?:==|--|\*\*)(?:.*\bguest instrs: +([0-9,]+)|( Exit code:).*|.*)", re.DOTALL)
FLUSH = b"4 0\n"
CHUNK = 1 << 22
MANY = 1 << 20  # different lines kept in mind
MILLION = 1000000


class Converter(dict):
    """Turns a log into din, chunk by chunk: from a line of the log to its din lines. Programs go in circles, so each different line is
    read once and then looked up."""

    def __init__(self):
        self.rest = b""
        self.high = set()  # the addresses above 32 bits
        self.other_lines = self.broken = self.instructions = 0
        self.processes, self.told_instructions, self.closed = set(), None, False

    def convert(self, chunk):
        """The din lines of a chunk; an empty one is the end of the log."""
        whole, _, after = (b"\n" + self.rest + chunk).rpartition(b"\n") if chunk else (b"\n" + self.rest, None, b"")
        self.rest = after
        if len(self) > MANY:
            self.clear()
        self[b""] = b""
        lines = whole.split(b"\n")
        made = b"".join(map(self.__getitem__, lines))
        self.instructions += whole.count(b"\nI ")
        self.other_lines += len(lines) - 1 - lines[1:].count(b"") - made.count(b"\n") + whole.count(b"\n M ")
        return made

    def __missing__(self, line):
        found = LACKEY_LINE.fullmatch(line)
        if not found:
            self.told(line)
            return b""
        address = int(found.group(2), 16)
        self.high.update([address] if address > 0xFFFFFFFF else [])
        made = self[line] = b"".join(b"%d %x\n" % (label, address & 0xFFFFFFFF) for label in LABELS[found.group(1)])
        return made

    def told(self, line):
        """A line that is no reference."""
        told = TOLD_BY_VALGRIND.fullmatch(line)
        if not told:
            self.broken += 1
            return
        self.processes.add(told.group(1))
        if told.group(2):
            self.told_instructions = int(told.group(2).replace(b",", b""))
        self.closed = self.closed or told.group(3) is not None

    def ills(self):
        """Why the recording is not whole, as a list of sentences."""
        if not self.closed:
            return ["the log ends without its closing lines: the program was ended, or put another in its place"]
        if len(self.processes) > 1 or self.broken or self.instructions > (self.told_instructions or 0):
            return ["the log has lines of another process: the program started one, whose references are here in part"]
        return []


class Window:
    """Writes the references from `skip` on, `count` of them or all, with a flush after every so many, and tells of every million."""

    def __init__(self, skip, count, flush_every):
        self.skip, self.left, self.flush_every = skip, count, flush_every
        self.written = 0

    def write(self, text):
        """Says whether more are wanted."""
        if self.skip or self.left is not None:
            lines = text.splitlines(True)
            wanted = lines[self.skip :][: self.left]
            self.skip = max(0, self.skip - len(lines))
            self.left = None if self.left is None else self.left - len(wanted)
            text = b"".join(wanted)
        sys.stdout.buffer.write(self.with_flushes(text) if self.flush_every else text)
        before, self.written = self.written, self.written + text.count(b"\n")
        for million in range(before // MILLION + 1, self.written // MILLION + 1):
            say("{:,} references".format(million * MILLION))
        return self.left != 0

    def with_flushes(self, text):
        lines, every, made = text.splitlines(True), self.flush_every, []
        for start in range(-(self.written % every), len(lines), every):
            made += lines[max(start, 0) : start + every]
            made += [FLUSH] * (start + every <= len(lines))
        return b"".join(made)


def say(text):
    print(text, file=sys.stderr, flush=True)


def main():
    parser = argparse.ArgumentParser(description=__doc__, formatter_class=argparse.RawDescriptionHelpFormatter)
    parser.add_argument("log", nargs="?", default="-", metavar="LOG", help="the log; - is standard input")
    parser.add_argument("--skip", type=int, default=0, metavar="N", help="leave out the first N references")
    parser.add_argument("--count", type=int, metavar="N", help="stop after N references")
    parser.add_argument("--flush-every", type=int, metavar="N", help="flush after every N references")
    chosen = parser.parse_args()
    if chosen.skip < 0 or any(number is not None and number < 1 for number in (chosen.count, chosen.flush_every)):
        parser.error("--skip is at least 0, and --count and --flush-every at least 1")
    converter, window = Converter(), Window(chosen.skip, chosen.count, chosen.flush_every)
    try:
        log = sys.stdin.buffer if chosen.log == "-" else open(chosen.log, "rb")
        chunk, more = b"-", True
        while chunk and more:
            chunk = log.read1(CHUNK)
            more = window.write(converter.convert(chunk))
        sys.stdout.buffer.flush()
    except OSError as why:
        say("lackey_to_din.py: %s" % why)
        os._exit(1)  # without a second try to write what could not be written
    say("%d other lines passed over" % converter.other_lines)
    say("%d different addresses were cut to their low 32 bits" % len(converter.high))
    say("%d references written" % window.written)
    ills = [] if chosen.count is not None and window.left == 0 else converter.ills()
    if not window.written:
        ills.append("there are no references")
    for ill in ills:
        say("lackey_to_din.py: %s" % ill)
    sys.exit(1 if ills else 0)


if __name__ == "__main__":
    try:
        main()
    except KeyboardInterrupt:
        sys.exit(130)
