#!/usr/bin/env python3
"""An independent simulator, written from SCOPE, "The cache being counted" and "Program, order lines and din lines".

It is meant to be obviously right. Each cache is simulated by itself, with a list of blocks for each set.
There are no stacks here and no counts by depth.

    simulator.py sweep <INPUT             what the sweep program must print for these bytes
    simulator.py strip B S <ADDRESSES     the hex addresses that stripping keeps, one per line
    simulator.py misses B S W <ADDRESSES  the misses of one cache; the word `flush` among them empties it
"""
import collections
import io
import re
import sys

LINE_BYTES = 255  # the line buffer; the LF is not counted
STACK_ENTRIES = 8192  # block sizes times room, in this program
MOST_LINES = 4294967295

ORDER_NAMES = [b"bmin", b"bmax", b"smax", b"ways", b"room", b"refs"]
COUNTED_LABELS = {b"all": b"0123", b"fetch": b"2", b"data": b"01"}
FLUSH_LABEL = b"4"
FLUSH = "flush"  # stands among the addresses where every cache is emptied

NUMBER = rb"(0|[1-9][0-9]{0,9})"
KINDS_LINE = re.compile(rb"kinds=(all|fetch|data)")
TRACE_LINE = re.compile(rb"([0-4])[ \t]+([0-9a-fA-F]{1,8})(?:[ \t].*)?", re.DOTALL)
ENDINGS = [b"", b"0", b" 0", b"0 0"]  # whatever a trace line may begin with, one of these makes a whole one of it


class Cache:
    """One cache: blocks of 2^b bytes, 2^s sets, w ways. Each set is a list of block numbers, most recent first."""

    def __init__(self, b, s, w):
        self.block_bytes = 2**b
        self.set_count = 2**s
        self.ways = w
        self.sets = collections.defaultdict(list)

    def reference(self, address):
        """Takes one reference. Says whether it is a miss."""
        block = address // self.block_bytes
        blocks = self.sets[block % self.set_count]
        miss = block not in blocks
        if not miss:
            blocks.remove(block)
        blocks.insert(0, block)
        del blocks[self.ways :]
        return miss

    def flush(self):
        """Empties every set."""
        self.sets.clear()


def misses(given, b, s, w):
    """How many references miss in the cache (b, s, w), empty at the start. `given` are addresses and flushes."""
    cache, missed = Cache(b, s, w), 0
    for one in given:
        if one == FLUSH:
            cache.flush()
        else:
            missed += cache.reference(one)
    return missed


def strip(addresses, b, s):
    """The references that miss in the direct-mapped cache of 2^s sets, in order. A strip knows no flush."""
    cache = Cache(b, s, 1)
    return [address for address in addresses if cache.reference(address)]


class Refused(Exception):
    """A refusal: its number, its line and, where a trace line is malformed, the column. Lines and columns (bytes) count from 1."""


class Lines:
    """The lines of the input, each without its LF, and the number of the line read last."""

    def __init__(self, stream):
        self.stream = stream
        self.number = 0

    def next(self):
        """The next line, or None where the input has ended."""
        line = self.stream.readline()
        if line == b"":
            return None
        self.number += 1
        if self.number > MOST_LINES:
            raise Refused(26, self.number)
        return line[:-1] if line.endswith(b"\n") else line

    def next_order_line(self):
        """The next line. The begin line has not come yet, so the end of the input is refused one past the last line."""
        line = self.next()
        if line is None:
            raise Refused(10, self.number + 1)
        if len(line) > LINE_BYTES:
            raise Refused(10, self.number)
        return line

    def next_trace_line(self):
        """The label and the address of the next line, or None where the input has ended."""
        line = self.next()
        if line is None:
            return None
        if len(line) > LINE_BYTES:
            raise Refused(17, self.number, LINE_BYTES + 1)
        found = TRACE_LINE.fullmatch(line)
        if not found:
            column = wrong_column(line)
            raise Refused({1: 14, 2: 15}.get(column, 16), self.number, column)  # a label is one byte, and a gap comes next
        return found.group(1), int(found.group(2), 16)


def wrong_column(line):
    """Where the first byte stands that cannot stand there, in a line that is no trace line; one past the end where each can."""
    for column in range(1, len(line) + 1):
        if not any(TRACE_LINE.fullmatch(line[:column] + ending) for ending in ENDINGS):
            return column
    return len(line) + 1


def read_order(lines):
    """The six numbers by name and the labels that count, from the order lines up to the begin line."""
    order = {}
    for name in ORDER_NAMES:
        found = re.fullmatch(name + b"=" + NUMBER, lines.next_order_line())
        if not found:
            raise Refused(10, lines.number)
        order[name.decode()] = int(found.group(1))
    kinds = b"all"
    line = lines.next_order_line()
    found = KINDS_LINE.fullmatch(line)
    if found:
        kinds = found.group(1)
        line = lines.next_order_line()
    if line != b"begin=din":
        raise Refused(10, lines.number)
    if not within_limits(**order):
        raise Refused(1, lines.number)
    if (order["bmax"] - order["bmin"] + 1) * order["room"] > STACK_ENTRIES:
        raise Refused(2, lines.number)
    return order, COUNTED_LABELS[kinds]


def within_limits(bmin, bmax, smax, ways, room, refs):
    """Whether the six numbers are an order."""
    return (
        2 <= bmin <= 12
        and 2 <= bmax <= 12
        and bmin <= bmax
        and bmax - bmin + 1 <= 8
        and 0 <= smax <= 14
        and 1 <= ways <= 16
        and 1 <= room <= 1048576
        and 1 <= refs <= 4000000000
    )


def read_trace(lines, order, counted_labels):
    """The addresses of the references taken, with the flushes among them, and how many lines were skipped."""
    given, taken, skipped = [], 0, 0
    blocks_seen = {b: set() for b in range(order["bmin"], order["bmax"] + 1)}  # since the last flush
    while True:
        read = lines.next_trace_line()
        if read is None:
            return given, skipped
        label, address = read
        if label == FLUSH_LABEL:
            given.append(FLUSH)
            for seen in blocks_seen.values():
                seen.clear()
            continue
        if label not in counted_labels:
            skipped += 1
            continue
        if taken == order["refs"]:
            raise Refused(5, lines.number)
        for b, seen in blocks_seen.items():
            if address // 2**b not in seen and len(seen) == order["room"]:
                raise Refused(6, lines.number)
        for b, seen in blocks_seen.items():
            seen.add(address // 2**b)
        given.append(address)
        taken += 1


def sweep(data):
    """The whole output of the sweep program, as bytes, for `data` on standard input."""
    lines = Lines(io.BytesIO(data))
    try:
        order, counted_labels = read_order(lines)
        given, skipped = read_trace(lines, order, counted_labels)
    except Refused as refusal:
        return b" ".join(b"%s=%d" % pair for pair in zip([b"refused", b"line", b"column"], refusal.args)) + b"\n"
    flushes = given.count(FLUSH)
    table = [b"edition=2\n", b"refs=%d\n" % (len(given) - flushes), b"skipped=%d\n" % skipped, b"flushes=%d\n" % flushes]
    for b in range(order["bmin"], order["bmax"] + 1):
        for s in range(order["smax"] + 1):
            for w in range(1, order["ways"] + 1):
                table.append(b"b=%d s=%d w=%d misses=%d\n" % (b, s, w, misses(given, b, s, w)))
    return b"".join(table)


def main(job="", *numbers):
    if {"sweep": 0, "strip": 2, "misses": 3}.get(job) != len(numbers):
        sys.exit(__doc__)
    if job == "sweep":
        sys.stdout.buffer.write(sweep(sys.stdin.buffer.read()))
        return
    given = [word if word == FLUSH else int(word, 16) for word in sys.stdin.read().split()]
    if job == "strip":
        for address in strip(given, *map(int, numbers)):
            print("%x" % address)
    else:
        print(misses(given, *map(int, numbers)))


if __name__ == "__main__":
    main(*sys.argv[1:])
