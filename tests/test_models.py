#!/usr/bin/env python3
"""Checks simulator.py and library_model.py against the numbers of docs/SCOPE.md, and against each other."""
import itertools
import pathlib
import random
import re
import unittest

import library_model as library
import simulator
from simulator import FLUSH

ROOT = pathlib.Path(__file__).resolve().parent.parent
SCOPE = (ROOT / "docs/SCOPE.md").read_text()
WORKED = [0x0, 0x10, 0x20, 0x0, 0x14, 0x40, 0x0, 0x20]
ORDER = (4, 5, 2, 4, 8, 100)
GRID = {  # misses of w = 1, 2, 3, 4, by (b, s)
    (4, 0): [8, 8, 5, 4], (4, 1): [7, 5, 4, 4], (4, 2): [5, 4, 4, 4],
    (5, 0): [6, 4, 3, 3], (5, 1): [4, 3, 3, 3], (5, 2): [3, 3, 3, 3],
}  # fmt: skip


def opened(order, given):
    """State, stack and counts after an opening and these references and flushes, none of them refused."""
    answer, state, stack, counts = library.open_(order, [9] * 70, [9] * 70)
    for one in given:
        assert answer == 0
        if one == FLUSH:
            answer, state, stack = library.flush(state, stack)
        else:
            answer, state, stack, counts = library.take(state, stack, counts, one)
    return answer, state, stack, counts


def runs_of(given):
    """The runs of references between the flushes."""
    runs = [[]]
    for one in given:
        if one == FLUSH:
            runs.append([])
        else:
            runs[-1].append(one)
    return runs


class Printed(unittest.TestCase):
    """What docs/SCOPE.md prints, and what others print of it."""

    def test_worked_input(self):
        """The input on the left gives the output on the right, in SCOPE.md and in README.md."""
        for page in (SCOPE, (ROOT / "README.md").read_text()):
            lines = re.search(r"(?m)(?:^    .*\n)+", page[page.index("    bmin=4  ") :]).group().splitlines()
            pairs = [re.fullmatch(r"    (\S+(?: \S+)?)(?: {2,}(\S.*))?", line).groups() for line in lines]
            data, printed = ("".join(half + "\n" for half in halves if half).encode() for halves in zip(*pairs))
            self.assertEqual(simulator.sweep(data), printed)
            self.assertEqual(data, (ROOT / "tests/vectors/worked/worked_input.in").read_bytes())

    def test_grid(self):
        rows = re.findall(r"(?m)^\| (4|5) \| ([\d ]+) \| ([\d ]+) \| ([\d ]+) \|$", SCOPE)
        printed = {(int(b), s): list(map(int, cell.split())) for b, *cells in rows for s, cell in enumerate(cells)}
        self.assertEqual(printed, GRID)

    def test_refusal_numbers(self):
        """The numbers of SCOPE's table that are given are those of the code, and README.md has advice for each refusal."""
        rows = re.findall(r"(?m)^\| \*\*R\d+\*\* \| (\d+) \| (.*) \|$", SCOPE)
        printed = [int(number) for number, when in rows if not when.startswith("never:")]
        source = (ROOT / "crates/units/src/refusal.rt").read_text()
        coded = re.findall(r"pub const \w+: u32 = (\d+);", source) + re.findall(r"(?m)^    \w+ = (\d+),$", source)
        self.assertEqual(sorted(map(int, coded)), printed)
        advised = re.findall(r"(?m)^\| (\d+) \|", (ROOT / "README.md").read_text())
        self.assertEqual(list(map(int, advised)), printed[1:])


class WorkedTrace(unittest.TestCase):
    def test_grid(self):
        _, state, _, counts = opened(ORDER, WORKED)
        for (b, s), row in GRID.items():
            for w, missed in enumerate(row, 1):
                self.assertEqual(simulator.misses(WORKED, b, s, w), missed)
                self.assertEqual(library.misses(state, counts, b, s, w)[:3], (0, state, missed))

    def test_ratios(self):
        _, state, _, counts = opened(ORDER, WORKED)
        self.assertEqual(library.ratios(state, counts, 4, 1, 2)[2], (0.625, 10.0))

    def test_strip(self):
        kept = [0x0, 0x10, 0x20, 0x40, 0x0]
        self.assertEqual(simulator.strip(WORKED, 4, 2), kept)
        self.assertEqual(simulator.strip(WORKED, 4, 0), WORKED)
        self.assertEqual(library.strip(WORKED, 4, 2, [7] * 5, [8] * 6), (0, 5, [1, 2, 3, 0, 7], kept + [8]))

    def test_flush(self):
        """Flushed between, the trace twice misses twice as often as once: 5 and 5 in (4, 1, 2), and 7 in all without the flush."""
        self.assertEqual(simulator.misses(WORKED + WORKED, 4, 1, 2), 7)
        _, state, stack, counts = opened(ORDER, WORKED + [FLUSH] + WORKED)
        self.assertEqual((state.taken, state.used), (16, (4, 3) + (0,) * 6))
        self.assertEqual(stack[:16], [2, 0, 4, 1, 0, 0, 0, 0, 1, 0, 2, 0, 0, 0, 0, 0])
        for (b, s), row in GRID.items():
            for w, missed in enumerate(row, 1):
                self.assertEqual(simulator.misses(WORKED + [FLUSH] + WORKED, b, s, w), 2 * missed)
                self.assertEqual(library.misses(state, counts, b, s, w)[:3], (0, state, 2 * missed))

    def test_two_way_set(self):
        self.assertEqual(simulator.misses([0, 4, 0, 8, 0], 2, 0, 2), 3)
        self.assertEqual(simulator.misses([0, 4, 8, 0], 2, 0, 2), 4)


class Refusals(unittest.TestCase):
    def test_opening(self):
        for order, stack, counts, answer in [
            ((5, 4, 2, 4, 8, 100), 0, 0, 1), (ORDER, 15, 0, 2), (ORDER, 16, 23, 3),
        ]:  # fmt: skip
            self.assertEqual(
                library.open_(order, [9] * stack, [9] * counts), (answer, library.State(), [9] * stack, [9] * counts)
            )

    def test_opening_leaves_the_rest(self):
        _, state, stack, counts = library.open_(ORDER, [9] * 17, [9] * 26)
        self.assertEqual((stack, counts), ([0] * 16 + [9], [0] * 24 + [9] * 2))
        self.assertEqual(state, library.State(*ORDER))

    def test_taking(self):
        order = (4, 4, 0, 2, 2, 3)
        _, state, stack, counts = opened(order, [0, 16])
        for foreign, tables, address, answer in [
            (state._replace(ways=17), (stack, counts), 0, 1),
            (state, ([0], counts), 0, 2),
            (state, (stack, [0]), 0, 3),
            (state._replace(used=(3,) + (0,) * 7), (stack, counts), 0, 4),
            (state._replace(taken=4), (stack, counts), 0, 4),
            (state._replace(taken=3), (stack, counts), 32, 5),
            (state, (stack, counts), 32, 6),
            (state, (stack, [0, 2]), 0, 7),
            (state, (stack, [2, 1]), 0, 0),
        ]:
            got = library.take(foreign, *tables, address)
            self.assertEqual(got[0], answer)
            if answer:
                self.assertEqual(got[1:], (foreign, *tables))

    def test_flushing(self):
        """Refusals in their order; then what is left: two block sizes of room 3, two and one entry used, junk elsewhere."""
        state = library.State(4, 5, 0, 1, 3, 9, 9, (2, 1, 8, 9, 0, 4, 5, 6))
        stack = [11, 12, 13, 14, 15, 16, 17]
        for foreign, table, answer in [
            (state._replace(ways=17, taken=10), [], 1),
            (state._replace(taken=10), stack[:5], 2),
            (state._replace(taken=10), stack, 4),
            (state._replace(used=(2, 4) + (0,) * 6), stack, 4),
            (state._replace(used=(4, 1) + (0,) * 6), stack[:6], 4),
        ]:
            self.assertEqual(library.flush(foreign, table), (answer, foreign, table))
        emptied = state._replace(used=(0, 0, 8, 9, 0, 4, 5, 6))
        self.assertEqual(library.flush(state, stack), (0, emptied, [0, 0, 13, 0, 15, 16, 17]))
        self.assertEqual(library.flush(emptied, stack), (0, emptied, stack))
        full = state._replace(used=(3, 3) + (0,) * 6)
        self.assertEqual(library.flush(full, stack), (0, full._replace(used=(0,) * 8), [0] * 6 + [17]))

    def test_room_and_refs_after_a_flush(self):
        _, state, stack, counts = opened((4, 4, 0, 2, 2, 4), [0, 16, FLUSH, 32, 48])
        self.assertEqual(library.take(state, stack, counts, 0)[0], 5)
        self.assertEqual(library.take(state._replace(refs=5), stack, counts, 0)[0], 6)
        self.assertEqual(library.take(state._replace(refs=5), stack, counts, 32)[0], 0)
        answer, state, stack = library.flush(state, stack)
        self.assertEqual((answer, state.taken, stack[:2]), (0, 4, [0, 0]))
        self.assertEqual(library.take(state, stack, counts, 0)[0], 5)

    def test_full_stack_of_a_larger_block_size(self):
        state = library.State(4, 5, 0, 1, 2, 9, 2, (1, 2) + (0,) * 6)
        tables = [3, 0, 7, 8], [0, 0]
        self.assertEqual(library.take(state, *tables, 3 * 16), (6, state, *tables))

    def test_topmost_of_repeated_blocks(self):
        state = library.State(4, 4, 0, 4, 4, 9, 3, (4,) + (0,) * 7)
        self.assertEqual(
            library.take(state, [5, 1, 2, 1], [0, 0, 0, 0], 16),
            (0, state._replace(taken=4), [1, 5, 2, 1], [0, 1, 0, 0]),
        )

    def test_questions(self):
        _, state, _, counts = opened(ORDER, WORKED)
        for foreign, table, asked, answer in [
            (state._replace(refs=0), counts, (4, 0, 1), 1),
            (state, counts[:23], (4, 0, 1), 3),
            (state._replace(taken=101), counts, (4, 0, 1), 4),
            (state, counts, (6, 0, 1), 8),
            (state, counts, (4, 3, 1), 8),
            (state, counts, (4, 0, 0), 8),
            (state, counts, (4, 0, 5), 8),
            (state, [5] * 24, (4, 0, 2), 7),
        ]:
            self.assertEqual(library.misses(foreign, table, *asked), (answer, foreign, 0, table))
            self.assertEqual(library.ratios(foreign, table, *asked), (answer, foreign, (0.0, 0.0), table))
        _, state, _, counts = opened(ORDER, [])
        self.assertEqual(library.ratios(state, counts, 4, 0, 1)[0], 9)

    def test_strip(self):
        self.assertEqual(library.strip([0], 1, 0, [7], [8]), (1, 0, [7], [8]))
        self.assertEqual(library.strip([0], 2, 15, [7], [8]), (1, 0, [7], [8]))
        self.assertEqual(library.strip([0], 2, 1, [7], []), (12, 0, [7], []))
        self.assertEqual(library.strip([0, 4], 2, 1, [7] * 3, [8]), (13, 0, [0, 0, 7], [8]))
        self.assertEqual(library.strip([], 2, 1, [7] * 3, [8]), (0, 0, [0, 0, 7], [8]))
        self.assertEqual(library.strip([0xFFFFFFFF], 2, 0, [7], [8]), (0, 1, [1 << 30], [0xFFFFFFFF]))

    def test_too_many_lines(self):
        text = b"bmin=4\nbmax=4\nsmax=0\nways=1\nroom=8\nrefs=9\nbegin=din\n2 0\n" + b"x" * 300
        self.addCleanup(setattr, simulator, "MOST_LINES", simulator.MOST_LINES)
        self.assertEqual(simulator.sweep(text), b"refused=17 line=9 column=256\n")
        simulator.MOST_LINES = 8
        self.assertEqual(simulator.sweep(text), b"refused=26 line=9\n")


class Columns(unittest.TestCase):
    """Where a trace line is wrong."""

    HEAD = b"bmin=4\nbmax=4\nsmax=0\nways=1\nroom=8\nrefs=9\nbegin=din\n"

    def test_by_hand(self):
        for line, number, column in [
            (b"", 14, 1), (b" 2 0", 14, 1), (b"\t2 0", 14, 1), (b"5 0", 14, 1), (b"/ 0", 14, 1), (b"\0", 14, 1), (b"\x80 0", 14, 1),
            (b"begin=din", 14, 1), (b"x" * 255, 14, 1),
            (b"2", 15, 2), (b"22 0", 15, 2), (b"2,0", 15, 2), (b"2\r", 15, 2), (b"2\0 0", 15, 2), (b"2\xa00", 15, 2), (b"4", 15, 2),
            (b"2 ", 16, 3), (b"2\t", 16, 3), (b"2 g", 16, 3), (b"2 \r", 16, 3), (b"4 x", 16, 3), (b"2 0x10", 16, 4), (b"2\t0x10", 16, 4),
            (b"2 \t g", 16, 5), (b"2 10\r", 16, 5), (b"2 10\0", 16, 5), (b"2 10\xff", 16, 5), (b"2 1g0h", 16, 4),
            (b"2 123456789", 16, 11), (b"2 000000010", 16, 11), (b"2 12345678\r", 16, 11), (b"2  123456789", 16, 12),
            (b"2".ljust(254) + b"g", 16, 255), (b"2".ljust(255), 16, 256), (b"2".ljust(247) + b"1234567g", 16, 255),
            (b"2 10 ".ljust(256, b"c"), 17, 256), (b"2 10 ".ljust(300, b"c"), 17, 256), (b"2".ljust(256), 17, 256),
            (b"x" * 256, 17, 256), (b"22 0".ljust(300), 17, 256), (b"2 0x10".ljust(256), 17, 256), (b"\0" * 256, 17, 256),
        ]:  # fmt: skip
            printed = b"refused=%d line=9 column=%d\n" % (number, column)
            self.assertEqual(simulator.sweep(self.HEAD + b"2 0\n" + line + b"\n2 0\n"), printed, line)
            self.assertEqual(simulator.sweep(self.HEAD + b"4 0\n" + (line or b"\n")), printed, line)

    def test_no_column(self):
        for data, printed in [
            (self.HEAD.replace(b"ways=1", b"ways=0"), b"refused=1 line=7\n"),
            (self.HEAD.replace(b"room=8", b"room=8193"), b"refused=2 line=7\n"),
            (self.HEAD.replace(b"refs=9", b"refs=1") + b"2 0\n" * 2, b"refused=5 line=9\n"),
            (self.HEAD.replace(b"room=8", b"room=1") + b"2 0\n2 10\n", b"refused=6 line=9\n"),
            (self.HEAD.replace(b"ways=1", b"ways= 1"), b"refused=10 line=4\n"),
            (self.HEAD.replace(b"ways=1", b"ways=1".ljust(300)), b"refused=10 line=4\n"),
            (self.HEAD.replace(b"begin=din", b"begin=din".ljust(256)) + b"2 0\n", b"refused=10 line=7\n"),
        ]:
            self.assertEqual(simulator.sweep(data), printed)

    def test_what_can_be_continued(self):
        """Of lines of up to 4 bytes: each byte before the column stands there in some trace line of up to 7 bytes, that at it in none."""
        letters = b"25 \tg"
        lines = [bytes(line) for length in range(8) for line in itertools.product(letters, repeat=length)]
        good = {line for line in lines if simulator.TRACE_LINE.fullmatch(line)}
        begun = {line[:end] for line in good for end in range(len(line) + 1)}
        for line in lines:
            if len(line) <= 4 and line not in good:
                stands = [line[:end] in begun for end in range(1, len(line) + 1)] + [False]
                self.assertEqual(simulator.wrong_column(line), stands.index(False) + 1, line)


class Agreement(unittest.TestCase):
    """After an opening the library's answers are those of simulating each cache; seed 1."""

    def test_random_lists(self):
        rng = random.Random(1)
        for number in range(200):
            bmin, smax, ways = rng.randint(2, 11), rng.randint(0, 3), rng.randint(1, 4)
            flushes = number % 3 / 10
            given = [FLUSH if rng.random() < flushes else rng.randrange(12) << rng.randint(2, 12) for _ in range(30)]
            _, state, _, counts = opened((bmin, bmin + 1, smax, ways, 30, 30), given)
            for s in range(smax + 1):
                for b in (bmin, bmin + 1):
                    for w in range(1, ways + 1):
                        missed = simulator.misses(given, b, s, w)
                        self.assertEqual(library.misses(state, counts, b, s, w)[2], missed)
                        self.assertEqual(sum(simulator.misses(run, b, s, w) for run in runs_of(given)), missed)
                self.expect_stripped(given, bmin, s, ways)

    def expect_stripped(self, given, b, s, ways):
        """Each run between flushes by a strip of its own: joined again, the caches of at least as many sets miss as often."""
        kept = []
        for run in runs_of(given):
            left = simulator.strip(run, b, s)
            self.assertEqual(library.strip(run, b, s, [1] * 8, [0] * len(left))[3], left)
            kept += left + [FLUSH]
        for w in range(1, ways + 1):
            self.assertEqual(simulator.misses(kept, b, s, w), simulator.misses(given, b, s, w))
            self.assertEqual(simulator.misses(kept, b, s + 1, w), simulator.misses(given, b, s + 1, w))


if __name__ == "__main__":
    unittest.main()
