"""A table as the sweep program prints it (SCOPE P18): read whole or refused, and what its grid says at its edge.

Tables of edition 1, as people keep them, are read too. That edition skipped the lines that flush, and has no `flushes=` line."""
import itertools
import pathlib
import re
import sys

NUMBER = "(0|[1-9][0-9]{0,9})"
HEAD_LINES = {1: 3, 2: 4}  # by edition
GRID_LINE = re.compile("b=%s s=%s w=%s misses=%s" % ((NUMBER,) * 4))
S_MOST, WAYS_MOST = 14, 16  # the limits of smax and ways (SCOPE O3, O4)


class Malformed(Exception):
    """Why a table cannot be read."""


class Table:
    """The counts of a printed table. `misses` maps (b, s, w) to a count; `flushes` is None in edition 1."""

    def __init__(self, text):
        lines = text.split("\n")
        if text.startswith("refused="):
            raise Malformed("there is no table: the program printed %s" % lines[0])
        if lines.pop() != "":
            raise Malformed("the last line lacks its line end: the table may be cut off")
        self.edition = head_number(lines, 1, "edition")
        if self.edition not in HEAD_LINES:
            raise Malformed("line 1: only editions 1 and 2 can be read")
        head = HEAD_LINES[self.edition]
        self.refs = head_number(lines, 2, "refs")
        self.skipped = head_number(lines, 3, "skipped")
        self.flushes = head_number(lines, 4, "flushes") if self.edition > 1 else None
        self.misses = {}
        for number, line in enumerate(lines[head:], head + 1):
            found = GRID_LINE.fullmatch(line)
            if not found:
                raise Malformed("line %d is no line of a table: %r" % (number, line))
            b, s, w, misses = map(int, found.groups())
            if not (2 <= b <= 12 and s <= S_MOST and 1 <= w <= WAYS_MOST):
                raise Malformed("line %d: no order has this cache" % number)
            if misses > self.refs:
                raise Malformed("line %d: more misses than references" % number)
            self.misses.setdefault((b, s, w), misses)
        if not self.misses:
            raise Malformed("the table names no cache")
        first, last = min(self.misses), max(self.misses)
        self.block_sizes = range(first[0], last[0] + 1)
        self.set_exponents = range(last[1] + 1)
        self.ways = range(1, last[2] + 1)
        whole_grid = list(itertools.product(self.block_sizes, self.set_exponents, self.ways))
        if list(self.misses) != whole_grid or len(lines) != head + len(whole_grid):
            raise Malformed("the lines are not the whole grid, b, then s, then w upward")

    @classmethod
    def read(cls, name):
        """The table in a file, or on standard input where the name is `-`."""
        try:
            data = sys.stdin.buffer.read() if name == "-" else pathlib.Path(name).read_bytes()
        except OSError as why:
            raise Malformed("%s cannot be read: %s" % (name, why.strerror))
        return cls(data.decode("ascii", "replace"))

    def caches(self, b):
        """The caches of one block size, smallest first, and of one size those with fewest ways first."""
        grid = itertools.product([b], self.set_exponents, self.ways)
        return sorted(grid, key=lambda cache: (size_of(cache), cache[2]))

    def fewest(self, b):
        """The smallest cache with the fewest misses."""
        return min(self.caches(b), key=self.misses.get)

    def near(self, b):
        """The smallest cache whose misses are at most 1% above the fewest."""
        fewest = self.misses[self.fewest(b)]
        return next(cache for cache in self.caches(b) if 100 * self.misses[cache] <= 101 * fewest)

    def largest(self, b):
        return (b, self.set_exponents[-1], self.ways[-1])


class Edge:
    """Where the fewest misses of a block size stand against the end of what was asked for.

    Where a cache inside the grid has them, with fewer sets and fewer ways than the most asked for, more of either saved nothing, and
    `names` is empty. Else they stand at the edge only, a larger cache may have fewer, and nothing in the table tells: `names` has smax
    where the smallest such cache has s = smax, and ways where it has w = ways. `falling`: a step back from that edge has more misses;
    else the order has one set count, or one number of ways, and no step back. `raisable` are the names whose limit lies higher.
    """

    def __init__(self, table, b):
        self.smax, self.ways = table.set_exponents[-1], table.ways[-1]
        _, s, w = self.cache = table.fewest(b)
        fewest = [cache for cache in table.caches(b) if table.misses[cache] == table.misses[self.cache]]
        inside = any(cache[1] < self.smax and cache[2] < self.ways for cache in fewest)
        at = {"smax": (s == self.smax, self.smax > 0, S_MOST), "ways": (w == self.ways, self.ways > 1, WAYS_MOST)}
        self.names = [name for name, (there, _, _) in at.items() if there and not inside]
        self.falling = any(at[name][1] for name in self.names)
        self.raisable = [name for name in self.names if getattr(self, name) < at[name][2]]

    def advice(self):
        """What to raise, as the end of a sentence."""
        if self.raisable:
            return "raise " + " and ".join("%s (now %d)" % (name, getattr(self, name)) for name in self.raisable)
        most = " and ".join("%s=%d" % (name, getattr(self, name)) for name in self.names)
        return "%s %s the most" % (most, "is" if len(self.names) == 1 else "are")


def head_number(lines, number, name):
    found = re.fullmatch("%s=%s" % (name, NUMBER), lines[number - 1]) if len(lines) >= number else None
    if not found:
        raise Malformed("line %d is not %s= and a number" % (number, name))
    return int(found.group(1))


def size_of(cache):
    """The bytes that a cache holds."""
    b, s, w = cache
    return 2**b * 2**s * w


def several(number, thing, ending="s"):
    return "{:,} {}{}".format(number, thing, "" if number == 1 else ending)
