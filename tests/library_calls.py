"""Sequences of library calls for scripts/compare-library: fixed by name, random by seed, and what each call must print.

A sequence is a list of steps. A step is a tuple: a word, its numbers and its slices, as `library_driver.c` reads them:

    ("tables", state, stacks, counts)    the slices that the calls after it are lent, foreign or not
    ("open", bmin, bmax, smax, ways, room, refs)         ("take", address)         ("flush",)
    ("misses", b, s, w, misses)                          ("ratios", b, s, w, ratios)
    ("strip", b, s, addresses, filter, output, kept)

A state has 15 entries, `misses` and `kept` one and `ratios` two, for what is lent by its pointer alone. Before `tables` the
state is of zeros and the tables are empty. Calls after one another work on the same slices. Random addresses use few blocks in few sets, so that they collide, and
small rooms and ceilings, so that 5 and 6 come.
"""
import itertools
import random
import struct

import library_model as library
import simulator

STATE_NUMBERS = 15
FIXED = {("tables", 1), ("misses", 4), ("ratios", 4), ("strip", 6)}  # the places of a step whose length is fixed
ANSWERS = {
    "open": {0, 1, 2, 3},
    "take": {0, 1, 2, 3, 4, 5, 6, 7},
    "flush": {0, 1, 2, 4},
    "misses": {0, 1, 3, 4, 8, 7},
    "ratios": {0, 1, 3, 4, 8, 7, 9},
    "strip": {0, 1, 12, 13},
}
TELLING_NUMBERS = [
    0, 1, 2, 3, 4, 7, 8, 9, 12, 13, 14, 15, 16, 17, 1048576, 1048577, 2**31 - 1, 2**31, 4000000000, 4000000001,
    2**32 - 2, 2**32 - 1,
]  # fmt: skip
WORKED = [0x0, 0x10, 0x20, 0x0, 0x14, 0x40, 0x0, 0x20]
FLUSH = ("flush",)


# What the steps look like.


def step_text(step):
    return " ".join([step[0]] + [slice_text(part) if isinstance(part, list) else str(part) for part in step[1:]])


def slice_text(numbers):
    return " ".join(map(str, [len(numbers), *numbers]))


def bits_of(number):
    return struct.unpack("<Q", struct.pack("<d", number))[0]


# What the library must do.


class Sequence:
    """Steps, and the line that the driver must print for each call, by the model and by the simulator."""

    def __init__(self, steps=()):
        self.steps, self.lines, self.answers = [], [], []
        self.state, self.stacks, self.counts = [0] * STATE_NUMBERS, [], []
        self.history = None  # the references and flushes since an opening, all handed on; None where something is foreign
        for step in steps:
            self.add(*step)

    def add(self, word, *parts):
        self.steps.append((word, *parts))
        if word == "tables":
            self.state, self.stacks, self.counts = map(list, parts)
            self.history = None
            return
        answer, slices = getattr(self, word)(*parts)
        self.answers.append((word, answer))
        self.lines.append("answer %d " % answer + " ".join(name + " " + slice_text(part) for name, part in slices))

    def open(self, *order):
        answer, state, self.stacks, self.counts = library.open_(order, self.stacks, self.counts)
        self.state = numbers_of(state)
        self.history = None if answer else []
        return answer, self.tables()

    def take(self, address):
        given = state_of(self.state)
        answer, state, self.stacks, self.counts = library.take(given, self.stacks, self.counts, address)
        self.state = numbers_of(state)
        if self.history is not None:
            agree(answer not in (4, 7), "4 and 7 never come after an opening")
            self.history += [] if answer else [address]
        return answer, self.tables()

    def flush(self):
        answer, state, self.stacks = library.flush(state_of(self.state), self.stacks)
        self.state = numbers_of(state)
        if self.history is not None:
            agree(answer == 0, "a flush after an opening is done")
            self.history.append(simulator.FLUSH)
        return answer, [("state", self.state), ("stacks", self.stacks)]

    def misses(self, b, s, w, misses):
        answer, state, missed, counts = library.misses(state_of(self.state), self.counts, b, s, w)
        if self.history is not None and answer == 0:
            agree(missed == simulator.misses(self.history, b, s, w), "misses of %d, %d, %d" % (b, s, w))
        return answer, [("misses", [missed]), ("state", numbers_of(state)), ("counts", counts)]

    def ratios(self, b, s, w, ratios):
        answer, state, both, counts = library.ratios(state_of(self.state), self.counts, b, s, w)
        return answer, [("ratios", list(map(bits_of, both))), ("state", numbers_of(state)), ("counts", counts)]

    def strip(self, b, s, addresses, filter_, output, kept):
        answer, count, filter_, output = library.strip(addresses, b, s, filter_, output)
        if answer == 0:
            agree(output[:count] == simulator.strip(addresses, b, s), "strip at %d, %d" % (b, s))
        return answer, [("kept", [count]), ("list", addresses), ("filter", filter_), ("out", output)]

    def tables(self):
        return [("state", self.state), ("stacks", self.stacks), ("counts", self.counts)]


class ModelsDiffer(Exception):
    """The model of the library and the simulator, or a sentence of SCOPE, disagree: the model is wrong."""


def agree(holds, about):
    if not holds:
        raise ModelsDiffer(about)


def state_of(numbers):
    return library.State(*numbers[:7], tuple(numbers[7:]))


def numbers_of(state):
    return [*state[:7], *state.used]


# Fixed sequences.


def fixed_sequences():
    """Pairs of a name and steps."""
    order = (4, 5, 2, 4, 8, 100)
    grid = [("misses", b, s, w, [9]) for b in (4, 5) for s in (0, 1, 2) for w in (1, 2, 3, 4)]
    yield "the grid of the worked trace", opened(order) + takes(WORKED) + grid
    yield "the ratios of the worked trace", opened(order) + takes(WORKED) + [("ratios", 4, 1, 2, [1, 2])]
    yield "no references taken", opened(order) + [("misses", 4, 0, 1, [9]), ("ratios", 4, 0, 1, [1, 2])]
    filled = opened((4, 4, 1, 2, 5, 100)) + takes(16 * n for n in range(5))
    yield "room 5 exactly filled, then a new block and an old one", filled + takes([80, 0])
    yield "refs reached", opened((4, 4, 1, 2, 5, 3)) + takes([0, 0, 16, 0, 99])
    yield "a flush between references", opened(order) + takes(WORKED) + [FLUSH] + takes(WORKED) + grid
    yield "flushes first, twice and last", opened(order) + [FLUSH, FLUSH] + takes(WORKED) + [FLUSH] + grid
    yield "room 5 exactly filled, then a flush, and filled again", filled + [FLUSH] + takes(16 * n for n in range(9, 15))
    yield "refs reached, then a flush", opened((4, 4, 1, 2, 5, 3)) + takes([0, 0, 16]) + [FLUSH] + takes([0])
    yield "the last address", opened((2, 2, 14, 1, 1, 9)) + takes([0xFFFFFFFF] * 2) + [("misses", 2, 14, 1, [9])]
    largest = (12, 12, 0, 1, 1048576, 4000000000)
    yield "the largest room", opened(largest) + takes([0, 4096, 0]) + [FLUSH] + takes([4096])
    yield "the largest grid", opened((5, 12, 14, 16, 3, 9)) + takes(WORKED) + [("misses", 12, 14, 16, [9])]
    yield "strips of the worked trace", [("strip", 4, s, WORKED, [7] * 17, [8] * 9, [9]) for s in range(5)]
    yield "strips with too short slices", strips_with_short_slices()
    yield "openings, refused for several reasons", openings_refused_in_order()
    yield "takings, refused for several reasons", takings_refused_in_order()
    yield "flushes, refused for several reasons", flushes_refused_in_order()
    yield "a flush leaves what is not a used entry of the order", flushes_of_foreign_tables()
    yield "questions, refused for several reasons", questions_refused_in_order()
    yield "calls before an opening", [("take", 0), FLUSH, ("misses", 4, 0, 1, [9]), ("ratios", 4, 0, 1, [1, 2])]


def opened(order):
    """An opening over tables of exactly the needed lengths, that held something."""
    state = library.State(*order)
    stacks, counts = [9] * library.stack_needed(state), [9] * library.counts_needed(state)
    return [("tables", [9] * STATE_NUMBERS, stacks, counts), ("open", *order)]


def takes(addresses):
    return [("take", address) for address in addresses]


def strips_with_short_slices():
    for b, s in [(1, 2), (13, 2), (4, 15), (4, 2), (2**32 - 1, 0), (4, 2**32 - 1)]:
        for filter_length in (0, 3, 4, 5):
            for output_length in (0, 4, 5, 6):
                yield "strip", b, s, WORKED, [7] * filter_length, [8] * output_length, [9]


def openings_refused_in_order():
    for order in [(5, 4, 1, 2, 8, 100), (4, 5, 1, 2, 8, 100)]:
        for stacks in (15, 16):
            for counts in (7, 8):
                yield "tables", [9] * STATE_NUMBERS, [5] * stacks, [6] * counts
                yield "open", *order


def takings_refused_in_order():
    """Each of seven reasons holds or does not, in every way; at block size 5 the block is found, at 4 it may be new."""
    for holds in range(2**7):
        reason = [holds >> number & 1 for number in range(7)]
        state = [4, 5, 0, 17 if reason[0] else 1, 2, 3, 3 if reason[4] else 2, 2, 2, 0, 0, 0, 0, 0, 0]
        state[8] += reason[3]
        stacks = [1 if reason[5] else 0, 2, 0, 1]
        counts = [0, 2 if reason[6] else 1]
        yield "tables", state, stacks[: 4 - reason[1]], counts[: 2 - reason[2]]
        yield "take", 0


def flushes_refused_in_order():
    """Each reason holds or does not, in every way; used lengths and references taken are at their most, or one above."""
    for holds in range(2**4):
        reason = [holds >> number & 1 for number in range(4)]
        state = [4, 5, 0, 17 if reason[0] else 1, 2, 3, 3 + reason[3], 2, 2 + reason[2], 0, 0, 0, 0, 0, 0]
        yield "tables", state, [7] * (4 - reason[1]), []
        yield FLUSH


def flushes_of_foreign_tables():
    """Every used length of two block sizes of room 3; entries beyond them, past the needs and other used lengths hold something."""
    for first in range(4):
        for second in range(4):
            yield "tables", [4, 5, 0, 1, 3, 9, 7, first, second, 4, 2**32 - 1, 9, 1, 0, 3], list(range(11, 19)), [5, 6]
            yield FLUSH
            yield "take", 16


def questions_refused_in_order():
    for holds in range(2**6):
        reason = [holds >> number & 1 for number in range(6)]
        taken = 0 if reason[5] else 4
        state = [4, 5, 0, 17 if reason[0] else 1, 2, 4, taken, 2, 2 + reason[2], 0, 0, 0, 0, 0, 0]
        yield "tables", state, [], [taken + reason[4], 0][: 2 - reason[1]]
        for word, value in (("misses", [9]), ("ratios", [9, 9])):
            yield word, 4, reason[3], 1, value


# Random sequences.


def random_sequence(seed, number):
    """Random sequence `number` of `seed`. The same two give the same steps."""
    rng = random.Random("%d/%d" % (seed, number))
    sequence = Sequence()
    rng.choice([handed_on, damaged, damaged, foreign, foreign, stripped])(rng, sequence)
    return sequence


def handed_on(rng, sequence):
    """An opening, and references, flushes and questions after it, with the state handed on each time."""
    order = random_order(rng)
    lend(rng, sequence, order, [telling(rng) for _ in range(STATE_NUMBERS)])
    asked = list(order)
    if rng.random() < 0.1:
        asked[rng.randrange(6)] = telling(rng)
    sequence.add("open", *asked)
    go_on(rng, sequence, order, rng.choice([0, 5, 12, 12, 30]))
    if rng.random() < 0.1:
        sequence.add("open", *random_order(rng))
        go_on(rng, sequence, order, 5)


def damaged(rng, sequence):
    """The same, but now and then something in the state or the tables is changed on the way."""
    order = random_order(rng)
    lend(rng, sequence, order, [0] * STATE_NUMBERS)
    sequence.add("open", *order)
    for _ in range(rng.randint(1, 4)):
        go_on(rng, sequence, order, rng.choice([1, 3, 8, 12]))
        tables = [list(sequence.state), list(sequence.stacks), list(sequence.counts)]
        for _ in range(rng.choice([1, 1, 1, 2])):
            damage(rng, *tables)
        sequence.add("tables", *tables)
    go_on(rng, sequence, order, 6)


def foreign(rng, sequence):
    """A state and tables that no opening made: repeated blocks, used lengths near room, counts near taken."""
    order = random_order(rng)
    taken = rng.choice([0, 1, 2, 5, 5, order[5], order[5] - 1, order[5] + 1])
    used = [rng.choice([0, order[4], order[4], order[4] - 1, rng.randint(0, order[4])]) for _ in range(8)]
    if rng.random() < 0.3:
        sizes = order[1] - order[0] + 1
        used[sizes:] = [telling(rng) for _ in used[sizes:]]  # of block sizes that the order lacks
    lend(rng, sequence, order, [*order, taken, *used])
    if rng.random() < 0.3:
        tables = [list(sequence.state), list(sequence.stacks), list(sequence.counts)]
        damage(rng, *tables)
        sequence.add("tables", *tables)
    go_on(rng, sequence, order, rng.choice([2, 4, 8]))


def stripped(rng, sequence):
    for _ in range(rng.randint(1, 6)):
        b, s = rng.randint(2, 12), rng.choice([0, 1, 1, 2, 2, 3, 4, rng.randint(5, 14)])
        pool = address_pool(rng, [b, b, s, 1, 1, 1])
        addresses = [address(rng, pool, b) for _ in range(rng.choice([0, 1, 5, 12, 30]))]
        held = [block // 2**b + 1 for block in pool] + TELLING_NUMBERS  # a filter that remembers would keep less
        filter_ = [rng.choice(held) for _ in range(near(rng, 2**s))]
        output = [telling(rng) for _ in range(near(rng, len(simulator.strip(addresses, b, s))))]
        if rng.random() < 0.08:
            b, s = rng.choice([(telling(rng), s), (b, telling(rng))])
        sequence.add("strip", b, s, addresses, filter_, output, [rng.getrandbits(64)])


def random_order(rng):
    sizes = rng.choice([1, 1, 1, 2, 2, 3, 8])
    bmin = rng.randint(2, 13 - sizes)
    most_s, most_ways = rng.choice([(3, 4), (3, 4), (3, 4), (14, 16)])
    smax, ways = rng.randint(0, most_s), rng.randint(1, most_ways)
    return [bmin, bmin + sizes - 1, smax, ways, rng.choice([1, 2, 3, 5, 8, 16]), rng.choice([1, 6, 20, 100, 4000000000])]


def lend(rng, sequence, order, state):
    """Tables for an order, nearly always long enough; entries are blocks of some addresses and numbers near taken."""
    needs = library.State(*order)
    pool = address_pool(rng, order)
    blocks = [a // 2**b for a in pool for b in library.block_sizes(needs)] + [0, telling(rng)]
    counts = [0, 0, state[6] - 1, state[6] - 2, state[6], telling(rng)]
    sequence.pool = pool
    sequence.add(
        "tables",
        state,
        [rng.choice(blocks) for _ in range(near(rng, library.stack_needed(needs)))],
        [narrow(rng.choice(counts)) for _ in range(near(rng, library.counts_needed(needs)))],
    )


def go_on(rng, sequence, order, references):
    """References, flushes and questions; sometimes the questions of the grid, in order, at the end."""
    flushes = rng.choice([0, 0, 0.05, 0.2, 0.6])
    for _ in range(references):
        while rng.random() < flushes:
            sequence.add(*FLUSH)
        sequence.add("take", address(rng, sequence.pool, order[0]))
        refused = sequence.answers[-1][1]
        if rng.random() < 0.3:
            ask(rng, sequence, order)
        if refused in (5, 6) and rng.random() < 0.3:
            sequence.add(*FLUSH)
        elif refused and rng.random() < 0.3:
            break
    if rng.random() < 0.2:
        grid = itertools.product(range(order[0], order[1] + 1), range(order[2] + 1), range(1, order[3] + 1))
        for b, s, w in itertools.islice(grid, 30):
            sequence.add("misses", b, s, w, [telling(rng)])


def ask(rng, sequence, order):
    asked = [rng.randint(order[0], order[1]), rng.randint(0, order[2]), rng.randint(1, order[3])]
    if rng.random() < 0.15:
        asked[rng.randrange(3)] = rng.choice([order[0] - 1, order[1] + 1, order[2] + 1, order[3] + 1, 0, telling(rng)])
    if rng.random() < 0.5:
        sequence.add("misses", *asked, [telling(rng)])
    else:
        sequence.add("ratios", *asked, [rng.getrandbits(64), rng.getrandbits(64)])


def damage(rng, state, stacks, counts):
    """Changes one thing in the slices."""
    way = rng.randrange(7)
    if way == 0:
        state[rng.randrange(len(state))] = telling(rng)
    elif way == 1:
        state[6] = narrow(rng.choice([state[6] - 1, state[6] - 2, state[5], state[5] - 1, state[5] + 1, *counts[:9]]))
    elif way == 2:
        state[rng.randrange(7, 15)] = narrow(state[4] + rng.choice([-1, 0, 0, 1]))
    elif way == 3 and stacks:
        stacks[rng.randrange(len(stacks))] = rng.choice([stacks[0], stacks[-1], rng.choice(stacks), telling(rng)])
    elif way == 4 and counts:
        for _ in range(rng.randint(1, 6)):
            counts[rng.randrange(len(counts))] = narrow(state[6] + rng.choice([-2, -1, 0, 1]))
    elif way == 5 and counts:
        counts[rng.randrange(len(counts))] = telling(rng)
    elif way == 6:
        table = rng.choice([stacks, counts])
        table[:] = table[: near(rng, len(table))] + [telling(rng)] * rng.randint(0, 1)


def near(rng, length):
    """A length: most often this one, else a little more or less, or none."""
    if rng.random() < 0.02:
        return 0
    return max(0, length + rng.choice([0] * 8 + [1] * 4 + [5] * 2 + [-1]))


def narrow(number):
    """The nearest number of 32 bits."""
    return min(max(number, 0), 2**32 - 1)


def telling(rng):
    return rng.choice(TELLING_NUMBERS) if rng.random() < 0.7 else rng.getrandbits(32)


def address_pool(rng, order):
    """A few addresses, of which many share a set."""
    bits, shift = order[0], order[2]
    bases = [rng.getrandbits(30) << rng.randint(0, 16) for _ in range(rng.randint(1, 3))]
    how_many = rng.choice([2, 4, 6, 10, 20])
    blocks = [rng.choice(bases) ^ rng.randrange(16) << rng.randint(0, shift) for _ in range(how_many)]
    return [block << bits & 0xFFFFFFFF for block in blocks] + rng.choice([[], [0], [0xFFFFFFFF]])


def address(rng, pool, b):
    return rng.choice(pool) ^ rng.getrandbits(b)
