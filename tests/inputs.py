"""Inputs for the sweep program: the stored ones and where their outputs stand, fixed ones by name, and random ones by seed.

Random traces use few blocks in few sets, so that they collide, and small rooms and ceilings, so that 5 and 6 come. Flushes
stand anywhere in them, at their ends, where the ceiling is reached, and just before a stack would overflow. About half of
the random inputs are then damaged: bytes flipped, inserted or deleted, lines repeated, moved or dropped, the end cut off,
lines put in that are wrong in one part or another.
"""
import itertools
import pathlib
import random

ROOT = pathlib.Path(__file__).resolve().parent.parent
ORDER = [b"bmin=4", b"bmax=4", b"smax=1", b"ways=2", b"room=8", b"refs=100"]
BEGIN = b"begin=din"
HEAD = b"\n".join(ORDER + [BEGIN, b""])
TELLING_BYTES = b"\n\n\r\0 \t019afAFgGx/:;@`=-+\x7f\x80\xff\v\f5"
WRONG_BYTES = [b"\0", b"\t", b"\r", b" ", b"2", b"5", b"g", b"\x80", b"\xff"]  # each is wrong somewhere in a trace line
LARGE = 3000  # references in a large random input
FLUSH_LABEL = ord("4")
NUMBERS_AT_A_LIMIT = [
    0, 1, 2, 7, 8, 9, 12, 13, 14, 15, 16, 17, 1024, 1025, 2730, 2731, 4096, 4097, 8192, 8193, 1048576, 1048577,
    4000000000, 4000000001, 2**32 + 2, 2**32 + 8, 9999999999, 10000000000,
]  # fmt: skip


def stored_inputs():
    """Pairs of files: an input, and the whole output that is expected: the vectors, the samples, the program's own run."""
    for stored in sorted(ROOT.glob("tests/vectors/*/*.in")) + sorted(ROOT.glob("samples/*.in")):
        yield stored, stored.with_suffix(".out")
    yield ROOT / "crates/sweep/stdin", ROOT / "crates/sweep/stdout"


def fixed_inputs():
    """Pairs of a name and an input."""
    yield from very_long_lines()
    yield from every_byte_in_some_places()
    yield from wrong_bytes_in_every_place()
    yield from wrong_lines_of_many_lengths()
    yield from every_cut_of_the_worked_input()
    many = b"".join(b"2 %x %s\n" % (n, b"c" * (n * 7 % 251)) for n in range(128)) * 12
    yield "lines across the edges of any read buffer", HEAD.replace(b"refs=100", b"refs=2000") + many


def very_long_lines():
    """Lines of 300,000 bytes before and after the begin line, with and without LF."""
    long = 300000
    for place in range(len(ORDER)):
        lines = list(ORDER)
        lines[place] = lines[place].ljust(long)
        yield "order line %d of 300,000 bytes" % (place + 1), b"\n".join(lines + [BEGIN, b"2 0\n"])
    yield "begin line of 300,000 bytes", b"\n".join(ORDER + [BEGIN.ljust(long), b"2 0\n"])
    yield "order of one endless line", b"b" * long
    for end in (b"", b"\n", b"\n2 0\n"):
        yield "comment of 300,000 bytes", HEAD + b"2 0\n" + b"2 10 ".ljust(long, b"c") + end
        yield "gap of 300,000 bytes", HEAD + b"2" + b" " * long + b"10" + end
        yield "address of 300,000 digits", HEAD + b"2 " + b"0" * long + end
        yield "flush with a comment of 300,000 bytes", HEAD + b"2 0\n" + b"4 0 ".ljust(long, b"c") + end


def every_byte_in_some_places():
    """Each byte value in the places where a line is decided."""
    rest = b"\n".join(ORDER[1:] + [BEGIN, b"2 0\n"])
    for line in (b"%c 1a c", b"2%c1a c", b"2 %c c", b"2 1%c", b"2 1%cc", b"2 12345678%c", b"2 1 %c", b"4%c1a", b"4 %c", b"4 1%cc"):
        for byte in range(256):
            yield "byte %d in trace line %r" % (byte, line), HEAD + b"2 10\n" + line % byte + b"\n2 10\n"
    for line in (b"%cmin=4", b"bmin%c4", b"bmin=%c", b"bmin=1%c", b"bmin=4%c"):
        for byte in range(256):
            yield "byte %d in order line %r" % (byte, line), line % byte + b"\n" + rest
    for line in (b"kinds=al%c", b"kinds=all%c", b"begin=di%c", b"begin=din%c"):
        for byte in range(256):
            yield "byte %d in order line %r" % (byte, line), b"\n".join(ORDER + [line % byte, BEGIN, b"2 0\n"])


def wrong_bytes_in_every_place():
    """Each wrong byte at each column of a trace line, with what stands after it there and with nothing."""
    above = HEAD + b"2 10\n"
    of_255_bytes = b"2".ljust(247) + b"89abcdef"
    places = {b"2 12345678 c": range(1, 14), b"4\t \tF0": range(1, 8), of_255_bytes: [1, 2, 3, 129, 247, 248, 254, 255, 256]}
    for line, columns in places.items():
        for column in columns:
            before, after = line[: column - 1], line[column:]
            yield "line %r cut before column %d" % (line, column), above + before
            for byte in WRONG_BYTES:
                for end in (after + b"\n", b"\n", b""):
                    yield "byte %r at column %d of %r" % (byte, column, line), above + before + byte + end


def wrong_lines_of_many_lengths():
    """Lines that begin well or not, as long as a line may be, and longer."""
    good = [b"2 10 ", b"4 0 ", b"2 ", b"2", b""]
    wrong = [b"2 10\r", b"2 10\0", b"2 123456789 ", b"2 0x10 ", b"22 0 ", b"2,0 ", b"5 0 ", b" 2 0", b"\xff", BEGIN]
    for begin, length, byte in itertools.product(good + wrong, [254, 255, 256, 257, 300], [b"c", b" ", b"\0", b"\x80"]):
        for end in (b"\n2 10\n", b""):
            yield "line %r of %d bytes" % (begin, length), HEAD + b"2 10\n" + begin.ljust(length, byte) + end


def every_cut_of_the_worked_input():
    """The worked input, with a flush after it, ending after each of its bytes."""
    whole = HEAD + b"2 0\n2 10\n2 20\n2 0\n2 14\n0 40\n2 0\n2 20\n4 0\n2 20\n"
    for end in range(len(whole)):
        yield "the worked input cut after %d bytes" % end, whole[:end]


def random_input(seed, number):
    """Random input `number` of `seed`. The same two give the same bytes."""
    rng = random.Random("%d/%d" % (seed, number))
    if number % 250 == 249:
        order = random_order(rng, most_s=6, most_ways=8, rooms=[400, 2000], ceilings=[LARGE])
        return joined(rng, order, trace_lines(rng, order, LARGE))
    if rng.random() < 0.1:
        order = random_order(rng, most_s=14, most_ways=16, rooms=[20, 64], ceilings=[30, 100])
    else:
        order = random_order(rng, most_s=3, most_ways=4, rooms=[1, 3, 5, 8, 16, 64, 64], ceilings=[1, 10, 30, 100, 100])
    if rng.random() < 0.15:
        order[rng.choice(list(order))] = rng.choice(NUMBERS_AT_A_LIMIT)
    data = joined(rng, order, trace_lines(rng, order, rng.choice([0, 1, 5, 10, 12, 12, 25, 30, 30, 40, 60])))
    if rng.random() < 0.5:
        for _ in range(rng.choice([1, 1, 1, 2, 5])):
            data = damaged(rng, data)
    return data


def random_order(rng, most_s, most_ways, rooms, ceilings):
    sizes = rng.choice([1, 1, 1, 2, 3])
    bmin = rng.randint(2, 13 - sizes)
    return {
        "bmin": bmin,
        "bmax": bmin + sizes - 1,
        "smax": rng.randint(0, most_s),
        "ways": rng.randint(1, most_ways),
        "room": rng.choice(rooms),
        "refs": rng.choice(ceilings),
    }


def joined(rng, order, trace):
    """The input of an order and trace lines, nearly always with the last LF."""
    lines = [b"%s=%d" % (name.encode(), number) for name, number in order.items()]
    lines += rng.choice([[], [b"kinds=all"], [b"kinds=fetch"], [b"kinds=data"]])
    return b"\n".join(lines + [BEGIN] + trace) + rng.choice([b"\n"] * 9 + [b""])


def trace_lines(rng, order, count):
    """Well-formed trace lines over few blocks, of which many share a set."""
    b, shift = min(order["bmin"], 12), min(order["smax"], 14)
    bases = [rng.getrandbits(30) << rng.randint(0, 16) for _ in range(rng.randint(1, 4))]
    how_many = 500 if count == LARGE else rng.choice([2, 4, 6, 10, 40])
    blocks = [rng.choice(bases) ^ rng.randrange(16) << rng.randint(0, shift) for _ in range(how_many)]
    labels = rng.choice([b"0122", b"0123", b"01222222"])
    addresses = [(rng.choice(blocks) << b | rng.getrandbits(b)) & 0xFFFFFFFF for _ in range(count)]
    lines = [[trace_line(rng, rng.choice(labels), address)] for address in addresses] + [[]]
    for place in places_of_flushes(rng, order, [address >> b for address in addresses]):
        flushes = [trace_line(rng, FLUSH_LABEL, rng.getrandbits(32)) for _ in range(rng.choice([1, 1, 1, 2, 5]))]
        lines[place][:0] = flushes
    return [line for part in lines for line in part]


def places_of_flushes(rng, order, blocks):
    """The numbers, from 0, of the references that flushes stand before; that past the last is the end of the trace."""
    end = len(blocks)
    way = rng.choice(["none", "few", "many", "ends", "ceiling", "room"])
    if way == "few":
        return rng.sample(range(end + 1), min(end + 1, rng.randint(1, 3)))
    if way == "many":
        return [place for place in range(end + 1) if rng.random() < 0.4]
    if way == "ends":
        return rng.choice([[0], [end], [0, end]])
    if way == "ceiling":  # where every reference counts, refs is reached there
        return [min(order["refs"], end)]
    places, seen = [], set()
    for place, block in enumerate(blocks if way == "room" else []):
        if block not in seen and len(seen) == order["room"]:
            places.append(place)
            seen = set()
        seen.add(block)
    return places


def trace_line(rng, label, address):
    """One of the many ways to write a reference, most often the plain one."""
    if rng.random() < 0.7:
        return b"%c %x" % (label, address)
    digits = rng.choice([b"%x", b"%X", b"%08x"]) % address
    gap = rng.choice([b" ", b"\t", b"  ", b" \t", b" " * rng.randint(1, 240)])
    line = b"%c%s%s" % (label, gap, digits)
    if rng.random() < 0.5:
        line += rng.choice([b" ", b"\t"])
        line += rng.choice([b"", b"comment", b"\r", b"\0\xff", b"c" * max(0, rng.randint(250, 255) - len(line))])
    return line


def wrong_line(rng):
    """A line that is wrong in one part or another, or in none, and perhaps too long."""
    label = rng.choice([b"2", b"2", b"4", b"5", b"22", b" 2", b"\0", b"\xff", b""])
    gap = rng.choice([b" ", b" ", b"\t", b",", b"\r", b"", b" " * rng.randint(1, 260)])
    address = rng.choice([b"10", b"12345678", b"123456789", b"0x10", b"1g", b"g", b"1\0", b""])
    rest = rng.choice([b"", b" c", b"\r", b"\0", b"\x80", b" ".ljust(rng.randint(1, 260), b"c")])
    return label + gap + address + rest


def damaged(rng, data):
    """The input with one thing changed, most often in the trace."""
    head, begin, trace = data.partition(BEGIN + b"\n")
    if trace and rng.random() < 0.85:
        head, data = head + begin, trace
    else:
        head = b""
    way = rng.randrange(7)
    at = rng.randrange(len(data) + 1)
    byte = bytes([rng.choice(TELLING_BYTES)])
    if way == 0:
        return head + data[:at] + byte + data[at + 1 :]
    if way == 1:
        return head + data[:at] + data[at + 1 :]
    if way == 2:
        return head + data[:at] + byte + data[at:]
    if way == 3:
        return head + data[:at]
    lines = data.split(b"\n")
    line = wrong_line(rng) if way == 6 else lines.pop(rng.randrange(len(lines)))
    if way == 4:
        line = line.ljust(rng.randint(254, 257), b"c")
    for _ in range(rng.choice([1, 1, 2])):
        lines.insert(rng.randrange(len(lines) + 1), line)
    return head + b"\n".join(lines)
