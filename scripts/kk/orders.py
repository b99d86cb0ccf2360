"""An order in the words that people use (`fetch 16..64 up to 32K 8 ways`), and the room that fits a recording."""
import re

from kk.refusals import STACK_ENTRIES

NUMBER = r"(\d+)\s*([kmKM]?)(?:i?[bB])?"
WORDS = [  # read from the left, the first that fits
    ("kinds", r"(all|fetch(?:es)?|instructions?|data)(?: kinds| references)?"),
    ("ways", r"(?:up to |1 ?(?:\.\.|-|to) ?)?(\d+)[ -]?ways?"),
    ("up_to", r"(?:up to|<=) ?%s(?: ?bytes)?" % NUMBER),
    ("blocks", r"(?:blocks? (?:of |from )?)?%s ?(?:\.\.\.?|-|to) ?%s(?: ?bytes?)?(?: blocks?)?" % (NUMBER, NUMBER)),
    ("block", r"blocks? (?:of )?%s(?: ?bytes?)?" % NUMBER),
    ("block", r"%s[ -]?bytes?(?: blocks?)?" % NUMBER),
]
SCALE = {"": 1, "k": 1024, "m": 1024**2}


class Unclear(Exception):
    """Why the words are no order."""


class Wish:
    """What was asked for: kinds, block sizes 2^bmin to 2^bmax, set counts to 2^smax, ways. `notes` has what was rounded."""

    def __init__(self, text):
        self.kinds, self.ways, self.bmin, self.bmax = "all", 4, 4, 6
        up_to, text = 256 * 1024, re.sub(r"[\s,]+", " ", text).strip()
        while text:
            for name, pattern in WORDS:
                found = re.match(pattern + r"(?: |$)", text, re.IGNORECASE)
                if found:
                    break
            else:
                raise Unclear("'%s' is not understood; an example: fetch 16..64 up to 32K 8 ways" % text)
            text = text[found.end() :]
            if name == "kinds":
                self.kinds = {"f": "fetch", "i": "fetch", "d": "data", "a": "all"}[found.group(1)[0].lower()]
            elif name == "ways":
                self.ways = int(found.group(1))
            elif name == "up_to":
                up_to = scaled(found.group(1), found.group(2))
            else:
                sizes = [scaled(*pair) for pair in zip(found.groups()[::2], found.groups()[1::2])]
                self.bmin, self.bmax = exponent(sizes[0]), exponent(sizes[-1])
        if not 1 <= self.ways <= 16:
            raise Unclear("%d ways: 1 to 16 can be asked for" % self.ways)
        if self.bmin > self.bmax or self.bmax - self.bmin >= 8:
            raise Unclear("blocks of %d to %d bytes: 1 to 8 sizes, the smaller first, can be asked for" % (2**self.bmin, 2**self.bmax))
        if up_to < 2**self.bmin:
            raise Unclear("up to {:,} bytes: not even one block of {:,} bytes fits in".format(up_to, 2**self.bmin))
        wanted = (up_to // 2**self.bmin).bit_length() - 1
        self.smax = min(wanted, 14)
        self.notes = []
        if wanted > 14:
            most = "{:,} bytes at 1 way, {:,} at {}".format(2 ** (self.bmin + 14), 2 ** (self.bmin + 14) * self.ways, self.ways)
            self.notes.append("16,384 sets are the most, so blocks of %d bytes end at %s" % (2**self.bmin, most))

    def order(self, room):
        numbers = [("bmin", self.bmin), ("bmax", self.bmax), ("smax", self.smax), ("ways", self.ways), ("room", room), ("refs", 4000000000)]
        return "".join("%s=%d\n" % pair for pair in numbers) + "kinds=%s\nbegin=din\n" % self.kinds

    def room(self, needs):
        """The room that the recording needs at all sizes asked for (that of the smallest block, SCOPE N8), or None where it does not fit."""
        room = max(needs[self.bmin], 1)
        return room if (self.bmax - self.bmin + 1) * room <= STACK_ENTRIES else None


def fitting(needs, bmin, bmax):
    """The widest ranges of block exponents, within these, that fit the program together."""
    ranges = []
    for first in range(bmin, bmax + 1):
        count = min(STACK_ENTRIES // max(needs[first], 1), bmax - first + 1, 8)
        if count and not (ranges and first + count - 1 <= ranges[-1][1]):
            ranges.append((first, first + count - 1))
    return ranges


def scaled(digits, letter):
    return int(digits) * SCALE[letter.lower()]


def exponent(size):
    """b of a block size in bytes."""
    if size not in [2**b for b in range(2, 13)]:
        raise Unclear("blocks of {:,} bytes: a power of two, 4 to 4,096, can be asked for".format(size))
    return size.bit_length() - 1
