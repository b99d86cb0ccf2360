"""What a refusal of the sweep program means (SCOPE, "Refusal numbers"), what to do, and hints for what people really feed it."""
import collections
import re

from kk.lines import marked, named, shown

LIMITS = {  # SCOPE O2 to O6
    "bmin": (2, 12), "bmax": (2, 12), "smax": (0, 14), "ways": (1, 16), "room": (1, 1048576), "refs": (1, 4000000000),
}  # fmt: skip
STACK_ENTRIES = 8192  # block sizes times room, in the program (SCOPE P9)
MEANINGS = {
    1: ("an order number is outside its limits", "mend the order; the limits are in README, \"When it refuses\""),
    2: ("the order needs more than the program's 8,192 stack entries", "lower room, or ask for fewer block sizes"),
    5: ("there are more references than the order's refs", "raise refs (to 4,000,000,000 at most), or cut the trace"),
    6: ("at some block size the block is new and its stack is full", "raise room, ask for larger blocks, or count fewer kinds"),
    10: ("an order line is malformed, out of place or missing", "mend that line"),
    14: ("the label of a trace line is wrong", "mend or cut that line"),
    15: ("the gap after the label of a trace line is wrong", "mend or cut that line"),
    16: ("the address of a trace line is wrong, or the byte right after it", "mend or cut that line"),
    17: ("a trace line has more than 255 bytes", "shorten its comment, or cut that line"),
    26: ("the input has more than 4,294,967,295 lines", "cut the input"),
}
MUST_STAND = {14: "a label, 0 to 4,", 15: "a space or a tab", 16: "a hex digit"}  # at the column of such a refusal
HEX_DIGITS = b"0123456789abcdefABCDEF"
PACKED = {b"\x1f\x8b": "gzip", b"\xfd7zXZ\x00": "xz", b"\x28\xb5\x2f\xfd": "zstd", b"BZh": "bzip2", b"PK\x03\x04": "unzip"}
DIN_LINE = re.compile(rb"[0-4][ \t]+[0-9a-fA-F]{1,8}(?:[ \t].*)?", re.DOTALL)
LACKEY_LINE = re.compile(rb"==\d+==.*|(?:I | [LSM]) [0-9a-f]+,\d+", re.DOTALL)
ORDER_LINE = re.compile(rb"(bmin|bmax|smax|ways|room|refs|kinds|begin)=.*", re.DOTALL)

Refusal = collections.namedtuple("Refusal", "number line column")  # column is None but for 14 to 17


def parse(printed):
    """The refusal that was printed, or None; one that must have a column and has none is none."""
    found = re.fullmatch(rb"refused=(\d+) line=(\d+)(?: column=([1-9]\d*))?\n", printed)
    refused = Refusal(*(number and int(number) for number in found.groups())) if found else None
    return None if refused and refused.number in MUST_STAND and not refused.column else refused


def explained(refused, line, head, above=0):
    """The lines for standard error. `line` is the offending line or None where there is none, `head` how the input begins, `above` how
    many lines of order stand above a recording."""
    means, do = MEANINGS.get(refused.number, ("a refusal that this script does not know", "see README, \"When it refuses\""))
    where = "line %d" % refused.line + (" (line %d of the recording)" % (refused.line - above) if above else "")
    if refused.column:
        where += ", byte %d" % refused.column
    if line is None:
        pictured = ["none, the input ends before it"]
    elif refused.column:
        means = at_column(refused.number, line, refused.column) if refused.number in MUST_STAND else means
        pictured = marked(line, refused.column)
    else:
        pictured = [shown(line)]
    lines = ["refused with %d at %s: %s" % (refused.number, where, means)]
    lines += [before + text for before, text in zip(["  the line: ", "            "], pictured)]
    lines.append("  what to do: %s" % do)
    return lines + ["  hint: %s" % hint for hint in hints(refused, line, head)]


def at_column(number, line, column):
    """What cannot stand at a column of a trace line, in words that say it without the mark."""
    if column > len(line):
        return "the line ends where %s must stand" % MUST_STAND[number]
    byte = named(line[column - 1])
    if number == 14:
        return "%s cannot stand as a label: 0 to 4 must" % byte
    if number == 15:
        return "%s cannot stand right after the label: a space or a tab must" % byte
    if line[column - 1] in HEX_DIGITS:
        return "%s is a ninth hex digit, and an address has at most 8" % byte
    digits = len(line[1 : column - 1].lstrip(b" \t"))
    place = {0: "in an address", 8: "right after an address"}.get(digits, "in an address, nor right after it")
    return "%s cannot stand %s" % (byte, place)


def hints(refused, line, head):
    if refused.number == 10:
        return in_order(refused.line, line, head)
    if refused.number in MUST_STAND:
        return in_trace(line, refused.column)
    order = order_of(head)
    if refused.number == 1:
        return outside(order)
    sizes = order.get("bmax", 0) - order.get("bmin", 0) + 1
    if refused.number == 2:
        return ["%d block sizes x room=%d are %d; room=%d would fit" % (sizes, order["room"], sizes * order["room"], STACK_ENTRIES // sizes)]
    if refused.number == 6:
        most = "up to %d fits with %d block sizes" % (STACK_ENTRIES // sizes, sizes)
        full = "blocks of %d bytes fill room=%d here; room %s" % (2 ** order["bmin"], order["room"], most)
        return [full, "scripts/size counts the blocks of a recording first, and chooses room or says which block sizes fit"]
    if refused.number == 5:
        return ["refs=%d is reached before this line" % order["refs"]]
    return []


def in_order(number, line, head):
    """Why line `number` is no order line, for what is often met."""
    for magic, tool in PACKED.items():
        if head.startswith(magic):
            return ["the input is compressed: %s -dc FILE | scripts/sweep - (scripts/size takes .gz, .xz and .zst as they are)" % tool]
    if head.startswith(b"\xef\xbb\xbf"):
        return ["the input begins with a byte order mark; take it off: tail -c +4 FILE | scripts/sweep -"]
    if head.startswith((b"\xff\xfe", b"\xfe\xff")):
        return ["the input is UTF-16: iconv -f UTF-16 -t ASCII FILE | scripts/sweep -"]
    if head == b"":
        return ["the input is empty"]
    if LACKEY_LINE.fullmatch(line or b""):
        return ["this is a log of valgrind's lackey: scripts/lackey_to_din.py FILE makes din of it, scripts/size then puts an order above it"]
    if DIN_LINE.fullmatch(line or b""):
        return ["this is a line of the trace, and the order above it is not whole: scripts/size puts a whole one there"]
    expected = [name + "= and a number" for name in LIMITS][number - 1 : number] or ["kinds=all, kinds=fetch, kinds=data or begin=din"]
    found = ["line %d must be %s" % (number, expected[0] if number <= 7 else "begin=din")]
    if line is not None and line.endswith(b"\r"):
        return ["the line ends in CR LF: tr -d '\\r' <FILE | scripts/sweep -"]
    if line is not None and re.search(rb"[ \t]", line):
        found.append("an order line has no blanks and no comment")
    if line is not None and re.search(rb"=0\d|=[+-]|,|\d{11}", line):
        found.append("a number is 1 to 10 digits, without sign, commas or leading zeros")
    return found


def in_trace(line, column):
    """What more is known of a line that is wrong at a column, for what is often met."""
    if line is None:
        return []
    if line[column - 1 :] == b"\r":
        return ["the line ends in CR LF: tr -d '\\r' <FILE | scripts/sweep -"]
    for pattern, hint in [
        (rb"", "sed '/^$/d' takes empty lines out"),
        (LACKEY_LINE.pattern, "this is a line of valgrind's lackey: scripts/lackey_to_din.py makes din of its log"),
        (ORDER_LINE.pattern, "this is an order line, after begin=din: the input has two orders"),
        (rb"[ \t].*", "sed 's/^[ \\t]*//' takes blanks before a label out"),
        (rb"[0-4][ \t]+0[xX].*", "addresses are without 0x: sed 's/0[xX]//' takes it out"),
        (rb"[0-4][ \t]+[0-9a-fA-F]{9}.*", "the last 8 digits are the low 32 bits of an address; keep these"),
        (rb"[0-4][ \t]*", "the address is missing; perhaps the trace was cut here"),
        (rb"[0-4][0-9]+[ \t].*", "a label is one digit"),
        (rb"[0-4][ \t]+[0-9a-fA-F].*", "after an address the line ends, or a blank and a comment follow"),
        (rb"[#;/].*", "din has no comment lines; a comment stands after an address"),
        (rb"[a-zA-Z5-9].*", "the labels are 0 read, 1 write, 2 fetch, 3 unknown, 4 flush"),
        (rb"\xef\xbb\xbf.*", "a byte order mark stands in the trace"),
    ]:
        if re.fullmatch(pattern, line, re.DOTALL):
            return [hint]
    return []


def order_of(head):
    """The order's numbers, from how the input begins."""
    return {name.decode(): int(number) for name, number in re.findall(rb"^(\w+)=(\d+)$", head, re.MULTILINE)}


def outside(order):
    """Which numbers are outside their limits."""
    found = []
    for name, (least, most) in LIMITS.items():
        if not least <= order[name] <= most:
            found.append("%s=%d is not within %d to %s" % (name, order[name], least, "{:,}".format(most)))
    if order["bmin"] > order["bmax"]:
        found.append("bmin=%(bmin)d is above bmax=%(bmax)d" % order)
    elif order["bmax"] - order["bmin"] >= 8:
        found.append("%d block sizes are asked for, and 8 are the most" % (order["bmax"] - order["bmin"] + 1))
    return found
