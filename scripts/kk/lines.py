"""A line of the input as people are shown it: its odd bytes made visible, a mark below one of them, and a byte named in words."""
import itertools

NAMES = {0: "a zero byte", 9: "a tab", 11: "a vertical tab", 12: "a form feed", 13: "a carriage return", 32: "a space", 96: "a backquote"}
WIDEST = 48  # characters of a marked line, so that with all beside it no terminal of 80 columns folds it, away from its mark


def shown(line):
    """A line with its odd bytes made visible, cut where it is very long."""
    return "".join(visible(line[:100])) + (cut(line) if len(line) > 100 else "") or "(empty)"


def marked(line, column):
    """The part of a line around a column, which may be one past the end, and the mark that stands below it."""
    if line == b"":
        return [shown(line), "^"]
    parts = visible(line)
    before = fitting(parts[: column - 1][::-1], WIDEST * 2 // 3)[::-1]
    after = fitting(parts[column - 1 :], WIDEST - len("".join(before)))
    left = ("" if len(before) == column - 1 else ".. ") + "".join(before)
    right = "".join(after) + ("" if column - 1 + len(after) >= len(line) else cut(line))
    return [left + right, " " * len(left) + "^" * len(after[0] if after else "^")]


def cut(line):
    """What stands for the rest of a line."""
    return " .. (%s)" % ("more than 255 bytes" if len(line) > 255 else "%d bytes" % len(line))


def visible(line):
    """What is shown of each byte: always plain characters (a tab is \\t, a zero byte \\x00), each as wide as any other."""
    return [repr(bytes([byte]))[2:-1] for byte in line]


def fitting(parts, width):
    """As many parts, from the first on, as are together no wider."""
    return [part for part, end in zip(parts, itertools.accumulate(map(len, parts))) if end <= width]


def named(byte):
    """A byte in words that can be read aloud."""
    return NAMES.get(byte) or ("`%c`" % byte if 0x20 < byte < 0x7F else "byte 0x%02x" % byte)
