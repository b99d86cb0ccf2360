#!/usr/bin/env python3
"""Turns a table printed by the sweep program (edition 2, or 1) into a picture, or into words.

    scripts/picture.py [--misses] [--log] [--ways LIST] [TABLE] >FILE.svg
                a picture: miss ratio, or misses, against cache size
    scripts/picture.py --words [--all] [TABLE]
                a summary as plain text; with --all every cache too

TABLE is a file; `-`, or none, is standard input. The picture has a panel for each block size and a line for each number of ways; of more
than five ways the powers of two and the last, or those of `--ways 1,2,8`. All panels share their scales. Lines differ in marker and
dashes as well as in colour, and each is labelled. `--log` makes the upright scale a log scale, which parts the lines where misses are
few. Where the fewest misses stand at the edge of the order, both say that the misses are still falling there, and what to raise. The
summary is in the picture too, as its description. A refusal line and a malformed table are refused, with a message and status 1.
"""
import argparse
import sys

from kk import svg, words
from kk.program import NoAnswer, write_out
from kk.table import Malformed, Table


def numbers(text):
    """The numbers of a list such as 1,2,8, in order."""
    return sorted({int(word) for word in text.split(",")})


def main():
    parser = argparse.ArgumentParser(description=__doc__, formatter_class=argparse.RawDescriptionHelpFormatter)
    parser.add_argument("table", nargs="?", default="-", metavar="TABLE", help="the table; - is standard input")
    parser.add_argument("--misses", action="store_true", help="draw misses in place of miss ratios")
    parser.add_argument("--log", action="store_true", help="make the upright scale a log scale")
    parser.add_argument("--ways", type=numbers, metavar="LIST", help="draw lines for these ways, as 1,2,8")
    parser.add_argument("--words", action="store_true", help="print a summary as plain text")
    parser.add_argument("--all", action="store_true", help="with --words: every cache too")
    chosen = parser.parse_args()
    if chosen.all and not chosen.words:
        parser.error("--all goes with --words")
    try:
        table = Table.read(chosen.table)
        if table.refs == 0 and not chosen.words:
            raise Malformed("there is nothing to draw: the table has no references")
        if not set(chosen.ways or []) <= set(table.ways):
            raise Malformed("--ways: the table has 1 to %d ways" % table.ways[-1])
    except Malformed as why:
        sys.exit("picture.py: %s" % why)
    if chosen.words:
        made = "\n".join(words.summary(table) + (words.every_cache(table) if chosen.all else []) + [""])
    else:
        made = svg.picture(table, chosen.misses, chosen.log, chosen.ways)
    try:
        write_out(made.encode())
    except NoAnswer as why:
        sys.exit("picture.py: %s" % why)


if __name__ == "__main__":
    main()
