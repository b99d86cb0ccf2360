"""A table in words: a summary of a few sentences, some more for each block size, and every cache where that is asked for."""
from kk.table import Edge, several, size_of

PLACES = {("smax", "ways"): "the largest cache asked for", ("smax",): "the most sets asked for", ("ways",): "the most ways asked for"}


def summary(table):
    """What matters, as a list of lines."""
    flushes = " (edition 1, which skips flush lines)" if table.flushes is None else ", " + several(table.flushes, "flush", "es")
    lines = ["%s taken, %s skipped%s." % (several(table.refs, "reference"), several(table.skipped, "line"), flushes)]
    lines.append("%s asked for: %s." % (several(len(table.misses), "cache"), grid(table)))
    if table.refs == 0:
        return lines + ["With no references there is nothing to compare."]
    best = min((table.fewest(b) for b in table.block_sizes), key=table.misses.get)
    lines.append("Fewest misses: blocks of {:,} bytes, {}.".format(2 ** best[0], told(table, best)))
    lines += what_matters(table)
    open_ended = [2**b for b in table.block_sizes if Edge(table, b).names]
    if open_ended:
        where = "blocks of %s bytes" % listed(open_ended)
        lines.append("Not known because the order ends: how far the misses fall on, at %s; what to raise is said below." % where)
    for b in table.block_sizes:
        lines += ["", "Blocks of {:,} bytes (b={}):".format(2**b, b)] + ["  " + line for line in of_block_size(table, b)]
    return lines


def what_matters(table):
    """The span from where the first curve has bent to where the last is at its fewest, as no line or one."""
    falling = [b for b in table.block_sizes if table.misses[table.fewest(b)] < max(table.misses[cache] for cache in table.caches(b))]
    if not falling:
        return []
    first, last = min(size_of(bend_of(table, b)) for b in falling), max(size_of(table.near(b)) for b in falling)
    sizes = "The size that matters is {:,} bytes" if first == last else "The sizes that matter are {:,} to {:,} bytes"
    edges = "below, no block size has done nine tenths of its fall; there, each has a cache within 1% of its fewest misses asked for"
    return ["%s: %s." % (sizes.format(first, last), edges)]


def grid(table):
    """The range of the order."""
    blocks = [2**b for b in (table.block_sizes[0], table.block_sizes[-1])]
    sets, ways = 2 ** table.set_exponents[-1], table.ways[-1]
    return "blocks of %s bytes, %s, %s" % (span(*blocks), span(1, sets, " set"), span(1, ways, " way"))


def span(least, most, thing=""):
    words = "{:,}".format(most) if least == most else "{:,} to {:,}".format(least, most)
    return words + thing + ("s" if thing and most > 1 else "")


def listed(numbers):
    words = ["{:,}".format(number) for number in numbers]
    return " and ".join([", ".join(words[:-1]), words[-1]] if words[1:] else words)


def of_block_size(table, b):
    """How far the misses fall, which sizes matter, and whether they fall on."""
    worst, fewest, near = max(table.caches(b), key=table.misses.get), table.fewest(b), table.near(b)
    bend = bend_of(table, b)
    lines = ["Most misses: %s." % told(table, worst), ending(table, b)]
    if table.misses[worst] == table.misses[fewest]:
        return lines + ["All caches asked for miss as often."]
    lines.append("The curve bends at %s: nine tenths of the fall to the fewest misses asked for are done." % told(table, bend))
    lines.append("Smallest cache within 1%% of the fewest misses asked for: %s." % told(table, near))
    return lines


def ending(table, b):
    """Whether the misses stop falling inside what was asked for."""
    edge = Edge(table, b)
    fewest = told(table, edge.cache)
    if not edge.names:
        largest = "{:,}".format(size_of(table.largest(b)))
        return "The misses stop falling at %s; larger caches asked for, up to %s bytes, have no fewer." % (fewest, largest)
    advice = edge.advice() + (", and ask again" if edge.raisable else "")
    if edge.falling:
        return "The misses are still falling at %s, %s: %s." % (PLACES[tuple(edge.names)], fewest, advice)
    return "Whether the misses fall further is not known; the fewest stand at %s, %s: %s." % (PLACES[tuple(edge.names)], fewest, advice)


def bend_of(table, b):
    """The smallest cache at which nine tenths of the fall from the most to the fewest misses are done."""
    counts = [table.misses[cache] for cache in table.caches(b)]
    return next(cache for cache in table.caches(b) if 10 * (max(counts) - table.misses[cache]) >= 9 * (max(counts) - min(counts)))


def told(table, cache):
    """A cache and its misses."""
    misses = table.misses[cache]
    sets, ways = several(2 ** cache[1], "set"), several(cache[2], "way")
    ratio = "" if table.refs == 0 else ", ratio %.6f" % (misses / table.refs)
    return "{:,} bytes ({} of {}, {}{})".format(size_of(cache), sets, ways, several(misses, "miss", "es"), ratio)


def every_cache(table):
    """Each cache of the order in a line, smallest first at each block size."""
    lines = []
    for b in table.block_sizes:
        lines += ["", "Every cache with blocks of {:,} bytes (b={}):".format(2**b, b)]
        lines += ["  %s" % told(table, cache) for cache in table.caches(b)]
    return lines
