"""A table as an SVG picture: a panel for each block size, a line for each number of ways. Lengths are in pixels, y downward."""
import math
from xml.sax.saxutils import escape

from kk import words
from kk.table import Edge, several, size_of

PLOT_WIDTH, PLOT_HEIGHT = 460, 270
LEFT, RIGHT, TOP, BOTTOM = 78, 104, 66, 58
PANEL_WIDTH, PANEL_HEIGHT = LEFT + PLOT_WIDTH + RIGHT, TOP + PLOT_HEIGHT + BOTTOM
HEADING = 64
LABEL_STEP = 15
LETTER = 8  # at most, in the plain text size
COLOURS = ["#0072b2", "#d55e00", "#007a59", "#b0508a", "#000000", "#8a6d00", "#3d8fc6", "#767676"]
DASHES = ["none", "8 3", "2 3", "9 3 2 3"]
MARKERS = [  # corners, in a square from -1 to 1; the circle has none
    [],
    [(-0.9, -0.9), (0.9, -0.9), (0.9, 0.9), (-0.9, 0.9)],
    [(0, -1.1), (1, 0.8), (-1, 0.8)],
    [(0, -1.2), (1.2, 0), (0, 1.2), (-1.2, 0)],
    [(0, 1.1), (1, -0.8), (-1, -0.8)],
    [(-0.5, -1.2), (0.5, -1.2), (0.5, 1.2), (-0.5, 1.2)],
    [(-1.2, -0.5), (1.2, -0.5), (1.2, 0.5), (-1.2, 0.5)],
    [(-1.1, -1.1), (1.1, 1.1), (1.1, -1.1), (-1.1, 1.1)],
]


def ways_drawn(table):
    """The numbers of ways that get a line: all up to five, and of more the powers of two and the last, since more would smear."""
    return list(table.ways) if len(table.ways) <= 5 else sorted({w for w in table.ways if w & (w - 1) == 0} | {table.ways[-1]})


def picture(table, show_misses=False, log_scale=False, ways=None):
    """The picture, as the text of an SVG file. Lines are drawn for these ways, or for those of `ways_drawn`."""
    ways = ways or ways_drawn(table)
    heading = "%s of LRU caches against their size" % ("Misses" if show_misses else "Miss ratio")
    caption = words.summary(table)[0] + lines_left_out(table, ways)
    columns = min(2, len(table.block_sizes))
    width = max(columns * PANEL_WIDTH, 32 + LETTER * len(caption))
    height = HEADING + math.ceil(len(table.block_sizes) / columns) * PANEL_HEIGHT
    scales = Scales(table, show_misses, log_scale)
    parts = [
        '<svg xmlns="http://www.w3.org/2000/svg" width="%d" height="%d" viewBox="0 0 %d %d"' % ((width, height) * 2)
        + ' role="img" aria-labelledby="title" aria-describedby="desc" font-family="sans-serif" font-size="13">',
        '<title id="title">%s</title>' % heading,
        '<desc id="desc">%s</desc>' % escape("\n".join(words.summary(table))),
        '<rect width="100%" height="100%" fill="white"/>',
        text(16, 28, heading, size=19, weight="bold"),
        text(16, 50, caption),
    ]
    for place, b in enumerate(table.block_sizes):
        row, column = divmod(place, columns)
        parts.append('<g transform="translate(%d %d)">' % (column * PANEL_WIDTH, HEADING + row * PANEL_HEIGHT))
        parts += panel(table, b, scales, ways) + ["</g>"]
    return "\n".join(parts + ["</svg>", ""])


def lines_left_out(table, ways):
    """A word where not every number of ways has a line."""
    return "" if len(ways) == len(table.ways) else " Of 1 to %d ways %s are drawn." % (table.ways[-1], words.listed(ways))


class Scales:
    """Where a size and a count stand in a panel. All panels share them."""

    def __init__(self, table, show_misses, log_scale):
        octaves = [math.log2(size_of(cache)) for cache in table.misses]
        self.first_octave = math.floor(min(octaves))
        self.octaves = max(1, math.ceil(max(octaves)) - self.first_octave)
        self.unit = 1 if show_misses else table.refs
        self.name = "misses" if show_misses else "miss ratio"
        shown = [max(misses, 1) / self.unit for misses in table.misses.values()]
        self.height_of = math.log10 if log_scale else float
        self.ticks = log_ticks(min(shown), max(shown)) if log_scale else even_ticks(max(shown), show_misses)

    def x(self, size):
        return LEFT + (math.log2(size) - self.first_octave) / self.octaves * PLOT_WIDTH

    def y(self, value):
        low, high = self.height_of(self.ticks[0]), self.height_of(self.ticks[-1])
        height = self.height_of(max(value, self.ticks[0]))
        return TOP + PLOT_HEIGHT * (1 - (height - low) / (high - low))


def log_ticks(lowest, highest):
    """Powers of ten around all values."""
    first, last = math.floor(math.log10(lowest)), math.ceil(math.log10(highest))
    return [float("1e%d" % power) for power in range(first, max(last, first + 1) + 1)]


def even_ticks(highest, whole):
    """From 0 to `highest` or just above, 1, 2 or 5 times a power of ten apart."""
    for power in range(0 if whole else -10, 11):
        for step in (1, 2, 5):
            if highest <= 5 * step * 10**power:
                return [float("%de%d" % (mark * step, power)) for mark in range(math.ceil(highest / step / 10**power) + 1)]


def panel(table, b, scales, ways):
    at, caption, sign = mark(table, b, scales)
    parts = [
        text(LEFT, 20, "Blocks of %d bytes (b=%d)" % (2**b, b), size=16, weight="bold"),
        text(LEFT, 39, caption),
        *axes(scales),
        '<path d="M%.1f %dV%d" stroke="#555" stroke-dasharray="3 3"/>' % (at, TOP - 6, TOP + PLOT_HEIGHT),
        sign,
    ]
    ends = []
    for n, w in enumerate(ways):
        caches = [(b, s, w) for s in table.set_exponents]
        places = [(scales.x(size_of(cache)), scales.y(table.misses[cache] / scales.unit)) for cache in caches]
        parts.append(
            '<polyline points="%s" fill="none" stroke="%s" stroke-width="1.6" stroke-dasharray="%s"/>'
            % (" ".join("%.1f,%.1f" % place for place in places), colour(n), DASHES[n % len(DASHES)])
        )
        parts += [marker(n, *place) for place in places]
        ends.append((places[-1][1], w, n, places[-1][0]))
    return parts + labels(sorted(ends))


def mark(table, b, scales):
    """Where the mark of a panel stands, its caption, and its sign: a filled triangle at the smallest cache within 1% of the fewest
    misses, or, where these stand at the edge of the order, an open one that points to the larger caches that were not asked for."""
    edge, near = Edge(table, b), table.near(b)
    if edge.names:
        at = scales.x(size_of(edge.cache))
        state = "still falling" if edge.falling else "not known to stop falling"
        caption = "▷ {} at {:,} bytes (s=%d w=%d): {}".format(state, size_of(edge.cache), edge.advice()) % edge.cache[1:]
        return at, caption, '<path class="falling" d="M%.1f %dv10l10 -5z" fill="white" stroke="black"/>' % (at, TOP - 10)
    at = scales.x(size_of(near))
    caption = "▼ smallest within 1%% of the fewest misses: {:,} bytes (s=%d w=%d)".format(size_of(near)) % near[1:]
    return at, caption, '<path class="near" d="M%.1f %dl-5 -9h10z"/>' % (at, TOP)


def axes(scales):
    floor, right = TOP + PLOT_HEIGHT, LEFT + PLOT_WIDTH
    parts = [text(LEFT - 66, TOP - 11, scales.name)]
    for tick in scales.ticks:
        parts.append('<path d="M%d %.1fH%d" stroke="#ddd"/>' % (LEFT, scales.y(tick), right))
        parts.append(text(LEFT - 8, scales.y(tick) + 4, short_count(tick), anchor="end"))
    every = math.ceil(scales.octaves / 8)
    for octave in range(scales.octaves + 1):
        x = scales.x(2 ** (scales.first_octave + octave))
        parts.append('<path d="M%.1f %dv%d" stroke="black"/>' % (x, floor, 6 if octave % every == 0 else 3))
        if octave % every == 0:
            parts.append(text(x, floor + 21, short_size(scales.first_octave + octave), anchor="middle"))
    parts.append('<path d="M%d %dV%dH%d" fill="none" stroke="black"/>' % (LEFT, TOP, floor, right))
    parts.append(text(LEFT + PLOT_WIDTH / 2, floor + 42, "cache size (log scale)", anchor="middle"))
    return parts


def short_count(number):
    """A count or a ratio at a tick mark; 40 M for 40 million."""
    return "{:,.10g}".format(number) if number < 10**7 else "{:,.10g} M".format(number / 10**6)


def short_size(exponent):
    """2^exponent bytes, as 64 B, 4 KiB or 1 MiB."""
    return "%d %s" % (2 ** (exponent % 10), ["B", "KiB", "MiB"][exponent // 10])


def labels(ends):
    """A label for each line, beside the plot, in the order of the lines' ends, joined to them by a thin line."""
    column = LEFT + PLOT_WIDTH + 20
    places, last = [], -math.inf
    for y, *_ in ends:
        last = max(y, last + LABEL_STEP)
        places.append(last)
    for back, number in enumerate(reversed(range(len(places)))):
        places[number] = min(places[number], TOP + PLOT_HEIGHT - back * LABEL_STEP)
    parts = []
    for place, (y, w, n, x) in zip(places, ends):
        parts.append('<path d="M%.1f %.1fL%d %.1f" stroke="#999" stroke-width="0.6"/>' % (x, y, column, place))
        parts += [marker(n, column + 6, place), text(column + 16, place + 4, several(w, "way"))]
    return parts


def colour(n):
    return COLOURS[n % len(COLOURS)]


def marker(n, x, y):
    """The mark of line n, from 0: eight shapes, filled for the first eight lines and open for others."""
    look = 'fill="%s" stroke="%s"' % (colour(n) if n < len(MARKERS) else "white", colour(n))
    corners = MARKERS[n % len(MARKERS)]
    if not corners:
        return '<circle cx="%.1f" cy="%.1f" r="3.8" %s/>' % (x, y, look)
    return '<polygon points="%s" %s/>' % (" ".join("%.1f,%.1f" % (x + 4 * i, y + 4 * j) for i, j in corners), look)


def text(x, y, words, size=13, weight="normal", anchor="start"):
    return '<text x="%.1f" y="%.1f" font-size="%d" font-weight="%s" text-anchor="%s">%s</text>' % (
        x, y, size, weight, anchor, escape(words),
    )  # fmt: skip


