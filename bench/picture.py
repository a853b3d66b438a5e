"""Draws the ratios that bench/run measured, as an SVG."""

import html
import math
import re

# The width of the picture, the height of a row, and where the columns are: the labels end, the scale begins and ends, and the
# ratios end.
WIDTH, ROW = 960, 20
LABELS, LEFT, RIGHT, RATIOS = 404, 424, 886, 940
TICKS = [factor * 10**power for power in (-2, -1, 0, 1) for factor in (1, 2, 5)]
TEXT, FAINT, LINE = "#1f2328", "#59636e", "#d1d9e0"
# The colour of a ratio that is as good as asked, of one that isn't, and of one of which nothing was asked.
COLOURS = {True: "#1a7f37", False: "#cf222e", None: "#59636e"}
LEGEND = [(True, "as good as asked"), (False, "worse than asked"), (None, "nothing asked")]
TITLE = "How many times as fast ftrighub is as what it is measured beside"
SIDES = ("slower", "faster")
# What the lines of a group measure, by the first word of the line.
GROUPS = {
    "pipe": "One request at a time over a pipe: rates",
    "socket": "Over a Unix socket: rates",
    "fan-out": "From one publisher to many who take all: rates",
    "crowd": "One publisher while many wait for its service: rates",
    "wake": "From a message until all who wait have it: times",
    "library": "Two threads that answer each other: times",
    "record": "A record by itself: rates",
}


class Bar:
    """A line of the picture: what was measured, how many times as good the hub was, and how many times was asked. The ratio
    is None if something was missing."""

    def __init__(self, what, ratio, least):
        self.group, label = re.split("[,:] ", what, maxsplit=1)
        self.label = label.replace(" / ", " vs. ").replace("`", "")
        self.ratio, self.least = ratio, least
        self.colour = COLOURS[None if None in (ratio, least) else ratio >= least]


class Scale:
    """A logarithmic scale, from the last tick below what it has to show to the first one above."""

    def __init__(self, ratios):
        low = max([tick for tick in TICKS if tick <= min(ratios)] or TICKS[:1])
        high = min([tick for tick in TICKS if tick >= max(ratios)] or TICKS[-1:])
        self.ticks = [tick for tick in TICKS if low <= tick <= high]

    def place(self, ratio):
        low, high = self.ticks[0], self.ticks[-1]
        share = math.log(min(max(ratio, low), high) / low) / math.log(high / low)
        return round(LEFT + share * (RIGHT - LEFT), 1)


def text(x, y, words, colour=TEXT, anchor="start", more=""):
    return f'<text x="{x}" y="{y}" fill="{colour}" text-anchor="{anchor}"{more}>{html.escape(words)}</text>'


def line(path, colour, width):
    return f'<path d="{path}" stroke="{colour}" stroke-width="{width}"/>'


def dot(x, y, colour):
    return f'<circle cx="{x}" cy="{y}" r="4.5" fill="{colour}"/>'


def axis(scale, top, bottom):
    """The ticks, and which side of 1 is the better one."""
    one = scale.place(1)
    parts = [text(one - 10, top - 24, f"\u2190 {SIDES[0]}", FAINT, "end"), text(one + 10, top - 24, f"{SIDES[1]} \u2192", FAINT)]
    for tick in scale.ticks:
        x = scale.place(tick)
        parts.append(line(f"M{x} {top}V{bottom}", FAINT if tick == 1 else LINE, 1))
        parts.append(text(x, top - 6, f"{tick:g}", FAINT, "middle"))
    return parts


def drawn(bar, scale, y):
    """A dot at the ratio, and a line to it from what was asked."""
    parts = [text(LABELS, y + 4, bar.label, anchor="end")]
    if bar.ratio is None:
        return [*parts, text(RATIOS, y + 4, "missing", FAINT, "end")]
    x = scale.place(bar.ratio)
    if bar.least is not None:
        least = scale.place(bar.least)
        parts += [line(f"M{least} {y}H{x}", bar.colour, 2.5), line(f"M{least} {y - 6}V{y + 6}", bar.colour, 2)]
    # (rounded down, as in the table)
    ratio = f"{math.floor(100 * bar.ratio) / 100:.2f}"
    return [*parts, dot(x, y, bar.colour), text(RATIOS, y + 4, ratio, bar.colour, "end")]


def legend(y):
    parts = [line(f"M{LEFT + 5} {y - 6}V{y + 6}", FAINT, 2), text(LEFT + 14, y + 4, "asked", FAINT)]
    x = LEFT + 76
    for holds, words in LEGEND:
        parts += [dot(x, y, COLOURS[holds]), text(x + 11, y + 4, words, FAINT)]
        x += 138
    return parts


def picture(bars):
    """The SVG of these bars, in groups. It shows nothing if there is no ratio to show."""
    shown = [ratio for bar in bars for ratio in (bar.ratio, bar.least) if ratio is not None]
    scale = Scale([0.5, 2, *shown])
    top = 4 * ROW
    y, parts, group = top, [], None
    for bar in bars:
        if bar.group != group:
            group = bar.group
            parts.append(text(20, y + 1.2 * ROW, GROUPS.get(group, group), more=' font-weight="bold"'))
            y += 1.5 * ROW
        parts += drawn(bar, scale, y + ROW / 2)
        y += ROW
    bottom = y + ROW / 2
    height = bottom + 2 * ROW
    head = [
        f'<svg xmlns="http://www.w3.org/2000/svg" viewBox="0 0 {WIDTH} {height:g}" font-family="sans-serif" font-size="12"',
        '  role="img">',
        f"<title>{html.escape(TITLE)}</title>",
        f'<rect width="{WIDTH}" height="{height:g}" fill="white"/>',
        text(20, 24, TITLE, more=' font-size="15" font-weight="bold"'),
    ]
    return "\n".join([*head, *axis(scale, top, bottom), *parts, *legend(bottom + ROW), "</svg>", ""])
