"""The picture of tests/wan.py, as SVG: how long each spend took at three places, and how many were sold of the stock."""

import math
from collections import namedtuple

from wan_systems import PLACES, SOLD, Sites, Strong, Weak

WIDTH, HEIGHT = 1000, 800
LEFT, RIGHT, GAP = 84, 984, 18
# Top and bottom of each row of panels.
ROWS = ((112, 292), (332, 512), (552, 732))
# Milliseconds at the lower and the upper edge of a panel of latencies.
LEAST, MOST = 0.1, 3000
# At most so many marks for a place in a panel.
MARKS = 250
# They differ in lightness too, so that they can be told apart in a print without colours.
COLOURS = {1: "#123a66", 2: "#c8501e", 3: "#35a982"}
LINES = {
    Sites: ("#123a66", ""),
    Strong: ("#8a6d00", ' stroke-dasharray="9 4"'),
    Weak: ("#c8281e", ' stroke-dasharray="2 3"'),
}


class Panel(namedtuple("Panel", "row column columns seconds")):
    """A plane of seconds and of what stands in its row."""

    @property
    def width(self):
        return (RIGHT - LEFT - GAP * (self.columns - 1)) / self.columns

    @property
    def left(self):
        return LEFT + self.column * (self.width + GAP)

    @property
    def top(self):
        return ROWS[self.row][0]

    @property
    def bottom(self):
        return ROWS[self.row][1]

    def x(self, seconds):
        return self.left + self.width * min(1, seconds / self.seconds)

    def y(self, part):
        return self.bottom - (self.bottom - self.top) * part

    def y_of_time(self, milliseconds):
        inside = min(MOST, max(LEAST, milliseconds))
        return self.y(math.log(inside / LEAST) / math.log(MOST / LEAST))

    def line(self, y, more=' stroke="#c8ccd0" stroke-width="0.7"'):
        return f'<line x1="{self.left:.1f}" y1="{y:.1f}" x2="{self.left + self.width:.1f}" y2="{y:.1f}"{more}/>'

    def axes(self):
        yield f'<path d="M{self.left:.1f} {self.top}V{self.bottom}h{self.width:.1f}" fill="none" stroke="#444"/>'
        step = max(1, round(self.seconds / 4))
        for second in range(0, int(self.seconds) + 1, step):
            x = self.x(second)
            yield f'<line x1="{x:.1f}" y1="{self.bottom}" x2="{x:.1f}" y2="{self.bottom + 4}" stroke="#444"/>'
            if self.row == len(ROWS) - 1:
                anchor = "end" if second > self.seconds - 0.2 else "middle"
                yield text(x, self.bottom + 18, f"{second} s" if second else "0", anchor)


def text(x, y, words, anchor="start", more=""):
    return f'<text x="{x:.1f}" y="{y:.1f}" text-anchor="{anchor}"{more}>{words}</text>'


def sample(values, most):
    """Some of the values, evenly chosen."""
    step = max(1, math.ceil(len(values) / most))
    return values[::step]


# ---- latencies


def latencies(panel, run):
    """A dot for a spend that sold something, and a cross for one that was refused or not answered."""
    for milliseconds in (0.1, 1, 10, 100, 1000):
        y = panel.y_of_time(milliseconds)
        yield panel.line(y)
        if panel.column == 0:
            yield text(panel.left - 8, y + 4, f"{milliseconds:,g} ms", "end")
    yield from panel.axes()
    for place, spends in run.spends.items():
        sold = [spend for spend in spends if spend.result == SOLD]
        others = [spend for spend in spends if spend.result != SOLD]
        yield marks(panel, place, sample(sold, MARKS), "h0", 2.8)
        yield marks(panel, place, sample(others, MARKS // 4), "m-3-3l6 6m0-6l-6 6", 1.2)


def marks(panel, place, spends, shape, width):
    path = "".join(f"M{panel.x(spend.at):.0f} {panel.y_of_time(spend.took):.0f}{shape}" for spend in spends)
    if not path:
        return ""
    pen = f'stroke="{COLOURS[place]}" stroke-width="{width}" stroke-linecap="round" stroke-opacity="0.75"'
    return f'<path d="{path}" fill="none" {pen}/>'


# ---- what was sold


def sums(panel, runs, most):
    """What was sold until then, by each system, and the stock."""
    for part in range(5):
        y = panel.y(part / 4)
        yield panel.line(y)
        if panel.column == 0:
            yield text(panel.left - 8, y + 4, f"{most * part / 4:,.0f}", "end")
    yield from panel.axes()
    stock = runs[0].phase.stock()
    if stock <= most:
        y = panel.y(stock / most)
        yield panel.line(y, ' stroke="#000" stroke-width="1.4"')
        yield text(panel.left + 6, y - 5, f"stock: {stock:,}")
    else:
        yield text(panel.left + 6, panel.top + 12, f"stock: {stock:,}")
    for run in runs:
        yield sum_line(panel, run, most)
        over = len(ends_of(run)) - stock
        if over > 0:
            colour, _ = LINES[run.kind]
            yield text(panel.left + panel.width - 4, panel.bottom - 8, f"oversold: {over:,}", "end", f' fill="{colour}"')


def ends_of(run):
    """The seconds at which something was sold."""
    spends = [spend for each in run.spends.values() for spend in each if spend.result == SOLD]
    return sorted(spend.at + spend.took / 1000 for spend in spends)


def sum_line(panel, run, most):
    ends = ends_of(run)
    pairs = sample(list(enumerate(ends, 1)), 100) + [(len(ends), panel.seconds)]
    points = " ".join(f"{panel.x(at):.1f},{panel.y(min(1, count / most)):.1f}" for count, at in pairs)
    colour, dashes = LINES[run.kind]
    return f'<polyline points="{points}" fill="none" stroke="{colour}" stroke-width="2.2"{dashes}/>'


# ---- the whole


def legend():
    x = LEFT
    for place, name in PLACES.items():
        yield f'<circle cx="{x + 5}" cy="50" r="4.5" fill="{COLOURS[place]}"/>' + text(x + 15, 54, f"buyers in {name}")
        x += 140
    yield f'<path d="M{x} 46l8 8m0-8l-8 8" stroke="#444" stroke-width="1.4"/>'
    yield text(x + 15, 54, "refused, or no answer")
    x = LEFT
    for kind, (colour, dashes) in LINES.items():
        yield f'<path d="M{x} {HEIGHT - 22}h30" stroke="{colour}" stroke-width="2.2"{dashes}/>'
        yield text(x + 38, HEIGHT - 18, kind.name)
        x += 230


def row_titles():
    for (top, bottom), words in zip(ROWS, (Sites.name, Strong.name, "units sold"), strict=True):
        middle = (top + bottom) / 2
        yield f'<text transform="translate(20 {middle:.0f}) rotate(-90)" text-anchor="middle">{words}</text>'


def shade(panel, since, until):
    x, end = panel.x(since), panel.x(until)
    return f'<rect x="{x:.1f}" y="{panel.top}" width="{end - x:.1f}" height="{panel.bottom - panel.top}" fill="url(#cut)"/>'


def shaded(phase, times):
    """From when to when a place was cut off or down in this phase, or None."""
    return next((times[what] for what in times if getattr(phase, what) is not None), None)


def picture(runs, seconds, times):
    """The SVG of all runs. `times` has from when to when a place is `away` or `killed` in a phase where one is."""
    phases = list(dict.fromkeys(run.phase.title for run in runs))
    most = max(len(spends) for run in runs for spends in run.spends.values()) * len(PLACES)
    parts = []
    for column, title in enumerate(phases):
        panels = [Panel(row, column, len(phases), seconds) for row in range(len(ROWS))]
        here = [run for run in runs if run.phase.title == title]
        parts.append(text(panels[0].left, 92, title, more=' font-weight="bold"'))
        while_away = shaded(here[0].phase, times)
        if while_away is not None:
            parts += [shade(panel, *while_away) for panel in panels]
        for run in here:
            if run.kind is not Weak:
                parts += latencies(panels[0 if run.kind is Sites else 1], run)
        parts += sums(panels[2], here, most)
    head = (
        f'<svg xmlns="http://www.w3.org/2000/svg" viewBox="0 0 {WIDTH} {HEIGHT}" '
        'font-family="DejaVu Sans, Verdana, Arial, sans-serif" font-size="13" fill="#222">',
        '<defs><pattern id="cut" width="7" height="7" patternUnits="userSpaceOnUse" patternTransform="rotate(45)">'
        '<rect width="7" height="7" fill="#000" fill-opacity="0.05"/>'
        '<line x1="0" y1="0" x2="0" y2="7" stroke="#000" stroke-opacity="0.22" stroke-width="1.6"/></pattern></defs>',
        f'<rect width="{WIDTH}" height="{HEIGHT}" fill="#fff"/>',
        text(LEFT, 28, "One stock at three places: how long each spend took", more=' font-size="18" font-weight="bold"'),
    )
    return "\n".join([*head, *legend(), *row_titles(), *filter(None, parts), "</svg>"]) + "\n"
