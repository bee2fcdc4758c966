"""The picture of a sale as SVG: where the rights were over time, and how many rights buyers waited for."""

WIDTH, HEIGHT = 1000, 700
LEFT, RIGHT = 84, 812
TOP, BOTTOM = 112, 452
LOW_TOP, LOW_BOTTOM = 510, 630

# They differ in lightness too, so that they can be distinguished in a print without colours.
COLOURS = {"sold": "#dfe3e8", 1: "#28567f", 2: "#7fb3d9", 3: "#fdc34c", "way": "#b8370b"}


class Panel:
    """A plane of seconds and rights."""

    def __init__(self, top, bottom, seconds, most):
        self.top, self.bottom, self.seconds, self.most = top, bottom, seconds, most

    def x(self, seconds):
        return LEFT + (RIGHT - LEFT) * seconds / self.seconds

    def y(self, rights):
        return self.bottom - (self.bottom - self.top) * rights / self.most

    def points(self, pairs):
        return " ".join(f"{self.x(seconds):.1f},{self.y(rights):.1f}" for seconds, rights in pairs)

    def grid(self, title):
        """Lines and numbers of both axes."""
        step = nice_step(self.most, (self.bottom - self.top) / 30)
        for value in range(0, int(self.most) + 1, step):
            y = self.y(value)
            yield f'<line x1="{LEFT}" y1="{y:.1f}" x2="{RIGHT}" y2="{y:.1f}" stroke="#c8ccd0" stroke-width="0.7"/>'
            yield text(LEFT - 8, y + 4, f"{value:,}", "end")
        step = nice_step(self.seconds, 12)
        for value in range(0, int(self.seconds) + 1, step):
            x = self.x(value)
            yield f'<line x1="{x:.1f}" y1="{self.bottom}" x2="{x:.1f}" y2="{self.bottom + 5}" stroke="#444"/>'
            yield text(x, self.bottom + 19, str(value), "middle")
        yield f'<path d="M{LEFT} {self.top}V{self.bottom}H{RIGHT}" fill="none" stroke="#444"/>'
        middle = (self.top + self.bottom) / 2
        yield f'<text transform="translate(24 {middle:.0f}) rotate(-90)" text-anchor="middle">{title}</text>'


def nice_step(most, parts):
    """A round step (1, 2 or 5, followed by zeros) that divides this into at most this many parts."""
    step = 1
    while True:
        for factor in (1, 2, 5):
            if most / (step * factor) <= parts:
                return step * factor
        step *= 10


def text(x, y, words, anchor="start", more=""):
    return f'<text x="{x:.1f}" y="{y:.1f}" text-anchor="{anchor}"{more}>{words}</text>'


def shade(panel, cuts):
    """The times of the cuts."""
    for since, until, _ in cuts:
        x, width = panel.x(since), panel.x(until or panel.seconds) - panel.x(since)
        box = f'x="{x:.1f}" y="{panel.top}" width="{width:.1f}" height="{panel.bottom - panel.top}"'
        yield f'<rect {box} fill="url(#cut)" stroke="#555" stroke-dasharray="3 3" stroke-width="0.8"/>'


def bands(panel, moments, sites):
    """What is sold, held and in transit, stacked: together they are what was issued."""
    layers = [("sold", [moment.spent for moment in moments])]
    layers += [(site, [moment.held[site] for moment in moments]) for site in sites]
    layers.append(("way", [moment.way for moment in moments]))
    times = [moment.seconds for moment in moments]
    floor = [0] * len(moments)
    for name, heights in layers:
        roof = [low + height for low, height in zip(floor, heights)]
        outline = list(zip(times, roof)) + list(zip(reversed(times), reversed(floor)))
        yield f'<polygon points="{panel.points(outline)}" fill="{COLOURS[name]}"/>'
        floor = roof
    for level in range(1, len(layers)):
        edge = [sum(heights[place] for _, heights in layers[:level]) for place in range(len(moments))]
        yield f'<polyline points="{panel.points(zip(times, edge))}" fill="none" stroke="#fff" stroke-width="0.8"/>'
    issued = panel.points((moment.seconds, moment.issued) for moment in moments)
    yield f'<polyline points="{issued}" fill="none" stroke="#111" stroke-width="2"/>'


def queues(panel, moments, sites):
    """What buyers wait for at each site."""
    for site in sites:
        points = panel.points((moment.seconds, moment.waiting[site]) for moment in moments)
        yield f'<polyline points="{points}" fill="none" stroke="{line_colour(site)}" stroke-width="2"/>'


def line_colour(site):
    # The yellow of an area is too light for a line.
    return "#d08a00" if site == 3 else COLOURS[site]


def flags(panel, notes, cuts):
    """What happened when, above the upper panel: from the last event back, each in the lowest row in which it ends
    before the next text and before the poles of those above, if there is such a row."""
    starts = [WIDTH] * 4
    told = [(seconds, words) for seconds, words in notes] + [(since, words) for since, _, words in cuts]
    for seconds, words in sorted(told, reverse=True):
        x = panel.x(seconds)
        row = next((row for row, start in enumerate(starts) if x + 7.4 * len(words) + 8 < start), len(starts) - 1)
        starts[: row + 1] = [x] * (row + 1)
        y = panel.top - 9 - 17 * row
        yield f'<line x1="{x:.1f}" y1="{y - 10:.1f}" x2="{x:.1f}" y2="{panel.bottom}" stroke="#333" stroke-width="0.8"/>'
        yield text(x + 4, y, words)


def legend(sites):
    x, y = RIGHT + 22, TOP + 10
    yield f'<line x1="{x}" y1="{y - 4}" x2="{x + 20}" y2="{y - 4}" stroke="#111" stroke-width="2"/>'
    yield text(x + 28, y, "issued")
    names = [("way", "on the way")] + [(site, f"held at site {site}") for site in reversed(sites)] + [("sold", "sold")]
    for name, words in names:
        y += 25
        yield f'<rect x="{x}" y="{y - 12}" width="20" height="15" fill="{COLOURS[name]}" stroke="#777" stroke-width="0.5"/>'
        yield text(x + 28, y, words)
    y += 25
    yield f'<rect x="{x}" y="{y - 12}" width="20" height="15" fill="url(#cut)" stroke="#555" stroke-dasharray="3 3"/>'
    yield text(x + 28, y, "links are cut")
    y = LOW_TOP + 10
    for site in sites:
        yield f'<line x1="{x}" y1="{y - 4}" x2="{x + 20}" y2="{y - 4}" stroke="{line_colour(site)}" stroke-width="2.5"/>'
        yield text(x + 28, y, f"at site {site}")
        y += 22


def draw(moments, cuts, notes, sites):
    """The whole picture."""
    seconds = moments[-1].seconds
    upper = Panel(TOP, BOTTOM, seconds, 1.04 * max(moment.issued for moment in moments))
    waits = max(max(moment.waiting.values()) for moment in moments)
    lower = Panel(LOW_TOP, LOW_BOTTOM, seconds, 1.1 * max(waits, 5))
    lines = [
        f'<svg xmlns="http://www.w3.org/2000/svg" viewBox="0 0 {WIDTH} {HEIGHT}" '
        'font-family="DejaVu Sans, Verdana, Arial, sans-serif" font-size="13" fill="#222">',
        '<defs><pattern id="cut" width="7" height="7" patternUnits="userSpaceOnUse" patternTransform="rotate(45)">'
        '<rect width="7" height="7" fill="#000" fill-opacity="0.07"/>'
        '<line x1="0" y1="0" x2="0" y2="7" stroke="#000" stroke-opacity="0.3" stroke-width="1.6"/></pattern></defs>',
        f'<rect width="{WIDTH}" height="{HEIGHT}" fill="#fff"/>',
        text(LEFT, 26, "A ticket sale at three sites: where the rights are", more=' font-size="18" font-weight="bold"'),
        *upper.grid("rights"),
        *bands(upper, moments, sites),
        *shade(upper, cuts),
        *flags(upper, notes, cuts),
        text(LEFT, LOW_TOP - 14, "Rights that buyers wait for", more=' font-weight="bold"'),
        *lower.grid("rights"),
        *shade(lower, cuts),
        *queues(lower, moments, sites),
        text((LEFT + RIGHT) / 2, HEIGHT - 24, "seconds since the start", "middle"),
        *legend(sites),
        "</svg>",
    ]
    return "\n".join(lines) + "\n"
