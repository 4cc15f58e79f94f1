"""Pictures of values over time, as SVG: panels below each other with one axis of time.

A panel has bars or areas of several series, stacked, an axis with its unit, and a legend beside it.
"""
import datetime
from dataclasses import dataclass, field
from html import escape

WIDTH, LEFT, RIGHT = 1000, 104, 210
TOP, HEIGHT, GAP = 68, 230, 64
COLOURS = ("#4477aa", "#ee6677", "#228833", "#ccbb44", "#66ccee", "#aa3377", "#999933", "#332288",
           "#dd8855", "#777777")
SECOND, MINUTE, HOUR, DAY = 1000, 60000, 3600000, 86400000
STEPS = [n * unit for unit, counts in (
    (1, (1, 2, 5, 10, 20, 50, 100, 200, 500)), (SECOND, (1, 2, 5, 10, 15, 30)),
    (MINUTE, (1, 2, 5, 10, 15, 30)), (HOUR, (1, 2, 3, 6, 12)),
    (DAY, (1, 2, 5, 10, 20, 50, 100, 200, 500, 1000, 2000, 5000))) for n in counts]


@dataclass
class Panel:
    """`series` are names with a value for each place of `times`: of bars the bar's begin, each as
    wide as the next one is away; of areas the corners. Each has the colour of its place; the legend
    has those that have values. `mark` is a value with its name, drawn as a line of dashes; `note`
    stands below the legend, a line each."""
    title: str
    unit: str
    times: list
    series: list
    bars: bool
    mark: tuple = None
    note: list = field(default_factory=list)

    def top(self):
        """The largest value that is drawn."""
        sums = [sum(values) for values in zip(*(values for _, values in self.series))]
        return max(sums + [self.mark[0] if self.mark else 0])


def text(x, y, words, anchor="start", size=12, more=""):
    return (f'<text x="{x:.1f}" y="{y:.1f}" text-anchor="{anchor}" font-size="{size}"{more}>'
            f'{escape(words)}</text>')


def line(x1, y1, x2, y2, colour, more=""):
    return (f'<line x1="{x1:.1f}" y1="{y1:.1f}" x2="{x2:.1f}" y2="{y2:.1f}" stroke="{colour}"'
            f'{more}/>')


def round_step(largest, count):
    """A step of 1, 2 or 5 and noughts, of which at most so many reach the largest value."""
    step = 10.0 ** -9
    while True:
        for factor in (1, 2, 5):
            if step * factor * count >= largest:
                return step * factor
        step *= 10


def value_text(value):
    return f"{value:,.0f}" if value == int(value) else f"{value:.10g}"


def time_step(span):
    return next((step for step in STEPS if step * 8 >= span), STEPS[-1])


def time_text(millis, step, span):
    """The label of a moment on the axis, as fine as the step."""
    moment = datetime.datetime.fromtimestamp(millis // 1000, datetime.timezone.utc)
    if step >= DAY:
        return moment.strftime("%Y-%m-%d")
    day = "%m-%d " if span >= DAY else ""
    words = moment.strftime(day + ("%H:%M" if step >= MINUTE else "%H:%M:%S"))
    return f"{words}.{millis % 1000:03}" if step < SECOND else words


class Frame:
    """Where values of a panel and moments stand in the picture."""

    def __init__(self, panel, y, begin, end):
        self.x, self.y, self.begin, self.end = LEFT, y, begin, max(end, begin + 1)
        self.width = WIDTH - LEFT - RIGHT
        self.step = round_step(panel.top() or 1, 5)
        self.highest = self.step * max(1, -(-panel.top() // self.step))

    def at_time(self, millis):
        return self.x + self.width * (millis - self.begin) / (self.end - self.begin)

    def at_value(self, value):
        return self.y + HEIGHT * (1 - value / self.highest)

    def value_axis(self, panel):
        value = 0.0
        while value <= self.highest * 1.0001:
            y = self.at_value(value)
            yield line(self.x, y, self.x + self.width, y, "#dddddd")
            yield text(self.x - 8, y + 4, value_text(round(value, 9)), "end")
            value += self.step
        middle = self.y + HEIGHT / 2
        yield text(20, middle, panel.unit, "middle",
                   more=f' transform="rotate(-90 20 {middle:.1f})"')

    def time_axis(self):
        span = self.end - self.begin
        step = time_step(span)
        moment = -(-self.begin // step) * step
        while moment <= self.end:
            x = self.at_time(moment)
            yield line(x, self.y + HEIGHT, x, self.y + HEIGHT + 5, "#333333")
            yield text(x, self.y + HEIGHT + 19, time_text(moment, step, span), "middle")
            moment += step
        yield line(self.x, self.y + HEIGHT, self.x + self.width, self.y + HEIGHT, "#333333")

    def bars(self, panel):
        ends = panel.times[1:] + [self.end]
        below = [0] * len(panel.times)
        for place, (_, values) in enumerate(panel.series):
            for at, value in enumerate(values):
                if value:
                    x, y = self.at_time(panel.times[at]), self.at_value(below[at] + value)
                    yield (f'<rect x="{x:.2f}" y="{y:.2f}" fill="{colour_of(place)}" '
                           f'width="{self.at_time(ends[at]) - x:.2f}" '
                           f'height="{self.at_value(below[at]) - y:.2f}"/>')
                    below[at] += value

    def areas(self, panel):
        xs = [self.at_time(moment) for moment in panel.times]
        below = [0] * len(xs)
        for place, (_, values) in enumerate(panel.series):
            above = [a + b for a, b in zip(below, values)]
            corners = list(zip(xs, above)) + list(zip(xs, below))[::-1]
            points = " ".join(f"{x:.2f},{self.at_value(value):.2f}" for x, value in corners)
            yield f'<polygon points="{points}" fill="{colour_of(place)}"/>'
            below = above

    def legend(self, panel):
        x, y = self.x + self.width + 18, self.y + 10
        shown = [(place, name) for place, (name, values) in enumerate(panel.series) if any(values)]
        for place, name in reversed(shown):
            yield f'<rect x="{x}" y="{y - 10}" width="12" height="12" fill="{colour_of(place)}"/>'
            yield text(x + 19, y, name if len(name) < 24 else f"{name[:21]}..")
            y += 18
        if panel.mark:
            value = self.at_value(panel.mark[0])
            dashes = ' stroke-width="2" stroke-dasharray="7 4"'
            yield line(self.x, value, self.x + self.width, value, "#bb0000", dashes)
            yield line(x, y - 4, x + 12, y - 4, "#bb0000", dashes.replace("7 4", "5 2"))
            yield text(x + 19, y, panel.mark[1])
            y += 18
        for words in panel.note:
            y += 18
            yield text(x, y, words)


def colour_of(place):
    return COLOURS[place % len(COLOURS)]


def panel_parts(panel, y, begin, end):
    frame = Frame(panel, y, begin, end)
    yield text(LEFT, y - 12, panel.title, size=14, more=' font-weight="bold"')
    yield from frame.value_axis(panel)
    yield from (frame.bars(panel) if panel.bars else frame.areas(panel))
    yield from frame.time_axis()
    yield from frame.legend(panel)


def picture(title, panels, begin, end):
    """The SVG of panels below each other, from one moment in milliseconds since 1970 to another."""
    height = TOP + len(panels) * (HEIGHT + GAP)
    day = datetime.datetime.fromtimestamp(begin // 1000, datetime.timezone.utc)
    parts = [f'<svg xmlns="http://www.w3.org/2000/svg" width="{WIDTH}" height="{height}" '
             f'viewBox="0 0 {WIDTH} {height}" font-family="sans-serif" fill="#222222">',
             '<rect width="100%" height="100%" fill="white"/>',
             text(LEFT, 24, title, size=16)]
    for number, panel in enumerate(panels):
        parts += panel_parts(panel, TOP + number * (HEIGHT + GAP), begin, end)
    parts.append(text(LEFT + (WIDTH - LEFT - RIGHT) / 2, height - 20,
                      f"time (UTC), from {day:%Y-%m-%d %H:%M:%S}", "middle"))
    return "\n".join(parts + ["</svg>", ""])
