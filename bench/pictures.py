"""The figures of a run as SVG pictures, drawn by hand: lines over two axes, and panels of them side by side."""
import math
from dataclasses import dataclass
from html import escape

from bench.tables import NAMES, TIMES, Figures, lost_share

COLOURS = dict(zip(NAMES, ["#8a8a8a", "#7a3fa0", "#0060a8", "#d35400", "#1b8a5a", "#b8860b"]))
DASHES = dict(zip(NAMES, ["2 4", "4 2", "", "8 4", "12 3 2 3", "1 2"]))
ALONE, BESIDE = 720, 400
HEIGHT, LEFT, RIGHT, TOP, BOTTOM = 320, 64, 16, 40, 48
# The legend: its first row and each further one, the least width of a name with its line, and what a character and the rest take of it.
LEGEND, LEGEND_ROW, LEGEND_EACH, CHARACTER, LEGEND_REST = 34, 20, 140, 7, 60


@dataclass
class Axis:
    """What an axis shows, from the least to the greatest value."""

    label: str
    least: float
    greatest: float
    is_log: bool = False
    marks: list = None

    def part(self, value):
        """Where a value stands, from 0 to 1."""
        if self.is_log:
            return math.log(value / self.least) / math.log(self.greatest / self.least)
        return (value - self.least) / (self.greatest - self.least)

    def ticks(self):
        if self.marks:
            return self.marks
        if self.is_log:
            powers = range(math.floor(math.log10(self.least)), math.ceil(math.log10(self.greatest)) + 1)
            found = [factor * 10.0 ** power for power in powers for factor in (1, 2, 5)]
            return [tick for tick in found if self.least <= tick <= self.greatest]
        step = 10 ** math.floor(math.log10((self.greatest - self.least) / 2))
        step *= 5 if (self.greatest - self.least) / step > 25 else 2 if (self.greatest - self.least) / step > 10 else 1
        first, count = math.ceil(self.least / step), math.floor(self.greatest / step)
        return [step * number for number in range(first, count + 1)]


@dataclass
class Panel:
    """Lines over two axes: each by its subject, as points."""

    title: str
    across: Axis
    up: Axis
    lines: dict
    has_points: bool = True


def short(value):
    """A number as a tick shows it."""
    return f"{value / 1e6:g}M" if value >= 1e6 else f"{value / 1000:g}k" if value >= 10_000 else f"{value:g}"


def log_axis(label, values):
    """An axis from the power of ten below all values to a little above them."""
    return Axis(label, 10 ** math.floor(math.log10(min(values))), max(values) * 1.3, True)


def text(x, y, words, anchor="middle", size=12, more=""):
    return f'<text x="{x:.1f}" y="{y:.1f}" text-anchor="{anchor}" font-size="{size}"{more}>{escape(words)}</text>'


def line(x1, y1, x2, y2, colour):
    return f'<line x1="{x1:.1f}" y1="{y1:.1f}" x2="{x2:.1f}" y2="{y2:.1f}" stroke="{colour}"/>'


def drawn_panel(panel, at, width):
    """A panel of this width, whose left edge is at a place."""
    wide, high = width - LEFT - RIGHT, HEIGHT - TOP - BOTTOM

    def x(value):
        return at + LEFT + wide * panel.across.part(value)

    def y(value):
        return TOP + high * (1 - panel.up.part(value))

    parts = [text(at + LEFT + wide / 2, 22, panel.title, size=14, more=' font-weight="bold"')]
    for tick in panel.up.ticks():
        parts += [line(at + LEFT, y(tick), at + LEFT + wide, y(tick), "#dddddd"),
                  text(at + LEFT - 6, y(tick) + 4, short(tick), "end")]
    for tick in panel.across.ticks():
        parts += [line(x(tick), TOP + high, x(tick), TOP + high + 5, "#555555"), text(x(tick), TOP + high + 19, short(tick))]
    parts += [line(at + LEFT, TOP + high, at + LEFT + wide, TOP + high, "#555555"),
              text(at + LEFT + wide / 2, HEIGHT - 10, panel.across.label),
              text(at + 14, TOP + high / 2, panel.up.label, more=f' transform="rotate(-90 {at + 14} {TOP + high / 2:.1f})"')]
    for name, points in panel.lines.items():
        parts += drawn_line(name, [(x(across), y(up)) for across, up in points], panel.has_points)
    return parts


def drawn_line(name, places, has_points):
    way = " ".join(f"{x:.1f},{y:.1f}" for x, y in places)
    width = 2.5 if name == "rad_proxy" else 1.8
    if not has_points:
        width = 1.2
    parts = [f'<polyline points="{way}" fill="none" stroke="{COLOURS[name]}" stroke-width="{width}" '
             f'stroke-dasharray="{DASHES[name]}"><title>{name}</title></polyline>']
    if has_points:
        parts += [f'<circle cx="{x:.1f}" cy="{y:.1f}" r="3" fill="{COLOURS[name]}"/>' for x, y in places]
    return parts


def legend(names, wide):
    """Rows of names with their lines, of which none runs into the next, and how high they are."""
    each = max([LEGEND_EACH, *(LEGEND_REST + CHARACTER * len(name) for name in names)])
    in_a_row = max(1, wide // each)
    parts = []
    for place, name in enumerate(names):
        row, column = divmod(place, in_a_row)
        of_row = min(in_a_row, len(names) - row * in_a_row)
        at, y = (wide - of_row * each) / 2 + column * each, HEIGHT + LEGEND / 2 + row * LEGEND_ROW
        parts += drawn_line(name, [(at, y), (at + 30, y)], False) + [text(at + 36, y + 4, name, "start")]
    return parts, LEGEND + LEGEND_ROW * ((len(names) - 1) // in_a_row)


def picture(words, panels):
    """Panels side by side, with one legend below them."""
    names = [name for name in NAMES if any(name in panel.lines for panel in panels)]
    width = ALONE if len(panels) == 1 else BESIDE
    wide = width * len(panels)
    below, legend_high = legend(names, wide)
    high = HEIGHT + legend_high
    parts = [f'<svg xmlns="http://www.w3.org/2000/svg" viewBox="0 0 {wide} {high}" width="{wide}" height="{high}" '
             f'font-family="sans-serif" fill="#222222" role="img"><title>{escape(words)}</title>',
             f'<rect width="{wide}" height="{high}" fill="#ffffff"/>']
    for place, panel in enumerate(panels):
        parts += drawn_panel(panel, place * width, width)
    return "\n".join([*parts, *below, "</svg>\n"])


def middles(figures, key, measure, by, **wanted):
    """For each subject the middle figures by a key."""
    lines = {}
    for name in figures.subjects(measure):
        points = [(at, figures.middle(key, measure, subject=name, **{by: at}, **wanted)) for at in figures.each(by, measure)]
        lines[name] = [(at, value) for at, value in points if value]
    return {name: points for name, points in lines.items() if points}


def values_of(lines, place=1):
    return [point[place] for points in lines.values() for point in points]


def of_throughput(figures):
    lines = middles(figures, "per_second", "throughput", "window", homes=1)
    windows = figures.each("window", "throughput")
    across = Axis("requests out at once", windows[0] / 1.2, windows[-1] * 1.2, True, windows)
    up = Axis("requests a second", 0, 1.08 * max(values_of(lines)))
    return picture("Requests a second by how many are out at once", [Panel("Throughput", across, up, lines)])


def of_latency(figures):
    """Times up to the rate where a subject loses more requests than a time leaves out."""
    rates = figures.each("rate", "latency")
    panels = []
    for title, (key, out) in zip(("p50", "p99", "p99.9"), TIMES):
        lines = {}
        for name, points in middles(figures, key, "latency", "rate").items():
            lost = {rate: lost_share(figures, "latency", subject=name, rate=rate) for rate in rates}
            lines[name] = [(rate, value) for rate, value in points if lost[rate] < out]
        panels.append((title, {name: points for name, points in lines.items() if points}))
    across = Axis("requests a second", rates[0] / 1.2, rates[-1] * 1.2, True, rates)
    up = log_axis("time to the answer, µs", [value for _, lines in panels for value in values_of(lines)])
    drawn = [Panel(title, across, up, lines) for title, lines in panels]
    return picture("Time to the answer by the rate of requests", drawn)


def of_cpu(figures):
    lines = middles(figures, "cpu_us", "latency", "rate")
    rates = figures.each("rate", "latency")
    across = Axis("requests a second", rates[0] / 1.2, rates[-1] * 1.2, True, rates)
    up = Axis("processor time a request, µs", 0, 1.08 * max(values_of(lines)))
    return picture("Processor time a request by the rate of requests", [Panel("Processor time", across, up, lines)])


def of_growth(figures):
    """Time and memory over the book, of the middle round."""
    panels = []
    shown = ("Time", "time a request, µs", "time_us", 1), ("Memory", "resident, MB", "resident_kb", 1024)
    for title, label, key, unit in shown:
        lines = {name: [(held, value / unit) for held, value in points]
                 for name, points in middles(figures, key, "growth", "held").items()}
        across = Axis("requests in the book", 0, 1_000_000)
        panels.append(Panel(title, across, Axis(label, 0, 1.08 * max(values_of(lines))), lines, False))
    return picture("Time a request and memory by the requests in the book", panels)


def of_steady(figures):
    lines = {}
    for name in figures.subjects("second"):
        lines[name] = [(one["second"], one["p999_us"]) for one in figures.of("second", subject=name) if one["p999_us"] > 0]
    last = max(values_of(lines, 0))
    up = log_axis("p99.9 of the second, µs", values_of(lines))
    return picture("p99.9 second by second", [Panel("p99.9 in a long run", Axis("second", 0, last), up, lines, False)])


# Each picture by its file and the measurements that it needs.
PICTURES = {
    "throughput.svg": ("throughput", of_throughput),
    "latency.svg": ("latency", of_latency),
    "cpu.svg": ("latency", of_cpu),
    "growth.svg": ("growth", of_growth),
    "steady.svg": ("second", of_steady),
}


def draw(results):
    """Each picture that the run has figures for, by its file's name."""
    return Figures(results).made(PICTURES)
