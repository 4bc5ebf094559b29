"""Draws three pictures of docs/: the way of a request, a lane's life, and the crates; and looks that in all there each text has room.

usage: python3 -m tests.gate.drawings            writes them
       python3 -m tests.gate.drawings --check    compares them; the last line is `N passed, M failed`

The names of the stations are those of docs/map.md, and the crates those of crates.txt. A text that has no room ends the script. In no
picture of docs/, whoever draws it, a text may run into another text, into a line of a legend, or over the edge.
"""
import re
import sys
from html import escape, unescape

from tests.lib import TOP, conclude, progress

DOCS = TOP / "docs"
STYLE = """<style>
.paper { fill: #ffffff } .band { fill: #f3f5f8 } .box { fill: #ffffff; stroke: #57606a } .own { fill: #e3effb; stroke: #3a6ea5 }
text { fill: #1f2328 } .small { fill: #57606a } .way { fill: none; stroke: #3d4752 } .head { fill: #3d4752 }
@media (prefers-color-scheme: dark) {
.paper { fill: #0d1117 } .band { fill: #161b22 } .box { fill: #0d1117; stroke: #8b949e } .own { fill: #12263f; stroke: #58a6ff }
text { fill: #e6edf3 } .small { fill: #9198a1 } .way { stroke: #c3cad2 } .head { fill: #c3cad2 }
}
</style>"""
# The room of a character in a wide typeface, as a part of the size of the type, and of a bold one.
ROOM, BOLD_ROOM = 0.64, 0.7
NAME, SMALL = 13, 10.5


def text(x, y, words, room, size=NAME, anchor="middle", kind=None, bold=False):
    """A line of text, which has to fit into its room."""
    wanted = len(words) * size * (BOLD_ROOM if bold else ROOM)
    if wanted > room:
        raise SystemExit(f"no room for {words!r}: {wanted:.0f}, and not {room:.0f}")
    more = (f' class="{kind}"' if kind else "") + (' font-weight="bold"' if bold else "")
    return f'<text x="{x:g}" y="{y:g}" font-size="{size:g}" text-anchor="{anchor}"{more}>{escape(words)}</text>'


def box(x, y, width, height, kind="box"):
    return f'<rect x="{x:g}" y="{y:g}" width="{width:g}" height="{height:g}" rx="5" class="{kind}"/>'


def way(*places):
    """A line over places, with an arrow's head at the last, which it meets straight down or straight to a side."""
    (x, y), (before, above) = places[-1], places[-2]
    across, down = (x > before) - (x < before), (y > above) - (y < above)
    back = x - 7 * across, y - 7 * down
    wings = [(back[0] + 4 * down, back[1] + 4 * across), (back[0] - 4 * down, back[1] - 4 * across)]
    line = " ".join(f"{at:g},{below:g}" for at, below in [*places[:-1], back])
    head = " ".join(f"{at:g},{below:g}" for at, below in [(x, y), *wings])
    return f'<polyline points="{line}" class="way"/><polygon points="{head}" class="head"/>'


def picture(title, width, height, parts):
    """The text of a picture, light or dark as its reader's pages are."""
    head = (f'<svg xmlns="http://www.w3.org/2000/svg" viewBox="0 0 {width:g} {height:g}" width="{width:g}" height="{height:g}" '
            f'font-family="sans-serif" role="img"><title>{escape(title)}</title>')
    return "\n".join([head, STYLE, f'<rect width="{width:g}" height="{height:g}" class="paper"/>', *parts, "</svg>\n"])


# The way of a request.

THREADS = "the front's thread", "the lane, behind its lock", "its worker's thread"
FRONT, LANE, WORKER = range(3)
# The stations of each column, and the last one before the home server.
STATIONS = {FRONT: [1, 2, 3, 4, 7, 18, 19], LANE: [5, 6, 9, 10, 13, 14, 15, 16], WORKER: [8, 11, 12, 17]}
LAST_OUT = 11


class Way:
    """Where the stations are: a column for each thread and for the lane, and a row for each station."""

    SIDE, COLUMN, WIDE, HIGH, ROW, TOP, HALF = 124, 266, 250, 38, 50, 58, 52

    def __init__(self, stations):
        self.stations = stations
        self.columns = {number: column for column, numbers in STATIONS.items() for number in numbers}
        if sorted(self.columns) != [*range(1, len(stations) + 1)]:
            raise SystemExit(f"docs/map.md has {len(stations)} stations, and not {len(self.columns)}")
        self.width, self.height = 2 * self.SIDE + 3 * self.COLUMN, self.TOP + self.ROW * len(stations) + 8

    def left(self, column):
        return self.SIDE + self.COLUMN * column + (self.COLUMN - self.WIDE) / 2

    def middle(self, column):
        return self.left(column) + self.WIDE / 2

    def above(self, number):
        return self.TOP + self.ROW * (number - 1)

    def centre(self, number):
        return self.above(number) + self.HIGH / 2

    def columns_drawn(self):
        for column, name in enumerate(THREADS):
            yield box(self.SIDE + self.COLUMN * column + 3, 8, self.COLUMN - 6, self.height - 16, "band")
            yield text(self.middle(column), 34, name, self.COLUMN - 8, bold=True)

    def end_drawn(self, name, x, first, last):
        """The NAS or the home server, beside these stations."""
        high = self.above(last) + self.HIGH - self.above(first)
        yield box(x - self.HALF, self.above(first), 2 * self.HALF, high, "own")
        yield text(x, self.centre(first) + 5, name, 2 * self.HALF, bold=True)

    def ends_drawn(self):
        nas, home, last = self.SIDE / 2, self.width - self.SIDE / 2, len(self.stations)
        yield from self.end_drawn("NAS", nas, 1, last)
        yield from self.end_drawn("home server", home, LAST_OUT, LAST_OUT + 1)
        left, right = self.left(FRONT), self.left(WORKER) + self.WIDE
        for number, begin, end in ((1, nas + self.HALF, left), (last, left, nas + self.HALF),
                                   (LAST_OUT, right, home - self.HALF), (LAST_OUT + 1, home - self.HALF, right)):
            yield way((begin, self.centre(number)), (end, self.centre(number)))

    def step_drawn(self, number):
        """The way from a station to the next."""
        here, there = self.columns[number], self.columns[number + 1]
        if here == there:
            return way((self.middle(here), self.above(number) + self.HIGH), (self.middle(here), self.above(number + 1)))
        edge = self.left(here) + (self.WIDE if there > here else 0)
        return way((edge, self.centre(number)), (self.middle(there), self.centre(number)), (self.middle(there), self.above(number + 1)))

    def station_drawn(self, number, name, function):
        left, above, room = self.left(self.columns[number]), self.above(number), self.WIDE - 12
        yield box(left, above, self.WIDE, self.HIGH)
        yield text(left + 8, above + 16, f"{number} {name}", room, 12, "start", bold=True)
        yield text(left + 8, above + 31, function, room, SMALL, "start", "small")

    def drawn(self):
        yield from self.columns_drawn()
        yield from self.ends_drawn()
        for number, (name, function) in enumerate(self.stations, 1):
            yield from self.station_drawn(number, name, function)
            if number not in (LAST_OUT, len(self.stations)):
                yield self.step_drawn(number)


def the_way():
    """The name of each station of docs/map.md, and its first function."""
    page = (DOCS / "map.md").read_text("utf-8")
    plan = Way(re.findall(r"^\d+\. \*\*(.*?)\*\*: `(.*?)`", page, re.M))
    return picture("The way of a request through rad_proxy", plan.width, plan.height, [*plan.drawn()])


# A lane's life.

FIRST = "A step does the first that applies:"
UP = [FIRST, "1  sends again what is due", "2  marks the home server down", "3  sends the first of the queue", "4  nothing"]
DOWN = [FIRST, "1  marks the home server up", "2  sends a probe: at once, and", "    “probe_every” after the last one", "3  nothing"]
TO_DOWN = ["a request had “tries” sendings", "and the wait after the last, and", "nothing else is to be sent again"]
TO_UP = ["a reply or an answer to a probe", "comes, or “down_wait” is over:", "all outstanding is sent again"]
BOTH = "In both it accepts requests, until a drain, and answers repeats. A request in its book:"
PLACES_OF_A_REQUEST = "queued", "outstanding", "answered", "removed"
STEPS_OF_A_REQUEST = "accepted", "sent", "a valid reply", "its span is over"
LIFE_WIDTH, LIFE_HEIGHT = 920, 370


def lines(x, y, words, room, size=12, anchor="middle"):
    return [text(x, y + 17 * place, line, room, size, anchor) for place, line in enumerate(words)]


def watch_drawn(left, top, wide, high, name, words):
    """The home server marked up, or down, with what a step does."""
    drawn = lines(left + 14, top + 50, words, wide - 16, 12, "start")
    return [box(left, top, wide, high, "own"), text(left + wide / 2, top + 24, name, wide, 15, bold=True), *drawn]


def watches_drawn():
    left, top, wide, high, gap = 20, 50, 310, 150, 260
    right, middle = left + wide + gap, left + wide / 2
    return [*watch_drawn(left, top, wide, high, "up", UP), *watch_drawn(right, top, wide, high, "down", DOWN),
            text(middle, 20, "at the start", wide, 12), way((middle, 28), (middle, top)),
            way((left + wide, top + 66), (right, top + 66)), *lines(left + wide + gap / 2, top + 18, TO_DOWN, gap),
            way((right, top + 90), (left + wide, top + 90)), *lines(left + wide + gap / 2, top + 110, TO_UP, gap)]


def request_drawn():
    """A request from its acceptance to the moment at which its book no longer has it."""
    left, top, pitch, wide, high = 90, 270, 210, 120, 40
    middle = top + high / 2
    for place, (step, name) in enumerate(zip(STEPS_OF_A_REQUEST, PLACES_OF_A_REQUEST)):
        at = left + pitch * place
        begin = at - (pitch - wide)
        yield way((max(begin, 10), middle), (at, middle))
        yield text((max(begin, 10) + at) / 2, middle - 8, step, 110, SMALL)
        yield box(at, top, wide, high)
        yield text(at + wide / 2, middle + 5, name, wide, bold=True)
    out, below = left + pitch, top + high
    yield way((out + 90, below), (out + 90, below + 24), (out + 30, below + 24), (out + 30, below))
    yield text(out + 60, below + 42, "sent again, with the same octets", 260, SMALL)


def the_life():
    parts = [*watches_drawn(), text(LIFE_WIDTH / 2, 236, BOTH, LIFE_WIDTH, 12), *request_drawn()]
    title = "A lane's life: its home server is marked up or down, and each request moves on"
    return picture(title, LIFE_WIDTH, LIFE_HEIGHT, parts)


# The crates.

# The column and the row of each crate.
PLACES = {
    "rad_proxy": (2, 0), "library_tests": (3, 0), "rad_simulation": (4, 0),
    "rad_telemetry": (2, 1), "memory_disk": (3, 1), "ledger_writer": (4, 1), "rad_audit": (5, 1),
    "config_json": (0, 2), "rad_replay": (1, 2), "rad_server": (2, 2), "spool_writer": (3, 2), "ledger_lines": (4, 2), "ledger_files": (5, 2),
    "rad_console": (2, 3), "rad_metrics": (3, 3), "ledger_rules": (4, 3),
    "rad_advice": (0, 4), "rad_addresses": (1, 4), "ledger_state": (2, 4), "spool_runs": (4, 4),
    "rad_desk": (3, 5), "rad_network": (4, 5),
    "json_objects": (5, 6), "rad_log": (1, 6), "locked_lanes": (3, 6), "rad_progress": (4, 6),
    "rad_lane": (3, 7), "spool_files": (5, 7),
    "rad_files": (0, 8), "rad_realms": (2, 8), "block_queue": (3, 8), "rad_tables": (4, 8),
    "rad_config": (2, 9), "raw_lists": (3, 9),
    "rad_auth": (2, 10),
    "rad_packet": (2, 11),
}
# Between which columns an arrow goes down that would meet a crate in its target's column.
GUTTERS = {("library_tests", "ledger_lines"): 3.5, ("config_json", "json_objects"): 4.5,
           ("ledger_lines", "json_objects"): 4.5,
           ("rad_audit", "rad_files"): 0.5, ("rad_audit", "rad_log"): 1.5, ("ledger_rules", "rad_lane"): 3.5,
           ("rad_proxy", "rad_advice"): 0.5, ("config_json", "rad_files"): 0.5, ("config_json", "rad_log"): 0.5,
           ("config_json", "rad_realms"): 1.5, ("rad_replay", "rad_files"): 0.5, ("rad_metrics", "rad_log"): 0.5,
           ("rad_telemetry", "rad_metrics"): 2.5, ("ledger_writer", "rad_metrics"): 3.5, ("spool_writer", "rad_desk"): 3.5, ("spool_writer", "spool_files"): 4.5, ("spool_runs", "spool_files"): 4.5, ("spool_writer", "rad_log"): 0.5}
PROGRAMS = "rad_proxy", "rad_audit", "config_json"
MOST_CHARACTERS = 24
LEGEND = ["An arrow leads to what a crate uses;", "it uses what that rests on too.", "In small type: libraries of the kit."]


def rests():
    """Each crate with what crates.txt says that it uses: other crates, and libraries of the kit."""
    found = progress.libraries(TOP)
    own = {name: [word for word in words if word in found] for name, words in found.items()}
    return own, {name: [word for word in words if word not in found] for name, words in found.items()}


def direct(own):
    """The pairs of a crate and one that it rests on and not by another."""
    return [(name, word) for name, words in own.items() for word in words
            if not any(word in progress.below(own, other) for other in words if other != word)]


def wrapped(words):
    """The names of libraries in lines."""
    found = []
    for word in words:
        if found and len(found[-1]) + len(word) < MOST_CHARACTERS:
            found[-1] += f" {word}"
        else:
            found.append(word)
    return found


class Plan:
    """Where the crates' boxes are, and the ways between them."""

    WIDE, HIGH, COLUMN, ROW, LEFT, TOP = 166, 48, 190, 122, 14, 14

    def __init__(self, pairs):
        self.pairs, self.lanes = pairs, {}

    def middle(self, column):
        return self.LEFT + self.COLUMN * column + self.WIDE / 2

    def above(self, row):
        return self.TOP + self.ROW * row

    def along(self, pair, end):
        """Where a way leaves or meets a box: those of one box stand side by side, in the order of their other ends. The only one of a box
        is straight, where the other box is in the same column."""
        others = sorted((it for it in self.pairs if it[end] == pair[end]), key=lambda it: PLACES[it[1 - end]])
        is_straight = len(others) == 1 and PLACES[pair[0]][0] == PLACES[pair[1]][0]
        if is_straight and sum(it[1 - end] == pair[1 - end] for it in self.pairs) > 1:
            return self.along(pair, 1 - end)
        part = (others.index(pair) + 1) / (len(others) + 1)
        return self.middle(PLACES[pair[end]][0]) - self.WIDE / 2 + self.WIDE * part

    def lane(self, row):
        """The height of the next way that goes across below a row."""
        self.lanes[row] = self.lanes.get(row, 0) + 1
        high = 5 * self.lanes[row]
        if high > self.ROW - self.HIGH - 9:
            raise SystemExit(f"no room for one more way below row {row}")
        return self.above(row) + self.HIGH + high

    def places(self, pair):
        """The way from a crate to one that it rests on."""
        (_, first), (_, last) = (PLACES[name] for name in pair)
        start, end = self.along(pair, 0), self.along(pair, 1)
        places = [(start, self.above(first) + self.HIGH)]
        if pair in GUTTERS:
            gutter = self.middle(GUTTERS[pair])
            high, low = self.lane(first), self.lane(last - 1)
            places += [(start, high), (gutter, high), (gutter, low), (end, low)]
        elif start != end:
            high = self.lane(first)
            places += [(start, high), (end, high)]
        return [*places, (end, self.above(last))]

    def meets(self, places, name):
        """Whether a way goes through the box of a crate."""
        column, row = PLACES[name]
        left, above = self.middle(column) - self.WIDE / 2, self.above(row)
        return any(min(x, other) < left + self.WIDE and left < max(x, other) and min(y, below) < above + self.HIGH and above < max(y, below)
                   for (x, y), (other, below) in zip(places, places[1:]))

    def way(self, pair):
        places = self.places(pair)
        met = [name for name in PLACES if name not in pair and self.meets(places, name)]
        if met:
            raise SystemExit(f"the way from {pair[0]} to {pair[1]} meets {met}")
        return way(*places)

    def crate(self, name, libraries):
        """A crate's box: its name, and the libraries of the kit that it uses."""
        column, row = PLACES[name]
        x, y = self.middle(column), self.above(row) - 6 * len(libraries)
        yield box(x - self.WIDE / 2, self.above(row), self.WIDE, self.HIGH, "own" if name in PROGRAMS else "box")
        yield text(x, y + 29, name, self.WIDE, NAME, bold=True)
        for place, line in enumerate(libraries):
            yield text(x, y + 42 + 11 * place, line, self.WIDE, 10, kind="small")


def the_crates():
    own, kit = rests()
    if own.keys() != PLACES.keys():
        raise SystemExit(f"crates.txt has other crates: {sorted(own.keys() ^ PLACES.keys())}")
    plan = Plan(direct(own))
    parts = [plan.way(pair) for pair in plan.pairs]
    for name in PLACES:
        parts += plan.crate(name, wrapped(kit[name]))
    parts += lines(plan.LEFT, plan.above(10) + 20, LEGEND, 2 * plan.COLUMN - 20, 12, "start")
    columns, rows = (max(place[it] for place in PLACES.values()) for it in (0, 1))
    width, height = plan.middle(columns) + plan.WIDE / 2 + plan.LEFT, plan.above(rows) + plan.HIGH + plan.TOP
    return picture("The crates, and what each rests on", width, height, parts)


PICTURES = {"request.svg": the_way, "lane.svg": the_life, "crates.svg": the_crates}


# What has to be so of each picture.

TEXT = re.compile(r'<text x="([\d.]+)" y="([\d.]+)"([^>]*)>([^<]+)</text>')
SAMPLE = re.compile(r'<polyline points="([\d.]+),([\d.]+) ([\d.]+),\2" fill="none"')


def spans(drawn):
    """Each text that lies across, with its left and right end, its line and its size."""
    for x, y, more, words in TEXT.findall(drawn):
        size, anchor = re.search(r'font-size="([\d.]+)"', more), re.search(r'text-anchor="(\w+)"', more)
        if size and "transform" not in more:
            wide = len(unescape(words)) * float(size[1]) * (BOLD_ROOM if "bold" in more else ROOM)
            left = float(x) - wide * {"start": 0, "middle": 0.5, "end": 1}[anchor[1]]
            yield unescape(words), left, left + wide, float(y), float(size[1])


def collisions(drawn):
    """The texts of a picture that run into another, into a line of the legend before them, or over the edge."""
    width = float(re.search(r'viewBox="0 0 ([\d.]+) ', drawn)[1])
    found = sorted(spans(drawn), key=lambda it: it[1])
    samples = [(float(left), float(y)) for left, y, _ in SAMPLE.findall(drawn)]
    for place, (words, left, right, y, size) in enumerate(found):
        if left < 0 or right > width:
            yield f"{words!r} runs over the edge"
        later = found[place + 1 :]
        yield from (f"{words!r} runs into {other!r}" for other, begin, _, line, _ in later if begin < right and abs(line - y) < size)
        yield from (f"{words!r} runs into a line" for begin, line in samples if left < begin < right and 0 <= y - line < size)


def faults(made):
    """For each picture what is wrong with it, or nothing."""
    for file, drawn in made.items():
        is_drawn = file.exists() and file.read_text("utf-8") == drawn
        yield None if is_drawn else f"{file.relative_to(TOP)} is not as it is drawn: run python3 -m tests.gate.drawings"
    for file in sorted(DOCS.glob("**/*.svg")):
        found = [*collisions(file.read_text("utf-8"))]
        yield "; ".join([f"{file.relative_to(TOP)}: {found[0]}", *found[1:]]) if found else None


def main():
    if sys.argv[1:] not in ([], ["--check"]):
        sys.exit(__doc__)
    made = {DOCS / name: draw() for name, draw in PICTURES.items()}
    if sys.argv[1:]:
        found = [*faults(made)]
        wrong = [fault for fault in found if fault]
        print(*wrong, sep="\n", end="\n" if wrong else "")
        conclude(len(found) - len(wrong), len(wrong))
    for file, drawn in made.items():
        file.write_text(drawn, "utf-8")


if __name__ == "__main__":
    main()
