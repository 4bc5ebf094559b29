"""The figures of a run as tables in Markdown.

Of several rounds a table has the middle figure. A ratio is taken inside each round, and then the middle one.
"""
from statistics import median

NAMES = ["no proxy", "relay", "rad_proxy", "radsecproxy", "FreeRADIUS", "relay one by one", "waits alone"]
OURS, PEER, LEAST = "rad_proxy", "radsecproxy", "relay"
BETWEEN, TO_LEAST = f"{OURS} to {PEER}", f"{OURS} to {LEAST}"
# The times of a load, and which part of the requests each leaves out.
TIMES = [("p50_us", 0.5), ("p99_us", 0.01), ("p999_us", 0.001)]
CPU_WINDOW = 64
BOOK, ENDS = 1_000_000, 3


class Figures:
    """The measurements of a run."""

    def __init__(self, results):
        self.results = results

    def of(self, measure, **wanted):
        return [one for one in self.results if one["measure"] == measure
                and all(one.get(key) == value for key, value in wanted.items())]

    def middle(self, key, measure, **wanted):
        """The middle one of a figure, None where it was not measured."""
        found = [one[key] for one in self.of(measure, **wanted) if one.get(key) is not None]
        return median(found) if found else None

    def each(self, key, measure):
        """The values of a key, in order."""
        return sorted({one[key] for one in self.of(measure)})

    def made(self, kinds):
        """Each kind of text that there are measurements for, by its name: kinds tell of which measure it is made, and how."""
        return {name: make(self) for name, (measure, make) in kinds.items() if self.of(measure)}

    def subjects(self, measure):
        there = {one["subject"] for one in self.of(measure)}
        return [name for name in NAMES if name in there]

    def ratio(self, key, measure, subject=OURS, peer=PEER, **wanted):
        """A subject's to a peer's, in the same round."""
        def by_round(name):
            return {one["round"]: one[key] for one in self.of(measure, subject=name, **wanted)}

        ours, peers = by_round(subject), by_round(peer)
        found = [ours[number] / peers[number] for number in ours if peers.get(number)]
        return median(found) if found else None


def number(value, places=0):
    return "-" if value is None else f"{value:,.{places}f}"


def table(head, rows):
    lines = [head, ["---", *["---:"] * (len(head) - 1)], *rows]
    before = "" if head[0] else "| "
    return "".join(f"{before}{' | '.join(line)}{'' if line[-1] else '|'}\n" for line in lines)


def lost_share(figures, measure, **wanted):
    """Which part of the requests had no answer, over all rounds."""
    found = figures.of(measure, **wanted)
    asked = sum(one["sent"] + one["skipped"] for one in found)
    return sum(one["unanswered"] + one["skipped"] for one in found) / asked if asked else 0


def of_machine(figures):
    run = figures.of("run")[0]
    rows = [
        ["day", run["day"]],
        ["processors", f"{run['processors']} of {run['processor']}"],
        ["memory", f"{run['memory_mb']:,} MB"],
        ["system", run["system"]],
        ["compiler of the load", run["compiler"]],
        *[[name, version] for name, version in run["versions"].items() if version != "-"],
        ["rounds and seconds", f"{run['rounds']} of {run['seconds']} s, the long run {run['long']} s"],
        ["octets of a request", str(run["octets"])],
        ["processors busy with other work before the run", f"{100 * run['busy']:.0f} %"],
    ]
    return table(["", ""], rows)


def of_throughput(figures):
    subjects = figures.subjects("throughput")
    rows = []
    for homes in figures.each("homes", "throughput"):
        for window in figures.each("window", "throughput"):
            wanted = {"window": window, "homes": homes}
            if figures.of("throughput", **wanted):
                found = [number(figures.middle("per_second", "throughput", subject=name, **wanted)) for name in subjects]
                ratios = [number(figures.ratio("per_second", "throughput", peer=peer, **wanted), 2) for peer in (LEAST, PEER)]
                rows.append([f"{window}", f"{homes}", *found, *ratios])
    return table(["out at once", "home servers", *subjects, TO_LEAST, BETWEEN], rows)


def of_busy(figures):
    rows = []
    for name in figures.subjects("busy"):
        keys = ("per_second", 0), ("p50_us", 0), ("p99_us", 0), ("cpu_us", 1)
        found = [number(figures.middle(key, "busy", subject=name), places) for key, places in keys]
        rows.append([name, *found, number(figures.ratio("per_second", "busy", name, LEAST), 2)])
    return table(["", "requests a second", "p50", "p99", "processor time", f"of {LEAST}'s requests a second"], rows)


def of_relay(figures):
    """What is said of a proxy in one figure each, beside the least that one can do."""
    names = [name for name in figures.subjects("throughput") if name not in (NAMES[0], LEAST)]
    one_home = {"measure": "throughput", "window": CPU_WINDOW, "homes": 1}
    lines = [
        (f"requests a second, {CPU_WINDOW} out at once", "per_second", one_home),
        (f"processor time a request, {CPU_WINDOW} out at once", "cpu_us", one_home),
        (f"requests a second, {CPU_WINDOW} out at once, half of the processors busy", "per_second", {"measure": "busy"}),
        ("requests a second, 256 out at once, 4 home servers", "per_second",
         {"measure": "throughput", "window": 256, "homes": 4}),
        ("p50, 1 out at once", "p50_us", {"measure": "throughput", "window": 1, "homes": 1}),
        ("p50, 5,000 a second", "p50_us", {"measure": "latency", "rate": 5000}),
    ]
    rows = [[words, *[number(figures.ratio(key, subject=name, peer=LEAST, **wanted), 2) for name in names]]
            for words, key, wanted in lines]
    return table(["", *names], rows)


def times_of(figures, name, rate):
    """The three times of a subject at a rate. A time isn't told where more requests had no answer than it leaves out."""
    wanted = {"subject": name, "rate": rate}
    lost = lost_share(figures, "latency", **wanted)
    told = f"{100 * lost:.1f} % lost"
    return [number(figures.middle(key, "latency", **wanted)) if lost < out else told for key, out in TIMES]


def of_latency(figures):
    subjects = [name for name in figures.subjects("latency") if name != NAMES[0]]
    rows = []
    for rate in figures.each("rate", "latency"):
        for name in subjects:
            rows.append([number(rate), name, *times_of(figures, name, rate)])
        if {OURS, PEER} <= set(subjects):
            ratios = [number(figures.ratio(key, "latency", rate=rate), 2) for key, _ in TIMES]
            rows.append([number(rate), BETWEEN, *ratios])
    return table(["a second", "", "p50", "p99", "p99.9"], rows)


def of_cpu(figures):
    rates = figures.each("rate", "latency")
    rows = []
    for name in [name for name in NAMES[1:] if name in figures.subjects("throughput") + figures.subjects("latency")]:
        full = figures.middle("cpu_us", "throughput", subject=name, window=CPU_WINDOW, homes=1)
        rows.append([name, number(full, 1),
                     *[number(figures.middle("cpu_us", "latency", subject=name, rate=rate), 1) for rate in rates]])
    for words, peer in (TO_LEAST, LEAST), (BETWEEN, PEER):
        ratios = [figures.ratio("cpu_us", "throughput", peer=peer, window=CPU_WINDOW, homes=1),
                  *[figures.ratio("cpu_us", "latency", peer=peer, rate=rate) for rate in rates]]
        rows.append([words, *[number(ratio, 2) for ratio in ratios]])
    return table(["", f"{CPU_WINDOW} out at once", *[f"{number(rate)} a second" for rate in rates]], rows)


def of_memory(figures):
    rows = []
    for name in figures.subjects("memory"):
        found = figures.of("memory", subject=name)
        each = median((one["full_kb"] - one["empty_kb"]) * 1024 / max(1, one["answered"]) for one in found)
        empty, full = (median(one[key] for one in found) / 1024 for key in ("empty_kb", "full_kb"))
        rows.append([name, number(empty, 1), number(full, 1), number(each)])
    return table(["", "without requests, MB", "after 100,000, MB", "octets a request"], rows)


def of_start(figures):
    rows = []
    for name in figures.subjects("start"):
        printed = figures.middle("printed_us", "start", subject=name) if name == OURS else None
        answered = [one["answered_us"] / 1000 for one in figures.of("start", subject=name)]
        rows.append([name, number(printed and printed / 1000, 1), number(median(answered), 1), number(max(answered), 1)])
    return table(["", "`listening`, ms", "first answer, ms", "the longest, ms"], rows)


def of_idle(figures):
    rows = []
    for homes in figures.each("homes", "idle"):
        for name in figures.subjects("idle"):
            keys = "threads", "cpu_us_a_second", "switches_a_second"
            found = [number(figures.middle(key, "idle", subject=name, homes=homes)) for key in keys]
            rows.append([f"{homes}", name, *found])
    return table(["home servers", "", "threads", "processor time a second, µs", "switches a second"], rows)


def of_growth(figures):
    helds = figures.each("held", "growth")
    apart = 3 * BOOK // 10
    between = [min(helds, key=lambda held: abs(held - wanted)) for wanted in range(apart, BOOK, apart)]
    shown = [helds[0], *between, helds[-1]]
    rows = []
    for held in dict.fromkeys(shown):
        keys = [("time_us", 1), ("cpu_us", 1), ("longest_us", 0)]
        found = [number(figures.middle(key, "growth", held=held), places) for key, places in keys]
        rows.append([number(held), *found, number(figures.middle("resident_kb", "growth", held=held) / 1024)])
    ratios = [rise(figures, key, helds) for key in ("time_us", "cpu_us")]
    ends = f"the last {ENDS} of {len(helds)} stretches to the first {ENDS}"
    rows.append([ends, *[number(ratio, 2) for ratio in ratios], "", ""])
    return table(["in the book", "time a request, µs", "processor time, µs", "longest answer, µs", "resident, MB"], rows)


def rise(figures, key, helds):
    """A figure with a full book to that with an empty one, of some stretches at both ends."""
    first, last = (median(one[key] for held in part for one in figures.of("growth", held=held))
                   for part in (helds[:ENDS], helds[-ENDS:]))
    return last / first


def of_steady(figures):
    rows = []
    for name in figures.subjects("steady"):
        whole = figures.of("steady", subject=name)[0]
        seconds = [one["p999_us"] for one in figures.of("second", subject=name)]
        keys = "p50_us", "p99_us", "p999_us", "greatest_us"
        rows.append([name, *[number(whole[key]) for key in keys], number(median(seconds)), number(max(seconds)),
                     number(whole["unanswered"] + whole["skipped"]), number(whole["cpu_us"], 1)])
    return table(["", "p50", "p99", "p99.9", "longest", "p99.9 of the middle second", "of the worst one", "no answer",
                  "processor time"], rows)


# Each table by the measurements that it needs.
TABLES = {
    "machine": ("run", of_machine),
    "relay": ("throughput", of_relay),
    "throughput": ("throughput", of_throughput),
    "busy": ("busy", of_busy),
    "latency": ("latency", of_latency),
    "cpu": ("throughput", of_cpu),
    "memory": ("memory", of_memory),
    "start": ("start", of_start),
    "idle": ("idle", of_idle),
    "growth": ("growth", of_growth),
    "steady": ("steady", of_steady),
}


def made(results):
    """Each table that the run has figures for, by its name."""
    return Figures(results).made(TABLES)


def as_text(results):
    return "\n".join(f"{name}\n\n{text}" for name, text in made(results).items())
