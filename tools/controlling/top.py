"""`top`: tables of the home servers, of the busiest clients, and of what is dropped."""
import math
import os
import re

from trial.faults import Fault

from . import bounds
from .metrics import check_numbers
from .output import answer
from .owner import ask

ROWS = 10
# The last texts of which the times of answers are kept, so that a table has those of ten seconds.
KEPT = 11
CLEAR = "\033[H\033[2J"
DROPS = re.compile(r"(dropped|refused|unheard|send_faults|receive_faults|socket_drops|ledger_dropped|ledger_lost|spool_lost|spool_faults)_total")
BUCKET = re.compile(r'reply_seconds_bucket\{lane="([0-9]{1,2})",home="[^"]*",le="([^"]*)"', re.ASCII)
FIRST_LABEL = re.compile(r'[^"]*"([^"]*)"')
SECOND_LABEL = re.compile(r'[^"]*"[^"]*"[^"]*"([^"]*)"')


def number(text):
    """A number of an answer, whatever the locale is: 0 for what is none."""
    try:
        value = float(text)
    except ValueError:
        return 0.0
    return value if math.isfinite(value) and abs(value) < 1e18 else 0.0


def span(seconds):
    """A time, as a person reads it."""
    if seconds < 100:
        return f"{seconds:.1f}s"
    if seconds < 6000:
        return f"{int(seconds // 60)}m{int(seconds % 60):02d}s"
    return f"{int(seconds // 3600)}h{int(seconds // 60 % 60):02d}m"


class Numbers:
    """What one text of metrics has."""

    def __init__(self, lines):
        self.values, self.homes, self.clients, self.version, self.buckets = {}, [], [], "", {}
        for line in lines:
            if line.startswith("rad_proxy_"):
                self.take(*line[10:].rpartition(" ")[::2])

    def take(self, name, value):
        self.values[name] = number(value)
        if name.startswith("home_up{"):
            self.homes.append(label(SECOND_LABEL, name))
        elif name.startswith("client_received_total{"):
            self.clients.append(label(FIRST_LABEL, name))
        elif name.startswith("build_info{"):
            self.version = label(FIRST_LABEL, name)
        elif found := BUCKET.match(name):
            self.buckets.setdefault(int(found[1]), []).append((found[2], number(value)))

    def get(self, name):
        return self.values.get(name, 0.0)


def label(which, name):
    found = which.match(name)
    return found[1] if found else ""


def quantile(now, before, part):
    """The time that this part of the answers took at most, as between bounds in line, by the buckets of two texts."""
    earlier = dict(before)
    counts = [(bound, count - earlier.get(bound, 0.0)) for bound, count in now]
    whole = counts[-1][1] if counts else 0.0
    if whole <= 0:
        return "-"
    low = last = 0.0
    for bound, count in counts:
        if count >= part * whole:
            if bound == "+Inf":
                return f">{low:.0f}s"
            share = (part * whole - last) / (count - last) if count != last else 0.0
            return f"{1000 * (low + (number(bound) - low) * share):.1f}ms"
        low, last = number(bound), count
    return "-"


class Table:
    """The tables of two texts, and of the buckets ten seconds before."""

    def __init__(self, now, before, oldest):
        self.now, self.before, self.oldest = now, before, oldest
        self.time = now.get("report_time_seconds")
        self.seconds = self.time - before.get("report_time_seconds")
        self.lines = []

    def rate(self, name):
        """How much a number rose in a second."""
        return (self.now.get(name) - self.before.get(name)) / self.seconds

    def sums(self):
        """How much the numbers of a client rose that have a reason, by their family and client."""
        found = {}
        for name in self.now.values:
            if name.startswith("client_") and "," in name:
                key = (name.partition("{")[0], label(FIRST_LABEL, name))
                found[key] = found.get(key, 0.0) + self.now.get(name) - self.before.get(name)
        return found

    def add_home(self, lane, home):
        key = f'{{lane="{lane}",home="{home}"}}'
        get, rate = (lambda name: self.now.get(name + key)), (lambda name: self.rate(name + key))
        buckets = self.now.buckets.get(lane, []), self.oldest.buckets.get(lane, [])
        last, most = get("last_answer_time_seconds"), get("book_limit")
        self.lines.append(
            f"{home[:16]:<16} {('up ' if get('home_up') else 'down ') + span(self.time - get('home_since_time_seconds')):<11} "
            f"{rate('accepted_total'):7.1f} {rate('sent_total'):7.1f} {rate('answered_total'):7.1f} {rate('resent_total'):7.1f} "
            f"{quantile(*buckets, 0.5):>9} {quantile(*buckets, 0.99):>9} {int(get('queued')):7d} {int(get('outstanding')):5d} "
            f"{int(100 * get('book') / most) if most else 0:4d}%  {span(self.time - last) + ' ago' if last else 'never'}")

    def add_homes(self):
        self.lines.append(f"{'HOME':<16} {'STATE':<11} {'IN/s':>7} {'OUT/s':>7} {'ANSW/s':>7} {'AGAIN/s':>7} {'P50':>9} {'P99':>9} "
                          f"{'QUEUED':>7} {'OUT':>5} {'BOOK':>5}  LAST ANSWER")
        for lane, home in enumerate(self.now.homes[:bounds.MOST_LANES]):
            self.add_home(lane, home)

    def add_clients(self):
        self.lines.append(f"\n{'CLIENT':<16} {'IN/s':>7} {'NEW/s':>7} {'AGAIN/s':>7} {'ANSW/s':>7} {'REFUS/s':>7} {'DROP/s':>7}")
        sums = self.sums()
        received = [(self.rate(f'client_received_total{{client="{client}"}}'), client) for client in self.now.clients]
        for rate, client in sorted(received, key=lambda pair: -pair[0])[:ROWS]:
            ones = [self.rate(f'client_{name}_total{{client="{client}"}}') for name in ("accepted", "responses")]
            repeats, refused, dropped = (sums.get((f"client_{name}_total", client), 0.0) / self.seconds
                                         for name in ("repeats", "refused", "dropped"))
            self.lines.append(f"{client:<16} {rate:7.1f} {ones[0]:7.1f} {repeats:7.1f} {ones[1]:7.1f} {refused:7.1f} {dropped:7.1f}")

    def add_spool(self):
        """What is open in the spool, if there is one."""
        get = lambda name: self.now.get(f"spool_{name}")
        if "spool_open_requests" in self.now.values:
            self.lines.append(f"\nSPOOL  {int(get('open_requests'))} open, {int(get('unsynced_requests'))} not on disk, the oldest "
                              f"{span(get('oldest_seconds'))} old, {int(get('dropped_requests'))} dropped, {get('bytes') / 2**20:.1f} MiB"
                              f"{', not written' if get('failing') else ''}")

    def add_drops(self):
        """What is dropped, refused or fails now, by its reason."""
        self.lines.append("\nDROPS AND FAULTS a second")
        drops = [(self.rate(name), name) for name in self.now.values if DROPS.match(name)]
        drawn = [f"{rate:9.1f}  {name}" for rate, name in drops if rate > 0]
        self.lines += drawn or ["        -"]

    def text(self):
        up = span(self.time - self.now.get("start_time_seconds"))
        self.lines = [f"rad_proxy {self.now.version}, running for {up}\n"]
        self.add_homes()
        self.add_clients()
        self.add_spool()
        self.add_drops()
        return "".join(f"{line}\n" for line in self.lines)


def tables(texts):
    """A table for each text from the second on, by what changed since the one before."""
    kept = []
    for lines in texts:
        kept = [*kept, Numbers(lines)][-KEPT:]
        if len(kept) > 1:
            table = Table(kept[-1], kept[-2], kept[0])
            if table.seconds > 0:
                yield table.text()


def numbers(folder, is_endless):
    """The texts, as they come once a second: without end, or two of them."""
    left = 2
    while left or is_endless:
        lines, status = ask(folder, "metrics")
        check_numbers(folder, status)
        yield lines
        left -= 1


def top(folder):
    """Draws the tables once a second, each in place of the one before; where the output is no terminal, once. A text that does not come
    ends it."""
    is_screen, is_drawn = os.isatty(1), False
    for text in tables(numbers(folder, is_screen)):
        answer((CLEAR if is_screen else "") + text)
        is_drawn = True
    if not is_drawn:
        raise Fault(f"could not ask in {folder}")
