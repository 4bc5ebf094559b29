"""Measures how long a lane takes to be itself again after its home server was away, by the settings of the home server.

usage: python3 -m bench.outages PROGRAM [SECONDS ..]

One program has a lane for each setting. Their home servers, which are sockets of this script, are away for so many seconds (8, 75 and
600), while a record comes for each lane RATE times a second. A lane is itself again once the last record that waited longer than LATE
seconds is answered. The home servers of half of the lanes answer Status-Server. In a last run none is away, but one record of each lane is never
answered: which part of two minutes each lane then is down, and the longest time to an answer. The tables are Markdown.
"""
import collections
import contextlib
import itertools
import pathlib
import select
import socket
import statistics
import sys
import tempfile
import threading
import time
from concurrent.futures import ProcessPoolExecutor
from dataclasses import dataclass, field

from tests.lib import HERE, SECRET, STATUS_SERVER, Proxy, Server, answer, attribute, bound, configured, environment, free_port, read, reply, request, user_name

RATE, QUIET, LATE = 1, 5, 1.5
# An option of Linux that gives root a larger receive buffer than others may have: all that waited is answered at once.
FORCED_BUFFER = 33
STUCK = b"stuck"
SETTINGS = [(True, *it) for it in itertools.product((500, 1000, 2000), (2, 3, 5), (1000, 3000, 10_000), (60_000,))]
SETTINGS += [(False, *it) for it in itertools.product((500, 1000, 2000), (2, 3, 5), (10_000,), (5000, 20_000, 60_000))]


@dataclass
class Lane:
    """A lane: its settings, its home server's socket, and when each record came and was answered, by its number."""

    answers_status: bool
    first_wait: int
    tries: int
    probe_every: int
    down_wait: int
    place: int = 0
    home: object = None
    asked: dict = field(default_factory=dict)
    answered: dict = field(default_factory=dict)
    looks: list = field(default_factory=list)

    def keys(self):
        names = ("first_wait", "tries", "probe_every", "down_wait")
        return "".join(f"{name} = {getattr(self, name)}\n" for name in names) + "window = 64\nqueue = 65536\nspan = 0\n"

    def itself_again(self, back):
        """How many seconds behind `back` the last record that waited too long was answered."""
        late = [at for number, at in self.answered.items() if at - self.asked[number] > LATE and at > back]
        return max(late, default=back) - back

    def left(self):
        return len(self.asked.keys() - self.answered.keys())

    def longest(self):
        return max(at - self.asked[number] for number, at in self.answered.items())

    def down_part(self):
        return statistics.mean(self.looks) if self.looks else 0.0


class Outage:
    """A program with all lanes, its NAS and its home servers."""

    def __init__(self, program, folder):
        self.is_away, self.is_over = False, False
        self.lanes = [Lane(*setting) for setting in SETTINGS]
        for place, lane in enumerate(self.lanes):
            lane.place, lane.home = place, bound(HERE)
        servers = [Server(f"h{lane.place}", lane.home.getsockname()[1], lane.keys(), f"h{lane.place}.example", SECRET.decode())
                   for lane in self.lanes]
        listen = (HERE, free_port())
        self.proxy = Proxy(program, folder, configured(f"{HERE}:{listen[1]}", servers, secret=SECRET.decode(), linger=0), listen)
        self.proxy.start(env=environment("off"))
        self.proxy.listens()
        self.nases = [bound(HERE) for _ in self.lanes]
        for nas in self.nases:
            with contextlib.suppress(PermissionError):
                nas.setsockopt(socket.SOL_SOCKET, FORCED_BUFFER, 4 << 20)
        self.waiting = collections.defaultdict(dict)
        self.threads = [threading.Thread(target=work) for work in (self.answer_requests, self.hear_answers)]
        for thread in self.threads:
            thread.start()

    def answer_requests(self):
        """Answers what comes to the home servers, where they are not away."""
        by_socket = {lane.home: lane for lane in self.lanes}
        while not self.is_over:
            for ear in select.select(by_socket, [], [], 0.2)[0]:
                octets, sender = ear.recvfrom(4096)
                packet = read(octets)
                if self.is_away or STUCK in octets:
                    continue
                if packet.code != STATUS_SERVER:
                    ear.sendto(reply(packet, SECRET), sender)
                elif by_socket[ear].answers_status:
                    ear.sendto(answer(octets, packet.identifier, b"", SECRET), sender)

    def hear_answers(self):
        """Keeps when the answers came. An answer is found by its Identifier and Authenticator."""
        by_socket = {nas: lane for nas, lane in zip(self.nases, self.lanes)}
        while not self.is_over:
            for nas in select.select(by_socket, [], [], 0.2)[0]:
                octets, lane = nas.recv(4096), by_socket[nas]
                number = self.waiting[lane.place].pop(octets[:20], None)
                if number is not None:
                    lane.answered[number] = time.monotonic()

    def ask(self, lane, number, session):
        """Sends a record of a lane."""
        octets = request(number % 256, user_name(f"u{number}@h{lane.place}.example".encode()) + attribute(44, session), SECRET)
        self.waiting[lane.place][answer(octets, octets[1], b"", SECRET)[:20]] = number
        lane.asked[number] = time.monotonic()
        self.nases[lane.place].sendto(octets, self.proxy.listen)

    def go_on(self, seconds, numbers, is_looked=False):
        """Sends records for so long, and looks then which lanes are down, where that is asked."""
        begun, ticks = time.monotonic(), itertools.count(1)
        while time.monotonic() < begun + seconds:
            number = next(numbers)
            for lane in self.lanes:
                self.ask(lane, number, b"s%d" % number)
            if is_looked:
                self.look()
            time.sleep(max(0.0, begun + next(ticks) / RATE - time.monotonic()))

    def look(self):
        self.proxy.ran.stdin.write(b"state\n")
        self.proxy.ran.stdin.flush()
        for lane in self.lanes:
            lane.looks.append(self.proxy.ran.stdout.readline().split()[3] == b"down")

    def end(self):
        self.is_over = True
        for thread in self.threads:
            thread.join()
        self.proxy.kill()
        for one in (*self.nases, *(lane.home for lane in self.lanes)):
            one.close()


def tried(program, seconds):
    """Has the home servers be away for so long: how long each lane took, and how many records had no answer then."""
    with tempfile.TemporaryDirectory() as folder:
        outage, numbers = Outage(program, pathlib.Path(folder)), itertools.count()
        try:
            outage.go_on(QUIET, numbers)
            outage.is_away = True
            outage.go_on(seconds, numbers)
            outage.is_away, back = False, time.monotonic()
            outage.go_on(100, numbers)
            time.sleep(3)
            return [(lane.itself_again(back), lane.left()) for lane in outage.lanes]
        finally:
            outage.end()


def stuck(program):
    """Has one record of each lane stay without an answer: which part of the time each lane is down, and the longest wait of the others."""
    with tempfile.TemporaryDirectory() as folder:
        outage, numbers = Outage(program, pathlib.Path(folder)), itertools.count()
        try:
            outage.go_on(QUIET, numbers)
            for lane in outage.lanes:
                outage.ask(lane, next(numbers), STUCK)
            outage.go_on(120, numbers, True)
            return [(lane.down_part(), lane.longest()) for lane in outage.lanes]
        finally:
            outage.end()


def row(lane, results, times):
    cells = ["yes" if lane.answers_status else "no", lane.first_wait, lane.tries, lane.probe_every if lane.answers_status else "-",
             "-" if lane.answers_status else lane.down_wait]
    cells += [f"{results[it][lane.place][0]:.1f}" + (f" ({results[it][lane.place][1]} left)" if results[it][lane.place][1] else "") for it in times]
    down, longest = results["stuck"][lane.place]
    return cells + [f"{100 * down:.0f} %", f"{longest:.1f}"]


def main():
    program, times = pathlib.Path(sys.argv[1]).resolve(), [int(word) for word in sys.argv[2:]] or [8, 75, 600]
    with ProcessPoolExecutor(len(times) + 1) as pool:
        works = {seconds: pool.submit(tried, program, seconds) for seconds in times} | {"stuck": pool.submit(stuck, program)}
        results = {name: work.result() for name, work in works.items()}
    head = ["Status-Server", "first_wait", "tries", "probe_every", "down_wait", *(f"after {it} s" for it in times), "down", "longest wait"]
    print(" | ".join(head), "|".join("---" for _ in head), sep="\n")
    for place, setting in enumerate(SETTINGS):
        print(" | ".join(map(str, row(Lane(*setting, place=place), results, times))))


if __name__ == "__main__":
    main()
