"""Access servers that retransmit by their own timers, a home server that logs by session and status, and what became of each record.

A record is known by its Acct-Session-Id and Acct-Status-Type. Each access server has one port, sends a record every `EVERY` seconds, and
sends it again after its own wait, until it is answered from the address and port that it sent to, or has been sent `TRIES` times.
"""
import contextlib
import heapq
import itertools
import random
import selectors
import threading
import time
from collections import Counter, defaultdict
from dataclasses import dataclass, field

from tests.lib import ACCT_SESSION_ID, ACCT_STATUS_TYPE, STATUS_SERVER, answer, attribute, is_signed, read, reply, request, user_name
from tests.lib import ZEROS
from tests.lib.cluster.machines import ADDRESS, HOME, HOME_SECRET, NAS_SECRET, NASES, PORT

EVERY, WAIT, TRIES = 0.25, (0.8, 1.2), 12
# How long the home server takes for an answer.
DELAY = 0.05
START, STOP = 1, 2


@dataclass(eq=False)
class Record:
    """What an access server tells, and what became of it at its side."""

    key: tuple
    nas: int
    octets: bytes
    first: float
    tries: int = 0
    answered: float = None


@dataclass
class Arrival:
    """A record at the home server: each request with it once, by when it came and by the instance that sent it."""

    requests: dict = field(default_factory=dict)

    def instances(self):
        return [instance for instance, _ in sorted(self.requests.values(), key=lambda it: it[1])]


class Turning(threading.Thread):
    """A thread that hears sockets and does what is due."""

    def __init__(self):
        super().__init__(daemon=True)
        self.selector, self.due, self.count, self.is_over = selectors.DefaultSelector(), [], itertools.count(), False

    def at(self, moment, action, *given):
        heapq.heappush(self.due, (moment, next(self.count), action, given))

    def run(self):
        while not self.is_over:
            wait = min(0.05, max(0, self.due[0][0] - time.monotonic())) if self.due else 0.05
            for key, _ in self.selector.select(wait):
                with contextlib.suppress(OSError):
                    while True:
                        self.hear(key.data, *key.fileobj.recvfrom(4096))
            while self.due and self.due[0][0] <= time.monotonic():
                _, _, action, given = heapq.heappop(self.due)
                with contextlib.suppress(OSError):
                    action(*given)

    def end(self):
        self.is_over = True
        self.join()
        for key in list(self.selector.get_map().values()):
            key.fileobj.close()


class HomeServer(Turning):
    """The home server, at a port for each instance."""

    def __init__(self, site, count=4):
        super().__init__()
        self.log = defaultdict(Arrival)
        self.sockets = {number: site.socket_at(site.home, HOME, PORT + number - 1) for number in range(1, count + 1)}
        for number, made in self.sockets.items():
            self.selector.register(made, selectors.EVENT_READ, number)
        self.start()

    def hear(self, number, octets, sender):
        if octets[0] == STATUS_SERVER:
            self.sockets[number].sendto(answer(octets, octets[1], b"", HOME_SECRET), sender)
            return
        packet = read(octets)
        if not is_signed(packet, ZEROS, HOME_SECRET):
            return
        (session, _), (kind, _) = packet.of_type(ACCT_SESSION_ID)[0], packet.of_type(ACCT_STATUS_TYPE)[0]
        self.log[session, kind[3]].requests.setdefault((sender, octets[:20]), (number, time.monotonic()))
        self.at(time.monotonic() + DELAY, self.sockets[number].sendto, reply(packet, HOME_SECRET), sender)


class Nases(Turning):
    """The access servers."""

    def __init__(self, site, target=(ADDRESS, PORT), every=EVERY, seed=1):
        super().__init__()
        self.target, self.every, chance = target, every, random.Random(seed)
        self.records, self.out, self.strangers, self.is_asking = [], {}, Counter(), True
        self.waits = [chance.uniform(*WAIT) for _ in NASES]
        self.sockets, self.numbers = [site.socket_at(site.nas, address, 1646) for address in NASES], [0] * len(NASES)
        for nas, made in enumerate(self.sockets):
            self.selector.register(made, selectors.EVENT_READ, nas)
            self.at(time.monotonic() + chance.uniform(0, every), self.ask, nas)
        self.start()

    def ask(self, nas):
        """A new record of an access server: each session has a start and a stop."""
        if not self.is_asking:
            return
        number, now = self.numbers[nas], time.monotonic()
        self.numbers[nas] += 1
        self.at(now + self.every, self.ask, nas)
        if (nas, number % 256) in self.out:
            return
        key = (b"%d-%d" % (nas, number // 2), START if number % 2 == 0 else STOP)
        attributes = attribute(ACCT_STATUS_TYPE, bytes([0, 0, 0, key[1]])) + attribute(ACCT_SESSION_ID, key[0])
        octets = request(number % 256, user_name(b"user%d" % nas) + attributes, NAS_SECRET)
        made = Record(key, nas, octets, now)
        self.records.append(made)
        self.out[nas, number % 256] = made
        self.send(made)

    def send(self, record):
        if record.answered is not None:
            return
        if record.tries == TRIES:
            self.out.pop((record.nas, record.octets[1]), None)
            return
        record.tries += 1
        self.at(time.monotonic() + self.waits[record.nas], self.send, record)
        self.sockets[record.nas].sendto(record.octets, self.target)

    def hear(self, nas, octets, sender):
        record = self.out.get((nas, octets[1]))
        if sender != self.target or record is None or octets != answer(record.octets, octets[1], octets[20:], NAS_SECRET):
            self.strangers[sender] += 1
            return
        record.answered = time.monotonic()
        del self.out[nas, octets[1]]


@dataclass
class Phase:
    """What an event cost: of the records that were first sent from it on until the next one."""

    name: str
    number: int
    begun: float
    ended: float = None
    took: float = None


class Load:
    """The access servers and the home server at work, from event to event."""

    def __init__(self, site, **options):
        self.home, self.nases, self.phases = HomeServer(site), Nases(site, **options), []

    def phase(self, name, number=None):
        """An event at an instance begins now."""
        now = time.monotonic()
        if self.phases:
            self.phases[-1].ended = now
        self.phases.append(Phase(name, number, now))

    def finish(self, patience=WAIT[1] * TRIES + 1):
        """Ends the records' making, and waits until each is answered or given up."""
        self.nases.is_asking = False
        last = time.monotonic() + patience
        while self.nases.out and time.monotonic() < last:
            time.sleep(0.05)
        self.phases[-1].ended = time.monotonic()

    def stop(self):
        self.nases.end()
        self.home.end()

    def served_by(self, since=0.0, until_=float("inf")):
        """Of each access server the instance that served its last record of a span of time."""
        found = {}
        for record in list(self.nases.records):
            if since <= record.first < until_ and (instances := self.home.log[record.key].instances()):
                found[record.nas] = instances[-1]
        return found

    def ways(self, phase, at):
        """Of each access server that moved within a phase its steps from one instance to another. `at` has the instance of each before
        it, and then behind it. A record that was out when the phase ended tells of the next event."""
        found = defaultdict(list)
        for record in list(self.nases.records):
            if phase.begun <= record.first and record.answered and record.answered < phase.ended:
                instance = self.home.log[record.key].instances()[-1]
                if at.setdefault(record.nas, instance) != instance:
                    found[record.nas].append((at[record.nas], instance))
                at[record.nas] = instance
        return found

    def tally(self, phase=None):
        """What became of the records that were answered within a phase, or of all. One that was never answered counts where it began."""
        chosen = [it for it in self.nases.records if phase is None or phase.begun <= (it.answered or it.first) < phase.ended]
        times = Counter(min(len(self.home.log[it.key].requests), 3) for it in chosen)
        waits = [it.answered - it.first for it in chosen if it.answered is not None]
        return {"records": len(chosen), "again": sum(it.tries > 1 for it in chosen), "once": times[1], "twice": times[2], "more": times[3],
                "never": times[0], "unanswered": len(chosen) - len(waits), "longest": round(max(waits, default=0), 1)}

    def longest_gap(self, phase):
        """How long one of the access servers had no answer, at most, from a second before an event to the next one."""
        answers = defaultdict(list)
        for it in list(self.nases.records):
            if it.answered and phase.begun - 1 <= it.answered < phase.ended:
                answers[it.nas].append(it.answered)
        gaps = [after - before for moments in answers.values() for before, after in zip(sorted(moments), sorted(moments)[1:])]
        return round(max(gaps, default=0), 1)
