"""Kills and ends the program again and again beside a NAS and a home server that lose datagrams, and counts what got lost and what came twice.

usage: python3 -m tests.faults.killed_runs PROGRAM [--kills N] [--ends N] [--seed N]

The program keeps its requests in a spool. Of the requests every second one is sent once alone, and the others until they are answered. The
network loses one of twenty of all that passes, but of those that are sent once. Behind the kills come ends in order, by the end of input. At
the end the network loses nothing, and the home server has each request, but of those that were sent once: those that were never on disk. None
is there once more but for each kill or end at which the home server had it and its answer was not on disk, and that answer was no older than
a second. The last line is `N passed, M failed`.
"""
import argparse
import collections
import hashlib
import pathlib
import random
import select
import socket
import tempfile
import time
from dataclasses import dataclass, field

from tests.ledger.resumed import Resumed, session_of
from tests.lib import ACCOUNTING_REQUEST, ACCT_SESSION_ID, HERE, PATIENCE, SECRET, attribute, bound, conclude, need, request, user_name

# The chance that a datagram is lost, how many requests a second are made, and after how many seconds one is sent again.
LOSS, RATE, AGAIN = 0.05, 300.0, 0.3
# While so many are sent again and again none is made, since a slow machine would be flooded.
MOST = 200
# How many seconds pass from a start to the next kill, at most.
LONGEST = 1.2
# How many seconds after an answer it is on disk on a machine that has much else to do, and how many a disk within its promise takes.
LATE, PROMISED = 1.0, 0.1


@dataclass
class Record:
    """A request of the NAS: its octets, its socket and its key, whether it is sent once alone, when it was sent, and whether it and its answer
    were on disk; the marks under which it came; when it came and was served in this run; and how often it may come again."""

    octets: bytes
    place: int
    key: tuple
    once: bool
    sent: float = 0.0
    was_on_disk: bool = False
    is_closed: bool = False
    marks: set = field(default_factory=set)
    came: float | None = None
    served: float | None = None
    spare: int = 0


def answers(octets, record):
    """Whether a response is one to this request (RFC 2866 section 3)."""
    return hashlib.md5(octets[:4] + record.octets[4:20] + octets[20:] + SECRET).digest() == octets[4:20]


class Kills:
    """A program over its spool, a NAS and a home server, and how it ended so far."""

    def __init__(self, program, room, seed):
        self.proxy = Resumed(program, room, count=1, limits="first_wait = 500\ntries = 4\ndown_wait = 1000\nqueue = 65536\n")
        self.chance, self.records, self.numbers, self.open = random.Random(seed), [], {}, {}
        self.sockets = [bound() for _ in range(8)]
        self.asked = collections.defaultdict(set)
        self.loss, self.outstanding, self.late = LOSS, 0, 0

    def make(self):
        """Sends a new request."""
        number = len(self.records)
        name = user_name(f"user-{number}@h0.example".encode()) + attribute(ACCT_SESSION_ID, str(number).encode())
        octets, place = request(number % 256, name, SECRET), number % len(self.sockets)
        key = octets[4:20], socket.inet_aton(HERE), self.sockets[place].getsockname()[1], octets[1]
        self.records.append(Record(octets, place, key, number % 2 == 0))
        self.numbers[key] = number
        self.asked[place, octets[1]].add(number)
        if number % 2:
            self.open[number] = self.records[number]
        self.send(self.records[number])

    def loses(self):
        return self.chance.random() < self.loss

    def send(self, record):
        record.sent = time.monotonic()
        if record.once or not self.loses():
            self.sockets[record.place].sendto(record.octets, self.proxy.listen)

    def turn(self, until, makes, is_over=lambda: False):
        """Does what is due until a moment, or until it is over."""
        next_one = again = time.monotonic()
        while (now := time.monotonic()) < until and not is_over():
            while makes and next_one <= now:
                next_one += 1 / RATE
                if len(self.open) < MOST:
                    self.make()
            home = self.proxy.homes[0]
            for ear in select.select([home.ear, *self.sockets], [], [], 0.005)[0]:
                self.hear(home) if ear is home.ear else self.take(self.sockets.index(ear))
            if now < again:
                continue
            again = now + 0.02
            for record in self.open.values():
                if now - record.sent > AGAIN:
                    self.send(record)

    def hear(self, home, moment=None):
        """The home server takes what has come, at a moment where that is another one than now."""
        place = len(home.came)
        home.hear()
        for packet, sender in home.came[place:]:
            if self.loses():
                continue
            now, record = moment or time.monotonic(), self.records[session_of(packet)] if packet.code == ACCOUNTING_REQUEST else None
            if record is not None:
                record.marks.add(packet.octets[-12:])
                record.came = record.came or now
            if not self.loses():
                home.answer(packet, sender)
                if record is not None and moment is None:
                    record.served = now
        del home.came[:]

    def take(self, place):
        octets = self.sockets[place].recv(4096)
        numbers = self.asked[place, octets[1]]
        number = next((number for number in numbers if answers(octets, self.records[number])), None)
        if number is None or self.loses():
            return
        numbers.discard(number)
        self.open.pop(number, None)

    def dies(self):
        """Is killed."""
        self.proxy.ran.kill()
        self.proxy.ran.wait()
        return time.monotonic()

    def ends(self):
        """Ends by the end of its input, beside a NAS and a home server that go on, and gives when that end was."""
        moment = time.monotonic()
        self.proxy.ran.stdin.close()
        self.turn(moment + PATIENCE, True, lambda: self.proxy.ran.poll() is not None)
        need(self.proxy.ran.stdout.read().splitlines()[-1].startswith(b"end: "), "no end line")
        return moment

    def look(self, moment):
        """Notes what is on disk after such an end, and what may come again."""
        self.hear(self.proxy.homes[0], moment)
        came, answered = self.proxy.kept()
        for key in came:
            self.records[self.numbers[key]].was_on_disk = True
        for key in answered:
            self.records[self.numbers[key]].is_closed = True
        for record in self.records:
            if record.came and not record.is_closed and (record.served is None or moment - record.served < LATE):
                record.spare += 1
                self.outstanding += record.served is None
                self.late += record.served is not None and moment - record.served > PROMISED
            record.came = record.served = None

    def run(self, kills, ends):
        for place in range(kills + ends):
            self.proxy.begin()
            self.turn(time.monotonic() + self.chance.uniform(0.05, LONGEST), makes=True)
            self.look(self.dies() if place < kills else self.ends())
        self.proxy.begin()
        self.loss = 0.0
        last = time.monotonic() + 3 * PATIENCE
        while not self.is_done() and time.monotonic() < last:
            self.turn(time.monotonic() + 0.5, makes=False)
        self.turn(time.monotonic() + 1.0, makes=False)

    def is_done(self):
        came, answered = self.proxy.kept()
        return not self.open and not came - answered

    def faults(self):
        """What is lost and may not be, what came twice and may not, and what was not answered."""
        lost = [f"lost: request {number}" for number, record in enumerate(self.records) if not record.marks and (record.was_on_disk or not record.once)]
        twice = [f"twice: request {number}" for number, record in enumerate(self.records) if len(record.marks) > 1 + record.spare]
        return lost + twice + [f"not answered: request {number}" for number in self.open]


def main():
    parser = argparse.ArgumentParser(usage=__doc__)
    parser.add_argument("program")
    parser.add_argument("--kills", type=int, default=20)
    parser.add_argument("--ends", type=int, default=0)
    parser.add_argument("--seed", type=int, default=1)
    plan = parser.parse_args()
    with tempfile.TemporaryDirectory() as folder:
        run, began = Kills(plan.program, pathlib.Path(folder), plan.seed), time.monotonic()
        try:
            run.run(plan.kills, plan.ends)
        finally:
            run.proxy.kill()
        faults = run.faults()
        twice = sum(len(record.marks) > 1 for record in run.records)
        gone = sum(not record.marks for record in run.records)
        print(f"{len(run.records)} requests in {time.monotonic() - began:.0f} s, {plan.kills} kills, {plan.ends} ends, {twice} there twice, "
              f"{gone} sent once and never on disk, {run.outstanding} outstanding and {run.late} answered, but not on disk after 100 ms")
    for fault in faults[:20]:
        print("failed:", fault)
    conclude(1 if not faults else 0, len(faults))


if __name__ == "__main__":
    main()
