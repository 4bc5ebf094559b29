"""Measures what becomes of records beside a home server that is slow, overrun or away, by the settings of rad_proxy and with its peers.

usage: python3 -m bench.slow_and_bursts PROGRAM [CASE ..] [NAME ..]

CASE is slow, burst or away; all without one. NAME is a part of the name of what is measured, as radsecproxy; all without one. An access server sends each record up to TRIES times, APART seconds apart, until it is answered.
The home server is a socket of this script that writes each datagram down: what came twice would be written twice. The table is Markdown.
"""
import collections
import contextlib
import multiprocessing
import os
import pathlib
import select
import signal
import socket
import subprocess
import sys
import tempfile
import time
from dataclasses import dataclass, field

from bench.proxies import CLIENT_SECRET, HOME_SECRET, FreeRadius, RadProxy, Radsecproxy, Setting, wait_until_it_answers
from tests.lib import ACCT_SESSION_ID, ACCT_STATUS_TYPE, HERE, PROXY_STATE, STATUS_SERVER, answer, attribute, free_ports, request, user_name

APART, TRIES = 3, 5
QUIET_SECONDS = 20
SLOW = {"window": 254, "first_wait": 6000}
AWAY = {"first_wait": 1000, "tries": 2, "probe_every": 1000}
BURSTS = {"queue": 65536, "book": 200_000}


@dataclass(frozen=True)
class Case:
    """How many records a second for how long; after how many seconds each is answered, how many a second at most, when it is away."""

    rate: int
    seconds: float
    wait: float = 0.0
    most: int = 0
    away: tuple = (0, 0)
    after: float = QUIET_SECONDS


CASES = {"slow": Case(20, 60, wait=4), "burst": Case(20_000, 2.5, most=1000, after=75), "away": Case(50, 40, away=(10, 18))}


class Sized(RadProxy):
    """The program with the defaults, but for these numbers."""

    LANE = {}

    def __init__(self, program, name, lane):
        super().__init__(program)
        self.name, self.lane = name, lane

    def words(self, folder, setting):
        setting.lane = self.lane
        return super().words(folder, setting)


def subjects(program):
    found = [Sized(program, "rad_proxy, the defaults", {}), Sized(program, "rad_proxy, `window = 254` `first_wait = 6000`", SLOW | BURSTS),
             Sized(program, "rad_proxy, `first_wait = 1000` `tries = 2` `probe_every = 1000`", AWAY | BURSTS), Radsecproxy(), FreeRadius()]
    return [it for it in found if it.is_there()]


def session_of(octets):
    at = 20
    while octets[at] != ACCT_SESSION_ID:
        at += octets[at + 1]
    return octets[at + 2:at + octets[at + 1]]


def reply_to(octets):
    """The home server's answer, with the Proxy-States that came."""
    at, states = 20, []
    while at < len(octets):
        if octets[at] == PROXY_STATE:
            states.append(octets[at:at + octets[at + 1]])
        at += octets[at + 1]
    return answer(octets, octets[1], b"".join(states), HOME_SECRET.encode())


def serve(port, case, pipe):
    """The home server: what came, in its order, is sent down the pipe at the end."""
    came, due, is_over, begun, free = [], collections.deque(), [], None, 0.0
    signal.signal(signal.SIGTERM, lambda *_: is_over.append(True))
    with socket.socket(socket.AF_INET, socket.SOCK_DGRAM) as ear:
        ear.bind((HERE, port))
        while not is_over:
            wait = 0.05 if not due else min(0.05, max(0.0, due[0][0] - time.monotonic()))
            is_there = select.select([ear], [], [], wait)[0] and time.monotonic() >= free
            now = time.monotonic()
            while due and due[0][0] <= now:
                _, octets, sender = due.popleft()
                ear.sendto(octets, sender)
            if not is_there:
                time.sleep(max(0.0, min(free - now, 0.001)))
                continue
            octets, sender = ear.recvfrom(4096)
            begun = begun if begun is not None or octets[0] == STATUS_SERVER else now
            if begun is not None and case.away[0] <= now - begun < case.away[1]:
                continue
            if octets[0] == STATUS_SERVER:
                ear.sendto(answer(octets, octets[1], b"", HOME_SECRET.encode()), sender)
                continue
            came.append(session_of(octets))
            free = max(free, now - 0.05) + 1 / case.most if case.most else 0.0
            due.append((now + case.wait, reply_to(octets), sender))
    pipe.send(came)


@dataclass
class Nas:
    """The access server, with a socket for each 256 records that are under way."""

    port: int
    case: Case
    answered: int = 0
    given_up: int = 0
    open: dict = field(default_factory=dict)

    def records(self):
        count = round(self.case.rate * self.case.seconds)
        user, start = user_name(b"bob@r00.bench"), attribute(ACCT_STATUS_TYPE, bytes([0, 0, 0, 1]))
        return [request(number % 256, user + start + attribute(ACCT_SESSION_ID, b"%08d" % number), CLIENT_SECRET.encode())
                for number in range(count)]

    def run(self):
        records = self.records()
        sockets = [socket.socket(socket.AF_INET, socket.SOCK_DGRAM) for _ in range(len(records) // 256 + 1)]
        with contextlib.ExitStack() as stack:
            poll = select.epoll()
            for it in sockets:
                stack.enter_context(it)
                it.connect((HERE, self.port))
                it.setblocking(False)
                poll.register(it, select.EPOLLIN)
            files = {it.fileno(): at for at, it in enumerate(sockets)}
            self.send_all(records, sockets, poll, files)
            poll.close()

    def send_all(self, records, sockets, poll, files):
        begun, sent, again = time.monotonic(), 0, collections.deque()
        end = begun + self.case.seconds + self.case.after
        while (now := time.monotonic()) < end:
            while sent < len(records) and begun + sent / self.case.rate <= now:
                self.put(sockets, sent, records[sent], again, now, 1)
                sent += 1
            while again and again[0][0] <= now:
                _, number, count = again.popleft()
                if number in self.open and count < TRIES:
                    self.put(sockets, number, records[number], again, now, count + 1)
                elif self.open.pop(number, None):
                    self.given_up += 1
            for file, _ in poll.poll(0.001):
                self.hear(sockets[files[file]], files[file])

    def put(self, sockets, number, octets, again, now, count):
        self.open[number] = True
        with contextlib.suppress(BlockingIOError, ConnectionRefusedError):
            sockets[number // 256].send(octets)
        again.append((now + APART, number, count))

    def hear(self, one, at):
        with contextlib.suppress(BlockingIOError, ConnectionRefusedError):
            for _ in range(64):
                octets = one.recv(4096)
                if self.open.pop(256 * at + octets[1], None):
                    self.answered += 1


def memory_of(process):
    """The most memory of a process so far, in MB; 0 of one that has ended."""
    with open(f"/proc/{process.pid}/status", encoding="ascii") as file:
        return next((int(line.split()[1]) / 1000 for line in file if line.startswith("VmHWM")), 0)


def tried(subject, case):
    """What became of the records: sent, answered, given up, came, came again, whether in order, and the memory."""
    listen, home = free_ports(2)
    ours, theirs = multiprocessing.Pipe()
    server = multiprocessing.Process(target=serve, args=(home, case, theirs))
    server.start()
    with tempfile.TemporaryDirectory() as folder:
        words = subject.words(pathlib.Path(folder), Setting(listen, [home], 1))
        with subprocess.Popen(words, stdin=subprocess.PIPE, stdout=subprocess.DEVNULL, stderr=subprocess.DEVNULL) as ran:
            try:
                wait_until_it_answers(ran, listen)
                time.sleep(1)
                nas = Nas(listen, case)
                nas.run()
                memory = memory_of(ran)
            finally:
                ran.kill()
        os.kill(server.pid, signal.SIGTERM)
        came = ours.recv()
        server.join()
    counted = collections.Counter(came)
    first = list(dict.fromkeys(came))
    twice = sum(count > 1 for count in counted.values())
    return [round(case.rate * case.seconds), nas.answered, len(counted), twice, "yes" if first == sorted(first) else "no",
            f"{memory:.0f}" if memory else "it ended"]


def main():
    program, words = pathlib.Path(sys.argv[1]).resolve(), sys.argv[2:]
    names, parts = [it for it in words if it in CASES] or list(CASES), [it for it in words if it not in CASES] or [""]
    print("case | | records | answered | arrived | twice | in order | MB", "---|---|---:|---:|---:|---:|---|---:", sep="\n")
    for name in names:
        for subject in (it for it in subjects(program) if any(part in it.name for part in parts)):
            print(name, subject.name, *(f"{it:,}" if isinstance(it, int) else it for it in tried(subject, CASES[name])), sep=" | ", flush=True)


if __name__ == "__main__":
    main()
