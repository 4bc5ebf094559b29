"""NASes, a proxy and a home server in a network namespace, where some datagrams are not heard, while tcpdump makes a capture.

usage: unshare --net python3 -m tests.lib.tools.losses PROXY PROGRAM FOLDER SECONDS WORD ..

PROXY is rad_proxy, radsecproxy or FreeRADIUS, which has so many seconds more than its NASes wait, and the words are options of
tcpdump. In the folder it leaves `capture`, the
configuration `rad_proxy.toml` and `truth`: by the logs of both sides, what a judge of the capture has to find.
"""
import json
import pathlib
import random
import selectors
import signal
import socket
import subprocess
import sys
import time
from collections import Counter, defaultdict

from bench import proxies
from tests.lib import (ACCT_SESSION_ID, ACCT_STATUS_TYPE, PROXY_STATE, STATUS_SERVER, answer, attribute, read, reply, request, started,
                       user_name)

LISTEN, HOME = ("127.0.0.1", 1813), ("127.0.0.1", 2813)
SESSIONS, KINDS, PACE = 60, (1, 3, 3, 2), 0.01
LOST, TRIES, WAIT = 0.25, 6, 0.7
# How often one thing is lost at most: the proxy sends a record again later each time, and the capture has an end.
MOST_LOST = 2
PROXIES = {"rad_proxy": proxies.RadProxy, "radsecproxy": lambda _: proxies.Radsecproxy(), "FreeRADIUS": lambda _: proxies.FreeRadius()}
CLIENT_SECRET, HOME_SECRET = proxies.CLIENT_SECRET.encode(), proxies.HOME_SECRET.encode()


def record_of(octets):
    """What a record is known by here: its attributes but for the Proxy-States."""
    return tuple((kind, value) for kind, value, _ in read(octets).attributes if kind != PROXY_STATE)


class Asked:
    """A request of a NAS."""

    def __init__(self, octets, number, session):
        self.octets, self.number, self.session = octets, number, session
        self.tries, self.due, self.is_heard, self.responses, self.first_response = 0, 0.0, False, 0, None


class Sides:
    """The NASes and the home server, with what they sent and got."""

    def __init__(self, addresses, chance):
        self.chance, self.selector = chance, selectors.DefaultSelector()
        self.home = self.bound(HOME)
        self.nases = [self.bound((address, 0)) for address in addresses]
        self.asked, self.open, self.wrong, self.later, self.is_lossy = {}, [], 0, [], True
        self.under, self.arrived, self.replied, self.lost = defaultdict(set), [], {}, Counter()

    def bound(self, place):
        made = socket.socket(socket.AF_INET, socket.SOCK_DGRAM)
        made.bind(place)
        made.setblocking(False)
        self.selector.register(made, selectors.EVENT_READ)
        return made

    def is_lost(self, thing):
        is_lost = self.is_lossy and self.lost[thing] < MOST_LOST and self.chance.random() < LOST
        self.lost[thing] += is_lost
        return is_lost

    def ask(self, nas, number, session, kind, count):
        octets = user_name(b"user%d@r00.bench" % session) + attribute(ACCT_STATUS_TYPE, bytes([0, 0, 0, kind]))
        octets += attribute(ACCT_SESSION_ID, b"session-%d" % session) + attribute(46, count.to_bytes(4, "big"))
        made = Asked(request(number % 256, octets, CLIENT_SECRET), number, session)
        self.asked[nas, number % 256] = made
        self.open.append((nas, made))
        self.send(nas, made)

    def send(self, nas, made):
        made.tries, made.due = made.tries + 1, time.monotonic() + WAIT
        self.nases[nas].sendto(made.octets, LISTEN)

    def turn(self, seconds):
        """What comes within some time, and what is due."""
        end = time.monotonic() + seconds
        while (now := time.monotonic()) < end:
            for key, _ in self.selector.select(min(0.005, end - now)):
                self.hear(key.fileobj)
            for nas, made in self.open:
                if not made.is_heard and made.tries < TRIES and made.due <= time.monotonic():
                    self.send(nas, made)
            self.open = [it for it in self.open if not it[1].is_heard and it[1].tries < TRIES]
            while self.later and self.later[0][0] <= time.monotonic():
                self.reply(*self.later.pop(0)[1:])

    def hear(self, made):
        try:
            octets, sender = made.recvfrom(4096)
        except OSError:
            return
        if made is self.home:
            self.home_hears(octets, sender)
        else:
            self.nas_hears(self.nases.index(made), octets)

    def home_hears(self, octets, sender):
        if octets[0] == STATUS_SERVER:
            self.home.sendto(answer(octets, octets[1], b"", HOME_SECRET), sender)
            return
        record = record_of(octets)
        self.under[record].add((octets[:20], sender[1]))
        self.arrived.append(record)
        if not self.is_lost(record):
            self.later.append((time.monotonic() + 0.01, octets, sender))

    def reply(self, octets, sender):
        self.replied.setdefault(record_of(octets), time.monotonic())
        self.home.sendto(reply(read(octets), HOME_SECRET), sender)

    def nas_hears(self, nas, octets):
        made = self.asked.get((nas, octets[1]))
        if made is None or octets != answer(made.octets, octets[1], octets[20:], CLIENT_SECRET):
            self.wrong += 1
            return
        made.responses += 1
        made.first_response = made.first_response or time.monotonic()
        made.is_heard = made.is_heard or not self.is_lost(made)

    def truth(self):
        """What a judge has to find: of each kind how many, and how many requests and answers there were."""
        requests = list(self.asked.values())
        number_of = {record_of(it.octets): it for it in requests}
        early = sum(1 for it in requests if it.responses and self.replied.get(record_of(it.octets), 1e99) > it.first_response)
        found = {"never": sum(not it.responses for it in requests), "early": early, "wrong": self.wrong, "wrong home": 0,
                 "twice": sum(len(it) > 1 for it in self.under.values()), "overtaken": self.overtaken(number_of)}
        counts = {"requests": len(requests), "again": sum(it.tries - 1 for it in requests), "answers": sum(it.responses for it in requests),
                  "home": sum(map(len, self.under.values()))}
        return {"found": {kind: it for kind, it in found.items() if it}, "counts": counts}

    def overtaken(self, number_of):
        latest, seen, count = {}, set(), 0
        for record in self.arrived:
            if record not in seen:
                seen.add(record)
                it = number_of[record]
                count += it.number < latest.get(it.session, -1)
                latest[it.session] = max(latest.get(it.session, -1), it.number)
        return count


def play(sides, seconds):
    """Sessions of which each has a start, two interim updates and a stop, all without waiting for answers. Behind them, after a
    while, three more without losses, so that the end of the capture has nothing that might still be answered."""
    numbers = Counter()
    for step in range(SESSIONS + 10 * len(KINDS)):
        for place, kind in enumerate(KINDS):
            session = step - 10 * place
            if 0 <= session < SESSIONS:
                nas = session % len(sides.nases)
                sides.ask(nas, numbers[nas], session, kind, 100 * place)
                numbers[nas] += 1
        sides.turn(PACE)
    sides.turn(TRIES * WAIT + seconds)
    sides.is_lossy = False
    for count in range(3):
        sides.ask(0, numbers[0] + count, SESSIONS + count, 1, 0)
        sides.turn(0.3)
    sides.turn(2 * WAIT)


def main():
    name, program, folder, seconds, *words = sys.argv[1:]
    folder = pathlib.Path(folder)
    subprocess.run(["ip", "link", "set", "lo", "up"], check=True)
    setting = proxies.Setting(LISTEN[1], [HOME[1]], 1, clients=3)
    proxies.RadProxy(program).words(folder, setting)
    capture = subprocess.Popen(["tcpdump", "-q", "-U", "-s", "0", "-B", "16384", "-Z", "root", "-w", folder / "capture", *words],
                               stderr=(folder / "tcpdump").open("wb"))
    sides = Sides(setting.addresses(), random.Random(1))
    words = PROXIES[name](program).words(folder, setting)
    try:
        with (folder / "proxy").open("wb") as told, started(words, stdin=subprocess.PIPE, stdout=subprocess.DEVNULL, stderr=told) as proxy:
            time.sleep(3)
            play(sides, float(seconds))
            proxy.terminate()
    finally:
        time.sleep(1)
        capture.send_signal(signal.SIGINT)
        capture.wait(20)
    (folder / "truth").write_text(json.dumps(sides.truth()))


if __name__ == "__main__":
    main()
