"""Has each fault befall a proxy of its own, which Prometheus scrapes: which alert fires first, and after how many seconds.

usage: python3 -m bench.alerts_by_fault PROGRAM [NAME ..]

It takes eight minutes. It wants Debian's prometheus, which scrapes and evaluates each 15 seconds. For two minutes and
a half there is no fault, and then no alert may fire. The proxy without a fault has none later either: its load is that of a day in these
eight minutes, with bursts, some datagrams that are dropped, and a home server that is away for some seconds. The table is Markdown; a fault
whose alerts do not fire, or in another order, is a failure. The last line is `N passed, M failed`.
"""
import contextlib
import http.server
import itertools
import json
import math
import multiprocessing
import os
import pathlib
import select
import signal
import socket
import subprocess
import sys
import tempfile
import threading
import time
import urllib.request

from tests.lib import (ACCT_SESSION_ID, ACCT_STATUS_TYPE, HERE, STATUS_SERVER, TOP, Server, answer, attribute, bound, built, configured,
                       environment, free_port, read, reply, request, started, status, trying, user_name)
from tests.lib.proxies import Proxy
from tests.lib.tools.running import want

SECRET, CLASS = b"a secret of this trial", 25
WELL_SECONDS, FAULT_SECONDS, EACH = 150, 330, 15
APART, TRIES = 3, 3
# Each fault with its alerts: the first is the first of all, and the others come behind it in this order.
FAULTS = {
    "none": [],
    "a NAS with a wrong secret": ["RadProxyClientDropped"],
    "an unknown NAS": ["RadProxyStrangers"],
    "an unknown realm": ["RadProxyClientDropped"],
    # 16 a second is what the defaults carry. The NASes get nothing in time, and nothing is refused yet.
    "a home server takes 4 s, 20 requests a second": ["RadProxyQueueWaits"],
    "a home server takes 4 s, 5 requests a second": ["RadProxyHomeSlow"],
    "a home server is killed, 20 requests a second": ["RadProxyHomeDown", "RadProxyQueueWaits", "RadProxyRefuses"],
    # It answers those of another NAS, and the proxy the Status-Servers of this one.
    "a home server answers no record of one NAS": ["RadProxyHomeFlaps", "RadProxyClientUnanswered"],
    "the clock is an hour ahead": ["RadProxyClockStands"],
    "the clock is an hour behind": ["RadProxyClockStands"],
    # A lane whose ring is full reads no reply: nothing is lost.
    "a ring of 1 and 60 replies at once": [],
    "a flood of unknown datagrams": ["RadProxyStrangers"],
    "a flood of unknown datagrams, and the process stands for two seconds": ["RadProxyStrangers", "RadProxyKernelDrops"],
    "one record is never answered, and the book has 800": ["RadProxyHomeFlaps", "RadProxyRecordStuck", "RadProxyBookFills"],
    "the proxy is its own home server": ["RadProxyLoop"],
    "the system refuses to send": ["RadProxySocketFaults"],
    "the worker of a home server hangs": ["RadProxyLaneStands"],
    "a sync of the ledger hangs": ["RadProxyLedgerUnsynced"],
    "a write of the ledger hangs, 60 records of 4,000 octets a second": ["RadProxyLedgerWaits", "RadProxyLedgerDrops"],
    "the file of the ledger is removed": ["RadProxyLedgerLost"],
    "a sync of the spool hangs": ["RadProxySpoolUnsynced"],
    "the disk of the spool fails": ["RadProxySpoolFails", "RadProxySpoolUnsynced"],
}
# How a hang is made: what each thing takes, in milliseconds.
HANGS = {"a sync": {"SLOW_SYNC": "600000"}, "a write": {"SLOW_WRITE": "600000"}, "worker": {"SLOW_SEND": "600000"}}
# No datagram may go to the last address of the loopback: it is that of all.
REFUSED = "127.255.255.255:9"
# The day of the proxy without a fault: its bursts and the seconds that its home server is away are as long as they are.
DAY_SECONDS, BURSTS, BURST_SECONDS, AWAY = WELL_SECONDS + FAULT_SECONDS, 4, 2, (300, 306)
DROPPED_EACH, STATUS_EACH = 60, 10


class Place:
    """A proxy with two NASes and a home server, and the fault that befalls it."""

    def __init__(self, program, folder, name, number):
        self.name, self.number, self.is_faulty, self.is_over, self.begun = name, number, False, False, time.monotonic()
        self.folder = folder / str(number)
        self.folder.mkdir()
        self.home, self.stranger = bound(patience=0.05), bound("127.0.0.9", patience=0.05)
        self.nas, self.other = bound(patience=0.05), bound("127.0.0.2", patience=0.05)
        self.listen, self.waiting, self.sent = (HERE, free_port()), {}, itertools.count()
        keys = "ring = 1\n" if "ring" in name else "book = 800\n" if "book" in name else ""
        servers = [Server("home", self.home.getsockname()[1], keys, "example.org", SECRET.decode()),
                   Server("other", self.other_home(), realm="other.example", secret=SECRET.decode())]
        text = configured(f"{HERE}:{self.listen[1]}", servers, [HERE, "127.0.0.2"], SECRET.decode(), linger=0)
        self.proxy = Proxy(program, self.folder, text, self.listen)
        self.clock, self.mark, self.ledger, self.spool = (self.folder / file for file in ("clock", "mark", "ledger", "spool"))
        self.clock.write_text("0")
        self.ledger.mkdir()
        self.proxy.start(env=environment("off") | {"RAD_PROXY_COUNTERS": str(self.proxy.counters)} | self.variables())
        self.proxy.listens()
        self.threads = [threading.Thread(target=work, daemon=True) for work in (self.serve, self.ask, self.hear)]
        for thread in self.threads:
            thread.start()

    def other_home(self):
        """Where the other home server is, which gets a record each second once there is a fault of it."""
        self.slow_port = free_port()
        return self.listen[1] if "its own" in self.name else REFUSED if "refuses" in self.name else self.slow_port

    def variables(self):
        """What the program is started with, so that the fault can befall it."""
        found = {"RAD_PROXY_LEDGER": str(self.ledger)} if "ledger" in self.name else {}
        if "spool" in self.name:
            found |= {"RAD_PROXY_SPOOL": str(self.spool)}
        if "disk" in self.name:
            found |= {"LD_PRELOAD": built(self.folder, "failing_disks"), "DISK_PATH": str(self.spool), "SYNC_FAILS": str(self.mark)}
        if "clock" in self.name:
            found |= {"LD_PRELOAD": built(self.folder, "wrong_clock"), "CLOCK_FILE": str(self.clock)}
        for hang, wait in HANGS.items():
            if hang in self.name:
                found |= {"LD_PRELOAD": built(self.folder, "slow_files"), "SLOW_PATH": str(self.spool if "spool" in self.name else self.ledger),
                          "SLOW_WHILE": str(self.mark), "SLOW_PORT": str(self.slow_port)} | wait
        return found

    def has(self, fault):
        """Whether this fault is here, and has begun."""
        return self.is_faulty and fault in self.name

    def packet(self, number, realm=b"example.org", secret=SECRET):
        start = attribute(ACCT_STATUS_TYPE, bytes([0, 0, 0, 1])) + attribute(CLASS, bytes(250)) * (15 if "4,000" in self.name else 0)
        return request(number % 256, user_name(b"bob@" + realm) + start + attribute(ACCT_SESSION_ID, b"%08d" % number), secret)

    def rate(self):
        """How many records come in this second."""
        if "60 re" in self.name:
            return 60
        if self.name == "none":
            return rate_of_day(time.monotonic() - self.begun)
        return 20 if "20 requests" in self.name else 5

    def ask(self):
        """The NASes: they send each record up to TRIES times, one half of them each."""
        due = []
        for second in itertools.count():
            begun, count = time.monotonic(), self.rate()
            if self.is_over:
                return
            self.send_others(second)
            for _ in range(count):
                number = next(self.sent)
                realm = b"nowhere.example" if self.has("unknown realm") else b"example.org"
                octets = self.packet(number, realm, b"another secret" if self.has("wrong secret") else SECRET)
                sender = self.stranger if self.has("unknown NAS") else (self.nas, self.other)[number % 2]
                sender.sendto(octets, self.listen)
                self.waiting[octets[1]] = octets
                due.append((begun + APART, 1, octets, sender))
                time.sleep(0.9 / count)
            late = [it for it in due if it[0] <= time.monotonic()]
            due = [it for it in due if it[0] > time.monotonic()]
            for _, tried, octets, sender in late:
                if self.waiting.get(octets[1]) == octets and tried < TRIES:
                    sender.sendto(octets, self.listen)
                    due.append((time.monotonic() + APART, tried + 1, octets, sender))
            time.sleep(max(0.0, begun + 1 - time.monotonic()))

    def send_others(self, second):
        """What is no record: the Status-Servers of a NAS, and on a day without a fault what is dropped now and then."""
        if second % STATUS_EACH == 0:
            self.other.sendto(status(255, os.urandom(16), b"", b"", SECRET), self.listen)
        if any(map(self.has, ("its own", "refuses", "worker"))):
            self.nas.sendto(self.packet(next(self.sent), b"other.example"), self.listen)
        if self.name == "none" and second % DROPPED_EACH == 0:
            self.nas.sendto(self.packet(next(self.sent), b"nowhere.example"), self.listen)
            self.stranger.sendto(self.packet(0), self.listen)

    def hear(self):
        while not self.is_over:
            for ready in select.select([self.nas, self.other], [], [], 0.05)[0]:
                with contextlib.suppress(TimeoutError, ConnectionError):
                    self.waiting.pop(ready.recv(4096)[1], None)

    def serve(self):
        """The home server: it answers at once, after four seconds, or at the end of each second all that waited."""
        due = []
        while not self.is_over and not self.has("killed"):
            with contextlib.suppress(TimeoutError, ConnectionError):
                octets, sender = self.home.recvfrom(4096)
                if octets[0] == STATUS_SERVER:
                    self.home.sendto(answer(octets, octets[1], b"", SECRET), sender)
                elif self.takes(read(octets)):
                    due.append((time.monotonic() + (4 if self.has("takes 4 s") else 0), reply(read(octets), SECRET), sender))
            now = time.monotonic()
            if self.has("ring") and now % 1 < 0.8:
                continue
            for _, octets, sender in [it for it in due if it[0] <= now]:
                self.home.sendto(octets, sender)
            due = [it for it in due if it[0] > now]
        self.home.close()

    def takes(self, packet):
        """Whether the home server takes this record."""
        if self.name == "none" and AWAY[0] <= time.monotonic() - self.begun < AWAY[1]:
            return False
        number = int(packet.of_type(ACCT_SESSION_ID)[0][0])
        return not (self.has("of one NAS") and number % 2 or self.has("never answered") and number == self.never)

    def befall(self):
        """Begins the fault."""
        self.never = next(self.sent) + 1
        self.is_faulty = True
        self.mark.touch()
        for file in self.ledger.iterdir() if "removed" in self.name else []:
            file.unlink()
        if "clock" in self.name:
            self.clock.write_text("3600" if "ahead" in self.name else "-3600")
        if "flood" in self.name:
            self.flood = multiprocessing.Process(target=flood, args=(self.listen,), daemon=True)
            self.flood.start()
        if "stands" in self.name:
            self.proxy.ran.send_signal(signal.SIGSTOP)
            threading.Timer(2, self.proxy.ran.send_signal, [signal.SIGCONT]).start()

    def end(self):
        self.is_over = True
        if hasattr(self, "flood"):
            self.flood.kill()
        for thread in self.threads:
            thread.join()
        self.proxy.kill()


def rate_of_day(seconds):
    """How many records come in a second of the day: by the time of day, and four times as many in some seconds of each part of it."""
    of_the_time = 7 - 5 * math.cos(2 * math.pi * seconds / DAY_SECONDS)
    return round(of_the_time * (4 if seconds % (DAY_SECONDS / BURSTS) < BURST_SECONDS else 1))


def flood(listen):
    """Ten thousand datagrams a second of an address that is no client's."""
    with socket.socket(socket.AF_INET, socket.SOCK_DGRAM) as one:
        one.bind(("127.0.0.8", 0))
        while True:
            begun = time.monotonic()
            for _ in range(1000):
                with contextlib.suppress(ConnectionError):
                    one.sendto(bytes(200), listen)
            time.sleep(max(0.0, begun + 0.1 - time.monotonic()))


def metrics_of(places):
    """A server of the metrics of each proxy, by its number."""

    class Answers(http.server.BaseHTTPRequestHandler):
        def do_GET(self):
            octets = places[int(self.path[1:])].proxy.counters.read_bytes()
            self.send_response(200)
            self.send_header("Content-Type", "text/plain")
            self.end_headers()
            self.wfile.write(octets)

        def log_message(self, *_):
            pass

    server = http.server.ThreadingHTTPServer((HERE, 0), Answers)
    threading.Thread(target=server.serve_forever, daemon=True).start()
    return server


def prometheus(folder, server, places, stack):
    """A Prometheus with the rules of the examples, over these proxies."""
    port = free_port()
    targets = "".join(f"      - targets: ['{HERE}:{server.server_port}']\n        labels: {{__metrics_path__: '/{it.number}', instance: '{it.number}'}}\n"
                      for it in places)
    file = folder / "prometheus.yml"
    file.write_text(f"global:\n  scrape_interval: {EACH}s\n  evaluation_interval: {EACH}s\nrule_files:\n  - {TOP}/examples/alerts.yml\n"
                    f"scrape_configs:\n  - job_name: rad_proxy\n    static_configs:\n{targets}")
    log = stack.enter_context((folder / "prometheus.log").open("wb"))
    stack.enter_context(started(["prometheus", f"--config.file={file}", f"--storage.tsdb.path={folder}/data",
                                 f"--web.listen-address={HERE}:{port}"], stdout=log, stderr=log))
    return f"http://{HERE}:{port}/api/v1"


def firing(url):
    """The alerts that fire, each with the number of its proxy."""
    alerts = asked(f"{url}/alerts").get("alerts", [])
    return {(int(it["labels"].get("instance", -1)), it["labels"]["alertname"]) for it in alerts if it["state"] == "firing"}


def asked(url):
    """What Prometheus answers, or nothing."""
    with contextlib.suppress(OSError), urllib.request.urlopen(url, timeout=5) as got:
        return json.load(got)["data"]
    return {}


def unseen(url, names):
    """The faults of whose proxy Prometheus has no metrics now: without them no alert fires."""
    seen = {int(it["metric"]["instance"]) for it in asked(f"{url}/query?query=rad_proxy_home_up").get("result", [])}
    return [name for number, name in enumerate(names) if number not in seen]


def watched(url, seconds, seen, begun):
    """Keeps when each alert is first seen to fire, for so long."""
    while time.monotonic() < begun + seconds:
        for it in firing(url):
            seen.setdefault(it, time.monotonic() - begun)
        time.sleep(1)


def main():
    names = sys.argv[2:] or list(FAULTS)
    with tempfile.TemporaryDirectory() as name, contextlib.ExitStack() as stack:
        folder = pathlib.Path(name)
        places = [Place(pathlib.Path(sys.argv[1]).resolve(), folder, fault, number) for number, fault in enumerate(names)]
        for place in places:
            stack.callback(place.end)
        url = prometheus(folder, metrics_of(places), places, stack)
        early, seen = {}, {}
        watched(url, WELL_SECONDS, early, time.monotonic())
        begun = time.monotonic()
        for place in places:
            place.befall()
        watched(url, FAULT_SECONDS, seen, begun)
        missing = unseen(url, names)
    failed = len(early) + len(missing)
    print(*(f"no metrics of {name}" for name in missing), sep="\n", end="\n" * bool(missing))
    for number, alert in early:
        print(f"before the faults: {alert} of {names[number]}")
    print("fault | alert | seconds\n---|---|---:")
    for number, fault in enumerate(names):
        found = sorted((at, alert) for (place, alert), at in seen.items() if place == number)
        failed += not is_as_wanted(FAULTS[fault], found)
        for at, alert in found or [(0, "none")]:
            print(f"{fault} | `{alert}` | {at:.0f}")
    trying.conclude(max(0, len(names) - failed), failed)


def is_as_wanted(wanted, found):
    """Whether the first of these alerts is the first that is wanted, and the others follow it in their order, or two looks too early."""
    if not wanted or not found:
        return not wanted and not found
    times = {alert: at for at, alert in found}
    places = [times.get(alert, math.inf) for alert in wanted]
    are_in_order = all(after > before - 2 * EACH for before, after in zip(places, places[1:]))
    return places[0] < found[0][0] + EACH and are_in_order and max(places) < math.inf


if __name__ == "__main__":
    if len(sys.argv) < 2:
        sys.exit(__doc__)
    want("prometheus")
    main()
