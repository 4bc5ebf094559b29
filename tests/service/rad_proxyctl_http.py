"""Tries `rad_proxyctl http` over a listening socket that is passed to it, as systemd does it, with clients that mean no good.

usage: python3 -m tests.service.rad_proxyctl_http PROGRAM [NAME ..]

Each test is a function below, and its first line tells what holds. What stands for systemd starts it at each connection that finds nobody,
and a stand-in for the service has the metrics. It uses loopback alone. The last line is `N passed, M failed`.
"""
import contextlib
import os
import pathlib
import re
import select
import signal
import socket
import struct
import subprocess
import threading
import time
from concurrent.futures import ThreadPoolExecutor

from tests.lib import HERE, PATIENCE, TOP, heed_signals, hope, need, try_named, until
from tests.lib.stand_ins import TEXT, Asking

# Prometheus' own time-out of a scrape. On a busy machine a scrape takes at most so many times as long as the first one, which is alone.
SCRAPE_SECONDS, TIMES = 10, 10
GET = b"GET /metrics HTTP/1.1\r\nHost: here\r\n\r\n"
# The most that a process of the answers may keep.
MOST_KEPT = 64 * 2**20
PASSING = 'LISTEN_PID=$$ LISTEN_FDS=1 exec "$0" -d "$1" http'


class Systemd(threading.Thread):
    """What stands for a socket unit with Accept=no: it starts the service whenever a connection waits and nobody serves."""

    def __init__(self, stage, one):
        super().__init__(daemon=True)
        self.listening = socket.create_server((HERE, 0), backlog=4096)
        self.port = self.listening.getsockname()[1]
        self.stage, self.one, self.is_over, self.running, self.starts, self.statuses = stage, one, False, None, 0, []
        self.start()

    def pass_on(self):
        os.dup2(self.listening.fileno(), 3)

    def run(self):
        while not self.is_over:
            if self.running is not None and self.running.poll() is not None:
                self.statuses.append(self.running.returncode)
                self.running = None
            if self.running is None and select.select([self.listening], [], [], 0.05)[0]:
                self.starts += 1
                words = ["sh", "-c", PASSING, self.stage.ctl, self.one.folder]
                self.running = subprocess.Popen(words, env=self.stage.environment, stdin=subprocess.DEVNULL, preexec_fn=self.pass_on,
                                                close_fds=False)
            time.sleep(0.02)

    def kept(self):
        """The most memory that the process which serves has kept."""
        text = pathlib.Path(f"/proc/{self.running.pid}/status").read_text()
        return int(re.search(r"VmHWM:\s+(\d+) kB", text)[1]) * 1024

    def stop(self):
        self.is_over = True
        self.join()
        if self.running is not None:
            self.running.terminate()
            self.running.wait()
        self.listening.close()


class Scraped(Asking):
    """A stand-in whose metrics are had at a port."""

    def __init__(self, program, room):
        super().__init__(program, room)
        self.one = self.stand_in()
        self.one.writes = True
        until("counters", (self.one.folder / "counters").exists)
        self.systemd, self.most = Systemd(self, self.one), None

    def connect(self):
        return socket.create_connection((HERE, self.systemd.port), timeout=3 * PATIENCE)

    def had(self, octets=GET, is_closed=False):
        """The response to what is sent, as text, and the seconds to its end."""
        begun = time.monotonic()
        with self.connect() as client:
            client.sendall(octets)
            if is_closed:
                client.shutdown(socket.SHUT_WR)
            found = b""
            while part := client.recv(65536):
                found += part
        return found.decode(), time.monotonic() - begun

    def see_scraped(self, told=""):
        """A scrape is answered in time, as a whole."""
        text, seconds = self.had()
        head, _, body = text.partition("\r\n\r\n")
        hope(f"{told}: first line", head.splitlines()[:1], ["HTTP/1.1 200 OK"])
        hope(f"{told}: length", int(re.search(r"Content-Length: (\d+)", head)[1]), len(body))
        need('rad_proxy_home_up{lane="0",home="h1"} 1' in body, "no metrics:", body[:200])
        self.most = self.most or max(SCRAPE_SECONDS, TIMES * seconds)
        need(seconds < self.most, told, "seconds:", seconds)
        return seconds

    def stop(self):
        self.systemd.stop()
        super().stop()


def each_request_has_its_answer(stage):
    """A GET of /metrics or / has the metrics, also of one that sends no more; what else is asked a status that says why not."""
    stage.see_scraped()
    for octets, status in ((b"GET / HTTP/1.0\r\n\r\n", "200 OK"), (b"GET /other HTTP/1.1\r\n\r\n", "404 Not Found"),
                           (b"GET / HTTP/2.0\n\n", "505 HTTP Version Not Supported"), (b"POST /metrics HTTP/1.1\r\nContent-Length: 3\r\n\r\nabc",
                                                                      "405 Method Not Allowed"),
                           (b"HEAD / HTTP/1.0\r\n\r\n", "405 Method Not Allowed"), (b"\r\n\r\n", "400 Bad Request"),
                           (bytes(range(256)) + b"\n\n", "400 Bad Request"), (b"X" * 20_000, "400 Bad Request")):
        hope(str(octets[:40]), stage.had(octets)[0].partition("\r\n")[0], f"HTTP/1.1 {status}")
    hope("one that sends no more", stage.had(is_closed=True)[0].partition("\r\n")[0], "HTTP/1.1 200 OK")
    hope("one that sends nothing", stage.had(b"", True)[0].partition("\r\n")[0], "HTTP/1.1 400 Bad Request")
    hope("starts", stage.systemd.starts, 1)


def who_says_nothing_costs_a_second(stage):
    """A client that says nothing, or an octet now and then, is answered after a second; meanwhile others are answered."""
    stage.see_scraped()
    text, seconds = stage.had(b"GET /")
    hope(f"who says nothing more: {seconds}", (text.partition("\r\n\r\n")[2], 0.9 < seconds < stage.most / 2), ("no request of HTTP in 1 second\n", True))
    with stage.connect() as slow:
        begun = time.monotonic()
        with contextlib.suppress(OSError):
            while time.monotonic() - begun < stage.most and not select.select([slow], [], [], 0.2)[0]:
                slow.send(b"X")
        need(time.monotonic() - begun < stage.most / 2, "who is slow is answered after", time.monotonic() - begun)


def connections_keep_no_scrape_away(stage):
    """Beside 300 connections at once, ten clients that retry and nine that say nothing each scrape is answered in time, by one process."""
    is_over, held = threading.Event(), []

    def retry():
        while not is_over.is_set():
            with contextlib.suppress(OSError), stage.connect() as client:
                client.send(b"GET ")
            time.sleep(0.005)

    def say_nothing():
        while not is_over.is_set():
            with contextlib.suppress(OSError), stage.connect() as client:
                client.recv(1)
                client.recv(1)

    stage.see_scraped("alone")
    others = [threading.Thread(target=what, daemon=True) for what, count in ((retry, 10), (say_nothing, 9)) for _ in range(count)]
    for other in others:
        other.start()
    try:
        for count in range(5):
            for _ in range(300):
                client = socket.socket()
                client.setblocking(False)
                with contextlib.suppress(BlockingIOError):
                    client.connect((HERE, stage.systemd.port))
                held.append(client)
            stage.see_scraped(f"beside {300 * (count + 1)} connections")
    finally:
        is_over.set()
        for client in held:
            client.close()
    for other in others:
        other.join(stage.most)
    stage.see_scraped("after them")
    hope("starts", (stage.systemd.starts, stage.systemd.statuses), (1, []))
    need(stage.systemd.kept() < MOST_KEPT, "kept:", stage.systemd.kept())


def who_takes_no_answer_keeps_no_scrape_away(stage):
    """Beside a thousand clients that ask for two million octets and read none of them a scrape is answered, and memory is bounded."""
    stage.one.text = TEXT + "".join(f'rad_proxy_client_received_total{{{{client="192.0.2.{at}"}}}} 1\n' for at in range(40_000))
    time.sleep(0.5)
    stage.see_scraped("alone")
    held = []
    for count in range(5):
        for _ in range(200):
            client = stage.connect()
            client.setsockopt(socket.SOL_SOCKET, socket.SO_RCVBUF, 4096)
            client.sendall(GET)
            held.append(client)
        seconds = stage.see_scraped(f"beside {len(held)} of them")
        need(seconds < stage.most / 2, f"beside {len(held)} of them: {seconds} seconds")
    need(stage.systemd.kept() < MOST_KEPT, "kept:", stage.systemd.kept())
    for client in held:
        client.setsockopt(socket.SOL_SOCKET, socket.SO_LINGER, struct.pack("ii", 1, 0))
        client.close()
    stage.see_scraped("after them")
    hope("starts", (stage.systemd.starts, stage.systemd.statuses), (1, []))


def all_who_come_share_an_answer(stage):
    """A hundred scrapes at once have the proxy asked a few times, not a hundred."""
    stage.see_scraped()
    before = stage.one.asked
    with ThreadPoolExecutor(100) as pool:
        list(pool.map(lambda _: stage.see_scraped("at once"), range(100)))
    need(stage.one.asked - before <= 5, "asked:", stage.one.asked - before)


def it_ends_when_nobody_comes(stage):
    """When nobody comes for its time it ends with 0, and the next connection starts another one; so does one that was killed."""
    path = stage.room / "usr/libexec/rad_proxy/controlling/http.py"
    text = path.read_text()
    hope("its time", text.count("IDLE_SECONDS, CLOSE_SECONDS = 60, 1\n"), 1)
    path.write_text(text.replace("IDLE_SECONDS, CLOSE_SECONDS = 60, 1\n", "IDLE_SECONDS, CLOSE_SECONDS = 1, 1\n"))
    stage.see_scraped("the first")
    until("it ends", lambda: stage.systemd.statuses == [0])
    stage.see_scraped("the second")
    stage.systemd.running.send_signal(signal.SIGKILL)
    stage.see_scraped("the third")
    hope("starts", stage.systemd.starts >= 3, True)
    until("nothing is left", lambda: stage.systemd.running is None)


def without_a_proxy_it_says_so(stage):
    """Where no proxy answers, the status is 503, with the reason; the same process answers once there is one."""
    stage.see_scraped()
    stage.one.reads = False
    text, _ = stage.had()
    hope("no answer", (text.partition("\r\n")[0], text.partition("\r\n\r\n")[2]),
         ("HTTP/1.1 503 Service Unavailable", "no answer in 5 seconds\n"))
    stage.one.reads = True
    stage.see_scraped()
    hope("starts", stage.systemd.starts, 1)


def the_units_have_no_limit_that_fails_them(stage):
    """The socket's unit has one service for all connections and no limit of starts; the service's has bounds of its memory and processes,
    and the sandbox of the proxy's, without a network."""
    socket_unit, service, proxy = ((TOP / "packaging" / f"{name}.in").read_text().splitlines()
                                   for name in ("rad_proxy-metrics.socket", "rad_proxy-metrics.service", "rad_proxy.service"))
    limits = [line for line in socket_unit if line.startswith(("Accept=", "MaxConnections", "TriggerLimit"))]
    hope("limits", limits, ["TriggerLimitIntervalSec=0"])
    for line in ("StartLimitIntervalSec=0", "MemoryMax=128M", "TasksMax=16", "RestrictAddressFamilies=none", "PrivateNetwork=yes"):
        need(line in service, line, "is missing")
    sandbox = proxy[proxy.index("CapabilityBoundingSet="):proxy.index("[Install]") - 1]
    others = {"RestrictAddressFamilies=AF_INET AF_UNIX", "RemoveIPC=yes"}
    hope("sandbox", [line for line in sandbox if line not in service and line not in others], [])


TESTS = [each_request_has_its_answer, who_says_nothing_costs_a_second, connections_keep_no_scrape_away,
         who_takes_no_answer_keeps_no_scrape_away, all_who_come_share_an_answer, it_ends_when_nobody_comes, without_a_proxy_it_says_so,
         the_units_have_no_limit_that_fails_them]


if __name__ == "__main__":
    heed_signals()
    try_named(TESTS, Scraped, __doc__)
