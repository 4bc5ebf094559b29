"""The program in a network namespace of its own, which holds all addresses, and in front of it whoever plays NASes."""
import contextlib
import ctypes
import fcntl
import multiprocessing
import os
import pathlib
import re
import resource
import signal
import socket
import subprocess
import sys
import threading
import time

from . import homes, log
from .datagrams import address
from .faults import CONFIGURATION, Fault, shown_path, told_by
from .settings import written

NEW_MOUNTS, NEW_NETWORK, PRIVATE, NO_PROGRAMS = 0x20000, 0x40000000, 0x44000, 14
COVERED = ("/mnt", "/media", "/srv", "/opt", "/home")
STATE = re.compile(rb"lane \d+ (\S+) (up|down) \w+ accepted (\d+) queued (\d+) outstanding (\d+) answered (\d+) opening (\d+)\n")
LISTENS_WITHIN, APART, REPORTS_WITHIN = 20, 0.1, 5
# How much of the log may wait until it is read.
OF_PIPE = 1 << 24
MOST_SOCKETS, SOONER = 8192, 0.0005
RESERVED, MOST_RESERVED = pathlib.Path("/proc/sys/net/ipv4/ip_local_reserved_ports"), 20_000


def call(name, *words):
    """A call of the C library."""
    library = ctypes.CDLL(None, use_errno=True)
    if getattr(library, name)(*words):
        raise Fault(f"{name}: {os.strerror(ctypes.get_errno())}: a network namespace cannot be made here")


def enter_namespaces(ports):
    """From here on this process has a network and mounts of its own. Each IPv4 address is the machine's own there. The program
    gets none of these ports for its lanes, since NASes have them."""
    call("unshare", NEW_NETWORK | NEW_MOUNTS)
    call("mount", b"none", b"/", None, PRIVATE, None)
    for words in ("link set lo up", "route add local 0.0.0.0/0 dev lo"):
        try:
            ran = subprocess.run(["ip", *words.split()], stderr=subprocess.PIPE, text=True)
        except OSError as error:
            raise Fault(f"ip: {told_by(error)}") from None
        if ran.returncode:
            raise Fault(f"ip {words}: {ran.stderr.strip()}")
    with contextlib.suppress(OSError):
        RESERVED.write_text(",".join(map(str, sorted(ports)[:MOST_RESERVED])) + "\n")


def folder(program):
    """A folder in memory, which nobody else sees. Here it covers a folder that nothing of the trial is in."""
    needed = [os.path.realpath(it) for it in (program, sys.prefix, __file__)]
    place = next((it for it in COVERED if os.path.isdir(it) and not any(path.startswith(f"{it}/") for path in needed)), None)
    if place is None:
        raise Fault(f"none of {' '.join(COVERED)} can be covered by a folder in memory")
    call("mount", b"none", place.encode(), b"tmpfs", NO_PROGRAMS, b"size=64m,mode=0700")
    return pathlib.Path(place)


def environment(**more):
    return {name: value for name, value in os.environ.items() if not name.startswith("RAD_PROXY_")} | more


def checked(program, path):
    """What the program warns of this configuration. A fault of it ends the trial."""
    try:
        ran = subprocess.run([program, "check", path], env=environment(RAD_PROXY_LOG="warn"), stdin=subprocess.DEVNULL, capture_output=True)
    except OSError as error:
        raise Fault(f"{shown_path(program)}: {told_by(error)}") from None
    lines = ran.stderr.decode("utf-8", "replace").splitlines()
    if ran.returncode:
        raise Fault(lines[-1] if lines else f"{shown_path(program)} check: status {ran.returncode}", CONFIGURATION)
    return lines


def as_child():
    """A process of the trial leaves it to the first one to be stopped."""
    signal.signal(signal.SIGINT, signal.SIG_IGN)
    signal.signal(signal.SIGTERM, signal.SIG_DFL)


class Lane:
    """What was seen of a lane at most, and last."""

    def __init__(self):
        self.queue = self.window = self.book = 0
        self.left, self.is_down = 0, False

    def see(self, watch, accepted, queued, outstanding, opening):
        self.queue, self.window = max(self.queue, queued), max(self.window, outstanding)
        self.book = max(self.book, accepted - opening)
        self.left, self.is_down = queued + outstanding, watch == b"down"


class Program:
    """The program under `run`. It is asked for its state ten times a second."""

    def __init__(self, program, file, counters, settings):
        self.lanes, self.counters, self.has_ended = {home.name: Lane() for home in settings.homes}, counters, False
        self.heard, told = multiprocessing.Pipe(False)
        reading, writing = os.pipe()
        with contextlib.suppress(OSError):
            fcntl.fcntl(writing, fcntl.F_SETPIPE_SZ, OF_PIPE)
        self.ear = multiprocessing.Process(target=self.hear, args=(reading, writing, told), daemon=True)
        self.ear.start()
        os.close(reading)
        told.close()
        variables = environment(RAD_PROXY_LOG="trace", RAD_PROXY_COUNTERS=str(counters))
        pipes = {"stdin": subprocess.PIPE, "stdout": subprocess.PIPE, "stderr": writing}
        self.ran = subprocess.Popen([program, "run", str(file)], env=variables, cwd="/", **pipes)
        os.close(writing)
        self.asking, self.linger = threading.Event(), settings.linger / 1000
        self.asker = threading.Thread(target=self.ask, daemon=True)

    @staticmethod
    def hear(reading, writing, told):
        as_child()
        os.close(writing)
        with open(reading, "rb", 1 << 20) as lines:
            log.hear(lines, told)

    def begin(self):
        """Waits until it listens."""
        timer = threading.Timer(LISTENS_WITHIN, self.ran.kill)
        timer.start()
        line = self.ran.stdout.readline()
        timer.cancel()
        if not line.startswith(b"listening "):
            self.ran.kill()
            said = [it for it in self.log().last if it]
            raise Fault(f"the program does not start: {said[-1] if said else 'it says nothing'}")
        self.asker.start()

    def ask(self):
        while not self.asking.wait(APART) and self.see():
            pass

    def see(self):
        """Asks for the state once. False once the program is gone."""
        try:
            self.ran.stdin.write(b"state\n")
            self.ran.stdin.flush()
            for _ in self.lanes:
                found = STATE.fullmatch(self.ran.stdout.readline())
                if not found:
                    raise BrokenPipeError
                accepted, queued, outstanding, _, opening = map(int, found.groups()[2:])
                self.lanes[found[1].decode()].see(found[2], accepted, queued, outstanding, opening)
        except (BrokenPipeError, ValueError):
            self.has_ended = True
        return not self.has_ended

    def is_done(self):
        """Whether nothing is queued or outstanding any more."""
        return self.has_ended or not any(it.left for it in self.lanes.values())

    def end(self):
        """Ends its input, and gives its last line."""
        self.asking.set()
        self.asker.join()
        if not self.has_ended:
            self.see()
        self.ran.stdin.close()
        timer = threading.Timer(self.linger + LISTENS_WITHIN, self.ran.kill)
        timer.start()
        lines = self.ran.stdout.read().decode("ascii", "replace").splitlines()
        self.ran.wait()
        timer.cancel()
        if not lines or not lines[-1].startswith("end: "):
            raise Fault(f"the program ended with status {self.ran.returncode}: {(self.log().last or ['it says nothing'])[-1]}")
        return lines[-1]

    def log(self):
        """What it logged, once it has ended."""
        found = self.heard.recv()
        self.ear.join()
        return found

    def reported(self):
        """Its metrics, once they have what is so now: each lane reports once a second."""
        now, last = time.time(), time.monotonic() + REPORTS_WITHIN
        while time.monotonic() < last and not self.has_ended:
            reports = [value for name, value in self.metrics().items() if name.startswith("rad_proxy_home_report_time_seconds")]
            if reports and min(reports) > now:
                break
            time.sleep(APART)
        return self.metrics()

    def metrics(self):
        """Its metrics: each value by its name with its labels."""
        lines = self.counters.read_text("utf-8", "replace").splitlines()
        return {name: float(value) for name, _, value in (line.rpartition(" ") for line in lines if not line.startswith("#"))}

    def kill(self):
        if self.ran.poll() is None:
            self.ran.kill()
            self.ran.wait()


class Nases:
    """Sends what NASes sent, each datagram from the address and port that it came from."""

    def __init__(self, target):
        self.target, self.sockets, self.unsent, self.late = target, {}, 0, 0.0
        _, most = resource.getrlimit(resource.RLIMIT_NOFILE)
        resource.setrlimit(resource.RLIMIT_NOFILE, (most, most))
        self.most = max(16, min(MOST_SOCKETS, most - 100))

    def socket_of(self, source, port):
        """The socket of a NAS. Of too many the one that was unused for longest is closed."""
        key = source, port
        made = self.sockets.pop(key, None)
        if made is None:
            if len(self.sockets) >= self.most:
                self.sockets.pop(next(iter(self.sockets))).close()
            made = socket.socket(socket.AF_INET, socket.SOCK_DGRAM)
            made.setsockopt(socket.SOL_SOCKET, socket.SO_RCVBUF, 0)
            made.bind((address(source), port))
        self.sockets[key] = made
        return made

    def send(self, it):
        try:
            self.socket_of(it.source, it.source_port).sendto(it.octets, self.target)
        except OSError:
            self.unsent += 1

    def play(self, requests, speed, is_over, progress):
        """Sends all at the moments at which they came, so many times as fast."""
        began, first = time.monotonic(), requests[0].time
        for count, it in enumerate(requests):
            due = began + (it.time - first) / 1e9 / speed
            while (wait := due - time.monotonic()) > SOONER and not is_over():
                time.sleep(min(wait, 1))
                progress(count)
            if is_over():
                raise Fault("the program ended while requests came")
            self.late = max(self.late, -wait)
            self.send(it)
        return time.monotonic() - began


@contextlib.contextmanager
def home_servers(settings, manner, began):
    """A process of the home servers."""
    servers = homes.Homes(settings, manner, began)
    made = multiprocessing.Process(target=lambda: (as_child(), servers.serve()), daemon=True)
    made.start()
    for socket_of_home, _ in servers.sockets.values():
        socket_of_home.close()
    try:
        yield
    finally:
        made.terminate()
        made.join()


def write_configuration(room, settings, listen):
    path = room / "rad_proxy.toml"
    path.write_text(written(settings, listen), "utf-8")
    return path
