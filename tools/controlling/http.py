"""`http`: the metrics over HTTP, at a socket that systemd passes, or of one request on standard input.

A connection is a few hundred octets here, and all that come while the proxy is asked share its answer. One that says nothing is closed
after a second, and sooner where there are so many that no other one is accepted. So nobody who merely connects keeps others away.
"""
import os
import select
import selectors
import signal
import socket
import sys
import time

from trial.faults import Fault

from . import bounds
from .output import write_all
from .processes import Process, bounded, given_environment
from .requests import INCOMPLETE, LONGEST_HEAD, REQUEST_SECONDS, RESPONSE_SECONDS, is_whole, metrics_by, refusal_of

PROGRAM = os.path.join(os.path.dirname(os.path.dirname(os.path.realpath(__file__))), "rad_proxyctl")
# The first descriptor that systemd passes; how many connections there are at once, and how many octets of each the system keeps; how long
# it waits for another one; and how long one that was answered may take to close.
FIRST_PASSED = 3
MOST_CONNECTIONS, SEND_BUFFER = 512, 65_536
IDLE_SECONDS, CLOSE_SECONDS = 60, 1
PART = 65_536


class Asking:
    """A process that asks for the metrics, as whoever called this."""

    def __init__(self, folder):
        words = [sys.executable or "/usr/bin/python3", "-IBSXutf8", PROGRAM, "-d", folder, "metrics"]
        self.process = Process(bounded(2 * bounds.READ_SECONDS, words), given_environment())
        self.octets = bytearray()

    def fileno(self):
        return self.process.output

    def read(self):
        """Reads on: whether that was the end."""
        part = os.read(self.process.output, PART)
        self.octets += part
        return not part or len(self.octets) > 2 * bounds.MOST_OCTETS

    def response(self):
        """What is answered, once that was the end."""
        self.process.close_output()
        return metrics_by(bytes(self.octets), self.process.wait())


def ask(folder):
    """What is answered by one who asks."""
    asking = Asking(folder)
    while not asking.read():
        pass
    return asking.response()


class Connection:
    """A client. Of the three it is one: its request comes, its answer is waited for, or its response goes."""

    def __init__(self, made):
        self.socket, self.octets, self.rest = made, b"", None
        self.is_waiting = self.is_over = False
        self.until = time.monotonic() + REQUEST_SECONDS
        made.setblocking(False)
        made.setsockopt(socket.SOL_SOCKET, socket.SO_SNDBUF, SEND_BUFFER)

    def is_reading(self):
        return self.rest is None and not self.is_waiting

    def rank(self):
        """In which order connections make room for others: those that say nothing or are answered, then those that take no answer."""
        return 0 if self.is_reading() or self.is_over else 2 if self.is_waiting else 1

    def read(self):
        """Reads on: the head of the request, once it is there; empty octets for one that does not come any more, and else None."""
        part = self.socket.recv(LONGEST_HEAD)
        self.octets += part
        if is_whole(self.octets):
            return self.octets
        return b"" if not part or len(self.octets) > LONGEST_HEAD else None

    def respond(self, octets):
        self.rest, self.is_waiting, self.octets = memoryview(octets), False, b""
        self.until = time.monotonic() + RESPONSE_SECONDS

    def send(self):
        """Sends on. Behind the end it waits shortly for the client to close, so that nothing is lost on its way there."""
        self.rest = self.rest[self.socket.send(self.rest[:PART]):]
        if not self.rest:
            self.socket.shutdown(socket.SHUT_WR)
            self.is_over, self.until = True, time.monotonic() + CLOSE_SECONDS


class Server:
    """Answers at a listening socket until nobody comes any more."""

    def __init__(self, listening, folder):
        self.listening, self.folder = listening, folder
        self.connections, self.asking, self.last = [], None, time.monotonic()
        self.selector = selectors.DefaultSelector()
        listening.setblocking(False)
        self.selector.register(listening, selectors.EVENT_READ)
        self.is_accepting = True

    def accept(self):
        """Takes a connection in. Where there are as many as there may be, another one makes room."""
        try:
            made, _ = self.listening.accept()
        except (BlockingIOError, ConnectionError):
            return
        except OSError:
            self.make_room()
            time.sleep(0.01)
            return
        self.last = time.monotonic()
        try:
            one = Connection(made)
        except OSError:
            made.close()
            return
        if len(self.connections) >= MOST_CONNECTIONS - 1:
            self.make_room()
        self.connections.append(one)
        self.selector.register(made, selectors.EVENT_READ, one)

    def make_room(self):
        """Closes one of those that need not be answered."""
        first = min(self.connections, key=Connection.rank, default=None)
        if first is not None and first.rank() < 2:
            self.close(first)

    def close(self, one):
        if not one.is_waiting:
            self.selector.unregister(one.socket)
        self.connections.remove(one)
        one.socket.close()

    def respond(self, one, octets):
        (self.selector.register if one.is_waiting else self.selector.modify)(one.socket, selectors.EVENT_WRITE, one)
        one.respond(octets)

    def read(self, one):
        head = one.read()
        if head is None:
            return
        refusal = refusal_of(head) if head else INCOMPLETE
        if refusal is not None:
            self.respond(one, refusal)
            return
        one.is_waiting = True
        self.selector.unregister(one.socket)
        if self.asking is None:
            self.asking = Asking(self.folder)
            self.selector.register(self.asking, selectors.EVENT_READ)

    def hear(self, one):
        """What one who was answered says still: its end is waited for."""
        if not one.socket.recv(PART):
            self.close(one)

    def serve(self, one):
        try:
            if one.is_reading():
                self.read(one)
            elif one.rest is not None and not one.is_over:
                one.send()
                if one.is_over:
                    self.selector.modify(one.socket, selectors.EVENT_READ, one)
            else:
                self.hear(one)
        except (BlockingIOError, InterruptedError):
            pass
        except OSError:
            self.close(one)

    def answer(self):
        """Reads on what is asked, and gives it to all who wait."""
        if not self.asking.read():
            return
        self.selector.unregister(self.asking)
        octets, self.asking = self.asking.response(), None
        for one in [one for one in self.connections if one.is_waiting]:
            self.respond(one, octets)

    def look_at_times(self):
        """Answers those whose request did not come in time, and closes those who take no response."""
        now = time.monotonic()
        for one in [one for one in self.connections if not one.is_waiting and one.until <= now]:
            if one.is_reading():
                self.respond(one, INCOMPLETE)
            else:
                self.close(one)
        does_accept = len(self.connections) < MOST_CONNECTIONS
        if does_accept and not self.is_accepting:
            self.selector.register(self.listening, selectors.EVENT_READ)
        elif self.is_accepting and not does_accept:
            self.selector.unregister(self.listening)
        self.is_accepting = does_accept

    def run(self):
        while self.connections or self.asking or time.monotonic() - self.last < IDLE_SECONDS:
            for key, _ in self.selector.select(0.1 if self.connections else 1):
                if key.fileobj is self.listening:
                    self.accept()
                elif key.fileobj is self.asking:
                    self.answer()
                elif key.data in self.connections:
                    self.serve(key.data)
            self.look_at_times()


def request_head():
    """The head of the request on standard input, or None where it does not come in time."""
    until, octets = time.monotonic() + REQUEST_SECONDS, b""
    try:
        while len(octets) <= LONGEST_HEAD and select.select([0], [], [], max(until - time.monotonic(), 0))[0]:
            part = os.read(0, LONGEST_HEAD)
            octets += part
            if is_whole(octets):
                return octets
            if not part:
                break
    except OSError:
        pass
    return None


def answer_one(folder):
    """Answers the request on standard input on standard output."""
    head = request_head()
    refusal = INCOMPLETE if head is None else refusal_of(head)
    told = refusal if refusal is not None else ask(folder)
    try:
        write_all(1, told, time.monotonic() + RESPONSE_SECONDS)
    except OSError:
        raise Fault("cannot write the answer", bounds.FAILED) from None


def passed():
    """The listening socket that systemd passes, or None: also where it is a connection, which is standard input then."""
    if os.environ.get("LISTEN_PID") != str(os.getpid()) or os.environ.get("LISTEN_FDS") != "1":
        return None
    made = socket.socket(fileno=FIRST_PASSED)
    if made.getsockopt(socket.SOL_SOCKET, socket.SO_ACCEPTCONN):
        return made
    made.close()
    return None


def answer_http(folder):
    signal.signal(signal.SIGPIPE, signal.SIG_IGN)
    listening = passed()
    if listening is None:
        answer_one(folder)
    else:
        os.set_inheritable(FIRST_PASSED, False)
        Server(listening, folder).run()
