"""Home servers, each at its own address, in a process of their own."""
import collections
import hmac
import hashlib
import os
import select
import socket
import time
from dataclasses import dataclass

from .radius import MESSAGE_AUTHENTICATOR, PROXY_STATE, REQUEST, STATUS, ZEROS, NoPacket, attributes_of, is_signed, response

BUFFER, FORCED = 1 << 24, 33


@dataclass
class Manner:
    """How home servers answer: so many seconds after a request, and not at all between two moments of the play."""

    answer: float
    silent_from: float
    silent_until: float

    def is_silent(self, seconds):
        return self.silent_from <= seconds < self.silent_until


def is_status(packet, secret):
    """Whether a Status-Server that the program sent, with a Message-Authenticator alone, is right."""
    return packet[22:38] == hmac.new(secret, packet[:22] + ZEROS, hashlib.md5).digest()


def reply_to(packet, secrets):
    """What a home server with one of these secrets answers, if it answers."""
    try:
        attributes = attributes_of(packet)
    except NoPacket:
        return None
    if packet[0] == STATUS and attributes and attributes[0][0] == MESSAGE_AUTHENTICATOR:
        secret = next((it for it in secrets if is_status(packet, it)), None)
        return secret and response(packet, b"", secret)
    secret = next((it for it in secrets if packet[0] == REQUEST and is_signed(packet, it)), None)
    states = b"".join(bytes([PROXY_STATE, len(value) + 2]) + value for kind, value in attributes if kind == PROXY_STATE)
    return secret and response(packet, states, secret)


def bound(address, port):
    made = socket.socket(socket.AF_INET, socket.SOCK_DGRAM | socket.SOCK_NONBLOCK)
    made.setsockopt(socket.SOL_SOCKET, FORCED, BUFFER)
    made.bind((socket.inet_ntoa(address), port))
    return made


class Homes:
    """All home servers of a configuration. Two at one address are one with two secrets."""

    def __init__(self, settings, manner, began):
        self.manner, self.began, self.waiting = manner, began, collections.deque()
        self.parent, self.sockets, self.poll = os.getpid(), {}, select.epoll()
        secrets = collections.defaultdict(list)
        for home in settings.homes:
            secrets[home.address, home.port].append(home.secret)
        for place, known in secrets.items():
            made = bound(*place)
            self.sockets[made.fileno()] = made, known
            self.poll.register(made, select.EPOLLIN)

    def serve(self):
        """Answers until the parent ends."""
        while os.getppid() == self.parent:
            until = self.waiting[0][0] - time.monotonic() if self.waiting else 1
            for number, _ in self.poll.poll(max(0, min(until, 1))):
                self.receive(*self.sockets[number])
            self.answer()

    def receive(self, made, secrets):
        try:
            for _ in range(256):
                packet, sender = made.recvfrom(65_535)
                now = time.monotonic()
                if self.began.value and self.manner.is_silent(now - self.began.value):
                    continue
                reply = reply_to(packet, secrets)
                if reply:
                    self.waiting.append((now + self.manner.answer, made, reply, sender))
        except BlockingIOError:
            return

    def answer(self):
        while self.waiting and self.waiting[0][0] <= time.monotonic():
            _, made, reply, sender = self.waiting.popleft()
            try:
                made.sendto(reply, sender)
            except OSError:
                continue
