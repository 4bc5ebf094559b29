"""Sends a proxy, or a home server, a Status-Server (RFC 5997) and tells how long it took to answer.

A proxy's secret is that of the [[client]] with the address that this machine sends from. Without an address it asks `listen` of the
configuration.
"""
import errno
import hashlib
import hmac
import os
import random
import re
import socket
import time

from configuration import Unread, read
from trial.faults import Fault

from . import bounds
from .output import answer

UNANSWERED = 1
STATUS_SERVER, ACCOUNTING_RESPONSE, MESSAGE_AUTHENTICATOR = 12, 5, 80
SHORTEST, LONGEST = 20, 4096
# How many datagrams are sent soon after each other, how many seconds apart, and how many seconds apart those after them are.
FIRST, SOON, APART = 3, 0.2, 1.0
# The ports that are tried where Linux has none left, and how many of them.
OTHER_PORTS, MOST_TRIED = range(1024, 65_536), 300
PLACE = re.compile(r"((?:\d{1,3}\.){3}\d{1,3}):(\d{1,5})", re.ASCII)


def place_of(text, name):
    """The address and port that a text names."""
    found = isinstance(text, str) and PLACE.fullmatch(text)
    if not found or any(int(part) > 255 for part in found[1].split(".")) or not 1 <= int(found[2]) <= 65_535:
        raise Fault(f"{name} is no ADDRESS:PORT", bounds.MISCONFIGURED)
    return found[1], int(found[2])


def tables_of(path):
    """The tables of the configuration in a file, with its secrets."""
    try:
        return read(path, with_secrets=True)
    except Unread as it:
        raise Fault(str(it), bounds.MISCONFIGURED) from None


def secret_of(tables, path, address):
    """The secret of the client with this address."""
    for client in tables["client"]:
        if client["address"] == address:
            return client["secret"].encode()
    raise Fault(f"{path} has no [[client]] {address}, the address that this machine sends from", bounds.MISCONFIGURED)


def home_of(tables, path, name):
    """The address, the port and the secret of the home server of a name."""
    for home in tables["home"]:
        if home["name"] == name:
            return *place_of(home["address"], f"{path}: address"), home["secret"].encode()
    raise Fault(f"{path} has no [[home]] {name}", bounds.MISCONFIGURED)


def proxy_of(tables, path, server):
    """The address and port of the proxy that is asked."""
    address, port = place_of(server, server) if server else place_of(tables["listen"], f"{path}: listen")
    return "127.0.0.1" if not server and address == "0.0.0.0" else address, port


def status_server(identifier, authenticator, secret):
    """A Status-Server with a Message-Authenticator alone: the HMAC-MD5 of the packet that has zeros in its place (RFC 5997 section 3)."""
    head = bytes([STATUS_SERVER, identifier, 0, SHORTEST + 18]) + authenticator + bytes([MESSAGE_AUTHENTICATOR, 18])
    return head + hmac.new(secret, head + bytes(16), hashlib.md5).digest()


def is_answer(octets, asked, secret):
    """Whether a datagram is the Accounting-Response to a Status-Server: by Code, Identifier, Length and Response Authenticator."""
    length = int.from_bytes(octets[2:4], "big")
    if not SHORTEST <= length <= min(len(octets), LONGEST) or octets[:2] != bytes([ACCOUNTING_RESPONSE, asked[1]]):
        return False
    made = hashlib.md5(octets[:4] + asked[4:20] + octets[20:length] + secret).digest()
    return hmac.compare_digest(made, octets[4:20])


def due_at(begun, count):
    """When the datagram behind so many is sent."""
    return begun + SOON * min(count, FIRST - 1) + APART * max(count - FIRST + 1, 0)


def await_answer(made, asked, secret, seconds):
    """Sends a packet, thrice and then once a second, until it is answered: how many seconds that took. Fails when the time is over."""
    begun = time.monotonic()
    last, sent, others = begun + seconds, 0, 0
    while (now := time.monotonic()) < last:
        due = due_at(begun, sent)
        if now >= due:
            made.send(asked)
            sent += 1
            continue
        made.settimeout(max(min(due, last) - now, 0.001))
        try:
            octets = made.recv(LONGEST + 1)
        except TimeoutError:
            continue
        if is_answer(octets, asked, secret):
            return time.monotonic() - begun
        others += 1
    more = f", but {others} datagrams that are no answer: look at the secret" if others else ""
    raise Fault(f"in {seconds:g} seconds{more}", UNANSWERED)


def connected(address, port):
    """A socket to this address and port. Where others hold all the ports that Linux gives, it sends from a random one."""
    made = socket.socket(socket.AF_INET, socket.SOCK_DGRAM)
    try:
        made.connect((address, port))
        return made
    except OSError as error:
        if error.errno not in (errno.EAGAIN, errno.EADDRINUSE):
            made.close()
            raise Fault(f"cannot send to {address}:{port}: {error.strerror}", bounds.FAILED) from None
    for own in random.sample(OTHER_PORTS, MOST_TRIED):
        try:
            made.bind(("0.0.0.0", own))
            made.connect((address, port))
            return made
        except OSError:
            continue
    made.close()
    raise Fault(f"cannot send to {address}:{port}: others hold the ports of this machine", bounds.FAILED)


def probe(path, server, home, seconds):
    """Asks the home server of this name, or else a proxy, and prints how long it took."""
    table = tables_of(path)
    if home:
        address, port, secret = home_of(table, path, home)
    else:
        (address, port), secret = proxy_of(table, path, server), None
    with connected(address, port) as made:
        secret = secret or secret_of(table, path, made.getsockname()[0])
        authenticator = os.urandom(17)
        asked = status_server(authenticator[0], authenticator[1:], secret)
        try:
            took = await_answer(made, asked, secret, seconds)
        except Fault as fault:
            raise Fault(f"no answer from {address}:{port} {fault}", fault.status) from None
        except OSError as error:
            raise Fault(f"no answer from {address}:{port}: {error.strerror}", UNANSWERED) from None
    answer(f"answer from {address}:{port} in {1000 * took:.1f} ms\n")
