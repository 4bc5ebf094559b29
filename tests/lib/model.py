"""What `replay` answers, written a second time from the rules alone (docs/protocol.md and docs/formats.md), by Python.

What the tests expect comes from here, and nothing from the program. A `Replay` is made from the text of a configuration; each event
is told to it, and it answers the lines to be printed. Only configurations and events that are well formed are known here.
"""
import hashlib
import hmac
import itertools
import tomllib
from collections import deque
from dataclasses import dataclass

from tests.lib.packets import ACCOUNTING_REQUEST, ACCOUNTING_RESPONSE, STATUS_SERVER
from tests.lib.packets import MESSAGE_AUTHENTICATOR, PROXY_STATE, USER_NAME, ZEROS
from tests.lib.packets import answer, attribute, mark, packet, request, signed, status, turned

LEAST_LENGTH, GREATEST_LENGTH = 20, 4096
GREATEST_REQUEST = GREATEST_LENGTH - len(mark(0, 0))
LONGEST_WAIT = 120_000
LAST_MOMENT = 2**62 - 1
IDENTIFIERS = 256
DEFAULTS = {
    "window": 64,
    "queue": 4096,
    "book": 100_000,
    "tries": 3,
    "first_wait": 2000,
    "probe_every": 10_000,
    "down_wait": 60_000,
    "span": 30_000,
    "ring": 256,
    "ports": 1,
}
PROBE_OCTETS = bytes([0x5A] * 16)
STATUS_OCTETS = bytes([0xA5] * 16)


class Fault(Exception):
    """Why a datagram is dropped or a request is refused, as it is printed."""


@dataclass(frozen=True)
class Packet:
    """A packet of RFC 2866 section 3: its octets without padding, and its attributes as type, value and place."""

    octets: bytes
    attributes: tuple

    @property
    def code(self):
        return self.octets[0]

    @property
    def identifier(self):
        return self.octets[1]

    @property
    def authenticator(self):
        return self.octets[4:20]

    def of_type(self, wanted):
        """The attributes of a type: value and place, in order."""
        return [(value, place) for kind, value, place in self.attributes if kind == wanted]


def read(datagram):
    """The packet that a datagram begins with."""
    if len(datagram) < LEAST_LENGTH:
        raise Fault("Unread Short")
    length = int.from_bytes(datagram[2:4], "big")
    if not LEAST_LENGTH <= length <= GREATEST_LENGTH:
        raise Fault("Unread BadLength")
    if len(datagram) < length:
        raise Fault("Unread Truncated")
    return Packet(datagram[:length], tuple(attributes_of(datagram[:length])))


def attributes_of(octets):
    """The attributes of a packet, one by one, up to the first that is none."""
    place = LEAST_LENGTH
    while place < len(octets):
        size = octets[place + 1] if place + 1 < len(octets) else 0
        if size < 2 or place + size > len(octets):
            raise Fault(f"Unread BadAttribute {place}")
        yield octets[place], octets[place + 2 : place + size], place
        place += size


def is_signed(read_packet, base, secret):
    """Whether the Authenticator is the MD5 of the packet with `base` in its place, and of the secret."""
    octets = read_packet.octets
    return hashlib.md5(octets[:4] + base + octets[20:] + secret).digest() == read_packet.authenticator


def is_right_status(read_packet, secret):
    """Whether there is one Message-Authenticator, of sixteen octets, which is the HMAC-MD5 of the packet without it."""
    found = read_packet.of_type(MESSAGE_AUTHENTICATOR)
    if len(found) != 1 or len(found[0][0]) != 16:
        return False
    (value, place), octets = found[0], read_packet.octets
    return hmac.new(secret, octets[: place + 2] + ZEROS + octets[place + 18 :], hashlib.md5).digest() == value


def shown(octets):
    """A packet as it is printed."""
    return f"{octets[0]} {octets[1]} {len(octets)} {octets[20:].hex() or '-'}"


@dataclass
class Sending:
    """What stands under a place, its source port and identifier: a request that was sent, or a probe, without number."""

    octets: bytes
    place: int
    number: int | None = None
    due: int = 0
    sendings: int = 0


@dataclass
class Accepted:
    """A request of the book; `answered` is the moment of its answer, and `response` the octets of that."""

    client: str
    port: int
    secret: bytes
    request: Packet
    answered: int | None = None
    response: bytes = b""


class Lane:
    """A home server's lane."""

    def __init__(self, number, home):
        self.number, self.name, self.secret = number, home["name"], home["secret"].encode()
        self.limits = {key: home.get(key, default) for key, default in DEFAULTS.items()}
        self.book, self.opening, self.last_of_key = [], 0, {}
        self.queue, self.out, self.ring = deque(), {}, deque()
        self.under = {}
        self.places = IDENTIFIERS * self.limits["ports"]
        self.answers, self.last, self.place = 0, 0, self.places - 1
        self.is_up, self.until, self.next_probe, self.drained = True, 0, 0, None

    def accept(self, moment, client, port, secret, asked, is_refused):
        """What is printed of a request that was checked."""
        now = max(moment, self.last)
        key = client, port, asked.identifier, asked.authenticator
        before = self.last_of_key.get(key)
        if before is not None:
            known = self.book[before - self.opening]
            if known.answered is None:
                self.last = now
                return f"waiting {self.number} {before}"
            if now < known.answered + self.limits["span"]:
                self.last = now
                return f"again {self.number} {before} {shown(known.response)}"
        self.refuse(asked, is_refused)
        self.last = now
        self.last_of_key[key] = self.opening + len(self.book)
        self.queue.append(self.last_of_key[key])
        self.book.append(Accepted(client, port, secret, asked))
        return f"new {self.number} {self.queue[-1]}"

    def refuse(self, asked, is_refused):
        """Why a new request is refused, if it is."""
        if self.drained is not None:
            raise Fault("Draining")
        if len(self.book) >= self.limits["book"]:
            raise Fault("BookFull")
        if len(self.queue) >= self.limits["queue"]:
            raise Fault("QueueFull")
        if len(asked.octets) > GREATEST_REQUEST:
            raise Fault("TooLong")
        if is_refused:
            raise Fault("OutOfMemory")

    def requests_out(self):
        """The sendings of requests; a probe is none."""
        return [sending for sending in self.out.values() if sending.number is not None]

    def step(self, moment):
        """What is printed of the next step."""
        now = self.last = max(moment, self.last)
        return self.step_up(now) if self.is_up else self.step_down(now)

    def step_up(self, now):
        by_due = sorted(self.requests_out(), key=lambda sending: (sending.due, sending.number))
        due = [sending for sending in by_due if sending.due <= now]
        fresh = [sending for sending in due if sending.sendings < self.limits["tries"]]
        if fresh:
            return f"resent {self.send(fresh[0], now)}"
        if due:
            self.is_up, self.until, self.next_probe = False, now + self.limits["down_wait"], now
            return "down"
        if self.queue and len(by_due) < self.limits["window"]:
            return f"sent {self.send(self.first_sending(self.queue.popleft()), now)}"
        return f"idle {min(by_due[0].due, LAST_MOMENT)}" if by_due else "idle"

    def step_down(self, now):
        if self.until <= now:
            self.go_up(now)
            return "up"
        if self.next_probe <= now:
            self.forget_probe()
            place = self.allot()
            octets = status(place % IDENTIFIERS, PROBE_OCTETS, b"", b"", self.secret)
            self.out[place] = Sending(octets, place)
            self.under[place] = octets
            self.next_probe = now + self.limits["probe_every"]
            return f"probed {self.shown(octets, place).rpartition(' ')[0]}"
        return f"idle {min(self.until, self.next_probe, LAST_MOMENT)}"

    def allot(self):
        """The first free place behind the last allotted one."""
        behind = ((self.place + way) % self.places for way in range(1, self.places + 1))
        self.place = next(place for place in behind if place not in self.out)
        return self.place

    def first_sending(self, number):
        """The sending of a queued request under a new place, before it is sent."""
        place, asked = self.allot(), self.book[number - self.opening].request
        octets = request(place % IDENTIFIERS, asked.octets[20:] + mark(self.number, number), self.secret)
        self.out[place] = Sending(octets, place, number)
        return self.out[place]

    def send(self, sending, now):
        """Sends once more, and gives what is printed of it."""
        wait = self.limits["first_wait"] * 2**sending.sendings
        sending.sendings += 1
        sending.due = now + min(wait, LONGEST_WAIT)
        self.under[sending.place] = sending.octets
        return self.shown(sending.octets, sending.place)

    def shown(self, octets, place):
        """A packet to the home server as it is printed: where there is more than one source port, with that."""
        code, identifier, rest = shown(octets).split(" ", 2)
        return f"{code} {identifier}.{place // IDENTIFIERS} {rest}" if self.limits["ports"] > 1 else shown(octets)

    def forget_probe(self):
        self.out = {place: sending for place, sending in self.out.items() if sending.number is not None}

    def go_up(self, now):
        self.is_up = True
        self.forget_probe()
        for sending in self.out.values():
            sending.due, sending.sendings = now, 0

    def hear(self, moment, port, datagram, is_refused):
        """What is printed of a datagram from the home server to a source port."""
        if len(self.ring) >= self.limits["ring"]:
            raise Fault("RingFull")
        reply = read(datagram)
        if reply.code != ACCOUNTING_RESPONSE:
            raise Fault("WrongCode")
        sending = self.out.get(IDENTIFIERS * port + reply.identifier)
        if sending is None:
            raise Fault("Unknown")
        if not is_signed(reply, sending.octets[4:20], self.secret):
            raise Fault("BadAuthenticator")
        if sending.number is not None:
            self.serve(moment, sending, reply, is_refused)
        self.last = max(moment, self.last)
        if not self.is_up:
            self.go_up(self.last)
        return "probe" if sending.number is None else f"answer {self.number} {self.answers - 1}"

    def serve(self, moment, sending, reply, is_refused):
        """Answers the request of a sending by a reply that was verified."""
        if reply.of_type(MESSAGE_AUTHENTICATOR):
            raise Fault("MessageAuthenticatorHere")
        states = reply.of_type(PROXY_STATE)
        if not states or states[-1][0] != sending.octets[-10:]:
            raise Fault("NoProxyState")
        if is_refused:
            raise Fault("OutOfMemory")
        place = states[-1][1]
        attributes = reply.octets[20:place] + reply.octets[place + 12 :]
        known = self.book[sending.number - self.opening]
        known.response = answer(known.request.octets, known.request.identifier, attributes, known.secret)
        known.answered = max(moment, self.last)
        self.answers += 1
        self.ring.append(known)
        del self.out[sending.place]

    def take(self):
        """What is printed of the next response for a NAS."""
        if not self.ring:
            return "none"
        known = self.ring.popleft()
        return f"{known.client} {known.port} {shown(known.response)}"

    def drain(self):
        if self.drained is None:
            self.drained = self.opening + len(self.book)
        return f"drain: {self.number} {self.drained}"

    def turn(self, moment, is_refused):
        """Cuts the front of the book whose requests were all answered a span ago or more, and forgets their keys."""
        now, span = max(moment, self.last), self.limits["span"]
        is_over = (known.answered is not None and known.answered + span <= now for known in self.book)
        cut = sum(1 for _ in itertools.takewhile(bool, is_over))
        if cut == 0:
            raise Fault("NothingToTurn")
        if is_refused:
            raise Fault("OutOfMemory")
        self.last = now
        self.opening += cut
        del self.book[:cut]
        self.last_of_key = {key: number for key, number in self.last_of_key.items() if number >= self.opening}
        return f"{self.number} {cut} {self.opening}"

    def state(self):
        """The line of the lane's counts."""
        queued, outstanding = len(self.queue), len(self.requests_out())
        mode = "open" if self.drained is None else "draining" if queued or outstanding else "done"
        watch = "up" if self.is_up else "down"
        counts = f"accepted {self.opening + len(self.book)} queued {queued} outstanding {outstanding} answered {self.answers}"
        return f"lane {self.number} {self.name} {watch} {mode} {counts} opening {self.opening}"


class Replay:
    """A proxy that is told events, and what it prints of each."""

    def __init__(self, configuration):
        known = tomllib.loads(configuration)
        self.secrets = {client["address"]: client["secret"].encode() for client in known["client"]}
        self.lanes = [Lane(number, home) for number, home in enumerate(known["home"])]
        numbers = {lane.name: lane.number for lane in self.lanes}
        self.realms = {realm["name"].encode().lower(): numbers[realm["home"]] for realm in known.get("realm", [])}
        self.default, self.other = numbers.get(known.get("default_home")), numbers.get(known.get("other_home"))
        self.moment = 0

    def told(self, event, is_refused=False):
        """The lines of an event. Where a growth that it needs is refused, nothing else changes."""
        name, *words = event.split(" ")
        return getattr(self, f"on_{name}")(words, is_refused)

    def on_at(self, words, _):
        self.moment = int(words[0])
        return []

    def on_nas(self, words, is_refused):
        client, port, *text = words
        datagram = self.nas_datagram(client, text)
        try:
            asked, lane = self.check_in(client, datagram)
        except Fault as fault:
            return [f"nas: dropped {fault}"]
        secret = self.secrets[client]
        if asked.code == STATUS_SERVER:
            return [f"nas: status {shown(answer(asked.octets, asked.identifier, b'', secret))}"]
        try:
            return [f"nas: {lane.accept(self.moment, client, int(port), secret, asked, is_refused)}"]
        except Fault as fault:
            return [f"nas: refused {fault}"]

    def on_home(self, words, is_refused):
        number, _, port = words[0].partition(".")
        lane, port = self.lanes[int(number)], int(port or 0)
        try:
            return [f"home: {lane.hear(self.moment, port, home_datagram(lane, port, words[1:]), is_refused)}"]
        except Fault as fault:
            return [f"home: dropped {fault}"]

    def on_step(self, words, _):
        return [f"step: {self.lanes[int(words[0])].step(self.moment)}"]

    def on_take(self, words, _):
        return [f"take: {self.lanes[int(words[0])].take()}"]

    def on_drain(self, _, __):
        return [lane.drain() for lane in self.lanes]

    def on_turn(self, words, is_refused):
        try:
            return [f"turn: {self.lanes[int(words[0])].turn(self.moment, is_refused)}"]
        except Fault as fault:
            return [f"turn: refused {fault}"]

    def on_state(self, _, __):
        return [lane.state() for lane in self.lanes]

    def end(self):
        """The last line, and the status."""
        queued = sum(len(lane.queue) for lane in self.lanes)
        outstanding = sum(len(lane.requests_out()) for lane in self.lanes)
        untaken = sum(len(lane.ring) for lane in self.lanes)
        line = f"end: queued {queued} outstanding {outstanding} untaken {untaken}"
        return line, 3 if queued or outstanding or untaken else 0

    def check_in(self, client, datagram):
        """What a datagram of a client is: a packet, and for a request the lane that it goes to."""
        if client not in self.secrets:
            raise Fault("UnknownClient")
        asked, secret = read(datagram), self.secrets[client]
        if asked.code == STATUS_SERVER:
            if not is_right_status(asked, secret):
                raise Fault("BadMessageAuthenticator")
            return asked, None
        if asked.code != ACCOUNTING_REQUEST:
            raise Fault("WrongCode")
        if not is_signed(asked, ZEROS, secret):
            raise Fault("BadAuthenticator")
        if asked.of_type(MESSAGE_AUTHENTICATOR):
            raise Fault("MessageAuthenticatorHere")
        return asked, self.lane_of(asked)

    def lane_of(self, asked):
        """The lane that the first User-Name leads to."""
        name = next((value for value, _ in asked.of_type(USER_NAME)), b"")
        _, sign, realm = name.rpartition(b"@")
        number = self.realms.get(realm.lower(), self.other if realm else None) if sign else self.default
        if number is None:
            raise Fault("NoRealm")
        return self.lanes[number]

    def nas_datagram(self, client, words):
        """The octets of a NAS's PACKET."""
        secret = self.secrets.get(client)
        if words[0] == "raw":
            return octets_of(words[1])
        changes, words = changes_of(words)
        if words[0] == "status":
            number = int(words[1])
            unsigned = packet(STATUS_SERVER, number, STATUS_OCTETS, attribute(MESSAGE_AUTHENTICATOR, ZEROS))
            return changed(unsigned if secret is None else status(number, STATUS_OCTETS, b"", b"", secret), changes, -1)
        code, number, attributes = int(words[1]), int(words[2]), octets_of(words[3])
        unsigned = packet(code, number, ZEROS, attributes)
        return changed(unsigned if secret is None else signed(code, number, ZEROS, attributes, secret), changes, 19)


def home_datagram(lane, port, words):
    """The octets of a home server's PACKET to a source port."""
    if words[0] == "raw":
        return octets_of(words[1])
    changes, words = changes_of(words)
    code, number, attributes = int(words[1]), int(words[2]), octets_of(words[3])
    base = lane.under.get(IDENTIFIERS * port + number, bytes(20))[4:20]
    return changed(signed(code, number, base, attributes, lane.secret), changes, 19)


def octets_of(text):
    return b"" if text == "-" else bytes.fromhex(text)


def changes_of(words):
    """The changes that stand before `make` or `status`, and the words from there on."""
    begin = next(place for place, word in enumerate(words) if word in ("make", "status"))
    changes, before = {}, words[:begin]
    while before:
        if before[0] == "spoil":
            changes["spoil"], before = True, before[1:]
        else:
            changes[before[0]], before = before[1], before[2:]
    return changes, words[begin:]


def changed(octets, changes, spoiled):
    """A packet with the changes of an event made, of which `spoil` turns a bit of the octet `spoiled`."""
    if "spoil" in changes:
        octets = turned(octets, spoiled % len(octets))
    octets += octets_of(changes.get("pad", "-"))
    return octets[: len(octets) - int(changes.get("cut", 0))]


def script_of(text):
    """The configuration and the events of a script."""
    lines = text.split("\n")
    end = lines.index("%%")
    configuration = "".join(f"{line}\n" for line in lines[:end])
    return configuration, [line for line in lines[end + 1 :] if line and not line.startswith("#")]


def answers(script, is_refused=lambda place: False):
    """The lines that have to come of a script, and the status, where growths are refused at the lines of these places."""
    configuration, events = script_of(script)
    proxy, lines = Replay(configuration), []
    for event in events:
        lines += proxy.told(event, is_refused(len(lines)))
    line, left = proxy.end()
    return [*lines, line], left
