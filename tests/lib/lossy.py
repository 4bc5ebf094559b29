"""A network that loses, and the two sides of a proxy at it: NASes and home servers, each with its own log of what it sent and got.

Datagrams on their way are dropped, doubled, delayed, turned round and spoiled, by chance. What is not as it should be goes to the
`faults` of the `Findings` that all sides share.
"""
import heapq
import itertools
import pathlib
import selectors
import socket
import time
from array import array
from collections import Counter, deque
from dataclasses import dataclass, field

from tests.lib.model import Fault, is_right_status, is_signed, read
from tests.lib.packets import ACCOUNTING_REQUEST, ACCOUNTING_RESPONSE, ACCT_SESSION_ID, CLASS, PROXY_STATE, STATUS_SERVER, ZEROS
from tests.lib.packets import answer, attribute, mark, request, states_of, status, user_name

MOST_OCTETS = 65_535
RECEIVE_BUFFER = 4_000_000
MOST_FAULTS = 20
FIRST_WAIT, LONGEST_WAIT = 0.3, 2.0
EARLIER_KEPT = 12
CLOCK_STEP = 0.01


class Loop:
    """What happens in time: sockets that have something, and what is to be done later."""

    def __init__(self):
        self.selector = selectors.DefaultSelector()
        self.later_ones, self.count = [], itertools.count()

    def later(self, seconds, action):
        heapq.heappush(self.later_ones, (time.monotonic() + seconds, next(self.count), action))

    def watch(self, file, action):
        self.selector.register(file, selectors.EVENT_READ, action)

    def forget(self, file):
        self.selector.unregister(file)

    def turn(self, most=0.05):
        """Waits for the next thing to happen, `most` seconds at most, and does all that is due."""
        until_first = self.later_ones[0][0] - time.monotonic() if self.later_ones else most
        for key, _ in self.selector.select(max(0, min(most, until_first))):
            key.data()
        while self.later_ones and self.later_ones[0][0] <= time.monotonic():
            heapq.heappop(self.later_ones)[2]()

    def run_until(self, is_done, seconds):
        """Goes on until something is so, and says whether it was within these seconds."""
        end = time.monotonic() + seconds
        while not is_done():
            if time.monotonic() > end:
                return False
            self.turn()
        return True


class Network:
    """Carries datagrams, each to an action that takes its octets and whether they are spoiled."""

    DROPPED, DOUBLED, SPOILED, DELAYED, LATE = 0.1, 0.1, 0.01, 0.5, 0.03

    def __init__(self, loop, chance):
        self.loop, self.chance, self.is_calm = loop, chance, False
        self.counts, self.under_way = Counter(), 0

    def carry(self, octets, deliver):
        """Carries a datagram; a calm network hands it on at once."""
        self.counts["carried"] += 1
        if self.is_calm:
            deliver(octets, False)
            return
        copies = 0 if self.chance.random() < self.DROPPED else 2 if self.chance.random() < self.DOUBLED else 1
        self.counts["dropped"] += copies == 0
        self.counts["doubled"] += copies == 2
        for _ in range(copies):
            self.carry_one(octets, deliver)

    def carry_one(self, octets, deliver):
        is_spoiled = self.chance.random() < self.SPOILED
        if is_spoiled:
            self.counts["spoiled"] += 1
            place = self.chance.randrange(len(octets))
            octets = octets[:place] + bytes([octets[place] ^ 1 << self.chance.randrange(8)]) + octets[place + 1 :]
        if self.chance.random() < self.DELAYED:
            self.counts["delayed"] += 1
            seconds = self.chance.uniform(0, 1.5 if self.chance.random() < self.LATE else 0.03)
            self.under_way += 1
            self.loop.later(seconds, lambda: self.deliver_late(octets, is_spoiled, deliver))
        else:
            deliver(octets, is_spoiled)

    def deliver_late(self, octets, is_spoiled, deliver):
        self.under_way -= 1
        deliver(octets, is_spoiled)


class Port:
    """A UDP socket on loopback that can be closed and come back under its old address."""

    def __init__(self, loop, address, heard):
        self.loop, self.heard, self.address = loop, heard, (address, 0)
        self.open()
        self.address = self.socket.getsockname()

    def open(self):
        self.socket = socket.socket(socket.AF_INET, socket.SOCK_DGRAM)
        self.socket.setsockopt(socket.SOL_SOCKET, socket.SO_RCVBUF, RECEIVE_BUFFER)
        self.socket.bind(self.address)
        self.socket.setblocking(False)
        self.loop.watch(self.socket, self.receive)

    def close(self):
        """What comes to the address from now on is answered by ICMP: port unreachable."""
        self.loop.forget(self.socket)
        self.socket.close()
        self.socket = None

    def receive(self):
        """Hands on all that has come."""
        while self.socket is not None:
            try:
                octets, sender = self.socket.recvfrom(MOST_OCTETS)
            except (BlockingIOError, ConnectionRefusedError):
                return
            self.heard(octets, sender)

    def send(self, octets, address):
        """Sends a datagram, and says whether that could be done."""
        if self.socket is None:
            return False
        try:
            self.socket.sendto(octets, address)
        except OSError:
            return False
        return True

    def lost(self):
        """How many datagrams the kernel dropped since the socket has no room for them."""
        table = [line.split() for line in pathlib.Path("/proc/net/udp").read_text().splitlines()[1:]]
        return sum(int(words[-1]) for words in table if words[1].endswith(f":{self.address[1]:04X}"))


def key_of(response):
    """What a response is known by: the first half of its authenticator."""
    return int.from_bytes(response[4:12], "big")


@dataclass
class Findings:
    """What came out so far: faults in words, counts, and of each response to a request its key and the moment when it came."""

    faults: list = field(default_factory=list)
    counts: Counter = field(default_factory=Counter)
    keys: array = field(default_factory=lambda: array("Q"))
    moments: array = field(default_factory=lambda: array("d"))

    def fault(self, text):
        self.counts["faults"] += 1
        if len(self.faults) < MOST_FAULTS:
            self.faults.append(text)

    def take_response(self, response):
        self.keys.append(key_of(response))
        self.moments.append(time.monotonic())


@dataclass(slots=True)
class Arrived:
    """A request as a home server's log has it: what it came under, what it has, the attributes of replies to it, when the
    first of them was on its way, and whether the proxy took it anew after that."""

    identity: tuple
    number: int
    attributes: bytes
    replies: set = field(default_factory=set)
    replied: float | None = None
    is_anew: bool = False

    @property
    def is_answered(self):
        return self.replied is not None

    def note_reply(self, attributes, moment):
        self.replied = moment if self.replied is None else self.replied
        self.replies.add(attributes)

    def is_over(self, span):
        """Whether the proxy may have seen a repeat of it later than so many seconds after its answer. The repeat was seen
        before now, and the answer not before the first reply was on its way."""
        return self.is_answered and self.replied + span <= time.monotonic() + CLOCK_STEP

    def come_anew(self, identity, number, attributes):
        """Takes a repeat down that the proxy took as a new request."""
        self.identity, self.number, self.attributes = identity, number, attributes
        self.replied, self.is_anew = None, True

    def forget_texts(self):
        """Once it is acknowledged its texts are not needed any more."""
        self.attributes = b""
        self.replies.clear()


class LoggedHome:
    """A home server: it answers each right request, and each time with another Class."""

    def __init__(self, loop, network, findings, lane, name, secret, window, span, chance):
        self.network, self.findings, self.chance = network, findings, chance
        self.lane, self.name, self.secret, self.window, self.span = lane, name, secret, window, span
        self.realm = f"{name}.example"
        self.port = Port(loop, "127.0.0.1", self.arrive)
        self.log, self.sessions = {}, {}
        self.next_number, self.excused, self.lost = 0, 0, 0
        self.is_away, self.has_others = False, False
        self.in_order = array("Q"), array("Q")

    def drawn_realm(self):
        """The realm of a request for it: its own, or, if realms that are not listed lead here, half of the time one of these."""
        if self.has_others and self.chance.random() < 0.5:
            return bytes(self.chance.choices(range(1, 64), k=self.chance.choice([1, 20, 240])))
        return self.realm.encode()

    def go_away(self, is_closed):
        """From now on it answers nothing; where its port is closed, the kernel answers that it is unreachable."""
        self.is_away = True
        if is_closed:
            self.port.close()

    def come_back(self):
        self.is_away = False
        if self.port.socket is None:
            self.port.open()
            self.excuse()

    def arrive(self, octets, sender):
        """What comes from the proxy, before the network behind does what it does."""
        self.findings.counts["datagrams to home servers"] += 1
        try:
            came = read(octets)
        except Fault as fault:
            self.findings.fault(f"{self.name}: the proxy sent {octets.hex()}: {fault}")
            return
        number = int.from_bytes(came.octets[-8:], "big")
        if came.code == STATUS_SERVER and is_right_status(came, self.secret) and len(came.octets) == 38:
            self.findings.counts["probes"] += 1
        elif came.code == ACCOUNTING_REQUEST and is_signed(came, ZEROS, self.secret) and octets.endswith(mark(self.lane, number)):
            self.take_down(came, number, sender[1])
        else:
            self.findings.fault(f"{self.name}: what came is neither a request of this lane nor a Status-Server: {octets.hex()}")
            return
        self.network.carry(octets, lambda carried, is_spoiled: self.serve(carried, sender, is_spoiled))

    def take_down(self, came, number, port):
        """Puts a request into the log, or sees that it is what came before."""
        session, identity = came.of_type(ACCT_SESSION_ID)[0][0], (port, came.identifier, came.authenticator)
        known = self.log.setdefault(session, Arrived(identity, number, came.octets[20:-12]))
        if known.identity != identity and known.is_over(self.span):
            self.findings.counts["taken anew after their span"] += 1
            known.come_anew(identity, number, came.octets[20:-12])
        elif known.identity != identity:
            self.findings.fault(f"{self.name}: {session} came under two identifiers or authenticators, or from two ports")
        if self.sessions.setdefault(number, session) != session:
            self.findings.fault(f"{self.name}: number {number} is that of {session} and of {self.sessions[number]}")
        self.keep_order(number)

    def keep_order(self, number):
        """Sees that first sendings come in the order of acceptance, but for those that this side could not receive."""
        if number < self.next_number:
            return
        if number > self.next_number and self.port.lost() > self.lost:
            self.excuse()
        first = max(self.next_number, self.excused)
        if number > first:
            self.findings.fault(f"{self.name}: number {number} came before {first}")
        self.next_number = number + 1

    def excuse(self):
        """Of what was sent up to now some may be lost: of the unanswered ones, and those are a window at most."""
        self.excused, self.lost = self.next_number + self.window, self.port.lost()

    def serve(self, octets, sender, is_spoiled):
        """Answers what came through the network, where it is right."""
        if self.is_away or is_spoiled:
            return
        came = read(octets)
        if came.code == STATUS_SERVER:
            more = attribute(80, ZEROS) if self.chance.random() < 0.5 else b""
            self.reply(answer(octets, came.identifier, more, self.secret), sender, None)
            return
        states = states_of(came)
        kept, own = states[:-12], states[-12:]
        first = attribute(CLASS, self.chance.randbytes(self.chance.randrange(20)))
        last = attribute(CLASS, b"last") if self.chance.random() < 0.5 else b""
        known = self.log[came.of_type(ACCT_SESSION_ID)[0][0]]
        octets = answer(octets, came.identifier, first + kept + own + last, self.secret)
        self.reply(octets, sender, lambda moment: known.note_reply(first + kept + last, moment))

    def reply(self, octets, sender, note):
        """Sends a reply through the network, and takes it down once it is on its way to the proxy unspoiled."""

        def deliver(carried, is_spoiled):
            self.findings.counts["datagrams of home servers"] += 1
            moment = time.monotonic()
            if self.port.send(carried, sender) and not is_spoiled and note is not None:
                note(moment)

        self.network.carry(octets, deliver)


@dataclass(slots=True)
class Asked:
    """A request of a NAS's: what it sent, to whose home server, and what came of it. It has more than one right response only
    where the proxy took a repeat of it anew."""

    session: bytes
    octets: bytes
    states: bytes
    home: LoggedHome
    copies: int = 0
    place: int = 0
    responses: list = field(default_factory=list)

    def is_answered_by(self, response, secret):
        return is_signed(response, self.octets[4:20], secret)


class LoggedNas:
    """An access server: it sends each request until it is acknowledged, and checks what it is told."""

    places = 0

    def __init__(self, loop, network, findings, name, address, secret, proxy, chance):
        self.loop, self.network, self.findings, self.chance = loop, network, findings, chance
        self.name, self.secret, self.proxy = name, secret, proxy
        self.port = Port(loop, address, self.arrive)
        self.out, self.earlier = {}, {identifier: deque(maxlen=EARLIER_KEPT) for identifier in range(256)}
        self.free, self.made = deque(range(256)), 0

    def ask(self, home):
        """Makes a request for a home server's realm, and sends it."""
        identifier = self.free.popleft()
        session = f"{self.name}-{self.made}".encode()
        self.made += 1
        states = attribute(PROXY_STATE, self.chance.randbytes(3)) if self.chance.random() < 0.3 else b""
        more = attribute(CLASS, self.chance.randbytes(self.chance.choice([0, 30, 200])))
        user = user_name(b"bob@" + home.drawn_realm())
        octets = request(identifier, user + attribute(ACCT_SESSION_ID, session) + states + more, self.secret)
        self.out[identifier] = Asked(session, octets, states, home)
        self.findings.counts["requests"] += 1
        self.send(self.out[identifier], FIRST_WAIT)

    def send(self, asked, wait):
        """Sends a request, and again after a while if it is not acknowledged until then."""
        if self.out.get(asked.octets[1]) is not asked:
            return
        self.network.carry(asked.octets, lambda octets, is_spoiled: self.put(asked, octets, is_spoiled))
        self.loop.later(wait, lambda: self.send(asked, min(2 * wait, LONGEST_WAIT)))

    def put(self, asked, octets, is_spoiled):
        """Sends a request's octets to the proxy, and takes that down."""
        self.findings.counts["datagrams of NASes"] += 1
        if self.port.send(octets, self.proxy) and not is_spoiled:
            LoggedNas.places += 1
            asked.copies += 1
            asked.place = LoggedNas.places

    def ask_status(self):
        """Asks whether the proxy is there; the answer is checked where one comes."""
        octets = status(self.chance.randrange(256), self.chance.randbytes(16), b"", b"", self.secret)
        self.earlier[octets[1]].append(Asked(b"", octets, b"", None, responses=[answer(octets, octets[1], b"", self.secret)]))
        self.network.carry(octets, lambda carried, _: self.port.send(carried, self.proxy))

    def arrive(self, octets, sender):
        self.findings.counts["datagrams to NASes"] += 1
        if sender != self.proxy:
            self.findings.fault(f"{self.name}: a datagram came from {sender}")
        self.check_response(octets)
        self.network.carry(octets, self.hear)

    def check_response(self, octets):
        """Sees that what the proxy sent answers a request under its identifier, always by the same octets."""
        try:
            came = read(octets)
        except Fault as fault:
            self.findings.fault(f"{self.name}: the proxy sent {octets.hex()}: {fault}")
            return
        asked = self.asked_under(came)
        if asked is None or came.code != ACCOUNTING_RESPONSE:
            self.findings.fault(f"{self.name}: a response to nothing that was asked came: {octets.hex()}")
        elif asked.home is None:
            self.findings.counts["answers to Status-Servers"] += 1
            if octets not in asked.responses:
                self.findings.fault(f"{self.name}: a Status-Server was answered by {octets.hex()}")
        elif octets not in asked.responses:
            self.check_answer(asked, octets)
            asked.responses.append(octets)
            self.findings.take_response(octets)

    def asked_under(self, came):
        """The request that a response answers."""
        under = [self.out.get(came.identifier), *reversed(self.earlier[came.identifier])]
        return next((asked for asked in under if asked and asked.is_answered_by(came, self.secret)), None)

    def check_answer(self, asked, octets):
        """Sees that a response is what the home server replied, less the proxy's mark."""
        known = asked.home.log.get(asked.session)
        if known is None or octets[20:] not in known.replies:
            self.findings.fault(f"{self.name}: {asked.home.name} replied nothing of what {asked.session} was answered")
        elif asked.responses and not known.is_anew:
            self.findings.fault(f"{self.name}: {asked.session} was answered in two ways")
        elif known.attributes != asked.octets[20:]:
            self.findings.fault(f"{self.name}: {asked.session} is at {asked.home.name} with other attributes")
        elif asked.copies == 1:
            asked.home.in_order[0].append(asked.place)
            asked.home.in_order[1].append(known.number)

    def hear(self, octets, is_spoiled):
        """Takes a request as acknowledged, where a response came through the network unspoiled."""
        if is_spoiled:
            return
        asked = self.out.get(octets[1])
        if asked is None or octets not in asked.responses:
            return
        del self.out[octets[1]]
        self.earlier[octets[1]].append(asked)
        self.free.append(octets[1])
        if asked.session in asked.home.log:
            asked.home.log[asked.session].forget_texts()
        self.findings.counts["acknowledged"] += 1
