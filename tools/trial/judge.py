"""Judges what a proxy did, by a capture of both its sides and the secrets."""
import hashlib
import time
from array import array
from collections import Counter, deque

from .datagrams import Reader, address
from .faults import FOUND, Fault, shown
from .frames import SECOND
from .radius import (DELAY_TIME, MESSAGE_AUTHENTICATOR, OPERATOR_NAME, PROXY_STATE, REQUEST, RESPONSE, SESSION_ID, STATUS, USER_NAME,
                     NoPacket, attributes_of, first_of, is_answer, is_signed, realm_of, whole)

# What proxies change: it is no part of a record. Of the User-Name only what stands before its last `@` is.
CHANGED = {PROXY_STATE, DELAY_TIME, MESSAGE_AUTHENTICATOR, OPERATOR_NAME}
# How long something is kept after it was last seen, and what was asked shortly before the end of the capture.
KEPT, AT_THE_END = 300 * SECOND, 10 * SECOND
CANDIDATES, RECENT, MOST_LOOKED_FOR = 8, 512, 10_000

EARLY, TWICE, OVERTAKEN = "answered before a home server", "twice at a home server", "overtaken"
WRONG, WRONG_HOME, NEVER = "wrong answer to a NAS", "wrong answer of a home server", "never answered"
WORDS = {
    NEVER: "requests that were never answered",
    EARLY: "answers to a NAS before a home server answered",
    WRONG: "answers to a NAS that answer another request (wrong Response Authenticator)",
    WRONG_HOME: "answers of a home server that answer another request (wrong Response Authenticator)",
    TWICE: "records at a home server under several Identifiers, Authenticators or ports, more than their NAS sent them under",
    OVERTAKEN: "records that a later record of their session overtook on the way to a home server",
}


class Kept:
    """What is kept until it was not seen for a while. `queued` is when it was seen as it was put into the queue."""

    __slots__ = ("seen", "queued")

    def __init__(self, seen):
        self.seen = self.queued = seen


class Record(Kept):
    """An accounting record, whatever requests carry it: its number in the order of the NASes, how many requests of NASes had it,
    how many requests to one home server, and to others, and when the first answer of a home server came."""

    __slots__ = ("key", "number", "session", "realm", "last", "asked", "place", "count", "others", "replied", "is_acknowledged")

    def __init__(self, key, seen, number):
        super().__init__(seen)
        self.key, self.number, self.session, self.realm, self.last = key, number, None, None, None
        self.asked, self.place, self.count, self.others, self.replied, self.is_acknowledged = 0, None, 0, None, None, False

    def arrives(self, place):
        """Counts a request to a home server, and gives how many that one had before."""
        if self.place in (None, place):
            self.place, self.count = place, self.count + 1
            return self.count - 1
        self.others = self.others or Counter()
        self.others[place] += 1
        return self.others[place] - 1

    def counts(self):
        """How many requests each home server had."""
        return [(self.place, self.count), *(self.others or {}).items()] if self.place else []

    def came_to(self):
        """How far it came, where a request with it was not answered."""
        if self.is_acknowledged:
            return "its record was answered under another Identifier or Authenticator"
        return "answered by a home server" if self.replied else "not answered by a home server" if self.place else "at no home server"

    def __str__(self):
        """What names it: the last request of a NAS that had it."""
        return self.named(self.last) if self.last else "a record of no NAS"

    def named(self, key):
        """The same of the request of a NAS with this key."""
        source, port, identifier = key
        words = [f"client {address(source)} port {port} identifier {identifier}"]
        words += [f"session {shown(self.session[1])}"] if self.session else []
        return " ".join(words + ([f"realm {shown(self.realm)}"] if self.realm is not None else []))


class Asked(Kept):
    """A request, at a NAS or on the way to a home server: what it came under, when it was sent first, and whether it was answered.
    One without a record is a Status-Server. At a NAS the key is an address, a port and an Identifier; on the way to a home server
    it begins with that one's place."""

    __slots__ = ("side", "key", "authenticator", "record", "first", "is_answered")

    def __init__(self, side, key, authenticator, record, first):
        super().__init__(first)
        self.side, self.key, self.authenticator, self.record, self.first, self.is_answered = side, key, authenticator, record, first, False

    def __str__(self):
        return self.record.named(self.key) if self.record and len(self.key) == 3 else str(self.record or "a Status-Server")


class Side:
    """The requests of one side, by where they came from and their Identifiers, the latest last."""

    def __init__(self):
        self.asked, self.recent, self.times = {}, {}, array("d")

    def find(self, key, authenticator):
        return next((it for it in self.asked.get(key, ()) if it.authenticator == authenticator), None)

    def add(self, asked):
        known = self.asked.setdefault(asked.key, [])
        known.append(asked)
        del known[:-CANDIDATES]
        self.recent.setdefault(asked.key[0], deque(maxlen=RECENT)).append(asked)

    def forget(self, asked):
        known = self.asked.get(asked.key, ())
        if asked in known:
            known.remove(asked)
        if not known:
            self.asked.pop(asked.key, None)

    def answered_by(self, key, packet, secret):
        """Which request a packet answers; nothing if it is none of those under its Identifier."""
        return next((it for it in reversed(self.asked.get(key, ())) if is_answer(packet, it.authenticator, secret)), None)

    def other(self, key, packet, secret):
        """Which other request of the same sender it answers."""
        return next((it for it in reversed(self.recent.get(key[0], ())) if is_answer(packet, it.authenticator, secret)), None)


def moment(nanoseconds):
    return time.strftime("%H:%M:%S", time.gmtime(nanoseconds // SECOND)) + f".{nanoseconds % SECOND // 1_000_000:03}"


def percentile(times, part):
    return f"{1000 * times[min(len(times) - 1, int(len(times) * part))]:.1f} ms"


class Judge:
    """Reads datagrams in the order of their times."""

    def __init__(self, settings, paths, proxy, ignored, show):
        self.settings, self.proxy, self.show = settings, proxy or settings.listen, show
        self.ignored, self.counts, self.found = CHANGED | ignored, Counter(), {kind: [] for kind in WORDS}
        self.nases, self.sent, self.transit = Side(), Side(), array("d")
        self.records, self.sessions, self.queue, self.numbers = {}, {}, deque(), 0
        self.homes = {}
        for home in settings.homes:
            self.homes.setdefault((home.address, home.port), []).append(home)
        self.reader = Reader(paths, self.is_wanted)

    def is_wanted(self, it):
        port = self.proxy[1]
        return (it.target_port == port or it.source_port == port or (it.target, it.target_port) in self.homes
                or (it.source, it.source_port) in self.homes)

    def is_proxy(self, host, port):
        return port == self.proxy[1] and self.proxy[0] in (bytes(4), host)

    def read(self):
        for it in self.reader.datagrams():
            self.take(it)
            self.forget(it.time - KEPT)
        self.forget(None)

    def take(self, it):
        """A datagram, by the side that it is on."""
        to_home, from_home = (it.target, it.target_port), (it.source, it.source_port)
        try:
            attributes = attributes_of(it.octets)
        except NoPacket:
            self.counts["datagrams that are no RADIUS packet"] += 1
            return
        code, packet = it.octets[0], whole(it.octets)
        if to_home in self.homes and code in (REQUEST, STATUS):
            self.to_home(it, packet, attributes, to_home)
        elif from_home in self.homes and code == RESPONSE:
            self.from_home(it, packet, from_home)
        elif self.is_proxy(it.target, it.target_port) and code in (REQUEST, STATUS):
            self.from_nas(it, packet, attributes)
        elif self.is_proxy(it.source, it.source_port) and code == RESPONSE:
            self.to_nas(it, packet)
        else:
            self.counts["packets of another Code or direction"] += 1

    def tell(self, kind, when, text):
        """Something that was found."""
        self.counts[kind] += 1
        if len(self.found[kind]) < self.show:
            self.found[kind].append(f"{moment(when)} {text}")

    def record_of(self, attributes, when):
        """The record that these attributes are."""
        kept = sorted((kind, value.rpartition(b"@")[0] or value if kind == USER_NAME else value)
                      for kind, value in attributes if kind not in self.ignored)
        key = hashlib.blake2b(b"".join(bytes([kind, len(value)]) + value for kind, value in kept), digest_size=12).digest()
        record = self.records.get(key)
        if record is None:
            record = self.records[key] = Record(key, when, self.next_number())
            self.queue.append(record)
        record.seen = when
        return record

    def next_number(self):
        self.numbers += 1
        return self.numbers

    def ask(self, side, key, it, packet, record):
        """A request. Says whether it is new."""
        authenticator = packet[4:20]
        asked = side.find(key, authenticator)
        if asked:
            asked.seen = it.time
            return False
        asked = Asked(side, key, authenticator, record, it.time)
        side.add(asked)
        self.queue.append(asked)
        return True

    def from_nas(self, it, packet, attributes):
        key, secret = (it.source, it.source_port, packet[1]), self.settings.clients.get(it.source)
        if secret is None:
            self.counts["requests of senders that are no client"] += 1
            return
        if packet[0] == STATUS:
            self.counts["Status-Servers of NASes"] += 1
            self.ask(self.nases, key, it, packet, None)
            return
        if not is_signed(packet, secret):
            self.counts["requests with a wrong Request Authenticator under the client's secret"] += 1
            return
        record = self.record_of(attributes, it.time)
        if not self.ask(self.nases, key, it, packet, record):
            self.counts["again"] += 1
            return
        self.counts["requests"] += 1
        record.asked += 1
        record.last, record.realm = key, realm_of(attributes)
        session = first_of(attributes, SESSION_ID)
        if session is not None and record.session is None:
            record.session, record.number = (it.source, session), self.next_number()

    def to_nas(self, it, packet):
        key, secret = (it.target, it.target_port, packet[1]), self.settings.clients.get(it.target)
        if secret is None:
            self.counts["answers to hosts that are no client"] += 1
            return
        asked = self.nases.answered_by(key, packet, secret)
        if asked is None:
            self.misses(self.nases, key, it, packet, secret, WRONG, f"client {address(it.target)} port {it.target_port}")
            return
        self.counts["answers to NASes"] += 1
        record = asked.record
        if record is None:
            return
        if record.replied is None:
            self.tell(EARLY, it.time, f"{record}" + ("" if record.place else "; it was sent to no home server before"))
        elif not asked.is_answered:
            self.transit.append((it.time - record.replied) / SECOND)
        if not asked.is_answered:
            self.nases.times.append((it.time - asked.first) / SECOND)
        asked.is_answered = record.is_acknowledged = True

    def misses(self, side, key, it, packet, secret, kind, who):
        """An answer that answers no request under its Identifier."""
        if key not in side.asked:
            self.counts["answers whose request the capture has not"] += 1
            return
        other = self.counts[kind] < MOST_LOOKED_FOR and side.other(key, packet, secret)
        text = f"{who} identifier {packet[1]}"
        if other:
            text += f"; it answers the request of {moment(other.first)}: {other}"
        self.tell(kind, it.time, text)

    def to_home(self, it, packet, attributes, place):
        homes = self.homes[place]
        key = place, it.source, it.source_port, packet[1]
        if packet[0] == STATUS:
            self.ask(self.sent, key, it, packet, None)
            return
        if not any(is_signed(packet, home.secret) for home in homes):
            self.counts["requests to a home server with a wrong Request Authenticator under its secret"] += 1
            return
        record = self.record_of(attributes, it.time)
        if not self.ask(self.sent, key, it, packet, record):
            self.counts["again at home servers"] += 1
            return
        self.counts["requests to home servers"] += 1
        if not record.asked:
            self.counts["requests to a home server whose record no NAS sent in the capture"] += 1
        if not record.arrives(place) and record.session:
            self.passes(it, record, place, homes[0].name)

    def passes(self, it, record, place, name):
        """A record of a session at a home server, for the first time."""
        session = place, record.session
        latest = self.sessions.get(session)
        if latest and record.number < latest.number:
            self.tell(OVERTAKEN, it.time, f"home {name}: {record}")
        else:
            self.sessions[session] = record

    def from_home(self, it, packet, place):
        key = place, it.target, it.target_port, packet[1]
        for home in self.homes[place]:
            asked = self.sent.answered_by(key, packet, home.secret)
            if asked:
                break
        else:
            self.misses(self.sent, key, it, packet, self.homes[place][0].secret, WRONG_HOME, f"home {self.homes[place][0].name}")
            return
        if asked.record is None:
            return
        self.counts["answers of home servers"] += 1
        if not asked.is_answered:
            self.sent.times.append((it.time - asked.first) / SECOND)
        asked.is_answered = True
        if asked.record.replied is None:
            asked.record.replied = it.time

    def forget(self, before):
        """Judges what was last seen before a moment, and forgets it. None: all."""
        queue = self.queue
        while queue and (before is None or queue[0].queued < before):
            it = queue.popleft()
            if before is not None and it.seen >= before:
                it.queued = it.seen
                queue.append(it)
            elif isinstance(it, Asked):
                it.side.forget(it)
                if it.side is self.nases and it.record and not it.is_answered:
                    self.judge_unanswered(it)
            else:
                self.forget_record(it)

    def judge_unanswered(self, asked):
        """A request that no answer came to."""
        record = asked.record
        if asked.seen > self.reader.last - AT_THE_END:
            self.counts["open"] += 1
            return
        self.tell(NEVER, asked.first, f"{asked}; {record.came_to()}")

    def forget_record(self, record):
        """A record of which no more is expected."""
        del self.records[record.key]
        for place, count in record.counts():
            session = place, record.session
            if self.sessions.get(session) is record:
                del self.sessions[session]
            if count > 1:
                self.counts["several"] += 1
                self.counts["several times"] += count
            if count > max(record.asked, 1):
                name = self.homes[place][0].name
                self.tell(TWICE, record.seen, f"home {name}: {count} times, from its NAS {record.asked}: {record}")


def findings(judge):
    """What was found of each kind, with examples."""
    for kind, words in WORDS.items():
        count = judge.counts[kind]
        yield f"{count} {words}"
        yield from (f"    {line}" for line in judge.found[kind])
        if count > len(judge.found[kind]) > 0:
            yield f"    and {count - len(judge.found[kind])} more"
        if kind == NEVER:
            yield f"    besides, {judge.counts['open']} were last sent in the last {AT_THE_END // SECOND} s of the capture"
        if kind == TWICE:
            yield f"    in all {judge.counts['several']} records were there under several, {judge.counts['several times']} times"


def times_of(judge):
    for words, times in (("answer to a NAS", judge.nases.times), ("answer of a home server", judge.sent.times),
                         ("from a home server's answer to that to the NAS", judge.transit)):
        kept = sorted(times)
        yield f"time {words}: " + (f"p50 {percentile(kept, 0.5)} p99 {percentile(kept, 0.99)} of {len(kept)}" if kept else "none")


CANNOT = (
    "A capture has no datagram that it lost, and nothing from before its begin: then an answer may seem too early, a request",
    "unanswered, or a record overtaken. Of two records with the same attributes it does not show which one an answer is for.",
)


def report(judge):
    counts = judge.counts
    yield (f"{counts['requests']} requests of NASes and {counts['again']} retransmissions, {counts['answers to NASes']} answers; "
           f"{counts['requests to home servers']} requests to home servers and {counts['again at home servers']} retransmissions, "
           f"{counts['answers of home servers']} answers")
    yield from judge.reader.notes()
    known = {"requests", "again", "answers to NASes", "requests to home servers", "again at home servers", "answers of home servers",
             "open", "several", "several times", *WORDS}
    yield from (f"{count} {words}" for words, count in sorted(counts.items()) if words not in known)
    if not counts["requests to home servers"]:
        yield "no request to a home server of the configuration: the capture has not both sides, or the secrets or addresses differ"
    elif counts["requests to a home server whose record no NAS sent in the capture"]:
        yield "the proxy changes attributes, or the capture lost requests: --ignore TYPE,.. leaves attributes out of what a record is"
    yield ""
    yield from findings(judge)
    yield ""
    yield from times_of(judge)
    yield from CANNOT


def judge(words):
    """Judges captures. Gives the lines of the report, and the status."""
    from .settings import read_settings

    made = Judge(read_settings(words.config), words.captures, words.proxy, words.ignore, max(words.show, 0))
    made.read()
    if made.reader.first is None:
        raise Fault("no datagram of a proxy or a home server of the configuration in the captures")
    yield from report(made)
    if any(made.counts[kind] for kind in WORDS):
        yield FOUND
