"""Makes the lines of ledgers, by Python's hashlib and json alone."""
import hashlib
import json

from tests.lib import packets
from tests.lib.packets import ACCT_SESSION_ID, ACCT_STATUS_TYPE, CLASS, USER_NAME, attribute, mark
from tests.lib.starting import TOP


class Lane:
    """A lane of a run: its number, the home server's name and secret, and how many responses and requests it had."""

    def __init__(self, number, home, secret, serial=0, record=None):
        self.number, self.home, self.secret, self.serial = number, home, secret, serial
        self.record, self.left = serial if record is None else record, 0


class Run:
    """A run: what names it, when it began, and its lanes."""

    def __init__(self, run, lanes, moment=0, version="0.1.0"):
        self.run, self.lanes, self.moment, self.version, self.file = run, lanes, moment, version, 0

    def head(self, kind):
        """The keys that each line begins with. A line is written 250 ms after the one before it."""
        self.moment += 250
        seconds, rest = divmod(self.moment, 1000)
        time = f"2026-01-31T{seconds // 3600:02}:{seconds // 60 % 60:02}:{seconds % 60:02}.{rest:03}Z"
        return {"type": kind, "run": f"{self.run:016x}", "time": time}

    def begin(self):
        lanes = [{"lane": lane.number, "home": lane.home, "serial": lane.serial} for lane in self.lanes]
        line = {**self.head("begin"), "version": self.version, "file": self.file, "lanes": lanes}
        self.file += 1
        return line

    def end(self):
        lanes = [{"lane": lane.number, "entries": lane.serial} for lane in self.lanes]
        return {**self.head("end"), "lanes": lanes}

    def end_of_all(self):
        """The end line with what became of each request that was accepted."""
        end = self.end()
        lanes = [{**counted, "accepted": lane.record, "left": lane.left} for counted, lane in zip(end["lanes"], self.lanes)]
        return {**end, "lanes": lanes}

    def left(self, place=0, state="queued", client=("192.0.2.10", b"nas-secret"), user=b"bob@example.org", session=b"S1", status=1, more=b""):
        """The next request of the lane at this place, which was left."""
        lane, (address, secret) = self.lanes[place], client
        attributes = (packets.user_name(user) if user else b"") + (attribute(ACCT_SESSION_ID, session) if session else b"")
        attributes += attribute(ACCT_STATUS_TYPE, status.to_bytes(4, "big")) if status is not None else b""
        identifier = lane.record * 7 % 256
        asked = packets.request(identifier, attributes + more, secret)
        line = {
            **self.head("left"),
            "home": lane.home,
            "lane": lane.number,
            "record": lane.record,
            "client": address,
            "port": 40000 + lane.record % 1000,
            "identifier": identifier,
            "authenticator": asked[4:20].hex(),
        }
        line.update(words_of(attributes + more))
        lane.record, lane.left = lane.record + 1, lane.left + 1
        return {**line, "state": state, "request": asked.hex()}

    def entry(self, place=0, client=("192.0.2.10", b"nas-secret"), user=b"bob@example.org", session=b"S1", status=1, more=b""):
        """The next response of the lane at this place."""
        lane, (address, secret) = self.lanes[place], client
        attributes = (packets.user_name(user) if user else b"") + (attribute(ACCT_SESSION_ID, session) if session else b"")
        attributes += attribute(ACCT_STATUS_TYPE, status.to_bytes(4, "big")) if status is not None else b""
        its_mark, identifier = mark(lane.number, lane.record), lane.record * 7 % 256
        asked = packets.request(identifier, attributes + more, secret)
        sent = packets.request(lane.record % 256, attributes + more + its_mark, lane.secret)
        passed_on = attribute(CLASS, b"CLS")
        reply = packets.answer(sent, sent[1], more + its_mark + passed_on, lane.secret)
        response = packets.answer(asked, identifier, more + passed_on, secret)
        line = {
            **self.head("entry"),
            "home": lane.home,
            "lane": lane.number,
            "serial": lane.serial,
            "record": lane.record,
            "client": address,
            "port": 40000 + lane.record % 1000,
            "identifier": identifier,
            "authenticator": asked[4:20].hex(),
        }
        line.update(words_of(attributes + more))
        lane.serial, lane.record = lane.serial + 1, lane.record + 1
        return {**line, "sent": sent.hex(), "reply": reply.hex(), "response": response.hex()}


def first(attributes, kind):
    """The value of the first attribute of a type, if there is one."""
    while attributes:
        if attributes[0] == kind:
            return attributes[2:attributes[1]]
        attributes = attributes[attributes[1]:]
    return None


def words_of(attributes):
    """What a line says of its packet: realm, session, status and user."""
    name, status = first(attributes, USER_NAME), first(attributes, ACCT_STATUS_TYPE)
    realm = name.rpartition(b"@")[2] if name is not None and b"@" in name else None
    number = {"status": int.from_bytes(status, "big")} if status is not None and len(status) == 4 else {}
    return {**worded("realm", realm), **worded("session", first(attributes, ACCT_SESSION_ID)), **number, **worded("user", name)}


def worded(key, octets):
    """A realm, a session or a user: under its key where it is UTF-8, and else as digits."""
    if octets is None:
        return {}
    try:
        return {key: octets.decode("utf-8")}
    except UnicodeDecodeError:
        return {f"{key}_octets": octets.hex()}


def text(lines):
    """Lines as they stand in a file: without spaces, with the shortest escapes, and with characters beyond ASCII as they are."""
    how = {"separators": (",", ":"), "ensure_ascii": False}
    return "".join(f"{line if isinstance(line, str) else json.dumps(line, **how)}\n" for line in lines)


def body(line):
    """A line without its sum and its last brace, as octets."""
    return text([{key: value for key, value in line.items() if key != "sum"}]).encode("utf-8", "surrogateescape")[:-2]


def sum_after(before, octets):
    """The sum of a line of this body behind a line of this sum."""
    return hashlib.sha256(before + hashlib.sha256(octets).digest()).digest()


def hidden(line, **keys):
    """What stands in the place of a line that is left out; its lane and its kind may be told."""
    return {"type": "hidden", **keys, "sum": line["sum"]}


def told_hidden(line):
    """The same with its lane and its kind."""
    return hidden(line, lane=line["lane"], kind=line["type"])


def sum_of(lines, before=bytes(32)):
    """The sum of the last one of these lines, or this one if there is none. What was cut short, which is a text here, has none."""
    sums = [line["sum"] for line in lines if isinstance(line, dict)]
    return bytes.fromhex(sums[-1]) if sums else before


def chained(lines, before=bytes(32)):
    """The lines of a run, each with its sum, the last of its keys; before the first one is this sum. One that stands for a line that is
    left out has its own."""
    made = []
    for line in lines:
        if isinstance(line, dict):
            if line["type"] != "hidden":
                line = {**{key: value for key, value in line.items() if key != "sum"}, "sum": sum_after(before, body(line)).hex()}
            before = bytes.fromhex(line["sum"])
        made.append(line)
    return made


def bare(lines):
    """Lines without their sums."""
    return [{key: value for key, value in line.items() if key != "sum"} if isinstance(line, dict) else line for line in lines]


EXAMPLE = TOP / "examples" / "one-home.jsonl"
CLIENT = "192.0.2.10", b"one long random text for this NAS"
SECRET = b"one long random text for this home server"


def example():
    """A run of one lane: a session that starts, goes on and stops, and one of octets that are no text."""
    run = Run(0x0123456789ABCDEF, [Lane(0, "billing", SECRET)])
    lines = [run.begin()]
    lines += [run.entry(client=CLIENT, session=b"4f2a", status=status) for status in (1, 3, 2)]
    lines += [run.entry(client=CLIENT, session=b"\xff\x00", user=b"bob", more=attribute(packets.PROXY_STATE, b"abc"))]
    return text(chained([*lines, run.end_of_all()]))
