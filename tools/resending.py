"""Requests that rad_proxy left, as a ledger has them, and the attributes of each as radclient reads them."""
import hashlib
import json
import re
import socket
from dataclasses import dataclass
from datetime import datetime, timezone

from trial import radius
from trial.faults import USAGE, Fault, shown_path, told_by
from trial.settings import ADDRESS

MOST_OF_A_LINE = 65_536
DELAY_TIME, VENDOR_SPECIFIC = radius.DELAY_TIME, 26
QUEUED, OUTSTANDING, UNTAKEN = "queued", "outstanding", "untaken"
# From that of which the home server surely has nothing to that of which it surely has the record.
STATES = [QUEUED, OUTSTANDING, UNTAKEN]
# The types whose values radclient writes otherwise than they are given: it encrypts them, or makes them itself.
ENCRYPTED = {2, 3, 69, 80, 214, 215}
MOST_OF_NAS_FILTER_RULE = 252
MOST_DELAY = 2**32 - 1
HOME_NAME = re.compile(r"[A-Za-z0-9._-]{1,64}", re.ASCII)
TIME = re.compile(r"(\d{4}-\d\d-\d\dT\d\d:\d\d:\d\d)(\.\d+)?Z", re.ASCII)


class NoLine(Exception):
    """A line of the type `left` that is none."""


class NotCarried(Exception):
    """An attribute that radclient would not send as it is."""


def moment_of(text):
    """The seconds since 1970 of a time of a ledger."""
    found = TIME.fullmatch(text)
    if not found:
        raise ValueError(text)
    whole = datetime.strptime(found[1], "%Y-%m-%dT%H:%M:%S").replace(tzinfo=timezone.utc)
    return whole.timestamp() + float(found[2] or 0)


@dataclass(frozen=True)
class Left:
    """A request that was left: its place in its lane, its state, its packet as it came, the moment from which it is late, and whether a spool
    has it."""

    home: str
    record: int
    state: str
    client: str
    request: bytes
    since: float
    place: str
    kept: bool = False

    @classmethod
    def read(cls, line, place):
        """What an object of JSON has, which is of the type `left`."""
        try:
            home, record, state, client = (line[key] for key in ("home", "record", "state", "client"))
            request, since = bytes.fromhex(line["request"]), moment_of(line.get("accepted", line["time"]))
            kept = "kept" in line
            if not HOME_NAME.fullmatch(home) or not ADDRESS.fullmatch(client) or type(record) is not int or state not in STATES or kept and line["kept"] is not True:
                raise ValueError
            radius.attributes_of(request)
        except (KeyError, TypeError, ValueError, radius.NoPacket):
            raise NoLine from None
        return cls(home, record, state, client, radius.whole(request), since, place, kept)

    def attributes(self):
        return radius.attributes_of(self.request)

    def print_of(self):
        return print_of(self.client, self.attributes())

    def delayed(self, now):
        """The attributes, with Acct-Delay-Time as it is at a moment: the value that came, and the seconds since then (RFC 2866 section 5.2)."""
        late, found, made = max(int(now - self.since), 0), False, []
        for kind, value in self.attributes():
            if kind == DELAY_TIME and len(value) == 4 and not found:
                found, value = True, min(int.from_bytes(value, "big") + late, MOST_DELAY).to_bytes(4, "big")
            made.append((kind, value))
        return made if found else [*made, (DELAY_TIME, late.to_bytes(4, "big"))]


def print_of(client, attributes):
    """What a record is known by, however often its NAS sends it: its client and all attributes but Acct-Delay-Time, in order."""
    kept = "".join(f"{kind:02x}{len(value):02x}{value.hex()}" for kind, value in attributes if kind != DELAY_TIME)
    return hashlib.sha256(f"{client} {kept}".encode()).digest()


def checked(kind, value):
    """Fails for an attribute that radclient would not send as it is."""
    if not value or kind in ENCRYPTED or kind == 92 and len(value) > MOST_OF_NAS_FILTER_RULE or kind == VENDOR_SPECIFIC and not any(value[:4]):
        raise NotCarried(kind)


def as_radclient(attributes):
    """The lines of a packet. A type by its number, and octets by their digits, hold without any dictionary."""
    for kind, value in attributes:
        checked(kind, value)
    return "".join(f"Attr-{kind} = 0x{value.hex()}\n" for kind, value in attributes)


def home_of(name, found, settings, config):
    """The home server whose requests are printed, as the configuration has it: the one of this name, or the only one that has some."""
    names = sorted({left.home for left in found})
    if name is None and len(names) > 1:
        raise Fault(f"home servers with requests that were left: {', '.join(names)}: choose one by --home", USAGE)
    name = names[0] if name is None else name
    home = next((home for home in settings.homes if home.name == name), None)
    if home is None:
        raise Fault(f"{config} has no home server {name}", USAGE)
    return home


def texts_of(found, settings, now, source, tell):
    """The text of each request, with what is left out told. Without a moment Acct-Delay-Time stays as it came."""
    for left in found:
        secret = settings.clients.get(socket.inet_aton(left.client))
        if secret is None or not radius.is_signed(left.request, secret):
            tell(f"{left.place}: left out: it is no request under the secret of its client {left.client}")
            continue
        try:
            text = as_radclient(left.attributes() if now is None else left.delayed(now))
        except NotCarried as it:
            tell(f"{left.place}: left out: radclient does not send an attribute of type {it} as it came")
            continue
        address = f"Packet-Src-IP-Address = {source}\n" if source else ""
        yield f"# {left.home} {left.record} {left.state}\n{address}{text}"


def way_to(home):
    """How radclient sends the texts to a home server."""
    return f"send them: radclient -f FILE -S SECRETFILE {socket.inet_ntoa(home.address)}:{home.port} acct"


def lines_of(file):
    """The lines of a file. Of one that is too long the front is enough."""
    while line := file.readline(MOST_OF_A_LINE + 2):
        rest = line
        while len(rest) == MOST_OF_A_LINE + 2 and not rest.endswith(b"\n"):
            rest = file.readline(MOST_OF_A_LINE + 2)
        yield line


class Ledger:
    """What files of a ledger have that matters here: the records that were left, and those that were answered.

    A record that was left more than once, since its NAS or a spool gave it to a later run too, is in the last of its states. A spool has it
    where it had it once: it offers it to each run until that has answered it.
    """

    def __init__(self, paths):
        self.left, self.kept, self.answered, self.told = {}, set(), set(), []
        for path in paths:
            try:
                with open(path, "rb") as file:
                    self.read(file, shown_path(path))
            except OSError as error:
                raise Fault(f"{shown_path(path)}: {told_by(error)}") from None

    def read(self, file, name):
        for at, line in enumerate(lines_of(file), 1):
            self.take(line, f"{name}:{at}")

    def take(self, line, place):
        """A line of a run that was killed may be torn: it is left to rad_audit to say what is wrong."""
        if len(line) > MOST_OF_A_LINE + 1:
            self.told.append(f"{place}: a line of more than {MOST_OF_A_LINE} octets")
            return
        try:
            found = json.loads(line)
            kind = found["type"]
        except (ValueError, TypeError, KeyError, RecursionError):
            self.told.append(f"{place}: it is not a line of a ledger")
            return
        try:
            if kind == "left":
                left = Left.read(found, place)
                key = left.print_of()
                before = self.left.setdefault(key, left)
                if STATES.index(before.state) < STATES.index(left.state):
                    self.left[key] = left
                if left.kept:
                    self.kept.add(key)
            elif kind == "entry":
                self.answered.add(print_of(found["client"], radius.attributes_of(bytes.fromhex(found["sent"]))[:-1]))
        except (NoLine, KeyError, TypeError, ValueError, radius.NoPacket):
            self.told.append(f"{place}: it is not a line of a ledger")

    def of(self, home):
        """The records that were left and not answered since, of a home server or of all, and how many were answered."""
        found = {key: left for key, left in self.left.items() if home in (None, left.home)}
        return [left for key, left in found.items() if key not in self.answered], len(found.keys() & self.answered)

    def is_kept(self, left):
        """Whether a spool has this record."""
        return left.print_of() in self.kept
