"""FreeRADIUS' detail files: a record is a line with its time, then a line for each attribute, and an empty line."""
import re
import time
from dataclasses import dataclass, field

from trial.faults import Fault, printable

from .rows import NONE, cell

ATTRIBUTE = re.compile(rb"\t([A-Za-z0-9._:-]+) (?:=|\+=|:=) (.*)")
ESCAPE = re.compile(rb"\\([0-7]{3}|.)", re.DOTALL)
LETTERS = {b"n": b"\n", b"r": b"\r", b"t": b"\t"}
PROXY_STATE, STATUS, SESSION, TIMESTAMP = b"Proxy-State", b"Acct-Status-Type", b"Acct-Session-Id", b"Timestamp"
USER = b"User-Name"
KINDS = {b"Start": "1", b"Stop": "2", b"Interim-Update": "3", b"Alive": "3", b"Accounting-On": "7", b"Accounting-Off": "8"}
MOST_LINE, HEAD = 65_536, "%a %b %d %H:%M:%S %Y"


@dataclass
class Detail:
    """A record of a detail file: where it begins, and its attributes."""

    place: str
    head: bytes
    attributes: dict = field(default_factory=dict)

    def mark(self):
        """The lane and the number in the last Proxy-State, if it has the form of the proxy's own: ten octets."""
        octets = octets_of(self.attributes.get(PROXY_STATE, b""))
        return (int.from_bytes(octets[:2], "big"), int.from_bytes(octets[2:], "big")) if len(octets) == 10 else None

    @property
    def session(self):
        return self.cell_of(SESSION)

    @property
    def user(self):
        return self.cell_of(USER)

    @property
    def realm(self):
        """What follows the last `@` of the user's name."""
        _, at, realm = octets_of(self.attributes.get(USER, b"")).rpartition(b"@")
        return cell(realm) if at else NONE

    def cell_of(self, name):
        text = self.attributes.get(name)
        return NONE if text is None else cell(octets_of(text))

    @property
    def status(self):
        """The number of the Acct-Status-Type; None for a name that is not known here."""
        text = self.attributes.get(STATUS)
        if text is None:
            return NONE
        return text.decode() if text.isdigit() else KINDS.get(text)

    @property
    def moment(self):
        """Seconds since 1970, by its Timestamp, or by its first line, whose time is local."""
        text = self.attributes.get(TIMESTAMP, b"")
        if text.isdigit() and len(text) < 16:
            return int(text)
        try:
            return time.mktime(time.strptime(self.head.decode(), HEAD))
        except (ValueError, OverflowError):
            return None


    @property
    def time(self):
        """The same as a line of a ledger has it."""
        try:
            return None if self.moment is None else time.strftime("%Y-%m-%dT%H:%M:%S.000Z", time.gmtime(self.moment))
        except (ValueError, OverflowError):
            return None


def octets_of(text):
    """The octets of a value: digits behind `0x`, or a text in quotes."""
    if text.startswith(b"0x"):
        try:
            return bytes.fromhex(text[2:].decode("ascii"))
        except ValueError:
            return text
    if len(text) >= 2 and text[:1] == text[-1:] and text[:1] in b"\"'":
        return ESCAPE.sub(unescaped, text[1:-1])
    return text


def unescaped(found):
    word = found[1]
    return bytes([int(word, 8) & 0xFF]) if len(word) == 3 else LETTERS.get(word, word)


def lines_of(source):
    """The lines of a file, without their line ends, and whether each has one."""
    rest = b""
    for octets in source.octets(lambda _: None):
        *lines, rest = (rest + octets).split(b"\n")
        yield from ((line, True) for line in lines)
        if len(rest) > MOST_LINE:
            raise Fault(f"file: {source}: a line of more than {MOST_LINE} octets")
    if rest:
        yield rest, False


def details(source, tell):
    """The records of a file. One that was cut short is told and left out."""
    record = None
    for number, (line, is_ended) in enumerate(lines_of(source), 1):
        found = ATTRIBUTE.fullmatch(line) if is_ended else None
        if not line:
            if record:
                yield record
            record = None
        elif not line.startswith(b"\t") and record is None:
            record = Detail(f"{source}:{number}", line)
        elif found and record:
            record.attributes[found[1]] = found[2]
        elif is_ended:
            raise Fault(f"file: {source}:{number}: no line of a detail file: {printable(line[:40].decode('utf-8', 'replace'))}")
    if record:
        tell(f"{record.place}: the record was cut short, and is left out")
