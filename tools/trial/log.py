"""Counts what the program logs at its most detailed level, in a process of its own."""
from collections import Counter, deque

NONE = "-"


def words_of(line):
    """The keys and values of a line of the log. A reason is in quotes and stands last."""
    front, _, reason = line.partition(b' reason="')
    words = dict(word.split("=", 1) for word in front.decode("ascii", "replace").split(" ") if "=" in word)
    return words | ({"reason": reason.decode("utf-8", "replace").partition('"')[0]} if reason else {})


class Log:
    """What became of the datagrams of each client and realm. The front handles one datagram after the other, so a line about
    what became of one follows that of its coming. A request of which no line follows is a repeat."""

    def __init__(self):
        self.counts, self.why, self.missing = {}, {}, 0
        self.pending, self.last = None, deque(maxlen=5)

    def count(self, key, what, reason=None):
        self.counts.setdefault(key, Counter())[what] += 1
        if reason:
            self.why.setdefault(key, Counter())[reason.split()[0]] += 1

    def read(self, lines):
        """Counts all lines."""
        for line in lines:
            line = line.rstrip(b"\n")
            if line.startswith(b"level=trace "):
                self.packet(line)
            elif line.startswith(b"level=debug "):
                self.fate(line)
            else:
                self.other(line)
        self.settle()

    def packet(self, line):
        if line.startswith(b"level=trace event=came worker=front "):
            self.settle()
            words = words_of(line)
            key = words["address"], words.get("realm", NONE).lower()
            self.count(key, "came")
            self.pending = key, words.get("code")
        elif line.startswith(b"level=trace event=accepted ") and self.pending:
            self.count(self.pending[0], "accepted")
            self.pending = None

    def fate(self, line):
        """A datagram that was dropped or refused."""
        event = line[18:25]
        if event in (b"dropped", b"refused"):
            words = words_of(line)
            self.count((words.get("client", NONE), words.get("realm", NONE).lower()), event.decode(), words.get("reason", NONE))
            self.pending = None

    def settle(self):
        """The datagram before was not accepted, dropped or refused: it is a Status-Server or a repeat."""
        if self.pending:
            key, code = self.pending
            self.count(key, "status" if code == "12" else "repeated")
            self.pending = None

    def other(self, line):
        if b" event=lines-dropped " in line:
            self.missing += int(words_of(line)["count"])
            self.pending = None
        self.last.append(line.decode("utf-8", "replace"))


def hear(lines, connection):
    """Counts all lines, and hands on what came out."""
    log = Log()
    log.read(lines)
    connection.send(log)
