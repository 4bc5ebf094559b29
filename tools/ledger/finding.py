"""What became of records: a paragraph for each, the oldest first."""
import tempfile
from array import array
from collections import Counter

from .evidence import answer_of
from .rows import NONE, Row, visible

# Acct-Status-Types (RFC 2866 section 5.1).
KINDS = {"1": "start", "2": "stop", "3": "interim update", "7": "accounting on", "8": "accounting off", NONE: "record without a status"}
# In which states a record may be left when the program ends.
STATES = {
    "queued": "it was never sent",
    "outstanding": "it was sent, and no answer came",
    "untaken": "the home server answered, and the client got no answer",
}


def kind_of(row):
    return KINDS.get(row.status, f"status {row.status}")


def state_of(row):
    if row.is_answered:
        return f"answer {row.serial} of the lane, handed over to be sent at {row.time}"
    return f"left {row.state} at {row.time}: {STATES.get(row.state, 'it was not answered')}"


def times(count):
    return f"{count} time{'' if str(count) == '1' else 's'}"


def record_of(row):
    """What names a record."""
    return row.run, row.lane, row.record


def names_of(row):
    """What names a record, and its response."""
    return {record_of(row)} | ({answer_of(row.run, row.lane, row.serial)} if row.is_answered else set())


def key_of(row):
    """What the same session and status is known by, in 64 bits."""
    return hash((row.client, row.session, row.status))


def came(number, count, first):
    """How often the same session and status came, and which of them this is. With the same user and volumes as an earlier one it is a
    repeat of that."""
    if count == 1:
        return "once"
    return f"{count} times, and this is number {number}{f', a repeat of {first}' if first else ''}"


class Numbered:
    """The records that have a session and status in common, the oldest first."""

    def __init__(self, counts):
        self.counts, self.seen, self.firsts = counts, Counter(), {}

    def number(self, row, place, key):
        """Which of them a record is, how many there are, and the first one with the same user and volumes, if that is another one."""
        if self.counts[key] == 1:
            return 1, 1, None
        self.seen[key] += 1
        first = self.firsts.setdefault((key, row.user, *row.volumes), place)
        return self.seen[key], self.counts[key], None if first == place else first


class Found:
    """The records that were found, in a file; in memory there are the moment, the place and the key of each, and where its line is."""

    def __init__(self):
        self.file, self.moments, self.places, self.keys = tempfile.TemporaryFile(), array("Q"), array("Q"), array("q")
        self.files, self.lines, self.told = array("L"), array("Q"), array("Q")

    def marks(self):
        """The file and the line of each that is told."""
        return zip(self.files, self.lines)

    def add(self, row, place, is_told):
        """Takes one in, which is told or only counted."""
        self.places.append(self.file.tell())
        self.told.append(len(self.files))
        if is_told:
            self.files.append(int(row.file.partition("/")[0]))
            self.lines.append(int(row.line))
        self.moments.append(int("".join(it for it in row.time if it.isdigit())))
        self.keys.append(key_of(row))
        self.file.write("\t".join((*row, place)).encode() + b"\n")

    def in_order(self):
        """Each record, its place, its key, and its number among those that are told, the oldest first; those of one moment as they stand."""
        order = range(len(self.moments))
        is_sorted = all(self.moments[at - 1] <= self.moments[at] for at in order[1:])
        self.file.seek(0)
        for at in order if is_sorted else sorted(order, key=self.moments.__getitem__):
            if not is_sorted:
                self.file.seek(self.places[at])
            *words, place = self.file.readline()[:-1].decode().split("\t")
            yield Row._make(words), place, self.keys[at], self.told[at]


def named(record):
    run, lane, number = record
    return f"record {number} of lane {lane}, run {run}"


def paragraph(row, place, told, said, beside):
    realm = "" if row.realm == NONE else f", realm {row.realm}"
    yield f"{kind_of(row)} of session {row.session}, user {row.user}{realm}"
    yield f"  came from {row.client} port {row.port} with Identifier {row.identifier}"
    yield f"  record {row.record} of lane {row.lane}, home server {row.home}, run {row.run}"
    if first := beside.first_of(record_of(row)):
        yield f"  an earlier run left it: its first acceptance is {named(first)}"
    yield f"  {state_of(row)}"
    if said.kept:
        yield "  the spool has it, and offers it to the next run"
    for record in beside.taken_over(record_of(row)):
        yield f"  a later run took it over: {named(record)}"
    if said.accepted is not None or said.sendings is not None:
        yield "  " + ", ".join([*([f"accepted at {said.accepted}"] if said.accepted else []), *([f"sent {times(said.sendings)}"] if said.sendings else [])])
    for kind, what in (("unsent", "the response could not be sent"), ("again", "the client repeated its request, and was sent the response again")):
        if beside.counts[record_of(row), kind]:
            yield f"  {what} {times(beside.counts[record_of(row), kind])}"
    if row.is_answered and (count := beside.counts[answer_of(row.run, row.lane, row.serial), "again"]):
        yield f"  later runs sent the response again {times(count)}"
    if said.delay is not None:
        yield f"  Acct-Delay-Time {said.delay}: the access server tried to send it for {said.delay} second{'' if said.delay == 1 else 's'}"
    if row.session != NONE:
        yield f"  this session and status came {told}"
    yield f"  octets in {row.input}, octets out {row.output}, seconds {row.seconds}"
    yield f"  evidence: {place}"
    yield ""


def find(audit, choice):
    """The lines of a search, and the verdict behind them."""
    found, counts, records = Found(), Counter(), set()
    for row in audit.rows(choice):
        counts[key_of(row)] += 1
        found.add(row, audit.place(row), choice.is_within(row))
        if choice.is_within(row):
            records |= names_of(row)
    verdict, numbered = audit.verdict(), Numbered(counts)
    said, beside = list(audit.said(found.marks())), audit.beside(records)
    for row, place, key, at in found.in_order():
        number = numbered.number(row, place, key)
        if choice.is_within(row):
            yield from map(visible, paragraph(row, place, came(*number), said[at], beside))
    yield f"{len(said)} record{'' if len(said) == 1 else 's'}{verdict.beside}"
    yield verdict
