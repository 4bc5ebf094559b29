"""What the lines of a ledger say besides the rows of rad_audit: the Acct-Delay-Time of their packets (RFC 2866 section 5.2), when a request
was accepted, how often it was sent and whether a spool has it; what became of a response, and which requests a run took over."""
import json
import re
from array import array
from collections import Counter
from typing import NamedTuple

from trial.faults import Fault

from .sources import lines_in

PACKET = re.compile(rb'"(?:sent|request)"\s*:\s*"([0-9a-fA-F]*)"')
ACCEPTED, SENDINGS = re.compile(rb'"accepted"\s*:\s*"([0-9TZ:.-]+)"'), re.compile(rb'"sendings"\s*:\s*(\d+)')
KEPT = re.compile(rb'"kept"\s*:\s*true')
BESIDE = re.compile(rb'"type"\s*:\s*"(unsent|again|resumed)"')
ACCT_DELAY_TIME, HEADER, OCTETS = 41, 20, 4


class Said(NamedTuple):
    """What a line says of its record: each is None where it does not; `kept` is 1 where the line says so."""

    delay: int | None = None
    accepted: str | None = None
    sendings: str | None = None
    kept: int | None = None


def said_in(line):
    """What a line says."""
    accepted, sendings, kept = ACCEPTED.search(line), SENDINGS.search(line), 1 if KEPT.search(line) else None
    return Said(delay_in(line), accepted and accepted[1].decode(), sendings and sendings[1].decode(), kept)


def delay_in(line):
    """The seconds in the Acct-Delay-Time of the packet of a line, by the first one, as it is with the other attributes; None without one."""
    found = PACKET.search(line)
    octets, at = bytes.fromhex(found[1].decode()) if found else b"", HEADER
    while at + 2 <= len(octets) and octets[at + 1] >= 2:
        if octets[at] == ACCT_DELAY_TIME:
            value = octets[at + 2 : at + octets[at + 1]]
            return int.from_bytes(value, "big") if len(value) == OCTETS else None
        at += octets[at + 1]
    return None


def said_of(sources, places):
    """What the line at each of these places says, the number of a file and that of a line, in the order of the files. Of what can't be read a
    second time, as standard input, nothing is known."""
    by_file = {}
    for file, line in places:
        by_file.setdefault(file, array("Q")).append(line)
    for number, wanted in sorted(by_file.items()):
        source = sources[number]
        if source.can_be_read_again:
            yield from said_by(source, wanted)
        else:
            yield from (Said() for _ in wanted)


def said_by(source, wanted):
    """What the lines of a file with these numbers say, which ascend."""
    lines, given = enumerate(lines_in(source.octets(lambda _: None)), 1), 0
    try:
        while given < len(wanted):
            line = next((octets for number, octets in lines if number == wanted[given]), b"")
            yield said_in(line)
            given += 1
    except Fault:
        yield from (Said() for _ in wanted[given:])


def answer_of(run, lane, serial):
    """What names a response, where no record does."""
    return run, lane, f"answer {serial}"


class LinesBeside:
    """What lines say of these records, each a run, a lane and a number, and of responses; without records, of all."""

    def __init__(self, records=None):
        # How often the response of a record could not be sent, and was sent again; and which a run took over, with its first acceptance.
        self.records, self.counts, self.firsts = records, Counter(), {}

    def read(self, sources):
        for source in sources:
            if self.records == set() or not source.can_be_read_again:
                continue
            try:
                for line in lines_in(source.octets(lambda _: None)):
                    if BESIDE.search(line[:64]):
                        self.take(line)
            except Fault:
                pass
        return self

    def take(self, line):
        try:
            its = json.loads(line)
            record = its["run"].lower(), str(its["lane"]), str(its.get("record"))
            if its["type"] == "resumed":
                first = its["first_run"].lower(), str(its["first_lane"]), str(its["first_record"])
                if self.is_asked(record) or self.is_asked(first):
                    self.firsts[record] = first
                return
            if "answer_run" in its:
                record = answer_of(its["answer_run"].lower(), str(its["answer_lane"]), its["answer_serial"])
            if self.is_asked(record):
                self.counts[record, its["type"]] += its["count"]
        except (ValueError, KeyError, TypeError, AttributeError):
            pass

    def is_asked(self, record):
        return self.records is None or record in self.records

    def first_of(self, record):
        """The first acceptance of a record that an earlier run left; None of another one."""
        return self.firsts.get(record)

    def taken_over(self, record):
        """As which records later runs took one over, in the order of the files."""
        takers = [it for it, first in self.firsts.items() if first == self.firsts.get(record, record)]
        return takers[takers.index(record) + 1 :] if record in takers else takers
