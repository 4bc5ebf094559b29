"""The segments of a spool, as docs/formats.md has them: what is open in them, what is wrong with them, and a new one that gives requests up.

A run may write to the folder meanwhile. It removes a segment once what is open in it stands in the newest one too. So the oldest is read
first, and all is read again where one is gone before it was read.
"""
import os
import re
import socket
import stat
import struct
import time
import zlib
from dataclasses import dataclass

from trial.faults import Fault

VERSION = 1
# The run of a segment that no run of the program wrote.
NO_RUN = 0
MOST_OCTETS, LAST_NUMBER = 16_777_216, 2**64 - 1
NAME = re.compile(r"([0-9a-f]{16})\.spool", re.ASCII)
# The name of a file that was damaged, and is no segment any more.
ASIDE = re.compile(NAME.pattern + r"\.damaged", re.ASCII)
CLOSED, OPEN = b"\0", b"\1"
# Behind a gate: the length of a batch, and its CRC-32.
FRAME = struct.Struct(">II")
BESIDE = len(OPEN) + FRAME.size
KEY, KEY_OCTETS = struct.Struct(">16s4sHB"), 23
BEGUN, CAME, ANSWERED, GIVEN_UP = 1, 2, 3, 4
FIELDS = {BEGUN: struct.Struct(">HQQ"), CAME: struct.Struct(">23s4sHQQHQQ"), ANSWERED: struct.Struct(">23sQHQQ"),
          GIVEN_UP: struct.Struct(">23sQ")}
# Where a request has its place among those of all runs.
ARRIVAL = slice(29, 37)
# How many octets the text behind the fields has at least and at most, and how many octets tell its length.
TEXTS, LENGTH = {BEGUN: (0, 0), CAME: (20, 4096), ANSWERED: (20, 4096), GIVEN_UP: (0, 255)}, 2
WRONG_SUM, NOT_ENTRIES, CUT_SHORT = "wrong sum", "not entries", "cut short"
NO_BEGINNING, LATER = "no beginning", "later version"
# How often a folder is read whose segments go meanwhile, and after how many seconds the newest is read again that seems to be damaged.
TRIES, AGAIN_SECONDS = 10, 0.2


@dataclass(frozen=True)
class Request:
    """A request that is open: its key, its place among the requests of all runs, when it came in, in seconds since 1970, and its octets."""

    key: bytes
    arrival: int
    since: float
    octets: bytes

    @classmethod
    def of(cls, entry):
        """The request of an entry, less its kind."""
        fields = FIELDS[CAME]
        key, _, _, arrival, _, _, _, moment = fields.unpack_from(entry)
        return cls(key, arrival, moment / 1000, entry[fields.size + LENGTH:])

    @property
    def address(self):
        """The address of its client, as octets."""
        return KEY.unpack(self.key)[1]

    @property
    def client(self):
        return socket.inet_ntoa(self.address)

    @property
    def port(self):
        return KEY.unpack(self.key)[2]

    @property
    def identifier(self):
        return KEY.unpack(self.key)[3]


def entries_of(body):
    """The entries of a batch, each its kind, and its octets behind that; None if it is not those of any."""
    found, at = [], 0
    while at < len(body):
        kind, start = body[at], at + 1
        text = start + FIELDS[kind].size + LENGTH if kind in FIELDS else len(body) + 1
        if text > len(body):
            return None
        length = int.from_bytes(body[text - LENGTH:text], "big")
        least, most = TEXTS[kind]
        at = text + length
        if not least <= length <= most or at > len(body):
            return None
        found.append((kind, body[start:at]))
    return found


def fault_of_first(number, entries):
    """What is wrong with the first batch of the segment of a number, if something is."""
    kind, entry = entries[0] if entries else (None, b"")
    if kind != BEGUN:
        return NO_BEGINNING
    version, _, named = FIELDS[BEGUN].unpack_from(entry)
    if version > VERSION:
        return LATER
    return None if version == VERSION and named == number else NO_BEGINNING


def read_segment(number, file):
    """The entries of the sound batches in a segment's file, and what is wrong with it, each by its offset and its name."""
    entries, wrong, at = [], [], 0
    while file[at:at + 1] == OPEN:
        start = at + BESIDE
        length, check = FRAME.unpack_from(file, at + 1) if start <= len(file) else (MOST_OCTETS, 0)
        body = file[start:start + length]
        if len(body) < length:
            return entries, [*wrong, (at, CUT_SHORT)]
        found = entries_of(body)
        fault = WRONG_SUM if zlib.crc32(body) != check else NOT_ENTRIES if found is None else None
        if fault is None:
            fault = fault_of_first(number, found) if at == 0 else None
            if fault == LATER:
                return [], [(at, LATER)]
            entries += found
        if fault:
            wrong.append((at, fault))
        at = start + length
    return entries, wrong


class Spool:
    """What segments stand for, of which the oldest is taken first: what is open, by its key, and what is wrong, by segment and offset; and
    which segments were set aside."""

    def __init__(self, aside):
        self.open, self.damage, self.numbers, self.octets, self.aside = {}, [], [], 0, aside

    def take(self, number, file, entries, wrong):
        self.numbers.append(number)
        self.octets += len(file)
        self.damage += [(number, offset, name) for offset, name in wrong]
        for kind, entry in entries:
            if kind == CAME:
                self.open[entry[:KEY_OCTETS]] = entry
            elif kind != BEGUN:
                self.open.pop(entry[:KEY_OCTETS], None)

    def arrivals(self):
        """The places of the requests that are open."""
        return {int.from_bytes(entry[ARRIVAL], "big") for entry in self.open.values()}

    def requests(self):
        """The requests that are open, in the order in which they came, one at a time."""
        return map(Request.of, sorted(self.open.values(), key=lambda entry: entry[ARRIVAL]))

    def next_number(self):
        """The number of the next segment."""
        return max(self.numbers, default=0) + 1


def name_of(number):
    return f"{number:016x}.spool"


def numbers_in(folder, form):
    """The numbers of the segments whose names in a folder have a form, the oldest first."""
    return sorted(int(found[1], 16) for found in map(form.fullmatch, os.listdir(folder)) if found)


def octets_of(folder, number):
    """The octets of a segment."""
    name, flags = name_of(number), os.O_RDONLY | os.O_NOFOLLOW | os.O_NONBLOCK | os.O_NOCTTY | os.O_CLOEXEC
    with open(os.open(name, flags, dir_fd=folder), "rb") as file:
        if not stat.S_ISREG(os.fstat(file.fileno()).st_mode):
            raise Fault(f"{name} is no regular file")
        octets = file.read(MOST_OCTETS + 1)
    if len(octets) > MOST_OCTETS:
        raise Fault(f"{name} has more than {MOST_OCTETS} octets")
    return octets


def read_once(folder):
    """What the segments of a folder stand for. What seems to be wrong with the newest may be under way, and is looked at twice."""
    spool, numbers = Spool(numbers_in(folder, ASIDE)), numbers_in(folder, NAME)
    for number in numbers:
        file = octets_of(folder, number)
        entries, wrong = read_segment(number, file)
        if wrong and number == numbers[-1]:
            time.sleep(AGAIN_SECONDS)
            file = octets_of(folder, number)
            entries, wrong = read_segment(number, file)
        spool.take(number, file, entries, wrong)
    return spool


def read_spool(folder):
    """What the segments of a folder stand for, though a run may write to it and remove segments of it meanwhile."""
    for _ in range(TRIES):
        try:
            return read_once(folder)
        except FileNotFoundError:
            continue
    raise Fault("segments are removed faster than they are read: ask again")


def entry_of(kind, fields, text=b""):
    """The octets of an entry."""
    return bytes([kind]) + FIELDS[kind].pack(*fields) + len(text).to_bytes(LENGTH, "big") + text


def put(descriptor, octets, at):
    """Writes octets at a place of a file, and has the system keep them."""
    rest = memoryview(octets)
    while rest:
        written = os.pwrite(descriptor, rest, at)
        rest, at = rest[written:], at + written
    os.fsync(descriptor)


def append(descriptor, at, body):
    """Appends a batch at the closed gate that a segment has at a place, and gives the place of the next gate. The batch is there first, and
    then its gate is opened."""
    put(descriptor, FRAME.pack(len(body), zlib.crc32(body)) + body + CLOSED, at + 1)
    put(descriptor, OPEN, at)
    return at + BESIDE + len(body)


def write_segment(folder, number, body):
    """Makes the segment of a number, of which all is there behind its beginning, or nothing."""
    descriptor = os.open(name_of(number), os.O_WRONLY | os.O_CREAT | os.O_EXCL | os.O_NOFOLLOW | os.O_CLOEXEC, 0o600, dir_fd=folder)
    try:
        os.fchmod(descriptor, 0o600)
        os.fsync(descriptor)
        os.fsync(folder)
        put(descriptor, CLOSED, 0)
        at = append(descriptor, 0, entry_of(BEGUN, (VERSION, NO_RUN, number)))
        append(descriptor, at, body)
    finally:
        os.close(descriptor)


def remove_segment(folder, number):
    """Removes the segment that was not written to its end."""
    try:
        os.unlink(name_of(number), dir_fd=folder)
        os.fsync(folder)
    except FileNotFoundError:
        pass
    except OSError as error:
        raise Fault(f"{name_of(number)} can't be removed: {error.strerror}: it may count or not") from None


def give_up(folder, spool, requests, moment, reason):
    """Gives up requests at a moment, in milliseconds since 1970, by segments behind the newest, and gives how many are given up: less than all
    where the system refuses a segment, which is removed then, with its error."""
    entries = [entry_of(GIVEN_UP, (request.key, moment), reason) for request in requests]
    beginning = BESIDE + len(entry_of(BEGUN, (VERSION, NO_RUN, 0)))
    most, number, done = (MOST_OCTETS - beginning - BESIDE - len(CLOSED)) // len(entries[0]), spool.next_number(), 0
    while done < len(entries):
        if number > LAST_NUMBER:
            raise Fault("there is no number for another segment")
        try:
            write_segment(folder, number, b"".join(entries[done:done + most]))
        except FileExistsError:
            raise Fault(f"{name_of(number)} is there meanwhile") from None
        except OSError as error:
            remove_segment(folder, number)
            return done, error
        done, number = min(done + most, len(entries)), number + 1
    return done, None
