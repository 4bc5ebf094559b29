"""Segments of a spool, written and read by another hand than the program's, as docs/formats.md says."""
import struct
import zlib
from dataclasses import dataclass

VERSION = 1
TEXT = struct.Struct(">H")
FRAME = struct.Struct(">II")
# Each kind of an entry: its name, its fields behind the kind, and how many octets its text has at least and at most.
KINDS = {
    1: ("begun", struct.Struct(">HQQ"), 0, 0),
    2: ("came", struct.Struct(">16s4sHB4sHQQHQQ"), 20, 4096),
    3: ("answered", struct.Struct(">16s4sHBQHQQ"), 20, 4096),
    4: ("given up", struct.Struct(">16s4sHBQ"), 0, 255),
}


@dataclass
class Batch:
    """A batch: where its gate is and where it ends, whether its CRC-32 is right, and its entries, or none if they can't be read."""

    offset: int
    end: int
    sound: bool
    entries: list | None


def entry(kind, fields, text=b""):
    return bytes([kind]) + KINDS[kind][1].pack(*fields) + TEXT.pack(len(text)) + text


def segment(batches):
    """A segment's file with these batches, each a list of entries in octets."""
    bodies = [b"".join(entries) for entries in batches]
    return b"".join(b"\1" + FRAME.pack(len(body), zlib.crc32(body)) + body for body in bodies) + b"\0"


def entries_of(body):
    """The entries of a body: the name, the fields and the text of each. None if it is not those of any."""
    found, at = [], 0
    while at < len(body):
        name, fields, least, most = KINDS.get(body[at], (None, None, 0, 0))
        text = at + 1 + fields.size if name else len(body)
        if text + TEXT.size > len(body):
            return None
        (length,) = TEXT.unpack_from(body, text)
        at, start = text + TEXT.size + length, text + TEXT.size
        if not least <= length <= most or at > len(body):
            return None
        found.append((name, fields.unpack_from(body, text - fields.size), body[start:at]))
    return found


def read(file):
    """The batches of a segment's file, up to the first gate that is not open or whose batch is not whole."""
    at = 0
    while file[at : at + 1] == b"\1" and len(file) >= at + 1 + FRAME.size:
        length, check = FRAME.unpack_from(file, at + 1)
        body = file[at + 1 + FRAME.size :][:length]
        if len(body) < length:
            return
        end = at + 1 + FRAME.size + length
        yield Batch(at, end, zlib.crc32(body) == check, entries_of(body))
        at = end


@dataclass
class Spool:
    """What segments stand for: the requests that are open, by arrival, the answers that are remembered, and what is wrong."""

    requests: list
    answers: list
    faults: list


def fault_of_first(entries, number):
    """What is wrong with the first batch of a segment."""
    name, fields, _ = entries[0] if entries else (None, None, None)
    if name == "begun" and fields[0] > VERSION:
        return "later version"
    return None if name == "begun" and fields[0] == VERSION and fields[2] == number else "no beginning"


def segment_of(number, file):
    """The entries of a segment that count, and what is wrong with it, each by its segment, offset and name."""
    entries, faults, end = [], [], 0
    for batch in read(file):
        wrong = "not entries" if batch.entries is None else fault_of_first(batch.entries, number) if batch.offset == 0 else None
        wrong = wrong if batch.sound else "wrong sum"
        faults += [(number, batch.offset, wrong)] if wrong else []
        if wrong == "later version":
            return [], faults
        entries += batch.entries if wrong in (None, "no beginning") else []
        end = batch.end
    return entries, faults + ([(number, end, "cut short")] if file[end : end + 1] == b"\1" else [])


def spool_of(segments, now, span):
    """What segments, each a number and its file's octets, the oldest first, stand for: the last entry about each request counts."""
    entries, faults = [], []
    for number, file in segments:
        more, wrong = segment_of(number, file)
        entries, faults = entries + more, faults + wrong
    last = {fields[:4]: place for place, (name, fields, _) in enumerate(entries) if name != "begun"}
    counting = [entries[place] for place in sorted(last.values())]
    requests = sorted((entry for entry in counting if entry[0] == "came"), key=lambda entry: entry[1][6])
    return Spool(requests, [entry for entry in counting if entry[0] == "answered" and now - entry[1][7] <= span], faults)


def in_folder(folder):
    """The segments of a folder, the oldest first."""
    return [(int(file.stem, 16), file.read_bytes()) for file in sorted(folder.glob("*.spool"))]


# The entries of the segment that the tests of the crate `spool_files` write and read.
SAMPLE_KEY = bytes([7] * 16), bytes([192, 0, 2, 9]), 40_000, 3
SAMPLE_TEXT = bytes([4, 3, 0, 20]) + bytes([7] * 16)
SAMPLE = [
    [entry(1, (1, 6, 2))],
    [entry(2, (*SAMPLE_KEY, bytes([192, 0, 2, 1]), 1813, 5, 6, 2, 8, 1_700_000_000_123), SAMPLE_TEXT),
     entry(3, (*SAMPLE_KEY, 6, 2, 9, 1_700_000_000_456), SAMPLE_TEXT), entry(4, (*SAMPLE_KEY, 1_700_000_000_789), b"gone")],
]


def of_segments():
    """The octets that the tests of the crate expect; their reading gives the same entries again."""
    file = segment(SAMPLE)
    read_again = [[entry({name: kind for kind, (name, *_) in KINDS.items()}[name], fields, text) for name, fields, text in batch.entries]
                  for batch in read(file)]
    assert read_again == SAMPLE and all(batch.sound for batch in read(file))
    return {"SEGMENT": file}
