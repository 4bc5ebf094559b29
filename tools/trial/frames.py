"""Reads frames out of files of captures, pcap and pcapng, one after the other."""
import struct
from typing import NamedTuple

from .faults import Fault, shown_path, told_by

PCAP = {b"\xd4\xc3\xb2\xa1": ("<", 1000), b"\xa1\xb2\xc3\xd4": (">", 1000), b"\x4d\x3c\xb2\xa1": ("<", 1), b"\xa1\xb2\x3c\x4d": (">", 1)}
SECTION, INTERFACE, OLD_PACKET, SIMPLE_PACKET, STATISTICS, PACKET = 0x0A0D0D0A, 1, 2, 3, 5, 6
ORDERS = {b"\x4d\x3c\x2b\x1a": "<", b"\x1a\x2b\x3c\x4d": ">"}
TIME_UNIT, TIME_OFFSET, LOST = 9, 14, 5
# No frame has more octets than this in a file that tcpdump or dumpcap wrote.
MOST_OCTETS, MOST_OF_BLOCK = 262_144, 16_777_216
SECOND = 1_000_000_000
LATEST = 2**63


class Frame(NamedTuple):
    """A frame: when it was seen, in nanoseconds since 1970; its link type; where it was seen; and what of it is in the file."""

    time: int
    link: int
    place: int
    octets: bytes


class Cut(Exception):
    """The file ends in the midst of something."""


class Capture:
    """A file of frames. After they were read, `is_cut` says whether it was cut short, and `lost` what it says to have lost."""

    def __init__(self, path):
        self.path, self.count, self.is_cut, self.lost = path, 0, False, 0

    def __str__(self):
        return shown_path(self.path)

    def frames(self):
        """All frames. A file that is cut short gives those before that."""
        try:
            with open(self.path, "rb", 1 << 20) as self.file:
                yield from self.counted(self.kind()())
        except OSError as error:
            raise Fault(f"{self}: {told_by(error)}") from None
        except Cut:
            self.is_cut = True

    def counted(self, frames):
        for frame in frames:
            self.count += 1
            yield frame

    def kind(self):
        """What reads the rest of the file."""
        magic = self.file.read(4)
        if magic in PCAP:
            self.order, self.unit = PCAP[magic]
            return self.pcap
        if magic == SECTION.to_bytes(4, "big"):
            return self.pcapng
        if len(magic) < 4:
            raise Fault(f"{self}: the file is too short for a capture")
        raise Fault(f"{self}: neither pcap nor pcapng")

    def damaged(self, what):
        return Fault(f"{self}: damaged after {self.count} frames: {what}")

    def take(self, count):
        """The next octets of the file."""
        octets = self.file.read(count)
        if len(octets) < count:
            raise Cut
        return octets

    def pcap(self):
        major, _, _, _, _, link = struct.unpack(self.order + "HHiIII", self.take(20))
        if major != 2:
            raise Fault(f"{self}: pcap of version {major}")
        link &= 0x0FFFFFFF
        read, header, unit, most = self.file.read, struct.Struct(self.order + "IIII"), self.unit, SECOND // self.unit
        while head := read(16):
            if len(head) < 16:
                raise Cut
            seconds, parts, kept, _ = header.unpack(head)
            if kept > MOST_OCTETS or parts >= most:
                raise self.damaged("no header of a frame")
            yield Frame(seconds * SECOND + parts * unit, link, 0, self.take(kept))

    def pcapng(self):
        self.order, self.interfaces = "<", []
        head = SECTION.to_bytes(4, "big") + self.take(4)
        while head:
            if len(head) < 8:
                raise Cut
            kind, body = self.block(head)
            if kind == INTERFACE:
                self.interfaces.append(self.interface(body))
            elif kind == STATISTICS:
                self.lost += self.lost_by(body)
            elif kind in (PACKET, OLD_PACKET):
                yield self.packet(kind, body)
            elif kind == SIMPLE_PACKET:
                raise Fault(f"{self}: it has packets without a time")
            head = self.file.read(8)

    def block(self, head):
        """The kind and the body of the block that begins with these octets."""
        body = b""
        if head[:4] == SECTION.to_bytes(4, "big"):
            body = self.take(4)
            if body not in ORDERS:
                raise self.damaged("no header of a section")
            self.order, self.interfaces = ORDERS[body], []
        kind, length = struct.unpack(self.order + "II", head)
        if length % 4 or not 12 + len(body) <= length <= MOST_OF_BLOCK:
            raise self.damaged("no block")
        body += self.take(length - 12 - len(body))
        if self.take(4) != head[4:]:
            raise self.damaged("the end of a block differs from its begin")
        return kind, body

    def options(self, octets):
        """The options of a block, by their codes."""
        found, at = {}, 0
        while at + 4 <= len(octets):
            code, length = struct.unpack_from(self.order + "HH", octets, at)
            if code == 0:
                break
            found[code] = octets[at + 4 : at + 4 + length]
            at += 4 + length + -length % 4
        return found

    def interface(self, body):
        """An interface: its link type, how many of its units of time a second has, and its offset in seconds."""
        if len(body) < 8:
            raise self.damaged("no interface")
        (link,) = struct.unpack_from(self.order + "H", body)
        options = self.options(body[8:])
        unit = (options.get(TIME_UNIT) or b"\x06")[0]
        offset = options.get(TIME_OFFSET, b"")
        return link, 2 ** (unit & 127) if unit & 128 else 10**unit, struct.unpack(self.order + "q", offset)[0] if len(offset) == 8 else 0

    def lost_by(self, body):
        value = self.options(body[12:]).get(LOST, b"")
        return struct.unpack(self.order + "Q", value)[0] if len(value) == 8 else 0

    def packet(self, kind, body):
        if len(body) < 20:
            raise self.damaged("no packet")
        place, high, low, kept = struct.unpack_from(self.order + "IIII", body)
        if kind == OLD_PACKET:
            (place,) = struct.unpack_from(self.order + "H", body)
        if place >= len(self.interfaces) or kept > len(body) - 20:
            raise self.damaged("no packet of an interface")
        link, units, offset = self.interfaces[place]
        time = ((high << 32) + low) * SECOND // units + offset * SECOND
        if not 0 <= time < LATEST:
            raise self.damaged("no time")
        return Frame(time, link, place, body[20 : 20 + kept])
