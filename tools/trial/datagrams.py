"""UDP datagrams over IPv4 out of captures, in the order of their times: VLAN tags off, fragments put together."""
import heapq
import socket
import struct
from collections import Counter
from typing import NamedTuple

from .frames import SECOND, Capture

ETHERNET, RAW, COOKED, COOKED_2 = 1, (12, 14, 101, 228), 113, 276
LOOPBACK = (0, 108)
FAMILIES_6 = (10, 24, 28, 30)
VLANS = (0x8100, 0x88A8, 0x9100)
IPV4, IPV6, UDP = 0x0800, 0x86DD, 17
# How many frames may be out of the order of their times; how many fragments wait for others; and for how long a copy is one.
OUT_OF_ORDER, FRAGMENTS, COPIES_WITHIN = 1024, 1024, SECOND // 20


class Datagram(NamedTuple):
    """A datagram, when and where it was seen. Addresses have four octets."""

    time: int
    place: tuple
    source: bytes
    source_port: int
    target: bytes
    target_port: int
    octets: bytes


def address(octets):
    return socket.inet_ntoa(octets)


def inside(frame):
    """What a frame carries: the EtherType, the offset of it, and what tells where the frame was seen."""
    octets, link, place = frame.octets, frame.link, frame.place
    if link == ETHERNET:
        kind, at = octets[12:14], 14
    elif link == COOKED_2:
        kind, at, place = octets[:2], 20, (place, octets[4:8])
    elif link == COOKED:
        kind, at, place = octets[14:16], 16, (place, octets[:2])
    elif link in RAW:
        return (IPV6 if octets[:1] and octets[0] >> 4 == 6 else IPV4), 0, place
    elif link in LOOPBACK:
        family = octets[0] or octets[3] if len(octets) >= 4 else 0
        return (IPV4 if family == 2 else IPV6 if family in FAMILIES_6 else 0), 4, place
    else:
        return None, 0, place
    kind = int.from_bytes(kind, "big")
    while kind in VLANS:
        kind, at = int.from_bytes(octets[at + 2 : at + 4], "big"), at + 4
    return kind, at, place


class Fragments:
    """Fragments of datagrams that are not whole yet, the oldest ones first."""

    def __init__(self):
        self.waiting, self.count, self.left_out = {}, 0, 0

    def take(self, key, offset, is_last, octets):
        """A fragment; gives the whole once it is there."""
        parts = self.waiting.setdefault(key, {})
        self.count += offset not in parts
        parts[offset] = octets, is_last
        whole, at = b"", 0
        while at in parts:
            whole += parts[at][0]
            if parts[at][1]:
                self.forget(key)
                return whole
            if not parts[at][0]:
                break
            at = len(whole)
        while self.count > FRAGMENTS:
            self.forget(next(iter(self.waiting)))
            self.left_out += 1
        return None

    def forget(self, key):
        self.count -= len(self.waiting.pop(key))

    def lost(self):
        """How many datagrams were never whole."""
        return self.left_out + len(self.waiting)


class Reader:
    """Reads captures. `left_out` counts what no datagram was made of, by why. `first` is when the first datagram was seen that is
    wanted, and `last` when the last frame was."""

    def __init__(self, paths, is_wanted):
        self.captures, self.is_wanted = [Capture(path) for path in paths], is_wanted
        self.left_out, self.first, self.last = Counter(), None, 0
        self.recent = {}

    def datagrams(self):
        """Those that are wanted, of all files, in the order of their times; copies that another place saw too are left out."""
        streams = [self.in_order(number, capture) for number, capture in enumerate(self.captures)]
        for datagram in streams[0] if len(streams) == 1 else heapq.merge(*streams, key=lambda it: it.time):
            if self.first is None:
                self.first = datagram.time
            if not self.is_copy(datagram):
                yield datagram

    def is_copy(self, datagram):
        """Whether another interface, or another file, saw this datagram a moment ago."""
        key = hash(datagram[2:])
        before = self.recent.get(key)
        if before and before[1] != datagram.place and datagram.time - before[0] <= COPIES_WITHIN:
            self.left_out["copies of a datagram that another interface or file has too"] += 1
            return True
        if len(self.recent) > 20_000:
            self.recent = {key: it for key, it in self.recent.items() if datagram.time - it[0] <= COPIES_WITHIN}
        self.recent[key] = datagram.time, datagram.place
        return False

    def in_order(self, number, capture):
        """The datagrams of a file. What is out of order by a few frames is put in order."""
        waiting, count = [], 0
        for datagram in self.of_file(number, capture):
            count += 1
            if len(waiting) < OUT_OF_ORDER:
                heapq.heappush(waiting, (datagram.time, count, datagram))
            else:
                yield heapq.heappushpop(waiting, (datagram.time, count, datagram))[2]
        while waiting:
            yield heapq.heappop(waiting)[2]

    def of_file(self, number, capture):
        fragments, left_out = Fragments(), self.left_out
        for frame in capture.frames():
            if frame.time > self.last:
                self.last = frame.time
            kind, at, place = inside(frame)
            if kind == IPV4:
                datagram = self.of_packet(frame, at, (number, place), fragments)
                if datagram is not None and self.is_wanted(datagram):
                    yield datagram
            elif kind == IPV6 and frame.octets[at + 6 : at + 7] == b"\x11":
                left_out["UDP over IPv6, which rad_proxy has not"] += 1
            elif kind is None:
                left_out[f"frames of link type {frame.link}, which is not read"] += 1
        if fragments.lost():
            left_out["datagrams of which a fragment is missing"] += fragments.lost()

    def of_packet(self, frame, at, place, fragments):
        """The datagram of an IPv4 packet; nothing if it is another, or not whole."""
        octets = frame.octets
        if len(octets) < at + 20 or octets[at + 9] != UDP:
            return None
        first, _, length, identity, piece = struct.unpack_from(">BBHHH", octets, at)
        head, end = at + (first & 15) * 4, at + (length or len(octets) - at)
        source, target = octets[at + 12 : at + 16], octets[at + 16 : at + 20]
        if first >> 4 != 4 or head < at + 20 or end < head:
            self.left_out["IPv4 packets that cannot be read"] += 1
            return None
        if end > len(octets):
            self.left_out["IPv4 packets that the capture has not whole (tcpdump's -s)"] += 1
            return None
        if piece & 0x3FFF:
            body = fragments.take((source, target, identity), (piece & 0x1FFF) * 8, not piece & 0x2000, octets[head:end])
            if body is None:
                return None
        else:
            body = octets[head:end]
        return self.of_body(frame.time, place, source, target, body)

    def of_body(self, time, place, source, target, body):
        if len(body) >= 8:
            source_port, target_port, length = struct.unpack_from(">HHH", body)
            if 8 <= length <= len(body):
                return Datagram(time, place, source, source_port, target, target_port, body[8:length])
        self.left_out["UDP headers that cannot be read"] += 1
        return None

    def notes(self):
        """What there is to say of the files, once they are read."""
        for capture in self.captures:
            if capture.is_cut:
                yield f"{capture}: cut short after {capture.count} frames; what stands below is of these"
            if capture.lost:
                yield f"{capture}: it says itself that it lost {capture.lost} frames"
        for why, count in sorted(self.left_out.items()):
            yield f"left out: {count} {why}"
