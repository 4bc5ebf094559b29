"""Files of captures, made octet by octet: pcap and pcapng, Ethernet and cooked, VLAN tags and fragments."""
import socket
import struct

ETHERNET, RAW, COOKED, COOKED_2 = 1, 101, 113, 276
START = 1_764_000_000.0


def address(text):
    return socket.inet_aton(text)


def udp(source, target, octets):
    """A UDP datagram without a checksum, between two (address, port)."""
    return struct.pack(">HHHH", source[1], target[1], 8 + len(octets), 0) + octets


def ipv4(source, target, body, identity=0, piece=0, protocol=17):
    head = struct.pack(">BBHHHBBH4s4s", 0x45, 0, 20 + len(body), identity, piece, 64, protocol, 0, address(source[0]), address(target[0]))
    return head + body


def fragments(source, target, octets, size, identity):
    """The IPv4 packets of a datagram that is sent in pieces of so many octets."""
    body = udp(source, target, octets)
    for at in range(0, len(body), size):
        part = body[at : at + size]
        yield ipv4(source, target, part, identity, at // 8 | (0x2000 if at + size < len(body) else 0))


def framed(link, packet, tags=(), kind=0x0800, interface=1, way=0):
    """A frame of this link type. `tags` are VLANs, the outer one first."""
    tagged = b"".join(struct.pack(">HH", 0x8100 if at == len(tags) - 1 else 0x88A8, tag) for at, tag in enumerate(tags))
    kinds = tagged + struct.pack(">H", kind)
    if link == ETHERNET:
        return bytes(12) + kinds + packet
    if link == COOKED:
        return struct.pack(">HHH8s", way, 1, 6, bytes(8)) + kinds + packet
    if link == COOKED_2:
        return kinds[:2] + struct.pack(">HIHBB8s", 0, interface, 1, way, 6, bytes(8)) + kinds[2:] + packet
    return packet


def pcap(frames, link=ETHERNET, order="<", nanoseconds=False, snap=262_144):
    """A file of (time, frame)."""
    unit = 1_000_000_000 if nanoseconds else 1_000_000
    made = [struct.pack(order + "IHHiIII", 0xA1B23C4D if nanoseconds else 0xA1B2C3D4, 2, 4, 0, 0, snap, link)]
    for time, frame in frames:
        whole = round(time * unit)
        made += [struct.pack(order + "IIII", whole // unit, whole % unit, min(len(frame), snap), len(frame)), frame[:snap]]
    return b"".join(made)


def option(order, code, value):
    return struct.pack(order + "HH", code, len(value)) + value + bytes(-len(value) % 4)


def block(order, kind, body):
    body += bytes(-len(body) % 4)
    length = struct.pack(order + "I", 12 + len(body))
    return struct.pack(order + "I", kind) + length + body + length


def pcapng(frames, links=(ETHERNET,), order="<", resolution=6, lost=0):
    """A file of (time, frame) or (time, frame, interface), of interfaces of these link types."""
    made = block(order, 0x0A0D0D0A, struct.pack(order + "IHHq", 0x1A2B3C4D, 1, 0, -1))
    for link in links:
        options = option(order, 2, b"any") + option(order, 9, bytes([resolution])) + option(order, 0, b"")
        made += block(order, 1, struct.pack(order + "HHI", link, 0, 0) + options)
    for time, frame, interface in ((*it, 0)[:3] for it in frames):
        whole = round(time * 10**resolution)
        head = struct.pack(order + "IIIII", interface, whole >> 32, whole & 0xFFFFFFFF, len(frame), len(frame))
        made += block(order, 6, head + frame)
    if lost:
        counted = option(order, 5, struct.pack(order + "Q", lost)) + option(order, 0, b"")
        made += block(order, 5, struct.pack(order + "III", 0, 0, 0) + counted)
    return made
