"""Each datagram of the program is a packet."""
import socket

from tests.lib.always.notes import note

# The Codes that the program sends, and the octets of the head of a packet.
CODES, HEAD = {4, 5, 12}, 20


def is_packet(octets):
    """Whether octets are a packet of a Code that the program sends, by RFC 2866: its Length is right, and attributes fill it."""
    if len(octets) < HEAD or octets[0] not in CODES or int.from_bytes(octets[2:4]) != len(octets):
        return False
    at = HEAD
    while at < len(octets):
        if at + 2 > len(octets) or octets[at + 1] < 2:
            return False
        at += octets[at + 1]
    return at == len(octets)


def see_datagram(octets):
    """Notes a datagram of the program that is no packet."""
    if not is_packet(octets):
        note(f"a datagram is no packet: {octets[:64].hex()}{' ..' if len(octets) > 64 else ''}")


class Ear(socket.socket):
    """A UDP socket to which the program sends: each datagram that comes has to be a packet."""

    def recvfrom(self, size, *flags):
        octets, sender = super().recvfrom(size, *flags)
        if len(octets) < size:
            see_datagram(octets)
        return octets, sender

    def recv(self, size, *flags):
        return self.recvfrom(size, *flags)[0]
