"""RADIUS packets (RFC 2865 section 3) and their digests (RFC 2866 section 3)."""
import hashlib

REQUEST, RESPONSE, STATUS = 4, 5, 12
USER_NAME, PROXY_STATE, DELAY_TIME, SESSION_ID, MESSAGE_AUTHENTICATOR, OPERATOR_NAME = 1, 33, 41, 44, 80, 126
ZEROS = bytes(16)
SHORTEST, LONGEST = 20, 4096


class NoPacket(Exception):
    """The octets are not a packet."""


def attributes_of(octets):
    """The attributes of a packet, each a type and a value. Octets behind its Length are none of it."""
    if len(octets) < SHORTEST:
        raise NoPacket("Short")
    length = octets[2] << 8 | octets[3]
    if not SHORTEST <= length <= LONGEST:
        raise NoPacket("BadLength")
    if length > len(octets):
        raise NoPacket("Truncated")
    found, at = [], SHORTEST
    while at < length:
        end = at + octets[at + 1] if at + 1 < length else 0
        if not at + 2 <= end <= length:
            raise NoPacket("BadAttribute")
        found.append((octets[at], octets[at + 2 : end]))
        at = end
    return found


def whole(octets):
    """The packet without what stands behind its Length."""
    return octets[: octets[2] << 8 | octets[3]]


def digest(packet, authenticator, secret):
    """The MD5 of a packet with this authenticator in the place of its own, and of the secret."""
    return hashlib.md5(packet[:4] + authenticator + packet[20:] + secret).digest()


def is_signed(packet, secret):
    """Whether the Request Authenticator of an Accounting-Request is right."""
    return packet[4:20] == digest(packet, ZEROS, secret)


def is_answer(packet, authenticator, secret):
    """Whether the Response Authenticator is right for a request with this authenticator."""
    return packet[4:20] == digest(packet, authenticator, secret)


def response(packet, attributes, secret):
    """The Accounting-Response to a packet, with these attributes."""
    head = bytes([RESPONSE, packet[1]]) + (SHORTEST + len(attributes)).to_bytes(2, "big")
    return head + digest(head + packet[4:20] + attributes, packet[4:20], secret) + attributes


def first_of(attributes, kind):
    """The value of the first attribute of a type, or nothing."""
    return next((value for it, value in attributes if it == kind), None)


def realm_of(attributes):
    """The part of the first User-Name behind its last `@`, or nothing."""
    name = first_of(attributes, USER_NAME)
    return None if name is None or b"@" not in name else name.rpartition(b"@")[2]
