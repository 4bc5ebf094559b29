"""Makes packets between a NAS, the program and a home server, by Python's hashlib and hmac alone."""
import hashlib
import hmac

ACCOUNTING_REQUEST, ACCOUNTING_RESPONSE, STATUS_SERVER = 4, 5, 12
USER_NAME, NAS_IP_ADDRESS, CLASS, NAS_IDENTIFIER, PROXY_STATE = 1, 4, 25, 32, 33
ACCT_STATUS_TYPE, ACCT_SESSION_ID, MESSAGE_AUTHENTICATOR = 40, 44, 80

ZEROS = bytes(16)


def attribute(kind, value):
    return bytes([kind, len(value) + 2]) + value


def user_name(name):
    return attribute(USER_NAME, name)


def mark(lane, number):
    """The Proxy-State of the proxy's own: the lane's number and the request's."""
    return attribute(PROXY_STATE, lane.to_bytes(2, "big") + number.to_bytes(8, "big"))


def packet(code, identifier, authenticator, attributes):
    return bytes([code, identifier]) + (20 + len(attributes)).to_bytes(2, "big") + authenticator + attributes


def signed(code, identifier, base, attributes, secret):
    """A packet whose Authenticator is the MD5 of it, with `base` in that place, and of the secret."""
    authenticator = hashlib.md5(packet(code, identifier, base, attributes) + secret).digest()
    return packet(code, identifier, authenticator, attributes)


def request(identifier, attributes, secret):
    return signed(ACCOUNTING_REQUEST, identifier, ZEROS, attributes, secret)


def answer(asked, identifier, attributes, secret):
    """An answer to a packet: its Authenticator is over that of the packet."""
    return signed(ACCOUNTING_RESPONSE, identifier, asked[4:20], attributes, secret)


def status(identifier, authenticator, before, after, secret):
    """A Status-Server whose Message-Authenticator stands behind and before these attributes."""
    empty = packet(STATUS_SERVER, identifier, authenticator, before + attribute(MESSAGE_AUTHENTICATOR, ZEROS) + after)
    digest = hmac.new(secret, empty, hashlib.md5).digest()
    return packet(STATUS_SERVER, identifier, authenticator, before + attribute(MESSAGE_AUTHENTICATOR, digest) + after)


def turned(octets, place):
    """The same octets with the last bit of one of them turned."""
    return octets[:place] + bytes([octets[place] ^ 1]) + octets[place + 1 :]


# What most requests carry, and a Proxy-State of the NAS's own.
BOB = user_name(b"bob@example.org")
SESSION = BOB + attribute(ACCT_STATUS_TYPE, bytes([0, 0, 0, 1])) + attribute(ACCT_SESSION_ID, b"S1")
FROM_NAS = attribute(PROXY_STATE, b"abc")
A_CLASS = attribute(CLASS, b"CLS")


def of_nas():
    """What a NAS sends that is not as it should be, or leads nowhere. tests/configuration/replayed_datagrams.py sends these."""
    secret, octets = b"nas-secret", bytes([0xA5] * 16)
    return {
        "SPOILED_REQUEST": turned(request(7, SESSION, secret), 19),
        "LOUD": request(2, user_name(b"a@b@EXAMPLE.ORG"), secret),
        "EMPTY_REALM": request(3, user_name(b"bob@"), secret),
        "BARE": request(1, user_name(b"bob"), secret),
        "NAMELESS": request(4, b"", secret),
        "UNLISTED": request(5, user_name(b"a@b."), secret),
        "SIGNED": request(8, SESSION + attribute(MESSAGE_AUTHENTICATOR, ZEROS), secret),
        "TWICE": status(9, octets, b"", attribute(MESSAGE_AUTHENTICATOR, ZEROS), secret),
        "UNASKED": signed(ACCOUNTING_RESPONSE, 1, ZEROS, b"", secret),
    }


def of_lanes():
    """What goes to and fro between a NAS, one lane and its home server."""
    client, home, octets = b"nas-secret", b"home-secret", bytes([0xA5] * 16)
    asked = request(7, SESSION + FROM_NAS, client)
    forwarded = request(0, SESSION + FROM_NAS + mark(0, 0), home)
    second = BOB + attribute(ACCT_STATUS_TYPE, bytes([0, 0, 0, 2])) + attribute(ACCT_SESSION_ID, b"S1")
    probe = status(2, octets, b"", b"", home)
    return {
        "SEVENTH": request(7, SESSION, client),
        "REQUEST": asked,
        "FORWARDED": forwarded,
        "REPLY": answer(forwarded, 0, FROM_NAS + mark(0, 0) + A_CLASS, home),
        "RESPONSE": answer(asked, 7, FROM_NAS + A_CLASS, client),
        "SECOND_REQUEST": request(8, second, client),
        "SECOND_FORWARDED": request(1, second + mark(0, 1), home),
        "SECOND_PROBE": probe,
        "SECOND_PROBE_ANSWER": answer(probe, 2, b"", home),
    }


def of_services():
    """What goes to and fro between a NAS and two lanes of one service."""
    client, home, second_home = b"nas-secret", b"home-secret", b"home2-secret"
    net = user_name(b"bob@example.net")
    return {
        "NET_REQUEST": request(9, net, client),
        "SEVENTH_REPLY": answer(request(0, SESSION + mark(0, 0), home), 0, mark(0, 0), home),
        "NET_REPLY": answer(request(0, net + mark(1, 0), second_home), 0, mark(1, 0), second_home),
    }


def classes(octets):
    """Class attributes of so many octets in all: each has 128, but for the last."""
    whole = max(octets // 128 - 1, 0)
    rest = octets - 128 * whole
    return whole * attribute(CLASS, b"A" * 126) + (attribute(CLASS, b"A" * (rest - 2)) if rest else b"")


# What a realm and a session may be: no octets; characters that JSON writes by others; characters of two, three and four octets;
# and octets that are no text, at their front, in their middle and at their end.
WORDS = [
    b"",
    b"S1",
    b'a"b\\c/d',
    b"\x00\x01\x08\t\n\x0c\r\x1f\x7f",
    b'{"type":"entry"}',
    "\u00e9\u20ac\U0001f600\ufeff\u2028".encode(),
    b"00ff",
    b"\xff",
    b"\xffab",
    b"a\xc3",
    b"a\xed\xa0\x80b",
    b"\xf5\x80\x80\x80",
]


NAS_SECRET, HOME_SECRET = b"nas-secret", b"home-secret"
# What each request has: a user of example.org, and that his session starts.
START = BOB + attribute(ACCT_STATUS_TYPE, bytes([0, 0, 0, 1]))


def request_of_nas(identifier=1, more=b""):
    """A request of the NAS, with more attributes."""
    return request(identifier, START + more, NAS_SECRET)


def answered(octets):
    """The response of the home server, with the Proxy-State that stands last."""
    return answer(octets, octets[1], octets[-12:], HOME_SECRET)


def states_of(read_packet):
    """The Proxy-States of a packet that was read, in order."""
    return b"".join(attribute(PROXY_STATE, value) for value, _ in read_packet.of_type(PROXY_STATE))


def reply(read_packet, secret):
    """The response of a home server to a request that was read, with all its Proxy-States."""
    return answer(read_packet.octets, read_packet.identifier, states_of(read_packet), secret)
