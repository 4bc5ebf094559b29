"""Datagrams and conversations, each with the lines that `replay` prints for it.

usage: python3 -m tests.configuration.replayed_datagrams PROGRAM

A conversation is a request, what goes to the home server, its reply, and what the NAS gets. All octets are made by Python, so a wrong
Authenticator of what is sent shows in a reply that is dropped, and a wrong HMAC in a Status-Server that is. The last line is
`N passed, M failed`, of what was looked at.
"""
from tests.lib import NAS_SECRET, packets
from tests.lib.configurations import CLIENT, HOME, LISTEN, REALM, sized, try_tables

# Datagrams: two clients, two home servers, three realms and no default home server.

TEXT = """
listen = "127.0.0.1:1813"
linger = 0
[[client]]
address = "10.0.0.1"
secret = "nas-secret"
[[client]]
address = "9.255.0.1"
secret = "other-secret"
[[home]]
name = "h1"
address = "127.0.0.1:2813"
secret = "home-secret"
[[home]]
name = "h2"
address = "127.0.0.2:65535"
secret = "second-secret"
window = 1022
span = 0
ring = 1
ports = 4
[[realm]]
name = "other.org"
home = "h1"
[[realm]]
name = "Example.org"
home = "h2"
[[realm]]
name = "third"
home = "h1"
"""

# The second home server is the default one, or that of the realms that are not listed.
DEFAULT, OTHER = 'default_home = "h2"\n', 'other_home = "h2"\n'

NAS, OTHER_NAS, STRANGER = "10.0.0.1", "9.255.0.1", "10.0.0.9"
SEVENTH = packets.of_lanes()["SEVENTH"]
FAULTY = packets.of_nas()


def named(name, secret=NAS_SECRET):
    """A request with this User-Name."""
    return packets.request(6, packets.user_name(name), secret)


def each_alone(text, rows):
    """Datagrams that come from an address and port 40000, each to a proxy that no other comes to."""
    for what, address, octets, line in rows:
        yield what, text, [(address, 40_000, octets)], [f"nas: {line}"]


def reasons():
    """Each reason for which a datagram is dropped, and what is not dropped."""
    status = packets.status(9, bytes([0xA5] * 16), b"", b"", NAS_SECRET)
    return each_alone(TEXT, [
        ("right", NAS, SEVENTH, "new 1 0"),
        ("a realm in capitals", NAS, FAULTY["LOUD"], "new 1 0"),
        ("a Status-Server", NAS, status, "status 5 9 20 -"),
        ("a stranger", STRANGER, SEVENTH, "dropped UnknownClient"),
        ("short", NAS, SEVENTH[:19], "dropped Unread Short"),
        ("of a bad Length", NAS, SEVENTH[:2] + b"\x00\x13" + SEVENTH[4:], "dropped Unread BadLength"),
        ("without the last octet", NAS, SEVENTH[:-1], "dropped Unread Truncated"),
        ("a bad attribute", NAS, b"\x00\x00\x00\x16" + bytes(16) + b"\x01\x01", "dropped Unread BadAttribute 20"),
        ("a bad attribute at the end", NAS, bad_at_the_end(), "dropped Unread BadAttribute 4095"),
        ("a response", NAS, FAULTY["UNASKED"], "dropped WrongCode"),
        ("spoiled", NAS, FAULTY["SPOILED_REQUEST"], "dropped BadAuthenticator"),
        ("of another client", OTHER_NAS, SEVENTH, "dropped BadAuthenticator"),
        ("signed twice", NAS, FAULTY["TWICE"], "dropped BadMessageAuthenticator"),
        ("signed", NAS, FAULTY["SIGNED"], "dropped MessageAuthenticatorHere"),
        ("no realm", NAS, FAULTY["BARE"], "dropped NoRealm"),
        ("no name", NAS, FAULTY["NAMELESS"], "dropped NoRealm"),
        ("an empty realm", NAS, FAULTY["EMPTY_REALM"], "dropped NoRealm"),
        ("an unlisted realm", NAS, FAULTY["UNLISTED"], "dropped NoRealm"),
    ])


def bad_at_the_end():
    """A packet of 4096 octets whose last one begins an attribute."""
    attributes = packets.attribute(packets.CLASS, bytes(253)) * 15 + packets.attribute(packets.CLASS, bytes(248))
    return packets.packet(packets.ACCOUNTING_REQUEST, 7, packets.ZEROS, attributes + b"\x01")


def with_a_default():
    """Where there is a default home server, it takes what has no realm."""
    return each_alone(DEFAULT + TEXT, [
        ("no realm", NAS, FAULTY["BARE"], "new 1 0"),
        ("no name", NAS, FAULTY["NAMELESS"], "new 1 0"),
        ("an empty realm", NAS, FAULTY["EMPTY_REALM"], "dropped NoRealm"),
        ("an unlisted realm", NAS, FAULTY["UNLISTED"], "dropped NoRealm"),
        ("the third realm", NAS, named(b"a@THIRD"), "new 0 0"),
    ])


def with_one_for_other_realms():
    """Where there is a home server for realms that are not listed, it takes these, and a realm of the table leads to its own."""
    listed = [("the third realm", NAS, named(b"a@THIRD"), "new 0 0"), ("the second realm", NAS, named(b"x@eXAMPLE.org"), "new 1 0"),
              ("a listed realm before the last sign", NAS, named(b"a@third@x"), "new 1 0"),
              ("a listed realm behind the last sign", NAS, named(b"a@x@third"), "new 0 0"),
              ("an empty realm", NAS, FAULTY["EMPTY_REALM"], "dropped NoRealm"), ("a sign alone", NAS, named(b"@"), "dropped NoRealm"),
              ("an unlisted realm", NAS, FAULTY["UNLISTED"], "new 1 0"), ("the longest one", NAS, named(b"@" + b"z" * 252), "new 1 0"),
              ("one of NUL", NAS, named(b"a@\0"), "new 1 0"), ("one that is no UTF-8", NAS, named(b"a@\xc3\x28"), "new 1 0"),
              ("a listed one and NUL", NAS, named(b"a@third\0"), "new 1 0"), ("half of a listed one", NAS, named(b"a@thir"), "new 1 0")]
    bare = [("no realm", NAS, FAULTY["BARE"]), ("no name", NAS, FAULTY["NAMELESS"]), ("a listed realm as a name", NAS, named(b"third"))]
    yield from each_alone(OTHER + TEXT, [*listed, *((*row, "dropped NoRealm") for row in bare)])
    yield from each_alone(OTHER + DEFAULT.replace("h2", "h1") + TEXT, [*listed, *((*row, "new 0 0") for row in bare)])
    yield from each_alone(OTHER + DEFAULT + TEXT, [*listed, *((*row, "new 1 0") for row in bare)])


def every_client_and_realm():
    """The largest configuration: each of its clients is found, and each of its realms leads to its lane."""
    text, secrets = sized(256, 64, 256), [f"s{number}".encode() for number in range(256)]
    known = [(f"10.0.0.{number}", 1, b"\x04") for number in range(256)]
    yield "each client", text, known, ["nas: dropped Unread Short"] * 256
    yield "one client more", text, [("10.0.1.0", 1, b"\x04")], ["nas: dropped UnknownClient"]
    asked = [(f"10.0.0.{number}", 1, named(b"someone@r%d" % number, secrets[number])) for number in range(256)]
    yield "each realm", text, asked, [f"nas: new {number % 64} {number // 64}" for number in range(256)]
    for what, name, other in (("one realm more", b"someone@r256", "new 63 0"), ("the longest empty realm", b"@" * 253, "dropped NoRealm")):
        one = [("10.0.0.0", 1, named(name, secrets[0]))]
        yield what, text, one, ["nas: dropped NoRealm"]
        yield f"{what}, and one for others", 'other_home = "h63"\n' + text, one, [f"nas: {other}"]
    yield "each realm, and one for others", 'other_home = "h63"\n' + text, asked, [f"nas: new {number % 64} {number // 64}" for number in range(256)]


# How many octets secrets have below, at and above the length of a block of MD5, and what they are made of.
LENGTHS, CHARACTERS = (1, 16, 63, 64, 65, 80, 128), bytes(range(0x30, 0x5B)) * 3


def statuses_of_many_lengths():
    """The longest Status-Server, and shorter ones, so that each length of the last block of MD5 occurs, under secrets of many lengths.
    One with a spoiled digest and one with a spoiled attribute are dropped."""
    for length in LENGTHS:
        secret = CHARACTERS[:length]
        text = LISTEN + CLIENT.replace(NAS_SECRET.decode(), secret.decode()) + HOME + REALM
        statuses = [packets.status(9, bytes(range(16)), b"", packets.classes(octets), secret) for octets in [*range(4058, -1, -63), 0]]
        spoiled = [packets.turned(statuses[0], place) for place in (37, 4095)]
        lines = ["nas: status 5 9 20 -"] * len(statuses) + ["nas: dropped BadMessageAuthenticator"] * len(spoiled)
        yield f"a secret of {length} octets", text, [(NAS, 40_000, octets) for octets in statuses + spoiled], lines


DATAGRAMS = [reasons, with_a_default, with_one_for_other_realms, every_client_and_realm, statuses_of_many_lengths]


# Conversations.

SERVER_SECRET = b"home-secret"


def conversation(what, attributes, before, behind, client=NAS_SECRET, home=SERVER_SECRET):
    """A request with these attributes, and the reply to it with others before and behind the proxy's mark."""
    text = (f'{LISTEN}default_home = "h1"\n[[client]]\naddress = "{NAS}"\nsecret = "{client.decode()}"\n'
            f'[[home]]\nname = "h1"\naddress = "127.0.0.1:2813"\nsecret = "{home.decode()}"\n{REALM}')
    its_mark, others = packets.mark(0, 0), before + behind
    asked, sent = packets.request(0x77, attributes, client), packets.request(0, attributes + its_mark, home)
    reply = packets.answer(sent, 0, before + its_mark + behind, home)
    talk = [
        (f"nas {NAS} 40001 raw {asked.hex()}", "nas: new 0 0"),
        ("step 0", f"step: sent 4 0 {len(sent)} {sent[20:].hex()}"),
        (f"home 0 raw {packets.turned(reply, 19).hex()}", "home: dropped BadAuthenticator"),
        (f"home 0 raw {reply.hex()}", "home: answer 0 0"),
        ("take 0", f"take: {NAS} 40001 5 119 {20 + len(others)} {others.hex() or '-'}"),
    ]
    events, wanted = zip(*talk)
    return what, text, events, wanted


def secrets_of_each_length():
    """Each end of a secret's range, and one of characters of two octets, as the client's secret and as the home server's."""
    secrets = {"one octet": b"s", "128 octets": bytes(range(0x30, 0x5B)) * 2 + b"a" * 42, "64 characters": "\u00e9".encode() * 64}
    for what, secret in secrets.items():
        yield conversation(f"the client's secret of {what}", packets.SESSION, b"", packets.A_CLASS, client=secret)
        yield conversation(f"the home server's secret of {what}", packets.SESSION, b"", packets.A_CLASS, home=secret)


def requests_of_many_lengths():
    """The longest request that is forwarded, and shorter ones, so that each length of the last block of MD5 occurs."""
    for octets in range(4064, -1, -63):
        yield conversation(f"a request of {octets + 20} octets", packets.classes(octets), packets.FROM_NAS, packets.A_CLASS)


def replies_of_many_lengths():
    """The longest reply, of 4096 octets, and shorter ones in the same way."""
    for octets in [*range(4064, -1, -63), 0]:
        yield conversation(f"a reply of {octets + 32} octets", packets.SESSION + packets.FROM_NAS, b"", packets.classes(octets))


def proxy_states():
    """The last of several Proxy-States is taken out, and what is before and behind it stays."""
    yield conversation("one of the NAS", packets.SESSION + packets.FROM_NAS, packets.FROM_NAS, packets.A_CLASS)
    eight = b"".join(packets.attribute(packets.PROXY_STATE, bytes([state]) * 5) for state in range(8))
    yield conversation("eight of the NAS", packets.SESSION + eight, eight, packets.A_CLASS)


CONVERSATIONS = [secrets_of_each_length, requests_of_many_lengths, replies_of_many_lengths, proxy_states]


if __name__ == "__main__":
    try_tables(__doc__, datagrams=DATAGRAMS, conversations=CONVERSATIONS)
