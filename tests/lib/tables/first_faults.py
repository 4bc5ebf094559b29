"""Configurations, each with its first fault, or none, and with the lines of the log before that, as docs/formats.md says of each."""
from tests.lib.configurations import (CLIENT, HOME, LISTEN, REALM, VALUE, addressed, alone, between, lines, no_toml, shown, sized, unread,
                                      warning)

# A whole configuration that is written with inline tables.
INLINE = """listen = "127.0.0.1:1"
client = [{address = "10.0.0.1", secret = "s"}]
home = [{name = "h", address = "1.2.3.4:5", secret = "s"}]
realm = [{name = "r", home = "h"}]
"""


def whole_texts():
    return alone([
        (INLINE, None),
        ("", "Missing at top listen"),
        ("listen = ", "Toml", no_toml(1, 10, VALUE)),
        ("listen = 1813", "WrongType at top listen"),
        ('listen = "127.0.0.1"', "BadAddress at top listen"),
        ('listen = "127.0.0.1:1"', "Missing at top client"),
        ('client = 1\nlisten = "127.0.0.1:1"', "WrongType at top client"),
        ('client = []\nlisten = "127.0.0.1:1"', "Missing at top client"),
        ('client = [1]\nlisten = "127.0.0.1:1"', "WrongType at top client"),
        ('client = [{}]\nlisten = "127.0.0.1:1"', "Missing at client 0 address"),
    ])


def tops():
    rows = [
        ("", None),
        ("ports = 7", None, unread("top a key at line 2, column 1")),
        ("linger = 600000", None),
        ("linger = 600001", "OutOfRange at top linger"),
        ("linger = -1", "OutOfRange at top linger"),
        ("linger = true", "WrongType at top linger"),
        ('default_home = "h1"', None),
        ("default_home = 1", "WrongType at top default_home"),
        ('default_home = ""', "UnknownHome at top default_home"),
        ('default_home = "h2"', "UnknownHome at top default_home"),
        ('other_home = "h1"', None),
        ('other_home = "h1"\ndefault_home = "h1"', None),
        ("other_home = 1", "WrongType at top other_home"),
        ('other_home = ["h1"]\nlinger = true', "WrongType at top other_home"),
        ('other_home = 1979-05-27\ndefault_home = "h2"', "WrongType at top other_home"),
        ('other_home = "h1"\ndefault_home = 1', "WrongType at top default_home"),
        ("linger = 600001\nother_home = 1\ndefault_home = 1", "WrongType at top default_home"),
        ('other_home = ""', "UnknownHome at top other_home"),
        ('other_home = "H1"', "UnknownHome at top other_home"),
        (f'other_home = "{"h" * 65}"', "UnknownHome at top other_home"),
        ('other_home = "h2"\nlinger = 600001', "OutOfRange at top linger"),
        ('other_home = "h1"\ndefault_home = "h2"', "UnknownHome at top default_home"),
        ('other_home = "h2"\ndefault_home = "h3"', "UnknownHome at top default_home"),
        ('other_home = "h2"\ndefault_home = "h1"', "UnknownHome at top other_home"),
        ('other_home = "h1"\nother_home = "h1"', "Toml", no_toml(3, 1, "duplicate key")),
    ]
    return between(LISTEN, rows, "\n" + CLIENT + HOME + REALM)


def arrays_of_homes():
    rows = [
        ("home = 1", "WrongType at top home"),
        ("home = []", "Missing at top home"),
        ("home = [{}, 1]", "WrongType at top home"),
        ("", "Missing at top home"),
        ("home = [{}]", "Missing at home 0 name"),
    ]
    return between(LISTEN, rows, "\n" + CLIENT)


def arrays_of_realms():
    rows = [
        ("realm = 1", "WrongType at top realm"),
        ("realm = [{}, 1]", "WrongType at top realm"),
        ("realm = []", None),
        ("", None),
        ("realm = [{}]", "Missing at realm 0 name"),
    ]
    return between(LISTEN, rows, "\n" + CLIENT + HOME)


def clients():
    rows = [
        ('secret = "s"', "Missing at client 0 address"),
        ("address = 1", "WrongType at client 0 address"),
        ('address = "10.0.0.256"', "BadAddress at client 0 address"),
        ('address = "10.0.0.01"', "BadAddress at client 0 address"),
        ('address = "10.0.0"', "BadAddress at client 0 address"),
        ('address = "10.0.0.1.2"', "BadAddress at client 0 address"),
        ('address = "+1.0.0.1"', "BadAddress at client 0 address"),
        ('address = "10.0.0.1"', "Missing at client 0 secret"),
        ('address = "10.0.0.1"\nsecret = 1', "WrongType at client 0 secret"),
        ('address = "10.0.0.1"\nsecret = ""', "OutOfRange at client 0 secret"),
        ('address = "10.0.0.1"\nsecret = "s"\n[[client]]\naddress = "10.0.0.1"', "DoubleName at client 1 address"),
        ('address = "10.0.0.1"\nsecret = "s"\n[[client]]\naddress = "10.0.1.0"', "Missing at client 1 secret"),
    ]
    return between(LISTEN + "[[client]]\n", rows, "\n" + HOME + REALM)


def homes():
    rows = [
        ("", "Missing at home 0 name"),
        ("name = 1", "WrongType at home 0 name"),
        ('name = ""', "OutOfRange at home 0 name"),
        ('name = "h 1"', "OutOfRange at home 0 name"),
        ('name = "h1"', "Missing at home 0 address"),
        ('name = "h1"\naddress = 1', "WrongType at home 0 address"),
        ('name = "h1"\naddress = "1.2.3.4"', "BadAddress at home 0 address"),
        ('name = "h1"\naddress = "1.2.3.4:0"', "BadAddress at home 0 address"),
        ('name = "h1"\naddress = "1.2.3.4:65536"', "BadAddress at home 0 address"),
        ('name = "h1"\naddress = "1.2.3.4:5"', "Missing at home 0 secret"),
        ('name = "h1"\naddress = "1.2.3.4:5"\nsecret = []', "WrongType at home 0 secret"),
        ('name = "h1"\naddress = "1.2.3.4:5"\nsecret = ""', "OutOfRange at home 0 secret"),
    ]
    return between(LISTEN + CLIENT + "[[home]]\n", rows, "\n" + REALM)


def numbers():
    rows = [
        ("ports = 5", "OutOfRange at home 0 ports"),
        ("ports = 5\nwindow = 2000", "OutOfRange at home 0 ports"),
        ("ports = 2\nwindow = 510", None),
        ("ports = 2\nwindow = 511", "OutOfRange at home 0 window"),
        ("ports = 4\nwindow = 1022", None),
        ("ports = 4\nwindow = 1023", "OutOfRange at home 0 window"),
        ("ports = true\nring = true", "WrongType at home 0 ring"),
        ("window = 254", None),
        ("window = 255", "OutOfRange at home 0 window"),
        ('window = "64"', "WrongType at home 0 window"),
        ("window = 64.0", "WrongType at home 0 window"),
        ("window = 0\nring = true", "WrongType at home 0 ring"),
        ("window = 0\nqueue = 4294967296", "OutOfRange at home 0 queue"),
        ("window = 0\nqueue = 4294967295", "OutOfRange at home 0 window"),
        ('[[home]]\nname = "h1"', "DoubleName at home 1 name"),
        ('[[home]]\nname = "H1"', "Missing at home 1 address"),
    ]
    return between(LISTEN + CLIENT + HOME, rows, "\n" + REALM)


def realms():
    rows = [
        ("", "Missing at realm 0 name"),
        ("name = 1", "WrongType at realm 0 name"),
        ('name = ""', "OutOfRange at realm 0 name"),
        ('name = "a@b"', "OutOfRange at realm 0 name"),
        ('name = "b"', "Missing at realm 0 home"),
        ('name = "b"\nhome = 1', "WrongType at realm 0 home"),
        ('name = "b"\nhome = "h9"', "UnknownHome at realm 0 home"),
        ('name = "b"\nhome = "H1"', "UnknownHome at realm 0 home"),
        ('name = "example.org"\nhome = "h1"\n[[realm]]\nname = "EXAMPLE.ORG"', "DoubleName at realm 1 name"),
    ]
    return between(LISTEN + CLIENT + HOME + "[[realm]]\n", rows, "\n")


# Each limit with the ends of its range, and with the numbers one below and one above it.
LIMITS = {
    "ports": ((1, 4), (0, 5)),
    "window": ((1, 254), (0, 255)),
    "queue": ((1, 65536), (0, 65537)),
    "book": ((1, 1000000), (0, 1000001)),
    "tries": ((1, 10), (0, 11)),
    "first_wait": ((100, 60000), (99, 60001)),
    "probe_every": ((1000, 600000), (999, 600001)),
    "down_wait": ((1000, 3600000), (999, 3600001)),
    "span": ((0, 600000), (-1, 600001)),
    "ring": ((1, 4096), (0, 4097)),
}


def limits():
    rows = []
    for key, (within, beyond) in LIMITS.items():
        rows += [(f"{key} = {number}", None) for number in within]
        rows += [(f"{key} = {number}", f"OutOfRange at home 0 {key}") for number in beyond]
    return between(LISTEN + CLIENT + HOME, rows, "\n" + REALM)


# Texts at both ends of their ranges, and faults after the first tables.

CLIENT_SECRET = '[[client]]\naddress = "10.0.0.2"\nsecret = "'
CLIENT_ADDRESS = '[[client]]\nsecret = "s"\naddress = "'
HOME_NAME = '[[home]]\naddress = "127.0.0.1:2813"\nsecret = "s"\nname = "'
HOME_ADDRESS = '[[home]]\nname = "h2"\nsecret = "s"\naddress = "'
HOME_SECRET = '[[home]]\nname = "h2"\naddress = "127.0.0.1:2813"\nsecret = "'
REALM_NAME = '[[realm]]\nhome = "h1"\nname = "'
THIRD_CLIENT = '[[client]]\naddress = "10.0.0.2"\nsecret = "s"\n[[client]]\n'
THIRD_HOME = '[[home]]\nname = "h2"\naddress = "127.0.0.1:1"\nsecret = "s"\n[[home]]\n'
THIRD_REALM = '[[realm]]\nname = "a"\nhome = "h1"\n[[realm]]\nname = "b"\nhome = "h1"\n[[realm]]\n'


def ends():
    rows = [
        (CLIENT_SECRET + "s", None),
        (CLIENT_SECRET + "s" * 128, None),
        (CLIENT_SECRET + "s" * 129, "OutOfRange at client 1 secret"),
        (CLIENT_SECRET + "é" * 64, None),
        (CLIENT_SECRET + "é" * 65, "OutOfRange at client 1 secret"),
        (CLIENT_ADDRESS + "0.0.0.0", None),
        (CLIENT_ADDRESS + "255.255.255.255", None),
        (CLIENT_ADDRESS + "256.0.0.0", "BadAddress at client 1 address"),
        (HOME_NAME + "Z", None),
        (HOME_NAME + "_", None),
        (HOME_NAME + "a-Z_0.9-" * 8, None),
        (HOME_NAME + "abcde" * 13, "OutOfRange at home 1 name"),
        (HOME_NAME + "é", "OutOfRange at home 1 name"),
        (HOME_ADDRESS + "0.0.0.0:1", None, [warning("home-address", "home h2 at 0.0.0.0:1: no host has this address")]),
        (HOME_ADDRESS + "255.255.255.255:65535", None,
         [warning("home-address", "home h2 at 255.255.255.255:65535: it is the broadcast address")]),
        (HOME_ADDRESS + "0.0.0.0:01", "BadAddress at home 1 address"),
        (HOME_SECRET + "s", None),
        (HOME_SECRET + "s" * 128, None),
        (HOME_SECRET + "s" * 129, "OutOfRange at home 1 secret"),
        (HOME_SECRET + "é" * 64, None),
        (REALM_NAME + "r", None),
        (REALM_NAME + "é" * 126, None),
        (REALM_NAME + "r" * 252, None),
        (REALM_NAME + "r" * 253, "OutOfRange at realm 0 name"),
        (THIRD_CLIENT + 'address = "10.0.0.2', "DoubleName at client 2 address"),
        (THIRD_CLIENT + 'address = "10.0.0.1', "DoubleName at client 2 address"),
        (THIRD_CLIENT + 'address = "10.0.0.3', "Missing at client 2 secret"),
        (THIRD_HOME + 'name = "h1', "DoubleName at home 2 name"),
        (THIRD_HOME + 'name = "h2', "DoubleName at home 2 name"),
        (THIRD_HOME + 'name = "h3', "Missing at home 2 address"),
        (THIRD_HOME + 'window = 0\nname = "h3', "Missing at home 2 address"),
        (THIRD_REALM + 'name = "A', "DoubleName at realm 2 name"),
        (THIRD_REALM + 'name = "B', "DoubleName at realm 2 name"),
        (THIRD_REALM + 'name = "c', "Missing at realm 2 home"),
        (THIRD_REALM + 'name = "c"\nhome = "h2', "UnknownHome at realm 2 home"),
        (THIRD_REALM + 'name = "c"\nhome = "h1', None),
    ]
    return between(LISTEN + CLIENT + HOME, rows, '"\n')


# Every fault of one text, in the order in which they are told. A key has each of its values until the fault of that is told.

NUMBERS = ["window", "queue", "book", "tries", "first_wait", "probe_every", "down_wait", "span", "ring", "ports"]


def values_of_keys():
    """The values that each key has in turn, by its part and name. None is a text without the key. The last one has no fault."""
    values = {
        ("top", "listen"): [None, "1", '"127.0.0.1"', '"127.0.0.1:1813"'],
        ("top", "default_home"): ["1", '"h2"', '"h1"'],
        ("top", "other_home"): ["1", '"h2"', '"h1"'],
        ("top", "linger"): ["true", "600001", "5000"],
        ("client", "address"): [None, "1", '"10.0.0.256"', '"10.0.0.9"', '"10.0.0.1"'],
        ("client", "secret"): [None, "1", '""', '"s"'],
        ("home", "name"): [None, "1", '"h 1"', '"h9"', '"h1"'],
        ("home", "address"): [None, "1", '"127.0.0.1"', '"127.0.0.1:2813"'],
        ("home", "secret"): [None, "1", '""', '"s"'],
        ("realm", "name"): [None, "1", '"a@b"', '"r9"', '"r"'],
        ("realm", "home"): [None, "1", '"h2"', '"h1"'],
    }
    for key, ((least, _), (_, above)) in LIMITS.items():
        values["home", key] = ["true", "4294967296", str(above), str(least)]
    return values


def faults_in_order():
    """Each fault, with the part and the key of its value."""
    read = ["Missing", "WrongType"]
    yield from ((fault, "top", "listen") for fault in [*read, "BadAddress"])
    yield from (("WrongType", "top", key) for key in ("default_home", "other_home", "linger"))
    yield "OutOfRange", "top", "linger"
    yield from ((fault, "client", "address") for fault in [*read, "BadAddress", "DoubleName"])
    yield from ((fault, "client", "secret") for fault in [*read, "OutOfRange"])
    yield from ((fault, "home", "name") for fault in [*read, "OutOfRange", "DoubleName"])
    yield from ((fault, "home", "address") for fault in [*read, "BadAddress"])
    yield from ((fault, "home", "secret") for fault in [*read, "OutOfRange"])
    for key in NUMBERS:
        yield from (("WrongType", "home", key), ("OutOfRange", "home", key))
    yield from (("OutOfRange", "home", key) for key in ["ports", *NUMBERS[:-1]])
    yield from ((fault, "realm", "name") for fault in [*read, "OutOfRange", "DoubleName"])
    yield from ((fault, "realm", "home") for fault in [*read, "UnknownHome"])
    yield from (("UnknownHome", "top", key) for key in ("default_home", "other_home"))


def every_fault_in_its_order():
    """A text whose keys all have faults, and what it becomes as each first fault is mended. Its tables are the second ones of arrays."""
    values = values_of_keys()
    heads = {
        "top": "",
        "realm": '[[realm]]\nname = "r9"\nhome = "h9"\n[[realm]]',
        "home": '[[home]]\nname = "h9"\naddress = "127.0.0.1:2813"\nsecret = "s"\n[[home]]',
        "client": '[[client]]\naddress = "10.0.0.9"\nsecret = "s"\n[[client]]',
    }

    def text():
        written = {part: [f"{key} = {now[0]}" for (of, key), now in values.items() if of == part and now[0]] for part in heads}
        return lines(line for part, head in heads.items() for line in (head, *written[part])).encode()

    for fault, part, key in faults_in_order():
        yield f"{fault} of {part} {key}", text(), f"{fault} at {part if part == 'top' else f'{part} 1'} {key}"
        values[part, key].pop(0)
    yield "no fault", text(), None


# Texts that are addresses, and others.
ADDRESSES = ["0.0.0.0", "10.2.30.255"]
NO_ADDRESSES = ["10.2.30.256", "10.2.30", "10.2.30.4.5", "10.2.030.4", "10.2.30.4 ", "10.2..4"]


def addresses():
    """Each text in each place. The line of a home server at the address of `listen` has the address that was read."""
    for text in ADDRESSES:
        yield f"the client {text!r}", addressed(client=text), None
        why = "no host has this address" if text == "0.0.0.0" else "listen serves it, so requests would come back"
        told = warning("home-address", f"home h1 at {text}:1813: {why}")
        yield f"listen and home {text!r}", addressed(f'listen = "{text}:1813"\n', home=f"{text}:1813"), None, [told]
    for text in NO_ADDRESSES:
        yield f"the client {text!r}", addressed(client=text), "BadAddress at client 0 address"
        yield f"the home {text!r}", addressed(home=f"{text}:1813"), "BadAddress at home 0 address"
        yield f"listen {text!r}", addressed(f'listen = "{text}:1813"\n'), "BadAddress at top listen"


# The largest configuration, and those that have one table more.


def sizes():
    comments = "# sixty-four octets of a comment, so that the text becomes long.\n" * 2048
    rows = [
        ((256, 64, 256), "", None),
        ((257, 64, 256), "", "TooMany at top client"),
        ((256, 65, 256), "", "TooMany at top home"),
        ((256, 64, 257), "", "TooMany at top realm"),
        ((255, 1, 0), '[[client]]\naddress = "10.0.0.0"', "DoubleName at client 255 address"),
        ((1, 63, 0), '[[home]]\nname = "h0"', "DoubleName at home 63 name"),
        ((1, 64, 255), '[[realm]]\nname = "r0"', "DoubleName at realm 255 name"),
        ((1, 65, 0), "", "TooMany at top home", 'other_home = "h64"\n'),
        ((1, 64, 1), "", None, 'other_home = "h63"\n'),
        ((1, 64, 256), '[[realm]]\nname = "r0"', "TooMany at top realm", 'other_home = "h64"\n'),
        ((1, 64, 1), "", "UnknownHome at top other_home", 'other_home = "h64"\n'),
        ((1, 1, 1), comments, None),
    ]
    for numbers_of_each, more, fault, *top in rows:
        yield f"{numbers_of_each}, {shown(''.join([*top, more]))}", ("".join(top) + sized(*numbers_of_each) + more).encode(), fault


TABLES = [whole_texts, tops, arrays_of_homes, arrays_of_realms, clients, homes, numbers, realms, limits, ends,
          every_fault_in_its_order, addresses, sizes]
