"""Configurations with the lines of the log for them: unread keys, where a text stops being TOML, and addresses of home servers."""
from tests.lib.configurations import CLIENT, KEY, LINE, VALUE, addressed, alone, lines, no_toml, unread, warning

MOST_LISTED = 20

# Unread keys.

# Every key that is read.
ALL = """
listen = "127.0.0.1:1813"
default_home = "h1"
other_home = "h1"
linger = 5
[[client]]
address = "10.0.0.1"
secret = "nas-secret"
[[home]]
name = "h1"
address = "127.0.0.1:2813"
secret = "home-secret"
window = 1
queue = 2
book = 3
tries = 4
first_wait = 5
probe_every = 6
down_wait = 7
span = 8
ring = 9
ports = 1
[[realm]]
name = "example.org"
home = "h1"
"""

ABSENT, NO_TEXT = "Missing at top listen", "WrongType at top listen"


def unread_keys():
    return alone([
        ("", ABSENT),
        # the first fault of the text: a `first_wait` below 100
        (ALL, "OutOfRange at home 0 first_wait"),
        # not TOML
        ("windw = 3\n= 4\n", "Toml", no_toml(2, 1, KEY)),
        # the top
        ("windw = 3\n", ABSENT, unread("top a key at line 1, column 1")),
        ("\n  windw = 3\n", ABSENT, unread("top a key at line 2, column 3")),
        ("\ufeffwindw = 3\n", ABSENT, unread("top a key at line 1, column 2")),
        ("Listen = 1\nlisten = 2\n", NO_TEXT, unread("top Listen at line 1, column 1")),
        ("address = 1\n", ABSENT, unread("top a key at line 1, column 1")),
        # in the order of their octets, each with its place
        ('zz = 1\nlisten = 2\nb.c = 3\nb.d = 4\n"a" = 5\n', NO_TEXT,
         unread("top a key at line 5, column 1", "top a key at line 3, column 1", "top a key at line 1, column 1")),
        # headers
        ("listen = 1\n[[realms]]\nname = 2\n[[realms]]\n", NO_TEXT, unread("top realms at line 2, column 3")),
        ("[ realms ]\nname = 2\n", ABSENT, unread("top realms at line 1, column 3")),
        ("[realms.one.two]\n[realms]\n", ABSENT, unread("top realms at line 1, column 2")),
        ("[[home]]\n[[realms]]\nwindow = 1\n", ABSENT, unread("top realms at line 2, column 3")),
        # the keys below a header are not keys of the top
        ("[listen]\nwindw = 1\n", NO_TEXT),
        # tables of an array
        ("[[home]]\nwindow = 1\n[[home]]\nwindw = 3\n", ABSENT, unread("home 1 windw at line 4, column 1")),
        ("[[home]]\n\twindw = 3 # windw = 4\n[[home]]\nwindw = 3\n", ABSENT,
         unread("home 0 windw at line 2, column 2", "home 1 windw at line 4, column 1")),
        ("[[realm]]\nhome = 1\nhomes = 2\n[[client]]\nname = 1\n[[home]]\nlisten = 2\n", ABSENT,
         unread("client 0 a key at line 5, column 1", "home 0 a key at line 7, column 1", "realm 0 homes at line 3, column 1")),
        # other tables between two tables of one array
        ("[[home]]\na = 1\n[[client]]\na = 2\n[[home]]\na = 3\n[[client]]\na = 4\n", ABSENT,
         unread("client 0 a key at line 4, column 1", "client 1 a key at line 8, column 1", "home 0 a key at line 2, column 1",
                "home 1 a key at line 6, column 1")),
        # tables in tables
        ("[[home]]\n[home.limits]\nwindow = 3\n[[home]]\n[ home . limits . more ]\n", ABSENT,
         unread("home 0 a key at line 2, column 7", "home 1 a key at line 5, column 10")),
        ("[[home]]\nlimits.window = 3\n", ABSENT, unread("home 0 a key at line 2, column 1")),
        ('[[client]]\n[[client."host"]]\n[[client.host]]\n', ABSENT, unread("client 0 a key at line 2, column 10")),
        ("[[home]]\n[home.window]\nx = 1\n", ABSENT),
        # arrays that are written as one value
        ("home = [ { name = 1, windw = 3 }, { 'x' = [ { windw = 5 } ], windw = { windw = 6 } } ]\n", ABSENT,
         unread("home 0 windw at line 1, column 22", "home 1 windw at line 1, column 62", "home 1 a key at line 1, column 37")),
        ("client = [\n  # { b = 1 },\n  { a = \"}, {\" },\n  {\n    b = ''' ] '''\n  },\n]\n", ABSENT,
         unread("client 0 a key at line 3, column 5", "client 1 a key at line 5, column 5")),
        ("realm = [ { name = 1, a.b = 2, a.c = 3 } ]\n", ABSENT, unread("realm 0 a key at line 1, column 23")),
        # values that are not arrays of tables
        ("home = 3\nclient = { windw = 1 }\n[realm]\nwindw = 1\n", ABSENT),
        ("home = [ 1, { windw = 2 } ]\n", ABSENT, unread("home 1 windw at line 1, column 15")),
        ("home = [ [ { windw = 2 } ] ]\n", ABSENT),
        # values that look like keys
        ('secret = """\nwindw = 1\n[[home]]\n"""\nwindw = \'\'\'\n[x]\n\'\'\'\n', ABSENT,
         unread("top a key at line 1, column 1", "top a key at line 5, column 1")),
        ("a = [ '[', \"]\\\"\", # ]\n [ ] ]\nb = 1\n", ABSENT, unread("top a key at line 1, column 1", "top a key at line 3, column 1")),
        ('a = """x"""""\nb = 1979-05-27T07:32:00.5+01:00\nc = 1e5 # c\r\nd = -inf\n', ABSENT,
         unread("top a key at line 1, column 1", "top a key at line 2, column 1", "top a key at line 3, column 1",
                "top a key at line 4, column 1")),
        # keys in quotation marks
        ('"lis\\u0074en" = 1\n\'a b\' = 2\n"\\u00e9" = 3\n\'\' = 4\n', NO_TEXT,
         unread("top a key at line 4, column 1", "top a key at line 2, column 1", "top a key at line 3, column 1")),
        ('"a\\nb\\u001b" = 1\n"%" = 2\n"\\"" = 3\n"=" = 4\n"#]" = 5\nz = 6\n', ABSENT,
         unread("top a key at line 3, column 1", "top a key at line 5, column 1", "top a key at line 2, column 1",
                "top a key at line 4, column 1", "top a key at line 1, column 1", "top a key at line 6, column 1")),
        # columns count characters
        ('home = [ { secret = "\u00e9\U0001d11e", windw = 3 } ]\n', ABSENT, unread("home 0 windw at line 1, column 27")),
        # a long name
        ("a123456789b123456789c123456789d123456789e123456789f123456789g1234 = 1\n", ABSENT,
         unread("top a key at line 1, column 1")),
        ("k" * 1_000_000 + " = 1\n", ABSENT, unread("top a key at line 1, column 1")),
        # a last line without a line feed
        ("listen = 1\nx = 2", NO_TEXT, unread("top a key at line 2, column 1")),
        ("[[home]]\n[x]", ABSENT, unread("top a key at line 2, column 2")),
        ("[[home]]\nname = 1\n[[home]]\n\n# windw = 1\n\r\n  windw=1\r\n", ABSENT, unread("home 1 windw at line 7, column 3")),
        ("listen = { windw = 1 }\nlinger.windw = 2\n", NO_TEXT),
        # octets that are no text have no keys
        (b"windw = 1\n# \xff\n", "Toml", no_toml(2, 3, "no UTF-8")),
    ])


# The keys that are read, by part.
READ = {"client": ["address", "secret"], "realm": ["name", "home"],
        "home": ["name", "address", "secret", "window", "queue", "book", "tries", "first_wait", "probe_every", "down_wait", "span", "ring",
                 "ports"]}
# Keys of the top, and whether their names are told: those that two edits or fewer make of a known one.
NEAR = {"lisen": True, "lstn": True, "lst": False, "lixxen": True, "lxxxen": False, "lisxxten": True, "lisxxxten": False, "lisetn": True,
        "isten": True, "istenx": True, "stenx": False, "LIsten": True, "LISten": False, "clnt": True, "cln": False, "hme": True, "ho": True,
        "h": False, "real": True, "realms": True, "reams": True, "rums": False, "default-home": True, "default_homes": True,
        "defaulthomes": True, "default": False, "other-home": True, "otherhome": True, "others_home": True, "orther_homes": True, "other": False,
        "oterhomes": False, "windw": False, "secret": False, "name": True, "ring": False, "homexx": True}


def names_that_are_told():
    """An unread key is told by its name if that is near a known one of its table, since it may be a secret."""
    for name, is_near in NEAR.items():
        yield name, f"{name} = 1\n".encode(), ABSENT, unread(f"top {name if is_near else 'a key'} at line 1, column 1")
    yield "two octets", '"list\u00e9en" = 1\n'.encode(), ABSENT, unread("top list%c3%a9en at line 1, column 1")
    yield "three octets", '"list\u20acen" = 1\n'.encode(), ABSENT, unread("top a key at line 1, column 1")
    yield "a line feed", b'"lis\\nen" = 1\n', ABSENT, unread("top lis%0aen at line 1, column 1")
    for part, keys in READ.items():
        for key in keys:
            for name, told in ((f"{key}zz", f"{key}zz"), (f"zzz{key}", "a key")):
                yield f"{part} {name}", f"[[{part}]]\n{name} = 1\n".encode(), ABSENT, unread(f"{part} 0 {told} at line 2, column 1")


def many_unread_keys():
    """Tables of many unread keys: 20 are listed, in the order of their octets, and the others are counted."""
    for count in (19, 20, 21, 1000):
        text = "[[home]]\n" + lines(f"key-{number} = 1" for number in range(count))
        first = sorted(range(count), key=str)[:MOST_LISTED]
        told = unread(*(f"home 0 a key at line {number + 2}, column 1" for number in first))
        rest = count - len(first)
        yield f"{count} keys", text.encode(), ABSENT, told + ([f"level=warn event=unread-keys count={rest}"] if rest else [])
    tables = '[[home]]\nname = "h[1]"\nwindow = [ 1, { a = 2 } ]\n' * 300
    yield "the last of 300 tables", (tables + "windw = 3\n").encode(), ABSENT, unread("home 299 windw at line 901, column 1")


# The places where texts stop being TOML.

def syntax():
    rows = [
        # a value is missing
        ("listen = ", 1, 10, VALUE),
        ("# one\n\nlisten = \nlinger = 1\n", 3, 10, VALUE),
        # an address without quotation marks
        ("a = 1\nlisten = 127.0.0.1:1813\n", 2, 10, VALUE),
        # a key without a value
        ("listen\n", 1, 7, "key with no value, expected `=`"),
        ('listen "127.0.0.1:1813"\n', 1, 8, "key with no value, expected `=`"),
        # no key
        ("= 5\n", 1, 1, KEY),
        ("[]\n", 1, 2, KEY),
        # headers that are not closed
        ('[[client]\naddress = "10.0.0.1"\n', 1, 10, "unclosed array table, expected `]]`"),
        ("[client\n", 1, 8, "unclosed table, expected `]`"),
        # two pairs on one line, after characters of several octets
        (b'name = "\xc3\xa9\xe2\x82\xac\xf0\x9d\x84\x9e" window = 3\n', 1, 14, LINE),
        # a string that is not closed
        ('a = 1\r\nsecret = "abc\nb = 2\n', 2, 14, "invalid string"),
        # a key that is there twice
        ("listen = 1\nlisten = 2\n", 2, 1, "duplicate key"),
        # an array without a comma between two tables
        ('client = [\n  { address = "10.0.0.1" }\n  { address = "10.0.0.2" }\n]\n', 3, 3,
         "missing comma between array elements, expected `,` or `]`"),
        # a string that is not closed at the end of the text, after a character of two octets
        (b'a = 1\nb = "\xc3\xa9', 2, 7, "invalid string"),
        # the last place of a long text
        ("# seven\n" * 100_000 + "listen = ?", 100_001, 10, VALUE),
    ]
    return alone((text, "Toml", no_toml(line, column, message)) for text, line, column, message in rows)


def octets_that_are_no_text():
    rows = [
        (b"\xff", 1, 1),
        (b'listen = "\x80"\n', 1, 11),
        # an overlong form, after a character of two octets
        (b"# \xc3\xa9\n# \xc3\xa9\xc0\xaf\n", 2, 4),
        # a character that is cut short
        (b"a = 1\n\xe2\x82", 2, 1),
        # half of a pair of surrogates
        (b"# \xed\xa0\x80\n", 1, 3),
        # the text before these octets is not TOML either
        (b"listen = \n\xff", 2, 1),
    ]
    # each place of a text with an empty line, and with characters of two and three octets
    text = "ab\n\n\u00e9\u20acx\n".encode()
    places = [(0, 1, 1), (1, 1, 2), (2, 1, 3), (3, 2, 1), (4, 3, 1), (6, 3, 2), (9, 3, 3), (10, 3, 4), (11, 4, 1)]
    rows += [(text[:offset] + b"\xff", line, column) for offset, line, column in places]
    return alone((text, "Toml", no_toml(line, column, "no UTF-8")) for text, line, column in rows)


def texts_that_are_toml():
    return alone([
        ("", ABSENT),
        ("\ufefflisten = 1\n", NO_TEXT),
        ('listen = "\u00e9"', "BadAddress at top listen"),
        ("# a comment alone", ABSENT),
        ("[[client]]\r\naddress = '10.0.0.1'\r\n", ABSENT),
        ("d = 1979-05-27 07:32:00Z\n", ABSENT, unread("top a key at line 1, column 1")),
    ])


# The faults of home servers' addresses. Those of addresses that a machine need not have are in tests/network/several_addresses.py.

SERVED = "listen serves it, so requests would come back"
NO_HOST = "no host has this address"
BROADCAST, RESERVED, MULTICAST = (f"it is {what} address" for what in ("the broadcast", "a reserved", "a multicast"))


def addresses_of_homes():
    rows = [
        # the address of `listen`, and others
        ("127.0.0.1:1813", "127.0.0.1:1813", SERVED),
        ("192.0.2.7:1813", "192.0.2.7:1813", SERVED),
        ("198.51.100.9:1813", "198.51.100.9:1813", SERVED),
        ("127.0.0.1:1813", "127.0.0.1:1812", None),
        ("127.0.0.1:1813", "127.0.0.2:1813", None),
        ("192.0.2.7:1813", "10.1.2.3:1813", None),
        ("192.0.2.7:1813", "127.0.0.1:1813", None),
        # `listen` on every address of the machine
        ("0.0.0.0:1813", "127.0.0.1:1813", SERVED),
        ("0.0.0.0:1813", "127.255.255.254:1813", SERVED),
        ("0.0.0.0:1813", "0.0.0.0:1813", NO_HOST),
        ("0.0.0.0:1813", "192.0.2.7:1812", None),
        ("0.0.0.0:1813", "192.0.2.8:1813", None),
        ("0.0.0.0:1813", "128.0.0.1:1813", None),
        ("0.0.0.0:1813", "126.255.255.255:1813", None),
        # addresses that no host has
        ("0.0.0.0:1813", "0.0.0.0:1812", NO_HOST),
        ("127.0.0.1:1813", "0.0.0.0:1813", NO_HOST),
        ("127.0.0.1:1813", "0.0.0.1:1813", None),
        ("127.0.0.1:1813", "255.255.255.255:1813", BROADCAST),
        ("127.0.0.1:1813", "255.255.255.254:1813", RESERVED),
        ("127.0.0.1:1813", "240.0.0.0:1813", RESERVED),
        ("127.0.0.1:1813", "239.255.255.255:1813", MULTICAST),
        ("127.0.0.1:1813", "224.0.0.0:1813", MULTICAST),
        ("127.0.0.1:1813", "223.255.255.255:1813", None),
        ("127.0.0.1:1813", "192.0.2.255:1813", None),
        ("127.0.0.1:1813", "198.51.100.20:1813", None),
    ]
    for listen, home, reason in rows:
        told = [] if reason is None else [warning("home-address", f"home h1 at {home}: {reason}")]
        yield f"listen {listen}, home {home}", addressed(f'listen = "{listen}"\n', home=home), None, told


# Six home servers, each with a fault of its address except the second.
SIX = {
    "first.one": ("127.0.0.1:1813", SERVED),
    "second": ("198.51.100.20:1813", None),
    "third": ("224.0.0.9:1813", MULTICAST),
    "fourth": ("0.0.0.0:2813", NO_HOST),
    "fifth": ("255.255.255.255:1813", BROADCAST),
    "sixth": ("250.1.2.3:1813", RESERVED),
}


def homes_in_their_order():
    tables = [f'[[home]]\nname = "{name}"\naddress = "{at}"\nsecret = "s"' for name, (at, _) in SIX.items()]
    told = [warning("home-address", f"home {name} at {at}: {reason}") for name, (at, reason) in SIX.items() if reason]
    yield "six home servers", ('listen = "0.0.0.0:1813"\n' + CLIENT + lines(tables)).encode(), None, told


TABLES = [unread_keys, names_that_are_told, many_unread_keys, syntax, octets_that_are_no_text, texts_that_are_toml, addresses_of_homes,
          homes_in_their_order]
