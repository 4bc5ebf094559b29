"""Configurations as a person writes them at first, each with all that `check` tells of it: each fault, and what is hardly meant.

usage: python3 -m tests.configuration.told_faults PROGRAM

The lines were written by hand, by docs/formats.md. Each text is read by `check` with a log, whose lines have to be these, and by `check`
without one, which tells the first fault alone. The last line is `N passed, M failed`, of what was looked at.
"""
from tests.lib import TOP
from tests.lib.configurations import CLIENT, HOME, LISTEN, REALM, lines, try_tables, warning

MOST = 50
# The secrets of the rules' own example and of examples/try.toml, which stay without a word.
KNOWN = {"nas-secret", "home-secret"}


def fault(told):
    return f'level=error event=configuration-fault reason="{told}"'


# What was carried over from another proxy's configuration.
CARRIED_OVER = """listen = "0.0.0.0"
default_home = "billing"

[[client]]
address = "10.2.0.0/16"
secret = "kept from the other proxy"

[[client]]
address = "nas-7.example.org"
secret = "kept from the other proxy"

[[client]]
address = "2001:db8::7"
secret = "kept from the other proxy"

[[client]]
address = "10.3.0.1:1813"
secret = "kept from the other proxy"

[[client]]
address = "10.3.0.001"
secret = "kept from the other proxy"

[[client]]
address = "10.4.0.1"
secret = ""

[[client]]
address = "10.4.0.1"

[[home]]
name = "billing 1"
address = "radius.example.org"
secret = 12345678
window = 512

[[home]]
name = "partner"
address = "198.51.100.20"
secret = "kept from the other proxy"
first_wait = "2s"

[[home]]
name = "partner"
address = "[2001:db8::9]:1813"
secret = "kept from the other proxy"

[[home]]
name = "spare"
address = "10.9.0.0/24:1813"
secret = "kept from the other proxy"

[[home]]
name = "last"
address = "198.51.100.21:0"
secret = "kept from the other proxy"

[[realm]]
name = "example.org"
home = "biling"

[[realm]]
name = "bob@example.net"
home = "partner"

[[realm]]
name = "Example.ORG"
"""
FAULTS_CARRIED_OVER = [
    "BadAddress at top listen at line 1, column 1: 0.0.0.0: the port is missing",
    "BadAddress at client 0 address at line 5, column 1: 10.2.0.0/16: it is a block: one [[client]] for each address",
    "BadAddress at client 1 address at line 9, column 1: it is a host name, not an address",
    "BadAddress at client 2 address at line 13, column 1: it is IPv6: IPv4 alone is served",
    "BadAddress at client 3 address at line 17, column 1: 10.3.0.1:1813: it has a port: a client has none",
    "BadAddress at client 4 address at line 21, column 1: 10.3.0.001: four numbers from 0 to 255, joined by dots, none with a 0 before it",
    "OutOfRange at client 5 secret at line 26, column 1: 1 to 128 octets",
    "DoubleName at client 6 address at line 29, column 1: 10.4.0.1: the first one is at line 25",
    "Missing at client 6 secret at line 28, column 3: it is needed",
    "OutOfRange at home 0 name at line 32, column 1: 1 to 64 letters, digits, -, _ and .",
    "BadAddress at home 0 address at line 33, column 1: it is a host name, not an address",
    "WrongType at home 0 secret at line 34, column 1: a text in quotation marks",
    "OutOfRange at home 0 window at line 35, column 1: 512: 1 to 256 x ports - 2",
    "BadAddress at home 1 address at line 39, column 1: 198.51.100.20: the port is missing",
    "WrongType at home 1 first_wait at line 41, column 1: a whole number without quotation marks",
    "DoubleName at home 2 name at line 44, column 1: the first one is at line 38",
    "BadAddress at home 2 address at line 45, column 1: it is IPv6: IPv4 alone is served",
    "BadAddress at home 3 address at line 50, column 1: 10.9.0.0/24:1813: it is a block, not an address and port",
    "BadAddress at home 4 address at line 55, column 1: 198.51.100.21:0: an address and a port from 1 to 65535, as in 192.0.2.1:1813",
    "UnknownHome at realm 0 home at line 60, column 1: no [[home]] has this name",
    "OutOfRange at realm 1 name at line 63, column 1: 1 to 252 octets, none of them @",
    "DoubleName at realm 2 name at line 67, column 1: the first one is at line 59",
    "Missing at realm 2 home at line 66, column 3: it is needed",
    "UnknownHome at top default_home at line 2, column 1: no [[home]] has this name",
]
# The numbers of a home server beyond their ranges, each with the range.
NUMBERS = {"ports": (5, "1 to 4"), "window": (300, "1 to 256 x ports - 2"), "queue": (65537, "1 to 65536"), "book": (0, "1 to 1000000"),
           "tries": (11, "1 to 10"), "first_wait": (2, "100 to 60000"), "probe_every": (10, "1000 to 600000"),
           "down_wait": (60, "1000 to 3600000"), "span": (600001, "0 to 600000"), "ring": (5000, "1 to 4096")}
# Values of an address, each with its fault, and with what is told behind the place: the value is told if it has digits, `.`, `:` and `/`
# alone, since it may be a secret.
FOUR, TEXT = ": four numbers from 0 to 255, joined by dots, none with a 0 before it", ": a text in quotation marks"
BAD, WRONG = "BadAddress", "WrongType"
VALUES = {'""': (BAD, f": {FOUR}"), '"0"': (BAD, f": 0{FOUR}"), '"10.0.0.256"': (BAD, f": 10.0.0.256{FOUR}"),
          '"0123456789./:"': (BAD, ": 0123456789./:: it is a block: one [[client]] for each address"),
          '"1::2"': (BAD, ": 1::2: it is IPv6: IPv4 alone is served"), '"10.0.0.1-"': (BAD, FOUR), '"10.0.0.1;"': (BAD, FOUR),
          '"10.0.0.1 "': (BAD, FOUR), '"10,0.0.1"': (BAD, FOUR), '"\u0661"': (BAD, FOUR),
          '"10.0.0.1/x"': (BAD, ": it is a block: one [[client]] for each address"),
          '"a::"': (BAD, ": it is IPv6: IPv4 alone is served"), '"a:1"': (BAD, ": it has a port: a client has none"),
          '"x"': (BAD, ": it is a host name, not an address"), "12345678": (WRONG, f": 12345678{TEXT}"), "-12345678": (WRONG, TEXT),
          "1.5": (WRONG, TEXT), "true": (WRONG, TEXT), '["x"]': (WRONG, TEXT), "1979-05-27": (WRONG, TEXT),
          f'"{"1" * 64}"': (BAD, f": {'1' * 64}{FOUR}"), f'"{"1" * 65}"': (BAD, f": {'1' * 64}..{FOUR}")}
# A secret below 8 octets is hardly meant, so these have more.
INLINE = 'client = [ { address = "10.0.0.1", secret = "long enough" }, { secret = "long enough" } ]\n'


def faults():
    yield "carried over", CARRIED_OVER, FAULTS_CARRIED_OVER
    yield "an empty file", "", ["Missing at top listen: it is needed", "Missing at top client: at least one [[client]] is needed",
                               "Missing at top home: at least one [[home]] is needed"]
    yield "one bracket", 'listen = "0.0.0.0:1813"\n[client]\naddress = "10.0.0.1"\n' + HOME + "[realm]\n", [
        "WrongType at top client at line 2, column 2: a table for each, under the header [[client]]",
        "WrongType at top realm at line 8, column 2: a table for each, under the header [[realm]]"]
    yield "no quotation marks", LISTEN + "default_home = 1\nlinger = true\nhome = 7\nother_home = 8\n" + CLIENT, [
        "WrongType at top default_home at line 2, column 1: 1: a text in quotation marks",
        "WrongType at top other_home at line 5, column 1: 8: a text in quotation marks",
        "WrongType at top linger at line 3, column 1: a whole number without quotation marks",
        "WrongType at top home at line 4, column 1: 7: a table for each, under the header [[home]]"]
    yield "no home server of these names", 'other_home = "h2"\n' + LISTEN + 'default_home = "h3"\n' + CLIENT + HOME + REALM, [
        "UnknownHome at top default_home at line 3, column 1: no [[home]] has this name",
        "UnknownHome at top other_home at line 1, column 1: no [[home]] has this name"]
    yield "seconds", LISTEN + "linger = 600001\n" + CLIENT + HOME + REALM, [
        "OutOfRange at top linger at line 2, column 1: 600001: 0 to 600000"]
    yield "too many", LISTEN + CLIENT + HOME + lines(f'[[realm]]\nname = "r{n}"\nhome = "h1"' for n in range(257)), [
        "TooMany at top realm at line 9, column 3: at most 256"]
    yield "too many home servers", LISTEN + CLIENT + "[[home]]\n" * 65, ["TooMany at top home at line 5, column 3: at most 64"]
    yield "one value", INLINE + LISTEN + HOME, [
        "Missing at client 1 address at line 1, column 1: it is needed"]
    for key, (number, hint) in NUMBERS.items():
        yield key, LISTEN + CLIENT + HOME + f"{key} = {number}\n" + REALM, [
            f"OutOfRange at home 0 {key} at line 9, column 1: {number}: {hint}"]
    for value, told in VALUES.items():
        yield f"an address {value}", LISTEN + f"[[client]]\naddress = {value}\nsecret = \"long enough\"\n" + HOME + REALM, [
            f"{told[0]} at client 0 address at line 3, column 1{told[1]}"]
    for number in (-1, -9223372036854775808):
        yield f"{number}", LISTEN + CLIENT + HOME + f"queue = {number}\n" + REALM, [
            "OutOfRange at home 0 queue at line 9, column 1: 1 to 65536"]
    for count in (MOST, MOST + 1, 3 * MOST):
        text = LISTEN + CLIENT + HOME + lines(f'[[realm]]\nname = "r{n}"\nhome = "h{n + 2}"' for n in range(count))
        yield f"{count} faults", text, [
            f"UnknownHome at realm {n} home at line {11 + 3 * n}, column 1: no [[home]] has this name" for n in range(count)]


def told_faults():
    for what, text, told in faults():
        more = [f"level=error event=configuration-faults count={len(told) - MOST}"] if len(told) > MOST else []
        yield what, text.encode(), told[0].partition(" at line ")[0].partition(":")[0], [*map(fault, told[:MOST]), *more]


# What is read and hardly meant. Each text is a whole one with one part changed, and each has one line, with its place.

SECRET, NAME = 'secret = "{}"\n', 'name = "{}"\n'
SHORT, CONTROL, EXAMPLE = ("it has fewer than 8 octets", "it has a control character, as a backslash makes one in quotation marks",
                           "an example has this secret")
EACH_REALM = "a realm of this name, not each realm: other_home takes all that are not listed"
NO_REALM = "a realm of this name: default_home takes names without a realm, other_home all realms that are not listed"
TILDE = "it begins with ~, but a realm is a name, not a pattern: other_home takes all that are not listed"


def hardly_meant():
    whole = LISTEN + CLIENT + HOME + REALM
    secrets = [("1234567", SHORT), ("12345678", None), ("a\\bcdefgh", CONTROL), ("a\\tb", CONTROL), ("abcdefg\\u007f", CONTROL),
               ("abcdefg\\u001f", CONTROL), ("abcdef\\u0020~", None), ("é" * 4, None), ("abc\\u00e9\\u00e9", SHORT)]
    for secret, doubt in secrets:
        for place, line, old in (("client 0", 4, "nas-secret"), ("home 0", 8, "home-secret")):
            told = [] if doubt is None else [warning("weak-secret", f"{place} secret at line {line}, column 1: {doubt}")]
            yield f"{place} {secret}", whole.replace(SECRET.format(old), SECRET.format(secret)), told
    names = [*((name, EACH_REALM) for name in ("*", "DEFAULT", "default", "Default")), *((name, NO_REALM) for name in ("NULL", "null")),
             *((name, TILDE) for name in ("~", "~.*", "~^.*\\\\.org$")),
             ("/example\\\\.(org|net)$/", "it begins with /, but a realm is a name, not a pattern"),
             ("/", "it begins with /, but a realm is a name, not a pattern"),
             ("example.org.", "it ends with a dot, as hardly a user's realm does"),
             (".", "it ends with a dot, as hardly a user's realm does"),
             ("**", None), ("*.example.org", None), (".example.org", None), ("example.org/", None), ("DEFAULTS", None), ("nul", None),
             ("NULL.example", None), ("example~", None), ("~.", TILDE), ("DEFAULT.", "it ends with a dot, as hardly a user's realm does")]
    for name, doubt in names:
        told = [] if doubt is None else [warning("realm-name", f"realm 0 name at line 10, column 1: {doubt}")]
        yield f"realm {name}", whole.replace(NAME.format("example.org"), NAME.format(name)), told
    nowhere = [warning("no-realm", "top realm: no realm and no default_home, so each request is dropped")]
    yield "no realm and no default", LISTEN + CLIENT + HOME, nowhere
    yield "an array of no realms", LISTEN + "realm = []\n" + CLIENT + HOME, [nowhere[0].replace("realm:", "realm at line 2, column 1:")]
    yield "a default alone", LISTEN + 'default_home = "h1"\n' + CLIENT + HOME, []
    yield "one for all other realms alone", LISTEN + 'other_home = "h1"\n' + CLIENT + HOME, []
    spare = '[[home]]\nname = "h2"\naddress = "127.0.0.1:2814"\nsecret = "long enough"\n'
    unused = warning("unused-home", "home 1 name at line 13, column 1: no realm and no default_home lead to it")
    yield "a home server that nothing leads to", whole + spare, [unused]
    yield "one that is the default", 'default_home = "h2"\n' + whole + spare, []
    yield "one for all other realms", 'other_home = "h2"\n' + whole + spare, []
    yield "the first one", 'default_home = "h2"\n' + LISTEN + CLIENT + HOME + spare, [
        unused.replace("home 1", "home 0").replace("line 13", "line 7")]
    lead = '[[realm]]\nname = "example.net"\nhome = "h2"\n'
    yield "one that a realm leads to", whole + spare + lead, []
    twice = warning("shared-address", "home 1 address at line 14, column 1: an earlier home server has this address and port")
    yield "one address and port", whole + spare.replace("2814", "2813") + lead, [twice]
    yield "one address", whole + spare.replace("2814", "2812") + lead, []
    yield "one port", whole + spare.replace("127.0.0.1:2814", "127.0.0.2:2813") + lead, []
    short = warning("short-span", "home 0 span at line 9, column 1: below 5000 ms, so a late repeat is sent on as a new request")
    for span, told in ((30, [short]), (0, [short]), (4999, [short]), (5000, []), (30000, [])):
        yield f"span {span}", LISTEN + CLIENT + HOME + f"span = {span}\n" + REALM, told
    yield "0.0.0.0", 'listen = "0.0.0.0:1813"\n' + CLIENT + HOME.replace("127.0.0.1:2813", "0.0.0.0:1813") + REALM, [
        warning("home-address", "home h1 at 0.0.0.0:1813: no host has this address")]
    yield "all in their order", ('listen = "127.0.0.1:1813"\n' + CLIENT.replace("nas-secret", "short") + HOME + HOME.replace("h1", "h2")
                                 + "span = 30\n" + REALM.replace("example.org", "*")), [
        warning("weak-secret", f"client 0 secret at line 4, column 1: {SHORT}"),
        warning("unused-home", "home 1 name at line 10, column 1: no realm and no default_home lead to it"),
        warning("shared-address", "home 1 address at line 11, column 1: an earlier home server has this address and port"),
        warning("short-span", "home 1 span at line 13, column 1: below 5000 ms, so a late repeat is sent on as a new request"),
        warning("realm-name", f"realm 0 name at line 15, column 1: {EACH_REALM}")]
    for count in (MOST, MOST + 1, 3 * MOST):
        text = LISTEN + lines(f'[[client]]\naddress = "10.0.0.{n}"\nsecret = "short"' for n in range(count)) + HOME + REALM
        more = [f"level=warn event=configuration-warnings count={count - MOST}"] if count > MOST else []
        yield f"{count} secrets", text, [*(warning("weak-secret", f"client {n} secret at line {4 + 3 * n}, column 1: {SHORT}")
                                           for n in range(min(count, MOST))), *more]
    yield from secrets_of_examples(whole)


def secrets_of_examples(whole):
    """Each secret of the installed examples that is to be replaced."""
    for file in sorted(TOP.glob("examples/*.toml")):
        texts = {line.split('"')[1] for line in file.read_text("utf-8").splitlines() if line.startswith("secret = ")}
        for secret in sorted(texts - KNOWN):
            yield f"{file.name}: {secret}", whole.replace("nas-secret", secret), [
                warning("weak-secret", f"client 0 secret at line 4, column 1: {EXAMPLE}")]


def told_of_what_is_hardly_meant():
    for what, text, told in hardly_meant():
        yield what, text.encode(), None, told


if __name__ == "__main__":
    try_tables(__doc__, told=[told_faults, told_of_what_is_hardly_meant])
