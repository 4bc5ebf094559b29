"""Mistakes of a configuration, each with all that `rad_proxyctl check` prints of it in one go, on a terminal as into a pipe.

usage: python3 -m tests.tools.check PROGRAM [NAME ..]

The lines were written by hand: those of the program by docs/formats.md, the others by rad_proxyctl(8). A row is a text, the lines that are
told of it, and the last line, which is that of `rad_proxy check`. The last line is `N passed, M failed`.
"""
import os
import pty
import re
import subprocess
import tomllib

from tests.lib import TOP, environment, hope, need, try_in_folders
from tests.lib.configurations import CLIENT, HOME, LISTEN, REALM, warning
from tests.lib.tools.running import run

SECONDS = 60
WHOLE = LISTEN.replace("127.0.0.1", "0.0.0.0") + CLIENT + HOME + REALM
COUNTS, TOML = "clients 1 homes 1 realms 1", "configuration: Toml"
MISCONFIGURED, DOUBTFUL = 2, 3
# The lines of WHOLE: `listen` 1, the client's address 3 and secret 4, the home server's name 6, address 7 and secret 8, the realm's name 10.
PLACES = {"top listen": 1, "client 0 address": 3, "client 0 secret": 4, "home 0 address": 7, "home 0 secret": 8, "realm 0 name": 10}
BLANKS, KNOWN = "it begins or ends with a blank", "pages of other servers have this secret"
VARIABLE, HIDDEN = "it looks like a variable, which nothing replaces", "it has a character that is not shown"
SHORT = "it has fewer than 8 octets"
NO_HOST = "no host sends from it: one [[client]] for each address"
HERE_ALONE = "it does not reach listen, which is an address of this machine for itself"
LEAVES = "a realm of this name"
PATTERN = "it has a character of a pattern, but a realm is a name"
ENDING = "it begins with * or ., but a realm is a whole name, not the end of one"
AUTHENTICATION = "port 1812 is for authentication: accounting has 1813"
OLD_AUTHENTICATION = "port 1645 is for authentication: accounting has 1646 or 1813"
AUTHORIZATION = "port 3799 is for changes of authorization: accounting has 1813"
OVER_TLS = "port 2083 is for RADIUS over TLS: accounting over UDP has 1813"
WAITING = "new requests are refused (BookFull) before the queue is full"


class Tool:
    """The installed rad_proxyctl, in a folder."""

    def __init__(self, program, folder):
        subprocess.run(["make", "-s", "install-proxy", f"PREFIX={folder}/usr", f"SYSCONFDIR={folder}/etc", f"RUNDIR={folder}/run",
                        f"STATEDIR={folder}/var", f"PROGRAM={program}"], cwd=TOP, check=True)
        self.ctl, self.file = folder / "usr/sbin/rad_proxyctl", folder / "it.toml"

    def told(self, text, *words):
        """The status, and the lines that are printed into a pipe."""
        self.file.write_bytes(text if isinstance(text, bytes) else text.encode())
        done = subprocess.run([self.ctl, "check", *words, self.file], capture_output=True, env=environment(), timeout=SECONDS, check=False)
        hope("on standard error", done.stderr, b"")
        return done.returncode, done.stdout.decode().splitlines()

    def shown(self, *words):
        """The lines that are printed on a terminal, of the same file."""
        master, slave = pty.openpty()
        with subprocess.Popen([self.ctl, "check", *words, self.file], stdout=slave, stderr=slave, env=environment()) as ran:
            os.close(slave)
            octets = b""
            try:
                while part := os.read(master, 65536):
                    octets += part
            except OSError:
                pass
            os.close(master)
            ran.wait(SECONDS)
        return octets.decode().splitlines()


def without_numbers(lines):
    """The lines that are told of a configuration, without those of what its numbers carry."""
    return [line for line in lines if not line.startswith(("home ", "  "))]


def fault(reason):
    return f'level=error event=configuration-fault reason="{reason}"'


def bracket(line, part):
    return f'level=error event=one-bracket reason="line {line}, column 1: [{part}] has to be [[{part}]]"'


def no_toml(line, column, message):
    return f'level=error event=no-toml reason="line {line}, column {column}: {message}"'


def doubt(spot, event, reason, line=None):
    return warning(event, f"{spot} at line {line or PLACES[spot]}, column 1: {reason}")


def of_ports():
    for port, reason in ((1812, AUTHENTICATION), (1645, OLD_AUTHENTICATION), (3799, AUTHORIZATION), (2083, OVER_TLS), (1813, None),
                         (1646, None), (11812, None)):
        yield WHOLE.replace("0.0.0.0:1813", "0.0.0.0:1999").replace("2813", str(port)), (
            [doubt("home 0 address", "port", reason)] if reason else [])
        yield WHOLE.replace("1813", str(port)), [doubt("top listen", "port", reason)] if reason else []


def of_linger():
    short = "a stop waits for answers for {} ms, which are no seconds"
    long = "beyond 80000 ms: TimeoutStopSec of the unit ends the service before, where it is 110"
    for linger, reason in ((0, None), (1, short.format(1)), (10, short.format(10)), (999, short.format(999)), (1000, None), (80000, None),
                           (80001, long), (600000, long)):
        yield f"linger = {linger}\n{WHOLE}", [warning("linger", f"top linger at line 1, column 1: {reason}")] if reason else []


def of_clients():
    for address, reason in (("0.0.0.0", NO_HOST), ("0.1.2.3", NO_HOST), ("224.0.0.1", NO_HOST), ("255.255.255.255", NO_HOST),
                            ("223.255.255.255", None), ("1.0.0.0", None), ("127.0.0.1", None)):
        yield WHOLE.replace("10.0.0.1", address), [doubt("client 0 address", "client-address", reason)] if reason else []
    alone = WHOLE.replace("0.0.0.0", "127.0.0.1")
    yield alone, [doubt("client 0 address", "client-address", HERE_ALONE)]
    yield alone.replace("10.0.0.1", "127.0.0.9"), []
    yield alone.replace("127.0.0.1:1813", "192.0.2.7:1813"), []


def of_secrets():
    for secret, reason in (("testing123", KNOWN), ("Testing123", KNOWN), ("testing1234", None), ("changeme", KNOWN), ("xyzzy5461", KNOWN),
                           ("a long secret ", BLANKS), (" a long secret", BLANKS), ("a long  secret", None),
                           ("a long secret\u00a0", BLANKS), ("a long\u200bsecret", HIDDEN), ("a long secr\u00e9t", None),
                           ("${RADIUS_SECRET}", VARIABLE), ("$ENV{SECRET}", VARIABLE), ("%{secret:nas}", VARIABLE), ("{{ secret }}", VARIABLE),
                           ("<the secret>", VARIABLE), ("@SECRET@", VARIABLE), ("a$long{secret}", None)):
        for spot, old in (("client 0 secret", "nas-secret"), ("home 0 secret", "home-secret")):
            yield WHOLE.replace(f'"{old}"', f'"{secret}"'), [doubt(spot, "weak-secret", reason)] if reason else []


NULL = "a realm of this name: default_home takes names without a realm, other_home all realms that are not listed"


def of_realms():
    told = "a realm of this name, not each realm: other_home takes all that are not listed"
    for name, reason in (("DEFAULT", told), ("default", told), ("*", told),
                         ("NULL", NULL), ("LOCAL", f"FreeRADIUS has it for its own users; here it is {LEAVES}"),
                         ("~^(.*\\\\.)?example\\\\.org$", "it begins with ~, but a realm is a name, not a pattern: other_home takes all that are not listed"),
                         ("example.(org|net)", PATTERN),
                         ("corp\\\\users", PATTERN), ("*.example.org", ENDING), (".example.org", ENDING), ("example.org ", "it has a blank"),
                         (" example.org", "it has a blank"), ("example .org", "it has a blank"), ("example-1.org", None), ("b\u00fccher.de", None)):
        yield WHOLE.replace('"example.org"', f'"{name}"'), [doubt("realm 0 name", "realm-name", reason)] if reason else []


def of_numbers():
    for keys, line, event, reason in (
            ("book = 4159\n", 9, "small-book", f"below queue and window together, 4160: {WAITING}"), ("book = 4160\n", 9, "", None),
            ("queue = 65536\nbook = 60000\n", 10, "small-book", f"below queue and window together, 65600: {WAITING}"),
            ("tries = 1\n", 9, "one-try", "one datagram that is lost has it marked down"), ("tries = 2\n", 9, "", None)):
        spot = "home 0 tries" if "tries" in keys else "home 0 book"
        yield WHOLE.replace(REALM, keys + REALM), [doubt(spot, event, reason, line)] if reason else []
    yield WHOLE.replace(REALM, "queue = 65536\nwindow = 1\n" + REALM).replace("window = 1", "ring = 9\nbook = 1"), [
        doubt("home 0 book", "small-book", f"below queue and window together, 65600: {WAITING}", 11)]


def looked_at(rows, program, folder):
    """Looks at texts that have no fault: what is told, that --strict minds it, and the counts."""
    tool, count = Tool(program, folder), 0
    for text, told in rows():
        status, lines = tool.told(text, "--strict")
        hope(text, (status, without_numbers(lines)), (DOUBTFUL if told else 0, [*told, COUNTS]))
        count += 1
    need(count > 4, count, "rows")


def ports_of_other_services(program, folder):
    """A port of authentication, of changes of authorization or of TLS is told, at `listen` and at a home server."""
    looked_at(of_ports, program, folder)


def times_of_a_stop(program, folder):
    """A `linger` that is meant in seconds is told, and one that systemd does not wait for."""
    looked_at(of_linger, program, folder)


def addresses_of_clients(program, folder):
    """Addresses that nothing is sent from are told, and those that do not reach `listen`."""
    looked_at(of_clients, program, folder)


def secrets_that_are_none(program, folder):
    """Known secrets, blanks at an end, letters that are not shown and variables are told, of clients and home servers."""
    looked_at(of_secrets, program, folder)


def names_that_are_no_realms(program, folder):
    """Words of FreeRADIUS, patterns, endings and blanks are told."""
    looked_at(of_realms, program, folder)


def numbers_that_do_not_fit(program, folder):
    """A book below queue and window is told, and one try."""
    looked_at(of_numbers, program, folder)


# Faults and doubts together: what is wrong in one go, with the lines of the file, whatever stands before it.

TWO_BRACKETS = f"""{LISTEN}[[client]]
address = "10.0.0.1"
secret = "testing123"
[home]
name = "h1"
address = "198.51.100.20:1812"
secret = "a long secret "
[home]
name = "h 2"
address = "198.51.100.21:1813"
secret = "a long secret"
[[realm]]
name = "example.org"
home = "h1"
"""
NOT_TOML = f"""{LISTEN}linger = 10
[[client]]
address = 10.0.0.1
secret = "testing123
[[client]]
address = "10.0.0.2"
secret = "abc"
[[home]]
name = "h1"
address = "198.51.100.20:1812"
secret = "a long secret"
window = 300
first_wait = 06
secret = "another one"
[[realm]
name = "example.org"
home = "h2"
"""
WITHOUT = """[[client]]
secret = "testing123"
[[home]]
name = "h1"
secret = "short"
tries = 1
[[realm]]
name = "NULL"
"""
SECOND = HOME.replace("h1", "h2").replace("2813", "2814")
UNCLOSED = WHOLE.replace('"nas-secret"', '"testing123"').replace('"home-secret"', '"""home-secret').replace("2813", "1812")
SEVERAL_LINES = WHOLE.replace('"h1"\naddress', '"""\nh 1"""\naddress', 1).replace('"nas-secret"', '"testing123"')
ARRAY = LISTEN + 'client = [\n { address = "10.0.0.1", secret = "a" }\n { address = "0.0.0.0", secret = "testing123" },\n]\n' + HOME + REALM
MANY = WHOLE[:WHOLE.index("[[home]]")].replace("nas-secret", "testing123") + "".join(
    HOME.replace("h1", f"s{number}").replace("2813", str(3000 + number)) for number in range(64)) + REALM
REASON = "invalid value, expected a string, number, boolean, date-time, array or inline table"


def of_faults():
    yield "two homes with one bracket", TWO_BRACKETS, [
        bracket(5, "home"), bracket(9, "home"),
        fault("OutOfRange at home 1 name at line 10, column 1: 1 to 64 letters, digits, -, _ and ."),
        doubt("client 0 address", "client-address", HERE_ALONE, 3), doubt("client 0 secret", "weak-secret", KNOWN, 4),
        doubt("home 0 address", "port", AUTHENTICATION, 7), doubt("home 0 secret", "weak-secret", BLANKS, 8)], TOML
    yield "one home with one bracket", WHOLE.replace("[[home]]", "[home]").replace("2813", "1812"), [
        bracket(5, "home"), doubt("home 0 address", "port", AUTHENTICATION)], "configuration: WrongType at top home"
    yield "one bracket behind two", WHOLE + HOME.replace("[[home]]", "[home] # spare").replace("h1", "h2"), [
        bracket(12, "home"), warning("unused-home", "home 1 name at line 13, column 1: no realm and no default_home lead to it"),
        warning("shared-address", "home 1 address at line 14, column 1: an earlier home server has this address and port")], TOML
    yield "five faults of TOML, and others", NOT_TOML, [
        no_toml(4, 11, REASON), no_toml(5, 21, "invalid string"), no_toml(14, 14, REASON), no_toml(15, 1, "duplicate key"),
        no_toml(16, 9, "unclosed array table, expected `]]`"),
        fault("OutOfRange at home 0 window at line 13, column 1: 300: 1 to 256 x ports - 2"),
        fault("UnknownHome at realm 0 home at line 18, column 1: no [[home]] has this name"),
        doubt("client 1 secret", "weak-secret", SHORT, 8),
        doubt("top linger", "linger", "a stop waits for answers for 10 ms, which are no seconds", 2),
        doubt("client 1 address", "client-address", HERE_ALONE, 7), doubt("home 0 address", "port", AUTHENTICATION, 11)], TOML
    yield "what is not there", WITHOUT, [
        fault("Missing at top listen: it is needed"), fault("Missing at client 0 address at line 1, column 3: it is needed"),
        fault("Missing at home 0 address at line 3, column 3: it is needed"), fault("Missing at realm 0 home at line 7, column 3: it is needed"),
        doubt("home 0 secret", "weak-secret", SHORT, 5), doubt("realm 0 name", "realm-name", NULL, 8),
        doubt("client 0 secret", "weak-secret", KNOWN, 2),
        doubt("home 0 tries", "one-try", "one datagram that is lost has it marked down", 6)], (
        "configuration: Missing at top listen")
    for key in ("default_home", "other_home"):
        yield f"{key} names none, which may have been meant for the second", f'{key} = "h3"\n' + WHOLE + SECOND, [
            fault(f"UnknownHome at top {key} at line 1, column 1: no [[home]] has this name")], f"configuration: UnknownHome at top {key}"
    yield "a text that is not closed", UNCLOSED, [
        no_toml(12, 1, "invalid string"), doubt("client 0 secret", "weak-secret", KNOWN),
        doubt("home 0 address", "port", AUTHENTICATION)], TOML
    yield "a text of several lines", SEVERAL_LINES, [
        fault("OutOfRange at home 0 name at line 6, column 1: 1 to 64 letters, digits, -, _ and ."),
        fault("UnknownHome at realm 0 home at line 12, column 1: no [[home]] has this name"),
        doubt("client 0 secret", "weak-secret", KNOWN)], "configuration: OutOfRange at home 0 name"
    yield "an array of several lines", ARRAY, [
        no_toml(4, 2, "missing comma between array elements, expected `,` or `]`")], TOML
    yield "as many home servers as there may be", MANY, [
        fault("UnknownHome at realm 0 home at line 263, column 1: no [[home]] has this name"), doubt("client 0 secret", "weak-secret", KNOWN)], (
        "configuration: UnknownHome at realm 0 home")
    yield "octets that are no text", WHOLE.replace("h1", "h\xff1", 1).encode("latin-1"), [
        no_toml(6, 10, "no UTF-8"), fault("OutOfRange at home 0 name at line 6, column 1: 1 to 64 letters, digits, -, _ and ."),
        fault("UnknownHome at realm 0 home at line 11, column 1: no [[home]] has this name")], TOML


def all_in_one_go(program, folder):
    """A fault of TOML hides neither other faults nor doubts, and a fault hides no doubt; on a terminal it is the same as in a pipe."""
    tool = Tool(program, folder)
    for what, text, told, last in of_faults():
        status, lines = tool.told(text, "--strict")
        hope(what, (status, lines), (MISCONFIGURED, [*told, last]))
        hope(f"{what}, on a terminal", tool.shown("--strict"), lines)


def fifty_doubts_are_told_one_by_one(program, folder):
    """Of the doubts that the program does not tell, the first fifty are told, and how many others there are."""
    tool = Tool(program, folder)
    for count in (50, 51):
        realms = "".join(REALM.replace("example.org", f"r{at}$") for at in range(count))
        told = [warning("realm-name", f"realm {at} name at line {10 + 3 * at}, column 1: {PATTERN}") for at in range(50)]
        more = [f"level=warn event=configuration-warnings count={count - 50}"] if count > 50 else []
        hope(f"{count} doubts", without_numbers(tool.told(WHOLE.replace(REALM, realms), "--strict")[1]), [*told, *more, f"clients 1 homes 1 realms {count}"])


# What the numbers carry.

BLOCKS = """\
  window = 254; first_wait = 6000: if it takes more than two seconds an answer under load
  first_wait = 1000; tries = 2; probe_every = 1000: if it is rather absent than slow
  queue = 65536; book = 200000: if thousands of requests come at once, as after a restart of access servers
""".splitlines()
NUMBERS = """window = 254
first_wait = 6000
queue = 1000
"""


def what_the_numbers_carry(program, folder):
    """`window` by `first_wait`, and by --rate the time of an answer, the seconds of the queue, and whether the book suffices."""
    tool = Tool(program, folder)
    two = WHOLE.replace(REALM, HOME.replace("h1", "h2").replace("2813", "2814") + NUMBERS + REALM + REALM.replace("h1", "h2").replace("org", "net"))
    slow = "home h2: 42 a second where an answer takes first_wait, 6000 ms (window 254)"
    default = "home h1: 32 a second where an answer takes first_wait, 2000 ms (window 64)"
    advised = ["home h1: the default numbers. Better ones, by how it answers:", *BLOCKS]
    count = "clients 1 homes 2 realms 2"
    hope("without a rate", tool.told(two, "--strict"), (0, [count, f"{default}; 4096 more wait (queue)", f"{slow}; 1000 more wait (queue)", *advised]))
    hope("at 200 a second", tool.told(two, "--strict", "--rate", "200"), (0, [
        count, f"{default}; at 200 a second an answer may take 320 ms, and the queue of 4096 holds 20 s",
        f"{slow}; at 200 a second an answer may take 1270 ms, and the queue of 1000 holds 5.0 s", *advised]))
    small = "below what a span brings at {} a second, queue and window together, {}: new requests are refused (BookFull)"
    status, lines = tool.told(two, "--strict", "--rate=3200")
    hope("at 3200 a second", (status, [line for line in lines if line.startswith("level=")]), (DOUBTFUL, [
        warning("small-book", f"home 0 book: {small.format(3200, 100160)}")]))
    hope("at 3194 a second", tool.told(two, "--strict", "--rate", "3194")[0], 0)
    own = tool.told(WHOLE.replace(REALM, "tries = 4\n" + REALM), "--strict")
    hope("with a number of its own", own, (0, [COUNTS, f"{default}; 4096 more wait (queue)"]))
    for words in (("--rate", "0"), ("--rate", "x"), ("--rate", "-1"), ("--rate", "010"), ("--rate",), ("--rate=",)):
        done = subprocess.run([tool.ctl, "check", *words], capture_output=True, check=False)
        hope(f"{words}", (done.returncode, done.stdout, done.stderr[:7]), (1, b"", b"usage: "))


# The recommended numbers, wherever they stand.

SLOW, AWAY = {"window": 254, "first_wait": 6000}, {"first_wait": 1000, "tries": 2, "probe_every": 1000}
BURSTS = {"queue": 65536, "book": 200_000}
OWN = ("name", "address", "secret")


def home_of(text):
    """The numbers of the first home server of a configuration."""
    home = tomllib.loads(text)["home"][0]
    return {key: value for key, value in home.items() if key not in OWN}


def the_numbers_stand_wherever_one_begins(program, folder):
    """The example to begin with has those of a slow home server, and the others in a comment; the others have theirs; the page has all."""
    start, tried, page = (TOP.joinpath(*place).read_text("utf-8") for place in (
        ("examples", "start.toml"), ("examples", "try.toml"), ("docs", "operating", "sizing.md")))
    hope("start.toml", home_of(start), SLOW | BURSTS)
    other = re.sub(r"(?m)^# (?=(first_wait|tries|probe_every) = )", "", re.sub(r"(?m)^first_wait = .*\n", "", start))
    hope("start.toml with the others", home_of(other), SLOW | AWAY | BURSTS)
    hope("try.toml", home_of(tried), AWAY)
    hope("a reason before each number", [line for before, line in zip(start.splitlines(), start.splitlines()[1:])
                                         if re.match("(window|first_wait|queue|book) = ", line) and not before.startswith("#")], [])
    for block in (SLOW, AWAY, BURSTS):
        texts = [f"{key} = {number}" for key, number in block.items()]
        hope("sizing.md", ", ".join(f"`{text}`" for text in texts) + " | " in page.partition("\n* ")[0], True)
        hope("the check", any(line.startswith("  " + "; ".join(texts) + ": ") for line in BLOCKS), True)
    old = folder / "radsecproxy.conf"
    old.write_text("client 192.0.2.1 {\n type udp\n secret abc\n}\nserver h {\n type udp\n host 192.0.2.9:1813\n secret def\n}\n"
                   "realm example.org {\n accountingServer h\n}\n")
    made = run("rad_convert", "radsecproxy", old)
    hope("rad_convert", (made.returncode, home_of(made.stdout.decode())), (0, SLOW | BURSTS))
    lines = [line for line in made.stdout.decode().splitlines() if re.match("(window|first_wait|queue|book) = ", line)]
    hope("each with its reason", [line for line in lines if "  # " not in line], [])
    file = folder / "start.toml"
    file.write_text(start.replace("one long random text for this NAS", "kR3vN8qTz1").replace("one long random text for this home server", "pW6xM2cYd4"))
    done = subprocess.run([Tool(program, folder).ctl, "check", "--strict", "--rate", "4000", file], capture_output=True, text=True, check=False)
    hope("start.toml by the check, at 4000 a second", (done.returncode, done.stdout.splitlines()[0]), (0, COUNTS))


TESTS = [what_the_numbers_carry, the_numbers_stand_wherever_one_begins, ports_of_other_services, times_of_a_stop, addresses_of_clients, secrets_that_are_none, names_that_are_no_realms,
         numbers_that_do_not_fit, all_in_one_go, fifty_doubts_are_told_one_by_one]


if __name__ == "__main__":
    try_in_folders(TESTS, __doc__)
