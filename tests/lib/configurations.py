"""What the tables of configurations are made of, parts of texts, lines of the log and rows, and how the program reads them."""
import re
import subprocess
import tomllib

from tests.lib.rows import lines
from tests.lib.starting import environment
from tests.lib.trying import Trial, run_trial

SECONDS = 60
# The most characters of a text that are shown whole, and how many of a longer one are shown at each end.
MOST_SHOWN, AT_EACH_END = 80, 35

LISTEN = 'listen = "127.0.0.1:1813"\n'
CLIENT = '[[client]]\naddress = "10.0.0.1"\nsecret = "nas-secret"\n'
HOME = '[[home]]\nname = "h1"\naddress = "127.0.0.1:2813"\nsecret = "home-secret"\n'
REALM = '[[realm]]\nname = "example.org"\nhome = "h1"\n'

# What the reader of TOML says.
VALUE = "invalid value, expected a string, number, boolean, date-time, array or inline table"
KEY = "invalid key, expected letters, numbers, `-`, `_` or a quoted key"
LINE = "unexpected key or value, expected newline, `#`"


# The events of the log for what is hardly meant, which the rows of other tables leave out.
DOUBTS = {"no-realm", "unused-home", "shared-address", "weak-secret", "short-span", "realm-name", "configuration-warnings"}
# How many faults are told one by one.
MOST_FAULTS = 50
# The numbers of a home server in the order in which they are tested, each with its range.
RANGES = {"ports": (1, 4), "window": (1, 254), "queue": (1, 65536), "book": (1, 1000000), "tries": (1, 10), "first_wait": (100, 60000),
          "probe_every": (1000, 600000), "down_wait": (1000, 3600000), "span": (0, 600000), "ring": (1, 4096)}
NUMBERS = ["window", "queue", "book", "tries", "first_wait", "probe_every", "down_wait", "span", "ring", "ports"]
ADDRESS = r"((25[0-5]|2[0-4]\d|1\d\d|[1-9]?\d)(\.(?!$)|$)){4}"


def shown(text):
    """What a row is about: a text, or both ends of a long one."""
    return repr(text) if len(text) <= MOST_SHOWN else f"{text[:AT_EACH_END]!r}..{text[-AT_EACH_END:]!r}"


def octets_of(text):
    return text if isinstance(text, bytes) else text.encode()


def warning(event, reason):
    return f'level=warn event={event} reason="{reason}"'


def unread(*keys):
    """The lines of the log for unread keys, as `home 0 windw at line 7, column 1`."""
    return [warning("unread-key", key) for key in keys]


def no_toml(line, column, message):
    """The line of the log for a text that is not TOML."""
    return [f'level=error event=no-toml reason="line {line}, column {column}: {message}"']


def between(before, rows, behind):
    """The rows of parts that stand between two texts: what each is about, and its whole text."""
    for part, *rest in rows:
        yield shown(part), octets_of(before) + octets_of(part) + octets_of(behind), *rest


def alone(rows):
    """The rows of texts that are whole."""
    return between("", rows, "")


def addressed(listen=LISTEN, client="10.0.0.1", home="127.0.0.1:2813"):
    """A configuration with these texts as addresses."""
    return (f'{listen}[[client]]\naddress = "{client}"\nsecret = "s"\n'
            f'[[home]]\nname = "h1"\naddress = "{home}"\nsecret = "s"\n').encode()


def sized(client_count, home_count, realm_count):
    """A configuration with so many clients, home servers and realms, each client with a secret of its own."""
    tables = [f'[[client]]\naddress = "10.0.{n // 256}.{n % 256}"\nsecret = "s{n}"' for n in range(client_count)]
    tables += [f'[[home]]\nname = "h{n}"\naddress = "127.0.0.1:2813"\nsecret = "s"' for n in range(home_count)]
    tables += [f'[[realm]]\nname = "R{n}"\nhome = "h{n % 64}"' for n in range(realm_count)]
    return LISTEN + lines(tables)


def end_after(queued):
    """The end of a script after which so many requests wait to be sent, and its status."""
    return f"end: queued {queued} outstanding 0 untaken 0", 3 if queued else 0


def counts(octets):
    """What `check` has to print for a configuration without a fault."""
    table = tomllib.loads(octets.decode())
    return " ".join(f"{part}s {len(table.get(part, []))}" for part in ("client", "home", "realm")) + "\n"


def is_address(text):
    return re.fullmatch(ADDRESS, text, re.ASCII) is not None


def is_endpoint(text):
    address, _, port = text.partition(":")
    return is_address(address) and re.fullmatch(r"[1-9]\d{0,4}", port, re.ASCII) is not None and int(port) <= 65535


def is_long(most):
    return lambda text: 1 <= len(text.encode()) <= most


def is_name(text):
    return re.fullmatch(r"[A-Za-z0-9._-]{1,64}", text, re.ASCII) is not None


def is_realm(text):
    return is_long(252)(text) and "@" not in text


class Faults:
    """The faults of a document as docs/formats.md tells their order, written anew: for each key the first."""

    def __init__(self, document):
        self.document, self.found = document, []
        self.text(document, "top", "listen", is_endpoint, "BadAddress")
        self.optional("default_home", str)
        self.optional("other_home", str)
        self.optional("linger", int, (0, 600000))
        homes = self.tables("home", 64, True, report=False)
        names = {table.get("name") for table in homes}
        self.each(self.tables("client", 256, True), "client", "address", is_address, "BadAddress", self.client)
        self.each(self.tables("home", 64, True), "home", "name", is_name, "OutOfRange", self.home)
        self.each(self.tables("realm", 256, False), "realm", "name", is_realm, "OutOfRange", lambda *table: self.realm(names, *table))
        for key in ("default_home", "other_home"):
            if isinstance(document.get(key), str) and document[key] not in names:
                self.add("UnknownHome", "top", key)

    def add(self, fault, place, key):
        self.found.append(f"{fault} at {place} {key}")
        return None

    def text(self, table, place, key, is_right, other):
        """The text at a key, where it has no fault."""
        value = table.get(key)
        if value is None:
            return self.add("Missing", place, key)
        if not isinstance(value, str):
            return self.add("WrongType", place, key)
        return value if is_right(value) else self.add(other, place, key)

    def optional(self, key, kind, within=None):
        value = self.document.get(key)
        if value is not None and type(value) is not kind:
            self.add("WrongType", "top", key)
        elif value is not None and within and not within[0] <= value <= within[1]:
            self.add("OutOfRange", "top", key)

    def tables(self, key, most, is_needed, report=True):
        """The tables of a part; none where the array has a fault."""
        value = self.document.get(key)
        fault = None
        if value is None or value == []:
            fault = "Missing" if is_needed else ""
        elif not isinstance(value, list) or not all(isinstance(table, dict) for table in value):
            fault = "WrongType"
        elif len(value) > most:
            fault = "TooMany"
        if fault and report:
            self.add(fault, "top", key)
        return value if fault is None else []

    def each(self, tables, part, key, is_right, other, rest):
        """Each table: first the key that no two tables may have, then the others."""
        fold = str.casefold if part == "realm" else str
        for number, table in enumerate(tables):
            name = self.text(table, f"{part} {number}", key, is_right, other)
            earlier = [one[key] for one in tables[:number] if isinstance(one.get(key), str)]
            if name is not None and fold(name) in map(fold, earlier):
                self.add("DoubleName", f"{part} {number}", key)
            rest(table, f"{part} {number}")

    def client(self, table, place):
        self.text(table, place, "secret", is_long(128), "OutOfRange")

    def home(self, table, place):
        self.text(table, place, "address", is_endpoint, "BadAddress")
        self.text(table, place, "secret", is_long(128), "OutOfRange")
        for key in NUMBERS:
            if key in table and type(table[key]) is not int:
                return self.add("WrongType", place, key)
            if key in table and not 0 <= table[key] <= 4294967295:
                return self.add("OutOfRange", place, key)
        for key, (least, most) in RANGES.items():
            most = 256 * table.get("ports", 1) - 2 if key == "window" else most
            if key in table and not least <= table[key] <= most or key == "window" and table.get(key, 64) > most:
                return self.add("OutOfRange", place, key)
        return None

    def realm(self, names, table, place):
        home = self.text(table, place, "home", lambda text: True, "")
        if home is not None and home not in names:
            self.add("UnknownHome", place, "home")


def faults_of(octets):
    """All faults of a text; None where Python does not read it as TOML."""
    try:
        return Faults(tomllib.loads(octets.decode("utf-8-sig"))).found
    except (UnicodeDecodeError, tomllib.TOMLDecodeError):
        return None


class Reading(Trial):
    """The program, and what it reads. What is not as it has to be is told with its table, its row from 0 on, and what the row is about.

    Of a text a row has what it is about, its octets, its first fault, or none, and the lines of the log before that; of datagrams what it
    is about, the text, the datagrams, and the lines that are printed for them; and of a conversation the events in their place."""

    def __init__(self, program, folder, texts, datagrams, conversations, told):
        super().__init__(program, folder)
        self.tables = ((texts, self.reads), (datagrams, self.replays), (conversations, self.plays), (told, self.tells))

    def run(self):
        for tables, looks_at in self.tables:
            for table in tables:
                for place, row in enumerate(table()):
                    looks_at(f"{table.__name__}, row {place}", *row)

    def ended(self, *words, log=None, given=b""):
        """The status, what was printed and what was told."""
        done = subprocess.run([self.program, *words], input=given, capture_output=True, timeout=SECONDS,
                              env=environment(log), check=False)
        return done.returncode, done.stdout.decode(), done.stderr.decode()

    def reads(self, row, what, octets, fault=None, told=()):
        """Looks at what is printed for a text with this first fault, or none, and with these lines of the log."""
        file, name = self.folder / "proxy.toml", f"{row}, {what}"
        file.write_bytes(octets)
        if fault is None:
            status, counted, end, last = 0, counts(octets), lines(end_after(0)[:1]), []
        else:
            status, counted, end, last = 2, "", "", [f"configuration: {fault}"]
        self.compare(f"{name}: check", self.ended("check", file), (status, counted, lines(last)))
        found = self.ended("check", file, log="warn")
        self.compare(f"{name}: check with a log", (*found[:2], others_of(found[2])), (status, counted, lines([*told, *last])))
        if (faults := faults_of(octets)) is not None:
            self.compare(f"{name}: all faults", faults_told(found[2]), faults[:MOST_FAULTS])
        self.compare(f"{name}: replay", self.ended("replay", given=octets), (status, end, lines(last)))

    def tells(self, row, what, octets, fault, told):
        """Looks at all that is told of a text with this first fault, or none: these lines of the log, and the fault."""
        file, name = self.folder / "proxy.toml", f"{row}, {what}"
        file.write_bytes(octets)
        status, last = (0, []) if fault is None else (2, [f"configuration: {fault}"])
        for log, logged in ((None, []), ("warn", told)):
            found_status, _, found = self.ended("check", file, log=log)
            self.compare(f"{name}: {log}", (found_status, found.splitlines()), (status, [*logged, *last]))

    def replays(self, row, what, text, datagrams, wanted):
        """Looks at what is printed for datagrams that come to a proxy of this configuration: these lines, and the end."""
        self.plays(row, what, text, [f"nas {address} {port} raw {octets.hex()}" for address, port, octets in datagrams], wanted)

    def plays(self, row, what, text, events, wanted):
        """Looks at what is printed for the events of a script: these lines, and the end."""
        new, sent = (sum(line.startswith(start) for line in wanted) for start in ("nas: new ", "step: sent 4 "))
        end, status = end_after(new - sent)
        found = self.ended("replay", given=f"{text}%%\n{lines(events)}".encode())
        self.compare(f"{row}, {what}", found, (status, lines([*wanted, end]), ""))


def others_of(told):
    """What was told, without the lines of faults and of what is hardly meant."""
    return "".join(line for line in told.splitlines(keepends=True)
                   if not line.startswith("level=error event=configuration-fault") and
                   not re.match(f"level=warn event=({'|'.join(DOUBTS)}) ", line))


def faults_told(told):
    """The faults that were told, without what stands behind their keys. Those that were counted alone are not here."""
    return re.findall(r'^level=error event=configuration-fault reason="(\w+ at (?:top|\w+ \d+) \w+)', told, re.MULTILINE)


def try_tables(usage, texts=(), datagrams=(), conversations=(), told=()):
    """Looks at all rows of these tables, over the program that the script is given, and ends the script."""
    run_trial(lambda program, folder: Reading(program, folder, texts, datagrams, conversations, told), usage)
