"""Has rad_convert carry configurations over, and looks at what it writes, what it tells and how it ends.

usage: python3 -m tests.tools.convert PROGRAM [NAME ..]

PROGRAM is rad_proxy: its `check` judges what is written, and it serves a site that is written in both languages (table.py). Where
radsecproxy and FreeRADIUS are installed, they serve the same files, and each client's secret is tried by a signed request. Their
shipped files are those of the packages `radsecproxy`, `freeradius` and `freeradius-config`, which `apt-get download` gets; where it
cannot, these cases are left out. Names choose cases. What fails or is left out is told, and the last line is `N passed, M failed`.
"""
import collections
import contextlib
import ctypes
import dataclasses
import functools
import io
import ipaddress
import locale
import os
import pathlib
import random
import re
import select
import shutil
import subprocess
import tempfile
import tomllib
from multiprocessing.pool import ThreadPool

from tests.lib import (ACCOUNTING_REQUEST, ACCT_SESSION_ID, USER_NAME, LeftOut, bound, environment, free_ports, hope, read, reply,
                       try_in_folders)
from tests.lib.tools import running, table, talking, texts
from tests.lib.tools.running import want
from tools.converting import freeradius, patterns, radsecproxy
from tools.converting.reading import Fault, Library
from tools.converting.site import Site
from tools.version import VERSION

SECONDS = 60
MAIN = {"radsecproxy": "it", "freeradius": "radiusd.conf"}
MODULES = {"radsecproxy": radsecproxy, "freeradius": freeradius}


def convert(*words, out=subprocess.PIPE):
    """Runs the tool. The result is its status, what it wrote, and the lines that it told."""
    ran = running.run("rad_convert", *words, stdout=out)
    told = ran.stderr.decode()
    hope("a traceback", "Traceback" in told, False)
    return ran.returncode, ran.stdout, told.splitlines()


def checked(program, octets, room):
    """What a configuration says, which `check` of the program has to take without a word."""
    path = room / "checked.toml"
    path.write_bytes(octets)
    ran = subprocess.run([program, "check", path], capture_output=True, timeout=SECONDS, env=environment("warn"), check=False)
    found = tomllib.loads(octets.decode())
    counts = " ".join(f"{part}s {len(found.get(part, []))}" for part in ("client", "home", "realm")) + "\n"
    hope("check", (ran.returncode, ran.stdout.decode()), (0, counts))
    hope("check tells of a key", "unread-key" in ran.stderr.decode(), False)
    return found


def short(found):
    """A configuration as the rows of texts.py have it."""
    made = {
        "client": [(one["address"], one["secret"]) for one in found["client"]],
        "home": [(one["name"], one["address"], one["secret"]) for one in found["home"]],
        "realm": [(one["name"], one["home"]) for one in found.get("realm", [])],
    }
    return made | {key.removesuffix("_home"): found[key] for key in ("default_home", "other_home") if key in found}


def hope_told(told, wanted, file):
    """Fails where other lines are told than these, each by its number in a file and a part of what it says."""
    found = [re.fullmatch(re.escape(str(file)) + r":(\d+): (.*)", line) for line in told]
    hope("a line without a place", [line for line, match in zip(told, found) if not match], [])
    pairs = [(int(match[1]), match[2]) for match in found]
    fits = len(pairs) == len(wanted) and all(pair[0] == want[0] and want[1] in pair[1] for pair, want in zip(pairs, wanted))
    hope("told", fits or pairs, True if fits else wanted)


def written(kind, text, room):
    """A text as the only file of a proxy: the path to give to the tool, and that of the file."""
    folder = room / "it"
    shutil.rmtree(folder, ignore_errors=True)
    folder.mkdir()
    file = folder / MAIN[kind]
    file.write_bytes(text.encode("utf-8", "surrogateescape"))
    return file if kind == "radsecproxy" else folder, file


def row(kind, text, told, wanted):
    """A case that converts a text."""
    def case(program, room):
        path, file = written(kind, text, room)
        status, out, lines = convert(kind, path)
        if wanted is None:
            hope("the last line", lines[-1].startswith("rad_convert: no "), True)
            hope("status and output", (status, out), (2, b""))
            hope_told(lines[:-1], told, file)
            return
        hope("status", (status, lines) if status == 2 else status, 3 if told else 0)
        hope_told(lines, told, file)
        found = checked(program, out, room)
        hope("listen", found["listen"], wanted.get("listen", found["listen"]))
        hope("the configuration", short(found), {key: value for key, value in wanted.items() if key != "listen"})
        hope_comments(out.decode(), file)
    return case


def hope_comments(text, file):
    """Fails where a table has no comment with a place, or where the place is not one of a block of this kind."""
    lines = file.read_text("utf-8", "surrogateescape").split("\n")
    for part, comment in re.findall(r"\n\n((?:#.*\n)+)\[\[(\w+)\]\]", text):
        part, comment = comment, part
        found = re.search(r"^# .*, " + re.escape(str(file)) + r":(\d+)$", comment.split("\n")[0])
        hope(f"the comment of a {part}", bool(found) or comment, True)
        word = lines[int(found[1]) - 1].split()[0].lower()
        kinds = {"client": ["client"], "home": ["server", "home_server", "accthost"], "realm": ["realm"]}
        hope(f"the line of a {part}", word in kinds[part] or word, True)
    hope("tables with a comment", len(re.findall(r"\n\n(?:#.*\n)+\[\[", text)), text.count("\n[["))


def fault(kind, text, line, part):
    """A case with a text that cannot be read."""
    def case(program, room):
        path, file = written(kind, text, room)
        status, out, lines = convert(kind, path)
        hope("status and output", (status, out, len(lines)), (2, b"", 1))
        hope("the place", lines[0].startswith(f"rad_convert: {file}:{line}: ") or lines, True)
        hope("what is told", part in lines[0] or lines, True)
    return case


def call(status, part, *words):
    """A case with a call that has one line on standard error, and this status."""
    def case(program, room):
        found, out, lines = convert(*(word.replace("ROOM", str(room)) if isinstance(word, str) else word for word in words))
        hope("status and output", (found, out or b"", len(lines)), (status, b"", 1))
        hope("what is told", part in lines[0] or lines, True)
        hope("printable", lines[0].isprintable(), True)
    return case


def prepared(case, prepare):
    """A case before which a room is prepared."""
    def both(program, room):
        prepare(room)
        case(program, room)
    return both


def words_are_told(program, room):
    """--help has the statuses, --version that of the package."""
    for word, part in (("--help", "statuses:"), ("--version", f"rad_convert {VERSION}\n")):
        status, out, told = convert(word)
        hope(word, (status, told, part in out.decode()), (0, [], True))


def calls():
    """Calls that are wrong, and files that cannot be read or written."""
    yield "help and version", words_are_told
    yield "no words", call(2, "required: KIND, PATH")
    yield "an unknown kind", call(2, "invalid choice", "other", "x")
    yield "an unknown option", call(2, "unrecognized", "radsecproxy", "x", "--none")
    yield "a newline in a word", call(2, "unrecognized", "radsecproxy", "x", "--a\nb\x1b[1m")
    yield "no file", call(2, "No such file", "radsecproxy", "ROOM/none")
    yield "a directory", call(2, "a directory", "radsecproxy", "ROOM")
    yield "a directory without its files", call(2, "neither radiusd.conf", "freeradius", "ROOM")
    yield "a name with control characters", call(2, r"a\x0ab\x1b[1m", "radsecproxy", "ROOM/a\nb\x1b[1m")
    yield "a name that is not UTF-8", call(2, r"\xff\xfe", "radsecproxy", b"/none/\xff\xfe")
    for count, shown in ((200, 200 * "a" + ": No such file"), (201, 200 * "a" + "..: No such file")):
        yield f"a name of {count} characters", call(2, f"rad_convert: {shown}", "radsecproxy", count * b"a")
    yield "a pipe", prepared(call(2, "no regular file", "radsecproxy", "ROOM/pipe"), lambda room: os.mkfifo(room / "pipe"))
    yield "a huge file", prepared(call(2, "more than 4194304 octets", "radsecproxy", "ROOM/huge"), huge)
    yield "a directory in place of radiusd.conf", prepared(
        call(2, "a directory", "freeradius", "ROOM"), lambda room: (room / "radiusd.conf").mkdir())
    yield "a full disk", prepared(full_disk, site_in)
    for target, part in (("ROOM", "a directory"), ("ROOM/none/it", "No such file"), ("ROOM/radsecproxy.conf", "one of the files")):
        yield f"-o {target}", prepared(call(2, part, "radsecproxy", "ROOM/radsecproxy.conf", "-o", target), site_in)
    yield "-o of a file", prepared(a_file_is_written, site_in)
    yield "an address that is looked up", addresses_are_looked_up
    yield "a delimiter", a_delimiter_is_told


def huge(room):
    """A file that is larger than what is read."""
    with open(room / "huge", "wb") as file:
        file.truncate(1 << 33)


def site_in(room):
    """The files of radsecproxy for the site."""
    table.put(table.radsecproxy(table.site(1813, 2813)), room)


def full_disk(program, room):
    """An output that takes nothing."""
    for words in (["radsecproxy", room / "radsecproxy.conf"], ["--help"], ["--version"]):
        with open("/dev/full", "wb") as full:
            status, _, told = convert(*words, out=full)
        hope("status", (status, told), (2, ["rad_convert: standard output: No space left on device"]))


def a_file_is_written(program, room):
    """A file is written whole, for its owner alone, and nothing beside it, also on another file system than that of temporary files."""
    with tempfile.TemporaryDirectory(dir="/dev/shm") as other:
        for folder in (room / "out", pathlib.Path(other, "out")):
            out = folder / "it.toml"
            folder.mkdir()
            out.write_text("old")
            hope("the call", convert("radsecproxy", room / "radsecproxy.conf", "-o", out), (0, b"", []))
            hope("the mode", oct(out.stat().st_mode & 0o777), "0o600")
            hope("the folder", os.listdir(folder), ["it.toml"])
            checked(program, out.read_bytes(), room)


def addresses_are_looked_up(program, room):
    """Host names are looked up with --resolve alone."""
    text = texts.R.replace("192.0.2.1", "localhost") + texts.R_REALM + "client no.such.invalid {\n type udp\n secret x\n}\n"
    path, file = written("radsecproxy", text, room)
    status, out, told = convert("radsecproxy", path, "--resolve")
    hope("status", (status, short(checked(program, out, room))["client"]), (3, [("127.0.0.1", "abc")]))
    hope_told(told, [(13, "for which no IPv4 address is found")], file)


def a_delimiter_is_told(program, room):
    """A sign other than `@`, and what else the module that cuts a User-Name has, in its file and in radiusd.conf."""
    for key, told in (('delimiter = "%"', 1), ('delimiter = "@"', 0), ("format = prefix", 1), ("format = suffix", 0),
                      ("ignore_default = yes", 1), ("ignore_null = on", 1), ("ignore_null = no", 0), ("ignore_default = No", 0)):
        modules = f"modules {{\n realm suffix {{\n  {key}\n }}\n realm other {{\n  {key}\n }}\n}}\n"
        path, file = written("freeradius", texts.F_ALL + modules, room)
        status, out, lines = convert("freeradius", path)
        hope(key, (status, short(checked(program, out, room))), (3 if told else 0, texts.WHOLE))
        hope_told(lines, [(19, key.replace('"', "").replace(" =", ""))] * told, file)
    path, _ = written("freeradius", texts.F_ALL, room)
    file = path / "mods-enabled" / "realm"
    file.parent.mkdir()
    for sign, told in (("@", 0), ("%", 1)):
        file.write_text(f'realm suffix {{\n\tformat = suffix\n\tdelimiter = "{sign}"\n}}\nrealm bangpath {{\n\tdelimiter = "!"\n}}\n')
        status, out, lines = convert("freeradius", path)
        hope("status", (status, short(checked(program, out, room))), (3 if told else 0, texts.WHOLE))
        hope_told(lines, [(3, "delimiter %")] * told, file)


def limits():
    """More clients, home servers and realms than rad_proxy takes."""
    def case(program, room):
        text = "".join(f"client 10.0.{number // 256}.{number % 256} {{\n type udp\n secret x\n}}\n" for number in range(258))
        text += "".join(f"server h{number} {{\n type udp\n host 10.1.0.{number}\n secret x\n}}\n" for number in range(66))
        text += "".join(f"realm r{number} {{\n accountingServer h{number % 64}\n}}\n" for number in range(258))
        text += "realm a {\n accountingServer h64\n}\n"
        path, _ = written("radsecproxy", text, room)
        status, out, told = convert("radsecproxy", path)
        found = checked(program, out, room)
        hope("counts", (status, [len(found[part]) for part in ("client", "home", "realm")]), (3, [256, 64, 256]))
        hope("told", [line.split(": ", 1)[1] for line in told], [
            "client 10.0.1.0: rad_proxy has 256 clients at most", "client 10.0.1.1: rad_proxy has 256 clients at most",
            "server h64: rad_proxy has 64 homes at most", "realm r256: rad_proxy has 256 realms at most",
            "realm r257: rad_proxy has 256 realms at most", "realm a: its home server h64 is not carried over"])
    yield "limits", case


# The site in both languages.

def site_case(kind, name):
    """A case that has the site's files carried over, and compares the result with the table."""
    def case(program, room):
        made = table.site(1813, 2813)
        table.put(getattr(table, kind)(made), room)
        status, out, told = convert(kind, room / name)
        hope("status", (status, told), (0, []))
        found, wanted = checked(program, out, room), made.configuration()
        for part in wanted:
            hope(part, ordered(found[part]), ordered(wanted[part]))
    return case


def ordered(value):
    """A value, whose tables have no order."""
    return value if isinstance(value, str) else sorted(value, key=str)


def served(kind, name, words=()):
    """A case that has the site served, by the proxy itself or by the program over what was converted."""
    def case(program, room):
        want(*words[:1])
        made = table.site(*free_ports(2))
        table.put(getattr(table, kind)(made), room)
        if words:
            started = [word.replace("ROOM", str(room)) for word in words]
        else:
            convert(kind, room / name, "-o", room / "it.toml")
            started = [program, "run", room / "it.toml"]
        with talking.serving(started, made, room):
            hope("each client", talking.faults(made), [])
    return case


def sites():
    """The site of table.py."""
    for kind, name, words in (("radsecproxy", "radsecproxy.conf", ["radsecproxy", "-f", "-c", "ROOM/radsecproxy.conf"]),
                              ("freeradius", ".", ["freeradius", "-f", "-l", "stdout", "-d", "ROOM"])):
        yield f"the site of {kind} is that of the table", site_case(kind, name)
        yield f"the program serves what was the site of {kind}", served(kind, name)
        yield f"{kind} serves the same site", served(kind, name, words)


# Patterns.

EXTENDED, WITHOUT_CASE, WITHOUT_PLACES = 1, 2, 8
PIECES = [b"@", b"@", b".", b"a", b"B", b"example", b"\\.", b"$", b"$", b"^", b"(", b")", b"|", b"*", b"+", b"?", b"[a-b]", b"[^@]", b"[^@]+", b".*",
          b".+", b"org", b"{2}", b"bob", b"(a|b)", b"[.@]", b"[a-c0-9-]", b"[^a-z0-9.]"]
REALMS, NAMES = [b"example.org", b"A.example", b"b", b"aa", b"bob.b"], [b"a", b"b", b"bob", b"x.y", b"example.org", b"AB", b"bb", b"b.", b"1"]
WITH_AN_AT = [b"a@b", b"bob@example.org", b"b@x.y", b"1@aa", b"bob@A.example"]
# User-Names with a realm behind the last `@`, and without an `@`.
OF_KINDS = {patterns.REALM: [b"bob@x", b"@x", b"@@x", b"a@b@x", b"a@@x", b"@b@x", b"a b@\xff", b"a@x y", b"\n@\n"], patterns.BARE: [*NAMES, b"\xff", b"\n"]}


@contextlib.contextmanager
def octets_as_characters():
    """While it lasts no locale is set, as in radsecproxy: an octet is a character."""
    kept = locale.setlocale(locale.LC_CTYPE)
    locale.setlocale(locale.LC_CTYPE, "C")
    try:
        yield
    finally:
        locale.setlocale(locale.LC_CTYPE, kept)


@octets_as_characters()
def patterns_are_those_of_the_system(program, room):
    """Random patterns, as the system's own regcomp(3) reads them, which radsecproxy calls: what is said of all or of none is so of each name."""
    libc, chance, said = ctypes.CDLL(None), random.Random(1), collections.Counter()
    for _ in range(20_000):
        pattern, realm = b"".join(chance.choices(PIECES, k=chance.randint(1, 7))), chance.choice(REALMS)
        room_of_it = ctypes.create_string_buffer(256)
        if libc.regcomp(room_of_it, pattern, EXTENDED | WITHOUT_CASE | WITHOUT_PLACES):
            continue
        found, others = ([libc.regexec(room_of_it, name + b"@" + realm, 0, None, 0) == 0 for name in names]
                         for names in (NAMES, WITH_AN_AT))
        takes = {kind: all(libc.regexec(room_of_it, name, 0, None, 0) == 0 for name in names) for kind, names in OF_KINDS.items()}
        libc.regfree(room_of_it)
        each = patterns.each(b"/" + pattern + b"/")
        said.update(each)
        hope(f"what {pattern!r} takes all of", [kind for kind in each if not takes[kind]], [])
        told = patterns.taken(b"/" + pattern + b"/", realm)
        said[told] += 1
        found += [] if patterns.minds_names(b"/" + pattern + b"/", realm) else others
        if told == patterns.ALL and not all(found) or told == patterns.NONE and any(found):
            raise AssertionError(f"{pattern!r} of {realm!r}: {told}, and {found}")
    hope("patterns of each kind", all(said[kind] > 500 for kind in (patterns.ALL, patterns.NONE, patterns.SOME)) or said, True)
    hope("patterns that take each", min(said[patterns.REALM], said[patterns.BARE]) > 100 or said, True)


# Random sites, of which both proxies are asked.

WORDS = {"radsecproxy": ["radsecproxy", "-f", "-c", "ROOM/it"], "freeradius": ["freeradius", "-f", "-l", "stdout", "-d", "ROOM"]}
# The seeds of the sites. So many names and addresses are asked of each; and after how long without a request none comes any more.
SEEDS, ASKED, SECONDS_UNTIL_IT_COMES = [5, 6, 7], 200, 1.0
WHOLE_NAMES = ["example.org", "a.example", "b.a.example", "nordnetz.example", "biz.nordnetz.example", "x.org", "Y.net", "other.net"]
PATTERNS = {
    "radsecproxy": ["/@(.+\\.)?nordnetz\\.example$/", "/\\.example$/", "/@.*\\.org$/", "*.example", "/^[^@]+@b\\.a\\.example$/"],
    "freeradius": ["~nordnetz", "~[.]example$", "~^.*[.]org$", "~^b[.]a", "~X"],
}
# Of the realms behind these nothing is known.
BY_USER = ["/^vip/", "/guest/"]
USERS = ["bob", "vip1", "a.guest", "x", "eve@a"]
# What takes all that is left, or nearly, and realms that are listed nowhere.
CATCH_ALLS = ["*", "/.*/", "/./", "/@/", "/@./", "/^.*@.*$/", "/^[^@]*$/", "/^[^@]+$/", "//", "/.+@.+/", "/@[^@]+$/"]
UNLISTED = ["unknown.example2", "EXAMPLE.ORG.", "x", "a b", "\u00e9.org", "@", "example.or", "nordnetz.nowhere", "EXAMPLE.ORG", "y.NET"]
# Addresses of clients, blocks of them, and secrets, of which several clients may have one.
NASES = [f"127.0.30.{number}" for number in range(1, 15)]
BLOCKS = ["127.0.30.0/28", "127.0.30.0/29", "127.0.30.8/29", "127.0.30.4/30", "127.0.30.12/30"]
SECRETS = ["first", "second", "third", "fourth"]


@dataclasses.dataclass(frozen=True)
class Asked:
    """A request that is asked: where it comes from, its user, and the secret that signs it."""

    address: str
    user: str
    secret: str

    @property
    def realm(self):
        return self.user.rpartition("@")[2] if "@" in self.user else None


def random_site(ports):
    """A site at the first of these ports, whose home servers h0, h1 and so on have the others."""
    port, *others = ports
    return table.Site(port, [], [table.Home(f"h{number}", table.FRONT, it, b"home") for number, it in enumerate(others)], [])


def hosts_of(chance):
    """The clients of a site: six addresses and three blocks, in random order, each with its secret."""
    hosts = chance.sample(NASES, 6) + chance.sample(BLOCKS, 3)
    chance.shuffle(hosts)
    return [(host, chance.choice(SECRETS)) for host in hosts]


def realms_of(chance, kind, catch_alls):
    """The names of the realms of a site in random order. Those of a radsecproxy without a catch-all have some of the users at the end."""
    names = chance.sample(WHOLE_NAMES[:-1], chance.randint(4, 7)) + chance.sample(PATTERNS[kind], chance.randint(0, 4)) + catch_alls
    chance.shuffle(names)
    if kind == "radsecproxy":
        names[-2:-2] = chance.sample(BY_USER, chance.choice([0, 0, 1, 2]))
    return names


def random_radsecproxy(chance, site):
    """A text of radsecproxy with all of these."""
    servers = [texts.block(f"server {home.name}", "type udp", f"host {home.address}:{home.port}", f"secret {home.secret.decode()}")
               for home in site.homes]
    clients = [texts.block(f"client {host}", "type udp", f"secret {secret}") for host, secret in hosts_of(chance)]
    realms = [texts.block(f"realm {name}", *([f"accountingServer {chance.choice(site.homes).name}"] if chance.random() < 0.85 else []))
              for name in realms_of(chance, "radsecproxy", chance.sample(CATCH_ALLS, chance.choice([0, 0, 1, 2])))]
    return f"ListenUDP {table.FRONT}:{site.port}\nPidFile none\n" + "".join(servers + clients + realms)


def random_freeradius(chance, site):
    """A radiusd.conf with all of these. In every third one its server has clients, and in every third one the listener names a list:
    it knows these alone."""
    *pooled, alone = site.homes
    homes = [texts.block(f"home_server {home.name}", "type = acct", f"ipaddr = {home.address}", f"port = {home.port}",
                         f"secret = {home.secret.decode()}") for home in pooled]
    pools = [texts.block(f"home_server_pool p{home.name}", f"home_server = {home.name}") for home in pooled]
    clients, own = ([texts.block(f"client {host}", f"secret = {secret}") for host, secret in hosts_of(chance)] for _ in range(2))
    realms = realms_of(chance, "freeradius", [name for name in ("DEFAULT", "NULL") if chance.random() < 0.5])
    led = [texts.block(f'realm "{name}"', *led_by_freeradius(chance, chance.choice(pooled), alone), "nostrip") for name in realms]
    main = table.freeradius(site)["radiusd.conf"].decode()
    main = re.sub(r"(?m)^\$INCLUDE .*\n", "", main)
    front, listener, way = "server accounting {\n", "\tlisten {\n", chance.choice(["all", "own", "named"])
    if way == "named":
        main = main.replace(listener, f"{listener}\t\tclients = some\n") + "".join(["clients some {\n", *own, "}\n"])
    return main.replace(front, "".join(homes + pools + clients + led) + front + "".join(own if way == "own" else []))


def led_by_freeradius(chance, home, alone):
    """How a realm has its home server: by a pool, as in FreeRADIUS 1, or not at all."""
    old = [f"accthost = {alone.address}:{alone.port}", f"secret = {alone.secret.decode()}"]
    return chance.choice([[f"acct_pool = p{home.name}"]] * 4 + [old, []])


def asked_of(chance):
    """Names and addresses by chance, each with each secret: those of listed realms, of others, of none, and of an empty one."""
    realms = WHOLE_NAMES * 3 + UNLISTED + ["", None, None]
    for _ in range(ASKED):
        address, user, realm = chance.choice(NASES), chance.choice(USERS), chance.choice(realms)
        user = user.partition("@")[0] if realm is None else f"{user}@{realm}"
        yield from (Asked(address, user, secret) for secret in SECRETS)


def reached(words, site, room, asked):
    """Of each request that is asked of a proxy the home server that gets it, or None."""
    found = [None] * len(asked)
    with contextlib.ExitStack() as stack:
        stack.enter_context(talking.serving(words, site, room))
        homes = {stack.enter_context(bound(home.address, home.port)): home for home in site.homes}
        nases = {}
        for number, one in enumerate(asked):
            key = one.address, number // 256
            nases[key] = nases.get(key) or stack.enter_context(bound(one.address))
            nases[key].sendto(talking.asked(number % 256, one.user.encode(), b"%d" % number, one.secret.encode()), (table.FRONT, site.port))
            hear(homes, asked, found, 0.001)
        while hear(homes, asked, found, SECONDS_UNTIL_IT_COMES):
            pass
    return found


def hear(homes, asked, found, seconds):
    """Answers what has come at the home servers, and gives whether something came."""
    ready = select.select(list(homes), [], [], seconds)[0]
    for one in ready:
        octets, sender = one.recvfrom(4096)
        packet = read(octets)
        if packet.code == ACCOUNTING_REQUEST:
            hope("signed under the home server's secret", talking.is_request(packet, homes[one].secret), True)
            number = int(talking.value(packet, ACCT_SESSION_ID))
            hope("the user", talking.value(packet, USER_NAME).decode(), asked[number].user)
            found[number] = homes[one].name
            one.sendto(reply(packet, homes[one].secret), sender)
    return bool(ready)


# What of a difference is told.

def has(network, address):
    """Whether a block of addresses has this one; a client without a block is one of one address."""
    try:
        return ipaddress.IPv4Address(address) in ipaddress.IPv4Network(network)
    except ValueError:
        return False


def takes_some(name, user):
    """Whether a pattern, as it is told, takes a User-Name of radsecproxy, or the realm of one of FreeRADIUS."""
    if name.startswith("~"):
        return re.search(name[1:], user.rpartition("@")[2], re.I) is not None
    return re.search({"*.example": "\\.example$"}.get(name, name[1:-1]), user, re.I) is not None


def is_told(one, made, told):
    """Whether a difference of a request is told. Of a client and a realm that the result has, none may be."""
    of_clients, of_realms = ([found for line in told if (found := re.search(f": {kind} (.*?): (.*)", line))]
                             for kind in ("client", "realm"))
    secrets = {it["address"]: it["secret"] for it in made["client"]}
    if one.address not in secrets:
        return any(has(found[1], one.address) for found in of_clients)
    if secrets[one.address] != one.secret:
        return False
    realm = one.realm
    if realm is not None and realm.lower() in [it["name"].lower() for it in made.get("realm", [])]:
        said = [found[2] for found in of_realms if found[1].lower() == realm.lower()]
        return one.user.count("@") > 1 and any("of a name with an `@`" in it for it in said)
    return any(realm is not None and found[1].lower() == realm.lower() or "a pattern" in found[2] and takes_some(found[1], one.user)
               or realm == "" and "empty realm" in found[2] or "not carried over too" in found[2] for found in of_realms)


def differences(kind, chance, program, room):
    """A random site, of which the proxy and the program over what was converted are asked the same. The result is how often both led to the
    same home server, and what the result has for all that is not listed."""
    site, asked = random_site(free_ports(5)), list(asked_of(chance))
    file = room / ("it" if kind == "radsecproxy" else MAIN[kind])
    file.write_text({"radsecproxy": random_radsecproxy, "freeradius": random_freeradius}[kind](chance, site))
    status, _, told = convert(kind, file, "-o", room / "it.toml")
    hope("status", (status, told) if status == 2 else status, 3)
    made = tomllib.loads((room / "it.toml").read_text())
    source = reached([word.replace("ROOM", str(room)) for word in WORDS[kind]], site, room, asked)
    found = reached([program, "run", room / "it.toml"], site, room, asked)
    wrong = [(one, *both) for one, *both in zip(asked, source, found) if both[0] != both[1] and not is_told(one, made, told)]
    if wrong:
        raise AssertionError(f"{wrong[0]}, and {len(wrong) - 1} others: {file.read_text()}")
    same = sum(one is not None and one == other for one, other in zip(source, found))
    return same, [key for key in ("default_home", "other_home") if key in made]


def sites_by_chance(kind, seeds):
    """A case of random sites: the proxy and the program over the result have the same home server and secret for each name and address, or
    what differs is told."""
    def case(program, room):
        want(*WORDS[kind][:1])
        same, others = [], collections.Counter()
        for seed in seeds:
            (room / str(seed)).mkdir()
            count, keys = differences(kind, random.Random(seed), program, room / str(seed))
            same.append(count)
            others.update(keys)
        is_much = min(same) > 10 and sum(same) > 30 * len(same) and len(others) == 2
        hope("requests that reach the same, and sites of each kind", is_much or (same, others), True)
    return case


# What the packages ship.

@functools.cache
def unpacked(package):
    """A folder that a package is unpacked into, or None where it cannot be had. The folder goes when this script ends."""
    made = tempfile.TemporaryDirectory()
    words = ["apt-get", "download", package]
    if subprocess.run(words, cwd=made.name, capture_output=True, timeout=SECONDS, check=False).returncode:
        return None
    for file in pathlib.Path(made.name).glob("*.deb"):
        subprocess.run(["dpkg-deb", "-x", file, made.name], check=True)
    return made


def shipped(package, name):
    """A file of a package."""
    want("apt-get", "dpkg-deb")
    folder = unpacked(package)
    if folder is None:
        raise LeftOut(f"apt-get cannot download {package}")
    found = next(iter(sorted(pathlib.Path(folder.name).rglob(name))), None)
    if found is None:
        raise LeftOut(f"{package} has no {name}")
    return found


OPTIONS = ("ListenUDP|ListenTCP|ListenTLS|ListenDTLS|SourceUDP|LoopPrevention|AddTTL|type|secret|rewriteIn|rewriteOut|accountingServer|"
           "StatusServer|server|replymessage|AccountingResponse|removeAttribute|addAttribute|modifyAttribute")
SHOWN = {
    "radsecproxy": re.compile(rf"(?:{OPTIONS})[ \t]+[^ \t]+"),
    "freeradius": re.compile(r"[a-z0-9_]+[ \t]*= *[^ .][^ ]*(?:[ \t]+#.*)?|nostrip"),
}
BEGUN = re.compile(r"(?:client|clients|server|realm|rewrite|home_server|home_server_pool) [^ ]+ ?\{")


def turned_on(kind, text):
    """A configuration with what it shows in comments turned on: what looks like a pair, an option, or the edge of a block."""
    lines, depth = [], 0
    for line in text.split("\n"):
        inner = line.strip().lstrip("#").strip()
        begins, ends = bool(BEGUN.fullmatch(inner)), inner == "}" and depth > 0
        if line.strip().startswith("#") and (begins or ends or SHOWN[kind].fullmatch(inner)):
            line = inner
            depth += begins - ends
        lines.append(line)
    return "\n".join(lines)


def example_of_radsecproxy(program, room):
    """The example of all options, as it is: its realms have no home server for accounting."""
    file = shipped("radsecproxy", "radsecproxy.conf-example")
    status, out, told = convert("radsecproxy", file)
    hope("status", (status, out), (2, b""))
    hope("the last line", told[-1].startswith("rad_convert: no home server for accounting") or told, True)
    lines = file.read_text().split("\n")
    for line in told[:-1]:
        number = int(re.fullmatch(r".*:(\d+): .*", line)[1])
        hope(line, lines[number - 1].split()[0] in ("client", "server", "realm"), True)
    hope("TLS and DTLS", sum("no TLS" in line for line in told), len(re.findall(r"(?mi)^client [^}]*?type\s+d?tls", file.read_text())))


def example_of_radsecproxy_turned_on(program, room):
    """The same with accounting and its other comments turned on."""
    text = turned_on("radsecproxy", shipped("radsecproxy", "radsecproxy.conf-example").read_text())
    hope("turned on", [word in re.sub("(?m)^#.*", "", text) for word in ("accountingServer", "ListenUDP", "rewrite example")], [True] * 3)
    path = room / "it"
    path.write_text(text)
    status, out, told = convert("radsecproxy", path)
    hope("status", status, 3)
    found = short(checked(program, out, room))
    hope("the configuration", found, {"client": [("127.0.0.1", "secret")], "home": [("127.0.0.1", "127.0.0.1:1812", "secret")],
                                      "realm": [("eduroam.cc", "127.0.0.1")]})
    for part in ("ListenUDP: a host name", "no loop prevention", "ListenTLS: rad_proxy has no TLS", "does not rewrite", "a pattern",
                 "no TCP", "no authentication"):
        hope(part, any(part in line for line in told) or told, True)


def default_of_radsecproxy(program, room):
    """The configuration that is installed, which has a client alone."""
    status, out, told = convert("radsecproxy", shipped("radsecproxy", "radsecproxy.conf"))
    hope("status", (status, out, len(told)), (2, b"", 1))


def default_of_freeradius(program, room):
    """The folder that is installed, with the sites that Debian enables."""
    folder = shipped("freeradius-config", "radiusd.conf").parent
    for name in ("default", "inner-tunnel"):
        with contextlib.suppress(FileExistsError):
            os.symlink(f"../sites-available/{name}", folder / "sites-enabled" / name)
    status, out, told = convert("freeradius", folder)
    hope("status", (status, out), (2, b""))
    for part in ("clients.conf:221: client localhost_ipv6: an IPv6 address", "realm LOCAL", "sites-enabled/default"):
        hope(part, any(part in line for line in told) or told, True)


def all_sites_of_freeradius_are_read(program, room):
    """Each site and policy that is shipped is read as far as it goes."""
    folder = shipped("freeradius-config", "radiusd.conf").parent
    files = [it for it in (*folder.glob("sites-available/*"), *folder.glob("policy.d/*")) if it.name != "README"]
    with ThreadPool(4) as pool:
        for file, (_, _, told) in zip(files, pool.map(lambda it: convert("freeradius", it), files)):
            hope(file.name, told[-1].endswith("so there is no configuration") or told, True)


def freeradius_turned_on(program, room):
    """proxy.conf and clients.conf with their comments turned on, and the host name of a home server replaced by an address."""
    for name in ("proxy.conf", "clients.conf", "templates.conf"):
        text = turned_on("freeradius", shipped("freeradius-config", name).read_text())
        (room / name).write_text(text.replace("radius.example.com", "192.0.2.77"))
    status, out, told = convert("freeradius", room)
    hope("status", (status, status == 3 or told), (3, True))
    found = short(checked(program, out, room))
    hope("the home server", found["home"], [("192.0.2.77", "192.0.2.77:1601", "testing123")])
    hope("without a realm, and of each realm", (found["default"], found["other"]), ("192.0.2.77", "192.0.2.77"))
    hope("a client", ("127.0.0.1", "testing123") in found["client"], True)
    for part in ("a block of addresses", "IPv6", "a pattern", "empty realm", "host name", "one list of clients", "nostrip", "virtual"):
        hope(part, any(part in line for line in told) or told, True)


def packages():
    """The files of the packages, as they are and with their comments turned on."""
    for case in (default_of_radsecproxy, example_of_radsecproxy, example_of_radsecproxy_turned_on, default_of_freeradius,
                 all_sites_of_freeradius_are_read, freeradius_turned_on):
        yield case.__name__.replace("_", " "), case


# Damaged files.

def converted(kind, path):
    """What becomes of a file in this process: `Fault` is the only end that is not a result."""
    made = Site()
    try:
        title = MODULES[kind].convert(Library(), os.fsencode(path), made)
        return made.text(title)
    except Fault as found:
        hope("one line", str(found).isprintable(), True)
        return None


def damaged(kind, name, damage):
    """A case that has the site's files damaged, one at a time, in many ways."""
    def case(program, room):
        files = getattr(table, kind)(table.site(1813, 2813))
        table.put(files, room)
        for file, octets in files.items():
            for made in damage(octets):
                (room / file).write_bytes(made)
                try:
                    text = converted(kind, room / name)
                except Exception as other:  # pylint: disable=broad-except
                    raise AssertionError(f"{file}: {type(other).__name__}: {other}: {made[-60:]!r}") from None
                if text is not None:
                    tomllib.loads(text)
            (room / file).write_bytes(octets)
        with contextlib.redirect_stdout(io.StringIO()):
            checked(program, converted(kind, room / name).encode(), room)
    return case


def cut(octets):
    """The octets, cut at each seventh place."""
    return (octets[:size] for size in range(0, len(octets), 7))


def spoiled(octets):
    """The octets with some of them changed, put in, or left out, by a fixed chance."""
    chance = random.Random(1)
    for _ in range(10 + len(octets) // 8):
        made = bytearray(octets)
        for _ in range(chance.randint(1, 4)):
            at = chance.randrange(len(made))
            made[at:at + chance.randint(0, 3)] = chance.choice(
                [b"", b"{", b"}", b'"', b"\\", b"\xff", b"$", b"%", b"\n", b"\r", b"\0", b"=", b"\x1b", b"client", b"home_server {"])
        yield bytes(made)


def damages():
    """Files that are cut or spoiled."""
    for kind, name in (("radsecproxy", "radsecproxy.conf"), ("freeradius", ".")):
        yield f"files of {kind} that are cut", damaged(kind, name, cut)
        yield f"files of {kind} that are spoiled", damaged(kind, name, spoiled)


def cases():
    """Each case with its name."""
    yield from calls()
    for kind in MODULES:
        for name, text, told, wanted in getattr(texts, kind)():
            yield f"{kind}: {name}", row(kind, text, told, wanted)
        for text, line, part in getattr(texts, f"{kind}_faults")():
            yield f"{kind}: a fault in {text[:30]!r}", fault(kind, text, line, part)
    yield from limits()
    yield "patterns are those of the system", patterns_are_those_of_the_system
    yield from sites()
    for kind in WORDS:
        yield f"random sites of {kind}", sites_by_chance(kind, SEEDS)
    yield from packages()
    yield from damages()


def named(name, case):
    """A test that tries a case, by the name of it."""
    case.__name__ = name
    return case


if __name__ == "__main__":
    try_in_folders([named(*pair) for pair in cases()], __doc__)
