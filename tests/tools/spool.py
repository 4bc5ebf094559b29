"""Asks rad_proxyctl what waits in a spool, has it write that for radclient, and has it give up some of it.

usage: python3 -m tests.tools.spool PROGRAM [NAME ..]

Each test is a function below, and its first line tells what holds. The segments are written and read by another hand than the tool's, but for
those of the program. What needs another user is tried where root runs this, and else told as left out. The last line is `N passed, M failed`.
"""
import contextlib
import fcntl
import hashlib
import hmac
import os
import random
import shlex
import shutil
import signal
import socket
import subprocess
import sys
import threading
import time
import zlib

from tests.ledger.resumed import HASTY, Resumed
from tests.lib import (ACCT_SESSION_ID, HERE, PATIENCE, TOP, LeftOut, Server, attribute, configured, environment, free_port, hope, need, packet,
                       request, try_named, until, user_name)
from tests.lib.spool import segments
from tests.tools.resend import Room as Resending

# The modules of the tools find those beside them.
sys.path.insert(0, str(TOP / "tools"))
from tools.controlling.segments import Spool, read_segment  # noqa: E402

SECRET = b"nas-secret"
CLIENTS = "192.0.2.7", "192.0.2.8", "198.51.100.9"
MISUSED, MISCONFIGURED, LEFT_OVER, FAILED, REFUSED = 1, 2, 3, 4, 5
STRANGER = 65534
# How much older a request may be when it is told than when it was written.
SLACK = 60
KINDS = {name: kind for kind, (name, *_) in segments.KINDS.items()}
RUN = 0x0123456789ABCDEF


def milliseconds(ago=0):
    """A moment so many seconds ago, as a segment has it."""
    return int((time.time() - ago) * 1000)


def asked(number, realm=b"example.org", secret=SECRET, more=b""):
    """A request whose session and user have a number."""
    name = b"u%d" % number if realm is None else b"u%d@" % number + realm
    return request(number % 256, user_name(name) + attribute(ACCT_SESSION_ID, b"S%d" % number) + more, secret)


def key_of(octets, client=CLIENTS[0], port=40_000):
    return octets[4:20], socket.inet_aton(client), port, octets[1]


def came(octets, arrival, client=CLIENTS[0], port=40_000, ago=100):
    """The entry of a request."""
    fields = (*key_of(octets, client, port), socket.inet_aton(HERE), 1813, arrival, RUN, 0, arrival, milliseconds(ago))
    return segments.entry(KINDS["came"], fields, octets)


def answered(octets, client=CLIENTS[0], port=40_000):
    """The entry of its answer."""
    response = packet(5, octets[1], bytes(16), b"")
    return segments.entry(KINDS["answered"], (*key_of(octets, client, port), RUN, 0, 3, milliseconds()), response)


def given_up(octets, client=CLIENTS[0], port=40_000, reason=b"gone"):
    return segments.entry(KINDS["given up"], (*key_of(octets, client, port), milliseconds()), reason)


def begun(number, version=1):
    return segments.entry(KINDS["begun"], (version, RUN, number))


def file_of(number, *batches):
    """The octets of a segment with these batches behind its beginning."""
    return segments.segment([[begun(number)], *batches])


class Room:
    """rad_proxyctl, installed below a folder of this test, a configuration of three clients and two home servers, and a spool."""

    def __init__(self, program, room):
        room.chmod(0o755)
        self.program, self.room = program, room
        subprocess.run(["make", "-s", "install-proxy", f"PREFIX={room}/usr", f"SYSCONFDIR={room}/etc", f"RUNDIR={room}/run",
                        f"STATEDIR={room}/var", f"PROGRAM={program}"], cwd=TOP, check=True)
        self.ctl, self.config = room / "usr/sbin/rad_proxyctl", room / "etc/rad_proxy/rad_proxy.toml"
        self.folder = room / "var/rad_proxy_spool/rad_proxy"
        self.folder.mkdir(mode=0o700, parents=True)
        (self.folder / "lock").touch(0o600)
        self.environment = environment()
        self.configure()
        self.proxies = []

    def configure(self, clients=CLIENTS, secret=SECRET, **tops):
        servers = [Server("h1", "192.0.2.1:1813", realm="example.org"), Server("h2", "192.0.2.2:1813", realm="Example.NET")]
        self.config.write_text(configured(f"{HERE}:1813", servers, clients, secret.decode(), **tops))
        self.config.chmod(0o644)

    def write(self, number, *batches):
        """Writes a segment."""
        path = self.folder / f"{number:016x}.spool"
        path.write_bytes(file_of(number, *batches))
        path.chmod(0o600)
        return path

    def begin(self, *words, **options):
        given = {"stdin": subprocess.DEVNULL, "stdout": subprocess.PIPE, "stderr": subprocess.PIPE, "text": True,
                 "env": self.environment | options.pop("variables", {})} | options
        return subprocess.Popen([self.ctl, "spool", *map(str, words)], **given)

    def ask(self, *words, **options):
        asker = self.begin(*words, **options)
        out, err = asker.communicate(timeout=PATIENCE)
        need("Traceback" not in err, err)
        return asker.returncode, out, err

    def open(self):
        """The arrivals of what is open, as another hand reads the folder, which is not damaged."""
        read = segments.spool_of(segments.in_folder(self.folder), milliseconds(), 0)
        hope("damage", read.faults, [])
        return [fields[6] for _, fields, _ in read.requests]

    def files(self):
        """What stands in the folder."""
        return {path.name: (path.read_bytes(), path.stat().st_mode & 0o777) for path in self.folder.iterdir()}

    def is_unchanged(self, words, status, told, **options):
        """Such a call ends with a status, says why in one line, and changes nothing."""
        before = self.files()
        found, out, err = self.ask(*words, **options)
        hope(f"{words}", (found, out, err.rstrip("\n")), (status, "", told))
        hope(f"{words}: files", self.files(), before)

    def stop(self):
        for proxy in self.proxies:
            proxy.stop()


def counts_of(out):
    """The lines of counts: how many there are, and how old the oldest is, by what they count."""
    found = {}
    for line in out.splitlines():
        words = line.split()
        if words[0] in ("home", "dropped"):
            hope("the form of a line", (words[2], words[4], len(words)), ("open", "oldest", 6))
            found[words[0], words[1]] = int(words[3]), int(words[5])
    return found


def are(text, found, wanted):
    """Whether these are the counts that are wanted, each with the age of its oldest."""
    hope(f"{text}: what is counted", sorted(found), sorted(wanted))
    for name, (count, age) in wanted.items():
        hope(f"{text}: {name}", found[name][0], count)
        need(age <= found[name][1] <= age + SLACK if count else found[name][1] == 0, f"{text}: {name}: an age of {found[name][1]}")


def arrivals_in(out):
    return [int(line.split()[0].removeprefix("arrival=")) for line in out.splitlines() if line.startswith("arrival=")]


def what_waits_is_counted_by_home_server(room):
    """Three requests of three clients and two lanes are counted by the home server to which the configuration of today leads, and the oldest
    of each tells its age; a realm counts without case."""
    room.write(1, [came(asked(1), 1, CLIENTS[0], ago=7000), came(asked(2, b"example.net"), 2, CLIENTS[1], ago=500)],
               [came(asked(3, b"EXAMPLE.net"), 3, CLIENTS[2], ago=90)])
    status, out, err = room.ask()
    hope("how it ends", (status, err), (0, ""))
    are("three", counts_of(out), {("home", "h1"): (1, 7000), ("home", "h2"): (2, 500)})
    size = sum(path.stat().st_size for path in room.folder.glob("*.spool"))
    hope("the last line", out.splitlines()[-1], f"spool {room.folder} open 3 segments 1 octets {size}")
    status, out, err = room.ask("list")
    ages = [int(line.rpartition("age=")[2]) for line in out.splitlines()]
    need(all(0 <= found - 1000 * wanted <= 1000 * SLACK for found, wanted in zip(ages, (7000, 500, 90), strict=True)), ages)
    hope("each", [line.rpartition(" ")[0] for line in out.splitlines()],
         ["arrival=1 home=h1 client=192.0.2.7 client_port=40000 identifier=1 session=S1 realm=example.org",
          "arrival=2 home=h2 client=192.0.2.8 client_port=40000 identifier=2 session=S2 realm=example.net",
          "arrival=3 home=h2 client=198.51.100.9 client_port=40000 identifier=3 session=S3 realm=EXAMPLE.net"])


def right_status(secret):
    """A Status-Server whose Message-Authenticator is valid."""
    head = packet(12, 9, bytes(range(16)), attribute(80, bytes(16)))
    return head[:-16] + hmac.new(secret, head, hashlib.md5).digest()


def what_would_be_dropped_is_told_by_its_reason(room):
    """What no longer passes the checks is counted by the reason that comes first, as docs/formats.md orders them; with other_home and
    default_home no realm is missing, but for an empty one."""
    short = packet(4, 1, bytes(16), b"")
    unread = short[:2] + (4097).to_bytes(2, "big") + short[4:]
    cases = [
        ("UnknownClient", asked(1), "203.0.113.1"), ("UnknownClient", unread, "203.0.113.1"), ("Unread", unread, CLIENTS[0]),
        ("Unread", packet(4, 1, bytes(16), b"\x01\x01"), CLIENTS[0]), ("WrongCode", packet(1, 1, bytes(16), b""), CLIENTS[1]),
        ("WrongCode", right_status(SECRET), CLIENTS[0]), ("BadMessageAuthenticator", right_status(b"another"), CLIENTS[0]),
        ("BadMessageAuthenticator", packet(12, 1, bytes(16), b""), CLIENTS[0]), ("BadAuthenticator", asked(2, secret=b"another"), CLIENTS[2]),
        ("BadAuthenticator", asked(3, secret=b"another", more=attribute(80, bytes(16))), CLIENTS[2]),
        ("MessageAuthenticatorHere", asked(4, more=attribute(80, bytes(16))), CLIENTS[0]),
        ("NoRealm", asked(5, b"example.com"), CLIENTS[0]), ("NoRealm", asked(6, None), CLIENTS[0]), ("NoRealm", asked(7, b""), CLIENTS[0]),
    ]
    room.write(1, [came(octets, at, client, port=1000 + at) for at, (_, octets, client) in enumerate(cases)])
    _, out, _ = room.ask()
    wanted = {("dropped", reason): (sum(it[0] == reason for it in cases), 100) for reason in {it[0] for it in cases}}
    are("dropped", counts_of(out), {("home", "h1"): (0, 0), ("home", "h2"): (0, 0)} | wanted)
    _, out, _ = room.ask("list")
    hope("each", [line.split()[1] for line in out.splitlines()], [f"reason={reason}" for reason, _, _ in cases])
    for reason in {it[0] for it in cases}:
        hope(reason, arrivals_in(room.ask("list", "--dropped", reason)[1]), [at for at, it in enumerate(cases) if it[0] == reason])
    room.configure(other="h2", default="h1")
    _, out, _ = room.ask("list", "--home", "h2")
    hope("those of unlisted realms", arrivals_in(out), [11])
    hope("those without a realm", arrivals_in(room.ask("list", "--home", "h1")[1]), [12])
    hope("an empty realm", arrivals_in(room.ask("list", "--dropped", "NoRealm")[1]), [13])


def the_last_entry_about_a_request_counts(room):
    """A request is open if no entry behind it is about its key: one that came twice in two segments counts once; an answer, or a request that
    was given up, closes what stands before it, and not what comes behind it, nor another port, client or Identifier."""
    one, two, three, four, five = (asked(number) for number in range(1, 6))
    room.write(1, [came(one, 1), came(two, 2)], [came(three, 3), answered(two), came(four, 4)])
    room.write(2, [came(one, 1), given_up(three), came(two, 5)], [answered(five), came(five, 6), answered(four, port=40_001)])
    room.write(9, [answered(one, client=CLIENTS[1]), came(four, 4)])
    hope("another hand", room.open(), [1, 4, 5, 6])
    hope("open", arrivals_in(room.ask("list")[1]), [1, 4, 5, 6])
    room.write(10, [answered(one), given_up(four)])
    hope("open", arrivals_in(room.ask("list")[1]), [5, 6])


def folders_that_are_none_are_told(room):
    """A folder that is missing, a file in its place and one that may not be read are told with status 4; an empty one has nothing."""
    hope("without segments", room.ask()[:2], (0, f"home h1 open 0 oldest 0\nhome h2 open 0 oldest 0\nspool {room.folder} open 0 segments 0 octets 0\n"))
    empty = room.room / "empty"
    empty.mkdir(mode=0o700)
    hope("an empty folder", room.ask("list", "--folder", empty), (0, "", ""))
    hope("an empty one is left so", list(empty.iterdir()), [])
    for words in ((), ("list",), ("export",), ("drop", "1")):
        for name, why in (("missing", "No such file or directory"), ("empty/x", "No such file or directory")):
            hope(f"{words} {name}", room.ask(*words, "--folder", room.room / name),
                 (FAILED, "", f"rad_proxyctl: no spool in {room.room / name}: {why}\n"))
        hope(f"{words} a file", room.ask(*words, "--folder", room.config), (FAILED, "", f"rad_proxyctl: no spool in {room.config}: Not a directory\n"))
    if os.getuid() != 0:
        raise LeftOut("the rest wants root")
    for folder, why in ((room.folder, "Permission denied"),):
        hope("another user", room.ask("list", user=STRANGER, group=STRANGER, extra_groups=[]), (FAILED, "", f"rad_proxyctl: no spool in {folder}: {why}\n"))


def a_configuration_with_a_fault_is_told(room):
    """Without a configuration that the program reads nothing is told of a spool, and the status is that of `rad_proxy check`."""
    room.write(1, [came(asked(1), 1)])
    room.config.write_text("listen = 1\n")
    for words in ((), ("list",), ("export",), ("drop", "1")):
        room.is_unchanged(words, MISCONFIGURED, "rad_proxyctl: configuration: WrongType at top listen")
    room.is_unchanged(("-c", room.room / "none"), FAILED, f"rad_proxyctl: file: {room.room / 'none'}: No such file or directory")


def damage_is_told_by_segment_and_offset(room):
    """A sum that is wrong, octets that are no entries, an open gate without a whole batch, a segment without its beginning and one of a later
    version are told with segment and offset, and status 3; the rest counts, and behind a closed gate nothing does."""
    for number in range(1, 8):
        room.write(number, [came(asked(number), number)], [came(asked(number + 10), number + 10)], [came(asked(number + 20), number + 20)])
    files = {number: bytearray(file) for number, file in segments.in_folder(room.folder)}
    second = [list(segments.read(bytes(file)))[2].offset for file in files.values()]
    files[1][second[0] + 60] ^= 4
    body = files[2][second[1] + 9:list(segments.read(bytes(files[2])))[2].end]
    body[0] = 9
    files[2][second[1] + 5:second[1] + 9] = zlib.crc32(body).to_bytes(4, "big")
    files[2][second[1] + 9:second[1] + 9 + len(body)] = body
    del files[3][second[2] + 30:]
    files[4] = bytearray(segments.segment([[begun(5)], [came(asked(4), 4)]]))
    files[5] = bytearray(segments.segment([[begun(5, version=2)], [came(asked(5), 5)]]))
    files[6][second[5]] = 0
    files[7][second[6] + 1:second[6] + 5] = b"\xff\xff\xff\xff"
    for number, file in files.items():
        (room.folder / f"{number:016x}.spool").write_bytes(file)
    model = segments.spool_of(segments.in_folder(room.folder), milliseconds(), 0)
    hope("another hand", {name for _, _, name in model.faults}, {"wrong sum", "not entries", "cut short", "no beginning", "later version"})
    hope("its places", [fault[:2] for fault in model.faults], [(1, second[0]), (2, second[1]), (3, second[2]), (4, 0), (5, 0), (7, second[6])])
    lines = [f"damage segment {number} offset {offset}: {name}" for number, offset, name in model.faults]
    status, out, err = room.ask()
    hope("counted", (status, [line for line in out.splitlines() if line.startswith("damage")], err), (LEFT_OVER, lines, ""))
    wanted = [fields[6] for _, fields, _ in model.requests]
    hope("which", (sorted(wanted), counts_of(out)["home", "h1"][0]), ([1, 2, 3, 4, 6, 7, 21, 22], 8))
    for words in (("list",), ("export", "--home", "h1")):
        status, out, err = room.ask(*words)
        hope(f"{words}", (status, [line for line in err.splitlines() if "damage" in line]), (LEFT_OVER, [f"rad_proxyctl: {line}" for line in lines]))
    hope("open", arrivals_in(room.ask("list")[1]), wanted)
    room.is_unchanged(("drop", "4"), REFUSED, "rad_proxyctl: a later program wrote segment 5: nothing was given up")
    (room.folder / f"{5:016x}.spool").rename(room.folder / f"{5:016x}.spool.damaged")
    _, out, _ = room.ask()
    hope("set aside", [line for line in out.splitlines() if line.startswith("damage")], [*lines[:4], lines[5], "damage segment 5: set aside"])
    status, out, _ = room.ask("drop", "4")
    hope("beside damage one is given up all the same", (status, out.splitlines()[-1]), (0, "given up 1"))


def any_entry(chance):
    """An entry with a text that is as long as it may be, or a little beyond, of a few requests."""
    kind = chance.choice([1, 2, 2, 2, 3, 3, 4])
    _, fields, least, most = segments.KINDS[kind]
    key = bytes([chance.randrange(3)]) * 16, socket.inet_aton(chance.choice(CLIENTS)), chance.randrange(2), chance.randrange(2)
    numbers = {1: (chance.randrange(3), RUN, chance.randrange(1, 3)), 2: (*key, bytes(4), 1813, chance.randrange(9), RUN, 0, 3, 4),
               3: (*key, RUN, 0, 3, 4), 4: (*key, 4)}
    length = chance.choice([least, most, least + 1, max(least - 1, 0), most + 1])
    return segments.entry(kind, numbers[kind], bytes(length))


def any_segment(chance, number):
    """The octets of a segment, of which some are spoiled: also a sum may be right beside octets that are not entries."""
    batches = [[begun(number)]] * chance.randrange(2) + [[any_entry(chance) for _ in range(chance.choice([0, 1, 1, 3]))] for _ in range(chance.randrange(4))]
    file = bytearray(segments.segment(batches))
    for _ in range(chance.choice([0, 0, 0, 1, 2])):
        at = chance.randrange(max(len(file), 1))
        file[at:at + chance.choice([1, 1, 2])] = bytes(chance.choice([[0], [1], [chance.randrange(256)], [], [1, 1]]))
    return bytes(file[:chance.randrange(len(file) + 1)] if chance.random() < 0.1 else file)


def any_octets_are_read_as_by_another_hand(_):
    """Of 6,000 folders of three segments, many of which are spoiled, the tool has the open requests and the damage that another hand finds."""
    chance, met = random.Random(1), set()
    for _ in range(6000):
        files = [(number, any_segment(chance, number)) for number in (1, 2, 3)]
        model, spool = segments.spool_of(files, 0, 0), Spool([])
        for number, file in files:
            spool.take(number, file, *read_segment(number, file))
        hope("damage", spool.damage, model.faults)
        wanted = sorted((fields[6], text, b"".join((fields[0], fields[1]))) for _, fields, text in model.requests)
        hope("open", sorted((it.arrival, it.octets, it.key[:20]) for it in spool.requests()), wanted)
        met |= {name for _, _, name in model.faults} | {min(len(model.requests), 3)}
    hope("what is met", met, {0, 1, 2, 3, "wrong sum", "not entries", "cut short", "no beginning", "later version"})


def what_is_no_segment_is_told(room):
    """A link, a folder, a fifo and a file that is too long in the place of a segment are told with status 4; files of other names are none."""
    room.write(1, [came(asked(1), 1)])
    for name in ("0000000000000002", "2.spool", "000000000000000A.spool", "00000000000000001.spool", "0000000000000002.spool.gz"):
        (room.folder / name).write_bytes(b"\1\1")
    hope("other names", arrivals_in(room.ask("list")[1]), [1])
    place = room.folder / "0000000000000002.spool"
    place.symlink_to(room.config)
    hope("a link", room.ask()[0], FAILED)
    place.unlink()
    place.mkdir()
    hope("a folder", room.ask()[0], FAILED)
    place.rmdir()
    os.mkfifo(place)
    hope("a fifo", room.ask()[::2], (FAILED, f"rad_proxyctl: {place.name} is no regular file\n"))
    place.unlink()
    with place.open("wb") as file:
        file.truncate(16_777_217)
    hope("too long", room.ask()[::2], (FAILED, f"rad_proxyctl: {place.name} has more than 16777216 octets\n"))


class Writer(threading.Thread):
    """A run that writes to the newest segment, batch by batch behind a closed gate, while it is asked for; and holds the lock."""

    def __init__(self, path, lock, made):
        super().__init__(daemon=True)
        self.path, self.made, self.is_over, self.count = path, made, False, 0
        self.lock = open(lock, "wb")
        fcntl.flock(self.lock, fcntl.LOCK_EX)

    def run(self):
        at = self.path.stat().st_size - 1
        with self.path.open("r+b") as file:
            while not self.is_over:
                self.count += 1
                batch = segments.segment([[self.made(self.count)]])
                for place, octets in ((at + 1, batch[1:30]), (at + 30, batch[30:]), (at, b"\1")):
                    file.seek(place)
                    file.write(octets)
                    file.flush()
                    time.sleep(0.001)
                at += len(batch) - 1
                if at > 12_000_000:
                    return

    def end(self):
        self.is_over = True
        self.join()
        self.lock.close()


def a_run_that_writes_meanwhile_is_no_damage(room):
    """While a run holds the lock and appends batches, what is counted never falls, and nothing is told as damage; nothing is changed."""
    path = room.write(1, [came(asked(0), 0)])
    writer = Writer(path, room.folder / "lock", lambda number: came(asked(number), number, port=1024 + number % 60_000))
    writer.start()
    try:
        seen = []
        for _ in range(12):
            status, out, err = room.ask()
            hope("how it ends", (status, err, "damage" in out), (0, "", False))
            seen.append(counts_of(out)["home", "h1"][0])
        need(seen == sorted(seen) and seen[-1] > seen[0], seen)
        need(seen[-1] <= writer.count + 1, seen, writer.count)
    finally:
        writer.end()
    hope("names", sorted(file.name for file in room.folder.iterdir()), [path.name, "lock"])


def a_batch_that_is_cut_short_is_looked_at_twice(room):
    """What seems to be cut short in the newest segment is looked at again: one that is whole by then is no damage, and one that is not is."""
    path = room.write(1, [came(asked(1), 1)])
    whole = file_of(1, [came(asked(1), 1)], [came(asked(2), 2)])
    path.write_bytes(whole[:-40])
    status, out, _ = room.ask()
    offset = len(file_of(1, [came(asked(1), 1)])) - 1
    hope("it stays", (status, f"damage segment 1 offset {offset}: cut short" in out.splitlines(), counts_of(out)["home", "h1"][0]), (LEFT_OVER, True, 1))
    script = f"""
import os, sys, time
sys.argv = ["rad_proxyctl", "spool"]
sys.path.insert(0, {str(room.ctl.resolve().parent)!r})
slept = time.sleep
def sleep(seconds):
    if seconds > 0.1:
        open({str(path)!r}, "wb").write(bytes.fromhex({whole.hex()!r}))
    slept(seconds)
time.sleep = sleep
from controlling.main import end
end(sys.argv[1:])
"""
    done = subprocess.run(["python3", "-c", script], capture_output=True, text=True, env=room.environment, timeout=PATIENCE)
    hope("it is whole then", (done.returncode, done.stderr, counts_of(done.stdout)["home", "h1"][0]), (0, "", 2))


def segments_that_go_meanwhile_are_read_again(room):
    """Where a segment goes that was listed, and what is open in it stands in the newest, all is read again, and it counts."""
    for number in (1, 2, 3):
        room.write(number, [came(asked(number), number)])
    script = f"""
import os, sys
sys.argv = ["rad_proxyctl", "spool", "list"]
sys.path.insert(0, {str(room.ctl.resolve().parent)!r})
listed, calls = os.listdir, []
def listdir(place):
    found = listed(place)
    if any(name.endswith(".spool") for name in found):
        calls.append(found)
        if len(calls) == 1:
            open({str(room.folder / f"{4:016x}.spool")!r}, "wb").write(bytes.fromhex({file_of(4, [came(asked(1), 1)]).hex()!r}))
            os.unlink({str(room.folder / f"{1:016x}.spool")!r})
    return found
os.listdir = listdir
from controlling.main import end
end(sys.argv[1:])
"""
    done = subprocess.run(["python3", "-c", script], capture_output=True, text=True, env=room.environment, timeout=PATIENCE)
    hope("each once", (done.returncode, done.stderr, arrivals_in(done.stdout)), (0, "", [1, 2, 3]))


def what_is_named_is_given_up(room):
    """`drop` gives up what is named by its numbers, and of a home server, a client or a reason together: a new segment behind the newest has a
    beginning and the entries, as docs/formats.md says, no other file changes, and what it gave up is open no more."""
    lanes = [(b"example.org", CLIENTS[0]), (b"example.net", CLIENTS[1]), (b"example.org", CLIENTS[2]), (b"example.com", CLIENTS[0])]
    requests = {at: (asked(at, *lanes[at % 4][:1]), lanes[at % 4][1]) for at in range(12)}
    room.write(1, [came(octets, at, client) for at, (octets, client) in requests.items()])
    room.write(17, [answered(asked(99))])
    rest = set(range(12))
    cases = [(("5", "7"), {5, 7}), (("--home", "h2"), {1, 9}), (("--home", "h1", "--client", CLIENTS[2]), {2, 6, 10}),
             (("--dropped", "NoRealm", "3"), {3}), (("--client", CLIENTS[0]), {0, 4, 8, 11})]
    for number, (words, gone) in enumerate(cases, 18):
        before, then = room.files(), milliseconds()
        status, out, err = room.ask("drop", *words, "--because", f"reason {number} ü")
        hope(f"{words}", (status, err, arrivals_in(out), out.splitlines()[-1]), (0, "", sorted(gone), f"given up {len(gone)}"))
        rest -= gone
        hope(f"{words}: what is open", room.open(), sorted(rest))
        hope(f"{words}: what is told to be", arrivals_in(room.ask("list")[1]), sorted(rest))
        after = room.files()
        octets, mode = after.pop(f"{number:016x}.spool")
        hope(f"{words}: the other files", after, before)
        moment = list(segments.read(octets))[1].entries[0][1][4]
        need(then <= moment <= milliseconds(), f"{words}: a moment of {moment}")
        entries = [segments.entry(4, (*key_of(*requests[at]), moment), f"reason {number} ü".encode()) for at in sorted(gone)]
        hope(f"{words}: the new file", (octets, mode), (segments.segment([[segments.entry(1, (1, 0, number))], entries]), 0o600))
    hope("nothing is open", room.open(), [])


# Runs rad_proxyctl with these words, and tells on standard error what it does to a disk: what it writes where, and what it waits for.
STEPS = """
import os, sys
sys.argv = sys.argv[1:]
sys.path.insert(0, os.path.dirname(os.path.realpath(sys.argv[0])))
def telling(name, call):
    def called(descriptor, *its):
        place = os.path.basename(os.readlink(f"/proc/self/fd/{descriptor}"))
        print(name, place, *([its[1], bytes(its[0]).hex()] if its else []), file=sys.stderr)
        return call(descriptor, *its)
    return called
for name in ("pwrite", "fsync"):
    setattr(os, name, telling(name, getattr(os, name)))
from controlling.main import end
end(sys.argv[1:])
"""


def each_step_is_on_disk_before_the_next(room):
    """The file is in its folder before it is written, a closed gate before a batch, and a batch before its gate is opened, each on disk."""
    room.write(1, [came(asked(1), 1), came(asked(2), 2)])
    done = subprocess.run(["python3", "-c", STEPS, room.ctl, "spool", "drop", "2"], capture_output=True, text=True, env=room.environment, timeout=PATIENCE)
    name = f"{2:016x}.spool"
    octets = (room.folder / name).read_bytes()
    first, second = segments.read(octets)
    waits, folder = f"fsync {name}", f"fsync {room.folder.name}"
    batches = [step for it in (first, second)
               for step in (f"pwrite {name} {it.offset + 1} {octets[it.offset + 1:it.end].hex()}00", waits, f"pwrite {name} {it.offset} 01", waits)]
    hope("steps", (done.returncode, done.stderr.splitlines()), (0, [waits, folder, f"pwrite {name} 0 00", waits, *batches]))


def a_reason_has_255_octets_at_most(room):
    """A reason of 255 octets is written, one of 256 is refused, and none is the same as an empty one."""
    room.write(1, [came(asked(number), number) for number in (1, 2)])
    room.is_unchanged(("drop", "1", "--because", "x" * 256), MISUSED, room.ask("--wrong")[2].rstrip("\n"))
    hope("255", room.ask("drop", "1", "--because", "x" * 255)[0], 0)
    hope("none", room.ask("drop", "2")[0], 0)
    entries = [segments.segment_of(number, file)[0][1][2] for number, file in segments.in_folder(room.folder)[1:]]
    hope("reasons", entries, [b"x" * 255, b""])


def what_is_not_open_is_refused(room):
    """A number that is not open, a name that the configuration does not have, and what means nothing are refused, and change nothing."""
    room.write(1, [came(asked(1), 1), came(asked(2), 2), answered(asked(2))], [came(asked(3), 3)])
    told = "rad_proxyctl: nothing that is open is meant: nothing was given up"
    for words, status, text in ((("2",), REFUSED, "rad_proxyctl: not open: arrival 2"), (("1", "2", "77"), REFUSED, "rad_proxyctl: not open: arrival 2, 77"),
                                (("18446744073709551616",), REFUSED, "rad_proxyctl: not open: arrival 18446744073709551616"),
                                (("--home", "h3"), MISUSED, f"rad_proxyctl: {room.config} has no home server h3"), (("--home", "h2"), REFUSED, told),
                                (("--client", CLIENTS[1]), REFUSED, told), (("1", "--dropped", "NoRealm"), REFUSED, told)):
        room.is_unchanged(("drop", *words), status, text)
    for words in (("list", "2"), ("export", "2")):
        room.is_unchanged(words, REFUSED, "rad_proxyctl: not open: arrival 2")
    hope("still", room.open(), [1, 3])


def words_are_told_apart(room):
    """What does not belong together, and names that are none, are refused by the usage, with status 1 and nothing else done."""
    room.write(1, [came(asked(1), 1)])
    usage = room.ask("--wrong")[2].rstrip("\n")
    need(usage.startswith("usage: rad_proxyctl "), usage)
    for words in (("drop",), ("1",), ("drop", "-1"), ("drop", "1x"), ("drop", "list", "1"), ("drop", "--because", "x"), ("--home", "h1"), ("--because", "x"),
                  ("list", "--because", "x"), ("list", "--keep-delay"), ("drop", "1", "--source", HERE), ("drop", "--client", "nobody"),
                  ("drop", "--client", "192.0.2.007"), ("export", "--source", "h1"), ("drop", "--dropped", "norealm"), ("drop", "--home", ""),
                  ("list", "--folder", ""), ("list", "--home"), ("drop", "1" * 21), ("give",), ("list", "")):
        room.is_unchanged(words, MISUSED, usage)


def a_folder_that_is_held_is_left_alone(room):
    """While another process holds the lock nothing is given up, and neither is it in a folder that others may use, whose lock is no file, or, where
    root runs this, that is another user's; what is open is told all the same, but for the last one."""
    room.write(1, [came(asked(1), 1)])
    with open(room.folder / "lock", "rb") as held:
        fcntl.flock(held, fcntl.LOCK_EX)
        room.is_unchanged(("drop", "1"), REFUSED, f"rad_proxyctl: another process holds {room.folder}: stop the service first")
        hope("it is told", arrivals_in(room.ask("list")[1]), [1])
        hope("it is exported", room.ask("export")[1].splitlines()[0], "# h1 1 open")
    for mode in (0o710, 0o701, 0o750):
        room.folder.chmod(mode)
        room.is_unchanged(("drop", "1"), REFUSED, f"rad_proxyctl: others than its owner may use {room.folder}")
        hope("it is told", arrivals_in(room.ask("list")[1]), [1])
    room.folder.chmod(0o700)
    (room.folder / "lock").unlink()
    os.mkfifo(room.folder / "lock")
    status, _, err = room.ask("drop", "1")
    hope("a fifo", (status, err.startswith("rad_proxyctl: ")), (REFUSED, True))
    (room.folder / "lock").unlink()
    (room.folder / "lock").symlink_to(room.room / "planted")
    status, _, err = room.ask("drop", "1")
    hope("a link", (status, (room.room / "planted").exists()), (REFUSED, False))
    (room.folder / "lock").unlink()
    hope("without one it is made", (room.ask("drop", "1")[0], oct((room.folder / "lock").stat().st_mode)), (0, "0o100600"))


def root_acts_as_the_owner(room):
    """Where root gives up what is another user's, the new segment is that user's, mode 0600, and nothing of root's is read by a link."""
    if os.getuid() != 0:
        raise LeftOut("it wants root")
    room.write(1, [came(asked(1), 1), came(asked(2), 2)])
    for path in (room.folder, *room.folder.iterdir()):
        os.chown(path, STRANGER, STRANGER)
    (room.folder / "lock").unlink()
    hope("status", room.ask("drop", "1", umask=0o777)[0], 0)
    for name in (f"{2:016x}.spool", "lock"):
        made = (room.folder / name).stat()
        hope(f"whose {name} is", (made.st_uid, made.st_gid, oct(made.st_mode)), (STRANGER, STRANGER, "0o100600"))
    secret = room.room / "secret"
    secret.write_bytes(file_of(3, [came(asked(3), 3)]))
    secret.chmod(0o600)
    os.link(secret, room.folder / f"{3:016x}.spool")
    hope("a file that is root's alone", room.ask("list")[0], FAILED)
    (room.folder / f"{3:016x}.spool").unlink()
    hope("what is open", arrivals_in(room.ask("list")[1]), [2])
    room.config.chmod(0o600)
    hope("a configuration that is root's alone", arrivals_in(room.ask("list")[1]), [2])


def outputs_that_nobody_reads_end_it(room):
    """Where nobody reads the output it ends by SIGPIPE, and where it is full with status 4: nothing is given up then."""
    room.write(1, [came(asked(number), number) for number in range(3000)])
    for words in ((), ("list",), ("export",), ("drop", "--home", "h1")):
        reading, writing = os.pipe()
        os.close(reading)
        asker = room.begin(*words, stdout=writing)
        os.close(writing)
        asker.communicate(timeout=PATIENCE)
        hope(f"{words}: a closed pipe", asker.returncode, -signal.SIGPIPE)
        with open("/dev/full", "wb") as full:
            asker = room.begin(*words, stdout=full)
            hope(f"{words}: a full disk", (asker.communicate(timeout=PATIENCE)[1].splitlines()[-1], asker.returncode),
                 ("rad_proxyctl: cannot write the answer", FAILED))
        asker = room.begin(*words, preexec_fn=lambda: os.close(1))
        asker.communicate(timeout=PATIENCE)
        hope(f"{words}: without one", asker.returncode, FAILED)
    hope("what is open", room.open(), list(range(3000)))


def what_is_exported_is_what_came(room):
    """`export` prints the requests of one home server as rad_resend does: each attribute by its number, Acct-Delay-Time with the seconds since
    it came; those that the program would drop are left out, and of two home servers one has to be named."""
    delay = attribute(41, bytes([0, 0, 0, 5]))
    room.write(1, [came(asked(1, more=delay), 4, ago=300), came(asked(2, b"example.net"), 5, CLIENTS[1]), came(asked(3, b"nowhere"), 6), came(asked(7), 7)])
    told = "rad_proxyctl: home servers with requests that were left: h1, h2: choose one by --home"
    room.is_unchanged(("export",), MISUSED, told)
    lines = "# h1 4 open\nAttr-1 = 0x7531406578616d706c652e6f7267\nAttr-44 = 0x5331\nAttr-41 = 0x{}\n\n" \
            "# h1 7 open\nAttr-1 = 0x7537406578616d706c652e6f7267\nAttr-44 = 0x5337\n"
    status, out, err = room.ask("export", "--home", "h1", "--keep-delay")
    hope("as they came", (status, out), (0, lines.format("00000005")))
    way = "rad_proxyctl: send them: radclient -f FILE -S SECRETFILE 192.0.2.1:1813 acct"
    hope("what is told", err.splitlines(), ["rad_proxyctl: open: 2; printed: 2", way])
    status, out, _ = room.ask("export", "--home", "h1", "7", "4", "--source", "192.0.2.77")
    seconds = [int(line.split("0x")[1], 16) for line in out.splitlines() if line.startswith("Attr-41 ")]
    need(305 <= seconds[0] <= 305 + SLACK and 100 <= seconds[1] <= 100 + SLACK and len(seconds) == 2, seconds)
    hope("the source", out.splitlines().count("Packet-Src-IP-Address = 192.0.2.77"), 2)
    hope("of one client", room.ask("export", "--client", CLIENTS[1])[1].splitlines()[0], "# h2 5 open")
    room.write(2, [came(asked(8, more=attribute(2, b"x" * 16)), 8)])
    status, out, err = room.ask("export", "--home", "h1", "8")
    hope("what radclient does not carry", (status, out, err.splitlines()[0]),
         (LEFT_OVER, "", "rad_proxyctl: arrival 8: left out: radclient does not send an attribute of type 2 as it came"))
    hope("nothing", room.ask("export", "--client", CLIENTS[2]), (0, "", "rad_proxyctl: open: 0; printed: 0\n"))


def radclient_sends_what_is_exported(room):
    """What radclient sends of an export has each attribute of the request, octet for octet."""
    other = room.room / "resending"
    other.mkdir()
    home = Resending(other)
    bodies = [attribute(ACCT_SESSION_ID, b"R%d" % number) + attribute(25, bytes([number]) * 20) for number in range(5)]
    room.config.write_text(home.config.read_text())
    room.write(1, [came(request(number, user_name(b"u@example.org") + body, SECRET), number, HERE) for number, body in enumerate(bodies)])
    sent = home.sent(room.ask("export", "--keep-delay")[1])
    hope("what came", sent, [user_name(b"u@example.org") + body for body in bodies])


def each_service_has_its_folder(room):
    """The folder is the one that is named, that of the environment unless an instance is meant, the one of systemd's unit, and else that of the package."""
    folders = {name: room.room / name for name in ("named", "of the environment", "of the unit")}
    folders |= {"of the instance": room.folder.with_name("rad_proxy-two"), "of the package": room.folder}
    for number, folder in enumerate(folders.values()):
        folder.mkdir(mode=0o700, exist_ok=True)
        (folder / f"{1:016x}.spool").write_bytes(file_of(1, [came(asked(number), number)]))
    room.config.with_name("two.toml").write_text(room.config.read_text())
    given = {"RAD_PROXY_SPOOL": str(folders["of the environment"])}
    tools = room.room / "bin"
    tools.mkdir()
    shown = "RAD_PROXY_LOG=info RAD_PROXY_SPOOL=/none " + shlex.quote(f"RAD_PROXY_SPOOL={folders['of the unit']}")
    (tools / "systemctl").write_text('#!/bin/sh\ntest "$*" = "show --property=Environment --value rad_proxy" || exit 1\n'
                                     f"echo {shlex.quote(shown)}\n")
    (tools / "systemctl").chmod(0o755)
    path = {"PATH": f"{tools}:{room.environment['PATH']}"}
    bare = {"PATH": "/none"} if not any(os.access(f"{place}/systemctl", os.X_OK) for place in ("/usr/bin", "/bin")) else {}
    for name, words, variables in (("named", ("--folder", folders["named"]), given | path), ("of the environment", (), given | path),
                                   ("of the unit", (), path), ("of the package", (), {})):
        hope(name, arrivals_in(room.ask("list", *words, variables=variables)[1]), [list(folders).index(name)])
    done = subprocess.run([room.ctl, "-i", "two", "spool", "list"], capture_output=True, text=True, env=room.environment | given | bare, timeout=PATIENCE)
    hope("of the instance", arrivals_in(done.stdout), [3])
    hope("a relative path", arrivals_in(room.ask("list", "--folder", "named", cwd=room.room)[1]), [0])


def many_are_given_up_by_several_segments(room):
    """More than fit into a segment are given up by several, none of which has more than 16,777,216 octets."""
    count = 66_000
    entries = [came(asked(number % 7), number, port=1 + number % 65_535) for number in range(count)]
    need(len({entry[1:24] for entry in entries}) == count, "keys that are twice there")
    part = 16_500
    for number in range(count // part):
        room.write(number + 1, entries[number * part:(number + 1) * part])
    status, out, _ = room.ask("drop", "--home", "h1", "--because", "x" * 222)
    hope("how it ends", (status, out.splitlines()[-1]), (0, f"given up {count}"))
    sizes = [path.stat().st_size for path in sorted(room.folder.glob("*.spool"))[count // part:]]
    # Of 65,536 entries of 256 octets each the beginning of the segment has no room.
    need(len(sizes) == 2 and 16_776_900 < max(sizes) <= 16_777_216, sizes)
    hope("what is open", room.open(), [])


def running(room, count=2):
    """The real program over the spool of the room, and that configuration."""
    folder = room.room / "program"
    folder.mkdir()
    proxy = Resumed(room.program, folder, count)
    room.proxies.append(proxy)
    return proxy, ("--folder", proxy.spool, "-c", next(folder.glob("*.toml")))


def the_program_goes_on_without_what_was_given_up(room):
    """Start, outage, kill, `spool`, `drop` of three, start: the other requests arrive at their home servers in their order, and those three never."""
    proxy, words = running(room)
    proxy.begin()
    proxy.ask(40)
    proxy.ask(25, lane=1)
    proxy.has_on_disk(65)
    status, out, err = room.ask(*words)
    hope("while it serves", (status, err, {name: count for name, (count, _) in counts_of(out).items()}), (0, "", {("home", "h0"): 40, ("home", "h1"): 25}))
    hope("it holds the folder", room.ask("drop", "1", *words)[::2], (REFUSED, f"rad_proxyctl: another process holds {proxy.spool}: stop the service first\n"))
    proxy.dies()
    status, out, _ = room.ask("list", *words)
    told = {(line.split()[1], int(line.partition("session=")[2].split()[0])): int(line.split()[0].partition("=")[2]) for line in out.splitlines()}
    hope("each", sorted(told), sorted([("home=h0", number) for number in range(40)] + [("home=h1", number) for number in range(25)]))
    gone = [told["home=h0", 7], told["home=h0", 31], told["home=h1", 0]]
    hope("three are given up", room.ask("drop", *gone, "--because", "paid by hand", *words)[0], 0)
    proxy.begin()
    hope("what arrives", proxy.serve((38, 24)), [[number for number in range(40) if number not in (7, 31)], list(range(1, 25))])
    hope("nothing else does", proxy.serve((39, 25), patience=1.5), [[], []])
    proxy.has_on_disk(65, 62)
    hope("nothing is open then", (room.ask("list", *words)[:2], proxy.lines("spool-damage")), ((0, ""), []))
    hope("its end", proxy.ends(0), "end: queued 0 outstanding 0 untaken 0")


def the_program_and_the_tool_drop_for_the_same_reasons(room):
    """What the program tells as dropped after a change of its configuration is what the tool tells, each with its reason and arrival."""
    proxy, words = running(room)
    proxy.begin()
    proxy.ask(9)
    proxy.ask(6, lane=1)
    proxy.has_on_disk(15)
    proxy.dies()
    servers = [Server("h0", proxy.homes[0].port, HASTY, "h0.example"), Server("h9", proxy.homes[1].port, HASTY, "h9.example")]
    for name, text, reasons in (("a realm that is gone", configured(f"{HERE}:{proxy.port}", servers, (HERE,), "one secret for all"), {"NoRealm": 6}),
                                ("another secret", configured(f"{HERE}:{proxy.port}", servers, (HERE,), "another one"), {"BadAuthenticator": 15}),
                                ("a client that is gone", configured(f"{HERE}:{proxy.port}", servers, ("192.0.2.9",)), {"UnknownClient": 15})):
        words[-1].write_text(text)
        before = len(proxy.lines("spool-dropped"))
        proxy.begin()
        until("it is told", lambda: "count" in (proxy.lines("spool-dropped")[before:] or [{}])[-1])
        lines = proxy.lines("spool-dropped")[before:-1]
        _, out, _ = room.ask("list", *words)
        found = [line.split() for line in out.splitlines() if " reason=" in line]
        hope(name, [(it[0], it[1]) for it in found], [(f"arrival={line['arrival']}", f"reason={line['reason']}") for line in lines])
        hope(f"{name}: counted", {key[1]: count for key, (count, _) in counts_of(room.ask(*words)[1]).items() if key[0] == "dropped"}, reasons)
        proxy.dies()
    hope("those of a client that is gone are given up", room.ask("drop", "--dropped", "UnknownClient", *words)[0], 0)
    before = len(proxy.lines("spool-dropped"))
    proxy.begin()
    hope("nothing is dropped then", (room.ask("list", *words)[:2], proxy.lines("spool-dropped")[before:]), ((0, ""), []))


def a_program_that_starts_meanwhile_is_refused(room):
    """While `drop` holds the lock the program ends with status 5, as beside another program."""
    proxy, words = running(room)
    proxy.begin()
    proxy.ask(3)
    proxy.has_on_disk(3)
    proxy.dies()
    reading, writing = os.pipe()
    fcntl.fcntl(writing, fcntl.F_SETPIPE_SZ, 4096)
    os.write(writing, bytes(4096))
    asker = room.begin("drop", "1", *words, stdout=writing)
    os.close(writing)

    def is_held():
        with contextlib.suppress(BlockingIOError), open(proxy.spool / "lock", "rb") as lock:
            fcntl.flock(lock, fcntl.LOCK_SH | fcntl.LOCK_NB)
            return False
        return True

    until("it holds the lock", is_held)
    hope("why the program ends", proxy.is_refused(), "another process holds the folder")
    os.read(reading, 4096)
    hope("how it ends", asker.wait(PATIENCE), 0)
    os.close(reading)
    proxy.begin()
    hope("what arrives", proxy.serve((2, 0)), [[1, 2], []])


def a_copy_of_the_folder_is_offered_elsewhere(room):
    """A copy of the segments alone is offered by a program with the same configuration, whose address and port are others, and the NAS gets the
    responses; where the segments are removed, nothing is offered any more. A run without a spool leaves the folder as it is."""
    proxy, words = running(room)
    proxy.begin()
    proxy.ask(12)
    proxy.ask(5, lane=1)
    proxy.has_on_disk(17)
    proxy.dies()
    before = {path.name: path.read_bytes() for path in proxy.spool.iterdir()}
    proxy.begin(RAD_PROXY_SPOOL="")
    hope("nothing arrives without a spool", proxy.serve((1, 1), patience=1.5), [[], []])
    proxy.dies()
    hope("the folder", {path.name: path.read_bytes() for path in proxy.spool.iterdir()}, before)
    copy = room.room / "copy"
    copy.mkdir(mode=0o700)
    for path in proxy.spool.glob("*.spool"):
        shutil.copy(path, copy)
    proxy.spool, proxy.port = copy, free_port()
    proxy.listen = "127.0.0.2", proxy.port
    words[-1].write_text(proxy.configuration().replace(f'"{HERE}:{proxy.port}"', f'"127.0.0.2:{proxy.port}"'))
    hope("what waits there", {name: count for name, (count, _) in counts_of(room.ask("--folder", copy, *words[2:])[1]).items()},
         {("home", "h0"): 12, ("home", "h1"): 5})
    proxy.begin()
    hope("what arrives", proxy.serve((12, 5)), [list(range(12)), list(range(5))])
    given = [bytes([5, number]) for count in (12, 5) for number in range(count)]
    hope("what the NAS gets", sorted(octets[:2] for octets in proxy.responses(17)), sorted(given))
    proxy.dies()
    for path in copy.glob("*.spool"):
        path.unlink()
    proxy.begin()
    hope("nothing does", (proxy.serve((1, 1), patience=2), arrivals_in(room.ask("list", "--folder", copy, *words[2:])[1])), ([[], []], []))


TESTS = [what_waits_is_counted_by_home_server, what_would_be_dropped_is_told_by_its_reason, the_last_entry_about_a_request_counts,
         folders_that_are_none_are_told, a_configuration_with_a_fault_is_told, damage_is_told_by_segment_and_offset,
         any_octets_are_read_as_by_another_hand, what_is_no_segment_is_told,
         a_run_that_writes_meanwhile_is_no_damage, a_batch_that_is_cut_short_is_looked_at_twice, segments_that_go_meanwhile_are_read_again,
         what_is_named_is_given_up, each_step_is_on_disk_before_the_next, a_reason_has_255_octets_at_most, what_is_not_open_is_refused, words_are_told_apart,
         a_folder_that_is_held_is_left_alone, root_acts_as_the_owner, outputs_that_nobody_reads_end_it, what_is_exported_is_what_came,
         radclient_sends_what_is_exported, each_service_has_its_folder, many_are_given_up_by_several_segments,
         the_program_goes_on_without_what_was_given_up, a_copy_of_the_folder_is_offered_elsewhere,
         the_program_and_the_tool_drop_for_the_same_reasons, a_program_that_starts_meanwhile_is_refused]


if __name__ == "__main__":
    try_named(TESTS, Room, __doc__)
