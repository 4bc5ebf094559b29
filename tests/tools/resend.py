"""Has rad_resend turn requests that were left into attributes for radclient, and radclient send them to a home server.

usage: python3 -m tests.tools.resend PROGRAM [NAME ..]

Each test is a function below, and its first line tells what holds. The ledgers are made here, but for one of the program. What radclient
sends is compared octet by octet with what the NAS sent; without Debian's freeradius-utils that is left out. The last line is `N passed, M
failed`.
"""
import contextlib
import json
import random
import shutil
import subprocess
import sys
import threading
import time
from datetime import datetime, timedelta, timezone

from tests.lib import (HERE, TOP, LeftOut, Server, Stage, answer, attribute, bound, configured, hope, mark, need, request, try_in_folders,
                       until, user_name)

# The modules of the tools find those beside them.
sys.path.insert(0, str(TOP / "tools"))
from tools.resending import Left  # noqa: E402

SECRET, HOME_SECRET = b"nas-secret", "home-secret"
TOOL = TOP / "tools" / "rad_resend"
START, DELAY = attribute(40, bytes([0, 0, 0, 1])), 41


def clock(seconds_ago=0):
    moment = datetime.now(timezone.utc) - timedelta(seconds=seconds_ago)
    return f"{moment:%Y-%m-%dT%H:%M:%S}.{moment.microsecond // 1000:03d}Z"


class Room:
    """A folder with a configuration, a ledger that grows line by line, and a home server that keeps the attributes that come."""

    def __init__(self, folder):
        self.folder, self.ledger, self.config = folder, folder / "run.jsonl", folder / "rad_proxy.toml"
        self.home, self.came, self.is_over = bound(patience=0.05), [], False
        self.place = f"{HERE}:{self.home.getsockname()[1]}"
        servers = [Server("h1", self.place, realm="example.org"), Server("h2", "192.0.2.1:9", realm="example.net")]
        self.config.write_text(configured(f"{HERE}:1813", servers, [HERE, "192.0.2.7"], SECRET.decode()))
        self.ledger.write_text("")
        self.records = 0

    def add(self, **keys):
        with self.ledger.open("a") as file:
            file.write(json.dumps(keys) + "\n")

    def leave(self, attributes, state="queued", age=100, **more):
        """A line of the ledger for a request of these attributes, which was accepted so many seconds ago."""
        octets, self.records = request(self.records % 256, attributes, SECRET), self.records + 1
        line = {"type": "left", "run": "0123456789abcdef", "time": clock(), "home": "h1", "lane": 0, "record": self.records, "client": HERE,
                "port": 40000, "identifier": octets[1], "authenticator": octets[4:20].hex(), "state": state, "sendings": 0,
                "accepted": clock(age), "request": octets.hex()}
        self.add(**(line | more))

    def answer(self, attributes, client=HERE):
        """A line for a record that was answered."""
        sent = request(9, attributes + mark(0, 3), HOME_SECRET.encode())
        self.add(type="entry", client=client, sent=sent.hex())

    def ask(self, *words):
        return subprocess.run([TOOL, *words, self.config, self.ledger], capture_output=True, text=True, timeout=120)

    def serve(self):
        while not self.is_over:
            with contextlib.suppress(TimeoutError):
                octets, sender = self.home.recvfrom(4096)
                need(octets == request(octets[1], octets[20:], HOME_SECRET.encode()), "a request under another secret")
                self.came.append(octets[20:])
                self.home.sendto(answer(octets, octets[1], b"", HOME_SECRET.encode()), sender)

    def sent(self, text):
        """What comes to the home server when radclient sends this text, as the tool says that it is called."""
        if shutil.which("radclient") is None:
            raise LeftOut("it wants Debian's freeradius-utils")
        (self.folder / "attributes").write_text(text)
        (self.folder / "secret").write_text(HOME_SECRET)
        serving = threading.Thread(target=self.serve)
        serving.start()
        words = ["radclient", "-q", "-f", self.folder / "attributes", "-S", self.folder / "secret", self.place, "acct"]
        done = subprocess.run(words, capture_output=True, text=True, timeout=120)
        self.is_over = True
        serving.join()
        hope("radclient", (done.returncode, done.stdout + done.stderr), (0, ""))
        return self.came


def queued_ones_are_printed(_, folder):
    """A queued request is printed, in its order; an outstanding one by --outstanding alone; an untaken one never."""
    room = Room(folder)
    for number, state in enumerate(("queued", "outstanding", "untaken", "queued")):
        room.leave(user_name(b"u%d@example.org" % number), state)
    done = room.ask()
    hope("queued", (done.returncode, [line for line in done.stdout.splitlines() if "#" in line]), (0, ["# h1 1 queued", "# h1 4 queued"]))
    hope("told", done.stderr.splitlines(), ["rad_resend: left: queued 2, outstanding 1, untaken 1; answered since: 0; printed: 2",
                                            f"rad_resend: send them: radclient -f FILE -S SECRETFILE {room.place} acct"])
    done = room.ask("--outstanding")
    hope("both", [line for line in done.stdout.splitlines() if "#" in line], ["# h1 1 queued", "# h1 2 outstanding", "# h1 4 queued"])
    none = Room(folder)
    done = none.ask()
    hope("none", (done.returncode, done.stdout, done.stderr),
         (0, "", "rad_resend: left: queued 0, outstanding 0, untaken 0; answered since: 0; printed: 0\n"))


def radclient_sends_what_came(_, folder):
    """What radclient sends has each attribute of the request, octet for octet and in order, whatever its type and value."""
    room, chance = Room(folder), random.Random(1)
    kinds = [kind for kind in range(1, 256) if kind not in (2, 3, 26, 41, 69, 80, 92, 214, 215)]
    bodies = [attribute(kind, chance.randbytes(length)) for kind in kinds for length in (1, 4, 253)]
    bodies += [attribute(26, vendor.to_bytes(4, "big") + attribute(chance.randrange(1, 256), chance.randbytes(9)))
               for vendor in (9, 14988, 10415, 24757, 0xFFFFFF) for _ in range(4)]
    bodies += [attribute(kind, chance.randbytes(6)) + attribute(kind, chance.randbytes(6)) + START for kind in (25, 33, 44)]
    for body in bodies:
        room.leave(body)
    came = room.sent(room.ask("--keep-delay").stdout)
    hope("how many", len(came), len(bodies))
    hope("those that differ", [(left, right) for left, right in zip(came, bodies + [b""]) if left != right], [])


def a_delay_counts_from_the_acceptance(_, folder):
    """The seconds since a request was accepted are added to its Acct-Delay-Time, and one without gets it last; --keep-delay leaves both. Of a
    record that two runs left, the first acceptance counts."""
    for keys, age in (({}, 100), ({"accepted": None}, 0)):
        room = Room(folder)
        given = {"age": 100} if not keys else {}
        for value in (None, 0, 7, 2**32 - 5):
            delay = b"" if value is None else attribute(DELAY, value.to_bytes(4, "big"))
            room.leave(START + delay + attribute(44, str(value).encode()), **given)
        room.leave(START + attribute(44, b"None"), age=30, run="fedcba9876543210")
        if keys:
            lines = [json.loads(line) for line in room.ledger.read_text().splitlines()]
            for line in lines:
                del line["accepted"]
            room.ledger.write_text("".join(json.dumps(line) + "\n" for line in lines))
        text = room.ask().stdout
        delays = [int(line.split("0x")[1], 16) for line in text.splitlines() if line.startswith("Attr-41 ")]
        for found, wanted in zip(delays, (0 + age, 0 + age, 7 + age, 2**32 - 1 if age else 2**32 - 5)):
            need(0 <= found - wanted <= 5, f"a delay of {found}, and not {wanted}")
        hope("how many", len(delays), 4)
        hope("where it stands", text.split("\n\n")[0].splitlines()[-1].split()[0], "Attr-41")
        kept = [line for line in room.ask("--keep-delay").stdout.splitlines() if line.startswith("Attr-41 ")]
        hope("kept", kept, ["Attr-41 = 0x00000000", "Attr-41 = 0x00000007", "Attr-41 = 0xfffffffb"])


def a_delay_has_the_seconds_that_are_over(_, folder):
    """A second counts once it is over, by the milliseconds of the acceptance."""
    room, midnight = Room(folder), datetime(2026, 1, 31, tzinfo=timezone.utc).timestamp()
    room.leave(START, accepted="2026-01-31T00:00:00.250Z")
    left = Left.read(json.loads(room.ledger.read_text()), "")
    found = [int.from_bytes(left.delayed(midnight + now)[-1][1], "big") for now in (0.7, 100.2, 100.3)]
    hope("the delays", found, [0, 99, 100])


def what_was_answered_since_is_left_out(_, folder):
    """A record that a NAS sent again and that was answered is left out, also under another Acct-Delay-Time, but not of another client, nor
    with its attributes in another order."""
    room = Room(folder)
    first, second, third = (START + attribute(44, name) for name in (b"a", b"b", b"c"))
    for one in (first, second + attribute(DELAY, bytes(4)), third):
        room.leave(one)
    room.answer(first)
    room.answer(second + attribute(DELAY, bytes([0, 0, 0, 9])))
    room.answer(third, client="192.0.2.7")
    room.answer(third + attribute(25, b"more"))
    room.answer(attribute(44, b"c") + START)
    done = room.ask()
    hope("printed", [line for line in done.stdout.splitlines() if "#" in line], ["# h1 3 queued"])
    need("answered since: 2; printed: 1" in done.stderr, done.stderr)
    for one, home in ((b"d", "h2"), (b"e", "h2"), (b"f", "h2"), (b"g", "h1")):
        room.leave(START + attribute(44, one), home=home)
        room.answer(START + attribute(44, one))
    for home, answered, printed in (("h1", 3, 1), ("h2", 3, 0)):
        told = room.ask("--home", home).stderr
        need(f"answered since: {answered}; printed: {printed}" in told, told)


def a_record_left_twice_is_printed_once(_, folder):
    """A record that two runs left is printed once, and counts as outstanding if it was so in one."""
    room = Room(folder)
    for name, states in ((b"a", ("queued", "queued")), (b"b", ("queued", "outstanding")), (b"c", ("outstanding", "queued")),
                         (b"d", ("queued", "untaken"))):
        for delay, state in enumerate(states):
            room.leave(START + attribute(44, name) + attribute(DELAY, bytes([0, 0, 0, delay])), state)
    done = room.ask("--keep-delay")
    hope("printed", (done.stdout.count("#"), "Attr-44 = 0x61" in done.stdout), (1, True))
    need("left: queued 1, outstanding 2, untaken 1;" in done.stderr, done.stderr)


def what_a_spool_has_is_left_out(_, folder):
    """A record that a run told as kept is left out, also where another line of it does not say so, and told; --force prints it."""
    room = Room(folder)
    for name, lines in ((b"a", ((), ("kept",))), (b"b", (("kept",), ())), (b"c", (("kept",), ("kept",))), (b"d", ((),)), (b"e", (("kept", "outstanding"),))):
        for delay, said in enumerate(lines):
            attributes = START + attribute(44, name) + attribute(DELAY, bytes([0, 0, 0, delay]))
            room.leave(attributes, "outstanding" if "outstanding" in said else "queued", **({"kept": True} if "kept" in said else {}))
    done = room.ask("--keep-delay")
    hope("printed", (done.returncode, done.stdout.count("#"), "Attr-44 = 0x64" in done.stdout), (0, 1, True))
    hope("told", done.stderr.splitlines()[:2], [
        "rad_resend: left: queued 4, outstanding 1, untaken 0; answered since: 0; printed: 1",
        "rad_resend: left out, since a spool has them and offers them to the next run: 3 (--force prints them)"])
    hope("outstanding too", "the next run: 4 (" in room.ask("--outstanding").stderr, True)
    done = room.ask("--force")
    hope("forced", (done.returncode, done.stdout.count("#"), "the next run" in done.stderr), (0, 4, False))
    room.answer(START + attribute(44, b"b"))
    hope("but one was answered", "the next run: 2 (" in room.ask().stderr, True)
    only = Room(folder)
    only.leave(START, kept=True)
    done = only.ask()
    hope("none", (done.returncode, done.stdout, done.stderr.splitlines()[1:]), (
        0, "", ["rad_resend: left out, since a spool has them and offers them to the next run: 1 (--force prints them)"]))
    for wrong in (False, 1, "true", None):
        bad = Room(folder)
        bad.leave(START, kept=wrong)
        done = bad.ask()
        hope(f"kept is {wrong!r}", (done.returncode, "it is not a line of a ledger" in done.stderr), (3, True))


def what_radclient_would_change_is_told(_, folder):
    """An attribute without a Value, and one that radclient encrypts or splits, leave their record out: told, and 3."""
    room = Room(folder)
    bad = [attribute(25, b""), attribute(2, b"x"), attribute(3, b"x"), attribute(69, b"x"), attribute(80, bytes(16)), attribute(214, b"x"),
           attribute(215, b"x"), attribute(92, bytes(253)), attribute(26, bytes(4) + attribute(1, b"x"))]
    for one in bad:
        room.leave(START + one)
    room.leave(START)
    done = room.ask()
    told = [line.rsplit(":", 1)[1] for line in done.stderr.splitlines()[:-2]]
    hope("told", told, [f" radclient does not send an attribute of type {one[0]} as it came" for one in bad])
    hope("printed", (done.returncode, done.stdout.count("#")), (3, 1))


def one_home_server_at_a_time(_, folder):
    """Where more than one has requests that were left, one is to be named, which the configuration has."""
    room = Room(folder)
    room.leave(START)
    room.leave(START + attribute(44, b"s"), home="h2")
    hope("both", (room.ask().returncode, room.ask().stderr),
         (1, "rad_resend: home servers with requests that were left: h1, h2: choose one by --home\n"))
    done = room.ask("--home", "h2", "--source", "192.0.2.9")
    hope("one", (done.returncode, done.stdout.splitlines()[:2]), (0, ["# h2 2 queued", "Packet-Src-IP-Address = 192.0.2.9"]))
    need("192.0.2.1:9 acct" in done.stderr, done.stderr)
    room.leave(START + attribute(44, b"t"), home="h3")
    hope("none", room.ask("--home", "h3").stderr, f"rad_resend: {room.config} has no home server h3\n")


def what_is_wrong_is_told(_, folder):
    """Lines that are none, requests under another secret, files that are none, and words that are wrong: told, each in one line."""
    room = Room(folder)
    good = START + attribute(44, b"s")
    room.leave(good)
    room.leave(START, request=request(1, START, b"another").hex())
    room.leave(START + START, client="192.0.2.8")
    for keys in ({"state": "lost"}, {"request": "0x"}, {"request": "04"}, {"home": 1}, {"accepted": "yesterday"}, {"client": None}):
        room.leave(good, **keys)
    with room.ledger.open("a") as file:
        file.write('[]\n{"type":"entry"}\n{"type":"left","run":"0123')
    done = room.ask()
    hope("ends", (done.returncode, done.stdout.count("#")), (3, 1))
    hope("lines", [line.split(":")[2] for line in done.stderr.splitlines()[:-2]], [*map(str, range(4, 13)), "2", "3"])
    for words, status in ((["--frob"], 1), (["--source", "here"], 1), (["--home"], 1)):
        done = room.ask(*words)
        hope(words, (done.returncode, done.stdout, len(done.stderr.splitlines())), (status, "", 1))
    done = subprocess.run([TOOL, room.config, folder / "none"], capture_output=True, text=True)
    hope("no file", (done.returncode, done.stderr), (4, f"rad_resend: {folder}/none: No such file or directory\n"))
    done = subprocess.run([TOOL, folder / "none", room.ledger], capture_output=True, text=True)
    hope("no configuration", (done.returncode, done.stderr), (4, f"rad_resend: file: {folder}/none: No such file or directory\n"))
    for word in ("--help", "--version"):
        done = subprocess.run([TOOL, word], capture_output=True, text=True)
        hope(word, (done.returncode, done.stderr, "rad_resend" in done.stdout), (0, "", True))


def a_line_is_named_whatever_is_wrong(_, folder):
    """Names and addresses that are none, texts with a line end or a NUL, and lines that are too long: each is named once, and the others go on."""
    room = Room(folder)
    room.leave(START)
    bad = [{"client": it} for it in ("here", "127.0.0.1\0", "127.0.0.01", "1", "", "127.0.0.1\n", ["127.0.0.1"])]
    bad += [{"home": it} for it in ("h1\nUser-Name = x", "", "h1\0", "\u202eh1", [])] + [{"record": it} for it in (True, "1", 1.5, None)]
    for keys in bad:
        room.leave(START, **keys)
    with room.ledger.open("a") as file:
        for size in (65_536, 65_537, 65_538, 65_539, 200_000):
            line = json.dumps({"type": "hidden", "sum": ""})
            file.write(line + " " * (size - len(line)) + "\n")
    room.leave(START + attribute(44, b"last"))
    done = room.ask()
    lines, last = [line.split(":") for line in done.stderr.splitlines()[:-2]], 2 + len(bad)
    hope("lines", [int(line[2]) for line in lines], [*range(2, last), *range(last + 1, last + 5)])
    hope("too long", [line[3] for line in lines if "octets" in line[3]], [" a line of more than 65536 octets"] * 4)
    hope("printed", (done.returncode, done.stdout.count("#")), (3, 2))


def what_a_proxy_left_is_sent(program, folder):
    """Of a ledger that the program wrote, what was queued is printed, but for a record that a later run answered."""
    ledger = folder / "ledger"
    ledger.mkdir()
    given = {"limits": "window = 2\n", "variables": {"RAD_PROXY_LEDGER": str(ledger)}}
    with Stage(program, folder, **given) as stage:
        for _ in range(6):
            stage.nas.ask()
        until("they are accepted", lambda: stage.say(b"state", 1)[0].split()[8] == "4")
        hope("the end", stage.ends()[1:], ("end: queued 4 outstanding 2 untaken 0", 3))
    with Stage(program, folder, **given) as stage:
        stage.nas.asked = 3
        stage.round_trip()
        hope("the second end", stage.ends()[2], 0)
        done = subprocess.run([TOOL, stage.proxy.file, *ledger.iterdir()], capture_output=True, text=True)
        names = [f"Attr-1 = 0x{(b'user%d@h0.example' % number).hex()}" for number in (3, 5, 6)]
        hope("printed", [line for line in done.stdout.splitlines() if line.startswith("Attr-1 ")], names)
        need("left: queued 3, outstanding 2, untaken 0; answered since: 1; printed: 3" in done.stderr, done.stderr)
        done = subprocess.run([TOOL, "--outstanding", stage.proxy.file, *ledger.iterdir()], capture_output=True, text=True)
        hope("all", (done.returncode, done.stdout.count("#")), (0, 5))


def what_a_proxy_keeps_is_left_out(program, folder):
    """Of what a program with a spool left nothing is printed, but by --force."""
    ledger = folder / "ledger"
    ledger.mkdir()
    given = {"limits": "window = 2\n", "variables": {"RAD_PROXY_LEDGER": str(ledger), "RAD_PROXY_SPOOL": str(folder / "spool")}}
    with Stage(program, folder, **given) as stage:
        for _ in range(6):
            stage.nas.ask()
        until("they are accepted", lambda: stage.say(b"state", 1)[0].split()[8] == "4")
        hope("the end", stage.ends()[1:], ("end: queued 4 outstanding 2 untaken 0", 3))
        files = [stage.proxy.file, *ledger.iterdir()]
        done = subprocess.run([TOOL, "--outstanding", *files], capture_output=True, text=True)
        hope("printed", (done.returncode, done.stdout, "the next run: 6 (" in done.stderr), (0, "", True))
        done = subprocess.run([TOOL, "--outstanding", "--force", *files], capture_output=True, text=True)
        hope("forced", (done.returncode, done.stdout.count("#"), "printed: 6" in done.stderr), (0, 6, True))


def many_are_printed_in_time(_, folder):
    """A hundred thousand requests that were left take less than a minute."""
    room = Room(folder)
    room.leave(START)
    line = json.loads(room.ledger.read_text())
    with room.ledger.open("w") as file:
        for number in range(100_000):
            octets = request(number % 256, START + attribute(44, b"%06d" % number), SECRET)
            file.write(json.dumps(line | {"record": number, "request": octets.hex()}) + "\n")
    begun = time.monotonic()
    done = room.ask()
    hope("printed", (done.returncode, done.stdout.count("#")), (0, 100_000))
    need(time.monotonic() - begun < 60, "it took", time.monotonic() - begun)


TESTS = [
    queued_ones_are_printed, radclient_sends_what_came, a_delay_counts_from_the_acceptance, a_delay_has_the_seconds_that_are_over, what_was_answered_since_is_left_out,
    a_record_left_twice_is_printed_once, what_a_spool_has_is_left_out, what_a_proxy_keeps_is_left_out, what_radclient_would_change_is_told, one_home_server_at_a_time, what_is_wrong_is_told,
    a_line_is_named_whatever_is_wrong, many_are_printed_in_time, what_a_proxy_left_is_sent,
]


if __name__ == "__main__":
    try_in_folders(TESTS, __doc__)
