"""Has `rad_trial` play captures to the program, and compares what it tells with what was sent.

usage: python3 -m tests.tools.trial PROGRAM [--long | NAME ..]

Names choose tests, and `--long` those that take a minute or more. What fails or is left out is told, and the last line is
`N passed, M failed`. Most tests want root and `ip`, and some `setpriv`, `unshare`, tcpdump or radsecproxy: a test is left out where
what it wants is not here.
"""
import functools
import os
import pathlib
import re
import resource
import shutil
import signal
import subprocess
import sys
import tempfile
import time
from collections import Counter
from multiprocessing.pool import ThreadPool

from tests.lib import (ACCT_SESSION_ID, ACCT_STATUS_TYPE, CLASS, answer, attribute, hope, is_asked, is_so, mark, packet, request, status,
                       try_in_folders, until, user_name)
from tests.lib.tools.capturing import COOKED_2, ETHERNET, START, fragments, framed, ipv4, pcap, pcapng, udp
from tests.lib.tools.running import TOOLS, is_root, run, want

TOOL = TOOLS / "rad_trial"
tool = functools.partial(run, TOOL)

PROXY, SECRET = ("192.0.2.1", 1813), b"nas-secret"
FIRST, SECOND, STRANGER, SILENT = "192.0.2.10", "192.0.2.11", "203.0.113.9", "192.0.2.12"
HOME = ("198.51.100.20", 1813)
NOBODY = 65534


def configuration(limits="", listen="0.0.0.0:1813", secret="nas-secret", second_home=HOME):
    clients = "".join(f'[[client]]\naddress = "{it}"\nsecret = "{secret}"\n' for it in (FIRST, SECOND, SILENT))
    homes = "".join(f'[[home]]\nname = "{name}"\naddress = "{place[0]}:{place[1]}"\nsecret = "{name}-secret"\n{limits}\n'
                    for name, place in (("h1", HOME), ("h2", second_home)))
    realms = "".join(f'[[realm]]\nname = "{name}"\nhome = "{home}"\n' for name, home in (("example.org", "h1"), ("Example.NET", "h2")))
    return f'listen = "{listen}"\nlinger = 200\n{clients}{homes}{realms}'


def record(number, user=b"bob@example.org", more=b""):
    return user_name(user) + attribute(ACCT_STATUS_TYPE, bytes([0, 0, 0, 1])) + attribute(ACCT_SESSION_ID, b"S%d" % number) + more


class Traffic:
    """What NASes send, and what the program has to make of it, by client and realm."""

    def __init__(self, apart=0.002):
        self.sent, self.time, self.apart, self.number, self.wanted, self.why = [], START, apart, 0, {}, {}

    def send(self, octets, source=FIRST, realm="-", fate="accepted", why=None, port=None):
        self.sent.append((self.time, (source, port or 40000 + self.number // 250 % 100), octets))
        self.time += self.apart
        counts = self.wanted.setdefault((source, realm), Counter())
        counts["came"] += 1
        counts[fate] += 1
        if why:
            self.why.setdefault((source, realm), Counter())[why] += 1

    def ask(self, source=FIRST, user=b"bob@example.org", realm="example.org", fate="accepted", why=None, more=b"", secret=SECRET):
        """A new request. Gives what sends it again."""
        octets, port = request(self.number % 250, record(self.number, user, more), secret), 40000 + self.number // 250 % 100
        self.send(octets, source, realm, fate, why, port)
        self.number += 1
        return lambda fate="repeated": self.send(octets, source, realm, fate, None, port)

    def frames(self, link=ETHERNET):
        return [(at, framed(link, ipv4(source, PROXY, udp(source, PROXY, octets)))) for at, source, octets in self.sent]


def mixed():
    """Datagrams of each fate."""
    traffic = Traffic()
    for count in range(40):
        again = traffic.ask()
        traffic.ask(SECOND, b"eve@EXAMPLE.net", "example.net")
        if count % 4 == 0:
            again()
    for _ in range(3):
        traffic.ask(user=b"bob@nowhere.example", realm="nowhere.example", fate="dropped", why="NoRealm")
        traffic.ask(user=b"bob", realm="-", fate="dropped", why="NoRealm")
        traffic.ask(SECOND, fate="dropped", why="BadAuthenticator", secret=b"other")
        traffic.ask(STRANGER, fate="dropped", why="UnknownClient")
    traffic.ask(more=attribute(80, bytes(16)), fate="dropped", why="MessageAuthenticatorHere")
    traffic.ask(more=b"".join(attribute(CLASS, bytes(200)) for _ in range(20)), fate="refused", why="TooLong")
    traffic.send(b"nothing", fate="dropped", why="Unread")
    traffic.send(packet(1, 9, bytes(16), record(1)), realm="example.org", fate="dropped", why="WrongCode")
    traffic.send(status(8, bytes(16), b"", b"", SECRET), fate="status")
    traffic.send(status(8, bytes(16), b"", b"", b"other"), fate="dropped", why="BadMessageAuthenticator")
    return traffic


class Trial:
    """A folder with a configuration and captures, where the tool is run."""

    def __init__(self, program, folder, config=None):
        want("ip", root=True)
        self.program, self.folder = program, pathlib.Path(folder)
        self.config = self.write("rad_proxy.toml", (config or configuration()).encode())

    def write(self, name, octets):
        path = self.folder / name
        path.write_bytes(octets)
        return str(path)

    def words(self, captures, words):
        paths = [self.write(f"capture-{at}", it) if isinstance(it, bytes) else it for at, it in enumerate(captures)]
        return ["--program", self.program, "--answer", "5", *words, self.config, *paths]

    def played(self, *captures, words=()):
        """The report of a trial."""
        ran = tool(*self.words(captures, words))
        text = ran.stdout.decode("utf-8")
        hope(f"status of {text} {ran.stderr.decode()}", (ran.returncode, ran.stderr), (0, b""))
        return text

    def refused(self, status, *captures, words=(), config=None):
        """The line of a trial that ends before it has a report."""
        ran = tool(*self.words(captures, words))
        hope(f"{ran.stdout} {ran.stderr}", (ran.returncode, ran.stderr.count(b"\n"), b"Traceback" in ran.stderr), (status, 1, False))
        return ran.stderr.decode("utf-8", "replace").rstrip("\n")


ROW = re.compile(r"^(\d+\.\d+\.\d+\.\d+)  +(\S+)  +(\d+)  +(\d+)  +(\d+)  +(\d+)  +(\d+)  +(\d+)(?:  +(.*))?$", re.MULTILINE)
COLUMNS = ("came", "accepted", "repeated", "status", "refused", "dropped")


def reasons(text):
    return Counter({word: int(count) for word, count in re.findall(r"(\w+) (\d+)", text or "")})


def rows(text):
    """The rows of a report, by client and realm: counts and reasons."""
    return {(row[0], row[1]): (Counter(dict(zip(COLUMNS, map(int, row[2:8])))), reasons(row[8])) for row in ROW.findall(text)}


def see_rows(text, traffic):
    """Whether each client and each realm has what it has to. A log that lost lines has less of the realms."""
    found, clients = rows(text), {}
    for (client, realm), counts in traffic.wanted.items():
        clients.setdefault(client, [Counter(), Counter()])
        clients[client][0].update(counts)
        clients[client][1].update(traffic.why.get((client, realm), Counter()))
        if client != STRANGER and "missing: " not in text:
            hope(f"{client} {realm} in {text}", found.get((client, realm)), (counts, traffic.why.get((client, realm), Counter())))
    for client, (counts, why) in clients.items():
        if client != STRANGER:
            hope(f"{client} in {text}", found.get((client, "all")), (counts, why))


def home_rows(text, name):
    """What a report has of a home server."""
    first = re.search(rf"^home {name} queue (\d+) of (\d+) book (\d+) of (\d+) window (\d+) of (\d+)$", text, re.MULTILINE)
    second = re.search(rf"^home {name} accepted (\d+) answered (\d+) resent (\d+) marked down (\d+) times, left (\d+), "
                       r"longest reply (.*), longest response (.*)$", text, re.MULTILINE)
    names = ("queue", "of queue", "book", "of book", "window", "of window", "accepted", "answered", "resent", "downs", "left")
    return dict(zip(names, map(int, first.groups() + second.groups()[:5]))) | {"reply": second[6], "response": second[7]}


def each_fate_is_counted(program, folder):
    """Accepted, repeated, dropped and refused by reason, for each client and realm; the senders with the most drops."""
    trial, traffic = Trial(program, folder), mixed()
    text = trial.played(pcap(traffic.frames()))
    see_rows(text, traffic)
    hope("strangers", "\nsenders that are no client: 3 datagrams\n" in text, True)
    hope("silent clients", "\nclients that sent nothing: 1\n" in text, True)
    for name in ("h1", "h2"):
        home = home_rows(text, name)
        hope(name, [home[key] for key in ("accepted", "answered", "resent", "downs", "left")], [40, 40, 0, 0, 0])
    drops = text.partition("most drops and refusals, of 3 senders that had any:\n")[2].splitlines()
    if "missing: " not in text:
        hope("the most drops", [line.split(":")[0] for line in drops[:3]], [f"{FIRST} 11", f"{SECOND} 3", f"{STRANGER} 3"])
        why = sum((traffic.why[FIRST, realm] for realm in ("-", "example.org", "nowhere.example")), Counter())
        hope("why", reasons(drops[0].split(": ")[1]), why)
    hope("the end", text.endswith("end: queued 0 outstanding 0 untaken 0\n"), True)


def realms_that_are_not_listed_lead_on(program, folder):
    """With `other_home` they are accepted there, and without a realm or with an empty one a request is dropped as before."""
    trial, traffic = Trial(program, folder, 'other_home = "h2"\n' + configuration()), Traffic(0.01)
    for user, realm in ((b"bob@nowhere.example", "nowhere.example"), (b"eve@Example.NET", "example.net"), (b"x@example.org", "example.org")):
        for _ in range(5):
            traffic.ask(user=user, realm=realm)
    for user, realm in ((b"bob", "-"), (b"bob@", "")):
        traffic.ask(SECOND, user, realm, "dropped", "NoRealm")
    text = trial.played(pcap(traffic.frames()))
    traffic.wanted.pop((SECOND, ""))
    traffic.why.pop((SECOND, ""))
    for key in ((FIRST, "nowhere.example"), (FIRST, "example.net"), (FIRST, "example.org"), (SECOND, "-")):
        hope(f"{key} in {text}", rows(text).get(key), (traffic.wanted[key], traffic.why.get(key, Counter())))
    hope("home servers", [home_rows(text, name)["accepted"] for name in ("h1", "h2")], [5, 10])


def each_form_is_played(program, folder):
    """Cooked frames, pcapng, and fragments; two files in the order of their times."""
    trial, traffic = Trial(program, folder), Traffic(0.01)
    for _ in range(10):
        traffic.ask(more=b"".join(attribute(CLASS, bytes(200)) for _ in range(9)))()
    parts = [(at, framed(ETHERNET, part)) for place, (at, source, octets) in enumerate(traffic.sent)
             for part in fragments(source, PROXY, octets, 800, place)]
    frames = traffic.frames()
    for captures in ([pcap(traffic.frames(COOKED_2), COOKED_2)], [pcapng(parts)], [pcap(frames[10:]), pcapng(frames[:10])]):
        see_rows(trial.played(*captures), traffic)


def both_sides_are_in_the_capture(program, folder):
    """Of a capture of both sides only what NASes send is played, also if a NAS and home servers have the proxy's port."""
    trial, traffic, frames = Trial(program, folder), Traffic(0.01), []
    for number in range(10):
        octets, nas = request(number, record(number), SECRET), (FIRST, 1813)
        sent = request(number, record(number) + mark(0, number), b"h1-secret")
        traffic.send(octets, FIRST, "example.org")
        passed = ((nas, PROXY, octets), (PROXY, HOME, sent), (HOME, PROXY, answer(sent, number, mark(0, number), b"h1-secret")),
                  (PROXY, nas, answer(octets, number, b"", SECRET)))
        frames += [(START + number / 100 + step / 1000, framed(ETHERNET, ipv4(a, b, udp(a, b, it))))
                   for step, (a, b, it) in enumerate(passed)]
    see_rows(trial.played(pcap(frames)), traffic)


def an_outage_fills_the_queue(program, folder):
    """While home servers are silent, the window and the queue fill, and then requests are refused."""
    limits = "queue = 50\nwindow = 10\nfirst_wait = 500\ndown_wait = 1000\nprobe_every = 1000"
    trial, traffic = Trial(program, folder, configuration(limits)), Traffic(0.01)
    for number in range(100):
        fate = ("accepted", None) if number < 60 else ("refused", "QueueFull")
        traffic.ask(fate=fate[0], why=fate[1])
    text = trial.played(pcap(traffic.frames()), words=["--outage", "3"])
    see_rows(text, traffic)
    home = home_rows(text, "h1")
    hope(text, [home[key] for key in ("queue", "of queue", "book", "window", "of window", "answered", "left")], [50, 50, 60, 10, 10, 60, 0])
    hope("resent", home["resent"] > 0, True)
    low, high = map(float, re.fullmatch(r"([\d.]+) to ([\d.]+) s", home["response"]).groups())
    hope("the longest time holds three seconds", high >= 2.5 and low <= 10, True)


def an_outage_may_come_later(program, folder):
    """What came before it is answered at once, and a full book refuses."""
    trial, traffic = Trial(program, folder, configuration("book = 30")), Traffic(0.02)
    for number in range(60):
        fate = ("accepted", None) if number < 30 else ("refused", "BookFull")
        traffic.ask(fate=fate[0], why=fate[1])
    text = trial.played(pcap(traffic.frames()), words=["--outage", "2", "--outage-at", "0.2", "--wait", "10"])
    see_rows(text, traffic)
    home = home_rows(text, "h1")
    hope(text, [home[key] for key in ("book", "of book", "answered")], [30, 30, 30])


def answers_take_their_time(program, folder):
    """`--answer` is how long they take, and `--speed` how much faster it goes."""
    trial, traffic = Trial(program, folder), Traffic(0.1)
    for _ in range(40):
        traffic.ask()
    began = time.monotonic()
    text = trial.played(pcap(traffic.frames()), words=["--speed", "10", "--answer", "300"])
    hope("in 3.9 s, played in", re.search(r"in 3\.9 s, played in 0\.[345]", text) is not None or text, True)
    hope("all of it in ten seconds", time.monotonic() - began < 30, True)
    low = float(re.fullmatch(r"([\d.]+) to [\d.]+ s", home_rows(text, "h1")["reply"])[1])
    hope("not less than the bucket of 300 ms", low >= 0.25, True)


def datagrams_that_the_system_drops_are_lost(program, folder):
    """While the program stands still, the receive buffer fills: what the system drops then is told, all of it."""
    trial, traffic = Trial(program, folder), Traffic(0.0002)
    trial.program = trial.write("stands", STANDS.replace("PROGRAM", str(program)).encode())
    os.chmod(trial.program, 0o755)
    for _ in range(10_000):
        traffic.ask(more=b"".join(attribute(CLASS, bytes(250)) for _ in range(14)))
    text = trial.played(pcap(traffic.frames()))
    lost = re.search(r"^lost: (\d+) datagrams before the program, (\d+) of them since the receive buffer", text, re.MULTILINE)
    hope(f"lost: {text}", bool(lost) and int(lost[1]) > 1000 and lost[1] == lost[2], True)
    hope(text, sum(it["came"] for (_, realm), (it, _) in rows(text).items() if realm == "all"), 10_000 - int(lost[1]))


# The program, which stands still for a second and a half a while after it began.
STANDS = """#!/bin/sh
test "$1" = run && { sleep 1; kill -STOP $$; sleep 1.5; kill -CONT $$; } </dev/null >/dev/null 2>&1 &
exec PROGRAM "$@"
"""


def odd_names_are_played(program, folder):
    """Secrets with quotes, and realms and sessions with control characters and octets that are not UTF-8."""
    secret = '\\"\\\\\\u0001\\t é%='
    octets = '"\\\x01\t é%='.encode()
    trial, traffic = Trial(program, folder, configuration(secret=secret)), Traffic(0.01)
    traffic.ask(secret=octets)
    traffic.ask(user=b"\xff\n@\x00\x1b[2J\xc3(", realm="%00%1b[2j%c3(", fate="dropped", why="NoRealm", secret=octets)
    traffic.ask(user=b"a@ b=\"c\"%", realm="%20b%3d%22c%22%25", fate="dropped", why="NoRealm", secret=octets)
    text = trial.played(pcap(traffic.frames()))
    see_rows(text, traffic)
    hope("not printable", [it for it in text if not it.isprintable() and it != "\n"], [])


def warnings_are_told(program, folder):
    """What the program warns of a configuration comes first."""
    trial = Trial(program, folder, configuration("windw = 3"))
    text = trial.played(pcap(mixed().frames()[:3]))
    hope("a warning", text.startswith('level=warn event=unread-key reason="home 0 windw at line '), True)


def two_homes_of_one_address_are_two(program, folder):
    """Two home servers with one address and two secrets are both answered."""
    trial, traffic = Trial(program, folder), mixed()
    text = trial.played(pcap(traffic.frames()))
    hope("answered", [home_rows(text, name)["answered"] for name in ("h1", "h2")], [40, 40])
    trial = Trial(program, folder, configuration(second_home=("127.0.0.1", 5813)))
    text = trial.played(pcap(traffic.frames()))
    hope("at two addresses", [home_rows(text, name)["answered"] for name in ("h1", "h2")], [40, 40])


def a_script_has_the_same(program, folder):
    """A script, which nobody needs root for, has as many of each fate as a trial, where nothing is answered."""
    traffic = mixed()
    path = pathlib.Path(folder, "script")
    config, capture = pathlib.Path(folder, "c.toml"), pathlib.Path(folder, "c.pcap")
    config.write_text(configuration("queue = 3\nbook = 5"))
    capture.write_bytes(pcap(traffic.frames()))
    os.chmod(folder, 0o777)
    nobody = ["setpriv", f"--reuid={NOBODY}", "--clear-groups"] if is_root() and shutil.which("setpriv") else []
    ran = subprocess.run([*nobody, sys.executable, TOOL, "--script", path, config, capture], capture_output=True, check=False)
    hope(ran.stderr, (ran.returncode, ran.stderr), (0, b""))
    hope("what it can't show", b"can't show" in ran.stdout, True)
    hope("who may read it", path.stat().st_mode & 0o777, 0o600)
    lines = replayed(program, path)
    words = [line.split(" ")[1:3] for line in lines if line.startswith("nas: ")]
    found = Counter(" ".join(it if it[0] in ("dropped", "refused") else it[:1]) for it in words)
    wanted = Counter()
    for key, counts in traffic.wanted.items():
        wanted.update({"new": counts["accepted"], "waiting": counts["repeated"], "status": counts["status"]})
        for why, count in traffic.why.get(key, Counter()).items():
            fate = "refused" if why == "TooLong" else "dropped"
            wanted[f"{fate} {why}"] += count
    hope("the fates", found, wanted)


def replayed(program, path):
    """The lines that the program prints of a script. Requests are left over, so its status is 3."""
    ran = subprocess.run([program, "replay"], stdin=open(path, "rb"), capture_output=True, check=False)
    hope(ran.stderr, ran.returncode, 3)
    return ran.stdout.decode().splitlines()


def a_script_is_never_too_long(program, folder):
    """Of more than a script may have, the first part is written."""
    traffic = Traffic()
    for _ in range(9000):
        traffic.ask(more=b"".join(attribute(CLASS, bytes(250)) for _ in range(4)))
    config, capture, path = (pathlib.Path(folder, name) for name in ("c.toml", "c.pcap", "script"))
    config.write_text(configuration())
    capture.write_bytes(pcap(traffic.frames()))
    ran = tool("--script", path, config, capture)
    count = int(re.match(rb"(\d+) of 9000 datagrams are in ", ran.stdout)[1])
    hope("its octets", 16_770_000 < path.stat().st_size <= 16_777_216, True)
    hope("its requests", sum(line.startswith("nas: new ") for line in replayed(program, path)), count)


def what_a_script_cannot_have_is_told(program, folder):
    """Datagrams without an octet are left out of a script, and counted."""
    traffic, (config, capture, path) = Traffic(), (pathlib.Path(folder, name) for name in ("c.toml", "c.pcap", "script"))
    config.write_text(configuration())
    for octets in (b"", b"", None):
        traffic.ask() if octets is None else traffic.send(octets, fate="dropped", why="Unread")
    capture.write_bytes(pcap(traffic.frames()))
    ran = tool("--script", path, config, capture)
    hope("what is told", ran.stdout.decode().splitlines()[:2],
         [f"1 of 3 datagrams are in {path}, with the secrets: rad_proxy replay < {path}",
          "left out: 2 datagrams without an octet, which a script cannot have"])
    hope("what it has", [line.split()[1] for line in replayed(program, path) if line.startswith("nas: ")], ["new"])


def a_script_is_its_owners_alone(program, folder):
    """A script has the secrets. It takes the place of a file that others may read, or have open, and of nothing but a regular file."""
    traffic, (config, capture, path) = Traffic(), (pathlib.Path(folder, name) for name in ("c.toml", "c.pcap", "script"))
    config.write_text(configuration())
    traffic.ask()
    capture.write_bytes(pcap(traffic.frames()))
    path.write_text("before")
    path.chmod(0o644)
    link, pipe = pathlib.Path(folder, "link"), pathlib.Path(folder, "pipe")
    link.symlink_to(config)
    os.mkfifo(pipe)
    with path.open("rb") as before:
        ran = tool("--script", path, config, capture)
        hope("who has it open", (ran.returncode, before.read()), (0, b"before"))
    hope("who may read it", (path.stat().st_mode & 0o777, SECRET in path.read_bytes()), (0o600, True))
    kept = sorted(pathlib.Path(folder).iterdir()), config.read_bytes()
    for other in (link, pipe, folder, "/dev/null"):
        ran = tool("--script", other, config, capture)
        hope(other, (ran.returncode, ran.stdout, ran.stderr.decode()), (4, b"", f"rad_trial: {other}: no regular file\n"))
    hope("what is there", (sorted(pathlib.Path(folder).iterdir()), config.read_bytes(), link.is_symlink()), (*kept, True))


def snapshot():
    """What a trial may not change: addresses, routes, mounts, and what is in the folder of temporary files."""
    told = [subprocess.run(["ip", *words.split()], capture_output=True, check=False).stdout
            for words in ("-o address", "route show table all", "-o link")]
    folders = [sorted(os.listdir(it)) for it in ("/mnt", "/media", "/srv", "/opt", "/home") if os.path.isdir(it)]
    return told, pathlib.Path("/proc/self/mountinfo").read_text(), folders, [it for it in os.listdir("/tmp") if "rad_trial" in it]


def alone(test):
    """Runs a test in a network and with mounts of its own, where nobody else changes anything. Mounts below it would be seen."""

    @functools.wraps(test)
    def alone_run(program, folder):
        want("ip", root=True)
        if os.environ.get("ALONE"):
            return test(program, folder)
        words = [sys.executable, "-m", "tests.tools.trial", program, test.__name__]
        inside = ["unshare", "--net", "--mount", "sh", "-c", 'mount --make-rshared / && exec "$@"', "sh", *words]
        ran = subprocess.run(inside, env=os.environ | {"ALONE": "1"}, capture_output=True, text=True, check=False)
        return hope(ran.stdout + ran.stderr, ran.returncode, 0)

    return alone_run


@alone
def nothing_else_is_touched(program, folder):
    """Addresses, routes, mounts and files are as before: after a trial, and after one that was stopped."""
    trial, traffic = Trial(program, folder, configuration(second_home=("127.0.0.1", 5813))), Traffic(0.5)
    before = snapshot()
    trial.played(pcap(mixed().frames()))
    hope("after a trial", snapshot(), before)
    for _ in range(40):
        traffic.ask()
    for number in (signal.SIGTERM, signal.SIGINT):
        ran, children = begun(trial, traffic)
        ran.send_signal(number)
        out, error = ran.communicate(timeout=20)
        hope("how it ended", (ran.returncode, out, error), (130, b"", b"rad_trial: stopped\n"))
        hope("after it was stopped", snapshot(), before)
        hope("processes", [it for it in children if os.path.exists(f"/proc/{it}")], [])


def begun(trial, traffic):
    """A trial that plays, and the processes that it has started: those that hear the log and play home servers, and the program."""
    words = trial.words([pcap(traffic.frames())], [])
    # A shell has what it runs in the background ignore SIGINT, and a process hands that on.
    ran = subprocess.Popen([sys.executable, TOOL, *words], stdout=subprocess.PIPE, stderr=subprocess.PIPE,
                           preexec_fn=lambda: signal.signal(signal.SIGINT, signal.SIG_DFL))
    children = lambda: [int(it) for it in pathlib.Path(f"/proc/{ran.pid}/task/{ran.pid}/children").read_text().split()]
    until("the trial has three processes", lambda: len(children()) >= 3)
    time.sleep(0.7)
    return ran, children()


@alone
def nothing_is_left_after_a_kill(program, folder):
    """A trial that is killed leaves no process, and nothing else."""
    before = snapshot()
    trial, traffic = Trial(program, folder), Traffic(0.5)
    for _ in range(40):
        traffic.ask()
    ran, children = begun(trial, traffic)
    ran.kill()
    ran.wait()
    hope("processes", (len(children) >= 3, is_so(lambda: not any(map(is_alive, children)), 10)), (True, True))
    hope("after it was killed", snapshot(), before)


def is_alive(process):
    try:
        return pathlib.Path(f"/proc/{process}/stat").read_text().rpartition(")")[2].split()[0] != "Z"
    except OSError:
        return False


def faults_are_one_line(program, folder):
    """Programs that do not start, configurations with a fault, captures without requests, and calls that are wrong."""
    trial, capture = Trial(program, folder), pcap(mixed().frames())
    for name, text in (("sleeps", "sleep 1"), ("fails", "echo clients; test $1 = check || { echo 'socket: here' >&2; exit 4; }")):
        trial.program = trial.write(name, f"#!/bin/sh\n{text}\n".encode())
        os.chmod(trial.program, 0o755)
        trial.refused(4, capture)
    trial.program = "/nowhere"
    hope("no program", trial.refused(4, capture), "rad_trial: no program /nowhere: --program PATH names one")
    trial.program = program
    trial.refused(4, pcap([]))
    trial.refused(4, capture[:20])
    trial.refused(4, capture, words=["--proxy", "192.0.2.1:9"])
    for words in (["--speed", "0"], ["--speed", "x"], ["--answer", "-1"], ["--outage", "inf"], ["--proxy", "a:1"], ["--spee", "3"]):
        trial.refused(1, capture, words=words)
    for text in (configuration(listen="198.51.100.20:1813"), configuration(second_home=("224.0.0.1", 9))):
        trial.config = trial.write("wrong.toml", text.encode())
        trial.refused(2, capture, words=["--proxy", f"{PROXY[0]}:1813"])


WRONG = [
    "", "listen = 3", 'listen = "1.2.3.4"', "x = ", 'listen = "01.2.3.4:5"', "default_home = 3\nLISTEN", "linger = 600001\nLISTEN",
    "linger = true\nLISTEN", "LISTEN", "LISTEN\nclient = []", "LISTEN\nclient = 3", "LISTEN\n[client]\naddress = 3",
    "LISTEN\nclient = [3]", "LISTEN\n[[client]]\nsecret = 'x'", "LISTEN\n[[client]]\naddress = '1.2.3.256'",
    "LISTEN\n[[client]]\naddress = '1.2.3.4'\nsecret = ''", "CLIENT\nCLIENTS", "CLIENT", "CLIENT\n[[home]]\nname = ''",
    "CLIENT\n[[home]]\nname = 'a b'", "CLIENT\n[[home]]\nname = 'h'\naddress = '1.2.3.4:0'", "HOME\nwindow = 255", "HOME\nwindow = 0",
    "HOME\nwindow = 5000000000", "HOME\nports = 5\nwindow = 2000", "HOME\nspan = '3'", "HOME\nspan = 3.0",
    "HOME\nwindow = 600\nports = 2", "HOMES", "HOME\n[[realm]]", "HOME\n[[realm]]\nname = 'a@b'",
    "HOME\n[[realm]]\nname = ''\nhome = 'h'", "HOME\n[[realm]]\nname = 'a'\nhome = 'g'", "HOME\n[[realm]]\nname = 'a'\nhome = 3",
    "HOME\n[[realm]]\nname = 'a'\nhome = 'h'\n[[realm]]\nname = 'A'\nhome = 'h'", "default_home = 'g'\nHOME",
    "HOME\n[[realm]]\nname = '" + "a" * 253 + "'\nhome = 'h'", "HOME\nsecret = 'x'", "HOME\n[realm]", "\udcff", "LISTEN\nLISTEN\n",
    "HOME\ntries = 11", "HOME\nfirst_wait = 99", "HOME\nring = 4097", "HOME\nqueue = 65537", "HOME\nbook = 1000001",
    "CLIENT\nhome = 'x'", "other_home = 3\nLISTEN", "linger = true\nother_home = 'h'\nLISTEN", "other_home = 'g'\nHOME",
    "default_home = 'g'\nother_home = 'f'\nHOME",
]
PARTS = {
    "HOMES": "HOME\n[[home]]\nname = 'h'\naddress = '1.2.3.4:5'\nsecret = 'x'",
    "HOME": "CLIENT\n[[home]]\nname = 'h'\naddress = '1.2.3.4:5'\nsecret = 'x'",
    "CLIENTS": "[[client]]\naddress = '1.2.3.4'\nsecret = 'y'",
    "CLIENT": "LISTEN\n[[client]]\naddress = '1.2.3.4'\nsecret = 'y'",
    "LISTEN": "listen = '0.0.0.0:1813'",
}


def configurations_are_read_alike(program, folder):
    """Each fault of a configuration is the one that the program tells."""
    capture = pathlib.Path(folder, "capture")
    capture.write_bytes(pcap(mixed().frames()))

    def compare(number):
        text = WRONG[number]
        for word, part in PARTS.items():
            text = re.sub(rf"\b{word}\b", lambda _: part, text)
        path = pathlib.Path(folder, f"{number}.toml")
        path.write_bytes(text.encode("utf-8", "surrogateescape"))
        ran = subprocess.run([program, "check", path], capture_output=True, check=False, env={})
        mine = tool("--script", os.path.join(folder, f"script-{number}"), path, capture)
        hope(f"{text!r}", (mine.stderr.decode().removeprefix("rad_trial: "), mine.returncode), (ran.stderr.decode(), ran.returncode))

    with ThreadPool(4) as pool:
        pool.map(compare, range(len(WRONG)))


def users_are_told_of_root(program, folder):
    """Without root a trial is refused in words."""
    want("setpriv", root=True)
    nobody = ["setpriv", f"--reuid={NOBODY}", "--clear-groups"]
    ran = subprocess.run([*nobody, sys.executable, TOOL, "/dev/null", "/dev/null"], capture_output=True, check=False)
    hope(ran.stderr, (ran.returncode, ran.stderr.count(b"\n"), b"wants root" in ran.stderr), (4, 1, True))


def a_capture_is_begun(program, folder):
    """NASes talk to radsecproxy in a network of its own, while the other tests run."""
    want("ip", "tcpdump", "radsecproxy", root=True)
    captured(program)


@functools.cache
def captured(program):
    """A process that makes a capture, and the folder that it makes it in."""
    made = tempfile.TemporaryDirectory()
    words = [sys.executable, "-m", "tests.lib.tools.losses", "radsecproxy", program, made.name, "0", "-i", "any"]
    return made, subprocess.Popen(["unshare", "--net", *words])


def a_capture_of_a_proxy_is_played(program, folder):
    """What tcpdump saw of NASes of radsecproxy, with their retransmissions: each request is accepted once."""
    want("ip", "tcpdump", "radsecproxy", root=True)
    made, ran = captured(program)
    hope("how losses.py ended", ran.wait(300), 0)
    folder = made.name
    trial = Trial(program, folder, pathlib.Path(folder, "rad_proxy.toml").read_text())
    text = trial.played(os.path.join(folder, "capture"), words=["--speed", "10"])
    judged = tool("judge", trial.config, os.path.join(folder, "capture")).stdout.decode()
    requests, again = map(int, re.match(r"(\d+) requests of NASes and (\d+) retransmissions", judged).groups())
    found = [it for (_, realm), (it, _) in rows(text).items() if realm == "all"]
    hope(text, [sum(it[key] for it in found) for key in ("accepted", "repeated", "dropped", "refused")], [requests, again, 0, 0])


def requests_take_bounded_time_and_memory(program, folder):
    """12,000 requests of 40 NASes, 6000 a second: all are accounted for."""
    see_bounds(program, folder, 12_000, 0)


def as_many_requests_as_it_takes_have_bounds(program, folder):
    """The same of 300,000 requests, and more that are left out."""
    see_bounds(program, folder, 300_000, 100)


def see_bounds(program, folder, count, more):
    """Whether so many requests, and more that are left out, take no more than two minutes and 400 MiB."""
    rate = 6000
    clients = [f"10.0.{number // 250}.{number % 250 + 1}" for number in range(40)]
    config = (f'listen = "{PROXY[0]}:1813"\n' + "".join(f'[[client]]\naddress = "{it}"\nsecret = "nas-secret"\n' for it in clients)
              + f'[[home]]\nname = "h1"\naddress = "{HOME[0]}:{HOME[1]}"\nsecret = "x"\n'
              + 'window = 1000\nports = 4\nqueue = 65536\nbook = 1000000\nring = 4096\n[[realm]]\nname = "example.org"\nhome = "h1"\n')
    trial, path = Trial(program, folder, config), pathlib.Path(folder, "long")
    with path.open("wb") as file:
        file.write(pcap([]))
        for number in range(count + more):
            source = clients[number % 40], 40000 + number // 40 // 250 % 20
            octets = request(number // 40 % 250, record(number, more=attribute(CLASS, bytes(100))), SECRET)
            file.write(pcap([(START + number / rate, framed(ETHERNET, ipv4(source, PROXY, udp(source, PROXY, octets))))])[24:])
    began = time.monotonic()
    text = trial.played(str(path))
    seconds, memory = time.monotonic() - began, resource.getrusage(resource.RUSAGE_CHILDREN).ru_maxrss // 1024
    print(f"{count} requests, {rate} a second: {seconds:.0f} s, {memory} MiB; {text.splitlines()[0]}", flush=True)
    lost = re.search(r"^lost: (\d+) datagrams", text, re.MULTILINE)
    found = [it for (_, realm), (it, _) in rows(text).items() if realm == "all"]
    hope("memory below 400 MiB, and two minutes", (memory < 400, seconds < 120), (True, True))
    hope("the rest", f"\nleft out: {more} datagrams behind the first {count}\n" in text, more > 0)
    hope(text, sum(it["came"] for it in found) + int(lost[1] if lost else 0), count)
    home = home_rows(text, "h1")
    hope(text, (home["accepted"], home["left"]), (sum(it["accepted"] for it in found), 0))


TESTS = [a_capture_is_begun, each_fate_is_counted, realms_that_are_not_listed_lead_on, each_form_is_played, both_sides_are_in_the_capture, an_outage_fills_the_queue,
         an_outage_may_come_later, answers_take_their_time, datagrams_that_the_system_drops_are_lost, odd_names_are_played,
         warnings_are_told, two_homes_of_one_address_are_two, a_script_has_the_same, a_script_is_never_too_long, what_a_script_cannot_have_is_told, a_script_is_its_owners_alone, nothing_else_is_touched,
         nothing_is_left_after_a_kill, faults_are_one_line, configurations_are_read_alike, users_are_told_of_root,
         a_capture_of_a_proxy_is_played, requests_take_bounded_time_and_memory]
LONG = [as_many_requests_as_it_takes_have_bounds]


if __name__ == "__main__":
    try_in_folders(LONG if is_asked("--long") else TESTS, __doc__)
