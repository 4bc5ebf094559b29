"""Tries the words of rad_proxyctl, its probe and its restart, over scripts that are installed and a service that is started by hand.

usage: python3 -m tests.service.rad_proxyctl_restart_and_probe PROGRAM [NAME ..]

Each test is a function below, and its first line tells what holds. It wants no right of root and no systemd: a script restarts the
service, or one that stands for systemctl, which wants root. The last line is `N passed, M failed`.
"""
import contextlib
import fcntl
import os
import re
import select
import shutil
import signal
import socket
import subprocess
import sys
import threading
import time

from tests.lib import (ACCT_SESSION_ID, HERE, HOME_SECRET, NAS_SECRET, STATUS_SERVER, TOP, LeftOut, Server, answer, answered, attribute,
                       best, bound, configured, environment, free_port, hope, is_right_status, is_signed, is_so, need, packet, read, reply,
                       request_of_nas, try_named, until)

PATIENCE = 60
MISCONFIGURED, LEFT_OVER, FAILED, REFUSED = 2, 3, 4, 5
DOUBTFUL = 3
STRANGER = 65534
# How many seconds a NAS waits for an answer: more than a busy machine takes for one, so that it sends nothing again that is under way.
TIMEOUT = 2
# What restarts the service of a room: it ends the one that runs, and starts another one, with what this process was started with.
RESTART = """#!/bin/sh
echo "$0 $*" >>{room}/calls
[ "$1" != is-active ] || exit "$(cat {room}/active)"
pid=$(cat {room}/pid)
kill -TERM "$pid"
while grep -qs '^State:[[:space:]]*[^Z[:space:]]' "/proc/$pid/status"; do sleep 0.05; done
setsid {room}/start </dev/null >/dev/null 2>&1 &
"""
START = """#!/bin/sh
echo $$ >{room}/pid
exec $(cat {room}/as) {room}/usr/libexec/rad_proxy/serve {room}/etc/rad_proxy/rad_proxy.toml >>{room}/printed 2>>{room}/log
"""


class PacedHome:
    """A home server that keeps what came, and answers as many a second as it is told to, or none."""

    def __init__(self):
        self.ear, self.rate, self.came, self.is_over = bound(patience=0.05), None, [], False
        self.port = self.ear.getsockname()[1]
        self.thread = threading.Thread(target=self.serve)
        self.thread.start()

    def serve(self):
        while not self.is_over:
            with contextlib.suppress(TimeoutError, ConnectionError):
                octets, proxy = self.ear.recvfrom(4096)
                if octets[0] == STATUS_SERVER or self.rate == 0:
                    continue
                if self.rate:
                    time.sleep(1 / self.rate)
                self.came.append(octets)
                self.ear.sendto(answered(octets), proxy)

    def sessions(self):
        """The Acct-Session-Ids of the requests that were answered, each with how many datagrams had it."""
        found = [re.search(rb"\x2c.(s\d{5})", octets)[1] for octets in self.came]
        return {name: found.count(name) for name in set(found)}

    def stop(self):
        self.is_over = True
        self.thread.join()
        self.ear.close()


class PersistentNas(threading.Thread):
    """An access server that sends so many records a second, each again and again until it is answered."""

    def __init__(self, port, count, rate):
        super().__init__()
        self.port, self.count, self.rate, self.answered = port, count, rate, set()

    def run(self):
        begun = time.monotonic()
        with contextlib.ExitStack() as stack:
            ears = [stack.enter_context(contextlib.closing(bound(patience=0))) for _ in range(1 + self.count // 256)]
            sent, due = 0, {}
            while time.monotonic() < begun + PATIENCE and (sent < self.count or due):
                now = time.monotonic()
                if sent < self.count and begun + sent / self.rate <= now:
                    due[sent], sent = now, sent + 1
                for number in [number for number, moment in due.items() if moment <= now]:
                    octets = request_of_nas(number % 256, attribute(ACCT_SESSION_ID, b"s%05d" % number))
                    ears[number // 256].sendto(octets, (HERE, self.port))
                    due[number] = now + TIMEOUT
                for at, ear in enumerate(ears):
                    with contextlib.suppress(BlockingIOError):
                        number = 256 * at + ear.recv(4096)[1]
                        self.answered.add(number)
                        due.pop(number, None)
                time.sleep(0.001)


class Room:
    """The scripts, installed below a folder of this test, with home servers, and what starts and restarts a service by hand."""

    def __init__(self, program, room):
        self.room, self.run, self.port = room, room / "run" / "rad_proxy", free_port()
        self.home, self.dead, self.others = PacedHome(), free_port(), [PacedHome()]
        subprocess.run(["make", "-s", "install-proxy", f"PREFIX={room}/usr", f"SYSCONFDIR={room}/etc", f"RUNDIR={room}/run",
                        f"STATEDIR={room}/var", f"PROGRAM={program}"], cwd=TOP, check=True)
        self.ctl, self.file = room / "usr/sbin/rad_proxyctl", room / "etc/rad_proxy/rad_proxy.toml"
        self.configure()
        self.run.parent.mkdir()
        self.write("start", START)
        self.write("as", "")
        self.write("way", RESTART)
        self.environment = environment() | {"RAD_PROXY_RESTART": f"{room}/way"}
        for name in ("RUNTIME_DIRECTORY", "NOTIFY_SOCKET", "JOURNAL_STREAM"):
            self.environment.pop(name, None)

    def configure(self, keys="", clients=(HERE,), secret=HOME_SECRET.decode()):
        servers = [Server("h1", self.home.port, keys, "example.org", secret), Server("h2", self.dead, keys, "example.net")]
        self.file.write_text(configured(f"{HERE}:{self.port}", servers, clients, NAS_SECRET.decode()))

    def write(self, name, text):
        path = self.room / name
        path.write_text(text.replace("{room}", str(self.room)))
        path.chmod(0o755)
        return path

    def start(self):
        """Starts the service, and waits until it answers."""
        subprocess.Popen([self.room / "start"], stdin=subprocess.DEVNULL, start_new_session=True, env=self.environment)
        until("it answers", lambda: self.ask("state").returncode == 0)

    def ask(self, *words, **options):
        given = {"capture_output": True, "text": True, "env": self.environment, "timeout": PATIENCE} | options
        return subprocess.run([self.ctl, *words], **given)

    def begin(self, *words):
        """Starts rad_proxyctl, and does not wait for it."""
        return subprocess.Popen([self.ctl, *words], stdout=subprocess.PIPE, stderr=subprocess.PIPE, text=True, env=self.environment,
                                start_new_session=True)

    def lanes(self):
        """The words of each line of `state`."""
        return [line.split() for line in self.ask("state").stdout.splitlines()]

    def is_untouched(self):
        """Sees that the proxy is not drained, was not restarted, and has no file that says that it is about to be drained."""
        hope("modes", [lane[4] for lane in self.lanes()], ["open", "open"])
        hope("times that it was started", (self.room / "printed").read_text().count("listening"), 1)
        hope("the file out", (self.run / "out").exists(), False)

    def send(self, count, first=0):
        """Requests of a NAS that sends each once."""
        with contextlib.closing(bound()) as nas:
            for number in range(first, first + count):
                nas.sendto(request_of_nas(number % 256, attribute(ACCT_SESSION_ID, b"s%05d" % number)), (HERE, self.port))

    def stop(self):
        for home in (self.home, *self.others):
            home.stop()
        with contextlib.suppress(OSError, ValueError):
            pid = int((self.room / "pid").read_text())
            os.killpg(pid, signal.SIGKILL)
            is_so(lambda: not is_alive(pid), 5)


def is_alive(group):
    """Whether a process of a group is left."""
    with contextlib.suppress(ProcessLookupError):
        os.killpg(group, 0)
        return True
    return False


def words_are_told_apart(room):
    """--help and --version are answered before and behind each word; what is no word, or option of it, ends with 1, and of probe with 2."""
    for words in (["--help"], ["state", "--help"], ["probe", "--help"], ["restart", "--help"], ["-i", "one", "--help"]):
        done = room.ask(*words)
        hope(words, (done.returncode, done.stdout.split()[:2], done.stderr), (0, ["usage:", "rad_proxyctl"], ""))
        need("probe" in done.stdout and "restart" in done.stdout, "words are missing")
    for words in (["--version"], ["top", "--version"]):
        done = room.ask(*words)
        hope(words, (done.returncode, done.stdout, done.stderr), (0, "rad_proxyctl 0.1.0\n", ""))
    wrong = ["", "stat", "-x state", "-d", "state state", "state -d x", "metrics a b", "http x", "restart now", "restart --wait",
             "restart --wait=-1", "restart --wait 1s", "restart --wait 08", "restart --timeout 1", "state --force", "-s x probe"]
    wrong_probes = ["probe --force", "probe -s", "probe --timeout 0", "probe --timeout=1e3", "probe x", "probe --home", "probe --home=",
                    "probe -s x --home y"]
    cases = [(words.split(), 1) for words in wrong] + [(words.split(), 2) for words in wrong_probes]
    for words, status in [*cases, (["-i", "", "state"], 1), (["metrics", ""], 1)]:
        done = room.ask(*words)
        hope(words, (done.returncode, done.stdout, done.stderr.split()[:1]), (status, "", ["usage:"]))


def relative_paths_hold(room):
    """By a relative path, with a folder that is one or is not, `top` and `metrics FILE` look again and again, and write to the file."""
    room.start()
    until("counters", (room.run / "counters").exists)
    for ctl, folder, place in (("./rad_proxyctl", room.run, room.ctl.parent), ("./rad_proxyctl", "../../run/rad_proxy", room.ctl.parent),
                               ("usr/sbin/rad_proxyctl", "run/rad_proxy", room.room), (room.ctl, "run/rad_proxy", room.room)):
        for option in (["-d", folder], [f"-d{folder}"]):
            done = subprocess.run([ctl, *option, "top"], cwd=place, env=room.environment, capture_output=True, text=True, timeout=PATIENCE)
            hope((ctl, option), (done.returncode, done.stderr, "HOME" in done.stdout), (0, "", True))
        subprocess.run([ctl, "-d", folder, "metrics", "mine.prom"], cwd=place, env=room.environment, check=True, timeout=PATIENCE)
        hope("file", (place / "mine.prom").read_text().count("\nrad_proxy_home_up{"), 2)


class Status:
    """Answers what comes at a port by a function of the datagram, which gives those to send."""

    def __init__(self, answers):
        self.ear, self.came, self.answers = bound(), [], answers
        self.place = f"{HERE}:{self.ear.getsockname()[1]}"
        self.thread = threading.Thread(target=self.serve)

    def serve(self):
        self.ear.settimeout(0.05)
        while self.answers:
            with contextlib.suppress(TimeoutError):
                octets, sender = self.ear.recvfrom(4096)
                self.came.append(octets)
                for datagram in self.answers(octets, len(self.came)):
                    self.ear.sendto(datagram, sender)

    def __enter__(self):
        self.thread.start()
        return self

    def __exit__(self, *_):
        self.answers = None
        self.thread.join()
        self.ear.close()


def three_datagrams_come_soon(room):
    """Three datagrams come 0.2 seconds apart, and then one a second; where the first two are lost the third is answered within a second."""
    right = lambda octets, count: [answer(octets, octets[1], b"", NAS_SECRET)] if count == 3 else []
    moments = []

    def noted(octets, count):
        moments.append(time.monotonic())
        return right(octets, count)

    def tried():
        moments.clear()
        status, said, came = probed(room, noted, "1")
        hope("the first two are lost", (status, said, len(came)), (0, "answer from PLACE in TIME\n", 3))
        return moments[2] - moments[0]

    def unanswered():
        moments.clear()
        status, _, came = probed(room, lambda octets, count: moments.append(time.monotonic()) or [], "2.7")
        apart = [round(after - before, 1) for before, after in zip(moments, moments[1:])]
        return status, len(came), [0.1 < each < 0.5 for each in apart[:2]] + [0.7 < each < 1.4 for each in apart[2:]]

    best(tried, lambda seconds: 0.3 < seconds < 0.6)
    best(unanswered, lambda found: found == (1, 5, 4 * [True]))


# Sends datagrams that are none to a port, some hundred a second, until it is killed.
LOAD = """
import socket, sys, time
with socket.socket(socket.AF_INET, socket.SOCK_DGRAM) as made:
    made.connect(("127.0.0.1", int(sys.argv[1])))
    while True:
        for _ in range(4):
            made.send(bytes(60))
        time.sleep(0.01)
"""


def strangers_do_not_fail_a_check(room):
    """Beside a stranger who sends some hundred datagrams a second, of ten checks with a second each no two in a row fail."""
    room.start()
    load = subprocess.Popen([sys.executable, "-c", LOAD, str(room.port)])
    try:
        best(lambda: [room.ask("probe", "--timeout", "1").returncode for _ in range(10)],
             lambda statuses: (1, 1) not in zip(statuses, statuses[1:]))
    finally:
        load.kill()
        load.wait()


def probed(room, answers, seconds="0.7"):
    """How a probe ends and what it says, and what came."""
    with Status(answers) as proxy:
        done = room.ask("probe", "-s", proxy.place, "--timeout", seconds)
        said = (done.stdout + done.stderr).replace(proxy.place, "PLACE")
        return done.returncode, re.sub(r"\d+\.\d ms", "TIME", said), proxy.came


def probe_sends_a_status_server(room):
    """The probe is a Status-Server with a Message-Authenticator alone under the secret of its client, another one each time. An answer ends
    it with 0, also after the first sending is lost; without one it ends with 1."""
    right, seen = lambda octets, _: [answer(octets, octets[1], b"", NAS_SECRET)], set()
    for _ in range(5):
        status, said, came = probed(room, right)
        hope("answered", (status, said), (0, "answer from PLACE in TIME\n"))
        found = (len(came), came[0][0], len(came[0]), is_right_status(read(came[0]), NAS_SECRET))
        hope("what came", found, (1, STATUS_SERVER, 38, True))
        seen.add(came[0][4:20])
    hope("authenticators", len(seen), 5)
    status, said, came = probed(room, lambda octets, count: right(octets, count) if count == 2 else [], "5")
    hope("the first is lost", (status, said, len(came), len(set(came))), (0, "answer from PLACE in TIME\n", 2, 1))
    status, said, came = probed(room, lambda *_: [])
    hope("silence", (status, said), (1, "rad_proxyctl: no answer from PLACE in 0.7 seconds\n"))


def probe_of_a_home_server(room):
    """With --home the home server of that name is asked, under its own secret; one that is not in the configuration ends it with 2."""
    seen, right = [], lambda octets, _: [answer(octets, octets[1], b"", HOME_SECRET)]
    with Status(right) as home:
        other = room.room / "homes.toml"
        table = f'[[home]]\nname = "two"\naddress = "{home.place}"\nsecret = "{HOME_SECRET.decode()}"\n'
        other.write_text(room.file.read_text() + table)
        for words, status in ((["--home", "two"], 0), (["--home=two"], 0), (["--home", "three"], 2)):
            done = room.ask("probe", "-c", other, "--timeout", "1", *words)
            seen.append(done.stderr.replace(str(other), "FILE"))
            hope(" ".join(words), (done.returncode, home.place in done.stdout), (status, status == 0))
        hope("what is told", seen, ["", "", "rad_proxyctl: FILE has no [[home]] three\n"])
        hope("what came", [is_right_status(read(octets), HOME_SECRET) for octets in home.came], [True, True])


def probe_takes_no_other_answer(room):
    """What is under another secret, for another Identifier or request, of another Code, cut or spoiled is no answer; padding counts not."""
    def wrong(octets):
        good = answer(octets, octets[1], b"", NAS_SECRET)
        return {
            "secret": answer(octets, octets[1], b"", b"another"), "identifier": answer(octets, octets[1] ^ 1, b"", NAS_SECRET),
            "request": answer(packet(4, octets[1], bytes(16), b""), octets[1], b"", NAS_SECRET), "code": bytes([2]) + good[1:],
            "cut": good[:19], "empty": b"", "longer": good[:3] + bytes([21]) + good[4:],
            "shorter": good[:3] + bytes([19]) + good[4:],
            "spoiled": good[:19] + bytes([good[19] ^ 1]), "itself": octets,
        }

    for name in wrong(bytes(20)):
        status, said, came = probed(room, lambda octets, count: [wrong(octets)[name]] if count == 1 else [])
        told = "rad_proxyctl: no answer from PLACE in 0.7 seconds, but 1 datagrams that are no answer: look at the secret\n"
        hope(name, (status, said), (1, told))
    status, _, _ = probed(room, lambda octets, _: [*wrong(octets).values(), answer(octets, octets[1], b"", NAS_SECRET) + b"more"])
    hope("a right one behind them", status, 0)
    with_class = attribute(25, b"x" * 200)
    hope("attributes", probed(room, lambda octets, _: [answer(octets, octets[1], with_class, NAS_SECRET)])[0], 0)


def probe_says_what_is_wrong_here(room):
    """A configuration that cannot be read or has no secret for this machine ends it with 2."""
    other = room.room / "other.toml"

    def said(*words, **options):
        done = room.ask("probe", *words, **options)
        return done.returncode, done.stdout, done.stderr.replace(str(other), "FILE")

    hope("no file", said("-c", other), (2, "", "rad_proxyctl: file: FILE: No such file or directory\n"))
    whole = room.file.read_text()
    for text, told in (("listen = ", "configuration: Toml"), ("\xff", "configuration: Toml"), ("#" * 1_048_577, "file: FILE"),
                       (f'listen = "{HERE}"\n', "configuration: BadAddress at top listen"), (f'listen = "{HERE}:9"\n', "configuration: Missing at top client"),
                       (whole.replace(f'address = "{HERE}"', 'address = "127.0.0.2"'),
                        f"FILE has no [[client]] {HERE}, the address that this machine sends from")):
        other.write_text(text, "latin-1")
        hope(text[:9], said("-c", other), (2, "", f"rad_proxyctl: {told}\n"))
    other.write_text(f"tried = [07:32, {{b = 1,}}, \"\\e\\x2d\"]\n{whole}")
    hope("what the proxy reads", said("-c", other, "--timeout", "1")[0], 1)
    for place in ("here:1813", HERE, f"{HERE}:0", f"{HERE}:65536", "256.0.0.1:1813", "::1:1813"):
        hope(place, said("-s", place), (2, "", f"rad_proxyctl: {place} is no ADDRESS:PORT\n"))
    begun = time.monotonic()
    hope("nobody there", said("--timeout", "20"), (1, "", f"rad_proxyctl: no answer from {HERE}:{room.port}: Connection refused\n"))
    need(time.monotonic() - begun < 10, "it waits for nobody")


def probe_of_a_proxy(room):
    """A proxy answers a probe at `listen`, and at loopback where that is 0.0.0.0, also once it is drained; a suspended one does not."""
    room.start()
    hope("it serves", room.ask("probe").returncode, 0)
    room.ask("drain")
    hope("it drains", room.ask("probe").returncode, 0)
    other = room.room / "other.toml"
    other.write_text(room.file.read_text().replace(f'"{HERE}:{room.port}"', f'"0.0.0.0:{room.port}"'))
    hope("everywhere", room.ask("probe", "-c", other).returncode, 0)
    found = subprocess.run(["pgrep", "-g", (room.room / "pid").read_text().strip(), "-x", "rad_proxy"], capture_output=True)
    program = int(found.stdout)
    os.kill(program, signal.SIGSTOP)
    hope("it is suspended", room.ask("probe", "--timeout=0.5").returncode, 1)
    os.kill(program, signal.SIGCONT)


def a_restart_loses_nothing(room):
    """While a NAS sends 50 records a second the service is restarted three times: the home server has each once, the NAS all answers."""
    room.home.rate = 200
    room.start()
    nas = PersistentNas(room.port, 500, 50)
    nas.start()
    for count in range(2, 5):
        time.sleep(0.5)
        done = room.ask("restart")
        hope("restart", (done.returncode, done.stderr, done.stdout.splitlines()[:1], done.stdout.splitlines()[-1:]),
             (0, "", ["clients 1 homes 2 realms 2"], ["restarted"]))
        hope("starts", (room.room / "printed").read_text().count("listening"), count)
        hope("left over", "left-over" in (room.room / "log").read_text(), False)
    nas.join()
    hope("at the NAS", sorted(nas.answered), list(range(500)))
    hope("at the home server", room.home.sessions(), {b"s%05d" % number: 1 for number in range(500)})


def open_in_spool(room):
    """How many requests are open, by the last line of `spool`."""
    return int(room.ask("spool").stdout.splitlines()[-1].split()[3])


def is_free(path):
    """Whether no process holds the lock of a file or a folder."""
    descriptor = os.open(path, os.O_RDONLY)
    try:
        fcntl.flock(descriptor, fcntl.LOCK_EX | fcntl.LOCK_NB)
        return True
    except BlockingIOError:
        return False
    finally:
        os.close(descriptor)


def a_kill_loses_nothing_of_a_spool(room):
    """`serve` hands the folder of the spool on, also by a relative path; what waits there when the service is killed arrives after the next start, and
    `spool` tells both."""
    room.environment["RAD_PROXY_SPOOL"] = os.path.relpath(room.room / "spool")
    room.home.rate = 0
    room.start()
    room.send(40)
    until("all is on disk", lambda: open_in_spool(room) == 40)
    hope("the folder", oct((room.room / "spool").stat().st_mode), "0o40700")
    os.killpg(int((room.room / "pid").read_text()), signal.SIGKILL)
    until("its end", lambda: is_free(room.run) and is_free(room.room / "spool/lock"))
    hope("what waits", open_in_spool(room), 40)
    room.home.rate = None
    room.start()
    until("each arrives", lambda: len(room.home.sessions()) == 40)
    until("nothing waits", lambda: open_in_spool(room) == 0)


def with_a_spool_a_home_server_may_be_down(room):
    """With a spool the service is restarted while a home server is down, with status 0: what waits arrives after that, at another address where the
    configuration has another one by then; a queue is not waited for, and what is outstanding is sent again."""
    room.configure("first_wait = 500\ntries = 1\ndown_wait = 600000\nprobe_every = 600000\nwindow = 8\n")
    room.environment["RAD_PROXY_SPOOL"] = str(room.room / "spool")
    room.home.rate = 0
    room.start()
    room.send(60)
    until("it is down", lambda: room.lanes()[0][3] == "down")
    done = room.ask("restart")
    hope("it is restarted", (done.returncode, done.stdout.splitlines()[1:], done.stderr), (0, ["on disk: 60", "restarted"], ""))
    hope("starts", (room.room / "printed").read_text().count("listening"), 2)
    until("it is down again", lambda: room.lanes()[0][3] == "down")
    room.home, dead = room.others[0], room.home
    room.others[0] = dead
    room.configure("window = 8\n")
    done = room.ask("restart")
    hope("it is restarted again", (done.returncode, done.stdout.splitlines()[-1], done.stderr), (0, "restarted", ""))
    until("each arrives", lambda: len(room.home.sessions()) == 60)
    hope("each once", set(room.home.sessions().values()), {1})
    until("nothing waits", lambda: open_in_spool(room) == 0)


def with_a_spool_a_restart_under_load_loses_nothing(room):
    """Over a spool the same holds while more waits than is answered in time: no restart is refused, and each record arrives."""
    room.environment["RAD_PROXY_SPOOL"] = str(room.room / "spool")
    room.configure("window = 4\n")
    room.home.rate = 20
    room.start()
    nas = PersistentNas(room.port, 500, 50)
    nas.start()
    for count in range(2, 5):
        time.sleep(1)
        done = room.ask("restart", "--wait", "1")
        hope("restart", (done.returncode, done.stderr, done.stdout.splitlines()[-1:]), (0, "", ["restarted"]))
        hope("starts", (room.room / "printed").read_text().count("listening"), count)
    room.home.rate = 500
    nas.join()
    hope("at the NAS", sorted(nas.answered), list(range(500)))
    hope("at the home server", sorted(room.home.sessions()), [b"s%05d" % number for number in range(500)])
    need(max(room.home.sessions().values()) <= 4, room.home.sessions())


class StrictHome(PacedHome):
    """A home server that drops what is not signed by its secret, and keeps the rest."""

    def __init__(self, secret):
        self.secret = secret
        super().__init__()

    def serve(self):
        while not self.is_over:
            with contextlib.suppress(TimeoutError, ConnectionError):
                octets, proxy = self.ear.recvfrom(4096)
                packet = read(octets)
                if packet.code == STATUS_SERVER:
                    if is_right_status(packet, self.secret):
                        self.ear.sendto(answer(octets, packet.identifier, b"", self.secret), proxy)
                elif is_signed(packet, bytes(16), self.secret):
                    self.came.append(octets)
                    self.ear.sendto(reply(packet, self.secret), proxy)


def under_load(room, count, change):
    """Has a NAS send records while something is changed, and sees that each is answered, and at a home server once."""
    nas = PersistentNas(room.port, count, 50)
    nas.start()
    time.sleep(1)
    homes = change()
    nas.join()
    hope("at the NAS", sorted(nas.answered), list(range(count)))
    found = [home.sessions() for home in homes]
    hope("at the home servers", sorted(name for one in found for name, times in one.items() for _ in range(times)),
         [b"s%05d" % number for number in range(count)])
    return [len(one) for one in found]


def restarted(room):
    done = room.ask("restart")
    hope("restart", (done.returncode, done.stderr, done.stdout.splitlines()[-1:]), (0, "", ["restarted"]))


def a_client_is_added(room):
    """A client that is added is answered after a restart, in which nothing that the other one sends is lost."""
    room.home.rate = 200
    room.start()
    asked = request_of_nas(7, attribute(ACCT_SESSION_ID, b"s99999"))

    def is_answered(nas):
        nas.sendto(asked, (HERE, room.port))
        return bool(select.select([nas], [], [], 1)[0]) and len(nas.recv(4096)) > 0

    def change():
        with contextlib.closing(bound("127.0.0.5")) as nas:
            hope("before", is_answered(nas), False)
            room.configure(clients=(HERE, "127.0.0.5"))
            hope("check", room.ask("check", "--strict").returncode, 0)
            restarted(room)
            hope("behind", is_answered(nas), True)
        room.home.came = [octets for octets in room.home.came if b"s99999" not in octets]
        return [room.home]

    under_load(room, 300, change)


def a_home_server_is_replaced(room):
    """What the old one has accepted it answers before the restart, and all later records come to the new one."""
    room.home.rate = 200
    old, room.others[0].rate = room.home, 200
    room.start()

    def change():
        room.home = room.others[0]
        room.configure()
        restarted(room)
        return [old, room.home]

    at_old, at_new = under_load(room, 300, change)
    need(at_old > 20 and at_new > 20, at_old, at_new)
    room.others[0] = old


def a_secret_of_a_home_server_is_replaced(room):
    """The proxy first, and the home server within seconds: each record comes once. The home server first: the restart is refused."""
    old, new = HOME_SECRET, b"the next secret"
    room.home.stop()
    room.home = StrictHome(old)
    room.configure()
    room.start()

    def change():
        room.configure(secret=new.decode())
        restarted(room)
        time.sleep(1.5)
        room.home.secret = new
        return [room.home]

    under_load(room, 300, change)
    room.home.secret = old
    room.send(1, 900)
    until("it is down", lambda: room.lanes()[0][3] == "down", 30)
    room.configure()
    done = room.ask("restart")
    hope("refused", (done.returncode, "h1" in done.stdout + done.stderr), (REFUSED, True))
    hope("what waits", room.lanes()[0][10], "1")
    room.home.secret = new
    until("it is answered", lambda: room.lanes()[0][10] == "0", 30)


def waits_and_says_what_is_left(room):
    """Once a second it prints what is left, while the file `out` stands; when all is answered it restarts, and the file is gone."""
    room.home.rate = 0
    # However long it takes on a busy machine, the home server is not marked down meanwhile.
    room.configure("first_wait = 1000\ntries = 10\n")
    room.start()
    room.send(3)
    until("outstanding", lambda: room.lanes()[0][10] == "3")
    restarting = room.begin("restart", "--force", "--wait", "60")
    until("it is drained", lambda: [lane[4] for lane in room.lanes()[:1]] == ["draining"])
    hope("the file out", (oct((room.run / "out").stat().st_mode), (room.run / "out").stat().st_size), ("0o100600", 0))
    hope("lines", [restarting.stdout.readline() for _ in range(3)],
         ["clients 1 homes 2 realms 2\n", *["left: h1 queued 0 outstanding 3\n"] * 2])
    room.home.rate = None
    out, err = restarting.communicate(timeout=PATIENCE)
    hope("it ends", (restarting.returncode, err, out.splitlines()[-1:]), (0, "", ["restarted"]))
    hope("the file out", (room.run / "out").exists(), False)
    hope("a new one", [lane[4:7] for lane in room.lanes()], [["open", "accepted", "0"]] * 2)
    hope("each once", sorted(room.home.sessions().values()), [1, 1, 1])


def restarts_when_the_time_is_over(room):
    """What is left when the time is over is named, and the service restarted all the same: 3."""
    room.home.rate = 0
    room.configure("window = 2\n")
    room.start()
    room.send(7)
    until("outstanding", lambda: room.lanes()[0][10] == "2")
    until("late in a second", lambda: time.clock_gettime(time.CLOCK_BOOTTIME) % 1 > 0.7)
    begun = time.monotonic()
    done = room.ask("restart", "--force", "--wait=2")
    need(time.monotonic() - begun >= 2, "seconds to wait", time.monotonic() - begun)
    hope("it says", (done.returncode, done.stderr),
         (LEFT_OVER, "left: h1 queued 5 outstanding 2\nrad_proxyctl: restarted, though this was left after 2 seconds\n"))
    hope("a new one", [lane[4:7] for lane in room.lanes()], [["open", "accepted", "0"]] * 2)
    hope("the file out", (room.run / "out").exists(), False)


def refuses_while_a_home_server_is_down(room):
    """Where one is down it refuses, with its line, and has drained nothing; --force goes through with it."""
    room.configure("tries = 1\nfirst_wait = 100\n")
    room.start()
    with contextlib.closing(bound()) as nas:
        octets = request_of_nas()
        nas.sendto(octets, (HERE, room.port))
        nas.recv(4096)
    room.home.rate = 0
    room.send(1, first=7)
    until("it is down", lambda: room.lanes()[0][3] == "down")
    line = " ".join(room.lanes()[0])
    done = room.ask("restart")
    hope("it says", (done.returncode, done.stdout, done.stderr),
         (REFUSED, "clients 1 homes 2 realms 2\n", f"{line}\nrad_proxyctl: not restarted, and not drained: a home server is down\n"))
    room.is_untouched()
    hope("by force", room.ask("restart", "--force", "--wait", "0").returncode, LEFT_OVER)


def refuses_where_the_rate_is_too_low(room):
    """Ten seconds of looks have the rate: of what the lane answers in the seconds to wait, as many may be left, and not one more."""
    room.home.rate = 4
    room.configure("window = 1\n")
    room.start()
    room.send(150)
    until("it answers", lambda: room.lanes()[0][12] > "2")
    # Seconds are no whole ones of the machine's: what counts those would end the looks too early, where it begins late in one.
    until("late in a second", lambda: time.clock_gettime(time.CLOCK_BOOTTIME) % 1 > 0.7)
    begun = time.monotonic()
    done = room.ask("-d", room.run, "restart", "--wait", "3")
    need(time.monotonic() - begun > 9.5, "seconds of looks", time.monotonic() - begun)
    lane, told = done.stderr.splitlines()
    hope("it says", (done.returncode, done.stdout, re.sub(r"(accepted|queued|answered) \d+", r"\1 N", lane), told),
         (REFUSED, "clients 1 homes 2 realms 2\n", "lane 0 h1 up open accepted N queued N outstanding 1 answered N opening 0",
          "rad_proxyctl: not restarted, and not drained: more is queued and outstanding than is answered in 3 seconds, "
          "at the rate of the last 10"))
    room.is_untouched()
    # Some 100 are left, at 4 a second, or fewer on a busy machine: in 300 seconds they are answered, by this rate, and faster once it is past
    # the looks.
    long = room.begin("restart", "--wait", "300")
    until("it is drained", lambda: [lane[4] for lane in room.lanes()[:1]] == ["draining"], PATIENCE)
    room.home.rate = None
    out, err = long.communicate(timeout=PATIENCE)
    hope("the second", (long.returncode, err), (0, ""))
    hope("each once", sorted(set(room.home.sessions().values())), [1])
    hope("all", len(room.home.sessions()), 150)


def a_wrong_configuration_drains_nothing(room):
    """A configuration that the next one could not start with ends it with 2, and nothing is drained."""
    room.start()
    good = room.file.read_text()
    for text in (good.replace(HERE, "127.0.0.300"), "listen = "):
        room.file.write_text(text)
        done = room.ask("restart", "--force")
        hope("it says", (done.returncode, [line.split()[0] for line in done.stdout.splitlines()[-1:]], done.stderr),
             (MISCONFIGURED, ["configuration:"],
              f"rad_proxyctl: not restarted, and not drained: rad_proxy check {room.file} ends with 2\n"))
        room.is_untouched()
    room.file.unlink()
    hope("no file", room.ask("restart", "--force").returncode, MISCONFIGURED)
    room.is_untouched()
    other = room.room / "other.toml"
    other.write_text(good)
    room.file.write_text(good)
    hope("another one", room.ask("restart", "-c", other).returncode, 0)


def root_has_the_owner_check(room):
    """What root can read and the service's user cannot is a configuration that it could not start with."""
    if os.getuid() != 0:
        raise LeftOut("it wants root")
    room.room.chmod(0o755)
    room.run.mkdir(0o700)
    os.chown(room.run, STRANGER, STRANGER)
    room.file.chmod(0o644)
    room.write("as", f"setpriv --reuid {STRANGER} --regid {STRANGER} --clear-groups")
    room.start()
    room.file.chmod(0o600)
    done = room.ask("restart")
    hope("unread", (done.returncode, "ends with 4" in done.stderr), (MISCONFIGURED, True))
    room.is_untouched()
    room.file.chmod(0o644)
    hope("read", room.ask("restart").returncode, 0)
    hope("root's files", [path.name for path in room.run.iterdir() if path.stat().st_uid != STRANGER], [])


def one_restarts_it_at_a_time(room):
    """While one waits, another one is refused; one that is stopped says that the proxy is drained; a drained one may be restarted."""
    room.home.rate = 0
    room.start()
    room.send(1)
    until("outstanding", lambda: room.lanes()[0][10] == "1")
    first = room.begin("restart", "--force", "--wait", "50")
    until("it is drained", lambda: [lane[4] for lane in room.lanes()[:1]] == ["draining"])
    done = room.ask("restart", "--force")
    hope("a second", (done.returncode, done.stderr), (FAILED, "rad_proxyctl: another one restarts it\n"))
    # The end of a terminal does not leave a proxy that is drained.
    os.killpg(first.pid, signal.SIGHUP)
    time.sleep(1.5)
    hope("it goes on", first.poll(), None)
    os.killpg(first.pid, signal.SIGTERM)
    _, err = first.communicate(timeout=PATIENCE)
    hope("it is stopped", (first.returncode, err.splitlines()[-1:]),
         (FAILED, ["rad_proxyctl: stopped: the proxy is drained and accepts nothing until it is restarted"]))
    room.home.rate = None
    until("it is answered", lambda: room.lanes()[0][4] == "done")
    hope("a third", room.ask("restart").returncode, 0)
    hope("the file out", (room.run / "out").exists(), False)


def whoever_restarts_it_meanwhile_ends_it(room):
    """Where another one restarts the service while this waits, this does not do it again."""
    room.home.rate = 0
    room.start()
    room.send(1)
    until("outstanding", lambda: room.lanes()[0][10] == "1")
    first = room.begin("restart", "--force", "--wait", "50")
    until("it is drained", lambda: [lane[4] for lane in room.lanes()[:1]] == ["draining"])
    subprocess.run([room.room / "way"], check=True, env=room.environment)
    _, err = first.communicate(timeout=PATIENCE)
    told = "rad_proxyctl: another one has restarted it: nothing more was done"
    hope("it says", (first.returncode, err.splitlines()[-1:]), (FAILED, [told]))
    hope("starts", (room.room / "printed").read_text().count("listening"), 2)


def a_check_sees_it_go(room):
    """The file `out` stands as long as it is asked to before the drain; where a home server goes down meanwhile it is taken away again."""
    room.configure("tries = 1\nfirst_wait = 100\n")
    room.start()
    first = room.begin("restart", "--out", "4")
    until("the file", (room.run / "out").exists)
    time.sleep(1)
    hope("modes", [lane[4] for lane in room.lanes()], ["open", "open"])
    with contextlib.closing(bound()) as nas:
        nas.sendto(request_of_nas(), (HERE, room.port))
        hope("it serves", nas.recv(4096)[0], 5)
    room.home.rate = 0
    room.send(1, first=9)
    until("it is down", lambda: room.lanes()[0][3] == "down")
    _, err = first.communicate(timeout=PATIENCE)
    told = "rad_proxyctl: not restarted, and not drained: a home server is down"
    hope("it says", (first.returncode, err.splitlines()[-1:]), (REFUSED, [told]))
    room.is_untouched()


def without_a_way_nothing_is_drained(room):
    """Where nothing says how the service is restarted, or systemd has no such unit, it refuses with 4 before anything is drained."""
    room.start()
    bare = {name: value for name, value in room.environment.items() if name != "RAD_PROXY_RESTART"}
    done = room.ask("-d", room.run, "restart", "--force", env=bare)
    hope("a folder", (done.returncode, done.stderr), (FAILED, f"rad_proxyctl: what serves in {room.run} is no unit that is known here: "
         "set RAD_PROXY_RESTART to the command that restarts it\n"))
    done = room.ask("restart", "--force", env=bare)
    told = (f"rad_proxy is no active unit of systemd: set RAD_PROXY_RESTART to the command that restarts what serves in {room.run}"
            if os.getuid() == 0 else "root alone restarts rad_proxy")
    hope("no unit", (done.returncode, done.stderr), (FAILED, f"rad_proxyctl: {told}\n"))
    room.is_untouched()
    done = room.ask("restart", env=room.environment | {"RAD_PROXY_RESTART": "exit 7"})
    hope("a way that fails", (done.returncode, done.stderr),
         (FAILED, "rad_proxyctl: the command that restarts it failed: look at the service, which is drained or has ended\n"))


def systemd_restarts_the_unit(room):
    """Without another way the unit of the instance is restarted by systemctl, if it is active."""
    if os.getuid() != 0:
        raise LeftOut("it wants root")
    tools = room.room / "bin"
    tools.mkdir()
    shutil.move(room.room / "way", tools / "systemctl")
    (room.room / "active").write_text("3")
    room.start()
    bare = {name: value for name, value in room.environment.items() if name != "RAD_PROXY_RESTART"}
    bare["PATH"] = f"{tools}:{bare['PATH']}"
    hope("inactive", room.ask("restart", env=bare).returncode, FAILED)
    room.is_untouched()
    (room.room / "active").write_text("0")
    hope("active", room.ask("restart", env=bare).returncode, 0)
    (room.room / "run/rad_proxy-two").symlink_to(room.run)
    shutil.copy(room.file, room.file.with_name("two.toml"))
    hope("an instance", room.ask("-i", "two", "restart", env=bare).returncode, 0)
    calls = [line.split(" ", 1)[1] for line in (room.room / "calls").read_text().splitlines()]
    hope("calls", calls, ["is-active --quiet rad_proxy", "is-active --quiet rad_proxy", "restart rad_proxy",
                          "is-active --quiet rad_proxy@two", "restart rad_proxy@two"])


def completed(room, *words):
    """What bash completes the last of these words by."""
    script = f'. "{room.room}/usr/share/bash-completion/completions/{words[0]}"; cd "{room.room}"; COMP_WORDS=("$@"); ' \
             'COMP_CWORD=$(($# - 1)); "_$1"; printf "%s\\n" "${COMPREPLY[@]}"'
    done = subprocess.run(["bash", "-c", script, "-", *words], capture_output=True, text=True, check=True)
    hope("faults", done.stderr, "")
    return done.stdout.split()


def bash_completes_the_words(room):
    """bash has each word, and behind each its options, instances, folders and the files that fit; each word and option of the usage is
    completed, and no name is evaluated."""
    for name in ("two", "one", "$(touch planted)", "`touch planted`", "a b", "x;y"):
        shutil.copy(room.file, room.file.with_name(f"{name}.toml"))
    for name in ("way.toml", "wayward.prom", "$(touch planted).toml", "$(touch planted).prom"):
        shutil.copy(room.file, room.room / name)
    cases = {
        "rad_proxyctl pro": "probe", "rad_proxyctl st": "state", "rad_proxyctl --v": "--version", "rad_proxyctl -i ": "one two",
        "rad_proxyctl -i t": "two", "rad_proxyctl -i two re": "restart", "rad_proxyctl -d u": "usr", "rad_proxyctl -d wa": "",
        "rad_proxyctl -d usr/s": "usr/sbin usr/share", "rad_proxyctl metrics wa": "wayward.prom", "rad_proxyctl metrics st": "",
        "rad_proxyctl metrics start ": "", "rad_proxyctl metrics e": "etc",
        "rad_proxyctl state ": "", "rad_proxyctl probe -": "-s --home -c --timeout --help", "rad_proxyctl probe -c wa": "way.toml",
        "rad_proxyctl probe -s ": "", "rad_proxyctl restart --f": "--force", "rad_proxyctl restart --wait ": "",
        "rad_proxyctl restart --force --": "--wait --out --help", "rad_proxyctl restart -c wa": "way.toml",
        "rad_proxyctl trace --user bob --user": "--user", "rad_proxyctl trace --user ": "",
        "rad_proxyctl spool ": "list export drop --folder -c --help", "rad_proxyctl spool list --": "--home --client --dropped --folder --help",
        "rad_proxyctl spool --folder u": "usr", "rad_proxyctl spool drop --home ": "", "rad_proxyctl spool drop --because ": "",
        "rad_proxyctl spool drop --b": "--because", "rad_proxyctl spool export --k": "--keep-delay", "rad_proxyctl spool -c wa": "way.toml",
        "rad_proxyctl spool list --dropped No": "NoRealm",
        "rad_proxyctl check wa": "way.toml", "rad_proxyctl check --s": "--strict", "rad_proxyctl check --strict wa": "way.toml",
        "rad_proxyctl check way.toml ": "--strict --rate --help", "rad_proxyctl check --strict --": "--rate --help",
        "rad_proxyctl check --rate 5 wa": "way.toml", "rad_proxyctl check --rate ": "",
        "rad_proxy ": "run check replay", "rad_proxy check wa": "way.toml", "rad_proxy replay ": "",
    }
    for words, wanted in cases.items():
        hope(words, sorted(completed(room, *words.split(" "))), sorted(wanted.split()))
    for words in ("-i $", "-i ", "check $", "metrics $", "-d $", "$"):
        completed(room, *f"rad_proxyctl {words}".split(" "))
    hope("what a name evaluated", list(room.room.glob("**/planted")), [])
    usage = room.ask("--help").stdout.split("\n\n")[0]
    lines = [re.sub(r"\b[A-Z:]+\b", "", line).split("rad_proxyctl", 1)[1] for line in usage.splitlines()]
    known = {word for line in lines for word in re.findall(r"(?:--?)?[a-z]+(?:-[a-z]+)*", line)}
    found = {word for words in ("", "probe ", "restart ", "trace ", "check -", "spool ", "spool export -", "spool drop -")
             for word in completed(room, *f"rad_proxyctl {words}".split(" "))}
    hope("words", found, known)


def check_prints_what_is_wrong_and_doubtful(room):
    """`check` prints each fault and each warning, and the counts, with the status of the program; --strict ends with 3 at a warning."""
    good, doubtful, wrong = (room.room / name for name in ("good.toml", "doubtful.toml", "wrong.toml"))
    text = room.file.read_text("utf-8")
    counted = "clients 1 homes 2 realms 2\n"
    good.write_text(text, "utf-8")
    doubtful.write_text(text.replace("[[home]]", "[[home]]\nwindw = 3", 1), "utf-8")
    wrong.write_text(text.replace("listen", "lisen"), "utf-8")
    warned = "level=warn event=unread-key "
    for words, file, status in ((("check",), None, 0), (("check", "--strict"), None, 0), (("check",), good, 0),
                                (("check",), doubtful, 0), (("check", "--strict"), doubtful, DOUBTFUL),
                                (("check", "--strict"), wrong, MISCONFIGURED), (("check",), wrong, MISCONFIGURED),
                                (("check",), room.room / "absent", FAILED), (("check", "--strict"), room.room / "absent", FAILED)):
        done = room.ask(*words, *([file] if file else []))
        hope(f"{words}, {file}: status", (done.returncode, done.stderr), (status, ""))
        told = done.stdout.splitlines()
        if status == FAILED:
            hope("the file", (told[0].startswith("level=error event=file-fault "), told[1:]), (True, [f"file: {file}"]))
        elif file == wrong:
            hope("the faults", (told[0].startswith(warned), told[-1]), (True, "configuration: Missing at top listen"))
        else:
            carried = [line for line in told if line.startswith("home ") or line.startswith("  ")]
            hope("what the numbers carry", (len(carried), told[len(told) - len(carried):]), (6, carried))
            told = told[:-len(carried)]
            hope("the counts", told[-1] + "\n", counted)
            hope("the warnings", [line for line in told if line.startswith(warned)], told[:-1])
            hope("how many", len(told), 2 if file == doubtful else 1)
    relative = subprocess.run([room.ctl, "check", "doubtful.toml"], cwd=room.room, env=room.environment, capture_output=True, text=True,
                              timeout=PATIENCE, check=False)
    hope("a relative path", (relative.returncode, relative.stdout.startswith(warned)), (0, True))
    for words in (("check", good, good), ("check", "--strikt"), ("check", "-c", good)):
        done = room.ask(*words)
        hope(f"{words}", (done.returncode, done.stdout, done.stderr.splitlines()[0].startswith("usage: ")), (1, "", True))


TESTS = [
    bash_completes_the_words, check_prints_what_is_wrong_and_doubtful,
    words_are_told_apart, relative_paths_hold, probe_sends_a_status_server, probe_of_a_home_server, three_datagrams_come_soon, strangers_do_not_fail_a_check,
    probe_takes_no_other_answer, probe_says_what_is_wrong_here,
    probe_of_a_proxy, a_kill_loses_nothing_of_a_spool, with_a_spool_a_home_server_may_be_down,
    with_a_spool_a_restart_under_load_loses_nothing, a_restart_loses_nothing, a_client_is_added, a_home_server_is_replaced, a_secret_of_a_home_server_is_replaced, waits_and_says_what_is_left, restarts_when_the_time_is_over,
    refuses_while_a_home_server_is_down, refuses_where_the_rate_is_too_low, a_wrong_configuration_drains_nothing,
    root_has_the_owner_check, one_restarts_it_at_a_time, whoever_restarts_it_meanwhile_ends_it, a_check_sees_it_go,
    without_a_way_nothing_is_drained, systemd_restarts_the_unit,
]


if __name__ == "__main__":
    try_named(TESTS, Room, __doc__)
