"""The program under `run`, the NAS and the home servers at its sides, a stage that has all of them, and the scripts of the service."""
import contextlib
import os
import pathlib
import re
import select
import signal
import subprocess
import time

from tests.lib.always import watch_counters
from tests.lib.model import read
from tests.lib.packets import ACCOUNTING_REQUEST, STATUS_SERVER, answer, reply, request, status, user_name
from tests.lib.starting import TOP, Server, configuration, configured, environment
from tests.lib.trying import hope, need
from tests.lib.waiting import HERE, PATIENCE, bound, fair_clock, free_port, is_so, until

SECRET = b"one secret for all"
VALUE = re.compile(r'(\S+?)=("[^"]*"|\S*)')
NOTHING_LEFT = "end: queued 0 outstanding 0 untaken 0"
NEW_LANE = "lane 0 h1 up open accepted 0 queued 0 outstanding 0 answered 0 opening 0\n"


def pairs_of(line):
    """The keys and values of a log line, those without their quotes."""
    return {key: value.strip('"') for key, value in VALUE.findall(line)}


class Home:
    """A home server: it keeps what comes, and answers what it is told to. Without a place it has a port that nobody has."""

    def __init__(self, place=(HERE, 0), secret=SECRET):
        self.ear, self.secret = bound(*place), secret
        self.port = self.ear.getsockname()[1]
        self.came = []

    def hear(self, wait=0.0):
        """Keeps what has come, each with its sender."""
        while select.select([self.ear], [], [], wait)[0]:
            octets, sender = self.ear.recvfrom(4096)
            self.came.append((read(octets), sender))
            wait = 0.0

    def requests(self):
        """The requests that came, each once."""
        self.hear()
        first = {}
        for packet, sender in self.came:
            if packet.code == ACCOUNTING_REQUEST:
                first.setdefault(packet.octets, (packet, sender))
        return list(first.values())

    def answer(self, packet, sender):
        self.ear.sendto(reply(packet, self.secret), sender)

    def answers_a_probe(self):
        """Answers the last probe, where one came."""
        self.hear()
        probes = [each for each in self.came if each[0].code == STATUS_SERVER]
        for packet, sender in probes[-1:]:
            self.ear.sendto(answer(packet.octets, packet.identifier, b"", self.secret), sender)
        return bool(probes)


class Proxy:
    """The program under `run`, in a folder that has its configuration, its log, its counters, and what it prints to a file."""

    def __init__(self, program, folder, text, listen, name="proxy"):
        self.program, self.listen, self.ran = program, listen, None
        self.file, self.log, self.printed, self.counters = (pathlib.Path(folder, f"{name}.{end}") for end in ("toml", "log", "out", "prom"))
        self.file.write_text(text, "utf-8")
        self.log.write_text("")

    @classmethod
    def serving(cls, program, folder, name, homes, port=None, default=None, level="info", linger=0, variables=(), errors=None, other=None):
        """One that listens, for whoever is here: with these home servers, each with its port here, or its whole address, and its limits."""
        listen, secret = (HERE, port or free_port()), SECRET.decode()
        servers = [Server(home, place, keys, f"{home}.example", secret) for home, (place, keys) in homes.items()]
        text = configured(f"{HERE}:{listen[1]}", servers, secret=secret, linger=linger, default=default, other=other)
        made = cls(program, folder, text, listen, name)
        more = {} if errors is None else {"stderr": errors}
        made.start(env=environment(level) | {"RAD_PROXY_COUNTERS": str(made.counters)} | dict(variables), **more)
        made.listens()
        return made

    def start(self, before=(), **options):
        """Starts it, with words before its own. It has pipes, and its log, where these options of a process do not say otherwise."""
        given = {"stdin": subprocess.PIPE, "stdout": subprocess.PIPE, "env": environment()} | options
        with self.log.open("ab") as log:
            self.ran = subprocess.Popen([*before, self.program, "run", self.file], **({"stderr": log} | given))
        watch_counters(given["env"].get("RAD_PROXY_COUNTERS"), self.ran)
        return self.ran

    def listens(self):
        """Waits for the line that says where it listens, and gives that."""
        line = self.ran.stdout.readline() if select.select([self.ran.stdout], [], [], PATIENCE)[0] else b""
        if not line.startswith(b"listening "):
            self.kill()
            raise OSError(f"it does not listen: {line.decode()}{self.log.read_text('utf-8', 'replace')}")
        return line

    def start_printing(self, variables, **options):
        """Starts it so that it prints to a file, in an environment of these variables, and waits until it listens."""
        with self.printed.open("wb") as out:
            self.start(stdout=out, env=variables, **options)
        until("it listens", lambda: "listening" in self.printed.read_text())

    def lines(self, event, home=None):
        """The lines of an event, as keys and values."""
        told = map(pairs_of, self.log.read_text("utf-8", "replace").splitlines())
        return [pairs for pairs in told if pairs.get("event") == event and home in (None, pairs.get("home"))]

    def counter(self, name):
        """The sum of a counter over all its labels, once there are some."""
        until("there are counters", self.counters.exists)
        lines = self.counters.read_text("utf-8").splitlines()
        return sum(int(line.rsplit(" ", 1)[1]) for line in lines if line.startswith(f"rad_proxy_{name}{{"))

    def clock(self):
        """A clock that stands still while the program or this script waits for a processor."""
        return fair_clock(self.ran.pid)

    def end(self):
        """Ends the program, and gives how it ended."""
        self.ran.communicate()
        return self.ran.returncode

    def kill(self):
        """Kills it, where it runs."""
        if self.ran is not None:
            self.ran.kill()
            self.ran.wait()
            for pipe in filter(None, (self.ran.stdin, self.ran.stdout)):
                with contextlib.suppress(OSError):
                    pipe.close()


class Nas:
    """An access server: each request that it sends is a new one."""

    def __init__(self, proxy):
        self.socket, self.proxy, self.asked = bound(), proxy, 0
        self.socket.settimeout(PATIENCE)

    def ask(self, home="h0"):
        self.asked += 1
        name = f"user{self.asked}@{home}.example".encode()
        octets = request(self.asked % 256, user_name(name), SECRET)
        self.socket.sendto(octets, self.proxy.listen)
        return octets

    def ask_status(self, identifier=1):
        """A Status-Server to the proxy itself."""
        self.socket.sendto(status(identifier, bytes(16), b"", b"", SECRET), self.proxy.listen)

    def is_answered(self, asked):
        """Whether what comes next is the response to this request."""
        return self.socket.recv(4096) == answer(asked, asked[1], b"", SECRET)


class Stage:
    """A program, its home servers, which are named h0, h1 and so on, and its NAS."""

    def __init__(self, program, folder, limits="", count=1, addresses=(), **more):
        self.homes = [Home() for _ in range(count)]
        for home in self.homes:
            home.ear.settimeout(PATIENCE)
        places = [home.port for home in self.homes] + list(addresses)
        homes = {f"h{lane}": (place, limits) for lane, place in enumerate(places)}
        self.proxy = Proxy.serving(program, folder, "proxy", homes, **more)
        self.nas = Nas(self.proxy)

    def __enter__(self):
        return self

    def __exit__(self, *_):
        self.proxy.kill()
        for one in (self.nas.socket, *(home.ear for home in self.homes)):
            one.close()

    def came(self, lane=0):
        """What comes next to a home server, and from where."""
        octets, sender = self.homes[lane].ear.recvfrom(4096)
        return read(octets), sender

    def round_trip(self, lane=0):
        """A request is sent and answered: how long that took, by this clock. What was sent again before, on a busy machine, may come first."""
        begun = self.proxy.clock()
        asked, both = self.nas.ask(f"h{lane}"), [self.homes[lane].ear, self.nas.socket]
        while self.nas.socket not in (ready := select.select(both, [], [], PATIENCE)[0]):
            need(ready, "nothing comes")
            self.homes[lane].answer(*self.came(lane))
        need(self.nas.is_answered(asked), "another response came")
        return self.proxy.clock() - begun

    def is_answered_in_the_end(self, asked, lane):
        """Whether a request is answered, which the NAS sends again until it is, while the home server answers what comes."""

        def comes():
            home = self.homes[lane]
            before = len(home.came)
            home.hear(0.1)
            for packet, sender in home.came[before:]:
                home.answer(packet, sender)
            if select.select([self.nas.socket], [], [], 0.2)[0]:
                return self.nas.is_answered(asked)
            self.nas.socket.sendto(asked, self.proxy.listen)
            return False

        return is_so(comes)

    def say(self, command, lines):
        """A command to the program, and so many lines of its answer."""
        self.proxy.ran.stdin.write(command + b"\n")
        self.proxy.ran.stdin.flush()
        return [self.proxy.ran.stdout.readline().decode().rstrip("\n") for _ in range(lines)]

    def counters(self):
        """Each counter, by its name and labels, once there are some."""
        need(is_so(self.proxy.counters.exists), "there is no file of counters")
        lines = self.proxy.counters.read_text("utf-8").splitlines()
        pairs = [line.rsplit(" ", 1) for line in lines if not line.startswith("#")]
        found = {name: float(count) if "." in count else int(count) for name, count in pairs}
        need(len(found) == len(pairs), "a counter stands there twice")
        return found

    def next_report(self):
        """Waits until the file of the counters is replaced."""
        need(is_so(self.proxy.counters.exists), "there is no file of counters")
        before = self.proxy.counters.stat().st_ino, self.proxy.counters.stat().st_mtime_ns
        need(is_so(lambda: (self.proxy.counters.stat().st_ino, self.proxy.counters.stat().st_mtime_ns) != before), "no report comes")

    def ends(self):
        """Has the input end: how long the program took from then on, its last line and its status."""
        begun = time.monotonic()
        printed, _ = self.proxy.ran.communicate(timeout=PATIENCE)
        return time.monotonic() - begun, printed.decode().splitlines()[-1], self.proxy.ran.returncode


class Service:
    """The scripts, installed in a folder of this test, with a configuration of one client and one home server."""

    def __init__(self, program, room):
        self.program, self.room, self.run = program, room, room / "run"
        subprocess.run(["make", "-s", "install", f"DESTDIR={room}", "PREFIX=/usr", f"PROGRAM={program}"], cwd=TOP, check=True)
        self.serve, self.ctl = room / "usr/libexec/rad_proxy/serve", room / "usr/sbin/rad_proxyctl"
        self.home, self.nas = bound(), bound()
        self.port = free_port()
        self.file = room / "one.toml"
        self.configure()
        installed = str(room / "usr/sbin/rad_proxy")
        self.environment = os.environ | {"RUNTIME_DIRECTORY": str(self.run), "RAD_PROXY_PROGRAM": installed}
        for name in ("RAD_PROXY_COUNTERS", "RAD_PROXY_LEDGER", "RAD_PROXY_LOG", "NOTIFY_SOCKET", "JOURNAL_STREAM"):
            self.environment.pop(name, None)
        self.started = []

    def configure(self, linger=5000):
        self.file.write_text(configuration(self.port, client=HERE, home_port=self.home.getsockname()[1], linger=linger))

    def start(self, **options):
        """Starts the service in a process group of its own, and waits until it listens."""
        wait, name = options.pop("wait", True), f"printed{len(self.started)}"
        self.printed, self.log = self.room / name, self.room / f"{name}.log"
        with open(self.printed, "wb") as out, open(self.log, "wb") as err:
            given = {"stdin": subprocess.DEVNULL, "stdout": out, "stderr": err, "env": self.environment,
                     "start_new_session": True} | options
            made = subprocess.Popen([self.serve, self.file], **given)
        self.started.append(made)
        watch_counters(given["env"].get("RAD_PROXY_COUNTERS", str(self.run / "counters")), made)
        if wait:
            until("it listens", lambda: "listening" in self.printed.read_text())
        return made

    def ask(self, *words, **options):
        given = {"capture_output": True, "text": True, "env": self.environment, "timeout": PATIENCE} | options
        return subprocess.run([self.ctl, *words], **given)

    def send(self, octets):
        self.nas.sendto(octets, ("127.0.0.1", self.port))

    def state_is(self, text="it answers"):
        done = self.ask("state")
        hope(text, (done.returncode, done.stdout), (0, NEW_LANE))

    def children(self, process):
        """The processes whose parent this one is, with the names of their programs."""
        done = subprocess.run(["ps", "--ppid", str(process.pid), "-o", "pid=,comm="], capture_output=True, text=True)
        return [(int(pid), name) for pid, name in (line.split() for line in done.stdout.splitlines())]

    def living(self):
        """The processes of all that was started, but for those that ended and that nobody has waited for yet."""
        groups = {str(process.pid) for process in self.started}
        done = subprocess.run(["ps", "-eo", "pgid=,stat=,args="], capture_output=True, text=True)
        return [line for line in map(str.split, done.stdout.splitlines()) if line[0] in groups and line[1][0] != "Z"]

    def stop(self):
        for process in self.started:
            with contextlib.suppress(ProcessLookupError):
                os.killpg(process.pid, signal.SIGKILL)
            process.wait()
            self.wait_for_group(process.pid)

    def wait_for_group(self, group):
        """Waits until a group that was killed has no process left, which could still write into the folder."""
        is_so(lambda: is_gone(group), 5, 0.05)


def is_gone(group):
    """Whether no process is left in a group."""
    try:
        os.killpg(group, 0)
    except ProcessLookupError:
        return True
    return False


def heed_signals():
    """Has what is started here end by the signals that are meant to end it, also where this was started to ignore them, as by nohup."""
    for number in (signal.SIGHUP, signal.SIGINT, signal.SIGQUIT, signal.SIGTERM):
        if signal.getsignal(number) == signal.SIG_IGN:
            signal.signal(number, signal.SIG_DFL)
