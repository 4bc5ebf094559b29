"""Binds the ports that Linux would give the lanes, in a network namespace of its own, and sees from which ports they send.

usage: python3 -m tests.network.source_ports PROGRAM [NAME ..]

Each test is a function below, and its first line tells what holds. Names choose tests. In the namespace Linux chooses ports of a range of
32 alone, all of which the script can hold. It wants root, `unshare`, `setpriv` and `ip`, and tells where it leaves a test out for want of
them. The last line is `N passed, M failed`.
"""
import contextlib
import os
import pathlib
import re
import subprocess
import tempfile

from tests.lib import (HERE, PATIENCE, SECRET, TOP, Home, Proxy, Server, answer, bound, configured, environment, hope, need, request,
                       try_in_namespace, until, user_name)
from tests.lib.trying import fault_of

PORT = 1813
SETTINGS = pathlib.Path("/proc/sys/net/ipv4")
RANGE, RESERVED = SETTINGS / "ip_local_port_range", SETTINGS / "ip_local_reserved_ports"
OF_ALL = SETTINGS / "ip_unprivileged_port_start"
# The range from which Linux chooses here, where a test sets no other one.
FIRST, LAST = 40_000, 40_031
USUAL = {1645, 1646, 1700, 1812, 1813, 1814, 2083, 3799}
IN_USE, DENIED = "Address already in use (os error 98)", "Permission denied (os error 13)"
NO_RANGE = "RAD_PROXY_SOURCE_PORTS is no FIRST-LAST of ports from 1 to 65535"
# The most random ports that are tried for a socket, a user without rights, and the port of the access server.
TRIED, USER, NAS = 300, 65533, 9


def set_range(first=FIRST, last=LAST, reserved=""):
    RANGE.write_text(f"{first} {last}\n")
    RESERVED.write_text(f"{reserved}\n")


@contextlib.contextmanager
def set_first_of_all(port):
    """Lets each user bind ports from this one on."""
    before = OF_ALL.read_text()
    OF_ALL.write_text(f"{port}\n")
    try:
        yield
    finally:
        OF_ALL.write_text(before)


@contextlib.contextmanager
def held(ports, address="0.0.0.0"):
    """Has these ports bound."""
    with contextlib.ExitStack() as stack:
        for port in ports:
            stack.enter_context(bound(address, port))
        yield


def ports_of(process):
    """The UDP ports that a process has, without that of its clients, in the order in which it bound them."""
    sockets = {}
    for line in pathlib.Path("/proc/net/udp").read_text().splitlines()[1:]:
        words = line.split()
        sockets[int(words[9])] = int(words[1].rpartition(":")[2], 16)
    found = []
    for name in sorted(pathlib.Path(f"/proc/{process.pid}/fd").iterdir(), key=lambda name: int(name.name)):
        inode = re.fullmatch(r"socket:\[(\d+)\]", os.readlink(name))
        if inode and int(inode[1]) in sockets:
            found.append(sockets[int(inode[1])])
    return [port for port in found if port != PORT]


class Trial(Proxy):
    """The program in front of so many home servers, which this script is, each lane with so many source ports."""

    def __init__(self, program, folder, lanes=1, ports=1, at=()):
        self.homes = [Home((HERE, place)) for place in at or [2813 + lane for lane in range(lanes)]]
        servers = [Server(f"h{lane}", home.port, f"ports = {ports}\nwindow = {min(64, 256 * ports - 2)}\n", f"h{lane}.example", SECRET.decode())
                   for lane, home in enumerate(self.homes)]
        listen = (HERE, PORT)
        super().__init__(program, folder, configured(f"{HERE}:{PORT}", servers, secret=SECRET.decode()), listen)

    def __enter__(self):
        return self

    def __exit__(self, *_):
        self.kill()
        for home in self.homes:
            home.ear.close()

    def begin(self, before=(), **variables):
        """Starts it, and waits until it listens: the ports of its lanes."""
        self.start(before, env=environment("info") | variables)
        self.listens()
        return ports_of(self.ran)

    def told(self, count):
        """The lines of the log, once it has so many."""
        return until("it is told", lambda: len(lines := self.log.read_text().splitlines()) >= count and lines)

    def forwards(self):
        """A request for each home server comes there from a port of the program, and is answered."""
        ports = ports_of(self.ran)
        with bound(HERE, NAS) as nas:
            for lane, home in enumerate(self.homes):
                asked = request(lane, user_name(f"bob@h{lane}.example".encode()), SECRET)
                nas.sendto(asked, self.listen)
                (packet, sender), = until("it is forwarded", home.requests)
                need(sender[1] in ports, f"it came from {sender}, and not from one of {ports}")
                home.answer(packet, sender)
                hope("the response", nas.recv(4096), answer(asked, asked[1], b"", SECRET))

    def fails(self, before=(), level="info", **variables):
        """Starts it, and waits until it ends: what it tells. Its status is 4."""
        self.log.write_text("")
        self.start(before, env=environment(level) | variables)
        self.ran.communicate(timeout=PATIENCE)
        hope("the status", self.ran.returncode, 4)
        return self.log.read_text().splitlines()


def free_of(ports):
    """Fails where a port is one that is never tried."""
    need(min(ports) >= 1024 and not USUAL & set(ports) and len(set(ports)) == len(ports), ports)


def test_system_chooses(program, folder):
    """Where Linux has ports it chooses them, and nothing is told."""
    set_range()
    with Trial(program, folder, lanes=2, ports=4) as trial:
        need(all(FIRST <= port <= LAST for port in trial.begin()), ports_of(trial.ran))
        trial.forwards()
        hope("what is told", trial.log.read_text(), "")


def test_all_of_the_range_is_held(program, folder):
    """Where others hold all ports of Linux's range the lanes have other ones, below it, and how many were tried is told."""
    set_range()
    for address in ("0.0.0.0", HERE):
        with held(range(FIRST, LAST + 1), address), Trial(program, folder) as trial:
            (port,) = trial.begin()
            free_of([port])
            need(port < FIRST, port)
            trial.forwards()
            (line,) = trial.told(1)
            need(re.fullmatch(r"level=info event=source-ports home=h0 tried=[1-9]\d*", line), line)


def test_several_lanes(program, folder):
    """The same for each of four source ports of several lanes, which are told one by one."""
    set_range()
    with held(range(FIRST, LAST + 1)), Trial(program, folder, lanes=3, ports=4) as trial:
        ports = trial.begin()
        hope("how many ports there are", len(ports), 12)
        free_of(ports)
        need(max(ports) < FIRST, ports)
        trial.forwards()
        told = [re.fullmatch(r"level=info event=source-ports home=(h\d) tried=(\d+)", line) for line in trial.told(3)]
        hope("the lanes that are told", [line and line[1] for line in told], ["h0", "h1", "h2"])
        need(all(int(line[2]) >= 4 for line in told), told)


def test_some_of_the_range_is_held(program, folder):
    """Where Linux has three ports left of its range, four sockets have these and another one."""
    set_range()
    with held(range(FIRST + 3, LAST + 1)), Trial(program, folder, ports=4) as trial:
        ports = trial.begin()
        hope("those of the range", sorted(port for port in ports if port >= FIRST), [FIRST, FIRST + 1, FIRST + 2])
        free_of(ports)


def test_most_others_are_held(program, folder):
    """Where most of the other ports are held too, the lanes find those that are left."""
    set_range(1280, 65535, "1312-65535")
    left = set(range(1100, 1116))
    with held(sorted(set(range(1024, 1312)) - left)), Trial(program, folder, ports=4) as trial:
        need(left.issuperset(trial.begin()), ports_of(trial.ran))
        trial.forwards()


def test_none_is_left(program, folder):
    """Where all other ports are held too, the program ends, and tells how many it tried."""
    set_range(1040, 65535, "1056-65535")
    with held(range(1024, 1056)), Trial(program, folder) as trial:
        lines = [f"level=error event=unbound socket=0.0.0.0:0 tried={TRIED} reason=\"{IN_USE}\"", "socket: lane 0"]
        hope("what it tells", trial.fails(), lines)


def test_no_other_one_may_be_tried(program, folder):
    """Where all other ports are reserved, none is tried, and the program ends."""
    set_range(1040, 65535, "1024-1039,1056-65535")
    with held(range(1040, 1056)), Trial(program, folder) as trial:
        hope("what it tells", trial.fails(), [f"level=error event=unbound socket=0.0.0.0:0 reason=\"{IN_USE}\"", "socket: lane 0"])


def test_later_lane(program, folder):
    """Where a later lane finds no port, it is that one that is named."""
    set_range(1040, 65535, "1056-65535")
    with held([*range(1025, 1040), *range(1041, 1056)]), Trial(program, folder, lanes=3) as trial:
        *told, last = trial.fails()
        hope("the last line", last, "socket: lane 2")
        hope("the events", [re.search(r"event=(\S+) \w+=(\S+)", line).groups() for line in told],
             [("source-ports", "h1"), ("unbound", "0.0.0.0:0")])


def test_reserved_ports(program, folder):
    """Reserved ports are left to those for whom they are, a single one and those of a range."""
    set_range(1088, 65535, "1024-1029,1031,1040-1087,1120-65535")
    with held(range(1088, 1120)):
        for _ in range(5):
            with Trial(program, folder, ports=4) as trial:
                need({1030, *range(1032, 1040)}.issuperset(trial.begin()), ports_of(trial.ran))


def test_ports_of_home_servers(program, folder):
    """The ports of the home servers are left to these, which may be started on this machine later."""
    set_range(1040, 65535, "1056-65535")
    with held(range(1040, 1056)):
        for _ in range(5):
            with Trial(program, folder, at=range(1024, 1032)) as trial:
                for home in trial.homes:
                    home.ear.close()
                need(set(range(1032, 1040)) == set(trial.begin()), ports_of(trial.ran))


def test_ports_above_the_range(program, folder):
    """Where few ports are below Linux's range, those above it are tried too, and where many are, they are not."""
    set_range(1024, 1055)
    with held(range(1024, 1056)), Trial(program, folder, ports=4) as trial:
        ports = trial.begin()
        free_of(ports)
        need(min(ports) > 1055, ports)
    set_range(9215, 9246, "1024-9200")
    with held(range(9215, 9247)), Trial(program, folder, ports=4) as trial:
        free_of(trial.begin())
        need(max(ports_of(trial.ran)) > 9246, ports_of(trial.ran))
    set_range(9216, 9247, "1024-9199")
    with held(range(9216, 9248)), Trial(program, folder, ports=4) as trial:
        need(all(9200 <= port <= 9215 for port in trial.begin()), ports_of(trial.ran))


def test_ports_of_root(program, folder):
    """Below 1024 no port is tried, wherever Linux's range ends."""
    with set_first_of_all(0):
        set_range(600, 631, "5120-65535")
        try:
            with held(range(600, 632)), Trial(program, folder, lanes=6, ports=4) as trial:
                need(all(1024 <= port < 5120 for port in trial.begin()), ports_of(trial.ran))
        finally:
            set_range()


def test_refused_ports(program, folder):
    """A port that the user may not bind counts as one that is held."""
    set_range(1040, 65535, "1056-65535")
    os.chmod(folder, 0o755)
    with set_first_of_all(1036), held(range(1040, 1056)), Trial(program, folder, ports=2) as trial:
        os.chmod(trial.file, 0o644)
        need(all(1036 <= port < 1040 for port in trial.begin(as_user())), ports_of(trial.ran))


def as_user():
    """The words before the program by which another user runs it, who has no rights."""
    return "setpriv", f"--reuid={USER}", f"--regid={USER}", "--clear-groups"


def test_settings_unread(program, folder):
    """Where Linux's settings can't be read its range counts as 32768 to 60999, so the lanes have ports below that."""
    set_range()
    without = ("unshare", "--mount", "sh", "-c", f"mount -t tmpfs none {SETTINGS.parents[1]} && exec \"$@\"", "sh")
    with held(range(FIRST, LAST + 1)), Trial(program, folder, ports=4) as trial:
        ports = trial.begin(without)
        free_of(ports)
        need(max(ports) < 32768, ports)


def test_pinned(program, folder):
    """RAD_PROXY_SOURCE_PORTS pins the ports: the lanes have them in order, usual ones too. An empty value pins none."""
    set_range()
    for first in (20_000, 1811, 65_531, 1):
        with Trial(program, folder, lanes=2, ports=2) as trial:
            wanted = [port for port in range(first, first + 5) if port != PORT][:4]
            hope("the ports", trial.begin(RAD_PROXY_SOURCE_PORTS=f"{first}-{first + 4}"), wanted)
            trial.forwards()
    with Trial(program, folder) as trial:
        need(FIRST <= trial.begin(RAD_PROXY_SOURCE_PORTS="")[0] <= LAST, ports_of(trial.ran))


def test_some_pinned_ones_are_held(program, folder):
    """Of pinned ports those that others hold are passed over, and how many were tried is told."""
    set_range()
    with held([20_001, 20_004]), Trial(program, folder, lanes=3, ports=2) as trial:
        hope("the ports", trial.begin(RAD_PROXY_SOURCE_PORTS="20000-20007"), [20_000, 20_002, 20_003, 20_005, 20_006, 20_007])
        lines = [f"level=info event=source-ports home=h{lane} tried=3" for lane in (0, 1)]
        hope("what is told", trial.told(2), lines)


def test_too_many_pinned_ones_are_held(program, folder):
    """Where fewer pinned ports are free than the lanes need, the program ends, and no other port is tried."""
    set_range()
    with held([20_001]), Trial(program, folder, lanes=2, ports=2) as trial:
        lines = ["level=info event=source-ports home=h0 tried=3",
                 f"level=error event=unbound socket=0.0.0.0:0 tried=1 reason=\"{IN_USE}\"", "socket: lane 1"]
        hope("what it tells", trial.fails(RAD_PROXY_SOURCE_PORTS="20000-20003"), lines)


def test_pinned_ports_of_root(program, folder):
    """Ports below 1024 are for those who have that right: another user's program ends, and tells it."""
    set_range()
    os.chmod(folder, 0o755)
    with Trial(program, folder, ports=2) as trial:
        os.chmod(trial.file, 0o644)
        reason = f"level=error event=unbound socket=0.0.0.0:0 tried=2 reason=\"{DENIED}\""
        hope("what it tells", trial.fails(as_user(), RAD_PROXY_SOURCE_PORTS="1000-1001"), [reason, "socket: lane 0"])
        rights = ("--inh-caps=+net_bind_service", "--ambient-caps=+net_bind_service")
        hope("the ports", trial.begin((*as_user(), *rights), RAD_PROXY_SOURCE_PORTS="1000-1001"), [1000, 1001])


def test_refused_values(program, folder):
    """A value that is no range, or of too few ports, is refused by name, and the program ends."""
    set_range()
    values = ["20000", "20003-20000", "0-9", "1-65536", "65536-65540", "a-b", "20000-", "-20003", "-", " 20000-20003", "20000-20003 ",
              "020000-20003", "+20000-20003", "20000:20003", "20000-20001-20003", "20000–20003"]
    with Trial(program, folder, lanes=2, ports=2) as trial:
        for value in values:
            lines = [f"level=error event=source-ports-fault reason=\"{NO_RANGE}\"", "socket: lane 0"]
            hope(f"what it tells of {value}", trial.fails(RAD_PROXY_SOURCE_PORTS=value), lines)
        for value, ports in [("20000-20002", 3), ("20000-20000", 1)]:
            reason = "RAD_PROXY_SOURCE_PORTS has fewer ports than the lanes need"
            lines = [f"level=error event=source-ports-fault ports={ports} needed=4 reason=\"{reason}\"", "socket: lane 0"]
            hope(f"what it tells of {value}", trial.fails(RAD_PROXY_SOURCE_PORTS=value), lines)
        lines = ['level=error event=source-ports-fault reason="RAD_PROXY_SOURCE_PORTS is no text"', "socket: lane 0"]
        hope("what it tells of no text", trial.fails(RAD_PROXY_SOURCE_PORTS=os.fsdecode(b"20000-20003\xff")), lines)
        hope("what it tells without a log", trial.fails(level="off", RAD_PROXY_SOURCE_PORTS="a"), ["socket: lane 0"])


def test_a_probe_finds_a_port(program, folder):
    """Where others hold all ports of Linux's range `rad_proxyctl probe` sends from another one, as a health check does."""
    set_range()
    place = pathlib.Path(folder, "usr")
    subprocess.run(["make", "-s", "install-proxy", f"PREFIX={place}", f"SYSCONFDIR={folder}/etc", f"PROGRAM={program}"], cwd=TOP, check=True)
    with Trial(program, folder) as trial:
        own = trial.begin()
        with held([port for port in range(FIRST, LAST + 1) if port not in own]):
            ran = subprocess.run([place / "sbin/rad_proxyctl", "probe", "-c", trial.file, "--timeout", "2"], capture_output=True, text=True, check=False)
        hope(f"its status: {ran.stderr}", (ran.returncode, ran.stdout.partition(" in ")[0]), (0, f"answer from {HERE}:{PORT}"))


def test_order_of_faults(program, folder):
    """The socket of `listen` is bound before the value is looked at."""
    set_range()
    with Trial(program, folder) as trial, held([PORT]):
        *_, last = trial.fails(RAD_PROXY_SOURCE_PORTS="a")
        hope("the last line", last, f"socket: {HERE}:{PORT}")


TESTS = {name[5:]: made for name, made in list(globals().items()) if name.startswith("test_")}


def try_one(name, program):
    """Tries one test: what is wrong with it, where something is."""
    with tempfile.TemporaryDirectory() as folder:
        fault = fault_of(TESTS[name], program, folder)
    if fault:
        print(f"{name}: {TESTS[name].__doc__} {fault}", flush=True)
    return not fault


def main():
    try_in_namespace(TESTS, try_one, __doc__, __spec__.name)


if __name__ == "__main__":
    main()
