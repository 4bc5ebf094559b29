"""Tries the steps of docs/moving.md, the source address, and connection tracking, in network namespaces, with NASes and home servers.

usage: python3 -m tests.tools.moving PROGRAM [NAME ..]

PROGRAM is rad_proxy. A case that wants root, `ip`, `nft`, `conntrack`, radsecproxy or FreeRADIUS is left out where that is not here.
The NASes are 10.20.0.11 to 10.20.0.13 and send from port 1646. The proxies' machine is 10.20.0.1, and the home servers are
198.51.100.20 and 198.51.100.21. Names choose cases. What fails or is left out is told, and the last line is `N passed, M failed`.
"""
import contextlib
import ctypes
import functools
import os
import pathlib
import re
import select
import subprocess
import threading
import time
from dataclasses import dataclass, replace

from tests.lib import ACCT_SESSION_ID, TOP, Proxy, bound, environment, hope, read, reply, try_in_folders, until
from tests.lib.starting import LIBC
from tests.lib.tools import running, talking
from tests.lib.tools.running import want

NAS, PROXY, HOME = (f"moving-{os.getpid()}-{name}" for name in ("nas", "proxy", "home"))
HERE, BILLING = "10.20.0.1", "198.51.100.20"
NASES = ["10.20.0.11", "10.20.0.12", "10.20.0.13"]
NEW_NETWORK = 0x40000000
HOME_SECRET = b"home secret"
SECRETS = {11: b"first secret", 12: b"second secret", 13: b"third secret"}
ONE_SECRET = b"one secret of all"

OLD = """ListenUDP *:1813
client 10.20.0.11 {
	type udp
	secret "first secret"
}
client 10.20.0.12 {
	type udp
	secret second%20secret
}
server billing {
	type udp
	host 198.51.100.20
	port 1813
	secret "home secret"
}
realm example.org {
	accountingServer billing
}
"""
NEW = """listen = "{listen}"
[[client]]
address = "{client}"
secret = "one secret of all"
[[home]]
name = "billing"
address = "198.51.100.20:1813"
secret = "home secret"
[[realm]]
name = "example.org"
home = "billing"
"""
CHAIN = "nft add table ip moving\nnft add chain ip moving in { type nat hook prerouting priority -100 ; }"
ONE_RULE = "nft add rule ip moving in ip saddr 10.20.0.11 udp dport 1813 counter redirect to :11813"
ALL_RULE = "nft add rule ip moving in udp dport 1813 counter redirect to :11813"
BLOCK = ("nft add table ip block\nnft add chain ip block in { type nat hook input priority 100 ; }\n"
         "nft add rule ip block in ip saddr 10.20.0.0/24 udp dport 1813 counter snat to 192.0.2.254")
TRACKED = ("nft add table ip tracked\nnft add chain ip tracked in { type filter hook prerouting priority 0 ; }\n"
           "nft add rule ip tracked in ct state new counter")
SOURCE = ("nft add table ip source\nnft add chain ip source out { type nat hook postrouting priority 100 ; }\n"
          "nft add rule ip source out ip daddr 198.51.100.20 udp dport 1813 counter snat to 198.51.100.2")


def run(*words):
    """Runs a command that has to succeed."""
    subprocess.run(words, check=True, capture_output=True)


def at_proxy(lines):
    """Runs commands at the proxies' machine, a line each."""
    for line in lines.splitlines():
        run("ip", "netns", "exec", PROXY, *line.split(" "))


def is_taken(port):
    """Whether somebody receives at a port there."""
    try:
        socket_in(PROXY, "0.0.0.0", port).close()
    except OSError:
        return True
    return False


def forget(*words):
    """Deletes mappings there, of which there may be none."""
    subprocess.run(["ip", "netns", "exec", PROXY, "conntrack", "-D", "-p", "udp", *words], capture_output=True, check=False)


def socket_in(space, address, port):
    """A socket of an address in a namespace."""
    with open("/proc/self/ns/net", "rb") as own, open(f"/run/netns/{space}", "rb") as other:
        try:
            if LIBC.setns(other.fileno(), NEW_NETWORK):
                raise OSError(ctypes.get_errno(), "setns")
            return bound(address, port, None)
        finally:
            LIBC.setns(own.fileno(), NEW_NETWORK)


@contextlib.contextmanager
def network():
    """Three machines: that of the NASes, that of the proxies, and that of the home servers."""
    try:
        for space in (NAS, PROXY, HOME):
            run("ip", "netns", "add", space)
            run("ip", "-n", space, "link", "set", "lo", "up")
        for name, space, own, others in (("n", NAS, HERE, NASES), ("h", HOME, "198.51.100.1", [BILLING])):
            run("ip", "link", "add", f"{name}0", "netns", PROXY, "type", "veth", "peer", "name", "e0", "netns", space)
            for address in others:
                run("ip", "-n", space, "address", "add", f"{address}/24", "dev", "e0")
            run("ip", "-n", PROXY, "address", "add", f"{own}/24", "dev", f"{name}0")
            run("ip", "-n", PROXY, "link", "set", f"{name}0", "up")
            run("ip", "-n", space, "link", "set", "e0", "up")
        run("ip", "-n", PROXY, "route", "add", "default", "via", "10.20.0.254")
        yield
    finally:
        for space in (NAS, PROXY, HOME):
            subprocess.run(["ip", "netns", "del", space], capture_output=True, check=False)


class HomeServer:
    """A home server that answers each request after some seconds, and keeps the sessions that came."""

    def __init__(self, address=BILLING):
        self.delay = 0
        self.sessions, self.addresses = [], []
        self.where = socket_in(HOME, address, 1813)
        threading.Thread(target=self._serve, daemon=True).start()

    def _serve(self):
        while True:
            try:
                octets, sender = self.where.recvfrom(4096)
            except OSError:
                return
            packet = read(octets)
            if talking.is_request(packet, HOME_SECRET):
                self.sessions.append((sender[1], talking.value(packet, ACCT_SESSION_ID).decode()))
                self.addresses.append(sender[0])
                threading.Timer(self.delay, self._answer, (packet, sender)).start()

    def _answer(self, packet, sender):
        with contextlib.suppress(OSError):
            self.where.sendto(reply(packet, HOME_SECRET), sender)

    def senders(self, session):
        """How many senders a session came from."""
        return len({port for port, name in self.sessions if name == session})


@dataclass(frozen=True)
class Room:
    """The program, a folder, and what ends when a case does."""

    program: pathlib.Path
    folder: pathlib.Path
    stack: contextlib.ExitStack

    def started(self, words, **options):
        """A process at the proxies' machine, which is killed in the end."""
        made = self.stack.enter_context(subprocess.Popen(["ip", "netns", "exec", PROXY, *words], **options))
        self.stack.callback(made.kill)
        return made

    def background(self, *words):
        """A proxy that runs until the case ends."""
        want(words[0])
        self.started(words, stdout=subprocess.DEVNULL, stderr=subprocess.DEVNULL)
        until(f"{words[0]} serves", lambda: is_taken(1813))
        time.sleep(0.3)

    def beside(self):
        """radsecproxy at port 1813, and rad_proxy with what was converted of its file at port 11813."""
        file = self.folder / "radsecproxy.conf"
        file.write_text(OLD)
        self.background("radsecproxy", "-f", "-c", str(file))
        converted = running.run("rad_convert", "radsecproxy", file, text=True, check=True).stdout
        return Asked(converted.replace('"0.0.0.0:1813"', '"0.0.0.0:11813"'), self)


class Asked(Proxy):
    """rad_proxy at the proxies' machine, which is asked by its standard input."""

    def __init__(self, configuration, room):
        super().__init__(room.program, room.folder, configuration, (HERE, 11813), "it")
        room.stack.callback(self.kill)
        self.start(["ip", "netns", "exec", PROXY], text=True, env=environment() | {"RAD_PROXY_COUNTERS": str(self.counters)})
        hope("listening", self.ran.stdout.readline().split()[:1], ["listening"])

    def ask(self, word):
        """The answer to a word."""
        self.ran.stdin.write(word + "\n")
        self.ran.stdin.flush()
        return self.ran.stdout.readline().rstrip("\n")

    def accepted(self):
        """How many requests it has accepted."""
        return int(self.ask("state").split(" accepted ")[1].split()[0])

    def counter(self, text):
        """A counter's value, a second and a half later."""
        time.sleep(1.5)
        return next((int(line.rsplit(" ", 1)[1]) for line in self.counters.read_text().splitlines() if line.startswith(text)), None)


def asks(number, session, secret=None, user="bob@example.org", times=1, every=2.0, meanwhile=None):
    """Has a NAS send a request, and repeat it. The result is the port that the answer came from, or None."""
    secret = secret or SECRETS[number]
    packet = talking.asked(sum(session.encode()) % 256, user.encode(), session.encode(), secret)
    with socket_in(NAS, f"10.20.0.{number}", 1646) as nas:
        for _ in range(times):
            nas.sendto(packet, (HERE, 1813))
            if meanwhile:
                time.sleep(0.5)
                meanwhile()
                meanwhile = None
            if select.select([nas], [], [], every)[0]:
                answer, sender = nas.recvfrom(4096)
                hope("the answer", talking.is_answer(answer, packet, secret), True)
                return sender[1]
    return None


def one_nas_is_moved_and_comes_back(room):
    """The rule and the mapping decide which proxy has a NAS, and the other NAS stays."""
    home, proxy = HomeServer(), room.beside()
    hope("the old proxy answers", (asks(11, "a"), asks(12, "b"), proxy.accepted()), (1813, 1813, 0))
    at_proxy(CHAIN + "\n" + ONE_RULE)
    forget("-s", "10.20.0.11")
    hope("the new one answers one", (asks(11, "c"), asks(12, "d"), proxy.accepted()), (1813, 1813, 1))
    hope("its counter", proxy.counter('rad_proxy_client_responses_total{client="10.20.0.11"}'), 1)
    at_proxy("nft delete table ip moving")
    forget("-s", "10.20.0.11")
    hope("the old one answers again", (asks(11, "e"), proxy.accepted()), (1813, 1))
    hope("each record came once", [home.senders(session) for session in "abcde"], [1] * 5)


def a_mapping_that_is_not_deleted_stays(room):
    """Where connections are tracked, a rule alone changes nothing for a NAS that has sent within the last seconds."""
    HomeServer()
    proxy = room.beside()
    at_proxy(CHAIN + "\nnft add rule ip moving in ct state new counter")
    hope("before", asks(11, "a"), 1813)
    at_proxy(ONE_RULE)
    hope("with a rule alone", (asks(11, "b"), proxy.accepted()), (1813, 0))
    forget("-s", "10.20.0.11")
    hope("with the mapping deleted", (asks(11, "c"), proxy.accepted()), (1813, 1))


def an_unanswered_request_that_is_moved_comes_twice(room):
    """Both proxies send a request that its NAS repeats after the move."""
    home, proxy = HomeServer(), room.beside()
    home.delay = 3
    at_proxy(CHAIN)

    def move():
        at_proxy(ALL_RULE)
        forget("-s", "10.20.0.11")

    asks(11, "a", times=2, every=1.5, meanwhile=move)
    time.sleep(2)
    hope("it came from both", (home.senders("a"), proxy.accepted()), (2, 1))


def all_are_moved_and_the_new_proxy_takes_the_port(room):
    """A rule for all; then the old proxy ends, and the new one is drained and started at its port."""
    HomeServer()
    with contextlib.ExitStack() as both:
        proxy = replace(room, stack=both).beside()
        at_proxy(CHAIN + "\n" + ALL_RULE)
        forget("--dport", "1813")
        hope("both are moved", (asks(11, "a"), asks(12, "b"), proxy.accepted()), (1813, 1813, 2))
        hope("drained", (proxy.ask("drain"), " done " in proxy.ask("state")), ("drain: 0 2", True))
        proxy.ran.stdin.close()
        hope("the end", (proxy.ran.wait(10), proxy.ran.stdout.read()), (0, "end: queued 0 outstanding 0 untaken 0\n"))
        text = (room.folder / "it.toml").read_text()
    proxy = Asked(text.replace(":11813", ":1813"), room)
    at_proxy("nft delete table ip moving")
    forget("--dport", "1813")
    hope("at its port", (asks(11, "c"), asks(12, "d"), proxy.accepted()), (1813, 1813, 2))


def a_block_by_source_translation_is_one_client(room):
    """All addresses of a block are one client, and NASes that send from one port get several."""
    HomeServer()
    proxy = Asked(NEW.format(listen="0.0.0.0:1813", client="192.0.2.254"), room)
    hope("without it", (asks(11, "a", ONE_SECRET), proxy.accepted()), (None, 0))
    at_proxy(BLOCK)
    forget()
    hope("with it", [asks(number, f"b{number}", ONE_SECRET) for number in (11, 12, 13)], [1813] * 3)
    hope("one client", proxy.counter('rad_proxy_client_accepted_total{client="192.0.2.254"}'), 3)


def a_mapping_that_is_too_short_loses_answers(room):
    """An answer after the mapping's end is lost, and the repeat is a new record. A longer mapping keeps both."""
    home = HomeServer()
    proxy = Asked(NEW.format(listen="0.0.0.0:1813", client="192.0.2.254"), room)
    at_proxy(BLOCK + "\nsysctl -w net.netfilter.nf_conntrack_udp_timeout=3")
    hope("two NASes", [asks(number, f"a{number}", ONE_SECRET) for number in (11, 12)], [1813] * 2)
    forget()
    home.delay = 5
    asks(11, "b", ONE_SECRET, every=0.1)
    hope("a short mapping", (asks(12, "c", ONE_SECRET, times=2, every=7), proxy.accepted()), (None, 5))
    forget()
    at_proxy("sysctl -w net.netfilter.nf_conntrack_udp_timeout=60")
    hope("a long one", (asks(12, "d", ONE_SECRET, times=2, every=7), proxy.accepted()), (1813, 6))


def the_source_address_is_chosen_by_a_route_or_a_rule(room):
    """Of two addresses a home server sees that of its route at once, or that of a rule of nft once mappings are deleted."""
    home = HomeServer()
    at_proxy("ip address add 198.51.100.2/24 dev h0\n" + TRACKED)
    Asked(NEW.format(listen="0.0.0.0:1813", client="10.20.0.11"), room)

    def seen(session):
        hope("answered", asks(11, session, ONE_SECRET), 1813)
        return home.addresses[-1]

    hope("the first one", seen("a"), "198.51.100.1")
    at_proxy("ip route add 198.51.100.20/32 dev h0 src 198.51.100.2")
    hope("by a route", seen("b"), "198.51.100.2")
    at_proxy("ip route del 198.51.100.20/32\n" + SOURCE)
    hope("by a rule beside a mapping", seen("c"), "198.51.100.1")
    forget("--dst", BILLING)
    hope("by a rule", seen("d"), "198.51.100.2")


def what_is_not_tracked_has_no_entry(room):
    """With the table of docs/operating/sizing.md neither side of the proxy takes an entry of connection tracking, and without it both do."""
    HomeServer()
    at_proxy(TRACKED)
    Asked(NEW.format(listen="0.0.0.0:1813", client="10.20.0.11"), room)

    def entries(session):
        hope("answered", asks(11, session, ONE_SECRET), 1813)
        listed = subprocess.run(["ip", "netns", "exec", PROXY, "conntrack", "-L", "-p", "udp"], check=True, capture_output=True, text=True)
        return listed.stdout.count("dport=1813 ")

    hope("tracked", entries("a"), 2)
    page = (TOP / "docs" / "operating" / "sizing.md").read_text("utf-8")
    table = re.search(r"    table ip rad_proxy_untracked \{\n.*?\n    \}\n", page, re.DOTALL)[0]
    subprocess.run(["ip", "netns", "exec", PROXY, "nft", "-f", "-"], input=table, check=True, text=True)
    forget()
    hope("not tracked", entries("b"), 0)


CASES = [one_nas_is_moved_and_comes_back, a_mapping_that_is_not_deleted_stays, an_unanswered_request_that_is_moved_comes_twice,
         all_are_moved_and_the_new_proxy_takes_the_port, a_block_by_source_translation_is_one_client,
         a_mapping_that_is_too_short_loses_answers,
         the_source_address_is_chosen_by_a_route_or_a_rule, what_is_not_tracked_has_no_entry]


def test_of(case):
    """A test that tries a case in the network."""

    @functools.wraps(case)
    def test(program, folder):
        want("ip", "nft", "conntrack", root=True)
        with network(), contextlib.ExitStack() as stack:
            case(Room(program, folder, stack))

    return test


TESTS = [test_of(case) for case in CASES]


if __name__ == "__main__":
    try_in_folders(TESTS, __doc__)
