"""Serves all addresses of a machine that has several, in a network namespace of its own, and sees from where it is answered.

usage: python3 -m tests.network.several_addresses PROGRAM [NAME ..]

Each test is a function below, and its first line tells what holds. Names choose tests. It wants root, `unshare`, `setpriv` and `ip`,
and tells where it leaves a test out for want of them. The variable STARTS says how many starts of each kind a thief of addresses has;
a hundred take some twenty seconds. The last line is `N passed, M failed`.
"""
import contextlib
import errno
import json
import mmap
import os
import pathlib
import re
import shutil
import signal
import socket
import struct
import subprocess
import tempfile
import time

from tests.lib import (BUFFERS, HOME_SECRET, NAS_SECRET, Proxy, Server, answer, bound, buffers_of, built, configured, environment, flooded,
                       hope, read, reply, request, try_in_namespace, until, user_name)

PORT, HOME_PORT = 1813, 2813
SERVED = ["127.0.0.1", "127.0.0.5", "10.77.0.1", "10.77.0.2"]
NASES = ["10.77.1.3", "10.77.1.1", "10.77.1.4", "10.77.1.2"]
# So many ports of a client that some share a row of eight, of 8,192.
PORTS = 500
BURST = 400
SOCKETS, KNOWN = 256, 512
CLOSE_ON_EXEC = 0o2000000
WITHOUT_PROC = "mount -t tmpfs none /proc && exec \"$@\""
WITHOUT_LIST = "mount --bind /dev/null /proc/$$/net/udp && exec \"$@\""
# The users of the program, where that is not root, and of a thief.
USER, THIEF = 65533, 65534
STARTS = int(os.environ.get("STARTS", "5"))
SHARINGS = [(), (socket.SO_REUSEADDR,), (socket.SO_REUSEPORT,), (socket.SO_REUSEADDR, socket.SO_REUSEPORT)]


def ip(*words):
    subprocess.run(["ip", *words], check=True)


def add(*addresses):
    for address in addresses:
        ip("address", "add", f"{address}/32", "dev", "lo")


class Service(Proxy):
    """The program at all addresses, with one home server, which this script is, and NASes."""

    def __init__(self, program, folder, before=(), variables=()):
        self.home = bound("127.0.0.1", HOME_PORT)
        listen, server = ("0.0.0.0", PORT), Server("h", HOME_PORT, "first_wait = 60000\n")
        super().__init__(program, folder, configured(f"0.0.0.0:{PORT}", [server], NASES, default="h"), listen)
        self.asked, self.seen = 0, set()
        self.start(before, env=os.environ | dict(variables))
        hope("the first line", self.ran.stdout.readline(), f"listening 0.0.0.0:{PORT}\n".encode())

    def __enter__(self):
        return self

    def __exit__(self, *_):
        self.home.close()
        self.kill()

    def send(self, nas, address):
        """A new request of a NAS to this address."""
        self.asked += 1
        octets = request(self.asked % 256, user_name(f"bob{self.asked}".encode()), NAS_SECRET)
        nas.sendto(octets, (address, PORT))
        return octets

    def forwarded(self):
        """What the home server receives next for the first time, and from where."""
        while True:
            octets, sender = self.home.recvfrom(4096)
            if octets not in self.seen:
                self.seen.add(octets)
                return octets, sender

    def reply(self, forwarded):
        octets, sender = forwarded
        self.home.sendto(reply(read(octets), HOME_SECRET), sender)

    def answered_from(self, nas, asked):
        """The address that the response to a request came from."""
        octets, (address, port) = nas.recvfrom(4096)
        hope("the response", octets, answer(asked, asked[1], b"", NAS_SECRET))
        hope("its port", port, PORT)
        return address

    def ask(self, nas, address):
        """The address that a new request to this address is answered from."""
        asked = self.send(nas, address)
        self.reply(self.forwarded())
        return self.answered_from(nas, asked)

    def told(self, event):
        """The log's lines of an event."""
        return [line for line in self.log.read_text("utf-8").splitlines() if f"event={event} " in line]


def test_each_address_answers(program, folder):
    """A request is answered from the address that it came to."""
    with Service(program, folder) as service, bound(NASES[0]) as nas:
        for address in SERVED * 2:
            hope(f"asked {address}", service.ask(nas, address), address)
        hope("told of an address", service.told("address-unbound"), [])


def test_ports_of_a_client(program, folder):
    """Each port of a client is answered from the address that it asked last, also where the answers come later and in another order."""
    with Service(program, folder) as service, contextlib.ExitStack() as stack:
        nases = [stack.enter_context(bound(address)) for address in NASES for _ in SERVED]
        asked = []
        for number, nas in enumerate(nases):
            address = SERVED[(number + number // len(SERVED)) % len(SERVED)]
            asked.append((nas, address, service.send(nas, address), service.forwarded()))
        for nas, address, octets, forwarded in reversed(asked):
            service.reply(forwarded)
            hope(f"asked {address}", service.answered_from(nas, octets), address)


def test_ports_that_share_a_row(program, folder):
    """The same of so many ports of one client that some are kept in one place: all asked before the first is answered."""
    with Service(program, folder) as service, contextlib.ExitStack() as stack:
        nases = [stack.enter_context(bound(NASES[0])) for _ in range(PORTS)]
        asked = []
        for number, nas in enumerate(nases):
            asked.append(service.send(nas, SERVED[number % len(SERVED)]))
            until("it is received", is_all_received, apart=0.001)
        for _ in nases:
            service.reply(service.forwarded())
        found = [service.answered_from(nas, octets) for nas, octets in zip(nases, asked)]
        hope("answered from", found, [SERVED[number % len(SERVED)] for number in range(PORTS)])


def test_last_datagram(program, folder):
    """Of several datagrams from one port it is the last one that counts."""
    with Service(program, folder) as service, bound(NASES[0]) as nas:
        first = service.send(nas, SERVED[1])
        forwarded = service.forwarded()
        second = service.send(nas, SERVED[2])
        later = service.forwarded()
        service.reply(forwarded)
        hope("the first one", service.answered_from(nas, first), SERVED[2])
        service.reply(later)
        hope("the second one", service.answered_from(nas, second), SERVED[2])


def test_beyond_the_bound(program, folder):
    """A port that is not kept any more is answered from the address that its client asked last; one that asked lately is kept."""
    with Service(program, folder) as service, bound(NASES[0]) as early, bound(NASES[0]) as late:
        asked = service.send(early, SERVED[1])
        forwarded = service.forwarded()
        for nas in NASES[:3]:
            send_from_each_port(nas, SERVED[2])
        recent = service.send(late, SERVED[3])
        other = service.forwarded()
        with bound(NASES[0]) as last:
            hope("the last one", service.ask(last, SERVED[2]), SERVED[2])
        service.reply(other)
        hope("one that asked lately", service.answered_from(late, recent), SERVED[3])
        service.reply(forwarded)
        hope("one that is not kept", service.answered_from(early, asked), SERVED[2])


def send_from_each_port(nas, address):
    """An empty datagram of a NAS from each of its ports, no faster than it is received."""
    with socket.socket(socket.AF_INET, socket.SOCK_RAW, socket.IPPROTO_UDP) as raw:
        raw.bind((nas, 0))
        for port in range(1, 65536):
            raw.sendto(struct.pack("!HHHH", port, PORT, 8, 0), (address, 0))
            if port % BURST == 0 or port == 65535:
                until("all is received", is_all_received, apart=0.0005)


def is_all_received():
    """Whether nothing waits at any socket of the service, by Linux's list of them."""
    lines = [line.split() for line in pathlib.Path("/proc/net/udp").read_text().splitlines()[1:]]
    return all(line[4].endswith(":00000000") for line in lines if line[1].endswith(f":{PORT:04X}"))


def test_strangers_change_nothing(program, folder):
    """Datagrams of strangers, however many, take no client's place."""
    with Service(program, folder) as service, bound(NASES[0]) as nas:
        asked = service.send(nas, SERVED[1])
        forwarded = service.forwarded()
        with bound(SERVED[0]) as stranger:
            for _ in range(1000):
                stranger.sendto(b"", (SERVED[2], PORT))
        service.reply(forwarded)
        hope("a client", service.answered_from(nas, asked), SERVED[1])


def test_other_addresses(program, folder):
    """A request to an address that is local by its network alone is answered too."""
    with Service(program, folder) as service, bound(NASES[0]) as nas:
        service.ask(nas, "127.0.0.77")
        hope("asked a single one after it", service.ask(nas, SERVED[1]), SERVED[1])


def test_later_address(program, folder):
    """Addresses that come later are told once each, when a request comes to one of them, and that is answered. One that comes right behind is not
    looked for in the same ten seconds."""
    later, last = ["10.77.0.8", "10.77.0.9", "10.77.0.10"], "10.77.0.11"
    with Service(program, folder) as service, bound(NASES[0]) as nas:
        service.ask(nas, "127.0.0.77")
        add(*later)
        try:
            service.ask(nas, later[0])
            lines = until("the addresses are told", lambda: len(told := service.told("address-unbound")) >= len(later) and told)
            hope("what is told", {line.partition("level=")[2] for line in lines}, {f"warn event=address-unbound address={address}" for address in later})
            add(last)
            service.ask(nas, last)
            time.sleep(1)
            service.ask(nas, later[1])
            hope("how often they are told", len(service.told("address-unbound")), len(later))
        finally:
            for address in (*later, last):
                ip("address", "del", f"{address}/32", "dev", "lo")


def test_kept_at_each_address(program, folder):
    """While nothing can be sent, responses from each address are kept, two for each NAS. Once the network is quick, each arrives."""
    variables = {"LD_PRELOAD": built(folder, "full_send_buffer"), "FROM_PORT": str(PORT), "NARROW_FIRST": "1", "NARROW_LAST": "65535",
                 "NARROW_ROOM": "1", "NARROW_MILLISECONDS": "60000", "WIDE_AFTER": "500"}
    with Service(program, folder, variables=variables) as service, contextlib.ExitStack() as stack:
        nases = [stack.enter_context(bound(address)) for address in NASES]
        asked = [(nas, address, service.send(nas, address)) for _ in range(2) for nas, address in zip(nases, SERVED)]
        for _ in asked:
            service.reply(service.forwarded())
        hope("answered from", [service.answered_from(nas, octets) for nas, _, octets in asked], [address for _, address, _ in asked])


def test_homes_at_this_machine(program, folder):
    """A home server at an address of the machine is told where `listen` is at its port of all of them, and nowhere else."""
    every, one, other = f"0.0.0.0:{PORT}", f"{SERVED[2]}:{PORT}", f"{SERVED[3]}:{PORT}"
    for listen, home, is_told in [(every, one, True), (every, other, True), (every, f"{SERVED[3]}:{PORT + 1}", False),
                                  (every, f"10.77.0.9:{PORT}", False), (one, other, False)]:
        check_homes(program, folder, listen, [home], [0] if is_told else [])


def test_several_homes_at_this_machine(program, folder):
    """Of several home servers each at an address of the machine is told, in their order, and no other."""
    homes = [f"{SERVED[2]}:{PORT}", f"{SERVED[3]}:{PORT}", f"{SERVED[2]}:{PORT - 1}", f"10.77.0.9:{PORT}", f"{SERVED[0]}:{PORT}"]
    check_homes(program, folder, f"0.0.0.0:{PORT}", homes, [0, 1, 4])


def check_homes(program, folder, listen, homes, told):
    """Has the program check a configuration with these home servers, of which it has to tell those at these places."""
    tables = "".join(f'[[home]]\nname = "h{place}"\naddress = "{home}"\nsecret = "s3cr3t-of-home"\n' for place, home in enumerate(homes))
    tables += "".join(f'[[realm]]\nname = "h{place}.example"\nhome = "h{place}"\n' for place in range(len(homes)))
    file = pathlib.Path(folder, "proxy.toml")
    file.write_text(f'listen = "{listen}"\n[[client]]\naddress = "{NASES[0]}"\nsecret = "s3cr3t-of-nas"\n{tables}', "utf-8")
    ran = subprocess.run([program, "check", str(file)], capture_output=True, text=True, env=environment("warn"))
    reasons = (f"home h{place} at {homes[place]}: listen serves it, so requests would come back" for place in told)
    lines = "".join(f'level=warn event=home-address reason="{reason}"\n' for reason in reasons)
    hope(f"{homes} with {listen}", (ran.stdout, ran.stderr), (f"clients 1 homes {len(homes)} realms {len(homes)}\n", lines))


def shared(options, family=socket.AF_INET):
    """A socket that may be bound beside others that have these options. One of IPv6 takes datagrams of IPv4 too."""
    made = socket.socket(family, socket.SOCK_DGRAM)
    for option in options:
        made.setsockopt(socket.SOL_SOCKET, option, 1)
    if family == socket.AF_INET6:
        made.setsockopt(socket.IPPROTO_IPV6, socket.IPV6_V6ONLY, 0)
    return made


def takes(made, address):
    """Whether this socket gets the port at an address."""
    try:
        made.bind((address, PORT))
    except OSError:
        return False
    return True


def tried_from_outside(options):
    """The addresses at which a socket of this user with these options gets the port."""
    mapped = [f"::ffff:{address}" for address in SERVED]
    places = [(socket.AF_INET, place) for place in [*SERVED, *NASES, "0.0.0.0", "127.0.0.77"]]
    if pathlib.Path("/proc/net/udp6").exists():
        places += [(socket.AF_INET6, place) for place in ["::", "::ffff:0.0.0.0", *mapped]]
    found = []
    for family, place in places:
        with shared(options, family) as made:
            if takes(made, place):
                found.append(place)
    return found


def test_port_is_taken(program, folder):
    """A second program finds the port taken, and so does one of the same user that would share an address. The line names `listen`."""
    with Service(program, folder) as service:
        ran = subprocess.run([program, "run", str(service.file)], input=b"", capture_output=True)
        hope("the status", ran.returncode, 4)
        *before, last = ran.stderr.decode().splitlines()
        hope("the last line", last, f"socket: 0.0.0.0:{PORT}")
        if not any(f"event=unbound socket=0.0.0.0:{PORT} reason=" in line for line in before):
            raise AssertionError(before)
        for options in SHARINGS:
            hope(f"what can be shared by {options}", tried_from_outside(options), [])


def test_address_is_taken(program, folder):
    """Where another program has the port at one of the addresses, however it would share that, the program does not start."""
    for options in SHARINGS:
        with shared(options) as other:
            hope("the other program has it", takes(other, SERVED[1]), True)
            hope("it serves", serves(program, folder), False)
        log = pathlib.Path(folder, "proxy.log").read_text("utf-8").splitlines()
        hope("the last line", log[-1], f"socket: 0.0.0.0:{PORT}")


def test_address_is_taken_meanwhile(program, folder):
    """Where one of the addresses is taken while the others are bound, the program does not start, and says which."""
    library = built(folder, "failing_calls")
    for place in range(1, len(SERVED) + len(NASES) + 2):
        given = {"LD_PRELOAD": library, "FAIL_COUNTS": f"{folder}/counts", "FAIL_KIND": "bind", "FAIL_AT": str(place), "FAIL_ERROR": str(errno.EADDRINUSE)}
        hope(f"bind {place}: it serves", serves(program, folder, given), False)


def serves(program, folder, variables=()):
    """Whether the program comes to serve, in an environment with these variables too."""
    try:
        with Service(program, folder, variables=variables):
            return True
    except AssertionError as error:
        if "the first line" not in str(error):
            raise
    return False


class Thief:
    """A process of another user that waits until the port is taken, and from then on tries to bind beside the service."""

    def __init__(self, addresses):
        self.is_over = mmap.mmap(-1, 1)
        self.told, ours = os.pipe()
        self.child = os.fork()
        if not self.child:
            with contextlib.suppress(BaseException):
                os.write(ours, json.dumps(self.steal([*addresses, "0.0.0.0"])).encode())
            os._exit(0)
        os.close(ours)

    def steal(self, addresses):
        """How many times it tried each address, and those that it got."""
        os.setgroups([])
        os.setgid(THIEF)
        os.setuid(THIEF)
        left = {address: shared(SHARINGS[-1]) for address in addresses}
        tries, got = 0, []
        sockets = os.open("/proc/net/udp", os.O_RDONLY)
        while not self.is_over[0] and f":{PORT:04X} ".encode() not in os.pread(sockets, 1 << 16, 0):
            pass
        while not self.is_over[0]:
            tries += 1
            for address in [address for address, made in left.items() if takes(made, address)]:
                got.append((address, left.pop(address)))
        return tries, [address for address, _ in got]

    def stop(self):
        """What `steal` answers."""
        self.is_over[0] = 1
        with os.fdopen(self.told, "rb") as told:
            answer = told.read()
        os.waitpid(self.child, 0)
        return json.loads(answer)


def check_thefts(program, folder, addresses, before, starts):
    """Starts the program so many times beside a thief, who has to get none of these addresses. Answers how many times it tried."""
    tries = 0
    for _ in range(starts):
        thief = Thief(addresses)
        try:
            with Service(program, folder, before):
                time.sleep(0.002)
                tried, got = thief.stop()
        finally:
            thief.is_over[0] = 1
        hope("what the thief got", got, [])
        tries += tried
    hope("the thief tried", tries > 0, True)
    return tries


def as_user(program, folder):
    """Words before the program that run it as a user without rights, and a copy of it that this user may run."""
    copy = shutil.copy(program, folder)
    for path in (folder, copy):
        os.chmod(path, 0o755)
    return ("setpriv", "--reuid", str(USER), "--regid", str(USER), "--clear-groups"), copy


def check_kinds_of_thefts(program, folder, addresses):
    """No theft at these addresses, by root and by another user: in starts as they are, and in two whose calls on sockets take long."""
    user, copy = as_user(program, folder)
    slow = ("env", f"LD_PRELOAD={built(folder, 'delay')}", "DELAY_OF_SOCKETS=2")
    for before in ((), user):
        check_thefts(copy, folder, addresses, before, STARTS)
        check_thefts(copy, folder, addresses, (*before, *slow), 2)


def test_thief_of_eight_addresses(program, folder):
    """No other user gets an address that is served, in no moment of a start, whoever runs the program."""
    check_kinds_of_thefts(program, folder, SERVED + NASES)
    with Service(program, folder) as service, bound(NASES[0]) as nas:
        for address in SERVED:
            hope(f"asked {address}", service.ask(nas, address), address)


def test_thief_of_one_address(program, folder):
    """The same where the machine has one address."""
    others = SERVED[1:] + NASES
    for address in others:
        ip("address", "del", f"{address}/32", "dev", "lo")
    try:
        check_kinds_of_thefts(program, folder, SERVED[:1])
    finally:
        add(*others)


def test_sockets_unlisted(program, folder):
    """Where Linux's list of the sockets can't be read, each address is served all the same."""
    before = ("unshare", "--mount", "sh", "-c", WITHOUT_LIST, "sh")
    with Service(program, folder, before) as service, bound(NASES[0]) as nas:
        for address in SERVED:
            hope(f"asked {address}", service.ask(nas, address), address)


def test_descriptors(program, folder):
    """Every descriptor that the program opened is closed in a program that it would start."""
    with Service(program, folder) as service:
        infos = pathlib.Path(f"/proc/{service.ran.pid}/fdinfo")
        opened = [info for info in infos.iterdir() if int(info.name) > 2]
        hope("how many sockets there are at least", len(opened) > len(SERVED + NASES), True)
        for info in opened:
            (flags,) = re.findall(r"^flags:\s+(\d+)", info.read_text(), re.MULTILINE)
            hope(f"descriptor {info.name}", int(flags, 8) & CLOSE_ON_EXEC, CLOSE_ON_EXEC)


def test_buffers(program, folder):
    """Each socket has the receive buffer and the send buffer that Linux gives for a mebibyte."""
    with Service(program, folder) as service:
        hope("each pair", set(buffers_of(service.ran.pid)), {BUFFERS})


def test_addresses_unread(program, folder):
    """Where the addresses can't be read, one socket serves, and the log says so."""
    before = ("unshare", "--mount", "sh", "-c", WITHOUT_PROC, "sh")
    with Service(program, folder, before) as service, bound(NASES[0]) as nas:
        service.ask(nas, SERVED[1])
        until("it is told", lambda: service.told("addresses-unread"))
        hope("how often it is told", len(service.told("addresses-unread")), 1)
        hope("its level", "level=warn" in service.told("addresses-unread")[0], True)


def test_too_many_routes(program, folder):
    """Where Linux's text of its routes is too long to be read, one socket serves, and the log says so."""
    routes = [f"blackhole 11.{a}.{b}.0/28" for a in range(240) for b in range(250)]
    change = lambda word: subprocess.run(["ip", "-batch", "-"], input="".join(f"route {word} {r}\n" for r in routes), text=True)
    change("add")
    try:
        with Service(program, folder) as service, bound(NASES[0]) as nas:
            service.ask(nas, SERVED[1])
            until("it is told", lambda: service.told("addresses-unread"))
            hope("how often it is told", len(service.told("addresses-unread")), 1)
    finally:
        change("del")


def test_many_addresses(program, folder):
    """So many addresses have a socket of their own, and of the others each is told, as many as are known."""
    more = [f"10.78.{number // 200}.{number % 200}" for number in range(1, 600)]
    change = lambda word: subprocess.run(["ip", "-batch", "-"], text=True, check=True, input="".join(
        f"address {word} {address}/32 dev lo\n" for address in more))
    change("add")
    try:
        with Service(program, folder) as service, bound(NASES[0]) as nas:
            until("so many are told", lambda: len(service.told("address-unbound")) >= KNOWN - SOCKETS)
            told = {line.rpartition("=")[2] for line in service.told("address-unbound")}
            hope("how many are told", len(told), KNOWN - SOCKETS)
            for address in more[:5]:
                hope(f"asked {address}", service.ask(nas, address), address)
    finally:
        change("del")


def test_drops_at_one_address(program, folder):
    """What the system drops at the socket of one address counts as of that socket alone, though others have the same port."""
    with Service(program, folder, variables={"RAD_PROXY_COUNTERS": f"{folder}/counters"}) as service, bound(NASES[0]) as nas:
        service.ran.send_signal(signal.SIGSTOP)
        while not any(dropped()):
            for _ in range(100):
                nas.sendto(bytes(1000), (SERVED[2], PORT))
        service.ran.send_signal(signal.SIGCONT)
        wanted = [(SERVED[2], count) for count in dropped() if count]
        found = until("the drops", lambda: [pair for pair in told_drops(folder) if pair[1]])
        hope("the drops", found, wanted)


def dropped():
    """How many datagrams the system dropped at each socket of the service, by Linux's list of them."""
    lines = [line.split() for line in pathlib.Path("/proc/net/udp").read_text().splitlines()[1:]]
    return [int(line[-1]) for line in lines if line[1].endswith(f":{PORT:04X}")]


def told_drops(folder):
    """What the counters tell as dropped at each socket at the port of the service, with its address."""
    file = pathlib.Path(folder, "counters")
    text = file.read_text("utf-8") if file.exists() else ""
    return [(address, int(count)) for address, count in re.findall(rf'^rad_proxy_socket_drops_total\{{.*"([0-9.]+):{PORT}".*\}} (\d+)$', text, re.M)]


def test_flood_at_one_address(program, folder):
    """Where one address is flooded, those who ask another one are answered."""
    with Service(program, folder) as service, bound(NASES[0]) as nas:
        service.ask(nas, SERVED[1])
        with flooded((SERVED[2], PORT)):
            for _ in range(200):
                hope("a request to another address", service.ask(nas, SERVED[1]), SERVED[1])


TESTS = {name[5:]: made for name, made in list(globals().items()) if name.startswith("test_")}


def try_one(name, program):
    """Tries one test, and answers whether it passed."""
    with tempfile.TemporaryDirectory() as folder:
        try:
            TESTS[name](program, folder)
        except Exception as error:
            log = pathlib.Path(folder, "proxy.log")
            print(f"{name}: {TESTS[name].__doc__} {type(error).__name__}: {error}", flush=True)
            if log.exists():
                print(log.read_text("utf-8", "replace")[-1000:], flush=True)
            return False
    return True


def main():
    try_in_namespace(TESTS, try_one, __doc__, __spec__.name, lambda: add(*SERVED[1:], *NASES))


if __name__ == "__main__":
    main()
