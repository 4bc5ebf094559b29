"""The proxies that are measured: how each is told the same configuration, how it is started, and how it is ended."""
import itertools
import pathlib
import shutil
import socket
import subprocess
import time
from dataclasses import dataclass, field

from tests.lib import HERE, Server, configured, status

CLIENT_SECRET, HOME_SECRET = "bench-client-secret", "bench-home-secret"
SECONDS_TO_ANSWER = 15


@dataclass
class Setting:
    """What a proxy is configured with. Home servers are ports of 127.0.0.1, and the realms are dealt out among them."""

    listen: int
    homes: list
    realms: int
    clients: int = 1
    lane: dict = field(default_factory=dict)

    def addresses(self):
        """The clients' addresses, of which the first is the one that asks."""
        return ["127.0.0.1"] + [f"127.0.{1 + number // 250}.{1 + number % 250}" for number in range(self.clients - 1)]

    def led(self):
        """Each realm with the number of its home server."""
        return [(f"r{number:02}.bench" if number < 100 else f"r{number}.bench", number % len(self.homes))
                for number in range(self.realms)]


class Direct:
    """No proxy at all: the generator asks the home server itself, which shows how much of a figure is the measure's."""

    name, is_proxy = "no proxy", False

    def is_there(self):
        return True

    def version(self):
        return "-"


class Compiled:
    """A program of this folder."""

    def __init__(self, program):
        self.program = program

    def is_there(self):
        return True

    def version(self):
        return "-"


class Relay(Compiled):
    """The least that a proxy can do, in one thread of C: `relay.c`, which is the yardstick for the others."""

    name, is_proxy, options = "relay", True, []

    def words(self, _folder, setting):
        realms = [f"{realm}={setting.homes[home]}" for realm, home in setting.led()]
        return [str(self.program), *self.options, str(setting.listen), CLIENT_SECRET, HOME_SECRET, *realms]


class SingleRelay(Relay):
    """The same with a call of the system for each datagram. It is measured where it is named."""

    name, options = "relay one by one", ["--single"]


class WaitsAlone(Compiled):
    """Threads that wait as rad_proxy's idle workers do, and do nothing else: `waits.c`, the yardstick for an idle proxy."""

    name, is_proxy = "waits alone", False

    def words(self, homes):
        """A thread for the clients, and one for each home server."""
        return [str(self.program), str(homes + 1)]


class RadProxy:
    """The program that was built. Its standard input stays open, and is ended to end it."""

    name, is_proxy = "rad_proxy", True
    # Limits so wide that none is met: the book lets go of nothing before a request's span is over.
    LANE = {"window": 254, "queue": 65536, "book": 1_000_000, "ring": 4096}

    def __init__(self, program):
        self.program = pathlib.Path(program).resolve()

    def is_there(self):
        return self.program.is_file()

    def version(self):
        head = subprocess.run(["git", "-C", pathlib.Path(__file__).parent, "describe", "--always", "--dirty", "--tags"],
                              capture_output=True, text=True, check=False)
        return head.stdout.strip() or "no git here"

    def words(self, folder, setting):
        lane = "".join(f"{key} = {value}\n" for key, value in (self.LANE | setting.lane).items())
        servers = [Server(f"h{number}", port, lane, secret=HOME_SECRET) for number, port in enumerate(setting.homes)]
        text = configured(f"{HERE}:{setting.listen}", servers, setting.addresses(), CLIENT_SECRET, linger=None)
        text += "".join(f'[[realm]]\nname = "{realm}"\nhome = "h{home}"\n' for realm, home in setting.led())
        file = folder / "rad_proxy.toml"
        file.write_text(text)
        return [str(self.program), "run", str(file)]


class WithLedger(RadProxy):
    """The same while it writes a ledger. It is measured where it is named."""

    name = "rad_proxy with a ledger"

    def words(self, folder, setting):
        ledger = folder / "ledger"
        ledger.mkdir()
        return ["env", f"RAD_PROXY_LEDGER={ledger}", *super().words(folder, setting)]


class WithSpool(RadProxy):
    """The same while it keeps requests on disk until they are answered. It is measured where it is named."""

    name = "rad_proxy with a spool"

    def words(self, folder, setting):
        return ["env", f"RAD_PROXY_SPOOL={folder / 'spool'}", *super().words(folder, setting)]


class Radsecproxy:
    """radsecproxy, which logs no request, and watches its home servers by Status-Server too."""

    name, is_proxy = "radsecproxy", True

    def is_there(self):
        return shutil.which("radsecproxy") is not None

    def version(self):
        return first_line(["radsecproxy", "-v"])

    def words(self, folder, setting):
        parts = [f"LogLevel 3\nListenUDP 127.0.0.1:{setting.listen}\nSourceUDP 127.0.0.1\n"]
        parts += [f"client {address} {{\n\ttype udp\n\tsecret {CLIENT_SECRET}\n}}\n" for address in setting.addresses()]
        parts += [f"server h{number} {{\n\ttype udp\n\thost 127.0.0.1\n\tport {port}\n\tsecret {HOME_SECRET}\n"
                  "\tStatusServer on\n}\n" for number, port in enumerate(setting.homes)]
        parts += [f"realm {realm} {{\n\taccountingServer h{home}\n}}\n" for realm, home in setting.led()]
        file = folder / "radsecproxy.conf"
        file.write_text("\n".join(parts))
        return ["radsecproxy", "-f", "-d", "3", "-c", str(file)]


FREERADIUS_HEAD = """prefix = /usr
libdir = {modules}
logdir = {folder}
run_dir = {folder}
pidfile = {folder}/pid
hostname_lookups = no
max_request_time = 30
cleanup_delay = 5
max_requests = 65536
log {{
	destination = files
	file = {folder}/log
}}
security {{
	status_server = yes
}}
thread pool {{
	start_servers = 5
	max_servers = 32
	min_spare_servers = 3
	max_spare_servers = 10
	max_requests_per_server = 0
}}
proxy_requests = yes
modules {{
	realm suffix {{
		format = suffix
		delimiter = "@"
	}}
}}
server bench {{
	listen {{
		type = acct
		ipaddr = 127.0.0.1
		port = {listen}
	}}
	preacct {{
		suffix
	}}
	accounting {{
	}}
}}
"""


class FreeRadius:
    """FreeRADIUS as a proxy and nothing else: no module but the one that finds the realm, and nothing is written down."""

    name, is_proxy = "FreeRADIUS", True

    def program(self):
        return shutil.which("freeradius") or shutil.which("radiusd")

    def is_there(self):
        return self.program() is not None and self.modules() is not None

    def version(self):
        return first_line([self.program(), "-v"])

    def modules(self):
        found = [path for place in ("/usr/lib", "/usr/lib64", "/usr/local/lib") for path in
                 pathlib.Path(place).glob("**/rlm_realm.so")]
        return found[0].parent if found else None

    def words(self, folder, setting):
        parts = [FREERADIUS_HEAD.format(folder=folder, modules=self.modules(), listen=setting.listen)]
        parts += [f"client c{number} {{\n\tipaddr = {address}\n\tsecret = {CLIENT_SECRET}\n}}\n"
                  for number, address in enumerate(setting.addresses())]
        parts += [f"home_server h{number} {{\n\ttype = acct\n\tipaddr = 127.0.0.1\n\tport = {port}\n"
                  f"\tsecret = {HOME_SECRET}\n\tstatus_check = status-server\n}}\n"
                  f"home_server_pool p{number} {{\n\ttype = fail-over\n\thome_server = h{number}\n}}\n"
                  for number, port in enumerate(setting.homes)]
        parts += [f"realm {realm} {{\n\tacct_pool = p{home}\n\tnostrip\n}}\n" for realm, home in setting.led()]
        (folder / "radiusd.conf").write_text("\n".join(parts))
        return [self.program(), "-f", "-d", str(folder)]


def first_line(words):
    """What a program says of its version. Some say it on standard error."""
    ran = subprocess.run(words, capture_output=True, text=True, check=False)
    return ((ran.stdout + ran.stderr).strip().splitlines() or ["unknown"])[0].strip()


def status_server(identifier, secret=CLIENT_SECRET.encode()):
    """A Status-Server of a client."""
    return status(identifier, bytes(range(16)), b"", b"", secret)


def wait_until_it_answers(process, port, secret=CLIENT_SECRET.encode()):
    """Asks by Status-Server until a proxy answers."""
    until = time.monotonic() + SECONDS_TO_ANSWER
    with socket.socket(socket.AF_INET, socket.SOCK_DGRAM) as asking:
        asking.connect(("127.0.0.1", port))
        asking.settimeout(0.02)
        for identifier in itertools.cycle(range(256)):
            if process.poll() is not None or time.monotonic() > until:
                raise RuntimeError(f"{process.args[0]} does not answer on port {port}")
            try:
                asking.send(status_server(identifier, secret))
                asking.recv(4096)
                return
            except ConnectionRefusedError:
                time.sleep(0.02)
            except TimeoutError:
                pass
