"""A conversation of a NAS, the program and a home server over UDP, which is told datagram by datagram."""
import contextlib
import shutil
import subprocess
import time
import tomllib
from dataclasses import dataclass

from tests.lib.model import read
from tests.lib.packets import (ACCOUNTING_REQUEST, ACCOUNTING_RESPONSE, ACCT_SESSION_ID, ACCT_STATUS_TYPE, PROXY_STATE, STATUS_SERVER,
                               answer, attribute, mark, reply, request, user_name)
from tests.lib.proxies import Home, Proxy
from tests.lib.starting import environment
from tests.lib.trying import need
from tests.lib.waiting import bound, is_so

NAMES = {ACCOUNTING_REQUEST: "Accounting-Request", ACCOUNTING_RESPONSE: "Accounting-Response", STATUS_SERVER: "Status-Server"}
NAS, PROXY, HOME = "NAS", "proxy", "home server"
STATUSES = {"Start": 1, "Stop": 2, "Interim": 3}
USER, OCTETS_OF_OWN_STATE = b"bob@example.org", 10


def place_of(text):
    """An address and a port, of `ADDRESS:PORT`."""
    address, _, port = text.rpartition(":")
    return address, int(port)


@dataclass(frozen=True)
class Setting:
    """What the conversation takes of a configuration of one client and one home server."""

    text: str
    listen: tuple
    nas_secret: str
    home: tuple
    home_secret: str
    limits: dict

    @classmethod
    def of(cls, text):
        table = tomllib.loads(text)
        (client,), (home,) = table["client"], table["home"]
        return cls(text, place_of(table["listen"]), client["secret"], place_of(home["address"]), home["secret"], home)

    def home_server(self):
        try:
            return Home(self.home, self.home_secret.encode())
        except OSError as fault:
            raise OSError(f"{':'.join(map(str, self.home))}: {fault.strerror}") from None

    def radclient(self):
        """The line that sends a record by FreeRADIUS' radclient."""
        attributes = f"User-Name={USER.decode()},Acct-Status-Type=Start,Acct-Session-Id=S3"
        return f"echo {attributes} | radclient {':'.join(map(str, self.listen))} acct {self.nas_secret}"


def own_states(packet):
    """The Proxy-States of the proxy's own: the lane's number and the record's."""
    found = [value for value, _ in packet.of_type(PROXY_STATE) if len(value) == OCTETS_OF_OWN_STATE]
    return [f"{int.from_bytes(value[:2], 'big')}/{int.from_bytes(value[2:], 'big')}" for value in found]


def told(packet, before=None):
    """A packet in words, with what changed since the one before it."""
    states, identifier = own_states(packet), f"Identifier {packet.identifier}"
    if before is not None and before.identifier != packet.identifier:
        identifier = f"Identifier {before.identifier} becomes {packet.identifier}"
    earlier = states if before is None else own_states(before)
    words = [f"Proxy-State {state}{'' if state in earlier else ' added'}" for state in states]
    words += [f"Proxy-State {state} taken off" for state in earlier if state not in states]
    return ", ".join([NAMES[packet.code], identifier, *words])


@dataclass
class Record:
    """A record on its way: what the NAS sent, what the home server got, its reply, and what the NAS got."""

    name: str
    asked: object
    forwarded: object = None
    replied: object = None
    response: object = None
    sender: tuple = None


class Talk:
    """The conversation. Each line goes to `show` as it happens; what is not as it should be ends it by an exception.

    In the folder are the log and the ledger. Those of an earlier conversation go once the home server has its port.
    """

    def __init__(self, program, folder, setting, show):
        self.setting, self.limits, self.show, self.lines = setting, setting.limits, show, []
        self.secret, self.ledger, self.asked = setting.nas_secret.encode(), folder / "ledger", 0
        with contextlib.ExitStack() as stack:
            self.home = setting.home_server()
            stack.callback(self.home.ear.close)
            self.nas = bound()
            stack.callback(self.nas.close)
            shutil.rmtree(self.ledger, ignore_errors=True)
            self.ledger.mkdir(parents=True)
            self.proxy = Proxy(program, folder, setting.text, setting.listen)
            stack.callback(self.proxy.kill)
            self.proxy.start(env=environment("info") | {"RAD_PROXY_LEDGER": str(self.ledger)})
            self.stack = stack.pop_all()

    def __enter__(self):
        return self

    def __exit__(self, *_):
        self.stack.close()

    def run(self, auditor=None):
        """The whole conversation."""
        self.tell(self.proxy.listens().decode().rstrip("\n"))
        self.goes_through()
        sent, waiting = self.falls_silent()
        self.comes_back(sent, waiting)
        self.is_asked_again(sent)
        self.ends()
        if auditor is not None:
            self.is_audited(auditor)

    # What is told.

    def tell(self, line=""):
        self.lines.append(line)
        self.show(line)

    def head(self, *lines):
        for line in ("", *lines, ""):
            self.tell(line)

    def note(self, name, text):
        self.tell(f"  {name:9}{text}")

    def leg(self, name, sender, receiver, words):
        """A datagram on one of its legs."""
        self.note(name, f"{f'{sender} -> {receiver}':23}{words}")

    # The legs of a record, and of a probe.

    def asks(self, name, session):
        """The NAS sends a record."""
        self.asked += 1
        status = attribute(ACCT_STATUS_TYPE, STATUSES[name].to_bytes(4, "big"))
        attributes = user_name(USER) + status + attribute(ACCT_SESSION_ID, session)
        record = Record(name, read(request(self.asked, attributes, self.secret)))
        self.nas.sendto(record.asked.octets, self.setting.listen)
        self.leg(name, NAS, PROXY, told(record.asked))
        return record

    def came(self):
        """What comes to the home server next, and from where."""
        octets, sender = self.home.ear.recvfrom(4096)
        return read(octets), sender

    def is_forwarded(self, record, name=""):
        """The home server gets a record: what the NAS sent, with a Proxy-State of the proxy's own behind it."""
        record.forwarded, record.sender = self.came()
        octets, state = record.forwarded.octets, record.forwarded.octets[-len(mark(0, 0)) :]
        wanted = request(octets[1], record.asked.octets[20:] + state, self.home.secret)
        need(octets == wanted, "the home server gets another packet:", octets.hex())
        self.leg(name, PROXY, HOME, told(record.forwarded, record.asked))

    def is_sent_again(self, record, name, words):
        """The home server gets a record again, with the same octets."""
        packet, _ = self.came()
        need(packet.octets == record.forwarded.octets, "the home server gets other octets:", packet.octets.hex())
        self.leg(name, PROXY, HOME, f"the same {len(packet.octets)} octets again{words}")

    def is_replied(self, record, name=""):
        """The home server replies."""
        record.replied = read(reply(record.forwarded, self.home.secret))
        self.home.answer(record.forwarded, record.sender)
        self.leg(name, HOME, PROXY, told(record.replied, record.forwarded))

    def is_returned(self, record):
        """The NAS gets the response."""
        octets, asked = self.nas.recv(4096), record.asked.octets
        need(octets == answer(asked, asked[1], b"", self.secret), "the NAS gets another response:", octets.hex())
        record.response = read(octets)
        self.leg("", PROXY, NAS, told(record.response, record.replied))

    def is_probed(self, words=""):
        """The home server gets a probe."""
        packet, sender = self.came()
        need(packet.code == STATUS_SERVER, "what comes is no probe:", packet.octets.hex())
        self.leg("probe", PROXY, HOME, told(packet) + words)
        return packet, sender

    # The commands.

    def say(self, command):
        """A command to the program, which has one lane, and the line that it prints."""
        self.proxy.ran.stdin.write(command.encode() + b"\n")
        self.proxy.ran.stdin.flush()
        return self.proxy.ran.stdout.readline().decode().rstrip("\n")

    def tell_state(self):
        self.note("state", self.say("state"))

    # The parts.

    def goes_through(self):
        self.head("A session goes through. Each of its three records is four datagrams.",
                  "The proxy gives it an Identifier and a Proxy-State of its own, LANE/NUMBER.")
        for name in ("Start", "Interim", "Stop"):
            record = self.asks(name, b"S1")
            self.is_forwarded(record)
            self.is_replied(record)
            self.is_returned(record)

    def falls_silent(self):
        """One record is sent and not answered, and one waits in the queue."""
        tries, wait = self.limits["tries"], self.limits["first_wait"]
        self.head("The home server falls silent. A record is sent again, and the home server is marked down.",
                  "The next record is accepted, and waits.")
        begun = time.monotonic()

        def passed():
            """Milliseconds. The program counts whole ones, so what it waits for may be less than one shorter."""
            return 1000 * (time.monotonic() - begun)

        sent = self.asks("Start", b"S2")
        self.is_forwarded(sent)
        for number in range(1, tries):
            self.is_sent_again(sent, "", f", after {wait << number - 1} ms without a reply")
            need(passed() > wait * ((1 << number) - 1) - 1, "it is sent again too early")
        need(is_so(lambda: self.proxy.lines("down")), "the home server is not marked down")
        need(passed() > wait * ((1 << tries) - 1) - 1, "the home server is marked down too early")
        self.note("", f"the home server is marked down, {wait << tries - 1} ms later")
        self.is_probed()
        waiting = self.asks("Interim", b"S2")
        need(is_so(lambda: " queued 1 " in self.say("state")), "the record does not wait")
        self.tell_state()
        return sent, waiting

    def comes_back(self, sent, waiting):
        self.head("It comes back, and answers a probe. What waited is sent, in order, and answered.")
        packet, sender = self.is_probed(f", {self.limits['probe_every']} ms after the first")
        octets = reply(packet, self.home.secret)
        self.home.ear.sendto(octets, sender)
        self.leg("", HOME, PROXY, told(read(octets)))
        need(is_so(lambda: self.proxy.lines("up")), "the home server is not marked up")
        self.note("", "the home server is marked up")
        self.is_sent_again(sent, "Start", "")
        self.is_forwarded(waiting, "Interim")
        for record in (sent, waiting):
            self.is_replied(record, record.name)
            self.is_returned(record)

    def is_asked_again(self, record):
        self.head("The NAS sends a record again, as if the response had been lost. It gets the same response.")
        self.nas.sendto(record.asked.octets, self.setting.listen)
        self.leg(record.name, NAS, PROXY, f"the same {len(record.asked.octets)} octets again")
        octets = self.nas.recv(4096)
        need(octets == record.response.octets, "a repeat gets another response:", octets.hex())
        self.leg("", PROXY, NAS, f"the same {len(octets)} octets again")
        self.home.hear()
        need(not self.home.came, "the home server gets the repeat")
        self.note("", "the home server gets nothing")

    def ends(self):
        self.head("What is typed to the proxy, and what it prints. After `drain` it accepts no new record.")
        self.tell_state()
        self.note("drain", self.say("drain"))
        printed, _ = self.proxy.ran.communicate()
        self.note("Ctrl-D", printed.decode().rstrip("\n"))
        need(self.proxy.ran.returncode == 0, "it ends with status", self.proxy.ran.returncode)

    def is_audited(self, auditor):
        """What the auditor says of the ledger."""
        self.head("The ledger has each response, with the request and the reply that it is made of. The auditor says of it:")
        files = sorted(self.ledger.glob("*.jsonl"))
        ran = subprocess.run([auditor, self.proxy.file, *files], capture_output=True, encoding="utf-8")
        for line in ran.stdout.splitlines():
            self.tell(f"  {line}")
        need(ran.returncode == 0, "the auditor ends with status", ran.returncode, ran.stderr)
