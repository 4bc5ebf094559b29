"""What a proxy serves, in the terms of rad_proxy, and its configuration."""
import dataclasses
import re

from . import addresses
from .reading import Fault, Place, shown

# The limits of docs/formats.md.
CLIENTS = 256
HOMES = 64
REALMS = 256
SECRET = 128
REALM = 252
NAME = 64
OCTETS = 1_048_576
# The numbers of a home server that is not known, with the reason of each: those of examples/start.toml.
NUMBERS = ["window = 254        # outstanding at once, the most of one port: 63 a second at four seconds an answer",
           "first_wait = 6000   # longer than the slowest answer; 1000, with tries = 2 and probe_every = 1000, if it is rather absent than slow",
           "queue = 65536       # thousands of requests at once, and an outage: 655 s at 100 a second",
           "book = 200000       # room for these, and for 4000 a second within a span; a full one takes 140 MB"]


# What is told of a second home server.
SECOND = "rad_proxy has one home server for a realm, and examples/failover sends a dead one's records to another"


class Unfit(Exception):
    """A value that rad_proxy cannot have, with the reason."""


@dataclasses.dataclass
class Block:
    """A table of the configuration: the comment before it, and its keys with their values."""

    part: str
    comment: list
    values: dict


def secret_of(octets):
    """The text of a secret."""
    if not octets:
        raise Unfit("the secret is empty")
    if len(octets) > SECRET:
        raise Unfit(f"the secret has {len(octets)} octets, and {SECRET} are the most")
    try:
        return octets.decode("utf-8")
    except UnicodeDecodeError:
        raise Unfit("the secret is not UTF-8") from None


def realm_of(octets):
    """The text of a realm's name."""
    if not octets:
        raise Unfit("the realm's name is empty")
    if len(octets) > REALM:
        raise Unfit(f"the realm's name has {len(octets)} octets, and {REALM} are the most")
    if b"@" in octets:
        raise Unfit("the realm's name has an `@`")
    try:
        return octets.decode("utf-8")
    except UnicodeDecodeError:
        raise Unfit("the realm's name is not UTF-8") from None


def port_of(text):
    """The number of a port."""
    if not re.fullmatch("[0-9]{1,5}", text) or not 1 <= int(text) <= 65535:
        raise Unfit("the port is no number from 1 to 65535")
    return int(text)


def quoted(text):
    """A text as a basic string of TOML."""
    return '"' + "".join(_escaped(letter) for letter in text) + '"'


def _escaped(letter):
    if letter in '"\\':
        return "\\" + letter
    if letter.isprintable():
        return letter
    number = ord(letter)
    return f"\\u{number:04x}" if number < 0x10000 else f"\\U{number:08x}"


class Site:
    """The clients, home servers and realms that were carried over, and what was not."""

    def __init__(self, resolve=False):
        self.resolve = resolve
        self.told = []
        self.listen = None
        self.listen_comment = []
        self.default_home = self.other_home = None
        self.default_comment, self.other_comment = [], []
        self.blocks = {"client": [], "home": [], "realm": []}
        self.places = {"client": {}, "home": {}, "realm": {}}

    def tell(self, place, text):
        """Tells of something that was not carried over."""
        self.told.append((place.file, place.line, text))

    def losses(self):
        """What was told, in the order of the files' names and their lines."""
        return [f"{Place(file, line)}: {text}" for file, line, text in sorted(self.told, key=lambda entry: entry[:2])]

    def listens(self, address, port, comment):
        """Sets where requests are received."""
        self.listen = f"{address}:{port}"
        self.listen_comment = comment

    def addresses_of(self, text, **how):
        """The addresses that a text stands for."""
        return addresses.addresses(text, resolve=self.resolve, **how)

    def add_client(self, place, what, address, secret, comment=()):
        """Adds a client of this address, unless another one has it."""
        try:
            text = secret_of(secret)
        except Unfit as why:
            self.tell(place, f"{what}: {why}")
            return
        before = self.places["client"].get(address)
        if before:
            self.tell(place, f"{what}: {address} is the client of {before}, which stands")
        elif self._has_room("client", CLIENTS, place, what):
            self.places["client"][address] = place
            lines = [f"{what}, {place}", *comment]
            self.blocks["client"].append(Block("client", lines, {"address": address, "secret": text}))

    def add_home(self, place, what, name, target, secret, comment=()):
        """Adds a home server at an address and port. The result is its name in the configuration, or None."""
        try:
            text = secret_of(secret)
        except Unfit as why:
            self.tell(place, f"{what}: {why}")
            return None
        if not self._has_room("home", HOMES, place, what):
            return None
        fit = self._fit_name(name)
        self.places["home"][fit] = place
        lines = [f"{what}, {place}", *comment]
        self.blocks["home"].append(Block("home", lines, {"name": fit, "address": target, "secret": text}))
        return fit

    def add_realm(self, place, what, name, home, comment=()):
        """Adds a realm, unless another one has its name, and gives whether there is one of this name."""
        try:
            text = realm_of(name)
        except Unfit as why:
            self.tell(place, f"{what}: {why}")
            return False
        key = name.lower()
        before = self.places["realm"].get(key)
        if before:
            self.tell(place, f"{what}: the realm of {before} has this name, and stands")
        elif self._has_room("realm", REALMS, place, what):
            self.places["realm"][key] = place
            lines = [f"{what}, {place}", *comment]
            self.blocks["realm"].append(Block("realm", lines, {"name": text, "home": home}))
        return key in self.places["realm"]

    def _has_room(self, part, most, place, what):
        if len(self.blocks[part]) < most:
            return True
        self.tell(place, f"{what}: rad_proxy has {most} {part}s at most")
        return False

    def _fit_name(self, name):
        """A name of a home server that rad_proxy can have, and no other one has."""
        fit = re.sub(r"[^A-Za-z0-9._-]", "-", name.decode("ascii", "replace"))[:NAME] or "home"
        tried, number = fit, 1
        while tried in self.places["home"]:
            number += 1
            tried = f"{fit[:NAME - 4]}-{number}"
        return tried

    def text(self, title):
        """The configuration, which needs a client and a home server."""
        for part, missing in (("client", "no client"), ("home", "no home server for accounting")):
            if not self.blocks[part]:
                raise Fault(f"{missing} can be carried over, so there is no configuration")
        lines = [f"# {title}", "# Validate it with `rad_proxy check FILE`. It has secrets: see who may read it.", ""]
        lines += _top("listen", self.listen, self.listen_comment)
        if self.default_home:
            lines += _top("default_home", self.default_home, self.default_comment)
        if self.other_home:
            lines += _top("other_home", self.other_home, self.other_comment)
        for block in (block for blocks in self.blocks.values() for block in blocks):
            lines += ["", *(f"# {line}" for line in block.comment), f"[[{block.part}]]"]
            lines += [f"{key} = {quoted(value)}" for key, value in block.values.items()]
            lines += NUMBERS if block.part == "home" else []
        text = "\n".join(lines) + "\n"
        if len(text.encode()) > OCTETS:
            raise Fault(f"the configuration has more than {OCTETS} octets")
        return text


def _top(key, value, comment):
    return [*(f"# {line}" for line in comment), f"{key} = {quoted(value)}"]


def named(kind, name):
    """A block as it is shown: its kind and its name."""
    return f"{kind} {shown(name)}"
