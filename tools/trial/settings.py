"""The configuration of rad_proxy: as that program reads it, and written again."""
import re
import socket
from dataclasses import dataclass

import configuration

from .faults import Fault

ADDRESS = re.compile(r"(?:(?:0|[1-9][0-9]?|1[0-9]{2}|2[0-4][0-9]|25[0-5])\.){3}(?:0|[1-9][0-9]?|1[0-9]{2}|2[0-4][0-9]|25[0-5])", re.ASCII)
PORT = re.compile(r"[1-9][0-9]{0,4}", re.ASCII)
# The numbers of a home server: least, most, default.
NUMBERS = {
    "window": (1, 1022, 64), "queue": (1, 65_536, 4096), "book": (1, 1_000_000, 100_000), "tries": (1, 10, 3),
    "first_wait": (100, 60_000, 2000), "probe_every": (1000, 600_000, 10_000), "down_wait": (1000, 3_600_000, 60_000),
    "span": (0, 600_000, 30_000), "ring": (1, 4096, 256), "ports": (1, 4, 1),
}


@dataclass
class Home:
    name: str
    address: bytes
    port: int
    secret: bytes
    numbers: dict


@dataclass
class Settings:
    """A configuration. Realms are in lower case and lead to the names of home servers."""

    listen: tuple
    linger: int
    default_home: str | None
    other_home: str | None
    clients: dict
    homes: list
    realms: dict


def is_endpoint(text):
    address, _, port = text.partition(":")
    return ADDRESS.fullmatch(address) and PORT.fullmatch(port) and int(port) <= 65_535


def endpoint(text):
    """An address and a port."""
    address, _, port = text.partition(":")
    return socket.inet_aton(address), int(port)


def read_home(table):
    numbers = {key: table[key] for key in NUMBERS}
    return Home(table["name"], *endpoint(table["address"]), table["secret"].encode(), numbers)


def read_settings(path):
    """The configuration in a file, as rad_proxy reads it."""
    try:
        top = configuration.read(path, with_secrets=True)
    except configuration.Unread as error:
        raise Fault(str(error), error.status) from None
    clients = {socket.inet_aton(it["address"]): it["secret"].encode() for it in top["client"]}
    realms = {it["name"].encode().lower(): it["home"] for it in top["realm"]}
    homes = [*map(read_home, top["home"])]
    return Settings(endpoint(top["listen"]), top["linger"], top.get("default_home"), top.get("other_home"), clients, homes, realms)


def quoted(octets):
    """A text of TOML."""
    text = octets.decode() if isinstance(octets, bytes) else octets
    return '"' + "".join(f"\\u{ord(it):04x}" if it in '"\\' or ord(it) < 0x20 or ord(it) == 0x7F else it for it in text) + '"'


def written(settings, listen, numbers=()):
    """The text of a configuration that listens here, where each home server has these numbers in place of its own."""
    lines = [f'listen = "{socket.inet_ntoa(listen[0])}:{listen[1]}"', f"linger = {settings.linger}"]
    for key, home in (("default_home", settings.default_home), ("other_home", settings.other_home)):
        if home is not None:
            lines.append(f"{key} = {quoted(home)}")
    for address, secret in settings.clients.items():
        lines += ["[[client]]", f'address = "{socket.inet_ntoa(address)}"', f"secret = {quoted(secret)}"]
    for home in settings.homes:
        lines += ["[[home]]", f"name = {quoted(home.name)}", f'address = "{socket.inet_ntoa(home.address)}:{home.port}"']
        lines += [f"secret = {quoted(home.secret)}", *(f"{key} = {value}" for key, value in (home.numbers | dict(numbers)).items())]
    for name, home in settings.realms.items():
        lines += ["[[realm]]", f"name = {quoted(name)}", f"home = {quoted(home)}"]
    return "\n".join(lines) + "\n"
