"""The addresses that the files of other proxies name."""
import ipaddress
import socket

# What an address that is not carried over is.
BLOCK = "a block of addresses"
VERSION_6 = "an IPv6 address"
NAME = "a host name, which is looked up only with --resolve"


class Uncarried(Exception):
    """An address that rad_proxy cannot have, with what it is."""


def is_single(text):
    """Whether a text is an IPv4 address as rad_proxy writes it."""
    try:
        return str(ipaddress.IPv4Address(text)) == text
    except ValueError:
        return False


def _is_version_6(text):
    try:
        ipaddress.IPv6Address(text.strip("[]").split("%")[0])
    except ValueError:
        return False
    return True


def _without_prefix(text, prefix):
    """An address without a prefix that makes it a single one."""
    address, bar, written = text.rpartition("/")
    if not bar:
        address, written = text, None
    length = prefix if prefix is not None else written
    if _is_version_6(address):
        raise Uncarried(VERSION_6)
    if length is not None and length != "32":
        raise Uncarried(BLOCK if length.isdecimal() else "no address")
    return address


def addresses(text, prefix=None, resolve=False, short=False):
    """The IPv4 addresses that an address or a host name stands for.

    `prefix` is the length of a prefix that is written apart. With `short`, numbers stand for what inet_aton(3) says.
    """
    if text in ("*", "0.0.0.0", "::") or text.startswith("[::]"):
        raise Uncarried(BLOCK)
    address = _without_prefix(text, prefix)
    if is_single(address):
        return [address]
    if not address:
        raise Uncarried("no address")
    if all(part[:1].isdecimal() for part in address.split(".")):
        if short:
            try:
                return [socket.inet_ntoa(socket.inet_aton(address))]
            except (OSError, ValueError):
                pass
        raise Uncarried("no address")
    if not resolve:
        raise Uncarried(NAME)
    return _looked_up(address)


def _looked_up(name):
    try:
        found = socket.getaddrinfo(name, None, family=socket.AF_INET, type=socket.SOCK_DGRAM)
    except (OSError, ValueError):
        raise Uncarried("a host name for which no IPv4 address is found") from None
    return list(dict.fromkeys(entry[4][0] for entry in found))


def host_and_port(text):
    """A host and the port behind it, which is None where none is written."""
    if text.startswith("["):
        host, _, port = text[1:].partition("]")
        return host, port[1:] if port.startswith(":") else None
    if text.count(":") == 1:
        host, _, port = text.partition(":")
        return host, port
    return text, None
