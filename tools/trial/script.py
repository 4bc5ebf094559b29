"""Writes a script for `rad_proxy replay`, which has what came to the proxy and nothing else."""
import os
import stat
import tempfile

from .datagrams import address
from .faults import Fault, shown_path, told_by
from .requests import Requests
from .settings import NUMBERS, read_settings, written

MOST_OCTETS, MOST_OF_LANE = 16_777_216, NUMBERS["queue"][1]
# No request is refused since another waits: nothing is sent on in the script.
ROOM = {key: NUMBERS[key][1] for key in ("queue", "book")}
CANNOT = (
    "A script has no home servers: nothing is sent on or answered, so each repeat is `waiting`.",
    "It can't show refusals for a full queue or book (both have their greatest values here), home servers that are down, or times.",
    "It can't show datagrams that the system loses since a socket's buffer is full.",
)


def line_of(it, first):
    moment = (it.time - first) // 1_000_000
    return f"at {moment}\nnas {address(it.source)} {it.source_port} raw {it.octets.hex()}\n" if it.octets else ""


def script(words):
    """Writes the script. Gives the lines that say what it has."""
    settings = read_settings(words.config)
    requests = Requests(settings, words.captures, words.proxy)
    listen = (requests.target, settings.listen[1]) if settings.listen[0] == bytes(4) else settings.listen
    text = written(settings, listen, ROOM) + "%%\n" + "".join(f"# {line}\n" for line in CANNOT)
    lines, room, empty = [text], MOST_OCTETS - len(text.encode()), 0
    for it in requests.kept:
        line = line_of(it, requests.kept[0].time)
        room -= len(line)
        if room < 0 or len(lines) > MOST_OF_LANE:
            break
        lines.append(line)
        empty += not line
    write(words.script, "".join(lines))
    name = shown_path(words.script)
    yield f"{len(lines) - 1 - empty} of {len(requests.kept)} datagrams are in {name}, with the secrets: rad_proxy replay < {name}"
    if empty:
        yield f"left out: {empty} datagrams without an octet, which a script cannot have"
    yield from requests.notes()
    yield from CANNOT


def write(path, text):
    """Writes a new file that only its owner may read, which takes the place of a regular file."""
    try:
        if os.path.lexists(path) and not stat.S_ISREG(os.lstat(path).st_mode):
            raise Fault(f"{shown_path(path)}: no regular file")
        number, new = tempfile.mkstemp(prefix=f"{os.path.basename(path)}.", dir=os.path.dirname(path) or ".")
        try:
            with open(number, "w", encoding="utf-8") as file:
                file.write(text)
            os.replace(new, path)
        except BaseException:
            os.unlink(new)
            raise
    except OSError as error:
        raise Fault(f"{shown_path(path)}: {told_by(error)}") from None
