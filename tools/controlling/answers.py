"""What a process of the folder's owner prints: no more than the bounds, and read no longer than they say."""
import os
import select
import time

from .bounds import LONGEST_LINE, MOST_LANES, MOST_LINES, MOST_OCTETS, READ_SECONDS

PART = 65_536
NOT_TEXT = bytes(octet for octet in range(256) if not (octet == 0x0A or 0x20 <= octet <= 0x7E))


class NoProxy(Exception):
    """No proxy answers so much."""


def octets_of(process, seconds=READ_SECONDS, most=MOST_OCTETS):
    """All that a process prints in these seconds."""
    until, octets = time.monotonic() + seconds, bytearray()
    while len(octets) <= most:
        if not select.select([process.output], [], [], max(until - time.monotonic(), 0))[0]:
            return bytes(octets)
        part = os.read(process.output, PART)
        if not part:
            return bytes(octets)
        octets += part
    raise NoProxy


def lines_of(octets):
    """The lines of an answer, of printable ASCII alone."""
    lines = octets.translate(None, NOT_TEXT).decode("ascii").split("\n")
    if lines[-1] == "":
        lines.pop()
    lanes = sum(line.split(None, 1)[:1] == ["lane"] for line in lines if line.lstrip().startswith("lane"))
    if len(lines) > MOST_LINES or lanes > MOST_LANES or any(len(line) > LONGEST_LINE for line in lines):
        raise NoProxy
    return lines
