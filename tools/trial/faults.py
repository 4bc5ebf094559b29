"""Errors that end the tool, each one line and a status; and how foreign octets are printed."""
import os

USAGE, CONFIGURATION, FOUND, FAILED = 1, 2, 3, 4


class Fault(Exception):
    """Ends the tool with a line and a status."""

    def __init__(self, text, status=FAILED):
        super().__init__(text)
        self.status = status


def shown(octets):
    """Octets as the program's log prints them: no space, no control character, nothing that is not printable ASCII."""
    return "".join(chr(octet) if 0x20 < octet < 0x7F and octet not in b'%"=' else f"%{octet:02X}" for octet in octets)


def escaped(one):
    """A character as `%` and two digits for each of its octets."""
    return "".join(f"%{octet:02X}" for octet in one.encode("utf-8", "surrogateescape"))


def printable(text):
    """A text of which each control character, and each octet that is not UTF-8, is escaped."""
    return text if text.isprintable() else "".join(one if one.isprintable() else escaped(one) for one in text)


def shown_path(path):
    """A file's name."""
    return printable(os.fsencode(path).decode("utf-8", "surrogateescape"))


def told_by(error):
    """What the system says of an error."""
    return error.strerror or type(error).__name__
