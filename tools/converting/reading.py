"""Files as their octets, the places in them, and how both are shown."""
import contextlib
import dataclasses
import io
import os
import stat

# So many octets are read at most, of all files together.
LIMIT = 4 * 1024 * 1024

# So many files are read within each other at most.
DEPTH = 32

# Of a longer name so many characters are shown.
SHOWN = 200


class Fault(Exception):
    """What ends a conversion, as a text of one line."""


@dataclasses.dataclass(frozen=True)
class Place:
    """A line of a file, counted from 1."""

    file: bytes
    line: int

    def __str__(self):
        return f"{shown(self.file)}:{self.line}"


def shown(octets):
    """Octets as a text of one line. What is not printable UTF-8 is shown as `\\xNN`."""
    text = "".join(_printable(letter) for letter in octets.decode("utf-8", "surrogateescape"))
    return text if len(text) <= SHOWN else text[:SHOWN] + ".."


def _printable(letter):
    if letter.isprintable():
        return letter
    return "".join(f"\\x{octet:02x}" for octet in letter.encode("utf-8", "surrogateescape"))


def reason(fault):
    """What the system says of a fault."""
    return fault.strerror or type(fault).__name__


class Library:
    """The files of a conversion. It counts their octets, and reads no file within itself."""

    def __init__(self):
        self.seen = set()
        self.left = LIMIT
        self.open = []

    @contextlib.contextmanager
    def reading(self, path, asked=None):
        """The lines of a file, each with its line end. `asked` is the place that includes the file."""
        before = f"{asked}: " if asked else ""
        found, octets = self._read(path, before)
        if found in self.open:
            raise Fault(f"{before}{shown(path)} includes itself")
        if len(self.open) >= DEPTH:
            raise Fault(f"{before}{shown(path)} is included more than {DEPTH} files deep")
        self.open.append(found)
        self.seen.add(found)
        try:
            yield self._lines(path, octets)
        finally:
            self.open.remove(found)

    def _read(self, path, before):
        try:
            handle = os.open(path, os.O_RDONLY | os.O_NONBLOCK | os.O_CLOEXEC)
        except (OSError, ValueError) as fault:
            said = reason(fault) if isinstance(fault, OSError) else "no name of a file"
            raise Fault(f"{before}{shown(path)}: {said}") from None
        status = os.fstat(handle)
        if not stat.S_ISREG(status.st_mode):
            os.close(handle)
            raise Fault(f"{before}{shown(path)}: {'a directory' if stat.S_ISDIR(status.st_mode) else 'no regular file'}")
        try:
            with open(handle, "rb") as file:
                octets = file.read(self.left + 1)
        except OSError as fault:
            raise Fault(f"{before}{shown(path)}: {reason(fault)}") from None
        if len(octets) > self.left:
            raise Fault(f"{before}{shown(path)}: the files have more than {LIMIT} octets in all")
        self.left -= len(octets)
        return (status.st_dev, status.st_ino), octets

    @staticmethod
    def _lines(path, octets):
        for number, line in enumerate(io.BytesIO(octets), 1):
            if b"\0" in line:
                raise Fault(f"{Place(path, number)}: a NUL octet")
            yield line
