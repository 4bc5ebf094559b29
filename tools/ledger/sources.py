"""The files of a ledger: which there are, what is not read, and how their lines get to rad_audit."""
import contextlib
import itertools
import os
import re
import stat
import zlib

from trial.faults import FAILED, Fault, shown_path, told_by

STANDARD_INPUT, GZIP, AT_ONCE = "-", b"\x1f\x8b", 1 << 16
# How a database of SQLite begins, as `import` and `--index` make them: it is no ledger. While one is written, another file stands beside it.
DATABASE, BESIDE = b"SQLite format 3\0", ("-journal", "-wal", "-shm")
# The folder of the heads beside a ledger, the endings of what is there, and how a folder begins in which one is made.
HEADS, OF_HEADS, NEW = "heads", (".tsq", ".tsr"), ".new-"
# The octets of the longest line of a ledger.
MOST_LINE = 65_536
# The status of a tool that did not read each file of a folder.
UNREAD = 12
# The date of its first line, which old files have not, the name of the run, and the number of the file in it.
NAME = re.compile(r"(\d{4,}-\d\d-\d\d-)?(.*?)(\d+)\.jsonl(?:\.gz)?", re.DOTALL)
# A name that is printed as it is. rad_audit gets each file under its own name, if it is such a one.
PLAIN = re.compile(r"[A-Za-z0-9._-]{1,200}", re.ASCII)


def parts_of(name):
    """The run of a file, its number in that, and its date."""
    found = NAME.fullmatch(name)
    return (found[2], int(found[3]), found[1] or "") if found else (name, -1, "")


def in_order(names):
    """By the date of the first file of each run, by the run, and by the number of the file in it: a clock may go back."""
    firsts = {}
    for run, number, date in map(parts_of, names):
        firsts[run] = min(firsts.get(run, (number, date)), (number, date))
    return sorted(names, key=lambda name: (firsts[parts_of(name)[0]][1], *parts_of(name)[:2], name))


def files_of(folder):
    """The files of a ledger in a folder, in order, and a line for each other one, which is not read. Of a file that is there compressed too
    the other one is read."""
    try:
        names = set(os.listdir(folder))
    except OSError as error:
        raise Fault(f"{shown_path(folder)}: {told_by(error)}") from None
    reasons = {it: reason_of(folder, it, names) for it in names}
    unread = [f"not read: {shown_path(os.path.join(folder, it))}: {reasons[it]}" for it in sorted(names) if reasons[it]]
    found = {it for it in names if reasons[it] is None}
    if not found:
        more = f", and {len(unread)} of other names are" if unread else ""
        raise Fault(f"{shown_path(folder)}: no file *.jsonl or *.jsonl.gz is in this folder{more}", UNREAD if unread else FAILED)
    return [os.path.join(folder, it) for it in in_order(found)], unread


def reason_of(folder, name, names):
    """Why what has this name in a folder is not read: None for a file of a ledger, and nothing for what rad_ledger puts there itself."""
    path = os.path.join(folder, name)
    try:
        mode = os.stat(path).st_mode
        if stat.S_ISDIR(mode):
            return "" if name == HEADS and all(it.endswith(OF_HEADS) or it.startswith(NEW) for it in os.listdir(path)) else "a folder"
        if not stat.S_ISREG(mode):
            return "no file of a disk"
        begins = front_of(path)
    except OSError as error:
        return told_by(error)
    if begins == DATABASE or is_beside_database(folder, name):
        return ""
    if name.endswith(".jsonl.gz") and name[:-3] in names:
        return f"{shown_path(name[:-3])} is read"
    return None if name.endswith((".jsonl", ".jsonl.gz")) else "its name does not end with .jsonl or .jsonl.gz"


def front_of(path):
    """The first octets of a file."""
    with open(path, "rb") as file:
        return file.read(len(DATABASE))


def is_beside_database(folder, name):
    """Whether a file is one that SQLite makes while it writes a database."""
    for ending in BESIDE:
        with contextlib.suppress(OSError):
            if name.endswith(ending) and front_of(os.path.join(folder, name.removesuffix(ending))) == DATABASE:
                return True
    return False


class Source:
    """A file of a ledger, or standard input: whether it has to be handed on, since it is compressed or no file of a disk."""

    def __init__(self, path):
        self.path, self.is_input = path, path == STANDARD_INPUT
        self.size, self.is_handed_on = 0, True
        if not self.is_input:
            self.look()

    def look(self):
        try:
            status = os.stat(self.path)
            self.size = status.st_size
            if stat.S_ISREG(status.st_mode):
                with open(self.path, "rb") as file:
                    self.is_handed_on = file.read(2) == GZIP
        except OSError as error:
            raise Fault(f"file: {self}: {told_by(error)}") from None
        except ValueError:
            raise Fault(f"file: {self}: no name of a file") from None

    @property
    def can_be_read_again(self):
        return not self.is_input and os.path.isfile(self.path)

    def __str__(self):
        return "standard input" if self.is_input else shown_path(self.path)

    @property
    def name(self):
        """The name under which rad_audit gets it."""
        name = os.path.basename(self.path).removesuffix(".gz")
        return name if PLAIN.fullmatch(name) and not self.is_input else "ledger.jsonl"

    def open(self):
        return open(0, "rb", closefd=False) if self.is_input else open(self.path, "rb", buffering=0)

    def octets(self, tell):
        """What is in it, uncompressed. Tells how far it has read."""
        try:
            with self.open() as file:
                pieces = read_pieces(file, tell)
                first = next(pieces, b"")
                pieces = itertools.chain([first], pieces)
                yield from self.unpacked(pieces) if first.startswith(GZIP) else pieces
        except OSError as error:
            raise Fault(f"file: {self}: {told_by(error)}") from None

    def unpacked(self, pieces):
        """The octets of the members of a file of gzip (RFC 1952), which zeros may follow."""
        member = None
        try:
            for octets in pieces:
                while octets := octets if member else octets.lstrip(b"\0"):
                    member = member or zlib.decompressobj(31)
                    yield member.decompress(octets)
                    octets, member = (member.unused_data, None) if member.eof else (b"", member)
        except zlib.error:
            raise Fault(f"file: {self}: it is damaged, and was read up to there") from None
        if member:
            raise Fault(f"file: {self}: it was cut short, and was read up to there")


def lines_in(pieces):
    """The lines of a file. What has no line end was cut short. Of one that is too long the front is enough."""
    rest = b""
    for octets in pieces:
        *lines, rest = (rest + octets).split(b"\n")
        rest = rest[: MOST_LINE + 1]
        yield from lines


def read_pieces(file, tell):
    """The octets of a file. Tells how far it has read."""
    count = 0
    while octets := file.read(AT_ONCE):
        count += len(octets)
        tell(count)
        yield octets
