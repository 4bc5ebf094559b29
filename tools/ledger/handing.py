"""Hands out the records of one home server. In the place of each other line of a run is one with its lane, its kind and its sum, so that the
sums can be judged; of the lines that begin a file or end the run the other lanes are left out, unless the giver wants their names and
counts told."""
import errno
import hashlib
import json
import os
import shutil
import tempfile

from trial.faults import Fault, shown_path, told_by

from .auditing import NotRead, Sources
from .sources import MOST_LINE, lines_in

KINDS = ("entry", "left", "unsent", "again", "resumed")


def read(line):
    """The keys of a line, and its type; none of what is no line of a ledger, as one that was cut short."""
    try:
        its = json.loads(line) if len(line) <= MOST_LINE else None
    except (ValueError, RecursionError):
        its = None
    return (its, its.get("type")) if isinstance(its, dict) else (None, None)


def written(its):
    """A line of these keys."""
    return json.dumps(its, separators=(",", ":"), ensure_ascii=False).encode("utf-8", "surrogatepass")


class Handed:
    """What is handed out of a ledger, to one home server."""

    def __init__(self, home, has_others):
        self.home, self.has_others, self.records, self.others, self.lanes, self.sealed = home, has_others, 0, 0, set(), set()

    def of(self, line):
        """What is handed out of a line; nothing of what is no line of a ledger."""
        its, kind = read(line)
        if kind in ("begin", "end"):
            return self.of_run(line, its, kind)
        if kind not in (*KINDS, "hidden"):
            return None
        is_own = kind != "hidden" and its.get("home") == self.home
        self.records, self.others = self.records + (is_own and kind in ("entry", "left")), self.others + (not is_own)
        return line if is_own else self.of_other(line, its, kind)

    def of_run(self, line, its, kind):
        """A line that begins a file or ends a run: with the lanes of the home server alone, how many others there are, and its sum."""
        if kind == "begin" and next(reversed(its)) == "sum":
            self.sealed.add(its.get("run"))
        if self.has_others:
            return line
        lanes = [it for it in its.get("lanes") or () if isinstance(it, dict)]
        if kind == "begin":
            own = [it for it in lanes if it.get("home") == self.home]
            self.lanes |= {(its.get("run"), it.get("lane")) for it in own}
        else:
            own = [it for it in lanes if (its.get("run"), it.get("lane")) in self.lanes]
        if len(own) == len(lanes):
            return line
        if its.get("run") not in self.sealed:
            return written({key: value for key, value in its.items() if key not in ("sum", "before", "lanes")} | {"lanes": own})
        hidden = {"hidden": its.get("hidden", 0) + len(lanes) - len(own)}
        return written({key: value for key, value in its.items() if key not in ("sum", "lanes", "hidden")} | {"lanes": own} | hidden | {"sum": its.get("sum")})

    def of_other(self, line, its, kind):
        """What stands in the place of a line of another home server. Of a run without sums nothing does, or, with the others, its SHA-256."""
        if kind == "hidden":
            return line
        if its.get("run") in self.sealed and next(reversed(its)) == "sum":
            return written({"type": "hidden", "lane": its.get("lane"), "kind": kind, "sum": its["sum"]})
        return b'{"type":"hidden","sum":"%s"}' % hashlib.sha256(line + b"\n").hexdigest().encode() if self.has_others else None


# The beginning of the name of the folder in which files are made: in the one in which they come to be, or beside it, if it is not there.
NEW = ".new-"


def place_of(error, folder):
    """The file that a fault is of, as whoever gave the folder knows it."""
    name = error.filename2 or error.filename or folder
    return folder if os.path.basename(os.fsdecode(name)).startswith(NEW) else name


def put(made, folder):
    """Has a folder take its place, or its files theirs in the one that is there, none over another one; else none of them does."""
    if not os.path.lexists(folder):
        os.rename(made, folder)
        return
    placed, names = [], os.listdir(made)
    for name in names:
        if os.path.lexists(os.path.join(folder, name)):
            raise FileExistsError(errno.EEXIST, os.strerror(errno.EEXIST), os.path.join(folder, name))
    try:
        for name in names:
            os.rename(os.path.join(made, name), os.path.join(folder, name))
            placed.append(name)
    except OSError:
        for name in placed:
            os.unlink(os.path.join(folder, name))
        raise


def make_file(path):
    """Makes a new file, which only its owner may read."""
    number = os.open(path, os.O_WRONLY | os.O_CREAT | os.O_EXCL, 0o600)
    os.fchmod(number, 0o600)
    return open(number, "wb")


def hand_out(home, has_others, folder, paths):
    """Writes the files into a folder, none over another one, and gives the line that tells of them, and which files were not read."""
    sources, handed = Sources(paths), Handed(home, has_others)
    above, made = folder if os.path.isdir(folder) else os.path.dirname(os.path.abspath(folder)), None
    try:
        os.makedirs(above, exist_ok=True)
        made = tempfile.mkdtemp(prefix=NEW, dir=above)
        os.chmod(made, 0o700)
        for source in sources:
            with make_file(os.path.join(made, source.name)) as file:
                for line in lines_in(source.octets(lambda _: None)):
                    octets = handed.of(line)
                    if octets is not None:
                        file.write(octets + b"\n")
        put(made, folder)
    except OSError as error:
        raise Fault(f"{shown_path(place_of(error, folder))}: {told_by(error)}") from None
    finally:
        if made:
            shutil.rmtree(made, ignore_errors=True)
    records, others = handed.records, handed.others
    yield f"{records} record{'s' * (records != 1)}, {others} line{'s' * (others != 1)} left out"
    yield NotRead(sources.unread)
