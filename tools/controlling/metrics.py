"""The metrics, in the text format of Prometheus, and the file that has them."""
import errno
import os
import stat

from trial.faults import Fault

from . import bounds
from .lanes import lanes_of
from .output import answer, write_all
from .owner import NoService, ask

FAMILIES = (
    ("home_up", "gauge", "Whether the home server is marked up.", lambda lane: int(lane.watch == "up")),
    ("draining", "gauge", "Whether the lane accepts no new requests.", lambda lane: int(lane.mode != "open")),
    ("accepted_total", "counter", "Requests accepted since the start.", lambda lane: lane.accepted),
    ("answered_total", "counter", "Requests answered by the home server since the start.", lambda lane: lane.answered),
    ("queued", "gauge", "Requests that wait to be sent.", lambda lane: lane.queued),
    ("outstanding", "gauge", "Requests sent and not answered.", lambda lane: lane.outstanding),
    ("book", "gauge", "Requests that the book holds.", lambda lane: lane.accepted - lane.opening),
)
# What each text of metrics begins with: a file that begins otherwise is somebody else's.
OWN = b"# HELP rad_proxy_"


def is_of_lane(line):
    """Whether a line is one of `state`."""
    return line.startswith("lane ")


def metrics_of(lanes):
    """Prometheus' lines of the lanes."""
    found = []
    for name, kind, told, value in FAMILIES if lanes else ():
        found += [f"# HELP rad_proxy_{name} {told}", f"# TYPE rad_proxy_{name} {kind}"]
        found += [f'rad_proxy_{name}{{lane="{at}",home="{lane.home}"}} {value(lane)}' for at, lane in enumerate(lanes)]
    return found


def check_numbers(folder, status):
    """Says what keeps an answer from having the numbers that the proxy writes, if anything does."""
    if status == bounds.OLD_COUNTERS:
        raise Fault(f"the counters in {folder} are not written any more")
    if status != 0:
        raise Fault(f"no counters in {folder}: RAD_PROXY_COUNTERS of the service names another file, or it cannot write them")


def see_own(file):
    """Whether there is a file: it is empty, or one that this program wrote. Any other one is a fault, and so is a link."""
    try:
        if not stat.S_ISREG(os.lstat(file).st_mode):
            raise Fault(f"{file} is no regular file")
        descriptor = os.open(file, os.O_RDONLY | os.O_NOFOLLOW | os.O_NONBLOCK | os.O_NOCTTY | os.O_CLOEXEC)
    except FileNotFoundError:
        return False
    except OSError as error:
        if error.errno == errno.ELOOP:
            raise Fault(f"{file} is no regular file") from None
        raise Fault(f"cannot write {file}" if error.errno == errno.ENOTDIR else f"{file} cannot be read: {error.strerror}") from None
    try:
        if not stat.S_ISREG(os.fstat(descriptor).st_mode):
            raise Fault(f"{file} is no regular file")
        begun = os.read(descriptor, len(OWN))
    finally:
        os.close(descriptor)
    if begun not in (b"", OWN):
        raise Fault(f"{file} is no file of metrics: it neither is empty nor begins with {OWN.decode()}")
    return True


class Held:
    """Has the signals that end a program wait until something is done as a whole."""

    def __enter__(self):
        import signal

        self.mask = signal.pthread_sigmask
        self.before = self.mask(signal.SIG_BLOCK, [signal.SIGHUP, signal.SIGINT, signal.SIGTERM, signal.SIGQUIT])
        self.back = signal.SIG_SETMASK

    def __exit__(self, *_):
        self.mask(self.back, self.before)


def made_beside(file):
    """A new file beside this one, that nobody had before: its name and its descriptor."""
    for _ in range(100):
        new = f"{file}.{os.urandom(4).hex()}"
        try:
            return new, os.open(new, os.O_WRONLY | os.O_CREAT | os.O_EXCL | os.O_NOFOLLOW | os.O_CLOEXEC, 0o644)
        except FileExistsError:
            continue
    raise FileExistsError


def write_file(file, octets):
    """Has the metrics take the place of a file, by a new one beside it that everybody may read. The folder may be another user's: so the
    new file is opened once, as one that nobody had before, and nothing else is done by its name."""
    with Held():
        see_own(file)
        try:
            new, descriptor = made_beside(file)
        except OSError:
            raise Fault(f"cannot write {file}") from None
        try:
            try:
                os.fchmod(descriptor, 0o644)
                write_all(descriptor, octets)
            finally:
                os.close(descriptor)
            os.rename(new, file)
        except OSError:
            os.unlink(new)
            raise Fault(f"cannot write {file}") from None


def tell_metrics(folder, file):
    """Prints the metrics, or writes them to a file; where no proxy answers that one is removed, since it is none of a proxy any more."""
    if file:
        see_own(file)
    try:
        lines, status = ask(folder, "metrics")
    except NoService:
        if file and see_own(file):
            os.unlink(file)
        raise
    found = [line for line in lines if not is_of_lane(line)] + metrics_of(lanes_of(filter(is_of_lane, lines)))
    octets = "".join(f"{line}\n" for line in found).encode("ascii")
    if file:
        write_file(file, octets)
    else:
        answer(octets)
    check_numbers(folder, status)
