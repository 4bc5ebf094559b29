"""`restart`: drains the proxy, and restarts its service once all that was accepted is answered; or, with a spool, is on disk."""
import fcntl
import hashlib
import os
import signal
import stat
import time

from trial.faults import Fault, printable

from . import bounds, places
from .check import VARIABLES, checker
from .holding import Holder
from .lanes import lanes_of, whole
from .output import end_by, say, tell
from .owner import Folder, ask, run
from .processes import found, given_environment
from .processes import run as run_command
from .stops import Stopped, Stops


UNKNOWN, NO_COUNTERS = "left: unknown, since the proxy does not answer", "left: unknown, since the proxy writes no counters"
# The metrics of a spool that say whether a restart loses something; and those of lanes whose sum is what they have to answer.
OPEN, UNSYNCED, FAILING, LOST = (f"rad_proxy_spool_{name}" for name in ("open_requests", "unsynced_requests", "failing", "lost_total"))
HELD = "rad_proxy_queued{", "rad_proxy_outstanding{"


class Refused(Fault):
    """Nothing was drained, and nothing is restarted."""

    def __init__(self, lanes, text):
        super().__init__(f"not restarted, and not drained: {text}", bounds.REFUSED)
        self.lanes = lanes


def lock_file(folder, is_root):
    """The lock of those who restart: a file of root's own, which nobody else can open, or one of the caller's beside the fifos."""
    if not is_root:
        return f"{folder}/restart.lock"
    name = hashlib.sha256(os.fsencode(os.path.realpath(folder))).hexdigest()[:16]
    return f"{places.RUN}/rad_proxyctl-{name}.lock"


def take_lock(folder):
    """Takes the lock, which the end of this process frees."""
    path = lock_file(folder, os.geteuid() == 0)
    try:
        descriptor = os.open(path, os.O_RDWR | os.O_CREAT | os.O_NOFOLLOW | os.O_NONBLOCK | os.O_CLOEXEC, 0o600)
        it = os.fstat(descriptor)
        if not stat.S_ISREG(it.st_mode) or it.st_uid != os.geteuid():
            raise Fault(f"{path} is no lock of this user")
        os.fchmod(descriptor, 0o600)
        fcntl.flock(descriptor, fcntl.LOCK_EX | fcntl.LOCK_NB)
    except BlockingIOError:
        raise Fault("another one restarts it") from None
    except OSError as error:
        raise Fault(f"cannot lock {path}: {error.strerror}") from None
    return descriptor


class Kept:
    """What the counters say of the spool: how many requests are open, how many of these are not on disk, and whether the disk fails. What found
    no room in the spool is not open there: it is what the lanes have beyond that."""

    def __init__(self, numbers, held):
        self.open, self.unsynced, self.fails = (numbers.get(name, 0) for name in (OPEN, UNSYNCED, FAILING))
        if numbers.get(LOST, 0):
            self.unsynced = max(self.unsynced, held - self.open)
            self.open = max(self.open, held)


def kept_of(lines):
    """What the lines of the metrics say of the spool, or None: there is none."""
    pairs = [line.rpartition(" ") for line in lines if line.startswith(("rad_proxy_spool_", *HELD))]
    numbers = {name: whole(value) for name, _, value in pairs}
    return Kept(numbers, sum(value for name, value in numbers.items() if name.startswith(HELD))) if UNSYNCED in numbers else None


def accepted_by(lanes):
    return sum(lane.accepted for lane in lanes)


def slow_lanes(before, now, seconds, wait):
    """The lanes that have more queued and outstanding than they answer in the seconds to wait, by what they answered in these seconds."""
    answered = {lane.number: lane.answered for lane in before}
    return [lane for lane in now if lane.is_busy() and
            (lane.queued + lane.outstanding) * seconds > (lane.answered - answered.get(lane.number, 0)) * wait]


class Restart:
    """A restart of the service of a folder."""

    def __init__(self, call):
        self.call, self.folder = call, call.folder
        self.way = os.environ.get("RAD_PROXY_RESTART")
        self.stops, self.has_spool, self.kept = Stops(), False, None

    def find_way(self):
        """Minds that there is a way to restart what serves in the folder, before anything is drained."""
        unit = self.call.unit
        if self.way:
            return
        if not unit:
            raise Fault(f"what serves in {self.folder} is no unit that is known here: set RAD_PROXY_RESTART to the command that restarts "
                        "it")
        if os.getuid() != 0:
            raise Fault(f"root alone restarts {unit}")
        if not is_active(unit):
            raise Fault(f"{unit} is no active unit of systemd: set RAD_PROXY_RESTART to the command that restarts what serves in "
                        f"{self.folder}")

    def check_configuration(self):
        """Has the folder's owner check the configuration, who has to read it at the start."""
        config = self.call.config
        status, lines = run(self.folder, [checker(), "check", config], VARIABLES)
        say("\n".join(lines))
        if status != 0:
            raise Fault(f"not restarted, and not drained: rad_proxy check {config} ends with {status}", bounds.MISCONFIGURED)

    def look(self):
        """The lanes, as `state` tells them."""
        return lanes_of(ask(self.folder, "state")[0])

    def look_or_none(self):
        """The lanes; without an answer None, untold."""
        try:
            return self.look()
        except (Fault, OSError):
            return None

    def look_at_spool(self):
        """What the counters that the proxy writes next say of its spool; None where it has none, or writes no counters."""
        lines, status = ask(self.folder, "metrics")
        return kept_of(lines) if status == 0 else None

    def find_spool(self):
        """Whether the proxy has a spool. A restart that is forced goes on without an answer."""
        try:
            return self.look_at_spool() is not None
        except (Fault, OSError):
            if not self.call.is_forced:
                raise
            return False

    def look_until_kept(self):
        """Looks once a second until all that is open is on disk, or what is not may have come since the look before and the disk does not
        fail. Refuses where that is not so for RATE_SECONDS."""
        until, came = time.monotonic() + bounds.RATE_SECONDS, 0
        kept, lanes = self.look_at_spool(), self.look()
        while kept is not None and kept.unsynced and (kept.fails or kept.unsynced > came):
            if time.monotonic() >= until:
                raise Refused([], f"{kept.unsynced} of {kept.open} open requests are not on disk")
            time.sleep(1)
            before = accepted_by(lanes)
            kept, lanes = self.look_at_spool(), self.look()
            came = accepted_by(lanes) - before
        if kept is None:
            raise Refused([], "the counters say nothing of the spool any more")

    def look_for_down(self):
        """The lanes. Refuses where a home server is down and there is no spool."""
        if self.has_spool:
            self.look_until_kept()
            return []
        lanes = self.look()
        down = [lane for lane in lanes if lane.watch == "down"]
        if down:
            raise Refused(down, "a home server is down")
        return lanes

    def look_again(self):
        """The same, where the file `out` stands: what keeps it from an answer is a refusal too."""
        try:
            self.look_for_down()
        except Fault as fault:
            fault.status = bounds.REFUSED
            raise

    def look_ahead(self):
        """Refuses where a restart would lose something: with a spool what is open and not on disk."""
        if self.has_spool:
            self.look_until_kept()
        else:
            self.look_at_rate()

    def look_at_rate(self):
        """Looks twice, a second apart, and refuses where a restart would leave something. Where anything is queued or outstanding in the
        second look, the rate counts: one second's suffices, and nothing is refused before RATE_SECONDS have been seen."""
        first = last = self.look_for_down()
        begun = then = time.monotonic()
        while True:
            time.sleep(1)
            lanes, now = self.look_for_down(), time.monotonic()
            if not slow_lanes(last, lanes, now - then, self.call.wait):
                return
            slow = slow_lanes(first, lanes, now - begun, self.call.wait)
            if now - begun >= bounds.RATE_SECONDS:
                break
            last, then = lanes, now
        if slow:
            raise Refused(slow, f"more is queued and outstanding than is answered in {self.call.wait} seconds, "
                          f"at the rate of the last {bounds.RATE_SECONDS}")

    def drain(self, out):
        """Drains the proxy, by the holder of the file `out`. Where the proxy does not obey, the holder removes the file, unless it sees the
        lanes drained all the same. It stays too where the proxy has read the command, and nobody can say whether it drains."""
        self.stops.wait()
        self.stops.ignore(signal.SIGHUP, signal.SIGPIPE)
        if self.stops.came is not None:
            raise Stopped(self.stops.came)
        try:
            out.drain()
        except (Fault, OSError) as fault:
            tell(f"rad_proxyctl: {printable(str(fault))}")
            raise Fault("not restarted") from None

    def go_out(self):
        """Makes the file `out`, by which a check of this machine knows that the proxy is about to be drained, and drains the proxy."""
        with Folder(self.folder) as folder:
            self.stops.wait()
            try:
                out = Holder(folder, "out", self.call.out)
            except Fault as fault:
                tell(f"rad_proxyctl: {printable(str(fault))}")
                raise Fault("not restarted, and not drained") from None
            try:
                self.stops.go_on()
                if self.call.out:
                    time.sleep(self.call.out)
                    if not self.call.is_forced:
                        self.look_again()
                self.drain(out)
            finally:
                self.stops.wait()
                out.end()

    def left_of(self, lanes):
        """The lines of what is waited for, and of these the ones of what a restart loses. With a spool that is what is not on disk; and what
        is outstanding at a home server that is up is waited for, since it would be sent again."""
        if not self.has_spool:
            left = [f"left: {lane.home} queued {lane.queued} outstanding {lane.outstanding}" for lane in lanes if lane.mode != "done"]
            return left, left
        self.kept = self.look_at_spool()
        lost = [NO_COUNTERS] if self.kept is None else [f"left: {self.kept.unsynced} not on disk"] if self.kept.unsynced else []
        return lost + [f"left: {lane.home} outstanding {lane.outstanding}" for lane in lanes if lane.outstanding and lane.watch == "up"], lost

    def await_lanes(self):
        """Waits until nothing is left, and says once a second what is: the lines of what is lost, when the time is over. Where no answer
        comes, all is left that was there before."""
        until, left, lost = time.monotonic() + self.call.wait, [UNKNOWN], [UNKNOWN]
        while True:
            try:
                lanes = self.look()
                is_replaced = any(lane.mode == "open" for lane in lanes)
                if not is_replaced:
                    left, lost = self.left_of(lanes)
            except (Fault, OSError) as fault:
                is_replaced = False
                tell(f"rad_proxyctl: {printable(str(fault))}")
            if is_replaced:
                raise Fault("another one has restarted it: nothing more was done")
            if not left or time.monotonic() >= until:
                return lost
            say("\n".join(left))
            time.sleep(1)

    def replace(self):
        """Restarts what serves in the folder. What is started has the signals as this program was given them."""
        words = ["sh", "-c", self.way] if self.way else ["systemctl", "restart", self.call.unit]
        if run_command(words, given_environment(), self.stops.ignored) != 0:
            raise Fault("the command that restarts it failed: look at the service, which is drained or has ended")

    def await_new(self):
        """Waits until a proxy answers whose lanes are not drained."""
        until = time.monotonic() + bounds.START_SECONDS
        while (lanes := self.look_or_none()) is None or any(lane.mode != "open" for lane in lanes):
            if time.monotonic() >= until:
                raise Fault(f"no proxy that accepts requests answers in {bounds.START_SECONDS} seconds after the restart")
            time.sleep(0.2)

    def go_through(self):
        """What comes behind the drain."""
        try:
            self.stops.go_on()
            left = self.await_lanes()
            if self.kept is not None:
                say(f"on disk: {self.kept.open - self.kept.unsynced}")
            self.stops.wait()
            self.replace()
        except Stopped:
            raise Fault("stopped: the proxy is drained and accepts nothing until it is restarted") from None
        try:
            self.stops.go_on()
            self.await_new()
        except Stopped:
            raise Fault("stopped: the service was restarted, and nothing says that the new proxy accepts requests") from None
        if left:
            tell("\n".join(left))
            raise Fault(f"restarted, though this was left after {self.call.wait} seconds", bounds.LEFT_OVER)
        say("restarted")

    def do(self):
        """Restarts the service once what it accepted is answered. From the drain on it goes through with it, also without a terminal."""
        try:
            self.find_way()
            self.check_configuration()
            lock = take_lock(self.folder)
            self.stops.catch()
            self.has_spool = self.find_spool()
            if not self.call.is_forced:
                self.look_ahead()
            self.go_out()
        except Refused as it:
            if it.lanes:
                tell("\n".join(lane.line for lane in it.lanes))
            raise
        except Stopped as it:
            end_by(signal.Signals(it.number).name)
        self.go_through()
        os.close(lock)


def is_active(unit):
    """Whether systemd has a unit as active."""
    systemctl = found("systemctl", os.environ.get("PATH", ""))
    return systemctl is not None and run_command([systemctl, "is-active", "--quiet", unit], given_environment(), has_errors=False) == 0
