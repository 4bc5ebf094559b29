"""`spool`: what is open on disk, by the home server that it leads to under the configuration of today; the same for radclient; and giving up
what is named. The folder is its owner's: in the place of root that one reads and writes there."""
import fcntl
import hashlib
import hmac
import itertools
import os
import shlex
import stat
import subprocess
import time

from resending import Left, home_of, texts_of, way_to
from trial import radius
from trial.faults import Fault, printable, shown
from trial.settings import read_settings

from . import bounds
from .metrics import Held
from .output import answer, tell
from .paths import absolute, spool_of
from .processes import found, given_environment
from .segments import LATER, give_up, read_spool
from .words import REASONS

VARIABLE, LOCK = "RAD_PROXY_SPOOL", "lock"
STATUS_TYPE = 40
UNKNOWN_CLIENT, UNREAD, WRONG_CODE, BAD_AUTHENTICATOR = REASONS[:4]
BAD_MESSAGE_AUTHENTICATOR, MESSAGE_AUTHENTICATOR_HERE, NO_REALM = REASONS[4:]
# How many lines are printed at once, and how long systemd is asked.
AT_ONCE, SYSTEMD_SECONDS = 1000, 10


class Dropped(Exception):
    """The program drops the request, for this reason."""


def is_right_status(packet, attributes, secret):
    """Whether a Status-Server has one Message-Authenticator, which is valid (RFC 5997 section 3)."""
    at, found_at = radius.SHORTEST, []
    for kind, value in attributes:
        found_at += [at] if kind == radius.MESSAGE_AUTHENTICATOR else []
        at += 2 + len(value)
    if len(found_at) != 1 or packet[found_at[0] + 1] != 18:
        return False
    start = found_at[0] + 2
    made = hmac.new(secret, packet[:start] + bytes(16) + packet[start + 16:], hashlib.md5).digest()
    return hmac.compare_digest(made, packet[start:start + 16])


def lane_of(attributes, settings):
    """The name of the home server that a request leads to."""
    realm = radius.realm_of(attributes)
    if realm is None:
        name = settings.default_home
    else:
        name = settings.realms.get(realm.lower(), settings.other_home if realm else None)
    if name is None:
        raise Dropped(NO_REALM)
    return name


def checked_in(client, octets, settings):
    """The home server of a request from a client: the program's own checks, in its order."""
    secret = settings.clients.get(client)
    if secret is None:
        raise Dropped(UNKNOWN_CLIENT)
    try:
        attributes, packet = radius.attributes_of(octets), radius.whole(octets)
    except radius.NoPacket:
        raise Dropped(UNREAD) from None
    if packet[0] != radius.REQUEST:
        wrong = packet[0] == radius.STATUS and not is_right_status(packet, attributes, secret)
        raise Dropped(BAD_MESSAGE_AUTHENTICATOR if wrong else WRONG_CODE)
    if not radius.is_signed(packet, secret):
        raise Dropped(BAD_AUTHENTICATOR)
    if any(kind == radius.MESSAGE_AUTHENTICATOR for kind, _ in attributes):
        raise Dropped(MESSAGE_AUTHENTICATOR_HERE)
    return lane_of(attributes, settings)


class Waiting:
    """A request that is open, and the home server that it leads to, or the reason for which the program drops it."""

    def __init__(self, request, settings):
        self.request, self.home, self.reason = request, None, None
        try:
            self.home = checked_in(request.address, request.octets, settings)
        except Dropped as it:
            self.reason = str(it)

    def is_of(self, home, client, reason):
        """Whether it is one of this home server, of this client, and dropped for this reason, as far as these are given."""
        return home in ("", self.home) and client in ("", self.request.client) and reason in ("", self.reason)

    def age(self, now):
        """For how many milliseconds it has waited."""
        return max(int((now - self.request.since) * 1000), 0)

    def line(self, now):
        """What there is to say of it. The keys are those of the log."""
        its, found = self.request, [f"arrival={self.request.arrival}"]
        found += [f"home={self.home}"] if self.home else [f"reason={self.reason}"]
        found += [f"client={its.client}", f"client_port={its.port}", f"identifier={its.identifier}"]
        try:
            attributes = radius.attributes_of(its.octets)
        except radius.NoPacket:
            attributes = []
        session, status = radius.first_of(attributes, radius.SESSION_ID), radius.first_of(attributes, STATUS_TYPE)
        realm = radius.realm_of(attributes)
        found += [f"session={shown(session)}"] if session is not None else []
        found += [f"realm={shown(realm)}"] if realm is not None else []
        found += [f"status={int.from_bytes(status, 'big')}"] if status is not None and len(status) == 4 else []
        return " ".join([*found, f"age={self.age(now)}"])

    def left(self):
        """The request as what prints it for radclient has it."""
        its = self.request
        return Left(self.home, its.arrival, "open", its.client, radius.whole(its.octets), its.since, f"arrival {its.arrival}")


class Count:
    """How many requests are open of one kind, and how long the oldest has waited, in milliseconds."""

    def __init__(self):
        self.count, self.oldest = 0, 0

    def add(self, age):
        self.count, self.oldest = self.count + 1, max(self.oldest, age)

    def __str__(self):
        return f"open {self.count} oldest {self.oldest // 1000}"


def folder_of_unit(unit):
    """The folder that the environment of a unit of systemd names, or nothing."""
    systemctl = found("systemctl", os.environ.get("PATH", ""))
    if not unit or systemctl is None:
        return ""
    words = [systemctl, "show", "--property=Environment", "--value", unit]
    try:
        done = subprocess.run(words, stdin=subprocess.DEVNULL, capture_output=True, env=given_environment(), timeout=SYSTEMD_SECONDS)
        pairs = shlex.split(os.fsdecode(done.stdout))
    except (OSError, ValueError, subprocess.TimeoutExpired):
        return ""
    return next((value for name, _, value in (pair.partition("=") for pair in reversed(pairs)) if name == VARIABLE), "")


def folder_of(call):
    """The folder that a call means: one that it names, that of the environment, that of the service, or the one of the package."""
    given = call.spool or ("" if call.instance else os.environ.get(VARIABLE, "")) or folder_of_unit(call.unit)
    return absolute(given) if given else spool_of(call.instance)


class Folder:
    """The folder of a spool. Who opens it acts as its owner from then on, where that was root: nothing in it leads to what is root's."""

    def __init__(self, path):
        self.path = path
        try:
            place = os.open(path, os.O_PATH | os.O_DIRECTORY | os.O_CLOEXEC)
            it = os.fstat(place)
            if os.geteuid() == 0 and it.st_uid != 0:
                os.setgroups([])
                os.setresgid(it.st_gid, it.st_gid, it.st_gid)
                os.setresuid(it.st_uid, it.st_uid, it.st_uid)
            self.is_own, self.mode = it.st_uid == os.geteuid(), stat.S_IMODE(it.st_mode)
            self.descriptor = os.open(".", os.O_RDONLY | os.O_DIRECTORY | os.O_CLOEXEC, dir_fd=place)
            os.close(place)
        except OSError as error:
            raise Fault(f"no spool in {path}: {error.strerror}") from None

    def read(self):
        """What stands in it."""
        try:
            return read_spool(self.descriptor)
        except OSError as error:
            raise Fault(f"cannot read {self.path}: {error.strerror}") from None

    def take(self):
        """Takes its lock, which the end of this process frees."""
        if not self.is_own:
            raise Refused(f"{self.path} is another user's")
        if self.mode & 0o077:
            raise Refused(f"others than its owner may use {self.path}")
        flags = os.O_WRONLY | os.O_CREAT | os.O_NOFOLLOW | os.O_NONBLOCK | os.O_CLOEXEC
        try:
            lock = os.open(LOCK, flags, 0o600, dir_fd=self.descriptor)
            if not stat.S_ISREG(os.fstat(lock).st_mode):
                raise Refused(f"{self.path}/{LOCK} is no regular file")
            os.fchmod(lock, 0o600)
            fcntl.flock(lock, fcntl.LOCK_EX | fcntl.LOCK_NB)
        except BlockingIOError:
            raise Refused(f"another process holds {self.path}: stop the service first") from None
        except OSError as error:
            raise Refused(f"cannot lock {self.path}: {error.strerror}") from None


class Refused(Fault):
    """Nothing is given up, and nothing was changed."""

    def __init__(self, text):
        super().__init__(text, bounds.REFUSED)


def answer_lines(lines):
    """Prints lines, many at a time."""
    lines = iter(lines)
    while part := list(itertools.islice(lines, AT_ONCE)):
        answer("".join(f"{line}\n" for line in part))


def damage_of(spool):
    """The lines of what is wrong with the segments."""
    return [f"damage segment {number} offset {offset}: {name}" for number, offset, name in spool.damage] + [
        f"damage segment {number}: set aside" for number in spool.aside]


def status_of(spool):
    return bounds.LEFT_OVER if spool.damage or spool.aside else 0


def meant(spool, call, settings):
    """The requests that a call means, in the order in which they came."""
    if call.home and all(home.name != call.home for home in settings.homes):
        raise Fault(f"{call.config} has no home server {call.home}", bounds.MISUSED)
    gone = sorted(call.numbers - spool.arrivals())
    if gone:
        raise Refused(f"not open: arrival {', '.join(map(str, gone))}")
    for request in spool.requests():
        if not call.numbers or request.arrival in call.numbers:
            waiting = Waiting(request, settings)
            if waiting.is_of(call.home, call.client, call.dropped):
                yield waiting


def tell_all(call, settings, folder):
    """How many requests wait for each home server, how many would be dropped, and what is wrong."""
    spool, now = folder.read(), time.time()
    homes, reasons = {home.name: Count() for home in settings.homes}, {reason: Count() for reason in REASONS}
    for waiting in meant(spool, call, settings):
        (homes[waiting.home] if waiting.home else reasons[waiting.reason]).add(waiting.age(now))
    lines = [f"home {name} {count}" for name, count in homes.items()]
    lines += [f"dropped {reason} {count}" for reason, count in reasons.items() if count.count]
    answer_lines([*lines, *damage_of(spool), f"spool {printable(folder.path)} open {len(spool.open)} segments {len(spool.numbers)} octets {spool.octets}"])
    return status_of(spool)


def tell_each(call, settings, folder):
    """A line for each request."""
    spool, now = folder.read(), time.time()
    answer_lines(waiting.line(now) for waiting in meant(spool, call, settings))
    tell_damage(spool)
    return status_of(spool)


def tell_damage(spool):
    for line in damage_of(spool):
        tell(f"rad_proxyctl: {line}")


def export(call, settings, folder):
    """The requests of one home server, as attributes for radclient."""
    spool, now, told = folder.read(), time.time(), []
    chosen = [waiting.left() for waiting in meant(spool, call, settings) if waiting.home]
    home = home_of(call.home or None, chosen, settings, call.config) if chosen else None
    texts = texts_of(chosen, settings, None if call.keeps_delay else now, call.source, told.append)
    count = 0
    for count, text in enumerate(texts, 1):
        answer(f"\n{text}" if count > 1 else text)
    told.append(f"open: {len(chosen)}; printed: {count}")
    if count:
        told.append(way_to(home))
    for line in told:
        tell(f"rad_proxyctl: {printable(line)}")
    tell_damage(spool)
    return bounds.LEFT_OVER if count < len(chosen) else status_of(spool)


def drop(call, settings, folder):
    """Gives up the requests that are meant. They are printed before, so that whoever closes the output early gives up nothing."""
    folder.take()
    spool, now = folder.read(), time.time()
    later = [number for number, _, name in spool.damage if name == LATER]
    if later:
        raise Refused(f"a later program wrote segment {later[0]}: nothing was given up")
    chosen = list(meant(spool, call, settings))
    if not chosen:
        raise Refused("nothing that is open is meant: nothing was given up")
    tell_damage(spool)
    answer_lines(waiting.line(now) for waiting in chosen)
    with Held():
        done, error = give_up(folder.descriptor, spool, [waiting.request for waiting in chosen], int(now * 1000), call.because)
    if error:
        raise Fault(f"given up: {done} of {len(chosen)}: {error.strerror}")
    answer(f"given up {done}\n")
    return 0


DONE = {"": tell_all, "list": tell_each, "export": export, "drop": drop}


def do(call):
    """Reads the configuration with the rights of the caller, and then the folder with those of its owner."""
    settings = read_settings(call.config)
    return DONE[call.what](call, settings, Folder(folder_of(call)))
