"""Has each system call and each allocation of a run fail once, one run for each, and sees what the run keeps to all the same.

usage: python3 -m tests.faults.failing_calls PROGRAM [--all | bare KIND AT ERROR | spool KIND AT ERROR | killed KIND AT 0]

A run serves two lanes, with a ledger and counters: a NAS asks, and asks again, until each request is answered, and then the input ends.
Others have a spool besides, in which an earlier run left a request of each lane and an answer. First runs count the calls of each kind
(failing_calls.c). Then of each kind the first call fails, and the last, and so many between; with `--all` each does. Where EINTR may be the
error, nothing of a fault may be told. The others with a spool are killed before a call about a file, and started again.

Whatever fails: what is acknowledged the home server had, and replied to, and it stands in the ledger, or the log says that it does not;
no home server has a request in two forms; each datagram is a packet, and no counter falls; no file is left beside the counters; all is
answered, unless the program has ended and said why. What was in the spool the home server had, or it is there still; where the log says
nothing of the spool, what was answered does not come again, and nothing is open. Behind a kill no error is told, and at most a new text of
the counters is left over. The last line is `N passed, M failed`.
"""
import contextlib
import errno
import json
import pathlib
import random
import re
import select
import struct
import subprocess
import sys
import tempfile
import time
from concurrent.futures import ThreadPoolExecutor

from tests.lib import (ACCT_SESSION_ID, HERE, SECRET, START, Fault, Home, Proxy, Server, answer, attribute, bound, built, conclude,
                       configured, environment, free_port, read, request, user_name)
from tests.lib.spool import segments
from tests.tools.spool import came, file_of, key_of, milliseconds

KINDS = ["sendto", "recvfrom", "read", "write", "poll", "epoll_wait", "open", "fdatasync", "rename", "unlink", "getdents64", "statx",
         "clock_gettime", "bind", "malloc", "realloc", "fsync", "lseek", "flock", "fchmod", "mkdir", "socket", "setsockopt", "getsockopt",
         "getsockname", "ioctl", "epoll_create", "epoll_ctl", "eventfd", "getentropy", "pthread_create"]
# The errors that a call of each kind fails with; the first runs take the first one, the next the next one.
ERRORS = {
    "sendto": (errno.ENOBUFS, errno.EPERM), "recvfrom": (errno.ECONNREFUSED, errno.ENOMEM), "read": (errno.EINTR, errno.EIO),
    "write": (errno.EINTR, errno.ENOSPC), "poll": (errno.EINTR, errno.ENOMEM), "epoll_wait": (errno.EINTR,),
    "open": (errno.EMFILE, errno.EACCES),
    "fdatasync": (errno.EIO,), "rename": (errno.EACCES,), "unlink": (errno.EACCES,), "getdents64": (errno.EIO,), "statx": (errno.EIO,),
    "clock_gettime": (errno.EINVAL,), "bind": (errno.EADDRINUSE, errno.EACCES), "malloc": (errno.ENOMEM,), "realloc": (errno.ENOMEM,),
    "fsync": (errno.EIO,), "lseek": (errno.EIO,), "flock": (errno.ENOLCK, errno.EWOULDBLOCK), "fchmod": (errno.EPERM,),
    "mkdir": (errno.ENOSPC,), "socket": (errno.EMFILE,), "setsockopt": (errno.ENOBUFS,), "getsockopt": (errno.ENOBUFS,),
    "getsockname": (errno.ENOBUFS,), "ioctl": (errno.ENOTTY,), "epoll_create": (errno.EMFILE,), "epoll_ctl": (errno.ENOSPC,),
    "eventfd": (errno.EMFILE,), "getentropy": (errno.EIO,), "pthread_create": (errno.EAGAIN,),
}
# How many requests a run has of each lane, how often they are sent again, and how many seconds it may take.
EACH, AGAIN, SECONDS = 6, 0.25, 20.0
# How many calls of a kind fail, where they are more, without a spool and with one, and how many runs are there at once.
MOST, AT_ONCE = {"bare": 150, "spool": 100, "killed": 10}, 4
# The kinds of calls about files, before which a run is killed.
OF_FILES = ["read", "write", "open", "fdatasync", "rename", "unlink", "getdents64", "statx", "fsync", "lseek", "flock", "fchmod", "mkdir"]
# The identifiers of the requests that an earlier run left in the spool, one of each lane, and of the one that it answered. How many seconds
# are waited, once all others are answered, until nothing is open there.
LEFT, ANSWERED, LATER = (20, 21), 22, 3.0
LIMITS = "first_wait = 200\ntries = 6\ndown_wait = 1000\n"
# What the log says where an entry may be missing from the ledger, or that the program ends early.
LOST = ("ledger-dropped", "ledger-lost", "ledger-left", "ledger-missing", "ledger-fault")


def asked(number):
    """The request of a number, whose lane is 0 if that is even and else 1."""
    name = user_name(f"user{number * str(number)}@h{number % 2}.example".encode())
    return request(number, name + START + attribute(ACCT_SESSION_ID, b"S%d" % number), SECRET)


def segment_of(port):
    """The segment of a spool that an earlier run left, whose NAS has this port."""
    response = answer(asked(ANSWERED), ANSWERED, b"", SECRET)
    answered = segments.entry(3, (*key_of(asked(ANSWERED), HERE, port), 1, 0, 0, milliseconds()), response)
    return file_of(1, [came(asked(number), number, HERE, port) for number in (*LEFT, ANSWERED)], [answered])


class Run(Proxy):
    """A run, with a spool or bare, of which one call fails, where a kind is given; or one that is killed there, and the next one."""

    def __init__(self, program, room, library, how, kind="", at=0, error=0):
        self.folder, self.counts, self.spool = room / "ledger", room / "counts", room / "spool"
        self.folder.mkdir()
        self.homes, self.nas, self.name = [Home() for _ in range(2)], bound(), f"{how} {kind} {at} {errno.errorcode.get(error)}"
        self.left, self.is_killed = () if how == "bare" else LEFT, how == "killed"
        port = free_port()
        servers = [Server(f"h{lane}", home.port, LIMITS, f"h{lane}.example", SECRET.decode()) for lane, home in enumerate(self.homes)]
        super().__init__(program, room, configured(f"{HERE}:{port}", servers, secret=SECRET.decode(), linger=5000), (HERE, port))
        self.variables = environment("info") | {
            "RAD_PROXY_LEDGER": str(self.folder), "RAD_PROXY_COUNTERS": str(self.counters), "LD_PRELOAD": library,
            "FAIL_COUNTS": str(self.counts), "FAIL_KIND": kind, "FAIL_AT": str(at), "FAIL_ERROR": str(error)}
        self.error, self.acknowledged, self.forms, self.before = error, set(), {}, {}
        self.waiting = {number: asked(number) for number in [*range(2 * EACH), *([ANSWERED] if self.left else [])]}
        if self.left:
            self.spool.mkdir(mode=0o700)
            (self.spool / f"{1:016x}.spool").write_bytes(segment_of(self.nas.getsockname()[1]))
            self.variables["RAD_PROXY_SPOOL"] = str(self.spool)

    def begin(self):
        """Starts it: whether it comes to listen."""
        self.start(env=self.variables)
        line = self.ran.stdout.readline() if select.select([self.ran.stdout], [], [], SECONDS)[0] else b""
        return line.startswith(b"listening ")

    def ask_all(self):
        """Asks until all is answered and nothing is open in the spool, or the program has ended."""
        began = sent = last = time.monotonic()
        self.send()
        while self.ran.poll() is None and time.monotonic() < began + SECONDS:
            self.pass_on(0.02)
            if self.waiting:
                last = time.monotonic()
            elif not self.open_ones() or time.monotonic() > last + LATER:
                return
            if time.monotonic() > sent + AGAIN:
                sent = time.monotonic()
                self.send()

    def has_come(self, number):
        """Whether its home server had a request."""
        return any((number % 2, b"S%d" % number) in forms for forms in (self.forms, self.before))

    def not_come(self):
        """What an earlier run left and no home server had."""
        return [number for number in self.left if not self.has_come(number)]

    def open_ones(self):
        """The identifiers of the requests that are open in the spool, by what is on disk."""
        while True:
            # A segment may be removed meanwhile.
            with contextlib.suppress(FileNotFoundError):
                return {fields[3] for _, fields, _ in segments.spool_of(segments.in_folder(self.spool), milliseconds(), 10_000).requests}

    def send(self):
        for octets in self.waiting.values():
            self.nas.sendto(octets, self.listen)

    def pass_on(self, seconds):
        """Takes what comes to each side in these seconds."""
        ears = {home.ear: lane for lane, home in enumerate(self.homes)}
        for ear in select.select([*ears, self.nas], [], [], seconds)[0]:
            octets, sender = ear.recvfrom(4096)
            if ear is self.nas:
                self.hear(octets)
            else:
                self.reply(ears[ear], octets, sender)

    def reply(self, lane, octets, sender):
        with contextlib.suppress(Fault):
            packet = read(octets)
            for session, _ in packet.of_type(ACCT_SESSION_ID):
                self.forms.setdefault((lane, session), set()).add(octets)
            self.homes[lane].answer(packet, sender)

    def hear(self, octets):
        if octets == answer(asked(octets[1]), octets[1], b"", SECRET):
            self.waiting.pop(octets[1], None)
            self.acknowledged.add(octets[1])

    def serve(self):
        """Serves to the end: whether it came to listen, its status, and what it told."""
        before = self.log.stat().st_size
        is_listening = self.begin()
        if is_listening:
            self.ask_all()
        status = self.close()
        return is_listening, status, self.log.read_bytes()[before:].decode("utf-8", "replace")

    def serve_again(self):
        """Serves once more, where it was killed. What it sent before comes before."""
        while select.select([home.ear for home in self.homes], [], [], 0)[0]:
            self.pass_on(0)
        self.variables["FAIL_KIND"] = ""
        self.before, self.forms = self.forms, {}
        return self.serve()

    def try_it(self):
        """What is not as it has to be."""
        try:
            served = self.serve()
            if self.is_killed:
                served = self.serve_again()
        finally:
            self.kill()
            self.nas.close()
            for home in self.homes:
                home.ear.close()
        return [f"{self.name}: {fault}" for fault in self.faults(*served)]

    def close(self):
        """Ends its input, and gives its status; none where it does not end."""
        try:
            self.ran.communicate(timeout=SECONDS)
        except subprocess.TimeoutExpired:
            return None
        return self.ran.returncode

    def faults(self, is_listening, status, told):
        if status is None or status < 0:
            yield f"it ended with {status}: {told[-300:]}"
        if status not in (0, None) and not told:
            yield f"it ended with {status}, and said nothing"
        if status == 0 and self.waiting:
            yield f"unanswered: {sorted(self.waiting)}"
        if not is_listening and status == 0:
            yield "it did not listen, and ended well"
        for number in self.acknowledged - {ANSWERED}:
            if not self.has_come(number):
                yield f"request {number} is acknowledged, and its home server had it not"
        if self.left:
            yield from self.faults_of_spool(status == 0 and "event=spool-" not in told)
        if self.is_killed and (status != 0 or "level=error" in told):
            yield f"behind a kill it ended with {status}, and told {told!r}"
        own = {path.name for path in (self.file, self.log, self.counters, self.counts, self.folder, self.spool)}
        left = {path.name for path in self.file.parent.iterdir()} - own
        if len(left) > self.is_killed or not all(re.fullmatch(r"proxy\.prom\.[0-9a-f]{16}\.new", name) for name in left):
            yield f"it leaves {sorted(left)}"
        yield from self.faults_at_homes()
        yield from self.faults_of_ledger(told)
        if self.error == errno.EINTR and (status != 0 or "fault" in told):
            yield f"after EINTR it ended with {status}, and told {told!r}"

    def faults_at_homes(self):
        """What a home server had that is a request in two forms, or of another lane."""
        for (lane, session), forms in self.forms.items():
            if len(forms) > 1:
                yield f"home server {lane} had {session} in {len(forms)} forms"
            if int(session[1:]) % 2 != lane:
                yield f"home server {lane} had {session}"

    def faults_of_spool(self, is_well):
        """What was lost of what an earlier run left; and where the spool was well, what came again or is open."""
        open_ones = self.open_ones()
        if lost := set(self.not_come()) - open_ones:
            yield f"lost from the spool: {sorted(lost)}"
        if is_well and self.has_come(ANSWERED):
            yield "what an earlier run answered came again"
        if is_well and open_ones:
            yield f"open in the spool: {sorted(open_ones)}"
        others = {path.name for path in self.spool.iterdir()} - {f"{number:016x}.spool" for number, _ in segments.in_folder(self.spool)} - {"lock"}
        if others:
            yield f"the spool has {sorted(others)}"

    def faults_of_ledger(self, told):
        """What is acknowledged and stands not in the ledger, where nothing is told, and what stands there twice."""
        lines = [json.loads(line) for file in self.folder.glob("*.jsonl") for line in file.read_bytes().split(b"\n")[:-1]]
        entries = [(line["run"], line["session"]) for line in lines if line["type"] == "entry"]
        missing = {f"S{number}" for number in self.acknowledged if self.has_come(number)} - {session for _, session in entries}
        if missing and not self.is_killed and not any(f"event={word}" in told for word in LOST):
            yield f"acknowledged, and not in the ledger: {sorted(missing)}"
        if len(entries) != len(set(entries)):
            yield "the ledger has an entry twice"


def tried(program, library, how, *failing):
    """What is wrong with a run, with a spool or bare, and how many calls it had of each kind."""
    with tempfile.TemporaryDirectory() as folder:
        run = Run(program, pathlib.Path(folder), library, how, *failing)
        faults = run.try_it()
        counts = struct.unpack(f"={len(KINDS)}q", run.counts.read_bytes())
    return faults, dict(zip(KINDS, counts))


def places(count, most):
    """The numbers of the calls that fail, of so many: at most so many, where there is a bound."""
    if not most or count <= most:
        return range(1, count + 1)
    return sorted({1, count, *random.SystemRandom().sample(range(1, count + 1), most - 2)})


def chosen(how, counts, takes_all):
    """Each run of one sort: a kind, the number of the call and its error, which is 0 for a kill."""
    for kind in OF_FILES if how == "killed" else KINDS:
        known = (0,) if how == "killed" else ERRORS[kind]
        for turn, at in enumerate(places(counts[kind], None if takes_all else MOST[how])):
            for error in known if takes_all else known[turn % len(known):][:1]:
                yield how, kind, at, error


def main():
    words = sys.argv[1:]
    if len(words) not in (1, 2, 5):
        sys.exit(__doc__)
    program = pathlib.Path(words[0]).resolve()
    with tempfile.TemporaryDirectory() as folder:
        library = built(folder, "failing_calls")
        first = {how: tried(program, library, how) for how in ("bare", "spool")}
        runs = [failing for how in MOST for failing in chosen(how, first["bare" if how == "bare" else "spool"][1], "--all" in words)]
        if len(words) == 5:
            runs = [(words[1], words[2], int(words[3]), int(words[4]))]
        with ThreadPoolExecutor(AT_ONCE) as pool:
            found = [faults for faults, _ in first.values()] + list(pool.map(lambda failing: tried(program, library, *failing)[0], runs))
    for fault in [fault for each in found for fault in each]:
        print(fault, flush=True)
    for how, (_, counts) in first.items():
        print(f"{how}: {' '.join(f'{kind} {count}' for kind, count in counts.items())}")
    failed = sum(map(bool, found))
    conclude(len(found) - failed, failed)


if __name__ == "__main__":
    main()
