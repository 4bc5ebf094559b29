"""Asks the proxy in this folder, as its owner: a program of its own, which root starts in its place.

usage: asking.py state | drain | metrics              prints the answer
       asking.py out SECONDS                          makes the file `out`, and removes it unless the proxy drains
       asking.py trace SECONDS LINES                  makes the file `trace`, and removes it

The last two print `made`. They end when their input does, or after so many seconds. Where the input of `out` is `drain`, it drains the
proxy, and prints the answer.
"""
import contextlib
import fcntl
import os
import select
import stat
import sys
import time

sys.path.insert(0, os.path.dirname(os.path.dirname(os.path.realpath(__file__))))

from controlling import bounds  # noqa: E402

# The word that the lines of an answer begin with.
FIRST = {"state": b"lane ", "drain": b"drain: "}
PART = 65_536
# How often it is looked whether the lock is free, and whether what is traced is still there.
APART, LOOK_SECONDS = 0.005, 0.2


class Ends(Exception):
    """Ends this with a status."""

    def __init__(self, status):
        super().__init__(status)
        self.status = status


def removed(name):
    try:
        os.unlink(name)
    except OSError:
        pass


def opened_fifo(name, flags):
    """A fifo, opened without waiting for anybody; None where there is none."""
    try:
        descriptor = os.open(name, flags | os.O_NONBLOCK | os.O_CLOEXEC)
    except OSError:
        return None
    if stat.S_ISFIFO(os.fstat(descriptor).st_mode):
        return descriptor
    os.close(descriptor)
    return None


def commands_are_there():
    """Whether there is a fifo of commands that somebody reads."""
    descriptor = opened_fifo("commands", os.O_WRONLY)
    if descriptor is None:
        return False
    os.close(descriptor)
    return True


def see_service():
    """Minds that there is a fifo of commands."""
    try:
        is_there = stat.S_ISFIFO(os.stat("commands").st_mode)
    except OSError:
        is_there = False
    if not is_there:
        raise Ends(bounds.NO_SERVICE)


def take_lock():
    """Waits for the lock of those who ask, which the end of this process frees."""
    descriptor = os.open("lock", os.O_RDONLY | os.O_CREAT | os.O_CLOEXEC | os.O_NONBLOCK, 0o600)
    until = time.monotonic() + bounds.LOCK_SECONDS
    while True:
        try:
            fcntl.flock(descriptor, fcntl.LOCK_EX | fcntl.LOCK_NB)
            return descriptor
        except BlockingIOError:
            if time.monotonic() >= until:
                raise Ends(bounds.IS_BUSY) from None
            time.sleep(APART)


def made_answer():
    """The fifo of the answer. Where that of one who was killed is left, this one takes its place in one step."""
    removed("answer.new")
    os.mkfifo("answer.new", 0o600)
    try:
        descriptor = os.open("answer.new", os.O_RDWR | os.O_NONBLOCK | os.O_CLOEXEC)
        os.rename("answer.new", "answer")
        return descriptor
    except OSError:
        removed("answer.new")
        raise


def is_written(commands, octets, until):
    """Whether a command was written, as a whole, before its time was over."""
    while True:
        try:
            os.write(commands, octets)
            return True
        except BlockingIOError:
            if not select.select([], [commands], [], min(max(until - time.monotonic(), 0), 0.05))[1] and time.monotonic() >= until:
                return False
            time.sleep(0.001)


def lines_from(answer, until):
    """The lines that come by a fifo, up to a moment and to the bounds."""
    rest, octets = b"", 0
    while octets <= bounds.MOST_OCTETS and select.select([answer], [], [], max(until - time.monotonic(), 0))[0]:
        part = os.read(answer, PART)
        octets += len(part)
        *lines, rest = (rest + part).split(b"\n")
        yield from lines
        rest = rest[:PART]


def is_taken_back(commands):
    """Whether a command that the program has not read is taken back, so that it is never obeyed."""
    try:
        return bool(os.read(commands, PART))
    except OSError:
        return False


def asked(word, answer):
    """Sends a command: the lines of its answer. Behind the command goes a line that is no command: what the program prints for that one,
    `unknown`, is the end of the answer."""
    commands = opened_fifo("commands", os.O_RDWR)
    if commands is None:
        raise Ends(bounds.NO_SERVICE)
    until, found = time.monotonic() + bounds.ANSWER_SECONDS, []
    if not is_written(commands, f"{word}\n.\n".encode(), until):
        raise Ends(bounds.NO_ANSWER)
    for line in lines_from(answer, until):
        if line.startswith(FIRST[word]):
            found.append(line)
        elif line == b"unknown" and found:
            return found
        elif line == b"ended":
            raise Ends(bounds.HAS_ENDED)
    raise Ends(bounds.NO_ANSWER if is_taken_back(commands) else bounds.WAS_READ)


@contextlib.contextmanager
def locked():
    """Holds the lock of those who ask: no longer than ANSWER_SECONDS and what it takes to take a command back."""
    lock = take_lock()
    try:
        yield
    finally:
        os.close(lock)


def ask_alone(word):
    """Asks under the lock. Nobody reads the fifo any more then: what is printed from there on goes to the service's standard output."""
    answer = made_answer()
    try:
        return asked(word, answer)
    finally:
        removed("answer")
        os.close(answer)


def ask(word):
    see_service()
    with locked():
        return ask_alone(word)


def written():
    """The file of the numbers as it is now: another one each time that it is written, once a second."""
    try:
        it = os.stat("counters")
    except OSError:
        return None
    return (it.st_ino, it.st_mtime_ns) if stat.S_ISREG(it.st_mode) else None


def await_others(before):
    """Whether numbers come that are not those before. A proxy that is slow gets some seconds more."""
    until = time.monotonic() + bounds.COUNTER_SECONDS
    while (now := written()) == before or now is None:
        if time.monotonic() >= until:
            return False
        time.sleep(0.02)
    return True


def counters():
    """The text of the numbers, one octet more than the bound at most."""
    descriptor = os.open("counters", os.O_RDONLY | os.O_NONBLOCK | os.O_CLOEXEC)
    with open(descriptor, "rb") as file:
        if not stat.S_ISREG(os.fstat(descriptor).st_mode):
            raise Ends(bounds.NO_COUNTERS)
        return file.read(bounds.MOST_OCTETS + 1)


def put(octets):
    """Prints octets, unless nobody reads them."""
    rest = memoryview(octets)
    while rest:
        rest = rest[os.write(1, rest):]


def put_lines(lines):
    put(b"".join(line + b"\n" for line in lines))


def put_metrics():
    """Prints the numbers that the proxy writes next, where it answers; they have those of `state` too. Where it writes none, those of
    `state` alone."""
    lanes = ask("state")
    before = written()
    if before is None or not await_others(before):
        put_lines(lanes)
        raise Ends(bounds.NO_COUNTERS if before is None else bounds.OLD_COUNTERS)
    put(counters())


class Input:
    """What comes by standard input: its end is the end of whoever started this."""

    def __init__(self):
        self.octets, self.is_over = b"", False

    def wait(self, seconds):
        if select.select([0], [], [], seconds)[0]:
            part = os.read(0, PART)
            self.octets += part
            self.is_over = not part

    def has_come(self, line, seconds):
        """Whether a line comes before the end and in these seconds."""
        until = time.monotonic() + seconds
        while line not in self.octets and not self.is_over and (left := until - time.monotonic()) > 0:
            self.wait(left)
        return line in self.octets


def are_drained(lines):
    """Whether the lanes are drained, of these lines of `state`."""
    return any(line.split()[4:5] != [b"open"] for line in lines)


def make_out():
    os.close(os.open("out", os.O_WRONLY | os.O_CREAT | os.O_TRUNC | os.O_CLOEXEC | os.O_NOFOLLOW, 0o600))


def drain_out():
    """Drains the proxy, with the file there: another one, whose restart was ended, may have removed it."""
    with locked():
        make_out()
        return ask_alone("drain")


def remove_out(may_drain):
    """Removes the file, unless the proxy says that it drains; or says nothing, and may drain. Nobody drains it between look and removal."""
    try:
        with locked():
            try:
                stays = are_drained(ask_alone("state"))
            except (Ends, OSError):
                stays = may_drain
            if not stays:
                removed("out")
    except (Ends, OSError):
        if not may_drain:
            removed("out")


def hold_out(seconds):
    """Makes the file by which a check of this machine knows that the proxy is about to be drained, and drains the proxy at the word. Who
    drains is who removes the file: so whoever of those who started this is killed, no proxy drains without it."""
    see_service()
    make_out()
    may_drain = False
    try:
        put(b"made\n")
        if Input().has_come(b"drain\n", seconds):
            lines = drain_out()
            may_drain = True
            put_lines(lines)
    except Ends as it:
        may_drain = it.status == bounds.WAS_READ
        raise
    finally:
        remove_out(may_drain)


def made_trace(text):
    """The file that names what is traced, unless there is one: it is there under its name as a whole, or not at all."""
    removed("trace.new")
    descriptor = os.open("trace.new", os.O_WRONLY | os.O_CREAT | os.O_EXCL | os.O_CLOEXEC, 0o600)
    try:
        os.write(descriptor, text)
        os.link("trace.new", "trace")
    except FileExistsError:
        raise Ends(bounds.IS_TRACED) from None
    finally:
        removed("trace.new")
    return descriptor


def is_ours(descriptor):
    """Whether the file `trace` is still the one that was made."""
    try:
        return os.path.samestat(os.stat("trace", follow_symlinks=False), os.fstat(descriptor))
    except OSError:
        return False


def hold_trace(seconds, text):
    """Makes the file that names what is traced, and removes it. Ends with a status where the service is gone, or started again."""
    see_service()
    descriptor, given = made_trace(text), Input()
    try:
        put(b"made\n")
        until = time.monotonic() + seconds
        while not given.is_over and (left := until - time.monotonic()) > 0:
            given.wait(min(left, LOOK_SECONDS))
            if not is_ours(descriptor) or not commands_are_there():
                raise Ends(bounds.HAS_ENDED)
    finally:
        if is_ours(descriptor):
            removed("trace")


def obey(word, *rest):
    if word == "metrics":
        put_metrics()
    elif word == "out":
        hold_out(float(rest[0]))
    elif word == "trace":
        hold_trace(float(rest[0]), os.fsencode(rest[1]))
    else:
        put_lines(ask(word))


def main(words):
    os.umask(0o077)
    try:
        obey(*words)
        return 0
    except Ends as it:
        return it.status
    except BrokenPipeError:
        return bounds.NO_PROXY
    except OSError as error:
        print(f"{error.filename or 'asking'}: {error.strerror}", file=sys.stderr)
        return bounds.FAILED


if __name__ == "__main__":
    sys.exit(main(sys.argv[1:]))
