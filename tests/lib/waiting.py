"""UDP sockets, and waits for what has to come."""
import contextlib
import ctypes
import itertools
import os
import pathlib
import random
import signal
import socket
import time

from tests.lib.always import Ear

HERE = "127.0.0.1"
# How many seconds are waited for what has to come, since a slow machine is no fault of the program, and how many from look to look.
PATIENCE, APART = 40, 0.02
# The least port that a test takes where any will do, and how many are tried for some.
LEAST_PORT, TRIED_PORTS = 10_000, 1000
# Two scripts that run at once take other ones.
LOTS = random.SystemRandom()

# The number of a system call; and what Linux says of the receive buffer and the send buffer of a socket of which a mebibyte was asked.
PIDFD_GETFD = 438
BUFFERS = tuple(2 * min(1 << 20, int(pathlib.Path("/proc/sys/net/core", name).read_text())) for name in ("rmem_max", "wmem_max"))


def bound(address=HERE, port=0, patience=PATIENCE):
    """A UDP socket that waits so many seconds for a datagram, which has to be a packet. It has room for what comes while a busy machine does
    something else."""
    made = Ear(socket.AF_INET, socket.SOCK_DGRAM)
    made.setsockopt(socket.SOL_SOCKET, socket.SO_RCVBUF, 1 << 20)
    made.bind((address, port))
    made.settimeout(patience)
    return made


def free_ports(count):
    """Ports of loopback that nobody has. Linux gives them to no socket that is bound to any port, as long as there are such."""
    given = int(pathlib.Path("/proc/sys/net/ipv4/ip_local_port_range").read_text().split()[0])
    asked = LOTS.sample(range(LEAST_PORT, given), TRIED_PORTS) if given - LEAST_PORT > TRIED_PORTS else []
    with contextlib.ExitStack() as stack:
        held = []
        for port in [*asked, *[0] * count]:
            if len(held) < count:
                with contextlib.suppress(OSError):
                    held.append(stack.enter_context(bound(port=port)))
        return [each.getsockname()[1] for each in held]


def free_port():
    """A port of loopback that nobody has."""
    (port,) = free_ports(1)
    return port


@contextlib.contextmanager
def flooded(*places, source=HERE, count=3, octets=(bytes(20),)):
    """Has so many processes send these octets, or garbage, to these addresses and ports without end."""
    children = [flooding(places, source, octets) for _ in range(count)]
    try:
        yield
    finally:
        for child in children:
            os.kill(child, signal.SIGKILL)
            os.waitpid(child, 0)


def flooding(places, source, octets):
    """A process that does so."""
    child = os.fork()
    if child:
        return child
    with contextlib.suppress(BaseException), bound(source) as stranger:
        while True:
            for each, place in itertools.product(octets, places):
                with contextlib.suppress(OSError):
                    stranger.sendto(each, place)
    os._exit(0)


def awaited(test, patience, apart):
    """What a test answers once it answers something, and its last answer where it never does."""
    last = time.monotonic() + patience
    while not (found := test()) and time.monotonic() < last:
        time.sleep(apart)
    return found


def is_so(test, patience=PATIENCE, apart=APART):
    """Whether something is so before too long."""
    return bool(awaited(test, patience, apart))


def until(text, test, patience=PATIENCE, apart=APART):
    """Waits until a test answers something, and answers that."""
    found = awaited(test, patience, apart)
    if not found:
        raise AssertionError(f"never: {text}")
    return found


def stalled(process):
    """For how many seconds this thread and the threads of a process have waited for a processor so far, of Linux' /proc."""
    found = 0
    for task in (pathlib.Path("/proc/thread-self"), *pathlib.Path(f"/proc/{process}/task").glob("*")):
        # A thread may end meanwhile.
        with contextlib.suppress(OSError):
            found += int((task / "schedstat").read_text().split()[1])
    return found / 1e9


def fair_clock(process):
    """A clock that stands still while this script or a process waits for a processor, since a busy machine is no fault of the program."""
    return time.monotonic() - stalled(process)


def spent_by(process):
    """How many seconds each thread of a process has worked or waited for a processor so far, by its number, of Linux' /proc."""
    found = {}
    for task in pathlib.Path(f"/proc/{process}/task").glob("*"):
        # A thread may end meanwhile.
        with contextlib.suppress(OSError, IndexError):
            worked, waited = map(int, (task / "schedstat").read_text().split()[:2])
            found[task.name] = (worked + waited) / 1e9
    return found


def idle_until_end(process, others=(), patience=3 * PATIENCE):
    """For how many seconds a process, which is about to end, did nothing until then, though it might: those that passed, without those in
    which threads of it, or of others, worked or waited for a processor, of which Linux tells once they had one. So neither a slow program nor
    a busy machine makes it longer."""
    def spent_by_all():
        return {thread: seconds for each in (process.pid, *others) for thread, seconds in spent_by(each).items()}

    began, before, idle = time.monotonic(), spent_by_all(), 0.0
    last = began + patience
    while process.poll() is None and time.monotonic() < last:
        time.sleep(APART)
        now, spent = time.monotonic(), spent_by_all()
        idle = max(idle + now - began - sum(seconds - before.get(thread, 0.0) for thread, seconds in spent.items()), 0.0)
        began, before = now, spent
    if process.poll() is None:
        raise AssertionError(f"it has not ended in {patience} seconds")
    return idle


def buffers_of(process):
    """What Linux says of the receive buffer and the send buffer of each socket of a process."""
    numbers = [int(entry.name) for entry in pathlib.Path(f"/proc/{process}/fd").iterdir() if os.readlink(entry).startswith("socket:")]
    held = os.pidfd_open(process)
    copies = [ctypes.CDLL(None).syscall(PIDFD_GETFD, held, number, 0) for number in numbers]
    os.close(held)
    sockets = [socket.socket(fileno=copy) for copy in copies]
    found = [tuple(made.getsockopt(socket.SOL_SOCKET, name) for name in (socket.SO_RCVBUF, socket.SO_SNDBUF)) for made in sockets]
    for made in sockets:
        made.close()
    return found
