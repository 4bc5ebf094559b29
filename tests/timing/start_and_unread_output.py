"""How `run` begins and ends: with threads that are refused or start late, with small stacks, and with output that nobody reads.

usage: python3 -m tests.timing.start_and_unread_output PROGRAM [NAME ..]

Each test is a function below, and its first line tells what holds. Names choose tests. The last line is `N passed, M failed`.
"""
import contextlib
import fcntl
import functools
import os
import pathlib
import pty
import signal
import socket
import subprocess
import time
from concurrent.futures import ThreadPoolExecutor

from tests.lib import (HERE, NOTHING_LEFT, Proxy, Server, answered, best, bound, built, configured, free_port, hope, idle_until_end,
                       request_of_nas, try_named, until)

PATIENCE = 60
# How much later than it should the end may come, on a machine that has much else to do.
MARGIN = 15
LINGER, SLOW_LINGER = 2000, 5000
COUNT = 5000
STATE = "lane {} h{} up {} accepted {} queued 0 outstanding {} answered {} opening 0"
# The least stack with which the program serves, in kibibytes.
STACK = 1024


class Ending(Proxy):
    """A program that serves one client and two home servers, the first of which is this test's."""

    def __init__(self, program, room):
        self.room = room
        self.home, self.nas = bound(patience=PATIENCE), bound(patience=PATIENCE)
        listen = HERE, free_port()
        super().__init__(program, room, "", listen)
        self.configure(LINGER)
        self.environment = os.environ | {"RAD_PROXY_COUNTERS": str(room / "counters")}
        self.open = []

    def configure(self, linger):
        servers = [Server("h1", self.home.getsockname()[1], realm="example.org"), Server("h2", 9, realm="other.example")]
        self.file.write_text(configured(f"{HERE}:{self.listen[1]}", servers, linger=linger))

    def limit(self, stack):
        """The words that give a program stacks of at most so many kibibytes."""
        return ["sh", "-c", f"ulimit -s {stack}; exec \"$@\"", "sh"] if stack else []

    def words(self, stack):
        """Those that start the program, with such stacks."""
        return [*self.limit(stack), self.program, "run", self.file]

    def start_over(self, given, taken, stack=None, **more):
        """Starts the program over these ends of its standard input and output, which are closed here then."""
        self.log.unlink(missing_ok=True)
        self.start(self.limit(stack), stdin=given, stdout=taken, env=self.environment | more)
        for descriptor in {given, taken}:
            os.close(descriptor)
        return self.ran

    def kept(self, descriptors):
        """These descriptors, which are closed at the end."""
        self.open += descriptors
        return descriptors

    def take_request(self, identifier=1):
        """Sends a request until it comes to the home server, and answers what came, and from where."""
        def came():
            self.nas.sendto(request_of_nas(identifier), self.listen)
            with contextlib.suppress(TimeoutError):
                return self.home.recvfrom(4096)
        self.home.settimeout(0.5)
        return until("the home server is asked", came, PATIENCE)

    def waits_for_output(self):
        """Waits until the program waits in the system, and no longer works off what it was given."""
        until("it waits", self.waits, PATIENCE)

    def waits(self):
        """Whether the program's first thread sleeps for half a second; or works little in ten turns at a processor, but for what it waited for
        one, of which Linux tells once it has its turn."""
        began, (state, worked, waited, turns) = time.monotonic(), self.first_thread()
        time.sleep(0.5)
        while 0 < self.first_thread()[3] - turns < 10 and time.monotonic() < began + PATIENCE:
            time.sleep(0.1)
        last = self.first_thread()
        if last[3] == turns:
            return state == last[0] == "S"
        return last[1] - worked < 0.2 * (time.monotonic() - began - (last[2] - waited))

    def first_thread(self):
        """The state of the program's first thread, for how many seconds it worked and waited for a processor so far, and its turns at one."""
        folder = pathlib.Path(f"/proc/{self.ran.pid}/task/{self.ran.pid}")
        worked, waited, turns = map(int, (folder / "schedstat").read_text().split())
        return (folder / "stat").read_text().rsplit(")", 1)[1].split()[0], worked / 1e9, waited / 1e9, turns

    def last_error(self):
        lines = [line for line in self.log.read_text().splitlines() if not line.startswith("level=")]
        return lines[-1] if lines else ""

    def stop(self):
        for descriptor in self.open:
            with contextlib.suppress(OSError):
                os.close(descriptor)
        self.kill()


def close(proxy, descriptor):
    os.close(descriptor)
    proxy.open.remove(descriptor)


def read_all(descriptor):
    text = b""
    while part := os.read(descriptor, 65536):
        text += part
    return text.decode()


def give(descriptor, octets):
    while octets:
        octets = octets[os.write(descriptor, octets):]


def fill(descriptor):
    """Fills a pipe by another description of it, since the program shares this one."""
    full = os.open(f"/proc/self/fd/{descriptor}", os.O_WRONLY | os.O_NONBLOCK)
    with contextlib.suppress(BlockingIOError):
        while True:
            os.write(full, bytes(4096))
    with contextlib.suppress(BlockingIOError):
        while True:
            os.write(full, b"\0")
    os.close(full)


def says_nothing_without_a_thread(proxy):
    """Each thread refused in turn: nothing is printed on standard output, and the end is `threads: failed` and status 4."""
    library = built(proxy.room, "refused_memory")
    for thread in (1, 2, 3, 4):
        given, ours = os.pipe()
        reading, taken = os.pipe()
        proxy.kept([ours, reading])
        process = proxy.start_over(given, taken, LD_PRELOAD=library, REFUSE_THREAD=str(thread))
        hope(f"thread {thread}: output", read_all(reading), "")
        hope(f"thread {thread}: status", process.wait(PATIENCE), 4)
        hope(f"thread {thread}: last line", proxy.last_error(), "threads: failed")


def listens_once_all_threads_run(proxy):
    """Where each thread begins late, `listening` comes later still; it is the first line, though commands were there before."""
    library = built(proxy.room, "delay")
    given, ours = os.pipe()
    reading, taken = os.pipe()
    proxy.kept([reading])
    began = time.monotonic()
    process = proxy.start_over(given, taken, LD_PRELOAD=library, DELAY_MILLISECONDS="2000")
    give(ours, b"unknown\n")
    first = os.read(reading, 4096)
    hope("seconds", time.monotonic() - began >= 2, True)
    os.close(ours)
    told = (first.decode() + read_all(reading)).splitlines()
    hope("lines", told, [f"listening 127.0.0.1:{proxy.listen[1]}", "unknown", NOTHING_LEFT])
    hope("status", process.wait(PATIENCE), 0)


def ends_unread(proxy, process, printed, count=COUNT):
    """The input has just ended and nobody reads the output: a request that waits is answered. Ends in time with status 4, and `printed`,
    which reads what was printed then, finds no last line. Gives the Proxy-States of other requests, where the program took such ones."""
    octets, home = proxy.taken
    time.sleep(LINGER / 4000)
    proxy.nas.sendto(request_of_nas(2), proxy.listen)
    proxy.home.sendto(answered(octets), home)
    hope("code", proxy.nas.recv(4096)[0], 5)
    hope("status", process.wait(LINGER / 1000 + MARGIN), 4)
    lingered = time.monotonic() - proxy.ended
    hope(f"it lingered {lingered:.1f} s", lingered > 0.9 * LINGER / 1000, True)
    proxy.home.setblocking(False)
    others = set()
    with contextlib.suppress(BlockingIOError):
        while True:
            others.add(proxy.home.recv(4096)[-12:])
    text = printed()
    hope("last line", "end:" in text, False)
    hope("less than all", text.count("lane 0 ") < count, True)
    return others - {octets[-12:]}


def takes_no_new_one(test):
    """The test, in one of whose tries no new request is taken: on a busy machine the program may see the end late."""
    @functools.wraps(test)
    def tried(proxy):
        best(lambda: test(proxy), lambda others: not others)
    return tried


def tried_unread(proxy, given, end_input, taken, printed):
    """The same from the start, with what gives the commands and ends the input."""
    process = proxy.start_over(given, taken)
    proxy.taken = proxy.take_request()
    end_input()
    proxy.waits_for_output()
    return ends_unread(proxy, process, printed)


def commands_then_end(proxy, ours):
    """What gives all commands to this end as far as it takes them, and then closes it."""
    def end_input():
        flags = fcntl.fcntl(ours, fcntl.F_GETFL)
        fcntl.fcntl(ours, fcntl.F_SETFL, flags | os.O_NONBLOCK)
        rest, last = b"state\n" * COUNT, time.monotonic() + PATIENCE
        while rest and time.monotonic() < last:
            try:
                rest = rest[os.write(ours, rest):]
            except BlockingIOError:
                time.sleep(0.05)
        hope("commands left", len(rest), 0)
        proxy.waits_for_output()
        proxy.ended = time.monotonic()
        close(proxy, ours)
    return end_input


@takes_no_new_one
def ends_unread_by_pipes(proxy):
    """5,000 commands come by a pipe, and nobody reads the pipe that is printed to."""
    given, ours = os.pipe()
    reading, taken = os.pipe()
    proxy.kept([ours, reading])
    return tried_unread(proxy, given, commands_then_end(proxy, ours), taken, lambda: read_all(reading))


@takes_no_new_one
def ends_unread_by_sockets(proxy):
    """The same by sockets."""
    given, ours = (made.detach() for made in socket.socketpair())
    reading, taken = (made.detach() for made in socket.socketpair())
    fcntl.fcntl(given, fcntl.F_SETFL, fcntl.fcntl(given, fcntl.F_GETFL))
    proxy.kept([ours, reading])
    return tried_unread(proxy, given, commands_then_end(proxy, ours), taken, lambda: read_all(reading))


@takes_no_new_one
def ends_unread_by_half_a_socket(proxy):
    """The input is a socket whose other end sends no more, and still is open."""
    theirs, ours = socket.socketpair()
    reading, taken = os.pipe()
    given = theirs.detach()
    proxy.kept([reading])

    def end_input():
        ours.sendall(b"state\n" * COUNT)
        proxy.waits_for_output()
        proxy.ended = time.monotonic()
        ours.shutdown(socket.SHUT_WR)

    ours.setsockopt(socket.SOL_SOCKET, socket.SO_SNDBUF, 1 << 20)
    with ours:
        return tried_unread(proxy, given, end_input, taken, lambda: read_all(reading))


def ends_unread_by_a_file(proxy):
    """The commands are a regular file, whose end is there from the start."""
    path = proxy.room / "commands"
    path.write_bytes(b"state\n" * COUNT)
    reading, taken = os.pipe()
    proxy.kept([reading])
    process = proxy.start_over(os.open(path, os.O_RDONLY), taken)
    hope("status", process.wait(LINGER / 1000 + PATIENCE), 4)
    text = read_all(reading)
    hope("first line", text.startswith("listening "), True)
    hope("last line", "end:" in text, False)


@takes_no_new_one
def ends_unread_by_a_terminal(proxy):
    """What is printed goes to a terminal that nobody reads."""
    given, ours = os.pipe()
    reading, taken = pty.openpty()
    proxy.kept([ours, reading])
    return tried_unread(proxy, given, commands_then_end(proxy, ours), taken, lambda: "")


def ends_before_it_listens(proxy):
    """The output is full from the start, and the null device is the input: not even `listening` goes out."""
    reading, taken = os.pipe()
    fill(taken)
    proxy.kept([reading])
    process = proxy.start_over(os.open(os.devnull, os.O_RDONLY), taken)
    hope("status", process.wait(LINGER / 1000 + PATIENCE), 4)
    hope("output", read_all(reading).strip("\0"), "")


def serves_while_its_output_waits(proxy):
    """The output is full from the start, and the input is open: requests are answered, and once somebody reads all is told."""
    given, ours = os.pipe()
    reading, taken = os.pipe()
    fill(taken)
    proxy.kept([ours, reading])
    process = proxy.start_over(given, taken)
    give(ours, b"unknown\n")
    for identifier in (1, 2):
        octets, home = proxy.take_request(identifier)
        time.sleep(1)
        proxy.home.sendto(answered(octets), home)
        hope("code", proxy.nas.recv(4096)[0], 5)
    close(proxy, ours)
    told = read_all(reading).strip("\0").splitlines()
    hope("lines", told, [f"listening 127.0.0.1:{proxy.listen[1]}", "unknown", NOTHING_LEFT])
    hope("status", process.wait(PATIENCE), 0)


def ends_without_room_for_its_last_line(proxy):
    """The output gets full while nothing is printed: the last line is waited for no longer than `linger`."""
    given, ours = os.pipe()
    reading, taken = os.pipe()
    kept = os.dup(taken)
    proxy.kept([ours, reading, kept])
    process = proxy.start_over(given, taken)
    hope("first line", os.read(reading, 4096).startswith(b"listening"), True)
    fill(kept)
    close(proxy, kept)
    close(proxy, ours)
    hope("status", process.wait(LINGER / 1000 + MARGIN), 4)
    hope("output", read_all(reading).strip("\0"), "")


def a_slow_reader_gets_all(proxy):
    """A reader that takes longer than `linger` in all, and never as long at once, gets every line."""
    proxy.configure(1000)
    given, ours = os.pipe()
    reading, taken = os.pipe()
    proxy.kept([ours, reading])
    process = proxy.start_over(given, taken)
    give(ours, b"state\n" * 1500)
    close(proxy, ours)
    text = b""
    while part := os.read(reading, 4096):
        text += part
        time.sleep(0.05)
    told = text.decode().splitlines()
    hope("lines", len(told), 1 + 1500 * 2 + 1)
    hope("first", told[0], f"listening 127.0.0.1:{proxy.listen[1]}")
    for lane in (0, 1):
        wanted = {STATE.format(lane, lane + 1, mode, 0, 0, 0) for mode in ("open", "done")}
        hope(f"lane {lane}", set(told[1 + lane:-1:2]) <= wanted, True)
    hope("last", told[-1], NOTHING_LEFT)
    hope("status", process.wait(PATIENCE), 0)


def lingers_from_the_first_wait_on(proxy):
    """Where the output was waited for again and again, for longer than `linger` in all, no home server is waited for behind that."""
    proxy.configure(SLOW_LINGER)
    given, ours = os.pipe()
    reading, taken = os.pipe()
    proxy.kept([ours, reading])
    process = proxy.start_over(given, taken)
    proxy.take_request()
    give(ours, b"state\n" * COUNT)
    close(proxy, ours)
    began = time.monotonic()
    while time.monotonic() < began + 1.2 * SLOW_LINGER / 1000:
        os.read(reading, 4096)
        time.sleep(0.2)
    with ThreadPoolExecutor(1) as pool:
        # What this script takes to read is none of the program's.
        idle = pool.submit(idle_until_end, process, [os.getpid()])
        last = read_all(reading).splitlines()[-1]
    hope("last", last, "end: queued 0 outstanding 1 untaken 0")
    hope("status", process.wait(PATIENCE), 3)
    hope(f"it ends soon: it waited {idle.result():.1f} s", idle.result() < 0.6 * SLOW_LINGER / 1000, True)


def a_closed_output_ends_it_undrained(proxy):
    """Where the reader of the output is gone, the program ends at once with status 4, and waits for no home server."""
    proxy.configure(600_000)
    given, ours = os.pipe()
    reading, taken = os.pipe()
    proxy.kept([ours])
    process = proxy.start_over(given, taken)
    hope("first line", os.read(reading, 4096).startswith(b"listening"), True)
    octets, home = proxy.take_request()
    os.close(reading)
    give(ours, b"state\n")
    hope("status", process.wait(PATIENCE), 4)
    proxy.home.sendto(answered(octets), home)
    proxy.nas.settimeout(1)
    with contextlib.suppress(TimeoutError):
        raise AssertionError(f"answered: {proxy.nas.recv(4096)!r}")


def a_reader_that_goes_ends_it_undrained(proxy):
    """The same where it goes while an answer waits for it."""
    proxy.configure(600_000)
    given, ours = os.pipe()
    reading, taken = os.pipe()
    fill(taken)
    proxy.kept([ours])
    process = proxy.start_over(given, taken)
    proxy.take_request()
    os.close(reading)
    hope("status", process.wait(PATIENCE), 4)


def tells_that_a_stack_is_too_small(proxy):
    """A smaller limit on stacks than the program needs is told before anything is begun, and is the end, with status 4."""
    for stack in (64, 96, 128, 256, STACK - 1):
        ran = subprocess.run(proxy.words(stack), input=b"", capture_output=True, env=proxy.environment)
        hope(f"{stack}: status", ran.returncode, 4)
        reason = f"the limit on a stack is {stack * 1024} octets, and has to be {STACK * 1024} at least"
        wanted = f'level=error event=thread-fault reason="{reason}"\nthreads: failed\n'
        hope(f"{stack}: what it tells", (ran.stdout.decode(), ran.stderr.decode()), ("", wanted))
        hope(f"{stack}: the counters", (proxy.room / "counters").exists(), False)
    proxy.file.unlink()
    ran = subprocess.run(proxy.words(STACK - 1), input=b"", capture_output=True)
    hope("a fault of the file comes first", ran.stderr.decode().splitlines()[-1], f"file: {proxy.file}")


def serves_with_the_least_stack(proxy):
    """With that limit it serves all addresses, with eight home servers, counters and a ledger, and ends as it should."""
    homes = "".join(f'[[home]]\nname = "h{number}"\naddress = "127.0.0.1:9"\nsecret = "s"\n' for number in range(3, 9))
    text = proxy.file.read_text().replace("127.0.0.1", "0.0.0.0", 1)
    proxy.file.write_text(text.replace("[[realm]]", f"{homes}[[realm]]", 1))
    ledger = proxy.room / "ledger"
    ledger.mkdir()
    given, ours = os.pipe()
    reading, taken = os.pipe()
    proxy.kept([ours, reading])
    process = proxy.start_over(given, taken, STACK, RAD_PROXY_LEDGER=str(ledger))
    octets, home = proxy.take_request()
    proxy.home.sendto(answered(octets), home)
    hope("code", proxy.nas.recv(4096)[0], 5)
    until("the counters are written", (proxy.room / "counters").exists, PATIENCE)
    give(ours, b"state\n")
    close(proxy, ours)
    hope("what it prints", read_all(reading).splitlines()[1], STATE.format(0, 1, "open", 1, 0, 1))
    hope("status", process.wait(PATIENCE), 0)
    hope("lines of the ledger", len("".join(file.read_text() for file in ledger.iterdir()).splitlines()) >= 2, True)


TESTS = [
    says_nothing_without_a_thread, listens_once_all_threads_run, ends_unread_by_pipes, ends_unread_by_sockets,
    ends_unread_by_half_a_socket, ends_unread_by_a_file, ends_unread_by_a_terminal, ends_before_it_listens,
    serves_while_its_output_waits, ends_without_room_for_its_last_line, a_slow_reader_gets_all, lingers_from_the_first_wait_on,
    a_closed_output_ends_it_undrained, a_reader_that_goes_ends_it_undrained, tells_that_a_stack_is_too_small,
    serves_with_the_least_stack,
]


def main():
    signal.signal(signal.SIGPIPE, signal.SIG_IGN)
    try_named(TESTS, Ending, __doc__)


if __name__ == "__main__":
    main()
