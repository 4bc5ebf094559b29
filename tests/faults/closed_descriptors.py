"""Starts the program with its standard descriptors closed, and looks at the descriptors that it opens.

usage: python3 -m tests.faults.closed_descriptors PROGRAM

Each of the descriptors 0, 1 and 2 is closed by itself and with the others, for `run`, `check` and `replay`. A read of a closed
standard input fails, and so does a write to a closed standard output; what comes in at the socket of the clients is never read
as commands. The last line is `N passed, M failed`, of what was looked at.
"""
import contextlib
import itertools
import os
import pathlib
import subprocess
import time

from tests.lib import BUFFERS, HERE, NOTHING_LEFT, bound, buffers_of, configuration, environment, free_port, trying

PATIENCE, APART = 60, 0.005
SUBSETS = [chosen for count in (1, 2, 3) for chosen in itertools.combinations((0, 1, 2), count)]
COUNTS = "clients 1 homes 1 realms 1\n"
CLOSE_ON_EXEC, ACCESS = 0o2000000, 0o3
READ, WRITE = 0, 1
NULL_DEVICE = {0: WRITE, 1: READ, 2: WRITE}


def without(closed):
    """Has a program begin with these descriptors closed."""

    def close():
        for descriptor in closed:
            os.close(descriptor)

    return close


def name_of(closed):
    return "without " + ", ".join(map(str, closed))


class Ended:
    """What a program printed and ended with; no status where it did not end."""

    def __init__(self, process, given=None):
        try:
            output, errors = process.communicate(given, timeout=PATIENCE)
            self.status = process.returncode
        except subprocess.TimeoutExpired:
            process.kill()
            output, errors = process.communicate()
            self.status = None
        self.output, self.errors = output.decode(), errors.decode()

    def told(self):
        """The lines on standard error that are no log lines."""
        return [line for line in self.errors.splitlines() if not line.startswith("level=")]

    def __repr__(self):
        return f"status {self.status}, {self.output!r}, {self.errors!r}"


class Trial(trying.Trial):
    """The program, and what was seen of it."""

    def __init__(self, program, folder):
        super().__init__(program, folder)
        self.port = free_port()
        self.file = self.write("proxy.toml", configuration(self.port))
        self.faulty = self.write("faulty.toml", "listen = 3\n")

    def start(self, closed, *words):
        pipes = dict.fromkeys(("stdin", "stdout", "stderr"), subprocess.PIPE)
        return subprocess.Popen([self.program, *words], preexec_fn=without(closed), env=environment(), **pipes)

    def end_of(self, closed, *words, given=b""):
        return Ended(self.start(closed, *words), given)

    def run(self):
        for closed in SUBSETS:
            self.see_run(closed)
            self.see_check(closed)
            self.see_replay(closed)
            self.see_null_device(closed)
        self.see_close_on_exec()
        self.see_buffers()

    def see_run(self, closed):
        """A stranger sends commands to the clients' port all the while; nothing but the one line is ever printed."""
        process = self.start(closed, "run", self.file)
        with bound() as stranger:
            end = time.monotonic() + 1
            while process.poll() is None and time.monotonic() < end:
                for words in (b"drain\n", b"state\n"):
                    with contextlib.suppress(ConnectionError):
                        stranger.sendto(words, (HERE, self.port))
                time.sleep(APART)
        ended = Ended(process)
        listening = f"listening {HERE}:{self.port}\n"
        what = f"run {name_of(closed)}"
        if closed == (2,):
            self.see(f"{what} serves", ended.status == 0, ended)
            self.see(f"{what} prints two lines", ended.output == f"{listening}{NOTHING_LEFT}\n", ended)
            return
        self.see(f"{what} ends with status 4", ended.status == 4, ended)
        self.see(f"{what} obeys no stranger", ended.output in ("", listening), ended)
        told = ["input: failed"] if 0 in closed and 1 not in closed and 2 not in closed else []
        self.see(f"{what} tells what failed", ended.told() == told, ended)

    def see_check(self, closed):
        """Standard input is not read; a configuration with a fault is one whatever is closed."""
        what = f"check {name_of(closed)}"
        ended = self.end_of(closed, "check", self.file)
        self.see(f"{what} has its status", ended.status == (4 if 1 in closed else 0), ended)
        self.see(f"{what} prints the counts", ended.output == ("" if 1 in closed else COUNTS), ended)
        self.see(f"{what} tells nothing", ended.errors == "", ended)
        ended = self.end_of(closed, "check", self.faulty)
        self.see(f"{what} finds a fault", ended.status == 2, ended)
        told = "" if 2 in closed else "configuration: WrongType at top listen\n"
        self.see(f"{what} tells the fault", ended.errors == told, ended)

    def see_replay(self, closed):
        what = f"replay {name_of(closed)}"
        script = configuration(self.port).encode() + b"%%\nstate\n"
        ended = self.end_of(closed, "replay", given=b"" if 0 in closed else script)
        self.see(f"{what} has its status", ended.status == (0 if closed == (2,) else 4), ended)
        told = "input: failed\n" if 0 in closed and 2 not in closed else ""
        self.see(f"{what} tells what failed", ended.errors == told, ended)
        self.see(f"{what} answers where it can", bool(ended.output) == (closed == (2,)), ended)

    def see_null_device(self, closed):
        """The file to check is a named pipe, so that the program waits while its descriptors are looked at."""
        pipe = self.folder / "pipe"
        os.mkfifo(pipe)
        process = self.start(closed, "check", str(pipe))
        with open(pipe, "wb") as writer:
            found = self.descriptors(process)
            for descriptor in closed:
                path, flags = found.get(descriptor, ("", 0))
                is_right = path == "/dev/null" and flags & ACCESS == NULL_DEVICE[descriptor] and flags & CLOSE_ON_EXEC
                self.see(f"{descriptor} is the null device {name_of(closed)}", is_right, found)
            others = {number for number in found if number > 2}
            self.see(f"one more file is open {name_of(closed)}", len(others) <= 1, found)
            writer.write(configuration(self.port).encode())
        Ended(process)
        pipe.unlink()

    def descriptors(self, process):
        """The path and the flags of each descriptor of a process."""
        place, found = pathlib.Path("/proc", str(process.pid)), {}
        for entry in (place / "fd").iterdir():
            with contextlib.suppress(FileNotFoundError):
                told = (place / "fdinfo" / entry.name).read_text()
                flags = next(line.split()[1] for line in told.splitlines() if line.startswith("flags:"))
                found[int(entry.name)] = (os.readlink(entry), int(flags, 8))
        return found

    def see_close_on_exec(self):
        """While it serves, and writes its counters, each descriptor that it opened is closed where another program begins."""
        given = environment() | {"RAD_PROXY_COUNTERS": str(self.folder / "counters")}
        pipes = dict.fromkeys(("stdin", "stdout", "stderr"), subprocess.PIPE)
        process = subprocess.Popen([self.program, "run", self.file], env=given, **pipes)
        process.stdout.readline()
        end = time.monotonic() + 2.5
        while time.monotonic() < end:
            found = self.descriptors(process)
            left = {number: told for number, told in found.items() if number > 2 and not told[1] & CLOSE_ON_EXEC}
            if left:
                break
            time.sleep(APART)
        self.see("the sockets are among them", len(found) > 5, found)
        self.see("each descriptor is close-on-exec", not left, left)
        self.see("it ends as it should", Ended(process).status == 0)

    def see_buffers(self):
        """Each socket, that of `listen` and the lane's, has the receive buffer and the send buffer that Linux gives for a mebibyte."""
        process = self.start((), "run", self.file)
        process.stdout.readline()
        self.compare("the buffers of both sockets", buffers_of(process.pid), 2 * [BUFFERS])
        self.see("it ends as it should", Ended(process).status == 0)


def main():
    trying.run_trial(Trial, __doc__)


if __name__ == "__main__":
    main()
