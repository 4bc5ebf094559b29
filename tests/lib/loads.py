"""Loads by the programs of bench/: a generator of requests, home servers that answer at once, and the program between them."""
import contextlib
import itertools
import math
import os
import pathlib
import re
import select
import subprocess
import sys
import tempfile
import time
from dataclasses import dataclass

from bench.compiling import compile_all
from bench.readings import resident_kilobytes
from tests.lib.packets import HOME_SECRET, NAS_SECRET
from tests.lib.proxies import NOTHING_LEFT, Proxy
from tests.lib.starting import Server, configured, end_with_parent, started
from tests.lib.waiting import HERE, free_port, until

PATIENCE, APART, GIVEN_UP = 120, 0.05, 300
OUT_OF_A_SOCKET = 200
STATE = re.compile(r"lane 0 h0 (?:up|down) open accepted (\d+) queued (\d+) outstanding (\d+) answered \d+ opening (\d+)")


@dataclass
class Load:
    """How much the book has room for, how long an answered request stays in it, and how many requests are out, in turn."""

    name: str
    book: int
    span: int
    out: list


def build(work):
    """Leaves the generator and the home server in a folder."""
    compile_all(work, ["generator", "home"])


class Loaded(Proxy):
    """The program under a load, whose live octets are counted in a file."""

    linger = None

    def __init__(self, program, folder, load, homes, library):
        self.load, self.folder, port = load, folder, free_port()
        servers = [Server(f"h{number}", home, self.keys(), f"r{number:02}.bench") for number, home in enumerate(homes)]
        text = configured(f"{HERE}:{port}", servers, linger=self.linger)
        super().__init__(program, folder, text, (HERE, port))
        self.start(env={**os.environ, **self.settings(library, folder)}, bufsize=0, preexec_fn=end_with_parent)

    def keys(self):
        """What a home server has in the configuration."""
        return f"window = 254\nbook = {self.load.book}\nspan = {self.load.span}\n"

    def settings(self, library, folder):
        """The library that is loaded before the program's own, and what it is told."""
        self.live = folder / "live"
        return {"LD_PRELOAD": str(library), "LIVE_OCTETS": str(self.live)}

    def line(self):
        """The next line that it prints."""
        if not select.select([self.ran.stdout], [], [], PATIENCE)[0]:
            raise AssertionError("the program says nothing")
        return self.ran.stdout.readline().decode("utf-8", "replace").strip()

    def counts(self):
        """How many requests the first lane has accepted, how many wait, how many are out, and how many are cut off."""
        self.ran.stdin.write(b"state\n")
        line = self.line()
        found = STATE.fullmatch(line)
        if not found:
            raise AssertionError(f"the program says {line!r}")
        return map(int, found.groups())

    def accepted(self):
        return next(self.counts())

    def is_at_rest(self):
        """Whether all is answered, and the book is cut as far as it ever is."""
        accepted, queued, outstanding, opening = self.counts()
        return queued == outstanding == 0 and 2 * (accepted - opening) < self.load.book

    def live_octets(self):
        return int.from_bytes(self.live.read_bytes(), sys.byteorder, signed=True)

    def octets(self):
        """What is live and what is resident, once the program is at rest."""
        until("the program is at rest", self.is_at_rest, PATIENCE, APART)
        return {"live": self.live_octets(), "resident": 1024 * resident_kilobytes(self.ran.pid)}

    def end_well(self):
        """Ends its input, and sees that it ends well."""
        self.ran.stdin.close()
        line = self.line()
        if (line, self.ran.wait(PATIENCE)) != (NOTHING_LEFT, 0):
            raise AssertionError(f"it ended in {line!r} with status {self.ran.returncode}")


def generator(work, **options):
    """The words that start the generator of a folder with these options. One that is True has no value."""
    words = [[f"--{name.replace('_', '-')}"] + ([] if value is True else [str(value)]) for name, value in options.items()]
    return [str(work / "generator"), *itertools.chain(*words)]


class Generator:
    """Gives loads to the proxy by the program of that name, each time under other sessions."""

    def __init__(self, work, proxy, realms=1):
        self.work, self.proxy, self.realms, self.series = work, proxy, realms, itertools.count()

    def ask(self, out, count, seconds):
        """Sends so many requests, as far as there is time, with so many out at once, and gives how many were accepted."""
        before = self.proxy.accepted()
        options = {"port": self.proxy.listen[1], "secret": NAS_SECRET.decode(), "window": out, "count": count, "seconds": seconds}
        options |= {"realms": self.realms, "timeout": GIVEN_UP, "sockets": math.ceil(out / OUT_OF_A_SOCKET), "series": next(self.series)}
        with started(generator(self.work, **options), stdout=subprocess.DEVNULL) as process:
            if process.wait() != 0:
                raise AssertionError(f"the generator ended with status {process.returncode}")
        return self.proxy.accepted() - before

    def ask_until(self, out, wanted):
        """Sends requests until so many were accepted, and gives how many were. All requests of a call may be refused, where the book is
        full and its lane sleeps for some milliseconds."""
        accepted, last = 0, time.monotonic()
        while accepted < wanted:
            more = self.ask(out, wanted - accepted, PATIENCE)
            accepted += more
            if more:
                last = time.monotonic()
            elif time.monotonic() - last > PATIENCE:
                raise AssertionError(f"no request was accepted, in {PATIENCE} seconds")
            else:
                time.sleep(APART)
        return accepted


@contextlib.contextmanager
def serving(program, work, load, library, kind=Loaded, count=1):
    """The program under `run`, as a proxy of this kind, behind which so many home servers answer, and its NAS."""
    with tempfile.TemporaryDirectory(dir=work) as folder, contextlib.ExitStack() as stack:
        homes = [free_port() for _ in range(count)]
        for home in homes:
            stack.enter_context(started([work / "home", str(home), HOME_SECRET, "86400"], stdout=subprocess.DEVNULL))
        proxy = kind(program, pathlib.Path(folder), load, homes, library)
        stack.callback(proxy.kill)
        if not proxy.line().startswith("listening "):
            raise AssertionError("the program does not listen")
        yield proxy, Generator(work, proxy, count)
