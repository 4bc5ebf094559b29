"""The trial: starts the program, plays the requests, and tells what became of them."""
import multiprocessing
import os
import shutil
import sys
import time
from dataclasses import dataclass

from . import stage
from .datagrams import address
from .faults import CONFIGURATION, FAILED, Fault
from .homes import Manner
from .log import Log
from .metrics import Metrics
from .report import report
from .requests import Requests
from .settings import read_settings

NO_HOST = (0, *range(224, 256))


def program_of(words):
    found = shutil.which(words.program or "rad_proxy")
    if found is None:
        raise Fault(f"no program {words.program or 'rad_proxy'}: --program PATH names one")
    return os.path.abspath(found)


def listens(settings, requests):
    """Where the program listens: at one address, since all addresses are the namespace's own."""
    listen = (requests.target, settings.listen[1]) if settings.listen[0] == bytes(4) else settings.listen
    for home in settings.homes:
        if (home.address, home.port) == listen:
            raise Fault(f"home {home.name} at {address(home.address)}:{home.port} is where the program listens", CONFIGURATION)
        if home.address[0] in NO_HOST:
            raise Fault(f"home {home.name} at {address(home.address)}:{home.port}: no host has this address", CONFIGURATION)
    return listen


class Progress:
    """Tells on a terminal how far it is."""

    def __init__(self, all_of_them):
        self.all_of_them, self.next, self.is_shown = all_of_them, 0, sys.stderr.isatty()

    def __call__(self, count):
        if self.is_shown and time.monotonic() > self.next:
            self.next = time.monotonic() + 1
            print(f"\r{count} of {self.all_of_them}", end="", file=sys.stderr, flush=True)

    def end(self):
        if self.is_shown and self.next:
            print("\r", end="", file=sys.stderr)


def manner_of(words):
    return Manner(words.answer / 1000, words.outage_at, words.outage_at + words.outage)


@dataclass
class Played:
    """A trial that was played: what was sent and how, what the program counted and logged, what was seen of its lanes, and its
    last line."""

    requests: Requests
    nases: stage.Nases
    seconds: float
    metrics: Metrics
    log: Log
    lanes: dict
    end: str


def play(words, settings, requests, program):
    """Plays a trial in namespaces of its own."""
    listen, began = listens(settings, requests), multiprocessing.Value("d", 0.0)
    stage.enter_namespaces({it.source_port for it in requests.kept} | {listen[1]} | {home.port for home in settings.homes})
    room = stage.folder(program)
    with stage.home_servers(settings, manner_of(words), began):
        ran = stage.Program(program, stage.write_configuration(room, settings, listen), room / "counters", settings)
        try:
            ran.begin()
            nases, progress = stage.Nases((address(listen[0]), listen[1])), Progress(len(requests.kept))
            began.value = time.monotonic()
            seconds = nases.play(requests.kept, words.speed, lambda: ran.has_ended, progress)
            progress.end()
            wait(ran, max(time.monotonic(), began.value + words.outage_at + words.outage) + words.wait)
            metrics, end = Metrics(ran.reported()), ran.end()
            return Played(requests, nases, seconds, metrics, ran.log(), ran.lanes, end)
        finally:
            ran.kill()


def wait(ran, last):
    """Waits until all is answered, or until a moment."""
    time.sleep(3 * stage.APART)
    while time.monotonic() < last and not ran.is_done():
        time.sleep(stage.APART)


def trial(words):
    """Tries a configuration over captures. Gives the lines of the report."""
    if os.geteuid():
        raise Fault("a network namespace wants root; --script FILE writes a script for `rad_proxy replay`, which does not", FAILED)
    settings = read_settings(words.config)
    program = program_of(words)
    warned = stage.checked(program, words.config)
    requests = Requests(settings, words.captures, words.proxy)
    yield from warned
    yield from report(settings, play(words, settings, requests, program))
