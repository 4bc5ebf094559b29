"""The measures: each takes a subject and a round, starts what it needs, and writes down what it found.

    throughput  requests a second by how many are out at once, with one home server; and with four
    busy        requests a second beside other programs that keep half of the processors at work
    latency     how long an answer takes by how many requests begin each second
    memory      resident: without requests, and for each of 100,000
    start       from exec to the first answer, with 64 home servers, 256 clients and 256 realms
    idle        processor time and switches a second of a proxy that has nothing to do, with few home servers and with many
    growth      time a request of the program, as its book fills to 1,000,000
    steady      how long an answer takes second by second, in a long run at one rate
"""
import itertools
import json
import os
import pathlib
import subprocess
import tempfile
import time
from contextlib import ExitStack, contextmanager

from bench import readings
from bench.proxies import (CLIENT_SECRET, HOME_SECRET, SECONDS_TO_ANSWER, Direct, FreeRadius, RadProxy, Radsecproxy, Relay, Setting,
                           SingleRelay, WaitsAlone, WithLedger, WithSpool, status_server, wait_until_it_answers)
from tests.lib import started
from tests.lib.loads import generator

WINDOWS, RATES = [1, 4, 16, 64, 256], [1000, 5000, 10_000, 20_000, 40_000]
MANY_HOMES, MANY_WINDOW = 4, 256
BUSY_WINDOW, BUSY_PROCESSORS = 64, max(1, (os.cpu_count() or 2) // 2)
IDLE_HOMES = [4, 64]
IDENTIFIERS_A_SOCKET, SOCKETS_OF_A_RATE = 128, 16
MOST_REQUESTS = 900_000
WARMING = {"window": 16, "count": 500, "seconds": 10}
SECONDS_OF_A_HOME, SECONDS_BUSY = 3600, 600
REMEMBERED = 100_000
LARGE = {"homes": 64, "clients": 256, "realms": 256}
BOOK, BOOK_BEGINS, BOOK_STEP, GROWTH_WINDOW, GROWTH_ROUNDS = 1_000_000, 1000, 9990, 64, 3
SPAN_A_SECOND_OF_RUN = 100
ONLY_IF_NAMED = {SingleRelay.name, WithLedger.name, WithSpool.name}


class Bench:
    """A run: what is measured, how long, and where the figures go."""

    def __init__(self, plan, folder, work):
        self.plan, self.folder, self.work = plan, folder, work
        self.series = itertools.count()
        self.results = []
        subjects = [Direct(), Relay(work / "relay"), SingleRelay(work / "relay"), RadProxy(plan.program), WithLedger(plan.program), WithSpool(plan.program),
                    Radsecproxy(), FreeRadius(), WaitsAlone(work / "waits")]
        wanted = plan.subjects.split(",") if plan.subjects else [each.name for each in subjects if each.name not in ONLY_IF_NAMED]
        self.subjects = [subject for subject in subjects if subject.name in wanted and subject.is_there()]
        for subject in subjects:
            if subject.name in wanted and not subject.is_there():
                print(f"{subject.name} is not there, and is left out")

    def in_turn(self, subjects, round_number):
        """The subjects, each time beginning with another one."""
        first = round_number % max(1, len(subjects))
        return subjects[first:] + subjects[:first]

    def keep(self, measure, subject, **figures):
        """Writes down a measurement."""
        result = {"measure": measure, "subject": subject} | figures
        self.results.append(result)
        with (self.folder / "results.jsonl").open("a") as file:
            file.write(json.dumps(result) + "\n")

    def homes(self, count):
        return [self.plan.port + 1 + number for number in range(count)]

    @contextmanager
    def serving(self, subject, homes=1, **lane):
        """A proxy before its home servers, once it answers and is warm; its process, None where there is no proxy."""
        setting = Setting(self.plan.port, self.homes(homes), homes, lane=lane if isinstance(subject, RadProxy) else {})
        with ExitStack() as stack, tempfile.TemporaryDirectory(dir=self.work) as folder:
            for port in setting.homes:
                limit = str(SECONDS_OF_A_HOME + self.plan.seconds + self.plan.long)
                home = started([self.work / "home", str(port), HOME_SECRET, limit], stdout=subprocess.DEVNULL)
                wait_until_it_answers(stack.enter_context(home), port)
            process = None
            if subject.is_proxy:
                log = stack.enter_context((pathlib.Path(folder) / "output").open("wb"))
                pipes = {"stdin": subprocess.PIPE if isinstance(subject, RadProxy) else subprocess.DEVNULL}
                words = subject.words(pathlib.Path(folder), setting)
                process = stack.enter_context(started(words, stdout=log, stderr=log, **pipes))
                wait_until_it_answers(process, self.plan.port)
            yield process

    def generate(self, subject, homes=1, warming=False, **options):
        """Runs the generator, and gives what it tells: all of it, and of each second."""
        port, secret = (self.plan.port, CLIENT_SECRET) if subject.is_proxy else (self.plan.port + 1, HOME_SECRET)
        options = {"count": MOST_REQUESTS, "seconds": self.plan.seconds, "octets": self.plan.octets} | options
        options |= {"port": port, "secret": secret, "realms": homes, "series": next(self.series)}
        with started(generator(self.work, **options), stdout=subprocess.PIPE, text=True) as process:
            told = [json.loads(line) for line in process.stdout]
        if not told or (warming and told[-1]["answered"] < options["count"]):
            raise RuntimeError(f"{subject.name}: the generator's requests were not answered: {told[-1:]}")
        return told[-1], told[:-1]

    def load(self, subject, process, homes=1, **options):
        """Warms a subject, has the generator ask it, and gives the figures with what it took."""
        self.generate(subject, homes, warming=True, **WARMING)
        lost, meter = readings.datagrams_lost(), process and readings.Meter(process.pid)
        told, _ = self.generate(subject, homes, **options)
        told["datagrams_lost"] = readings.datagrams_lost() - lost
        if process:
            told["cpu_us"] = 1e6 * meter.seconds() / max(1, told["answered"])
            told["resident_kb"] = readings.resident_kilobytes(process.pid)
        return told

    # The measures, each for one subject in one round.

    def throughput(self, subject, number):
        plans = [(window, 1) for window in WINDOWS] + ([(MANY_WINDOW, MANY_HOMES)] if subject.is_proxy else [])
        for window, homes in plans:
            with self.serving(subject, homes) as process:
                sockets = -(-window // IDENTIFIERS_A_SOCKET)
                told = self.load(subject, process, homes, window=window, sockets=sockets)
            self.keep("throughput", subject.name, round=number, window=window, homes=homes, **told)

    def busy(self, subject, number):
        with ExitStack() as stack:
            for _ in range(BUSY_PROCESSORS):
                stack.enter_context(started([self.work / "spin", str(SECONDS_BUSY + self.plan.seconds)]))
            process = stack.enter_context(self.serving(subject))
            told = self.load(subject, process, window=BUSY_WINDOW)
        self.keep("busy", subject.name, round=number, window=BUSY_WINDOW, processors=BUSY_PROCESSORS, **told)

    def latency(self, subject, number):
        for rate in RATES:
            with self.serving(subject) as process:
                told = self.load(subject, process, rate=rate, sockets=SOCKETS_OF_A_RATE)
            self.keep("latency", subject.name, round=number, rate=rate, **told)

    def memory(self, subject, number):
        with self.serving(subject, span=600_000) as process:
            empty = readings.resident_kilobytes(process.pid)
            told, _ = self.generate(subject, window=GROWTH_WINDOW, count=REMEMBERED, seconds=120)
            full = readings.resident_kilobytes(process.pid)
        self.keep("memory", subject.name, round=number, empty_kb=empty, full_kb=full, answered=told["answered"])

    def start(self, subject, number):
        homes = self.homes(LARGE["homes"])
        setting = Setting(self.plan.port, homes, LARGE["realms"], LARGE["clients"])
        with tempfile.TemporaryDirectory(dir=self.work) as folder:
            words = subject.words(pathlib.Path(folder), setting)
            asked = [self.plan.port, status_server(0).hex(), SECONDS_TO_ANSWER]
            with started([self.work / "launch", *map(str, asked), *words], stdout=subprocess.PIPE) as process:
                line = process.stdout.read()
        if not line:
            raise RuntimeError(f"{subject.name} does not answer")
        self.keep("start", subject.name, round=number, **json.loads(line))

    @contextmanager
    def resting(self, subject, homes):
        """A proxy that has served some requests, or the threads that only wait."""
        if isinstance(subject, WaitsAlone):
            with started(subject.words(homes)) as process:
                yield process
            return
        with self.serving(subject, homes) as process:
            self.generate(subject, homes, warming=True, **WARMING)
            yield process

    def idle(self, subject, number):
        for homes in IDLE_HOMES:
            with self.resting(subject, homes) as process:
                time.sleep(1)
                meter, before = readings.Meter(process.pid), readings.switches(process.pid)
                time.sleep(self.plan.seconds)
                took, switched = meter.seconds(), readings.switches(process.pid) - before
                count = readings.threads(process.pid)
            self.keep("idle", subject.name, round=number, homes=homes, threads=count,
                      cpu_us_a_second=1e6 * took / self.plan.seconds, switches_a_second=switched / self.plan.seconds)

    def growth(self, subject, number):
        if number >= GROWTH_ROUNDS:
            return
        with self.serving(subject, span=600_000, book=BOOK) as process:
            self.generate(subject, warming=True, window=GROWTH_WINDOW, count=BOOK_BEGINS, seconds=10)
            for held in range(BOOK_BEGINS, BOOK, BOOK_STEP):
                meter = readings.Meter(process.pid)
                told, _ = self.generate(subject, window=GROWTH_WINDOW, count=BOOK_STEP, seconds=60)
                took = meter.seconds()
                answered = max(1, told["answered"])
                self.keep("growth", subject.name, round=number, held=held, unanswered=told["unanswered"],
                          time_us=1e6 * told["seconds"] / answered, cpu_us=1e6 * took / answered,
                          longest_us=told["greatest_us"], resident_kb=readings.resident_kilobytes(process.pid))

    def steady(self, subject, number):
        if number > 0:
            return
        span = min(600_000, SPAN_A_SECOND_OF_RUN * self.plan.long)
        book = min(BOOK, max(1000, self.plan.rate * span // 600))
        with self.serving(subject, span=span, book=book) as process:
            self.generate(subject, warming=True, **WARMING)
            meter = readings.Meter(process.pid)
            options = {"rate": self.plan.rate, "seconds": self.plan.long, "sockets": SOCKETS_OF_A_RATE, "by_second": True}
            told, seconds = self.generate(subject, count=self.plan.rate * self.plan.long, **options)
            took = meter.seconds()
            resident = readings.resident_kilobytes(process.pid)
        for second in seconds:
            self.keep("second", subject.name, **second)
        self.keep("steady", subject.name, rate=self.plan.rate, span=span, book=book, resident_kb=resident,
                  cpu_us=1e6 * took / max(1, told["answered"]), **told)

    def measures(self):
        """Each measure, and of which subjects it is taken."""
        proxies = [RadProxy.name, WithLedger.name, WithSpool.name, Radsecproxy.name, FreeRadius.name]
        with_relay = [Relay.name, SingleRelay.name, *proxies]
        return {
            "throughput": (self.throughput, [Direct.name, *with_relay]),
            "busy": (self.busy, with_relay),
            "latency": (self.latency, [Direct.name, *with_relay]),
            "memory": (self.memory, proxies),
            "start": (self.start, proxies),
            "idle": (self.idle, [*with_relay, WaitsAlone.name]),
            "growth": (self.growth, [RadProxy.name]),
            "steady": (self.steady, with_relay),
        }

    def run(self):
        (self.folder / "results.jsonl").write_text("")
        versions = {subject.name: subject.version() for subject in self.subjects}
        keys = ("rounds", "seconds", "long", "rate", "octets")
        self.keep("run", "machine", **readings.machine(), busy=readings.busy_share(), versions=versions,
                  **{key: getattr(self.plan, key) for key in keys})
        wanted = self.plan.only.split(",") if self.plan.only else list(self.measures())
        for number, name in itertools.product(range(self.plan.rounds), wanted):
            measure, names = self.measures()[name]
            for subject in self.in_turn([subject for subject in self.subjects if subject.name in names], number):
                print(f"round {number + 1} of {self.plan.rounds}: {name}, {subject.name}", flush=True)
                try:
                    measure(subject, number)
                except RuntimeError as trouble:
                    print(f"no figure: {trouble}", flush=True)
