"""Ends the program in each way and starts it again over its spool, and looks what the home servers and the NAS get.

usage: python3 -m tests.ledger.resumed PROGRAM [NAME ..]

The auditor and the reader of configurations are beside PROGRAM, or where `make build` leaves them.

Each test is a function below, and its first line tells what holds. Names choose tests. Each request of the NAS is sent once, and has its
number as its session. What is on disk is read by another hand than the program's. The last line is `N passed, M failed`.
"""
import json
import os
import re
import select
import shutil
import signal
import subprocess
import sys
import time
import zlib

from tests.lib import (ACCOUNTING_REQUEST, ACCT_SESSION_ID, HERE, NOTHING_LEFT, PATIENCE, SECRET, TOP, USER_NAME, Home, LeftOut, Proxy, Server, answer, attribute, bound, built,
                       configured, environment, free_port, hope, need, request, status, try_named, until, user_name)
from tests.ledger.asked import built as beside
from tests.lib.model import attributes_of
from tests.lib.spool import segments
from tests.lib.tools import running

# A home server is marked down half a second after a request that it does not answer, and is probed at once.
HASTY = "first_wait = 500\ntries = 1\ndown_wait = 1000\n"
# For how many seconds a response is given again, where that is tried.
SPAN = 10
# How many requests are sent before it is looked whether they came.
BURST = 50
# The places of a short queue, and how many requests are outstanding at most.
QUEUE, WINDOW = 16, 64
# The status of a program that may not use its spool, and how it ends where requests are left.
REFUSED, LEFT_OVER = 5, 3
# How many requests of a home server that are left are logged.
LOGGED = 20
# How many octets a request has at most, since the mark has to find room, and an attribute that makes it longer.
LONGEST, REPLY_MESSAGE = 4096 - 12, 18
# How many octets a short spool may have, and one that is longer, but less than a segment.
LIMIT, SMALL = 2000, 100_000
# A span that no test outlasts, and the seconds of a day.
LONG, DAY = "span = 600000\n", 86_400


class Resumed(Proxy):
    """A program with a spool, home servers h0, h1 and so on, and a NAS that sends each request once."""

    def __init__(self, program, room, count=2, limits=HASTY):
        self.room, self.spool, self.ledger, self.homes, self.nas = room, room / "spool", room / "ledger", [Home() for _ in range(count)], bound()
        self.ledger.mkdir(exist_ok=True)
        self.port, self.sent = free_port(), [0] * count
        super().__init__(program, room, self.configuration(limits), (HERE, self.port))

    def configuration(self, limits=HASTY, clients=(HERE,), secret=SECRET):
        servers = [Server(f"h{lane}", home.port, limits, f"h{lane}.example", SECRET.decode()) for lane, home in enumerate(self.homes)]
        return configured(f"{HERE}:{self.port}", servers, clients, secret.decode())

    def variables(self, more=()):
        return environment("info") | {"RAD_PROXY_SPOOL": str(self.spool), "RAD_PROXY_LEDGER": str(self.ledger), "RAD_PROXY_COUNTERS": str(self.counters)} | dict(more)

    def begin(self, **more):
        self.start(env=self.variables(more))
        self.listens()

    def stop(self):
        self.kill()

    def dies(self):
        """Is killed, and what its home servers had from it is forgotten."""
        self.ran.send_signal(signal.SIGKILL)
        self.ran.wait()
        for home in self.homes:
            home.hear()
            home.came.clear()

    def files(self):
        """The files of its ledger, the oldest first. Of two of one moment it is not known which is."""
        return sorted(self.ledger.glob("*.jsonl"), key=lambda file: json.loads(file.read_text("utf-8").splitlines()[0])["time"])

    def ledger_lines(self, *kinds):
        """The lines of its ledger of these kinds, the oldest file first."""
        lines = [json.loads(line) for file in self.files() for line in file.read_text("utf-8").splitlines()]
        return [line for line in lines if line["type"] in kinds]

    def lines_left(self):
        """The lines of its ledger about what was left."""
        return self.ledger_lines("left")

    def runs(self):
        """The names of its runs, the oldest first."""
        return [line["run"] for line in self.ledger_lines("begin")]

    def resumed(self):
        """What its ledger says of requests that were taken over, by run: the lane, the record, and what names the first acceptance."""
        found = {run: [] for run in self.runs()}
        for line in self.ledger_lines("resumed"):
            hope("the keys", list(line), ["type", "run", "time", "home", "lane", "record", "first_run", "first_lane", "first_record", "sum"])
            hope("the home server", line["home"], f"h{line['lane']}")
            found[line["run"]].append((line["lane"], line["record"], (line["first_run"], line["first_lane"], line["first_record"])))
        return found

    def audits(self, program, *words):
        """What an auditor prints of its ledger, and its status."""
        ran = subprocess.run([*program, *words, str(self.file), *map(str, self.files())], capture_output=True, text=True, timeout=60, check=False)
        hope("errors", ran.stderr, "")
        return ran.stdout.splitlines(), ran.returncode

    def left(self):
        """The same, by lane and number."""
        return {(line["lane"], line["record"]): line for line in self.lines_left()}

    def leaves(self, counts, is_kept):
        """It ends in order and leaves so many of each lane; ledger and log say of each whether it is kept, or of none."""
        need(self.ends().startswith("end: "), "no end line")
        left = self.left()
        hope("what is left", sorted(left), [(lane, number) for lane, count in enumerate(counts) for number in range(count)])
        hope("the last keys", {tuple(line)[-3:] for line in left.values()}, {("request", "kept", "sum") if is_kept else ("accepted", "request", "sum")})
        hope("kept", {line.get("kept") for line in left.values()}, {True if is_kept else None})
        logged = [line for line in self.lines("left") if "number" in line]
        hope("how many are logged", len(logged), sum(min(count, LOGGED) for count in counts))
        hope("kept, by the log", {(tuple(line)[-1], line.get("kept")) for line in logged}, {("kept", "true") if is_kept else ("age", None)})

    def ends(self, status=LEFT_OVER):
        """Closes its input, and gives its last line."""
        printed, _ = self.ran.communicate(timeout=PATIENCE)
        hope("status", self.ran.returncode, status)
        return printed.decode().splitlines()[-1]

    def ask(self, count, lane=0):
        """Sends so many new requests for a home server, and gives their octets."""
        asked = []
        for number in range(self.sent[lane], self.sent[lane] + count):
            name = user_name(f"user-{number}@h{lane}.example".encode())
            asked.append(request(number % 256, name + attribute(ACCT_SESSION_ID, str(number).encode()), SECRET))
            self.nas.sendto(asked[-1], self.listen)
            if number % BURST == BURST - 1:
                time.sleep(0.02)
        self.sent[lane] += count
        return asked

    def responses(self, count):
        """The next responses to the NAS, in any order."""
        self.nas.settimeout(PATIENCE)
        return sorted(self.nas.recv(4096) for _ in range(count))

    def is_refused(self):
        """It ends at once for the sake of its spool, and why."""
        self.start(env=self.variables(), stdin=subprocess.DEVNULL)
        _, _ = self.ran.communicate(timeout=PATIENCE)
        hope("status", self.ran.returncode, REFUSED)
        return self.lines("spool-fault")[-1]["reason"]

    def on_disk(self):
        """The entries of the spool, from its oldest segment on. Where one was removed meanwhile, all are read once more."""
        files = sorted(self.spool.glob("*.spool")) if self.spool.is_dir() else []
        try:
            return [entry for file in files for batch in segments.read(file.read_bytes()) for entry in batch.entries or ()]
        except FileNotFoundError:
            return self.on_disk()

    def kept(self):
        """The keys of the requests that came, and of those that were answered, by what is on disk: of some there is the answer alone."""
        entries = self.on_disk()
        came, answered = ({fields[:4] for name, fields, _ in entries if name == kind} for kind in ("came", "answered"))
        return came | answered, answered

    def octets_on_disk(self):
        return sum(file.stat().st_size for file in self.spool.glob("*.spool"))

    def has_on_disk(self, came, answered=0):
        """Waits until so many requests and so many of their answers are on disk."""
        until("all is on disk", lambda: tuple(map(len, self.kept())) == (came, answered))

    def has_open_on_disk(self, count):
        """Waits until so many are open by what is on disk, though segments may go meanwhile."""
        until(f"{count} are open", lambda: len(set.difference(*self.kept())) == count)

    def serve(self, counts, patience=PATIENCE, again=()):
        """The home servers answer all that comes until each had so many sessions, and these are given in the order in which they came.

        The NAS sends these requests again and again meanwhile.
        """
        found = [[] for _ in self.homes]
        last = time.monotonic() + patience
        while any(len(sessions) < count for sessions, count in zip(found, counts)) and time.monotonic() < last:
            select.select([home.ear for home in self.homes], [], [], 0.1)
            for octets in again:
                self.nas.sendto(octets, self.listen)
            for home, sessions in zip(self.homes, found):
                place = len(home.came)
                home.hear()
                for packet, sender in home.came[place:]:
                    home.answer(packet, sender)
                    if packet.code == ACCOUNTING_REQUEST:
                        sessions += [number for number in [session_of(packet)] if number not in sessions]
        return found


def session_in(octets):
    return int(next(value for kind, value, _ in attributes_of(octets) if kind == ACCT_SESSION_ID))


def session_of(packet):
    return session_in(packet.octets)


def what_waits_at_a_kill_arrives_after_the_next_start(proxy):
    """Of requests that wait at a kill each arrives after the next start, once, in order, and new ones behind it."""
    proxy.begin()
    proxy.ask(300)
    proxy.ask(120, lane=1)
    proxy.has_on_disk(420)
    proxy.dies()
    proxy.begin()
    proxy.ask(5)
    hope("sessions", proxy.serve([305, 120]), [list(range(305)), list(range(120))])
    proxy.has_on_disk(425, 425)


def what_waits_at_an_end_in_order_arrives_too(proxy):
    """What an end in order tells as left arrives after the next start."""
    proxy.begin()
    proxy.ask(40)
    proxy.has_on_disk(40)
    need(proxy.ends().startswith("end: "), "no end line")
    for home in proxy.homes:
        home.hear()
        home.came.clear()
    proxy.begin()
    hope("sessions", proxy.serve([40, 0]), [list(range(40)), []])


def each_request_that_a_run_takes_over_has_a_line(proxy):
    """Over three runs of three lanes, two of which are killed, each request has a line that names its first acceptance, in each run that took it over, before its entry."""
    (proxy.room / "three").mkdir()
    three = Resumed(proxy.program, proxy.room / "three", count=3)
    try:
        three.begin()
        three.ask(2, lane=2)
        three.serve([0, 0, 2])
        three.responses(2)
        for lane, count in enumerate((4, 1, 3)):
            three.ask(count, lane)
        three.has_on_disk(10, 2)
        three.dies()
        three.begin()
        until("all are taken over", lambda: three.counter("accepted_total") == 8)
        three.ask(1)
        three.ask(2, lane=1)
        three.has_on_disk(13, 2)
        three.dies()
        three.begin()
        hope("sessions", three.serve([5, 3, 3]), [[0, 1, 2, 3, 4], [0, 1, 2], [2, 3, 4]])
        three.responses(11)
        hope("end", three.ends(0), NOTHING_LEFT)
        first, second, third = three.runs()
        taken = {lane: [(lane, record, (first, lane, record + (2 if lane == 2 else 0))) for record in range(count)] for lane, count in enumerate((4, 1, 3))}
        more = {0: [(0, 4, (second, 0, 4))], 1: [(1, 1, (second, 1, 1)), (1, 2, (second, 1, 2))], 2: []}
        found = three.resumed()
        of = lambda run: {lane: [it for it in found[run] if it[0] == lane] for lane in range(3)}
        hope("the first run", found[first], [])
        hope("the second run", of(second), taken)
        hope("the third run", of(third), {lane: taken[lane] + more[lane] for lane in range(3)})
        lines = [(line["type"], line["run"], line["lane"], line["record"]) for line in three.ledger_lines("resumed", "entry")]
        for line in lines[:]:
            hope("its line is before its entry", line[0] == "resumed" or line[1] == first or lines.index(("resumed", *line[1:])) < lines.index(line), True)
        is_joined_by_the_tools(three, (first, second, third))
    finally:
        three.stop()


def is_joined_by_the_tools(three, runs):
    """What the auditor, its model and rad_ledger say of that ledger."""
    first, second, third = runs
    model = three.audits([sys.executable, str(TOP / "tests" / "lib" / "audit_model.py")])
    counts = [line for line in model[0] if " resumed " in line]
    hope("counts", counts, [f"run {run} lane {lane} h{lane} resumed {count}" for run, all_of in ((second, (4, 1, 3)), (third, (5, 3, 3))) for lane, count in enumerate(all_of)])
    hope("status", model[1], 6)
    auditor = beside(three.program, "rad_audit")
    hope("the auditor", three.audits([auditor]), model)
    words = ["--program", auditor, "--session", "2", str(three.file), *map(str, three.files())]
    for more in ([], ["--index", str(three.room / "index")], ["--index", str(three.room / "index")]):
        ran = running.run("rad_ledger", "find", *more, *words)
        hope("errors", (ran.stderr, b"3 records" in ran.stdout), (b"", True))
        told = {}
        for paragraph in ran.stdout.decode().split("\n\n"):
            if its := re.search(r"record (\d+) of lane (\d+), home server \S+, run (\S+)", paragraph):
                told[its[3], int(its[2]), int(its[1])] = re.findall(r"first acceptance is record (\d+) of lane (\d+), run (\S+)", paragraph)
        hope("first acceptances", told, {(third, 0, 2): [("2", "0", first)], (third, 1, 2): [("2", "1", second)], (third, 2, 0): [("2", "2", first)]})


def what_is_left_and_taken_over_is_joined(proxy):
    """What an end in order leaves names the record as which the next run took it over, and that one its first acceptance; sum counts each once."""
    proxy.begin()
    proxy.ask(3)
    proxy.has_on_disk(3)
    need(proxy.ends().startswith("end: "), "no end line")
    for home in proxy.homes:
        home.hear()
        home.came.clear()
    proxy.begin()
    hope("sessions", proxy.serve([3, 0]), [[0, 1, 2], []])
    proxy.responses(3)
    hope("end", proxy.ends(0), NOTHING_LEFT)
    first, second = proxy.runs()
    ran = running.run("rad_ledger", "find", "--program", beside(proxy.program, "rad_audit"), "--session", "1", str(proxy.file), *map(str, proxy.files()))
    hope("errors", (ran.returncode, ran.stderr), (0, b""))
    left, answered = ran.stdout.decode().split("\n\n")[:2]
    hope("left", f"  the spool has it, and offers it to the next run\n  a later run took it over: record 1 of lane 0, run {second}\n" in left, True)
    hope("answered", f"  an earlier run left it: its first acceptance is record 1 of lane 0, run {first}\n  answer 1 of the lane" in answered, True)


def what_waits_for_room_has_no_line_yet(proxy):
    """Of requests for which there is no room only those that the lane took have a line, and new ones behind them have none in either run."""
    proxy.begin()
    proxy.ask(200)
    proxy.has_on_disk(200)
    proxy.dies()
    whole = proxy.file.read_text("utf-8")
    proxy.file.write_text(proxy.configuration(HASTY + f"queue = {QUEUE}\n"), "utf-8")
    proxy.begin()
    until("what has room is taken", lambda: proxy.counter("accepted_total") == QUEUE + WINDOW)
    proxy.ask(2)
    proxy.ask(1, lane=1)
    proxy.has_on_disk(201)
    until("its lines are written", lambda: len(proxy.resumed()[proxy.runs()[1]]) == QUEUE + WINDOW)
    proxy.dies()
    first, second = proxy.runs()
    hope("the second run", proxy.resumed()[second], [(0, number, (first, 0, number)) for number in range(QUEUE + WINDOW)])
    proxy.file.write_text(whole, "utf-8")
    proxy.begin()
    hope("sessions", proxy.serve([200, 1]), [list(range(200)), [0]])
    proxy.responses(201)
    hope("end", proxy.ends(0), NOTHING_LEFT)
    third = proxy.runs()[2]
    hope("the third run", sorted(proxy.resumed()[third]), [*((0, number, (first, 0, number)) for number in range(200)), (1, 0, (second, 1, 0))])


def without_a_spool_a_ledger_is_as_before(proxy):
    """Without a spool a kill leaves nothing that the next run takes over, and a repeat is a new request: the ledger has no line of an earlier run."""
    proxy.begin(RAD_PROXY_SPOOL="")
    asked = proxy.ask(3)
    proxy.serve([3, 0])
    proxy.responses(3)
    proxy.dies()
    proxy.begin(RAD_PROXY_SPOOL="")
    proxy.nas.sendto(asked[1], proxy.listen)
    hope("sessions", proxy.serve([1, 0]), [[1], []])
    proxy.responses(1)
    hope("end", proxy.ends(0), NOTHING_LEFT)
    hope("lines", {line["type"] for line in proxy.ledger_lines("begin", "entry", "left", "unsent", "again", "resumed", "end")}, {"begin", "entry", "end"})


def an_answer_of_an_earlier_run_is_named_where_it_is_sent_again(proxy):
    """A repeat of what earlier runs answered is counted with the run, the lane and the serial of its answer, beside one of this run with its record."""
    proxy.file.write_text(proxy.configuration(HASTY + LONG), "utf-8")
    proxy.begin()
    asked = proxy.ask(3, lane=1)
    proxy.serve([0, 3])
    proxy.responses(3)
    proxy.has_on_disk(3, 3)
    until("its entries are written", lambda: len(proxy.ledger_lines("entry")) == 3)
    proxy.dies()
    proxy.begin()
    own = proxy.ask(1, lane=1)
    proxy.serve([0, 1])
    proxy.responses(1)
    for octets in (asked[2], asked[0], asked[2], own[0], asked[2]):
        proxy.nas.sendto(octets, proxy.listen)
        proxy.responses(1)
    hope("end", proxy.ends(0), NOTHING_LEFT)
    first, second = proxy.runs()
    again = proxy.ledger_lines("again")
    hope("runs", {line["run"] for line in again}, {second})
    serials = {line["record"]: line["serial"] for line in proxy.ledger_lines("entry") if line["run"] == first}
    hope("what is counted", sorted((line["home"], line["lane"], line.get("answer_run"), line.get("answer_lane"), line.get("answer_serial"), line.get("record"), line["count"])
                                   for line in again if "answer_run" in line),
         sorted(("h1", 1, first, 1, serials[number], None, count) for number, count in ((2, 3), (0, 1))))
    hope("its own", [(line["lane"], line["record"], line["count"]) for line in again if "record" in line], [(1, 0, 1)])
    hope("the keys", {tuple(line) for line in again if "answer_run" in line},
         {("type", "run", "time", "home", "lane", "answer_run", "answer_lane", "answer_serial", "count", "sum")})
    model = proxy.audits([sys.executable, str(TOP / "tests" / "lib" / "audit_model.py")])
    hope("status", model[1], 6)
    hope("the auditor", proxy.audits([beside(proxy.program, "rad_audit")]), model)
    words = ["--program", beside(proxy.program, "rad_audit"), "--session", "2", str(proxy.file), *map(str, proxy.files())]
    for more in ([], ["--index", str(proxy.room / "index")]):
        ran = running.run("rad_ledger", "find", *more, *words)
        hope("how often", [line.strip() for line in ran.stdout.decode().splitlines() if "again" in line], ["later runs sent the response again 3 times"])


def what_is_left_is_told_as_kept(proxy):
    """What an end in order leaves is on disk and told as kept, also what came right before, and what an earlier run left too."""
    proxy.begin()
    answered = proxy.ask(7)
    proxy.serve([7, 0])
    proxy.responses(len(answered))
    proxy.ask(23)
    proxy.ask(4, lane=1)
    until("they are accepted", lambda: proxy.counter("accepted_total") == 34)
    need(proxy.ends().startswith("end: "), "no end line")
    first = proxy.left()
    hope("what is left", sorted(first), [*((0, number) for number in range(7, 30)), *((1, number) for number in range(4))])
    hope("kept", {(*tuple(line)[-3:], line.get("kept")) for line in first.values()}, {("request", "kept", "sum", True)})
    came, closed = proxy.kept()
    hope("on disk", (len(came), len(came - closed)), (34, 27))
    run, = {line["run"] for line in first.values()}
    proxy.begin()
    until("they are accepted again", lambda: proxy.counter("accepted_total") == 27)
    need(proxy.ends().startswith("end: "), "no end line")
    second = [line for line in proxy.lines_left() if line["run"] != run]
    hope("left again", sorted((line["lane"], line["session"]) for line in second), sorted((line["lane"], line["session"]) for line in first.values()))
    hope("kept again", {line.get("kept") for line in second}, {True})


def what_a_failing_disk_has_not_is_not_told_as_kept(proxy):
    """While the disk fails at the end nothing is told as kept; where it is back by then all is."""
    fails = proxy.room / "sync-fails"
    disk = {"LD_PRELOAD": built(proxy.room, "failing_disks"), "DISK_PATH": str(proxy.spool), "SYNC_FAILS": str(fails)}
    fails.touch()
    proxy.begin(**disk)
    proxy.ask(30)
    proxy.ask(3, lane=1)
    until("it is told", lambda: proxy.lines("spool-fault"))
    until("they are accepted", lambda: proxy.counter("accepted_total") == 33)
    proxy.leaves([30, 3], False)
    for file in proxy.ledger.iterdir():
        file.unlink()
    proxy.log.unlink()
    proxy.begin(**disk)
    proxy.ask(25)
    until("it is told", lambda: proxy.lines("spool-fault"))
    until("they are accepted", lambda: proxy.counter("accepted_total") >= 25)
    fails.unlink()
    until("it is told that it is back", lambda: proxy.lines("spool-back"))
    proxy.leaves([25, 0], True)


def an_end_waits_for_a_slow_disk_but_not_for_one_that_hangs(proxy):
    """Where each sync takes a second the end waits, and tells what it leaves as kept; where one takes a minute it ends, and tells none so."""
    hangs = proxy.room / "sync-hangs"
    disk = {"LD_PRELOAD": built(proxy.room, "slow_files"), "SLOW_PATH": str(proxy.spool)}
    proxy.begin(**disk, SLOW_SYNC="1000")
    proxy.ask(26)
    until("they are accepted", lambda: proxy.counter("accepted_total") == 26)
    began = time.monotonic()
    proxy.leaves([26, 0], True)
    need(time.monotonic() - began > 1, "it did not wait for the disk")
    for file in [*proxy.ledger.iterdir(), proxy.log]:
        file.unlink()
    proxy.begin(**disk, SLOW_SYNC="60000", SLOW_WHILE=str(hangs))
    until("they are accepted again", lambda: proxy.counter("accepted_total") == 26)
    hangs.touch()
    proxy.ask(1)
    until("one more is accepted", lambda: proxy.counter("accepted_total") == 27)
    proxy.leaves([27, 0], False)


def nothing_that_was_answered_comes_again(proxy):
    """Of three runs, two of which are killed, each gives the home server what the runs before had not answered, and nothing else."""
    proxy.begin()
    proxy.ask(90)
    hope("sessions", proxy.serve([90, 0]), [list(range(90)), []])
    proxy.ask(30)
    proxy.has_on_disk(120, 90)
    proxy.dies()
    proxy.begin()
    proxy.ask(10)
    hope("sessions", proxy.serve([40, 0]), [list(range(90, 130)), []])
    proxy.has_on_disk(130, 130)
    proxy.dies()
    proxy.begin()
    proxy.ask(1, lane=1)
    hope("sessions", proxy.serve([1, 1], patience=1.0), [[], [0]])


def a_repeat_of_what_an_earlier_run_answered_gets_the_same_octets(proxy):
    """A repeat within the span gets the octets of the run before, and the home server nothing; behind the span it goes to the home server."""
    proxy.file.write_text(proxy.configuration(HASTY + f"span = {1000 * SPAN}\n"), "utf-8")
    proxy.begin()
    asked = proxy.ask(3)
    proxy.serve([3, 0])
    given = proxy.responses(3)
    proxy.has_on_disk(3, 3)
    proxy.dies()
    proxy.begin()
    for octets in asked:
        proxy.nas.sendto(octets, proxy.listen)
    hope("responses", proxy.responses(3), given)
    proxy.homes[0].hear()
    hope("requests", len(proxy.homes[0].requests()), 0)
    until("they are counted", lambda: proxy.counter("client_repeats_total") == 3)
    time.sleep(SPAN + 0.5)
    proxy.nas.sendto(asked[1], proxy.listen)
    hope("sessions", proxy.serve([1, 0]), [[1], []])


def what_no_longer_passes_the_checks_is_told_and_stays(proxy):
    """Of clients whose secret changed what waits is told as dropped, and is offered once the secret is as before."""
    proxy.begin()
    proxy.ask(30)
    proxy.ask(4, lane=1)
    proxy.has_on_disk(34)
    proxy.dies()
    proxy.file.write_text(proxy.configuration(secret=b"another secret"), "utf-8")
    proxy.begin()
    until("it is told", lambda: len(proxy.lines("spool-dropped")) == 21)
    hope("the last line", proxy.lines("spool-dropped")[-1]["count"], "34")
    hope("reasons", {line.get("reason") for line in proxy.lines("spool-dropped")[:-1]}, {"BadAuthenticator"})
    proxy.dies()
    proxy.file.write_text(proxy.configuration(), "utf-8")
    proxy.begin()
    hope("sessions", proxy.serve([30, 4]), [list(range(30)), list(range(4))])


def what_finds_no_room_waits_and_nothing_overtakes_it(proxy):
    """Where a lane has less room than requests wait, each arrives in order, and a new one that its NAS repeats behind all."""
    proxy.begin()
    proxy.ask(300)
    proxy.has_on_disk(300)
    proxy.dies()
    proxy.file.write_text(proxy.configuration("first_wait = 500\ntries = 1\ndown_wait = 1000\nqueue = 16\n"), "utf-8")
    proxy.begin()
    last = proxy.ask(1)
    hope("sessions", proxy.serve([301, 0], again=last), [list(range(301)), []])
    need(proxy.counter("client_refused_total") <= 30, "it is offered where there is no room")


def new_requests_wait_behind_those_of_earlier_runs(proxy):
    """While requests of an earlier run wait for room new ones wait behind them, as many as the queue has places, and repeats of these count as such."""
    proxy.begin()
    proxy.ask(300)
    proxy.ask(3, lane=1)
    proxy.has_on_disk(303)
    proxy.dies()
    proxy.file.write_text(proxy.configuration(HASTY + f"queue = {QUEUE}\n"), "utf-8")
    proxy.begin()
    until("what has room is taken", lambda: proxy.counter("accepted_total") == QUEUE + WINDOW + 3)
    before = proxy.counter("client_refused_total")
    asked = proxy.ask(QUEUE + 4)
    until("four are refused", lambda: proxy.counter("client_refused_total") == before + 4)
    for octets in asked[:3]:
        proxy.nas.sendto(octets, proxy.listen)
    until("three are repeats", lambda: proxy.counter("client_repeats_total") == 3)
    hope("refused", proxy.counter("client_refused_total"), before + 4)
    hope("sessions", proxy.serve([300 + QUEUE, 3]), [list(range(300 + QUEUE)), list(range(3))])
    proxy.has_on_disk(303 + QUEUE, 303 + QUEUE)
    for home in proxy.homes:
        home.hear()
        home.came.clear()
    last = proxy.ask(1)
    hope("sessions", proxy.serve([1, 0]), [[session_in(last[0])], []])


def a_folder_of_another_process_or_for_others_is_refused(proxy):
    """A second process over the same folder, and one over a folder that others may read, end at once with a status of their own."""
    proxy.begin()
    proxy.ask(2)
    proxy.has_on_disk(2)
    (proxy.room / "other").mkdir()
    other = Resumed(proxy.program, proxy.room / "other")
    other.spool = proxy.spool
    hope("modes", {file.stat().st_mode & 0o777 for file in proxy.spool.iterdir()}, {0o600})
    hope("a held folder", other.is_refused(), "another process holds the folder")
    proxy.dies()
    proxy.spool.chmod(0o750)
    before = sorted((file.name, file.read_bytes()) for file in proxy.spool.iterdir())
    hope("a folder for others", other.is_refused(), "others than its owner may use the folder")
    hope("files", sorted((file.name, file.read_bytes()) for file in proxy.spool.iterdir()), before)
    proxy.spool.chmod(0o700)
    (proxy.spool / "lock").unlink()
    os.mkfifo(proxy.spool / "lock")
    proxy.begin()
    hope("a fifo as the lock", proxy.lines("spool-fault")[-1]["reason"], "can't lock")
    proxy.dies()
    (proxy.spool / "lock").unlink()
    proxy.begin()
    hope("sessions", proxy.serve([2, 0]), [[0, 1], []])


def a_spool_that_cannot_be_read_is_served_without(proxy):
    """Beside a segment of a later version, or in place of a folder, the program serves without a spool, tells it, and changes nothing."""
    proxy.begin()
    proxy.ask(2)
    proxy.has_on_disk(2)
    proxy.dies()
    later = segments.segment([[segments.entry(1, (segments.VERSION + 1, 3, 9))]])
    (proxy.spool / f"{9:016x}.spool").write_bytes(later)
    before = sorted((file.name, file.read_bytes()) for file in proxy.spool.iterdir())
    proxy.begin()
    proxy.ask(1)
    hope("sessions", proxy.serve([1, 0]), [[2], []])
    hope("told", proxy.lines("spool-fault")[-1]["reason"], "a later program wrote it")
    proxy.dies()
    hope("files", sorted((file.name, file.read_bytes()) for file in proxy.spool.iterdir()), before)
    (proxy.spool / f"{9:016x}.spool").unlink()
    whole = proxy.spool
    proxy.spool = proxy.room / "file"
    proxy.spool.write_text("no folder", "utf-8")
    proxy.begin()
    proxy.ask(1)
    hope("sessions", proxy.serve([1, 0]), [[3], []])
    need(proxy.lines("spool-fault")[-1]["reason"].startswith("can't make the folder"), "another reason")
    proxy.dies()
    proxy.spool = whole
    proxy.begin()
    hope("sessions", proxy.serve([2, 0]), [[0, 1], []])


def damage_is_told_and_the_rest_arrives(proxy):
    """A batch whose sum is wrong is told by segment and offset, what the others have arrives, and the file is kept under another name."""
    proxy.file.write_text(proxy.configuration(HASTY + "span = 1000\n"), "utf-8")
    proxy.begin()
    for number in range(4):
        proxy.ask(5)
        proxy.has_on_disk(5 * (number + 1))
    proxy.dies()
    (file,) = proxy.spool.glob("*.spool")
    octets = bytearray(file.read_bytes())
    damaged = next(batch for batch in segments.read(bytes(octets)) if any(name == "came" for name, _, _ in batch.entries))
    lost = [int(session_in(text)) for name, _, text in damaged.entries if name == "came"]
    octets[damaged.end - 1] ^= 1
    file.write_bytes(octets)
    proxy.begin()
    until("it is told", lambda: proxy.lines("spool-damage"))
    hope("told", [(line["segment"], line["offset"]) for line in proxy.lines("spool-damage")], [("1", str(damaged.offset))])
    wanted = [number for number in range(20) if number not in lost]
    hope("sessions", proxy.serve([len(wanted), 0]), [wanted, []])
    aside = file.with_name(file.name + ".damaged")
    until("it has another name", aside.exists)
    hope("the damaged file", aside.read_bytes(), bytes(octets))
    proxy.dies()
    proxy.begin()
    proxy.ask(1)
    hope("sessions", proxy.serve([1, 0]), [[20], []])
    hope("told", len(proxy.lines("spool-damage")), 1)


def a_disk_that_fails_is_told_once_and_the_service_goes_on(proxy):
    """While each sync fails requests are answered and it is told once; what is open then is on disk once it is told that it is back."""
    fails = proxy.room / "sync-fails"
    proxy.begin(LD_PRELOAD=built(proxy.room, "failing_disks"), DISK_PATH=str(proxy.spool), SYNC_FAILS=str(fails))
    proxy.ask(3)
    proxy.has_on_disk(3)
    fails.touch()
    proxy.ask(40)
    until("it is told", lambda: proxy.lines("spool-fault"))
    hope("sessions", proxy.serve([43, 0]), [list(range(43)), []])
    proxy.ask(6, lane=1)
    time.sleep(2.5)
    hope("lines", len(proxy.lines("spool-fault")), 1)
    fails.unlink()
    until("it is told that it is back", lambda: proxy.lines("spool-back"))
    proxy.dies()
    proxy.begin()
    hope("sessions", proxy.serve([0, 6]), [[], list(range(6))])


def a_full_disk_is_told_and_what_waits_is_on_disk_once_it_has_room(proxy):
    """While no write finds room requests are answered and it is told; what came meanwhile and waits is there for the next run once there is room."""
    full = proxy.room / "full"
    proxy.begin(LD_PRELOAD=built(proxy.room, "failing_disks"), DISK_PATH=str(proxy.spool), WRITE_FAILS=str(full))
    proxy.ask(3)
    proxy.has_on_disk(3)
    full.touch()
    proxy.ask(30)
    until("it is told", lambda: proxy.lines("spool-fault"))
    need(proxy.lines("spool-fault")[0]["reason"].startswith("can't write: No space left on device"), proxy.lines("spool-fault"))
    hope("sessions", proxy.serve([33, 0]), [list(range(33)), []])
    proxy.ask(4, lane=1)
    full.unlink()
    until("it is told that it is back", lambda: proxy.lines("spool-back"))
    proxy.ask(2, lane=1)
    until("all is on disk", lambda: len(proxy.kept()[0] - proxy.kept()[1]) == 6)
    proxy.dies()
    proxy.begin()
    hope("sessions", proxy.serve([0, 6]), [[], list(range(6))])


def a_folder_that_cannot_be_written_is_served_without_and_not_changed(proxy):
    """Where no lock can be taken, as on a disk that can only be read, the program serves without a spool, tells it, and what waits stays."""
    proxy.begin()
    proxy.ask(3)
    proxy.has_on_disk(3)
    proxy.dies()
    before = {file.name: file.read_bytes() for file in proxy.spool.iterdir()}
    if subprocess.run(["mount", "--bind", proxy.spool, proxy.spool], check=False, capture_output=True).returncode:
        raise LeftOut("no file system can be mounted")
    try:
        subprocess.run(["mount", "-o", "remount,bind,ro", proxy.spool], check=True)
        proxy.begin()
        proxy.ask(1)
        hope("sessions", proxy.serve([1, 0]), [[3], []])
        hope("why", proxy.lines("spool-fault")[-1]["reason"], "can't lock: Read-only file system (os error 30)")
        proxy.dies()
    finally:
        subprocess.run(["umount", proxy.spool], check=True)
    hope("files", {file.name: file.read_bytes() for file in proxy.spool.iterdir()}, before)
    proxy.begin()
    hope("sessions", proxy.serve([3, 0]), [[0, 1, 2], []])


def last_batch(octets):
    return list(segments.read(octets))[-1]


def with_body(octets, change):
    """A segment whose last batch has another body, with its right sum."""
    batch = last_batch(octets)
    body = change(octets[batch.offset + 9 : batch.end])
    return octets[: batch.offset] + b"\1" + segments.FRAME.pack(len(body), zlib.crc32(body)) + body + b"\0"


# What is done to the second of three segments.
DAMAGES = {
    "wrong sum": lambda octets: octets[: last_batch(octets).end - 1] + bytes([octets[last_batch(octets).end - 1] ^ 1]) + b"\0",
    "not entries": lambda octets: with_body(octets, lambda body: b"\11" + body[1:]),
    "cut short": lambda octets: octets[: last_batch(octets).end - 7],
    "no beginning": lambda octets: octets[next(segments.read(octets)).end :],
    "later version": lambda octets: segments.segment([[segments.entry(1, (segments.VERSION + 1, 3, 2))]])[:-1] + octets[next(segments.read(octets)).end :],
}


def each_damage_of_one_of_three_segments_is_told_and_the_rest_arrives(proxy):
    """Of three segments the second is damaged, in each way: that is told by segment, offset and name, and all else arrives in order."""
    for _ in range(3):
        proxy.begin()
        for _ in range(2):
            proxy.ask(2)
            proxy.has_on_disk(proxy.sent[0])
        proxy.dies()
    files = {file.name: file.read_bytes() for file in proxy.spool.glob("*.spool")}
    hope("files", sorted(files), [f"{number:016x}.spool" for number in (1, 2, 3)])
    for kind, damage in DAMAGES.items():
        for file in proxy.spool.glob("*.spool"):
            file.unlink()
        for name, octets in files.items():
            (proxy.spool / name).write_bytes(damage(octets) if name == f"{2:016x}.spool" else octets)
        proxy.log.write_text("")
        model = segments.spool_of(segments.in_folder(proxy.spool), 0, 0)
        hope("the fault", [(number, name) for number, _, name in model.faults], [(2, kind)])
        wanted = [session_in(text) for _, _, text in model.requests] if kind != "later version" else []
        need(kind in ("no beginning", "later version") or 8 <= len(wanted) < 12, "nothing is damaged")
        proxy.begin()
        hope(kind, proxy.serve([len(wanted), 1], again=proxy.ask(1, lane=1)), [wanted, [proxy.sent[1] - 1]])
        found = [(int(line["segment"]), int(line["offset"]), line["reason"]) for line in proxy.lines("spool-damage")]
        hope("told", found, model.faults if kind != "later version" else [])
        hope("why", [line["reason"] for line in proxy.lines("spool-fault")], ["a later program wrote it"] if kind == "later version" else [])
        proxy.dies()


def a_clock_that_was_set_between_two_runs_loses_nothing(proxy):
    """A run a day behind and one a day ahead of the run before give what waits, and answers are given again as long as the clock says."""
    clock = built(proxy.room, "wrong_clock")
    proxy.file.write_text(proxy.configuration(HASTY + LONG), "utf-8")
    proxy.begin()
    asked = proxy.ask(3)
    proxy.serve([3, 0])
    given = proxy.responses(3)
    proxy.ask(4)
    proxy.has_on_disk(7, 3)
    proxy.dies()
    proxy.begin(LD_PRELOAD=clock, CLOCK_AHEAD=str(-DAY))
    for octets in asked:
        proxy.nas.sendto(octets, proxy.listen)
    hope("responses", proxy.responses(3), given)
    hope("sessions a day behind", proxy.serve([4, 0]), [[3, 4, 5, 6], []])
    proxy.responses(4)
    proxy.ask(2)
    proxy.has_on_disk(9, 7)
    proxy.dies()
    proxy.begin(LD_PRELOAD=clock, CLOCK_AHEAD=str(DAY))
    proxy.ask(1, lane=1)
    hope("sessions a day ahead", proxy.serve([2, 1]), [[7, 8], [0]])
    proxy.nas.sendto(asked[1], proxy.listen)
    hope("sessions of what is no longer remembered", proxy.serve([1, 0]), [[1], []])


def drops(proxy, reason, count):
    """It starts, drops so many for this reason, and is killed."""
    proxy.log.write_text("")
    proxy.begin()
    until("they are told", lambda: len(proxy.lines("spool-dropped")) == count + 1)
    hope("why", {line.get("reason") for line in proxy.lines("spool-dropped") if "reason" in line}, {reason})
    proxy.dies()


def each_change_of_the_configuration_keeps_what_waits(proxy):
    """What waits stays while its client or its realm is gone, and goes to where its realm leads then: another address, another lane, another home server."""
    proxy.begin()
    for _ in range(3):
        proxy.ask(1)
        proxy.ask(1, lane=1)
    proxy.has_on_disk(6)
    proxy.dies()
    whole = proxy.configuration()
    proxy.file.write_text(proxy.configuration(clients=("192.0.2.7",)), "utf-8")
    drops(proxy, "UnknownClient", 6)
    proxy.file.write_text(whole.replace('name = "h1.example"', 'name = "h2.example"'), "utf-8")
    drops(proxy, "NoRealm", 3)
    proxy.homes[0], old = Home(), proxy.homes[0]
    servers = [Server(f"h{lane}", proxy.homes[lane].port, HASTY, None, SECRET.decode()) for lane in (1, 0)]
    realms = "".join(f'[[realm]]\nname = "h{lane}.example"\nhome = "h0"\n' for lane in range(2))
    proxy.file.write_text(configured(f"{HERE}:{proxy.port}", servers, secret=SECRET.decode()) + realms, "utf-8")
    proxy.begin()
    until("all came", lambda: len(proxy.homes[0].requests()) == 6)
    names = [next(value for kind, value, _ in attributes_of(packet.octets) if kind == USER_NAME) for packet, _ in proxy.homes[0].requests()]
    hope("who", names, [f"user-{number}@h{lane}.example".encode() for number in range(3) for lane in range(2)])
    for home in (old, proxy.homes[1]):
        home.hear()
        hope("at the others", len(home.came), 0)


def one_home_server_that_is_away_holds_up_no_other(proxy):
    """Of three home servers two get what waits for them while the third does not answer, and that one its own once it does, in order."""
    (proxy.room / "three").mkdir()
    three = Resumed(proxy.program, proxy.room / "three", count=3)
    try:
        three.begin()
        for lane, count in enumerate((20, 30, 170)):
            three.ask(count, lane)
        three.has_on_disk(220)
        three.dies()
        three.begin()
        away = three.homes.pop()
        hope("sessions", three.serve([20, 30]), [list(range(20)), list(range(30))])
        three.homes = [away]
        hope("sessions of the third", three.serve([170]), [list(range(170))])
    finally:
        three.stop()


def the_longest_request_arrives_whole(proxy):
    """A request that has just room for the mark arrives as it came, with its mark; one that is an octet longer was refused and is not there."""
    proxy.begin()
    name = user_name(b"user@h0.example") + attribute(ACCT_SESSION_ID, b"7")
    least = 20 + len(name)
    for length in (LONGEST - 1, LONGEST, LONGEST + 1):
        more = length - least
        parts = [253] * (more // 255) + [more % 255 - 2]
        octets = request(length % 256, name + b"".join(attribute(REPLY_MESSAGE, bytes([length % 256]) * part) for part in parts), SECRET)
        hope("octets", len(octets), length)
        proxy.nas.sendto(octets, proxy.listen)
    proxy.has_on_disk(2)
    hope("on disk", [len(text) for name, _, text in proxy.on_disk() if name == "came"], [LONGEST - 1, LONGEST])
    proxy.dies()
    proxy.begin()
    until("both came", lambda: len(proxy.homes[0].requests()) == 2)
    hope("octets at the home server", [len(packet.octets) for packet, _ in proxy.homes[0].requests()], [4095, 4096])


def a_drain_leaves_what_waits_in_the_spool(proxy):
    """At a drain what was taken is left as ever, and what waits for room stays for the next run, which gives all in order. Beside them a Status-Server is answered."""
    proxy.begin()
    proxy.ask(200)
    proxy.has_on_disk(200)
    proxy.dies()
    whole = proxy.file.read_text("utf-8")
    proxy.file.write_text(proxy.configuration(HASTY + f"queue = {QUEUE}\n"), "utf-8")
    proxy.begin()
    until("what has room is taken", lambda: proxy.counter("accepted_total") == QUEUE + WINDOW)
    asked = status(9, bytes(16), b"", b"", SECRET)
    proxy.nas.sendto(asked, proxy.listen)
    hope("response", proxy.responses(1), [answer(asked, 9, b"", SECRET)])
    proxy.ran.stdin.write(b"drain\n")
    proxy.ran.stdin.flush()
    hope("drain", [proxy.ran.stdout.readline() for _ in range(2)], [b"drain: 0 %d\n" % (QUEUE + WINDOW), b"drain: 1 0\n"])
    hope("end", proxy.ends(), f"end: queued {QUEUE} outstanding {WINDOW} untaken 0")
    hope("left", {line.get("kept") for line in proxy.lines_left()}, {True})
    came, answered = proxy.kept()
    hope("on disk", len(came - answered), 200)
    proxy.file.write_text(whole, "utf-8")
    for home in proxy.homes:
        home.hear()
        home.came.clear()
    proxy.begin()
    hope("sessions", proxy.serve([200, 0]), [list(range(200)), []])


def a_repeat_is_known_wherever_its_request_is(proxy):
    """In one run a repeat of what an earlier run answered gets its octets, and those of what was taken since and of what waits give the home server nothing."""
    proxy.file.write_text(proxy.configuration(HASTY + LONG), "utf-8")
    proxy.begin()
    old = proxy.ask(3, lane=1)
    proxy.serve([0, 3])
    given = proxy.responses(3)
    waiting = proxy.ask(200)
    proxy.has_on_disk(203, 3)
    proxy.dies()
    proxy.file.write_text(proxy.configuration(HASTY + LONG + f"queue = {QUEUE}\n"), "utf-8")
    proxy.begin()
    until("what has room is taken", lambda: proxy.counter("accepted_total") == QUEUE + WINDOW)
    before = proxy.counter("client_refused_total")
    for octets in (waiting[0], waiting[QUEUE], old[1], waiting[150], waiting[199]):
        proxy.nas.sendto(octets, proxy.listen)
    hope("response", proxy.responses(1)[0] in given, True)
    until("they are counted", lambda: proxy.counter("client_repeats_total") == 5)
    hope("refused", proxy.counter("client_refused_total"), before)
    hope("sessions", proxy.serve([200, 0]), [list(range(200)), []])
    proxy.has_on_disk(203, 203)


def a_spool_at_its_limit_is_told_and_the_service_goes_on(proxy):
    """With room for some octets alone the segments have no more, it is told, and requests are answered; of a limit that is no number it is told too."""
    proxy.begin(RAD_PROXY_SPOOL_LIMIT=str(LIMIT))
    proxy.ask(4)
    proxy.has_on_disk(4)
    proxy.ask(40)
    until("it is told", lambda: proxy.lines("spool-fault"))
    hope("why", proxy.lines("spool-fault")[0]["reason"], "the limit is reached")
    hope("sessions", proxy.serve([44, 0]), [list(range(44)), []])
    need(proxy.octets_on_disk() <= LIMIT, "more octets than may be")
    proxy.dies()
    proxy.log.write_text("")
    proxy.begin(RAD_PROXY_SPOOL_LIMIT="some")
    proxy.ask(1, lane=1)
    hope("sessions without a spool", proxy.serve([0, 1]), [[], [0]])
    hope("why", [line["reason"] for line in proxy.lines("spool-fault")], ["RAD_PROXY_SPOOL_LIMIT is no number"])


def a_full_spool_is_told_once(proxy):
    """What a silent home server has to get nearly fills the spool: that it is full is told once, and not that it is back, while another one answers."""
    proxy.begin(RAD_PROXY_SPOOL_LIMIT=str(LIMIT))
    silent = proxy.homes.pop()
    while proxy.octets_on_disk() <= LIMIT - LIMIT // 8:
        proxy.ask(1, lane=1)
        proxy.has_on_disk(proxy.sent[1])
    for first in range(0, 15, 3):
        proxy.ask(3)
        time.sleep(0.3)
        hope("sessions", proxy.serve([3]), [[first, first + 1, first + 2]])
        time.sleep(1.2)
    proxy.homes.append(silent)
    hope("how often it is told, and that it is back", (len(proxy.lines("spool-fault")), proxy.lines("spool-back")), (1, []))


def a_small_spool_lets_go_of_what_is_over(proxy):
    """A spool of less than a segment's greatest length lets go of what is over, also behind a request that stays open, which a kill leaves. Most
    answers stand in another segment than their requests."""
    proxy.file.write_text(proxy.configuration("first_wait = 60000\nwindow = 254\nspan = 0\n"), "utf-8")
    proxy.begin(RAD_PROXY_SPOOL_LIMIT=str(SMALL))
    proxy.ask(1, lane=1)
    proxy.has_on_disk(1)
    for turn in range(1, 6):
        proxy.ask(4 * BURST)
        until("they came", lambda: len(proxy.homes[0].requests()) == 4 * BURST * turn)
        time.sleep(0.1)
        for place, (packet, sender) in enumerate(proxy.homes[0].requests()[-4 * BURST:]):
            proxy.homes[0].answer(packet, sender)
            if place % BURST == BURST - 1:
                time.sleep(0.1)
    proxy.has_open_on_disk(1)
    until("what is over goes", lambda: proxy.octets_on_disk() < SMALL / 2)
    hope("faults", proxy.lines("spool-fault"), [])
    proxy.dies()
    proxy.begin(RAD_PROXY_SPOOL_LIMIT=str(SMALL))
    hope("sessions", proxy.serve([0, 1]), [[], [0]])


def each_segment_goes_once_all_of_it_is_over(proxy):
    """Of a spool whose requests are all answered, and whose answers are over, the newest segment alone stays."""
    proxy.file.write_text(proxy.configuration(HASTY + "span = 0\n"), "utf-8")
    proxy.begin(RAD_PROXY_SPOOL_LIMIT=str(SMALL))
    for first in range(0, 8 * BURST, BURST):
        proxy.ask(BURST)
        hope("sessions", proxy.serve([BURST, 0]), [list(range(first, first + BURST)), []])
        proxy.has_open_on_disk(0)
    until("what is over goes", lambda: len(list(proxy.spool.glob("*.spool"))) == 1)


def a_repeat_of_what_was_answered_does_not_wait_behind_others(proxy):
    """While requests of its lane wait for room a repeat of what an earlier run answered gets the same octets at once, and never comes again."""
    proxy.file.write_text(proxy.configuration(HASTY + LONG), "utf-8")
    proxy.begin()
    old = proxy.ask(3)
    proxy.serve([3, 0])
    given = proxy.responses(3)
    proxy.ask(200)
    proxy.has_on_disk(203, 3)
    proxy.dies()
    proxy.file.write_text(proxy.configuration(HASTY + LONG + f"queue = {QUEUE}\n"), "utf-8")
    proxy.begin()
    until("what has room is taken", lambda: proxy.counter("accepted_total") == QUEUE + WINDOW)
    proxy.nas.sendto(old[1], proxy.listen)
    hope("response", proxy.responses(1)[0] in given, True)


def a_folder_that_is_removed_is_told(proxy):
    """Where the folder is removed while it serves that is told, and what is left then is not told as kept."""
    proxy.begin()
    proxy.ask(5)
    proxy.has_on_disk(5)
    shutil.rmtree(proxy.spool)
    proxy.ask(5)
    until("they are accepted", lambda: proxy.counter("accepted_total") == 10)
    until("it is told", lambda: proxy.lines("spool-fault"))
    proxy.leaves([10, 0], bool(list(proxy.spool.glob("*.spool"))))


def what_was_answered_does_not_come_again_after_a_fault(proxy):
    """Of requests in a batch whose second sync failed, and that were answered before the spool was back, none comes again after an end in order."""
    fails = proxy.room / "gate-fails"
    proxy.file.write_text(proxy.configuration(HASTY + LONG), "utf-8")
    proxy.begin(LD_PRELOAD=built(proxy.room, "failing_disks"), DISK_PATH=str(proxy.spool), GATE_FAILS=str(fails))
    proxy.ask(3)
    proxy.serve([3, 0])
    proxy.has_on_disk(3, 3)
    fails.touch()
    proxy.ask(4)
    until("the sync failed", lambda: not fails.exists())
    hope("sessions", proxy.serve([4, 0]), [list(range(3, 7)), []])
    until("it is told", lambda: proxy.lines("spool-fault"))
    until("it is told that it is back", lambda: proxy.lines("spool-back"))
    proxy.responses(7)
    time.sleep(0.5)
    hope("end", proxy.ends(0), NOTHING_LEFT)
    proxy.begin()
    proxy.ask(1)
    hope("sessions of the next run", proxy.serve([2, 0], patience=3.0), [[7], []])


def a_segment_that_is_in_the_way_stays(proxy):
    """Where the file of the next segment is there already, as after a copy of a backup, it is told and that file stays."""
    proxy.begin()
    proxy.ask(5)
    proxy.has_on_disk(5)
    proxy.dies()
    (file,) = proxy.spool.glob("*.spool")
    octets = file.read_bytes()
    file.unlink()
    proxy.begin()
    file.write_bytes(octets)
    proxy.ask(1)
    until("all is on disk", lambda: any(other != file for other in proxy.spool.glob("*.spool")))
    hope("the other file", file.exists() and file.read_bytes(), octets)


def a_clock_that_was_ahead_once_does_not_fill_the_disk(proxy):
    """Where one run was a day ahead, the segments of later ones are removed all the same."""
    proxy.file.write_text(proxy.configuration(HASTY + "span = 1000\n"), "utf-8")
    proxy.begin(LD_PRELOAD=built(proxy.room, "wrong_clock"), CLOCK_AHEAD=str(DAY))
    for run in range(4):
        proxy.ask(2)
        proxy.serve([2, 0])
        proxy.has_on_disk(2 * run + 2, 2 * run + 2) if run == 0 else time.sleep(2.5)
        proxy.dies()
        proxy.begin()
    proxy.ask(1)
    until("the old ones are gone", lambda: len(list(proxy.spool.glob("*.spool"))) <= 2)


TESTS = [
    what_waits_at_a_kill_arrives_after_the_next_start, what_waits_at_an_end_in_order_arrives_too, each_request_that_a_run_takes_over_has_a_line,
    what_is_left_and_taken_over_is_joined, what_waits_for_room_has_no_line_yet, without_a_spool_a_ledger_is_as_before,
    an_answer_of_an_earlier_run_is_named_where_it_is_sent_again, what_is_left_is_told_as_kept,
    what_a_failing_disk_has_not_is_not_told_as_kept, an_end_waits_for_a_slow_disk_but_not_for_one_that_hangs, nothing_that_was_answered_comes_again,
    a_repeat_of_what_an_earlier_run_answered_gets_the_same_octets, what_no_longer_passes_the_checks_is_told_and_stays,
    what_finds_no_room_waits_and_nothing_overtakes_it, new_requests_wait_behind_those_of_earlier_runs, a_folder_of_another_process_or_for_others_is_refused, damage_is_told_and_the_rest_arrives,
    a_spool_that_cannot_be_read_is_served_without, a_disk_that_fails_is_told_once_and_the_service_goes_on,
    a_full_disk_is_told_and_what_waits_is_on_disk_once_it_has_room, a_folder_that_cannot_be_written_is_served_without_and_not_changed,
    each_damage_of_one_of_three_segments_is_told_and_the_rest_arrives, a_clock_that_was_set_between_two_runs_loses_nothing,
    each_change_of_the_configuration_keeps_what_waits, one_home_server_that_is_away_holds_up_no_other, the_longest_request_arrives_whole,
    a_drain_leaves_what_waits_in_the_spool, a_repeat_is_known_wherever_its_request_is, a_spool_at_its_limit_is_told_and_the_service_goes_on,
    a_full_spool_is_told_once, a_small_spool_lets_go_of_what_is_over, each_segment_goes_once_all_of_it_is_over, a_repeat_of_what_was_answered_does_not_wait_behind_others, a_folder_that_is_removed_is_told,
    what_was_answered_does_not_come_again_after_a_fault, a_segment_that_is_in_the_way_stays, a_clock_that_was_ahead_once_does_not_fill_the_disk,
]


def main():
    try_named(TESTS, Resumed, __doc__)


if __name__ == "__main__":
    main()
