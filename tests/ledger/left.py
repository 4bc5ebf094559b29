"""Ends the program with requests left, and compares log and ledger with what was sent.

usage: python3 -m tests.ledger.left PROGRAM [NAME ..]

Each test is a function below, and its first line tells what holds. Names choose tests. What is left is what the NAS sent and had no
answer to. A full disk is a small file system, where root runs this, and else told as left out. slow_files.c makes sends slow. The last line
is `N passed, M failed`.
"""
import json
import os
import re
import socket
import struct
import subprocess
import threading
import time
from collections import Counter
from dataclasses import dataclass
from datetime import UTC, datetime

from tests.lib import (ACCOUNTING_REQUEST, ACCT_SESSION_ID, ACCT_STATUS_TYPE, HERE, NOTHING_LEFT, PATIENCE, SECRET, TRIES, Home, LeftOut, Proxy, Server, attribute, bound,
                       built, configured, environment, free_port, hope, idle_until_end, is_so, need, request, try_named, until, user_name)

# A home server is marked down half a second after a request that it does not answer.
HASTY = "first_wait = 500\ntries = 1\ndown_wait = 600000\n"
# How many requests of a home server are logged, and in how many seconds all that is left has to be in the ledger.
LOGGED, WRITING = 20, 10.0
# How many home servers leave something at once, and how many requests each. What a slow reader reads at once, and the seconds from one time
# to the next. When the program ends at the latest where nobody reads: ten seconds after the first line, and one for the rest of it.
HOMES, EACH, READ, APART, LAST, LATE = 64, 30, 8192, 0.1, 11.0, 2.0
# For how many seconds a line waits for room at most.
WAITS = 5
# How many requests are left in the largest test, and in the one before it, and how many are sent before it is looked whether they came.
MANY, FEW, BURST = 100_000, 5000, 200
STATE = re.compile(r"queued (\d+) outstanding (\d+)")
KEYS = ["type", "run", "time", "home", "lane", "record", "client", "port", "identifier", "authenticator", "realm", "session", "status",
        "user", "state", "sendings", "accepted", "request", "sum"]


@dataclass(frozen=True)
class Asked:
    """A request of the NAS: its home server, its number among those of that one, and its octets."""

    home: str
    number: int
    port: int
    octets: bytes

    @property
    def user(self):
        return f"user-{self.home}-{self.number}@{self.home}.example"

    def line(self, lane):
        """What a line of the ledger has of it, whatever became of it."""
        return {
            "home": self.home, "lane": lane, "record": self.number, "client": HERE, "port": self.port, "identifier": self.octets[1],
            "authenticator": self.octets[4:20].hex(), "realm": f"{self.home}.example", "session": f"S{self.number}",
            "status": 1 + self.number % 3, "user": self.user, "request": self.octets.hex(),
        }


class Left(Proxy):
    """A program with home servers h0, h1 and so on, a NAS, and a folder for its ledger."""

    def __init__(self, program, room, count=2, limits=HASTY):
        self.room, self.folder, self.homes = room, room / "ledger", [Home() for _ in range(count)]
        self.folder.mkdir(exist_ok=True)
        self.nas, self.asked, port = bound(), {f"h{lane}": [] for lane in range(count)}, free_port()
        servers = [Server(f"h{lane}", home.port, f"queue = 65536\n{limits}", f"h{lane}.example", SECRET.decode()) for lane, home in enumerate(self.homes)]
        super().__init__(program, room, configured(f"{HERE}:{port}", servers, secret=SECRET.decode()), (HERE, port))
        self.began = time.time()

    def begin(self, stdin=subprocess.PIPE, errors=None, **more):
        """Starts the program, whose log may go elsewhere than to its file, and waits until it listens."""
        kept = {"RAD_PROXY_LEDGER": str(self.folder), "RAD_PROXY_COUNTERS": str(self.counters)}
        self.began = time.time()
        self.start(stdin=stdin, env=environment() | kept | more, **({} if errors is None else {"stderr": errors}))
        self.listens()

    def slow_writes(self, *libraries):
        """The variables by which each write of the ledger takes a while, so that what nobody waits for is not written."""
        loaded = [built(self.room, name) for name in ("slow_files", *libraries)]
        return {"LD_PRELOAD": ":".join(loaded), "SLOW_PATH": str(self.folder), "SLOW_WRITE": "400"}

    def ask(self, count, home="h0"):
        """Sends so many requests, and gives them."""
        new = []
        for number in range(len(self.asked[home]), len(self.asked[home]) + count):
            name = user_name(f"user-{home}-{number}@{home}.example".encode())
            attributes = name + attribute(ACCT_SESSION_ID, f"S{number}".encode()) + attribute(ACCT_STATUS_TYPE, bytes([0, 0, 0, 1 + number % 3]))
            new.append(Asked(home, number, self.nas.getsockname()[1], request(number % 256, attributes, SECRET)))
            self.nas.sendto(new[-1].octets, self.listen)
        self.asked[home] += new
        return new

    def answers(self, count, lane=0):
        """A home server answers what comes, as long as it had not so many requests."""
        home, place = self.homes[lane], 0
        while len(home.requests()) < count or place < len(home.came):
            home.hear(PATIENCE if place == len(home.came) else 0)
            need(place < len(home.came), "only", len(home.requests()), "requests came")
            home.answer(*home.came[place])
            place += 1

    def is_marked_down(self, home="h0"):
        until("it is marked down", lambda: len(self.lines("down", home)) > len(self.lines("up", home)))

    def state(self):
        """How many requests are queued and outstanding in each lane."""
        self.ran.stdin.write(b"state\n")
        self.ran.stdin.flush()
        lines = [self.ran.stdout.readline().decode() for _ in self.homes]
        return [tuple(map(int, STATE.search(line).groups())) for line in lines]

    def ends(self, status=3):
        """Closes its input, and gives its last line."""
        printed, _ = self.ran.communicate(timeout=PATIENCE)
        hope("status", self.ran.returncode, status)
        return printed.decode().splitlines()[-1]

    def idles_until_its_end(self):
        """Closes its input, and gives for how many seconds it did nothing until it ended."""
        self.ran.stdin.close()
        idle = idle_until_end(self.ran)
        hope("status", self.ran.returncode, 3)
        return idle

    def ledger(self, kind):
        """The lines of a type that stand in the ledger."""
        files = sorted(self.folder.glob("*.jsonl"))
        lines = [json.loads(line) for file in files for line in file.read_text("utf-8").splitlines()]
        return [line for line in lines if line["type"] == kind]

    def tells_in_the_ledger(self, wanted):
        """Each of these requests stands there once as left, with what it has and in its state, and no other. Gives the lines."""
        lines = self.ledger("left")
        hope("lines of left requests", len(lines), sum(map(len, wanted.values())))
        found = {(line["home"], line["record"]): line for line in lines}
        hope("that stand twice", len(lines) - len(found), 0)
        for state, requests in wanted.items():
            for each in requests:
                line = found[each.home, each.number]
                hope(f"request {each.number}", {key: line.get(key) for key in each.line(0)}, each.line(int(each.home[1:])))
                hope(f"state of {each.number}", line["state"], state)
                hope("its keys", list(line), [key for key in KEYS if key != "sendings" or state != "untaken"])
                hope("its sendings", line.get("sendings"), {"queued": 0, "outstanding": 1, "untaken": None}[state])
                accepted = moment_of(line["accepted"])
                hope("its acceptance is within the run", self.began - 1 < accepted < time.time() + 1, True)
        entries = {(line["home"], line["record"]) for line in self.ledger("entry")}
        hope("both answered and left", entries & set(found), set())
        hope("runs", len({line["run"] for line in lines}) <= 1, True)
        return lines

    def tells_in_the_log(self, wanted):
        """At most so many of each home server's stand there, each as it is, and then how many others there are. No user does."""
        for home in self.asked:
            states = {each.number: (state, each) for state, requests in wanted.items() for each in requests if each.home == home}
            lines = self.lines("left", home)
            logged, others = [line for line in lines if "number" in line], [line for line in lines if "number" not in line]
            hope("how many are logged", len(logged), min(len(states), LOGGED))
            hope("how many others", [line["count"] for line in others], [str(len(states) - LOGGED)] if len(states) > LOGGED else [])
            hope("the others come last", lines[len(logged) :], others)
            hope("that are logged twice", len(logged) - len({line["number"] for line in logged}), 0)
            for line in logged:
                state, each = states[int(line["number"])]
                keys = ["level", "event", "home", "lane", "number", "client", "client_port", "identifier", "session", "status", "state",
                        *([] if state == "untaken" else ["sendings"]), "age"]
                hope("its keys", list(line), keys)
                found = (line["level"], line["lane"], line["client"], line["client_port"], line["identifier"], line["session"], line["status"],
                         line["state"])
                has = each.line(home[1:])
                hope(f"request {each.number}", found, ("warn", has["lane"], has["client"], str(has["port"]), str(has["identifier"]), has["session"],
                                                       str(has["status"]), state))
        hope("users in the log", "user-" in self.log.read_text(), False)

    def tells(self, wanted):
        """The log and the ledger tell of these requests, by their states."""
        self.tells_in_the_log(wanted)
        return self.tells_in_the_ledger(wanted)

    def stop(self):
        self.kill()
        subprocess.run(["umount", "-q", str(self.folder)], check=False, stderr=subprocess.DEVNULL)


def has_a_dead_home(trial):
    """Of 60 requests the home server answers the first 30, then none: 15 are outstanding and 15 queued."""
    trial.ask(30)
    trial.answers(30)
    for _ in range(30):
        trial.nas.recv(4096)
    outstanding = trial.ask(15)
    trial.is_marked_down()
    queued = trial.ask(15)
    until("they are accepted", lambda: trial.counter("accepted_total") == 60)
    return {"outstanding": outstanding, "queued": queued}


def names_all_that_a_dead_home_leaves(trial):
    """Of 60 requests, half of which were answered, the other half stand in the log and the ledger once each, with their own names."""
    trial.begin()
    wanted = has_a_dead_home(trial)
    hope("the last line", trial.ends(), "end: queued 15 outstanding 15 untaken 0")
    trial.tells(wanted)
    hope("entries", [line["user"] for line in trial.ledger("entry")], [each.user for each in trial.asked["h0"][:30]])
    (end,) = trial.ledger("end")
    hope("the end line", end["lanes"], [{"lane": 0, "entries": 30, "accepted": 60, "left": 30}, {"lane": 1, "entries": 0, "accepted": 0, "left": 0}])


def names_what_was_answered_and_not_taken(trial):
    """A request whose response the front had no time to take is told as untaken, with the octets that it came with."""
    trial.begin(LD_PRELOAD=built(trial.room, "slow_files"), SLOW_PORT=str(trial.nas.getsockname()[1]), SLOW_SEND="1500")
    asked = trial.ask(8)
    trial.answers(8)
    time.sleep(0.5)
    last = trial.ends()
    untaken = int(last.rpartition(" ")[2])
    hope("some are untaken", untaken > 0, True)
    hope("the last line", last, f"end: queued 0 outstanding 0 untaken {untaken}")
    trial.tells({"untaken": asked[8 - untaken :]})
    hope("the end line", trial.ledger("end")[0]["lanes"][0], {"lane": 0, "entries": 8 - untaken, "accepted": 8, "left": untaken})


def names_those_of_each_home(trial):
    """Those of two home servers are told by their own names, and the one that is beyond twenty of the first is counted."""
    trial.begin()
    outstanding = trial.ask(19) + trial.ask(3, "h1")
    trial.is_marked_down()
    trial.is_marked_down("h1")
    queued = trial.ask(1, "h1") + trial.ask(2)
    until("they are accepted", lambda: trial.counter("accepted_total") == 25)
    hope("the last line", trial.ends(), "end: queued 3 outstanding 22 untaken 0")
    trial.tells({"outstanding": outstanding, "queued": queued})


def tells_nothing_where_nothing_is_left(trial):
    """An end with nothing left has no such line."""
    trial.begin()
    trial.ask(5)
    trial.answers(5)
    for _ in range(5):
        trial.nas.recv(4096)
    hope("the last line", trial.ends(0), NOTHING_LEFT)
    trial.tells({})
    hope("the end line", trial.ledger("end")[0]["lanes"][0], {"lane": 0, "entries": 5, "accepted": 5, "left": 0})


def logs_them_without_a_ledger(trial):
    """Without a ledger the log names what is left all the same, and at once where it has room: no line waits five seconds for that."""
    trial.begin(RAD_PROXY_LEDGER="")
    wanted = has_a_dead_home(trial)
    need((idle := trial.idles_until_its_end()) < WAITS, "it waited", idle, "seconds")
    trial.tells_in_the_log(wanted)
    hope("the folder", list(trial.folder.iterdir()), [])


def counts_them_beside_entries(trial):
    """Where responses and requests that are left wait for the same write, each is counted as written: nothing is told as not written."""
    trial.begin(**trial.slow_writes())
    until("the first line", lambda: trial.ledger("begin"))
    trial.ask(9)
    trial.ask(6, "h1")
    until("all came", lambda: len(trial.homes[0].requests()) == 9 and len(trial.homes[1].requests()) == 6)
    trial.answers(6, 1)
    for _ in range(6):
        trial.nas.recv(4096)
    hope("the last line", trial.ends(), "end: queued 0 outstanding 9 untaken 0")
    hope("lines", (len(trial.ledger("entry")), len(trial.ledger("left"))), (6, 9))
    hope("told as not written", trial.lines("ledger-left") + trial.lines("ledger-missing"), [])


def names_them_after_an_input_fault(trial):
    """Where the input fails, what is left is told as at an end, and the run has no line that ends it."""
    listener = socket.create_server((HERE, 0))
    near = socket.create_connection(listener.getsockname())
    far, _ = listener.accept()
    with listener, far:
        trial.begin(stdin=far, **trial.slow_writes())
    wanted = has_a_dead_home(trial)
    near.setsockopt(socket.SOL_SOCKET, socket.SO_LINGER, struct.pack("ii", 1, 0))
    near.close()
    hope("status", trial.ran.wait(PATIENCE), 4)
    trial.tells(wanted)
    hope("end lines", trial.ledger("end"), [])


def names_them_after_an_output_fault(trial):
    """Where the output is closed, what is left is told as at an end, and the run has no line that ends it."""
    trial.begin(**trial.slow_writes())
    wanted = has_a_dead_home(trial)
    trial.ran.stdout.close()
    trial.ran.stdin.write(b"state\n")
    trial.ran.stdin.flush()
    hope("status", trial.ran.wait(PATIENCE), 4)
    trial.tells(wanted)
    hope("end lines", trial.ledger("end"), [])


def names_them_after_a_clock_fault(trial):
    """Where the clock fails once, at the end of the input, what is left is told as at an end, and the run has no line that ends it."""
    fails = trial.room / "fails"
    trial.begin(CLOCK_FAILS=str(fails), **trial.slow_writes("wrong_clock"))
    wanted = has_a_dead_home(trial)
    fails.touch()
    printed, _ = trial.ran.communicate(timeout=PATIENCE)
    hope("status and output", (trial.ran.returncode, printed), (4, b""))
    need("clock: failed" in trial.log.read_text().splitlines(), trial.log.read_text())
    trial.tells(wanted)
    hope("end lines", trial.ledger("end"), [])


def tells_that_it_can_tell_nothing(trial):
    """Where memory is refused at the end, the log tells that, and names nothing; neither does the ledger, and the run has no end line."""
    switch = trial.room / "switch"
    trial.begin(LD_PRELOAD=built(trial.room, "refused_memory"), REFUSE_WHILE=str(switch))
    has_a_dead_home(trial)
    switch.touch()
    printed, _ = trial.ran.communicate(timeout=PATIENCE)
    hope("status and output", (trial.ran.returncode, printed), (4, b""))
    need("memory: refused" in trial.log.read_text().splitlines(), trial.log.read_text())
    hope("what is told", [(line["level"], line["reason"]) for line in trial.lines("left-untold")], [("error", "memory was refused")])
    hope("what is named", (trial.lines("left"), trial.ledger("left"), trial.ledger("end")), ([], [], []))


def tells_how_each_answered_request_was_handled(trial):
    """Each entry has how often its request was sent, in all rounds, and when it was accepted; lanes, clients and requests are told apart.
    Here lane N is answered once each request of it came N + 1 times, that of lane 3 in its second round."""
    many = Left(trial.program, trial.room, 4, "first_wait = 300\ntries = 3\ndown_wait = 1000\nprobe_every = 1000\n")
    clients = [many.nas, bound("127.0.0.2"), bound("127.0.0.3")]
    text = many.file.read_text("utf-8")
    one = text[text.index("[[client]]"):text.index("[[home]]")]
    many.file.write_text(text.replace(one, "".join(one.replace(HERE, nas.getsockname()[0]) for nas in clients)), "utf-8")
    try:
        many.begin()
        sent = {}
        for number, many.nas in enumerate(clients):
            for lane in reversed(range(4)):
                before = time.time()
                (asked,) = many.ask(1, f"h{lane}")
                until("it comes", lambda: len(many.homes[lane].requests()) == number + 1)
                sent[lane, number] = before, time.time(), asked
        for lane, home in enumerate(many.homes):
            until("they came so often", lambda: min(Counter(times_of(home)).values()) > lane)
            last = {packet.octets: (packet, sender) for packet, sender in home.came if packet.code == ACCOUNTING_REQUEST}
            for packet, sender in last.values():
                home.answer(packet, sender)
        until("all are answered", lambda: len(many.ledger("entry")) == 12)
        many.ends(0)
        for entry in many.ledger("entry"):
            lane, number = entry["lane"], entry["record"]
            before, after, asked = sent[lane, number]
            hope("whose it is", (entry["client"], entry["port"], entry["session"]), (clients[number].getsockname()[0], asked.port, f"S{number}"))
            hope("its last keys", list(entry)[-3:], ["accepted", "sendings", "sum"])
            hope(f"the sendings of {lane} {number}", entry["sendings"], times_of(many.homes[lane]).count(bytes.fromhex(entry["sent"])))
            hope("as many as were waited for", entry["sendings"] > lane, True)
            accepted = moment_of(entry["accepted"])
            hope("it is accepted when it came", before - 0.001 <= accepted <= min(after, moment_of(entry["time"])), True)
    finally:
        many.stop()


def times_of(home):
    """The requests that came to a home server, each as often as it came."""
    home.hear()
    return [packet.octets for packet, _ in home.came if packet.code == ACCOUNTING_REQUEST]


def moment_of(text):
    return datetime.strptime(text, "%Y-%m-%dT%H:%M:%S.%fZ").replace(tzinfo=UTC).timestamp()


def counts_the_one_that_it_could_not_write(trial):
    """One entry alone is counted, and so is one request that is left."""
    trial.folder.rmdir()
    trial.folder.write_text("no folder")
    trial.begin()
    trial.ask(1)
    trial.answers(1)
    trial.nas.recv(4096)
    trial.ends(0)
    told = ["level", "count", "left"]
    hope("one entry", [[line.get(key) for key in told] for line in trial.lines("ledger-left")], [["error", "1", None]])
    trial.log.write_text("")
    trial.begin()
    trial.ask(1)
    until("it is accepted", lambda: trial.state()[0] != (0, 0))
    trial.ends()
    hope("one request", [[line.get(key) for key in told] for line in trial.lines("ledger-left")], [["error", "0", "1"]])


def counts_what_it_could_not_write(trial):
    """Where the folder is a file, the log tells how many lines of requests that are left were not written."""
    trial.folder.rmdir()
    trial.folder.write_text("no folder")
    trial.begin()
    wanted = has_a_dead_home(trial)
    trial.ends()
    hope("what is told", [(line["level"], line["count"], line["left"]) for line in trial.lines("ledger-left")], [("error", "30", "30")])
    trial.tells_in_the_log(wanted)


def counts_what_a_full_disk_took_not(trial):
    """Where the disk is full, what stands in the ledger and what the log tells as not written are all that is left."""
    if os.getuid() != 0:
        raise LeftOut("it wants root")
    mounted = subprocess.run(["mount", "-t", "tmpfs", "-o", "size=64k", "none", trial.folder], check=False, capture_output=True)
    if mounted.returncode:
        raise LeftOut("no file system can be mounted")
    trial.begin()
    trial.ask(1)
    trial.is_marked_down()
    send_many(trial, 2000)
    trial.ends()
    lines = [line for file in sorted(trial.folder.glob("*.jsonl")) for line in file.read_bytes().split(b"\n")[:-1]]
    written = sum(json.loads(line)["type"] == "left" for line in lines)
    hope("what is told", [(line["count"], line["left"]) for line in trial.lines("ledger-left")], [("0", str(2001 - written))])
    hope("some are written", 0 < written < 2001, True)


def send_many(trial, count, home="h0"):
    """Sends so many requests, each until it is accepted."""
    lane, sent = int(home[1:]), len(trial.asked[home])
    while sent < count + 1:
        new = trial.ask(min(BURST, count + 1 - sent), home)
        sent += len(new)
        if not is_so(lambda: sum(trial.state()[lane]) == sent, 2.0):
            for each in new:
                trial.nas.sendto(each.octets, trial.listen)
                time.sleep(0.0005)
            until("they are accepted", lambda: sum(trial.state()[lane]) == sent)


def writes_all_of_many(trial):
    """A hundred thousand requests that are left are in the ledger within ten seconds, each once; on a busy machine as many as it writes in
    half of that, and where those were too many after all, which is told, half as many."""
    took = seconds_of_many(trial, FEW)
    need(took, "the first ones were too many")
    count = min(MANY, int(FEW * WRITING / 2 / took))
    for halved in range(TRIES):
        took = seconds_of_many(trial, (count >> halved) // 2 * 2)
        print(f"{(count >> halved) // 2 * 2} requests that are left:", f"it ended {took:.1f} s after its input" if took else "too many", flush=True)
        if took:
            return
    need(took, f"not in {TRIES} tries")


def seconds_of_many(trial, count):
    """How long it takes until so many requests are in the ledger that are left, in the log and each once. None where not all were written, and
    where that is told."""
    room = trial.room / str(count)
    room.mkdir()
    many = Left(trial.program, room)
    try:
        many.begin()
        for home in many.asked:
            many.ask(1, home)
            many.is_marked_down(home)
            send_many(many, count // 2 - 1, home)
        began = time.monotonic()
        last = many.ends()
        took = time.monotonic() - began
        hope("the last line", last, f"end: queued {count - 2} outstanding 2 untaken 0")
        hope("the log", [len(many.lines("left", home)) for home in many.asked], [LOGGED + 1] * 2)
        lines, unwritten = many.ledger("left"), many.lines("ledger-left")
        if unwritten:
            hope("what is written or told", len(lines) + sum(int(line["left"]) for line in unwritten), count)
            return None
        see_each_once(many, lines, count)
        return took
    finally:
        many.stop()


def see_each_once(trial, lines, count):
    """Each request that is left has a line, by its own number, and the last line counts them."""
    hope("each once", Counter((line["home"], line["request"]) for line in lines),
         Counter((each.home, each.octets.hex()) for requests in trial.asked.values() for each in requests))
    hope("by its own number", {(line["home"], line["record"], line["user"]) for line in lines},
         {(each.home, each.number, each.user) for requests in trial.asked.values() for each in requests})
    hope("the end line", trial.ledger("end")[0]["lanes"],
         [{"lane": lane, "entries": 0, "accepted": count // 2, "left": count // 2} for lane in range(2)])


class SlowReader:
    """A pipe, of which a thread reads a little at a time, and what it has read."""

    def __init__(self):
        self.end, self.errors = os.pipe()
        self.text = b""
        self.thread = threading.Thread(target=self.read)

    def read(self):
        while octets := os.read(self.end, READ):
            self.text += octets
            time.sleep(APART)

    def begins(self):
        """From now on it reads, until the program has ended."""
        os.close(self.errors)
        self.thread.start()

    def all(self):
        """All that came."""
        self.thread.join()
        os.close(self.end)
        return self.text


def leaves_much(trial, errors=None, **more):
    """A program of many home servers, none of which answers: each has as many requests outstanding."""
    many = Left(trial.program, trial.room, HOMES, "first_wait = 60000\n")
    many.begin(errors=errors, **more)
    for home in many.asked:
        many.ask(EACH, home)
        until("they are sent", lambda: many.state()[int(home[1:])] == (0, EACH))
    return many


def names_those_of_many_homes(trial):
    """Of 64 home servers with 30 requests each, 20 of each are in the log, and how many others there are; the ledger has all."""
    many = leaves_much(trial)
    try:
        hope("the last line", many.ends(), f"end: queued 0 outstanding {HOMES * EACH} untaken 0")
        many.tells({"outstanding": [each for requests in many.asked.values() for each in requests]})
        hope("lost lines", many.lines("lines-dropped"), [])
    finally:
        many.stop()


def names_them_to_a_slow_reader(trial):
    """So it is where the log goes to a pipe that is read slowly: each line comes, with a ledger and without one."""
    for folder in (str(trial.folder), ""):
        reader = SlowReader()
        many = leaves_much(trial, reader.errors, RAD_PROXY_LEDGER=folder)
        try:
            reader.begins()
            many.ends()
            many.log.write_bytes(reader.all())
            many.tells_in_the_log({"outstanding": [each for requests in many.asked.values() for each in requests]})
            hope("lost lines", many.lines("lines-dropped"), [])
        finally:
            many.stop()


def ends_where_nobody_reads(trial):
    """Where the log goes to a pipe that nobody reads, the program ends ten seconds later at the latest, and the ledger has all."""
    end, errors = os.pipe()
    many = leaves_much(trial, errors)
    try:
        need((idle := many.idles_until_its_end()) < LAST + LATE, "it waited", idle, "seconds")
        many.tells_in_the_ledger({"outstanding": [each for requests in many.asked.values() for each in requests]})
    finally:
        os.close(end)
        os.close(errors)
        many.stop()


TESTS = [
    names_all_that_a_dead_home_leaves, names_what_was_answered_and_not_taken, names_those_of_each_home,
    tells_nothing_where_nothing_is_left, logs_them_without_a_ledger, counts_them_beside_entries, names_them_after_an_input_fault, names_them_after_an_output_fault,
    names_them_after_a_clock_fault, tells_that_it_can_tell_nothing, counts_what_it_could_not_write,
    counts_the_one_that_it_could_not_write, counts_what_a_full_disk_took_not, names_those_of_many_homes,
    names_them_to_a_slow_reader, tells_how_each_answered_request_was_handled, ends_where_nobody_reads, writes_all_of_many,
]


def main():
    try_named(TESTS, Left, __doc__)


if __name__ == "__main__":
    main()
