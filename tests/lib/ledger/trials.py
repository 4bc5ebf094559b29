"""A program that writes a ledger, with both of its sides, and a time of day that is set while it runs."""
import json
import pathlib
import re
import statistics
import subprocess
import time
import tomllib
from datetime import UTC, datetime

from tests.lib import (ACCT_SESSION_ID, HERE, HOME_SECRET, NAS_SECRET, START, Proxy, answer, attribute, audit_model, bound, built,
                       configuration, environment, free_port, hope, request, until)
from tests.lib.ledgers import sum_after
from tests.lib.waiting import stalled

PATIENCE = 60
TOLD = re.compile("level=info event=ledger-file run=([0-9a-f]{16}) file=([0-9]+) entries=([0-9]+) sum=([0-9a-f]{64})")
# How many requests are outstanding at most, how long one is waited for before it is sent again, and how many seconds an answer
# may take: the program answers in a millisecond, and this machine may do something else meanwhile.
OUTSTANDING, AGAIN, LATE = 32, 1.0, 2.0
# A write is due within 100 ms, and a sync within a second. This much more is left to the machine.
WRITTEN, SYNCED, SLACK = 0.1, 1.0, 0.4
# The middle answer beside a ledger that fails is at most this many times that of a program without one, and this much later. Where for so
# many of the seconds in which it was asked the program waited for a processor, all of this may take three times as long, and the middle ten.
TIMES, LATER, BUSY = 1.5, 0.05, 0.5
# For how many seconds it tries to write what is not written at its end.
LAST = 10.0


class Trial(Proxy):
    """A program with one client and one home server, both on this side, and a folder for its ledger."""

    def __init__(self, program, room):
        self.room, self.folder, port = room, room / "ledger", free_port()
        self.folder.mkdir(exist_ok=True)
        self.home, self.nas = bound(), bound()
        super().__init__(program, room, configuration(port, client=HERE, home_port=self.home.getsockname()[1], linger=1000), (HERE, port))
        self.made, self.delays, self.resident = 0, [], 0
        # For how many seconds it was asked, and waited for a processor meanwhile.
        self.passed, self.waited = 0.0, 0.0
        # What the client was told, by the moment when it came, and what the home server said.
        self.told, self.said = {}, set()

    def begin(self, before=None, stdin=subprocess.PIPE, **variables):
        """Starts the program, and waits until it listens."""
        kept = {"RAD_PROXY_LEDGER": str(self.folder), "RAD_PROXY_COUNTERS": str(self.counters)}
        self.start_printing(environment() | kept | variables, preexec_fn=before, stdin=stdin)

    def ask(self, count, more=b"", seconds=PATIENCE, own=b""):
        """Sends so many requests, with these attributes of their own, and answers them; each is sent until it is acknowledged. Gives how many
        were in this time."""
        self.home.setblocking(False)
        self.nas.setblocking(False)
        began, before = time.monotonic(), stalled(self.ran.pid)
        waiting, left, last = {}, count, began + seconds
        while (waiting or left) and time.monotonic() < last and self.ran.poll() is None:
            while left and len(waiting) < OUTSTANDING:
                identifier, self.made, left = self.made % 256, self.made + 1, left - 1
                octets = request(identifier, START + attribute(ACCT_SESSION_ID, f"S{self.made}".encode()) + own, NAS_SECRET)
                now = time.monotonic()
                waiting[identifier] = [octets, now, now]
                self.nas.sendto(octets, self.listen)
            if not self.serve(more) + self.hear(waiting):
                self.repeat(waiting)
                time.sleep(0.0005)
        if self.ran.poll() is None:
            self.passed, self.waited = self.passed + time.monotonic() - began, self.waited + stalled(self.ran.pid) - before
        return count - left - len(waiting)

    def serve(self, more):
        """The home server answers what came, with more attributes."""
        for count in range(OUTSTANDING):
            try:
                octets, proxy = self.home.recvfrom(4096)
            except BlockingIOError:
                return count
            reply = answer(octets, octets[1], octets[-12:] + more, HOME_SECRET)
            self.said.add(reply.hex())
            self.home.sendto(reply, proxy)
        return OUTSTANDING

    def hear(self, waiting):
        """The client takes down what it was told."""
        for count in range(OUTSTANDING):
            try:
                octets = self.nas.recv(4096)
            except (BlockingIOError, ConnectionError):
                return count
            asked = waiting.pop(octets[1], None)
            if asked is not None:
                self.delays.append(time.monotonic() - asked[1])
                self.told[octets.hex()] = time.monotonic()
        return OUTSTANDING

    def repeat(self, waiting):
        for asked in waiting.values():
            if time.monotonic() > asked[2] + AGAIN:
                asked[2] = time.monotonic()
                self.nas.sendto(asked[0], self.listen)

    def ends(self, status=0, seconds=1.0):
        """Closes its input, and sees that it ends in so many seconds from its `end:` line on, or not much later: one that tries what it need
        not takes LAST."""
        self.ran.stdin.close()
        until("its last line", lambda: "end: " in self.printed.read_text())
        began = time.monotonic()
        hope("status", self.ran.wait(PATIENCE), status)
        ended = time.monotonic() - began
        if ended > seconds + LAST / 2:
            raise AssertionError(f"it ended {ended:.1f} s after its last line")

    def files(self, folder=None):
        return sorted((folder or self.folder).glob("*.jsonl"), key=lambda file: file.name[11:])

    def ledger_lines(self, files=None):
        """The lines that stand whole."""
        return [read_line(file, line) for file in files or self.files() for line in file.read_bytes().split(b"\n")[:-1]]

    def entries(self, files=None):
        return [line for line in self.ledger_lines(files) if line["type"] == "entry"]

    def sums(self, files=None):
        """The sum of the run's last whole line. Each line has that of its own octets behind the one before, over all files."""
        before = bytes(32)
        for file in files or self.files():
            for line in file.read_bytes().split(b"\n")[:-1]:
                body, told = last_key(file, line)
                before = sum_after(before, body)
                hope("the sum of a line", told, before.hex())
        return before.hex()

    def told_sums(self):
        """What is logged of the sums: file, entries and sum of each."""
        found = [TOLD.fullmatch(line).groups() for line in self.events("ledger-file")]
        hope("the run", {run for run, *_ in found}, {self.ledger_lines()[0]["run"]})
        return [(int(file), int(entries), its) for _, file, entries, its in found]

    def log_lines(self):
        """The lines of the log, but for those of sums."""
        return [line for line in self.log.read_text().splitlines() if "event=ledger-file" not in line]

    def verdict(self, files=None):
        """What the auditor says of the one lane, and its findings before."""
        audit = audit_model.Audit(tomllib.loads(self.file.read_text()))
        for file in files or self.files():
            audit.look_ahead(file.read_bytes())
        for file in files or self.files():
            audit.read(file.name, file.read_bytes())
        audit.end()
        hope("wrong lines", [line for line in audit.printed if line.split(": ")[-1] in REASONS], [])
        return [line.partition("not judged 0 ")[2] for line in audit.printed if "not judged" in line][-1]

    def is_all_there(self, verdict="whole", files=None):
        """Each response that the client was told stands in the ledger once, with a reply of the home server's, and the auditor's
        verdict is this one."""
        entries = self.entries(files)
        responses = [entry["response"] for entry in entries]
        hope("entries that stand twice", len(responses), len(set(responses)))
        hope("acknowledged and not in the ledger", len(set(self.told) - set(responses)), 0)
        hope("replies that the home server did not send", {entry["reply"] for entry in entries} - self.said, set())
        hope("verdict", self.verdict(files), verdict)

    def events(self, word):
        return [line for line in self.log.read_text().splitlines() if f"event={word}" in line]

    def number(self, name):
        """A metric of the last text. The first one is waited for."""
        until("the counters", self.counters.exists)
        found = re.search(rf"^rad_proxy_{name} ([0-9.]+)$", self.counters.read_text(), re.MULTILINE)
        return float(found[1]) if found else None

    def answers_as_without(self, more=b""):
        """No answer was late, and the middle one took no longer than that of a program without a ledger does now."""
        late, later = (3 * LATE, 10 * LATER) if self.waited > BUSY * self.passed else (LATE, LATER)
        if max(self.delays) > late:
            raise AssertionError(f"an answer took {max(self.delays):.1f} s")
        middle, without = statistics.median(self.delays), statistics.median(self.without(len(self.delays), more).delays)
        if middle > TIMES * without + later:
            raise AssertionError(f"the middle answer took {1000 * middle:.2f} ms, and {1000 * without:.2f} ms without a ledger")

    def without(self, count, more=b""):
        """A trial of the program without a ledger, which was asked so much and has ended; it knows how much memory it had."""
        room = self.room / "without"
        room.mkdir(exist_ok=True)
        other = Trial(self.program, room)
        try:
            other.begin(RAD_PROXY_LEDGER="")
            other.ask(count, more)
            other.memory()
            other.ends()
        finally:
            other.stop()
        return other

    def memory(self):
        """How many octets of memory the program has."""
        status = pathlib.Path(f"/proc/{self.ran.pid}/status").read_text()
        self.resident = 1024 * int(re.search(r"VmRSS:\s+(\d+) kB", status)[1])
        return self.resident

    def stop(self):
        self.kill()
        subprocess.run(["umount", "-q", str(self.folder)], check=False, stderr=subprocess.DEVNULL)


TAIL = re.compile(rb',"sum":"([0-9a-f]{64})"\}')


def last_key(file, line):
    """What stands in a line before its sum, and the sum, which is the last of its keys."""
    tail = TAIL.fullmatch(line, max(len(line) - 74, 0))
    if tail is None:
        raise AssertionError(f"{file.name} has a line without a sum: {line[:60]!r}")
    return line[:tail.start()], tail[1].decode()


def read_line(file, line):
    """What a line of a file has."""
    try:
        return json.loads(line)
    except ValueError as fault:
        raise AssertionError(f"{file.name} has a line that is no JSON: {line[:60]!r}") from fault


REASONS = {"NotEntry", "NoPacket", "WrongSent", "WrongRequest", "WrongReply", "WrongResponse", "SerialNotAbove", "UnknownLane", "RecordTwice", "UnknownRecord", "WrongWords",
           "FileAgain", "OtherLanes", "WrongSum"}


class Steered:
    """A time of day that this test sets while the program runs. It begins at noon of a day, and days are counted from that one."""

    def __init__(self, trial, *preloads, **variables):
        self.file, self.noon = trial.room / "ahead", (int(time.time()) // 86_400 + 1) * 86_400 + 43_200
        self.set(0)
        preloaded = ":".join(str(built(trial.room, name)) for name in ("wrong_clock", *preloads))
        trial.begin(LD_PRELOAD=preloaded, CLOCK_FILE=str(self.file), **variables)
        until("the first file", trial.files)

    def set(self, days, seconds=0):
        """Sets it to so many days and seconds after that noon."""
        beside = self.file.with_suffix(".new")
        beside.write_text(str(self.noon + 86_400 * days + seconds - int(time.time())))
        beside.replace(self.file)

    def set_before_midnight(self, days):
        """Sets it to a second or two before the end of the day that is so many after the first."""
        self.set(days, 43_200 - 2)

    def date(self, days):
        """The date of the day that is so many after the first, as a line has it."""
        return datetime.fromtimestamp(self.noon + 86_400 * days, UTC).date().isoformat()
