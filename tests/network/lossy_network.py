"""Runs the program over UDP, between NASes and home servers of its own and over a network that loses.

usage: python3 -m tests.network.lossy_network PROGRAM                    short runs of a fixed count of requests, one for each ending and one more
       python3 -m tests.network.lossy_network PROGRAM --seconds N SEED   one run of N seconds, by a seed; SIGTERM ends it earlier
       python3 -m tests.network.lossy_network PROGRAM --kills N SEED     N runs, each killed at a random moment

The network drops, doubles, delays and spoils datagrams in both directions, and home servers go away and come back, silent
or with their ports closed. At the end both sides' logs are compared: each acknowledged request is at its home server, with
its own attributes, under one identifier and one authenticator; first sendings came in the order of acceptance, as far as
a home server could receive them; each response was right, answered its own request and was what the home server had
replied. Some requests for the last home server, that of `other_home`, have realms that are not listed. Where a repeat came to its home
server as a new request, `span` was over. Then the input ends, and the `end:` line
and the status have to agree with what the sides know. The program writes a ledger: each response that came to a NAS stands there
once, and audit_model.py has to find it whole. All of this holds however slow the machine is. The endings:

    calm      all is acknowledged
    away      a home server answers nothing any more, and some requests are left over
    drain     the input ends while requests are out; each that was accepted is answered before the program ends
    kill      the program is killed. Of its ledger only responses of the last 100 ms may be missing, and of these those behind the
              last entry of a lane: audit_model.py has to find it open. Half a second is left to a busy machine, but in most of the
              runs nothing may be missing from before these 100 ms

In one of the short runs some hundred growths of the program are refused in its midst; its log has to say so, and all else has to
hold. The last line is `N passed, M failed`, of acknowledged requests and faults.
"""
import json
import os
import pathlib
import random
import re
import signal
import sys
import tempfile
import time
import tomllib
from dataclasses import dataclass

from tests.lib import HERE, Proxy, Refuser, audit_model, free_port, lossy

ENDINGS = ["calm", "away", "drain"]
REQUESTS, SEED = 1500, 1
REFUSED = {"FIRST": 5000, "LAST": 6000}
IN_FLIGHT, MOST_A_SECOND = 450, 500
LEFT_OVER = 20
IDENTIFIERS = 256
# How long is waited for what has to come: much longer than it takes, since a slow machine is no fault of the program.
PATIENCE, AFTERWARDS = 600, 0.3
SPARE_LINES, SPARE_LINES_A_SECOND = 1000, 3
# An entry is written within this time, and half a second more is left to the machine.
WRITTEN, SLACK = 0.1, 0.5
LONGEST_LIFE = 4.0
LINGER = {"calm": 300_000, "away": 500, "drain": 300_000, "kill": 0}
WINDOWS, PORTS, SPANS = [300, 4, 40], [2, 1, 1], [60, 60, 20]
LIMITS = [
    "ring = 256\nbook = 1000000",
    "queue = 20\nring = 3\nbook = 1000000",
    "ring = 40\ntries = 1\nbook = 1500",
]
ROUNDS = "first_wait = 200\nprobe_every = 1000\ndown_wait = 1500"
STATE = re.compile(r"lane (\d+) \S+ (?:up|down) \w+ accepted (\d+) queued (\d+) outstanding (\d+) answered (\d+) opening (\d+)")


@dataclass
class Counted:
    """What a state line counts of a lane."""

    lane: int
    accepted: int
    queued: int
    outstanding: int
    answered: int
    opening: int


class Program(Proxy):
    """The program under `run`, with its commands and what it prints, over a loop."""

    def __init__(self, loop, program, folder, text, listen, settings):
        super().__init__(program, folder, text, listen)
        self.start(bufsize=0, env=settings)
        self.loop, self.text, self.is_open = loop, b"", True
        loop.watch(self.ran.stdout, self.read)

    def read(self):
        octets = self.ran.stdout.read(65536)
        self.text += octets
        if not octets:
            self.is_open = False
            self.loop.forget(self.ran.stdout)

    def told(self):
        """The lines that it printed."""
        return self.text.decode("utf-8", "replace").splitlines()

    def has_line(self, begin):
        return any(line.startswith(begin) for line in self.told())

    def states(self, lanes):
        """Asks for the state lines, and waits for them."""
        self.text = b""
        self.ran.stdin.write(b"state\n")
        self.loop.run_until(lambda: self.text.count(b"\n") >= lanes or not self.is_open, PATIENCE)
        return [Counted(*map(int, found.groups())) for line in self.told() if (found := STATE.fullmatch(line))]

    def ends(self):
        """Ends its input, and gives its last line and its status."""
        self.text = b""
        self.ran.stdin.close()
        if not self.loop.run_until(lambda: not self.is_open, PATIENCE):
            self.ran.kill()
        return (self.told() or [""])[-1], self.ran.wait()


class Soak:
    """One run: the sides, the network between them and the program."""

    def __init__(self, program, folder, seed, ending, refuser=None):
        self.chance, self.ending, self.refuser = random.Random(f"{seed} {ending}"), ending, refuser
        self.loop, self.findings = lossy.Loop(), lossy.Findings()
        self.network = lossy.Network(self.loop, self.chance)
        self.homes = [self.home(lane) for lane in range(len(LIMITS))]
        self.homes[-1].has_others = True
        self.listen = (HERE, free_port())
        self.nases = [self.nas(number) for number in range(3)]
        self.ledger = pathlib.Path(folder, "ledger")
        self.ledger.mkdir()
        settings = (refuser.settings(REFUSED) if refuser else os.environ) | {"RAD_PROXY_LEDGER": str(self.ledger)}
        self.program = Program(self.loop, program, folder, self.configuration(), self.listen, settings)
        self.late = 0.0
        self.made, self.credit, self.is_asking, self.began = 0, 0, False, time.monotonic()

    def home(self, lane):
        name, secret, shared = f"h{lane}", f"home-{lane}-secret".encode(), (self.loop, self.network, self.findings)
        return lossy.LoggedHome(*shared, lane, name, secret, WINDOWS[lane], SPANS[lane], self.chance)

    def nas(self, number):
        address, secret = f"127.0.0.{11 + number}", f"nas-{number}-secret".encode()
        return lossy.LoggedNas(self.loop, self.network, self.findings, f"n{number}", address, secret, self.listen, self.chance)

    def configuration(self):
        parts = [f'listen = "{self.listen[0]}:{self.listen[1]}"\nlinger = {LINGER[self.ending]}\nother_home = "{self.homes[-1].name}"']
        parts += [f'[[client]]\naddress = "{nas.port.address[0]}"\nsecret = "{nas.secret.decode()}"' for nas in self.nases]
        parts += [
            f'[[home]]\nname = "{home.name}"\naddress = "127.0.0.1:{home.port.address[1]}"\n'
            f'secret = "{home.secret.decode()}"\n'
            f'window = {home.window}\nports = {PORTS[home.lane]}\nspan = {1000 * home.span}\n{LIMITS[home.lane]}\n{ROUNDS}'
            for home in self.homes
        ]
        parts += [f'[[realm]]\nname = "{home.realm}"\nhome = "{home.name}"' for home in self.homes]
        return "\n\n".join(parts) + "\n"

    def out(self):
        """How many requests are not acknowledged."""
        return sum(len(nas.out) for nas in self.nases)

    def ask(self, home):
        """One request more, of a NAS that has an identifier for it."""
        nas = self.chance.choice([nas for nas in self.nases if nas.free])
        nas.ask(home)
        self.made += 1

    def ask_more(self):
        """New requests, as long as few enough are out, and a Status-Server now and then."""
        self.credit = min(self.credit + MOST_A_SECOND / 100, 50)
        while self.is_asking and self.credit >= 1 and self.out() < IN_FLIGHT:
            self.credit -= 1
            self.ask(self.chance.choices(self.homes, [8, 1, 1])[0])
        if self.is_asking:
            if self.chance.random() < 0.05:
                self.chance.choice(self.nases).ask_status()
            self.loop.later(0.01, self.ask_more)

    def come_and_go(self, home):
        """A home server goes away for a while, and comes back for a while."""
        if not self.is_asking:
            return
        if home.is_away:
            home.come_back()
        else:
            home.go_away(self.chance.random() < 0.5)
        seconds = self.chance.uniform(0.2, 3) if home.is_away else self.chance.uniform(2, 8)
        self.loop.later(seconds, lambda: self.come_and_go(home))

    def run(self, is_enough, seconds):
        """The whole run, of which the asking ends when it is enough."""
        if not self.loop.run_until(lambda: self.program.has_line("listening "), PATIENCE):
            self.findings.fault(f"the program does not listen; it wrote {self.program.log.read_bytes()[-400:]}")
            self.program.ends()
            return
        self.is_asking = True
        self.ask_more()
        for home in self.homes:
            self.loop.later(self.chance.uniform(1, 4), lambda home=home: self.come_and_go(home))
        self.loop.run_until(lambda: is_enough(self) or not self.program.is_open, seconds)
        self.is_asking, self.network.is_calm = False, True
        for home in self.homes:
            home.come_back()
        getattr(self, f"end_{self.ending}")()
        self.compare()

    def is_quiet(self):
        """Whether all is acknowledged and nothing on its way."""
        return self.out() == self.network.under_way == 0

    def counts(self):
        """What the program counts of each lane, and what it has to count by the logs once nothing is on its way."""
        counted = self.program.states(len(self.homes))
        for lane in counted:
            lane.opening = 0
        return counted, [Counted(home.lane, len(home.sessions), 0, 0, len(home.sessions), 0) for home in self.homes]

    def settle(self):
        """Waits until it is quiet, and compares the counts of each lane with the logs."""
        if not self.loop.run_until(lambda: self.is_quiet() or not self.program.is_open, PATIENCE):
            self.findings.fault(f"{self.out()} requests are not acknowledged though all home servers are back")
        counted, wanted = self.counts()
        if counted != wanted:
            self.findings.fault(f"the program counts {counted}, and the home servers have {wanted}")

    def end_calm(self):
        self.settle()
        self.agree(*self.program.ends(), "end: queued 0 outstanding 0 untaken 0", 0)

    def end_away(self):
        """A home server is silent, and some requests for it are left over."""
        self.settle()
        home = self.chance.choice(self.homes)
        wanted = len(home.sessions) + LEFT_OVER
        home.go_away(False)
        for _ in range(LEFT_OVER):
            self.ask(home)
        if not self.loop.run_until(lambda: self.program.states(len(self.homes))[home.lane].accepted == wanted, PATIENCE):
            self.findings.fault(f"the program does not accept {LEFT_OVER} requests more for a silent home server")
        line, status = self.program.ends()
        outstanding = sum(not known.is_answered for known in home.log.values())
        self.agree(line, status, f"end: queued {LEFT_OVER - outstanding} outstanding {outstanding} untaken 0", 3)

    def end_drain(self):
        """The input ends while requests are out; what was accepted is answered."""
        self.findings.counts["out when the input ended"] = self.out()
        line, status = self.program.ends()
        self.loop.run_until(lambda: False, AFTERWARDS)
        self.agree(line, status, "end: queued 0 outstanding 0 untaken 0", 0)
        for home in self.homes:
            if not all(known.is_answered for known in home.log.values()):
                self.findings.fault(f"{home.name} has requests that it did not answer, and none is left over")

    def end_kill(self):
        self.program.kill()
        self.killed = time.monotonic()

    def agree(self, line, status, wanted_line, wanted_status):
        if (line, status) != (wanted_line, wanted_status):
            self.findings.fault(f"it ended in {line!r} with status {status}; wanted {wanted_line!r} and {wanted_status}")

    def audit(self):
        """What the auditor says of the ledger, and whether each response that came to a NAS stands there once."""
        audit, entries = audit_model.Audit(tomllib.loads(self.configuration())), []
        for file in sorted(self.ledger.glob("*.jsonl")):
            octets = file.read_bytes()
            audit.read(file.name, octets)
            lines = map(json.loads, octets.split(b"\n")[:-1])
            entries += [lossy.key_of(bytes.fromhex(line["response"])) for line in lines if line["type"] == "entry"]
        audit.end()
        verdict = "open" if self.ending == "kill" else "whole"
        for line in audit.printed:
            if " accepted " not in line and not line.endswith(f" {verdict}") and not (self.ending == "kill" and line.endswith(": torn")):
                self.findings.fault(f"the ledger: {line}")
        self.findings.counts["entries of its ledger"] = len(entries)
        known = set(entries)
        if len(known) != len(entries):
            self.findings.fault(f"of its ledger's entries {len(entries) - len(known)} stand there twice")
        came = zip(self.findings.keys, self.findings.moments)
        self.judge_missing([moment for key, moment in came if key not in known], len(audit.printed))

    def judge_missing(self, missing, lanes):
        """Whether so few responses may be missing from the ledger, by the moments when they came."""
        self.findings.counts["responses missing from its ledger"] = len(missing)
        if self.ending == "kill":
            self.late = max((self.killed - moment for moment in missing), default=0.0)
            if self.late > WRITTEN + SLACK:
                self.findings.fault(f"a response of {self.late:.3f} s before the kill is missing from its ledger")
        elif missing or lanes < len(self.homes):
            self.findings.fault(f"{len(missing)} responses are missing from its ledger, which has {lanes} lanes")

    def compare(self):
        """What both sides' logs show together."""
        counts = self.findings.counts
        for home in self.homes:
            numbers = [number for _, number in sorted(zip(*home.in_order))]
            counts["requests whose order is known"] += len(numbers)
            if numbers != sorted(numbers):
                self.findings.fault(f"{home.name}: requests of one sending each were not accepted in the order of sending")
            ports = len({known.identity[0] for known in home.log.values()})
            if ports > PORTS[home.lane] or ports < PORTS[home.lane] and len(home.sessions) > IDENTIFIERS:
                self.findings.fault(f"{home.name}: requests came from {ports} source ports")
            if self.ending not in ("away", "kill") and sorted(home.sessions) != list(range(len(home.sessions))):
                self.findings.fault(f"{home.name}: a request was accepted that never came")
        self.audit()
        log = self.program.log.read_bytes()
        if self.refuser and not (self.refuser.has_refused() and b"OutOfMemory" in log):
            self.findings.fault("no growth was refused, or its log tells of none")
        passed_on = sum(counts[f"datagrams {which}"] for which in ("of NASes", "to NASes", "to home servers", "of home servers"))
        lines = log.count(b"\n")
        counts["lines of its log"] = lines
        if lines > passed_on + SPARE_LINES + SPARE_LINES_A_SECOND * (time.monotonic() - self.began):
            self.findings.fault(f"its log has {lines} lines, for {passed_on} datagrams")


def ran(program, seed, ending, is_enough, seconds, is_refusing=False):
    """One run: how many requests were acknowledged, and how many faults were found."""
    begin = time.monotonic()
    with tempfile.TemporaryDirectory() as folder:
        soak = Soak(program, folder, seed, ending, Refuser(folder) if is_refusing else None)
        try:
            soak.run(is_enough, seconds)
        finally:
            soak.program.kill()
    counts, faults = soak.findings.counts, soak.findings.faults
    how = f"{ending}, growths refused" if is_refusing else ending
    told = ", ".join(f"{name} {count}" for name, count in (*counts.items(), *soak.network.counts.items()))
    print(f"seed {seed}, {how}, {time.monotonic() - begin:.0f} seconds: {told}", *faults, sep="\n  ", flush=True)
    return counts["acknowledged"], counts["faults"], soak.late


def killed(program, count, seed):
    """So many runs that are killed: how many requests were acknowledged, and how many faults were found."""
    chance = random.Random(seed)
    runs = [ran(program, f"{seed}-{number}", "kill", lambda _: False, chance.uniform(0.05, LONGEST_LIFE)) for number in range(count)]
    late = sum(run[2] > WRITTEN for run in runs)
    if late > count // 4:
        print(f"in {late} of {count} runs a response of more than {WRITTEN} s before the kill is missing")
    return sum(run[0] for run in runs), sum(run[1] for run in runs) + (late > count // 4)


def has_made_enough(soak):
    return soak.made >= REQUESTS


def main():
    words = sys.argv[1:]
    if len(words) == 1:
        runs = [(SEED, ending, has_made_enough, PATIENCE) for ending in ENDINGS]
        runs.append((SEED, "calm", has_made_enough, PATIENCE, True))
    elif len(words) == 4 and words[1] == "--kills":
        runs = []
    elif len(words) == 4 and words[1] == "--seconds":
        ended = []
        signal.signal(signal.SIGTERM, lambda *_: ended.append(True))
        runs = [(int(words[3]), ENDINGS[int(words[3]) % len(ENDINGS)], lambda soak: bool(ended), int(words[2]))]
    else:
        sys.exit(__doc__)
    program = str(pathlib.Path(words[0]).resolve())
    if runs:
        passed, failed, _ = map(sum, zip(*(ran(program, *run) for run in runs)))
    else:
        passed, failed = killed(program, int(words[2]), words[3])
    print(f"{passed} passed, {failed} failed")
    sys.exit(1 if failed or not passed else 0)


if __name__ == "__main__":
    main()
