"""Has `rad_ledger` read ledgers that are made, and compares what it tells with what was put into them.

usage: python3 -m tests.tools.ledger PROGRAM [--long | NAME ..]

PROGRAM is rad_proxy. The auditor is beside it, or where `make build` leaves it. Names choose tests, and `--long` those with a ledger of
a gigabyte. What fails or is left out is told, and the last line is `N passed, M failed`. One test wants FreeRADIUS.
"""
import contextlib
import csv
import functools
import gzip
import importlib.machinery
import importlib.util
import io
import itertools
import json
import os
import pathlib
import pty
import random
import re
import resource
import signal
import socket
import sqlite3
import subprocess
import sys
import threading
import time
from collections import Counter, defaultdict
from dataclasses import dataclass

from tests.lib import (ACCT_SESSION_ID, ACCT_STATUS_TYPE, PROXY_STATE, TOP, Lane, LeftOut, Run, attribute, audit_model, environment,
                       free_ports, hope, is_asked, mark, need, packets, request, started, text, try_in_folders, until, user_name)
from tests.lib.ledgers import chained, sum_of
from tests.lib.tools import running
from tests.lib.tools.running import TOOLS, want

sys.path.insert(0, str(TOOLS))
sys.dont_write_bytecode = True

INPUT_OCTETS, OUTPUT_OCTETS, SESSION_TIME, INPUT_GIGAWORDS, OUTPUT_GIGAWORDS = 42, 43, 46, 52, 53
HOMES = {"billing": b"one home secret", "spare": b"another home secret"}
CLIENTS = {"192.0.2.10": b"nas-secret", "192.0.2.11": b"second-secret"}
CONFIG = ('listen = "127.0.0.1:1813"\n'
          + "".join(f'[[client]]\naddress = "{it}"\nsecret = "{secret.decode()}"\n' for it, secret in CLIENTS.items())
          + "".join(f'[[home]]\nname = "{it}"\naddress = "198.51.100.20:1813"\nsecret = "{secret.decode()}"\n'
                    for it, secret in HOMES.items()))
COLUMNS = ("file", "line", "run", "lane", "serial", "record", "time", "client", "port", "identifier", "home", "realm", "session", "user",
           "status", "input", "output", "seconds", "state")
START, STOP, INTERIM = 1, 2, 3
# Stands for the status of a ledger of which nothing is missing, as these tests make it; and for that of a comparison of one that finds a
# difference, which does not hide the auditor's.
WHOLE, DIFFERS = "whole", "differs"


def auditor_of(program):
    """The auditor beside a program."""
    beside = pathlib.Path(program).parent / "rad_audit"
    return str(beside if beside.exists() else TOP / "crates" / "rad_audit" / "out" / "rad_audit")


@functools.cache
def tool_itself():
    """The tool, as a module."""
    loader = importlib.machinery.SourceFileLoader("rad_ledger", str(TOOLS / "rad_ledger"))
    made = importlib.util.module_from_spec(importlib.util.spec_from_loader("rad_ledger", loader))
    loader.exec_module(made)
    return made


@dataclass(frozen=True)
class Record:
    """What a test knows of a record that it put into a ledger."""

    place: str
    time: str
    home: str
    client: str
    user: bytes
    session: bytes
    status: int
    volumes: tuple
    serial: int
    number: int
    run: str
    identifier: int
    port: int


def volumes_of(octets_in, octets_out, seconds):
    """The attributes of volumes, with gigawords where they are needed."""
    made = attribute(SESSION_TIME, seconds.to_bytes(4, "big"))
    for low, high, count in ((INPUT_OCTETS, INPUT_GIGAWORDS, octets_in), (OUTPUT_OCTETS, OUTPUT_GIGAWORDS, octets_out)):
        made += attribute(low, (count % 2**32).to_bytes(4, "big"))
        made += attribute(high, (count >> 32).to_bytes(4, "big")) if count >> 32 else b""
    return made


class Ledger:
    """A run of two lanes in a file, and the records that are in it."""

    def __init__(self, folder, run, name=None, moment=0):
        self.made = Run(run, [Lane(at, home, secret) for at, (home, secret) in enumerate(HOMES.items())], moment)
        self.path = pathlib.Path(folder, name or f"{run:016x}-000000.jsonl")
        self.lines, self.records = [self.made.begin()], []

    def add(self, session=b"S1", status=START, user=b"bob@example.org", client="192.0.2.10", home=0, volumes=None):
        """A record that was answered."""
        lane = self.made.lanes[home]
        number, serial = lane.record, lane.serial
        more = volumes_of(*volumes) if volumes else b""
        line = self.made.entry(home, (client, CLIENTS[client]), user, session, status, more)
        self.lines.append(line)
        self.records.append(Record(f"{self.path}:{len(self.lines)}", line["time"], lane.home, client, user, session, status, volumes,
                                   serial, number, line["run"], line["identifier"], line["port"]))

    def write(self, is_whole=True):
        self.path.write_bytes(self.octets(is_whole))
        return self

    def octets(self, is_whole=True):
        return text([*self.lines, *([self.made.end_of_all()] if is_whole else [])]).encode()


class Stage:
    """A folder with a configuration, in which the tool is run."""

    def __init__(self, program, folder):
        self.folder, self.program, self.auditor = pathlib.Path(folder), program, auditor_of(program)
        self.config = self.write("rad_proxy.toml", CONFIG.encode())
        ran = subprocess.run([self.auditor, "--rows", self.config, "/dev/null"], capture_output=True, check=False)
        need(b"usage:" not in ran.stderr, f"{self.auditor} has no --rows")
        made = Ledger(folder, 1, "whole")
        self.whole = subprocess.run([self.auditor, self.config, made.write().path], capture_output=True, check=False).returncode
        made.path.unlink()

    def write(self, name, octets):
        path = self.folder / name
        path.write_bytes(octets)
        return str(path)

    def words(self, command, *words):
        words = [os.fsdecode(it) if isinstance(it, bytes) else str(it) for it in words]
        return [command, *([] if "--program" in words else ["--program", self.auditor]), *words]

    def ran(self, command, *words, **how):
        """What became of a call, in a process of its own."""
        return running.run("rad_ledger", *self.words(command, *words), seconds=300, **how)

    def told(self, status, command, *words, **how):
        """What a call prints on both outputs, and its status has to be this. With `how` it is in a process of its own."""
        status = self.whole if status is WHOLE else (self.whole or 11) if status is DIFFERS else status
        if not how:
            found, out, err = self.inside(command, *words)
        else:
            ran = self.ran(command, *words, **how)
            found, out, err = ran.returncode, ran.stdout.decode(), ran.stderr.decode()
        hope(f"the status of {words}: {out} {err}", found, status)
        hope("a traceback", "Traceback" in err, False)
        return out, err

    def found(self, *words):
        """The places of the records that are found, in order."""
        return re.findall(r"^  evidence: (.*)$", self.told(WHOLE, "find", *words)[0], re.MULTILINE)

    def inside(self, command, *words):
        """Status, output and errors of a call in this process, which is faster."""
        import calling

        out, err = io.StringIO(), io.StringIO()
        with contextlib.redirect_stdout(out), contextlib.redirect_stderr(err):
            sys.argv[1:], kept = self.words(command, *words), sys.argv[1:]
            try:
                status = calling.status_of("rad_ledger", tool_itself().main)
            finally:
                sys.argv[1:] = kept
        return status, out.getvalue(), err.getvalue()


def two_runs(folder):
    """Two runs, of which the later one has the lower name: sessions of several users, clients, home servers, realms and days."""
    first, second = Ledger(folder, 0xB000000000000000), Ledger(folder, 0xA000000000000000, moment=3_600_000)
    first.add(b"S1", START)
    first.add(b"S1", INTERIM, volumes=(10, 20, 30))
    first.add(b"S2", START, b"eve@Example.NET", "192.0.2.11", 1)
    first.add(b"S1", STOP, volumes=(2**32 + 5, 7, 60))
    second.add(b"S1", STOP, volumes=(2**32 + 5, 7, 60))
    second.add(b"S2", STOP, b"eve@example.net", "192.0.2.11", 1, volumes=(1, 2, 3))
    second.add(b"", START, b"nobody")
    second.add(b"S3", None, b"")
    second.add(b"S1", STOP, client="192.0.2.11", volumes=(2**32 + 5, 7, 60))
    second.add(b"S1", STOP, volumes=(2**32 + 5, 7, 61))
    return first.write(), second.write()


def records_are_found(program, folder):
    """By each word, alone and together, and by times, whatever the order of the files."""
    stage = Stage(program, folder)
    runs = two_runs(folder)
    records = [it for run in runs for it in run.records]
    paths = [run.path for run in reversed(runs)]
    cases = {
        (): lambda it: True,
        ("--session", "S1"): lambda it: it.session == b"S1",
        ("--user", "eve@example.net"): lambda it: it.user == b"eve@example.net",
        ("--client", "192.0.2.11"): lambda it: it.client == "192.0.2.11",
        ("--home", "billing"): lambda it: it.home == "billing",
        ("--realm", "EXAMPLE.net"): lambda it: it.user.lower().endswith(b"@example.net"),
        ("--session", "S1", "--home", "spare"): lambda it: False,
        ("--session", "S2", "--user", "eve@example.net"): lambda it: it.user == b"eve@example.net" and it.session == b"S2",
        ("--day", "2026-01-31"): lambda it: True,
        ("--day", "2026-01-30"): lambda it: False,
        ("--since", "2026-01-31T01"): lambda it: it.run.startswith("a"),
        ("--until", "2026-01-31T01:00:00Z"): lambda it: it.run.startswith("b"),
        ("--since", records[1].time, "--until", records[3].time): lambda it: it in records[1:3],
        ("--session", "nobody"): lambda it: False,
        ("--session", "-"): lambda it: False,
    }
    for words, fits in cases.items():
        hope(str(words), stage.found(*words, stage.config, *paths), [it.place for it in records if fits(it)])


PARAGRAPHS = """start of session 4f2a, user bob@example.org, realm example.org
  came from 192.0.2.10 port 40000 with Identifier 0
  record 0 of lane 0, home server billing, run 0123456789abcdef
  answer 0 of the lane, handed over to be sent at 2026-01-31T00:00:00.500Z
  this session and status came once
  octets in -, octets out -, seconds -
  evidence: EXAMPLE:2

1 record
the searched ledger is whole
run 0123456789abcdef lane 0 billing from 0 entries 4 not judged 0 whole
run 0123456789abcdef lane 0 billing accepted 4 answered 4 left 0
"""


def paragraphs_have_all(program, folder):
    """The paragraph of a record, its volumes, and how often the same session and status came, also where the time is not asked for."""
    stage = Stage(program, folder)
    ledger, config = TOP / "examples" / "one-home.jsonl", TOP / "examples" / "one-home.toml"
    out, _ = stage.told(0, "find", "--session", "4f2a", "--until", "2026-01-31T00:00:00.600", config, ledger)
    hope("the example", out, PARAGRAPHS.replace("EXAMPLE", str(ledger)))
    first, second = two_runs(folder)
    out, _ = stage.told(WHOLE, "find", "--session", "S1", "--since", "2026-01-31T01", stage.config, first.path, second.path)
    hope(out, "stop of session S1, user bob@example.org" in out and out.count("this session and status came 3 times") == 2, True)
    hope(out, f"octets in {2**32 + 5}, octets out 7, seconds 60" in out and "\n3 records\n" in out, True)
    hope("of another client", out.count("this session and status came once"), 1)
    out, _ = stage.told(WHOLE, "find", "--user", "nobody", stage.config, second.path)
    hope("without a session", ("start of session -, user nobody\n" in out, "this session and status" in out), (True, False))


def what_became_of_a_response_is_told(program, folder):
    """How often a response could not be sent, and was sent again, stands in the paragraph of its own record, from all lines that count it."""
    stage, ledger = Stage(program, folder), Ledger(folder, 7)
    for session in (b"S1", b"S2", b"S3"):
        ledger.add(session)
    for kind, record, count in (("unsent", 0, 1), ("again", 0, 2), ("again", 1, 3), ("again", 0, 5), ("unsent", 1, 4)):
        ledger.lines.append({**ledger.made.head(kind), "home": "billing", "lane": 0, "record": record, "count": count})
    ledger.write()
    again = "the client repeated its request, and was sent the response again"
    for session, told in (("S1", ["the response could not be sent 1 time", f"{again} 7 times"]),
                          ("S2", ["the response could not be sent 4 times", f"{again} 3 times"]), ("S3", [])):
        out, _ = stage.told(WHOLE, "find", "--session", session, stage.config, ledger.path)
        hope(session, [line.strip() for line in out.splitlines() if "response" in line], told)


def many_records_are_all_told(program, folder):
    """Of so many that their rows come in parts, none is left out, and none is there twice."""
    stage, ledger = Stage(program, folder), Ledger(folder, 7)
    for count in range(3000):
        ledger.add(b"S%d" % count)
    ledger.write()
    hope("find", stage.found(stage.config, ledger.path), [it.place for it in ledger.records])
    out, _ = stage.told(WHOLE, "csv", stage.config, ledger.path)
    hope("csv", [f"{row[0]}:{row[1]}" for row in csv.reader(io.StringIO(out))][1:], [it.place for it in ledger.records])


def each_form_is_read(program, folder):
    """Folders in order, also of a run whose clock went back, gzip with several members, standard input, and a pipe."""
    stage, room = Stage(program, folder), pathlib.Path(folder, "ledger")
    room.mkdir()
    first, second = Ledger(room, 7, "2026-02-01-RUN-999999.jsonl"), Ledger(room, 8, "x-000000.jsonl")
    for _ in range(20):
        first.add()
        second.add()
    first.write()
    second.write()
    lines = text([first.made.begin()]).splitlines(True)
    more = Ledger(room, 7, "2026-01-31-RUN-1000000.jsonl")
    octets = first.octets(False).splitlines(True)
    first.path.write_bytes(b"".join(octets[:11]))
    parts = gzip.compress(lines[0].encode().replace(b'"serial":20', b'"serial":10')) + bytes(7) + gzip.compress(b"".join(octets[11:]))
    packed = pathlib.Path(str(more.path) + ".gz")
    packed.write_bytes(parts + gzip.compress(text([first.made.end_of_all()]).encode()))
    wanted = [f"{first.path}:{number}" for number in range(2, 12)] + [f"{packed}:{number}" for number in range(2, 12)]
    wanted = sorted(wanted + [it.place for it in second.records], key=lambda it: (order_of(first, second, it)))
    hope("a folder", stage.found(stage.config, room), wanted)
    (room / "x-000000.jsonl.gz").write_bytes(gzip.compress(second.path.read_bytes())[:-20])
    out, _ = stage.told(12, "find", stage.config, room)
    hope("a file that is there twice", re.findall(r"^  evidence: (.*)$", out, re.MULTILINE), wanted)
    whole = second.octets()
    for octets in (whole, gzip.compress(whole)):
        with subprocess.Popen(["cat"], stdin=subprocess.PIPE, stdout=subprocess.PIPE) as cat:
            threading.Thread(target=lambda pipe=cat.stdin, it=octets: (pipe.write(it), pipe.close())).start()
            out, _ = stage.told(WHOLE, "find", stage.config, "-", stdin=cat.stdout)
        hope("standard input", out.count("evidence: standard input:"), 20)
        pipe = pathlib.Path(folder, "pipe")
        os.mkfifo(pipe)
        threading.Thread(target=pipe.write_bytes, args=(octets,), daemon=True).start()
        hope("a pipe", len(stage.found(stage.config, pipe)), 20)
        pipe.unlink()


def order_of(first, second, place):
    """When the line of this place was made, by the records that were put there; at one time that of the file without a date comes first."""
    file, _, line = place.rpartition(":")
    if file == str(second.path):
        return second.records[int(line) - 2].time, 0
    at = int(line) - 2 + (10 if file.endswith(".gz") else 0)
    return first.records[at].time, 1


def the_verdict_is_the_auditors(program, folder):
    """Status and lines are those of rad_audit, with the names of the files that were given."""
    stage = Stage(program, folder)
    ledger = Ledger(folder, 7)
    for _ in range(5):
        ledger.add()
    whole = ledger.octets().splitlines(True)
    spoiled = whole[2].replace(b'"record":1', b'"record":2')
    cases = {"whole": whole, "open": whole[:-1], "gap": whole[:2] + whole[3:], "wrong": [*whole[:2], spoiled, *whole[3:]],
             "torn": [*whole[:-1], whole[-1][:-5]], "none": [b"nothing\n"]}
    for name, lines in cases.items():
        path = stage.write(f"{name}.jsonl", b"".join(lines))
        audited = subprocess.run([stage.auditor, stage.config, path], capture_output=True, check=False)
        packed = stage.write(f"{name}.jsonl.gz", gzip.compress(b"".join(lines)))
        for given in (path, packed):
            out, _ = stage.told(audited.returncode, "find", stage.config, given)
            told = re.split(r"^\d+ records?.*\n", out, 1, re.MULTILINE)[1].splitlines()
            hope(name, told[1:], audited.stdout.decode().replace(path, given).splitlines())
            hope(told[0], " not " in told[0], audited.returncode != 0)
            _, err = stage.told(audited.returncode, "csv", stage.config, given)
            hope(name, [it for it in err.splitlines() if not it.startswith("lines of the ledger that are wrong ")], told)


def sums_are_right(program, folder):
    """Of each word, and of all together: records, octets and seconds, of a Stop that came again once."""
    stage = Stage(program, folder)
    runs = two_runs(folder)
    records = [it for run in runs for it in run.records]
    realm = lambda it: it.user.rpartition(b"@")[2].lower().decode() if b"@" in it.user else "-"
    of = {"realm": realm, "day": lambda it: it.time[:10], "home": lambda it: it.home, "client": lambda it: it.client,
          "user": lambda it: it.user.decode() or "-", "status": lambda it: "-" if it.status is None else str(it.status)}
    paths = [run.path for run in runs]
    for by in (*((it,) for it in of), tuple(of), ("user", "day")):
        out, _ = stage.told(WHOLE, "sum", "--by", ",".join(by), stage.config, *paths)
        wanted, seen = defaultdict(lambda: [0] * 7), set()
        for it in records:
            sums = wanted[tuple(of[word](it) for word in by)]
            sums[0] += 1
            if it.status == STOP:
                sums[2] += 1
                again = (it.client, it.session, it.volumes) in seen
                sums[3] += again
                for at, count in enumerate((0, 0, 0) if again else it.volumes):
                    sums[4 + at] += count
                seen.add((it.client, it.session, it.volumes))
        rows = [line.split("\t") for line in out.splitlines()]
        hope("the head", rows[0], [*by, "records", "left", "stops", "again", "input", "output", "seconds"])
        hope(str(by), {tuple(row[: len(by)]): [int(it) for it in row[len(by) :]] for row in rows[1:]}, dict(wanted))
    out, _ = stage.told(WHOLE, "sum", "--home", "spare", stage.config, *paths)
    hope("of all", out.splitlines()[1], "2\t0\t1\t0\t1\t2\t3")


def rows_of(records):
    """What a table has of records."""
    for it in records:
        file, _, line = it.place.rpartition(":")
        realm = it.user.rpartition(b"@")[2].decode() if b"@" in it.user else None
        volumes = it.volumes or (None, None, None)
        yield (file, int(line), it.run, list(HOMES).index(it.home), it.serial, it.number, it.time, it.client, it.port, it.identifier,
               it.home, realm, it.session.decode() or None, it.user.decode() or None, it.status, *volumes, "answered")


def tables_are_right(program, folder):
    """`csv` has a line for each record, and `import` a row, once, however often it is imported."""
    stage, runs = Stage(program, folder), two_runs(folder)
    records = [it for run in runs for it in run.records]
    paths = [run.path for run in runs]
    out, _ = stage.told(WHOLE, "csv", stage.config, *paths)
    lines = list(csv.reader(io.StringIO(out)))
    hope("the head", tuple(lines[0]), COLUMNS)
    hope("the lines", lines[1:], [["" if it is None else str(it) for it in row] for row in rows_of(records)])
    database = pathlib.Path(folder, "it.db")
    copy = stage.write("copy.jsonl", paths[0].read_bytes())
    said = [stage.told(WHOLE, "import", database, stage.config, *words)[0] for words in (paths[:1], paths, paths, [copy])]
    counts = (4, 0), (6, 4), (0, 10), (0, 4)
    hope("what it says", said, [f"{added} records were added, {there} were there already\n" for added, there in counts])
    hope("who may read it", database.stat().st_mode & 0o777, 0o600)
    with contextlib.closing(sqlite3.connect(database)) as made:
        hope("the columns", [it[1] for it in made.execute("PRAGMA table_info(entries)")], list(COLUMNS))
        hope("the rows", sorted(made.execute("SELECT * FROM entries"), key=str), sorted(rows_of(records), key=str))


def no_text_of_a_table_is_a_formula(program, folder):
    """A text that a spreadsheet takes for a formula gets an apostrophe, and a number none; `--raw` leaves both, and so does a database."""
    stage, ledger = Stage(program, folder), Ledger(folder, 7, "=run.jsonl")
    names = [b"=1+1", b"+49", b"-5", b"@SUM(A1)", b"a=b", b"'x", b"5"]
    for name in names:
        ledger.add(name, STOP, user=name + b"@=example", volumes=(1, 2, 3))
    ledger.write()
    texts = [it.decode() for it in names]
    for words, mark in ((["--raw"], ""), ([], "'")):
        out, _ = stage.told(WHOLE, "csv", *words, stage.config, ledger.path.name, cwd=folder)
        lines = [dict(zip(COLUMNS, line)) for line in csv.reader(io.StringIO(out))][1:]
        marked = [mark + it if it[0] in "=+-@" else it for it in texts]
        hope("sessions", [it["session"] for it in lines], marked)
        hope("users", [it["user"] for it in lines], [f"{it}@=example" for it in marked])
        hope("realms and files", {(it["realm"], it["file"]) for it in lines}, {(f"{mark}=example", f"{mark}=run.jsonl")})
        hope("numbers", {(it["line"][0], it["input"], it["seconds"], it["status"]) for it in lines} >= {("2", "1", "3", "2")}, True)
    database = pathlib.Path(folder, "it.db")
    stage.told(WHOLE, "import", database, stage.config, ledger.path)
    with contextlib.closing(sqlite3.connect(database)) as made:
        hope("a database", [it for it, in made.execute("SELECT session FROM entries ORDER BY serial")], texts)


def volumes_of_64_bits_are_kept(program, folder):
    """The greatest counts are in each form as they are."""
    stage, ledger, most = Stage(program, folder), Ledger(folder, 7), 2**64 - 1
    ledger.add(b"S1", STOP, volumes=(most, most - 1, 2**32 - 1))
    ledger.add(b"S2", STOP, volumes=(2**63 - 1, 2**63, 1))
    ledger.write()
    sums = f"2\t0\t2\t0\t{most + 2**63 - 1}\t{most - 1 + 2**63}\t{2**32}"
    hope("sum", stage.told(WHOLE, "sum", stage.config, ledger.path)[0].splitlines()[1], sums)
    hope("csv", f",{most},{most - 1},{2**32 - 1},answered" in stage.told(WHOLE, "csv", stage.config, ledger.path)[0], True)
    database = pathlib.Path(folder, "it.db")
    stage.told(WHOLE, "import", database, stage.config, ledger.path)
    with contextlib.closing(sqlite3.connect(database)) as made:
        hope("in the database", made.execute("SELECT input, output, seconds FROM entries ORDER BY serial").fetchall(),
             [(str(most), str(most - 1), 2**32 - 1), (2**63 - 1, str(2**63), 1)])


def an_import_is_whole_or_nothing(program, folder):
    """What is no database, has another table, is locked or is damaged changes nothing."""
    stage, (first, second) = Stage(program, folder), two_runs(folder)
    database, packed = pathlib.Path(folder, "it.db"), pathlib.Path(folder, "half.jsonl.gz")
    packed.write_bytes(gzip.compress(second.octets())[:-20])
    words = (stage.config, first.path)
    refuse = functools.partial(refused, stage, "import")
    refuse(4, database, *words, packed)
    refuse(2, database, first.path, first.path)
    refuse(4, database, stage.config, stage.folder / "none")
    hope("nothing is left", database.exists(), False)
    stage.told(WHOLE, "import", database, *words)
    kept = database.read_bytes()
    refuse(4, database, stage.config, second.path, packed)
    hope("unchanged", database.read_bytes(), kept)
    with contextlib.closing(sqlite3.connect(database, isolation_level=None)) as other:
        other.execute("BEGIN IMMEDIATE")
        refuse(4, database, stage.config, second.path)
    for name, statement in (("a", "CREATE TABLE entries (run, lane)"), ("b", "CREATE VIEW entries AS SELECT 1")):
        path = pathlib.Path(folder, name)
        with contextlib.closing(sqlite3.connect(path)) as made:
            made.execute(statement)
        kept = path.read_bytes()
        refuse(4, path, *words)
        hope("unchanged", path.read_bytes(), kept)
    refuse(4, first.path, *words)
    refuse(4, folder, *words)
    refuse(4, "/nowhere/it.db", *words)


def an_import_replaces_what_was_otherwise(program, folder):
    """A record that the database has with other words becomes what the ledger says, and is told. Where the ledger is wrong it stays."""
    stage, (first, _) = Stage(program, folder), two_runs(folder)
    database = pathlib.Path(folder, "it.db")
    stage.told(WHOLE, "import", database, stage.config, first.path)

    def users(*statement):
        with contextlib.closing(sqlite3.connect(database)) as made:
            made.execute(*statement or ("SELECT 1",))
            made.commit()
            return [user for user, in made.execute("SELECT user FROM entries ORDER BY lane, record")]

    right = users()
    other = users("UPDATE entries SET user = 'other' WHERE lane = 0 AND record = 0")
    hope("the users before", (right[0], other[0], right[1:]), ("bob@example.org", "other", other[1:]))
    there = "there otherwise: run b000000000000000 lane 0 record 0"
    for octets, status, now, told in ((first.octets(), DIFFERS, right, "replaced"),
                                      (first.octets().replace(b'"record":1', b'"record":9', 1), 5, other, "left, since the ledger is not right")):
        users("UPDATE entries SET user = 'other' WHERE lane = 0 AND record = 0")
        lines = stage.told(status, "import", database, stage.config, stage.write("it.jsonl", octets))[0].splitlines()
        hope("what is told", (f", 1 were there otherwise and are {told}" in lines[0], lines[1:]), (True, [there]))
        hope("the users", users(), now)


def files_of(process):
    """What a process has open, but for what it closes meanwhile."""
    found = set()
    for place in pathlib.Path("/proc", str(process), "fd").iterdir():
        with contextlib.suppress(OSError):
            found.add(os.readlink(place))
    return found


def an_import_waits_before_it_reads(program, folder):
    """While another program writes to the database, an import waits, and has not begun to read: so the other one ends first."""
    stage, (first, second) = Stage(program, folder), two_runs(folder)
    database = pathlib.Path(folder, "it.db")
    stage.told(WHOLE, "import", database, stage.config, first.path)
    with contextlib.closing(sqlite3.connect(database, timeout=1, isolation_level=None)) as other:
        other.execute("BEGIN IMMEDIATE")
        other.execute("UPDATE entries SET port = 1 + port")
        words = [sys.executable, TOOLS / "rad_ledger", *stage.words("import", database, stage.config, second.path)]
        with subprocess.Popen(words, stdout=subprocess.PIPE, stderr=subprocess.PIPE) as ran:
            until("it opens the database", lambda: ran.poll() is not None or str(database) in files_of(ran.pid))
            time.sleep(0.5)
            other.execute("COMMIT")
            out, err = ran.communicate(timeout=60)
    hope(f"how it ends: {err}", (ran.returncode, out.split(b",")[0]), (stage.whole, b"6 records were added"))


def refused(stage, command, status, *words):
    """Whether a call ends with one line and this status, and nothing else."""
    one_line(words, status, *stage.inside(command, *words))


def one_line(words, wanted, status, out, err):
    found = status, out, err.count("\n"), "Traceback" in err, err[:-1].isprintable()
    hope(f"{words}: {out} {err}", found, (wanted, "", 1, False, True))


def refused_outside(*words):
    """Status, output and errors of a call in a process of its own."""
    ran = running.run("rad_ledger", *words)
    return ran.returncode, ran.stdout.decode(), ran.stderr.decode()


def errors_are_one_line(program, folder):
    """Calls, configurations, files and programs that are wrong."""
    stage, (ledger, _) = Stage(program, folder), two_runs(folder)
    both, empty = (stage.config, ledger.path), pathlib.Path(folder, "empty")
    empty.mkdir()
    detail = stage.write("detail", b"")
    other = stage.write("other.toml", b"listen = 3\n")
    calls = {
        1: [("find",), ("find", stage.config), ("find", "--day", "2026-02-30", *both), ("find", "--day", "today", *both),
            ("find", "--since", "x", *both), ("find", "--until", "2026-01-31T24", *both), ("find", "--no", *both),
            ("sum", "--by", "realm,realm", *both), ("sum", "--by", "x", *both), ("sum", "--by", "", *both), ("find", "--by", "day", *both),
            ("find", "--a\nb\x1b[1m", *both), ("find", stage.config, "-", "-"), ("reconcile", *both), ("import", stage.config, ledger.path),
            ("reconcile", "--home", "billing", "--within", "-1", stage.config, detail)],
        2: [("find", other, ledger.path), ("csv", ledger.path, ledger.path)],
        4: [("find", "/nowhere", ledger.path), ("find", stage.config, "/nowhere"), ("find", stage.config, b"/no\n\xff\x1b[1m"),
            ("sum", stage.config, empty), ("find", "--program", "/nowhere", *both), ("find", "--program", "/bin/true\n", *both),
            ("find", "--program", "/bin/false", *both), ("find", "--program", "/bin/echo", *both), ("find", stage.config, "/proc/self/mem"),
            ("reconcile", "--home", "billing", "--ledger", ledger.path, stage.config, "/nowhere"),
            ("reconcile", "--home", "billing", "--ledger", ledger.path, stage.config, ledger.path),
            ("reconcile", "--home", "billing", "--ledger", empty, stage.config, detail)],
    }
    for status, several in calls.items():
        for command, *words in several:
            refused(stage, command, status, *words)
    for status, words in ((1, []), (1, ["other", *both]), (1, calls[1][11]), (4, ["find", *calls[4][2][1:]])):
        one_line(words, status, *refused_outside(*words))
    for word in ("--help", "--version"):
        ran = running.run("rad_ledger", word)
        hope(word, (ran.returncode, ran.stderr, b"rad_ledger" in ran.stdout), (0, b"", True))
    with open("/dev/full", "wb") as full:
        for command in ("find", "sum", "csv"):
            ran = stage.ran(command, *both, stdout=full)
            found = ran.returncode, b"No space left" in ran.stderr, b"Traceback" in ran.stderr
            hope(f"a full disk: {ran.stderr}", found, (4, True, False))


DETAIL = """Sat Jan 31 00:00:{second:02} 2026
\tUser-Name = "bob@example.org"
\tAcct-Status-Type = {kind}
\tAcct-Session-Id = "{session}"
\tProxy-State = 0x6162
\tProxy-State = 0x{mark}
\tTimestamp = {moment}

"""
KINDS = {START: "Start", STOP: "Stop", INTERIM: "Interim-Update"}
MIDNIGHT = 1_769_817_600


def detail_of(record, session=None, seconds=0, kind=None, mark_of=None):
    """A record as FreeRADIUS writes it, which it got so many seconds before its answer."""
    hours, minutes, rest = map(float, record.time[11:-1].split(":"))
    moment = MIDNIGHT + int(hours * 3600 + minutes * 60 + rest) - seconds
    lane = list(HOMES).index(record.home)
    return DETAIL.format(second=int(rest), kind=kind or KINDS[record.status], session=session or record.session.decode(),
                         mark=(mark_of or mark(lane, record.number)[2:]).hex(), moment=moment)


def of_two_runs(folder):
    """Two runs that follow each other and have the same numbers, each with three sessions at one home server."""
    runs = [Ledger(folder, 0xA0 + at, moment=3_600_000 * at) for at in range(2)]
    for at, run in enumerate(runs):
        for count in range(3):
            run.add(b"S%d" % (10 * (at if count else 0) + count), START)
            run.add(b"S%d" % (10 * (at if count else 0) + count), STOP, volumes=(1, 2, 3))
        run.add(b"other", START, home=1)
        run.write()
    return runs, [it for run in runs for it in run.records if it.home == "billing"]


def reconciled(stage, status, ledgers, details, *words, home="billing"):
    """The lines of a comparison by their kinds: the places of records, and the counts of the last line."""
    given = [word for path in ledgers for word in ("--ledger", path)]
    paths = [stage.write(f"detail-{at}", it.encode() if isinstance(it, str) else it) for at, it in enumerate(details)]
    out, err = stage.told(status, "reconcile", "--home", home, *given, *words, stage.config, *paths)
    lines = out.splitlines()
    found = {kind: re.findall(rf"^{kind}: .*?\((.*?)\)", out, re.MULTILINE)
             for kind in ("in the ledger alone", "in the detail files alone", "twice in the detail files")}
    return found, list(map(int, re.findall(r"\d+", lines[-1]))), lines, err


def details_are_compared(program, folder):
    """In both, in one alone, twice: by lane and number, where two runs have the same, by session and time."""
    stage, (runs, records) = Stage(program, folder), of_two_runs(folder)
    paths, texts = [run.path for run in runs], [detail_of(it) for it in records]
    see = functools.partial(reconciled, stage)
    counts = see(WHOLE, paths, ["".join(texts)])[1]
    hope("all", counts, [12, 0, 0, 0, 0])
    hope("in two files", see(WHOLE, paths, ["".join(texts[6:]), "".join(texts[:6])])[1], [12, 0, 0, 0, 0])
    hope("compressed", see(WHOLE, paths, [gzip.compress("".join(texts).encode())])[1], [12, 0, 0, 0, 0])
    others = [it for run in runs for it in run.records if it.home == "spare"]
    hope("of another lane", see(WHOLE, paths, ["".join(map(detail_of, others))], home="spare")[1], [2, 0, 0, 0, 0])
    for at in (0, 1, 6, 11):
        found, counts, *_ = see(DIFFERS, paths, ["".join(texts[:at] + texts[at + 1 :])])
        hope("in the ledger alone", (found["in the ledger alone"], counts), ([records[at].place], [11, 0, 1, 0, 0]))
        found, counts, *_ = see(DIFFERS, paths, ["".join([*texts, detail_of(records[at], seconds=2)])])
        hope("twice", (found["twice in the detail files"], counts), ([records[at].place], [11, 1, 0, 0, 0]))
    found, counts, lines, _ = see(DIFFERS, paths[:1], ["".join(texts)])
    hope("a run that is not given", (counts[3], len(found["in the detail files alone"])), (6, 6))
    hope("the others", counts, [6, 0, 0, 6, 0])
    strange = detail_of(records[0], session="other"), detail_of(records[0], kind="Stop"), detail_of(records[0], mark_of=b"0123456789")
    for text in strange:
        found, counts, *_ = see(DIFFERS, paths, ["".join([*texts, text])])
        hope(text, (counts, len(found["in the detail files alone"])), ([12, 0, 0, 1, 0], 1))
    hope("other marks", see(WHOLE, paths, ["".join([*texts, detail_of(records[0], mark_of=b"012345678")])])[1], [12, 0, 0, 0, 1])
    others = "".join(texts[:2] + texts[3:])
    early = others + detail_of(records[2], seconds=86_000)
    hope("long before its answer", see(WHOLE, paths, [early])[1], [12, 0, 0, 0, 0])
    hope("too long", see(DIFFERS, paths, [early], "--within", "85999")[1], [11, 0, 1, 1, 0])
    late = others + detail_of(records[2], seconds=-8)
    hope("behind its answer", see(DIFFERS, paths, [late])[1], [11, 0, 1, 1, 0])
    hope("another clock", see(WHOLE, paths, [late], "--clocks", "9")[1], [12, 0, 0, 0, 0])
    late = "".join(texts[1:]) + detail_of(records[0], seconds=-8)
    hope("of the next run's, which has the same session", see(DIFFERS, paths, [late])[1], [10, 1, 1, 0, 0])
    whole, day = runs[1].path.read_bytes(), ("--since", "2026-01-31T01")
    runs[1].path.write_bytes(whole[: whole.rindex(b"{")])
    audited = subprocess.run([stage.auditor, stage.config, *paths], capture_output=True, check=False).returncode
    hope("of a time", see(audited, paths, ["".join(texts[6:])], *day)[1], [6, 0, 0, 0, 0])


def a_comparison_takes_bounded_memory(program, folder):
    """A hundred thousand records, of which each tenth is in one of both alone, and one is there a hundred times, take less than 60 MiB."""
    stage, count = Stage(program, folder), 100_000
    stage.auditor = rows_of_a_program(stage, (("0/ledger.jsonl", at, "0" * 16, 0, at, at, "2026-01-31T00:00:01.000Z", "192.0.2.10", 1646, 9, "billing",
                                               "example.org", f"S{at:050}", "bob@example.org", STOP, 1, 2, 3, "answered") for at in range(count)))
    detail = lambda at: DETAIL.format(second=0, kind="Stop", session=f"S{at:050}", mark=mark(0, at)[2:].hex(), moment=MIDNIGHT)
    kept = [it for it in range(count) if it % 10] + [count + it for it in range(0, count, 10)] + [1] * 99
    path = stage.write("detail", "".join(map(detail, kept)).encode())
    words = [sys.executable, TOOLS / "rad_ledger", *stage.words("reconcile", "--home", "billing", "--ledger", "/dev/null", stage.config, path)]
    ran = subprocess.run([sys.executable, "-c", MEASURED, *words], capture_output=True, text=True, check=False)
    *lines, last = ran.stdout.splitlines()
    hope("the counts", list(map(int, re.findall(r"\d+", last))), [89_999, 1, 10_000, 10_000, 0])
    hope("the lines", Counter(it.partition(":")[0] for it in lines),
         {"in the ledger alone": 10_000, "twice in the detail files": 1, "in the detail files alone": 10_000})
    memory = int(ran.stderr.split()[-1]) / 1024
    hope("memory", memory < 60 or memory, True)
    hope("of one that is there a hundred times", [it.endswith(", 80 more") for it in lines if it.startswith("twice")], [True])


def freeradius_writes_details(program, folder):
    """FreeRADIUS as packaged writes what the program sends it, of two runs, and all of it is in both."""
    want("freeradius")
    stage, (port, home_port) = Stage(program, folder), free_ports(2)
    (stage.folder / "radiusd.conf").write_text(RADIUSD.replace("PORT", str(home_port)))
    config = stage.write("it.toml", (f'listen = "127.0.0.1:{port}"\n[[client]]\naddress = "127.0.0.1"\nsecret = "nas-secret"\n'
                                     f'[[home]]\nname = "billing"\naddress = "127.0.0.1:{home_port}"\nsecret = "home-secret"\n'
                                     '[[realm]]\nname = "example.org"\nhome = "billing"\n').encode())
    (stage.folder / "ledger").mkdir()
    with started(["freeradius", "-f", "-l", "stdout", "-d", str(stage.folder)], stdout=subprocess.DEVNULL, stderr=subprocess.DEVNULL):
        until("freeradius serves", lambda: is_taken(home_port))
        for _ in range(2):
            talk(program, config, port, stage.folder / "ledger")
            time.sleep(1.1)
    detail = stage.folder / "detail"
    words = ("reconcile", "--home", "billing", "--clocks", "0", "--ledger", stage.folder / "ledger", config)
    out, _ = stage.told(0, *words, detail)
    rest = "twice 0, in the ledger alone 0, in the detail files alone 0, without a mark of the proxy 0\n"
    hope("all", out, f"in both {2 * len(SPOKEN)}, {rest}")
    octets = detail.read_bytes()
    first, second = octets[: octets.index(b"\n\n") + 2], octets[octets.index(b"\n\n") + 2 :]
    hope("one less", "in the ledger alone 1," in stage.told(11, *words, stage.write("less", second))[0], True)
    hope("one twice", "twice 1," in stage.told(11, *words, stage.write("more", octets + first))[0], True)


RADIUSD = """prefix = /usr
libdir = ${prefix}/lib/freeradius
logdir = ${confdir}
run_dir = ${confdir}
log {
	destination = stdout
}
client proxy {
	ipaddr = 127.0.0.1
	secret = "home-secret"
}
modules {
	detail {
		filename = ${confdir}/detail
		header = "%t"
		permissions = 0600
	}
}
server accounting {
	listen {
		type = acct
		ipaddr = 127.0.0.1
		port = PORT
	}
	preacct {
	}
	accounting {
		detail
	}
}
"""
# Sessions and users that FreeRADIUS writes in several ways.
SPOKEN = [(b"S1", b"bob@example.org"), (b'a"b\\c\n\t\x01', b'x y"z\\@example.org'), (b"\xff\xfe z", b"\xffu@example.org"),
          ("\u00e9%".encode(), "\u00e9\u20ac@example.org".encode()), (b"", b"none@example.org"), (b"it's", b"o'hara@example.org"),
          (b"-", b"-@example.org")]


def is_taken(port):
    with socket.socket(socket.AF_INET, socket.SOCK_DGRAM) as made:
        try:
            made.bind(("127.0.0.1", port))
        except OSError:
            return True
    return False


def talk(program, config, port, folder):
    """A run of the program, in which each of these is acknowledged."""
    variables = environment("warn") | {"RAD_PROXY_LEDGER": str(folder)}
    with started([program, "run", config], stdin=subprocess.PIPE, stdout=subprocess.PIPE, env=variables) as ran:
        hope("listening", ran.stdout.readline().split()[:1], [b"listening"])
        with socket.socket(socket.AF_INET, socket.SOCK_DGRAM) as nas:
            nas.settimeout(10)
            for number, (session, user) in enumerate(SPOKEN):
                attributes = user_name(user) + attribute(ACCT_STATUS_TYPE, bytes([0, 0, 0, 1 + number % 3]))
                attributes += attribute(PROXY_STATE, b"of the NAS") + (attribute(ACCT_SESSION_ID, session) if session else b"")
                nas.sendto(request(number, attributes, b"nas-secret"), ("127.0.0.1", port))
                hope("an answer", nas.recv(4096)[:2], bytes([5, number]))
        ran.stdin.close()
        hope("the end", (ran.stdout.read(), ran.wait(20)), (b"end: queued 0 outstanding 0 untaken 0\n", 0))


def cut_anywhere_it_is_right_or_refused(program, folder):
    """A ledger, its gzip and a detail file, cut anywhere: what is whole is told, and that it was cut; or one line says what is wrong."""
    stage, ledger = Stage(program, folder), Ledger(folder, 7)
    for count in range(3):
        ledger.add(b"S%d" % count)
    octets = ledger.octets()
    ends = [at + 1 for at, one in enumerate(octets) if one == 10]
    packed = gzip.compress(octets)
    for size in [*range(0, len(octets), 13), *ends, *(it - 1 for it in ends)]:
        path = stage.write("cut.jsonl", octets[:size])
        audited = subprocess.run([stage.auditor, stage.config, path], capture_output=True, check=False)
        status, out, err = stage.inside("find", stage.config, path)
        wanted = [f"{path}:{at}" for at in range(2, 5) if ends[at - 1] <= size]
        hope(f"cut at {size}: {err}", (status, re.findall(r"evidence: (.*)", out)), (audited.returncode, wanted))
        hope("the verdict", re.split(r"^\d+ records?.*\n", out, 1, re.MULTILINE)[1].splitlines()[1:], audited.stdout.decode().splitlines())
    for size in range(2, len(packed), 11):
        status, out, err = stage.inside("find", stage.config, stage.write("cut.jsonl.gz", packed[:size]))
        hope(f"gzip cut at {size}: {out} {err}", (status, "cut.jsonl.gz: it was cut short" in out), (4, True))
    (stage.folder / "cut.jsonl.gz").unlink()
    (runs, records), texts = of_two_runs(folder), []
    texts = "".join(map(detail_of, records)).encode()
    for size in range(0, len(texts), 37):
        path = stage.write("detail", texts[:size])
        words = [word for run in runs for word in ("--ledger", run.path)]
        status, out, err = stage.inside("reconcile", "--home", "billing", *words, stage.config, path)
        whole = texts[:size].count(b"\n\n")
        is_told = "was cut short" in out or not texts[:size] or texts[:size].endswith(b"\n\n")
        counts = list(map(int, re.findall(r"\d+", out.splitlines()[-1])))
        hope(f"detail cut at {size}: {out} {err}", (status, is_told, counts), (stage.whole or 11, True, [whole, 0, 12 - whole, 0, 0]))


def spoiled_anywhere_it_ends_in_words(program, folder):
    """Octets that are turned anywhere give records that the auditor takes, or one line, and no traceback."""
    stage, chance = Stage(program, folder), random.Random(1)
    runs, records = of_two_runs(folder)
    details = "".join(map(detail_of, records)).encode()
    for count in range(120):
        kind = count % 3
        octets = bytearray((runs[0].octets(), gzip.compress(runs[0].octets()), details)[kind])
        for _ in range(chance.choice((1, 1, 3))):
            at = chance.randrange(len(octets))
            octets[at] = chance.choice((octets[at] ^ 1 << chance.randrange(8), 0, 10, 255))
        path = stage.write("spoiled", bytes(octets))
        words = ("--home", "billing", "--ledger", runs[0].path, stage.config, path) if kind == 2 else (stage.config, path)
        status, out, err = stage.inside("reconcile" if kind == 2 else "find", *words)
        is_right = status in (0, 3, 5, 6, 7, 8, 9, 10, 11) or status == 4 and (err.count("\n") == 1 or "read up to" in out)
        hope(f"spoiled {count}: {out} {err}", is_right, True)
        hope("printable", [it for it in out + err if not it.isprintable() and it != "\n"], [])
        if kind == 0:
            audited = subprocess.run([stage.auditor, "--rows", stage.config, path], capture_output=True, check=False)
            hope("its records", (status, out.count("evidence: ")), (audited.returncode, audited.stdout.count(b"\n")))


ODD = [b"a\tb", b"\\", b"%", b"-", b"\n\x1b[2J", b"\xff\xfe", b"a\xc3", "\u202eabc".encode(), "\u00e9\u20ac".encode(), b"a,b\"c",
       b"'", b"=1+1"]


def rows_of_a_program(stage, rows, status=0):
    """A program that prints these rows, whatever it is given."""
    stage.write("rows", "".join("\t".join(map(str, it)) + "\n" for it in rows).encode())
    path = stage.write("rows_of", f"#!/bin/sh\ncat {stage.folder}/rows\nexit {status}\n".encode())
    os.chmod(path, 0o755)
    return path


def what_was_left_is_told(program, folder):
    """Records that were left in each state: in which, and when; they count, and their volumes do not."""
    stage = Stage(program, folder)
    front, back = ("0/ledger.jsonl", 2, "0" * 16, 0), ("192.0.2.10", 1646, 9, "billing", "example.org")
    time_of = "2026-01-31T00:00:0{}.000Z".format
    states = ("queued", "outstanding", "untaken")
    rows = [(*front, "-", at, time_of(at), *back, f"S{at}", "bob@example.org", STOP, 1, 2, 3, state) for at, state in enumerate(states)]
    stage.auditor = rows_of_a_program(stage, rows, 3)
    out, _ = stage.told(3, "find", stage.config, "/dev/null")
    hope("the states", re.findall("^  left (.*)$", out, re.MULTILINE), [
        f"queued at {time_of(0)}: it was never sent", f"outstanding at {time_of(1)}: it was sent, and no answer came",
        f"untaken at {time_of(2)}: the home server answered, and the client got no answer"])
    hope("the sums", stage.told(3, "sum", stage.config, "/dev/null")[0].splitlines()[1], "3\t3\t0\t0\t0\t0\t0")
    database = pathlib.Path(folder, "it.db")
    stage.told(3, "import", database, stage.config, "/dev/null")
    with contextlib.closing(sqlite3.connect(database)) as made:
        hope("the rows", made.execute("SELECT serial, record, state FROM entries ORDER BY record").fetchall(),
             [(None, at, state) for at, state in enumerate(states)])
    detail = DETAIL.format(second=0, kind="Stop", session="S2", mark=mark(0, 2)[2:].hex(), moment=MIDNIGHT)
    found, counts, lines, _ = reconciled(stage, 3, ["/dev/null"], [detail])
    hope("a comparison", (counts, [f" {state} at " in line for state, line in zip(states, lines)]), ([1, 0, 2, 0, 0], [True, True, False]))
    for row in (rows[0][:-1], (*rows[0], "x"), ("9/x", *rows[0][1:]), ("x", *rows[0][1:])):
        stage.auditor = rows_of_a_program(stage, [row])
        refused(stage, "find", 4, stage.config, "/dev/null")


def what_a_spool_has_is_told(program, folder):
    """Of records that were left it is told which ones a spool has, by the line of each, also by an index."""
    stage, ledger = Stage(program, folder), Ledger(folder, 7)
    for session, is_kept in ((b"K0", True), (b"K1", False), (b'"kept":true', False), (b"K3", True), (b"K4", False)):
        line = ledger.made.left(session=session)
        ledger.lines.append({**line, "kept": True} if is_kept else line)
    ledger.write()
    for more in ([], ["--index", pathlib.Path(folder, "index")], ["--index", pathlib.Path(folder, "index")]):
        out, _ = stage.told(WHOLE, "find", *more, stage.config, ledger.path)
        told = [("of session K0," in it or "of session K3," in it, "\n  the spool has it, and offers it to the next run\n" in it)
                for it in out.split("\n\n") if " of session " in it]
        hope(f"what is told {more}", sorted(told), [(False, False)] * 3 + [(True, True)] * 2)


def what_runs_took_over_is_joined(program, folder):
    """Of a record that runs took over its first acceptance is told, and as which records later ones took it over; and how often later runs sent its response again."""
    stage = Stage(program, folder)
    first, second, third = (Ledger(folder, run, moment=3_600_000 * run) for run in (7, 8, 9))
    left = lambda ledger, session: ledger.lines.append({**ledger.made.left(session=session), "kept": True})
    line = lambda ledger, kind, **keys: ledger.lines.append({**ledger.made.head(kind), "home": "billing", "lane": 0, **keys})
    names = [f"{run:016x}" for run in (7, 8, 9)]
    of = lambda run, record: {"first_run": names[run], "first_lane": 0, "first_record": record}
    for session in (b"S0", b"S1"):
        left(first, session)
    second.add(b"S2")
    line(second, "resumed", record=1, **of(0, 0))
    line(second, "resumed", record=2, **of(0, 1))
    second.add(b"S0")
    left(second, b"S1")
    line(third, "resumed", record=0, **of(0, 1))
    third.add(b"S1")
    line(third, "again", answer_run=names[1].upper(), answer_lane=0, answer_serial=1, count=4)
    line(third, "again", record=0, count=2)
    line(third, "again", answer_run=names[1], answer_lane=0, answer_serial=1, count=3)
    paths = [it.write().path for it in (first, second, third)]
    name = lambda run, record: f"record {record} of lane 0, run {names[run]}"
    earlier, later = "an earlier run left it: its first acceptance is ", "a later run took it over: "
    wanted = {"S0": [[later + name(1, 1)], [earlier + name(0, 0), "later runs sent the response again 7 times"]],
              "S1": [[later + name(1, 2), later + name(2, 0)], [earlier + name(0, 1), later + name(2, 0)],
                     [earlier + name(0, 1), "the client repeated its request, and was sent the response again 2 times"]], "S2": [[]]}
    for more in ([], ["--index", pathlib.Path(folder, "index")], ["--index", pathlib.Path(folder, "index")]):
        for session, its in wanted.items():
            out, _ = stage.told(WHOLE, "find", *more, "--session", session, stage.config, *paths)
            told = [[it.strip() for it in paragraph.splitlines() if "earlier run" in it or "later run" in it or "again" in it]
                    for paragraph in out.split("\n\n") if " of session " in paragraph]
            hope(f"{session} {more}", told, its)


def one_home_servers_records_are_handed_out(program, folder):
    """The files that are handed out have the lines of one home server alone, and the sums of the others; they are those of the ledger, so
    that a line that is changed later is found. What was cut short is left away, and no file is written over."""
    stage, run = Stage(program, folder), Ledger(folder, 7)
    for at in range(6):
        run.add(b"%s-%d" % (list(HOMES)[at % 2].encode(), at), home=at % 2)
    second = run.made.begin()
    resumed = [{**run.made.head("resumed"), "home": home, "lane": lane, "record": record, "first_run": f"{8:016x}", "first_lane": lane, "first_record": 0}
               for home, lane, record in (("billing", 0, 2), ("spare", 1, 1))]
    lines = chained([*run.lines[:4], second, *resumed, *run.lines[4:], run.made.left(1, session=b"spare-7"), run.made.end_of_all()])
    texts = [text(lines[:4]).encode() + text(run.lines[4:5]).encode()[:200], text(lines[4:]).encode()]
    ledger = stage.folder / "ledger"
    ledger.mkdir()
    (ledger / "2026-01-31-0000000000000007-000000.jsonl").write_bytes(texts[0])
    (ledger / "2026-01-31-0000000000000007-000001.jsonl.gz").write_bytes(gzip.compress(texts[1]))
    out = stage.folder / "out"
    call = lambda *words: running.run("rad_ledger", "hand-out", "--others", *map(str, words), seconds=60)
    ran = call("--home", "billing", out, ledger)
    hope("what is told", (ran.returncode, ran.stdout, ran.stderr), (0, b"3 records, 5 lines left out\n", b""))
    files = sorted(out.iterdir())
    hope("files", [it.name for it in files], [f"2026-01-31-0000000000000007-00000{at}.jsonl" for at in range(2)])
    handed = b"".join(it.read_bytes() for it in files)
    hope("the others' words", (b"spare-" in handed, handed.count(b'"session":"billing-')), (False, 3))
    hope("lines", [it["type"] for it in map(json.loads, handed.splitlines())],
         ["begin", "entry", "hidden", "entry", "begin", "resumed", "hidden", "hidden", "entry", "hidden", "hidden", "end"])
    config = stage.write("billing.toml", CONFIG.partition('[[home]]\nname = "spare"')[0].replace("192.0.2.1", "203.0.113.1").encode())
    kept = f"0000000000000007:1:{sum_of(lines).hex()}"
    audited = lambda auditor, *words: subprocess.run([*auditor, "--partial", "--sum", kept, config, *map(str, words)], capture_output=True, check=False)
    name = "run 0000000000000007"
    edited = stage.write("edited", files[0].read_bytes().replace(b'"port":40000', b'"port":40007'))
    for auditor in [stage.auditor], [sys.executable, audit_model.__file__]:
        ran = audited(auditor, *files)
        told = [it for it in ran.stdout.decode().splitlines() if "lane 1" not in it]
        hope("the audit", (told, ran.returncode), ([
            f"{name} lane 0 billing from 0 entries 3 not judged 3 part", f"{name} lane 0 billing part: not-judged",
            f"{name} lane 0 billing accepted 3 answered 3 left 0", f"{name} lane 0 billing resumed 1", f"{name} hidden 5"], 0))
        hope("a line that is changed", f"{edited}:2: WrongSum" in audited(auditor, edited, files[1]).stdout.decode(), True)
    again = stage.folder / "again"
    call("--home", "billing", again, *files)
    hope("handed out again", [it.read_bytes() for it in sorted(again.iterdir())], [it.read_bytes() for it in files])
    for words in (("--home", "billing", out, ledger), (out, ledger), ("--home", "billing", out), ("--home", "billing", stage.config, ledger)):
        ran = call(*words)
        hope(f"{words}", (ran.returncode in (1, 4), ran.stdout, ran.stderr.count(b"\n")), (True, b"", 1))


def what_is_handed_out_is_its_owners_alone(program, folder):
    """The folder and its files are the owner's alone, whatever the umask; a folder that is there stays as it is."""
    stage, (ledger, _) = Stage(program, folder), two_runs(folder)
    for mask in (0, 0o022, 0o777):
        out, before = stage.folder / f"out-{mask:o}" / "it", os.umask(0o022)
        out.parent.mkdir()
        os.umask(mask)
        try:
            ran = running.run("rad_ledger", "hand-out", "--home", "billing", str(out), str(ledger.path))
        finally:
            os.umask(before)
        modes = [it.stat().st_mode & 0o777 for it in (out, *out.iterdir())]
        hope(f"{mask:o} {ran.stderr}", (ran.returncode, modes), (0, [0o700, 0o600]))
    there = stage.folder / "there"
    there.mkdir(mode=0o755)
    running.run("rad_ledger", "hand-out", "--home", "billing", str(there), str(ledger.path))
    hope("one that is there", [it.stat().st_mode & 0o777 for it in (there, *there.iterdir())], [0o755, 0o600])


def what_is_handed_out_goes_to_a_file_system_of_its_own(program, folder):
    """A folder may be one where another file system is mounted. A file there that has the name of one is left alone."""
    stage, (ledger, _) = Stage(program, folder), two_runs(folder)
    mounted = pathlib.Path("/dev/shm")
    if not os.access(mounted, os.W_OK) or mounted.stat().st_dev == mounted.parent.stat().st_dev:
        raise LeftOut("it wants /dev/shm")
    made, before = mounted / ledger.path.name, set(mounted.iterdir())
    try:
        for status in (0, 4):
            ran = running.run("rad_ledger", "hand-out", "--home", "billing", str(mounted), str(ledger.path))
            hope("status", (ran.returncode, made.is_file(), ran.stderr.count(b"exists")), (status, True, int(status > 0)))
            hope("what else is there", {it.name for it in set(mounted.iterdir()) - before}, {made.name})
    finally:
        made.unlink(missing_ok=True)


# An environment in which Python takes names and texts for ASCII.
OF_ASCII = {"LC_ALL": "C", "PYTHONUTF8": "0", "PYTHONCOERCECLOCALE": "0"}


def at_a_terminal(variables, *words):
    """What a tool prints on a terminal, with both outputs there."""
    own, other = pty.openpty()
    ran = subprocess.Popen([sys.executable, *map(str, words)], stdin=subprocess.DEVNULL, stdout=other, stderr=other, env=os.environ | variables)
    os.close(other)
    octets = b""
    with contextlib.suppress(OSError):
        while found := os.read(own, 65_536):
            octets += found
    os.close(own)
    ran.wait()
    return octets.decode().replace("\r\n", "\n")


def nothing_turns_a_terminal(program, folder):
    """Control characters and what turns the direction of a line are escaped at a terminal, in each tool, whatever the locale."""
    stage, ledger, odd = Stage(program, folder), Ledger(folder, 7), "\u202eabc\u2066\x9b1m\u200f"
    ledger.add(odd.encode(), user=odd.encode())
    ledger.write()
    config = stage.write("other.toml", f'listen = "{odd}"\n'.encode())
    convert = stage.write("proxy.conf", f'client "{odd}" {{\n type udp\n secret "{odd}"\n}}\nNo{odd} x\n'.encode())
    calls = {
        "rad_ledger": [stage.words("csv", stage.config, ledger.path), stage.words("find", odd, ledger.path)],
        "rad_trial": [[config, odd], ["--proxy", odd, config, odd]],
        "rad_resend": [[stage.config, odd], ["--source", odd, stage.config, ledger.path]],
        "rad_convert": [["radsecproxy", convert], ["radsecproxy", odd], [odd]],
    }
    for name, several in calls.items():
        for words, variables in itertools.product(several, ({}, OF_ASCII)):
            out = at_a_terminal(variables, TOOLS / name, *words).replace("\x1b[K", "").replace("\r", "")
            found = bool(out), "Traceback" in out, [it for it in out if not it.isprintable() and it not in "\n\t"]
            hope(f"{name} {words}: {out}", found, (True, False, []))


def outputs_may_be_closed(program, folder):
    """Without an output a tool ends by a status, and writes into nothing else."""
    stage, (ledger, _) = Stage(program, folder), two_runs(folder)
    kept = ledger.path.read_bytes()
    for closed in ("<&-", ">&-", "2>&-", ">&- 2>&-", "<&- >&- 2>&-"):
        words = [sys.executable, TOOLS / "rad_ledger", *stage.words("sum", stage.config, ledger.path)]
        ran = subprocess.run(["sh", "-c", f'exec "$@" {closed}', "sh", *map(str, words)], capture_output=True, text=True, check=False)
        hope(f"{closed} {ran.stderr}", (ran.returncode, "Traceback" in ran.stderr), (stage.whole, False))
    hope("unchanged", ledger.path.read_bytes(), kept)


def times_that_do_not_exist_are_told(program, folder):
    """A line's time may have any digits: it is printed and compared as it stands."""
    stage, ledger = Stage(program, folder), Ledger(folder, 7)
    ledger.add()
    times = "2026-02-30T25:61:61.000Z", "9999-99-99T99:99:99.999Z"
    for time_of in times:
        octets = ledger.octets().replace(ledger.records[0].time.encode(), time_of.encode())
        path = stage.write("odd.jsonl", octets)
        status = subprocess.run([stage.auditor, stage.config, path], capture_output=True, check=False).returncode
        wanted = 1 if status == stage.whole else 0
        out, _ = stage.told(status, "find", stage.config, path)
        hope(time_of, out.count(f"handed over to be sent at {time_of}"), wanted)
        hope("sum", time_of[:10] in stage.told(status, "sum", "--by", "day", stage.config, path)[0], wanted == 1)
        reconciled(stage, status or 11, [path], [detail_of(ledger.records[0])])


def it_can_be_stopped(program, folder):
    """SIGTERM and SIGINT end it and the auditor, and leave nothing; so does an output that nobody reads."""
    stage, (ledger, _) = Stage(program, folder), two_runs(folder)
    room = stage.folder / "room"
    room.mkdir()
    slow = stage.write("slow", b"#!/bin/sh\necho $$ > PID\nexec sleep 60\n".replace(b"PID", os.fsencode(stage.folder / "pid")))
    os.chmod(slow, 0o755)
    for number in (signal.SIGTERM, signal.SIGINT):
        ran = subprocess.Popen([sys.executable, TOOLS / "rad_ledger", "find", "--program", slow, stage.config, ledger.path],
                               stdout=subprocess.PIPE, stderr=subprocess.PIPE, env=os.environ | {"TMPDIR": str(room)},
                               preexec_fn=lambda: signal.signal(signal.SIGINT, signal.default_int_handler))
        until("the auditor runs", lambda: (stage.folder / "pid").exists() and (stage.folder / "pid").read_text().strip())
        process = int((stage.folder / "pid").read_text())
        ran.send_signal(number)
        out, err = ran.communicate(timeout=20)
        hope("how it ended", (ran.returncode, out, err), (130, b"", b"rad_ledger: stopped\n"))
        hope("what is left", (os.path.exists(f"/proc/{process}"), list(room.iterdir())), (False, []))
        (stage.folder / "pid").unlink()
    reading, writing = os.pipe()
    os.close(reading)
    for command in ("find", "csv", "sum"):
        ran = stage.ran(command, stage.config, ledger.path, stdout=writing, env=os.environ | {"TMPDIR": str(room)})
        hope("nobody reads", (ran.returncode, b"Traceback" in ran.stderr, list(room.iterdir())), (4, False, []))
    os.close(writing)


def names_are_printed(program, folder):
    """Control characters, octets that are not UTF-8 and what turns a line's direction: each is found as it is, and by what is printed. What
    turns a line's direction is the same for the tool and for the auditor."""
    runs = re.findall(r"\((0x[0-9a-f]+), (0x[0-9a-f]+)\)", (TOP / "crates/rad_audit/src/shown.rt").read_text())
    hope("format characters", importlib.import_module("ledger.rows").FORMAT_RUNS, tuple(tuple(int(it, 16) for it in run) for run in runs))
    stage, ledger = Stage(program, folder), Ledger(folder, 7, "na\nme\u202e\x1b.jsonl")
    for name in ODD:
        ledger.add(name, user=name + b"@example.org")
    ledger.write()
    for at, name in enumerate(ODD):
        status, out, err = stage.inside("find", "--session", os.fsdecode(name), stage.config, ledger.path)
        places = re.findall(r"evidence: (.*)", out)
        hope(f"{name} {out} {err}", (status, len(places), places[0].rpartition(":")[2]), (stage.whole, 1, str(at + 2)))
        hope("printable", [it for it in out if not it.isprintable() and it != "\n"], [])
        session = re.search("^start of session (.*), user (.*), realm", out, re.MULTILINE)
        for word, shown in zip(("--session", "--user"), session.groups()):
            _, again, _ = stage.inside("find", word, shown, stage.config, ledger.path)
            hope(f"by what is printed: {shown}", re.findall(r"evidence: (.*)", again), places)
    hope("of the file", "na%0Ame%E2%80%AE%1B.jsonl" in out, True)
    config = os.fsdecode(os.fsencode(stage.folder) + b"/it\n\xff")
    refused(stage, "find", 4, config, ledger.path)
    pathlib.Path(config).write_text(CONFIG)
    hope("of the configuration", stage.inside("find", config, ledger.path)[0], stage.whole)


def progress_is_shown_at_a_terminal(program, folder):
    """At a terminal it tells how far it is, and else nothing."""
    stage, (ledger, _) = Stage(program, folder), two_runs(folder)
    slow = stage.write("slow", f'#!/bin/sh\nsleep 1\nexec {stage.auditor} "$@"\n'.encode())
    os.chmod(slow, 0o755)
    own, other = pty.openpty()
    words = ["find", "--program", slow, stage.config, str(ledger.path)]
    ran = subprocess.run([sys.executable, TOOLS / "rad_ledger", *words], stdout=subprocess.PIPE, stderr=other, check=False)
    os.close(other)
    told = os.read(own, 65_536)
    os.close(own)
    hope(told, (ran.returncode, b" MB, file 1 of 1, 0 found" in told), (stage.whole, True))
    hope("the rest", ran.stdout.count(b"evidence: "), 4)


def a_gigabyte_takes_bounded_time_and_memory(program, folder):
    """One session in a file of 1 GB: the processor time of the tool and of the auditor, and the memory of the tool."""
    stage, path = Stage(program, folder), pathlib.Path(folder, "long.jsonl")
    session, count = write_long(path, 10**9)
    words = [sys.executable, TOOLS / "rad_ledger", *stage.words("find", "--session", session, stage.config, path)]
    began, before = time.monotonic(), resource.getrusage(resource.RUSAGE_CHILDREN)
    ran = subprocess.run([sys.executable, "-c", MEASURED, *words], capture_output=True, text=True, check=False)
    after = resource.getrusage(resource.RUSAGE_CHILDREN)
    seconds = after.ru_utime + after.ru_stime - before.ru_utime - before.ru_stime
    memory = int(ran.stderr.split()[-1]) / 1024
    print(f"{count} entries, {path.stat().st_size / 1e6:.0f} MB: {time.monotonic() - began:.1f} s, {seconds:.1f} s of a processor, "
          f"{memory:.0f} MiB")
    hope(ran.stderr, (ran.returncode, ran.stdout.count("evidence: ")), (stage.whole, 3))
    hope("seconds of a processor", seconds < 10 or seconds, True)
    hope("memory", memory < 100 or memory, True)


MEASURED = ("import resource, subprocess, sys; ran = subprocess.run(sys.argv[1:]); "
            "print(resource.getrusage(resource.RUSAGE_CHILDREN).ru_maxrss, file=sys.stderr); sys.exit(ran.returncode)")


def write_long(path, octets):
    """A ledger of so many octets, of sessions that start, go on and stop, in requests of 250 octets; a session in it, and its entries."""
    run, size, count = Ledger(path.parent, 7, path.name), 0, 0
    lane, secret = run.made.lanes[0], CLIENTS["192.0.2.10"]
    filler = b"".join(attribute(kind, b"A" * size) for kind, size in ((25, 30), (32, 55), (31, 17), (30, 23)))
    with path.open("w") as file:
        file.write(text([run.made.begin()]))
        while size < octets:
            session = b"%08x-%06d" % (count // 3, count // 3 % 10**6)
            attributes = user_name(b"user%d@example.org" % (count // 3 % 50_000)) + attribute(ACCT_SESSION_ID, session)
            kind = (START, INTERIM, STOP)[count % 3]
            attributes += attribute(ACCT_STATUS_TYPE, bytes([0, 0, 0, kind])) + volumes_of(count, 3 * count, 60) + filler
            asked, sent = request(count % 256, attributes, secret), request(count % 256, attributes + mark(0, count), lane.secret)
            line = text([{**run.made.head("entry"), "home": lane.home, "lane": 0, "serial": count, "record": count, "client": "192.0.2.10",
                          "port": 40_000, "identifier": count % 256, "authenticator": asked[4:20].hex(), "realm": "example.org",
                          "session": session.decode(), "status": kind, "sent": sent.hex(),
                          "reply": packets.answer(sent, sent[1], mark(0, count), lane.secret).hex(),
                          "response": packets.answer(asked, asked[1], b"", secret).hex()}])
            run.made.moment %= 86_000_000
            size, count = size + len(line), count + 1
            file.write(line)
        lane.serial = count
        file.write(text([run.made.end_of_all()]))
    return b"%08x-%06d" % (count // 6, count // 6 % 10**6), count


TESTS = [records_are_found, paragraphs_have_all, what_became_of_a_response_is_told, many_records_are_all_told, each_form_is_read, the_verdict_is_the_auditors,
         sums_are_right, tables_are_right, no_text_of_a_table_is_a_formula, volumes_of_64_bits_are_kept, an_import_is_whole_or_nothing, an_import_replaces_what_was_otherwise, an_import_waits_before_it_reads,
         errors_are_one_line,
         details_are_compared, a_comparison_takes_bounded_memory, freeradius_writes_details, cut_anywhere_it_is_right_or_refused, spoiled_anywhere_it_ends_in_words,
         what_was_left_is_told, what_a_spool_has_is_told, what_runs_took_over_is_joined, one_home_servers_records_are_handed_out, what_is_handed_out_is_its_owners_alone,
         what_is_handed_out_goes_to_a_file_system_of_its_own, nothing_turns_a_terminal,
         outputs_may_be_closed, times_that_do_not_exist_are_told, it_can_be_stopped, names_are_printed, progress_is_shown_at_a_terminal]
LONG = [a_gigabyte_takes_bounded_time_and_memory]


if __name__ == "__main__":
    try_in_folders(LONG if is_asked("--long") else TESTS, __doc__)
