"""Judges a ledger under several configurations, of which each line counts by one under which it is right; and keeps what was judged in an
index, so that files that are as they were are not audited anew."""
import contextlib
import datetime
import hashlib
import json
import os
import sqlite3
import stat
from dataclasses import dataclass

import configuration
from trial.faults import USAGE, Fault, shown_path, told_by

from .auditing import LANE, WRONG_LINE, Audit, Verdict, audit_of, program_of, status_of, words_of
from .evidence import LinesBeside, Said, said_in
from .rows import Row
from .sources import lines_in

FORM, AT_ONCE, MASK = "rad_ledger index 4", 1 << 20, 0o077
# The places of a row, and the other words of it, as rad_audit prints them.
WORDS = Row._fields[2:]
SCHEMA = f"""
CREATE TABLE facts (name PRIMARY KEY, value);
CREATE TABLE files (number INTEGER PRIMARY KEY, path, mark, sum);
CREATE TABLE entries (file INTEGER, line INTEGER, {", ".join(WORDS)}, judged INTEGER, delay INTEGER, accepted, sendings, kept INTEGER,
  PRIMARY KEY (file, line)) WITHOUT ROWID;
CREATE TABLE counts (run, lane, record, kind, count, PRIMARY KEY (run, lane, record, kind)) WITHOUT ROWID;
CREATE TABLE resumed (place INTEGER PRIMARY KEY, run, lane, record, first_run, first_lane, first_record);
CREATE TABLE wrong (file INTEGER, line INTEGER, told, PRIMARY KEY (file, line)) WITHOUT ROWID;
"""
INDEXES = """
CREATE INDEX sessions ON entries (session); CREATE INDEX users ON entries (user); CREATE INDEX takers ON resumed (run, lane, record);
CREATE INDEX firsts ON resumed (first_run, first_lane, first_record);
"""
KEEP = f"""
INSERT INTO entries VALUES ({", ".join("?" * (len(WORDS) + 3))}, NULL, NULL, NULL, NULL) ON CONFLICT (file, line)
DO UPDATE SET judged = excluded.judged WHERE excluded.judged > judged
"""
# A line that is wrong under one configuration is right if it was judged by another one that has its home server and its client.
WRONG = """
DELETE FROM wrong WHERE EXISTS (SELECT 1 FROM entries WHERE entries.file = wrong.file AND entries.line = wrong.line AND judged);
DELETE FROM entries WHERE EXISTS (SELECT 1 FROM wrong WHERE entries.file = wrong.file AND entries.line = wrong.line);
"""


def add_words(parser):
    """Adds further configurations and the index to the words of a call."""
    parser.add_argument("--config", dest="configs", action="append", default=[])
    parser.add_argument("--index")


@contextlib.contextmanager
def judged(asked, sources):
    """A ledger that is judged: by an audit meanwhile, or, under several configurations or with an index, by a database of what was."""
    if not asked.configs and asked.index is None:
        with audit_of(asked, asked.config, sources) as audit:
            yield audit
        return
    for source in sources:
        if not source.can_be_read_again:
            raise Fault(f"{source}: several configurations and --index want files of a disk", USAGE)
    try:
        with contextlib.closing(opened(asked.index)) as database:
            yield Judgement(asked, sources, database)
    except sqlite3.Error as error:
        raise Fault(f"{shown_path(asked.index or 'the database')}: {error}") from None


def opened(path):
    """A database: an index that only its owner may read and change, or one that is gone behind that."""
    mask = os.umask(MASK)
    try:
        if path is not None and os.path.exists(path):
            found = os.stat(path)
            if found.st_uid != os.geteuid() or found.st_mode & (stat.S_IWGRP | stat.S_IWOTH):
                raise Fault(f"{shown_path(path)}: an index of somebody else, or one that others may change")
        database = sqlite3.connect("" if path is None else path, isolation_level=None)
        database.execute("PRAGMA journal_mode").fetchall()
        return database
    except OSError as error:
        raise Fault(f"{shown_path(path)}: {told_by(error)}") from None
    finally:
        os.umask(mask)


def sum_of(path):
    """The SHA-256 of a file."""
    made = hashlib.sha256()
    try:
        with open(path, "rb") as file:
            while octets := file.read(AT_ONCE):
                made.update(octets)
    except OSError as error:
        raise Fault(f"file: {shown_path(path)}: {told_by(error)}") from None
    return made.hexdigest()


def mark_of(path):
    """What changes with a file, but for its access."""
    found = os.stat(path)
    return json.dumps([found.st_dev, found.st_ino, found.st_size, found.st_mtime_ns, found.st_ctime_ns])


@dataclass
class Known:
    """Whom a configuration has: the home servers and the clients."""

    homes: set
    clients: set

    def judges(self, row):
        return row.home in self.homes and row.client in self.clients


def known_of(path):
    try:
        its = configuration.read(path, False)
    except configuration.Unread as fault:
        raise Fault(str(fault), fault.status) from None
    return Known({it["name"] for it in its["home"]}, {it["address"] for it in its["client"]})


class Judgement:
    """What was judged of a ledger, in a database. It is asked as an audit is."""

    file, place = Audit.file, Audit.place

    def __init__(self, asked, sources, database):
        self.asked, self.sources, self.database, self.program = asked, sources, database, program_of(asked.program)
        self.configs, self.is_kept = [asked.config, *asked.configs], False
        self.ask = [FORM, [os.path.abspath(it.path) for it in sources], words_of(asked, sources), [sum_of(it) for it in self.configs],
                    self.program, mark_of(self.program)]
        if self.asked.index is None or not self.is_as_it_was():
            self.judge()

    def facts(self):
        """What is kept in an index; nothing, if there is none yet."""
        names = {it for it, in self.database.execute("SELECT name FROM sqlite_master WHERE type = 'table'")}
        if names and not names >= {"facts", "files", "entries", "wrong"}:
            raise Fault(f"{shown_path(self.asked.index)}: it is no index of rad_ledger")
        return dict(self.database.execute("SELECT name, value FROM facts")) if names else {}

    def is_as_it_was(self):
        """Whether the index is of these files, and none has changed. A file that has other times counts by its sum."""
        facts = self.facts()
        if facts.get("ask") != json.dumps(self.ask):
            return False
        kept = self.database.execute("SELECT mark, sum FROM files ORDER BY number").fetchall()
        for number, (source, (mark, its_sum)) in enumerate(zip(self.sources, kept)):
            now = mark_of(source.path)
            if now != mark:
                if its_sum is None or json.loads(now)[2] != json.loads(mark)[2] or sum_of(source.path) != its_sum:
                    return False
                self.database.execute("UPDATE files SET mark = ? WHERE number = ?", (now, number))
        self.is_kept = True
        return True

    def judge(self):
        """Has rad_audit judge it under each configuration."""
        execute = self.database.execute
        execute("BEGIN IMMEDIATE")
        for name in ("facts", "files", "entries", "counts", "resumed", "wrong"):
            execute(f"DROP TABLE IF EXISTS {name}")
        for statement in filter(str.strip, SCHEMA.split(";")):
            execute(statement)
        marks = [mark_of(it.path) for it in self.sources]
        found = [self.judge_under(config, known_of(config) if self.asked.configs else None) for config in self.configs]
        if len(found) > 1:
            for statement in filter(str.strip, WRONG.split(";")):
                execute(statement)
        for statement in filter(str.strip, INDEXES.split(";")):
            execute(statement)
        verdict = found[0] if len(found) == 1 else self.joined(found)
        if verdict.fault:
            raise verdict.fault
        self.keep(marks, verdict)
        execute("COMMIT")

    def judge_under(self, config, known):
        """Takes the rows of an audit in, and gives its verdict. What is wrong with single lines is in the database."""
        with audit_of(self.asked, config, self.sources) as audit:
            self.database.executemany(KEEP, (
                (int(row.file.partition("/")[0]), int(row.line), *row[2:], known is None or known.judges(row)) for row in audit.all_rows()))
            return audit.verdict(self.take_wrong if known else None)

    def take_wrong(self, line):
        """Takes a line of rad_audit in that says what is wrong with a line, and gives whether it is one."""
        found = WRONG_LINE.fullmatch(line)
        if found is None or found[3] == "WrongSum":
            return False
        self.database.execute("INSERT OR IGNORE INTO wrong VALUES (?, ?, ?)", (int(found[1]), int(found[2]), found[3]))
        return True

    def joined(self, found):
        """The verdict of several: on each lane that of the configuration under which most of it is right."""
        best = {}
        for number, verdict in enumerate(found):
            for line in verdict.lines:
                if (lane := LANE.match(line)) and lane["entries"]:
                    right = int(lane["entries"]) - int(lane["unjudged"])
                    if right > best.get((lane["run"], lane["lane"]), (-1, 0))[0]:
                        best[lane["run"], lane["lane"]] = right, number
        told = self.database.execute("SELECT file, line, told FROM wrong ORDER BY file, line")
        lines = [f"{self.sources[file]}:{line}: {reason}" for file, line, reason in told]
        for number, verdict in enumerate(found):
            for line in verdict.lines:
                lane = LANE.match(line)
                if (best.get((lane["run"], lane["lane"]), (0, 0))[1] if lane else 0) == number:
                    lines.append(line)
        verdict = found[0]
        verdict.lines, verdict.status = lines, status_of(lines, "--all" in words_of(self.asked, self.sources))
        verdict.fault = next((it.fault for it in found if it.fault), None)
        return verdict

    def keep(self, marks, verdict):
        """Keeps the files, what their lines say besides, and the verdict."""
        execute = self.database.execute
        for number, (source, mark) in enumerate(zip(self.sources, marks)):
            its_sum = sum_of(source.path) if self.asked.index is not None else None
            is_still = mark_of(source.path) == mark
            execute("INSERT INTO files VALUES (?, ?, ?, ?)", (number, os.path.abspath(source.path), mark, its_sum if is_still else None))
            self.keep_said(number, source)
        self.keep_beside()
        now = datetime.datetime.now(datetime.UTC).strftime("%Y-%m-%dT%H:%M:%SZ")
        facts = {"ask": json.dumps(self.ask), "status": verdict.status, "lines": json.dumps(verdict.lines), "time": now}
        self.database.executemany("INSERT INTO facts VALUES (?, ?)", facts.items())

    def keep_said(self, number, source):
        found = ((*said_in(line), number, at) for at, line in enumerate(lines_in(source.octets(lambda _: None)), 1))
        given = (it for it in found if it[: len(Said._fields)] != Said())
        self.database.executemany("UPDATE entries SET delay = ?, accepted = ?, sendings = ?, kept = ? WHERE file = ? AND line = ?", given)

    def keep_beside(self):
        beside = LinesBeside().read(self.sources)
        counts = ((*record, kind, str(count)) for (record, kind), count in beside.counts.items())
        self.database.executemany("INSERT INTO counts VALUES (?, ?, ?, ?, ?)", counts)
        self.database.executemany("INSERT INTO resumed VALUES (NULL, ?, ?, ?, ?, ?, ?)", ((*record, *first) for record, first in beside.firsts.items()))

    def rows(self, choice):
        """The records that have the words that are asked for, whenever they were, in the order of the files."""
        wheres, given = ["1"], []
        for word, forms in choice.wanted.items():
            if word != "realm":
                wheres.append(f"{word} IN ({', '.join('?' * len(forms))})")
                given += sorted(forms)
        found = self.database.execute(f"SELECT file, line, {', '.join(WORDS)} FROM entries WHERE {' AND '.join(wheres)} ORDER BY file, line", given)
        for file, line, *words in found:
            row = Row(f"{file}/", str(line), *words)
            if choice.fits(row):
                yield row

    def said(self, places):
        """What the line at each of these places says besides its row."""
        for place in places:
            yield Said(*self.database.execute("SELECT delay, accepted, sendings, kept FROM entries WHERE file = ? AND line = ?", place).fetchone())

    def beside(self, records):
        """What other lines say of these records and responses."""
        beside, found = LinesBeside(records), []
        ask = "SELECT kind, count FROM counts WHERE run = ? AND lane = ? AND record = ?"
        beside.counts.update({(record, kind): int(count) for record in records for kind, count in self.database.execute(ask, record)})
        ask = "SELECT * FROM resumed WHERE run = ? AND lane = ? AND record = ? UNION SELECT * FROM resumed WHERE first_run = ? AND first_lane = ? AND first_record = ?"
        for record in records:
            found += self.database.execute(ask, (*record, *record))
        beside.firsts = {tuple(it[1:4]): tuple(it[4:]) for it in sorted(found)}
        return beside

    def verdict(self):
        facts = self.facts()
        verdict = Verdict(int(facts["status"]), json.loads(facts["lines"]), None, self.sources.unread)
        if self.is_kept:
            verdict.kept = [f"not audited anew: {it}: as it was at {facts['time']}" for it in self.sources]
        return verdict
