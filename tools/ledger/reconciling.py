"""Compares a ledger with the detail files of a home server."""
import argparse
import calendar
import contextlib
import itertools
import sqlite3
import time

from trial.faults import Fault

from .auditing import Sources
from .choosing import of_home_and_session
from .details import details
from .finding import kind_of
from .judging import judged
from .rows import visible

# How many seconds before its answer a record may have come to its home server, and by how many the two clocks may differ.
DAY, CLOCKS = 86_400, 5
# How many places are told of a record that is in detail files more than once.
MOST_PLACES = 20

# The records of the ledger, and which are asked for; where each is in detail files; and those that are in detail files alone. It takes 8 MB
# of memory.
SCHEMA = """
PRAGMA journal_mode = OFF;
PRAGMA cache_size = -8192;
BEGIN;
CREATE TABLE kept (id INTEGER PRIMARY KEY, lane, record, session, status, moment, told, asked);
CREATE INDEX numbers ON kept (lane, record);
CREATE TABLE seen (id INTEGER PRIMARY KEY, kept INTEGER, place);
CREATE INDEX places ON seen (kept);
CREATE TABLE alone (id INTEGER PRIMARY KEY, told);
"""
KEEP = "INSERT INTO kept (lane, record, session, status, moment, told, asked) VALUES (?, ?, ?, ?, ?, ?, ?)"
NEAREST = """
SELECT id FROM kept WHERE lane = :lane AND record = :record AND session = :session AND (:status IS NULL OR status = :status)
AND (:seen IS NULL OR moment - :seen BETWEEN -:clocks AND :within) ORDER BY abs(moment - :seen), id LIMIT 1
"""
PLACES = "SELECT kept.id, told, place FROM kept LEFT JOIN seen ON kept.id = seen.kept WHERE asked ORDER BY kept.id, seen.id"


def add_words(parser, ledger):
    parser.add_argument("--ledger", action="append")
    parser.add_argument("--within", type=seconds, default=DAY)
    parser.add_argument("--clocks", type=seconds, default=CLOCKS)
    parser.set_defaults(default_ledger=ledger)


def seconds(text):
    """A whole number of seconds."""
    if text.isdecimal() and len(text) < 10:
        return int(text)
    raise argparse.ArgumentTypeError(f"no seconds: {text!r}")


def moment_of(row):
    """Seconds since 1970 of a record's line; None for a time that does not exist."""
    try:
        return calendar.timegm(time.strptime(row.time[:19], "%Y-%m-%dT%H:%M:%S"))
    except ValueError:
        return None


def told_of(row, place):
    return (f"lane {row.lane} record {row.record} run {row.run}: {kind_of(row)} of session {row.session}, user {row.user}, "
            f"{'handed over to be sent' if row.is_answered else row.state} at {row.time} ({place})")


class Compared:
    """The records of a home server in a ledger, and what of them is in detail files: in a database on the disk, which nobody else sees."""

    def __init__(self, database, asked, choice):
        self.database, self.within, self.clocks, self.choice, self.unmarked = database, asked.within, asked.clocks, choice, 0

    def keep(self, row, place):
        """Takes a record of the ledger in: also one that is not asked for, which may be the one of a detail."""
        is_asked = self.choice.fits(row) and self.choice.is_within(row)
        self.database.execute(KEEP, (row.lane, row.record, row.session, row.status, moment_of(row), told_of(row, place), is_asked))

    def nearest(self, mark, detail):
        """The record of this lane and number, session and status that was answered soonest after. Each run begins its numbers anew."""
        words = {"lane": str(mark[0]), "record": str(mark[1]), "session": detail.session, "status": detail.status,
                 "seen": detail.moment, "clocks": self.clocks, "within": self.within}
        return self.database.execute(NEAREST, words).fetchone()

    def is_asked(self, detail):
        return self.choice.fits_detail(detail) and self.choice.is_of_time(detail)

    def compare(self, detail):
        """Looks for a record of a detail file in the ledger. One that is in that counts by what stands there, and else by its own words."""
        mark = detail.mark()
        if mark is None:
            self.unmarked += self.is_asked(detail)
            return
        kept = self.nearest(mark, detail)
        if kept:
            self.database.execute("INSERT INTO seen (kept, place) VALUES (?, ?)", (*kept, detail.place))
        elif self.is_asked(detail):
            told = f"lane {mark[0]} record {mark[1]}: session {detail.session} ({detail.place})"
            self.database.execute("INSERT INTO alone (told) VALUES (?)", (told,))

    def lines(self, beside):
        """What is not in both once, and how much there is of each, with this beside it."""
        counts = {"both": 0, "twice": 0, "ledger": 0, "details": 0}
        found = self.database.execute(PLACES)
        for (_, told), rows in itertools.groupby(found, lambda it: it[:2]):
            count, places = counted(place for _, _, place in rows if place is not None)
            if count == 0:
                counts["ledger"] += 1
                yield f"in the ledger alone: {told}"
            elif count == 1:
                counts["both"] += 1
            else:
                counts["twice"] += 1
                yield f"twice in the detail files: {told}: {', '.join(places)}"
        for (told,) in self.database.execute("SELECT told FROM alone ORDER BY id"):
            counts["details"] += 1
            yield f"in the detail files alone: {told}"
        yield (f"in both {counts['both']}, twice {counts['twice']}, in the ledger alone {counts['ledger']}, "
               f"in the detail files alone {counts['details']}, without a mark of the proxy {self.unmarked}{beside}")
        self.differs = counts["twice"] + counts["ledger"] + counts["details"] > 0


def counted(places):
    """How many places there are, and the first of them; of many more, how many they are."""
    first = list(itertools.islice(places, MOST_PLACES))
    more = sum(1 for _ in places)
    return len(first) + more, [*first, f"{more} more"] if more else first


@contextlib.contextmanager
def compared_by(asked, choice):
    """A comparison, whose database is gone behind that."""
    try:
        with contextlib.closing(sqlite3.connect("", isolation_level=None)) as database:
            database.executescript(SCHEMA)
            yield Compared(database, asked, choice)
    except sqlite3.Error as error:
        raise Fault(f"the database of the comparison: {error}") from None


def reconcile(asked, choice):
    """The lines of a comparison, and the verdict behind them."""
    broad = of_home_and_session(asked)
    with compared_by(asked, choice) as compared:
        with judged(asked, Sources(asked.ledger or [asked.default_ledger])) as audit:
            for row in audit.rows(broad):
                compared.keep(row, audit.place(row))
            verdict = audit.verdict()
        notes = []
        for source in Sources(asked.paths):
            for detail in details(source, notes.append):
                if broad.fits_detail(detail):
                    compared.compare(detail)
        yield from map(visible, itertools.chain(notes, compared.lines(verdict.beside)))
        verdict.differs = compared.differs
    yield verdict
