"""Records for other programs: as CSV, and in a database of SQLite."""
import contextlib
import csv
import io
import os
import sqlite3
from collections import Counter

from trial.faults import Fault, shown_path

from .auditing import CONTRADICTED, DIFFERS, WRONG, Beside, first_of
from .rows import NONE, Row, visible

TABLE, MOST_INTEGER = "entries", 2**63 - 1
NUMBERS = {"line", "lane", "serial", "record", "port", "identifier", "status", "input", "output", "seconds"}
# Numbers that may have 64 bits: SQLite has 63, and keeps what is greater as text.
LONG = {"record", "input", "output"}
# The records that a database has with other words than are given; where a record stands is none of them.
OTHERS = f"""
SELECT {TABLE}.run, {TABLE}.lane, {TABLE}.record FROM given JOIN {TABLE}
ON {TABLE}.run = given.run AND {TABLE}.lane = given.lane AND {TABLE}.record = given.record
WHERE {" OR ".join(f"{TABLE}.{it} IS NOT given.{it}" for it in Row._fields[2:])} ORDER BY 1, 2, 3
"""
# How long another program may keep the database locked.
SECONDS_LOCKED = 3
# With what a text begins that a spreadsheet takes for a formula.
OF_A_FORMULA = ("=", "+", "-", "@")


def csv_cell(name, text):
    """What a table has of a value: nothing where it is missing, and an apostrophe before a text that a spreadsheet takes for a formula."""
    if text == NONE:
        return ""
    return f"'{text}" if name not in NUMBERS and text.startswith(OF_A_FORMULA) else text


def csv_lines(audit, choice, is_raw):
    """The lines of a table (RFC 4180, with line feeds), and the verdict behind them. What is missing is empty."""
    text, head = io.StringIO(), ",".join(Row._fields)
    writer = csv.writer(text, lineterminator="")
    for row in audit.rows(choice):
        if choice.is_within(row):
            row = row._replace(file=audit.file(row))
            writer.writerow(("" if it == NONE else it for it in row) if is_raw else map(csv_cell, Row._fields, row))
            yield from filter(None, (head, text.getvalue()))
            text.seek(0)
            text.truncate()
            head = ""
    verdict = audit.verdict()
    yield from filter(None, (head,))
    if verdict.beside:
        yield Beside(verdict.beside.removeprefix("; "))
    yield verdict


def columns():
    return ", ".join(f"{it} INTEGER" if it in NUMBERS - LONG else it for it in Row._fields)


def schema():
    return f"CREATE TABLE IF NOT EXISTS {TABLE} ({columns()}, UNIQUE (run, lane, record))"


def value(name, text):
    """What the database gets of a value."""
    if text == NONE:
        return None
    if name not in NUMBERS:
        return text
    number = int(text)
    return number if number <= MOST_INTEGER else text


def values(audit, choice, given):
    """What the database gets of each record. `given` counts them."""
    for row in audit.rows(choice):
        if choice.is_within(row):
            file = os.path.abspath(audit.file(row))
            given["records"] += 1
            yield tuple(value(name, it) for name, it in zip(Row._fields, row._replace(file=file)))


def opened(path):
    """A database whose table is there."""
    made = sqlite3.connect(path, timeout=SECONDS_LOCKED)
    made.isolation_level = None
    made.execute("BEGIN IMMEDIATE")
    made.execute(schema())
    found = tuple(it[1] for it in made.execute(f"PRAGMA table_info({TABLE})"))
    if found != Row._fields:
        raise Fault(f"{shown_path(path)}: its table {TABLE} has other columns")
    return made


@contextlib.contextmanager
def database(path):
    """A database, in which all is done or nothing. Only its owner may read one that is made."""
    is_new, made, mask = not os.path.exists(path), None, os.umask(0o077)
    try:
        made = opened(path)
        yield made
        made.execute("COMMIT")
        is_new = False
    except sqlite3.Error as error:
        raise Fault(f"{shown_path(path)}: {error}") from None
    finally:
        os.umask(mask)
        if made:
            made.close()
        if is_new:
            with contextlib.suppress(OSError):
                os.unlink(path)


def keep(audit, choice, path):
    """Puts records into a database. One that is there already stays as it is; one that is there with other words becomes what the ledger
    says, unless the auditor finds something wrong in that."""
    given = Counter()
    with database(path) as made:
        count = made.execute(f"SELECT count(*) FROM {TABLE}").fetchone()[0]
        made.execute(f"CREATE TEMP TABLE given ({columns()})")
        places = ", ".join("?" * len(Row._fields))
        made.executemany(f"INSERT INTO given VALUES ({places})", values(audit, choice, given))
        verdict = audit.verdict()
        if verdict.fault:
            raise verdict.fault
        others = made.execute(OTHERS).fetchall()
        is_right = verdict.status not in (WRONG, CONTRADICTED)
        if is_right:
            made.executemany(f"DELETE FROM {TABLE} WHERE run = ? AND lane = ? AND record = ?", others)
        made.execute(f"INSERT OR IGNORE INTO {TABLE} SELECT * FROM given")
        added = made.execute(f"SELECT count(*) FROM {TABLE}").fetchone()[0] - count
        made.execute("DROP TABLE given")
    kind = "replaced" if is_right else "left, since the ledger is not right"
    told = f", {len(others)} were there otherwise and are {kind}" if others else ""
    yield f"{added} records were added, {given['records'] - added - len(others)} were there already{told}{verdict.beside}"
    yield from map(visible, first_of([f"there otherwise: run {run} lane {lane} record {record}" for run, lane, record in others], ""))
    verdict.differs = bool(others)
    yield verdict
