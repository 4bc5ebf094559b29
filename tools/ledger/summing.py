"""Sums of records, by what is asked for."""
import argparse

from .choosing import lower
from .auditing import Beside
from .rows import STOP, visible

BY = {
    "realm": lambda row: lower(row.realm),
    "day": lambda row: row.time[:10],
    "home": lambda row: row.home,
    "client": lambda row: row.client,
    "user": lambda row: row.user,
    "status": lambda row: row.status,
}
COLUMNS = ("records", "left", "stops", "again", "input", "output", "seconds")


def words(text):
    found = text.split(",")
    if len(set(found)) != len(found) or not BY.keys() >= set(found):
        raise argparse.ArgumentTypeError(f"none of {','.join(BY)}, or one of them twice: {text!r}")
    return found


class Sums:
    """Counts of records, and the volumes of Stops: an interim record has what came so far, which the Stop has again. A Stop that came
    again, with the same user and volumes, is counted as a record and a Stop, and its volumes are not."""

    def __init__(self, by):
        self.by, self.sums, self.seen = by, {}, set()

    def add(self, row):
        key = tuple(BY[word](row) for word in self.by)
        sums = self.sums.setdefault(key, [0] * len(COLUMNS))
        sums[0] += 1
        sums[1] += not row.is_answered
        if row.status == STOP and row.is_answered:
            self.add_stop(sums, row)

    def add_stop(self, sums, row):
        mark = hash((row.client, row.session, row.user, row.input, row.output, row.seconds))
        sums[2] += 1
        if mark in self.seen:
            sums[3] += 1
            return
        self.seen.add(mark)
        for at, count in enumerate(row.volumes, 4):
            sums[at] += count

    def lines(self):
        yield "\t".join((*self.by, *COLUMNS))
        for key, sums in sorted(self.sums.items()):
            yield "\t".join((*map(visible, key), *map(str, sums)))


def add_up(audit, choice, by):
    """The lines of the sums, and the verdict behind them."""
    sums = Sums(by)
    for row in audit.rows(choice):
        if choice.is_within(row):
            sums.add(row)
    verdict = audit.verdict()
    yield from sums.lines()
    if verdict.beside:
        yield Beside(verdict.beside.removeprefix("; "))
    yield verdict
