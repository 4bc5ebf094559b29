"""Which records are asked for."""
import argparse
import datetime
import os
import re

from .rows import cell, unescaped

TIME = re.compile(r"(\d{4}-\d\d-\d\d)(?:T(\d\d)(?::(\d\d)(?::(\d\d)(?:\.\d{1,3})?)?)?)?", re.ASCII)
WORDS = ("session", "user", "client", "home", "realm")


def day(text):
    """A day of UTC."""
    try:
        if len(text) == 10 and TIME.fullmatch(text):
            return str(datetime.date.fromisoformat(text))
    except ValueError:
        pass
    raise argparse.ArgumentTypeError(f"no day like 2026-01-31: {text!r}")


def moment(text):
    """A moment of UTC, or the front of one."""
    found = TIME.fullmatch(text.removesuffix("Z"))
    if found and all(int(it or 0) < most for it, most in zip(found.groups()[1:], (24, 60, 60))):
        day(found[1])
        return found[0]
    raise argparse.ArgumentTypeError(f"no time like 2026-01-31T23:59:59: {text!r}")


def add_words(parser):
    """Adds what chooses records to the words of a call."""
    for word in WORDS:
        parser.add_argument(f"--{word}")
    parser.add_argument("--day", type=day)
    parser.add_argument("--since", type=moment)
    parser.add_argument("--until", type=moment)


class Choice:
    """What a record has to have. A word may be given as it is, or as it is printed. Realms are without the case of ASCII letters."""

    def __init__(self, asked):
        self.wanted = {}
        for word in WORDS:
            given = getattr(asked, word)
            if given is not None:
                octets = os.fsencode(given)
                forms = {cell(octets), cell(unescaped(octets))}
                self.wanted[word] = {lower(it) for it in forms} if word == "realm" else forms
        self.day, self.since, self.until = asked.day, asked.since, asked.until
        needles = [self.wanted[word] for word in WORDS if word in self.wanted and word != "realm"]
        self.needles = [f"\t{it}\t".encode("utf-8", "surrogateescape") for it in needles[0]] if needles else []

    def may_fit(self, octets):
        """Whether a row that fits may be among these octets."""
        return not self.needles or any(it in octets for it in self.needles)

    def fits(self, row):
        """Whether a record has the words that are asked for."""
        return all((lower(row.realm) if word == "realm" else getattr(row, word)) in forms for word, forms in self.wanted.items())

    def is_within(self, row):
        """Whether the time of a record's line is one that is asked for."""
        return self.is_at(row.time)

    def is_at(self, time):
        """Whether a time is one that is asked for: from `since` on, and before `until`."""
        is_since = self.since is None or time >= self.since
        return is_since and (self.until is None or time < self.until) and (self.day is None or time.startswith(self.day))

    def fits_detail(self, detail):
        """Whether a record of a detail file may be one that is asked for. It says nothing of the client; one without a time is of each."""
        given = {"session": lambda: detail.session, "user": lambda: detail.user, "realm": lambda: lower(detail.realm)}
        return all(given[word]() in forms for word, forms in self.wanted.items() if word in given)

    def is_of_time(self, detail):
        return detail.time is None or self.is_at(detail.time)


def of_home_and_session(asked):
    """What is asked for, by the home server and the session alone."""
    return Choice(argparse.Namespace(**vars(asked) | dict.fromkeys(("user", "client", "realm", "day", "since", "until"))))


def lower(text):
    """A text with its ASCII letters in lower case."""
    return text.encode("utf-8", "surrogateescape").lower().decode("utf-8", "surrogateescape")
