"""All that is told of a configuration in one go: what the program tells, also of what stands behind a fault, and what else is doubtful.

Where the program finds faults, they are replaced by stand-ins, and it reads the text again, until it tells no more.
"""
import os
import re

from configuration import Unread, read
from trial.faults import Fault

from . import bounds, numbers, places
from .answers import NoProxy, octets_of
from .doubts import doubts
from .mending import Text
from .output import answer, tell
from .paths import absolute
from .processes import Process, bounded, found, given_environment

# What is told is of the configuration alone, and not of a spool.
VARIABLES = {"RAD_PROXY_LOG": "warn", "RAD_PROXY_SPOOL": ""}
CHECK_SECONDS = 600
# A configuration has so many octets at most; its text is looked at so many times; and so many doubts are told one by one.
MOST_OCTETS, MOST_LOOKS, MOST_TOLD = 1_048_576, 40, 50
LINE = re.compile(r'level=(?:error|warn) event=([a-z-]+) reason="(.*)"')
PLACE = re.compile(r"line (\d+), column \d+: (.*)")
# A text that is not UTF-8 is looked at with other letters in place of what is not.
NO_TEXT = ': no UTF-8"'
# What counts faults and doubts that are not told one by one, and the events of a fault.
COUNT, DOUBTS = "level=error event=configuration-faults ", "level=warn event=configuration-warnings "
NO_TOML, FAULT = "no-toml", "configuration-fault"


def checker():
    """The program that checks a configuration."""
    named = os.environ.get("RAD_PROXY_PROGRAM") or places.PROGRAM
    program = found(named, os.environ.get("PATH", ""))
    if program is None:
        raise Fault(f"there is no {named}", bounds.FAILED)
    return absolute(program)


def told_of(file):
    """The lines that the program prints of a file, and its status."""
    process = Process(bounded(CHECK_SECONDS, [checker(), "check", file]), given_environment() | VARIABLES)
    try:
        octets = octets_of(process, CHECK_SECONDS)
    except NoProxy:
        raise Fault("the check tells too much", bounds.FAILED) from None
    return octets.rstrip(b"\n").decode("utf-8", "surrogateescape").split("\n"), process.wait()


class Kept:
    """A text in a file of the memory alone, since it has secrets. Whoever this starts may read it."""

    def __init__(self, octets):
        self.descriptor = os.memfd_create("rad_proxy.toml")
        rest = memoryview(octets)
        while rest:
            rest = rest[os.write(self.descriptor, rest):]

    def __enter__(self):
        return f"/proc/{os.getpid()}/fd/{self.descriptor}"

    def __exit__(self, *_):
        os.close(self.descriptor)


def text_of(file):
    """The text of a file, or none where it can't be read."""
    try:
        with open(file, "rb") as opened:
            return Text(opened.read(MOST_OCTETS))
    except OSError:
        return None


def is_toml(octets):
    with Kept(octets) as file:
        return not any(line.startswith(f"level=error event={NO_TOML} ") for line in told_of(file)[0])


class Look:
    """The looks at a text, and the lines that were told."""

    def __init__(self, text):
        self.text, self.lines, self.was_toml = text, [], False

    def say(self, line):
        if line not in self.lines:
            self.lines.append(line)

    def once(self):
        """Looks once, and mends what is wrong. Answers whether that is to be looked at."""
        with Kept(self.text.octets()) as file:
            told, status = told_of(file)
        if status not in (0, bounds.MISCONFIGURED):
            return False
        events = [(line, found[1], found[2]) for line in told if (found := LINE.fullmatch(line))]
        is_now = all(event != NO_TOML for _, event, _ in events)
        if self.was_toml and not is_now:
            return False
        self.was_toml = is_now
        others = [line for line, _, reason in events if not self.text.follows(reason)]
        for line in others:
            self.say(self.text.at_its_place(line))
        wrong = [reason for _, event, reason in events if event in (NO_TOML, FAULT)]
        is_mended = bool(wrong) and all([self.mend(reason) for reason in sorted(wrong, key=line_of, reverse=True)])
        # What was not told one by one is told at a later look, or may be for the stand-ins alone.
        is_unknown = tuple([COUNT] * is_mended + [DOUBTS] * (len(others) < len(events)))
        for line in told:
            if not LINE.fullmatch(line) and line.startswith("level=") and not line.startswith(is_unknown):
                self.say(line)
        return is_mended

    def mend(self, reason):
        """Mends what a reason tells of. What is not TOML can be left out at least."""
        place = PLACE.match(reason)
        if not place:
            return self.text.mend(reason)
        if not self.text.mend_line(int(place[1]), place[2]):
            if self.text.is_cut:
                return False
            self.text.cut(int(place[1]), is_toml)
        return True

    def whole(self):
        """Looks until nothing is wrong that can be mended."""
        for line, column, part in self.text.one_brackets():
            self.say(f'level=error event=one-bracket reason="line {line}, column {column}: [{part}] has to be [[{part}]]"')
        any(not self.once() for _ in range(MOST_LOOKS))


def line_of(reason):
    """The line that a reason names; those without one come last where the last line comes first."""
    found = re.search(r"\bline (\d+), column", reason)
    return int(found[1]) if found else -1


def tables_of(text):
    """The tables of a text; none where it has a fault, or the program that reads it is not here, which is told."""
    try:
        with Kept(text.octets()) as file:
            return read(file, with_secrets=True)
    except Unread as it:
        if it.status != bounds.MISCONFIGURED:
            tell(f"rad_proxyctl: {it}")
        return None


def of_doubts(text, tables, rate):
    """The lines of the doubts that the program does not tell."""
    at, lines = text.places(), []
    for part, index, key, event, reason in doubts(tables, rate):
        if text.replaced.isdisjoint({(part, index, key), (part, index, None)}):
            name = "top" if part == "top" else f"{part} {index}"
            place = at.get((part, index, key))
            where = f" at line {place[0]}, column {place[1]}" if place else ""
            lines.append(f'level=warn event={event} reason="{name} {key}{where}: {reason}"')
    more = len(lines) - MOST_TOLD
    return lines[:MOST_TOLD] + ([f"level=warn event=configuration-warnings count={more}"] if more > 0 else [])


def check(config, is_strict, rate):
    """Prints all that is told of the configuration, and gives the status of `rad_proxy check`; or, if that is to be strict, another one
    where there is a warning."""
    told, status = told_of(config)
    text = text_of(config) if status in (0, bounds.MISCONFIGURED) else None
    tables, carried = None, []
    if text is not None:
        if status:
            look = Look(text)
            for line in told:
                if line.endswith(NO_TEXT):
                    look.say(line)
            look.whole()
            told = look.lines + [line for line in told if not line.startswith("level=")]
        tables = tables_of(text)
    if tables is not None:
        told = [*(line for line in told if line.startswith("level=")), *of_doubts(text, tables, rate),
                *(line for line in told if not line.startswith("level="))]
        carried = numbers.lines(tables, rate) if status == 0 else []
    answer("".join(f"{line}\n" for line in [*told, *carried]))
    if is_strict and status == 0 and any(line.startswith("level=warn ") for line in told):
        return bounds.DOUBTFUL
    return status
