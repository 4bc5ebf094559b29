"""Runs `rad_audit --rows` over the files of a ledger, and reads its rows and its verdict."""
import contextlib
import ctypes
import functools
import os
import pathlib
import re
import shutil
import signal
import subprocess
import sys
import tempfile
import threading
from dataclasses import dataclass

from trial.faults import CONFIGURATION, FAILED, USAGE, Fault, shown_path, told_by

from .evidence import LinesBeside, said_of
from .rows import row_of, visible
from .sources import STANDARD_INPUT, UNREAD, Source, files_of

AT_ONCE, APART, MOST_LINES = 1 << 20, 0.5, 20
# What rad_audit ends with where a line or a sum is wrong, and where a lane is contradicted. No file that is not read can be why.
WRONG, CONTRADICTED = 5, 9
# The status of a comparison that found a difference, and of a ledger of which a head is missing or refused.
DIFFERS, HEADS_REFUSED = 11, 13
# The number of what a process asks Linux for where its parent ends.
DEATH_OF_PARENT = 1
# The name by which rad_audit gets the configuration.
CONFIG = "configuration"
PLACE = re.compile(r"(?<![^ ])(\d+)/[A-Za-z0-9._-]+(?=:\d+: |$)")
# What rad_audit says of a line that is wrong, of a lane, and of what is missing of a ledger.
WRONG_LINE = re.compile(r"(\d+)/[A-Za-z0-9._-]+:(\d+): ([A-Z]\w+)")
LANE = re.compile(r"(?:.*:\d+: )?run (?P<run>[0-9a-f]{16}) lane (?P<lane>\d+) "
                  r"(?:.* from (?P<from>\d+) entries (?P<entries>\d+) not judged (?P<unjudged>\d+) (?P<verdict>.*))?")
IS_PART = re.compile(r"run \S+ lane \d+ .* part:.*")
IS_WRONG, FILES_MISSING = re.compile(r".*: [A-Z]\w+"), re.compile(r".*:\d+: run \S+ files \d+ to \d+ missing")
BEFORE_MISSING, HIDDEN = re.compile(r"run \S+ (before .* missing|untied)"), re.compile(r"run \S+ hidden \d+")


def program_of(path):
    found = shutil.which(path or "rad_audit")
    if found is None:
        raise Fault(f"no program {shown_path(path) if path else 'rad_audit'}: --program PATH names one")
    return os.path.abspath(found)


class Sources(list):
    """The files of a ledger, in order. `unread` has a line for each file of a folder that is none of them. A folder stands for all runs."""

    def __init__(self, paths):
        super().__init__()
        self.unread, self.has_folder = [], False
        for path in paths:
            if path != STANDARD_INPUT and os.path.isdir(path):
                files, unread = files_of(path)
                self.has_folder = True
                self.unread += unread
            else:
                files = [path]
            self.extend(map(Source, files))
        if [it.path for it in self].count(STANDARD_INPUT) > 1:
            raise Fault("standard input can be read once", USAGE)


def add_words(parser):
    """Adds what rad_audit is told to the words of a call."""
    parser.add_argument("--program")
    parser.add_argument("--all", action="store_true")
    parser.add_argument("--sum", action="append", default=[])


def words_of(asked, sources):
    """What rad_audit is told, before the configuration."""
    is_all = asked.all or sources.has_folder
    return [*(["--all"] if is_all else []), *(word for it in asked.sum for word in ("--sum", it))]


def status_of(lines, is_all):
    """The status with which rad_audit would end behind these lines, without --from and --partial."""
    lanes = [it for it in map(LANE.match, lines) if it and it["verdict"]]
    has = lambda *words: any(it["verdict"].startswith(words) for it in lanes)
    cases = {WRONG: any(map(IS_WRONG.fullmatch, lines)), CONTRADICTED: has("contradicted"), 8: any(map(FILES_MISSING.fullmatch, lines)),
             3: has("gap", "unaccounted"), 7: any(map(IS_PART.fullmatch, lines)) or any(map(HIDDEN.fullmatch, lines)),
             10: not lanes or is_all and any(map(BEFORE_MISSING.fullmatch, lines)), 6: has("open")}
    return next((status for status, is_so in cases.items() if is_so), 0)


@dataclass
class Verdict:
    """What rad_audit says of a ledger: its status, and its lines; what is wrong with a file that it was not given whole; a line for each
    file that was not read; and whether something else differs."""

    status: int
    lines: list
    fault: Fault | None = None
    unread: tuple | list = ()
    differs: bool = False
    is_refused: bool = False
    kept: tuple | list = ()

    @property
    def of_ledger(self):
        """The status of the ledger and its heads alone."""
        if self.status in (FAILED, WRONG, CONTRADICTED):
            return self.status
        return HEADS_REFUSED if self.is_refused else UNREAD if self.unread else self.status

    @property
    def ends_with(self):
        return DIFFERS if self.differs and self.of_ledger == 0 else self.of_ledger

    @property
    def beside(self):
        """What stands beside a count of records: how many lines of the ledger are none of them since they are wrong, or were not judged."""
        wrong = sum(1 for it in self.lines if IS_WRONG.fullmatch(it) and not it.endswith(": WrongSum"))
        unjudged = sum(int(it["unjudged"]) for it in map(LANE.match, self.lines) if it and it["unjudged"])
        return f"; lines of the ledger that are wrong {wrong}, not judged {unjudged}" if wrong or unjudged else ""

    def told(self):
        """The lines of it, of many the first ones."""
        if self.fault:
            yield str(self.fault)
        yield "the searched ledger is whole" if self.of_ledger == 0 else f"the searched ledger is not whole: status {self.of_ledger}"
        yield from first_of(self.unread, "")
        yield from first_of(self.kept, "")
        of_runs = [it for it in self.lines if it.startswith("run ")]
        yield from first_of([it for it in self.lines if not it.startswith("run ")])
        yield from first_of(of_runs)


@dataclass
class Beside:
    """A line that is told beside a table, on standard error."""

    line: str
    ends_with = 0

    def told(self):
        yield self.line


@dataclass
class NotRead:
    """A line for each file that was not read, where no ledger was judged."""

    unread: list
    status: int = 0

    @property
    def ends_with(self):
        return self.status or (UNREAD if self.unread else 0)

    def told(self):
        return first_of(self.unread, "")


def first_of(lines, where=", which rad_audit prints"):
    """The first of many lines, and how many there are more."""
    yield from lines[:MOST_LINES]
    if len(lines) > MOST_LINES:
        yield f"{len(lines) - MOST_LINES} such lines more{where}"


class Audit:
    """An audit of a ledger. It is given the configuration, and each file as the number of it and its name, in a folder of its own."""

    def __init__(self, asked, config, sources):
        self.program, self.config, self.sources = program_of(asked.program), config, sources
        self.words = words_of(asked, sources)
        self.fault, self.found, self.at = None, 0, (0, 0)
        self.shower, self.has_ended = threading.Thread(target=self.show, daemon=True), threading.Event()

    def start(self, stack):
        """Starts it, and has the stack end it."""
        self.room = stack.enter_context(tempfile.TemporaryDirectory(prefix="rad_ledger-"))
        self.errors = stack.enter_context(tempfile.TemporaryFile())
        link(self.config, pathlib.Path(self.room, CONFIG))
        paths = [self.put(number, source) for number, source in enumerate(self.sources)]
        with undisturbed() as signals:
            self.ran = self.begun([self.program, "--rows", *self.words, CONFIG, *paths], signals)
            stack.callback(self.stop)
        threading.Thread(target=self.hand_on, daemon=True).start()
        if sys.stderr.isatty():
            self.shower.start()

    def begun(self, words, signals):
        """The process of it, which has these signals blocked."""
        pipes = {"stdin": subprocess.DEVNULL, "stdout": subprocess.PIPE, "stderr": self.errors}
        begin = functools.partial(begin_auditor, ctypes.CDLL(None).prctl, os.getpid(), signals)
        try:
            return subprocess.Popen(words, cwd=self.room, preexec_fn=begin, **pipes)
        except OSError as error:
            raise Fault(f"{shown_path(self.program)}: {error.strerror}") from None

    def stop(self):
        if self.ran.poll() is None:
            self.ran.kill()
        self.ran.wait()
        self.clear()
        self.ran.stdout.close()

    def put(self, number, source):
        """Makes a file of a ledger known: by a link, or by a pipe that it is handed on through."""
        path = pathlib.Path(self.room, str(number), source.name)
        path.parent.mkdir()
        if source.is_handed_on:
            os.mkfifo(path)
        else:
            link(source.path, path)
        return str(path.relative_to(self.room))

    def hand_on(self):
        """Hands on each file that rad_audit can't read itself, in order. What is wrong with one is told once the others are read; where a pipe
        can't be opened, rad_audit would wait for it for ever, and is ended."""
        for number, source in enumerate(self.sources):
            if source.is_handed_on:
                try:
                    pipe = open(pathlib.Path(self.room, str(number), source.name), "wb", buffering=0)
                except OSError as error:
                    self.fault = self.fault or Fault(f"{source}: not handed on: {told_by(error)}")
                    self.ran.kill()
                    return
                try:
                    with pipe:
                        self.fill(pipe, number, source)
                except OSError:
                    return

    def fill(self, pipe, number, source):
        """Hands on a file. What is wrong with it is known before rad_audit sees the end."""
        try:
            for octets in source.octets(lambda count: setattr(self, "at", (number, count))):
                write_all(pipe, octets)
        except Fault as fault:
            self.fault = self.fault or fault

    def chunks(self):
        """Whole rows, many at once."""
        rest = b""
        while octets := self.ran.stdout.read1(AT_ONCE):
            front, feed, behind = octets.rpartition(b"\n")
            if feed:
                yield rest + front
                rest = behind
            else:
                rest += octets

    def rows(self, choice):
        """The records that have the words that are asked for, whenever they were."""
        for octets in self.chunks():
            if choice.may_fit(octets):
                for line in octets.split(b"\n"):
                    if choice.may_fit(line):
                        row = row_of(line)
                        if choice.fits(row):
                            self.found += 1
                            yield row

    def all_rows(self):
        """All records."""
        for octets in self.chunks():
            yield from map(row_of, octets.split(b"\n"))

    def said(self, places):
        """What the line at each of these places says besides its row."""
        return said_of(self.sources, places)

    def beside(self, records):
        """What other lines say of these records and responses."""
        return LinesBeside(records).read(self.sources)

    def place(self, row):
        """The file of a row, and its line there."""
        return f"{self.file(row)}:{row.line}"

    def file(self, row):
        number = row.file.partition("/")[0]
        if number.isdecimal() and int(number) < len(self.sources):
            return str(self.sources[int(number)])
        raise Fault(f"{shown_path(self.program)} prints a row of a file that it was not given: {row.file}")

    def named(self, line):
        """A line of rad_audit with the name of the file that was given."""
        if line == f"file: {CONFIG}":
            return f"file: {shown_path(self.config)}"
        found = PLACE.search(line)
        if found and int(found[1]) < len(self.sources):
            line = line[: found.start()] + str(self.sources[int(found[1])]) + line[found.end() :]
        return visible(line)

    def verdict(self, take=None):
        """What rad_audit says, once all rows are read, but for the lines that `take` takes. That it can't judge at all is a fault."""
        status = self.ran.wait()
        self.clear()
        self.errors.seek(0)
        given = (it.decode("utf-8", "replace").rstrip("\n") for it in self.errors)
        lines = [self.named(it) for it in given if not (take and take(it))]
        last = lines[-1] if lines else f"status {status}"
        if status == USAGE:
            raise Fault(f"{shown_path(self.program)} does not know these words: {last}", USAGE if self.words[-2:-1] == ["--sum"] else FAILED)
        if status in (CONFIGURATION, FAILED):
            raise Fault(last, status)
        if status < 0:
            raise self.fault or Fault(f"{shown_path(self.program)} was ended by signal {-status}")
        return Verdict(FAILED if self.fault else status, lines, self.fault, self.sources.unread)

    def show(self):
        """Tells how far it is, as long as rad_audit runs."""
        whole = sum(it.size for it in self.sources)
        before = [sum(it.size for it in self.sources[:number]) for number in range(len(self.sources))]
        numbers = {os.path.realpath(it.path): number for number, it in enumerate(self.sources)}
        while not self.has_ended.is_set():
            number, octets = self.position(numbers) or self.at
            share = f"{100 * (before[number] + octets) // whole} % of " if whole else ""
            text = f"\r{share}{whole / 1e6:.0f} MB, file {number + 1} of {len(self.sources)}, {self.found} found"
            print(text, end="\x1b[K", file=sys.__stderr__, flush=True)
            self.has_ended.wait(APART)

    def position(self, numbers):
        """Which file rad_audit reads, and where in it, if it reads it itself."""
        folder = pathlib.Path(f"/proc/{self.ran.pid}")
        try:
            for link in (folder / "fd").iterdir():
                number = numbers.get(os.readlink(link))
                if number is not None:
                    return number, int((folder / "fdinfo" / link.name).read_text().split()[1])
        except (OSError, ValueError):
            pass
        return None

    def clear(self):
        """Takes away what was told of how far it is."""
        self.has_ended.set()
        if self.shower.is_alive():
            self.shower.join()
            print("\r\x1b[K", end="", file=sys.__stderr__, flush=True)


@contextlib.contextmanager
def audit_of(asked, config, sources):
    """An audit that runs meanwhile, and has ended behind that."""
    with contextlib.ExitStack() as stack:
        audit = Audit(asked, config, sources)
        audit.start(stack)
        yield audit


@contextlib.contextmanager
def undisturbed():
    """What would stop the tool waits meanwhile. Gives the signals that wait anyhow."""
    kept = signal.pthread_sigmask(signal.SIG_BLOCK, {signal.SIGINT, signal.SIGTERM})
    try:
        yield kept
    finally:
        signal.pthread_sigmask(signal.SIG_SETMASK, kept)


def begin_auditor(prctl, parent, signals):
    """What the process of rad_audit does first: it has these signals blocked, and ends with the tool, however that ends. Else it would wait
    for ever for a pipe that nobody opens."""
    signal.pthread_sigmask(signal.SIG_SETMASK, signals)
    prctl(DEATH_OF_PARENT, signal.SIGKILL)
    if os.getppid() != parent:
        os.kill(os.getpid(), signal.SIGKILL)


def link(path, name):
    """Gives a file another name."""
    try:
        name.symlink_to(os.path.abspath(path))
    except ValueError:
        raise Fault(f"file: {shown_path(path)}: no name of a file") from None


def write_all(pipe, octets):
    """Writes octets, of which a pipe may take a part."""
    at = 0
    while at < len(octets):
        at += pipe.write(octets[at:])
