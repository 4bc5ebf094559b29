"""Heads of a ledger that others witness: the latest sum of each run is time-stamped by an authority (RFC 3161), and query and answer are kept
beside the ledger. All that is asked of them, openssl says."""
import calendar
import functools
import os
import re
import shutil
import subprocess
import tempfile
import time
from dataclasses import dataclass, field

from trial.faults import Fault, shown_path, told_by

from .auditing import HEADS_REFUSED, NotRead, Sources, audit_of, first_of
from .handing import read
from .rows import visible
from .sources import HEADS, MOST_LINE, NEW, lines_in

NAME = re.compile(r"([0-9a-f]{16})-(\d+)-([0-9a-f]{64})\.tsq")
RUN, SUM = re.compile(r"[0-9a-f]{16}"), re.compile(rb',"sum":"([0-9a-f]{64})"}$')
# What openssl prints of an answer: its time, with the fraction of a second if there is one, and the name that the authority gives itself.
TIME, TSA = re.compile(r"^Time stamp: (\w{3}) +(\d+) (\d\d:\d\d:\d\d)(?:\.\d+)? (\d{4}) GMT$", re.M), re.compile(r"^TSA: (?!unspecified)(.*)$", re.M)
QUERY, SECONDS, MASK = "application/timestamp-query", 60, 0o027


def add_words(parser):
    parser.add_argument("--check", action="store_true")
    parser.add_argument("--authority")
    parser.add_argument("--trust")
    parser.add_argument("--heads")


def bound_by(its, kind):
    """The sum that a line of a run has, which binds that line and all before it; nothing if it has none. It is the last of its keys: what an
    earlier version wrote as one is not looked at. Nothing else here knows which lines have sums."""
    found = its["sum"] if kind and next(reversed(its)) == "sum" else None
    return found if isinstance(found, str) else None


@dataclass
class Run:
    """A run in a ledger: when it began, how many whole lines are given, its latest sum with the number of that one's file, and behind how many
    lines each sum stands that is looked for."""

    began: str
    file: int = 0
    lines: int = 0
    latest: tuple | None = None
    bound: dict = field(default_factory=dict)

    def take(self, its, kind):
        """Takes a line that has a sum, or may have one."""
        self.file = its["file"] if kind == "begin" and isinstance(its.get("file"), int) else self.file
        found = bound_by(its, kind)
        if found:
            self.latest = self.file, found
            self.bound[found] = self.lines


def run_of(runs, line):
    """The run of the first line of a file, and what that says; nothing of a file that begins with none."""
    its, kind = read(line)
    if kind != "begin" or not isinstance(its.get("run"), str) or not RUN.fullmatch(its["run"]):
        return None, None
    return runs.setdefault(its["run"], Run(str(its.get("time")))), its


def latest_sums(sources):
    """The runs of a ledger with the latest sum of each: of each file the first line is read, and of the last one of a run its last line."""
    runs, lasts = {}, {}
    for source in sources:
        run, its = run_of(runs, next(lines_in(source.octets(lambda _: None)), b""))
        if run:
            run.take(its, "begin")
            lasts[its["run"]] = source
    for name, source in lasts.items():
        its, kind = read(last_line(source))
        if kind:
            runs[name].take(its, kind)
    return runs


def last_line(source):
    """The last whole line of a file. Of one that is compressed all is read."""
    if source.is_handed_on:
        return functools.reduce(lambda _, line: line, lines_in(source.octets(lambda _: None)), b"")
    with open(source.path, "rb") as file:
        file.seek(max(0, os.fstat(file.fileno()).st_size - 2 * (MOST_LINE + 1)))
        return b"".join(file.read().split(b"\n")[-2:-1])


def bound_lines(sources, wanted):
    """The runs of a ledger with all whole lines counted, and behind how many of them each of these sums stands."""
    runs = {}
    for source in sources:
        run = None
        for number, line in enumerate(lines_in(source.octets(lambda _: None))):
            run = run_of(runs, line)[0] if number == 0 else run
            if run:
                run.lines += 1
                found = SUM.search(line)
                if number == 0 or found and found[1].decode() in wanted:
                    run.take(*read(line))
    return runs


def ran(*words):
    """What became of a call of openssl or curl."""
    program = shutil.which(words[0])
    if program is None:
        raise Fault(f"no program {words[0]}, which heads want")
    how = {"stdin": subprocess.DEVNULL, "stdout": subprocess.PIPE, "stderr": subprocess.STDOUT, "timeout": 2 * SECONDS}
    try:
        return subprocess.run([program, *map(str, words[1:])], **how, check=False, env={**os.environ, "LC_ALL": "C"})
    except subprocess.TimeoutExpired:
        raise Fault(f"{words[0]}: it took longer than {2 * SECONDS} s") from None


def reason_of(found):
    """The last line that a call printed."""
    lines = found.stdout.decode("utf-8", "replace").strip().splitlines()
    return visible(lines[-1]) if lines else f"status {found.returncode}"


@dataclass
class Head:
    """A sum of a run that was put to an authority: by a query, and its answer, of the same name."""

    folder: str
    run: str
    file: int
    sum: str

    @property
    def query(self):
        return os.path.join(self.folder, f"{self.run}-{self.file:06}-{self.sum}.tsq")

    @property
    def answer(self):
        return self.query.removesuffix(".tsq") + ".tsr"

    def ask(self):
        """Makes the query, if there is none."""
        if not os.path.exists(self.query):
            self.put(self.query, lambda path: ran("openssl", "ts", "-query", "-digest", self.sum, "-sha256", "-cert", "-out", path))

    def get(self, url):
        """Has the authority answer, and keeps an answer that grants it."""
        def answer(path):
            given = ran("curl", "--silent", "--show-error", "--fail", "--location", "--proto", "=http,https", "--max-time", SECONDS, "--header",
                        f"Content-Type: {QUERY}", "--data-binary", f"@{self.query}", "--output", path, "--url", url)
            return given if given.returncode else ran("openssl", "ts", "-reply", "-in", path, "-text")

        self.put(self.answer, answer, b"Status: Granted")

    def put(self, path, make, wanted=b""):
        """Has a new file made, which is there whole or not at all."""
        with tempfile.TemporaryDirectory(prefix=NEW, dir=self.folder) as room:
            made = os.path.join(room, "it")
            found = make(made)
            if found.returncode or wanted not in found.stdout:
                raise Fault(f"{shown_path(path)}: not made: {reason_of(found)}")
            os.rename(made, path)

    def faults(self, trust):
        """Why openssl refuses it: the answer is not that to the query, or not to this sum, or not of an authority that is trusted."""
        for path in self.query, self.answer:
            if not os.path.isfile(path):
                yield "there is no such file"
                return
        for words in ("-queryfile", self.query), ("-digest", self.sum):
            found = ran("openssl", "ts", "-verify", *words, "-in", self.answer, "-CAfile", trust)
            if found.returncode:
                said = [it for it in found.stdout.decode("utf-8", "replace").splitlines() if ":error:" in it]
                yield visible(said[0].split(":")[-3] if said and said[0].count(":") > 4 else reason_of(found))
                return

    def stamped(self):
        """When it was stamped, in seconds since 1970, and by whom: by the certificate that signed it, or the name that stands in it."""
        text = ran("openssl", "ts", "-reply", "-in", self.answer, "-text").stdout.decode("utf-8", "replace")
        found, named = TIME.search(text), TSA.search(text)
        moment = calendar.timegm(time.strptime(" ".join(found.groups()), "%b %d %H:%M:%S %Y")) if found else None
        return moment, self.signer() or (named[1].strip() if named else "an authority that it does not name")

    def signer(self):
        """The subject of the certificate that signed the answer, if that has it."""
        with tempfile.TemporaryDirectory(prefix="rad_ledger-") as room:
            token, signer = (os.path.join(room, it) for it in ("token", "signer"))
            ran("openssl", "ts", "-reply", "-in", self.answer, "-token_out", "-out", token)
            ran("openssl", "cms", "-verify", "-noverify", "-inform", "DER", "-in", token, "-signer", signer, "-out", os.devnull)
            if not os.path.isfile(signer):
                return None
            said = ran("openssl", "x509", "-in", signer, "-noout", "-subject", "-nameopt", "RFC2253,-esc_msb,utf8")
            return visible(said.stdout.decode("utf-8", "replace").strip().removeprefix("subject="))


def folder_of(asked, paths):
    """Where the heads of a ledger are: beside its first file, or in its folder."""
    first = paths[0]
    return asked.heads or os.path.join(first if os.path.isdir(first) else os.path.dirname(os.path.abspath(first)), HEADS)


def heads_in(folder):
    """The heads that are there, by the names of their queries and answers."""
    try:
        names = {it.removesuffix(".tsr").removesuffix(".tsq") + ".tsq" for it in os.listdir(folder)}
    except FileNotFoundError:
        return []
    except OSError as error:
        raise Fault(f"{shown_path(folder)}: {told_by(error)}") from None
    found = [NAME.fullmatch(it) for it in sorted(names)]
    return [Head(folder, it[1], int(it[2]), it[3]) for it in found if it]


def stamp(asked):
    """Has the latest sum of each run stamped, and all of which there is a query without an answer."""
    sources, folder = Sources(asked.paths), folder_of(asked, asked.paths)
    mask = os.umask(MASK)
    try:
        os.makedirs(folder, exist_ok=True)
        for run, its in latest_sums(sources).items():
            if its.latest:
                Head(folder, run, *its.latest).ask()
            else:
                yield f"run {run} has no sum yet that binds a line"
        unanswered = [it for it in heads_in(folder) if not os.path.exists(it.answer)]
        failed = []
        for head in unanswered:
            try:
                if asked.authority is None:
                    raise Fault(f"{shown_path(head.query)}: it has no answer yet")
                head.get(asked.authority)
                yield f"run {head.run} file {head.file} sum {head.sum}: stamped"
            except Fault as fault:
                failed.append(str(fault))
    except OSError as error:
        raise Fault(f"{shown_path(error.filename or folder)}: {told_by(error)}") from None
    finally:
        os.umask(mask)
    yield from first_of(failed, "")
    yield NotRead(sources.unread, HEADS_REFUSED if failed else 0)


def moment_of(text):
    """Seconds since 1970 of the time of a line; of one that has none, the end of all."""
    try:
        return calendar.timegm(time.strptime(text[:19], "%Y-%m-%dT%H:%M:%S"))
    except ValueError:
        return float("inf")


class Checked:
    """The heads of a ledger that openssl takes, and why others are refused. `sought` has those whose sums rad_audit looks for: of each run the
    one that binds most, before which it judges each sum that stands in a line, and those that no line has."""

    def __init__(self, asked, sources, heads):
        self.runs = bound_lines(sources, {it.sum for it in heads})
        self.refused, self.best, self.sought = [], {}, {}
        for head in heads:
            reason = next(iter(head.faults(asked.trust)), None) or self.fault_of(head)
            if reason:
                self.refused.append(f"refused: {shown_path(head.answer)}: {reason}")

    def fault_of(self, head):
        """What is wrong with a head that openssl takes: it is from before the run, or its sum is not in that. One that is right is kept."""
        run, (moment, authority) = self.runs.get(head.run), head.stamped()
        if run is None or head.sum not in run.bound:
            self.sought[head.query] = head
            return "the ledger has no line of this sum"
        if moment is None or moment < moment_of(run.began):
            return "it is from before the run"
        place = run.bound[head.sum], -moment
        if place > self.best.get(head.run, ((-1, 0),))[0]:
            self.best[head.run], self.sought[head.run] = (place, authority), head
        return None

    def lines(self):
        """What each run is bound by."""
        for name, run in self.runs.items():
            (bound, moment), authority = self.best.get(name, ((0, 0), None))
            behind = f"{run.lines - bound} line{'' if run.lines - bound == 1 else 's'}"
            if authority is None:
                yield f"run {name} is bound by no head, {behind}"
            else:
                yield f"run {name} bound up to {time.strftime('%Y-%m-%dT%H:%M:%SZ', time.gmtime(-moment))} by {authority}, {behind} behind it"
        yield from self.refused


def check(asked):
    """What each run is bound by, and the verdict on the ledger, in which each of these sums has to be."""
    sources = Sources(asked.paths)
    heads, runs = heads_in(folder_of(asked, asked.paths)), latest_sums(sources)
    if not sources.has_folder:
        heads = [it for it in heads if it.run in runs]
    checked = Checked(asked, sources, heads)
    asked.sum = asked.sum + [f"{it.run}:{it.file}:{it.sum}" for it in checked.sought.values()]
    with audit_of(asked, asked.config, sources) as audit:
        for _ in audit.chunks():
            pass
        verdict = audit.verdict()
    yield from checked.lines()
    verdict.is_refused = bool(checked.refused) or len(checked.best) < len(checked.runs)
    yield verdict
