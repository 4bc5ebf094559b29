"""Plants single changes by itself where no contract sees them, and prints those that no script sees.

usage: python3 -m tests.gate.mutants COUNT SEED SECONDS [AREA ..]    tries so many changes, chosen by the seed
       python3 -m tests.gate.mutants --check                         tries the machine itself; the last line is `N passed, M failed`

An AREA is a crate or a folder of tools, of which each has its turn. Functions with a contract on what they give are left out: the prover
sees what is planted there. The changes of all crates are one program, in which a number chooses one. The first run makes it, and runs each
script once without a change. That tells which scripts, and which of their tests, reach which changes. What fails there is left out and
listed. Later runs take both from out/mutants/ until a source changes. Then scripts that reach a change run for SECONDS at most, until one
fails or takes too long: first the quick ones, and those that saw others of its area. Of a script whose tests can be named, those run that
reach it. What fails has to pass without the change, and to fail with it again, or it does not count. What none sees is printed, with how
many ran of how many.
tests/lib/mutants/no_fault.txt lists changes that are no fault, each with its reason.
"""
import collections
import hashlib
import json
import os
import pathlib
import queue
import random
import re
import resource
import shutil
import signal
import subprocess
import sys
import tempfile
import time
from concurrent.futures import ThreadPoolExecutor

from tests.gate.scripts import PROGRAM, SCRIPTS
from tests.lib import TOP
from tests.lib.mutants import by_test
from tests.lib.mutants import script_changes as scripts
from tests.lib.mutants.program import State, Tree
from tests.lib.starting import DEATH_OF_PARENT, LIBC

OUT, NO_FAULT = TOP / "out" / "mutants", TOP / "tests/lib/mutants/no_fault.txt"
CRATES = ["rad_log", "ledger_state", "rad_metrics", "rad_addresses", "rad_server", "rad_telemetry", "rad_console", "rad_files",
          "ledger_files", "ledger_writer", "spool_files", "spool_writer", "rad_proxy", "rad_audit"]
PROGRAMS = ["rad_proxy", "rad_audit", "config_json"]
# Scripts that look at the repository alone, or that want whole machines, or programs that are not made here.
OUTSIDE = ("gate/", "cluster/", "models/", "faults/queue_memory", "service/alerts", "configuration/schema")
ROOMS, FACTOR, MORE_SECONDS = 2, 3, 30
# A test of fewer seconds is a quick one. Of a script that saw so many changes of an area, its seconds count this much less.
QUICK, KILL_WORTH = 6, 4
LONGEST, LINES_TOLD = 1800, 3
# What tells that the tests of a script can be named.
NAMED = re.compile("try_named|try_in_folders")
MEMORY, FILE_OCTETS = 8 << 30, 8 << 30
LEFT = shutil.ignore_patterns("out", ".git", "__pycache__", "proofs", "specs", "must-fail", "wrong-bodies")


def script_files():
    """The tools and scripts of the service, as paths from the top."""
    files = [*(TOP / "tools").rglob("*"), TOP / "packaging/serve.in"]
    return [str(file.relative_to(TOP)) for file in sorted(files) if file.is_file() and "__pycache__" not in file.parts]


def area_of(file):
    parts = pathlib.Path(file).parts
    return parts[1] if parts[0] == "crates" or len(parts) > 2 else parts[0]


def sum_of(*places):
    """A checksum of files, and of the sources below folders."""
    found = hashlib.sha256()
    for place in places:
        for file in sorted(place.rglob("*")) if place.is_dir() else [place]:
            if file.suffix in (".rt", ".py", ".c", ".in", "") and "out" not in file.parts and file.is_file():
                found.update(f"{file.relative_to(TOP)}\0".encode() + file.read_bytes())
    return found.hexdigest()


def sum_of_programs():
    own = TOP / "tests/lib/mutants"
    return f"{sum_of(TOP / 'crates', own / 'rattle_changes.py', own / 'program.py', own / 'chosen.c')} {' '.join(CRATES)}"


def sum_of_look(script):
    """What decides which changes a script reaches, beside the programs."""
    return sum_of(script.file, TOP / "tools", TOP / "packaging", TOP / "tests/lib/mutants/script_changes.py")


# A script, the tests of it that run, where they can be named, and how long that takes.
Run = collections.namedtuple("Run", "script names seconds")


class Room:
    """A copy of the repository in which scripts run, with programs whose change is chosen by a file."""

    def __init__(self, number):
        self.folder = OUT / f"room-{number}"
        self.state, self.notes = State(self.folder / "state"), self.folder / "notes"

    def make(self):
        """Makes the copy anew, but for the programs that are there."""
        shutil.copytree(TOP, self.folder, ignore=LEFT, symlinks=True, dirs_exist_ok=True)
        self.notes.mkdir(exist_ok=True)
        self.notes.chmod(0o777)
        self.state.choose(0)

    def place(self, name):
        place = self.folder / "crates" / name / "out" / name
        place.parent.mkdir(exist_ok=True)
        return place

    def put(self, file, text):
        (self.folder / file).write_text(text)

    def put_noting(self):
        for file in script_files():
            self.put(file, scripts.noting(file, (TOP / file).read_text(), self.notes))

    def put_back(self):
        for file in script_files():
            self.put(file, (TOP / file).read_text())

    def run(self, script, seconds, names=(), **variables):
        """Runs a script, or the tests of it that are named; gives whether it passed, and what it took. What it leaves running ends with it."""
        word = self.place("rad_proxy") if script.word == PROGRAM else self.folder / script.word
        (self.folder / "said").write_text("")
        words = [sys.executable, "-m", script.module, str(word), *names]
        if not os.geteuid():
            words = ["unshare", "--pid", "--fork", "--kill-child", "--mount-proc", *words]
        began = time.monotonic()
        with tempfile.TemporaryDirectory(prefix="mutant-") as folder, (self.folder / "said").open("wb") as said:
            os.chmod(folder, 0o755)
            how = {"cwd": self.folder, "stdout": said, "stderr": said, "stdin": subprocess.DEVNULL, "preexec_fn": bounded,
                   "env": {**os.environ, "TMPDIR": folder, **variables}}
            ran = subprocess.Popen(words, start_new_session=True, **how)
            try:
                status = ran.wait(seconds)
            except subprocess.TimeoutExpired:
                status = -1
            finally:
                end(ran)
        return status == 0, time.monotonic() - began


def bounded():
    """No change fills the disk or the memory, nor does a script outlive this one."""
    LIBC.prctl(DEATH_OF_PARENT, signal.SIGKILL)
    for kind, most in ((resource.RLIMIT_AS, MEMORY), (resource.RLIMIT_FSIZE, FILE_OCTETS)):
        # A script may set another one.
        resource.setrlimit(kind, (most, resource.getrlimit(kind)[1]))


def end(ran):
    try:
        os.killpg(ran.pid, signal.SIGKILL)
    except ProcessLookupError:
        pass
    ran.wait()


def made(rooms):
    """Makes the rooms, and gives the changes of the crates that compile."""
    for room in rooms:
        room.make()
    tree = Tree(OUT / "tree", CRATES)
    for name in PROGRAMS:
        module = tree.compile(name)
        for room in rooms:
            tree.link(name, module, room.place(name), room.state.path)
        print(f"{name} is made", flush=True)
    return [change for change in tree.changes if change.number not in tree.dropped]


def in_rooms(rooms, tasks, work):
    """Calls `work` with each task and a room that is free."""
    free = queue.Queue()
    for room in rooms:
        free.put(room)

    def one(task):
        room = free.get()
        try:
            work(room, task)
        finally:
            free.put(room)

    with ThreadPoolExecutor(len(rooms)) as pool:
        for done in [pool.submit(one, task) for task in tasks]:
            done.result()


def looked_at(room, script):
    """Runs a script without a change; gives whether it passed, what it took, and what it and each of its tests reaches, if those can be named."""
    room.state.choose(0)
    by_test.forget(room.folder)
    passed, seconds = room.run(script, LONGEST, **{by_test.ROOM: str(room.folder)})
    told = by_test.all_of(room.folder, {"passed": passed, "seconds": seconds})
    return told if NAMED.search((room.folder / script.file.relative_to(TOP)).read_text()) else {**told, "tests": []}


def look(rooms, told, keep):
    """Runs each script that is not as it was once without a change, and keeps what it reaches and takes, where it passes."""
    tasks = [script for script in SCRIPTS if not script.place.startswith(OUTSIDE) and script.word != "--check"]
    tasks = [script for script in tasks if told.get(script.place, {}).get("sum") != sum_of_look(script)]

    def one(room, script):
        room.put_noting()
        told[script.place] = {**looked_at(room, script), "sum": sum_of_look(script)}
        keep()
        its, said = told[script.place], (room.folder / "said").read_text("utf-8", "replace").splitlines()
        word = "passed" if its["passed"] else f"what fails without a change is left out: {' | '.join(said[-LINES_TOLD:])}"
        print(f"{script.place}, {its['seconds']:.0f} s: {word}", flush=True)

    in_rooms(rooms, tasks, one)
    for room in rooms:
        room.put_back()


class Reached:
    """What a script, or a test of one, reaches: the numbers of programs, and the functions of tools."""

    def __init__(self, told):
        self.name, self.seconds, self.passed = told.get("test"), told["seconds"], told.get("passed")
        self.numbers, self.notes = set(told["reached"]), told["notes"]

    def reaches(self, number, note):
        if number:
            return number in self.numbers
        return any(it.startswith(note) if note.endswith(":") else it == note for it in self.notes)


def reached_by(told):
    """What a script reaches, and those of its tests that passed, where they can be named. Nothing where the script failed, and no test of it
    can be named and passed."""
    tests = [Reached(it) for it in told["tests"] if it["word"] == "passed"]
    return (Reached(told), tests) if told["passed"] or tests else None


class Plants:
    """All changes, and which scripts reach them."""

    def __init__(self, changes, reached, texts):
        self.texts, self.kills = texts, collections.Counter()
        self.reached = {script: found for script, told in reached.items() if (found := reached_by(told))}
        self.changes = [*changes, *(change for file, text in texts.items() for change in scripts.script_changes(file, text))]

    def note_of(self, change):
        """The note of the function that a change of a tool is in; of what is in none, that of any of the file."""
        text = self.texts[change.file]
        line = scripts.line_of_function(text, change.line) if scripts.is_python(change.file, text) else 1
        return f"{change.file}:{line or ''}"

    def runs_of(self, change):
        """The runs that reach a change: the quick ones first, and those of scripts that saw many of its area. The quick tests of a script are
        one run, and each slow one is another, where tests can be named."""
        note, area, found = "" if change.number else self.note_of(change), area_of(change.file), []
        for script, (whole, tests) in self.reached.items():
            if whole.reaches(change.number, note):
                named = sorted((it for it in tests if it.reaches(change.number, note)), key=lambda it: it.seconds)
                found += [run_of(script, part) for part in parts(named)] if named or not whole.passed else [Run(script, (), whole.seconds)]
        return sorted(found, key=lambda run: run.seconds / (1 + KILL_WORTH * self.kills[area, run.script.place]))

    def chosen(self, count, seed, areas):
        """So many changes by a seed: one of each area in turn."""
        chance, rows = random.Random(seed), collections.defaultdict(list)
        for change in self.changes:
            if not areas or area_of(change.file) in areas:
                rows[area_of(change.file)].append(change)
        for row in rows.values():
            chance.shuffle(row)
        found = []
        while len(found) < count and any(rows.values()):
            for area in sorted(rows):
                if rows[area] and len(found) < count:
                    change = rows[area].pop()
                    found += [change] * (change.number > 0 or scripts.is_text_of_its_language(change))
        return found


def parts(named):
    """The tests that are quick as one part, and each other one as another."""
    quick = [it for it in named if it.seconds < QUICK]
    return [part for part in (quick, *([it] for it in named[len(quick):])) if part]


def run_of(script, tests):
    return Run(script, tuple(it.name for it in tests), sum(it.seconds for it in tests))


def row_of(change):
    """What tells a change from others while lines move: the file, the text of its line, and what is changed."""
    return change.file, (TOP / change.file).read_text().splitlines()[change.line - 1].strip(), change.what


def no_faults():
    """The rows of the table of changes that are no fault: file, line's text, change, reason, between tabs."""
    rows = [line.split("\t") for line in NO_FAULT.read_text("utf-8").splitlines() if line and not line.startswith("#")]
    return {tuple(row[:3]): row[3] for row in rows}


def passes(room, run, change, texts):
    """Whether a run passes with a change, which is taken back."""
    room.state.choose(change.number)
    if not change.number:
        room.put(change.file, change.text)
    try:
        return room.run(run.script, most_of(run), run.names, **{by_test.ENOUGH: "yes"})[0]
    finally:
        room.state.choose(0)
        if not change.number:
            room.put(change.file, texts[change.file])


def most_of(run):
    return run.seconds * FACTOR + MORE_SECONDS


def fails(room, run, change, texts):
    """Whether a run fails with a change, passes without it, and fails with it again: of the tests that can be named, the one that failed."""
    if passes(room, run, change, texts):
        return False
    said = (room.folder / "said").read_text("utf-8", "replace")
    run = run._replace(names=tuple(name for name in run.names if f"failed: {name}: " in said) or run.names)
    return room.run(run.script, most_of(run), run.names)[0] and not passes(room, run, change, texts)


def seen_by(room, change, plants, most):
    """Which script sees a change, or how many did not in so many seconds; the change is taken back."""
    runs, began = plants.runs_of(change), time.monotonic()
    for number, run in enumerate(runs):
        if time.monotonic() - began > most:
            return None, f"{number} of {len(runs)} runs"
        if fails(room, run, change, plants.texts):
            return run.script.place, ""
    return None, f"all {len(runs)} runs"


def outcome(room, change, plants, most, no_fault):
    """What becomes of a change: a word of the table, and what there is to say."""
    if not plants.runs_of(change):
        return "not reached", ""
    by, ran = seen_by(room, change, plants, most)
    if by:
        plants.kills[area_of(change.file), by] += 1
        return "killed", f"by {by}"
    return ("no fault" if row_of(change) in no_fault else "survived"), ran


def try_all(rooms, plants, picked, most, log):
    """Tries the changes, and counts what became of them for each area."""
    counts, no_fault = collections.defaultdict(collections.Counter), no_faults()

    def one(room, change):
        word, text = outcome(room, change, plants, most, no_fault)
        counts[area_of(change.file)][word] += 1
        line = "\t".join([word, text, f"{change.file}:{change.line}", change.what, row_of(change)[1]])
        print(line, file=log, flush=True)
        if word == "survived":
            print(line, flush=True)

    in_rooms(rooms, picked, one)
    return counts


def table(counts):
    """The counts as a table in Markdown."""
    heads = ["killed", "no fault", "survived", "not reached"]
    yield f"| area | made | {' | '.join(heads)} |"
    yield "|---" * (len(heads) + 2) + "|"
    for name, count in [*((f"`{area}`", counts[area]) for area in sorted(counts)), ("all", sum(counts.values(), collections.Counter()))]:
        yield f"| {name} | {sum(count.values())} | {' | '.join(str(count[head]) for head in heads)} |"


def ready(rooms):
    """All changes, and which scripts reach them: what an earlier run made of the same sources, or made anew."""
    kept, sum_now = OUT / "reached.json", sum_of_programs()
    told = json.loads(kept.read_text()) if kept.exists() else {}
    if told.get("sources") != sum_now:
        OUT.mkdir(parents=True, exist_ok=True)
        changes = made(rooms)
        told = {"sources": sum_now, "changes": [(it.file, it.line, it.what, it.number) for it in changes], "reached": {}}
        kept.write_text(json.dumps(told))
    else:
        for room in rooms:
            room.make()
    look(rooms, told["reached"], lambda: kept.write_text(json.dumps(told)))
    changes = [scripts.Change(file, line, what, "", number) for file, line, what, number in told["changes"]]
    reached = {script: told["reached"][script.place] for script in SCRIPTS if script.place in told["reached"]}
    return Plants(changes, reached, {file: (TOP / file).read_text() for file in script_files()})


def main():
    if sys.argv[1:] == ["--check"]:
        from tests.lib.mutants import check
        check.main()
    if len(sys.argv) < 4 or not all(word.isdecimal() for word in sys.argv[1:4]):
        sys.exit(__doc__)
    count, seed, most = map(int, sys.argv[1:4])
    areas = sys.argv[4:]
    rooms = [Room(number) for number in range(ROOMS)]
    plants = ready(rooms)
    with (OUT / f"tried-{seed}.txt").open("w") as log:
        counts = try_all(rooms, plants, plants.chosen(count, seed, areas), most, log)
    print(*table(counts), sep="\n")


if __name__ == "__main__":
    try:
        main()
    except KeyboardInterrupt:
        sys.exit("stopped")
