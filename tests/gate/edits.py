"""Tries the wrong bodies that the gate leaves out, and says of each whether the prover refused it, and over which goal.

usage: python3 -m tests.gate.edits [CRATE ..]
       python3 -m tests.gate.edits --alone [CRATE ..]   tries each edit by itself, by `rt must-fail`
       python3 -m tests.gate.edits --check              tries none, and says which edits of must-fail/ and wrong-bodies/ can't be applied

The edits are crates/CRATE/wrong-bodies/*.edit, of every crate where none is named. Each of these crates is proved first,
over the work that is kept, and that work is where its edits begin.

A function is proved from its own body and from the contracts of what it calls. So edits of different functions are tried
together: a round applies up to MOST_OF_A_ROUND of them to a copy of the repository and checks the crate there once, and an
edit is refused where a goal stays open in a function that it changes, or a proof by hand of that function shows another
one. An edit is tried again in a smaller round where neither was told, as of a function whose callee another edit of the
round changed; and what is left then is tried by `rt must-fail`, one at a time. Rounds run side by side: on JOBS processors,
or on as many as there are and memory holds.

What `rt` says stands in out/edits.txt. A line comes for each edit as its round ends, and the last line is
`N refused, M not`.
"""
import collections
import dataclasses
import os
import pathlib
import re
import shutil
import signal
import subprocess
import sys
import tempfile
import threading
from concurrent.futures import ThreadPoolExecutor

from tests.lib import TOP, progress

RT = os.environ.get("RT", "rt").split()
LOG = TOP / "out" / "edits.txt"
MEMORY_OF_A_ROUND = 3_000_000_000
MOST_OF_A_ROUND = 16
FUNCTION = re.compile(r"( *)(?:pub(?:\([^)]*\))? )?(?:const )?(?:unsafe )?fn (\w+)", re.M)
OPEN_GOAL = re.compile(r"^note: (?:\./)?(src/[^:]+):(\d+):\d+: (it is not proved that .*)", re.M)
WRONG_PROOF = re.compile(r"^(?:\./)?(proofs/\S+/(\w+)/Answers\.antt:\d+):\d+: error: (.*)", re.M)
# A proof that misses a name says nothing of the contract.
NAME_MISSED = re.compile(r"has no field|is not in scope|has no `|was not admitted|were not checked")
PRINTING = threading.Lock()
RUNNING = set()
STOPPED = threading.Event()


def places():
    """How many rounds run side by side: as many as JOBS says, or as there are processors and memory holds."""
    if os.environ.get("JOBS"):
        return max(1, int(os.environ["JOBS"]))
    return progress.places(MEMORY_OF_A_ROUND)


def height(name, uses):
    """How many crates of this repository a check of the crate reads beside its own: the more, the dearer it is."""
    return len(progress.below(uses, name))


@dataclasses.dataclass(frozen=True)
class Function:
    """A function: its file, its first and last line there, with its attributes, and its name."""
    path: str
    first: int
    last: int
    name: str


@dataclasses.dataclass(frozen=True, eq=False)
class Edit:
    """A wrong body: its crate and file, what it makes of which lines, by path and number, and the functions that it changes."""
    crate: str
    file: pathlib.Path
    lines: dict
    functions: frozenset

    def __str__(self):
        return f"{self.crate}/{self.file.stem}"


def function_at(path, lines, number):
    """The function in which a line stands, by the layout of `rt fmt`, or None if it stands in none."""
    for first in range(number, 0, -1):
        head = FUNCTION.match(lines[first - 1])
        if head:
            last = next(it for it in range(first, len(lines) + 1) if lines[it - 1].startswith(head[1] + "}"))
            while lines[first - 2].startswith(head[1] + "#["):
                first -= 1
            return Function(path, first, last, head[2]) if number <= last else None
    return None


def edit_of(name, file):
    """Reads an edit of a crate, or tells why it can't be applied. Where it changes more than functions, its functions are none."""
    crate = TOP / "crates" / name
    texts, why = applied(crate, file)
    if why:
        return None, why
    made, functions = {}, set()
    for path, text in texts.items():
        lines = (crate / path).read_text("utf-8").split("\n")
        for number, (old, new) in enumerate(zip(lines, text.split("\n"), strict=True), 1):
            if old != new:
                made[path, number] = new
                functions.add(function_at(path, lines, number))
    return Edit(name, file, made, frozenset(() if None in functions else functions)), ""


def names_of(name):
    """How many functions of a crate have each name."""
    texts = (file.read_text("utf-8") for file in (TOP / "crates" / name / "src").glob("**/*.rt"))
    return collections.Counter(head[2] for text in texts for head in FUNCTION.finditer(text))


def deal(edits, most):
    """Deals a crate's edits into rounds of about as many, and at most so many, in each of which no two change one function."""
    rounds = [[] for _ in range(-(-len(edits) // most))]
    for edit in edits:
        free = [it for it in rounds if len(it) < most and not any(edit.functions & other.functions for other in it)]
        if not free:
            free = [[]]
            rounds += free
        min(free, key=len).append(edit)
    return rounds


def told(words, folder, **more):
    """Runs a command to its end, and gives its status and what it said, which goes to the log too."""
    how = {"cwd": folder, "encoding": "utf-8", "errors": "replace", "start_new_session": True}
    how.update(stdin=subprocess.DEVNULL, stdout=subprocess.PIPE, stderr=subprocess.STDOUT)
    if STOPPED.is_set():
        raise KeyboardInterrupt
    run = subprocess.Popen(words, **how, **more)
    RUNNING.add(run)
    try:
        said, _ = run.communicate()
    finally:
        RUNNING.discard(run)
    if STOPPED.is_set():
        raise KeyboardInterrupt
    with PRINTING, LOG.open("a", encoding="utf-8") as log:
        log.write(said)
    return run.returncode, said


def prove(names, uses):
    """Builds the libraries below these crates and proves these, over the work that is kept, and says where one is not proved."""
    below = {other for name in names for other in progress.below(uses, name)}
    tried = [it for it in names if any((TOP / "crates" / it).glob("wrong-bodies/*.edit"))]
    for name in (it for it in uses if it in below or it in tried):
        verb = "lib" if name in below else "check"
        print(f"{name}: {'its library' if name in below else 'its proof'} ..", flush=True)
        status, said = told([*RT, verb], TOP / "crates" / name)
        if status:
            sys.exit(f"{said[-2000:]}\n{name} is not proved, so no edit was tried")


def link(file, other):
    """Gives a file another name, or copies it where it can't have one there."""
    try:
        os.link(file, other)
    except OSError:
        shutil.copy2(file, other)


def copy_to(room, uses, name):
    """A copy of the repository without its edits, in which one crate's are to be tried, and the folder of that crate there. The
    libraries that are built are in it by links: no check changes one that is up to date. What is kept of the proof of that crate is
    copied, so that only what an edit changes is proved anew."""
    (room / "tmp").mkdir()
    for file in ("crates.txt", "HANDLES"):
        shutil.copy(TOP / file, room)
    for it in uses:
        crate = room / "crates" / it
        left_out = shutil.ignore_patterns("out", "must-fail", "wrong-bodies")
        shutil.copytree(TOP / "crates" / it, crate, ignore=left_out)
        built = TOP / "crates" / it / "out" / "rlib"
        if it != name and built.is_dir():
            shutil.copytree(built, crate / "out" / "rlib", copy_function=link)
    kept = TOP / "crates" / name / "out" / "incremental"
    if kept.is_dir():
        shutil.copytree(kept, room / "crates" / name / "out" / "incremental")
    return room / "crates" / name


def say(edit, verdict):
    """Prints what an edit came to."""
    with PRINTING:
        print(f"{edit}: {verdict}", flush=True)


def begins(name, edits, how):
    """Says that a crate's edits are tried now."""
    with PRINTING:
        print(f"{name}: {len(edits)} edits, {how} ..", flush=True)


def why_refused(edit, said):
    """The first goal that a check left open in a function of an edit, or what is wrong with a proof by hand of one; or nothing."""
    for path, line, why in OPEN_GOAL.findall(said):
        if any(it.path == path and it.first <= int(line) <= it.last for it in edit.functions):
            return f"{path}:{line}: {why}"
    counts = names_of(edit.crate)
    for at, name, why in WRONG_PROOF.findall(said):
        # (the folder of a proof is named by a type's module, which need not be the file)
        if counts[name] == 1 and any(it.name == name for it in edit.functions) and not NAME_MISSED.search(why):
            return f"{at}: {why}"
    return ""


def try_together(uses, edits, room):
    """Tries edits of one crate in one check, and gives those that are refused. Of the others nothing is known."""
    name, room = edits[0].crate, pathlib.Path(tempfile.mkdtemp(dir=room))
    crate = copy_to(room, uses, name)
    begins(name, edits, "together")
    made = {at: line for edit in edits for at, line in edit.lines.items()}
    for path in {path for path, _ in made}:
        lines = (crate / path).read_text("utf-8").split("\n")
        text = "\n".join(made.get((path, number), line) for number, line in enumerate(lines, 1))
        (crate / path).write_text(text, "utf-8")
    status, said = told([*RT, "check", "--jobs", "1"], crate, env={**os.environ, "TMPDIR": str(room / "tmp")})
    shutil.rmtree(room)
    if not status or not re.search("^logic=not-proved", said, re.M):
        return []
    refused = [(edit, why) for edit in edits if (why := why_refused(edit, said))]
    for edit, why in refused:
        say(edit, f"refused: {why[:160]}")
    return [edit for edit, _ in refused]


def try_alone(uses, edits, room):
    """Tries edits of one crate one after the other, says what each came to, and gives those that are refused."""
    name, room = edits[0].crate, pathlib.Path(tempfile.mkdtemp(dir=room))
    crate = copy_to(room, uses, name)
    (crate / "must-fail").mkdir()
    for edit in edits:
        shutil.copy(edit.file, crate / "must-fail")
    begins(name, edits, "one at a time")
    _, said = told([*RT, "must-fail", name], room, env={**os.environ, "TMPDIR": str(room / "tmp"), "RT_JOBS": "1"})
    shutil.rmtree(room)
    verdicts = dict(re.findall(rf"^rt: must-fail {name}/(\S+): (.*)", said, re.M))
    for edit in edits:
        say(edit, verdicts.get(edit.file.name, f"NOT TRIED: {said[-400:]}"))
    return [edit for edit in edits if verdicts.get(edit.file.name, "").startswith("refused")]


def try_all(uses, names, passes, count, room):
    """Tries the edits of these crates in one pass after the other, so many rounds side by side, and gives how many were refused
    and how many not. A pass is a way to try them and how many a round has at most."""
    left, total, refused = [], 0, 0
    for name in sorted(names, key=lambda it: -height(it, uses)):
        for file in sorted((TOP / "crates" / name / "wrong-bodies").glob("*.edit")):
            edit, why = edit_of(name, file)
            total += 1
            left += [edit] if edit else []
            if why:
                say(f"{name}/{file.stem}", f"NOT TRIED: {why}")
    with ThreadPoolExecutor(count) as pool:
        for tried_by, most in passes:
            dealt = []
            for name in dict.fromkeys(edit.crate for edit in left):
                dealt += deal([it for it in left if it.crate == name and (it.functions or tried_by is try_alone)], most)
            done = {edit for its in pool.map(lambda edits: tried_by(uses, edits, room), dealt) for edit in its}
            left, refused = [edit for edit in left if edit not in done], refused + len(done)
    return refused, total - refused


def applied(crate, edit):
    """The texts of the files that an edit changes, by path, as it makes them, or why it can't be applied."""
    texts, path, old = {}, None, None
    for line in edit.read_text("utf-8").splitlines():
        head, _, rest = line.partition(":")
        rest = rest.removeprefix(" ")
        if not line:
            continue
        if head == "file":
            path = rest
            if not (crate / path).is_file():
                return None, f"there is no file {path}"
            texts.setdefault(path, (crate / path).read_text("utf-8"))
        elif head == "old":
            old = rest
        elif head == "new" and path and old:
            count = texts[path].count(old)
            if count != 1:
                return None, f"an old: text stands in {path} {count} times, and not once"
            texts[path], old = texts[path].replace(old, rest), None
        else:
            return None, f"this line is of no known form, or out of place: {line[:60]}"
    return (texts, "") if texts and old is None else (None, "it has no old: with a new: behind it")


def check():
    """Says which edits can't be applied, or make the same as another one of their crate."""
    passed, failed = 0, 0
    for name in progress.crates(TOP):
        crate, made = TOP / "crates" / name, {}
        for edit in sorted([*crate.glob("must-fail/*.edit"), *crate.glob("wrong-bodies/*.edit")]):
            texts, why = applied(crate, edit)
            same = texts and made.setdefault(tuple(sorted(texts.items())), edit)
            if same and same != edit:
                why = f"it makes the same as {same.stem}"
            passed, failed = passed + (not why), failed + bool(why)
            if why:
                print(f"{name}/{edit.parent.name}/{edit.stem}: {why}", flush=True)
    print(f"{passed} passed, {failed} failed")
    sys.exit(1 if failed or not passed else 0)


def stop(*_):
    """Ends what this run started, so that its temporary copies can be removed."""
    STOPPED.set()
    for run in list(RUNNING):
        try:
            os.killpg(run.pid, signal.SIGKILL)
        except ProcessLookupError:
            pass
    raise KeyboardInterrupt


def main():
    if sys.argv[1:] == ["--check"]:
        check()
    uses, words = progress.libraries(TOP), sys.argv[1:]
    passes = [(try_together, MOST_OF_A_ROUND), (try_together, MOST_OF_A_ROUND // 4), (try_alone, MOST_OF_A_ROUND // 4)]
    if "--alone" in words[:1]:
        words, passes = words[1:], [(try_alone, MOST_OF_A_ROUND)]
    names = words or list(uses)
    if unknown := [it for it in names if it not in uses]:
        sys.exit(f"crates.txt has no crate {unknown[0]}")
    LOG.parent.mkdir(exist_ok=True)
    LOG.write_text("")
    for number in (signal.SIGINT, signal.SIGTERM, signal.SIGHUP):
        signal.signal(number, stop)
    prove(names, uses)
    count = places()
    print(f"{count} rounds at once; what rt says goes to {LOG}", flush=True)
    room = tempfile.mkdtemp(prefix="edits-")
    try:
        refused, others = try_all(uses, names, passes, count, room)
    finally:
        shutil.rmtree(room, ignore_errors=True)
    print(f"{refused} refused, {others} not")
    sys.exit(1 if others or not refused else 0)


if __name__ == "__main__":
    try:
        main()
    except KeyboardInterrupt:
        sys.exit("stopped: not every edit was tried")
