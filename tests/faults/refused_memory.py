"""Refuses the growths of a program one after the other, and its threads, and says where what it answers is not what it should.

usage: python3 -m tests.faults.refused_memory PROGRAM [TESTS ..]

`replay` runs over some rows of tests/rows, `check` over configurations, and `run` is asked for its state and drained, without a
ledger and with one. In each run an allocation is refused by refused_memory.c: the first, then the second, and so on until there is none of
that number; and once more so, with all that follow refused too. `replay` has to end in `configuration: OutOfMemory` or `memory:
refused`, with the lines before as without the refusal, or it goes on: then each event whose growth was refused says so and has
changed nothing, and every other line and the end are what model.py answers. `check` ends in one of these two; it logs all unread
keys or none, and so with each of its other warnings. `run` ends in one of these two, or in `threads: failed`. Where one allocation
alone is refused, the program may also do with a smaller one and answer all; where all that follow are refused too, `replay` may
not. Each thread of `run` is refused in turn as well: then it has to end in `threads: failed`. The row each-call-is-made-twice
makes each call that takes memory twice, so that the second one shows what is there after a refusal; what-takes-no-memory has to
come to its end with every growth refused from some event on.

TESTS are programs of tests, as `rt test` leaves them in crates/CRATE/out/CRATE_tests. With one growth refused, each test has
to pass or to fail by itself, and not by a fault of memory; beyond the first FIRST ones only some are refused. A test whose
name ends in AGAIN makes each call again that was refused, and no assertion of it may fail. The last line is `N passed, M
failed`.
"""
import pathlib
import signal
import subprocess
import sys
import tempfile
from dataclasses import dataclass, field
from functools import partial
from itertools import product
from typing import Callable

from tests.lib import MOST_ALLOCATIONS, Refuser, answers, conclude, free_port, rows

QUIET = "refusals/what-takes-no-memory"
ROWS = ["lane/answers-one-request", "draining/drains", "responses/untaken-of-two-homes", "watch/comes-up-by-probe"]
ROWS += ["refusals/each-call-is-made-twice", QUIET]
REFUSALS = ["nas: refused OutOfMemory", "home: dropped OutOfMemory", "turn: refused OutOfMemory"]
ENDINGS = {"configuration: OutOfMemory": 2, "memory: refused": 4}
THREADLESS = {"threads: failed": 4}
ENDINGS_OF_RUN = {**ENDINGS, **THREADLESS}
COMMANDS = b"state\ndrain\n"
STATE = "lane 0 h1 up open accepted 0 queued 0 outstanding 0 answered 0 opening 0"
TEST_FAILED = 101
FIRST, LATER = 200, 20
AGAIN = "again_after_a_refused_growth"


@dataclass
class Subject:
    """What is run: its words and its input, and what says of a run, and of whether one growth alone was refused, its fault.

    Some run where all growths are refused from one on has to print just the lines `quiet`. Of a test not each growth is
    refused. Or it is its threads that are refused, and no growth is."""

    name: str
    words: list
    given: bytes
    fault_of: Callable
    is_test: bool = False
    is_threads: bool = False
    quiet: list | None = None
    more: dict = field(default_factory=dict)


def told_by(ran):
    """The lines of standard output, and the last one of standard error that is not of the log."""
    errors = [line for line in ran.stderr.decode("utf-8", "replace").splitlines() if not line.startswith("level=")]
    return ran.stdout.decode("utf-8", "replace").splitlines(), errors[-1] if errors else ""


def fault_of_replay(script, ran, is_alone):
    """What is wrong with a run of `replay` over a script, and nothing where all is right."""
    told, error = told_by(ran)
    wanted, status = answers(script, lambda place: place < len(told) and told[place] in REFUSALS)
    if ran.stderr:
        return fault_of_ending(wanted, told, ran.returncode, ENDINGS.get(error), ran.stderr)
    if (told, ran.returncode) != (wanted, status):
        texts = ("\n".join(lines).encode() for lines in (wanted, told))
        return "\n".join([f"it ended with status {ran.returncode}, wanted {status}", *rows.difference(*texts)])
    count = sum(line in REFUSALS for line in told)
    if is_alone:
        return None if count <= 1 else f"{count} events tell a refused growth"
    return None if count else "nothing tells that a growth was refused"


def fault_of_run(wanted, ran, _):
    """The same of `check` or `run`, which has to print these lines where it does not end early."""
    told, error = told_by(ran)
    if (ran.returncode, told) == (0, wanted):
        return None
    return fault_of_ending(wanted, told, ran.returncode, ENDINGS_OF_RUN.get(error), ran.stderr)


def fault_of_check(usual, logs, ran, _):
    """The same of `check`, which has to log one of these lists of lines, and to end as usual where it does not end early."""
    told, errors = ran.stdout.decode("utf-8", "replace").splitlines(), ran.stderr.decode("utf-8", "replace").splitlines()
    logged = [line for line in errors if line.startswith("level=")]
    last = errors[len(logged) :]
    if logged not in logs:
        return f"it logged {logged}"
    is_early = not told and len(last) == 1 and ran.returncode == ENDINGS.get(last[0])
    if is_early or (ran.returncode, told, last) == usual:
        return None
    return f"it ended with status {ran.returncode} and wrote {told} and {last}"


def fault_of_threadless(wanted, ran, _):
    """The same of `run` with a thread refused, which has to end early."""
    told, error = told_by(ran)
    return fault_of_ending(wanted, told, ran.returncode, THREADLESS.get(error), ran.stderr)


def fault_of_test(may_stop, ran, _):
    """What is wrong with a test that was run: an assertion of its own may stop it, if that may be, and nothing else."""
    text = (ran.stdout + ran.stderr).decode("utf-8", "replace")
    is_stopped = ran.returncode == -signal.SIGABRT and "test stopped at" in text
    if ran.returncode in (0, TEST_FAILED) or is_stopped and may_stop:
        return None
    return f"it ended with status {ran.returncode}: {text[-400:]}"


def fault_of_ending(wanted, told, status, wanted_status, errors):
    """What is wrong with a run that a refused growth ended."""
    if status < 0:
        return f"it was ended by signal {-status}"
    if status != wanted_status:
        return f"it ended with status {status} and wrote {errors!r}"
    return None if told == wanted[: len(told)] and len(told) < len(wanted) else f"of {wanted} it printed {told}"


def ending_of(ran):
    """The line that tells the first refused growth, if there is one."""
    told, error = told_by(ran)
    return error or next((line for line in told if line in REFUSALS), None)


def reason(level, event, text):
    return f'level={level} event={event} reason="{text}"'


def checked(program, folder):
    """Runs of `check` over texts that it warns of: one with unread keys, doubts and a home server that loops, one with two
    faults, and one that is not TOML."""
    warned = """listen = "127.0.0.1:1813"
top = 1
[[client]]
address = "10.0.0.1"
secret = "s"
name = "c"
[[home]]
name = "h1"
address = "127.0.0.1:1813"
secret = "s"
[home.limits]
window = 1
"""
    places = ["top a key at line 2, column 1", "client 0 a key at line 6, column 1", "home 0 a key at line 11, column 7"]
    unread = [reason("warn", "unread-key", place) for place in places]
    loop = reason("warn", "home-address", "home h1 at 127.0.0.1:1813: listen serves it, so requests would come back")
    doubts = [reason("warn", "no-realm", "top realm: no realm and no default_home, so each request is dropped"),
              reason("warn", "weak-secret", "client 0 secret at line 5, column 1: it has fewer than 8 octets"),
              reason("warn", "weak-secret", "home 0 secret at line 10, column 1: it has fewer than 8 octets")]
    no_toml = reason("error", "no-toml", "line 1, column 12: invalid string")
    faulty = """listen = "127.0.0.1:1813"
[[client]]
address = "10.0.0.0/16"
secret = "long enough"
[[home]]
name = "h1"
address = "h:1"
secret = "long enough"
"""
    faults = [reason("error", "configuration-fault", f"BadAddress at {place}") for place in (
        "client 0 address at line 3, column 1: 10.0.0.0/16: it is a block: one [[client]] for each address",
        "home 0 address at line 7, column 1: it is a host name, not an address")]
    texts = {
        "warned": (warned, (0, ["clients 1 homes 1 realms 0"], []), [sum(each, []) for each in product(([], unread), ([], doubts), ([], [loop]))]),
        "faulty": (faulty, (2, [], ["configuration: BadAddress at client 0 address"]), [[], faults]),
        "malformed": ('listen = "1', (2, [], ["configuration: Toml"]), [[], [no_toml]]),
    }
    for name, (text, usual, logs) in texts.items():
        file = pathlib.Path(folder, f"{name}.toml")
        file.write_text(text, "utf-8")
        yield Subject(f"check, {name}", [program, "check", str(file)], b"", partial(fault_of_check, usual, logs))


def subjects(program, folder):
    """All that is run."""
    for name in ROWS:
        script = rows.Row(name).streams["<"]
        quiet = answers(script.decode())[0][:-1] if name == QUIET else None
        yield Subject(name, [program, "replay"], script, partial(fault_of_replay, script.decode()), quiet=quiet)
    listen = f"127.0.0.1:{free_port()}"
    file = pathlib.Path(folder, "one-home.toml")
    file.write_text((rows.ROWS / "one-home.toml").read_text("utf-8").replace("127.0.0.1:1813", listen), "utf-8")
    yield Subject("check", [program, "check", str(file)], b"", partial(fault_of_run, ["clients 1 homes 1 realms 1"]))
    yield from checked(program, folder)
    wanted = [f"listening {listen}", STATE, "drain: 0 0", "end: queued 0 outstanding 0 untaken 0"]
    words = [program, "run", str(file)]
    ledger = pathlib.Path(folder, "ledger")
    ledger.mkdir()
    for name, more in (("run", {}), ("run with a ledger", {"RAD_PROXY_LEDGER": str(ledger)})):
        yield Subject(name, words, COMMANDS, partial(fault_of_run, wanted), more=more)
        yield Subject(name, words, COMMANDS, partial(fault_of_threadless, wanted), is_threads=True, more=more)


def tests_of(program):
    """The tests of a program of tests."""
    listed = subprocess.run([program, "--list"], capture_output=True, text=True, check=True).stdout.splitlines()
    for name in (line.removesuffix(": test") for line in listed if line.endswith(": test")):
        fault_of = partial(fault_of_test, not name.endswith(AGAIN))
        yield Subject(f"{pathlib.Path(program).name} {name}", [program, name], b"", fault_of, is_test=True)


def numbers_of(subject, number, is_alone):
    """What is refused where this number is."""
    if subject.is_threads:
        return {"THREAD": number}
    return {"FIRST": number, "LAST": number if is_alone else MOST_ALLOCATIONS}


def empty_ledger(more):
    """Removes the files of earlier runs, of which a run looks for the newest one: each would take memory."""
    for file in pathlib.Path(more["RAD_PROXY_LEDGER"]).iterdir() if more else ():
        file.unlink()


def refused_in_turn(refuser, subject, is_alone):
    """Each run with one allocation or thread refused, or all from one on: the number of that one, and what came."""
    number = 1
    while number < MOST_ALLOCATIONS:
        empty_ledger(subject.more)
        ran = refuser.run(subject.words, subject.given, subject.more, **numbers_of(subject, number, is_alone))
        if ran is None:
            return
        yield number, ran
        number += 1 if number < FIRST or not subject.is_test else number // LATER


def tried(refuser, subject, is_alone, seen):
    """How many runs of a subject passed and failed; how they ended goes to `seen`."""
    endings, failed, is_loud = [], 0, subject.quiet is not None and not is_alone
    what, how = "thread" if subject.is_threads else "allocation", "alone" if is_alone else "with all that follow"
    for number, ran in refused_in_turn(refuser, subject, is_alone):
        endings.append(ending_of(ran))
        is_loud = is_loud and told_by(ran)[0] != subject.quiet
        fault = subject.fault_of(ran, is_alone)
        if fault is not None:
            failed += 1
            print(f"{subject.name}, {what} {number} refused {how}: {fault}")
    print(f"{subject.name}: {len(endings)} {what}s refused {how}, {endings.count(None)} of them did no harm", flush=True)
    if is_loud:
        print(f"{subject.name}: what takes no memory did not come to its end without it")
    seen.update(endings)
    return len(endings) - failed, failed + is_loud + (not endings and not subject.is_test)


def main():
    if len(sys.argv) < 2:
        sys.exit(__doc__)
    (program, *tests), seen, counts = (str(pathlib.Path(word).resolve()) for word in sys.argv[1:]), set(), []
    with tempfile.TemporaryDirectory() as folder:
        refuser = Refuser(folder)
        for subject in (*subjects(program, folder), *(test for name in tests for test in tests_of(name))):
            for is_alone in (True,) if subject.is_test or subject.is_threads else (True, False):
                counts.append(tried(refuser, subject, is_alone, seen))
    unseen = {*REFUSALS, *ENDINGS} - seen
    if unseen:
        print(f"no refused growth ended in {', '.join(sorted(unseen))}")
    passed, failed = map(sum, zip(*counts))
    conclude(passed, failed + len(unseen))


if __name__ == "__main__":
    main()
