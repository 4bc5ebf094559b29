"""The whole gate: what `rt ci` proves, refuses and runs, and then each script of the list in scripts.py.

usage: python3 -m tests.gate.run PROGRAM

`rt ci` runs one check for each processor, as far as memory suffices, each as one process: a check that is shared by several
processes takes a fifth to a third more processor time. It takes that from the variable RT_JOBS, which stays as it is where it is set.

What `rt ci` says goes to out/gate.txt, what each script says to out/FOLDER-NAME.txt, and what each crate and each script
took, as tables in Markdown, to out/times.md. Where `rt ci` passed, out/rad_proxy.stamp says that the program is built, and of when the
sources are that it was built from. The last line is `N passed, M failed`, of all of it together; what ends badly or
without such a line of its own counts as a failure. Before it stand the last lines of each log that tells of one.

No script runs twice: what comes and goes is a fault, of the program or of the test.
"""
import os
import re
import resource
import subprocess
import sys
import time
from concurrent.futures import ThreadPoolExecutor

from tests.lib import TOP, progress
from tests.gate.scripts import PROGRAM, SCRIPTS

RT = os.environ.get("RT", "rt").split()
# What the largest checks take, in octets.
MEMORY_OF_A_CHECK = 5_000_000_000
COUNTS = re.compile(r"(\d+) passed, (\d+) failed")
# Of the log of what failed so many lines are shown at the end, each cut to so many characters.
LAST_LINES, LINE_CHARACTERS = 12, 400


def parts():
    """What `rt ci` does for each crate."""
    for name in progress.crates(TOP):
        folder = TOP / "crates" / name
        yield name, "proof"
        if any("#[test]" in file.read_text("utf-8") for file in folder.glob("src/**/*.rt")):
            yield name, "tests"
        if any(folder.glob("must-fail/*.edit")):
            yield name, "edits"


def counted(status, log):
    """What passed and what failed by the last line of a log, where the run that wrote it ended with this status."""
    lines = log.read_text("utf-8", "replace").splitlines()
    counts = COUNTS.fullmatch(lines[-1]) if lines else None
    passed, failed = map(int, counts.groups()) if counts else (0, 1)
    return passed, max(failed, 1) if status else failed


def told_by(script, program):
    """Runs one of the scripts, whose output goes to its log and is shown at its end. Gives what passed, what failed and the seconds."""
    words = [sys.executable, "-m", script.module, program if script.word == PROGRAM else script.word]
    began = time.time()
    with script.log.open("w", encoding="utf-8") as kept:
        status = subprocess.run(words, stdout=kept, cwd=TOP).returncode
    print(f"{script.name}: {script.log.read_text('utf-8', 'replace')}", end="", flush=True)
    return *counted(status, script.log), time.time() - began


def told_by_all(program):
    """What `told_by` gives of each script: first of those that run two at a time, then of those that run alone."""
    with ThreadPoolExecutor(2) as pool:
        together = {script: pool.submit(told_by, script, program) for script in SCRIPTS if not script.is_alone}
    return {script: it.result() for script, it in together.items()} | {it: told_by(it, program) for it in SCRIPTS if it.is_alone}


def last_lines(log):
    """The last lines of a log, as they are shown at the end."""
    lines = log.read_text("utf-8", "replace").splitlines()[-LAST_LINES:]
    return "\n".join([f"--- {log.name}", *(line[:LINE_CHARACTERS] for line in lines)])


def processor_minutes():
    """The processor time of all that ran so far."""
    used = resource.getrusage(resource.RUSAGE_CHILDREN)
    return (used.ru_utime + used.ru_stime) / 60


def taken(watch):
    """What each crate took, as a table, with the processor time of all that ran so far."""
    head = "Processor seconds, and in brackets the seconds that passed:"
    tail = f"With the runs of tests and of the program, all of it took {processor_minutes():.0f} processor minutes."
    return "\n".join([head, "", *watch.table(), "", tail, ""])


def taken_by_scripts(told, began):
    """How long each script took, the longest first, and what the whole gate took."""
    rows = sorted(((seconds, script) for script, (_, _, seconds) in told.items()), key=lambda row: -row[0])
    shown = [f"| {script.name} | {seconds:.0f} | {'alone' if script.is_alone else ''} |" for seconds, script in rows]
    minutes = f"{processor_minutes():.0f} processor minutes, and {(time.time() - began) / 60:.0f} minutes passed"
    tail = f"With the scripts, all of it took {minutes}."
    return "\n".join(["", "| script | seconds that passed | |", "|---|---|---|", *shown, "", tail, ""])


def main():
    if len(sys.argv) != 2:
        sys.exit(__doc__)
    gate, times, stamp = (TOP / "out" / name for name in ("gate.txt", "times.md", "rad_proxy.stamp"))
    stamp.unlink(missing_ok=True)
    os.environ.setdefault("RT_JOBS", str(progress.places(MEMORY_OF_A_CHECK)))
    began = time.time()
    status, watch = progress.run([*RT, "ci"], TOP, gate, list(parts()))
    if status == 0:
        stamp.touch()
        os.utime(stamp, (began, began))
    times.write_text(taken(watch))
    print(f"what each crate took stands in {times}", flush=True)
    told = told_by_all(sys.argv[1])
    with times.open("a") as kept:
        kept.write(taken_by_scripts(told, began))
    counts = {gate: counted(status, gate)} | {script.log: it[:2] for script, it in told.items()}
    for log in (it for it, (_, failed) in counts.items() if failed):
        print(last_lines(log))
    passed, failed = map(sum, zip(*counts.values()))
    print(f"{passed} passed, {failed} failed")
    sys.exit(1 if failed else 0)


if __name__ == "__main__":
    try:
        main()
    except KeyboardInterrupt:
        sys.exit("stopped")
