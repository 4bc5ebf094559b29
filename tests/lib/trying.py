"""What runs the tests of a script and counts them: tests that are functions, and trials that look at one thing after the other."""
import os
import pathlib
import shutil
import subprocess
import sys
import tempfile
import traceback

from tests.lib.always import told_always
from tests.lib.mutants import by_test

# Of a bound of time the best of so many tries counts, since a machine may have much else to do.
TRIES = 5


class LeftOut(Exception):
    """The test wants what is not here."""


def hope(text, found, wanted):
    """Fails a test, where what was found is not what was wanted."""
    if found != wanted:
        raise AssertionError(f"{text}: {found!r}, and not {wanted!r}")


def need(is_right, *told):
    """Fails a test, where something is not right, and tells this."""
    if not is_right:
        raise AssertionError(" ".join(map(str, told)))


def best(tried, is_kept):
    """Tries something until a bound of time is kept, TRIES times at most."""
    seen = []
    while not seen or not is_kept(seen[-1]):
        if len(seen) == TRIES:
            raise AssertionError(f"not in {TRIES} tries: {seen}")
        seen.append(tried())


def conclude(passed, failed):
    """Ends the script. The last line is `N passed, M failed`; what holds in every script and did not hold is a failure too."""
    failed += told_always()
    print(f"{passed} passed, {failed} failed")
    sys.exit(1 if failed else 0)


def outcome(test, fault_on):
    """What became of a test: a word, and what there is to say."""
    try:
        fault = fault_on(test)
    except LeftOut as reason:
        return "left out", str(reason)
    return ("passed", "") if fault is None else ("failed", fault)


def try_each(tests, fault_on):
    """Tells of each test that has a fault or is left out, counts the others, and ends the script."""
    words = []
    for test in tests:
        began = by_test.begin(test.__name__)
        word, text = outcome(test, fault_on)
        by_test.end(test.__name__, began, word)
        words.append(word)
        if word != "passed":
            print(f"{word}: {test.__name__}: {text}", flush=True)
        if by_test.is_enough(word):
            break
    conclude(words.count("passed"), words.count("failed"))


def fault_of(test, *given):
    """What is wrong with a test, where something is, by the exception that it ends with, and where that was."""
    try:
        test(*given)
    except LeftOut:
        raise
    except Exception as fault:
        last = traceback.extract_tb(fault.__traceback__)[-1]
        where = "" if isinstance(fault, AssertionError) else f" ({pathlib.Path(last.filename).name}:{last.lineno})"
        return f"{type(fault).__name__}: {fault}{where}"
    return None


def is_asked(word):
    """Whether the script is given a word, which is taken from its words."""
    found = word in sys.argv
    if found:
        sys.argv.remove(word)
    return found


def chosen(tests, usage):
    """The program that the script is given, and the tests that it is given the names of behind it, in that order, or all."""
    if len(sys.argv) < 2:
        sys.exit(usage)
    named = [test for name in sys.argv[2:] for test in tests if test.__name__ == name]
    return pathlib.Path(sys.argv[1]).resolve(), named if sys.argv[2:] else tests


def try_named(tests, stage_of, usage):
    """Tries the tests that are chosen, over what `stage_of` makes for each of the program, in a folder of its own, and ends the script."""
    program, tests = chosen(tests, usage)

    def staged(test):
        with tempfile.TemporaryDirectory() as folder:
            stage = stage_of(program, pathlib.Path(folder))
            try:
                test(stage)
            finally:
                stage.stop()

    try_each(tests, lambda test: fault_of(staged, test))


def try_in_folders(tests, usage):
    """Tries the tests that are chosen, each with the program and a folder of its own, and ends the script."""
    program, tests = chosen(tests, usage)

    def in_a_folder(test):
        with tempfile.TemporaryDirectory() as folder:
            test(program, pathlib.Path(folder))

    try_each(tests, lambda test: fault_of(in_a_folder, test))


def try_in_namespace(tests, try_one, usage, module, prepare=lambda: None):
    """Tries the tests that are named, or all, in a network namespace of its own, where `prepare` is called first. `try_one` is given the name
    of a test and the program, and answers whether it passed. Ends the script, which calls itself by its module."""
    if len(sys.argv) < 2:
        sys.exit(usage)
    if sys.argv[1] == "--inside":
        # The files are such that the other users of a test may read them.
        os.umask(0o022)
        subprocess.run(["ip", "link", "set", "lo", "up"], check=True)
        prepare()
        passed = [try_one(name, sys.argv[2]) for name in sys.argv[3:] or tests]
        conclude(sum(passed), len(passed) - sum(passed))
    if os.geteuid() or not shutil.which("ip") or not shutil.which("setpriv") or subprocess.run(["unshare", "--net", "--mount", "true"]).returncode:
        print("left out: it wants root, `ip`, `setpriv` and `unshare`")
        conclude(0, 0)
    program, names = str(pathlib.Path(sys.argv[1]).resolve()), sys.argv[2:]
    words = ["unshare", "--net", "--mount", sys.executable, "-m", module, "--inside", program, *names]
    sys.exit(subprocess.run(words).returncode)


class Trial:
    """What is looked at of a program, in a folder: what is so is counted, and what is not is counted and told."""

    def __init__(self, program, folder):
        self.program, self.folder = program, pathlib.Path(folder)
        self.passed, self.failed = 0, 0

    def see(self, what, is_right, found=None):
        """Counts whether something is so, and where it is not tells what was found."""
        self.passed += bool(is_right)
        self.failed += not is_right
        if not is_right:
            print(f"not so: {what}" if found is None else f"not so: {what}: {found}", flush=True)
            need(not by_test.is_enough("failed"), "one failure is enough")

    def compare(self, what, found, wanted):
        """The same of what has to be what is wanted."""
        self.see(what, found == wanted, f"{found!r}, and not {wanted!r}")

    def write(self, name, text):
        """The path of a new file of the folder."""
        path = self.folder / name
        path.write_text(text, "utf-8")
        return str(path)

    def stop(self):
        """Ends whatever is left running, of which there is nothing here."""


def run_trial(trial_of, usage):
    """Runs a trial of the program that the script is given, and ends the script."""
    if len(sys.argv) != 2:
        sys.exit(usage)
    with tempfile.TemporaryDirectory() as folder:
        trial = trial_of(str(pathlib.Path(sys.argv[1]).resolve()), folder)
        try:
            fault = fault_of(trial.run)
        finally:
            trial.stop()
    if fault is not None:
        trial.see(fault, False)
    conclude(trial.passed, trial.failed)
