"""Has the program write a ledger while its folder is away, or its disk full or slow.

usage: python3 -m tests.ledger.folders_and_writes PROGRAM [--long | NAME ..]

Each test is a function below, and its first line tells what holds. Names choose tests, and `--long` those that take a minute or more. A
full disk is a small file system, where root runs this, and else told as left out. slow_files.c makes writes slow, and failing_disks.c takes
the name of a file. The last line is `N passed, M failed`.
"""
import os
import resource
import signal
import subprocess
import time

from tests.lib import LeftOut, built, hope, is_asked, try_named, until
from tests.lib.ledger.trials import LAST, PATIENCE, Trial

def a_folder_that_is_not_there_is_told(trial):
    """A folder that is not there at the start is told once, requests are answered, and once it is there all entries come."""
    trial.folder.rmdir()
    trial.begin()
    hope("acknowledged", trial.ask(500), 500)
    time.sleep(2.5)
    until("the age of the oldest", lambda: trial.number("ledger_oldest_waiting_seconds") > 1)
    hope("what is told", len(trial.events("ledger-fault")), 1)
    hope("its level", "level=error" in trial.events("ledger-fault")[0], True)
    trial.folder.mkdir()
    until("the entries", lambda: trial.number("ledger_written_total") == 500)
    trial.ends()
    trial.is_all_there()
    trial.answers_as_without()
    hope("what is told", (len(trial.events("ledger-fault")), len(trial.events("ledger-back"))), (1, 1))


def a_folder_that_goes_away_and_comes_back(trial):
    """Of a folder that is moved away and back nothing is missing, and its going is told once."""
    trial.begin()
    trial.ask(300)
    trial.folder.rename(trial.room / "elsewhere")
    trial.ask(300)
    time.sleep(2.5)
    trial.ask(300)
    (trial.room / "elsewhere").rename(trial.folder)
    until("the entries", lambda: trial.number("ledger_written_total") == 900)
    trial.ends()
    trial.is_all_there()
    trial.answers_as_without()
    hope("what is told", (len(trial.events("ledger-fault")), len(trial.events("ledger-back"))), (1, 1))


def a_folder_that_is_made_anew(trial):
    """Where a folder is moved away and another one comes in its place, a new file has what the old one lacks."""
    trial.begin()
    trial.ask(300)
    until("they are written", lambda: len(trial.entries()) == 300)
    other = trial.room / "elsewhere"
    trial.folder.rename(other)
    trial.folder.mkdir()
    trial.ask(300)
    trial.ends()
    trial.is_all_there(files=[*trial.files(other), *trial.files()])
    hope("the second file", trial.ledger_lines()[0]["lanes"][0]["serial"], 0)
    hope("what is told", [line.partition("lost ")[2] for line in trial.events("ledger-lost")], ["lane=0 count=300 from=0 to=299"])


def a_folder_that_is_a_file_is_told(trial):
    """A folder that is a file is told once at level error, requests are answered, and the end tells what is not written."""
    trial.folder.rmdir()
    trial.folder.write_text("no folder")
    trial.begin()
    hope("acknowledged", trial.ask(300), 300)
    time.sleep(1.5)
    trial.answers_as_without()
    trial.ends(seconds=LAST)
    hope("the file", trial.folder.read_text(), "no folder")
    hope("what is told", [line.split(" reason=")[0] for line in trial.log_lines()],
         ["level=error event=ledger-fault", "level=error event=ledger-left count=300", "level=error event=ledger-missing lane=0 from=0 to=299"])


def a_file_that_is_there_is_left(trial):
    """A file of the ledger's name that is there already is left as it is, that is told, and requests are answered."""
    trial.begin(LD_PRELOAD=built(trial.room, "failing_disks"), TAKEN_PATH=str(trial.folder))
    hope("acknowledged", trial.ask(200), 200)
    until("it is told", lambda: trial.events("ledger-fault"))
    trial.ends(seconds=LAST)
    (file,) = trial.files()
    hope("the file", file.read_text(), "taken")
    hope("what is told", sum(int(line.rpartition("=")[2]) for line in trial.events("ledger-left")), 200)


def limit_files(octets):
    """Files of this process may have so many octets, and a write beyond fails."""
    signal.signal(signal.SIGXFSZ, signal.SIG_IGN)
    resource.setrlimit(resource.RLIMIT_FSIZE, (octets, resource.RLIM_INFINITY))


def a_limit_of_size_is_a_next_file(trial):
    """Where a file may not grow, the entries go on in the next one, and none is missing."""
    trial.begin(before=lambda: limit_files(300_000), RAD_PROXY_COUNTERS="")
    trial.ask(800)
    until("several files", lambda: len(trial.files()) > 1)
    resource.prlimit(trial.ran.pid, resource.RLIMIT_FSIZE, (resource.RLIM_INFINITY, resource.RLIM_INFINITY))
    until("the entries", lambda: len(trial.entries()) == 800)
    trial.ends()
    trial.is_all_there()
    trial.answers_as_without()


def a_first_line_that_finds_no_room_begins_no_file_each_second(trial):
    """Where not even the first line of a file has room, one more file at most is begun in a minute. Once there is room none is missing."""
    # The log has room for this one line alone.
    trial.begin(before=lambda: limit_files(100), RAD_PROXY_COUNTERS="", RAD_PROXY_LOG="error")
    trial.ask(100)
    until("it is told", lambda: trial.events("ledger-fault"))
    time.sleep(4.5)
    hope("the files", [file.stat().st_size for file in trial.files()], [100, 100])
    resource.prlimit(trial.ran.pid, resource.RLIMIT_FSIZE, (resource.RLIM_INFINITY, resource.RLIM_INFINITY))
    until("the entries", lambda: len(trial.entries()) == 100)
    trial.ends()
    hope("serials", [entry["serial"] for entry in trial.entries()], list(range(100)))
    hope("what is told", len(trial.events("ledger-fault")), 1)


def a_full_disk_loses_nothing(trial):
    """While a disk is full requests are answered and that is told once; once it has room all entries come."""
    if os.getuid() != 0:
        raise LeftOut("it wants root")
    mounted = subprocess.run(["mount", "-t", "tmpfs", "-o", "size=400k", "none", trial.folder], check=False, capture_output=True)
    if mounted.returncode:
        raise LeftOut("no file system can be mounted")
    trial.begin()
    hope("acknowledged", trial.ask(2000), 2000)
    until("it is told", lambda: trial.events("ledger-fault"))
    trial.ask(200)
    time.sleep(2.5)
    until("some wait", lambda: trial.number("ledger_waiting") > 0)
    hope("what is told", len(trial.events("ledger-fault")), 1)
    subprocess.run(["mount", "-o", "remount,size=64m", trial.folder], check=True)
    until("the entries", lambda: trial.number("ledger_written_total") == 2200)
    trial.ends()
    trial.is_all_there()
    trial.answers_as_without()


def a_slow_write_delays_no_answer(trial):
    """Where a write of the ledger takes ten seconds answers come as ever, and the end is ten seconds after the last line; the
    entries that are not written are told."""
    trial.begin(LD_PRELOAD=built(trial.room, "slow_files"), SLOW_PATH=str(trial.folder), SLOW_WRITE="10000")
    hope("acknowledged", trial.ask(500), 500)
    trial.answers_as_without()
    trial.ends(seconds=LAST)
    missing = len(set(trial.told) - {entry["response"] for entry in trial.entries()})
    hope("what is told", trial.log_lines(), [f"level=error event=ledger-left count={missing}", f"level=error event=ledger-missing lane=0 from={500 - missing} to=499"])


def slow_writes_lose_nothing(trial):
    """Where each write of the ledger takes half a second, all entries are there in the end."""
    trial.begin(LD_PRELOAD=built(trial.room, "slow_files"), SLOW_PATH=str(trial.folder), SLOW_WRITE="500")
    for _ in range(8):
        trial.ask(100)
        time.sleep(0.3)
    trial.answers_as_without()
    until("they are written", lambda: trial.number("ledger_written_total") == 800)
    trial.ends()
    trial.is_all_there()


def writes_of_twelve_seconds_lose_nothing(trial):
    """Where each write of the ledger takes twelve seconds answers come as ever, and all entries are there in the end, but not the
    line that ends the run: the program does not wait so long."""
    trial.begin(LD_PRELOAD=built(trial.room, "slow_files"), SLOW_PATH=str(trial.folder), SLOW_WRITE="12000")
    last = time.monotonic() + 25
    while time.monotonic() < last:
        trial.ask(10)
        time.sleep(0.3)
    asked = len(trial.told)
    until("they are written", lambda: trial.number("ledger_written_total") == asked, 2 * PATIENCE)
    trial.ends()
    trial.is_all_there("open")
    trial.answers_as_without()


TESTS = [
    a_folder_that_is_not_there_is_told, a_folder_that_goes_away_and_comes_back, a_folder_that_is_made_anew,
    a_folder_that_is_a_file_is_told, a_file_that_is_there_is_left, a_limit_of_size_is_a_next_file,
    a_first_line_that_finds_no_room_begins_no_file_each_second, a_full_disk_loses_nothing,
    a_slow_write_delays_no_answer, slow_writes_lose_nothing,
]
LONG = [writes_of_twelve_seconds_lose_nothing]


if __name__ == "__main__":
    try_named(LONG if is_asked("--long") else TESTS, Trial, __doc__)
