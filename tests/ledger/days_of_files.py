"""Sets the time of day while a ledger is written, and looks at its files.

usage: python3 -m tests.ledger.days_of_files PROGRAM [NAME ..]

Each test is a function below, and its first line tells what holds. Names choose tests. wrong_clock.c sets the time, and slow_files.c makes
writes slow. The last line is `N passed, M failed`.
"""
import re
import time
from datetime import datetime, timedelta

from tests.lib import built, hope, try_named, until
from tests.lib.ledger.trials import LAST, LATE, Steered, Trial

TIME = re.compile(r'"time":"(\d{4}-\d\d-\d\dT\d\d:\d\d:\d\d[.]\d{3})Z"')
# How long a clock that went back to an earlier day has to stay there until the next midnight counts.
STAYED = 10.0
# Moments in milliseconds since 1970: its begin, and ends of days, months, years and centuries with and without leap days.
MOMENTS = [0, 86_399_999, 86_400_000, 951_782_399_999, 951_782_400_000, 951_868_800_000, 1_709_164_800_001, 1_769_903_999_999,
           1_798_761_599_050, 4_107_542_400_000, 13_569_465_600_000]


def midnight_is_a_next_file(trial):
    """At midnight UTC the next file is begun, with entries or without, and the ledger is whole."""
    ahead = 86_400 - int(time.time()) % 86_400 - 4
    trial.begin(LD_PRELOAD=built(trial.room, "wrong_clock"), CLOCK_AHEAD=str(ahead))
    until("midnight", lambda: trial.ask(5) and len(trial.files()) == 2, 20, 0.1)
    trial.ask(50)
    trial.ends()
    trial.is_all_there()
    for file in trial.files():
        days = {line["time"][:10] for line in trial.ledger_lines([file])}
        hope("days of a file", days, {file.name[:10]})


def entries_of_two_days_that_wait_together_are_two_files(trial):
    """Where entries of two days wait for the same write, each file has those of its day."""
    clock = Steered(trial, "slow_files", SLOW_PATH=str(trial.folder), SLOW_WRITE="1500")
    until("the first line is written", lambda: trial.number("ledger_written_total") == 0 and trial.ledger_lines())
    trial.ask(1)
    time.sleep(0.2)
    trial.ask(5)
    clock.set(1)
    trial.ask(5)
    hope("what is written", len(trial.entries()), 0)
    until("all are", lambda: len(trial.entries()) == 11)
    trial.ends(seconds=LAST)
    trial.is_all_there()
    hope("entries and days of each file", [(len(trial.entries([file])), {line["time"][:10] for line in trial.ledger_lines([file])}) for file in trial.files()],
         [(6, {clock.date(0)}), (5, {clock.date(1)})])


def a_file_that_was_made_is_of_its_day(trial):
    """Where midnight comes between the making of a file and its first line, another file is begun: each has the lines of its day alone."""
    clock = Steered(trial, "failing_disks", DISK_PATH=str(trial.folder), MODE_FAULTS="3", RAD_PROXY_LOG="info")
    clock.set(1)
    until("another file", lambda: len(trial.files()) == 2)
    trial.ask(5)
    trial.ends()
    dates = [(file.name[:10], line["time"][:10]) for file in trial.files() for line in trial.ledger_lines([file])]
    hope("the dates", set(dates), {(clock.date(1), clock.date(1))})


def a_clock_that_is_out_dates_nothing_1970(trial):
    """Where the clock can't be read when the next file is begun, its first line and its name have the last time that was read."""
    out = trial.room / "out"
    clock = Steered(trial, CLOCK_OUT=str(out))
    trial.ask(5)
    until("they are written", lambda: len(trial.entries()) == 5)
    out.touch()
    trial.files()[0].unlink()
    until("another file", trial.files)
    until("its first line", trial.ledger_lines)
    trial.kill()
    hope("the dates", {(file.name[:10], line["time"][:10]) for file in trial.files() for line in trial.ledger_lines([file])},
         {(clock.date(0), clock.date(0))})


def a_clock_that_went_back_has_midnights(trial):
    """Where the clock jumps ahead by a day and back, the file goes on, and the next midnight begins the next one."""
    clock = Steered(trial)
    hope("acknowledged", trial.ask(5), 5)
    clock.set(1)
    until("the day ahead", lambda: len(trial.files()) == 2)
    clock.set(0)
    hope("acknowledged", trial.ask(5), 5)
    time.sleep(STAYED + LATE)
    hope("files at the step back", len(trial.files()), 2)
    clock.set_before_midnight(0)
    until("midnight", lambda: len(trial.files()) == 3)
    hope("acknowledged", trial.ask(5), 5)
    trial.ends()
    trial.is_all_there()
    hope("the days of the files", [sorted({line["time"][:10] for line in trial.ledger_lines([file])}) for file in trial.files()],
         [[clock.date(day) for day in days] for days in ((0,), (0, 1), (1,))])


def a_midnight_soon_after_a_step_back_is_late(trial):
    """Where midnight comes less than ten seconds after the clock went back by days, the next file begins when these are over."""
    clock = Steered(trial)
    clock.set(3)
    until("the day ahead", lambda: len(trial.files()) == 2)
    clock.set_before_midnight(0)
    began = time.monotonic()
    until("midnight", lambda: len(trial.files()) == 3)
    hope("ten seconds", time.monotonic() - began > STAYED - LATE, True)
    trial.ends()
    trial.is_all_there()


def a_clock_that_flaps_begins_one_file(trial):
    """Where the clock goes to and fro between days, one file begins for the latest of them, and none with each step."""
    clock = Steered(trial)
    for turn in range(30):
        clock.set((0, 3, 0, 1, 2)[turn % 5])
        trial.ask(1)
        time.sleep(0.1)
    hope("files", len(trial.files()), 2)
    trial.ends()
    trial.is_all_there()


def moments_are_those_that_python_prints(trial):
    """At ends of days, months, years and centuries the lines have the moment that Python's calendar prints."""
    clock = built(trial.room, "wrong_clock")
    for milliseconds in MOMENTS:
        before = trial.files()
        trial.begin(LD_PRELOAD=clock, CLOCK_AT=str(milliseconds), RAD_PROXY_COUNTERS="")
        trial.ends()
        (file,) = set(trial.files()) - set(before)
        moment = (datetime(1970, 1, 1) + timedelta(milliseconds=milliseconds)).isoformat(timespec="milliseconds")
        hope("moments", TIME.findall(file.read_text()), [moment, moment])
        hope("the date of its name", file.name[:10], moment[:10])


TESTS = [
    midnight_is_a_next_file, entries_of_two_days_that_wait_together_are_two_files, a_clock_that_went_back_has_midnights, a_midnight_soon_after_a_step_back_is_late,
    a_clock_that_flaps_begins_one_file, a_file_that_was_made_is_of_its_day, a_clock_that_is_out_dates_nothing_1970, moments_are_those_that_python_prints,
]


if __name__ == "__main__":
    try_named(TESTS, Trial, __doc__)
