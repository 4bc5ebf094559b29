"""Has the program write a ledger while its disk, its clock or its sends fail, and its files are cut, and looks at what it tells and writes.

usage: python3 -m tests.ledger.disk_faults PROGRAM [NAME ..]

Each test is a function below, and its first line tells what holds. Names choose tests. failing_disks.c lets syncs and writes fail while a
file is there, and wrong_clock.c sets the time of day or lets the clock fail. slow_files.c makes writes slow. The last line is `N passed, M failed`.
"""
import contextlib
import os
import re
import resource
import signal
import time

from tests.lib import ACCT_SESSION_ID, HOME_SECRET, NAS_SECRET, START, answer, attribute, built, hope, request, try_named, until
from tests.lib.ledger.trials import PATIENCE, Steered, Trial

# How long syncs fail, and for how long at least the number then says so.
FAILS, UNSYNCED = 8, 4.0
# How long a call hangs.
HANGS = 8.0
# For how many seconds the program tries to write what is left at its end, and how much later it may end.
TRIES, LATE = 10.0, 2.0
# Within how many seconds is told what is tried again each second, and not each minute.
SOON = 20


def limit_files(octets):
    """Files of this process may have so many octets, and a write beyond fails."""
    signal.signal(signal.SIGXFSZ, signal.SIG_IGN)
    resource.setrlimit(resource.RLIMIT_FSIZE, (octets, resource.RLIM_INFINITY))


class Failing:
    """Syncs of the ledger, or writes, that fail while this is on."""

    def __init__(self, trial, word="SYNC_FAILS"):
        self.file, self.log = trial.room / "fails", trial.room / "syncs"
        self.variables = {word: str(self.file), "SYNC_LOG": str(self.log), "DISK_PATH": str(trial.folder), "RAD_PROXY_LOG": "info"}

    def count(self):
        return len(self.log.read_text().split()) if self.log.exists() else 0

    @contextlib.contextmanager
    def on(self):
        self.file.touch()
        try:
            yield
        finally:
            self.file.unlink()


def told(trial):
    """How often a fault, its end, and entries that are lost are told."""
    return [len(trial.events(word)) for word in ("ledger-fault", "ledger-back", "ledger-lost")]


def writes(trial, count):
    """Has so many requests answered, and waits until all entries are written."""
    hope("acknowledged", trial.ask(count), count)
    until("they are written", lambda: trial.number("ledger_written_total") == len(trial.told))


def a_file_that_is_cut_has_no_hole(trial):
    """A file that others cut to nothing goes on at its new end."""
    trial.begin()
    writes(trial, 100)
    (file,) = trial.files()
    os.truncate(file, 0)
    writes(trial, 50)
    trial.ends()
    hope("its octets", b"\0" in file.read_bytes(), False)
    hope("entries", [line["serial"] for line in trial.entries()], list(range(100, 150)))


def a_file_that_is_removed_is_lost(trial):
    """The entries of a file that is removed are told and counted as lost, also if none comes behind; the next file says from which serial
    on, and the auditor that they are missing. A file that is empty when it is removed is no loss."""
    trial.begin()
    until("the first file", trial.files)
    trial.files()[0].unlink()
    until("the next file", trial.files)
    time.sleep(1.5)
    hope("what is told", told(trial)[2], 0)
    writes(trial, 300)
    trial.files()[0].unlink()
    until("it is told", lambda: trial.events("ledger-lost"), SOON)
    writes(trial, 200)
    trial.files()[0].unlink()
    writes(trial, 100)
    trial.ends()
    hope("what is told", [line.split(" ", 2)[::2] for line in trial.events("ledger-lost")],
         [["level=error", "lane=0 count=300 from=0 to=299"], ["level=error", "lane=0 count=200 from=300 to=499"]])
    hope("lost", trial.number("ledger_lost_total"), 500)
    hope("the last file", (trial.ledger_lines()[0]["file"], trial.ledger_lines()[0]["lanes"][0]["serial"]), (3, 0))
    hope("verdict", trial.verdict(), "gap 0 to 499")


def a_sync_that_fails_begins_no_file_each_second(trial):
    """While syncs fail entries are written, one more file is begun, the age of what is not synced grows, and that is told once; it is
    back once a sync held, and not before."""
    failing = Failing(trial)
    trial.begin(LD_PRELOAD=built(trial.room, "failing_disks"), **failing.variables)
    writes(trial, 20)
    with failing.on():
        last = time.monotonic() + FAILS
        while time.monotonic() < last:
            trial.ask(20)
            time.sleep(0.2)
        writes(trial, 20)
        hope("what is told", told(trial), [1, 0, 0])
        hope("it is not synced", trial.number("ledger_unsynced_seconds") > UNSYNCED, True)
        hope("files", len(trial.files()), 2)
    until("it is told", lambda: trial.events("ledger-back"), SOON)
    until("it is synced", lambda: trial.number("ledger_unsynced_seconds") == 0, SOON)
    trial.ends()
    trial.is_all_there()
    hope("what is told", told(trial), [1, 1, 0])


def a_file_that_cannot_be_synced_is_given_up_once_a_minute(trial):
    """While syncs fail for minutes, one more file is begun a minute after the one before, and not sooner, however often they are tried."""
    failing, moved = Failing(trial), trial.room / "moved"
    moved.write_text("0")
    clock = Steered(trial, "failing_disks", CLOCK_MOVED=str(moved), **failing.variables)
    writes(trial, 20)
    with failing.on():
        until("the second file", lambda: trial.ask(1) and len(trial.files()) == 2)
        began, seconds = time.monotonic(), 0
        while len(trial.files()) < 4:
            tried, seconds = failing.count(), seconds + 19
            moved.write_text(str(1000 * seconds))
            until("it was tried twice more", lambda: failing.count() >= tried + 2)
            passed = seconds + time.monotonic() - began
            hope(f"files after {passed:.0f} seconds", passed % 60 < 4 or len(trial.files()) == 2 + passed // 60, True)
    trial.ends()
    trial.is_all_there()
    hope("the day", {line["time"][:10] for line in trial.ledger_lines()}, {clock.date(0)})


def syncs_that_fail_behind_writes_are_told_with_them(trial):
    """Where syncs fail too before writes go on again, the fault is over once a sync holds, and not before; both are told as one."""
    writing, syncing = Failing(trial, "WRITE_FAILS"), Failing(trial)
    syncing.file = trial.room / "syncs-fail"
    variables = writing.variables | {"SYNC_FAILS": str(syncing.file)}
    trial.begin(LD_PRELOAD=built(trial.room, "failing_disks"), **variables)
    writes(trial, 20)
    with syncing.on():
        with writing.on():
            trial.ask(20)
            until("it is told", lambda: trial.events("ledger-fault"))
        until("they are written", lambda: trial.number("ledger_written_total") == 40)
        tried = syncing.count()
        until("syncs were tried", lambda: syncing.count() > tried + 2)
        hope("what is told", told(trial), [1, 0, 0])
        until("the age of what is not synced", lambda: trial.number("ledger_unsynced_seconds") > 1)
    until("it is told", lambda: trial.events("ledger-back"), SOON)
    trial.ends()
    trial.is_all_there()
    hope("what is told", told(trial), [1, 1, 0])


def a_sync_that_fails_at_midnight_is_told(trial):
    """Where the sync of a file fails that midnight ends, that is told, and it is synced before the next one is begun."""
    failing = Failing(trial)
    clock = Steered(trial, "failing_disks", **failing.variables)
    writes(trial, 20)
    before = failing.count()
    until("a sync", lambda: trial.ask(1) and failing.count() > before)
    trial.ask(20)
    with failing.on():
        clock.set(1)
        until("midnight, or a fault", lambda: trial.events("ledger-fault") or len(trial.files()) == 2)
    until("midnight", lambda: len(trial.files()) == 2)
    trial.ends()
    trial.is_all_there()
    hope("what is told", told(trial), [1, 1, 0])


def end_of(trial, status=0):
    """Closes the program's input, and gives how many seconds it took to end."""
    began = time.monotonic()
    trial.ran.stdin.close()
    hope("status", trial.ran.wait(2 * TRIES), status)
    return time.monotonic() - began


def a_full_disk_that_has_room_soon_after_the_end_is_whole(trial):
    """Where the disk is full at a clean end and has room again three seconds later, all is written, with the line that ends the run."""
    failing = Failing(trial, "WRITE_FAILS")
    trial.begin(LD_PRELOAD=built(trial.room, "failing_disks"), **failing.variables)
    writes(trial, 100)
    with failing.on():
        hope("acknowledged", trial.ask(200), 200)
        trial.ran.stdin.close()
        time.sleep(3)
    hope("status", trial.ran.wait(TRIES), 0)
    trial.is_all_there()
    hope("what is told", told(trial) + [len(trial.events("ledger-left"))], [1, 1, 0, 0])


def what_waits_is_told_while_a_call_hangs(trial):
    """While the first opening of a file, a first write or a first sync takes its time, both ages are those of the oldest entry that waits."""
    for word in ("SLOW_OPEN", "SLOW_WRITE", "SLOW_SYNC"):
        trial.begin(LD_PRELOAD=built(trial.room, "slow_files"), SLOW_PATH=str(trial.folder), **{word: str(int(1000 * HANGS))})
        # A sync is due some time after the start. What comes while it hangs waits.
        if word == "SLOW_SYNC":
            until("a file", trial.ledger_lines)
            time.sleep(1.5)
        hope("acknowledged", trial.ask(100), 100)
        time.sleep(HANGS / 2)
        waits, ages = trial.number("ledger_waiting"), [trial.number(f"ledger_{name}_seconds") for name in ("oldest_waiting", "unsynced")]
        hope(f"{word}: waiting, and the ages", (waits, [age > HANGS / 4 for age in ages], ages), (100, [True] * 2, ages))
        trial.kill()
        trial.log.write_text("")


def each_line_is_sealed_behind_the_one_before_it(trial):
    """Over files that end in the middle of a line, a disk that is full and a file that is gone each line has its sum behind the one before it,
    and the last sum that is logged is that of the line that ends the run."""
    failing, elsewhere = Failing(trial, "WRITE_FAILS"), trial.room / "elsewhere"
    trial.begin(before=lambda: limit_files(60_000), LD_PRELOAD=built(trial.room, "failing_disks"), RAD_PROXY_COUNTERS="", **failing.variables)
    hope("acknowledged", trial.ask(300), 300)
    until("several files", lambda: len(trial.files()) > 2)
    resource.prlimit(trial.ran.pid, resource.RLIMIT_FSIZE, (resource.RLIM_INFINITY, resource.RLIM_INFINITY))
    until("the entries", lambda: len(trial.entries()) == 300)
    with failing.on():
        hope("acknowledged", trial.ask(100), 100)
        time.sleep(2.5)
    until("the entries", lambda: len(trial.entries()) == 400)
    elsewhere.mkdir()
    gone = trial.files()[-1]
    os.link(gone, elsewhere / gone.name)
    gone.unlink()
    until("it is told", lambda: trial.events("ledger-lost"), SOON)
    hope("acknowledged", trial.ask(100), 100)
    trial.ends()
    files = sorted([*trial.files(), *trial.files(elsewhere)], key=lambda file: file.name[11:])
    hope("a line is cut short", any(file.read_bytes()[-1:] != b"\n" for file in files), True)
    hope("the sum at the end", trial.told_sums()[-1], (len(files) - 1, 500, trial.sums(files)))
    trial.is_all_there(files=files)


def a_disk_that_stays_full_is_told_with_the_serials(trial):
    """Where the disk is full at a clean end and stays so, the program tries for ten seconds, and tells at error which serials are missing."""
    failing = Failing(trial, "WRITE_FAILS")
    trial.begin(LD_PRELOAD=built(trial.room, "failing_disks"), **failing.variables)
    writes(trial, 100)
    with failing.on():
        hope("acknowledged", trial.ask(200), 200)
        took = end_of(trial)
    hope("the seconds", (TRIES - LATE < took < 1.5 * TRIES, took), (True, took))
    hope("what is told", [line for line in trial.log.read_text().splitlines() if "level=error" in line][1:],
         ["level=error event=ledger-left count=200", "level=error event=ledger-missing lane=0 from=100 to=299"])
    hope("verdict", trial.verdict(), "open")


def a_disk_that_takes_all_but_the_end_is_told(trial):
    """Where only the line that ends the run can't be written, that is told."""
    failing = Failing(trial, "WRITE_FAILS")
    trial.begin(LD_PRELOAD=built(trial.room, "failing_disks"), **failing.variables)
    writes(trial, 100)
    with failing.on():
        end_of(trial)
    hope("what is told", [line for line in trial.log_lines() if "ledger-fault" not in line], ["level=error event=ledger-left count=0"])
    hope("verdict", trial.verdict(), "open")


def a_slow_disk_has_ten_seconds(trial):
    """Where each write takes two seconds, a clean end is whole."""
    trial.begin(LD_PRELOAD=built(trial.room, "slow_files"), SLOW_PATH=str(trial.folder), SLOW_WRITE="2000")
    hope("acknowledged", trial.ask(300), 300)
    end_of(trial)
    trial.is_all_there()
    hope("what is told", trial.log_lines(), [])


def a_clock_that_stays_away_leaves_all_in_the_ledger(trial):
    """Where the clock fails for good at the end of the input, what is left is written all the same, to a slow disk too, and no line is
    earlier than the first."""
    out = trial.room / "out"
    loaded = ":".join(built(trial.room, name) for name in ("slow_files", "wrong_clock"))
    trial.begin(LD_PRELOAD=loaded, CLOCK_OUT=str(out), SLOW_PATH=str(trial.folder), SLOW_WRITE="400")
    hope("acknowledged", trial.ask(30), 30)
    for identifier in range(20):
        trial.nas.sendto(request(identifier, START, NAS_SECRET), trial.listen)
    trial.home.settimeout(PATIENCE)
    for _ in range(20):
        trial.home.recv(4096)
    out.touch()
    end_of(trial, 4)
    kinds = [line["type"] for line in trial.ledger_lines()]
    hope("lines", [kinds.count(kind) for kind in ("entry", "left", "end")], [30, 20, 0])
    times = [line["time"] for line in trial.ledger_lines()]
    hope("the earliest line", min(times), times[0])


def labelled(trial, name, label=""):
    """The sum of the last numbers of a metric with this label."""
    found = re.findall(rf"^rad_proxy_{name}{{(.*)}} ([0-9.]+)$", trial.counters.read_text(), re.MULTILINE)
    return sum(float(value) for labels, value in found if label in labels)


def a_clock_that_is_set_moves_the_times(trial):
    """Where the clock is set an hour back, or ahead, the times of a home server's metrics are of the new hour, and none is late by it."""
    clock = Steered(trial)
    writes(trial, 1)
    for hours in (-1, 1):
        clock.set(0, 3600 * hours)
        until("it is set", lambda: abs(trial.number("report_time_seconds") - clock.noon - 3600 * hours) < 60)
        until(f"none is late, {hours}", lambda: abs(trial.number("report_time_seconds") - labelled(trial, "home_report_time_seconds")) < LATE)
        now, answered = trial.number("report_time_seconds"), labelled(trial, "last_answer_time_seconds")
        hope(f"how late, {hours}", 0 < now - answered < 60, True)
    hope("the start", abs(trial.number("start_time_seconds") - clock.noon) < 60, True)


def what_the_system_refuses_to_send_is_counted_apart(trial):
    """What is sent less what the system refused is what came to the home server, and to the client. The ledger counts what it refused, and
    what was sent again, of each record."""
    trial.begin(LD_PRELOAD=built(trial.room, "failing_sockets"), SEND_FAULTS="3")
    waiting = {it: request(it, START + attribute(ACCT_SESSION_ID, b"S%d" % it), NAS_SECRET) for it in range(5)}
    came, got = [], []
    trial.home.setblocking(False)
    trial.nas.setblocking(False)

    def pass_on():
        """Takes what came to either side, and sends what is not answered again each second."""
        if time.monotonic() > pass_on.last + 1:
            pass_on.last = time.monotonic()
            for octets in waiting.values():
                trial.nas.sendto(octets, trial.listen)
        with contextlib.suppress(BlockingIOError):
            octets, proxy = trial.home.recvfrom(4096)
            came.append(octets)
            trial.home.sendto(answer(octets, octets[1], octets[-12:], HOME_SECRET), proxy)
        with contextlib.suppress(BlockingIOError):
            got.append(trial.nas.recv(4096))
            waiting.pop(got[-1][1], None)
        return not waiting

    pass_on.last = 0
    until("all are answered", pass_on)
    time.sleep(2.5)
    refused = [labelled(trial, "send_faults_total", label) for label in ('home="h1"', 'side="clients"')]
    hope("refused", refused, [3, 3])
    hope("what the home server got", labelled(trial, "sent_total") + labelled(trial, "probes_total") - refused[0], len(came))
    hope("what the client got", labelled(trial, "client_responses_total") - refused[1], len(got))
    sent = labelled(trial, "client_responses_total")
    trial.ends()
    counts = {kind: [line["count"] for line in trial.ledger_lines() if line["type"] == kind] for kind in ("unsent", "again")}
    hope("what the ledger counts", (sum(counts["unsent"]), sum(counts["again"])), (3, sent - 5))
    hope("what the auditor says", trial.verdict(), "whole")
    trial.text = trial.counters.read_text()
    hope("its help", [line for line in trial.text.splitlines() if "HELP rad_proxy_sent_total" in line][0].count("refused"), 1)


TESTS = [
    a_file_that_is_cut_has_no_hole, a_file_that_is_removed_is_lost, a_sync_that_fails_begins_no_file_each_second,
    a_file_that_cannot_be_synced_is_given_up_once_a_minute, syncs_that_fail_behind_writes_are_told_with_them,
    a_sync_that_fails_at_midnight_is_told, what_waits_is_told_while_a_call_hangs, each_line_is_sealed_behind_the_one_before_it,
    a_full_disk_that_has_room_soon_after_the_end_is_whole,
    a_disk_that_stays_full_is_told_with_the_serials, a_disk_that_takes_all_but_the_end_is_told, a_slow_disk_has_ten_seconds,
    a_clock_that_stays_away_leaves_all_in_the_ledger, a_clock_that_is_set_moves_the_times,
    what_the_system_refuses_to_send_is_counted_apart,
]

if __name__ == "__main__":
    try_named(TESTS, Trial, __doc__)
