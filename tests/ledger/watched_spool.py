"""Looks at a spool as operators do: at its metrics, at what `check` tells of it, and at what is told of a clock that is set.

usage: python3 -m tests.ledger.watched_spool PROGRAM [NAME ..]

Each test is a function below, and its first line tells what holds. Names choose tests. The last line is `N passed, M failed`.
"""
import re
import subprocess
import time

from tests.lib import HERE, PATIENCE, SPOOL_METRICS, built, hope, is_so, need, text_of, try_named, until
from tests.lib.spool import segments
from tests.ledger.resumed import HASTY, Resumed

DAY = 86_400
# How many requests that would be dropped are named, and how often `check` looks at a spool that is written meanwhile.
NAMED, LOOKS = 20, 12
# How many milliseconds a sync takes that is slow.
SLOW = 600


def number(proxy, name):
    """A metric of the spool."""
    until("there are counters", proxy.counters.exists)
    (found,) = re.findall(rf"^rad_proxy_spool_{name} (\S+)$", proxy.counters.read_text("utf-8"), re.M)
    return float(found)


def numbers(proxy, *names):
    return tuple(number(proxy, name) for name in names)


def checked(proxy, **variables):
    """What `check` logs of the spool: the event, keys and values of each line. It changes nothing."""
    before = content(proxy)
    ran = subprocess.run([proxy.program, "check", proxy.file], env=proxy.variables(variables), capture_output=True, text=True, timeout=PATIENCE, check=False)
    hope("how it ends, and what it prints", (ran.returncode, ran.stdout), (0, f"clients 1 homes {len(proxy.homes)} realms {len(proxy.homes)}\n"))
    if proxy.ran is None or proxy.ran.poll() is not None:
        hope("the folder", content(proxy), before)
    lines = [dict(re.findall(r'(\S+?)=("[^"]*"|\S+)', line)) for line in ran.stderr.splitlines()]
    return [line for line in lines if line["event"].startswith("spool-")]


def content(proxy):
    return {file.name: file.read_bytes() for file in proxy.spool.iterdir()} if proxy.spool.is_dir() else None


def waits(proxy):
    """How many requests of each home server `check` says to wait."""
    return {line["home"]: int(line["count"]) for line in checked(proxy) if line["event"] == "spool-waiting"}


def its_metrics_stand_behind_all_others(proxy):
    """The metrics of a spool are the last of the text, each with its help text and kind, and there is none without a spool."""
    proxy.begin()
    began = time.time()
    proxy.ask(4)
    proxy.has_on_disk(4)
    hope("sessions", proxy.serve([4, 0]), [[0, 1, 2, 3], []])
    proxy.ask(3, lane=1)
    proxy.has_on_disk(7, 4)
    until("they are counted", lambda: number(proxy, "written_total") == 11)
    octets = sum(file.stat().st_size for file in proxy.spool.glob("*.spool"))
    wanted = text_of({"spool_open_requests": "3", "spool_written_total": "11", "spool_bytes": str(octets), "spool_oldest_seconds": "AGE"}, HERE, metrics=SPOOL_METRICS)
    found = proxy.counters.read_text("utf-8").splitlines()[-len(wanted):]
    ages = [float(line.split(" ")[1]) for line in found if re.match(r"rad_proxy_\w+_seconds ", line)]
    hope("the metrics", [re.sub(r"(_seconds) \d+\.\d{3}$", r"\1 AGE", line) for line in found], wanted)
    hope(f"ages {ages}", (0 <= ages[0] < 5, 0 < ages[1] <= time.time() - began + 1), (True, True))
    proxy.kill()
    proxy.counters.unlink()
    proxy.start(env=proxy.variables({"RAD_PROXY_SPOOL": ""}))
    until("there are counters", proxy.counters.exists)
    hope("without a spool", "spool" in proxy.counters.read_text("utf-8"), False)


def a_disk_that_fails_is_in_the_metrics(proxy):
    """While each sync fails the metrics have how many requests are not on disk, since when, and how often it failed; then all is well."""
    fails = proxy.room / "sync-fails"
    proxy.begin(LD_PRELOAD=built(proxy.room, "failing_disks"), DISK_PATH=str(proxy.spool), SYNC_FAILS=str(fails))
    proxy.ask(3)
    proxy.has_on_disk(3)
    until("they are counted", lambda: numbers(proxy, "open_requests", "unsynced_requests", "failing", "faults_total") == (3, 0, 0, 0))
    fails.touch()
    proxy.ask(14)
    until("it is counted", lambda: numbers(proxy, "open_requests", "unsynced_requests", "failing") == (17, 14, 1))
    until("it is tried again", lambda: number(proxy, "faults_total") > 2 and number(proxy, "unsynced_seconds") > 2)
    fails.unlink()
    until("it is back", lambda: numbers(proxy, "unsynced_requests", "failing") == (0, 0) and number(proxy, "unsynced_seconds") < 2)
    need(number(proxy, "faults_total") > 2, "the faults are forgotten")
    hope("lost", number(proxy, "lost_total"), 0)


def a_disk_that_hangs_is_in_the_metrics(proxy):
    """While a sync does not end nothing has failed, and the metrics have how many requests are not on disk, and since when."""
    mark = proxy.room / "mark"
    proxy.begin(LD_PRELOAD=built(proxy.room, "slow_files"), SLOW_PATH=str(proxy.spool), SLOW_WHILE=str(mark), SLOW_SYNC="6000")
    proxy.ask(2)
    proxy.has_on_disk(2)
    mark.touch()
    proxy.ask(1)
    time.sleep(0.5)
    proxy.ask(9)
    until("it is behind", lambda: number(proxy, "unsynced_seconds") > 2)
    hope("open ones that are not on disk", (number(proxy, "unsynced_requests"), number(proxy, "failing")), (10, 0))
    mark.unlink()
    until("it is back", lambda: numbers(proxy, "open_requests", "unsynced_requests") == (12, 0) and number(proxy, "unsynced_seconds") < 2)


def what_comes_during_a_sync_is_behind_by_that_sync(proxy):
    """While each sync takes its time, and requests come, the time since all were on disk is never shorter than what a batch takes: two syncs."""
    proxy.begin(LD_PRELOAD=built(proxy.room, "slow_files"), SLOW_PATH=str(proxy.spool), SLOW_SYNC=str(SLOW))
    ages, texts, last = [], set(), time.monotonic() + PATIENCE
    while len(texts) < 8 and time.monotonic() < last:
        proxy.ask(1)
        time.sleep(0.05)
        if proxy.counters.exists() and proxy.counters.stat().st_mtime_ns not in texts:
            texts.add(proxy.counters.stat().st_mtime_ns)
            ages.append(number(proxy, "unsynced_seconds"))
    # The first segment is made before, and the program's own time since its start counts until then.
    hope(f"ages {ages}", min(ages[3:]) >= 2 * SLOW / 1000, True)


def what_is_dropped_and_what_has_to_wait_is_counted(proxy):
    """The metrics have how many requests of the run before no longer pass the checks, and how many datagrams waited for those that do."""
    proxy.begin()
    proxy.ask(200)
    proxy.ask(7, lane=1)
    proxy.has_on_disk(207)
    proxy.dies()
    proxy.file.write_text(proxy.configuration(HASTY + "queue = 16\n").replace("h1.example", "h1.other"), "utf-8")
    proxy.begin()
    until("it is counted", lambda: numbers(proxy, "open_requests", "dropped_requests", "held_total") == (207, 7, 0))
    proxy.ask(5)
    until("they wait", lambda: number(proxy, "held_total") == 5)


def check_tells_what_waits_and_what_would_be_dropped(proxy):
    """`check` has a line for each home server of which requests wait, with the age of the oldest, and names at most 20 that the file drops."""
    proxy.begin()
    proxy.ask(31)
    began = time.time()
    proxy.has_on_disk(31)
    time.sleep(2)
    proxy.ask(4, lane=1)
    proxy.has_on_disk(35)
    lines = checked(proxy)
    hope("while it is served", [(line["event"], line["home"], line["count"]) for line in lines], [("spool-waiting", "h0", "31"), ("spool-waiting", "h1", "4")])
    ages = [int(line["oldest"]) for line in lines]
    hope(f"ages {ages}", (2 <= ages[0] <= time.time() - began + 1, 0 <= ages[1] <= ages[0] - 1), (True, True))
    proxy.dies()
    hope("once it is gone", waits(proxy), {"h0": 31, "h1": 4})
    proxy.file.write_text(proxy.configuration().replace("h0.example", "h0.other"), "utf-8")
    lines = checked(proxy)
    hope("events", [line["event"] for line in lines], ["spool-waiting"] + ["spool-dropped"] * (NAMED + 1))
    hope("the last line", lines[-1], {"level": "error", "event": "spool-dropped", "count": "31"})
    hope("the first ones", [(line["arrival"], line["identifier"], line["reason"], line["client"]) for line in lines[1:4]],
         [(str(arrival), str(arrival - 1), "NoRealm", HERE) for arrival in (1, 2, 3)])
    proxy.file.write_text(proxy.configuration(secret=b"another secret"), "utf-8")
    hope("of another secret", checked(proxy)[-1]["count"], "35")


def check_tells_nothing_where_nothing_waits(proxy):
    """Without a spool, without its folder, and where all was answered `check` tells nothing, and makes no folder."""
    hope("no folder", (checked(proxy), proxy.spool.exists()), ([], False))
    proxy.begin()
    proxy.ask(25)
    proxy.serve([25, 0])
    proxy.has_on_disk(25, 25)
    hope("all is answered", checked(proxy), [])
    proxy.ask(2)
    proxy.has_on_disk(27, 25)
    hope("no spool", checked(proxy, RAD_PROXY_SPOOL=""), [])
    proxy.dies()
    hope("two wait", waits(proxy), {"h0": 2})


def check_tells_of_damage_and_of_no_cut_end(proxy):
    """`check` tells what is wrong with a segment, and nothing of a cut end of the newest one, to which a run may be appending."""
    proxy.begin()
    for each in range(3):
        proxy.ask(5)
        proxy.has_on_disk(5 * (each + 1))
    proxy.dies()
    (file,) = proxy.spool.glob("*.spool")
    octets = file.read_bytes()
    _, second, *_, last = [batch for batch in segments.read(octets) if any(name == "came" for name, _, _ in batch.entries)]
    file.write_bytes(octets[:last.end - 3])
    hope("a cut end", [(line["event"], line.get("count")) for line in checked(proxy)], [("spool-waiting", str(15 - len(last.entries)))])
    file.write_bytes(octets[:second.end - 1] + bytes([octets[second.end - 1] ^ 1]) + octets[second.end:])
    hope("damage", [(line["event"], line.get("offset"), line.get("count")) for line in checked(proxy)],
         [("spool-damage", str(second.offset), None), ("spool-waiting", None, str(15 - len(second.entries)))])
    file.rename(proxy.spool / "aside")
    proxy.spool.rename(proxy.room / "elsewhere")
    proxy.spool.write_text("a file")
    hope("no folder", [(line["event"], line["reason"]) for line in checked(proxy)], [("spool-fault", '"can\'t read: Not a directory (os error 20)"')])


def check_reads_a_spool_that_is_written_meanwhile(proxy):
    """While requests come in and are answered each look of `check` ends in order, tells no fault, and has no more requests than came."""
    proxy.begin()
    for _ in range(LOOKS):
        proxy.ask(200)
        found = checked(proxy)
        hope("faults", [line for line in found if line["event"] != "spool-waiting"], [])
        need(sum(int(line["count"]) for line in found) <= proxy.sent[0], "there are more than came")
        proxy.serve([proxy.sent[0], 0], patience=0.05)


def a_clock_that_is_set_is_told(proxy):
    """A jump of the wall clock beyond the span is told once, by its seconds, either way; one within the span is not."""
    ahead = proxy.room / "ahead"

    def set_to(seconds):
        beside = ahead.with_suffix(".new")
        beside.write_text(str(seconds))
        beside.replace(ahead)

    set_to(0)
    proxy.file.write_text(proxy.configuration(HASTY + "span = 9000\n"), "utf-8")
    proxy.begin(LD_PRELOAD=built(proxy.room, "wrong_clock"), CLOCK_FILE=str(ahead))
    told = lambda: [(line["level"], line["jump"]) for line in proxy.lines("spool-clock")]
    until("there are counters", proxy.counters.exists)
    time.sleep(2)
    for at, (seconds, jumps) in enumerate([(7, []), (DAY, [str(DAY - 7)]), (-DAY - 5, [str(DAY - 7), str(-2 * DAY - 5)])]):
        set_to(seconds)
        is_so(lambda jumps=jumps: told() == [("warn", jump) for jump in jumps], PATIENCE, 0.2)
        time.sleep(2.5)
        hope(f"jumps of turn {at}", told(), [("warn", jump) for jump in jumps])


TESTS = [
    its_metrics_stand_behind_all_others, a_disk_that_fails_is_in_the_metrics, a_disk_that_hangs_is_in_the_metrics,
    what_comes_during_a_sync_is_behind_by_that_sync, what_is_dropped_and_what_has_to_wait_is_counted, check_tells_what_waits_and_what_would_be_dropped, check_tells_nothing_where_nothing_waits,
    check_tells_of_damage_and_of_no_cut_end, check_reads_a_spool_that_is_written_meanwhile, a_clock_that_is_set_is_told,
]


def main():
    try_named(TESTS, Resumed, __doc__)


if __name__ == "__main__":
    main()
