"""Has the program write a ledger, and compares it with what both sides acknowledged.

usage: python3 -m tests.ledger.written_ledgers PROGRAM [NAME ..]

Each test is a function below, and its first line tells what holds. Names choose tests. The ledgers are audited by audit_model.py.
wrong_clock.c sets the time of day, slow_files.c makes sends slow, and failing_disks.c shows the syncs. The last line is
`N passed, M failed`.
"""
import json
import os
import random
import re
import socket
import struct
import subprocess
import time

from tests.lib import (CLASS, HERE, HOME_SECRET, LEDGER_METRICS, NAS_SECRET, START, attribute, best, bound, built, environment, hope, need, request, text_of,
                       try_named, until)
from tests.lib.ledger.trials import LATE, PATIENCE, SLACK, SYNCED, WRITTEN, Steered, Trial

NAME = re.compile("([0-9]{4}-[0-9]{2}-[0-9]{2})-([0-9a-f]{16})-([0-9]{6})[.]jsonl")
# How many octets may wait, and how many more of memory a ledger may take for its lines.
BOUND, ROOM = 64 * 2**20, 4 * 2**20
# How many entries may wait, however few octets they have, and how many more are asked for.
PLACES, BEYOND = 180_000, 5000
# How long writing may take on a busy machine, in seconds, and how long an answer is being sent where it is sent slowly.
WRITES, SENDING = 300, 5


def writes_what_was_acknowledged(trial):
    """A ledger of a run that ends by itself is whole, in one file that its group may read, whatever the umask."""
    trial.begin(before=lambda: os.umask(0o077))
    hope("acknowledged", trial.ask(2000), 2000)
    until("they are written", lambda: trial.number("ledger_written_total") == 2000)
    hope("waiting", (trial.number("ledger_waiting"), trial.number("ledger_dropped_total")), (0, 0))
    trial.ends()
    trial.is_all_there()
    (file,) = trial.files()
    first, *_, last = trial.ledger_lines()
    date, run, number = NAME.fullmatch(file.name).groups()
    hope("its date", date, first["time"][:10])
    hope("the file", (int(number), file.stat().st_mode & 0o7777), (0, 0o640))
    hope("the first line", (first["run"], first["file"], first["lanes"]), (run, 0, [{"lane": 0, "home": "h1", "serial": 0}]))
    hope("the file before", "before" in first, False)
    hope("the last line", (last["type"], last["lanes"]), ("end", [{"lane": 0, "entries": 2000, "accepted": 2000, "left": 0}]))
    entry = trial.entries()[0]
    hope("its words", (entry["realm"], entry["session"], entry["status"], entry["user"], entry["client"]), ("example.org", "S1", 1, "bob@example.org", HERE))
    hope("no secret", any(secret in file.read_bytes() for secret in (NAS_SECRET, HOME_SECRET)), False)
    hope("sums", trial.told_sums(), [(0, 0, "0" * 64), (0, 2000, trial.sums())])
    hope("what it tells", trial.log_lines(), [])


def tells_its_metrics_behind_the_others(trial):
    """The metrics of a ledger are the last ones of the text, each with its help text and its kind, in their order."""
    trial.begin()
    hope("acknowledged", trial.ask(10), 10)
    until("they are synced", lambda: (trial.number("ledger_written_total"), trial.number("ledger_unsynced_seconds")) == (10, 0))
    wanted = text_of({"ledger_written_total": 10}, HERE, metrics=LEDGER_METRICS)
    hope("the metrics", trial.counters.read_text("utf-8").splitlines()[-len(wanted):], wanted)
    trial.ends()


def names_the_file_of_another_run_before(trial):
    """The first line of a run has the name of the file of another run that was written last, and the sum of that one's last whole line; the
    first line of a further file has none. What is no file of a ledger is passed over, and so is a file that can't be read."""
    clock = Steered(trial)
    trial.ask(5)
    clock.set(1)
    until("the second file", lambda: len(trial.files()) == 2)
    trial.ask(5)
    trial.ends()
    written = {file: file.read_bytes() for file in trial.files()}
    for name in ("notes.jsonl", "2026-01-31-0123456789abcdeF-000000.jsonl", "2026-01-31-0123456789abcdef-00000.jsonl", "2026-01-31-0123456789abcdef-000000.jsonl.1"):
        (trial.folder / name).write_text("x")
    (trial.folder / os.fsdecode(b"\xff-0123456789abcdef-000000.jsonl")).write_text("x")
    (trial.folder / "2026-01-31-0123456789abcdef-000007.jsonl").mkdir()
    (trial.folder / "2026-01-31-0123456789abcdef-000008.jsonl").symlink_to("notes.jsonl")
    millionth = trial.folder / "2026-01-31-0123456789abcdef-1000000.jsonl"
    written[millionth] = b'{"type":"end","sum":"' + b"1" * 64 + b'"}\n'
    millionth.write_bytes(written[millionth])
    hope("none of further files", ["before" in json.loads(octets.splitlines()[0]) for octets in written.values()], [False] * 3)
    files, second = list(written), int(time.time()) - 100
    for turn in range(len(files)):
        for age, file in enumerate(files[turn:] + files[:turn]):
            os.utime(file, ns=(second * 10**9, second * 10**9 + 300 * age))
        ended, first = first_of_a_run(trial)
        hope("the file before", first["before"], {"name": file.name, "sum": sum_of_last(written[file])})
        ended.unlink()
    first_of_a_run(trial)[0].chmod(0)
    if os.getuid() != 0:
        hope("a file that can't be read", "before" in first_of_a_run(trial)[1], False)


def first_of_a_run(trial):
    """Begins a run and ends it: its file, and the first line of that."""
    before = set(trial.folder.iterdir())
    trial.begin()
    trial.ends()
    (file,) = set(trial.folder.iterdir()) - before
    return file, json.loads(file.read_text().splitlines()[0])


def looks_again_for_the_file_before_once_there_is_a_folder(trial):
    """Where the folder comes back some seconds after the start, the first line has the file of the run before that stands in it."""
    trial.begin()
    trial.ask(5)
    trial.ends()
    (before,) = trial.files()
    trial.folder.rename(trial.room / "elsewhere")
    trial.begin()
    trial.ask(5)
    until("the fault", lambda: trial.events("ledger-fault"))
    time.sleep(1.5)
    (trial.room / "elsewhere").rename(trial.folder)
    until("the second file", lambda: len(trial.files()) == 2)
    trial.ends()
    (file,) = set(trial.files()) - {before}
    hope("the file before", json.loads(file.read_text().splitlines()[0])["before"]["name"], before.name)


def sum_of_last(octets):
    """The sum of the last line of these octets that has its line end, if that line has one."""
    found = re.search(rb',"sum":"([0-9a-f]{64})"\}$', octets[:octets.rfind(b"\n")].rsplit(b"\n", 1)[-1]) if b"\n" in octets else None
    return found[1].decode() if found else None


def first_line_of_a_run(trial):
    """Has the program begin a run and end it, and gives its first line."""
    return first_of_a_run(trial)[1]


def the_tie_is_found_at_the_end_of_any_file(trial):
    """The sum is that of the last line with a line end, however long the file is and whatever stands behind; a line end is looked for in the
    last octets, as many as two of the longest lines have. A file without such a line is named without a sum."""
    line = lambda digit, octets=100: b'{"type":"entry","more":"' + b"x" * (octets - 100) + b'","sum":"' + digit * 64 + b'"}'
    name, longest = "2026-01-31-0123456789abcdef-000000.jsonl", 65_536
    filled = lambda octets: line(b"7", 100 + octets - len(line(b"7")))
    for wanted, octets in (
        ("1" * 64, line(b"1") + b"\n"), ("2" * 64, line(b"1") + b"\n" + line(b"2") + b"\n"),
        ("1" * 64, line(b"1") + b"\n" + line(b"2")), ("1" * 64, line(b"1") + b"\n" + line(b"2")[:30]), ("1" * 64, line(b"1") + b"\n" + bytes(1000)),
        (None, line(b"1")), (None, b""), (None, bytes(300_000)), (None, line(b"1") + b"\n{}\n"), (None, line(b"1") + b"\n\n"),
        (None, line(b"1") + b" \n"), (None, line(b"A") + b"\n"), ("7" * 64, b"x\n" + filled(longest) + b"\n" + b"y" * longest),
        (None, b"x\n" + filled(longest + 1) + b"\n" + b"y" * longest), ("7" * 64, b"z" * 1000 + b"\n" + filled(longest) + b"\n"),
    ):
        file = trial.folder / name
        file.write_bytes(octets)
        before = first_line_of_a_run(trial)["before"]
        hope(f"the tie of {octets[-40:]!r}", before, {"name": name} | ({"sum": wanted} if wanted else {}))
        for made in set(trial.folder.iterdir()) - {file}:
            made.unlink()


def a_file_that_is_compressed_is_told(trial):
    """Where the file of another run that was written last is compressed, the first line names none, and that is logged once."""
    for end in (".gz", ".xz", ".zst", ".bz2"):
        name = f"2026-01-31-0123456789abcdef-000000.jsonl{end}"
        (trial.folder / name).write_text("x")
        trial.log.write_text("")
        hope("the file before", "before" in first_line_of_a_run(trial), False)
        hope("what is told", trial.events("ledger-untied"), [f'level=warn event=ledger-untied file="{name}"'])
        for file in trial.folder.iterdir():
            file.unlink()


def a_run_begins_at_once_behind_a_long_file(trial):
    """A program that is killed half a second after its first answers, in a folder whose last file has 20 GiB of nothing, leaves its first
    line and these entries."""
    long = trial.folder / "2026-01-31-0123456789abcdef-000000.jsonl"
    with long.open("wb") as file:
        file.truncate(20 * 2**30)
    trial.begin()
    hope("acknowledged", trial.ask(40), 40)
    time.sleep(0.5)
    trial.ran.kill()
    trial.ran.wait()
    files = [file for file in trial.files() if file != long]
    hope("the first line", [line["before"] for line in trial.ledger_lines(files)[:1]], [{"name": long.name}])
    trial.sums(files)
    trial.is_all_there("open", files)


def tells_the_sum_each_hour(trial):
    """The sum is logged with each file, each hour, and at the end."""
    moved = trial.room / "moved"
    moved.write_text("0")
    clock = Steered(trial, CLOCK_MOVED=str(moved))
    writes = lambda count: until("they are written", lambda: trial.number("ledger_written_total") == count)
    trial.ask(5)
    writes(5)
    moved.write_text("3590000")
    time.sleep(2)
    hope("before the hour", len(trial.told_sums()), 1)
    moved.write_text("3600001")
    until("an hour", lambda: len(trial.told_sums()) == 2)
    hope("the sum", trial.told_sums()[-1], (0, 5, trial.sums()))
    clock.set(1)
    until("the next file", lambda: len(trial.told_sums()) == 3)
    begun = trial.sums(trial.files()[:1])
    hope("the sum before it", trial.told_sums()[-1], (1, 5, begun))
    trial.ask(3)
    trial.ends()
    hope("the sum at the end", trial.told_sums()[3:], [(1, 8, trial.sums())])
    trial.is_all_there()


def writes_none_unasked(trial):
    """Without the variable, or with an empty one, there is no ledger and no metric of one."""
    trial.begin(RAD_PROXY_LEDGER="")
    hope("acknowledged", trial.ask(10), 10)
    trial.ends()
    hope("the folder", (trial.files(), trial.number("ledger_written_total")), ([], None))


def ends_a_run_with_requests_left(trial):
    """An end with records left over writes the end line too."""
    trial.begin()
    trial.ask(20)
    trial.nas.sendto(request(77, START, NAS_SECRET), trial.listen)
    time.sleep(0.5)
    trial.ends(3)
    trial.is_all_there()


def a_program_that_cannot_serve_leaves_no_file(trial):
    """Where the clients' socket cannot be bound there is no file."""
    other = bound(port=trial.listen[1])
    kept = environment() | {"RAD_PROXY_LEDGER": str(trial.folder)}
    ended = subprocess.run([trial.program, "run", trial.file], stdin=subprocess.DEVNULL, capture_output=True, env=kept, timeout=PATIENCE)
    other.close()
    hope("status and files", (ended.returncode, trial.files()), (4, []))


def is_written_within_a_tenth_of_a_second(trial):
    """An entry is in the file a tenth of a second after its answer."""
    trial.begin()
    for count in range(1, 11):
        trial.ask(1)
        began = trial.clock()
        until("the entry", lambda: len(trial.entries()) == count)
        took = trial.clock() - began
        need(took < WRITTEN + SLACK, "it took", took)


def is_synced_each_second(trial):
    """While entries come the file is synced at least each second, and at the end once more."""
    log = trial.room / "syncs"
    trial.begin(LD_PRELOAD=built(trial.room, "failing_disks"), SYNC_LOG=str(log))
    until("a sync", log.exists)

    def longest():
        """The most milliseconds between two syncs, while entries come for some seconds."""
        began = len(log.read_text().split()) - 1
        for _ in range(100):
            trial.ask(2)
            time.sleep(0.05)
        moments = [*map(int, log.read_text().split()[began:]), 1000 * time.monotonic()]
        return max(after - before for before, after in zip(moments, moments[1:]))

    best(longest, lambda milliseconds: milliseconds <= 1000 * (SYNCED + SLACK))
    last = int(1000 * time.monotonic())
    trial.ends()
    hope("a sync at the end", int(log.read_text().split()[-1]) >= last, True)


def is_handed_over_before_it_is_sent(trial):
    """An entry is in the file while its answer is still being sent."""
    slow = {"SLOW_PORT": str(trial.nas.getsockname()[1]), "SLOW_SEND": str(1000 * SENDING)}
    trial.begin(LD_PRELOAD=built(trial.room, "slow_files"), **slow)
    trial.nas.sendto(request(7, START, NAS_SECRET), trial.listen)
    trial.home.setblocking(False)
    until("the request", lambda: trial.serve(b""))
    until("the entry", lambda: trial.entries(), SENDING - 1)
    trial.nas.setblocking(False)
    hope("answers", trial.hear({7: [b"", time.monotonic(), 0]}), 0)
    until("the answer", lambda: trial.hear({7: [b"", time.monotonic(), 0]}))
    trial.ends()
    trial.is_all_there()


def drops_are_counted(trial):
    """Once the buffer is full entries are dropped, counted and logged, answers come as ever, and the ledger has a gap."""
    trial.folder.rmdir()
    trial.begin()
    more = b"".join(attribute(CLASS, bytes(250)) for _ in range(14))
    for _ in range(100):
        trial.ask(200, more)
        if trial.events("ledger-dropped"):
            break
    has = trial.memory()
    without = trial.without(len(trial.told), more).resident
    if has > without + BOUND + ROOM:
        raise AssertionError(f"it has {has} octets of memory, and {without} without a ledger")
    trial.answers_as_without(more)
    told = until("it is told", lambda: trial.events("ledger-dropped"))
    hope("its level", all("level=error" in line for line in told), True)
    trial.folder.mkdir()
    until("none waits", lambda: trial.number("ledger_waiting") == 0, WRITES)
    trial.ask(100)
    trial.ends()
    dropped = int(trial.number("ledger_dropped_total"))
    hope("what is told", sum(int(line.rpartition("=")[2]) for line in trial.events("ledger-dropped")), dropped)
    missing = set(trial.told) - {entry["response"] for entry in trial.entries()}
    hope("missing", len(missing), dropped)
    serials = [entry["serial"] for entry in trial.entries()]
    hope("entries", len(serials), trial.ledger_lines()[-1]["lanes"][0]["entries"] - dropped)
    hope("verdict", trial.verdict().startswith("gap "), True)


def a_hundred_eighty_thousand_small_entries_wait(trial):
    """Of entries with few octets 180,000 wait, beside the one whose line is made already. Those behind are dropped and counted, answers
    come as ever, and once the folder is there all that waited is written, in order, with a gap behind it."""
    trial.file.write_text(trial.file.read_text().replace("[[realm]]", "book = 1000000\n[[realm]]"))
    trial.folder.rmdir()
    trial.begin()
    trial.ask(1)
    # The folder is looked for once a second, and then the line is made.
    time.sleep(3)
    hope("acknowledged", trial.ask(PLACES + BEYOND, seconds=WRITES), PLACES + BEYOND)
    counts = lambda: [trial.number(f"ledger_{name}") for name in ("written_total", "waiting", "dropped_total")]
    until("all are counted", lambda: sum(counts()) == len(trial.told), WRITES)
    hope("written, waiting and dropped", counts(), [0, 1 + PLACES, BEYOND])
    trial.folder.mkdir()
    until("none waits", lambda: trial.number("ledger_waiting") == 0, WRITES)
    hope("acknowledged behind the gap", trial.ask(100), 100)
    hope("the longest answer is late", (max(trial.delays) > LATE, max(trial.delays)), (False, max(trial.delays)))
    trial.ends()
    hope("written, waiting and dropped at the end", counts(), [1 + PLACES + 100, 0, BEYOND])
    lines = trial.ledger_lines()
    entries = [line for line in lines if line["type"] == "entry"]
    hope("the end line", lines[-1]["lanes"][0]["entries"] - len(entries), BEYOND)
    waited, behind = range(1 + PLACES), range(1 + PLACES + BEYOND, len(trial.told))
    hope("all in order", [entry["serial"] for entry in entries] == [*waited, *behind], True)
    hope("missing", len(set(trial.told) - {entry["response"] for entry in entries}), BEYOND)


def a_killed_run_is_open(trial):
    """After a kill what was acknowledged a tenth of a second before stands in the ledger, without a gap, and the run is open."""
    chance = random.Random(os.environ.get("SEED", "1"))
    kills = int(os.environ.get("KILLS", "5"))
    for _ in range(kills):
        before = trial.files()
        trial.told.clear()
        trial.begin()
        last, clocks = time.monotonic() + chance.uniform(0.2, 1.5), [(0, trial.clock())]
        while time.monotonic() < last:
            trial.ask(20)
            clocks.append((time.monotonic(), trial.clock()))
        killed = trial.clock()
        trial.ran.kill()
        trial.ran.wait()
        files = [file for file in trial.files() if file not in before]
        entries = {entry["response"] for entry in trial.entries(files)}
        lost = [moment for response, moment in trial.told.items() if response not in entries]
        passed = [killed - next(clock for at, clock in reversed(clocks) if at <= moment) for moment in lost]
        early = [seconds for seconds in passed if seconds > WRITTEN + SLACK]
        hope("lost from longer before the kill, and the longest", (len(early), max(early, default=0)), (0, 0))
        hope("verdict", trial.verdict(files), "open")


def a_run_that_ends_by_a_fault_is_open(trial):
    """A run that ends by a fault has no line that ends it, and all its entries."""
    listener = socket.create_server((HERE, 0))
    near = socket.create_connection(listener.getsockname())
    far, _ = listener.accept()
    with far:
        trial.begin(stdin=far)
    trial.ask(50)
    near.setsockopt(socket.SOL_SOCKET, socket.SO_LINGER, struct.pack("ii", 1, 0))
    near.close()
    hope("status", trial.ran.wait(PATIENCE), 4)
    trial.is_all_there("open")
    hope("what is told", [line.split()[1] for line in trial.log_lines() if "event=" in line], ["event=input-fault"])


def a_long_ledger_is_several_files(trial):
    """A file has at most 256 MiB, and the ledger of several is whole."""
    trial.begin()
    more = b"".join(attribute(CLASS, bytes(250)) for _ in range(14))
    while len(trial.files()) < 2:
        trial.ask(500, more)
        until("few wait", lambda: trial.number("ledger_waiting") < 1000, WRITES)
    until("none waits", lambda: trial.number("ledger_waiting") == 0, WRITES)
    trial.ends()
    hope("dropped", trial.number("ledger_dropped_total"), 0)
    sizes = [file.stat().st_size for file in trial.files()]
    hope("sizes", (max(sizes) <= 2**28, sizes[0] > 2**28 - 400_000), (True, True))
    serials = [entry["serial"] for entry in trial.entries()]
    hope("serials", serials, list(range(len(trial.told))))


def a_name_that_is_no_text_is_told(trial):
    """A variable whose value is not UTF-8 is told, and the program serves without a ledger."""
    kept = {name.encode(): value.encode() for name, value in environment().items()} | {b"RAD_PROXY_LEDGER": b"\xff"}
    with open(trial.printed, "wb") as out, open(trial.log, "ab") as err:
        trial.ran = subprocess.Popen([trial.program, "run", trial.file], stdin=subprocess.PIPE, stdout=out, stderr=err, env=kept)
    until("it listens", lambda: "listening" in trial.printed.read_text())
    hope("acknowledged", trial.ask(10), 10)
    trial.ends()
    hope("what is told", trial.log.read_text(), 'level=error event=ledger-fault reason="RAD_PROXY_LEDGER is no text"\n')


TESTS = [
    writes_what_was_acknowledged, tells_its_metrics_behind_the_others, names_the_file_of_another_run_before, the_tie_is_found_at_the_end_of_any_file,
    a_file_that_is_compressed_is_told, a_run_begins_at_once_behind_a_long_file, looks_again_for_the_file_before_once_there_is_a_folder,
    tells_the_sum_each_hour,
    writes_none_unasked, ends_a_run_with_requests_left, a_program_that_cannot_serve_leaves_no_file, is_written_within_a_tenth_of_a_second,
    is_synced_each_second, is_handed_over_before_it_is_sent, drops_are_counted, a_hundred_eighty_thousand_small_entries_wait,
    a_killed_run_is_open, a_run_that_ends_by_a_fault_is_open, a_long_ledger_is_several_files, a_name_that_is_no_text_is_told,
]


if __name__ == "__main__":
    try_named(TESTS, Trial, __doc__)
