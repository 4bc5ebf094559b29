"""What crashes, failing disks and spoiled files leave of a spool, as the crate's reader and one of another hand read it.

usage: python3 -m tests.faults.spool_crashes TESTS [--long]

TESTS is the program that `rt test` leaves in crates/library_tests/out. A child of it writes segments to a folder under load, and is killed
at random moments, on a tmpfs and on the file system of the temporary folder. Then all that it acknowledged is there, once, and the batch
that it was at whole or not at all. The same holds where a write, a sync or an unlink fails, once or for ever, where a file has no room
within a batch, and where a segment has no room for one. Segments that are cut short or changed give no other entry than was written, and
both readers name the same faults. With --long there are 500 kills and 100,000 random files. The last line is `N passed, M failed`.
"""
import errno
import pathlib
import random
import resource
import subprocess
import sys
import tempfile
import time
import zlib
from contextlib import contextmanager
from itertools import count

from tests.lib import built, is_asked, started, try_each
from tests.lib.spool import segments
from tests.lib.spool.trials import READS, WRITES, Trials, environment_of
from tests.lib.trying import fault_of

IS_LONG = is_asked("--long")
# A child whose steps fail comes to removals of segments.
STEPPED = 400
KILLS, RANDOM_FILES = (500, 100_000) if IS_LONG else (40, 2_000)
MEMORY = "/dev/shm" if pathlib.Path("/dev/shm").is_dir() else None
FIRST, SPAN, MOST, BATCH = 1_000, 300, 20_000, 3
# How many octets a segment has at most.
GREATEST = 1 << 24
# What a child needs more than its folder.
LOAD = {"span": SPAN, "most": MOST, "count": BATCH, "text": 20}
TRIALS = Trials.of(sys.argv[1] if len(sys.argv) == 2 else sys.exit(__doc__))


def closed_by(arrival):
    """The requests that a child closes when this one comes in, and how."""
    earlier, late = arrival - 5, arrival - 400
    if earlier % 10 != 3:
        yield "answered", earlier
    elif earlier % 40 == 3:
        yield "given up", earlier
    if late % 10 == 3 and late % 100 != 3:
        yield "answered", late


class Expected:
    """What a spool has after its batches: the open requests, and when which were answered, each with its run."""

    def __init__(self):
        self.requests, self.answers = {}, {}

    def add(self, run, first, size):
        for arrival in range(first, first + size):
            self.requests[arrival] = run
            for how, closed in closed_by(arrival):
                self.requests.pop(closed, None)
                self.answers.pop(closed, None)
                if how == "answered":
                    self.answers[closed] = (run, arrival)

    def told(self, now):
        answers = {(closed, run) for closed, (run, moment) in self.answers.items() if now - moment <= SPAN}
        return sorted(self.requests.items()), answers


class Trial:
    """A folder to which children write, one after the other, and what is expected by what they acknowledged."""

    def __init__(self, folder):
        self.folder, self.runs, self.next, self.expected = pathlib.Path(folder, "spool"), count(1), FIRST, Expected()

    def load(self, run, batches):
        """The numbers of a child's load."""
        return {**LOAD, "run": run, "first": self.next, "batches": batches}

    def run(self, batches, more=None, **other):
        """Runs a child to its end. Returns what it printed and the batch that was not acknowledged, if there is one."""
        run = next(self.runs)
        ran = TRIALS.run(WRITES, self.folder, more, **self.load(run, batches) | other)
        return ran, self.take(run, told_of(ran.stdout.splitlines()))

    def take(self, run, lines):
        """Takes what a child printed: each batch that it tried, and whether that was acknowledged. Returns the last one if it was not."""
        tried = None
        for line in lines:
            word, *numbers = line.split()
            if word == "try":
                tried = (run, *map(int, numbers))
                self.next = tried[1] + tried[2]
            elif word == "ok":
                self.expected.add(*tried)
                tried = None
        return tried

    def check(self, left):
        """Both readers find what was acknowledged, with the batch that was left or without. Segments are their owner's alone."""
        found, now = read_both(self.folder, self.next), self.next
        requests = [(entry[1][6], entry[1][7]) for entry in found.requests]
        answers = {(entry[1][6], entry[1][4]) for entry in found.answers}
        assert not found.faults, found.faults
        if left and (requests, answers) != self.expected.told(now):
            self.expected.add(*left)
        assert (requests, answers) == self.expected.told(now), (len(requests), len(answers), left)
        files = list(self.folder.iterdir())
        assert self.folder.stat().st_mode & 0o777 == 0o700 and all(file.stat().st_mode & 0o777 == 0o600 for file in files), files


def read_both(folder, now):
    """What another hand reads of a folder, if the crate's reader finds the same."""
    ran = TRIALS.run(READS, folder, now=now, span=SPAN)
    assert ran.returncode == 0, ran.stdout[-300:] + ran.stderr[-300:]
    spool = segments.spool_of(segments.in_folder(folder), now, SPAN)
    other = [f"open {entry[1][6]} {entry[1][7]} {zlib.crc32(entry[2])}" for entry in spool.requests]
    other += [f"answer {entry[1][6]} {entry[1][4]} {zlib.crc32(entry[2])}" for entry in spool.answers]
    other += [f"fault {number} {offset} {name}" for number, offset, name in spool.faults]
    lines = [line for line in ran.stdout.splitlines() if line.split(" ")[0] in ("open", "answer", "fault")]
    assert lines == other, next((pair for pair in zip(lines, other) if pair[0] != pair[1]), (len(lines), len(other)))
    return spool


@contextmanager
def on(place):
    """A folder on a file system."""
    with tempfile.TemporaryDirectory(dir=place) as folder:
        yield folder


def told_of(lines):
    """The lines of what a child printed that tell of its batches."""
    return [line for line in lines if line.split(" ")[0].rstrip() in ("try", "ok")]


def until_first(output):
    """The lines of a child up to its first batch that was acknowledged."""
    for line in output:
        yield line
        if line == "ok\n":
            return


def killed(trial, chance):
    """Runs a child, kills it at a random moment after its first batch, and checks what it left."""
    run = next(trial.runs)
    environment = environment_of(trial.folder, trial.load(run, 10**9))
    with started(TRIALS.words(WRITES), env=environment, stdout=subprocess.PIPE, text=True) as child:
        lines = list(until_first(child.stdout))
        time.sleep(chance.expovariate(20))
        child.kill()
        lines += child.stdout.readlines()
        assert child.wait() < 0, lines[-5:]
    trial.check(trial.take(run, told_of(lines)))


def kills_leave_what_was_acknowledged():
    chance = random.Random(87)
    for place in (MEMORY, None):
        with on(place) as folder:
            trial = Trial(folder)
            for _ in range(KILLS // 2):
                killed(trial, chance)


STEPS = [("write", 0), ("write", errno.ENOSPC), ("write", errno.EIO), ("sync", errno.EIO), ("unlink", errno.EIO)]


def fails_at(trial, library, kind, error, first, times):
    """Runs a child of which steps fail, and checks what it left; then one that is whole."""
    failing = {"LD_PRELOAD": library, "DISK_PATH": str(trial.folder), "STEP_KIND": kind, "STEP_ERROR": str(error)}
    for more in ({**failing, "STEP_FROM": str(first), "STEP_COUNT": str(times)}, {}):
        ran, left = trial.run(STEPPED, more)
        must_fail = bool(more) and error != 0
        assert (ran.returncode != 0) == must_fail, (kind, error, first, times, ran.returncode, ran.stdout[-200:], ran.stderr[-200:])
        trial.check(left)


def failing_steps_lose_nothing():
    with on(MEMORY) as folder:
        library, trial = built(folder, "failing_files"), Trial(folder)
        for kind, error in STEPS:
            for first, times in ((1, 1), (2, 1), (1, 10**9)) if kind == "unlink" else ((1, 1), (7, 1), (100, 1), (50, 10**9)):
                fails_at(trial, library, kind, error, first, times)


def without_room(trial, octets):
    """Runs a child whose files have room for so many octets, so that the system writes a batch in part, and checks what it left."""
    run = next(trial.runs)
    # A write beyond the limit fails, and kills no child, as long as its signal is ignored.
    how = {"restore_signals": False, "preexec_fn": lambda: resource.setrlimit(resource.RLIMIT_FSIZE, (octets, octets)),
           "capture_output": True, "text": True, "timeout": 60}
    ran = subprocess.run(TRIALS.words(WRITES), env=environment_of(trial.folder, trial.load(run, STEPPED)), **how)
    assert ran.returncode > 0, (octets, ran.returncode, ran.stderr[-200:])
    trial.check(trial.take(run, told_of(ran.stdout.splitlines())))


def files_without_room_lose_nothing():
    with on(MEMORY) as folder:
        trial = Trial(folder)
        for octets in (*range(45), *range(500, 900, 11)):
            without_room(trial, octets)
        ran, left = trial.run(STEPPED)
        assert ran.returncode == 0, ran.stderr[-300:]
        trial.check(left)


def segments_are_filled():
    """Batches without an entry, and batches of the greatest entries up to the end of a segment, beyond which none is written."""
    with on(MEMORY) as folder:
        trial = Trial(folder)
        ran, left = trial.run(5, count=0)
        assert ran.returncode == 0 and not left, ran.stderr[-300:]
        trial.check(None)
        ran, left = trial.run(10**6, count=4, text=4096, most=2 * GREATEST)
        assert ran.returncode > 0 and left, ran.returncode
        trial.check(None)
        lengths = sorted(len(file) for _, file in segments.in_folder(trial.folder))
        assert GREATEST - 18_000 < lengths[-1] <= GREATEST, lengths


def request(number, text):
    """A request that came in, with a text of so many octets."""
    key = number.to_bytes(16, "big"), bytes([192, 0, 2, 9]), 40_000, number % 256
    return segments.entry(2, (*key, bytes([192, 0, 2, 1]), 1813, number, 6, 2, 8, 5), bytes(text))


def of_length(length):
    """A segment of so many octets, with requests of the least and of the greatest size."""
    begun, head = [segments.entry(1, (1, 6, 1))], len(request(0, 0))
    greatest, rest = divmod(length - len(segments.segment([begun, []])) - len(request(0, 20)), head + 4096)
    texts = [20, *[4096] * greatest, rest - head] if rest >= head + 20 else [20, 20, *[4096] * (greatest - 1), rest + 4096 - 20 - head]
    return segments.segment([begun, [request(number, text) for number, text in enumerate(texts)]])


def greatest_segments_are_read_alike():
    """A segment of 16 MiB is read, and one of an octet more is refused."""
    file = of_length(GREATEST)
    assert len(file) == GREATEST
    spool = both_read([file])
    assert {len(text) for _, _, text in spool.requests} >= {20, 4096} and not spool.faults, spool.faults
    with on(MEMORY) as folder:
        pathlib.Path(folder, f"{1:016x}.spool").write_bytes(file + b"\0")
        assert TRIALS.run(READS, folder, now=10, span=SPAN).returncode > 0


def bounds():
    """Segments with an entry of each kind whose text is at a bound, or beyond one, and with a batch without entries."""
    begun = [segments.entry(1, (1, 6, 1))]
    key = bytes(16), bytes([192, 0, 2, 9]), 40_000, 7
    for length in (0, 1, 19, 20, 255, 256, 4096, 4097, 65_535):
        yield [begun, [], [request(1, length)]]
        yield [begun, [segments.entry(3, (*key, 6, 2, 9, 7), bytes(length))]]
        yield [begun, [segments.entry(4, (*key, 8), bytes(length))], []]
        yield [[segments.entry(1, (1, 6, 1), bytes(length))]]
    yield [[], begun, [request(1, 20)]]


def bounds_are_read_alike():
    found = [both_read([segments.segment(batches)]) for batches in bounds()]
    refused = [any(name == "not entries" for _, _, name in spool.faults) for spool in found]
    assert (len(found), sum(refused)) == (37, 22), (len(found), refused)


def size_stays_bounded():
    """What is on the disk is at most four times what is open, what was written within the span, and three segments."""
    with on(MEMORY) as folder:
        trial = Trial(folder)
        ran, left = trial.run(4_000)
        assert ran.returncode == 0, ran.stderr[-300:]
        trial.check(left)
        removed = [line.split() for line in ran.stdout.splitlines() if line.startswith("removed")]
        assert removed and any(copies != "0" for _, _, copies in removed), "nothing was written once more"
        files = segments.in_folder(trial.folder)
        spool = segments.spool_of(files, trial.next, SPAN)
        counting = sum(76 + len(text) for _, _, text in spool.requests)
        within = sum(len(file) for _, file in files if newest(file) >= trial.next - SPAN)
        total = sum(len(file) for _, file in files)
        assert total <= 4 * counting + within + 3 * (MOST + 1_000), (total, counting, within)


def newest(file):
    """The greatest moment in a segment."""
    moments = {"came": 10, "answered": 7, "given up": 4}
    entries = (entry for batch in segments.read(file) for entry in batch.entries)
    return max((fields[moments[name]] for name, fields, _ in entries if name in moments), default=0)


def good(number):
    """A segment of three batches."""
    first, second = ((bytes([octet] * 16), bytes([192, 0, 2, 9]), 40_000 + octet, octet) for octet in (number % 251, 255))
    ours, text = (bytes([192, 0, 2, 1]), 1813), bytes([4, 3, 0, 20]) + bytes(16)
    return segments.segment([
        [segments.entry(1, (1, 6, number))],
        [segments.entry(2, (*first, *ours, number, 6, 2, 8, 5), text),
         segments.entry(2, (*second, *ours, number + 70_000, 6, 1, 9, 6), text)],
        [segments.entry(3, (*first, 6, 2, 9, 7), text), segments.entry(4, (*second, 8), b"gone")],
    ])


def spoiled_files():
    """Good segments, cut at each length, and with another octet at each place."""
    length = len(good(1))
    for number, cut in enumerate(range(length), 1):
        yield good(number)[:cut]
    chance = random.Random(3)
    for number, place in enumerate((place for place in range(length) for _ in range(3)), length + 1):
        file = bytearray(good(number))
        file[place] ^= chance.choice([1, 2, 128, chance.randint(1, 255)])
        yield bytes(file)


def random_files():
    """Random octets, most of them behind an open gate with a length that is possible, some with a sum that is right."""
    chance = random.Random(5)
    for _ in range(RANDOM_FILES):
        body = chance.randbytes(chance.randint(0, 60))
        kind = chance.randint(0, 3)
        body = bytes([chance.randint(0, 5)]) + body if kind > 1 else body
        check = zlib.crc32(body) if kind > 0 else chance.getrandbits(32)
        batch = b"\1" + segments.FRAME.pack(len(body), check) + body
        begun = segments.segment([[segments.entry(1, (chance.choice([0, 1, 2, 9]), 6, 1))]])[:-1]
        yield [batch, begun + batch, batch[: chance.randint(0, 12)], body][kind]


def both_read(files):
    """Both readers find the same in files that are segments 1, 2 and so on of one folder, and name faults."""
    with on(MEMORY) as folder:
        for number, file in enumerate(files, 1):
            pathlib.Path(folder, f"{number:016x}.spool").write_bytes(file)
        return read_both(pathlib.Path(folder), 10)


def spoiled_segments_are_read_alike():
    spool = both_read(spoiled_files())
    assert {name for _, _, name in spool.faults} >= {"wrong sum", "cut short"}, spool.faults[:3]
    texts = {bytes([4, 3, 0, 20]) + bytes(16)}
    assert all(text in texts for _, _, text in spool.requests + spool.answers), "an entry that was not written"


def random_segments_are_read_alike():
    spool = both_read(random_files())
    assert {name for _, _, name in spool.faults} == {"wrong sum", "not entries", "cut short", "no beginning", "later version"}


def main():
    tests = [kills_leave_what_was_acknowledged, failing_steps_lose_nothing, files_without_room_lose_nothing, segments_are_filled,
             greatest_segments_are_read_alike, bounds_are_read_alike, size_stays_bounded, spoiled_segments_are_read_alike,
             random_segments_are_read_alike]
    try_each(tests, fault_of)


if __name__ == "__main__":
    main()
