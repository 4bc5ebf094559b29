"""What a spool costs: records a second beside a plain C program with the same syncs, and the time and memory that a reader takes.

usage: python3 -m bench.spool TESTS [FOLDER]

TESTS is the program that `rt test` leaves in crates/library_tests/out. The folder, a temporary one where none is given, says on which file
system. All write batches of so many records of 200 octets, each with two syncs, in turn; the quickest of three runs counts. The spool's
records have their heads beside their octets, and entries that close earlier ones; it removes no segment. The plain C program writes one
batch again and again, and makes, sums and copies none: once with as many octets as the spool's batches, by which the share is, and once
with 200 for each record and nothing else. Then a million requests that are open are read.
"""
import hashlib
import os
import pathlib
import resource
import subprocess
import sys
import tempfile
import time

from tests.lib.spool import segments
from tests.lib.spool.trials import READS, WRITES, Trials, environment_of

HERE = pathlib.Path(__file__).resolve().parent
OCTETS, ROUNDS = 200, 3
SIZES = (1, 10, 100, 1_000)
RECORDS = {1: 1_000, 10: 10_000, 100: 50_000, 1_000: 200_000}
MOST = 15_000_000
OPEN, IN_SEGMENT, IN_BATCH = 1_000_000, 60_000, 500
LEAST_SHARE, MOST_SECONDS, MOST_OCTETS = 0.5, 5, 400


def taken(words, **how):
    """The seconds that a program takes."""
    began = time.monotonic()
    subprocess.run(words, check=True, stdout=subprocess.DEVNULL, **how)
    return time.monotonic() - began


def plain(folder, batches, octets):
    """The seconds that the plain C program takes for so many batches of so many octets."""
    seconds = taken([folder / "plain", folder / "file", str(batches), str(octets)])
    (folder / "file").unlink()
    return seconds


def writes(trials, folder, batches, size):
    """The seconds for so many batches: the spool's, plain C's with as many octets, and plain C's with the records alone."""
    numbers = {"span": 1000, "most": MOST, "count": size, "text": OCTETS - 4, "batches": batches, "first": 1000, "run": 1, "keeps": 1}
    spool = taken(trials.words(WRITES), env=environment_of(folder / "spool", numbers))
    segments_left = list((folder / "spool").iterdir())
    octets = sum(left.stat().st_size for left in segments_left)
    for left in segments_left:
        left.unlink()
    return spool, plain(folder, batches, octets // batches - 9), plain(folder, batches, OCTETS * size)


def measure_writes(trials, folder):
    print("records in a batch   spool, a second   plain C, as many octets   share   plain C, records alone   share")
    for size in SIZES:
        runs = [writes(trials, folder, RECORDS[size] // size, size) for _ in range(ROUNDS)]
        spool, same, alone = (RECORDS[size] / min(run[which] for run in runs) for which in (0, 1, 2))
        said = "" if spool >= LEAST_SHARE * same else f"  less than {LEAST_SHARE}"
        print(f"{size:>18} {spool:>17.0f} {same:>25.0f} {spool / same:>7.2f} {alone:>24.0f} {spool / alone:>7.2f}{said}", flush=True)


def entry_of(arrival):
    """A request that is open, of 200 octets, whose Authenticator is in no order."""
    key = hashlib.md5(arrival.to_bytes(8, "big")).digest(), bytes([192, 0, 2, arrival % 7]), arrival % 60_000, arrival % 256
    return segments.entry(2, (*key, bytes([192, 0, 2, 1]), 1813, arrival, 1, 0, arrival, arrival), bytes(OCTETS))


def write_open(folder):
    """A spool of which each request is open."""
    folder.mkdir(mode=0o700)
    for number, first in enumerate(range(0, OPEN, IN_SEGMENT), 1):
        arrivals = range(first, min(first + IN_SEGMENT, OPEN))
        batches = [[entry_of(arrival) for arrival in arrivals[at : at + IN_BATCH]] for at in range(0, len(arrivals), IN_BATCH)]
        pathlib.Path(folder, f"{number:016x}.spool").write_bytes(segments.segment([[segments.entry(1, (1, 1, number))], *batches]))


def measure_reads(trials, folder):
    write_open(folder / "open")
    environment = environment_of(folder / "open", {"now": OPEN, "span": 1000, "short": 1})
    before = resource.getrusage(resource.RUSAGE_CHILDREN)
    seconds = taken(trials.words(READS), env=environment)
    after = resource.getrusage(resource.RUSAGE_CHILDREN)
    memory, busy = after.ru_maxrss * 1024, after.ru_utime + after.ru_stime - before.ru_utime - before.ru_stime
    each = (memory - (1 << 24)) / OPEN
    said = "" if seconds <= MOST_SECONDS and each <= MOST_OCTETS else "  more than is wanted"
    print(f"{OPEN} open requests are read in {seconds:.1f} s, {busy:.1f} s of them on a processor")
    print(f"and in {memory >> 20} MiB: {each:.0f} octets each beside one segment{said}")


def main():
    if len(sys.argv) not in (2, 3):
        sys.exit(__doc__)
    trials = Trials.of(sys.argv[1])
    with tempfile.TemporaryDirectory(dir=sys.argv[2] if len(sys.argv) == 3 else None) as room:
        folder = pathlib.Path(room)
        compiler = os.environ.get("CC", "cc").split()
        flags = ["-std=gnu11", "-O2", "-Wall", "-Wextra", "-Werror"]
        subprocess.run([*compiler, *flags, "-o", folder / "plain", HERE / "spool_plain.c"], check=True)
        measure_writes(trials, folder)
        measure_reads(trials, folder)


if __name__ == "__main__":
    main()
