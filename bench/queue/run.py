#!/usr/bin/env python3
"""What a push and a pop of a `BlockQueue` cost beside those of std's `VecDeque`, and what memory a long queue takes.

usage: run.py [REPEATS]

The program of main.rt.in is proved and built over the library `block_queue` in a folder of its own, with the flags of every
program of the kit, and is left in out/queue_bench. It runs a million pushes and pops of an item as large as a lane's
record, over either queue, and tells what they took. Each run is repeated, 5 times where no number is given, one queue
after the other, and the least time counts. A run without a queue, that makes each item and looks at it, is taken off. The
last line tells what the heap has of a queue of 65,536 items beyond the items themselves.
"""
import os
import pathlib
import shutil
import subprocess
import sys
import tempfile

HERE = pathlib.Path(__file__).resolve().parent
TOP = HERE.parent.parent
RT = os.environ.get("RT", "rt").split()
PROGRAM = TOP / "out" / "queue_bench"
COUNT = 1_000_000
WAITING = (0, 1, 10, 100, 1_000, 65_536)
IN_TURN = tuple(waiting for waiting in WAITING if waiting >= 10)
LONG = 65_536
ITEM = 232
MOST = 1.5
MOST_BEYOND = 5.0
LIBRARIES = ["raw_lists", "block_queue"]


def build():
    """Proves and builds the program in a copy of the crates, over what their checks kept."""
    with tempfile.TemporaryDirectory() as room:
        crates = pathlib.Path(room, "crates")
        left_out = shutil.ignore_patterns("out", "must-fail", "wrong-bodies")
        for library in LIBRARIES:
            kept = TOP / "crates" / library
            shutil.copytree(kept, crates / library, ignore=left_out)
            if (kept / "out").is_dir():
                shutil.copytree(kept / "out", crates / library / "out")
        (crates / "queue_bench" / "src").mkdir(parents=True)
        shutil.copy(HERE / "main.rt.in", crates / "queue_bench" / "src" / "main.rt")
        listed = (TOP / "crates.txt").read_text().splitlines()
        uses = "".join(f"{line}\n" for line in listed if line.partition(":")[0] in LIBRARIES)
        pathlib.Path(room, "crates.txt").write_text(f"{uses}queue_bench: block_queue\n")
        how = {"cwd": crates / "queue_bench", "encoding": "utf-8", "errors": "replace"}
        how.update(stdin=subprocess.DEVNULL, stdout=subprocess.PIPE, stderr=subprocess.STDOUT)
        ran = subprocess.run([*RT, "run"], **how)
        if ran.returncode:
            sys.exit(f"{ran.stdout[-3000:]}\nthe program was not built")
        PROGRAM.parent.mkdir(exist_ok=True)
        shutil.copy(crates / "queue_bench" / "out" / "queue_bench", PROGRAM)


def told(*words, **more):
    """The numbers that the program prints for these words. What it summed up goes to standard error."""
    ran = subprocess.run([PROGRAM, *map(str, words)], stdout=subprocess.PIPE, stderr=subprocess.DEVNULL, check=True, **more)
    return [int(number) for number in ran.stdout.split()]


def least(queues, *words, repeats):
    """For each queue the least of each number that the program prints for it, the queues in turn."""
    runs = [[told(queue, *words) for queue in queues] for _ in range(repeats)]
    return [[min(numbers) for numbers in zip(*of_queue)] for of_queue in zip(*runs)]


def line(name, waiting, blocks, deque):
    """How a cost compares, in nanoseconds of one call or one pair."""
    each = [taken / COUNT for taken in (blocks, deque)]
    ratio = blocks / deque
    said = "" if ratio <= MOST else f"  more than {MOST}"
    print(f"{name:>14} {waiting:>8} {each[0]:>12.1f} {each[1]:>12.1f} {ratio:>8.2f}{said}", flush=True)


def heap_of(count):
    """The octets that the heap holds at most, with so many items in the queue."""
    with tempfile.TemporaryDirectory() as room:
        library, note = pathlib.Path(room, "heap.so"), pathlib.Path(room, "note")
        compiler = os.environ.get("CC", "cc")
        subprocess.run([compiler, "-O2", "-shared", "-fPIC", "-o", library, HERE / "heap.c"], check=True)
        told("blocks", "hold", count, count, env={**os.environ, "LD_PRELOAD": str(library), "HEAP_NOTE": str(note)})
        return int(note.read_text())


def main():
    if len(sys.argv) > 2:
        sys.exit(__doc__)
    repeats = int(sys.argv[1]) if len(sys.argv) == 2 else 5
    build()
    print(f"{'':>14} {'waiting':>8} {'BlockQueue':>12} {'VecDeque':>12} {'ratio':>8}")
    queues = ("blocks", "deque", "none")
    for waiting in WAITING:
        (blocks,), (deque,), (none,) = least(queues, "pairs", waiting, COUNT, repeats=repeats)
        line("push and pop", waiting, blocks - none, deque - none)
    for waiting in IN_TURN:
        blocks, deque, none = least(queues, "bursts", waiting, COUNT, repeats=repeats)
        for place, name in enumerate(("push", "pop")):
            line(name, waiting, blocks[place] - none[place], deque[place] - none[place])
    beyond = 100 * ((heap_of(LONG) - heap_of(0)) / (LONG * ITEM) - 1)
    said = "" if beyond <= MOST_BEYOND else f", more than {MOST_BEYOND} %"
    print(f"{LONG} items of {ITEM} octets: the heap has {beyond:.2f} % beyond them{said}")


if __name__ == "__main__":
    try:
        main()
    except KeyboardInterrupt:
        sys.exit("stopped")
