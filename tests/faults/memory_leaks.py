"""Gives the program a load and then the same load again, and looks whether it keeps more memory after the second time.

usage: python3 -m tests.faults.memory_leaks PROGRAM                 each load of LOADS, with some ten thousand requests and as many again
       python3 -m tests.faults.memory_leaks PROGRAM --seconds N     the same in N seconds, an equal part for each load

The requests are those of bench/generator.c, for a home server of bench/home.c, which answers at once. So many are out at one
moment, whatever the machine does meanwhile; by that, by `book` and by `span` it is settled how much of the book is cut off
each time. A load is given once so many requests were accepted, however long that takes. Memory is looked at when all is
answered and cut. Neither what is resident nor what refused_memory.c counts as live may be more than MOST octets higher after the
second load than after the first one. The last line is `N passed, M failed`.
"""
import pathlib
import signal
import subprocess
import sys
import tempfile
import time

from tests.lib import Refuser, conclude, loads, until

MOST = 500_000
LEAST = 250
REQUESTS, MOST_REQUESTS = 10_000, 2**32 - 1

LOADS = [
    loads.Load("a cut takes more than stays", 400, 0, [8, 8, 8, 8]),
    loads.Load("a cut takes as much as stays", 400, 0, [200, 200, 200, 200]),
    loads.Load("a cut takes less than stays", 400, 0, [220, 220, 220, 220]),
    loads.Load("a cut takes now more and now less", 400, 5, [8, 220, 200, 40]),
]

# A book of which first a part is answered, and then, a while after it, a larger part.
FIRST_PART, SECOND_PART, PAUSE = 8_000, 10_000, 8
PARTS = loads.Load("a cut takes the smaller part", FIRST_PART + SECOND_PART + 1_000, 20_000, [200])


def given_back(program, work, library):
    """How many octets are live no more, for each request of the smaller part of a book, once that part is cut off."""
    with loads.serving(program, work, PARTS, library) as (proxy, nas):
        nas.ask_until(200, FIRST_PART)
        time.sleep(PAUSE)
        nas.ask_until(200, SECOND_PART)
        *_, opening = proxy.counts()
        before = proxy.live_octets()
        if opening:
            raise AssertionError(f"{opening} requests were cut off before the second part was answered")
        until("the first part is cut off", lambda: list(proxy.counts())[3] >= FIRST_PART, loads.PATIENCE)
        *_, opening = proxy.counts()
        after = proxy.live_octets()
    print(f"{PARTS.name}, {opening:,} of {FIRST_PART + SECOND_PART:,} requests: octets live {before:,} and then {after:,}", flush=True)
    return (before - after) / opening


def is_given_back(program, work, library):
    """Whether as much is given back as should be."""
    try:
        octets = given_back(program, work, library)
    except (AssertionError, OSError, subprocess.SubprocessError) as failed:
        print(f"{PARTS.name}: {failed}")
        return False
    if octets < LEAST:
        print(f"{PARTS.name}: of each request {octets:.0f} octets are given back, and not {LEAST}")
    return octets >= LEAST


def grown(program, work, load, library, seconds):
    """How many octets more there are of each kind after the second load than after the first one. That one takes so many
    seconds for each of its parts, or where there are none REQUESTS each."""
    with loads.serving(program, work, load, library) as (proxy, nas):
        began = time.monotonic()
        parts = (nas.ask(out, MOST_REQUESTS, seconds) if seconds else nas.ask_until(out, REQUESTS) for out in load.out)
        accepted = list(parts)
        before = proxy.octets()
        for out, again in zip(load.out, accepted):
            nas.ask_until(out, again)
        after = proxy.octets()
        proxy.end_well()
    told = ", ".join(f"{name} {before[name]:,} and then {after[name]:,}" for name in before)
    took = f"in {time.monotonic() - began:.0f} seconds"
    print(f"{load.name}, {sum(accepted):,} requests and as many again {took}: octets {told}", flush=True)
    return {name: after[name] - before[name] for name in before}


def tried(program, work, load, library, seconds):
    """How many of the two kinds of octets did not rise under a load, and how many did."""
    try:
        risen = [name for name, more in grown(program, work, load, library, seconds).items() if more > MOST]
    except (AssertionError, OSError, subprocess.SubprocessError) as failed:
        print(f"{load.name}: {failed}")
        return 0, 2
    for name in risen:
        print(f"{load.name}: what is {name} rose by more than {MOST:,} octets")
    return 2 - len(risen), len(risen)


def main():
    words = sys.argv[1:]
    if len(words) == 1:
        seconds = None
    elif len(words) == 3 and words[1] == "--seconds":
        parts = 2 * sum(len(load.out) for load in LOADS)
        seconds = max(1, round(int(words[2]) / parts))
    else:
        sys.exit(__doc__)
    signal.signal(signal.SIGTERM, lambda *_: sys.exit("stopped"))
    program = str(pathlib.Path(words[0]).resolve())
    with tempfile.TemporaryDirectory() as folder:
        work = pathlib.Path(folder)
        loads.build(work)
        library = Refuser(work).library
        counts = [tried(program, work, load, library, seconds) for load in LOADS]
        is_right = is_given_back(program, work, library)
    passed, failed = map(sum, zip(*counts, (is_right, not is_right)))
    conclude(passed, failed)


if __name__ == "__main__":
    main()
