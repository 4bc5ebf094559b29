"""How long one call of a lane takes where its book is long, in processor time.

usage: python3 -m tests.timing.lane_call_times PROGRAM

A book of BOOK requests is filled as fast as may be. Then requests come on, until the first ones were answered a span ago and more
than half of the book is cut off. work_times.c looks how long a worker works between two of its receives, sends and waits, which is no
longer than for two calls of a lane. No more than FEW of these times may be longer than LONGEST milliseconds: a cut takes as long as
what it cuts, and one call cuts much where the book has just become half full, or where the lane's thread had to wait for a
processor. The last line is `N passed, M failed`.
"""
import pathlib
import subprocess
import sys
import tempfile
import time

from tests.lib import built, loads, until

BOOK, SPAN = 100_000, 10_000
LONGEST, FEW = 5, 4


class Watched(loads.Loaded):
    """The program under `run`, with the times between its calls of the system looked at."""

    def settings(self, library, folder):
        self.times = folder / "times"
        return {"LD_PRELOAD": str(library), "CALLS_FILE": str(self.times), "CALLS_LONG": str(LONGEST)}

    def longest(self):
        """The longest time in milliseconds, and how many were too long."""
        octets = self.times.read_bytes()
        longest, count = (int.from_bytes(octets[at : at + 8], sys.byteorder, signed=True) for at in (0, 8))
        return longest / 1e6, count


def watched(program, work, library):
    """The longest time and how many were too long, with a book that is filled and then cut off."""
    load = loads.Load("a long book", BOOK + BOOK // 10, SPAN, [200])
    with loads.serving(program, work, load, library, Watched) as (proxy, nas):
        nas.ask_until(200, BOOK)
        time.sleep(SPAN / 1000)
        nas.ask_until(8, BOOK // 10)
        until("more than half of the book is cut off", lambda: 2 * list(proxy.counts())[3] > BOOK, loads.PATIENCE)
        found = proxy.longest()
        proxy.end_well()
    return found


def main():
    if len(sys.argv) != 2:
        sys.exit(__doc__)
    program = str(pathlib.Path(sys.argv[1]).resolve())
    with tempfile.TemporaryDirectory() as folder:
        work = pathlib.Path(folder)
        loads.build(work)
        try:
            longest, count = watched(program, work, built(folder, "work_times"))
            print(f"the longest: {longest:.2f} ms; {count} of more than {LONGEST} ms", flush=True)
            failed = int(count > FEW)
        except (AssertionError, OSError, subprocess.SubprocessError) as fault:
            print(f"failed: {fault}", flush=True)
            failed = 1
    print(f"{1 - failed} passed, {failed} failed")
    sys.exit(failed)


if __name__ == "__main__":
    main()
