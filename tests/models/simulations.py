"""The simulation of the whole proxy, over the program of it that was built: seed after seed, as crates/rad_simulation tells.

usage: python3 -m tests.models.simulations PROGRAM [SEEDS [FIRST]]

It runs SEEDS seeds from FIRST on, which are 1000 and 1 where they are not said, on all processors. Each seed that fails is
printed with its turn and the rule that was broken; `PROGRAM SEED 1` repeats it. Then it prints how many turns and crashes the seeds
that passed had. The last line is `N passed, M failed`.
"""
import concurrent.futures
import os
import re
import subprocess
import sys

from tests.lib import conclude

AT_ONCE = 25
SECONDS = 600
MOST_FAILED = 20
FAILED = re.compile(r"seed (\d+) turn \d+: .*")
PASSED = re.compile(r"(\d+) seeds, (\d+) turns, (\d+) crashes: ok\n")


def failures(program, first, count):
    """The lines of the seeds that fail of so many from a first one on, and the turns and crashes of those that passed behind them."""
    lines, end = [], first + count
    while first < end and len(lines) < MOST_FAILED:
        words = [program, str(first), str(end - first)]
        try:
            ran = subprocess.run(words, capture_output=True, text=True, timeout=SECONDS)
        except subprocess.TimeoutExpired:
            return [*lines, f"seeds from {first}: not done in {SECONDS} seconds"], 0, 0
        passed = PASSED.fullmatch(ran.stdout)
        if ran.returncode == 0 and passed and int(passed.group(1)) == end - first:
            return lines, int(passed.group(2)), int(passed.group(3))
        told = FAILED.fullmatch(ran.stdout.strip())
        if ran.returncode != 1 or not told:
            return [*lines, f"seeds from {first}: status {ran.returncode}, {ran.stdout!r} {ran.stderr!r}"], 0, 0
        lines.append(told.group())
        first = int(told.group(1)) + 1
    return lines, 0, 0


def main():
    if not 2 <= len(sys.argv) <= 4:
        sys.exit(__doc__)
    program = os.path.abspath(sys.argv[1])
    seeds, first = (int(word) for word in [*sys.argv[2:], *["1000", "1"][len(sys.argv) - 2 :]])
    parts = [(start, min(AT_ONCE, first + seeds - start)) for start in range(first, first + seeds, AT_ONCE)]
    failed, all_turns, all_crashes = 0, 0, 0
    with concurrent.futures.ThreadPoolExecutor(os.cpu_count()) as workers:
        for lines, turns, crashes in workers.map(lambda part: failures(program, *part), parts):
            failed += len(lines)
            all_turns += turns
            all_crashes += crashes
            for line in lines:
                print(line, flush=True)
    print(f"{all_turns} turns, {all_crashes} crashes")
    conclude(seeds - failed, failed)


if __name__ == "__main__":
    try:
        main()
    except KeyboardInterrupt:
        sys.exit("stopped")
