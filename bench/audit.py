"""How fast the auditor is: its time for a ledger beside those of sha256sum and jq, on all processors and on one.

usage: python3 -m bench.audit PROGRAM [ENTRIES]

PROGRAM is the auditor that was built. A ledger with sums of so many entries, 100,000 where no number is given, is read by each in turn; the
quickest of three runs counts. It has to be whole.
"""
import os
import pathlib
import subprocess
import sys
import tempfile
import time

from tests.lib import Lane, Run, text
from tests.lib.ledger.cases import HOME, NAS, config
from tests.lib.ledgers import chained

ROUNDS, CLIENT, MORE = 3, "192.0.2.10", bytes([26, 122]) + bytes(120)
# The most that the auditor may take where there are four processors: so many times what sha256sum takes.
MOST_SHARE = 4


def write_ledger(folder, entries):
    run = Run(1, [Lane(0, "h1", HOME)])
    lines = [run.begin(), *(run.entry(client=(CLIENT, NAS), more=MORE) for _ in range(entries)), run.end_of_all()]
    (folder / "ledger").write_text(text(chained(lines)))
    (folder / "config.toml").write_text(config())


def seconds_of(words, folder, processors):
    """The seconds that a program takes on these processors."""
    began = time.monotonic()
    subprocess.run(words, cwd=folder, check=True, stdout=subprocess.DEVNULL, preexec_fn=lambda: os.sched_setaffinity(0, processors))
    return time.monotonic() - began


def measure(program, folder):
    every = sorted(os.sched_getaffinity(0))
    subjects = {
        "sha256sum": (["sha256sum", "ledger"], every),
        "jq, one key of each line": (["jq", ".type", "ledger"], every),
        f"rad_audit on {len(every)} processors": ([program, "config.toml", "ledger"], every),
        "rad_audit on one": ([program, "config.toml", "ledger"], every[:1]),
    }
    took = {name: [] for name in subjects}
    for _ in range(ROUNDS):
        for name, (words, processors) in subjects.items():
            took[name].append(seconds_of(words, folder, processors))
    least = min(took["sha256sum"])
    for name, its in took.items():
        print(f"{name:<28} {min(its):>7.2f} s {min(its) / least:>6.1f} times sha256sum")
    print(f"the most on four processors: {MOST_SHARE} times")


def main():
    if len(sys.argv) not in (2, 3):
        sys.exit(__doc__)
    program = str(pathlib.Path(sys.argv[1]).resolve())
    with tempfile.TemporaryDirectory() as made:
        folder = pathlib.Path(made)
        write_ledger(folder, int(sys.argv[2]) if len(sys.argv) == 3 else 100_000)
        print(f"{(folder / 'ledger').stat().st_size:,} octets")
        measure(program, folder)


if __name__ == "__main__":
    main()
