"""What the blocks of a queue take, which no contract tells: the tests of `library_tests` that pass many items, with little memory.

usage: python3 -m tests.faults.queue_memory TESTS

TESTS is the program that `rt test` leaves in crates/library_tests/out. An item that passes a queue which stays as long takes no
block: the test of that has few allocations, whatever passes. A block of no items that an appended queue brings along is used for
the next items: the test of that comes to its end in little more memory than its items take. The last line is `N passed, M failed`.
"""
import pathlib
import resource
import subprocess
import sys
import tempfile

from tests.lib import MOST_ALLOCATIONS, Refuser, try_each

PASSES, APPENDS = "what_passes_takes_no_block", "what_is_appended_empty_takes_no_room"
# A block for each 32 of the 20,000 items would be more than 600.
ALLOCATIONS = 200
# 100,000 items of 8 octets are 1 MB, and 28 MB where each has a block of its own.
OCTETS = 12 * 1024 * 1024


def name_of(program, test):
    """The whole name of a test."""
    listed = subprocess.run([program, "--list"], capture_output=True, text=True, check=True).stdout.splitlines()
    (name,) = (line.removesuffix(": test") for line in listed if line.endswith(f"{test}: test"))
    return name


def takes_few(program):
    """What passes a queue takes no block."""
    name = name_of(program, PASSES)
    with tempfile.TemporaryDirectory() as folder:
        ran = Refuser(folder).run([program, name], b"", FIRST=ALLOCATIONS, LAST=MOST_ALLOCATIONS)
    return None if ran is None else f"more than {ALLOCATIONS} allocations: it ended with status {ran.returncode}"


def takes_little(program):
    """A queue without items that is appended takes no room."""
    words = [program, name_of(program, APPENDS)]
    bound = lambda: resource.setrlimit(resource.RLIMIT_DATA, (OCTETS, OCTETS))
    ran = subprocess.run(words, capture_output=True, text=True, timeout=60, preexec_fn=bound)
    return None if ran.returncode == 0 else f"it ended with status {ran.returncode}: {ran.stdout}{ran.stderr}"


def main():
    if len(sys.argv) != 2:
        sys.exit(__doc__)
    program = str(pathlib.Path(sys.argv[1]).resolve())
    try_each([takes_few, takes_little], lambda test: test(program))


if __name__ == "__main__":
    main()
