"""Runs a command of `rt` quietly: a line for each crate as a part of it begins and ends, and all that it says in a log.

usage: python3 -m tests.gate.progress LOG FOLDER COMMAND WORD ..

A part is a crate's proof, its tests, its edits, or the making of its program. The command runs in this folder, and this ends as it
does, and shows the end of the log where that failed.
"""
import pathlib
import sys
import time

from tests.lib import TOP, progress


def main():
    if len(sys.argv) < 4:
        sys.exit(__doc__)
    log, folder, *words = sys.argv[1:]
    parts = [(it, "proof") for it in progress.crates(TOP)]
    status, watch = progress.run(words, pathlib.Path(folder), pathlib.Path(log).resolve(), parts, is_in_order=True)
    print(f"{words[0]} ended with status {status}" if status else f"done in {time.monotonic() - watch.began:.0f} s")
    sys.exit(status if status >= 0 else 128 - status)


if __name__ == "__main__":
    try:
        main()
    except KeyboardInterrupt:
        sys.exit("stopped")
