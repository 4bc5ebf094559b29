"""Has a program read each configuration of examples/, and compares what it counts with what Python's TOML reader finds.

With a log it must know each key too: an example explains every key, so one that is read and not known as read shows here.

usage: python3 -m tests.configuration.examples PROGRAM

The last line is `N passed, M failed`.
"""
import os
import subprocess
import sys
import tomllib

from tests.lib import TOP

SECONDS = 60


def expected(file):
    """What `check` has to print of a configuration."""
    table = tomllib.loads(file.read_text("utf-8"))
    counts = (f"{part}s {len(table.get(part, []))}" for part in ("client", "home", "realm"))
    return " ".join(counts) + "\n"


def main():
    if len(sys.argv) != 2:
        sys.exit(__doc__)
    failed = 0
    files = sorted(TOP.glob("examples/**/*.toml"))
    for file in files:
        how = {"capture_output": True, "encoding": "utf-8", "timeout": SECONDS}
        ran = subprocess.run([sys.argv[1], "check", str(file)], **how)
        found = ran.returncode, ran.stdout, ran.stderr
        logged = subprocess.run([sys.argv[1], "check", str(file)], env={**os.environ, "RAD_PROXY_LOG": "info"}, **how)
        if found != (0, expected(file), "") or "unread-key" in logged.stderr:
            failed += 1
            print(f"{file.relative_to(TOP)}: {found}, and not {expected(file)!r}; logged: {logged.stderr!r}")
    print(f"{len(files) - failed} passed, {failed} failed")
    sys.exit(1 if failed or not files else 0)


if __name__ == "__main__":
    main()
