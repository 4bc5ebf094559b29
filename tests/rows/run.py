"""Runs a program over the rows below this folder, and says where what it does differs from them.

usage: python3 -m tests.rows.run PROGRAM [ROW ..]     over all rows, or over those named, as lane/forwards-one-request
       python3 -m tests.rows.run --input ROW          writes the input of a row, for a run by hand

tests/lib/rows.py tells what a row is. Why `run` ends, or can't write a file, is told by its log, and that is no part of a row:
exit_reasons.py, counters_and_log_files.py and reasons_by_command.py look at it. So where `run` ends by a fault, the line of the log that
tells its reason is left out, and in another line of the log the reason is. What `run` tells of a configuration is left out too. The last
line is `N passed, M failed`.
"""
import pathlib
import re
import subprocess
import sys

from tests.lib.rows import ROWS, SECONDS, Row, difference

REASON = rb' reason="[^"\n]*"'
# What is told of a configuration: configuration/told_faults.py looks at that.
OF_CONFIGURATION = (rb"^level=(?:warn|error) event=(?:configuration-fault|no-realm|unused-home|shared-address|weak-secret|short-span|"
                    rb"realm-name) [^\n]*\n")
FAULT = rb"^level=error event=(?:file-fault|no-toml|unbound|output-fault)(?: [a-z_]+=[^ \"\n]+)*" + REASON + rb"\n(?=[^\n]*\n?\Z)"


def without_reasons(row, errors):
    """What `run` wrote to standard error, without what is told of a configuration, and without the reasons where the row has none."""
    if row.words[:1] != ["run"]:
        return errors
    errors = re.sub(OF_CONFIGURATION, b"", errors, flags=re.MULTILINE)
    if b" reason=" in row.streams["!"]:
        return errors
    if row.status:
        errors = re.sub(FAULT, b"", errors, flags=re.MULTILINE)
    return re.sub(b"^(level=.*)" + REASON + b"$", rb"\1", errors, flags=re.MULTILINE)


def faults(program, name):
    """What differs in one row, line by line."""
    try:
        row = Row(name)
        run = row.run(program)
    except subprocess.TimeoutExpired:
        return [f"  it did not end in {SECONDS} seconds"]
    except Exception as fault:
        return [f"  it can't be read or run: {fault}"]
    told, errors = [], without_reasons(row, run.stderr)
    for title, sign, got in (("standard output", ">", run.stdout or b""), ("standard error", "!", errors)):
        if got != row.streams[sign]:
            told += [f"  {title}:", *difference(row.streams[sign], got)]
    if run.returncode != row.status:
        told.append(f"  status: wanted {row.status}, got {run.returncode}")
    return told


def main():
    if len(sys.argv) == 3 and sys.argv[1] == "--input":
        sys.stdout.buffer.write(Row(sys.argv[2]).streams["<"])
        return
    if len(sys.argv) < 2:
        sys.exit(__doc__)
    program = str(pathlib.Path(sys.argv[1]).resolve())
    names = sys.argv[2:] or sorted(str(row.relative_to(ROWS).with_suffix("")) for row in ROWS.rglob("*.row"))
    failed = 0
    for done, name in enumerate(names, 1):
        told = faults(program, name)
        if told:
            failed += 1
            print(f"{name}:", *told, sep="\n", flush=True)
        if done % 100 == 0:
            print(f"{done} of {len(names)} rows done", flush=True)
    print(f"{len(names) - failed} passed, {failed} failed")
    sys.exit(1 if failed or not names else 0)


if __name__ == "__main__":
    main()
