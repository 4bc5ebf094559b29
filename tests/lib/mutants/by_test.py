"""What each test of a script reaches, where the machine that plants changes runs the script once to see that."""
import json
import os
import pathlib
import time

# What the environment has there: the folder of the machine's room; and where one failure of a script is enough.
ROOM, ENOUGH, TEST = "ROOM_OF_CHANGES", "ONE_FAILURE_IS_ENOUGH", "TEST_OF_CHANGES"
# The file of a room that keeps what each test reached.
KEPT = "reached-by-tests"


def begin(test):
    """Tells the tools whose functions note that they are reached which test runs; gives when it began."""
    if ROOM in os.environ:
        os.environ[TEST] = test
    return time.monotonic()


def end(test, began, word):
    """Keeps what a test reached, a line for each test, with what became of it, and takes the marks away for the next one."""
    if ROOM in os.environ:
        room = pathlib.Path(os.environ[ROOM])
        told = {"test": test, "word": word, "seconds": time.monotonic() - began, "notes": taken_notes(room / "notes"),
                "reached": taken_numbers(room / "state")}
        with (room / KEPT).open("a") as kept:
            kept.write(f"{json.dumps(told)}\n")


def taken_notes(folder):
    """The notes of the tools, which are files of a folder, as `FILE:LINE` each."""
    found = list(folder.iterdir())
    for file in found:
        file.unlink(missing_ok=True)
    return sorted(file.name.replace("+", "/") for file in found)


def taken_numbers(place):
    """The numbers that programs marked, which may run on: their file stays the same one."""
    with place.open("r+b") as file:
        octets = file.seek(4) and file.read()
        file.seek(4)
        file.write(bytes(len(octets)))
    return [number for number, octet in enumerate(octets) if octet]


def forget(room):
    """Takes away what an earlier script reached."""
    taken_notes(room / "notes")
    (room / KEPT).write_text("")


def all_of(room, then):
    """What a script reached in all, and each of its tests, by what was kept of each and what came behind the last."""
    tests = [json.loads(line) for line in (room / KEPT).read_text().splitlines()]
    rest = {"notes": taken_notes(room / "notes"), "reached": taken_numbers(room / "state")}
    union = {key: sorted(set().union(*(it[key] for it in [*tests, rest]))) for key in rest}
    return {**then, **union, "tests": tests}


def is_enough(word):
    return word == "failed" and ENOUGH in os.environ
