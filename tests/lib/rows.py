"""What a row of tests/rows is: a conversation with the program, with what goes in and what has to come of it.

A row is a file FOLDER/NAME.row. It reads as a conversation, with what goes in and what has to come of it:

    # TEXT           what the row shows
    words: WORD ..   what the program is called with, as a shell splits it (without this line: replay)
    over: PATH       a file, by its path from the top of the repository, which stands before the input
    answers: PATH    a file of what stands before the lines of standard output
    output: full     standard output is a device that is full
    environment: NAME=VALUE ..   variables beside those that there are, as a shell splits them
    < LINE           a line of the input
    + LINE           a line of standard input, where the input is a file
    > LINE           a line of standard output
    ! LINE           a line of standard error
    status: N        how the program ends (without this line: 0)

Where a word is FILE, the input is the file of that name in the folder in which the program runs, and else it is
standard input. In place of a line there may be a Python expression for it, behind `<=`, `+=`, `>=` or `!=`: the octets,
or the text in UTF-8, that it gives, with no line feed added. In it `lines` makes one text of many lines, and `before` is
what stands before it on the same side. A line that begins with two spaces continues the one above it.
"""
import os
import pathlib
import re
import shlex
import subprocess
import tempfile

from tests.lib.starting import TOP

ROWS = TOP / "tests" / "rows"
SECONDS = 60
MOST_LINES = 6


def lines(texts):
    return "".join(f"{text}\n" for text in texts)


class Row:
    def __init__(self, name):
        text = (ROWS / f"{name}.row").read_text("utf-8")
        self.words, self.status, self.is_full = ["replay"], 0, False
        self.environment = {}
        self.streams = {"<": b"", "+": b"", ">": b"", "!": b""}
        if not text.startswith("# "):
            raise ValueError("the first line does not say what the row shows")
        for line in re.sub(r"\n  +", " ", text).split("\n"):
            self.read(line)

    def read(self, line):
        head, _, rest = line.partition(" ")
        if head in self.streams:
            self.streams[head] += rest.encode() + b"\n"
        elif head[:1] in self.streams and head[1:] == "=":
            octets = eval(rest, {"lines": lines, "before": self.streams[head[0]]})
            self.streams[head[0]] += octets if isinstance(octets, bytes) else octets.encode()
        elif head == "words:":
            self.words = shlex.split(rest)
        elif head == "over:":
            self.streams["<"] += (TOP / rest).read_bytes()
        elif head == "answers:":
            self.streams[">"] += (TOP / rest).read_bytes()
        elif line == "output: full":
            self.is_full = True
        elif head == "environment:":
            self.environment.update(setting.split("=", 1) for setting in shlex.split(rest))
        elif head == "status:":
            self.status = int(rest)
        elif line and head != "#":
            raise ValueError(f"this line is of no known form: {line[:80]}")

    def run(self, program):
        """Runs a program in an empty folder, and gives its status and what it wrote."""
        with tempfile.TemporaryDirectory() as folder:
            given = self.streams["<"]
            if "FILE" in self.words:
                pathlib.Path(folder, "FILE").write_bytes(given)
                given = self.streams["+"]
            with open("/dev/full", "wb") as full:
                output = full if self.is_full else subprocess.PIPE
                how = {"stdout": output, "stderr": subprocess.PIPE, "cwd": folder, "timeout": SECONDS}
                how["env"] = {**os.environ, **self.environment}
                return subprocess.run([program, *self.words], input=given, **how)


def clipped(line):
    text = line.decode("utf-8", "replace")
    return text if len(text) <= 120 else f"{text[:110]}.. ({len(text)} characters)"


def difference(wanted, got):
    """The first lines at which two texts differ."""
    wanted, got = wanted.split(b"\n"), got.split(b"\n")
    longest = max(len(wanted), len(got))
    wanted += [None] * (longest - len(wanted))
    got += [None] * (longest - len(got))
    told = []
    for number, (left, right) in enumerate(zip(wanted, got), 1):
        if left != right:
            told += [f"    line {number}: wanted {clipped(left)}"] if left is not None else []
            told += [f"    line {number}: got    {clipped(right)}"] if right is not None else []
    return told[:MOST_LINES]
