"""Spoils lines of a ledger by chance, has the built auditor name each, and looks at its memory and how fast it reads.

The auditor reads the spoiled lines among lines that are right: it has to name each spoiled line by its file and number, with a reason of
how it was spoiled, and no other line, and to count every entry that is right. Then this spoils a ledger at any octets, and compares all that is printed with what audit_model.py answers. It has the auditor read
more than fits the memory that it gives it. It has it read many runs, whose names come back, and sees that its time grows with their number
alone, and looks at what a terminal is told of a long ledger. Last it has it read entries that are right alone, each in no more processor time
than the model takes, and tells how many it reads in a second of that.

usage: python3 -m tests.ledger.auditor_spoiled_lines AUDITOR [LINES [SEED]]    the path of rad_audit; else 100000 lines, and the seed 1

The last line is `N passed, M failed`.
"""
import contextlib
import itertools
import json
import os
import pathlib
import pty
import random
import re
import resource
import subprocess
import sys
import tempfile
import time

from tests.lib import TOP, Lane, Run, text
from tests.lib.ledger.chained_cases import TAIL, sealed
from tests.lib.ledgers import chained, hidden

SECONDS = 300
HOME, NAS = b"home-secret", b"nas-secret"
CONFIG = """listen = "127.0.0.1:1813"
[[client]]
address = "192.0.2.10"
secret = "nas-secret"
[[home]]
name = "h1"
address = "127.0.0.1:2813"
secret = "home-secret"
"""

MODEL = TOP / "tests" / "lib" / "audit_model.py"

# How much is spoiled where the model reads it too, and one line of how many is left out.
SPOILED, HIDDEN = 4000, 50

# How often one octet of a whole ledger is changed.
ONE_OCTET = 300

# How many lines stand between two that are right, at most, and how many entries are read for the speed, by the model one of so many.
APART = 20
ENTRIES, LESS = 20000, 8

# The address space that the program has on one processor while it reads more than that, and the most memory that it takes on all of them.
MEMORY = 16 << 20
MOST_MEMORY = 64 << 20
SECONDS_BETWEEN_LOOKS = 0.01

# How many runs there are at once, and how much longer than a quarter of them they take at most: four times, on a machine that has no other work.
RUNS, MOST_TIMES = 160000, 8

KEYS = ["run", "time", "home", "lane", "serial", "record", "client", "port", "identifier", "authenticator", "sent", "reply", "response"]


def dumped(line):
    return json.dumps(line, separators=(",", ":"))


def turned(chance, line, key):
    """A line with one digit of the octets at a key changed."""
    digits = line[key]
    at = chance.randrange(len(digits))
    other = chance.choice([digit for digit in "0123456789abcdef" if digit != digits[at]])
    return dumped({**line, key: digits[:at] + other + digits[at + 1 :]})


def cut(chance, line):
    """The front of a line, which no other line begins with."""
    whole = dumped(line)
    return whole[: chance.randrange(1, len(whole))] + "\x01"


def without(chance, line):
    gone = chance.choice(KEYS)
    return dumped({key: value for key, value in line.items() if key != gone})


def octets(chance, line):
    """Octets by chance, without a line end, with which no line of a ledger begins."""
    return "?" + "".join(chr(chance.choice([*range(1, 10), *range(11, 127)])) for _ in range(chance.randrange(1, 200)))


def with_octet(chance, line):
    """A line with an octet that is in no text of JSON."""
    whole = dumped(line)
    at = chance.randrange(len(whole))
    return whole[:at] + chr(chance.randrange(1, 9)) + whole[at:]


SPOILERS = [
    (lambda chance, line: turned(chance, line, "sent"), {"NoPacket", "WrongSent"}),
    (lambda chance, line: turned(chance, line, "reply"), {"NoPacket", "WrongReply"}),
    (lambda chance, line: turned(chance, line, "response"), {"NoPacket", "WrongResponse"}),
    (lambda chance, line: turned(chance, line, "authenticator"), {"WrongRequest"}),
    (lambda chance, line: dumped({**line, "record": line["record"] + chance.randrange(1, 2**40)}), {"WrongSent"}),
    (lambda chance, line: dumped({**line, "identifier": (line["identifier"] + chance.randrange(1, 256)) % 256}), {"WrongRequest"}),
    (lambda chance, line: dumped({**line, "lane": chance.randrange(1, 65536)}), {"WrongSent"}),
    (lambda chance, line: dumped({**line, "run": f"{chance.randrange(2**63):016x}"}), {"UnknownLane"}),
    (lambda chance, line: dumped({**line, "serial": 0}), {"SerialNotAbove"}),
    (cut, {"NotEntry"}),
    (without, {"NotEntry"}),
    (octets, {"NotEntry"}),
    (with_octet, {"NotEntry"}),
]


def spoiled(chance, count):
    """The lines of a ledger with so many that are spoiled: each with the reasons that may be told of it, which a right one lacks."""
    run = Run(0xA0B1C2D3E4F50617, [Lane(0, "h1", HOME)])
    entry = lambda: run.entry(client=("192.0.2.10", NAS))
    lines, right = [(dumped(run.begin()), None)], entry()
    lines.append((dumped(right), None))
    while count:
        right = entry()
        for _ in range(min(count, chance.randrange(APART))):
            spoil, reasons = chance.choice(SPOILERS)
            lines.append((spoil(chance, right), reasons))
            count -= 1
        lines.append((dumped(right), None))
    return [*lines, (dumped(run.end_of_all()), None)], run.lanes[0].serial


def read(words, folder, content):
    """What a program prints of a ledger but for hints, its status, and the processor seconds that it took."""
    (folder / "config.toml").write_text(CONFIG)
    (folder / "ledger").write_text(content, "utf-8")
    before = resource.getrusage(resource.RUSAGE_CHILDREN)
    ran = subprocess.run([*words, "config.toml", "ledger"], cwd=folder, capture_output=True, encoding="utf-8", timeout=SECONDS)
    after = resource.getrusage(resource.RUSAGE_CHILDREN)
    told = "".join(line for line in ran.stderr.splitlines(keepends=True) if not line.startswith("hint: "))
    return ran.stdout.splitlines(), told, ran.returncode, after.ru_utime + after.ru_stime - before.ru_utime - before.ru_stime


def of_spoiled(program, folder, count, seed):
    lines, entries = spoiled(random.Random(seed), count)
    printed, err, status, _ = read([program], folder, "".join(f"{line}\n" for line, _ in lines))
    told = {}
    for line in printed[:-3]:
        found = re.fullmatch(r"ledger:(\d+): (\w+)", line)
        if found is None or int(found[1]) in told:
            yield f"printed {line!r}"
        else:
            told[int(found[1])] = found[2]
    for number, (line, reasons) in enumerate(lines, 1):
        reason = told.get(number)
        if (reason is None) != (reasons is None) or (reasons and reason not in reasons):
            yield f"line {number}: {reason}, and not of {reasons}: {line[:200]}"
    name = "run a0b1c2d3e4f50617 lane 0 h1"
    last = [f"{name} from 0 entries {entries} not judged 0 part", f"{name} part: no-sum", f"{name} accepted {entries} answered {entries} left 0"]
    if printed[-3:] != last or err or status != 5:
        yield f"{printed[-3:]} {err!r} {status}, and not {last}"


def of_octets(program, folder, seed):
    """Octets of a ledger with sums changed, put in and taken out by chance, also in the lines that begin and end it, and some lines left
    out: what differs from the model."""
    chance, printed = random.Random(seed), []
    lines, _ = spoiled(chance, SPOILED // 2)
    first, *rest = sealed({"ledger": "".join(f"{line}\n" for line, _ in lines)})["ledger"].split("\n")[:-1]
    rest = [hidden({"sum": line[-66:-2]}) if TAIL.search(line) and chance.randrange(HIDDEN) == 0 else line for line in rest]
    content = bytearray(text([first, *rest]).encode())
    for _ in range(SPOILED // 2):
        at = chance.randrange(len(content))
        content[at : at + chance.randrange(2)] = bytes(chance.randrange(256) for _ in range(chance.randrange(2)))
    for words in ([program], [sys.executable, str(MODEL)]):
        (folder / "ledger").write_bytes(bytes(content))
        ran = subprocess.run([*words, "config.toml", "ledger"], cwd=folder, capture_output=True, timeout=SECONDS)
        printed.append((ran.stdout.decode("utf-8", "replace").splitlines(), ran.returncode))
    (found, status), (wanted, its) = printed
    for line, other in itertools.zip_longest(found, wanted):
        if line != other:
            yield f"{line!r}, and by the model {other!r}"
    if status != its:
        yield f"status {status}, and by the model {its}"


def of_one_octet(program, folder, seed):
    """A whole ledger with sums in which one octet is another one, also in the line that begins it, in the one that ends it and in sums: it is
    wrong, or its first line has no sum any more, or its last one no line end."""
    chance, run = random.Random(seed), Run(0xA0B1C2D3E4F50617, [Lane(0, "h1", HOME)])
    lines = chained([run.begin(), *(run.entry(client=("192.0.2.10", NAS)) for _ in range(2)), run.left(client=("192.0.2.10", NAS)), run.end_of_all()])
    (folder / "config.toml").write_text(CONFIG)
    whole = text(lines).encode()
    for _ in range(ONE_OCTET):
        at = chance.randrange(len(whole))
        other = chance.choice([octet for octet in range(256) if octet != whole[at]])
        (folder / "ledger").write_bytes(whole[:at] + bytes([other]) + whole[at + 1 :])
        ran = subprocess.run([program, "config.toml", "ledger"], cwd=folder, capture_output=True, timeout=SECONDS)
        allowed = (6,) if at == len(whole) - 1 else (5, 7, 10) if at < len(text(lines[:1])) else (5,)
        if ran.returncode not in allowed:
            yield f"octet {at} is {other}: status {ran.returncode}"


def of_memory(program, folder):
    """More entries than fit the memory that the program has, a line that is as long as all of it, and one without an end."""
    run = Run(1, [Lane(0, "h1", HOME)])
    lines = [run.begin(), *(run.entry(client=("192.0.2.10", NAS), more=bytes([26, 122]) + bytes(120)) for _ in range(ENTRIES))]
    *lines, end = chained([*lines, run.end_of_all()])
    (folder / "config.toml").write_text(CONFIG)
    (folder / "a").write_text(text(lines))
    with open(folder / "b", "wb") as long:
        long.seek(MEMORY)
        long.write(b"\n" + text([end]).encode())
        long.seek(2 * MEMORY, 1)
        long.write(b"?")

    def limit():
        os.sched_setaffinity(0, list(os.sched_getaffinity(0))[:1])
        resource.setrlimit(resource.RLIMIT_AS, (MEMORY, MEMORY))

    name = f"run {1:016x} lane 0 h1"
    wanted = ["b:1: NotEntry", "b:3: torn", f"{name} from 0 entries {ENTRIES} not judged 0 whole", f"{name} accepted {ENTRIES} answered {ENTRIES} left 0"]
    for preparation in (limit, None):
        with subprocess.Popen([program, "config.toml", "a", "b"], cwd=folder, stdout=subprocess.PIPE, stderr=subprocess.STDOUT, encoding="utf-8", preexec_fn=preparation) as ran:
            most = most_memory(ran)
            printed = ran.stdout.read().splitlines()
        if (folder / "a").stat().st_size <= MEMORY or (printed, ran.returncode) != (wanted, 5) or most > MOST_MEMORY:
            yield f"within {MEMORY} octets of memory: {printed[-2:]} {ran.returncode}, {most} octets"


def most_memory(ran):
    """The most memory that a process had, until it ended."""
    most = 0
    while ran.poll() is None:
        with contextlib.suppress(OSError):
            told = re.search(r"VmHWM:\s+(\d+) kB", pathlib.Path(f"/proc/{ran.pid}/status").read_text())
            most = int(told[1]) << 10 if told else most
        time.sleep(SECONDS_BETWEEN_LOOKS)
    return most


def of_runs(program, folder):
    """Many runs, each with a lane of its own that is told once, with why it is a part, in the order in which they came; the lines of all come
    twice."""
    taken = []
    for count in (RUNS // 4, RUNS):
        names = [run * 0x9E3779B97F4A7C15 % 2**64 for run in range(1, count + 1)]
        shape = dumped(Run(0, [Lane(0, "h1", HOME)]).begin()).replace(f"{0:016x}", "{}", 1)
        front, _, back = shape.partition("{}")
        lines = [f"{front}{name:016x}{back}\n" for name in names]
        later = [line.replace('"file":0', '"file":1') for line in lines]
        printed, err, _, took = read([program], folder, "".join([*lines, *later]))
        taken.append(took)
        printed = [line for line in printed if not line.endswith(" behind another run")]
        print(f"{count} runs in {took:.2f} s of processor time")
        if [line.split()[1] for line in printed] != [f"{name:016x}" for name in names for _ in range(2)] or err:
            yield f"{len(printed)} lanes of {count} runs, {err!r}"
    if taken[1] > MOST_TIMES * taken[0]:
        yield f"its time grows with more than the number of runs: {taken}"


def of_places(program, folder):
    """Where standard error is a terminal, it tells each 65,536th line of a file there, and takes that away at the end."""
    (folder / "config.toml").write_text(CONFIG)
    (folder / "ledger").write_text("{}\n" * (2 * 65_536 + 1))
    ours, theirs = pty.openpty()
    ran = subprocess.run([program, "config.toml", "ledger"], cwd=folder, stdout=subprocess.DEVNULL, stderr=theirs, timeout=SECONDS)
    os.set_blocking(ours, False)
    told = b""
    with contextlib.suppress(BlockingIOError):
        told = os.read(ours, 4096)
    os.close(theirs)
    os.close(ours)
    if (told, ran.returncode) != (b"\x1b[Kledger:65536\r\x1b[Kledger:131072\r\x1b[K", 5):
        yield f"on a terminal: {told!r} {ran.returncode}"


def of_speed(program, folder):
    """Entries that are right: each takes no more processor time than the model of the auditor takes, which is in Python."""
    run = Run(1, [Lane(0, "h1", HOME)])
    lines = [run.begin(), *(run.entry(client=("192.0.2.10", NAS), more=bytes([26, 122]) + bytes(120)) for _ in range(ENTRIES)), run.end_of_all()]
    printed, err, status, took = read([program], folder, text(chained(lines)))
    *_, its = read([sys.executable, str(MODEL)], folder, text(chained(lines[:ENTRIES // LESS])))
    print(f"{ENTRIES} entries in {took:.2f} s of processor time: {ENTRIES / max(took, 0.001):.0f} a second; by the model {ENTRIES / LESS / its:.0f}")
    if status != 0 or took > LESS * its:
        yield f"{printed[-1:]} {err!r} {status}: {took:.2f} s of processor time, and by the model {LESS * its:.2f} s"


def main():
    if not 2 <= len(sys.argv) <= 4:
        sys.exit(__doc__)
    program = str(pathlib.Path(sys.argv[1]).resolve())
    count, seed = (int(word) for word in [*sys.argv[2:], "100000", "1"][: len(sys.argv) - 2] + ["100000", "1"][len(sys.argv) - 2 :])
    with tempfile.TemporaryDirectory() as made:
        folder = pathlib.Path(made)
        wrong = [*of_spoiled(program, folder, count, seed), *of_octets(program, folder, seed), *of_one_octet(program, folder, seed), *of_memory(program, folder), *of_runs(program, folder),
                 *of_places(program, folder), *of_speed(program, folder)]
    for line in wrong[:20]:
        print(line)
    if len(wrong) > 20:
        print(f"and {len(wrong) - 20} more")
    print(f"{count + 5 - min(len(wrong), count)} passed, {len(wrong)} failed")
    sys.exit(1 if wrong else 0)


if __name__ == "__main__":
    main()
