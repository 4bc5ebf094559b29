"""Instructions of the front and of the lanes for each request, by valgrind's callgrind: figures that other work of the machine does not change.

usage: python3 -m bench.instructions PROGRAM [BOOK ..]

PROGRAM is one that was built, proved or not. In one that is not proved each access to memory is checked, so only its changes tell anything.
First so many requests are answered that nobody counts, 1,000, 100,000 and 990,000 where no number is given: they stay in the books. Then the
instructions of 1,000 more are counted, by how many are outstanding and by how many home servers there are. All go to the first one; the wakes
of the others' workers, which have nothing to do, are not counted.
"""
import pathlib
import re
import shutil
import subprocess
import sys
import tempfile
from contextlib import ExitStack

from bench.compiling import compile_all
from bench.proxies import CLIENT_SECRET, HOME_SECRET, RadProxy, Setting
from tests.lib import free_ports, started
from tests.lib.waiting import until

COUNTED, OUT, HOMES, BOOKS = 1000, (1, 64, 254), (1, 64), (1000, 100_000, 990_000)
SECONDS, PATIENCE = 3600, 60
# How many requests are outstanding while nobody counts.
FILLS = 128
# Nothing of a book is over before all is counted.
KEPT = {"span": 600_000}
TOTAL = re.compile(r"^(?:totals|summary): (\d+)", re.MULTILINE)
# Only the front checks what comes from a client. A worker that has nothing to do digests nothing.
OF_THE_FRONT, OF_A_LANE, AT_WORK = "check_in", "Desk::step", "md5::compress"


def generate(work, port, out, count):
    """Sends so many requests, and sees that all are answered."""
    words = [work / "generator", "--port", str(port), "--secret", CLIENT_SECRET, "--window", str(out), "--count", str(count), "--seconds",
             str(SECONDS), "--timeout", str(PATIENCE * 1000)]
    said = subprocess.run(words, capture_output=True, text=True, check=True).stdout
    if f'"answered": {count}' not in said:
        sys.exit(f"not all are answered: {said}")


def control(process, *flags):
    subprocess.run(["callgrind_control", *flags, str(process)], check=True, capture_output=True, timeout=PATIENCE)


def counted(folder):
    """The instructions of the front, and of all lanes together, of what was written."""
    texts = [file.read_text("utf-8", "replace") for file in folder.glob("calls.*")]
    totals = {each: 0 for each in (OF_THE_FRONT, OF_A_LANE)}
    for text in texts:
        for each in totals:
            if each in text and AT_WORK in text:
                totals[each] += int(TOTAL.findall(text)[-1])
    return totals.values()


def measure(program, work, book, out, homes):
    """Instructions for each request: of the front, and of all lanes together."""
    with ExitStack() as stack:
        folder = pathlib.Path(stack.enter_context(tempfile.TemporaryDirectory(dir=work)))
        ports = free_ports(homes + 1)
        setting = Setting(ports[0], ports[1:], homes, lane=KEPT)
        for port in setting.homes:
            stack.enter_context(started([work / "home", str(port), HOME_SECRET, str(SECONDS)], stdout=subprocess.DEVNULL))
        seen = ["valgrind", "--tool=callgrind", "--separate-threads=yes", "--instr-atstart=no", f"--callgrind-out-file={folder}/calls"]
        pipes = {"stdin": subprocess.PIPE, "stdout": subprocess.PIPE, "stderr": subprocess.DEVNULL}
        running = stack.enter_context(started([*seen, *RadProxy(program).words(folder, setting)], **pipes))
        running.stdout.readline()
        generate(work, setting.listen, FILLS, book)
        control(running.pid, "-i", "on")
        generate(work, setting.listen, out, COUNTED)
        control(running.pid, "-d")
        until("it is written", lambda: all(counted(folder)))
        return [total // COUNTED for total in counted(folder)]


def main():
    if len(sys.argv) < 2:
        sys.exit(__doc__)
    if shutil.which("callgrind_control") is None:
        sys.exit("there is no valgrind here")
    program = str(pathlib.Path(sys.argv[1]).resolve())
    print("in the books  home servers  outstanding     front     lanes")
    with tempfile.TemporaryDirectory() as made:
        work = pathlib.Path(made)
        compile_all(work, ["generator", "home"])
        for book in list(map(int, sys.argv[2:])) or BOOKS:
            for homes in HOMES:
                for out in OUT:
                    front, lanes = measure(program, work, book, out, homes)
                    print(f"{book:>12,}{homes:>14}{out:>13}{front:>10,}{lanes:>10,}", flush=True)


if __name__ == "__main__":
    main()
