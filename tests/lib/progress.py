"""Watches a command of `rt`: which crates' proofs, tests, edits and programs run in it, and what each takes.

It is read from /proc twice a second: the processor seconds of a process that ends between two looks are missed, which is less than
half a second of each.
"""
import os
import pathlib
import re
import subprocess
import threading
import time

SECONDS_BETWEEN_LOOKS = 0.5
TICKS = os.sysconf("SC_CLK_TCK")
LINES_SHOWN = 40
TROUBLE = re.compile(r"error[:\[]|panicked")
VERDICT = re.compile(r"^rt: .*(NOT PROVED|NOT REFUSED|BAD EDIT|FAILED)")
NAMES = {"proof": "its proof", "tests": "its tests", "edits": "its edits", "program": "its program"}
TRYING = re.compile(r"^rt: (\w+): trying its must-fail edits \((\d+)\)")


def places(memory):
    """How many runs of the prover go on side by side: each takes a processor, and beyond the first one this much memory too."""
    free = re.search(r"MemAvailable:\s+(\d+) kB", pathlib.Path("/proc/meminfo").read_text())
    return max(1, min(len(os.sched_getaffinity(0)), int(free[1]) * 1024 // memory))


def looked_at():
    """Each process that there is: its parent, and the processor ticks of it and of its children that ended."""
    found = {}
    for stat in pathlib.Path("/proc").glob("[0-9]*/stat"):
        try:
            fields = stat.read_text(errors="replace").rpartition(")")[2].split()
        except OSError:
            continue
        found[int(stat.parent.name)] = int(fields[1]), sum(map(int, fields[11:15]))
    return found


def part_of(process):
    """The crate and the part of it that a process checks or builds, if it is one of the prover's."""
    try:
        words = pathlib.Path(f"/proc/{process}/cmdline").read_bytes().decode(errors="replace").split("\0")
        folder = os.path.basename(os.readlink(f"/proc/{process}/cwd"))
    except OSError:
        return None
    if os.path.basename(words[0]) != "rattle" or "--crate-name" not in words or "--only" in words:
        return None
    crate = words[words.index("--crate-name") + 1]
    if folder.startswith("rt-edit-"):
        return crate, "edits"
    if "--test" in words:
        return crate, "tests"
    return crate, "program" if "--crate-checked" in words else "proof"


class Watch:
    """What the parts of a run take, as its processes come and go."""

    def __init__(self, parts, is_in_order):
        self.parts, self.is_in_order, self.ended = parts, is_in_order, set()
        self.running, self.taken, self.edits = {}, {}, {}
        self.began, self.tried = time.monotonic(), {}

    def look(self, root):
        """Takes notice of what runs below a process now."""
        now, found = time.monotonic(), looked_at()
        ticks = {}
        for process, (parent, spent) in found.items():
            above = [process]
            while parent in found and above[-1] != root and parent > 1:
                above.append(parent)
                parent = found[parent][0]
            if above[-1] != root:
                continue
            top = next((it for it in reversed(above) if it in self.running or part_of(it)), None)
            if top is not None:
                ticks[top] = ticks.get(top, 0) + spent
        for process, spent in ticks.items():
            if process not in self.running:
                part = part_of(process)
                if part is None:
                    continue
                self.running[process] = [part, now, now, 0]
                self.begin(part)
            held = self.running[process]
            held[2:] = now, max(held[3], spent)
        for process in [it for it in self.running if it not in ticks]:
            self.end(*self.running.pop(process))

    def begin(self, part):
        if part not in self.taken:
            print(f"{part[0]}: {NAMES[part[1]]} ..", flush=True)
        self.taken.setdefault(part, [0.0, 0.0])

    def end(self, part, began, ended, spent):
        crate, kind = part
        taken = self.taken[part]
        taken[0] += ended - began
        taken[1] += spent / TICKS
        if kind == "edits":
            self.tried[crate] = self.tried.get(crate, 0) + 1
            tried, all_of_it = self.tried[crate], self.edits.get(crate, 0)
            if tried != all_of_it:
                if tried % 10 == 0 and tried < all_of_it:
                    print(f"{crate}: {tried} of {all_of_it} edits tried", flush=True)
                return
        place = f" ({self.count(part)} of {len(self.parts)})" if part in self.parts else ""
        since = time.monotonic() - self.began
        print(f"{crate}: {NAMES[kind]} took {taken[0]:.0f} s{place}, {since:.0f} s since the beginning", flush=True)

    def count(self, part):
        """How many parts have ended with this one. Where they come in order, those before it were kept."""
        self.ended.add(part)
        return self.parts.index(part) + 1 if self.is_in_order else len(self.ended)

    def table(self):
        """The processor seconds and the seconds of each part, as a table in Markdown."""
        kinds = ("proof", "tests", "edits", "program")
        lines = ["| crate | " + " | ".join(kinds) + " | all |", "|---|" + "---|" * (len(kinds) + 1)]
        crates = list(dict.fromkeys([crate for crate, _ in self.parts] + [crate for crate, _ in self.taken]))
        cell = lambda taken: f"{taken[1]:.0f} ({taken[0]:.0f})" if taken[1] or taken[0] else ""
        total = lambda parts: [sum(self.taken.get(it, [0, 0])[at] for it in parts) for at in (0, 1)]
        for crate in crates:
            row = [total([(crate, kind)]) for kind in kinds] + [total([(crate, kind) for kind in kinds])]
            lines.append(f"| {crate} | " + " | ".join(map(cell, row)) + " |")
        row = [total([(crate, kind) for crate in crates]) for kind in kinds] + [total(list(self.taken))]
        return lines + ["| all | " + " | ".join(map(cell, row)) + " |"]


def show_trouble(log):
    """The lines of a log that tell of trouble, and its end."""
    lines = log.read_text("utf-8", "replace").splitlines()
    told = [line for line in lines[:-LINES_SHOWN] if TROUBLE.search(line)]
    print(*told[:LINES_SHOWN], *[".."] * bool(told), *lines[-LINES_SHOWN:], sep="\n")
    print(f"all of it stands in {log}", flush=True)


def run(words, folder, log, parts, is_in_order=False):
    """Runs a command and gives its status and the watch over it. Its parts are what it is known to do."""
    log.parent.mkdir(parents=True, exist_ok=True)
    print(f"{' '.join(words)}: what it says goes to {log}", flush=True)
    watch, over = Watch(parts, is_in_order), threading.Event()
    how = {"cwd": folder, "encoding": "utf-8", "errors": "replace"}
    how.update(stdout=subprocess.PIPE, stderr=subprocess.STDOUT)
    with log.open("w", encoding="utf-8") as kept, subprocess.Popen(words, **how) as ran:

        def look_on():
            while not over.wait(SECONDS_BETWEEN_LOOKS):
                watch.look(ran.pid)

        looking = threading.Thread(target=look_on)
        looking.start()
        try:
            for line in ran.stdout:
                kept.write(line)
                kept.flush()
                if trying := TRYING.match(line):
                    watch.edits[trying[1]] = int(trying[2])
                if VERDICT.search(line):
                    print(line, end="", flush=True)
            status = ran.wait()
        finally:
            over.set()
            looking.join()
        watch.look(ran.pid)
    if status:
        show_trouble(log)
    return status, watch


def libraries(top):
    """The libraries that each crate of a repository names, by crate, lowest first."""
    lines = (line.partition("#")[0].strip() for line in (top / "crates.txt").read_text("utf-8").splitlines())
    named = (line.partition(":") for line in lines if line)
    return {head.split()[0]: tail.split() for head, _, tail in named}


def crates(top):
    """The crates of a repository, lowest first."""
    return list(libraries(top))


def below(named, name):
    """All crates that a crate rests on, by the libraries that each one names."""
    return {other for it in named[name] if it in named for other in {it} | below(named, it)}
