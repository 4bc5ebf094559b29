"""No counter of the program falls."""
import contextlib
import os
import re
import stat
import threading
import time

from tests.lib.always.notes import note

# How many seconds pass between two looks at the files of counters.
APART = 0.1
COUNTED = re.compile(r"^# TYPE (\S+) (?:counter|histogram)$", re.MULTILINE)
SAMPLE = re.compile(r"^([a-z_]+?)((?:_bucket|_sum|_count)?)(\{.*\})? ([0-9.]+)$", re.MULTILINE)
STARTED = "rad_proxy_start_time_seconds"


def counters_in(text):
    """The numbers in a text of metrics that may not fall, by name and labels; and when the program started that wrote it."""
    names = set(COUNTED.findall(text))
    samples = [(name, f"{name}{end}{labels or ''}", float(number)) for name, end, labels, number in SAMPLE.findall(text)]
    started = [number for name, _, number in samples if name == STARTED]
    return started, {key: number for name, key, number in samples if name in names}


def see_counters(before, now):
    """Notes each number of these that has fallen, or is there no more."""
    for key, number in before.items():
        if key not in now:
            note(f"a counter is gone: {key}")
        elif now[key] < number:
            note(f"a counter fell: {key} from {number:g} to {now[key]:g}")


class Counters:
    """A file of counters, and what it had last."""

    def __init__(self, path, process):
        self.path, self.process, self.file, self.last = path, process, None, ([], {})

    def look(self):
        """Reads the file, where it is another one than before; whether another one may come."""
        is_last = self.process.returncode is not None
        with contextlib.suppress(OSError, UnicodeDecodeError):
            it = os.lstat(self.path)
            if stat.S_ISREG(it.st_mode) and (it.st_ino, it.st_mtime_ns) != self.file:
                self.file = it.st_ino, it.st_mtime_ns
                self.see(open(self.path, encoding="utf-8").read())
        return not is_last

    def see(self, text):
        started, now = counters_in(text)
        if started and started == self.last[0]:
            see_counters(self.last[1], now)
        self.last = started, now


class Watch(threading.Thread):
    """Looks at the files of counters of all programs that this script starts."""

    def __init__(self):
        super().__init__(daemon=True)
        self.watched, self.lock = [], threading.Lock()

    def run(self):
        while True:
            self.look()
            time.sleep(APART)

    def look(self):
        with self.lock:
            self.watched = [each for each in self.watched if each.look()]

    def add(self, path, process):
        with self.lock:
            self.watched.append(Counters(path, process))
        if not self.is_alive():
            self.start()


WATCH = Watch()


def watch_counters(path, process):
    """Notes where a counter falls that a process writes to a file, until it ends."""
    if path:
        WATCH.add(path, process)
