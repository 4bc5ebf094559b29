"""Gives the program files that are none, or that are slow or full, and sees what it leaves alone and when it ends.

usage: python3 -m tests.faults.counters_and_log_files PROGRAM [NAME ..]

Each test is a function below, and its first line tells what holds. Names choose tests. It uses loopback alone; a device is
tried where root runs this, and else told as left out. What is slow is so by slow_files.c, what is full by a limit on the size of files,
and what takes a part of a line by partial_writes.c. The last line is `N passed, M failed`.
"""
import contextlib
import os
import pathlib
import re
import resource
import signal
import socket
import stat
import subprocess
import time

from tests.lib import (ACCOUNTING_RESPONSE, HERE, NOTHING_LEFT, LeftOut, Proxy, answered, best, bound, built, configuration, environment,
                       free_port, hope, request_of_nas, try_named, until)

PATIENCE = 30
FAULT = 'level=warn event=counters-fault reason="{}"'
LATE = FAULT.format("takes longer than a second")
LINE = re.compile(r"level=(error|warn|info|debug|trace) event=[a-z-]+( [a-z_]+=(\"[^\"]*\"|[^ \"=]+))*")
SOON, LATEST = 3.0, 6.0


class Trial(Proxy):
    """A program with one client and one home server, in a folder of its own."""

    def __init__(self, program, room):
        self.room, self.folder, port = room, room / "folder", free_port()
        self.folder.mkdir()
        self.home, self.nas = bound(), bound()
        text = configuration(port, client=HERE, home_port=self.home.getsockname()[1], linger=1000)
        super().__init__(program, room, text, (HERE, port))
        self.counters = self.folder / "counters"

    def slowed(self, **numbers):
        """The environment in which files are slow."""
        return {"LD_PRELOAD": built(self.room, "slow_files")} | {name: str(value) for name, value in numbers.items()}

    def begin(self, before=None, **variables):
        """Starts the program, and waits until it listens."""
        kept = {name: value for name, value in environment().items() if name != "LD_PRELOAD"}
        self.start_printing(kept | variables, preexec_fn=before)

    def count(self):
        """Starts it so that it writes its counters."""
        self.begin(RAD_PROXY_COUNTERS=str(self.counters))

    def ends(self):
        """Closes its input: the `end:` line has to come soon, and its end a second later at most."""
        began = time.monotonic()
        self.ran.stdin.close()
        until("its last line", lambda: NOTHING_LEFT in self.printed.read_text())
        told = time.monotonic() - began
        hope("status", self.ran.wait(PATIENCE), 0)
        ended = time.monotonic() - began
        if told > SOON or ended > LATEST:
            raise AssertionError(f"its last line came after {told:.1f} s, its end after {ended:.1f} s")

    def log_lines(self):
        return self.log.read_text().splitlines()

    def lines_with(self, word):
        return [line for line in self.log_lines() if word in line]

    def is_drained(self):
        """Whether nothing was logged for a second."""
        size = self.log.stat().st_size
        time.sleep(1.5)
        return self.log.stat().st_size == size

    def told(self, reason):
        """The fault is told once, before and after the end."""
        until("it tells the fault", lambda: FAULT.format(reason) in self.log_lines())
        time.sleep(2.5)
        self.ends()
        hope("what it tells", self.log_lines(), [FAULT.format(reason)])

    def send_bad(self, count, together=1):
        """Sends datagrams that are no packets, so many together."""
        for number in range(count):
            self.nas.sendto(b"no packet", self.listen)
            if number % together == 0:
                time.sleep(0.001)

    def is_answered(self, seconds):
        """Whether a request is answered within so many seconds."""
        self.nas.sendto(request_of_nas(), self.listen)
        self.nas.settimeout(seconds)
        self.home.settimeout(seconds)
        try:
            sent, proxy = self.home.recvfrom(4096)
            self.home.sendto(answered(sent), proxy)
            return self.nas.recv(4096)[0] == ACCOUNTING_RESPONSE
        except socket.timeout:
            return False

    def stop(self):
        self.kill()
        subprocess.run(["umount", "-q", str(self.folder)], check=False, stderr=subprocess.DEVNULL)


def writes_its_counters(trial):
    """The file is there within a second and again at the end, and nothing beside it is left."""
    trial.count()
    first = until("the counters", lambda: trial.counters.exists() and trial.counters.stat())
    until("they are written anew", lambda: trial.counters.stat().st_ino != first.st_ino)
    trial.send_bad(3)
    trial.ends()
    hope("the folder", [path.name for path in trial.folder.iterdir()], ["counters"])
    is_counted = 'rad_proxy_dropped_total{reason="Unread"} 3' in trial.counters.read_text()
    hope("the last text", is_counted, True)
    hope("the log's faults", [line for line in trial.log_lines() if "fault" in line], [])


def leaves_a_device_alone(trial):
    """A device at the path stays what it is."""
    if os.getuid() != 0:
        raise LeftOut("it wants root")
    os.mknod(trial.counters, stat.S_IFCHR | 0o666, os.makedev(1, 3))
    trial.count()
    trial.told("no regular file")
    hope("it is a device", stat.S_ISCHR(os.lstat(trial.counters).st_mode), True)


def leaves_a_link_alone(trial):
    """A link at the path stays, and so does what it leads to."""
    other = trial.room / "other"
    other.write_text("mine")
    trial.counters.symlink_to(other)
    trial.count()
    trial.told("no regular file")
    hope("the link and the file", (trial.counters.is_symlink(), other.read_text()), (True, "mine"))


def leaves_a_pipe_alone(trial):
    """A pipe that nobody reads stays, and nothing waits for it."""
    os.mkfifo(trial.counters)
    trial.count()
    trial.told("no regular file")
    hope("it is a pipe", stat.S_ISFIFO(os.lstat(trial.counters).st_mode), True)


def leaves_a_folder_alone(trial):
    """A folder at the path stays."""
    trial.counters.mkdir()
    trial.count()
    trial.told("no regular file")
    hope("the folder", list(trial.counters.iterdir()), [])


def leaves_a_socket_alone(trial):
    """A socket at the path stays."""
    with socket.socket(socket.AF_UNIX, socket.SOCK_DGRAM) as made:
        made.bind(str(trial.counters))
        trial.count()
        trial.told("no regular file")
    hope("it is a socket", stat.S_ISSOCK(os.lstat(trial.counters).st_mode), True)


def leaves_other_files_alone(trial):
    """A file that is not one of counters stays: the configuration, also by another name, a file of a ledger, and any text."""
    other = trial.room / "other.toml"
    os.link(trial.file, other)
    ledger, text = trial.folder / "2026-01-31-0123456789abcdef-000000.jsonl", trial.folder / "text"
    ledger.write_text('{"type":"begin"}\n')
    text.write_text("# HELP rad_prox")
    for path in (trial.file, other, ledger, text):
        before = path.read_bytes()
        trial.begin(RAD_PROXY_COUNTERS=str(path))
        trial.told("no file of counters")
        hope(f"{path.name}", path.read_bytes(), before)
        trial.log.unlink()
    hope("the folder", sorted(path.name for path in trial.folder.iterdir()), [ledger.name, text.name])


def leaves_a_file_alone_that_took_its_place(trial):
    """The same where another file takes the place of the counters while the program runs."""
    trial.count()
    until("the counters", trial.counters.exists)
    other = trial.room / "other"
    other.write_text("mine")
    other.replace(trial.counters)
    trial.told("no file of counters")
    hope("the file", trial.counters.read_text(), "mine")


def an_empty_file_becomes_one_of_counters(trial):
    """An empty file is replaced, and so is one of counters that another run wrote."""
    trial.counters.touch()
    for _ in range(2):
        before = trial.counters.stat().st_ino
        trial.count()
        until("the counters", lambda: trial.counters.stat().st_ino != before)
        trial.ends()
    hope("what it tells", trial.log_lines(), [])


def an_empty_name_is_none(trial):
    """Where the variable is empty there is no file of counters, and nothing is told."""
    trial.begin(RAD_PROXY_COUNTERS="")
    time.sleep(1.5)
    trial.ends()
    hope("what it tells", trial.log_lines(), [])


def everybody_may_read_its_counters(trial):
    """The file has mode 0644, whatever the umask."""
    for mask in (0o000, 0o077, 0o777):
        trial.begin(before=lambda: os.umask(mask), RAD_PROXY_COUNTERS=str(trial.counters))
        until("the counters", trial.counters.exists)
        trial.ends()
        hope(f"mode by umask {mask:o}", oct(stat.S_IMODE(trial.counters.stat().st_mode)), oct(0o644))
        trial.counters.unlink()


def follows_no_link_of_a_new_file(trial):
    """A link that was planted where the new file might be made overwrites nothing."""
    other, planted = trial.room / "other", trial.folder / "counters.new"
    other.write_text("mine")
    planted.symlink_to(other)
    trial.count()
    until("the counters", trial.counters.exists)
    trial.ends()
    hope("the other file", other.read_text(), "mine")
    hope("it is a file", stat.S_ISREG(os.lstat(trial.counters).st_mode), True)


def is_not_blocked_by_what_is_left(trial):
    """What an earlier run left beside the file blocks nothing, be it a file, a pipe or a folder."""
    for make in (pathlib.Path.touch, os.mkfifo, pathlib.Path.mkdir):
        planted = trial.folder / "counters.new"
        make(planted)
        trial.count()
        until("the counters", trial.counters.exists)
        trial.ends()
        planted.rmdir() if planted.is_dir() else planted.unlink()
        trial.counters.unlink()


def tells_what_it_cannot_write(trial):
    """A folder that is not there is told once; once it is there the counters come, and its going is told again."""
    trial.folder.rmdir()
    trial.count()
    until("it tells the fault", lambda: trial.log_lines() == [FAULT.format("not written")])
    trial.folder.mkdir()
    until("the counters", trial.counters.exists)
    trial.ends()
    hope("what it tells", trial.log_lines(), [FAULT.format("not written")])


def a_full_disk_keeps_the_last_text(trial):
    """Where the disk is full the counters stay as they were, which is told once, and requests are answered; with room they are anew."""
    mounted = subprocess.run(["mount", "-t", "tmpfs", "-o", "size=64k", "none", trial.folder], check=False, capture_output=True)
    if mounted.returncode:
        raise LeftOut("no file system can be mounted")
    trial.count()
    until("the counters", lambda: trial.counters.exists() and trial.counters.stat().st_size)
    filler = trial.folder / "filler"
    with filler.open("wb", 0) as full, contextlib.suppress(OSError):
        while True:
            full.write(bytes(4096))
    until("it tells the fault", lambda: trial.log_lines() == [FAULT.format("not written")])
    kept = trial.counters.stat().st_ino, trial.counters.read_bytes()
    hope("answered", trial.is_answered(PATIENCE), True)
    time.sleep(2.5)
    hope("the text before", ((trial.counters.stat().st_ino, trial.counters.read_bytes()), len(os.listdir(trial.folder))), (kept, 2))
    filler.unlink()
    until("a new text", lambda: trial.counters.stat().st_ino != kept[0])
    trial.ends()
    hope("what it tells", trial.log_lines(), [FAULT.format("not written")])


def a_hung_file_system_delays_no_end(trial):
    """Where the counters' folder hangs, the last line comes at once and the end a second later; requests are answered."""
    slow = trial.slowed(SLOW_PATH=str(trial.folder), SLOW_OPEN=60_000)
    trial.begin(RAD_PROXY_COUNTERS=str(trial.counters), **slow)
    until("it tells the fault", lambda: FAULT.format("takes longer than a second") in trial.log_lines())
    hope("it answers", trial.is_answered(5), True)
    trial.ends()
    hope("what it tells", trial.log_lines(), [FAULT.format("takes longer than a second")])


def a_late_text_is_told_once(trial):
    """Where each text takes one second and a half, or three and a half, that is told once, however many texts come."""
    for milliseconds in (1500, 3500):
        trial.begin(RAD_PROXY_COUNTERS=str(trial.counters), **trial.slowed(SLOW_PATH=str(trial.folder), SLOW_OPEN=milliseconds))
        for _ in range(3):
            before = trial.counters.stat().st_ino if trial.counters.exists() else 0
            until("a new text", lambda: trial.counters.exists() and trial.counters.stat().st_ino != before)
        time.sleep(1.5)
        hope(f"what it tells of texts of {milliseconds} ms", trial.log_lines(), [LATE])
        hope("status", trial.end(), 0)
        hope("what it tells at the end", trial.log_lines(), [LATE])
        trial.log.unlink()
        trial.counters.unlink()


def texts_in_time_are_not_told_late(trial):
    """Where each text takes 0.7 seconds nothing is told, also where the program ends while one is written."""
    def told(wait):
        trial.begin(RAD_PROXY_COUNTERS=str(trial.counters), **trial.slowed(SLOW_PATH=str(trial.folder), SLOW_OPEN=700))
        time.sleep(wait)
        hope("status", trial.end(), 0)
        lines = trial.log_lines()
        trial.counters.unlink()
        trial.log.unlink()
        return lines

    for wait in (2.2, 2.5, 2.8):
        best(lambda: told(wait), lambda lines: not lines)


def late_texts_are_told_again(trial):
    """Once a text was written in time, late ones are told again; and a fault of another kind is told beside them, once."""
    mark = trial.room / "slow"
    mark.touch()
    slow = trial.slowed(SLOW_PATH=str(trial.folder), SLOW_OPEN=1500, SLOW_WHILE=str(mark))
    trial.begin(RAD_PROXY_COUNTERS=str(trial.counters), **slow)
    until("it tells that they are late", lambda: trial.log_lines() == [LATE])
    mark.unlink()
    time.sleep(4)
    hope("what it tells once they are in time", trial.log_lines(), [LATE])
    mark.touch()
    until("it tells that they are late again", lambda: trial.log_lines() == [LATE, LATE])
    trial.counters.unlink()
    trial.counters.mkdir()
    no_file = FAULT.format("no regular file")
    until("it tells the other fault", lambda: trial.log_lines() == [LATE, LATE, no_file])
    trial.counters.rmdir()
    time.sleep(5)
    hope("status", trial.end(), 0)
    hope("what it tells", trial.log_lines(), [LATE, LATE, no_file])


def late_texts_that_are_refused(trial):
    """Where a text takes a second and a half and is refused then, both are told, once each."""
    slow = trial.slowed(SLOW_PATH=str(trial.folder), SLOW_OPEN=1500)
    trial.begin(RAD_PROXY_COUNTERS=str(trial.folder / "none" / "counters"), **slow)
    time.sleep(8)
    hope("status", trial.end(), 0)
    hope("what it tells", trial.log_lines(), [LATE, FAULT.format("not written")])


def a_slow_log_holds_no_worker(trial):
    """Where each write of the log takes half a second a request is answered, also behind datagrams that are logged."""
    trial.begin(RAD_PROXY_LOG="debug", **trial.slowed(SLOW_LOG=500))
    trial.send_bad(20)
    hope("it answers", trial.is_answered(5), True)
    until("the lines", lambda: len(trial.lines_with("level=debug")) == 20)
    trial.ends()


def a_hung_log_delays_no_end(trial):
    """Where a write of the log hangs, requests are answered, the last line comes at once, and the end a second later."""
    trial.begin(RAD_PROXY_LOG="debug", **trial.slowed(SLOW_LOG=60_000))
    trial.send_bad(3)
    hope("it answers", trial.is_answered(5), True)
    trial.ends()


def its_last_lines_are_written(trial):
    """What is logged right before the end is in the log, in order, though a write takes 100 milliseconds."""
    trial.begin(RAD_PROXY_LOG="trace", **trial.slowed(SLOW_LOG=100))
    hope("it answers", trial.is_answered(5), True)
    trial.ends()
    events = [re.search("event=([a-z-]+)", line)[1] for line in trial.log_lines()]
    of_front = [event for event in events if event in ("accepted", "returned")]
    hope("what the front tells", of_front, ["accepted", "returned"])
    hope("what the lane tells", "answered" in events, True)


def each_line_is_there_or_counted(trial):
    """Of more lines than find room each is in the log or in a count of those that were dropped, where they were."""
    sent, began = 4000, time.monotonic()
    trial.begin(RAD_PROXY_LOG="debug", RAD_PROXY_COUNTERS=str(trial.counters), **trial.slowed(SLOW_LOG=300))
    trial.send_bad(sent, 5)
    until("all came", lambda: f'total{{reason="Unread"}} {sent}' in trial.counters.read_text())
    until("all is written", trial.is_drained)
    trial.ends()
    hope("lines of another form", [line for line in trial.log_lines() if not LINE.fullmatch(line)], [])
    single, sums = (len(trial.lines_with(f"level={level} event=dropped")) for level in ("debug", "info"))
    counts = [int(line.rpartition("=")[2]) for line in trial.lines_with("event=lines-dropped")]
    # A sum is logged each second at most, and may be dropped too.
    most = sent + time.monotonic() - began + 1 - sums
    is_right = counts != [] and single < sent and sent <= single + sum(counts) <= most
    hope(f"{single} lines, {sums} sums and {counts} dropped are right", is_right, True)


def starts_a_line_after_a_part_of_one(trial):
    """Where the disk gets full in the middle of a line, the next line that is written stands alone, as all others do."""
    size = 1000

    def limit():
        signal.signal(signal.SIGXFSZ, signal.SIG_IGN)
        resource.setrlimit(resource.RLIMIT_FSIZE, (size, resource.RLIM_INFINITY))

    trial.begin(before=limit, RAD_PROXY_LOG="debug")
    trial.send_bad(20)
    until("the disk is full", lambda: trial.log.stat().st_size == size)
    trial.send_bad(20)
    time.sleep(1.5)
    hope("the log's size", trial.log.stat().st_size, size)
    resource.prlimit(trial.ran.pid, resource.RLIMIT_FSIZE, (resource.RLIM_INFINITY, resource.RLIM_INFINITY))
    trial.send_bad(3)
    until("more lines", lambda: trial.log.stat().st_size > size + 1)
    trial.ends()
    whole, _, cut = trial.log.read_text()[:size].rpartition("\n")
    hope("what comes behind the part of a line", trial.log.read_text()[size:size + 1] if cut else "\n", "\n")
    others = [line for line in trial.log_lines()[:whole.count("\n") + 1] + trial.log.read_text()[size:].split("\n")
              if line and not LINE.fullmatch(line)]
    hope("lines of another form", others, [])
    hope("that lines were dropped is told", trial.lines_with("event=lines-dropped") != [], True)


# What two lines become, by how many octets each write of them takes. A line that is lost is counted before the next one, and at once
# where that may be written.
FIRST, SECOND = (f'level=warn event=unread-key reason="top a key at line {line}, column 1"\n' for line in (2, 3))
LOST = "level=warn event=lines-dropped count={}\n"
PARTS = {
    # parts of lines are in order
    "1,2,3": FIRST + SECOND,
    # a part of a line stands alone
    "6,0": f"{FIRST[:6]}\n{LOST.format(1)}{SECOND}",
    # behind a whole line comes no line end
    f"{len(FIRST)},0": FIRST + LOST.format(1),
    # lines are counted until that is told
    "0,0,0": LOST.format(2),
    # what is told of them may be cut too
    "0,5,0": f"level\n{LOST.format(1)}{SECOND}",
    # and so may the line end behind a part of a line be lost
    "6,0,0": f"{FIRST[:6]}\n{LOST.format(1)}{SECOND}",
}


def a_line_that_is_cut_stands_alone(trial):
    """Where a write takes a part of a line and the next one fails, the part stands alone, and lost lines are counted."""
    trial.file.write_text(trial.file.read_text().replace("\n", "\na = 1\nb = 1\n", 1))
    for parts, wanted in PARTS.items():
        more = {"LD_PRELOAD": built(trial.room, "partial_writes"), "PARTS": parts}
        ended = subprocess.run([trial.program, "check", trial.file], capture_output=True, text=True, env=environment("warn") | more, timeout=PATIENCE)
        hope(f"writes of {parts}", (ended.returncode, ended.stderr), (0, wanted))


TESTS = [
    writes_its_counters, leaves_a_device_alone, leaves_a_link_alone, leaves_a_pipe_alone, leaves_a_folder_alone,
    leaves_a_socket_alone, leaves_other_files_alone, leaves_a_file_alone_that_took_its_place,
    an_empty_file_becomes_one_of_counters, an_empty_name_is_none,
    everybody_may_read_its_counters, follows_no_link_of_a_new_file, is_not_blocked_by_what_is_left, tells_what_it_cannot_write,
    a_full_disk_keeps_the_last_text,
    a_hung_file_system_delays_no_end, a_late_text_is_told_once, texts_in_time_are_not_told_late, late_texts_are_told_again,
    late_texts_that_are_refused, a_slow_log_holds_no_worker, a_hung_log_delays_no_end, its_last_lines_are_written,
    each_line_is_there_or_counted, starts_a_line_after_a_part_of_one, a_line_that_is_cut_stands_alone,
]


def main():
    try_named(TESTS, Trial, __doc__)


if __name__ == "__main__":
    main()
