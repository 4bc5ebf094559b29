"""Has the program end by each fault whose reason the log tells, and compares all that it prints on standard error.

usage: python3 -m tests.faults.exit_reasons PROGRAM

`run` tells the reason of a file, a socket, the input and the output before the line of the fault, which stays as it is and is
the last; `check` does where standard error is a terminal or the environment has RAD_PROXY_LOG; `replay` never does. What is
told of a text is tried by reasons_by_command.py. The last line is `N passed, M failed`, of what was looked at.
"""
import os
import pathlib
import pty
import re
import resource
import shutil
import subprocess
import tempfile

from tests.lib import HERE, bound, built, configuration, environment, free_port, trying

ELSEWHERE = "192.0.2.1"
PATIENCE = 60
MOST_FILE_OCTETS = 1_048_576
STRANGER = 65534
COUNTS = "clients 1 homes 1 realms 1\n"
ABSENT = "there is no such file"
TOO_MANY = "Too many open files (os error 24)"
# With less than this one the system can't load the program.
FEWEST_FILES, MOST_FILES = 4, 40


def at_most(files):
    """Has a program open no more than so many files."""
    return lambda: resource.setrlimit(resource.RLIMIT_NOFILE, (files, files))


def fault_of(event, reason, keys=""):
    return f'level=error event={event}{keys} reason="{reason}"'


def file_fault(path, reason):
    """The lines of a file that can't be read, whose name has none but plain characters."""
    return [fault_of("file-fault", reason, f" file={path}"), f"file: {path}"]


class Trial(trying.Trial):
    """The program, and what was seen of it."""

    def __init__(self, program, folder):
        super().__init__(program, folder)
        self.file = self.write("proxy.toml", configuration(free_port()))
        self.absent = str(self.folder / "absent.toml")

    def ended(self, *words, level=None, **options):
        given = {"stdin": subprocess.DEVNULL, "stdout": subprocess.PIPE, "env": environment(level), "timeout": PATIENCE} | options
        return subprocess.run([self.program, *words], stderr=subprocess.PIPE, **given)

    def see_errors(self, what, status, lines, *words, **options):
        """What the program prints on standard error, and its status."""
        done = self.ended(*words, **options)
        self.compare(what, (done.returncode, done.stderr.decode().splitlines()), (status, lines))

    def run(self):
        self.see_files()
        self.see_permission()
        self.see_names()
        self.see_whether_check_tells()
        self.see_terminal()
        self.see_streams()
        self.see_sockets()
        self.see_few_files()
        self.see_clock()

    def see_files(self):
        self.see_errors("absent", 4, file_fault(self.absent, ABSENT), "run", self.absent)
        folder = str(self.folder)
        self.see_errors("a folder", 4, file_fault(folder, "it is a folder"), "run", folder)
        whole = pathlib.Path(self.file).read_text("utf-8") + "#"
        text = whole + "#" * (MOST_FILE_OCTETS + 1 - len(whole))
        long = self.write("long.toml", text)
        self.see_errors("too long", 4, file_fault(long, f"it is longer than {MOST_FILE_OCTETS} octets"), "run", long)
        self.write("longest.toml", text[:-1])
        self.see_errors("the longest", 0, [], "run", str(self.folder / "longest.toml"))
        loop = self.folder / "loop.toml"
        loop.symlink_to(loop)
        reason = "it can't be read: Too many levels of symbolic links (os error 40)"
        self.see_errors("a link to itself", 4, file_fault(loop, reason), "run", str(loop))

    def see_permission(self):
        """A stranger may not look into this folder; only root can become one, and else the file itself is closed to its owner."""
        lines = file_fault(self.file, "it can't be read: Permission denied (os error 13)")
        if os.geteuid() != 0:
            os.chmod(self.file, 0)
            self.see_errors("not permitted", 4, lines, "run", self.file)
            os.chmod(self.file, 0o600)
            return
        with tempfile.TemporaryDirectory() as shared:
            os.chmod(shared, 0o755)
            kept, self.program = self.program, shutil.copy(self.program, shared)
            os.chmod(self.program, 0o755)
            self.see_errors("not permitted", 4, lines, "run", self.file, user=STRANGER)
            self.program = kept

    def see_names(self):
        """A name with a line end is one line wherever it is printed; an ordinary name is as it is after `file: `."""
        broken = f"{self.folder}/one\nlevel=error two\x7f.toml"
        escaped = f"{self.folder}/one%0alevel"
        lines = [fault_of("file-fault", ABSENT, f" file={escaped}%3derror%20two%7f.toml"), f"file: {escaped}=error two%7f.toml"]
        self.see_errors("a name with a line end", 4, lines, "run", broken)
        self.see_errors("the same, checked", 4, lines[1:], "check", broken)
        plain = f"{self.folder}/a \"plain\" näme 100%.toml"
        logged = f"{self.folder}/a%20%22plain%22%20n%c3%a4me%20100%25.toml"
        lines = [fault_of("file-fault", ABSENT, f" file={logged}"), f"file: {plain}"]
        self.see_errors("an ordinary name", 4, lines, "run", plain)

    def see_whether_check_tells(self):
        lines = file_fault(self.absent, ABSENT)
        self.see_errors("check alone", 4, lines[1:], "check", self.absent)
        for level in ("error", "info", "trace", "no-level"):
            told = ['level=warn event=no-such-level reason="RAD_PROXY_LOG is none of off, error, warn, info, debug, trace"']
            told = told if level == "no-level" else []
            self.see_errors(f"check at {level}", 4, told + lines, "check", self.absent, level=level)
        self.see_errors("check, and no log", 4, lines[1:], "check", self.absent, level="off")
        self.see_errors("run, and no log", 4, lines[1:], "run", self.absent, level="off")
        for level in (None, "trace"):
            done = self.ended("check", self.file, level=level)
            self.compare(f"a right file at {level}", (done.returncode, done.stdout.decode(), done.stderr), (0, COUNTS, b""))

    def see_terminal(self):
        """Standard error is a terminal, where each line ends with a carriage return too."""
        ours, theirs = pty.openpty()
        words = [self.program, "check", self.absent]
        done = subprocess.run(words, stdin=subprocess.DEVNULL, stderr=theirs, env=environment(), timeout=PATIENCE)
        os.close(theirs)
        found = b""
        try:
            while got := os.read(ours, 4096):
                found += got
        except OSError:
            pass
        os.close(ours)
        self.compare("check at a terminal", (done.returncode, found.decode().splitlines()), (4, file_fault(self.absent, ABSENT)))

    def see_streams(self):
        """A folder as standard input fails at each read, and /dev/full as standard output at each write."""
        folder = os.open(self.folder, os.O_RDONLY)
        lines = [fault_of("input-fault", "Is a directory (os error 21)"), "input: failed"]
        self.see_errors("run, its input", 4, lines, "run", self.file, stdin=folder)
        for level in (None, "trace"):
            self.see_errors(f"replay, its input, at {level}", 4, lines[1:], "replay", stdin=folder, level=level)
        os.close(folder)
        reason = fault_of("output-fault", "No space left on device (os error 28)")
        with open("/dev/full", "wb") as full:
            self.see_errors("run, its output", 4, [reason], "run", self.file, stdout=full)
            self.see_errors("check, its output", 4, [], "check", self.file, stdout=full)
            self.see_errors("check, its output, and a log", 4, [reason], "check", self.file, stdout=full, level="info")
            with open(self.write("script", configuration(free_port()) + "%%\nstate\n"), "rb") as script:
                self.see_errors("replay, its output", 4, [], "replay", stdin=script, stdout=full, level="trace")

    def see_sockets(self):
        with bound() as taken:
            port = taken.getsockname()[1]
            file = self.write("taken.toml", configuration(port))
            lines = [fault_of("unbound", "Address already in use (os error 98)", f" socket={HERE}:{port}"), f"socket: {HERE}:{port}"]
            self.see_errors("a port in use", 4, lines, "run", file)
        port = free_port()
        file = self.write("elsewhere.toml", configuration(port, ELSEWHERE))
        reason = "Cannot assign requested address (os error 99)"
        lines = [fault_of("unbound", reason, f" socket={ELSEWHERE}:{port}"), f"socket: {ELSEWHERE}:{port}"]
        self.see_errors("no such address", 4, lines, "run", file)
        reason = fault_of("unbound", TOO_MANY, " socket=0.0.0.0:0")
        self.see_errors("too many sockets", 4, [reason, "socket: lane 0"], "run", self.file, preexec_fn=at_most(4))

    def see_few_files(self):
        """However few files the program may open, it tells why it ends: each socket and each wait, the input's too, takes some."""
        ends = set()
        for files in range(FEWEST_FILES, MOST_FILES):
            done = self.ended("run", self.file, preexec_fn=at_most(files))
            if done.returncode == 0:
                break
            lines = done.stderr.decode().splitlines()
            ends.add(lines[-1])
            event, keys = ("input-fault", "") if lines[-1] == "input: failed" else ("unbound", " socket=")
            start, end = f"level=error event={event}{keys}", f'reason="{TOO_MANY}"'
            told = len(lines) == 2 and lines[0].startswith(start) and lines[0].endswith(end)
            self.compare(f"{files} files, {lines}", (done.returncode, told), (4, True))
        self.compare("files enough", (files < MOST_FILES - 1, done.stderr), (True, b""))
        listen = re.search(r'listen = "(.*)"', pathlib.Path(self.file).read_text("utf-8"))[1]
        self.compare("each end", ends, {f"socket: {listen}", "socket: lane 0", "input: failed"})

    def see_clock(self):
        """A clock that fails at the start, and one that fails after some calls, whenever that is."""
        library = built(self.folder, "wrong_clock")
        for calls in (0, 1, 2, 5):
            given = environment() | {"LD_PRELOAD": library, "CLOCK_CALLS": str(calls)}
            done = self.ended("run", self.file, env=given)
            told = done.stderr.decode().splitlines()
            if calls == 0:
                self.compare("a clock that fails", (done.returncode, told), (4, ["clock: failed"]))
            else:
                is_right = (done.returncode, told) in ((4, ["clock: failed"]), (0, []))
                self.see(f"a clock that fails after {calls} calls", is_right, (done.returncode, told))


def main():
    trying.run_trial(Trial, __doc__)


if __name__ == "__main__":
    main()
