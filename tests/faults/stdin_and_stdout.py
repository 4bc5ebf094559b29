"""Has the program read its input in parts and write to outputs that have no more room, and compares what it wrote up to then.

usage: python3 -m tests.faults.stdin_and_stdout PROGRAM [TEST ..]

An input that comes in parts of 1, 7, 64 and 4096 octets is read as one that is there at once, by `replay` and by the commands of `run`.
A read that fails behind the whole input ends `replay` before any event. A write that fails after so many octets ends `replay` and each
command of `run` there. That memory may be refused while the input is read is tried by refused_memory.py. Without the name of a test all of
them run. The last line is `N passed, M failed`.
"""
import array
import contextlib
import fcntl
import os
import pathlib
import pty
import resource
import signal
import subprocess
import termios
import time
import tty

from tests.lib import HERE, built, configuration, environment, free_port, hope, is_so, trying

PATIENCE, PAGE = 60, 4096
PARTS = (1, 7, 64, 4096)
STATE = "lane 0 h1 up {} accepted 0 queued 0 outstanding 0 answered 0 opening 0\n"
END = "end: queued 0 outstanding 0 untaken 0\n"

# A request and its first sending, and what they print: the octets are those of tests/models/vectors.py.
ATTRIBUTES = "0111626f62406578616d706c652e6f72672806000000012c045331"
EVENTS = f"nas {{}} 40000 make 4 7 {ATTRIBUTES}\nstep 0\n"
ANSWERS = f"nas: new 0 0\nstep: sent 4 0 59 {ATTRIBUTES}210c00000000000000000000\nend: queued 0 outstanding 1 untaken 0\n"

# How many commands two programs share, how often another writer takes the room of an output, and how often it is looked what a thread does.
COMMANDS, FILLED, LOOKS = 50, 30, 50

# The result of each of these steps is `step: idle`, and all of them are more than the program collects before it writes.
STEPS = 2000


def script(text, events):
    return f"{text}%%\n{events}".encode()


def one_request():
    """The script of one request."""
    return script(configuration(free_port(), client="10.0.0.1"), EVENTS.format("10.0.0.1"))


def many_steps():
    return script(configuration(free_port()), "step 0\n" * STEPS)


class Stage:
    """The program, and a folder for its files."""

    def __init__(self, program, folder):
        self.program, self.folder = program, folder

    def begun(self, *words, **options):
        given = {"stdout": subprocess.PIPE, "stderr": subprocess.PIPE, "env": environment()} | options
        return subprocess.Popen([self.program, *words], **given)

    def in_parts(self, octets, most, *words, blocks=True):
        """How a run ends, and what it wrote, where its input comes in parts of so many octets, each once the one before was read."""
        ours, theirs = os.pipe()
        os.set_blocking(ours, blocks)
        with self.begun(*words, stdin=ours) as process:
            for start in range(0, len(octets), most):
                os.write(theirs, octets[start : start + most])
                until_read(ours, process)
            os.close(theirs)
            os.close(ours)
            return ended(process)

    def with_room(self, room, octets, *words):
        """How a run ends, and what it wrote, where its output is a file that may have no more than so many octets."""
        path = self.folder / "output"
        with path.open("wb") as output:
            begun = self.begun(*words, stdin=subprocess.PIPE, stdout=output, preexec_fn=lambda: bound_files(room))
            with begun as process:
                status, _, errors = ended(process, octets)
        return status, path.read_bytes().decode(), errors

    def file(self):
        """The path of a configuration of one home server, and the first line that `run` prints with it."""
        port, path = free_port(), self.folder / "proxy.toml"
        path.write_text(configuration(port), "utf-8")
        return path, f"listening {HERE}:{port}\n"

    def stop(self):
        """Each run has ended."""


def until_read(pipe, process):
    """Waits until nothing is left in a pipe."""
    left = array.array("i", [1])
    is_so(lambda: fcntl.ioctl(pipe, termios.FIONREAD, left) or not left[0] or process.poll() is not None, PATIENCE, 0)


def bound_files(octets):
    """Has a program write no file beyond so many octets: the write that comes to the bound is cut there, and the next one fails."""
    signal.signal(signal.SIGXFSZ, signal.SIG_IGN)
    resource.setrlimit(resource.RLIMIT_FSIZE, (octets, octets))


def ended(process, octets=None):
    """The status of a run, and what it wrote to its output and told."""
    output, errors = process.communicate(octets, timeout=PATIENCE)
    return process.returncode, (output or b"").decode(), errors.decode()


def test_an_input_in_parts_is_replayed(stage):
    for most in PARTS:
        hope(f"parts of {most}", stage.in_parts(one_request(), most, "replay"), (3, ANSWERS, ""))


def test_an_input_that_does_not_block_is_replayed(stage):
    """Each read that comes before the next part finds nothing."""
    hope("the end", stage.in_parts(one_request(), 64, "replay", blocks=False), (3, ANSWERS, ""))


def test_an_input_that_does_not_block_is_waited_for(stage):
    """While nothing more comes, no thread works all the time."""
    octets = one_request()
    ours, theirs = os.pipe()
    os.set_blocking(ours, False)
    with stage.begun("replay", stdin=ours) as process:
        os.write(theirs, octets[:64])
        until_read(ours, process)
        looks = [states_of(process) for _ in range(LOOKS)]
        os.write(theirs, octets[64:])
        os.close(theirs)
        os.close(ours)
        hope("how it ends", ended(process), (3, ANSWERS, ""))
    hope("threads that work all the time", [thread for thread in looks[0] if all(look.get(thread) == "R" for look in looks)], [])


def states_of(process):
    """The letter of the state of each thread of a process, some milliseconds later."""
    time.sleep(0.01)
    threads = pathlib.Path(f"/proc/{process.pid}/task").iterdir()
    return {thread.name: (thread / "stat").read_text().rpartition(")")[2].split()[0] for thread in threads}


def test_commands_in_parts_are_answered(stage):
    """Eight lines, of which the first one and the last two are commands, and the last has no line end."""
    octets = b"drain\nstate\r\n\n\xff\nstate state\n" + 64 * b" " + b"state\nstate\nstate"
    answers = "drain: 0 0\n" + 5 * "unknown\n" + 2 * STATE.format("done") + END
    for most in PARTS:
        path, first = stage.file()
        hope(f"parts of {most}", stage.in_parts(octets, most, "run", path), (0, first + answers, ""))


def test_a_read_that_fails_behind_the_input_ends_the_replay(stage):
    """A terminal's other side, which fails once the terminal is closed and all that was written to it is read."""
    other, terminal = pty.openpty()
    tty.setraw(terminal)
    os.write(terminal, one_request())
    os.close(terminal)
    with stage.begun("replay", stdin=other) as process:
        os.close(other)
        hope("how it ends", ended(process), (4, "", "input: failed\n"))


def test_a_write_that_fails_ends_the_replay(stage):
    octets, whole = many_steps(), "step: idle\n" * STEPS + END
    for room, ends in ((1 << 20, 0), (0, 4), (1, 4), (8192, 4), (10_000, 4), (len(whole) - 1, 4)):
        status, written, errors = stage.with_room(room, octets, "replay")
        found = status, len(written), whole.startswith(written), errors
        hope(f"room for {room}", found, (ends, min(room, len(whole)), True, ""))


def test_a_write_that_fails_ends_a_command(stage):
    fault = 'level=error event=output-fault reason="File too large (os error 27)"\n'
    for command, answer in (("state", STATE.format("open")), ("drain", "drain: 0 0\n"), ("other", "unknown\n")):
        for room in (0, 7):
            path, first = stage.file()
            found = stage.with_room(len(first) + room, f"{command}\n".encode(), "run", path)
            hope(f"{command}, room for {room}", found, (4, first + answer[:room], fault))


def test_two_readers_of_an_input_that_does_not_block(stage):
    """What one program reads is gone when the other one reads it: that waits for more, and both end once the input does."""
    ours, theirs = os.pipe()
    os.set_blocking(ours, False)
    processes = []
    for _ in range(2):
        path, first = stage.file()
        processes.append(stage.begun("run", path, stdin=ours, env=slow_polls(stage)))
        hope("the first line", processes[-1].stdout.readline().decode(), first)
    for _ in range(COMMANDS):
        os.write(theirs, b"state\n")
        until_read(ours, processes[0])
    os.close(theirs)
    os.close(ours)
    found = [ended(process) for process in processes]
    hope("how they end", [(status, errors) for status, _, errors in found], 2 * [(0, "")])
    hope("what they answer", "".join(output for _, output, _ in found).count(STATE.format("open")), COMMANDS)


def test_another_writer_of_an_output_that_does_not_block(stage):
    """Another writer takes the room that the program saw: it waits for room, and writes all once the other one is gone."""
    path, first = stage.file()
    reading, taken = os.pipe()
    fcntl.fcntl(taken, fcntl.F_SETPIPE_SZ, PAGE)
    os.set_blocking(taken, False)
    process = stage.begun("run", path, stdin=subprocess.PIPE, stdout=taken, env=slow_polls(stage))
    hope("the first line", os.read(reading, PAGE).decode(), first)
    fill(taken)
    process.stdin.write(b"state\n")
    process.stdin.flush()
    # The program may be the one that fills the room.
    text = b""
    for _ in range(FILLED):
        text += os.read(reading, PAGE)
        fill(taken)
        time.sleep(0.01)
    os.close(taken)
    process.stdin.close()
    with os.fdopen(reading, "rb") as left:
        text += left.read()
    hope("what it writes", text.replace(b"\0", b"").decode(), STATE.format("open") + END)
    hope("how it ends", (process.wait(PATIENCE), process.stderr.read()), (0, b""))


def fill(pipe):
    """Fills a pipe."""
    with contextlib.suppress(BlockingIOError):
        while True:
            os.write(pipe, bytes(PAGE))


def slow_polls(stage):
    """An environment in which each poll of the program takes some milliseconds longer, in which others come first."""
    return environment() | {"LD_PRELOAD": built(stage.folder, "delay"), "DELAY_OF_POLLS": "3"}


TESTS = [test for name, test in sorted(globals().items()) if name.startswith("test_")]

if __name__ == "__main__":
    trying.try_named(TESTS, Stage, __doc__)
