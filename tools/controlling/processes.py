"""Processes that are started: each has a session of its own, the descriptors 0 to 2 alone, and ends in some seconds."""
import os

SYSTEM_PATH = "/usr/sbin:/usr/bin:/sbin:/bin"
CANNOT_START = 126


def given_environment():
    """The environment as it was given: Python itself may have added LC_CTYPE."""
    given = dict(os.environ)
    try:
        with open("/proc/self/environ", "rb") as file:
            named = {pair.partition(b"=")[0] for pair in file.read().split(b"\0")}
    except OSError:
        return given
    if b"LC_CTYPE" not in named:
        given.pop("LC_CTYPE", None)
    return given


def close_others(least=3):
    """Closes each descriptor from this one on, whoever opened it."""
    try:
        names = os.listdir("/proc/self/fd")
    except OSError:
        os.closerange(least, os.sysconf("SC_OPEN_MAX"))
        return
    for name in names:
        if int(name) >= least:
            try:
                os.close(int(name))
            except OSError:
                pass


def open_missing():
    """Opens those of the descriptors 0 to 2 that are closed, so that nothing else takes their places, in a way in which each use fails."""
    for descriptor, flag in ((0, os.O_WRONLY), (1, os.O_RDONLY), (2, os.O_RDONLY)):
        try:
            os.fstat(descriptor)
        except OSError:
            os.set_inheritable(os.open(os.devnull, flag), True)


def found(name, path=SYSTEM_PATH):
    """The path of a program, or None."""
    folders = [""] if "/" in name else [f"{folder or '.'}/" for folder in path.split(":")]
    return next((it for folder in folders if os.path.isfile(it := folder + name) and os.access(it, os.X_OK)), None)


def bounded(seconds, words):
    """A command that is killed once so many seconds have passed, by a process beside it."""
    return [found("timeout") or "timeout", "-s", "KILL", str(seconds), *words]


def give_signals_back(ignored=()):
    """Has each signal do what it did when this program was started: Python ignores two, and this program may catch others."""
    import signal

    for number in (signal.SIGPIPE, signal.SIGXFSZ, signal.SIGHUP, signal.SIGINT, signal.SIGTERM):
        signal.signal(number, signal.SIG_IGN if number in ignored else signal.SIG_DFL)


class Process:
    """A process in a folder, with a pipe of what it prints; with another one that it reads, if it is asked for."""

    def __init__(self, words, environment, folder=None, has_input=False, has_errors=True, has_signals=True):
        self.status = None
        self.output, writing = os.pipe()
        given, self.input = os.pipe() if has_input else (os.open(os.devnull, os.O_RDONLY), None)
        try:
            self.pid = os.fork()
        except OSError:
            self.close_output()
            self.close_input()
            os.close(writing)
            os.close(given)
            raise
        if self.pid == 0:
            try:
                errors = writing if has_errors else os.open(os.devnull, os.O_WRONLY)
                become(words, environment, folder, (given, writing, errors), has_signals)
            except BaseException as error:  # noqa: B902 the child ends here, whatever it is
                os.write(2, f"{words[0]}: {getattr(error, 'strerror', None) or type(error).__name__}\n".encode())
            finally:
                os._exit(CANNOT_START)
        os.close(writing)
        os.close(given)

    def close_output(self):
        if self.output is not None:
            os.close(self.output)
            self.output = None

    def close_input(self):
        if self.input is not None:
            os.close(self.input)
            self.input = None

    def wait(self):
        """Waits for its end, which its bound of time brings: its status, as a shell has it."""
        if self.status is None:
            code = os.waitstatus_to_exitcode(os.waitpid(self.pid, 0)[1])
            self.status = code if code >= 0 else 128 - code
        return self.status

    def has_ended(self, seconds):
        """Whether it ends in these seconds."""
        import time

        until = time.monotonic() + seconds
        while self.status is None:
            pid, code = os.waitpid(self.pid, os.WNOHANG)
            if pid:
                code = os.waitstatus_to_exitcode(code)
                self.status = code if code >= 0 else 128 - code
            elif time.monotonic() >= until:
                return False
            else:
                time.sleep(0.005)
        return True

    def kill(self, number):
        """Sends a signal to all of its group, where it has not ended."""
        if self.status is None:
            try:
                os.killpg(self.pid, number)
            except OSError:
                pass


def become(words, environment, folder, descriptors, has_signals):
    """Makes this forked process the one that is started. What is Python too does with signals what it does anyway."""
    os.setsid()
    moved = [os.dup(descriptor) for descriptor in descriptors]
    for place, descriptor in enumerate(moved):
        os.dup2(descriptor, place)
    if folder is not None:
        os.fchdir(folder)
    close_others()
    if has_signals:
        give_signals_back()
    os.execve(words[0], words, environment)


def run(words, environment, ignored=(), has_errors=True):
    """Runs a command in this folder and with this program's input and output, and gives its status."""
    pid = os.fork()
    if pid == 0:
        try:
            if not has_errors:
                os.dup2(os.open(os.devnull, os.O_WRONLY), 2)
            close_others()
            give_signals_back(ignored)
            os.execvpe(words[0], words, environment)
        finally:
            os._exit(CANNOT_START)
    code = os.waitstatus_to_exitcode(os.waitpid(pid, 0)[1])
    return code if code >= 0 else 128 - code
