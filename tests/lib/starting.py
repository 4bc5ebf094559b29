"""What the program is started with: a configuration, an environment, and libraries that are loaded before its own."""
import ctypes
import os
import pathlib
import signal
import subprocess
from contextlib import contextmanager
from dataclasses import dataclass

from tests.lib.waiting import HERE

# The top of the repository.
TOP = pathlib.Path(__file__).resolve().parent.parent.parent
NOBODY = "192.0.2.7"
# How many seconds a process has to end, and the number of what a process asks Linux for where its parent ends.
SECONDS_TO_END, DEATH_OF_PARENT = 10, 1
# How many allocations a program has at most where each is refused in turn, and how many seconds such a run takes.
MOST_ALLOCATIONS, SECONDS = 1_000_000, 60
LIBC = ctypes.CDLL(None, use_errno=True)


@dataclass(frozen=True)
class Server:
    """A home server as a configuration has it: its port here, or its whole address, its other keys, and its realm, where it has one."""

    name: str
    place: int | str
    keys: str = ""
    realm: str | None = None
    secret: str = "home-secret"

    def text(self):
        address = f"{HERE}:{self.place}" if isinstance(self.place, int) else self.place
        return f'[[home]]\nname = "{self.name}"\naddress = "{address}"\nsecret = "{self.secret}"\n{self.keys}'

    def text_of_realm(self):
        return f'[[realm]]\nname = "{self.realm}"\nhome = "{self.name}"\n' if self.realm else ""


def configured(listen, servers, clients=(HERE,), secret="nas-secret", linger=0, default=None, other=None):
    """The text of a configuration of these home servers, and of clients with one secret. What is None is left out."""
    tops = {"listen": f'"{listen}"', "linger": linger, "default_home": default and f'"{default}"', "other_home": other and f'"{other}"'}
    head = "".join(f"{key} = {value}\n" for key, value in tops.items() if value is not None)
    text = "".join(f'[[client]]\naddress = "{client}"\nsecret = "{secret}"\n' for client in clients)
    return head + text + "".join(server.text() for server in servers) + "".join(server.text_of_realm() for server in servers)


def configuration(port, address=HERE, client=NOBODY, home_port=9, linger=0):
    """The text of a configuration of one client and one home server, h1, which is that of example.org."""
    return configured(f"{address}:{port}", [Server("h1", home_port, realm="example.org")], [client], linger=linger)


def environment(level=None):
    """That of this process, without what changes what the program tells, and with how much it logs."""
    kept = {name: value for name, value in os.environ.items() if not name.startswith("RAD_PROXY_")}
    return kept if level is None else kept | {"RAD_PROXY_LOG": level}


def built(folder, name):
    """The path of a library for LD_PRELOAD, which is made in a folder of the file of preload/ of this name."""
    library, source = pathlib.Path(folder, f"{name}.so"), TOP / "tests" / "preload" / f"{name}.c"
    compiler = os.environ.get("CC", "cc").split()
    subprocess.run([*compiler, "-O2", "-shared", "-fPIC", "-o", library, source], check=True)
    return str(library)


def end_with_parent():
    """Has the process that is being started end when this one does, however that ends."""
    LIBC.prctl(DEATH_OF_PARENT, signal.SIGTERM)


@contextmanager
def started(words, **pipes):
    """A process, which is ended whatever happens."""
    process = subprocess.Popen(words, preexec_fn=end_with_parent, **pipes)
    try:
        yield process
    finally:
        end(process)


def end(process):
    """Ends a process that was started here: its input, then by asking it, and at last without."""
    if process.stdin:
        process.stdin.close()
    else:
        process.terminate()
    for asked in (process.terminate, process.kill, None):
        try:
            return process.wait(SECONDS_TO_END)
        except subprocess.TimeoutExpired:
            if asked:
                asked()
    return None


class Refuser:
    """Runs programs with allocations refused, by a library that it builds from refused_memory.c."""

    def __init__(self, folder):
        self.library, self.note = built(folder, "refused_memory"), pathlib.Path(folder, "note")

    def settings(self, numbers):
        """The environment in which what has these numbers is refused; `run` logs so much that it takes all its memory."""
        texts = {f"REFUSE_{name}": str(number) for name, number in numbers.items()}
        more = {"REFUSE_NOTE": str(self.note), "LD_PRELOAD": self.library, "RAD_PROXY_LOG": "debug"}
        return {**os.environ, **texts, **more}

    def has_refused(self):
        return self.note.exists()

    def run(self, words, given, more=None, **numbers):
        """What came of a program with what has these numbers refused, in an environment with more; none where it has no such."""
        self.note.unlink(missing_ok=True)
        how = {"input": given, "env": self.settings(numbers) | (more or {}), "capture_output": True, "timeout": SECONDS}
        try:
            ran = subprocess.run(words, **how)
        except subprocess.TimeoutExpired as late:
            ran = subprocess.CompletedProcess(words, -signal.SIGKILL, late.stdout or b"", b"")
        return ran if self.has_refused() else None
