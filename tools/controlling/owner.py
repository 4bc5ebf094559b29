"""The folder of the fifos, and processes of its owner, which alone touch what stands in it.

The owner may put links there. So root does nothing in it: a process of the owner asks, which has nothing of root's but a pipe for
the answer. That process has a session of its own and ends in some seconds whatever happens, so whoever stops this program by Ctrl-Z
keeps nobody else from asking. Where something else keeps the pipe open, it is read no longer than that. Whatever the owner has it answer
costs no more than the bounds: what is longer, or is no answer of a proxy, is refused.
"""
import os
import stat
import sys

from trial.faults import Fault

from . import bounds
from .answers import NoProxy, lines_of, octets_of
from .output import tell
from .processes import SYSTEM_PATH, Process, bounded, found, given_environment

ASKING = os.path.join(os.path.dirname(os.path.realpath(__file__)), "asking.py")
ISOLATED = [sys.executable or "/usr/bin/python3", "-IBSXutf8"]
BARE = {"PATH": SYSTEM_PATH}


class NoService(Fault):
    """No proxy answers: what stood for one is none any more."""

    def __init__(self, text):
        super().__init__(text, bounds.FAILED)


def identity_of(it):
    """What has the owner of a folder run a command in place of root."""
    import pwd

    try:
        owner = pwd.getpwuid(it.st_uid)
        groups = {*os.getgrouplist(owner.pw_name, owner.pw_gid), it.st_gid}
    except (KeyError, OSError):
        groups = set()
    kept = f"--groups={','.join(map(str, sorted(groups)))}" if groups else "--clear-groups"
    return [found("setpriv") or "setpriv", "--reuid", str(it.st_uid), "--regid", str(it.st_gid), kept, "--no-new-privs"]


class Folder:
    """The folder of a service, once it is opened: what is looked at is what is used."""

    def __init__(self, path):
        self.path = path
        try:
            self.descriptor = os.open(path, os.O_PATH | os.O_DIRECTORY)
        except OSError:
            raise self.no_service() from None
        it = os.fstat(self.descriptor)
        if it.st_mode & (stat.S_IWGRP | stat.S_IWOTH):
            self.close()
            raise Fault(f"others than its owner may write in {path}")
        self.identity, self.is_root = [], False
        if os.geteuid() == 0 and it.st_uid != 0:
            self.identity, self.is_root = identity_of(it), True
        elif os.geteuid() != it.st_uid:
            self.close()
            raise Fault(str(self.no_service()))

    def no_service(self):
        return NoService(f"no service in {self.path}, or no right to ask it")

    def close(self):
        os.close(self.descriptor)

    def __enter__(self):
        return self

    def __exit__(self, *_):
        self.close()

    def start(self, words, seconds, variables=None, has_input=False):
        """Has the owner run a command here, for at most so many seconds. What the owner calls itself keeps its environment."""
        environment = BARE | (variables or {}) if self.is_root or variables is None else given_environment() | variables
        command = bounded(seconds, [*self.identity, *words])
        return Process(command, environment, self.descriptor, has_input, has_signals=variables is not None)

    def start_asking(self, *words, seconds=bounds.ALL_SECONDS, has_input=False):
        """Has the owner run `asking`."""
        return self.start([*ISOLATED, ASKING, *words], seconds, has_input=has_input)


def ended(process):
    """The status of a process, and the lines that it printed."""
    try:
        octets = octets_of(process)
        process.close_output()
        return process.wait(), lines_of(octets)
    except NoProxy:
        process.close_output()
        process.wait()
        return bounds.NO_PROXY, []


def run(path, words, variables):
    """Has the owner of a folder run a command there: its status, and the lines that it printed."""
    with Folder(path) as folder:
        return ended(folder.start(words, bounds.ALL_SECONDS, variables))


def fault_of(path, status, lines):
    """What a status says, where it is none of an answer."""
    told = {
        bounds.NO_SERVICE: f"no service in {path}, or no right to ask it",
        bounds.HAS_ENDED: "the proxy has ended",
        bounds.NO_ANSWER: f"no answer in {bounds.ANSWER_SECONDS} seconds",
        bounds.NO_PROXY: f"what answers in {path} is no proxy",
    }
    if status in told:
        return NoService(told[status])
    if status == bounds.WAS_READ:
        return NoService(f"no answer in {bounds.ANSWER_SECONDS} seconds, but the proxy has read the command and may obey it yet")
    if status == bounds.IS_BUSY:
        return Fault("another one is asking")
    if 130 <= status < 200:
        return NoService(f"no answer in {bounds.ALL_SECONDS} seconds, and the proxy may obey the command yet")
    if lines:
        tell("\n".join(lines)[:bounds.LONGEST_LINE])
    return Fault(f"could not ask in {path}")


def ask(path, word):
    """Has the folder's owner ask: the lines of the answer, and the status, which says whether those of `metrics` have the counters."""
    with Folder(path) as folder:
        status, lines = ended(folder.start_asking(word))
    if status not in (0, bounds.NO_COUNTERS, bounds.OLD_COUNTERS):
        raise fault_of(path, status, lines)
    return lines, status
