"""`trace`: has the proxy log what becomes of the requests that are named, and prints these lines as they come."""
import os
import re
import select
import signal
import time

from trial.faults import Fault

from . import bounds
from .holding import Holder
from .output import answer
from .owner import Folder
from .processes import Process, found, given_environment
from .restart import is_active
from .stops import Stopped, Stops

SHOWN = re.compile(rb"( trace=[0-9]+|event=trace-fault reason=.*|event=trace-left-out count=[0-9]+)$")
LONGEST, PART = 65_536, 65_536
# How long what prints the log has to end by SIGTERM.
END_SECONDS = 1


class Trace(Holder):
    """The file `trace`."""

    def fault(self, status, lines):
        if status == bounds.IS_TRACED:
            return Fault(f"another one traces; where nobody does, remove the file trace in {self.folder.path}")
        return Fault(f"no service in {self.folder.path}, or no right to ask it")


def find_log(call):
    """What prints the log of what serves in the folder, as it comes."""
    follow = os.environ.get("RAD_PROXY_FOLLOW")
    if follow:
        return ["sh", "-c", follow]
    if not call.unit or not is_active(call.unit):
        raise Fault(f"what serves in {call.folder} is no active unit of systemd: set RAD_PROXY_FOLLOW to a command that prints its log as "
                    "it comes")
    return ["journalctl", "--quiet", "--follow", "--no-tail", f"--since=@{int(time.time())}", "--output=cat", f"--unit={call.unit}"]


class Log:
    """The lines of the log, by a process that ends with this one, and some seconds later than it is meant to at the latest."""

    def __init__(self, words, seconds):
        program = found(words[0], os.environ.get("PATH", "")) or words[0]
        bound = ["-k", str(END_SECONDS), str(seconds + bounds.LAST_SECONDS + bounds.READ_SECONDS)]
        self.process = Process([found("setpriv") or "setpriv", "--pdeathsig", "TERM", found("timeout") or "timeout", *bound, program,
                                *words[1:]], given_environment(), has_errors=False)
        self.rest = b""

    def pump(self, seconds, others=()):
        """Prints the lines that come in these seconds, and stops as soon as one of the other descriptors has something: whether it did."""
        until = time.monotonic() + seconds
        while (left := until - time.monotonic()) > 0:
            own = [self.process.output] if self.process.output is not None else []
            ready = select.select([*own, *others], [], [], left)[0]
            if any(other in ready for other in others):
                return True
            if ready:
                self.take(until + bounds.LAST_SECONDS)
        return False

    def take(self, until):
        octets = os.read(self.process.output, PART)
        if not octets:
            self.process.close_output()
        *lines, self.rest = (self.rest + octets).split(b"\n")
        shown = b"".join(line + b"\n" for line in lines if len(line) <= LONGEST and SHOWN.search(line))
        self.rest = self.rest[:LONGEST + 1]
        if shown:
            answer(shown, until)

    def end(self):
        self.process.kill(signal.SIGTERM)
        self.process.has_ended(END_SECONDS)
        self.process.kill(signal.SIGKILL)
        self.process.wait()


def follow(call, stops, log):
    """Has the file made, prints what comes as long as it stands and a little longer, and has it removed."""
    seconds = int(call.seconds or bounds.TRACE_SECONDS)
    log.pump(bounds.FOLLOW_SECONDS)
    with Folder(call.folder) as folder:
        stops.wait()
        trace = Trace(folder, "trace", seconds, "".join(call.wanted))
        try:
            stops.go_on()
            is_gone = log.pump(seconds, [trace.process.output])
        finally:
            stops.wait()
            status = trace.end()
        stops.go_on()
    log.pump(bounds.LAST_SECONDS)
    if is_gone or status != 0:
        raise Fault("the service has ended or was started again: nothing is traced any more")


def trace(call):
    """Traces for the seconds that are given. Whatever ends this, the file is removed."""
    words, stops = find_log(call), Stops()
    stops.catch(signal.SIGPIPE)
    stops.wait()
    log = Log(words, int(call.seconds or bounds.TRACE_SECONDS))
    try:
        stops.go_on()
        follow(call, stops, log)
    except Stopped:
        return bounds.FAILED
    finally:
        stops.wait()
        log.end()
    return 0
