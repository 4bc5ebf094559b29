"""A file in the folder that stands as long as this program wants it: a process of the owner makes it, and removes it at the end of its
input, which comes with the end of this program, whatever that is. The process that makes `out` drains the proxy too."""
import contextlib
import os
import select
import signal

from . import bounds
from .answers import NoProxy, lines_of, octets_of
from .owner import fault_of

MADE = b"made\n"


class Holder:
    """The process that has made the file."""

    def __init__(self, folder, word, seconds, *rest):
        self.folder = folder
        self.process = folder.start_asking(word, str(seconds + bounds.GRACE_SECONDS), *rest, has_input=True,
                                           seconds=seconds + bounds.GRACE_SECONDS + bounds.READ_SECONDS + bounds.ALL_SECONDS)
        octets = b""
        while octets != MADE and MADE.startswith(octets):
            if not select.select([self.process.output], [], [], bounds.ALL_SECONDS)[0]:
                break
            part = os.read(self.process.output, len(MADE))
            if not part:
                break
            octets += part
        if octets != MADE:
            self.fail(octets)

    def fail(self, octets):
        """Says why the file was not made."""
        self.process.close_input()
        raise self.fault(*self.rest(octets, bounds.ALL_SECONDS))

    def fault(self, status, lines):
        return fault_of(self.folder.path, status, lines)

    def rest(self, octets, seconds):
        """The status of the process, which is to end, and the lines of these octets and of what it prints yet."""
        try:
            lines = lines_of(octets + octets_of(self.process, seconds))
            return self.end(), lines
        except NoProxy:
            self.end()
            return bounds.NO_PROXY, []

    def drain(self):
        """Has the process drain the proxy, and end: the file stays then, unless the proxy was not drained."""
        with contextlib.suppress(OSError):
            os.write(self.process.input, b"drain\n")
        status, lines = self.rest(b"", bounds.READ_SECONDS)
        if status != 0 or not lines:
            raise self.fault(status, lines)

    def is_gone(self, seconds):
        """Waits some seconds: whether the process has ended meanwhile, since the file is not there any more."""
        return bool(select.select([self.process.output], [], [], seconds)[0])

    def end(self):
        """Has the process remove the file, if it is to, and end: its status. One that its owner keeps from that is killed."""
        self.process.close_input()
        if not self.process.has_ended(bounds.READ_SECONDS):
            self.process.kill(signal.SIGKILL)
        self.process.close_output()
        return self.process.wait()
