"""Signals that end this program: what it has made is removed then, and after that it ends as the signal would have it."""
import signal

ENDS = (signal.SIGHUP, signal.SIGINT, signal.SIGTERM)


class Stopped(BaseException):
    """A signal came."""

    def __init__(self, number):
        super().__init__(number)
        self.number = number


class Stops:
    """Has the signals that are not ignored end what is done by `Stopped`; not while they are to wait."""

    def __init__(self):
        self.ignored = [number for number in ENDS if signal.getsignal(number) == signal.SIG_IGN]
        self.numbers = [number for number in ENDS if number not in self.ignored]
        self.came, self.does_wait = None, False

    def catch(self, *more):
        for number in (*self.numbers, *more):
            signal.signal(number, self.take)

    def take(self, number, _):
        self.came = number
        if not self.does_wait:
            raise Stopped(number)

    def ignore(self, *numbers):
        for number in numbers:
            signal.signal(number, signal.SIG_IGN)

    def wait(self):
        """From now on a signal waits."""
        self.does_wait = True

    def go_on(self):
        """A signal that came meanwhile ends this now, and each later one at once."""
        self.does_wait = False
        if self.came is not None:
            raise Stopped(self.came)

