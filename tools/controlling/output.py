"""What is printed: octets as they are, whatever the locale is."""
import os

from trial.faults import Fault

from .bounds import FAILED

# A pipe that is ready takes as many octets at once.
ATOMIC = 4096


def write_all(descriptor, octets, until=None):
    """Writes octets to a descriptor, up to a moment of the monotonic clock if there is one: then `TimeoutError`."""
    rest = memoryview(octets)
    while rest:
        if until is not None:
            await_room(descriptor, until)
        rest = rest[os.write(descriptor, rest[:ATOMIC] if until is not None else rest):]


def await_room(descriptor, until):
    import select
    import time

    if not select.select([], [descriptor], [], max(until - time.monotonic(), 0))[1]:
        raise TimeoutError


def end_by(name):
    """Ends this program by a signal, as one ends that does nothing about it."""
    import signal

    number = getattr(signal, name)
    signal.signal(number, signal.SIG_DFL)
    signal.pthread_sigmask(signal.SIG_UNBLOCK, [number])
    os.kill(os.getpid(), number)
    os._exit(128 + number)


def answer(text, until=None):
    """Prints an answer on standard output. Fails where it can't be written; where nobody reads it, that ends this as it ends others."""
    try:
        write_all(1, text if isinstance(text, bytes) else os.fsencode(text), until)
    except BrokenPipeError:
        end_by("SIGPIPE")
    except OSError:
        raise Fault("cannot write the answer", FAILED) from None


def say(text):
    """Prints a line on standard output. Where nobody reads it, that ends nothing."""
    try:
        write_all(1, os.fsencode(f"{text}\n"))
    except OSError:
        pass


def tell(text):
    """Prints a line on standard error, in the same way."""
    try:
        write_all(2, os.fsencode(f"{text}\n"))
    except OSError:
        pass
