"""How a tool is called and how it ends: an error is one line and a status, and never a traceback."""
import argparse
import os
import signal
import sys

from trial.faults import FAILED, USAGE, Fault, printable, told_by

INTERRUPTED = 130


class Parser(argparse.ArgumentParser):
    """Words that are wrong are a fault."""

    def error(self, message):
        raise Fault(f"{message}; {self.prog.split()[0]} --help has the usage", USAGE)


class Terminal:
    """An output at a terminal: what is not printable, such as what turns the direction of a line, is escaped on its way there."""

    def __init__(self, stream):
        self.stream = stream

    def write(self, text):
        self.stream.write("\n".join("\t".join(map(printable, line.split("\t"))) for line in text.split("\n")))
        return len(text)

    def __getattr__(self, name):
        return getattr(self.stream, name)


def stop(*_):
    raise KeyboardInterrupt


def status_of(name, main):
    """The status of a tool, which `main` gives for the words of the call, or a fault of which one line is told."""
    try:
        return main(sys.argv[1:])
    except Fault as fault:
        told, status = printable(str(fault)), fault.status
    except KeyboardInterrupt:
        told, status = "stopped", INTERRUPTED
    except BrokenPipeError:
        os.dup2(os.open(os.devnull, os.O_WRONLY), 1)
        return FAILED
    except MemoryError:
        told, status = "no memory", FAILED
    except OSError as error:
        told, status = told_by(error), FAILED
    print(f"{name}: {told}", file=sys.stderr)
    return status


def open_outputs():
    """Opens what is closed of standard input and both outputs, so that no other file takes its place, and has the outputs escape."""
    while (number := os.open(os.devnull, os.O_RDWR)) <= 2:
        pass
    os.close(number)
    for number, output in ((1, "stdout"), (2, "stderr")):
        stream = getattr(sys, output) or open(number, "w", closefd=False)
        stream.reconfigure(errors="backslashreplace")
        setattr(sys, output, Terminal(stream) if stream.isatty() else stream)


def end(name, main):
    """Runs a tool, and ends it. What can't be written as text is written with escapes."""
    signal.signal(signal.SIGTERM, stop)
    open_outputs()
    status = status_of(name, main)
    try:
        sys.stdout.flush()
    except OSError as error:
        os.dup2(os.open(os.devnull, os.O_WRONLY), 1)
        status = FAILED
        if not isinstance(error, BrokenPipeError):
            print(f"{name}: standard output: {told_by(error)}", file=sys.stderr)
    sys.exit(status)
