"""What each command does, and how it ends: an error is one line and a status, and never a traceback."""
import os
import sys

from trial.faults import Fault, printable

from . import bounds
from .output import answer, end_by, tell
from .processes import close_others, open_missing
from .words import call_of


def ask(call):
    from .owner import ask as ask_owner

    lines, _ = ask_owner(call.folder, call.word)
    answer("\n".join(lines) + "\n")


def metrics(call):
    from .metrics import tell_metrics

    tell_metrics(call.folder, call.file)


def top(call):
    from .top import top as draw

    draw(call.folder)


def http(call):
    from .http import answer_http

    answer_http(call.folder)


def probe(call):
    from .probe import probe as send

    send(call.config, call.server, call.home, float(call.seconds or bounds.PROBE_SECONDS))


def restart(call):
    from .restart import Restart

    return Restart(call).do()


def check(call):
    from .check import check as look

    return look(call.config, call.is_strict, call.rate)


def trace(call):
    from .trace import trace as follow

    return follow(call)


def spool(call):
    from .spool import do

    return do(call)


DONE = {"state": ask, "drain": ask, "metrics": metrics, "top": top, "http": http, "probe": probe, "restart": restart, "check": check,
        "trace": trace, "spool": spool}


def begin():
    """Leaves this with the descriptors 0 to 2, which are open, and with that one which systemd passes."""
    open_missing()
    close_others(4 if os.environ.get("LISTEN_PID") == str(os.getpid()) else 3)


def end(words):
    """Does what the words of a call ask for, and ends."""
    try:
        begin()
        call = call_of(words)
        status = DONE[call.word](call) or 0
    except Fault as fault:
        tell(f"rad_proxyctl: {printable(str(fault))}")
        status = fault.status
    except KeyboardInterrupt:
        end_by("SIGINT")
    except MemoryError:
        tell("rad_proxyctl: no memory")
        status = bounds.FAILED
    except OSError as error:
        tell(f"rad_proxyctl: {printable(error.strerror or type(error).__name__)}")
        status = bounds.FAILED
    sys.exit(status)
