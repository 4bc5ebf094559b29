"""The words of a call: the one place where they are told apart."""
import os
import sys

from version import VERSION

from . import bounds, places
from .output import answer, tell
from .paths import absolute, configuration_of

USAGE = """\
usage: rad_proxyctl [-i NAME | -d DIR] state | drain | top | metrics [FILE] | http
       rad_proxyctl [-i NAME] probe [-s ADDRESS:PORT | --home NAME] [-c CONFIG] [--timeout SECONDS]
       rad_proxyctl [-i NAME | -d DIR] restart [-c CONFIG] [--wait SECONDS] [--out SECONDS] [--force]
       rad_proxyctl [-i NAME] check [--strict] [--rate N] [FILE]
       rad_proxyctl [-i NAME | -d DIR] trace [--user NAME | --session ID | --client ADDRESS] [--seconds SECONDS]
       rad_proxyctl [-i NAME] spool [--folder DIR] [-c CONFIG]
       rad_proxyctl [-i NAME] spool list | export | drop [ARRIVAL ..] [--home NAME] [--client ADDRESS] [--dropped REASON]
       rad_proxyctl [-i NAME] spool export .. [--keep-delay] [--source ADDRESS] | drop .. [--because TEXT]
       rad_proxyctl --help | --version
"""
HELP = """
Asks a rad_proxy that runs as a service.

  state           a line for each home server
  drain           accept no new request from now on; only a restart undoes it
  top             tables of home servers and clients, once a second
  metrics [FILE]  the metrics, in the text format of Prometheus
  http            answers one HTTP request on standard input with the metrics
  probe           sends a Status-Server and prints the time to the answer; ends with 1 without one
  restart         drains, waits until all is answered, and restarts the service
  check [FILE]    prints each fault of a configuration, what is doubtful in it, and what its numbers carry
  trace           prints the lines of the log about a user, a session or a client
  spool           prints how many requests wait on disk for each home server, also while the service is stopped
  spool list      prints each of them; those of these numbers, this home server, client or reason alone
  spool export    prints them for radclient
  spool drop      gives them up, while the service is stopped

  -i NAME         the service rad_proxy@NAME, in place of rad_proxy
  -d DIR          the service whose fifos are in DIR
  -s ADDRESS:PORT the proxy that is probed, in place of `listen' of the configuration
  --home NAME     the home server of the configuration that is probed, in place of a proxy; whose requests are meant
  -c CONFIG       the configuration, in place of {config}
  --timeout S     how long an answer is waited for, in seconds; default {probe}
  --wait S        how long a restart waits for the answers after the drain; default {drain}
  --out S         how long the file `out' stands before the drain; default 0
  --seconds S     how long it is traced; default {trace}
  --force         restarts though a home server is down, or a queue too long
  --strict        ends with {doubtful} where the check has a warning and no fault
  --rate N        the requests a second to each home server that the check counts with
  --folder DIR    the folder of the spool, in place of that of the service
  --keep-delay    exports Acct-Delay-Time as it came
  --source A      the address that radclient sends from
  --because TEXT  the reason that is written beside what is dropped

rad_proxyctl(8) has the rest.
"""
COMMANDS = ("state", "drain", "top", "metrics", "http", "probe", "restart", "check", "trace", "spool")
# The options of each command that have a value, and those that have none. Some take their value behind `=` too.
VALUES = {"": ("-i", "-d"), "probe": ("-s", "--home", "-c", "--timeout"), "restart": ("-c", "--wait", "--out"),
          "check": ("--rate",), "trace": ("--user", "--session", "--client", "--seconds"),
          "spool": ("--home", "--client", "--dropped", "--folder", "-c", "--source", "--because")}
FLAGS = {"restart": ("--force",), "check": ("--strict",), "spool": ("--keep-delay",)}
# What is done with a spool, and the reasons for which the program drops a request.
SPOOL = ("list", "export", "drop")
REASONS = ("UnknownClient", "Unread", "WrongCode", "BadAuthenticator", "BadMessageAuthenticator", "MessageAuthenticatorHere", "NoRealm")
DIGITS = frozenset("0123456789")
MOST_OF_REASON = 255


class Misused(Exception):
    """The call is wrong."""


class Call:
    """What is to be done, and with what."""

    def __init__(self):
        given = os.environ.get("RUNTIME_DIRECTORY")
        self.word = self.file = self.server = self.home = self.seconds = ""
        self.folder, self.unit = absolute(given or f"{places.RUN}/rad_proxy"), "" if given else "rad_proxy"
        self.config, self.wanted = configuration_of(""), []
        self.wait, self.out, self.rate = bounds.DRAIN_SECONDS, 0, 0
        self.is_forced = self.is_strict = self.is_named = False
        self.instance = self.what = self.spool = self.client = self.dropped = self.source = ""
        self.numbers, self.because, self.keeps_delay = set(), b"", False


def are_digits(text, most):
    """Whether a text is of digits alone, one at least."""
    return 1 <= len(text) <= most and DIGITS.issuperset(text)


def whole(text):
    """A whole number of at most five digits, without a zero before others."""
    if not are_digits(text, 5) or text != "0" and text.startswith("0"):
        raise Misused
    return int(text)


def are_seconds(text):
    """Whether a text is a number of seconds above 0: at most six digits, and at most three behind a point."""
    before, point, behind = text.partition(".")
    return are_digits(before, 6) and (not point or are_digits(behind, 3)) and bool(text.strip("0."))


def take_of_spool(call, option, value):
    """Takes an option of `spool` in that has a value."""
    if option in ("--client", "--source"):
        from trial.settings import ADDRESS

        if not ADDRESS.fullmatch(value):
            raise Misused
    if option == "--dropped" and value not in REASONS or len(os.fsencode(value)) > MOST_OF_REASON and option == "--because":
        raise Misused
    if option == "--folder":
        call.spool = absolute(value)
    elif option == "--because":
        call.because = os.fsencode(value)
    else:
        setattr(call, option[2:], value)


def take_value(call, option, value):
    """Takes an option in that has a value."""
    if not value:
        raise Misused
    if call.word == "spool" and option != "-c":
        take_of_spool(call, option, value)
        return
    if option == "-i":
        call.folder, call.unit, call.config = f"{places.RUN}/rad_proxy-{value}", f"rad_proxy@{value}", configuration_of(value)
        call.instance = value
    elif option == "-d":
        call.folder, call.unit = absolute(value), ""
    elif option == "-s":
        call.server = value
    elif option == "--home":
        call.home = value
    elif option == "-c":
        call.config = absolute(value)
    elif option == "--timeout":
        if not are_seconds(value):
            raise Misused
        call.seconds = value
    elif option == "--wait":
        call.wait = whole(value)
    elif option == "--out":
        call.out = whole(value)
    elif option == "--rate":
        call.rate = whole(value)
        if call.rate == 0:
            raise Misused
    elif option == "--seconds":
        if whole(value) == 0:
            raise Misused
        call.seconds = value
    else:
        if "\n" in value:
            raise Misused
        call.wanted.append(f"{option[2:]} {value}\n")


def take_flag(call, word):
    """Takes a word in that stands for itself."""
    if word == "--force":
        call.is_forced = True
    elif word == "--strict":
        call.is_strict = True
    elif word == "--keep-delay":
        call.keeps_delay = True


def take_other(call, word):
    """Takes a word in that is no option of its command."""
    if not call.word and word in COMMANDS:
        call.word = word
    elif call.word == "check" and word and not word.startswith("-") and not call.is_named:
        call.is_named, call.config = True, absolute(word)
    elif call.word == "metrics" and word and not call.file:
        call.file = absolute(word)
    elif call.word == "spool" and not call.what and word in SPOOL:
        call.what = word
    elif call.what and are_digits(word, 20):
        call.numbers.add(int(word))
    elif call.word or word != "--":
        raise Misused


def read_words(call, words):
    """Takes the words of the call in. First comes what is to be done, with -i or -d before it."""
    rest = list(words)
    while rest:
        word = rest.pop(0)
        values = VALUES.get(call.word, ())
        name, sign, value = word.partition("=")
        if word in ("--help", "--version"):
            return word
        if word in values:
            if not rest:
                raise Misused
            take_value(call, word, rest.pop(0))
        elif sign and name in values and name.startswith("--"):
            take_value(call, name, value)
        elif not call.word and word[:2] in values:
            take_value(call, word[:2], word[2:])
        elif word in FLAGS.get(call.word, ()):
            take_flag(call, word)
        else:
            take_other(call, word)
    if not call.word or call.word == "trace" and not call.wanted or call.server and call.home or is_spool_misused(call):
        raise Misused
    return None


def is_spool_misused(call):
    """Whether what is said of a spool does not belong together: what is to be given up has to be named."""
    has_some = bool(call.numbers or call.home or call.client or call.dropped)
    if call.word != "spool":
        return False
    if call.what != "export" and (call.keeps_delay or call.source) or call.what != "drop" and call.because:
        return True
    return has_some != (call.what == "drop") and (call.what in ("", "drop"))


def help_text():
    return USAGE + HELP.format(config=configuration_of(""), probe=bounds.PROBE_SECONDS, drain=bounds.DRAIN_SECONDS,
                               trace=bounds.TRACE_SECONDS, doubtful=bounds.DOUBTFUL)


def call_of(words):
    """What a call asks for. Its help and its version are told here, and end it."""
    call = Call()
    try:
        told = read_words(call, words)
    except Misused:
        tell(USAGE.rstrip("\n"))
        sys.exit(bounds.PROBE_MISUSED if call.word == "probe" else bounds.MISUSED)
    if told is not None:
        answer(help_text() if told == "--help" else f"rad_proxyctl {VERSION}\n")
        sys.exit(0)
    return call
