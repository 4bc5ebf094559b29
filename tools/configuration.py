"""A configuration of rad_proxy as that program reads it: its tables, by the program `config_json` beside it. No tool reads TOML itself.

`read` takes a file and whether secrets are wanted, and gives the tables, each default filled in. Python's standard library suffices.
"""
import json
import os
import pathlib
import subprocess
import threading

NAME, VARIABLE = "config_json", "RAD_PROXY_CONFIG_JSON"
HERE = pathlib.Path(__file__).resolve().parent
# Where it is: beside this module, below the prefix of installed tools, where packages put it, and in a checkout.
PLACES = [HERE / NAME, HERE.parents[1] / "libexec" / "rad_proxy" / NAME, pathlib.Path("/usr/libexec/rad_proxy", NAME),
          pathlib.Path("/usr/local/libexec/rad_proxy", NAME), HERE.parent / "crates" / NAME / "out" / NAME]
# The longest configuration has a megabyte of TOML, of which each character may be printed as six.
MOST_OCTETS, MOST_SAID, SECONDS = 8_388_608, 1024, 30
# The status of a configuration that has a fault, and of all other faults.
CONFIGURATION, FAILED = 2, 4


class Unread(Exception):
    """The configuration can't be read: one line, and the status that `rad_proxy check` would end with."""

    def __init__(self, text, status=FAILED):
        super().__init__(text)
        self.status = status


def program():
    """Where the program is."""
    named = os.environ.get(VARIABLE)
    if named:
        return named
    found = next((place for place in PLACES if os.access(place, os.X_OK)), None)
    if found is None:
        raise Unread(f"{NAME}: it is not in /usr/libexec/rad_proxy or /usr/local/libexec/rad_proxy, and {VARIABLE} does not name it")
    return found


def printed(words):
    """What the program prints for these words, up to a bound, and its status. It is stopped at that bound, and after SECONDS."""
    with subprocess.Popen(words, stdin=subprocess.DEVNULL, stdout=subprocess.PIPE, stderr=subprocess.STDOUT) as ran:
        clock = threading.Timer(SECONDS, ran.kill)
        clock.start()
        try:
            octets = ran.stdout.read(MOST_OCTETS + 1)
            if len(octets) > MOST_OCTETS:
                ran.kill()
            return octets, ran.wait()
        finally:
            clock.cancel()


def reason_of(path):
    """Why the system does not open a file, as the end of a line."""
    try:
        os.close(os.open(path, os.O_RDONLY | os.O_NONBLOCK | os.O_CLOEXEC))
    except OSError as error:
        return f": {error.strerror}"
    return ""


def fault_of(path, octets, status):
    """What the program tells of a configuration that it does not print. What it printed of one is not told: it may have secrets."""
    said = "" if octets.startswith(b"{") else octets[:MOST_SAID].decode("utf-8", "replace").partition("\n")[0]
    if status == CONFIGURATION:
        return Unread(said, CONFIGURATION)
    if said.startswith("file: "):
        return Unread(said + reason_of(path))
    return Unread(f"{NAME}: {said or f'it ended with status {status}'}")


def read(path, with_secrets):
    """The tables of the configuration in a file; without `with_secrets` no table has a key `secret`."""
    place = program()
    try:
        octets, status = printed([place, os.fspath(path), *(["secrets"] if with_secrets else [])])
    except OSError as error:
        raise Unread(f"{NAME}: {error.strerror}: {place}") from None
    if status:
        raise fault_of(path, octets, status)
    try:
        return json.loads(octets)
    except ValueError:
        raise Unread(f"{NAME}: what it printed is no JSON, or too long") from None
