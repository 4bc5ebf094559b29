"""Has `config_json` print each configuration of tests/ and examples/, and compares that with what Python's TOML reader finds, and defaults.

usage: python3 -m tests.configuration.read_as_json CONFIG_JSON

What Python's reader does not take, or takes otherwise, stands here with what it is. A configuration with a fault has to end with the line
that `check` refuses it with. Secrets are printed to a pipe alone. The last line is `N passed, M failed`, of what was looked at.
"""
import contextlib
import json
import os
import pty
import socket
import subprocess
import sys
import tempfile
import tomllib

from tests.configuration.schema import files, rows_of_conversations, rows_of_tables
from tests.lib import TOP
from tests.lib.configurations import CLIENT, HOME, LISTEN, REALM
from tests.lib.trying import Trial, run_trial

# The tools find the module beside them.
sys.path.insert(0, str(TOP / "tools"))
import configuration  # noqa: E402

SECONDS, MOST_OCTETS = 60, 1_048_576
USAGE = "usage: config_json FILE [secrets]\n"
# The defaults of docs/formats.md.
NUMBERS = {"window": 64, "queue": 4096, "book": 100_000, "tries": 3, "first_wait": 2000, "probe_every": 10_000, "down_wait": 60_000,
           "span": 30_000, "ring": 256, "ports": 1}
WHOLE = LISTEN + CLIENT + HOME + REALM


def table_of(table, keys, has_secrets):
    """A table with these keys alone, with its secret where secrets are told."""
    return {key: table[key] for key in [*keys, *(["secret"] if has_secrets else [])]}


def tables_of(text, has_secrets):
    """What has to be printed of a text without a fault, by Python's reader."""
    top = tomllib.loads(text)
    found = {"listen": top["listen"], "linger": top.get("linger", 5000)}
    found |= {key: top[key] for key in ("default_home", "other_home") if key in top}
    found["client"] = [table_of(it, ["address"], has_secrets) for it in top["client"]]
    found["home"] = [table_of(it, ["name", "address"], has_secrets) | {key: it.get(key, least) for key, least in NUMBERS.items()}
                     for it in top["home"]]
    found["realm"] = [{key: it[key] for key in ("name", "home")} for it in top.get("realm", [])]
    return found


# What Python's reader, that of TOML 1.0, does not take as the program does: a text for the secret of the client, or for a key beside it,
# and the secret that it is, or None for a fault.
BEYOND = {
    r'secret = "long \e enough"': "long \x1b enough",
    r'secret = "\x6cong enough"': "long enough",
    'secret = "nas-secret"\nsince = 07:32': "nas-secret",
    'secret = "nas-secret"\nsince = 1979-05-27T07:32': "nas-secret",
    'secret = "nas-secret"\nnote = { b = 1, }': "nas-secret",
    'secret = "nas-secret"\nnote = {\n  b = 1,\n  # and\n  c = 2\n}': "nas-secret",
    'secret = "nas-secret"\nnote = 99999999999999999999': None,
}
SECRETS = ("nas-secret", "home-secret")


class Printing(Trial):
    """The program, and what it prints of a configuration."""

    def run(self):
        for what, octets, fault in [*rows_of_tables(), *rows_of_conversations(), *files()]:
            self.reads(what, octets, fault)
        for row in files():
            self.reads_by_module(*row)
        for at, (line, secret) in enumerate(BEYOND.items()):
            self.reads_beyond(f"beyond {at}", WHOLE.replace('secret = "nas-secret"', line, 1), secret)
        self.keeps_secrets()
        self.ends()
        self.is_told()
        self.is_bounded()

    def ended(self, *words, **how):
        """The status, what was printed and what was told."""
        done = subprocess.run([self.program, *words], **{"capture_output": True, "timeout": SECONDS, "stdin": subprocess.DEVNULL, **how},
                              check=False)
        return done.returncode, done.stdout, done.stderr

    def file(self, octets):
        file = self.folder / "proxy.toml"
        file.write_bytes(octets)
        return file

    def reads(self, what, octets, fault):
        """Looks at a configuration with this first fault, or none, without its secrets and with them."""
        file = self.file(octets)
        for words, has_secrets in (([], False), (["secrets"], True)):
            status, printed, told = self.ended(file, *words)
            if fault is not None:
                self.compare(f"{what} {words}", (status, printed, told), (2, b"", f"configuration: {fault}\n".encode()))
                continue
            wanted = tables_of(octets.decode("utf-8-sig"), has_secrets)
            self.compare(f"{what} {words}", (status, printed.count(b"\n"), printed[-1:], told), (0, 1, b"\n", b""))
            self.compare(f"{what} {words}: tables", json.loads(printed or b"0"), wanted)

    def reads_by_module(self, what, octets, _):
        """Looks at the same by the module of the tools."""
        for has_secrets in (False, True):
            self.compare(f"{what}: the module", configuration.read(self.file(octets), has_secrets), tables_of(octets.decode(), has_secrets))

    def reads_beyond(self, what, text, secret):
        file = self.file(text.encode())
        status, printed, told = self.ended(file, "secrets")
        if secret is None:
            self.compare(what, (status, printed, told), (2, b"", b"configuration: Toml\n"))
            return
        wanted = tables_of(WHOLE, True)
        wanted["client"][0]["secret"] = secret
        self.compare(what, (status, json.loads(printed or b"0"), told), (0, wanted, b""))

    def keeps_secrets(self):
        """Secrets are printed to a pipe alone, and without the word nowhere."""
        file = self.file(WHOLE.encode())
        _, printed, _ = self.ended(file)
        self.compare("no secret", [secret for secret in SECRETS if secret.encode() in printed], [])
        _, printed, _ = self.ended(file, "secrets")
        self.compare("secrets", [secret for secret in SECRETS if secret.encode() in printed], [*SECRETS])
        refused = 4, b"output: no pipe\n"
        for what, given in self.other_outputs():
            status, _, told = self.ended(file, "secrets", **given)
            self.compare(f"secrets to {what}", (status, told), refused)
        self.compare("a file's secrets", (self.folder / "printed").read_bytes(), b"")

    def other_outputs(self):
        """Outputs that are no pipe: what each is, and how the program is given it."""
        errors = {"capture_output": False, "stderr": subprocess.PIPE}
        with (self.folder / "printed").open("wb") as file:
            yield "a file", {**errors, "stdout": file}
        yield "nothing", {**errors, "stdout": subprocess.DEVNULL}
        yield "a closed output", {**errors, "preexec_fn": lambda: os.close(1)}
        ours, its = socket.socketpair()
        with ours, its:
            yield "a socket", {**errors, "stdout": its}
            its.close()
            self.compare("a socket's secrets", ours.recv(1), b"")
        ours, its = pty.openpty()
        try:
            yield "a terminal", {**errors, "stdout": its}
            os.set_blocking(ours, False)
            self.compare("a terminal's secrets", self.waits(ours), b"")
        finally:
            os.close(ours)
            os.close(its)

    @staticmethod
    def waits(number):
        """What waits at a file that does not block."""
        try:
            return os.read(number, 65536)
        except BlockingIOError:
            return b""

    def ends(self):
        """Words, files and outputs that are wrong."""
        file = self.file(WHOLE.encode())
        for words in ([], [file, "secret"], [file, "secrets", "secrets"], [file, ""], ["secrets", file, file]):
            self.compare(f"words {words}", self.ended(*words), (1, b"", USAGE.encode()))
        absent = self.folder / "absent"
        self.compare("no file", self.ended(absent), (4, b"", f"file: {absent}\n".encode()))
        self.compare("a folder", self.ended(self.folder), (4, b"", f"file: {self.folder}\n".encode()))
        self.compare("a name with a line end", self.ended("a\nb"), (4, b"", b"file: a%0ab\n"))
        with open("/dev/full", "wb") as full:
            how = {"capture_output": False, "stdout": full, "stderr": subprocess.PIPE}
            self.compare("a full output", self.ended(file, **how), (4, None, b""))
        self.compare("a pipe", self.ended("/dev/stdin", stdin=None, input=WHOLE.encode())[0], 0)

    def is_told(self):
        """What the module of the tools tells of files, and of programs that print nothing, too much or no end."""
        file, absent = self.file(WHOLE.encode()), self.folder / "absent"
        self.tells(absent, f"file: {absent}: No such file or directory", 4)
        self.tells(self.folder, f"file: {self.folder}", 4)
        self.tells(self.file(b"listen = 1\n"), "configuration: WrongType at top listen", 2)
        self.file(WHOLE.encode())
        none = "what it printed is no JSON, or too long"
        for body, told in (("exit 0", none), ("exit 7", "it ended with status 7"), ("echo no; exit 1", "no"), ("echo '{'", none),
                           ("exec yes '{'", "it ended with status -9"), ("echo '{secret'; exit 4", "it ended with status 4")):
            other = self.folder / "other"
            other.write_text(f"#!/bin/sh\n{body}\n")
            other.chmod(0o755)
            with named(other):
                self.tells(file, f"config_json: {told}", 4)
        with named(self.folder / "none"):
            self.tells(file, f"config_json: No such file or directory: {self.folder}/none", 4)

    def tells(self, file, text, status):
        try:
            found = configuration.read(file, True)
        except configuration.Unread as fault:
            found = str(fault), fault.status
        self.compare(f"the module of {file.name}: {text}", found, (text, status))

    def is_bounded(self):
        """A file of as many octets as there may be, and of one more."""
        longest = WHOLE.encode() + b"#" * (MOST_OCTETS - len(WHOLE.encode()) - 1) + b"\n"
        file = self.file(longest)
        self.compare("the longest", self.ended(file)[0], 0)
        self.file(longest + b"\n")
        self.compare("one octet more", self.ended(file), (4, b"", f"file: {file}\n".encode()))


@contextlib.contextmanager
def named(program):
    """While it lasts, the tools find this program."""
    kept = os.environ[configuration.VARIABLE]
    os.environ[configuration.VARIABLE] = str(program)
    try:
        yield
    finally:
        os.environ[configuration.VARIABLE] = kept


def printing(program, folder):
    os.environ[configuration.VARIABLE] = str(program)
    return Printing(program, folder)


if __name__ == "__main__":
    run_trial(printing, __doc__)
