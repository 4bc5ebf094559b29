"""Has the program tell why it ends, and what an operator should know of a configuration.

usage: python3 -m tests.configuration.reasons_by_command PROGRAM

Each case is a file, and what is told of it: by `run`, by `check` with `RAD_PROXY_LOG` and with a terminal as standard error, and
not at all by `check` without either and by `replay`. The line of a fault stays alone on its line, and is the last. The last line
is `N passed, M failed`, of what was looked at.
"""
import contextlib
import os
import pty
import re
import subprocess
import time

from tests.lib import HERE, bound, environment, free_port, trying

PATIENCE = 60
MOST_FILE = 1_048_576
COUNTS = "clients 1 homes 1 realms 1\n"
VALUE = "invalid value, expected a string, number, boolean, date-time, array or inline table"


def configuration(listen="127.0.0.1:1", home="192.0.2.9:1813", more="", top=""):
    """A configuration of 13 lines, and more: these lines in the home server's table, which is the last."""
    return (f'listen = "{listen}"\nlinger = 0\n{top}[[client]]\naddress = "192.0.2.1"\nsecret = "nas-secret"\n'
            '[[realm]]\nname = "example.org"\nhome = "h1"\n'
            f'[[home]]\nname = "h1"\naddress = "{home}"\nsecret = "home-secret"\n{more}').encode()


class Trial(trying.Trial):
    """The program, and what it tells."""

    def run(self):
        for part in (faulty, unread, many, misplaced, homes, others, files, sockets):
            part(self, self.folder)

    def ended(self, *words, log=None, given=b""):
        """The status, what was printed and what was told, of a program that ends by itself."""
        done = subprocess.run([self.program, *words], input=given, capture_output=True, timeout=PATIENCE,
                              env=environment(log), check=False)
        return done.returncode, done.stdout.decode(), done.stderr.decode()

    def on_a_terminal(self, *words):
        """What is told where standard error is a terminal."""
        leader, terminal = pty.openpty()
        with contextlib.closing(os.fdopen(leader, "rb", buffering=0)) as seen:
            process = subprocess.Popen([self.program, *words], stdin=subprocess.DEVNULL, stdout=subprocess.PIPE,
                                       stderr=terminal, env=environment())
            os.close(terminal)
            told = b""
            with contextlib.suppress(OSError):
                while some := seen.read(4096):
                    told += some
            process.communicate(timeout=PATIENCE)
        return told.decode().replace("\r\n", "\n")


def line(level, event, reason):
    return f'level={level} event={event} reason="{reason}"\n'


def faulty(trial, folder):
    """Faults of a text, with what is told before the line of the fault."""
    missing = "".join(line("error", "configuration-fault", f"Missing at top {needed}") for needed in (
        "listen: it is needed", "client: at least one [[client]] is needed", "home: at least one [[home]] is needed"))
    cases = [
        ("no value", b"listen = \n", line("error", "no-toml", f"line 1, column 10: {VALUE}"), "configuration: Toml\n"),
        ("no UTF-8", b"# one\n# \xc3\xa9\xff\n", line("error", "no-toml", "line 2, column 4: no UTF-8"),
         "configuration: Toml\n"),
        ("a header that is not closed", b"[[client]\n",
         line("error", "no-toml", "line 1, column 10: unclosed array table, expected `]]`"), "configuration: Toml\n"),
        ("a misspelt key", b'lisen = "127.0.0.1:1"\n', line("warn", "unread-key", "top lisen at line 1, column 1") + missing,
         "configuration: Missing at top listen\n"),
        ("no text at all", b"", missing, "configuration: Missing at top listen\n"),
    ]
    for name, text, told, fixed in cases:
        file = folder / "faulty.toml"
        file.write_bytes(text)
        trial.compare(f"check, {name}", trial.ended("check", file), (2, "", fixed))
        trial.compare(f"check with a log, {name}", trial.ended("check", file, log="info"), (2, "", told + fixed))
        trial.compare(f"check on a terminal, {name}", trial.on_a_terminal("check", file), told + fixed)
        trial.compare(f"run, {name}", trial.ended("run", file), (2, "", told + fixed))
        trial.compare(f"replay, {name}", trial.ended("replay", given=text), (2, "", fixed))
        trial.compare(f"replay with a log, {name}", trial.ended("replay", given=text, log="trace"), (2, "", fixed))
        trial.compare(f"run without a log, {name}", trial.ended("run", file, log="off"), (2, "", fixed))


def unread(trial, folder):
    """Keys that nobody reads, of a configuration that is read."""
    port = free_port()
    cases = [
        ("windw", configuration(f"{HERE}:{port}", more="windw = 3\n"),
         line("warn", "unread-key", "home 0 windw at line 13, column 1")),
        ("realms", configuration(f"{HERE}:{port}", more="[[realms]]\nname = 1\n"),
         line("warn", "unread-key", "top realms at line 13, column 3")),
        ("a table", configuration(f"{HERE}:{port}", more="  [ home . more ]\nwindow = 1\n"),
         line("warn", "unread-key", "home 0 a key at line 13, column 12")),
        ("a name with control characters", configuration(f"{HERE}:{port}", more='"\\u001b[2J\\n\\"" = 1\n'),
         line("warn", "unread-key", "home 0 a key at line 13, column 1")),
        ("in no order", configuration(f"{HERE}:{port}", top="zz = 1\naa = 2\n"),
         line("warn", "unread-key", "top a key at line 4, column 1") + line("warn", "unread-key", "top a key at line 3, column 1")),
        ("none", configuration(f"{HERE}:{port}", more="window = 3\n"), ""),
    ]
    for name, text, told in cases:
        file = folder / "unread.toml"
        file.write_bytes(text)
        trial.compare(f"check, {name}", trial.ended("check", file), (0, COUNTS, ""))
        trial.compare(f"check with a log, {name}", trial.ended("check", file, log="warn"), (0, COUNTS, told))
        trial.compare(f"check on a terminal, {name}", trial.on_a_terminal("check", file), told)
        status, printed, errors = trial.ended("run", file, log="warn")
        trial.compare(f"run, {name}", (status, printed.splitlines()[:1], errors), (0, [f"listening {HERE}:{port}"], told))
        trial.compare(f"replay, {name}", trial.ended("replay", given=text, log="trace")[2], "")


def many(trial, folder):
    """A file that is as long as it may be, of keys that nobody reads."""
    text = configuration(f"{HERE}:{free_port()}")
    count = 0
    lines = []
    size = len(text)
    while size + 12 <= MOST_FILE:
        lines.append(b"k%06d = 1\n" % count)
        size += len(lines[-1])
        count += 1
    file = folder / "many.toml"
    file.write_bytes(text + b"".join(lines))
    begun = time.monotonic()
    status, printed, told = trial.ended("check", file, log="warn")
    spent = time.monotonic() - begun
    told = told.splitlines()
    trial.compare("many keys are read past", (status, printed), (0, COUNTS))
    trial.compare("many keys make few lines", len(told), 21)
    trial.compare("the first of many", told[:1], [line("warn", "unread-key", "home 0 a key at line 13, column 1")[:-1]])
    trial.compare("the last of many", told[-1:], [f"level=warn event=unread-keys count={count - 20}"])
    trial.compare("many keys take no minute", spent < PATIENCE / 2, True)


def misplacements(port):
    """Texts of configurations in which a secret stands in a wrong place, each with what the place is, and with the secret."""
    for secret in ("s3cr3t-of-billing", "s3cr3t of b!lling", "S3CR3T.0F.4NY0NE"):
        whole = configuration(f"127.0.0.1:{port}").decode()
        for name, old in (("listen", f"127.0.0.1:{port}"), ("a client's address", "192.0.2.1"),
                          ("a home server's address", "192.0.2.9:1813")):
            yield name, whole.replace(f'"{old}"', f'"{secret}"'), secret
        yield "a realm's name", whole.replace("example.org", f"{secret}@"), secret
        yield "a home server's name", whole.replace('name = "h1"', f'name = "{secret}@"'), secret
        named = whole.replace('"h1"', f'"{secret}"')
        yield "two home servers' name", named + named[named.index("[[home]]"):], secret
        yield "two realms' name", whole.replace("example.org", secret) + f'[[realm]]\nname = "{secret.swapcase()}"\nhome = "h1"\n', secret
        yield "a realm's home", whole.replace('home = "h1"', f'home = "{secret}"'), secret
        for key in ("default_home", "other_home"):
            yield key, f'{key} = "{secret}"\n' + whole, secret
        yield "linger", whole.replace("linger = 0", f'linger = "{secret}"'), secret
        yield "window", whole + f'window = "{secret}"\n', secret
        yield "client", whole.replace("[[client]]", f'client = "{secret}"\n[[clients]]'), secret
        yield "no quotation marks", whole.replace('"home-secret"', secret), secret
        yield "two secrets", whole.replace('"home-secret"', f'"home-secret" "{secret}"'), secret
        yield "a string that is not closed", whole.replace('"home-secret"', f'"{secret}'), secret
        yield "a key twice", whole + f'"{secret}" = 1\n"{secret}" = 2\n', secret
        for part in ("client", "realm", "home"):
            yield f"a key of a {part}", whole.replace(f"[[{part}]]", f'[[{part}]]\n"{secret}" = 1'), secret
        yield "a key of the top", f'"{secret}" = 1\n' + whole, secret
        yield "a dotted key", whole + f'"{secret}".x = 1\n', secret
        yield "a header", whole + f'["{secret}"]\n', secret
        if " " not in secret:
            yield "a bare key", whole + f"{secret} = 1\n", secret


def misplaced(trial, folder):
    """A secret that stands in a wrong place is in no line, whatever is logged."""
    file, port = folder / "misplaced.toml", free_port()
    for place, text, secret in misplacements(port):
        file.write_text(text)
        for level in (None, "off", "error", "warn", "info", "debug", "trace"):
            for command in ("check", "run"):
                _, printed, told = trial.ended(command, file, log=level)
                seen = secret.casefold() in f"{printed}{told}".casefold() or re.sub("[^a-z0-9]+", "", secret.casefold()) in re.sub(
                    "%20|%21|[^a-z0-9]+", "", f"{printed}{told}".casefold())
                trial.compare(f"{place}: {command} {level} {secret}", seen, False)


def homes(trial, folder):
    """Home servers that loop, or that nothing can be sent to."""
    port = free_port()
    comes_back = "listen serves it, so requests would come back"
    cases = [
        (f"{HERE}:{port}", f"{HERE}:{port}", comes_back),
        (f"0.0.0.0:{port}", f"127.9.9.9:{port}", comes_back),
        (f"0.0.0.0:{port}", f"0.0.0.0:{port}", "no host has this address"),
        (f"{HERE}:{port}", "0.0.0.0:1813", "no host has this address"),
        (f"{HERE}:{port}", "255.255.255.255:1813", "it is the broadcast address"),
        (f"{HERE}:{port}", "224.0.0.1:1813", "it is a multicast address"),
        (f"{HERE}:{port}", "240.0.0.1:1813", "it is a reserved address"),
        (f"{HERE}:{port}", f"127.0.0.2:{port}", None),
        (f"{HERE}:{port}", "192.0.2.9:1813", None),
    ]
    for listen, home, reason in cases:
        file = folder / "homes.toml"
        file.write_bytes(configuration(listen, home))
        told = "" if reason is None else line("warn", "home-address", f"home h1 at {home}: {reason}")
        trial.compare(f"check, {home}", trial.ended("check", file), (0, COUNTS, ""))
        trial.compare(f"check with a log, {home}", trial.ended("check", file, log="warn"), (0, COUNTS, told))
        trial.compare(f"run, {home}", trial.ended("run", file, log="warn")[2], told)


def others(trial, folder):
    """`check` says where realms that are not listed go, if they go anywhere, and `run` too."""
    port = free_port()
    for what, top, told in (("nowhere", "", ""), ("to the default alone", 'default_home = "h1"\n', ""),
                            ("to one", 'other_home = "h1"\n', "level=info event=other-home home=h1\n"),
                            ("to the default", 'default_home = "h1"\nother_home = "h1"\n', "level=info event=other-home home=h1\n")):
        file = folder / "others.toml"
        file.write_bytes(configuration(f"{HERE}:{port}", top=top))
        trial.compare(f"check, other realms lead {what}", trial.ended("check", file), (0, COUNTS, ""))
        trial.compare(f"check with a log, other realms lead {what}", trial.ended("check", file, log="info"), (0, COUNTS, told))
        trial.compare(f"check with warnings, other realms lead {what}", trial.ended("check", file, log="warn"), (0, COUNTS, ""))
        lines = trial.ended("run", file, log="info")[2].splitlines(keepends=True)
        trial.compare(f"run, other realms lead {what}", "".join(line for line in lines if "other-home" in line), told)


def reason_before(trial, name, told, fixed):
    """One line of the log with a reason, and then the line of the fault, alone and last."""
    form = r'level=error event=[a-z-]+( [a-z_]+=[^ "]+)* reason="[^"]+"\n' + re.escape(fixed)
    trial.compare(name, bool(re.fullmatch(form, told)), True)
    if not re.fullmatch(form, told):
        print(f"  {told!r}")


def files(trial, folder):
    """Files that can't be read."""
    long = folder / "long.toml"
    long.write_bytes(b"#" * (MOST_FILE + 1))
    cases = [("absent", folder / "absent.toml"), ("a folder", folder), ("too long", long)]
    if os.geteuid():
        hidden = folder / "hidden.toml"
        hidden.write_bytes(configuration())
        hidden.chmod(0)
        cases.append(("not to be read", hidden))
    for name, file in cases:
        fixed = f"file: {file}\n"
        trial.compare(f"check, {name}", trial.ended("check", file), (4, "", fixed))
        reason_before(trial, f"check with a log, {name}", trial.ended("check", file, log="info")[2], fixed)
        reason_before(trial, f"run, {name}", trial.ended("run", file)[2], fixed)
    split = f"{folder}/a\nb"
    trial.compare("a name with a line end", len(trial.ended("run", split)[2].splitlines()), 2)


def sockets(trial, folder):
    """Sockets that can't be had."""
    file = folder / "sockets.toml"
    with bound() as taken:
        listen = f"{HERE}:{taken.getsockname()[1]}"
        file.write_bytes(configuration(listen))
        status, printed, told = trial.ended("run", file)
    trial.compare("a port in use", (status, printed), (4, ""))
    reason_before(trial, "a port in use has its reason", told, f"socket: {listen}\n")
    elsewhere = f"192.0.2.77:{free_port()}"
    file.write_bytes(configuration(elsewhere))
    reason_before(trial, "an address that is not here", trial.ended("run", file)[2], f"socket: {elsewhere}\n")


def main():
    trying.run_trial(Trial, __doc__)


if __name__ == "__main__":
    main()
