"""Tries `rad_proxyctl trace`, over scripts that are installed and a service that is started by hand.

usage: python3 -m tests.service.rad_proxyctl_trace PROGRAM [NAME ..]

Each test is a function below, and its first line tells what holds. A command that prints a file stands for the journal, and for
journalctl, which wants root. The last line is `N passed, M failed`.
"""
import contextlib
import os
import pathlib
import signal
import subprocess
import time

from tests.lib import (ACCT_SESSION_ID, NAS_SECRET, PATIENCE, USER_NAME, LeftOut, Service, answered, attribute, heed_signals, hope, is_so,
                       need, request, try_named, until)

BAD_WORDS = [[], ["--user"], ["--user", ""], ["--session="], ["--seconds", "3"], ["--user", "bob", "--seconds", "0"],
             ["--user", "bob", "--seconds", "x"], ["--user", "bob", "bob"], ["--realm", "x"], ["--user", "a\nclient 127.0.0.1"]]
UNIT = "of-a-trial"


def follows(service):
    """What the service is started with, so that its log is followed."""
    service.start()
    service.environment["RAD_PROXY_FOLLOW"] = f"tail -n +1 -F {service.log}"


def traces(service, *words, **options):
    """The command, which runs, once the program traces what it is told to."""
    before = service.log.read_text().count("event=trace count=")
    given = {"stdin": subprocess.DEVNULL, "stdout": subprocess.PIPE, "stderr": subprocess.PIPE, "text": True, "env": service.environment}
    asker = subprocess.Popen([service.ctl, "trace", *words], **(given | options))
    until("it is traced", lambda: service.log.read_text().count("event=trace count=") > before)
    return asker


def asks(service, session, identifier=1):
    """Has a request of a session answered."""
    values = attribute(USER_NAME, b"bob@example.org") + attribute(ACCT_SESSION_ID, session)
    service.send(request(identifier, values, NAS_SECRET))
    octets, proxy = service.home.recvfrom(4096)
    service.home.sendto(answered(octets), proxy)
    service.nas.recv(4096)


def logged(service, count=1):
    """The lines of the log about what is traced, once there are so many."""
    return until("so many lines", lambda: (lines := [line for line in service.log.read_text().splitlines() if " trace=" in line])
                 [count - 1:] and lines)


def see_ended(service, asker, status, lines):
    """Sees how the command ends, and what it printed, and that the file is gone and nothing is traced any more."""
    printed, told = asker.communicate(timeout=PATIENCE)
    hope("how it ends", (asker.returncode, told), (status, ""))
    hope("what it prints", printed.splitlines(), lines)
    hope("the file", (service.run / "trace").exists(), False)
    until("nothing is traced", lambda: service.log.read_text().splitlines()[-1].endswith("event=trace count=0"))


def it_prints_the_lines_of_a_session(service):
    """The lines about a session are printed as the log has them, and no other ones; the file is its owner's alone, and is removed."""
    follows(service)
    asks(service, b"S1")
    asker = traces(service, "--session", "S1", "--seconds", "6")
    file = service.run / "trace"
    hope("the file", (file.read_text(), oct(file.stat().st_mode & 0o777)), ("session S1\n", "0o600"))
    asks(service, b"S1", 2)
    asks(service, b"S22")
    lines = logged(service, 5)
    hope("lines", sorted(line.split()[1] for line in lines),
         ["event=accepted", "event=answered", "event=came", "event=returned", "event=went"])
    begun = time.monotonic()
    see_ended(service, asker, 0, lines)
    need(time.monotonic() - begun < 12, "it took", time.monotonic() - begun, "seconds")
    hope("the name is nowhere", "bob" in service.log.read_text(), False)


def several_are_traced(service):
    """A user, a session and a client are one line each, in the order of the words, also where a word has its value behind `=`."""
    follows(service)
    asker = traces(service, "--user=bob@example.org", "--session", "S 1", "--client=127.0.0.9", "--seconds=6")
    hope("the file", (service.run / "trace").read_text(), "user bob@example.org\nsession S 1\nclient 127.0.0.9\n")
    asks(service, b"S 1")
    see_ended(service, asker, 0, logged(service, 5))


def a_fault_of_the_file_is_printed(service):
    """What the program says of a name that it does not take is printed too."""
    follows(service)
    service.environment["RAD_PROXY_FOLLOW"] = f"tail -n +1 -F {service.log}"
    done = service.ask("trace", "--session", "S%2", "--seconds", "2")
    hope("status", (done.returncode, done.stderr), (0, ""))
    hope("what it prints", done.stdout,
         'level=warn event=trace-fault reason="line 1 is none of user NAME, session ID, client ADDRESS"\n')


def one_at_a_time(service):
    """While one traces, another one is refused, and the first one goes on."""
    follows(service)
    asker = traces(service, "--session", "S1", "--seconds", "5")
    done = service.ask("trace", "--session", "S2")
    hope("the second", (done.returncode, done.stdout, done.stderr),
         (4, "", f"rad_proxyctl: another one traces; where nobody does, remove the file trace in {service.run}\n"))
    asks(service, b"S1")
    see_ended(service, asker, 0, logged(service, 5))


def whoever_is_stopped_removes_the_file(service):
    """INT, TERM and HUP to it and to what it started, and to it alone, end it; the file is removed."""
    follows(service)
    for number in (signal.SIGINT, signal.SIGTERM, signal.SIGHUP):
        for stop in (os.killpg, os.kill):
            asker = traces(service, "--session", "S1", "--seconds", "4", start_new_session=True,
                           preexec_fn=lambda: signal.signal(signal.SIGINT, signal.SIG_DFL))
            stop(asker.pid, number)
            asker.communicate(timeout=PATIENCE)
            hope(f"status by {number.name}", asker.returncode, 4)
            hope("the file", (service.run / "trace").exists(), False)
            until("nothing is traced", lambda: service.log.read_text().splitlines()[-1].endswith("event=trace count=0"))
    left = subprocess.run(["pgrep", "-f", f"tail -n .1 -F {service.log}"], capture_output=True, text=True).stdout
    need(is_so(lambda: not left or not any(pathlib.Path("/proc", pid).exists() for pid in left.split()), 10), "left running:", left)


def a_signal_waits_until_the_file_is_made(service):
    """A signal that comes while the file is made, here for a second longer, ends it too once that is done; the file is removed."""
    follows(service)
    asking = service.room / "usr/libexec/rad_proxy/controlling/asking.py"
    link = '        os.link("trace.new", "trace")\n'
    text = asking.read_text()
    hope("how often it is linked", text.count(link), 1)
    asking.write_text(text.replace(link, f"{link}        time.sleep(1)\n"))
    for stop in (os.killpg, os.kill):
        asker = traces(service, "--session", "S1", "--seconds", "4", start_new_session=True)
        hope("the first name is there", (service.run / "trace.new").exists(), True)
        stop(asker.pid, signal.SIGTERM)
        asker.communicate(timeout=PATIENCE)
        hope("status and the files", (asker.returncode, [file.name for file in service.run.glob("trace*")]), (4, []))
        until("nothing is traced", lambda: service.log.read_text().splitlines()[-1].endswith("event=trace count=0"))


def bad_words_are_told(service):
    """Without something to trace, or with words that are none, it shows its usage and ends with 1."""
    for words in BAD_WORDS:
        done = service.ask("trace", *words)
        hope(str(words), (done.returncode, done.stdout, done.stderr.startswith("usage: ")), (1, "", True))


def without_a_service_or_a_log_it_says_so(service):
    """It says where no service is, and that it has no log to read where that is no unit of systemd."""
    done = service.ask("trace", "--user", "bob")
    hope("no log", (done.returncode, done.stderr),
         (4, f"rad_proxyctl: what serves in {service.run} is no active unit of systemd: set RAD_PROXY_FOLLOW to a command that prints "
             "its log as it comes\n"))
    service.environment["RAD_PROXY_FOLLOW"] = "sleep 100"
    done = service.ask("trace", "--user", "bob")
    hope("no service", (done.returncode, done.stdout, done.stderr),
         (4, "", f"rad_proxyctl: no service in {service.run}, or no right to ask it\n"))


def serve_removes_what_is_left(service):
    """A file that a killed one left is removed where the service starts; the service hands on another path."""
    service.run.mkdir(0o700)
    (service.run / "trace").write_text("session S1\n")
    process = service.start()
    service.state_is()
    time.sleep(2)
    hope("the file", (service.run / "trace").exists(), False)
    hope("traced", "event=trace" in service.log.read_text(), False)
    process.terminate()
    process.wait(PATIENCE)
    service.environment["RAD_PROXY_TRACE"] = "elsewhere"
    (service.room / "elsewhere").write_text("session S1\n")
    service.start(cwd=service.room)
    until("it is traced", lambda: "event=trace count=1" in service.log.read_text())


def it_reads_the_journal_of_the_unit(service):
    """Of an active unit it reads the journal, from then on."""
    if os.getuid() != 0:
        raise LeftOut("it wants root")
    service.start()
    programs = service.room / "programs"
    programs.mkdir()
    (programs / "systemctl").write_text(f'#!/bin/sh\n[ "$*" = "is-active --quiet rad_proxy@{UNIT}" ]\n')
    (programs / "journalctl").write_text(f'#!/bin/sh\necho "$*" >{service.room}/words\nexec tail -n +1 -F {service.log}\n')
    for program in programs.iterdir():
        program.chmod(0o755)
    link = pathlib.Path(f"/run/rad_proxy-{UNIT}")
    link.symlink_to(service.run)
    try:
        begun = int(time.time())
        more = {"PATH": f"{programs}:{os.environ['PATH']}"}
        asker = subprocess.Popen([service.ctl, "-i", UNIT, "trace", "--session", "S1", "--seconds", "6"], stdout=subprocess.PIPE,
                                 stderr=subprocess.PIPE, text=True, env=service.environment | more)
        until("it is traced", lambda: "event=trace count=1" in service.log.read_text())
        asks(service, b"S1")
        see_ended(service, asker, 0, logged(service, 5))
        words = (service.room / "words").read_text().split()
        need(begun <= int(words[3].partition("@")[2]) <= begun + 3, words)
        hope("words", words[:3] + words[4:], ["--quiet", "--follow", "--no-tail", "--output=cat", f"--unit=rad_proxy@{UNIT}"])
    finally:
        with contextlib.suppress(OSError):
            link.unlink()


TESTS = [it_prints_the_lines_of_a_session, several_are_traced, a_fault_of_the_file_is_printed, one_at_a_time,
         whoever_is_stopped_removes_the_file, a_signal_waits_until_the_file_is_made, bad_words_are_told,
         without_a_service_or_a_log_it_says_so, serve_removes_what_is_left, it_reads_the_journal_of_the_unit]


if __name__ == "__main__":
    heed_signals()
    try_named(TESTS, Service, __doc__)
