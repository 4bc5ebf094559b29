"""Tries the scripts of the service, `serve` and `rad_proxyctl`, over a program that is built, as an operator would misuse them.

usage: python3 -m tests.service.serve_and_rad_proxyctl PROGRAM [--moments N] [NAME ..]

Each test is a function below, and its first line tells what holds. Names choose tests; N is how many moments are tried at which
`serve` gets SIGTERM. It wants no right of root and no systemd, and uses loopback alone; what needs another user is tried where
root runs this, and else told as left out. The last line is `N passed, M failed`.
"""
import contextlib
import fcntl
import grp
import json
import os
import pathlib
import pty
import pwd
import re
import resource
import shutil
import signal
import socket
import socketserver
import stat
import subprocess
import sys
import threading
import time
import urllib.error
import urllib.parse
import urllib.request
from concurrent.futures import ThreadPoolExecutor

from tests.lib import (NEW_LANE, NOTHING_LEFT, PATIENCE, TOP, LeftOut, Service, answered, built, free_port, free_ports, heed_signals, hope,
                       is_so, request_of_nas, try_named, until)

# At how many moments `serve` gets SIGTERM, how many run at once, and how many seconds one has to end on a machine that is busy.
MOMENTS, AT_ONCE, LATEST = 150, 4, 8
STRANGER = 65534


def drains_where_its_group_gets_the_signal(service):
    """TERM, INT, HUP and QUIT to the whole process group: the request that waits is answered, and the status is 0."""
    for number in (signal.SIGTERM, signal.SIGINT, signal.SIGHUP, signal.SIGQUIT):
        process = service.start()
        service.send(request_of_nas())
        octets, proxy = service.home.recvfrom(4096)
        os.killpg(process.pid, number)
        time.sleep(0.3)
        service.home.sendto(answered(octets), proxy)
        response = service.nas.recv(4096)
        hope(f"{number.name}: code", response[0], 5)
        hope(f"{number.name}: status", process.wait(PATIENCE), 0)
        hope(f"{number.name}: last line", service.printed.read_text().splitlines()[-1], NOTHING_LEFT)


def drains_where_its_terminal_is_closed(service):
    """A terminal that is closed sends HUP to the group, and takes standard output away: the request is answered."""
    ours, theirs = pty.openpty()
    script = f'exec setsid --ctty "{service.serve}" "{service.file}"'
    process = service.start(wait=False, stdin=theirs, stdout=theirs, stderr=subprocess.DEVNULL)
    process.kill()
    process.wait()
    process = subprocess.Popen(["sh", "-c", script], stdin=theirs, stdout=theirs, stderr=theirs, env=service.environment)
    service.started.append(process)
    os.close(theirs)
    until("it listens", lambda: b"listening" in os.read(ours, 4096))
    service.send(request_of_nas())
    octets, proxy = service.home.recvfrom(4096)
    os.close(ours)
    time.sleep(0.3)
    service.home.sendto(answered(octets), proxy)
    hope("code", service.nas.recv(4096)[0], 5)
    hope("status", process.wait(PATIENCE), 0)


def goes_on_at_a_hangup_under_systemd(service):
    """Where systemd started it, three HUPs to the group are one line of the log, and it serves on; TERM then ends it well."""
    with socket.socket(socket.AF_UNIX, socket.SOCK_DGRAM) as heard:
        heard.bind(str(service.room / "notify"))
        process = service.start(env=service.environment | {"NOTIFY_SOCKET": str(service.room / "notify")})
        for _ in range(3):
            os.killpg(process.pid, signal.SIGHUP)
            time.sleep(0.2)
        service.send(request_of_nas())
        octets, proxy = service.home.recvfrom(4096)
        service.home.sendto(answered(octets), proxy)
        hope("code", service.nas.recv(4096)[0], 5)
        told = [line for line in service.log.read_text().splitlines() if "event=hangup" in line]
        hope("lines", told, ['level=warn event=hangup hint="the configuration is read at a start alone: rad_proxyctl restart"'])
        process.terminate()
        hope("status", process.wait(PATIENCE), 0)


def goes_on_at_a_hangup_while_it_begins_under_systemd(service):
    """Where systemd started it, a HUP ends nothing while it has not begun to serve."""
    (service.room / "bin").mkdir()
    slow = service.room / "bin/mkdir"
    slow.write_text(f'#!/bin/sh\n: >"{service.room}/begun"\nwhile [ ! -e "{service.room}/go" ]; do sleep 0.01; done\nexec /bin/mkdir "$@"\n')
    slow.chmod(0o755)
    more = {"NOTIFY_SOCKET": str(service.room / "notify"), "PATH": f"{service.room}/bin:{os.environ['PATH']}"}
    with socket.socket(socket.AF_UNIX, socket.SOCK_DGRAM) as heard:
        heard.bind(str(service.room / "notify"))
        process = service.start(wait=False, env=service.environment | more)
        until("it begins", (service.room / "begun").exists)
        os.kill(process.pid, signal.SIGHUP)
        (service.room / "go").touch()
        until("it listens", lambda: "listening" in service.printed.read_text())
        process.terminate()
        hope("status", process.wait(PATIENCE), 0)


def ended_by_term(service, name, port, await_moment, **variables):
    """How many seconds a `serve` of its own folder and port needs to end, that gets SIGTERM once `await_moment` of the folder returns."""
    file, folder = service.room / f"{name}.toml", service.room / name
    file.write_text(re.sub(r'(?m)^listen = .*', f'listen = "127.0.0.1:{port}"', service.file.read_text()))
    environment = service.environment | {"RUNTIME_DIRECTORY": str(folder)} | variables
    made = subprocess.Popen([service.serve, file], stdin=subprocess.DEVNULL, stdout=subprocess.DEVNULL, stderr=subprocess.DEVNULL,
                            env=environment, start_new_session=True)
    service.started.append(made)
    await_moment(folder)
    made.terminate()
    began = time.monotonic()
    with contextlib.suppress(subprocess.TimeoutExpired):
        made.wait(LATEST)
    seconds = time.monotonic() - began
    hope("status", made.returncode if made.returncode not in (None, -signal.SIGTERM) else 0, 0)
    return seconds


def see_each_ended(service, ended):
    """Each end that is given, as its seconds and its moment, came before LATEST, and nothing that was started is left."""
    late = [pair for pair in ended if pair[0] >= LATEST]
    hope("seconds to the end, and seconds from the start to the signal", late, [])
    until("nothing is left", lambda: not service.living())


def a_term_at_any_moment_ends_it(service):
    """SIGTERM at any moment from the first line of `serve` on ends it within a second: moments spread over the time until it listens."""
    began = time.monotonic()
    service.start().terminate()
    apart, ports = 1.5 * (time.monotonic() - began) / MOMENTS, free_ports(AT_ONCE)

    def ended(worker):
        moments = [apart * each for each in range(worker, MOMENTS, AT_ONCE)]
        return [(ended_by_term(service, f"at{each}", ports[worker], lambda _: time.sleep(each)), each) for each in moments]

    with ThreadPoolExecutor(AT_ONCE) as pool:
        ends = sorted(pair for pairs in pool.map(ended, range(AT_ONCE)) for pair in pairs)
    see_each_ended(service, ends)
    # On a machine that is idle all of them do.
    hope(f"whether nine of ten took less than a second, of which the slowest were {ends[-3:]}", ends[len(ends) * 9 // 10][0] < 1, True)


def a_term_while_it_opens_its_fifos_ends_it(service):
    """The same where each opening of the pipe of its output takes a tenth of a second, so that the signal comes before, in and after each one."""
    variables = {"LD_PRELOAD": built(service.room, "slow_files"), "SLOW_PATH": "lines", "SLOW_OPEN": "100"}

    def ended(each, port):
        def await_moment(folder):
            until("the fifos", (folder / "lines").exists, apart=0.001)
            time.sleep(each / 60)

        return ended_by_term(service, f"in{each}", port, await_moment, **variables), each / 60

    with ThreadPoolExecutor(8) as pool:
        see_each_ended(service, list(pool.map(ended, range(24), free_ports(24))))


def a_limit_on_the_size_of_files_ends_nothing(service):
    """Under a limit as LimitFSIZE sets it ledger, counters and log are told as not written, and requests are answered; without it
    all three are written again."""
    ledger, most = service.room / "ledger", 500
    ledger.mkdir()
    service.environment |= {"RAD_PROXY_LEDGER": str(ledger), "RAD_PROXY_LOG": "debug"}
    none = resource.RLIM_INFINITY
    process = service.start(preexec_fn=lambda: resource.setrlimit(resource.RLIMIT_FSIZE, (most, none)))
    program = until("program", lambda: [pid for pid, name in service.children(process) if name == "rad_proxy"])[0]

    def is_answered():
        service.send(request_of_nas())
        octets, proxy = service.home.recvfrom(4096)
        service.home.sendto(answered(octets), proxy)
        return service.nas.recv(4096)[0] == 5

    hope("a request is answered", is_answered(), True)
    for text in ('event=counters-fault reason="not written"', "event=ledger-fault reason=\"can't write: File too large (os error 27)\""):
        until(text, lambda: text in service.log.read_text())
    for _ in range(20):
        service.send(b"no packet")
    until("the log is full", lambda: service.log.stat().st_size == most)
    service.send(request_of_nas())
    hope("it is answered again", service.nas.recv(4096)[0], 5)
    done = service.ask("state")
    hope("it answers", (done.returncode, done.stdout.split()[4]), (0, "open"))
    resource.prlimit(program, resource.RLIMIT_FSIZE, (none, none))
    until("the ledger has the record", lambda: any('"response"' in path.read_text() for path in ledger.iterdir()))
    until("the counters", (service.run / "counters").exists)
    service.send(b"no packet")
    until("lines were lost", lambda: "event=lines-dropped" in service.log.read_text())
    process.terminate()
    hope("status", process.wait(PATIENCE), 0)
    hope("the ledger's end", any('"type":"end"' in path.read_text() for path in ledger.iterdir()), True)


def a_drain_that_failed_is_not_obeyed_later(service):
    """A `drain` that is told as failed, since the proxy is suspended, is never obeyed; one that the proxy has read is told as such."""
    process = service.start()
    program, handing = (until(word, lambda: [pid for pid, name in service.children(process) if (name == "rad_proxy") == is_it])[0]
                        for word, is_it in (("program", True), ("hand-over", False)))
    os.kill(program, signal.SIGSTOP)
    done = service.ask("drain")
    hope("it is suspended", (done.returncode, done.stderr), (4, "rad_proxyctl: no answer in 5 seconds\n"))
    os.kill(program, signal.SIGCONT)
    time.sleep(0.5)
    service.state_is("it goes on")
    os.kill(handing, signal.SIGSTOP)
    done = service.ask("drain")
    hope("its answer is not handed on", (done.returncode, done.stderr),
         (4, "rad_proxyctl: no answer in 5 seconds, but the proxy has read the command and may obey it yet\n"))
    os.kill(handing, signal.SIGCONT)
    done = service.ask("state")
    hope("it drains", (done.returncode, done.stdout), (0, NEW_LANE.replace("open", "done", 1)))


def a_second_leaves_the_first_alone(service):
    """A second serve in the same folder ends with 4 and says so; the first one's fifos and counters stay, and it answers."""
    first = service.start()
    until("counters", (service.run / "counters").exists)
    before = {name: os.stat(service.run / name).st_ino for name in ("commands", "lines")}
    second = service.start(wait=False)
    hope("status of the second", second.wait(PATIENCE), 4)
    hope("what it says", service.log.read_text(), f"serve: another one serves in {service.run}\n")
    hope("fifos", {name: os.stat(service.run / name).st_ino for name in before}, before)
    service.state_is()
    first.terminate()
    hope("status of the first", first.wait(PATIENCE), 0)
    third = service.start()
    service.state_is("one after it")
    third.terminate()
    hope("status of the third", third.wait(PATIENCE), 0)


def the_lock_outlives_a_serve_that_was_killed(service):
    """While the program of a serve that was killed still drains, the folder stays its own."""
    service.configure(linger=3000)
    first = service.start()
    service.send(request_of_nas())
    service.home.recvfrom(4096)
    first.kill()
    first.wait()
    second = service.start(wait=False)
    hope("status of the second", second.wait(PATIENCE), 4)
    until("the first is gone", lambda: subprocess.run(["flock", "-n", service.run, "true"]).returncode == 0)
    service.start()


def refuses_a_folder_that_others_write_in(service):
    """Neither script uses a folder in which others may put links."""
    service.run.mkdir()
    service.run.chmod(0o777)
    process = service.start(wait=False)
    hope("status of serve", process.wait(PATIENCE), 4)
    hope("what it says", service.log.read_text(), f"serve: others may write in {service.run}\n")
    done = service.ask("state")
    hope("rad_proxyctl", (done.returncode, done.stderr),
         (4, f"rad_proxyctl: others than its owner may write in {service.run}\n"))


def whatever_the_umask(service):
    """The fifos and the folder are its user's alone, whatever the umask of who starts it."""
    for mask in (0o000, 0o077, 0o777):
        shutil.rmtree(service.run, ignore_errors=True)
        process = service.start(preexec_fn=lambda: os.umask(mask))
        done = service.ask("state", preexec_fn=lambda: os.umask(mask))
        hope(f"umask {mask:o}", (done.returncode, done.stdout), (0, NEW_LANE))
        hope("folder", stat.S_IMODE(service.run.stat().st_mode), 0o700)
        for name in ("commands", "lines"):
            hope(name, oct(stat.S_IMODE((service.run / name).stat().st_mode)), oct(0o600))
        process.terminate()
        hope("status", process.wait(PATIENCE), 0)


def busy_seconds(service):
    """What a busy machine may take beyond a bound: four times as long as an answer to `state` takes now."""
    began = time.monotonic()
    service.state_is()
    return 4 * (time.monotonic() - began)


def a_stopped_asker_keeps_nobody_out(service):
    """rad_proxyctl that is stopped, by Ctrl-Z say, while no answer comes: a second one is answered once there are answers."""
    process = service.start()
    more = busy_seconds(service)
    program = until("program", lambda: [pid for pid, name in service.children(process) if name == "rad_proxy"])[0]
    os.kill(program, signal.SIGSTOP)
    asker = subprocess.Popen([service.ctl, "state"], env=service.environment, stdout=subprocess.PIPE, stderr=subprocess.PIPE,
                             start_new_session=True)
    time.sleep(1)
    os.killpg(asker.pid, signal.SIGSTOP)
    os.kill(program, signal.SIGCONT)
    began = time.monotonic()
    service.state_is("a second one")
    hope("in time", time.monotonic() - began < 10 + more, True)
    os.killpg(asker.pid, signal.SIGCONT)
    hope("the first", asker.wait(PATIENCE) in (0, 4), True)
    service.state_is("a third one")


def an_asker_without_an_answer_gives_up(service):
    """Where the program is stopped, rad_proxyctl ends with 4 after 5 seconds and says why, and its lock is free then."""
    process = service.start()
    more = busy_seconds(service)
    program = until("program", lambda: [pid for pid, name in service.children(process) if name == "rad_proxy"])[0]
    os.kill(program, signal.SIGSTOP)
    began = time.monotonic()
    done = service.ask("state")
    hope("it says", (done.returncode, done.stderr), (4, "rad_proxyctl: no answer in 5 seconds\n"))
    hope("seconds", 4 < time.monotonic() - began < 15 + more, True)
    os.kill(program, signal.SIGCONT)
    service.state_is()


def many_ask_at_once(service):
    """Ten ask at once, and each has the whole answer."""
    service.start()
    given = {"env": service.environment, "stdout": subprocess.PIPE, "text": True}
    asking = [subprocess.Popen([service.ctl, "state"], **given) for _ in range(10)]
    for one in asking:
        hope("answer", (one.communicate(timeout=PATIENCE)[0], one.returncode), (NEW_LANE, 0))


def what_nobody_asked_goes_to_standard_output(service):
    """What the program prints for a command that came by no asker goes to standard output, also once somebody has asked."""
    process = service.start()
    for count in range(1, 3):
        subprocess.run(["sh", "-c", "echo nonsense 1<>commands"], cwd=service.run, check=True)
        until("it is printed", lambda: service.printed.read_text().splitlines()[1:] == count * ["unknown"])
        service.state_is()
    process.terminate()
    hope("status", process.wait(PATIENCE), 0)


def a_hand_over_that_dies_is_started_anew(service):
    """Where the process that hands on what the program prints is killed, the program goes on and is answered again."""
    process = service.start()
    for _ in range(3):
        handing = until("hand-over", lambda: [pid for pid, name in service.children(process) if name != "rad_proxy"])[0]
        os.kill(handing, signal.SIGKILL)
        until("another one", lambda: [pid for pid, name in service.children(process) if name != "rad_proxy" and pid != handing])
        service.state_is()
    process.terminate()
    hope("status", process.wait(PATIENCE), 0)
    hope("last line", service.printed.read_text().splitlines()[-1], NOTHING_LEFT)


def nobody_reads_its_output(service):
    """Where standard output's reader is gone, the service goes on, and what it took is answered at the stop."""
    reading, writing = os.pipe()
    process = service.start(wait=False, stdout=writing)
    os.close(writing)
    hope("it listens", os.read(reading, 4096).startswith(b"listening"), True)
    os.close(reading)
    for _ in range(2):
        subprocess.run(["sh", "-c", "echo nonsense 1<>commands"], cwd=service.run, check=True)
        time.sleep(0.3)
    service.state_is()
    service.send(request_of_nas())
    octets, proxy = service.home.recvfrom(4096)
    process.terminate()
    time.sleep(0.3)
    service.home.sendto(answered(octets), proxy)
    hope("code", service.nas.recv(4096)[0], 5)
    hope("status", process.wait(PATIENCE), 0)


def its_output_is_full(service):
    """Where standard output is full and nobody reads it, from the first line on, askers are answered and the stop ends."""
    reading, writing = os.pipe()
    os.set_blocking(writing, False)
    try:
        while True:
            os.write(writing, bytes(4096))
    except BlockingIOError:
        os.set_blocking(writing, True)
    process = service.start(wait=False, stdout=writing)
    os.close(writing)
    until("it answers", lambda: (service.run / "lines").exists() and service.ask("state").stdout == NEW_LANE)
    subprocess.run(["sh", "-c", "echo nonsense 1<>commands"], cwd=service.run, check=True)
    service.send(request_of_nas())
    octets, proxy = service.home.recvfrom(4096)
    process.terminate()
    time.sleep(0.3)
    service.home.sendto(answered(octets), proxy)
    hope("code", service.nas.recv(4096)[0], 5)
    hope("status", process.wait(PATIENCE), 0)
    os.close(reading)


def out_is_gone_before_it_says_that_it_listens(service):
    """The file `out` of a proxy that was drained is gone before the first line is printed, which may take its time."""
    (service.room / "bin").mkdir()
    printing = service.room / "bin/timeout"
    printing.write_text(f'#!/bin/sh\nls >>"{service.room}/seen"\nexec {shutil.which("timeout")} "$@"\n')
    printing.chmod(0o755)
    service.run.mkdir(0o700)
    (service.run / "out").touch()
    service.start(env=service.environment | {"PATH": f"{service.room}/bin:{os.environ['PATH']}"})
    hope("what stood there", sorted({"commands", "out"} & {*(service.room / "seen").read_text().split()}), ["commands"])


def a_reader_that_pauses_again_loses_nothing(service):
    """Lines that nobody reads for some seconds are given up. Once one goes out again, the next one is waited for as long as before."""
    reading, writing = os.pipe()
    fcntl.fcntl(writing, fcntl.F_SETPIPE_SZ, 4096)
    process = service.start(wait=False, stdout=writing)
    hope("it listens", os.read(reading, 4096).startswith(b"listening"), True)
    # The service's own end stays one that blocks.
    filling = os.open(f"/proc/self/fd/{writing}", os.O_WRONLY | os.O_NONBLOCK)
    os.close(writing)
    os.set_blocking(reading, False)

    def says(pause, patience=PATIENCE):
        """Whether a line comes for a word that is none, where the pipe is full for so long."""
        with contextlib.suppress(BlockingIOError):
            while pause:
                os.write(filling, bytes(4096))
        subprocess.run(["sh", "-c", "echo nonsense 1<>commands"], cwd=service.run, check=True)
        time.sleep(pause)
        return is_so(lambda: b"unknown" in taken(reading), patience)

    hope("a line that is given up", says(8, 1), False)
    hope("the next one, and one behind a pause", (says(0), says(1.5)), (True, True))
    process.terminate()
    hope("status", process.wait(PATIENCE), 0)
    for end in (reading, filling):
        os.close(end)


def taken(reading):
    """What there is in a pipe."""
    octets = b""
    with contextlib.suppress(BlockingIOError):
        while part := os.read(reading, 4096):
            octets += part
    return octets


def nothing_for_others_outlives_the_service(service):
    """Once the service has ended its folder is empty, of what is traced too; and what a killed one left there is gone once it listens."""
    for name in ("trace", "trace.new", "answer", "answer.new", "counters.7.new"):
        service.run.mkdir(exist_ok=True)
        (service.run / name).write_text("session S1\n")
    process = service.start()
    hope("at its start", sorted(it.name for it in service.run.iterdir() if it.name not in ("counters", "commands", "lines")), [])
    (service.run / "trace").write_text("session S1\n")
    process.terminate()
    hope("status", process.wait(PATIENCE), 0)
    hope("at its end", sorted(it.name for it in service.run.iterdir()), [])


def what_is_left_over_is_a_warning(service):
    """Status 3 comes with a line of the log at warn, and without it at error, in letters of either case."""
    left = ["level=warn event=left", "level=warn event=left-over queued=0 outstanding=1 untaken=0"]
    for level, lines in (("warn", left), ("WARN", left), ("Info", left), ("error", []), ("ERROR", []), ("Error", []), ("OFF", [])):
        service.configure(linger=200)
        service.environment["RAD_PROXY_LOG"] = level
        process = service.start()
        service.send(request_of_nas())
        service.home.recvfrom(4096)
        process.terminate()
        hope("status", process.wait(PATIENCE), 3)
        told = [line.partition(" home=")[0] for line in service.log.read_text().splitlines()]
        hope(f"log at {level}", [line for line in told if not line.startswith("level=info")], lines)


def counters_elsewhere_are_told(service):
    """Where the counters go to another file, `metrics` prints the lanes, says what is missing, and ends with 4."""
    service.environment["RAD_PROXY_COUNTERS"] = str(service.room / "elsewhere")
    service.start()
    done = service.ask("metrics")
    hope("status", done.returncode, 4)
    hope("what it says", done.stderr,
         f"rad_proxyctl: no counters in {service.run}: RAD_PROXY_COUNTERS of the service names another file, or it cannot write them\n")
    hope("lanes", 'rad_proxy_home_up{lane="0",home="h1"} 1' in done.stdout, True)


def the_ledger_is_where_the_variable_says(service):
    """`serve` hands the folders of the ledger and of the spool on, also where their paths are relative; nothing but the program logs."""
    (service.room / "ledger").mkdir()
    for number, folder in enumerate((service.room, pathlib.Path("")), 1):
        service.environment |= {"RAD_PROXY_LEDGER": str(folder / "ledger"), "RAD_PROXY_SPOOL": str(folder / "spool")}
        process = service.start(cwd=service.room)
        process.terminate()
        hope("status", process.wait(PATIENCE), 0)
        hope("files", len(list((service.room / "ledger").glob("*-000000.jsonl"))), number)
        hope("the lock of the spool", [file.name for file in (service.room / "spool").iterdir()], ["lock"])
        shutil.rmtree(service.room / "spool")
    for name in ("RAD_PROXY_LEDGER", "RAD_PROXY_SPOOL"):
        del service.environment[name]
    service.start()
    hope("other lines", [line for line in service.log.read_text().splitlines() if not line.startswith("level=")], [])


def counters_that_cannot_be_written_are_told(service):
    """Where a folder stands in the place of the counters it is the same, and the log says why."""
    service.start()
    until("counters", (service.run / "counters").exists)

    def replace():
        with contextlib.suppress(OSError):
            (service.run / "counters").unlink(missing_ok=True)
            (service.run / "counters").mkdir()
        return (service.run / "counters").is_dir()

    until("a folder", replace)
    until("it is told", lambda: "event=counters-fault" in service.log.read_text())
    done = service.ask("metrics")
    hope("status", done.returncode, 4)
    hope("what it says", done.stderr.endswith("names another file, or it cannot write them\n"), True)


def counters_that_are_not_written_are_told(service):
    """Where the program writes its counters no more, `metrics` prints the lanes, says so, and ends with 4."""
    service.environment["RAD_PROXY_COUNTERS"] = str(service.room / "elsewhere")
    service.start()
    (service.run / "counters").write_text("of yesterday\n")
    done = service.ask("metrics")
    hope("status", (done.returncode, done.stderr), (4, f"rad_proxyctl: the counters in {service.run} are not written any more\n"))
    hope("lanes", 'rad_proxy_home_up{lane="0",home="h1"} 1' in done.stdout, True)
    hope("old counters", "of yesterday" in done.stdout, False)


def kind_of(family):
    if family in ("rad_proxy_reply_seconds", "rad_proxy_response_seconds"):
        return "histogram"
    return "counter" if family.endswith("_total") else "gauge"


def names_of(family):
    """The names that the samples of a family may have."""
    return [f"{family}_{part}" for part in ("bucket", "sum", "count")] if kind_of(family) == "histogram" else [family]


def metrics_are_as_prometheus_reads_them(service):
    """Each family of `metrics` stands once, behind its HELP and its TYPE; `promtool check metrics` finds no fault, where it is here."""
    service.start()
    until("counters", (service.run / "counters").exists)
    done = service.ask("metrics")
    hope("status", (done.returncode, done.stderr), (0, ""))
    families, family, samples = [], None, 0
    for line in done.stdout.splitlines():
        if line.startswith("# HELP "):
            family = line.split()[2]
            families.append(family)
            hope(f"what {family} counts", len(line.split(None, 3)), 4)
        elif line.startswith("# TYPE "):
            hope("type", line, f"# TYPE {family} {kind_of(family)}")
        else:
            name = re.fullmatch(r"(\w+)(?:\{[^{}]*\})? \d+(?:\.\d{3}|\.\d{6})?", line)[1]
            hope(f"{name} of {family}", name in names_of(family), True)
            samples += 1
    hope("families that stand twice", [name for name in set(families) if families.count(name) > 1], [])
    hope("numbers", samples > len(families) > 40, True)
    if shutil.which("promtool"):
        checked = subprocess.run(["promtool", "check", "metrics"], input=done.stdout, capture_output=True, text=True)
        hope("promtool", (checked.returncode, checked.stdout + checked.stderr), (0, ""))


def metrics_go_to_a_file(service):
    """`metrics FILE` writes the metrics whole to a new file that everybody may read and that takes the place of FILE, and leaves
    nothing beside it."""
    service.start()
    until("counters", (service.run / "counters").exists)
    folder = service.room / "collected"
    folder.mkdir()
    file = folder / "rad_proxy.prom"
    for mask in (0o022, 0o077):
        done = service.ask("metrics", str(file), preexec_fn=lambda: os.umask(mask))
        hope("it ends", (done.returncode, done.stdout, done.stderr), (0, "", ""))
        told = service.ask("metrics").stdout
        hope("names", *(re.findall(r"^[a-z#].*(?= )", text, re.M) for text in (file.read_text(), told)))
        hope("mode", oct(stat.S_IMODE(file.stat().st_mode)), oct(0o644))
        hope("folder", os.listdir(folder), [file.name])
    with file.open() as kept:
        text = kept.read()
        done = service.ask("metrics", file.name, cwd=folder)
        hope("a name in this folder", (done.returncode, done.stderr), (0, ""))
        kept.seek(0)
        hope("the file before", kept.read(), text)
        hope("another file", os.fstat(kept.fileno()).st_ino != file.stat().st_ino, True)


def top_draws_what_is_there(service):
    """`top` prints its tables once where its output is no terminal; on one it draws them again and again, in place of those before."""
    service.start()
    until("counters", (service.run / "counters").exists)
    service.send(b"no packet")
    done = service.ask("top")
    hope("it ends", (done.returncode, done.stderr), (0, ""))
    first, *lines = done.stdout.splitlines()
    hope("head", re.sub(r"\d+\.\ds", "SECONDS", first), "rad_proxy 0.1.0, running for SECONDS")
    rows = [line.split() for line in lines if line]
    hope("heads", [row[0] for row in rows[::2]], ["HOME", "CLIENT", "DROPS"])
    hope("home", (rows[1][:2], rows[1][3:]), (["h1", "up"], ["0.0", "0.0", "0.0", "0.0", "-", "-", "0", "0", "0%", "never"]))
    hope("client", rows[3][0], "127.0.0.1")
    ours, theirs = pty.openpty()
    drawing = subprocess.Popen([service.ctl, "top"], stdin=theirs, stdout=theirs, stderr=theirs, env=service.environment)
    os.close(theirs)
    try:
        drawn = b""
        while drawn.count(b"\033[H\033[2J") < 3:
            drawn += os.read(ours, 4096)
        hope("tables", drawn.count(b"HOME") >= 2, True)
    finally:
        drawing.terminate()
        drawing.wait(PATIENCE)
        os.close(ours)


def top_has_a_line_of_the_spool(service):
    """Over a spool `top` has a line of it: what is open there, what is not on disk, how old the oldest is, and how much room it takes."""
    spool = service.room / "spool"
    service.environment |= {"RAD_PROXY_SPOOL": str(spool)}
    service.start()
    until("counters", (service.run / "counters").exists)
    service.send(request_of_nas())
    until("it is open", lambda: "\nrad_proxy_spool_open_requests 1\n" in service.ask("metrics").stdout)
    (line,) = [line for line in service.ask("top").stdout.splitlines() if line.startswith("SPOOL")]
    hope("the line", re.sub(r"\d+\.\ds", "SECONDS", line), "SPOOL  1 open, 0 not on disk, the oldest SECONDS old, 0 dropped, 0.0 MiB")
    hope("an age", 0 <= float(re.search(r"(\d+\.\d)s", line)[1]) < 60, True)


def top_draws_a_table_as_soon_as_its_numbers_are_there(service):
    """On a terminal each table comes with its own numbers, and not with the next ones: so within less than a second of them."""
    service.start()
    until("counters", (service.run / "counters").exists)
    began = float(re.search(r"^rad_proxy_start_time_seconds (.*)", service.ask("metrics").stdout, re.M)[1])
    ours, theirs = pty.openpty()
    drawing = subprocess.Popen([service.ctl, "top"], stdin=theirs, stdout=theirs, stderr=theirs, env=service.environment)
    os.close(theirs)
    try:
        ages, drawn = [], b""
        while len(ages) < 4:
            drawn += os.read(ours, 65536)
            told = re.search(rb"running for ([0-9.]+)s.*FAULTS a second", drawn, re.S)
            if told:
                ages.append(time.time() - began - float(told[1]))
                drawn = drawn[told.end():]
        hope(f"the least of {ages} is below a second", min(ages) < 0.9, True)
    finally:
        drawing.terminate()
        drawing.wait(PATIENCE)
        os.close(ours)


def top_of_no_proxy_ends(service):
    """Where no proxy answers, `top` says so, and ends with 4."""
    done = service.ask("top")
    hope("no service", (done.returncode, done.stdout, done.stderr), (4, "", f"rad_proxyctl: no service in {service.run}, or no right to ask it\n"))


def metrics_of_no_proxy_are_removed(service):
    """Where no proxy answers, `metrics FILE` removes FILE, says why, and ends with 4; a proxy that was stopped is none."""
    file = service.room / "rad_proxy.prom"
    file.write_text("# HELP rad_proxy_old\n")
    done = service.ask("metrics", str(file))
    hope("no service", (done.returncode, done.stderr, file.exists()),
         (4, f"rad_proxyctl: no service in {service.run}, or no right to ask it\n", False))
    process = service.start()
    until("counters", (service.run / "counters").exists)
    service.ask("metrics", str(file))
    hope("a service", file.exists(), True)
    program = until("program", lambda: [pid for pid, name in service.children(process) if name == "rad_proxy"])[0]
    os.kill(program, signal.SIGSTOP)
    done = service.ask("metrics", str(file))
    hope("no answer", (done.returncode, done.stderr, file.exists()), (4, "rad_proxyctl: no answer in 5 seconds\n", False))
    os.kill(program, signal.SIGCONT)


def metrics_go_to_no_other_file(service):
    """`metrics FILE` leaves alone what is no regular file, and says so; where it can't write, it says so too."""
    service.start()
    until("counters", (service.run / "counters").exists)
    target, link, folder = (service.room / name for name in ("target", "link", "folder"))
    target.write_text("kept\n")
    link.symlink_to(target)
    folder.mkdir()
    for file in (link, folder, pathlib.Path("/dev/null")):
        done = service.ask("metrics", str(file))
        hope(str(file), (done.returncode, done.stderr), (4, f"rad_proxyctl: {file} is no regular file\n"))
    hope("target", (target.read_text(), link.is_symlink(), os.listdir(folder)), ("kept\n", True, []))
    file = service.room / "missing" / "file"
    done = service.ask("metrics", str(file))
    hope("no folder", (done.returncode, done.stderr), (4, f"rad_proxyctl: cannot write {file}\n"))
    done = service.ask("state", str(file))
    hope("state has no file", done.returncode, 1)
    file = folder / "rad_proxy.prom"
    file.write_text("# HELP rad_proxy_old\n")
    most = lambda: resource.setrlimit(resource.RLIMIT_FSIZE, (100, 100))
    done = service.ask("metrics", str(file), preexec_fn=most)
    hope("no room", (done.returncode, done.stderr), (4, f"rad_proxyctl: cannot write {file}\n"))
    hope("what is left", (os.listdir(folder), file.read_text()), ([file.name], "# HELP rad_proxy_old\n"))


def changed(service, name, *pairs):
    """Changes texts of an installed module of rad_proxyctl, each of which stands there once."""
    path = service.room / "usr/libexec/rad_proxy/controlling" / name
    text = path.read_text()
    for old, new in pairs:
        hope(f"how often {name} has {old!r}", text.count(old), 1)
        text = text.replace(old, new)
    path.write_text(text)


def look_of(path):
    """What a file is, and what it has, also where it is a link."""
    it = path.lstat()
    has = os.readlink(path) if path.is_symlink() else path.read_bytes() if path.is_file() else None
    return it.st_ino, it.st_mode, it.st_size, it.st_mtime_ns, has


def metrics_replace_nobody_elses_file(service):
    """`metrics FILE` leaves each file alone that is neither empty nor its own, each link, folder, fifo and device, and names it as a fault,
    whether a proxy answers or not; an empty file and its own ones are replaced, and removed where none answers."""
    folder = service.room / "files"
    folder.mkdir()
    contents = {"rad_proxy.toml": service.file.read_bytes(), "other.prom": b"# HELP node_load1 1\n", "short": b"# HELP rad_proxy", "text": b"a",
                "behind": b"\n# HELP rad_proxy_x y\n", "nothing": bytes(100)}
    for name, octets in contents.items():
        (folder / name).write_bytes(octets)
    (folder / "own.prom").write_bytes(b"# HELP rad_proxy_x y\n")
    for name, target in (("link", "own.prom"), ("broken", "nowhere"), ("loop", "loop"), ("to-empty", "/dev/null")):
        (folder / name).symlink_to(target)
    (folder / "folder").mkdir()
    os.mkfifo(folder / "fifo")
    another = "is no file of metrics: it neither is empty nor begins with # HELP rad_proxy_"
    kept = {folder / name: another for name in contents}
    kept |= {folder / name: "is no regular file" for name in ("link", "broken", "loop", "to-empty", "folder", "fifo")}
    kept[pathlib.Path("/dev/full")] = "is no regular file"

    def see_kept(text):
        for path, told in kept.items():
            before = look_of(path)
            done = service.ask("metrics", str(path))
            hope(f"{text}: {path}", (done.returncode, done.stdout, done.stderr), (4, "", f"rad_proxyctl: {path} {told}\n"))
            hope(f"{text}: {path}", look_of(path), before)
        hope(f"{text}: names", sorted(os.listdir(folder)), names)

    names = sorted(os.listdir(folder))
    see_kept("nobody answers")
    for octets in (b"", b"# HELP rad_proxy_x y\n"):
        (folder / "mine").write_bytes(octets)
        done = service.ask("metrics", str(folder / "mine"))
        hope("its own where nobody answers", (done.returncode, (folder / "mine").exists()), (4, False))
    service.start()
    until("counters", (service.run / "counters").exists)
    see_kept("a proxy answers")
    for octets in (b"", b"# HELP rad_proxy_x y\n"):
        (folder / "mine").write_bytes(octets)
        done = service.ask("metrics", str(folder / "mine"))
        hope("its own", (done.returncode, done.stderr, (folder / "mine").read_text().count("\nrad_proxy_home_up{")), (0, "", 1))
        (folder / "mine").unlink()


def no_stop_of_metrics_leaves_a_file(service):
    """HUP, INT and TERM at any moment of `metrics FILE` leave no new file beside FILE, also where the disk is slow."""
    service.start()
    until("counters", (service.run / "counters").exists)
    folder = service.room / "files"
    folder.mkdir()
    changed(service, "metrics.py", ("            os.rename(new, file)\n", "            __import__('time').sleep(0.5)\n            os.rename(new, file)\n"))
    for number in (signal.SIGHUP, signal.SIGINT, signal.SIGTERM):
        asker = subprocess.Popen([service.ctl, "metrics", folder / "mine"], env=service.environment, preexec_fn=heed_signals)
        until("the new file", lambda: os.listdir(folder))
        asker.send_signal(number)
        hope("status", asker.wait(PATIENCE) in (0, -number), True)
        hope("what is there", os.listdir(folder), ["mine"])
        (folder / "mine").unlink()


def scraped(service, octets, is_closed=False):
    """The status line, the head and the text of the response to a request of HTTP."""
    ours, theirs = socket.socketpair()
    with ours:
        with theirs:
            answers = subprocess.Popen([service.ctl, "http"], stdin=theirs, stdout=theirs, env=service.environment)
        ours.sendall(octets)
        if is_closed:
            ours.shutdown(socket.SHUT_WR)
        ours.settimeout(PATIENCE)
        with ours.makefile("rb") as reader:
            head, _, text = reader.read().decode().partition("\r\n\r\n")
        hope("status", answers.wait(PATIENCE), 0)
    first, *lines = head.split("\r\n")
    fields = dict(line.split(": ", 1) for line in lines)
    hope("length", int(fields["Content-Length"]), len(text))
    return first, fields, text


def metrics_are_had_by_http(service):
    """`http` answers a GET of /metrics or / by the metrics, and what else it is asked by a status that says why not."""
    service.start()
    until("counters", (service.run / "counters").exists)
    for path in ("/metrics", "/"):
        first, fields, text = scraped(service, f"GET {path} HTTP/1.1\r\nHost: here\r\n\r\n".encode())
        hope(path, (first, fields["Content-Type"]), ("HTTP/1.1 200 OK", "text/plain; version=0.0.4; charset=utf-8"))
        names = (re.findall(r"^[a-z#].*(?= )", each, re.M) for each in (text, service.ask("metrics").stdout))
        hope("names", *names)
    for octets, status in ((b"GET /other HTTP/1.1\r\n\r\n", "404 Not Found"), (b"GET / HTTP/2.0\n\n", "505 HTTP Version Not Supported"),
                           (b"POST /metrics HTTP/1.1\r\nContent-Length: 0\r\n\r\n", "405 Method Not Allowed"),
                           (b"HEAD / HTTP/1.0\r\n\r\n", "405 Method Not Allowed"), (b"\r\n\r\n", "400 Bad Request")):
        hope(str(octets), scraped(service, octets)[0], f"HTTP/1.1 {status}")
    for octets in (b"", b"GET /metrics HTTP/1.1\r\n", b"GET /metrics HTTP/1.1\r\n" + 200 * b"X: y\r\n"):
        hope(str(octets[:40]), scraped(service, octets, is_closed=True)[0], "HTTP/1.1 400 Bad Request")


def http_waits_for_no_client(service):
    """A client that sends no whole request is answered after a second; where no proxy answers, the response says so."""
    began = time.monotonic()
    first, _, text = scraped(service, b"GET /metrics HTTP/1.1\r\n")
    hope("no whole request", (first, text), ("HTTP/1.1 400 Bad Request", "no request of HTTP in 1 second\n"))
    waited, began = time.monotonic() - began, time.monotonic()
    first, _, text = scraped(service, b"GET /metrics HTTP/1.1\r\n\r\n")
    # On a busy machine a whole request takes long too.
    hope(f"seconds: {waited}", 0.9 < waited < 4 + 4 * (time.monotonic() - began), True)
    hope("no service", (first, text),
         ("HTTP/1.1 503 Service Unavailable", f"no service in {service.run}, or no right to ask it\n"))


def each_panel_of_the_dashboard_draws(service):
    """Each expression of examples/grafana-dashboard.json gives numbers, where a real Prometheus scrapes the service under load."""
    if shutil.which("prometheus") is None:
        raise LeftOut("Prometheus is not here")
    service.environment |= {"RAD_PROXY_SPOOL": str(service.room / "spool")}
    service.start()
    until("counters", (service.run / "counters").exists)
    panels = json.loads((TOP / "examples" / "grafana-dashboard.json").read_text())["panels"]
    asked = {target["expr"].replace("$__rate_interval", "8s") for panel in panels for target in panel["targets"]}
    sender = subprocess.Popen(
        [sys.executable, "-c", NASES, str(service.port), str(service.home.fileno())], cwd=TOP, pass_fds=[service.home.fileno()])
    try:
        with answering(service) as port, prometheus(service, port) as has_numbers:
            without = lambda: {each for each in asked if not has_numbers(each)}
            is_so(lambda: not without(), 2 * PATIENCE, 1)
            hope("without numbers", without(), set())
    finally:
        sender.kill()
        sender.wait()


@contextlib.contextmanager
def answering(service):
    """A port at which each connection is answered by `rad_proxyctl http`, as systemd does it."""

    class Handler(socketserver.BaseRequestHandler):
        def handle(self):
            subprocess.run([service.ctl, "http"], stdin=self.request, stdout=self.request, env=service.environment)

    with socketserver.ThreadingTCPServer(("127.0.0.1", 0), Handler) as server:
        threading.Thread(target=server.serve_forever, daemon=True).start()
        try:
            yield server.server_address[1]
        finally:
            server.shutdown()


@contextlib.contextmanager
def prometheus(service, port):
    """A Prometheus that scrapes this port, and whether it has numbers of an expression."""
    own = free_port()
    file, kept = service.room / "prometheus.yml", service.room / f"prometheus{own}"
    file.write_text("scrape_configs: [{job_name: rad_proxy, scrape_interval: 2s, scrape_timeout: 2s, "
                    f"static_configs: [{{targets: ['127.0.0.1:{port}']}}]}}]\n")
    words = ["prometheus", f"--config.file={file}", f"--storage.tsdb.path={kept}", f"--web.listen-address=127.0.0.1:{own}"]
    with open(service.room / "prometheus.log", "wb") as log:
        running = subprocess.Popen(words, stdout=log, stderr=log)

    def has_numbers(expression):
        url = f"http://127.0.0.1:{own}/api/v1/query?" + urllib.parse.urlencode({"query": expression})
        try:
            with urllib.request.urlopen(url, timeout=PATIENCE) as answer:
                return bool(json.load(answer)["data"]["result"])
        except (urllib.error.URLError, ConnectionError):
            return False

    try:
        yield has_numbers
    finally:
        running.kill()
        running.wait()


def sent_again_is_never_less_than_nothing(service):
    """While requests come, what `metrics` tells as sent is never less than what it tells as accepted and not queued."""
    service.start()
    see_sent_again(service)


def counters_that_are_written_late_are_waited_for(service):
    """The same where the counters are written half a second after they were read."""
    library, slow = built(service.room, "slow_files"), service.room / "slow/rad_proxy"
    slow.parent.mkdir()
    variables = f"LD_PRELOAD={library} SLOW_PATH={service.run} SLOW_OPEN=500"
    slow.write_text(f"#!/bin/sh\n{variables} exec {service.environment['RAD_PROXY_PROGRAM']} \"$@\"\n")
    slow.chmod(0o755)
    service.environment["RAD_PROXY_PROGRAM"] = str(slow)
    service.start()
    until("counters", (service.run / "counters").exists)
    see_sent_again(service)


def see_sent_again(service):
    """What `metrics` tells of a service, several times, while requests come."""
    sender = subprocess.Popen(
        [sys.executable, "-c", NASES, str(service.port), str(service.home.fileno())], cwd=TOP, pass_fds=[service.home.fileno()])
    try:
        until("requests come", lambda: re.search("^rad_proxy_accepted_total{.*} [1-9]", service.ask("metrics").stdout, re.M))
        for _ in range(4):
            done = service.ask("metrics")
            hope("status", (done.returncode, done.stderr), (0, ""))
            accepted, queued, sent = (int(re.search(rf"^rad_proxy_{name}{{.*}} (\d+)$", done.stdout, re.M)[1])
                                      for name in ("accepted_total", "queued", "sent_total"))
            hope(f"sent {sent} accepted {accepted} queued {queued}", sent >= accepted - queued, True)
    finally:
        sender.kill()
        sender.wait()


# Sends requests and answers them, some hundred a second, until it is killed.
NASES = """
import select, socket, sys
from tests.lib import answered, bound, request_of_nas
home = socket.socket(fileno=int(sys.argv[2]))
ports, count = [bound() for _ in range(32)], 0
while True:
    nas = ports[count // 256 % 32]
    nas.sendto(request_of_nas(count % 256), ("127.0.0.1", int(sys.argv[1])))
    count += 1
    while select.select([home], [], [], 0.001)[0]:
        octets, proxy = home.recvfrom(4096)
        home.sendto(answered(octets), proxy)
"""


def memory_is_refused_and_nothing_ends(service):
    """Under a limit of its data, as LimitDATA sets it, requests are refused as OutOfMemory, and the service goes on."""
    if b"__asan_init" in service.program.read_bytes():
        raise LeftOut("the program is built with AddressSanitizer, which runs under no such limit")
    process = service.start()
    program = until("program", lambda: [pid for pid, name in service.children(process) if name == "rad_proxy"])[0]
    status = pathlib.Path(f"/proc/{program}/status").read_text()
    data = int(re.search(r"VmData:\s+(\d+) kB", status)[1]) * 1024
    subprocess.run(["prlimit", f"--pid={program}", f"--data={data + 4 * 2**20}"], check=True)
    filling = b"".join(bytes([26, 255]) + bytes(253) for _ in range(15))

    def refused():
        for identifier in range(256):
            service.send(request_of_nas(identifier, filling + b"\x2c\x04" + os.urandom(2)))
        time.sleep(0.5)
        return 'reason="OutOfMemory"' in service.log.read_text()

    until("requests are refused", refused)
    done = service.ask("state")
    hope("it answers", (done.returncode, process.poll()), (0, None))


def an_answer_that_cannot_be_written_is_told(service):
    """Where standard output is a full disk or closed, rad_proxyctl says so and ends with 4."""
    service.start()
    until("counters", (service.run / "counters").exists)
    for words in ("state >/dev/full", "metrics >/dev/full", "drain >/dev/full", "state >&-", "metrics >&-"):
        done = subprocess.run(["sh", "-c", f'"$0" {words}', service.ctl], env=service.environment, capture_output=True,
                              text=True, timeout=PATIENCE)
        hope(words, (done.returncode, done.stderr), (4, "rad_proxyctl: cannot write the answer\n"))


def whoever_keeps_the_pipe_is_not_waited_for(service):
    """A process that was left behind while asked, and still has the pipe of the answer, does not keep rad_proxyctl."""
    service.start()
    more = busy_seconds(service)
    changed(service, "bounds.py", ("\nREAD_SECONDS = 30\n", "\nREAD_SECONDS = 4\n"))
    changed(service, "asking.py", ("    os.umask(0o077)\n", f"    os.umask(0o077)\n    os.spawnlp(os.P_NOWAIT, 'sleep', 'sleep', '{PATIENCE}')\n"))
    begun = time.monotonic()
    done = service.ask("state", timeout=PATIENCE)
    hope("its answer", (done.returncode, done.stdout), (0, NEW_LANE))
    hope("seconds", 3.5 < time.monotonic() - begun < 15 + more, True)


def a_service_of_a_stranger(service):
    """A service of STRANGER's, which root asks, and its program."""
    if os.getuid() != 0:
        raise LeftOut("it wants root")
    service.room.chmod(0o755)
    service.run.mkdir(0o700)
    os.chown(service.run, STRANGER, STRANGER)
    service.file.chmod(0o644)
    process = service.start(user=STRANGER, group=STRANGER, extra_groups=[])
    return until("program", lambda: [pid for pid, name in service.children(process) if name == "rad_proxy"])[0]


def the_owner_gets_nothing_of_roots(service):
    """What root starts as the folder's owner has the descriptors 0 to 2 alone, whichever are open where root calls; its own session,
    a clean environment, no new privileges, and no group but the folder's."""
    program = a_service_of_a_stranger(service)
    secret = service.room / "secret"
    secret.write_text("root's own\n")
    os.kill(program, signal.SIGSTOP)
    kept = [3, 9, 10, 12, 250]
    file = os.open(secret, os.O_RDWR)
    script = "import os, sys\nfor at in map(int, sys.argv[2:]): os.dup2(int(sys.argv[1]), at)\nos.execv(os.environ['CTL'], ['rad_proxyctl', 'state'])"
    words = [sys.executable, "-c", script, str(file), *map(str, kept)]
    asker = subprocess.Popen(words, env=service.environment | {"CTL": str(service.ctl), "ROOTS": "own"}, stdout=subprocess.DEVNULL,
                             stderr=subprocess.DEVNULL, pass_fds=[file])
    try:
        pid = until("somebody asks", lambda: [path.parent for path in pathlib.Path("/proc").glob("[0-9]*/cmdline")
                                              if is_of_a_stranger_who_asks(path, service.room)])[0]
        until("it waits for the answer", lambda: (service.run / "answer").exists())
        own = {"answer", "lock", "commands"}
        opened = {int(link.name): os.readlink(link) for link in pid.glob("fd/*")}
        others = {at: name for at, name in opened.items() if at > 2 and pathlib.Path(name).name not in own}
        hope("descriptors of others", others, {})
        hope("input and output", [name.partition(":")[0] for at, name in sorted(opened.items()) if at <= 2], ["/dev/null", "pipe", "pipe"])
        status = dict(line.split(":\t", 1) for line in (pid / "status").read_text().splitlines() if ":\t" in line)
        hope("its rights", [status[name].split() for name in ("NoNewPrivs", "Uid", "Gid", "Groups", "CapEff")],
             [["1"], 4 * [str(STRANGER)], 4 * [str(STRANGER)], [str(STRANGER)], ["0000000000000000"]])
        hope("its environment", (pid / "environ").read_bytes(), b"PATH=/usr/sbin:/usr/bin:/sbin:/bin\0")
        hope("its session", os.getsid(int(pid.name)) not in (os.getsid(0), os.getsid(asker.pid)), True)
    finally:
        os.close(file)
        os.kill(program, signal.SIGCONT)
        asker.wait(PATIENCE)


def the_owner_has_its_groups(service):
    """What root starts as the folder's owner has the groups of the system's database that the owner is in, and the folder's."""
    if os.getuid() != 0:
        raise LeftOut("it wants root")
    owner = next((pwd.getpwnam(name) for group in grp.getgrall() if group.gr_gid for name in group.gr_mem
                  if name in {it.pw_name for it in pwd.getpwall()} and pwd.getpwnam(name).pw_uid), None)
    if owner is None:
        raise LeftOut("nobody here is in another group than the own one")
    service.room.chmod(0o755)
    service.run.mkdir(0o700)
    os.chown(service.run, owner.pw_uid, STRANGER)
    os.mkfifo(service.run / "commands")
    os.chown(service.run / "commands", owner.pw_uid, STRANGER)
    changed(service, "asking.py", ("    os.umask(0o077)\n", "    print(*sorted(os.getgroups()))\n    return 4\n"))
    wanted = sorted({*os.getgrouplist(owner.pw_name, owner.pw_gid), STRANGER})
    hope("groups", service.ask("state").stderr.splitlines()[0], " ".join(map(str, wanted)))


def is_of_a_stranger_who_asks(path, room):
    """Whether this command line in /proc is that of a process of STRANGER's that asks, by what is installed in this room."""
    with contextlib.suppress(OSError):
        line = path.read_bytes()
        return path.stat().st_uid == STRANGER and all(part in line for part in (b"asking.py", os.fsencode(room))) and b"setpriv" not in line
    return False


def the_unit_takes_no_core_dump(service):
    """The units have the limit that keeps secrets out of core dumps."""
    for name in ("rad_proxy.service", "rad_proxy@.service"):
        lines = (service.room / "usr/lib/systemd/system" / name).read_text().splitlines()
        hope(name, [line for line in lines if line.startswith("LimitCORE")], ["LimitCORE=0"])


def relative_paths_hold(service):
    """Paths of the configuration, the folder, the program and the scripts may be relative to where one stands."""
    service.environment |= {"RUNTIME_DIRECTORY": "run", "RAD_PROXY_PROGRAM": "usr/sbin/rad_proxy", "CDPATH": "/tmp:."}
    service.file = "one.toml"
    service.serve = "usr/libexec/rad_proxy/serve"
    process = service.start(cwd=service.room)
    for ctl, room in (("usr/sbin/rad_proxyctl", service.room), ("./rad_proxyctl", service.room / "usr/sbin")):
        done = subprocess.run([ctl, "-d", os.path.relpath(service.run, room), "state"], cwd=room, env=service.environment,
                              capture_output=True, text=True, timeout=PATIENCE)
        hope(ctl, (done.returncode, done.stdout), (0, NEW_LANE))
    process.terminate()
    hope("status", process.wait(PATIENCE), 0)


def root_asks_as_the_owner(service):
    """Asked by root, links that the service's user planted in its folder do nothing: no file of root's is emptied or shown."""
    if os.getuid() != 0:
        raise LeftOut("it wants root")
    secret = service.room / "secret"
    secret.write_text("root's own\n")
    secret.chmod(0o600)
    service.room.chmod(0o755)
    service.run.mkdir(0o700)
    os.chown(service.run, STRANGER, STRANGER)
    service.file.chmod(0o644)
    process = service.start(user=STRANGER, group=STRANGER, extra_groups=[])
    done = service.ask("state")
    hope("root is answered", (done.returncode, done.stdout), (0, NEW_LANE))
    until("counters", (service.run / "counters").exists)
    for name in ("lock", "counters", "answer", "answer.new", "commands"):
        for words in ("state", "drain", "metrics"):
            path = service.run / name
            path.unlink(missing_ok=True)
            path.symlink_to(secret)
            done = service.ask(words)
            hope(f"{name} {words}: the file", secret.read_text(), "root's own\n")
            hope(f"{name} {words}: what is printed", "root's own" in done.stdout + done.stderr, False)
            path.unlink(missing_ok=True)
    mine = [str(path) for path in service.run.iterdir() if path.lstat().st_uid != STRANGER]
    hope("root's files in the folder", mine, [])
    process.kill()


def the_largest_answers_are_whole(service):
    """With as many clients and home servers as there can be, and names as long, `state` and `metrics` are had whole."""
    names = [f"{number:02d}".ljust(64, "h") for number in range(64)]
    clients = "".join(f'[[client]]\naddress = "192.168.255.{number}"\nsecret = "nas-secret"\n' for number in range(256))
    homes = "".join(f'[[home]]\nname = "{name}"\naddress = "127.0.0.1:{20000 + number}"\nsecret = "home-secret"\n'
                    f'[[realm]]\nname = "example{number}.org"\nhome = "{name}"\n' for number, name in enumerate(names))
    service.file.write_text(f'listen = "127.0.0.1:{service.port}"\n{clients}{homes}')
    service.start()
    until("counters", (service.run / "counters").exists)
    done = service.ask("state")
    hope("state", (done.returncode, [line.split()[2] for line in done.stdout.splitlines()]), (0, names))
    done = until("metrics", lambda: (found := service.ask("metrics")).returncode == 0 and found)
    hope("up", [line.split('"')[3] for line in done.stdout.splitlines() if line.startswith("rad_proxy_home_up{")], names)
    hope("clients", len(re.findall("^rad_proxy_client_received_total{", done.stdout, re.M)), 256)


def a_purge_leaves_no_link(service):
    """postrm takes away all that `systemctl enable` made of the package's units, wherever, and nothing else."""
    links = service.room / "etc/systemd/system"
    made = ["multi-user.target.wants/rad_proxy.service", "multi-user.target.wants/rad_proxy@one.service",
            "other.target.wants/rad_proxy@two.service", "sockets.target.wants/rad_proxy-metrics.socket",
            "timers.target.wants/rad_proxy-heads.timer", "paths.target.wants/rad_proxy-heads.path"]
    others = ["multi-user.target.wants/other.service", "sockets.target.wants/rad_proxy-mine.socket"]
    for name in made + others:
        (links / name).parent.mkdir(parents=True, exist_ok=True)
        (links / name).symlink_to(f"/lib/systemd/system/{pathlib.Path(name).name}")
    script = (TOP / "packaging/debian/postrm").read_text()
    script = re.sub("(?<= )/(?=etc/|var/|run/)", f"{service.room}/", script)
    subprocess.run(["sh", "-s", "purge"], input=script, text=True, check=True)
    hope("links", sorted(str(path.relative_to(links)) for path in links.glob("*/*")), others)
    units = {path.name for path in (service.room / "usr/lib/systemd/system").iterdir() if "[Install]" in path.read_text()}
    hope("units", units, {"rad_proxy.service", "rad_proxy@.service", "rad_proxy-metrics.socket", "rad_proxy-heads.timer",
                           "rad_proxy-heads.path"})


def node_exporter_reads_the_counters(service):
    """Debian's node exporter, as its own user, has the metrics by a link in its folder, where they are written as the unit's lines say."""
    if os.getuid() != 0 or shutil.which("prometheus-node-exporter") is None:
        raise LeftOut("it wants root and Debian's prometheus-node-exporter")
    lines = re.findall("^#(CacheDirectory.*|Environment=RAD_PROXY_COUNTERS.*)", (TOP / "packaging/rad_proxy.service.in").read_text(), re.M)
    hope("the unit's lines", lines, ["CacheDirectory=@runtime@", "CacheDirectoryMode=0755",
                                     "Environment=RAD_PROXY_COUNTERS=/var/cache/@runtime@/counters.prom"])
    service.room.chmod(0o755)
    collected, cache = service.room / "node-exporter", service.room / "cache"
    for folder, mode in ((service.run, 0o700), (cache, 0o755), (collected, 0o755)):
        folder.mkdir()
        folder.chmod(mode)
    for folder in (service.run, cache):
        os.chown(folder, STRANGER, STRANGER)
    service.file.chmod(0o644)
    (collected / "rad_proxy.prom").symlink_to(cache / "counters.prom")
    service.environment["RAD_PROXY_COUNTERS"] = str(cache / "counters.prom")
    process = service.start(user=STRANGER, group=STRANGER, extra_groups=[], preexec_fn=lambda: os.umask(0o077))
    until("counters", (cache / "counters.prom").exists)
    port = free_port()
    words = ["prometheus-node-exporter", f"--web.listen-address=127.0.0.1:{port}", "--collector.disable-defaults",
             "--collector.textfile", f"--collector.textfile.directory={collected}"]
    own = pwd.getpwnam("prometheus")
    with open(service.room / "exporter.log", "wb") as log:
        service.started.append(subprocess.Popen(words, stdout=log, stderr=log, start_new_session=True, user=own.pw_uid,
                                                group=own.pw_gid, extra_groups=[], cwd="/"))

    def scraped():
        with contextlib.suppress(urllib.error.URLError, ConnectionError):
            return urllib.request.urlopen(f"http://127.0.0.1:{port}/metrics", timeout=PATIENCE).read().decode()

    text = until("node exporter", scraped)
    hope("faults", re.findall("^node_textfile_scrape_error .*", text, re.M), ["node_textfile_scrape_error 0"])
    names = [set(re.findall("^rad_proxy_[a-z_]*", each, re.M)) for each in (text, (cache / "counters.prom").read_text())]
    hope("names", len(names[0]) > 40 and names[0] == names[1], True)
    process.terminate()
    hope("status", process.wait(PATIENCE), 0)


# What a hostile owner of the folder answers with: it waits for the fifo of each asker, and writes this into it, or has its counters be this.
OWNER = """
import fcntl, os, sys, time
folder, kind, owner = sys.argv[1:]
os.chdir(folder)
if os.getuid() != int(owner):
    os.setgroups([])
    os.setgid(int(owner))
    os.setuid(int(owner))
os.umask(0o077)
line = b"lane 0 h up open accepted 1 queued 0 outstanding 0 answered 1 opening 0\\n"
whole = line + b"unknown\\n"
counters = {"large counters": b"rad_proxy_x 1\\n" * 400_000, "counters in one line": b"x" * 5_000_000, "short lines": b"a\\n" * 2_000_000,
            "many words": b"a " * 2_000_000, "statuses": b"status 0\\n" * 450_000}.get(kind)
answer = {"endless lines": line * 1000, "lanes without end": b"lane\\n" * 10_000, "endless line": b"lane " * 10_000, "slow": b"l"}.get(kind, whole)

def write(octets):
    try:
        with open("new", "wb") as file:
            file.write(octets)
        os.replace("new", "counters")
    except OSError:
        pass

if kind == "counters are endless":
    os.symlink("/dev/zero", "counters")
elif kind == "counters are a fifo":
    os.mkfifo("counters")
elif kind == "lock is a fifo":
    os.mkfifo("lock")
elif kind == "lock is held":
    lock = open("lock", "w")
    fcntl.flock(lock, fcntl.LOCK_EX)
os.mkfifo("commands")
if kind == "commands are full":
    full = os.open("commands", os.O_RDWR)
    os.set_blocking(full, False)
    try:
        while True:
            os.write(full, bytes(4096))
    except BlockingIOError:
        pass
asked, count = None, 0
while True:
    try:
        fifo = os.open("answer", os.O_RDWR | os.O_NONBLOCK)
        asker = os.fstat(fifo).st_ino
        if asker != asked or answer != whole:
            asked = asker
            os.write(fifo, answer)
        os.close(fifo)
    except OSError:
        pass
    if counters is not None and count % 30 == 0:
        write(counters)
    count += 1
    time.sleep(0.1 if kind == "slow" else 0.01)
"""
KINDS = ("large counters", "counters in one line", "short lines", "many words", "statuses", "endless lines", "lanes without end",
         "endless line", "slow", "counters are endless", "counters are a fifo", "lock is a fifo", "lock is held", "commands are full")
# The bounds of the script, and what a busy machine takes beyond them; the processor's seconds, and the octets that are printed and kept.
LONGEST_CALL, MOST_PROCESSOR, MOST_PRINTED, MOST_KEPT = 45, 10, 5_000, 100_000_000


def costs_of(service, kind, word):
    """What a call costs whose answer comes from such an owner: seconds of the processor, octets that it keeps, and what it prints."""
    folder = service.room / f"{word} {kind}"
    folder.mkdir(0o700)
    if os.getuid() == 0:
        os.chown(folder, STRANGER, STRANGER)
    owner = subprocess.Popen([sys.executable, "-c", OWNER, folder, kind, str(folder.stat().st_uid)], start_new_session=True)
    service.started.append(owner)
    until("commands", (folder / "commands").exists)
    out = open(service.room / f"{word} {kind}.out", "wb")
    asker = subprocess.Popen([service.ctl, "-d", folder, word], stdout=out, stderr=subprocess.STDOUT, stdin=subprocess.DEVNULL,
                             env=service.environment, start_new_session=True)
    service.started.append(asker)
    until(f"{word}, {kind}", lambda: os.waitid(os.P_PID, asker.pid, os.WEXITED | os.WNOHANG | os.WNOWAIT), LONGEST_CALL, 0.1)
    _, _, used = os.wait4(asker.pid, 0)
    asker.returncode = 0
    owner.kill()
    out.close()
    return used.ru_utime + used.ru_stime, used.ru_maxrss * 1024, pathlib.Path(out.name).read_text()


def no_answer_costs_more_than_the_bounds(service):
    """Whatever the folder's owner puts there and answers, a call ends in time, and takes, prints and keeps no more than its bounds."""
    service.room.chmod(0o755)
    calls = [*((kind, "metrics") for kind in KINDS), ("endless lines", "state"), ("short lines", "top"), ("large counters", "top")]
    with ThreadPoolExecutor(len(calls)) as pool:
        costs = list(pool.map(lambda call: costs_of(service, *call), calls))
    for call, (processor, kept, printed) in zip(calls, costs):
        hope(f"{call}: {processor:.1f} s of the processor, {kept} octets kept, {len(printed)} octets printed: {printed[-200:]}",
             processor < MOST_PROCESSOR and kept < MOST_KEPT and len(printed) < MOST_PRINTED and "rad_proxyctl: " in printed, True)


def root_serves_nobody_elses_folder(service):
    """Root does not serve in a folder of another user."""
    if os.getuid() != 0:
        raise LeftOut("it wants root")
    service.run.mkdir(0o700)
    os.chown(service.run, STRANGER, STRANGER)
    process = service.start(wait=False)
    hope("status", process.wait(PATIENCE), 4)
    hope("what it says", service.log.read_text(), f"serve: {service.run} is another user's\n")
    hope("what is made", list(service.run.iterdir()), [])


TESTS = [
    nothing_for_others_outlives_the_service,
    drains_where_its_group_gets_the_signal, drains_where_its_terminal_is_closed, goes_on_at_a_hangup_under_systemd,
    goes_on_at_a_hangup_while_it_begins_under_systemd, a_term_at_any_moment_ends_it,
    a_term_while_it_opens_its_fifos_ends_it, a_limit_on_the_size_of_files_ends_nothing, a_drain_that_failed_is_not_obeyed_later,
    a_second_leaves_the_first_alone,
    the_lock_outlives_a_serve_that_was_killed, refuses_a_folder_that_others_write_in, whatever_the_umask,
    a_stopped_asker_keeps_nobody_out, an_asker_without_an_answer_gives_up, many_ask_at_once, what_nobody_asked_goes_to_standard_output,
    a_hand_over_that_dies_is_started_anew, nobody_reads_its_output, its_output_is_full,
    out_is_gone_before_it_says_that_it_listens, a_reader_that_pauses_again_loses_nothing, what_is_left_over_is_a_warning,
    counters_elsewhere_are_told, the_ledger_is_where_the_variable_says, counters_that_cannot_be_written_are_told, counters_that_are_not_written_are_told,
    metrics_are_as_prometheus_reads_them, metrics_go_to_a_file,
    top_draws_what_is_there, top_has_a_line_of_the_spool, top_draws_a_table_as_soon_as_its_numbers_are_there, top_of_no_proxy_ends, metrics_of_no_proxy_are_removed, metrics_go_to_no_other_file,
    metrics_replace_nobody_elses_file, no_stop_of_metrics_leaves_a_file, metrics_are_had_by_http, http_waits_for_no_client, each_panel_of_the_dashboard_draws, sent_again_is_never_less_than_nothing, counters_that_are_written_late_are_waited_for,
    memory_is_refused_and_nothing_ends, relative_paths_hold, an_answer_that_cannot_be_written_is_told,
    whoever_keeps_the_pipe_is_not_waited_for, the_unit_takes_no_core_dump, root_asks_as_the_owner,
    the_owner_gets_nothing_of_roots, the_owner_has_its_groups, no_answer_costs_more_than_the_bounds, the_largest_answers_are_whole, a_purge_leaves_no_link,
    node_exporter_reads_the_counters, root_serves_nobody_elses_folder,
]


def take_moments():
    """Takes how many moments are tried from the words that this was called with."""
    global MOMENTS
    if "--moments" in sys.argv:
        place = sys.argv.index("--moments")
        MOMENTS = int(sys.argv[place + 1])
        del sys.argv[place:place + 2]


def main():
    heed_signals()
    take_moments()
    try_named(TESTS, Service, __doc__)


if __name__ == "__main__":
    main()
