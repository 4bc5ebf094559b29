"""Tries rad_proxyctl over a stand-in for the service, which answers, stalls and drains as a test wants it.

usage: python3 -m tests.service.rad_proxyctl_stand_in PROGRAM [NAME ..]

Each test is a function below, and its first line tells what holds. It wants no systemd, and uses no socket. What needs another user is
tried where root runs this, and else told as left out. The last line is `N passed, M failed`.
"""
import contextlib
import fcntl
import os
import pathlib
import pty
import select
import shlex
import shutil
import signal
import subprocess
import threading
import time
from concurrent.futures import ThreadPoolExecutor

from tests.lib import PATIENCE, LeftOut, heed_signals, hope, need, try_named, until
from tests.lib.stand_ins import TEXT, Asking

REFUSED, FAILED, LEFT_OVER = 5, 4, 3
STRANGER = 65534
ENDS = (signal.SIGHUP, signal.SIGINT, signal.SIGTERM)
# At how many moments a restart is stopped, over how many seconds they are spread, and how many run at once.
MOMENTS, SPREAD, AT_ONCE = 40, 4.0, 4
# The same where those who ask begin late, and take long for each step; and what makes it so, in the program that asks.
SLOW_MOMENTS, SLOW_SPREAD = 28, 7.0
SLOW_STEPS = """
time.sleep(0.5)


def slow(call):
    def called(*words, **named):
        time.sleep(0.1)
        return call(*words, **named)
    return called


for name in ("open", "mkfifo", "rename", "unlink", "read", "write"):
    setattr(os, name, slow(getattr(os, name)))
"""


def names_in(folder):
    """What stands in a folder, but for the fifo of commands and the lock of those who ask."""
    return sorted(path.name for path in folder.iterdir() if path.name not in ("commands", "lock", "restart.lock"))


def begins_by_default():
    """What is started is ended by each signal."""
    for number in ENDS:
        signal.signal(number, signal.SIG_DFL)


def out_is_taken_away_where_it_is_stopped_before_the_drain(stage):
    """HUP, INT, TERM and KILL while the file `out` stands end the restart by that signal; the file is gone, and nothing was drained."""
    for number in (*ENDS, signal.SIGKILL):
        one = stage.stand_in(f"by {number.name}")
        way, calls = stage.restarting(one)
        asker = stage.begin(one, "restart", "--force", "--out", "30", variables=way, preexec_fn=begins_by_default)
        until("the file out", (one.folder / "out").exists)
        time.sleep(0.2)
        asker.send_signal(number)
        asker.communicate(timeout=PATIENCE)
        hope(f"{number.name}: status", asker.returncode, -number)
        if number == signal.SIGKILL:
            until("the file is gone", lambda: not (one.folder / "out").exists())
        hope(f"{number.name}: what is left", (names_in(one.folder), one.mode, calls.exists()), ([], "open", False))


def stopped_at(stage, number, moment):
    """Stops a restart at a moment, and sees what it leaves once nothing that it started runs any more."""
    one = stage.stand_in(f"at {number.name} {moment:.3f}")
    way, calls = stage.restarting(one)
    asker = stage.begin(one, "restart", "--force", "--out", "1", variables=way, preexec_fn=begins_by_default)
    time.sleep(moment)
    asker.send_signal(number)
    _, told = asker.communicate(timeout=PATIENCE)
    until("the end of what it started", lambda: not processes_in(one.folder))
    is_restarted = calls.exists()
    if is_restarted:
        until("it is open again", lambda: one.mode == "open")
    is_drained = one.mode != "open"
    place = f"{number.name} at {moment:.3f} s, status {asker.returncode}, {told[-200:]!r}"
    hope(f"{place}: what is left", names_in(one.folder), ["out"] if is_drained else [])
    return is_drained, is_restarted


def stop_at_moments(stage, signals, moments, spread):
    """Stops a restart by each of the signals in turn, over some seconds, or as long as one takes on a busy machine: which there are of those
    that drain or not, and are restarted or not."""
    one, begun = stage.stand_in("not stopped"), time.monotonic()
    way, _ = stage.restarting(one)
    hope("one that is not stopped", stage.ask(one, "restart", "--force", "--out", "1", variables=way)[0], 0)
    spread = max(spread, 1.2 * (time.monotonic() - begun))
    moments = [(signals[at % len(signals)], spread * at / moments) for at in range(moments)]
    with ThreadPoolExecutor(AT_ONCE) as pool:
        return set(pool.map(lambda pair: stopped_at(stage, *pair), moments))


def no_moment_of_a_stop_leaves_something(stage):
    """TERM, HUP or KILL at any moment of a restart leaves `out` only where the proxy drains, and nothing else."""
    signals = (signal.SIGTERM, signal.SIGHUP, signal.SIGKILL)
    need({(False, False), (False, True)} <= stop_at_moments(stage, signals, MOMENTS, SPREAD), "each was restarted, or none")


def no_moment_of_a_stop_leaves_something_where_each_step_is_slow(stage):
    """The same where each step of those who ask takes a while, so that a moment falls between any two."""
    path = stage.room / "usr/libexec/rad_proxy/controlling/asking.py"
    head, names, rest = path.read_text().partition("\nclass Ends(")
    path.write_text(head + SLOW_STEPS + "\n" + names + rest)
    found = stop_at_moments(stage, (signal.SIGKILL, signal.SIGTERM), SLOW_MOMENTS, SLOW_SPREAD)
    hope("what is met", found, {(False, False), (True, False), (False, True)})


def another_ones_restart_is_not_undone(stage):
    """Where a restart is killed whose proxy stalls, and another one begins meanwhile, no moment has a drained proxy without `out`: what the
    first one's end removes, the second makes again."""
    one = stage.stand_in()
    way, calls = stage.restarting(one)
    first = stage.begin(one, "restart", "--force", "--out", "30", variables=way)
    until("the file out", (one.folder / "out").exists)
    one.reads = False
    first.kill()
    first.communicate(timeout=PATIENCE)
    until("the fifo of its look", (one.folder / "answer").exists)
    one.outstanding = 1
    second = stage.begin(one, "restart", "--force", "--wait", "2", variables=way)
    time.sleep(1)
    one.reads = True
    while second.poll() is None:
        need(one.mode == "open" or (one.folder / "out").exists() or calls.exists(), "it drains without `out`")
        time.sleep(0.005)
    hope("how it ends", (second.communicate()[1].splitlines()[-1], calls.exists()),
         ("rad_proxyctl: restarted, though this was left after 2 seconds", True))


def processes_in(folder):
    """The processes in a folder, and those whose command line has its name."""
    found = processes_with(folder.name)
    for path in pathlib.Path("/proc").glob("[0-9]*/cwd"):
        with contextlib.suppress(OSError):
            if path.readlink() == folder.resolve():
                found.append(path.parent.name)
    return found


def out_is_taken_away_where_the_proxy_stalls(stage):
    """Where the proxy reads no command any more at the drain, the restart says so and ends with 4; `out` is gone: it does not drain."""
    one = stage.stand_in()
    way, calls = stage.restarting(one)
    asker = stage.begin(one, "restart", "--force", "--out", "2", variables=way)
    until("the file out", (one.folder / "out").exists)
    one.reads = False
    _, told = asker.communicate(timeout=PATIENCE)
    hope("how it ends", (asker.returncode, told), (FAILED, "rad_proxyctl: no answer in 5 seconds\nrad_proxyctl: not restarted\n"))
    hope("what is left", (names_in(one.folder), calls.exists()), ([], False))
    one.reads = True
    time.sleep(0.3)
    hope("it is not obeyed later", one.mode, "open")


def out_stays_where_the_proxy_drains_without_an_answer(stage):
    """Where the proxy drains, and does not answer that, the restart ends with 4 and `out` stays."""
    one = stage.stand_in()
    one.answers_drain = False
    way, calls = stage.restarting(one)
    status, _, told = stage.ask(one, "restart", "--force", variables=way)
    hope("how it ends", (status, told.splitlines()[-1]), (FAILED, "rad_proxyctl: not restarted"))
    hope("what is left", (names_in(one.folder), one.mode, calls.exists()), (["out"], "done", False))


def out_stays_where_the_proxy_may_drain_yet(stage):
    """Where the proxy reads the command to drain and then nothing any more, the restart says so and ends with 4, and `out` stays."""
    one = stage.stand_in()
    one.stops_at_drain = True
    way, calls = stage.restarting(one)
    status, _, told = stage.ask(one, "restart", "--force", variables=way)
    hope("how it ends", (status, told.splitlines()),
         (FAILED, ["rad_proxyctl: no answer in 5 seconds, but the proxy has read the command and may obey it yet",
                   "rad_proxyctl: not restarted"]))
    hope("what is left", (names_in(one.folder), calls.exists()), (["out"], False))


def what_is_left_is_unknown_where_the_proxy_answers_no_more(stage):
    """Where the drained proxy answers nothing any more, it is restarted once the time is over, and the end tells that nobody knows what was left,
    with status 3."""
    one = stage.stand_in()
    answer_of = one.answer_of

    def answered(command):
        one.reads = one.reads and command != "drain"
        return answer_of(command)

    one.answer_of = answered
    way, calls = stage.restarting(one)
    asker = stage.begin(one, "restart", "--wait", "3", variables=way)
    until("it is restarted", calls.exists, PATIENCE)
    one.reads = True
    told = asker.communicate(timeout=PATIENCE)[1]
    hope("how it ends", (asker.returncode, told.splitlines()[-2:]),
         (LEFT_OVER, ["left: unknown, since the proxy does not answer", "rad_proxyctl: restarted, though this was left after 3 seconds"]))


def the_look_at_the_rate_ends_once_it_suffices(stage):
    """Where one second's answers suffice for all that waits, the restart looks no longer; at a lower rate it refuses after ten seconds."""
    one = stage.stand_in()
    one.queued, one.outstanding, one.rate = 300, 33, 333
    way, calls = stage.restarting(one)
    asker = stage.begin(one, "restart", variables=way)
    until("it is drained", lambda: one.drained_at is not None)
    need(one.asked_before <= 6, "it looked", one.asked_before, "times, a second apart")
    one.queued = one.outstanding = 0
    one.mode = "done"
    hope("how it ends", (asker.communicate(timeout=PATIENCE)[1], asker.returncode, calls.exists()), ("", 0, True))


def what_is_outstanding_counts_in_the_rate(stage):
    """What is outstanding has to be answered too: where nothing is queued and more outstanding than is answered in time, it refuses."""
    one = stage.stand_in()
    one.outstanding, one.rate = 60, 2
    way, calls = stage.restarting(one)
    begun = time.monotonic()
    status, _, told = stage.ask(one, "restart", "--wait", "3", variables=way)
    need(time.monotonic() - begun > 9.5, "it looked for", time.monotonic() - begun, "seconds")
    hope("how it ends", (status, told.splitlines()[-1]),
         (REFUSED, "rad_proxyctl: not restarted, and not drained: more is queued and outstanding than is answered in 3 seconds, "
          "at the rate of the last 10"))
    hope("what is left", (names_in(one.folder), one.mode, calls.exists()), ([], "open", False))


def with_a_spool(stage, name, opened, unsynced, fails=0, lost=0, **attributes):
    """A stand-in whose counters have these numbers of a spool."""
    one = stage.stand_in(name)
    one.spool, one.writes = (opened, unsynced, fails, lost), True
    for key, value in attributes.items():
        setattr(one, key, value)
    until("counters", (one.folder / "counters").exists)
    return one


def with_a_spool_no_queue_is_waited_for(stage):
    """With a spool a home server that is down and a queue keep nobody from a restart, what is outstanding there is not waited for, and the
    end tells how many requests are on disk; the same by --force; without a spool it refuses."""
    for words in ((), ("--force",)):
        one = with_a_spool(stage, f"down{len(words)}", 333, 0, watch="down", queued=300, outstanding=33)
        way, calls = stage.restarting(one)
        begun = time.monotonic()
        status, out, told = stage.ask(one, "restart", "--wait", "90", *words, variables=way)
        hope(f"{words}", (status, out.splitlines()[1:], told, calls.exists()), (0, ["on disk: 333", "restarted"], "", True))
        need(time.monotonic() - begun < 60, "it waited")
    one.spool, one.mode = None, "open"
    status, _, told = stage.ask(one, "restart", variables=stage.restarting(one)[0])
    hope("without one", (status, told.splitlines()[-1]), (REFUSED, "rad_proxyctl: not restarted, and not drained: a home server is down"))


def with_a_spool_what_is_outstanding_is_waited_for(stage):
    """With a spool what is outstanding at a home server that is up is waited for, though more waits than it answers; at the end of the time it is
    restarted all the same, with status 0, since all is on disk."""
    one = with_a_spool(stage, "answers", 5007, 0, queued=5000, outstanding=7)
    way, calls = stage.restarting(one)
    asker = stage.begin(one, "restart", "--wait", "60", variables=way)
    until("it is drained", lambda: one.drained_at is not None, PATIENCE)
    time.sleep(3)
    hope("it waits", calls.exists(), False)
    one.outstanding = 0
    out, told = asker.communicate(timeout=PATIENCE)
    hope("it is answered", (asker.returncode, out.splitlines()[1], out.splitlines()[-2:], told), (0, "left: h1 outstanding 7", ["on disk: 5007", "restarted"], ""))
    other = with_a_spool(stage, "answers nothing", 7, 0, outstanding=7)
    way, calls = stage.restarting(other)
    begun = time.monotonic()
    status, out, told = stage.ask(other, "restart", "--wait", "4", variables=way)
    hope("it is not", (status, out.splitlines()[-2:], told, calls.exists()), (0, ["on disk: 7", "restarted"], "", True))
    need(time.monotonic() - begun > 4, "it did not wait")


def what_is_not_on_disk_keeps_from_a_restart(stage):
    """With a spool a restart is refused while more is not on disk for ten seconds than came meanwhile, or the disk fails; nothing is drained."""
    begun = []
    cases = {"more than came": (36, 12, 0, 0), "a disk that fails": (9, 3, 1, 0), "what found no room": (6, 0, 0, 4), "it fails while `out` stands": (9, 0, 0, 0)}
    for name, numbers in cases.items():
        words = ("--out", "3") if "out" in name else ()
        rate = {"a disk that fails": 20, "more than came": 2}.get(name, 0)
        one = with_a_spool(stage, name, *numbers, rate=rate, queued=4, outstanding=5)
        way, calls = stage.restarting(one)
        begun.append((name, one, calls, stage.begin(one, "restart", *words, variables=way), time.monotonic()))
    until("the file out", (one.folder / "out").exists)
    one.spool = 9, 3, 1, 0
    for name, one, calls, asker, moment in begun:
        told = asker.communicate(timeout=PATIENCE)[1]
        need(time.monotonic() - moment > 9.5, "it looked for", time.monotonic() - moment, "seconds")
        left = "12 of 36" if name == "more than came" else "3 of 9"
        hope(name, (asker.returncode, told), (REFUSED, f"rad_proxyctl: not restarted, and not drained: {left} open requests are not on disk\n"))
        hope(f"{name}: what is left", (names_in(one.folder), one.mode, calls.exists()), (["counters"], "open", False))


def what_came_just_now_is_waited_for(stage):
    """With a spool requests that are not on disk since they came just now keep nobody from a restart: they are waited for behind the drain. What is not
    on disk at the end of the time is told, with status 3."""
    one = with_a_spool(stage, "loaded", 50, 9, rate=100)
    way, calls = stage.restarting(one)
    asker = stage.begin(one, "restart", "--wait", "60", variables=way)
    until("it is drained", lambda: one.drained_at is not None, PATIENCE)
    time.sleep(2)
    hope("it waits", calls.exists(), False)
    one.spool = 50, 0, 0, 0
    out, told = asker.communicate(timeout=PATIENCE)
    hope("it is on disk", (asker.returncode, out.splitlines()[1], out.splitlines()[-2:], told), (0, "left: 9 not on disk", ["on disk: 50", "restarted"], ""))
    other = with_a_spool(stage, "never", 50, 9, rate=100)
    way, calls = stage.restarting(other)
    status, out, told = stage.ask(other, "restart", "--wait", "3", variables=way)
    hope("it is not", (status, told.splitlines(), out.splitlines()[-1], calls.exists()),
         (LEFT_OVER, ["left: 9 not on disk", "rad_proxyctl: restarted, though this was left after 3 seconds"], "on disk: 41", True))


def nobody_else_keeps_root_from_a_restart(stage):
    """Whoever locks the configuration, or what stands in the folder, keeps nobody from a restart; root's lock is its own."""
    if os.getuid() != 0:
        raise LeftOut("it wants root")
    one = stage.stand_in(owner=STRANGER)
    (one.folder / "restart.lock").touch()
    os.chown(one.folder / "restart.lock", STRANGER, STRANGER)
    way, _ = stage.restarting(one)
    one.outstanding = 1
    with open(stage.config) as config, open(one.folder / "restart.lock") as other, open(one.folder / "commands") as fifo:
        for file in (config, other):
            fcntl.flock(file, fcntl.LOCK_EX)
        asker = stage.begin(one, "restart", "--force", "--wait", "30", variables=way)
        until("it is drained", lambda: one.drained_at is not None, 30)
        status, _, told = stage.ask(one, "restart", "--force", variables=way)
        hope("a second one", (status, told), (FAILED, "rad_proxyctl: another one restarts it\n"))
        locks = [path for path in (stage.room / "run").iterdir()]
        hope("locks", [(oct(path.stat().st_mode), path.stat().st_uid) for path in locks], [("0o100600", 0)])
        one.outstanding, one.mode = 0, "done"
        hope("how it ends", (asker.communicate(timeout=PATIENCE)[1], asker.returncode), ("", 0))
        fifo.fileno()
    path = locks[0]
    path.unlink()
    path.symlink_to(stage.config)
    status, _, told = stage.ask(one, "restart", "--force", variables=way)
    hope("a link in its place", (status, told.startswith(f"rad_proxyctl: cannot lock {path}: ")), (FAILED, True))


def who_is_not_root_locks_beside_the_fifos(stage):
    """A restart that the service's user calls takes a lock of its own in the folder, whatever the umask; a second one is refused."""
    if os.getuid() != 0:
        raise LeftOut("it wants root")
    one = stage.stand_in(owner=STRANGER)
    script, calls = stage.restarting(one)
    one.outstanding = 1
    given = {"user": STRANGER, "group": STRANGER, "extra_groups": [], "variables": {"RAD_PROXY_RESTART": "exit 7"}, "umask": 0o777}
    asker = stage.begin(one, "restart", "--force", "--wait", "8", **given)
    until("it is drained", lambda: one.drained_at is not None, 30)
    it = (one.folder / "restart.lock").stat()
    hope("its lock", (oct(it.st_mode), it.st_uid), ("0o100600", STRANGER))
    hope("a second one", stage.ask(one, "restart", "--force", **given)[::2], (FAILED, "rad_proxyctl: another one restarts it\n"))
    one.mode = "done"
    one.outstanding = 0
    told = asker.communicate(timeout=PATIENCE)[1].splitlines()[-1]
    hope("how it ends", told.startswith("rad_proxyctl: the command that restarts it failed: "), True)


def traced(stage, one, *words, **options):
    """A trace of a session, which runs, and the log that it reads."""
    log = stage.room / f"log {one.folder.name}"
    log.touch()
    asker = stage.begin(one, "trace", "--session", "S1", *words, variables={"RAD_PROXY_FOLLOW": f"tail -n +1 -F '{log}'"}, **options)
    until("the file trace", (one.folder / "trace").exists)
    return asker, log


def a_trace_leaves_another_ones_file_alone(stage):
    """Where another one's file takes the place of the file `trace`, the trace ends with 4, and that file stays."""
    one = stage.stand_in()
    asker, _ = traced(stage, one)
    (one.folder / "other").write_text("session S2\n")
    (one.folder / "other").replace(one.folder / "trace")
    hope("how it ends", asker.wait(PATIENCE), FAILED)
    hope("what stands there", (one.folder / "trace").read_text(), "session S2\n")
    asker.communicate()


def a_trace_ends_where_the_service_does(stage):
    """Where the service is started again or ends, which removes the file, or nobody reads its commands any more, the trace says so and ends
    with 4; what the log had until then is printed."""
    def started_again(one):
        (one.folder / "trace").unlink()

    def killed(one):
        one.stop()

    def gone(one):
        shutil.rmtree(one.folder)

    for end in (started_again, killed, gone):
        one = stage.stand_in(end.__name__)
        asker, log = traced(stage, one, "--seconds", "40")
        log.write_text("level=info event=came trace=1\nlevel=info event=trace-left-out count=12\nlevel=info event=other\n")
        time.sleep(0.5)
        end(one)
        begun = time.monotonic()
        out, told = asker.communicate(timeout=PATIENCE)
        need(time.monotonic() - begun < 20, "it took", time.monotonic() - begun)
        hope(f"{end.__name__}: how it ends", (asker.returncode, told),
             (FAILED, "rad_proxyctl: the service has ended or was started again: nothing is traced any more\n"))
        hope("what it prints", out, "level=info event=came trace=1\nlevel=info event=trace-left-out count=12\n")
        hope("the file", (one.folder / "trace").exists(), False)


def no_stop_of_a_trace_leaves_the_file(stage):
    """KILL too, and a reader that goes away, leave neither the file nor a process of it; another one's file stays."""
    one = stage.stand_in()
    asker, log = traced(stage, one, "--seconds", "40")
    asker.kill()
    asker.communicate(timeout=PATIENCE)
    until("the file is gone", lambda: names_in(one.folder) == [])
    until("nothing reads the log", lambda: not processes_with(str(log)))
    silent = f"sleep 60.{os.getpid()}"
    asker = stage.begin(one, "trace", "--session", "S1", variables={"RAD_PROXY_FOLLOW": silent})
    until("the file trace", (one.folder / "trace").exists)
    asker.kill()
    asker.communicate(timeout=PATIENCE)
    until("nothing stands for the log", lambda: not processes_with(silent.split()[1]))
    until("the file is gone", lambda: names_in(one.folder) == [])
    asker, log = traced(stage, one, "--seconds", "40")
    asker.stdout.close()
    for _ in range(2):
        with log.open("a") as file:
            file.write("level=info event=came trace=1\n")
        time.sleep(0.5)
    hope("status", asker.wait(PATIENCE), FAILED)
    hope("the file", names_in(one.folder), [])
    asker, log = traced(stage, one, "--seconds", "40")
    (one.folder / "trace").rename(one.folder / "mine")
    (one.folder / "trace").write_text("session S2\n")
    hope("status", asker.wait(PATIENCE), FAILED)
    hope("another one's file", (one.folder / "trace").read_text(), "session S2\n")


def a_trace_whose_output_nobody_reads_ends(stage):
    """Where standard output is full and nobody reads it, the trace ends all the same, and its file is gone."""
    one = stage.stand_in()
    reading, writing = os.pipe()
    fcntl.fcntl(writing, fcntl.F_SETPIPE_SZ, 4096)
    asker, log = traced(stage, one, "--seconds", "4", stdout=writing)
    os.close(writing)
    log.write_text("level=info event=came trace=1\n" * 5000)
    hope("status", asker.wait(30), FAILED)
    hope("the file", names_in(one.folder), [])
    os.close(reading)


def processes_with(text):
    """The processes whose command line has a text."""
    found = []
    for path in pathlib.Path("/proc").glob("[0-9]*/cmdline"):
        with contextlib.suppress(OSError):
            if text.encode() in path.read_bytes() and path.parent.name != str(os.getpid()):
                found.append(path.parent.name)
    return found


def nothing_of_a_query_is_left(stage):
    """KILL at twenty moments of each query leaves no process and nothing in the folder some seconds later, and the next one is answered."""
    one = stage.stand_in()
    one.writes = True
    until("counters", (one.folder / "counters").exists)
    for word in ("state", "metrics"):
        for at in range(20):
            asker = stage.begin(one, word)
            time.sleep(0.02 * at)
            asker.kill()
            asker.communicate(timeout=PATIENCE)
    until("nothing is left", lambda: not processes_with(str(stage.room)), 30)
    hope("what is left", [name for name in names_in(one.folder) if not name.startswith("counters")], [])
    hope("the next one", stage.ask(one, "state")[0], 0)


def numbers_are_of_after_the_answer(stage):
    """The numbers of `metrics` are those that are written behind the answer of `state`, and not while that is awaited."""
    one = stage.stand_in()
    one.write_counters()
    answer_of = one.answer_of

    def written_beside(command):
        one.write_counters()
        threading.Timer(1, one.write_counters).start()
        return answer_of(command)

    one.answer_of = lambda command: written_beside(command) if command == "state" else answer_of(command)
    status, out, told = stage.ask(one, "metrics")
    hope("how it ends", (status, told), (0, ""))
    hope("the count of the third text", f'\nrad_proxy_accepted_total{{lane="0",home="h1"}} {one.count}\n' in out and one.count, 30)


def tables_of(stage, one, **variables):
    """The words of the line of the home server that `top` prints, and those of its first line."""
    status, out, told = stage.ask(one, "top", variables=variables)
    hope("how it ends", (status, told), (0, ""))
    lines = out.splitlines()
    return lines[0], next(line for line in lines if line.startswith("h1 ")).split()


def top_reads_numbers_in_every_locale(stage):
    """`top` reads and prints a decimal point under each locale: as in C where one is here whose point is a comma, and has hours and
    minutes of a service that runs for some hours."""
    one = stage.stand_in()
    one.writes = True
    until("counters", (one.folder / "counters").exists)
    made = locales(stage)
    for name in ("C", "C.UTF-8", "de_DE.UTF-8", "tr_TR.UTF-8", "none"):
        head, words = tables_of(stage, one, LC_ALL=name, **made)
        hope(f"{name}: head", head, "rad_proxy 0.1.0, running for 5h07m")
        hope(f"{name}: its line", (words[:3], words[7:9], words[11:]), (["h1", "up", "5h07m"], ["17.5ms", "24.9ms"], ["1%", "never"]))


def top_has_the_times_of_ten_seconds(stage):
    """On a terminal the times of answers are those of the last ten seconds: there are some yet, once no more answers come."""
    one = stage.stand_in()
    one.writes = True
    until("counters", (one.folder / "counters").exists)
    ours, theirs = pty.openpty()
    drawing = stage.begin(one, "top", stdin=theirs, stdout=theirs, stderr=theirs)
    os.close(theirs)
    drawn = b""
    try:
        for tables in (3, 5):
            while drawn.count(b"HOME") < tables or not drawn.endswith(b"-\r\n"):
                need(select.select([ours], [], [], PATIENCE)[0], "it draws no more", drawn[-1000:])
                drawn += os.read(ours, 4096)
            one.text = TEXT.replace("{count}", str(one.count))
    finally:
        drawing.terminate()
        drawing.wait(PATIENCE)
        os.close(ours)
    rows = [line.split()[7:9] for line in drawn.decode().splitlines() if line.startswith("h1 ")]
    hope("the times", {tuple(row) for row in rows}, {("17.5ms", "24.9ms")})


def locales(stage):
    """Locales that are made where the system has what they are made of; else those of the system."""
    folder = stage.room / "locales"
    folder.mkdir()
    if shutil.which("localedef") is None or not pathlib.Path("/usr/share/i18n/locales/de_DE").exists():
        return {}
    for name in ("de_DE", "tr_TR"):
        subprocess.run(["localedef", "-i", name, "-f", "UTF-8", str(folder / f"{name}.UTF-8")], check=True, stdout=subprocess.DEVNULL)
    return {"LOCPATH": str(folder)}


def each_service_has_its_configuration(stage):
    """Where no configuration is named, that of the service is checked, and with -i that of the instance."""
    program, calls = stage.room / "told", stage.room / "told.calls"
    program.write_text(f"#!/bin/sh\necho \"$*\" >>{shlex.quote(str(calls))}\necho clients 1 homes 1 realms 1\n")
    program.chmod(0o755)
    for words, name in ((), "rad_proxy.toml"), (("-i", "two"), "two.toml"):
        (stage.config.parent / name).write_text("# none\n")
        calls.unlink(missing_ok=True)
        subprocess.run([stage.ctl, *words, "check"], env=stage.environment | {"RAD_PROXY_PROGRAM": str(program)}, capture_output=True, timeout=PATIENCE)
        hope(f"what {words} checks", calls.read_text().splitlines()[0], f"check {stage.config.parent / name}")


def what_the_caller_sets_is_not_read(stage):
    """Modules, a home and options of Python that the caller's environment names, and a folder with such names, change nothing."""
    one = stage.stand_in()
    planted = stage.room / "planted"
    planted.mkdir()
    for name in ("os", "sys", "select", "fcntl", "calling", "controlling", "trial", "version", "sitecustomize", "usercustomize"):
        (planted / f"{name}.py").write_text("import posix\nposix._exit(66)\n")
    variables = {"PYTHONPATH": str(planted), "PYTHONHOME": str(planted), "PYTHONSTARTUP": str(planted / "os.py"), "HOME": str(planted),
                 "PYTHONINSPECT": "1", "PYTHONVERBOSE": "1", "PYTHONIOENCODING": "utf-16", "COLUMNS": "1", "LC_ALL": "tr_TR.ISO-8859-9"}
    shutil.copy(planted / "select.py", one.folder / "select.py")
    for place in (planted, one.folder):
        status, out, told = stage.ask(one, "state", variables=variables, cwd=place)
        hope("state", (status, out, told), (0, f"{one.line()}\n", ""))
    hope("caches", sorted(stage.room.glob("usr/**/__pycache__")), [])
    hollow = stage.room / "hollow"
    hollow.mkdir()
    status, out, told = stage.ask(one, "state", preexec_fn=lambda: (os.chdir(hollow), os.rmdir(hollow), os.umask(0o777)))
    hope("a folder that is gone", (status, out, told), (0, f"{one.line()}\n", ""))
    for at in (0, 1, 2):
        status = stage.begin(one, "state", preexec_fn=lambda: os.close(at)).wait(PATIENCE)
        hope(f"without descriptor {at}", status, FAILED if at == 1 else 0)


TESTS = [out_is_taken_away_where_it_is_stopped_before_the_drain, no_moment_of_a_stop_leaves_something,
         no_moment_of_a_stop_leaves_something_where_each_step_is_slow, another_ones_restart_is_not_undone,
         out_is_taken_away_where_the_proxy_stalls, out_stays_where_the_proxy_drains_without_an_answer,
         out_stays_where_the_proxy_may_drain_yet, what_is_left_is_unknown_where_the_proxy_answers_no_more,
         the_look_at_the_rate_ends_once_it_suffices, what_is_outstanding_counts_in_the_rate, with_a_spool_no_queue_is_waited_for,
         with_a_spool_what_is_outstanding_is_waited_for, what_is_not_on_disk_keeps_from_a_restart, what_came_just_now_is_waited_for,
         nobody_else_keeps_root_from_a_restart,
         who_is_not_root_locks_beside_the_fifos, a_trace_ends_where_the_service_does, a_trace_leaves_another_ones_file_alone, no_stop_of_a_trace_leaves_the_file,
         a_trace_whose_output_nobody_reads_ends, nothing_of_a_query_is_left, numbers_are_of_after_the_answer, top_reads_numbers_in_every_locale,
         top_has_the_times_of_ten_seconds, each_service_has_its_configuration, what_the_caller_sets_is_not_read]


if __name__ == "__main__":
    heed_signals()
    try_named(TESTS, Asking, __doc__)
