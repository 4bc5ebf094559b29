"""A stand-in for the service, which answers, stalls and drains as a test wants it, and rad_proxyctl over it."""
import contextlib
import os
import pathlib
import shlex
import subprocess
import threading
import time

from tests.lib.starting import TOP, environment
from tests.lib.waiting import PATIENCE

CHECKER = "#!/bin/sh\necho clients 1 homes 1 realms 1\n"
# The numbers of a text of counters: of a service that runs for five hours and seven minutes, whose answers take 10 to 25 ms.
TEXT = """# HELP rad_proxy_build_info The program.
# TYPE rad_proxy_build_info gauge
rad_proxy_build_info{{version="0.1.0"}} 1
rad_proxy_start_time_seconds {start:.3f}
rad_proxy_report_time_seconds {now:.3f}
rad_proxy_home_up{{lane="0",home="h1"}} 1
rad_proxy_home_since_time_seconds{{lane="0",home="h1"}} {start:.3f}
rad_proxy_last_answer_time_seconds{{lane="0",home="h1"}} 0.000
rad_proxy_accepted_total{{lane="0",home="h1"}} {count}
rad_proxy_book{{lane="0",home="h1"}} 1
rad_proxy_book_limit{{lane="0",home="h1"}} 100
rad_proxy_reply_seconds_bucket{{lane="0",home="h1",le="0.010"}} 0
rad_proxy_reply_seconds_bucket{{lane="0",home="h1",le="0.025"}} {count}
rad_proxy_reply_seconds_bucket{{lane="0",home="h1",le="+Inf"}} {count}
"""
# The numbers of a spool: how many requests are open, how many of these are not on disk, whether the disk fails, and how many found no room;
# and what the lane has.
SPOOL = """rad_proxy_spool_open_requests {}
rad_proxy_spool_unsynced_requests {}
rad_proxy_spool_failing {}
rad_proxy_spool_lost_total {}
rad_proxy_queued{{lane="0",home="h1"}} {}
rad_proxy_outstanding{{lane="0",home="h1"}} {}
"""


class StandIn(threading.Thread):
    """What stands for a service in a folder: it answers `state` and `drain`, as the attributes say, which a test changes."""

    def __init__(self, folder, owner):
        super().__init__(daemon=True)
        self.folder, self.is_over = folder, False
        self.mode, self.queued, self.outstanding, self.rate = "open", 0, 0, 0
        self.watch, self.spool = "up", None
        self.reads, self.answers_drain, self.stops_at_drain, self.writes = True, True, False, False
        self.drained_at, self.asked_before, self.begun = None, 0, time.monotonic()
        folder.mkdir(0o700)
        os.mkfifo(folder / "commands", 0o600)
        for path in (folder, folder / "commands"):
            os.chown(path, owner, owner)
        self.commands = os.open(folder / "commands", os.O_RDWR | os.O_NONBLOCK)
        self.count, self.asked, self.text = 0, 0, TEXT
        self.start()

    def line(self):
        answered = int((time.monotonic() - self.begun) * self.rate)
        accepted = answered + self.queued + self.outstanding
        return (f"lane 0 h1 {self.watch} {self.mode} accepted {accepted} queued {self.queued} outstanding {self.outstanding} answered {answered} "
                "opening 0")

    def answer_of(self, command):
        if command == "state":
            self.asked += 1
            return self.line()
        if command == "drain" and self.stops_at_drain:
            self.reads = False
            return None
        if command == "drain":
            self.mode, self.asked_before = "draining" if self.queued + self.outstanding else "done", self.asked
            self.drained_at = time.monotonic()
            return "drain: 0 7" if self.answers_drain else None
        return "unknown"

    def obey(self):
        with contextlib.suppress(BlockingIOError):
            for command in os.read(self.commands, 4096).decode().split():
                answer = self.answer_of(command)
                if answer is not None:
                    self.write(answer)
                elif command == "drain":
                    return

    def write(self, line):
        with contextlib.suppress(OSError):
            fifo = os.open(self.folder / "answer", os.O_RDWR | os.O_NONBLOCK)
            os.write(fifo, f"{line}\n".encode())
            os.close(fifo)

    def write_counters(self):
        self.count += 10
        new = self.folder / "counters.new"
        spool = SPOOL.format(*self.spool, self.queued, self.outstanding) if self.spool else ""
        new.write_text(self.text.format(start=time.time() - 18_459, now=time.time(), count=self.count) + spool)
        new.replace(self.folder / "counters")

    def run(self):
        due = time.monotonic()
        while not self.is_over:
            if self.reads:
                self.obey()
            if self.writes and time.monotonic() >= due:
                self.write_counters()
                due = time.monotonic() + 0.3
            time.sleep(0.002)
        os.close(self.commands)

    def stop(self):
        self.is_over = True
        self.join()


class Asking:
    """rad_proxyctl, installed below a folder of this test, and stand-ins that it asks."""

    def __init__(self, program, room):
        self.room, self.stand_ins = room, []
        room.chmod(0o755)
        subprocess.run(["make", "-s", "install-proxy", f"PREFIX={room}/usr", f"SYSCONFDIR={room}/etc", f"RUNDIR={room}/run",
                        f"STATEDIR={room}/var", f"PROGRAM={program}"], cwd=TOP, check=True)
        (room / "run").mkdir(mode=0o755)
        self.ctl, self.config = room / "usr/sbin/rad_proxyctl", room / "etc/rad_proxy/rad_proxy.toml"
        self.config.write_text("# none\n")
        checker = room / "checker"
        checker.write_text(CHECKER)
        for path in (checker, self.config):
            path.chmod(0o755)
        self.environment = environment() | {"RAD_PROXY_PROGRAM": str(checker)}
        for name in ("RUNTIME_DIRECTORY", "RAD_PROXY_LOG"):
            self.environment.pop(name, None)

    def stand_in(self, name="service", owner=None):
        made = StandIn(self.room / name, os.getuid() if owner is None else owner)
        self.stand_ins.append(made)
        return made

    def restarting(self, one):
        """What restarts this one: it is open then, and the file `out` is gone, as `serve` has it."""
        script = self.room / f"way-{one.folder.name}"
        calls = pathlib.Path(f"{script}.calls")
        script.write_text(f"#!/bin/sh\necho restart >>{shlex.quote(str(calls))}\nrm -f {shlex.quote(str(one.folder / 'out'))}\n")
        script.chmod(0o755)
        threading.Thread(target=self.open_again, args=(one, calls), daemon=True).start()
        return {"RAD_PROXY_RESTART": shlex.quote(str(script))}, calls

    def open_again(self, one, calls):
        while not one.is_over and not calls.exists():
            time.sleep(0.01)
        one.mode = "open"

    def begin(self, one, *words, **options):
        more = options.pop("variables", {})
        given = {"stdin": subprocess.DEVNULL, "stdout": subprocess.PIPE, "stderr": subprocess.PIPE, "text": True,
                 "env": self.environment | more, "start_new_session": True} | options
        return subprocess.Popen([self.ctl, "-d", one.folder, *words], **given)

    def ask(self, one, *words, **options):
        asker = self.begin(one, *words, **options)
        out, err = asker.communicate(timeout=PATIENCE)
        return asker.returncode, out, err

    def stop(self):
        for one in self.stand_ins:
            one.stop()
