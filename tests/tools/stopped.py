"""Stops each tool that writes files before each of its steps, and lets each step be refused once: what is left is whole, or is not there.

usage: python3 -m tests.tools.stopped PROGRAM [NAME ..]

A step is a file that is opened to be written, one that is renamed, linked, removed or changed in its mode, a folder that is made or
removed, a database that is opened, or a process that is started; of a script of the package, each command that it calls. Before the step of
each number the tool is killed once, and once that step fails for want of room, but for a removal. PROGRAM is rad_proxy, with the auditor
beside it. Each test is a command below. The last line is `N passed, M failed`.
"""
import contextlib
import gzip
import itertools
import os
import pathlib
import re
import shutil
import signal
import sqlite3
import subprocess
import sys
import tempfile
from concurrent.futures import ThreadPoolExecutor
from types import SimpleNamespace

from tests.lib import TOP, environment, hope, need, text, try_each, until
from tests.lib.ledgers import chained
from tests.lib.spool import segments
from tests.lib.stand_ins import TEXT, Asking
from tests.lib.tools.capturing import pcap
from tests.lib.tools.running import TOOLS, want
from tests.tools.ledger import CONFIG, Ledger, auditor_of
from tests.tools.spool import asked, came, file_of
from tests.tools.trial import Traffic, configuration
from tools.controlling.bounds import NO_SERVICE

# Runs the tool of the further words, and stops it before the step of a number: by KILL, or with an error.
STOPPING = """
import errno, os, runpy, signal, sys
at, how, count = int(sys.argv[1]), sys.argv[2], 0
STEPS = {"os.rename", "os.remove", "os.mkdir", "os.rmdir", "os.link", "os.chmod", "os.fork", "sqlite3.connect", "subprocess.Popen"}
def see(event, its):
    global count
    writes = event == "open" and its[0] != os.devnull and its[2] & (os.O_WRONLY | os.O_RDWR | os.O_CREAT)
    if event not in STEPS and not writes:
        return
    count += 1
    if count == at and how == "kill":
        os.kill(os.getpid(), signal.SIGKILL)
    if count == at and event not in ("os.remove", "os.rmdir"):
        raise OSError(errno.ENOSPC, os.strerror(errno.ENOSPC), "a file")
sys.argv = sys.argv[3:]
sys.path.insert(0, os.path.dirname(sys.argv[0]))
sys.addaudithook(see)
runpy.run_path(sys.argv[0], run_name="__main__")
"""
# What a script of the package calls, each by this, which counts the calls and stops the script at one, or fails. It starts, stops and lists
# units, which are files of a folder, and notes what else it is to do.
CALLED = "chmod", "chown", "deb-systemd-invoke", "rad_proxyctl", "rm", "systemctl", "systemd-cat", "systemd-sysusers"
CALL = """#!/bin/sh
echo >>"$ROOM/calls"
if [ "$(wc -l <"$ROOM/calls")" -eq "$AT" ]; then
	[ "$HOW" = fail ] && exit 1
	kill -KILL 0
fi
words="${0##*/} $*"
cd "$ROOM/units"
case $words in
"systemctl stop "* | "deb-systemd-invoke stop "*) shift; /bin/rm -f $* ;;
"systemctl start "*) touch "$2" ;;
"systemctl is-active "*) test -e "$3" ;;
"systemctl list-units "*) for unit in rad_proxy.service rad_proxy@*.service; do echo "$unit loaded active running"; done ;;
"rm "*) exec /bin/rm "$@" ;;
"systemd-cat "*) ;;
*) echo "$words" >>"$ROOM/notes" ;;
esac
"""
# What is active and what is there before a script, and how each is called: of an upgrade, a first installation, a removal and a purge.
UNITS = "rad_proxy.service", "rad_proxy@two.service", "rad_proxy-metrics.socket", "rad_proxy-metrics.service", "rad_proxy-heads.timer"
THERE = ("etc/rad_proxy/one.toml", "var/cache/rad_proxy/counters", "etc/systemd/system/a.wants/rad_proxy-heads.path", "var/lib/rad_proxy/kept",
         "var/lib/rad_proxy_spool/rad_proxy/lock", "var/lib/rad_proxy_spool/rad_proxy-two/lock",
         "var/lib/rad_proxy_spool/rad_proxy-two/0000000000000001.spool", "var/lib/rad_proxy_spool/rad_proxy-six/0000000000000001.spool.damaged")
SCRIPTS = ("postinst", "configure", "0.1"), ("postinst", "configure", ""), ("prerm", "remove"), ("postrm", "remove"), ("postrm", "purge")
SECONDS, MOST_STEPS, AT_ONCE = 300, 60, 4
# What a tool that was killed may leave beside its files, by the beginnings of the names.
BESIDE = ".rad_convert-", ".new-", "numbers.", "script."
# The end of the name of SQLite's journal. One whose transaction is not over counts for nothing, and the next one takes its place.
JOURNAL = "-journal"
# The folder of temporary files, and what one who was killed leaves there: a room, or the file by which Python sees that it can write there.
ROOMS, ROOM = "rooms", re.compile("rad_ledger-.*|[a-z0-9_]{8}")
# What is asked: the input, and the words.
ASKED = (b"", "state"), (b"", "metrics"), (b"", "out", "9"), (b"drain\n", "out", "9"), (b"", "trace", "9", "alice\n")
# What a service has in its folder, whoever asks it; the locks of those who ask and of those who restart are of it.
KEPT = "commands", "counters", "lock", "restart.lock"


class Command:
    """A tool with its words, in a folder of its own where its files come to be."""

    def __init__(self, room, tool, *words):
        self.room, self.tool, self.words, self.rooms = room, tool, words, room.parent / ROOMS
        self.rooms.mkdir(exist_ok=True)
        self.environment = os.environ | {"TMPDIR": str(self.rooms)}

    def run(self, at=0, how="no"):
        words = [sys.executable, "-c", STOPPING, str(at), how, TOOLS / self.tool, *self.words]
        return subprocess.run(words, cwd=self.room, env=self.environment, capture_output=True, timeout=SECONDS, stdin=subprocess.DEVNULL)

    def files(self):
        """Each file that is there, with what it says."""
        return {str(file.relative_to(self.room)): says(file) for file in sorted(self.room.rglob("*")) if file.is_file() and not is_beside(file, self.room)}

    def beside(self):
        return [str(file.relative_to(self.room)) for file in self.room.rglob("*") if is_beside(file, self.room)]

    def left_rooms(self):
        """The temporary folders that are left, once nobody works in them or for it any more."""
        until("nobody works in its rooms", lambda: not processes_in(self.rooms) + processes_in(self.room))
        return sorted(file.name for file in self.rooms.iterdir())

    def clear(self):
        for file in [*self.room.iterdir(), *self.rooms.iterdir()]:
            shutil.rmtree(file) if file.is_dir() else file.unlink()


def processes_in(folder):
    """The processes that work in a folder below this one."""
    found = []
    for process in pathlib.Path("/proc").iterdir():
        # A process may end meanwhile.
        with contextlib.suppress(OSError):
            if process.name.isdecimal() and pathlib.Path(os.readlink(process / "cwd")).is_relative_to(folder):
                found.append(process.name)
    return found


def is_beside(file, room):
    return file.name.endswith(JOURNAL) or any(part.startswith(BESIDE) for part in file.relative_to(room).parts)


def says(file):
    """The octets of a file; of a database what stands in it, but for the time; of a query, which has octets of chance, whether it is one."""
    if file.suffix == ".tsq":
        return subprocess.run(["openssl", "ts", "-query", "-in", file, "-text"], capture_output=True, check=False).returncode == 0
    if file.suffix not in (".db", ".index"):
        return file.read_bytes()
    with sqlite3.connect(file) as base:
        hope("the database", base.execute("PRAGMA integrity_check").fetchall(), [("ok",)])
        return sorted(line for line in base.iterdump() if "'time'" not in line)


def stop_at_each(command):
    """Kills the command before each step, and refuses each once."""
    ran, whole = command.run(), command.files()
    need(whole, f"it writes nothing: {ran.stderr.decode()[-600:]}")
    for at in range(1, MOST_STEPS):
        command.clear()
        if command.run(at, "kill").returncode != -signal.SIGKILL:
            break
        see_left(command, ran.returncode, whole, f"killed at {at}")
        command.clear()
        refused = command.run(at, "fail")
        hope(f"a step is refused at {at}: beside its files", command.beside() + command.left_rooms(), [])
        see_left(command, ran.returncode, whole, f"refused at {at}", refused)
    need(1 < at < MOST_STEPS - 1, f"{at} steps")


def see_left(command, status, whole, what, refused=None):
    """Each file that is there is as it should be, and where not all are, the next run makes them, and leaves no room of its own. A command that
    fails says so in words."""
    # Who still has a database open keeps its journal from being played back.
    rooms, left = command.left_rooms(), command.files()
    need(all(map(ROOM.fullmatch, rooms)), f"{what}: {rooms}")
    for name, octets in left.items():
        need(octets == whole.get(name) or is_empty(octets), f"{what}: {name} is there in part")
    if refused:
        need(b"Traceback" not in refused.stderr, f"{what}: {refused.stderr.decode()}")
        need(refused.returncode != status or left == whole, f"{what}: it tells nothing")
    if left == whole:
        return
    again = command.run()
    need(again.returncode == status, f"{what}: the next run: {again.stderr.decode()[-600:]}")
    need(command.files() == whole, f"{what}: the next run: other files")
    hope(f"{what}: the rooms behind the next run", command.left_rooms(), rooms)


def is_empty(said):
    """Whether a database has nothing yet."""
    return isinstance(said, list) and not any("INSERT" in line for line in said)


class Stage:
    """A ledger of three files and its configuration, and commands over them."""

    def __init__(self, program, room):
        self.program, self.room, self.auditor = program, room, auditor_of(program)
        self.config, self.folder = room / "config.toml", room / "ledger"
        self.config.write_text(CONFIG)
        self.folder.mkdir()
        for number in range(3):
            made = Ledger(self.folder, 0xA1 + number)
            for home in (0, 1, 0):
                made.add(session=b"S%d" % number, home=home)
            octets = text(chained([*made.lines, made.made.end_of_all()])).encode()
            # The auditor gets what is compressed by a fifo, which it opens.
            made.path.write_bytes(octets) if number == 0 else made.path.with_name(f"{made.path.name}.gz").write_bytes(gzip.compress(octets, mtime=0))

    def command(self, tool, *words):
        room = self.room / "made"
        room.mkdir(exist_ok=True)
        return Command(room, tool, *words)

    def ledger(self, *words):
        return self.command("rad_ledger", *words)


class Question(Command):
    """What asks a proxy in its folder, which is a stand-in; with what it is given on its input."""

    def __init__(self, one, given, *words):
        super().__init__(one.folder, "controlling/asking.py", *words)
        self.one, self.given = one, given

    def run(self, at=0, how="no"):
        self.one.mode = "open"
        words = [sys.executable, "-c", STOPPING, str(at), how, TOOLS / self.tool, *self.words]
        return subprocess.run(words, cwd=self.room, capture_output=True, timeout=SECONDS, input=self.given)

    def left(self):
        """What is left in the folder, beside what a service has there."""
        return sorted(file.name for file in self.room.iterdir() if not file.name.startswith(KEPT))

    def has_what_is_there_with_a_drain(self):
        """Where the proxy drains, the file `out` stays, for the next start to remove."""
        hope("what is left", self.left(), ["out"] if self.one.mode == "done" else [])
        self.clear()

    def clear(self):
        for name in ("out", "trace"):
            (self.room / name).unlink(missing_ok=True)


def stop_a_question(question):
    """Kills it before each step: the next one is answered, and leaves nothing. Refuses each step once: it leaves nothing, and says so in words."""
    ran = question.run()
    need(ran.returncode == 0, ran.stderr.decode())
    question.has_what_is_there_with_a_drain()
    for at in range(1, MOST_STEPS):
        if question.run(at, "kill").returncode != -signal.SIGKILL:
            break
        # Nobody is there any more who could take these away.
        question.clear()
        again = question.run()
        hope(f"killed at {at}: the next one", (again.returncode, again.stderr), (0, b""))
        question.has_what_is_there_with_a_drain()
        refused = question.run(at, "fail")
        need(b"Traceback" not in refused.stderr, f"refused at {at}: {refused.stderr.decode()}")
        question.has_what_is_there_with_a_drain()
    question.clear()
    need(1 < at < MOST_STEPS - 1, f"{at} steps")


def questions(stage):
    with served(stage) as (_, one):
        for given, *words in ASKED:
            try:
                stop_a_question(Question(one, given, *words))
            except AssertionError as fault:
                raise AssertionError(f"{given} {words}: {fault}") from None


def questions_to_nobody(stage):
    """In a folder without a service nothing is made."""
    nobody = SimpleNamespace(folder=stage.room / "nobody", mode="")
    nobody.folder.mkdir()
    for given, *words in ASKED:
        ran = Question(nobody, given, *words).run()
        hope(words, (ran.returncode, ran.stdout, list(nobody.folder.iterdir())), (NO_SERVICE, b"", []))


def numbers_in_a_file(stage):
    with served(stage) as (asking, one):
        stop_at_each(stage.command(asking.ctl, "-d", one.folder, "metrics", "numbers"))


class Restarting(Command):
    """What restarts a proxy in its folder, which is a stand-in, in a way that opens it again."""

    def __init__(self, asking, one):
        super().__init__(one.folder, asking.ctl, "-d", one.folder, "restart", "--force")
        self.asking, self.one = asking, one

    def run(self, at=0, how="no"):
        way, calls = self.asking.restarting(self.one)
        calls.unlink(missing_ok=True)
        self.environment = self.asking.environment | way
        return super().run(at, how)


def restarts(stage):
    """Whoever is killed or refused before a step of a restart, the next one restarts the service: no lock and no file keeps it from that.
    What is refused says so in words, and the file `out` stands where the proxy drains alone."""
    with served(stage) as (asking, _):
        for at, how in itertools.product(range(1, MOST_STEPS), ("kill", "fail")):
            restarting = Restarting(asking, asking.stand_in(f"{how}{at}"))
            stopped = restarting.run(at, how)
            if stopped.returncode == 0:
                break
            need(b"Traceback" not in stopped.stderr, f"{how} {at}: {stopped.stderr.decode()}")
            again = restarting.run()
            hope(f"{how} {at}: the next one", (again.returncode, again.stdout.splitlines()[-1:]), (0, [b"restarted"]))
            until(f"{how} {at}: nothing is left", lambda: Question(restarting.one, b"").left() == [])
        need(2 < at < MOST_STEPS - 1, f"{at} steps")


@contextlib.contextmanager
def served(stage):
    """A stand-in for the service, whose numbers stay the same, and rad_proxyctl."""
    installed = stage.room / "installed"
    installed.mkdir()
    asking = Asking(stage.program, installed)
    try:
        one = asking.stand_in()
        one.text = TEXT.format(start=1, now=2, count=3).replace("{", "{{").replace("}", "}}")
        one.writes = True
        until("numbers", (one.folder / "counters").exists)
        yield asking, one
    finally:
        asking.stop()


def a_conversion(stage):
    stop_at_each(stage.command("rad_convert", "-o", "proxy.toml", "radsecproxy", str(TOP / "examples" / "radsecproxy" / "sender.conf")))


def a_hand_out(stage):
    stop_at_each(stage.ledger("hand-out", "--home", "billing", "out", str(stage.folder)))


def an_import(stage):
    stop_at_each(stage.ledger("import", "--program", stage.auditor, "records.db", str(stage.config), str(stage.folder)))


def an_index(stage):
    stop_at_each(stage.ledger("find", "--program", stage.auditor, "--index", "kept.index", str(stage.config), str(stage.folder)))


def queries_of_heads(stage):
    want("openssl")
    stop_at_each(stage.ledger("heads", "--heads", "heads", str(stage.folder)))


def a_script_of_a_trial(stage):
    traffic, config, capture = Traffic(), stage.room / "trial.toml", stage.room / "trial.pcap"
    traffic.ask()
    config.write_text(configuration())
    capture.write_bytes(pcap(traffic.frames()))
    stop_at_each(stage.command("rad_trial", "--script", "script", str(config), str(capture)))


# Each octet that is written to a disk and each wait for it are steps too. Whoever is killed at a write has written the first half.
TO_DISK = """
import os
def stepping(name, call):
    def called(descriptor, *its):
        before = count
        if name == "pwrite" and at == count + 1 and len(its[0]) > 1:
            call(descriptor, its[0][:len(its[0]) // 2], *its[1:])
        see("subprocess.Popen", ())
        return call(descriptor, *its)
    return called
for name in ("pwrite", "fsync"):
    setattr(os, name, stepping(name, getattr(os, name)))
"""


class Giving(Command):
    """What gives up two of three requests of a spool, which another hand wrote and reads."""

    def __init__(self, stage, ctl):
        super().__init__(stage.room / "made", ctl, "spool", "drop", "1", "3", "--folder", stage.room / "made" / "spool", "-c", stage.config)
        self.folder, self.environment = self.room / "spool", environment()
        self.stopping = STOPPING.replace("sys.argv = sys.argv[3:]", TO_DISK + "sys.argv = sys.argv[3:]")

    def begin(self):
        shutil.rmtree(self.folder, ignore_errors=True)
        self.folder.mkdir(0o700, parents=True)
        for number in (1, 2, 3):
            (self.folder / f"{number:016x}.spool").write_bytes(file_of(number, [came(asked(number, b"a.example", b"nas-secret"), number)]))

    def run(self, at=0, how="no"):
        words = [sys.executable, "-c", self.stopping, str(at), how, self.tool, *self.words]
        return subprocess.run(words, env=self.environment, capture_output=True, timeout=SECONDS, stdin=subprocess.DEVNULL)

    def open(self):
        read = segments.spool_of(segments.in_folder(self.folder), 0, 0)
        hope("damage", read.faults, [])
        return [fields[6] for _, fields, _ in read.requests]

    def names(self):
        return sorted(file.name for file in self.folder.iterdir())


def a_drop_of_a_spool(stage):
    """Whoever is killed before a step, or after half of it, leaves each request open or both given up; the next one gives them up, or says that
    they are not open. Where a step is refused, it says so in words, and nothing is given up and no segment is left, or all is done."""
    with served(stage) as (asking, _):
        giving = Giving(stage, asking.ctl.resolve())
        giving.begin()
        ran, before = giving.run(), giving.names()
        need(ran.returncode == 0 and giving.open() == [2], ran.stderr.decode())
        seen = set()
        for at in range(1, MOST_STEPS):
            giving.begin()
            if giving.run(at, "kill").returncode != -signal.SIGKILL:
                break
            left = giving.open()
            seen.add(tuple(left))
            again = giving.run()
            hope(f"killed at {at}: the next one", (again.returncode, giving.open()), (0 if left == [1, 2, 3] else 5, [2]))
            need(left in ([1, 2, 3], [2]), f"killed at {at}: {left}")
            giving.begin()
            refused = giving.run(at, "fail")
            need(b"Traceback" not in refused.stderr and (refused.returncode == 0) == (giving.open() == [2]), f"refused at {at}: {refused}")
            need(refused.returncode == 0 or refused.stderr.startswith(b"rad_proxyctl: "), f"refused at {at}: {refused}")
            hope(f"refused at {at}: what is left", set(giving.names()) - {"lock"},
                 {name for name in before if name != "lock"} if refused.returncode == 0 else {f"{number:016x}.spool" for number in (1, 2, 3)})
        need(10 < at < MOST_STEPS - 1, f"{at} steps")
        hope("what is met", seen, {(1, 2, 3), (2,)})


class Maintaining:
    """A script of the package with its words, over a system that is a folder."""

    def __init__(self, room, name, *words):
        self.room, self.words = room, words
        text = (TOP / "packaging" / "debian" / name).read_text()
        self.script = room / name
        self.script.write_text(re.sub(r"(?<![\w/])/(?=(etc|run|usr|var)/)", f"{room}/", text))
        (room / "bin").mkdir()
        for called in CALLED:
            (room / "bin" / called).write_text(CALL)
            (room / "bin" / called).chmod(0o755)

    def begin(self):
        """The system is as before the script."""
        for name in ("units", "etc", "var", "run", "calls", "notes"):
            shutil.rmtree(self.room / name, ignore_errors=True)
        for name in ("calls", "notes"):
            (self.room / name).write_text("")
        for name in (*(f"units/{unit}" for unit in UNITS), *THERE, "run/systemd/system/it"):
            (self.room / name).parent.mkdir(parents=True, exist_ok=True)
            (self.room / name).touch()

    def run(self, at=0, how="no"):
        (self.room / "calls").write_text("")
        given = os.environ | {"ROOM": str(self.room), "AT": str(at), "HOW": how, "PATH": f"{self.room}/bin:/usr/bin:/bin"}
        return subprocess.run(["sh", self.script, *self.words], env=given, capture_output=True, timeout=SECONDS, start_new_session=True)

    def state(self):
        """What is active, what is there, and what was done."""
        active = sorted(file.name for file in (self.room / "units").iterdir())
        there = sorted(str(file) for top in ("etc", "var", "run") for file in (self.room / top).rglob("*") if file.is_file())
        return active, there, sorted(set((self.room / "notes").read_text().splitlines()))


def stop_a_script(script):
    """Kills it before each call, and lets each fail: what is not done is told, or the script fails; and run again it does all of it."""
    script.begin()
    hope("status", script.run().returncode, 0)
    whole = script.state()
    for at, how in itertools.product(range(1, MOST_STEPS), ("kill", "fail")):
        script.begin()
        ran = script.run(at, how)
        if how == "kill" and ran.returncode == 0:
            break
        need(how == "fail" or ran.returncode == -signal.SIGKILL, f"{how} {at}: {ran}")
        need(ran.returncode or ran.stderr or script.state() == whole, f"{how} {at}: it tells nothing")
        hope(f"{how} {at}: the next one", (script.run().returncode, script.state()), (0, whole))
    need(1 < at < MOST_STEPS - 1, f"{at} calls")


def scripts_of_the_package(stage):
    for name, *words in SCRIPTS:
        room = stage.room / "-".join((name, *words))
        room.mkdir()
        try:
            stop_a_script(Maintaining(room, name, *words))
        except AssertionError as fault:
            raise AssertionError(f"{name} {words}: {fault}") from None


def an_upgrade_restarts_each_unit_that_it_may(stage):
    """An upgrade restarts each unit that is active, and has the socket of the metrics begin anew; what the machine's policy forbids is left."""
    units = [*UNITS, "rad_proxy@three.service"]
    forbidden = {"": (), "rad_proxy-metrics.socket": (), "rad_proxy@two.service": ("-i two restart",), "rad_proxy.service": ("restart",)}
    for number, (unit, left) in enumerate(forbidden.items()):
        (room := stage.room / f"upgrade-{number}").mkdir()
        script = Maintaining(room, "postinst", "configure", "0.1")
        script.begin()
        (room / "units/rad_proxy@three.service").touch()
        (room / "usr/sbin").mkdir(parents=True)
        (room / "usr/sbin/policy-rc.d").write_text(f'#!/bin/sh\n[ "$1" != "{unit}" ] || exit 101\n')
        (room / "usr/sbin/policy-rc.d").chmod(0o755)
        ran = script.run()
        active, _, notes = script.state()
        asked = [note.removeprefix("rad_proxyctl ") for note in notes if note.startswith("rad_proxyctl ")]
        hope(f"{unit} is forbidden: what is restarted", (ran.returncode, asked), (0, sorted({"-i three restart", "-i two restart", "restart"} - {*left})))
        anew = [] if unit == "rad_proxy-metrics.socket" else ["rad_proxy-metrics.service"]
        hope(f"{unit} is forbidden: what is active", active, sorted({*units} - {*anew}))


def a_purge_keeps_what_waits(stage):
    """A purge takes a spool without segments away, and keeps one that has some, damaged ones too, which it tells; a removal keeps all."""
    room = stage.room / "purged"
    room.mkdir()
    spools = room / "var/lib/rad_proxy_spool"
    told = ["rad_proxy-six/0000000000000001.spool.damaged", "rad_proxy-two/0000000000000001.spool", "rad_proxy-two/lock"]
    for word, kept in (("remove", ["rad_proxy/lock", *told]), ("purge", told)):
        script = Maintaining(room, "postrm", word)
        script.begin()
        ran = script.run()
        found = sorted(str(file.relative_to(spools)) for file in spools.rglob("*") if file.is_file())
        said = "".join(f"rad-proxy: {spools}/rad_proxy-{name} stays, since it may have requests that are not answered: install rad-proxy again, "
                       "or remove it\n" for name in ("six", "two"))
        hope(word, (ran.returncode, found, ran.stderr.decode()), (0, sorted(kept), said if word == "purge" else ""))
        shutil.rmtree(room / "bin")


TESTS = [a_conversion, a_script_of_a_trial, a_hand_out, an_import, an_index, queries_of_heads, questions, questions_to_nobody, numbers_in_a_file,
         restarts, a_drop_of_a_spool, an_upgrade_restarts_each_unit_that_it_may, a_purge_keeps_what_waits, scripts_of_the_package]


def tried(test, program):
    with tempfile.TemporaryDirectory() as room:
        try:
            test(Stage(program, pathlib.Path(room)))
        except (AssertionError, OSError, subprocess.SubprocessError) as fault:
            return str(fault)[:1500]


def main():
    if len(sys.argv) < 2:
        sys.exit(__doc__)
    program, names = str(pathlib.Path(sys.argv[1]).resolve()), sys.argv[2:]
    tests = [test for test in TESTS if not names or test.__name__ in names]
    with ThreadPoolExecutor(AT_ONCE) as pool:
        told = dict(zip(tests, pool.map(lambda test: tried(test, program), tests)))
    try_each(tests, told.get)


if __name__ == "__main__":
    main()
