"""Has the program write ledgers, and asks `rad_ledger` of them what disputes want to know.

Which files stay unread, comparisons, hand-outs, imports and repeats, several configurations, and an index.

usage: python3 -m tests.ledger.asked PROGRAM [NAME ..]

PROGRAM is rad_proxy. The auditor and the reader of configurations are beside it, or where `make build` leaves them. Each test is a function
below, and its first line tells what holds. Names choose tests. The last line is `N passed, M failed`.
"""
import contextlib
import ctypes
import functools
import gzip
import json
import os
import pathlib
import re
import shutil
import sqlite3
import subprocess
import sys
import time

from tests.lib import (ACCT_SESSION_ID, ACCT_STATUS_TYPE, HERE, PATIENCE, TOP, LeftOut, answer, attribute, bound, environment, free_port, hope,
                       request, started, try_in_folders, user_name)
from tests.lib.ledger.chained_cases import all_cases
from tests.lib.tools import running

HOMES, SECRETS = ("billing", "spare"), {"billing": b"one home secret", "spare": b"another home secret"}
NAS, OTHER_NAS = (HERE, b"nas-secret"), ("127.0.0.2", b"other-secret")
ACCT_DELAY_TIME, MARK_OCTETS = 41, 12
# What a process asks Linux for where it gives up a right of root for good, and the rights to read each file.
PR_CAPBSET_DROP, CAP_DAC_OVERRIDE, CAP_DAC_READ_SEARCH = 24, 1, 2
LIBC = ctypes.CDLL(None)
START, STOP = 1, 2
KINDS = {START: "Start", STOP: "Stop", 3: "Interim-Update", 7: "Accounting-On", 8: "Accounting-Off"}
# A configuration that has lost a server or a client still reads.
NOBODY = "203.0.113.1"


def built(program, name):
    """A program beside this one, or where `make build` leaves it."""
    beside = pathlib.Path(program).parent / name
    return str(beside if beside.exists() else TOP / "crates" / name / "out" / name)


class Site:
    """A folder with a configuration and a ledger; the access servers and home servers of it; and what was sent, by session."""

    def __init__(self, program, folder):
        self.program, self.folder, self.ledger = program, pathlib.Path(folder), pathlib.Path(folder, "ledger")
        self.ledger.mkdir()
        self.auditor, self.port = built(program, "rad_audit"), free_port()
        os.environ["RAD_PROXY_CONFIG_JSON"] = built(program, "config_json")
        self.homes, self.secrets = {name: bound() for name in HOMES}, dict(SECRETS)
        self.clients, self.sent = {NAS[0]: NAS[1], OTHER_NAS[0]: OTHER_NAS[1]}, []
        self.identifiers, self.config = 0, self.configure("rad_proxy.toml")

    def configure(self, name, homes=HOMES, clients=None, secrets=None):
        """A configuration with these home servers and clients, and their secrets."""
        clients, secrets = clients or self.clients, secrets or self.secrets
        text = f'listen = "{HERE}:{self.port}"\nlinger = 1000\n'
        text += "".join(f'[[client]]\naddress = "{it}"\nsecret = "{secret.decode()}"\n' for it, secret in clients.items())
        text += "".join(f'[[home]]\nname = "{it}"\naddress = "{HERE}:{self.homes[it].getsockname()[1]}"\nsecret = "{secrets[it].decode()}"\n'
                        f'[[realm]]\nname = "{it}.example"\nhome = "{it}"\n' for it in homes)
        path = self.folder / name
        path.write_text(text)
        return path

    @contextlib.contextmanager
    def running(self, is_killed=False, **variables):
        """A run of the program, in an environment with these variables, which ends cleanly behind that, or is killed."""
        variables = environment("warn") | {"RAD_PROXY_LEDGER": str(self.ledger)} | variables
        with started([self.program, "run", str(self.config)], stdin=subprocess.PIPE, stdout=subprocess.PIPE, env=variables) as ran:
            hope("listening", ran.stdout.readline().split()[:1], [b"listening"])
            yield self
            if is_killed:
                time.sleep(0.5)
                ran.kill()
            ran.stdin.close()
            ran.wait(PATIENCE)

    def run(self, *records, is_killed=False):
        """A run in which each of these is answered, at a time of its own."""
        with self.running(is_killed):
            for record in records:
                self.talk(*record)
                time.sleep(0.002)
        return self.files()[-1]

    def talk(self, session, status=START, home="billing", nas=NAS, user=b"bob", more=b""):
        """A record that its home server answers, and what the access server hears."""
        self.identifiers += 1
        attributes = user_name(user + f"@{home}.example".encode()) + attribute(ACCT_SESSION_ID, session)
        attributes += attribute(ACCT_STATUS_TYPE, status.to_bytes(4, "big")) + more
        with bound(nas[0]) as client:
            client.sendto(request(self.identifiers % 256, attributes, nas[1]), (HERE, self.port))
            self.homes[home].settimeout(PATIENCE)
            octets, proxy = self.homes[home].recvfrom(4096)
            self.homes[home].sendto(answer(octets, octets[1], octets[-MARK_OCTETS:], self.secrets[home]), proxy)
            hope("an answer", client.recv(4096)[:1], b"\5")
        self.sent.append((session, status, home, user, octets[-MARK_OCTETS:], int(time.time())))

    def files(self):
        """The files of the ledger, the oldest first."""
        return sorted(self.ledger.glob("*-*.jsonl"), key=lambda it: json.loads(it.open().readline())["time"])

    def details(self, home="billing"):
        """What FreeRADIUS would have written of what its home server got."""
        return "".join(detail(*it) for it in self.sent if it[2] == home)

    def ask(self, *words, **how):
        """Status, output and errors of a call."""
        command, *rest = map(str, words)
        program = [] if command in ("hand-out",) or "--program" in rest else ["--program", self.auditor]
        ran = running.run("rad_ledger", command, *program, *rest, seconds=300, **how)
        hope("a traceback", b"Traceback" in ran.stderr, False)
        return ran.returncode, ran.stdout.decode(), ran.stderr.decode()

    def found(self, *words):
        """Status, and the sessions that are found."""
        status, out, _ = self.ask("find", *words)
        return status, re.findall(r" of session (\S+),", out)

    def audit(self, *words):
        """Status and lines of the auditor itself."""
        ran = subprocess.run([self.auditor, *map(str, words)], capture_output=True, check=False)
        return ran.returncode, ran.stdout.decode().splitlines()

    def stop(self):
        for it in self.homes.values():
            it.close()


def detail(session, status, home, user, mark, moment):
    """A record as FreeRADIUS writes it."""
    return (f"{time.strftime('%a %b %d %H:%M:%S %Y', time.localtime(moment))}\n\tUser-Name = \"{user.decode()}@{home}.example\"\n"
            f'\tAcct-Status-Type = {KINDS[status]}\n\tAcct-Session-Id = "{session.decode()}"\n\tProxy-State = 0x{mark[2:].hex()}\n'
            f"\tTimestamp = {moment}\n\n")


def two_runs(site):
    """Two runs of two records each, and the files of them."""
    site.run((b"S1",), (b"S2",))
    site.run((b"S3",), (b"S4", START, "spare"))
    return site.files()


def no_file_of_a_folder_stays_unread(site):
    """A file that a folder has under another name or form, that may not be read, or that stands in a folder of it, is named, and the status
    is 12, whatever the auditor says that it may explain. Nothing else is."""
    first, second = two_runs(site)
    hope("all is read", site.found(site.config, site.ledger), (0, ["S1", "S2", "S3", "S4"]))
    octets = second.read_bytes()
    second.unlink()
    names = [f"{second.name}{end}" for end in (".xz", ".zst", ".bz2", ".1", ".1.gz", "-20261129", "-20261129.gz")] + ["other", f".{second.name}.swp"]
    for name in names:
        path = site.ledger / name
        path.write_bytes(octets)
        for command in ("find", "sum", "csv"):
            status, out, err = site.ask(command, site.config, site.ledger)
            told = out if command == "find" else err
            hope(f"{name} {command}: {out} {err}", (status, f"not read: {path}: " in told, "is whole" in told, "not whole: status 12" in told),
                 (12, True, False, True))
        path.unlink()
    (site.ledger / "older").mkdir()
    hope("a folder", site.found(site.config, site.ledger), (12, ["S1", "S2"]))
    (site.ledger / "older").rmdir()
    second.symlink_to(site.folder / "gone")
    hope("a link to nothing", site.found(site.config, site.ledger), (12, ["S1", "S2"]))
    second.unlink()
    os.mkfifo(second)
    hope("a pipe", site.found(site.config, site.ledger), (12, ["S1", "S2"]))
    second.unlink()
    (site.ledger / f"{first.name}.gz").write_bytes(gzip.compress(first.read_bytes()))
    hope("one that is there twice", site.found(site.config, site.ledger), (12, ["S1", "S2"]))
    (site.ledger / f"{first.name}.gz").unlink()
    with contextlib.closing(sqlite3.connect(site.ledger / "it.db")) as made:
        made.execute("CREATE TABLE it (it)")
    hope("a database", site.found(site.config, site.ledger), (0, ["S1", "S2"]))
    (site.ledger / "it.db").unlink()
    first.write_bytes(first.read_bytes().replace(b'"port":', b'"port":1', 1))
    (site.ledger / "other").touch()
    hope("what no other file explains", site.found(site.config, site.ledger)[0], 5)
    (site.ledger / "other").unlink()
    first.rename(site.ledger / "other")
    status, out, err = site.ask("find", site.config, site.ledger)
    hope("none that is read", (status, out, "and 1 of other names are" in err), (12, "", True))


def no_file_without_permission_stays_unread(site):
    """A file that may not be read is named, and the others are read; one that is given by its name is a fault."""
    if os.geteuid():
        raise LeftOut("it wants root, which may give a file away")
    _, second = two_runs(site)
    os.chmod(second, 0o600)
    os.chown(second, 65534, 65534)
    bound_by_modes = functools.partial(site.ask, "find", preexec_fn=give_up_rights)
    status, out, err = bound_by_modes(site.config, site.ledger)
    hope(f"in a folder: {err}", (status, f"not read: {second}: Permission denied\n" in out, out.count("evidence: ")), (12, True, 2))
    hope("by its name", bound_by_modes(site.config, second), (4, "", f"rad_ledger: file: {second}: Permission denied\n"))


def give_up_rights():
    """Has what is run next in this process no right of root to files that their modes keep from it."""
    for right in CAP_DAC_OVERRIDE, CAP_DAC_READ_SEARCH:
        hope("a right is given up", LIBC.prctl(PR_CAPBSET_DROP, right, 0, 0, 0), 0)


def a_run_that_is_not_there_is_told(site):
    """A folder stands for all runs, and so do files with `--all`: one that is not there is a fault. A sum that was kept is looked for."""
    first, second = two_runs(site)
    end = json.loads(first.read_text().splitlines()[-1])
    kept = f"{end['run']}:0:{end['sum']}"
    for words in ((site.ledger,), (first, second), ("--sum", kept, first)):
        hope(f"all: {words}", site.found(site.config, *words)[0], 0)
    hope("another sum", site.found("--sum", kept[:-64] + "1" * 64, site.config, first)[0], 5)
    hope("no sum", site.ask("find", "--sum", "x", site.config, first)[:2], (1, ""))
    first.rename(site.folder / first.name)
    hope("a file alone", site.found(site.config, second), (0, ["S3", "S4"]))
    hope("of a folder", site.found(site.config, site.ledger), (10, ["S3", "S4"]))
    hope("with --all", site.found("--all", site.config, second), (10, ["S3", "S4"]))


def differences(site, *words):
    """Status and counts of a comparison with details: in both, twice, in the ledger alone, in the details alone, without a mark."""
    status, out, err = site.ask("reconcile", "--home", "billing", "--ledger", site.ledger, *words)
    return status, list(map(int, re.findall(r"\d+", out.splitlines()[-1]))), out, err


def a_comparison_is_of_what_is_asked_for_on_both_sides(site):
    """`--day`, `--session`, `--user`, `--realm`, `--client` and times choose records of the ledger and of the detail files alike."""
    site.run((b"S1",), (b"S1", STOP), (b"S2", START, "billing", NAS, b"eve"), (b"S3", START, "billing", OTHER_NAS))
    path, today, other = site.folder / "detail", time.strftime("%Y-%m-%d", time.gmtime()), "2026-01-31"
    path.write_text(site.details())
    cases = {(): 4, ("--session", "S1"): 2, ("--user", "eve@billing.example"): 1, ("--realm", "BILLING.example"): 4, ("--day", today): 4,
             ("--day", other): 0, ("--until", other): 0, ("--since", other): 4, ("--client", OTHER_NAS[0]): 1, ("--client", NAS[0]): 3,
             ("--session", "S1", "--day", other): 0, ("--realm", "x"): 0}
    for words, count in cases.items():
        hope(f"{words}", differences(site, *words, site.config, path)[:2], (0, [count, 0, 0, 0, 0]))
    kept = list(site.sent)
    site.sent[:] = kept[1:]
    path.write_text(site.details().replace("Proxy-State", "Other", 1))
    hope("missing", differences(site, site.config, path)[:2], (11, [2, 0, 2, 0, 1]))
    hope("missing, of the session", differences(site, "--session", "S1", site.config, path)[:2], (11, [0, 0, 2, 0, 1]))
    hope("missing, of another", differences(site, "--session", "S2", site.config, path)[:2], (0, [1, 0, 0, 0, 0]))
    for words in (("--user", "eve@billing.example"), ("--day", other)):
        hope(f"a mark that is missing, of others: {words}", differences(site, *words, site.config, path)[1][4], 0)
    site.sent[:] = [*kept, (b"S9", START, "billing", b"eve", kept[0][4], kept[0][5])]
    path.write_text(site.details())
    for words, alone in (((), 1), (("--session", "S9"), 1), (("--session", "S1"), 0), (("--user", "eve@billing.example"), 1), (("--day", other), 0),
                         (("--user", "bob@billing.example"), 0)):
        status, counts, *_ = differences(site, *words, site.config, path)
        hope(f"in the details alone: {words}", (status, counts[3]), (11 if alone else 0, alone))


def midnight_makes_no_difference(site):
    """A record that came on one day and was answered on the next one is no difference of either."""
    site.run((b"S1",))
    moment = json.loads(site.files()[0].read_text().splitlines()[1])["time"]
    site.sent[0] = (*site.sent[0][:-1], site.sent[0][-1] - 40_000)
    path = site.folder / "detail"
    path.write_text(site.details())
    hope("of its line", differences(site, "--since", moment[:19], site.config, path)[:2], (0, [1, 0, 0, 0, 0]))
    hope("before that", differences(site, "--until", moment[:19], site.config, path)[:2], (0, [0, 0, 0, 0, 0]))


def a_comparison_hides_no_verdict(site):
    """Where the auditor finds the ledger at fault, its status is that of the comparison, with a difference and without."""
    first, _ = two_runs(site)
    octets, path = first.read_bytes(), site.folder / "detail"
    for details in (site.details(), ""):
        path.write_text(details)
        first.write_bytes(octets.replace(b'"port":', b'"port":1', 1))
        hope("a line that is changed", differences(site, site.config, path)[0], 5)
        first.write_bytes(octets[: octets.rindex(b"{")])
        hope("no end", differences(site, site.config, path)[0], 10)
        first.write_bytes(octets)
        hope("whole", differences(site, site.config, path)[0], 0 if details else 11)
        (site.ledger / "other").touch()
        hope("a file that is not read", differences(site, site.config, path)[0], 12)
        (site.ledger / "other").unlink()


def a_hand_out_tells_nothing_of_others(site):
    """What is handed out is right under the configuration of its home server alone, and has no other one's name or counts. With `--others` it
    has both. It has the sums of the run, so that a line that is changed or gone is found. A file that is not read is told."""
    site.run((b"S1",), (b"S2", START, "spare"), (b"S3", STOP), (b"S4", START, "spare"))
    site.run((b"S5",))
    (own := site.folder / "own").mkdir()
    config = site.configure("own.toml", ["billing"], {NOBODY: b"no secret"})
    out, with_others = own / "out", own / "others"
    hope("what is told", site.ask("hand-out", "--home", "billing", out, site.ledger), (0, "3 records, 2 lines left out\n", ""))
    octets = b"".join(it.read_bytes() for it in out.iterdir())
    hope("words of others", [it for it in (b"spare", b'"hidden":1', b'{"type":"hidden","lane":1,"kind":"entry","sum":"') if it in octets],
         [b'"hidden":1', b'{"type":"hidden","lane":1,"kind":"entry","sum":"'])
    ends = [json.loads(line)["lanes"] for line in octets.splitlines() if json.loads(line)["type"] in ("begin", "end")]
    hope("lanes", {len(it) for it in ends}, {1})
    status, lines = site.audit("--partial", config, *sorted(out.iterdir()))
    hope(f"the audit {lines}", (status, sorted(re.sub("^run [0-9a-f]*", "run", it) for it in lines)), (0, [
        "run hidden 2", "run hidden 4", "run lane 0 billing accepted 1 answered 1 left 0", "run lane 0 billing accepted 2 answered 2 left 0",
        "run lane 0 billing from 0 entries 1 not judged 1 part", "run lane 0 billing from 0 entries 2 not judged 2 part",
        *["run lane 0 billing part: not-judged"] * 2]))
    file = next(it for it in out.iterdir() if b'"S3"' in it.read_bytes())
    whole = file.read_bytes().splitlines(True)
    (at,) = (place for place, it in enumerate(whole) if b'"S1"' in it)
    file.write_bytes(b"".join(whole[:at] + whole[at + 1 :]))
    # the sum of a line that is left out counts as right, so that only the serial is missing in front of one
    wanted = 3 if b'"type":"hidden"' in whole[at + 1] else 5
    hope("one is taken away", site.audit("--partial", config, *out.iterdir())[0], wanted)
    again = own / "again"
    hope("handed out again", site.ask("hand-out", "--home", "billing", again, out)[:2], (0, "2 records, 2 lines left out\n"))
    hope("the same octets", sorted(it.read_bytes() for it in again.iterdir()), sorted(it.read_bytes() for it in out.iterdir()))
    site.ask("hand-out", "--home", "billing", "--others", with_others, site.ledger)
    octets = b"".join(it.read_bytes() for it in with_others.iterdir())
    hope("with others", [it in octets for it in (b"spare", b"hidden", b'"sum"')], [True, True, True])
    for it in with_others.iterdir():
        it.write_bytes(it.read_bytes().replace(b'"port":', b'"port":1', 1))
    hope("a line that is changed", site.audit("--partial", config, *with_others.iterdir())[0], 5)
    (site.ledger / "x.jsonl.xz").touch()
    status, out, err = site.ask("hand-out", "--home", "billing", own / "more", site.ledger)
    hope("not read", (status, out, f"not read: {site.ledger}/x.jsonl.xz: " in err), (12, "3 records, 2 lines left out\n", True))


def what_is_handed_out_is_its_owners_alone(site):
    """Files that are handed out have mode 0600, whatever the umask and the mode of the folder, if it is there already."""
    site.run((b"S1",))
    for mask in (0, 0o022, 0o777):
        for is_there in (False, True):
            out = site.folder / f"out-{mask:o}-{is_there}"
            if is_there:
                out.mkdir(mode=0o777)
            site.ask("hand-out", "--home", "billing", out, site.ledger, preexec_fn=functools.partial(os.umask, mask))
            hope(f"{mask:o} {is_there}", {it.stat().st_mode & 0o777 for it in out.iterdir()}, {0o600})


def paragraphs(out):
    """The paragraphs of what was found, by their evidence."""
    return {re.search("evidence: (.*)", it)[1]: it for it in out.split("\n\n") if "evidence: " in it}


def a_repeat_is_told(site):
    """Of records with the same session and status it is told which is which, the Acct-Delay-Time of each, and of which one it is a repeat: that
    with the same user and volumes. Nothing is said to have arrived."""
    delay = lambda seconds: attribute(ACCT_DELAY_TIME, seconds.to_bytes(4, "big"))
    site.run((b"S1", STOP), (b"S1", STOP, "billing", NAS, b"bob", delay(25)), (b"S1", START, "billing", NAS, b"bob", delay(1)),
             (b"S1", STOP, "billing", NAS, b"eve"), (b"S1", STOP, "billing", OTHER_NAS))
    (file,) = site.files()
    status, out, _ = site.ask("find", "--session", "S1", site.config, site.ledger)
    told = paragraphs(out)
    hope(out, (status, len(told)), (0, 5))
    place, again = f"{file}:2", "this session and status came 3 times, and this is number"
    wanted = [f"{again} 1\n", f"{again} 2, a repeat of {place}\n", "came once", f"{again} 3\n", "came once"]
    for line, text in enumerate(wanted, 2):
        hope(f"{line}: {out}", text in told[f"{file}:{line}"], True)
    delays = [re.findall(r"Acct-Delay-Time (.*)", told[f"{file}:{line}"]) for line in range(2, 7)]
    hope("delays", delays, [[], ["25: the access server tried to send it for 25 seconds"],
                            ["1: the access server tried to send it for 1 second"], [], []])
    hope(out, [("answered" in it, "handed over to be sent at " in it) for it in told.values()], 5 * [(False, True)])
    for kind in ("--until", "--since"):
        moment = json.loads(file.read_text().splitlines()[2])["time"]
        _, out, _ = site.ask("find", "--session", "S1", kind, moment, site.config, site.ledger)
        hope(f"of a time: {out}", (f"{again} 1\n" in out, f"{again} 2, a repeat of {place}\n" in out), (kind == "--until", kind == "--since"))
    packed = site.folder / "packed.jsonl.gz"
    packed.write_bytes(gzip.compress(file.read_bytes()))
    hope("compressed", "Acct-Delay-Time 25" in site.ask("find", site.config, packed)[1], True)
    hope("a comparison", "answered" in site.ask("reconcile", "--home", "billing", "--ledger", file, site.config, "/dev/null")[1], False)
    for seconds in (31, 32):
        site.run((b"S2", STOP, "billing", NAS, b"bob", delay(seconds)))
        for index in ((), ("--index", site.folder / "index")):
            _, out, _ = site.ask("find", *index, "--session", "S2", site.config, site.ledger)
            hope(f"a later run: {out}", re.findall(r"Acct-Delay-Time (\d+)", out), list(map(str, range(31, seconds + 1))))


def each_kind_of_record_is_compared_as_it_is(site):
    """Of a record of each kind, Accounting-On and Accounting-Off too, the ledger and the detail file have the same one."""
    site.run(*((b"S%d" % kind, kind) for kind in sorted(KINDS, reverse=True)))
    details = site.folder / "detail"
    details.write_text(site.details())
    hope("of all", differences(site, site.config, details)[:2], (0, [len(KINDS), 0, 0, 0, 0]))
    for kind, word in KINDS.items():
        other = next(it for it in KINDS.values() if it != word)
        details.write_text(site.details().replace(f"Acct-Status-Type = {word}\n", f"Acct-Status-Type = {other}\n"))
        hope(f"{word} as {other}", differences(site, site.config, details)[1][2:4], [1, 1])


def renewed(site):
    """Three runs, of which the second and the third have each another secret; the configurations of each."""
    configs = [site.config]
    site.run((b"S1",), (b"S2", START, "spare"))
    site.secrets["billing"] = b"a new home secret"
    site.config = site.configure("second.toml")
    site.run((b"S3",), (b"S4", START, "spare"), (b"S5", STOP))
    configs.append(site.config)
    site.clients[OTHER_NAS[0]] = b"a new secret"
    site.config = site.configure("third.toml")
    site.run((b"S6", START, "billing", (OTHER_NAS[0], b"a new secret")), (b"S7", START, "spare", (OTHER_NAS[0], b"a new secret")))
    return [*configs, site.config]


def each_record_is_judged_by_one_of_several_configurations(site):
    """A ledger whose secrets changed is whole under the configurations of its runs together, in any order, and not under one. How many lines
    are wrong or could not be judged stands beside each count. A line that is wrong under each is wrong."""
    first, second, third = renewed(site)
    whole = (0, [f"S{at}" for at in range(1, 8)])
    for config, one, other in ((first, second, third), (third, second, first), (second, third, first)):
        hope("all", site.found("--config", one, "--config", other, config, site.ledger), whole)
    status, out, _ = site.ask("find", third, site.ledger)
    hope(out, (status, "\n6 records; lines of the ledger that are wrong 1, not judged 0\n" in out), (5, True))
    part = site.configure("part.toml", ["spare"])
    comparison = "reconcile", "--home", "spare", "--ledger", site.ledger
    for command, *words in (("find",), ("sum",), ("csv",), ("import", site.folder / "it.db"), comparison):
        paths = [site.folder / "none"] if command == "reconcile" else [site.ledger]
        (site.folder / "none").touch()
        status, out, err = site.ask(command, *words, part, *paths)
        hope(f"{command}: {out} {err}", (status, "lines of the ledger that are wrong 0, not judged 4" in out + err), (7, True))
    hope("part and first", site.found("--config", part, first, site.ledger)[0], 5)
    hope("part and others", site.found("--config", part, "--config", first, "--config", second, third, site.ledger), whole)
    file = site.files()[1]
    octets = file.read_bytes()
    for old, new, kept in ((b'"user":"bob', b'"user":"rob', []), (b'"status":2', b'"status":1', ["S3"])):
        file.write_bytes(octets.replace(old, new, 1))
        status, found = site.found("--config", second, "--config", part, first, file)
        hope(f"a line that is wrong under each: {found}", (status, found), (5, [*kept, "S4", *([] if kept else ["S5"])]))
    file.write_bytes(b"".join(it for it in octets.splitlines(True) if b'"S3"' not in it))
    hope("a gap", site.found("--config", second, first, file)[0], site.found(second, file)[0])
    hope("standard input", site.ask("find", "--config", second, first, "-")[0], 1)


def an_index_is_asked_again(site):
    """The second call with an index audits nothing anew, says so, and gives the same; one that has changed, a file more, other words and another
    configuration are audited anew. Only its owner may read it, and one that others may change is refused."""
    site.run((b"S1", STOP, "billing", NAS, b"bob", attribute(ACCT_DELAY_TIME, bytes([0, 0, 0, 7]))), (b"S2", START, "spare"))
    index, seen = site.ledger / "it.index", site.folder / "seen"
    counting = site.folder / "auditor"
    counting.write_text(f'#!/bin/sh\necho >> {seen}\nexec {site.auditor} "$@"\n')
    counting.chmod(0o755)

    def asked(*words, config=None, command="find", paths=None):
        """Status, what is printed but for what was not audited anew, whether that is told, and whether the auditor ran."""
        seen.write_text("")
        status, out, err = site.ask(command, "--program", counting, "--index", index, *words, config or site.config, *(paths or [site.ledger]))
        lines = (out + err).splitlines(True)
        kept = [it for it in lines if it.startswith("not audited anew: ")]
        return status, "".join(it for it in lines if it not in kept), len(kept), bool(seen.read_text())

    (file,) = site.files()
    searches = (), ("--session", "S1"), ("--user", "bob@SPARE.example"), ("--realm", "SPARE.example"), ("--home", "spare", "--day", "2026-01-31")
    for words, command in (*((it, "find") for it in searches), (("--by", "user"), "sum"), ((), "csv")):
        plain = site.ask(command, *words, site.config, site.ledger)
        index.unlink(missing_ok=True)
        hope(f"the first call {words}", asked(*words, command=command), (plain[0], plain[1] + plain[2], 0, True))
        hope(f"the second call {words}", asked(*words, command=command), (plain[0], plain[1] + plain[2], 1, False))
    hope("who may read it", index.stat().st_mode & 0o777, 0o600)
    os.utime(file)
    hope("another time", asked()[2:], (1, False))
    copy = site.folder / "copy"
    shutil.copy(file, copy)
    copy.rename(file)
    hope("a copy", asked()[2:], (1, False))
    octets = file.read_bytes()
    file.write_bytes(octets.replace(b'"user":"bob', b'"user":"rob', 1))
    hope("a change", asked()[::3], (5, True))
    hope("a change again", (asked()[0], asked()[3]), (5, False))
    file.write_bytes(octets)
    hope("changed back", asked()[::3], (0, True))
    hope("another configuration", (asked(config=site.configure("new.toml", clients={NAS[0]: b"x", OTHER_NAS[0]: b"y"}))[::3]), (5, True))
    hope("the first again", asked()[::3], (0, True))
    text = site.config.read_text()
    site.config.write_text(text.replace("one home secret", "two home secret"))
    hope("other words in the configuration", asked()[::3], (5, True))
    site.config.write_text(text)
    hope("the words from before", (asked()[::3], asked()[::3]), ((0, True), (0, False)))
    hope("other words", asked("--sum", f"{json.loads(octets.splitlines()[0])['run']}:0:{'1' * 64}")[::3], (5, True))
    site.run((b"S3",))
    hope("a file more", (asked()[3], asked()[2:]), (True, (2, False)))
    (site.ledger / "other").touch()
    hope("one that is not read", asked()[::3], (12, False))
    (site.ledger / "other").unlink()
    index.chmod(0o666)
    hope("one that others may change", asked()[::3], (4, False))
    index.unlink()
    with contextlib.closing(sqlite3.connect(index)) as made:
        made.execute("CREATE TABLE entries (it)")
    hope("another database", asked()[::3], (4, False))
    index.unlink()
    hope("a ledger in its place", (asked(paths=[file])[0], site.ask("find", "--index", file, site.config, file)[0]), (0, 4))


def of_another_time(octets):
    """A ledger whose first entry has another millisecond, which the sums alone protect."""
    begin, entry, *rest = octets.splitlines(True)
    turned = lambda found: found[1] + b"%d" % (9 - int(found[2])) + found[3]
    return b"".join([begin, re.sub(rb'("time":"[^"]*)(\d)(Z")', turned, entry, count=1), *rest])


def an_import_mends_what_is_there_otherwise(site):
    """A row that differs from a right ledger is replaced and named, with status 11; one that differs from a ledger with wrong lines stays."""
    site.run((b"S1",), (b"S2",))
    (file,) = site.files()
    database, octets = site.folder / "it.db", file.read_bytes()
    file.write_bytes(of_another_time(octets))
    told = lambda: site.ask("import", database, site.config, file)[:2]
    times = lambda: sorted(it for it, in sqlite3.connect(database).execute("SELECT time FROM entries"))
    hope("a ledger that is changed", told(), (5, "2 records were added, 0 were there already\n"))
    changed = times()
    file.write_bytes(octets)
    run = json.loads(octets.splitlines()[0])["run"]
    hope("the right one", told(), (11, "0 records were added, 1 were there already, 1 were there otherwise and are replaced\n"
                                       f"there otherwise: run {run} lane 0 record 0\n"))
    right = times()
    hope("what is there", (right != changed, right), (True, sorted(json.loads(it)["time"] for it in octets.splitlines()[1:-1])))
    hope("again", told(), (0, "0 records were added, 2 were there already\n"))
    file.write_bytes(of_another_time(octets))
    status, out = told()
    hope("the changed one", (status, "1 were there otherwise and are left, since the ledger is not right\n" in out, times()), (5, True, right))
    (copy := site.folder / "copy.jsonl").write_bytes(octets)
    hope("a copy", site.ask("import", database, site.config, copy)[:2], (0, "0 records were added, 2 were there already\n"))


def a_status_is_that_of_the_lines(site):
    """Where several configurations judge a ledger, its status is what rad_audit ends with behind the lines that are told: over each case of its
    own tests."""
    sys.path.insert(0, str(running.TOOLS))
    from ledger.auditing import status_of

    cases = [it for it in all_cases() if not {"--from", "--partial"} & set(it[5]) and it[3] not in (1, 2, 4)]
    wrong = [name for name, _, lines, status, _, words in cases if status_of(lines, "--all" in words) != status]
    hope("wrong", (len(cases) > 400, wrong), (True, []))


TESTS = [no_file_of_a_folder_stays_unread, no_file_without_permission_stays_unread, a_run_that_is_not_there_is_told,
         a_comparison_is_of_what_is_asked_for_on_both_sides, midnight_makes_no_difference, a_comparison_hides_no_verdict,
         a_hand_out_tells_nothing_of_others, what_is_handed_out_is_its_owners_alone, a_repeat_is_told, each_kind_of_record_is_compared_as_it_is,
         each_record_is_judged_by_one_of_several_configurations, an_index_is_asked_again, a_status_is_that_of_the_lines,
         an_import_mends_what_is_there_otherwise]


def staged(test):
    """A test over a site of its own."""
    @functools.wraps(test)
    def over(program, folder):
        site = Site(program, folder)
        try:
            test(site)
        finally:
            site.stop()
    return over


if __name__ == "__main__":
    try_in_folders([staged(it) for it in TESTS], __doc__)
