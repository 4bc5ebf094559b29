"""A home server that dies is stood in for by another one within ten seconds, and has its records again once it answers.

usage: python3 -m tests.cluster.failover PROGRAM [--long] [--blind] [--verbose] [NAME ..]

Each test is a function below, and its first line tells what holds. It has a proxy with the files of examples/failover, which runs as a
user of its own as the package has it, 60 access servers, and two home servers. --long has all events in turn, and prints what each cost;
--blind has the probe say yes at all times, and then tests fail. It wants root, nft, conntrack, setpriv and `ip`. The last line is `N passed, M failed`.
"""
import time

from tests.lib import ACCT_SESSION_ID, ACCT_STATUS_TYPE, STATUS_SERVER, ZEROS, answer, hope, is_signed, need, read, reply, until
from tests.lib.cluster.load import DELAY, HomeServer, Load, Nases, Turning
from tests.lib.cluster.machines import HOME, HOME_SECRET, PORT, SYSTEMCTL, proxy_text
from tests.lib.cluster.recipes import BLIND, Recipe, run, shown

OTHER, USER = "10.30.0.201", "990"
# How many seconds a dead home server has to be stood in for, and how many one that answers has to be back.
DEAD, BACK = 10, 16
# What a home server has in the configuration, so that its lane notices soon that it is gone, and that it is back.
KEYS = "first_wait = 1000\ntries = 2\nprobe_every = 1000\n"
# The two home servers.
FIRST, SECOND = 1, 2


class TwoHomes(HomeServer):
    """Two home servers at one port of two addresses. One of them may be silent, or take its time."""

    def __init__(self, site):
        super().__init__(site, 0)
        self.silent, self.delays, self.kept = set(), {FIRST: DELAY, SECOND: DELAY}, []
        for number, address in ((FIRST, HOME), (SECOND, OTHER)):
            self.sockets[number] = site.socket_at(site.home, address, PORT)
            self.selector.register(self.sockets[number], 1, number)

    def hear(self, number, octets, sender):
        if number in self.silent:
            if octets[0] != STATUS_SERVER:
                self.kept.append((number, octets, sender))
            return
        if octets[0] == STATUS_SERVER:
            self.at(time.monotonic() + self.delays[number], self.sockets[number].sendto, answer(octets, octets[1], b"", HOME_SECRET), sender)
            return
        self.store(number, octets, sender)

    def store(self, number, octets, sender):
        """Keeps a record, and answers it later."""
        packet = read(octets)
        if is_signed(packet, ZEROS, HOME_SECRET):
            (session, _), (kind, _) = packet.of_type(ACCT_SESSION_ID)[0], packet.of_type(ACCT_STATUS_TYPE)[0]
            self.log[session, kind[3]].requests.setdefault((number, octets[4:20]), (number, time.monotonic()))
            self.at(time.monotonic() + self.delays[number], self.sockets[number].sendto, reply(packet, HOME_SECRET), sender)

    def answer_late(self):
        """The silent one answers what it heard."""
        kept, self.kept = self.kept, []
        for number, octets, sender in kept:
            self.store(number, octets, sender)


class TwoHomesLoad(Load):
    """The access servers, and two home servers."""

    def __init__(self, site, **options):  # pylint: disable=super-init-not-called
        self.home, self.nases, self.phases = TwoHomes(site), Nases(site, **options), []


class Failover(Recipe):
    """A proxy whose home server has another one beside it."""

    def begin_machines(self):
        self.site.home.run("ip", "address", "add", f"{OTHER}/24", "dev", "eth0")
        self.machine = self.site.proxy(1)
        self.instances[1] = self.machine, "rad_proxy"
        self.machine.write("/etc/passwd", self.machine.read("/etc/passwd") + f"rad_proxy:x:{USER}:{USER}::/:/usr/sbin/nologin\n")
        started = f"install -d -o {USER} -g {USER} -m 700 /run/$instance\n\tRUNTIME_DIRECTORY"
        script = SYSTEMCTL.replace("RUNTIME_DIRECTORY", started, 1).replace("setsid ", f"setsid setpriv --reuid {USER} --regid {USER} --clear-groups ")
        self.machine.write("/usr/bin/systemctl", script, 0o755)
        self.machine.serve(proxy_text().replace("window = ", f"{KEYS}window = "))
        files = ["rad_proxy_failover", "failover.nft", "rad_proxy_failover.service"]
        self.machine.install(*(f"../failover/{file}" for file in files), to="/etc/rad_proxy")
        if self.is_blind:
            self.machine.write("/usr/sbin/rad_proxyctl", BLIND, 0o755)
        self.machine.start("failover", "sh", "/etc/rad_proxy/rad_proxy_failover", "/etc/rad_proxy/failover.nft", f"main={HOME}={OTHER}")
        until("the rules are there", lambda: self.machine.tries("nft", "list", "table", "ip", "rad_proxy_failover") == 0, 10)

    def begin(self, seconds=2.0, **options):
        self.load = TwoHomesLoad(self.site, target=("10.30.0.11", PORT), **options)
        self.load.phase("calm")
        time.sleep(seconds)

    def said(self, text):
        """How often the script told this."""
        return self.machine.read("/run/failover").count(text)

    def shows(self, text):
        """Whether the script told this once more since now."""
        before = self.said(text)
        return lambda: self.said(text) > before

    def dies(self, number):
        self.load.home.silent.add(number)

    def answers(self, number):
        self.load.home.silent.discard(number)

    def stored(self):
        """Which home servers have records that were first sent lately."""
        return sorted(set(self.served().values()))


def a_home_server_dies(failover):
    """Within ten seconds the other one has all records, none is lost, and those of the dead one are back once it answers."""
    failover.begin()
    hope("before", failover.stored(), [FIRST])
    failover.event("dead", failover.acts(failover.dies, failover.shows("is dead")), 0, FIRST)
    need(failover.load.phases[-1].took < DEAD, "it took", failover.load.phases[-1].took)
    hope("while it is dead", failover.stored(), [SECOND])
    failover.event("back", failover.acts(failover.answers, failover.shows("is back")), 0, FIRST)
    need(failover.load.phases[-1].took < BACK, "it took", failover.load.phases[-1].took)
    hope("behind its return", failover.stored(), [FIRST])
    failover.holds()


def a_slow_one_is_not_dead(failover):
    """A home server that takes half a second for each answer, and one that is silent for 1.5 seconds in six, keep their records."""
    failover.begin()
    failover.load.home.delays[FIRST] = 0.5
    time.sleep(5)
    failover.load.home.delays[FIRST] = DELAY
    for _ in range(3):
        failover.dies(FIRST)
        time.sleep(1.5)
        failover.answers(FIRST)
        time.sleep(4.5)
    hope("told", failover.said("is dead"), 0)
    hope("who has records", failover.stored(), [FIRST])
    failover.holds()


def late_answers_lead_nowhere(failover):
    """What the dead one answers late is dropped, and its records go to the other one on and on."""
    failover.begin()
    failover.event("dead", failover.acts(failover.dies, failover.shows("is dead")), 0, FIRST)
    failover.load.home.answer_late()
    time.sleep(3)
    hope("told since", failover.said("is back"), 0)
    hope("who has records", failover.stored(), [SECOND])
    unheard = failover.machine.logs().count("event=unheard")
    hope("answers that the proxy did not take", unheard, 0)
    failover.holds()


def what_cannot_be_probed_changes_nothing(failover):
    """While the configuration has a fault no home server counts as dead."""
    failover.begin()
    whole = failover.machine.read("/etc/rad_proxy/rad_proxy.toml")
    failover.machine.write("/etc/rad_proxy/rad_proxy.toml", "listen = 1\n")
    time.sleep(7)
    hope("told", failover.said("is dead"), 0)
    hope("who has records", failover.stored(), [FIRST])
    failover.machine.write("/etc/rad_proxy/rad_proxy.toml", whole)
    failover.holds()


def a_stop_sends_all_home(failover):
    """Where the script is stopped while a home server is away, that one has its records again, also those of ports that are in use."""
    failover.begin()
    failover.event("dead", failover.acts(failover.dies, failover.shows("is dead")), 0, FIRST)
    hope("while it is dead", failover.stored(), [SECOND])
    failover.answers(FIRST)
    failover.machine.end("rad_proxy_failover")
    until("the rules are gone", lambda: failover.machine.tries("nft", "list", "table", "ip", "rad_proxy_failover") != 0, 10)
    time.sleep(4)
    hope("behind the stop", failover.stored(), [FIRST])
    failover.holds()


def all_events(failover):
    """Each event in turn."""
    failover.begin(4)
    for _ in range(2):
        failover.event("dead", failover.acts(failover.dies, failover.shows("is dead")), 12, FIRST)
        failover.event("back", failover.acts(failover.answers, failover.shows("is back")), 18, FIRST)
    tally = failover.holds()
    print(tally, shown(failover.rows()), sep="\n", flush=True)


SHORT = [a_home_server_dies, a_slow_one_is_not_dead, late_answers_lead_nowhere, what_cannot_be_probed_changes_nothing, a_stop_sends_all_home]
RECIPES = {test: Failover for test in (*SHORT, all_events)}

if __name__ == "__main__":
    run(RECIPES, SHORT, [all_events], ["nft", "conntrack", "setpriv"], __doc__)
