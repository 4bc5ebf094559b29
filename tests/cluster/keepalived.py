"""A virtual address of keepalived moves within five seconds of the death of its proxy or of its machine, and no record is lost.

usage: python3 -m tests.cluster.keepalived PROGRAM [--long] [--blind] [--verbose] [NAME ..]

Each test is a function below, and its first line tells what holds. It has two or three machines with the files of
examples/cluster/keepalived, 60 access servers and a home server. --long has all events in turn, and prints what each cost; --blind takes
the health check out, and then tests fail. It wants root, keepalived, nft and `ip`. The last line is `N passed, M failed`.
"""
import time
from collections import Counter

from tests.lib import hope, need, until
from tests.lib.cluster import load
from tests.lib.cluster.machines import ADDRESS, PORT, proxy_text
from tests.lib.cluster.recipes import Recipe, run, shown

# How many seconds an address has to move, and of how many tries the best one counts.
SECONDS, TRIES = 5, 3


class Virtual(Recipe):
    """Two machines, or more, of which one has the address."""

    variant, listen = None, None

    def begin_machines(self):
        self.more(1)
        until("the first has the address", lambda: self.masters() == [1], 20)
        self.more(2)

    def more(self, number):
        """One more machine."""
        self.add(number)
        self.watch(number)

    def begin(self, seconds=3.0, **options):
        super().begin(seconds, **options)
        hope("the machine that has the address still", self.masters(), [1])

    def add(self, number):
        """A machine with a proxy."""
        machine = self.site.proxy(number)
        self.instances[number] = machine, "rad_proxy"
        self.install(machine, "keepalived/rad_proxy_notify")
        machine.run("sh", "-c", f"echo {int(self.variant == 'nonlocal')} >/proc/sys/net/ipv4/ip_nonlocal_bind")
        machine.serve(proxy_text(self.listen, number, ["127.0.0.1", ADDRESS]))

    def watch(self, number):
        """keepalived begins on a machine."""
        machine, _ = self.instances[number]
        machine.install(f"keepalived/{self.variant}.conf", to="/etc/keepalived")
        text = machine.read(f"/etc/keepalived/{self.variant}.conf").replace("priority 150", f"priority {200 - 40 * number}")
        machine.write("/etc/keepalived/keepalived.conf", text)
        machine.start("keepalived.log", "keepalived", "--dont-fork", "--log-console", "--log-detail")

    def masters(self):
        """The machines that have the address."""
        return [number for number, (machine, _) in self.instances.items()
                if machine.is_alive and f" {ADDRESS}/" in machine.run("ip", "-4", "address", "show", "dev", "eth0")]

    def master(self):
        """The machine that has the address."""
        (found,) = until("one machine has the address", lambda: len(self.masters()) == 1 and self.masters(), 3 * SECONDS)
        return found

    def moves(self, name, action):
        """The address moves to another machine within five seconds of an event, and that one serves it."""
        before = self.master()
        self.load.phase(name, before)
        begun = time.monotonic()
        action(before)
        (after,) = until("another one has the address", lambda: [it for it in self.masters() if it != before], 3 * SECONDS)
        took = self.load.phases[-1].took = time.monotonic() - begun
        need(took <= SECONDS, f"the address moved after {took:.1f} seconds")
        time.sleep(2.5)
        hope("the machine that has the address, and those that serve it", (self.masters(), set(self.served().values())), ([after], {after}))
        return took

    def die(self, number):
        self.instances[number][0].die()

    def move(self, number):
        """The address is moved by ending keepalived on its machine."""
        machine, _ = self.instances[number]
        machine.run("sh", "-c", "kill $(cat /run/keepalived.pid)")


class Restarting(Virtual):
    variant, listen = "restart", f"0.0.0.0:{PORT}"


class Nonlocal(Virtual):
    variant, listen = "nonlocal", f"{ADDRESS}:{PORT}"


class Sharing(Virtual):
    """Machines with one folder for the spool. That one runs the proxy which has the address."""

    variant, listen = "spool", f"0.0.0.0:{PORT}"

    def add(self, number):
        machine = self.site.proxy(number)
        self.instances[number] = machine, "rad_proxy"
        machine.write("/etc/rad_proxy/environment", "export RAD_PROXY_SPOOL=/mnt/spool\n")
        machine.write("/etc/rad_proxy/rad_proxy.toml", proxy_text(self.listen, number))

    def link_home(self, state):
        """Cuts the home server off, or links it again."""
        self.site.router.run("ip", "link", "set", "home", state)


def the_proxy_dies(cluster):
    """The address leaves a machine whose proxy was killed, and the next one's proxy is restarted, so that it answers from the address."""
    cluster.begin()
    cluster.moves("kill", cluster.kill)
    cluster.holds()


def the_proxy_dies_beside(cluster):
    """The same where each proxy has bound the address before its machine has it."""
    the_proxy_dies(cluster)


def the_machine_dies(cluster):
    """The address leaves a machine that is gone without a word."""
    cluster.begin()
    cluster.moves("death", cluster.die)
    cluster.holds()


def what_waits_is_taken_over(cluster):
    """A machine dies while the home server is away and the access servers have given up: the next one gives it each record, once."""
    cluster.link_home("down")
    cluster.begin(2)
    cluster.load.nases.is_asking = False
    until("the access servers have given up", lambda: not cluster.load.nases.out, 2 * load.WAIT[1] * load.TRIES)
    cluster.die(1)
    until("the second has the address", lambda: cluster.masters() == [2], 3 * SECONDS)
    cluster.link_home("up")
    records = {it.key for it in cluster.load.nases.records}
    arrived = cluster.load.home.log
    until("each record is at the home server", lambda: records <= {*arrived}, 40)
    time.sleep(1)
    times = Counter(len(arrived[key].requests) for key in records)
    hope("records, by how often they came", (len(records) > 60, times), (True, {1: len(records)}))
    hope("the machines that sent them", {number for key in records for number in arrived[key].instances()}, {2})


def all_events(cluster):
    """Each event in turn, with a restart on notify, and three machines."""
    cluster.more(3)
    cluster.begin(4)
    took = {"kill": cluster.moves("kill", cluster.kill)}
    cluster.event("back", cluster.back, 6, 1)
    cluster.event("restart", cluster.restart, 12, cluster.master())
    took["move"] = cluster.moves("move", cluster.move)
    time.sleep(3)
    cluster.event("fourth", cluster.more, 6, 4)
    took["death"] = cluster.moves("death", cluster.die)
    tally = cluster.holds()
    print(cluster.variant, {name: round(seconds, 1) for name, seconds in took.items()}, tally, shown(cluster.rows()), sep="\n", flush=True)


def all_events_beside(cluster):
    """The same with the address bound before."""
    all_events(cluster)


SHORT, LONG = [the_proxy_dies, the_proxy_dies_beside, the_machine_dies, what_waits_is_taken_over], [all_events, all_events_beside]
RECIPES = dict(zip([*SHORT, *LONG], [Restarting, Nonlocal, Nonlocal, Sharing, Restarting, Nonlocal]))

if __name__ == "__main__":
    run(RECIPES, SHORT, LONG, ["keepalived", "nft"], __doc__, TRIES)
