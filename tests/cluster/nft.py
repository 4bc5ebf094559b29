"""An instance behind a map of nft that dies or leaves moves its own access servers alone, and no record is lost.

usage: python3 -m tests.cluster.nft PROGRAM [--long] [--blind] [--verbose] [NAME ..]

Each test is a function below, and its first line tells what holds. It has one machine with three instances and the files of
examples/cluster/nft, 60 access servers and a home server. --long has all events in turn, and prints what each cost; --blind takes the
health check out, and then tests fail. It wants root, nft, conntrack and `ip`. The last line is `N passed, M failed`.
"""
import re

from tests.lib import hope, until
from tests.lib.cluster.machines import PORT, proxy_text
from tests.lib.cluster.recipes import Recipe, run, shown

FIRST_PORT = 11813
NAMES = ["one", "two", "three", "four"]


class Spread(Recipe):
    """A machine with instances, over which the access servers are spread."""

    table, out = "stateless", 5

    def begin_machines(self):
        self.machine = self.site.proxy(1)
        self.target = self.machine.address.partition("/")[0], PORT
        self.install(self.machine, "nft/rad_proxy_spread")
        self.machine.install("nft/stateless.nft", "nft/tracked.nft", "nft/rad_proxy_spread.service", to="/etc/rad_proxy")
        for number in (1, 2, 3):
            self.add(number)
        self.spread(3)

    def add(self, number):
        """One more instance."""
        service = f"rad_proxy@{NAMES[number - 1]}"
        self.instances[number] = self.machine, service
        self.machine.serve(proxy_text(f"0.0.0.0:{FIRST_PORT + number - 1}", number, ["127.0.0.1"]), service)

    def spread(self, count):
        """What the unit runs, for so many instances."""
        (line,) = re.findall("^ExecStart=(.*)$", self.machine.read("/etc/rad_proxy/rad_proxy_spread.service"), re.M)
        script, file, *_ = line.replace("stateless", self.table).split()
        words = [script, file, *(f"{name}={FIRST_PORT + place}" for place, name in enumerate(NAMES[:count]))]
        before = self.written()
        self.machine.start("spread", *words)
        until("the map is written", lambda: self.written() > before, 10)

    def written(self):
        """How often the map was written."""
        return self.machine.read("/run/spread").count("instances")

    def is_written(self):
        """Whether the map was written since now."""
        before = self.written()
        return lambda: self.written() > before

    def begin(self, seconds=1.5, **options):
        super().begin(seconds, target=self.target, **options)

    def fourth(self, _):
        self.add(4)
        self.machine.end("rad_proxy_spread")
        self.spread(4)


class Tracked(Spread):
    table = "tracked"


class Kept(Tracked):
    """The same where no entry is deleted."""

    def begin_machines(self):
        super().begin_machines()
        self.machine.write("/usr/local/sbin/conntrack", "#!/bin/sh\nexit 0\n", 0o755)


def moves_its_own(cluster, name, action):
    """The access servers of instance 2 move, and no other does."""
    before = cluster.served()
    hope("instances that serve", sorted(set(before.values())), [1, 2, 3])
    cluster.event(name, cluster.acts(action, cluster.is_written()), 0, 2)
    after = cluster.served()
    hope("access servers that are served", len(after), len(before))
    hope("served by the one that is away", [nas for nas in after if after[nas] == 2], [])
    hope("moved though their instance is there", [nas for nas in after if after[nas] != before[nas] != 2], [])
    return before


def an_instance_dies(cluster):
    """Each datagram goes where the map says: an instance that dies moves its own access servers, and has them again when it is back."""
    cluster.begin()
    before = moves_its_own(cluster, "kill", cluster.kill)
    cluster.event("back", cluster.acts(cluster.back, cluster.is_written()), 0, 2)
    hope("served after the return", cluster.served(), before)
    cluster.holds()


def an_instance_dies_with_entries(cluster):
    """Where connections are tracked, an instance that dies moves its own access servers, which stay when it is back."""
    cluster.begin()
    moves_its_own(cluster, "kill", cluster.kill)
    after = cluster.served()
    cluster.event("back", cluster.acts(cluster.back, cluster.is_written()), 0, 2)
    hope("served after the return", cluster.served(), after)
    cluster.holds()


def entries_that_are_kept(cluster):
    """Where the entries to a dead instance are not deleted, its access servers are not answered, though they retransmit."""
    cluster.begin()
    before = cluster.served()
    cluster.event("kill", cluster.kill, 7, 2)
    hope("served still", sorted(cluster.served()), sorted(nas for nas in before if before[nas] != 2))


def all_events(cluster):
    """Each event in turn, without tracking."""
    cluster.begin(4)
    cluster.event("kill", cluster.acts(cluster.kill, cluster.is_written()), 8, 2)
    cluster.event("back", cluster.acts(cluster.back, cluster.is_written()), 6, 2)
    cluster.event("restart", cluster.restart, 12, 1)
    cluster.event("fourth", cluster.fourth, 6, 4)
    tally = cluster.holds()
    print(cluster.table, tally, shown(cluster.rows()), sep="\n", flush=True)


def all_events_with_entries(cluster):
    """The same with connections tracked."""
    all_events(cluster)


SHORT = [an_instance_dies, an_instance_dies_with_entries, entries_that_are_kept]
RECIPES = {an_instance_dies: Spread, an_instance_dies_with_entries: Tracked, entries_that_are_kept: Kept, all_events: Spread,
           all_events_with_entries: Tracked}

if __name__ == "__main__":
    run(RECIPES, SHORT, [all_events, all_events_with_entries], ["nft", "conntrack"], __doc__)
