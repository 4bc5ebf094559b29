"""A router spreads access servers over machines with one address, by next hops or by BIRD, and no record is lost when one dies.

usage: python3 -m tests.cluster.ecmp PROGRAM [--long] [--blind] [--verbose] [NAME ..]

Each test is a function below, and its first line tells what holds. It has three machines and a router with the files of
examples/cluster/ecmp, 60 access servers and a home server. --long has all events in turn, and prints what each cost; --blind takes the
health check out, and then tests fail. It wants root, bird, nft and `ip`. The last line is `N passed, M failed`.
"""
from tests.lib import hope, need, until
from tests.lib.cluster.machines import PORT, proxy_text
from tests.lib.cluster.recipes import Recipe, run, shown

ADDRESS = "10.40.0.1"


class Routed(Recipe):
    """Machines that all have one address, and a router that has a way to each."""

    numbers = (1, 2, 3)

    def begin_machines(self):
        self.begin_router()
        for number in self.numbers:
            self.add(number)
        until("the router has all ways", lambda: self.ways() == len(self.numbers), 20)

    def add(self, number):
        """One more machine."""
        machine = self.site.proxy(number)
        self.instances[number] = machine, "rad_proxy"
        self.install(machine, "ecmp/rad_proxy_announce", "ecmp/rad_proxy_refuse")
        machine.run("ip", "address", "add", f"{ADDRESS}/32", "dev", "lo")
        machine.serve(proxy_text(number=number, clients=["127.0.0.1", "10.30.0.254"]))
        self.announce(number, machine)

    def ways(self):
        """How many machines the router has a way to."""
        return self.site.router.run("ip", "route", "show", f"{ADDRESS}/32").count("via ")

    def begin(self, seconds=1.5, **options):
        super().begin(seconds, target=(ADDRESS, PORT), **options)

    def die(self, number):
        self.instances[number][0].die()

    def fourth(self, number):
        self.add(number)


class Hops(Routed):
    """The router probes the machines, and replaces a group of next hops."""

    # The check of the machine and that of the router come one after the other.
    kind, out = "mpath", 10

    def begin_router(self):
        router = self.site.router
        router.install("ecmp/rad_proxy_routes")
        if self.is_blind:
            router.write("/usr/local/sbin/rad_proxyctl", "#!/bin/sh\nexit 0\n", 0o755)
        router.write("/etc/rad_proxy/rad_proxy.toml", proxy_text(clients=["10.30.0.254"]))
        self.route(self.numbers)

    def route(self, numbers):
        """What the router runs, for these machines."""
        machines = [f"10.30.0.{10 + number}" for number in numbers]
        self.site.router.start("routes", "rad_proxy_routes", ADDRESS, "lan", self.kind, *machines)

    def fourth(self, number):
        super().fourth(number)
        self.site.router.end("rad_proxy_routes")
        self.route((*self.numbers, number))

    def announce(self, _, machine):
        machine.start("announce", "rad_proxy_announce", "rad_proxy_refuse no", "rad_proxy_refuse yes")


class Resilient(Hops):
    kind = "type resilient buckets 256 idle_timer 1 unbalanced_timer 4"


class Bird(Routed):
    """Each machine announces the address to the router, both by BIRD."""

    def begin_router(self):
        self.begin_bird(self.site.router, "router", "10.30.0.11")

    def begin_bird(self, machine, which, address):
        machine.install(f"ecmp/bird-{which}.conf", to="/etc/bird")
        machine.write("/etc/bird/bird.conf", machine.read(f"/etc/bird/bird-{which}.conf").replace("10.30.0.11", address))
        machine.run("mkdir", "-p", "/run/bird")
        machine.start("bird.log", "bird", "-f")
        until("BIRD answers", lambda: machine.tries("birdc", "show", "status") == 0, 10)

    def announce(self, number, machine):
        self.begin_bird(machine, "machine", f"10.30.0.{10 + number}")
        machine.start("announce", "rad_proxy_announce", "birdc enable accounting", "birdc disable accounting")


def moves(cluster, name, action):
    """The access servers of machine 1 go elsewhere after an event."""
    before = cluster.served()
    hope("machines that serve", sorted(set(before.values())), [1, 2, 3])
    cluster.event(name, cluster.acts(action, lambda: cluster.ways() == 2), 0, 1)
    after = cluster.served()
    hope("access servers that are served", len(after), len(before))
    hope("served by the one that is away", [nas for nas in after if after[nas] == 1], [])
    return {nas for nas in after if after[nas] != before[nas] != 1}


def plain_hops(cluster):
    """With a plain group of next hops, a dead proxy's access servers move, and others with them."""
    cluster.begin()
    need(moves(cluster, "kill", cluster.kill), "no other moves")
    cluster.holds()


def resilient_hops(cluster):
    """With a resilient group, a dead proxy's access servers move, and no other does."""
    cluster.begin()
    hope("moved though their machine is there", moves(cluster, "kill", cluster.kill), set())
    cluster.holds()


def routes_of_bird(cluster):
    """With BIRD, the access servers of a dead machine move."""
    cluster.begin()
    moves(cluster, "kill", cluster.kill)
    cluster.holds()


def all_events(cluster):
    """Each event in turn, with a plain group."""
    cluster.begin(4)
    cluster.event("kill", cluster.acts(cluster.kill, lambda: cluster.ways() == 2), 10, 1)
    cluster.event("back", cluster.acts(cluster.back, lambda: cluster.ways() == 3), 10, 1)
    cluster.event("restart", cluster.restart, 20, 2)
    cluster.event("fourth", cluster.acts(cluster.fourth, lambda: cluster.ways() == 4), 10, 4)
    cluster.event("death", cluster.acts(cluster.die, lambda: cluster.ways() == 3), 10, 3)
    tally = cluster.holds()
    print(type(cluster).__name__, tally, shown(cluster.rows()), sep="\n", flush=True)


def all_events_resilient(cluster):
    """The same with a resilient group."""
    all_events(cluster)


def all_events_of_bird(cluster):
    """The same with BIRD."""
    all_events(cluster)


SHORT, LONG = [plain_hops, resilient_hops, routes_of_bird], [all_events, all_events_resilient, all_events_of_bird]
RECIPES = dict(zip([*SHORT, *LONG], 2 * [Hops, Resilient, Bird]))

if __name__ == "__main__":
    run(RECIPES, SHORT, LONG, ["bird", "birdc", "nft"], __doc__)
