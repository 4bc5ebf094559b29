"""What the tests of all recipes do: events of a cluster under load, what each cost, and what has to hold of all of them."""
import argparse
import time
from concurrent.futures import ThreadPoolExecutor

from tests.lib import conclude, hope, until
from tests.lib.cluster.load import Load
from tests.lib.cluster.machines import Site, inside
from tests.lib.trying import fault_of

# How long is waited for what an event leads to, and then for what access servers ask.
PATIENCE, SETTLED = 20, 3
CHECK = "rad_proxy_check"
# What the check says in place of what it finds out, where a test is to fail.
BLIND = "#!/bin/sh\nexit 0\n"
HEAD = ["event", "dealt with after", "moved", "needlessly", "records", "sent again", "once", "twice", "more", "never", "unanswered",
        "longest wait", "longest time without an answer"]


class Recipe:
    """A cluster of a recipe: machines, the program on them, and what decides where an access server goes."""

    # How long the file stands before a drain, so that the check has seen it.
    out = 6

    def __init__(self, program, folder, is_blind=False):
        self.is_blind, self.load, self.instances = is_blind, None, {}
        folder.mkdir()
        self.site = Site(program, folder)

    def begin_machines(self):
        """Begins all that stands before the first record."""

    def install(self, machine, *files):
        """Puts scripts of the recipe on a machine; the check says yes at all times where it is to be blind."""
        machine.install(CHECK, *files)
        if self.is_blind:
            machine.write(f"/usr/local/sbin/{CHECK}", BLIND, 0o755)

    def begin(self, seconds=1.5, **options):
        """The access servers begin."""
        self.load = Load(self.site, **options)
        self.load.phase("calm")
        time.sleep(seconds)

    def event(self, name, action, seconds, number):
        """Something happens to an instance, and the load goes on for so many seconds."""
        self.load.phase(name, number)
        action(number)
        time.sleep(max(0, self.load.phases[-1].begun + seconds - time.monotonic()))

    def acts(self, action, is_done):
        """An action that waits until its event is dealt with, which it tells, and a while more for the access servers' own waits."""

        def acted(number):
            action(number)
            until("the event is dealt with", is_done, PATIENCE)
            phase = self.load.phases[-1]
            phase.took = time.monotonic() - phase.begun
            time.sleep(SETTLED)

        return acted

    def kill(self, number):
        """The program is killed, and its script with it."""
        machine, service = self.instances[number]
        machine.kill_service(service)

    def back(self, number):
        """It is started again."""
        machine, service = self.instances[number]
        machine.restart(service)

    def restart(self, number):
        """A planned restart, by the command for it."""
        machine, service = self.instances[number]
        name = service.partition("@")[2]
        machine.run("rad_proxyctl", *(["-i", name] if name else []), "restart", "--out", self.out)

    def served(self):
        """Of each access server the instance that served it lately."""
        return self.load.served_by(time.monotonic() - 1.5, time.monotonic() - 0.2)

    def rows(self):
        """What each event cost. An access server has moved that another instance served meanwhile than before; it has done so needlessly
        where the event was neither at the one nor at the other."""
        at = {}
        for phase in self.load.phases:
            ways = self.load.ways(phase, at)
            needless = [nas for nas, way in ways.items() if any(phase.number not in step for step in way)]
            took = "" if phase.took is None else round(phase.took, 1)
            yield [phase.name, took, len(ways), len(needless), *self.load.tally(phase).values(), self.load.longest_gap(phase)]

    def holds(self):
        """What has to hold whatever happened: each record was answered and is at the home server, and nothing was refused by a drain."""
        self.load.finish()
        tally = self.load.tally()
        hope("records never answered, and never at the home server", (tally["unanswered"], tally["never"]), (0, 0))
        told = "".join(machine.logs() for machine, _ in self.instances.values())
        hope("requests that a drain refused", told.count("Draining"), 0)
        return tally

    def told(self):
        """What the machines told so far."""
        alive = [machine for machine in self.site.machines if machine.is_alive]
        files = [(machine, file) for machine in alive for file in machine.path("/run").glob("*") if file.is_file()]
        return "\n".join(f"{machine.name} {file.name}: {file.read_text('utf-8', 'replace')[-3000:]}" for machine, file in files)

    def stop(self):
        if self.load:
            self.load.stop()
        self.site.stop()


def shown(rows):
    """Rows as a table in Markdown."""
    return "\n".join(f"| {' | '.join(map(str, row))} |" for row in [HEAD, ["---"] * len(HEAD), *rows])


def run(recipes, short, long, programs, usage, tries=1):
    """Runs the tests of a script, each over a cluster of its own: those that are short all at once, those that are long one by one. Of a
    script with bounds of time the best of so many tries counts, since a machine may have much else to do."""

    def main(folder):
        parser = argparse.ArgumentParser(usage=usage)
        parser.add_argument("program")
        parser.add_argument("--long", action="store_true")
        parser.add_argument("--blind", action="store_true")
        parser.add_argument("--verbose", action="store_true")
        parser.add_argument("names", nargs="*")
        given = parser.parse_intermixed_args()
        tests = [test for test in (long if given.long else short) if not given.names or test.__name__ in given.names]

        def tried(test, left=tries):
            recipe = recipes[test](given.program, folder / f"{test.__name__}-{left}", given.blind)
            try:
                fault = fault_of(recipe.begin_machines) or fault_of(test, recipe)
                if fault and given.verbose:
                    print(test.__name__, recipe.told(), flush=True)
            finally:
                recipe.stop()
            return tried(test, left - 1) if fault and left > 1 else fault

        with ThreadPoolExecutor(1 if given.long else len(tests)) as pool:
            faults = list(pool.map(tried, tests))
        for test, fault in zip(tests, faults):
            if fault:
                print(f"failed: {test.__name__}: {fault}", flush=True)
        conclude(sum(fault is None for fault in faults), sum(fault is not None for fault in faults))

    inside(main, *programs)
