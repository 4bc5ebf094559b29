"""Floods the ledger of the program by some clients while its disk fails, and sees that the records of another client are all there.

usage: python3 -m tests.ledger.shares PROGRAM [NAME ..]

Each test is a function below, and its first line tells what holds. Names choose tests. failing_disks.c has each write fail while a file is
there, and slow_files.c makes each sync slow. The last line is `N passed, M failed`.
"""
import re
import time

from tests.lib import CLASS, HERE, Server, attribute, bound, built, configured, free_port, hope, need, try_named, until
from tests.lib.ledger.trials import Trial

# What makes each of the three packets of an entry about 3600 octets long, of which the buffer has 64 MiB.
MORE = b"".join(attribute(CLASS, bytes(250)) for _ in range(14))
# How many records the other client sends, and how many of those that flood send at once, one after the other.
QUIET, AT_ONCE = 300, 100
# How many records may be sent until the buffer is as full as those that flood may make it.
MOST = 20_000
# How many milliseconds a sync takes; in how many rounds, a tenth of a second apart, how many entries each come meanwhile; and how old one is
# then at least, in seconds.
SLOW, ROUNDS, WAITING, OLD = 2000, 80, 20, 0.8


class Flood(Trial):
    """A trial with several clients, each at an address of its own, of which the last one does not flood."""

    def __init__(self, program, room, count):
        super().__init__(program, room)
        self.addresses = [f"127.0.{1 + number // 250}.{1 + number % 250}" for number in range(count)]
        self.listen = (HERE, free_port())
        servers = [Server("h1", self.home.getsockname()[1], realm="example.org")]
        self.file.write_text(configured(f"{HERE}:{self.listen[1]}", servers, self.addresses, linger=1000))
        self.sockets = [bound(address) for address in self.addresses]
        self.by_client = [{} for _ in self.addresses]
        self.fails = room / "fails"

    def stalls(self):
        """Starts it with a disk that takes nothing from now on."""
        self.fails.touch()
        self.begin(LD_PRELOAD=built(self.room, "failing_disks"), DISK_PATH=str(self.folder), WRITE_FAILS=str(self.fails))

    def asks(self, client, count, more=b""):
        """This client sends so many records, each of which is acknowledged."""
        self.nas, self.told = self.sockets[client], self.by_client[client]
        hope("acknowledged", self.ask(count, more, own=more), count)

    def floods(self, clients):
        """These clients send records in turn until entries of each of them are dropped, each as many as the others."""
        for sent in range(0, MOST, AT_ONCE):
            for client in clients:
                self.asks(client, max(1, AT_ONCE // len(clients)), MORE)
            if sent % 1000 == 0 and all(self.dropped(client) for client in clients):
                return
        need(False, "not dropped are entries of", [client for client in clients if not self.dropped(client)])

    def dropped(self, client):
        """How many entries of a client were dropped, by the last text of the counters."""
        until("the counters", self.counters.exists)
        name = f'rad_proxy_client_ledger_dropped_total{{client="{self.addresses[client]}"}}'
        found = re.search(rf"^{re.escape(name)} ([0-9]+)$", self.counters.read_text(), re.MULTILINE)
        need(found, "it is not counted by client")
        return int(found[1])

    def goes_on(self):
        """Lets the disk take all that waits, and ends the program. Gives how many acknowledged records of each client are missing."""
        self.fails.unlink()
        until("none waits", lambda: self.number("ledger_waiting") == 0, 120)
        self.ends()
        there = {entry["response"] for entry in self.entries()}
        return [len(set(told) - there) for told in self.by_client]

    def stop(self):
        super().stop()
        for each in self.sockets:
            each.close()


def lasts(program, room, count, clients):
    """Has these clients of so many flood the ledger, the last one send some hundred records, and the others go on."""
    trial = Flood(program, room, count)
    try:
        trial.stalls()
        trial.floods(clients)
        for _ in range(3):
            trial.asks(count - 1, QUIET // 3)
            for client in clients[:3]:
                trial.asks(client, AT_ONCE, MORE)
        missing = trial.goes_on()
        hope("of the other client are missing", (missing[-1], trial.dropped(count - 1)), (0, 0))
        hope("missing, and counted as dropped", missing, [trial.dropped(client) for client in range(count)])
        hope("dropped of all", int(trial.number("ledger_dropped_total")), sum(missing))
        need(all(missing[client] for client in clients), "nothing is missing of those that flood", missing)
    finally:
        trial.stop()


def one_client_floods(trial):
    """Of two clients one floods: all acknowledged records of the other are in the ledger, and what is missing is counted for the first."""
    lasts(trial.program, trial.room, 2, [0])


def two_clients_flood(trial):
    """Of three clients two flood: all acknowledged records of the third are in the ledger."""
    lasts(trial.program, trial.room, 3, [0, 1])


def all_other_clients_flood(trial):
    """Of 256 clients, as many as there may be, all but one flood: all acknowledged records of that one are in the ledger."""
    lasts(trial.program, trial.room, 256, list(range(255)))


def one_of_many_floods_up_to_half(trial):
    """Of 256 clients one alone floods: nothing of it is dropped before half of the buffer is full."""
    flood = Flood(trial.program, trial.room, 256)
    try:
        flood.stalls()
        octets = 0
        while not flood.dropped(0):
            flood.asks(0, AT_ONCE, MORE)
            need(len(flood.told) < MOST, "nothing is dropped of", len(flood.told))
        missing = flood.goes_on()
        for entry in flood.entries():
            octets += sum(len(entry[packet]) // 2 for packet in ("sent", "reply", "response"))
        need(octets > 2**25 - 3 * 4096, "only", octets, "octets waited")
        hope("missing, and counted as dropped", missing, [flood.dropped(0), *[0] * 255])
    finally:
        flood.stop()


def the_oldest_entry_has_its_age(trial):
    """While a sync takes two seconds, entries wait, and the age of the oldest one is told, also of those that no line is made of yet."""
    trial.begin(LD_PRELOAD=built(trial.room, "slow_files"), SLOW_PATH=str(trial.folder), SLOW_SYNC=str(SLOW))
    ages = []
    for _ in range(ROUNDS):
        hope("acknowledged", trial.ask(WAITING), WAITING)
        time.sleep(0.1)
        ages.append(trial.number("ledger_oldest_waiting_seconds"))
    need(max(ages) > OLD, "the greatest age is", max(ages))
    need(sum(age > OLD for age in ages) >= ROUNDS // 8, "few have an age", ages)
    until("none waits", lambda: trial.number("ledger_oldest_waiting_seconds") == 0)
    trial.ends(seconds=10)
    trial.is_all_there()


TESTS = [one_client_floods, two_clients_flood, all_other_clients_flood, one_of_many_floods_up_to_half, the_oldest_entry_has_its_age]


if __name__ == "__main__":
    try_named(TESTS, Trial, __doc__)
