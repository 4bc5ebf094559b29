"""Two lanes that are loaded at once never wait for each other, and what passes from a lane to the front comes out once, and in order.

usage: python3 -m tests.network.parallel_lanes PROGRAM [TEST ..]

Requests for two home servers come as fast as may be, and both books are short, so that both lanes cut them off all the time: they
would soon stand still if either wanted the other one's lock beside its own. In the end both lanes tell how they stand, and have
answered all.

Then a large part of one lane's book is cut off at once, while a NAS asks the other lane: it waits hardly longer than without a cut.

Then a NAS asks one lane with a ring of four places, with four requests out at most, and its home server replies to each at once. It
gets each response once, signed for its request, in the order of the requests; the home server gets each request once; and nothing is
left.

Then rings are full. A reply that finds no place waits at the lane's socket, and none is lost: the home server gets each request once. A
ring of one place makes no step of 20 milliseconds. Where the front sends slowly, a NAS of another lane and a Status-Server are answered
meanwhile, and the program ends as it does at other times. A burst takes about as long as with the largest ring.

Last, a NAS is behind a slow interface, whose datagrams fill the send buffer: another NAS is answered all the same, and each gets its
responses in order. The last line is `N passed, M failed`.
"""
import contextlib
import itertools
import json
import pathlib
import re
import signal
import subprocess
import threading
import time
from concurrent.futures import ThreadPoolExecutor
from dataclasses import dataclass

from tests.lib import (CLASS, HERE, NAS_SECRET, NOTHING_LEFT, SECRET, Home, Proxy, Refuser, Server, Stage, answer, answered, attribute, best,
                       bound, built, configured, flooded, free_port, hope, is_so, loads, read, request, request_of_nas, status, try_in_folders,
                       until, user_name)
from tests.lib.waiting import stalled

REQUESTS = 60_000
OUT = 64
PATIENCE = 60
# What a NAS asks one lane, and how much of it at once. Nothing is sent twice meanwhile.
ASKED, UNANSWERED = 300, 4
LIMITS = f"ring = {UNANSWERED}\nfirst_wait = 60000\n"
# How long a send of a slow front takes, in seconds, and how many responses it has to send then.
SLOW, CROWD = 0.004, 200
# How long an answer may take while the front sends as slowly: a few turns, each with a send for each lane.
SOON = 0.2
# A slow interface: how many datagrams its send buffer holds, how many are kept for a client, for how many seconds, and another client.
ROOM, KEPT, OLD, OTHER = 20, 64, 2, "127.0.0.2"
# How many responses are kept in all, and clients that have to get more than that.
ALL, MANY = 2048, 40
# How many times as slowly the clock of a program goes that has all of it at once, in each try, and that of one with a slow interface.
SLOWER, SLOWED = (1, 1, 4, 16, 16), 4
# A burst that a receive buffer has room for, of which a datagram takes less than 1,000 octets, and the least and the largest ring for it.
BUFFER = min(1 << 20, int(pathlib.Path("/proc/sys/net/core/rmem_max").read_text()))
BURST, SMALL, LARGEST = min(2000, 2 * BUFFER // 1000), 16, 4096
# How many requests a cut removes, after which span, and how much longer than else a client of another lane may wait beside it, in
# seconds.
CUT, SPAN, LONGER = 130_000, 2000, 0.06
# Which share of a burst the threads of the program wait for a processor at least where the machine is busy.
BUSY = 0.5
# How many responses the front takes in one turn, and with how many it begins to send.
TAKEN, TOGETHER = 11, 9
STATE = re.compile(r"lane (\d) h\1 up open accepted (\d+) queued 0 outstanding 0 answered \2 opening \d+")


class LockedProxy(loads.Loaded):
    """The program with two lanes."""

    def lanes(self):
        """How many requests each lane accepted and answered; none where one did not answer all."""
        self.ran.stdin.write(b"state\n")
        found = [STATE.fullmatch(self.line()) for _ in range(2)]
        return [int(each[2]) for each in found] if all(found) else []

    def accepted(self):
        """How many requests both have accepted."""
        until("all is answered", self.lanes, loads.PATIENCE)
        return sum(self.lanes())


def load_both(program, work):
    """Loads two lanes at once until both have answered all."""
    loads.build(work)
    load = loads.Load("two short books", 200, 0, [OUT])
    with loads.serving(program, work, load, Refuser(work).library, LockedProxy, 2) as (proxy, nas):
        nas.ask(OUT, REQUESTS, PATIENCE)
        print(f"accepted and answered: {proxy.lanes()}", flush=True)
        proxy.end_well()


class CutProxy(loads.Loaded):
    """The program with two lanes."""

    def opening(self):
        """How many requests of the first lane are cut off."""
        self.ran.stdin.write(b"state\n")
        first, _ = self.line(), self.line()
        return int(first.rpartition(" ")[2])

    def accepted(self):
        return 0


def longest_wait(proxy, nas, seconds, numbers):
    """The longest time that a NAS of the second lane waits for an answer, of those that it asks for one after the other."""
    longest, end = 0, time.monotonic() + seconds
    while time.monotonic() < end:
        number = next(numbers)
        octets = request(number % 256, user_name(f"user{number}@r01.bench".encode()), NAS_SECRET)
        begun = proxy.clock()
        nas.sendto(octets, proxy.listen)
        hope("the answer's identifier", nas.recv(4096)[1], number % 256)
        longest = max(longest, proxy.clock() - begun)
        time.sleep(0.001)
    return longest


def ask_steadily(proxy, work, rate, seconds):
    """Asks the first lane for so much a second, whatever it answers."""
    words = {"port": proxy.listen[1], "secret": NAS_SECRET.decode(), "rate": rate, "count": rate * seconds, "seconds": seconds, "sockets": 16}
    subprocess.run(loads.generator(work, **words), check=True, stdout=subprocess.DEVNULL)


def cut_beside_another_lane(program, work):
    """Beside a cut of many requests a client of the other lane waits hardly longer than without it."""
    loads.build(work)
    load, numbers = loads.Load("one large cut", 2 * CUT, SPAN, [OUT]), itertools.count()
    with loads.serving(program, work, load, Refuser(work).library, CutProxy, 2) as (proxy, _), bound() as other:
        nas = loads.Generator(work, proxy)

        def waits():
            """How many requests a cut removes, and the longest waits without it and beside it."""
            nas.ask(OUT, CUT - 10, 10 * PATIENCE)
            apart, before = longest_wait(proxy, other, 1.5 * SPAN / 1000, numbers), proxy.opening()
            with ThreadPoolExecutor(1) as pool:
                waiting = pool.submit(longest_wait, proxy, other, 2, numbers)
                ask_steadily(proxy, work, 2000, 1)
                beside = waiting.result()
            return proxy.opening() - before, apart, beside

        best(waits, lambda seen: seen[0] >= CUT - 2000 and seen[2] <= seen[1] + LONGER)


def serve(home, seen):
    """Replies to each request at once, until all came, and keeps what came."""
    while len(seen) < ASKED:
        octets, sender = home.recvfrom(4096)
        seen.append(octets)
        home.sendto(answered(octets), sender)


def responses_of(nas, proxy, requests):
    """What a NAS is told that sends these requests, of which a few are without a response at any time."""
    told = []
    for place, octets in enumerate(requests):
        if place >= UNANSWERED:
            told.append(nas.recv(4096))
        nas.sendto(octets, proxy)
    return told + [nas.recv(4096) for _ in range(UNANSWERED)]


def keep_order(program, work):
    """Sees that the responses of a lane with a short ring come once each, and in order."""
    requests = [request_of_nas(number % 256, attribute(CLASS, number.to_bytes(2, "big"))) for number in range(ASKED)]
    with bound() as nas, bound() as home:
        listen, seen, server = (HERE, free_port()), [], Server("h1", home.getsockname()[1], LIMITS, "example.org")
        proxy = Proxy(program, work, configured(f"{HERE}:{listen[1]}", [server]), listen)
        proxy.start()
        try:
            hope("the first line", proxy.listens(), f"listening {HERE}:{listen[1]}\n".encode())
            serving = threading.Thread(target=serve, args=(home, seen), daemon=True)
            serving.start()
            told = responses_of(nas, listen, requests)
            serving.join()
            printed, _ = proxy.ran.communicate(b"state\n", timeout=PATIENCE)
        finally:
            proxy.kill()
        home.settimeout(0)
        nas.settimeout(0)
        hope("the requests at the home server", [octets[-8:] for octets in seen], [n.to_bytes(8, "big") for n in range(ASKED)])
        hope("the responses", told, [answer(octets, octets[1], b"", NAS_SECRET) for octets in requests])
        state = f"lane 0 h1 up open accepted {ASKED} queued 0 outstanding 0 answered {ASKED} opening 0"
        hope("what is printed", printed.decode().splitlines(), [state, NOTHING_LEFT])
        for name, socket in (("the NAS", nas), ("the home server", home)):
            hope(f"what else {name} got", rest_of(socket), None)


class Replying(Home):
    """A home server that replies to each request at once, in a thread of its own. Or it replies to all of them later."""

    def __init__(self):
        super().__init__()
        self.ear.settimeout(0.05)
        self.later, self.is_ended = None, False
        self.thread = threading.Thread(target=self.serve, daemon=True)
        self.thread.start()

    def serve(self):
        while not self.is_ended:
            with contextlib.suppress(TimeoutError):
                octets, sender = self.ear.recvfrom(4096)
                self.came.append((read(octets), sender))
                if self.later is None:
                    self.answer(*self.came[-1])
                else:
                    self.later.append(self.came[-1])

    def reply_to_all(self, count):
        """Waits for so many requests to which it did not reply, and replies to them."""
        until("all is at the home server", lambda: len(self.later) == count)
        for packet, sender in self.later:
            self.answer(packet, sender)
        self.later.clear()

    def end(self):
        self.is_ended = True
        self.thread.join()
        self.ear.close()


class Ringed:
    """The program, and home servers h0, h1 and so on that reply at once."""

    def __init__(self, program, work, limits, count=1, linger=0, variables=()):
        self.homes, self.asked = [Replying() for _ in range(count)], itertools.count()
        homes = {f"h{lane}": (home.port, f"first_wait = 60000\n{limits}") for lane, home in enumerate(self.homes)}
        port = free_port()
        more = {"LD_PRELOAD": built(work, "full_send_buffer"), "FROM_PORT": str(port)} | dict(variables)
        self.proxy = Proxy.serving(program, work, "ringed", homes, port=port, linger=linger, variables=more)

    def __enter__(self):
        return self

    def __exit__(self, *_):
        self.proxy.kill()
        for home in self.homes:
            home.end()

    def requests(self, count, lane=0):
        """New requests of a NAS, each with an Identifier of its own."""
        numbers = [next(self.asked) for _ in range(count)]
        return [request(place % 256, user_name(f"user{number}@h{lane}.example".encode()), SECRET) for place, number in enumerate(numbers)]

    def ask(self, nas, requests):
        for octets in requests:
            nas.sendto(octets, self.proxy.listen)

    def trip(self, nas, octets):
        """How long it takes until a datagram is answered, but for what a busy machine takes."""
        begun = self.proxy.clock()
        nas.sendto(octets, self.proxy.listen)
        hope("the answer", nas.recv(4096), answer(octets, octets[1], b"", SECRET))
        return self.proxy.clock() - begun

    def are_sent_once(self, count, lane=0):
        """Sees that a home server got so many requests, each once."""
        came = [packet.octets for packet, _ in self.homes[lane].came]
        hope("the requests at the home server, and those that came again", (len(came), len(came) - len(set(came))), (count, 0))


def told_in_order(nas, requests):
    """Sees that a NAS gets the responses to these requests, and in this order."""
    told = [nas.recv(4096) for _ in requests]
    hope("the responses", told, [answer(octets, octets[1], b"", SECRET) for octets in requests])


def pass_one_place(program, work):
    """All that comes together passes a ring of one place, in order, each once, and without a step of 20 milliseconds for each."""
    with Ringed(program, work, "ring = 1\nwindow = 254\n") as ringed, bound() as nas:

        def once():
            requests = ringed.requests(CROWD)
            begun = ringed.proxy.clock()
            ringed.ask(nas, requests)
            told_in_order(nas, requests)
            return ringed.proxy.clock() - begun

        tries = itertools.count(1)
        best(lambda: (next(tries), once()), lambda seen: seen[1] < CROWD * 0.005)
        ringed.are_sent_once((next(tries) - 1) * CROWD)


def serve_beside_a_full_ring(program, work):
    """While a ring is full, since the front sends slowly, a NAS of another lane is answered, and a Status-Server."""
    slowly = {"SEND_MICROSECONDS": str(int(SLOW * 1e6))}
    with Ringed(program, work, "ring = 4\nwindow = 254\n", 2, variables=slowly) as ringed, bound() as nas, bound() as other:

        def longest():
            requests = ringed.requests(CROWD)
            ringed.ask(nas, requests)
            ringed.homes[0].reply_to_all(CROWD)
            trips = []
            for identifier in range(10):
                trips.append(ringed.trip(other, ringed.requests(1, 1)[0]))
                trips.append(ringed.trip(other, status(identifier, bytes(16), b"", b"", SECRET)))
            told_in_order(nas, requests)
            return max(trips)

        ringed.homes[0].later = []
        tries = itertools.count(1)
        best(lambda: (next(tries), longest())[1], lambda seen: seen < SOON)
        ringed.are_sent_once((next(tries) - 1) * CROWD)


def end_at_a_full_ring(program, work):
    """At the end of the input all that a full ring holds back is drained, if linger is long enough; else it is told as left."""
    slowly = {"SEND_MICROSECONDS": str(int(SLOW * 1e6))}
    for linger in (30_000, 0):
        with Ringed(program, work, "ring = 4\nwindow = 254\n", linger=linger, variables=slowly) as ringed, bound() as nas:
            ringed.homes[0].later = []
            ringed.ask(nas, ringed.requests(CROWD))
            ringed.homes[0].reply_to_all(CROWD)
            begun = time.monotonic()
            printed, _ = ringed.proxy.ran.communicate(timeout=PATIENCE)
            took, left = time.monotonic() - begun, numbers_left(printed.decode())
            nas.settimeout(0)
            came = count_of(nas)
            if linger:
                hope("what is left, and the responses", (left, came), ([0, 0, 0], CROWD))
            else:
                hope("what is left, and the responses, together", sum(left) + came, CROWD)
                hope(f"it ends at once: {took}", took < 2, True)
            ringed.are_sent_once(CROWD)


def go_on_after_a_stop(program, work):
    """What comes while the program is stopped passes a ring that is too small for it, once the program goes on."""
    with Ringed(program, work, "ring = 4\nwindow = 254\n") as ringed, bound() as nas:
        ringed.homes[0].later, requests = [], ringed.requests(CROWD)
        ringed.ask(nas, requests)
        until("all is at the home server", lambda: len(ringed.homes[0].later) == CROWD)
        ringed.proxy.ran.send_signal(signal.SIGSTOP)
        ringed.homes[0].reply_to_all(CROWD)
        ringed.proxy.ran.send_signal(signal.SIGCONT)
        told_in_order(nas, requests)
        ringed.are_sent_once(CROWD)


def numbers_left(printed):
    """How many requests and responses are left by the last line: queued, outstanding, untaken."""
    found = re.fullmatch(r"end: queued (\d+) outstanding (\d+) untaken (\d+)", printed.splitlines()[-1])
    return [int(number) for number in found.groups()]


def count_of(nas):
    """How many datagrams wait at a socket."""
    for count in itertools.count():
        if rest_of(nas) is None:
            return count


@dataclass
class Bursting(loads.Load):
    """A load of a lane whose ring has so many places."""

    ring: int = 256


class BurstProxy(loads.Loaded):
    """The program with one lane, whose ring has as many places as the load says."""

    def keys(self):
        return f"{super().keys()}ring = {self.load.ring}\n"

    def dropped(self):
        """How many datagrams the kernel dropped at `listen`, and how many the lane did, since its ring was full."""
        table = [line.split() for line in pathlib.Path("/proc/net/udp").read_text().splitlines()[1:]]
        lost = sum(int(words[-1]) for words in table if words[1].endswith(f":{self.listen[1]:04X}"))
        return lost, self.log.read_text("utf-8").count("reason=RingFull")

    def settings(self, library, folder):
        return {"RAD_PROXY_LOG": "info"}


def burst(program, work, ring):
    """How long a burst takes with such a ring, and the median of its requests, in milliseconds; and which share of that time the program's
    threads waited for a processor, all together."""
    load = Bursting("a burst", 8 * BURST, 0, [BURST], ring)
    with loads.serving(program, work, load, None, BurstProxy) as (proxy, _):
        words = {"port": proxy.listen[1], "secret": NAS_SECRET.decode(), "window": BURST, "count": BURST, "seconds": 30, "sockets": 64}
        words["timeout"] = 20_000
        before = stalled(proxy.ran.pid)
        told = json.loads(subprocess.run(loads.generator(work, **words), check=True, capture_output=True).stdout)
        told["stalled"] = (stalled(proxy.ran.pid) - before) / told["seconds"]
        lost, _ = proxy.dropped()
        proxy.end_well()
        hope("datagrams lost at `listen` and at the ring", (lost, proxy.dropped()[1]), (0, 0))
        hope("unanswered", told["unanswered"], 0)
        return told


def take_no_longer(program, work):
    """A burst through a small ring takes at most half as long again as through the largest one, and its median too; on a busy machine, where
    each wake waits for a processor, at most twice as long."""
    loads.build(work)

    def ratios():
        small, largest = burst(program, work, SMALL), burst(program, work, LARGEST)
        return small["seconds"] / largest["seconds"], small["p50_us"] / largest["p50_us"], small["stalled"]

    best(ratios, lambda seen: max(seen[:2]) <= (2 if seen[2] > BUSY else 1.5))


def slowed(work, slow):
    """The variables of a program whose clock goes so many times as slowly, and so that of its interface."""
    return {"LD_PRELOAD": ":".join(built(work, name) for name in ("full_send_buffer", "wrong_clock")), "CLOCK_SLOW": str(slow)}


class Narrow(Ringed):
    """The program, with two NASes, of which one is behind a slow interface: it takes so many milliseconds for each datagram. The clock of both
    goes so many times as slowly, so that a busy machine is quick enough for them."""

    CLIENT = f'[[client]]\naddress = "{OTHER}"\nsecret = "{SECRET.decode()}"\n'

    def __init__(self, program, work, milliseconds, linger=0, slow=1, **more):
        self.slow, self.quick = bound(), bound(OTHER)
        port = str(self.slow.getsockname()[1])
        variables = {"NARROW_FIRST": port, "NARROW_LAST": port, "NARROW_ROOM": str(ROOM), "NARROW_MILLISECONDS": str(milliseconds), **more}
        variables |= slowed(work, slow)
        super().__init__(program, work, f"window = 254\nqueue = 2000\n{self.CLIENT}", linger=linger, variables=variables)

    def __exit__(self, *words):
        super().__exit__(*words)
        self.slow.close()
        self.quick.close()

    def fill(self, count):
        """Has the slow NAS ask so much, and answers the responses to it, in order, once all is at the home server."""
        before = len(self.homes[0].came)
        asked = []
        while len(asked) < count:
            part = self.requests(min(200, count - len(asked)))
            self.ask(self.slow, part)
            asked += part
            until("all is at the home server", lambda: len(self.homes[0].came) == before + len(asked))
        return [answer(octets, octets[1], b"", SECRET) for octets in asked]

    def lost(self):
        """How many sends failed, as the counters say at the end."""
        return self.proxy.counter("send_faults_total")

    def rest(self, seconds):
        """What the slow NAS still gets, until nothing comes for so long."""
        told = []
        self.slow.settimeout(seconds)
        with contextlib.suppress(TimeoutError):
            while True:
                told.append(self.slow.recv(4096))
        return told


def pass_a_slow_interface(program, work):
    """While the responses of a slow NAS fill the send buffer, another NAS is answered at once. The slow one gets the first of its
    responses, and the last as many as are kept, in order. The others are lost and counted."""
    with Narrow(program, work, 20, linger=20_000, slow=SLOWED) as narrow:
        responses = narrow.fill(300)
        trips = sorted(narrow.trip(narrow.quick, narrow.requests(1)[0]) for _ in range(50))
        told = narrow.rest(0.5)
        narrow.proxy.end()
        hope("the last of the slow NAS's", told[-KEPT:], responses[-KEPT:])
        hope("the first of them", told[: ROOM], responses[: ROOM])
        hope("their order", told, [each for each in responses if each in set(told)])
        hope("what is lost", narrow.lost(), 300 - len(told))
        hope(f"the trips of the other NAS: {trips}", trips[-2] < SOON, True)


def keep_no_longer(program, work):
    """What the system does not accept for two seconds is lost, and what is left at the end after one more try. All is counted."""
    with Narrow(program, work, 100, linger=20_000, slow=SLOWED) as narrow:
        begun = time.monotonic()
        responses = narrow.fill(ROOM + KEPT)
        told = narrow.rest(SLOWED)
        took = (time.monotonic() - begun) / SLOWED - 1
        hope(f"until when it comes: {took}", OLD - 0.5 < took < OLD + 1, True)
        hope("what comes", told, [each for each in responses if each in set(told)])
        hope(f"how much of it: {len(told)}", ROOM + 10 * OLD - 5 <= len(told) < ROOM + KEPT - 10, True)
        narrow.fill(KEPT)
        narrow.proxy.end()
        told += narrow.rest(0.1)
        hope("what is lost", narrow.lost(), ROOM + 2 * KEPT - len(told))


def keep_beside_what_is_sent(program, work):
    """What is kept is sent once the interface is quick, though others have responses all the time: the last of it, in order."""
    def came():
        with Narrow(program, work, 60_000, WIDE_AFTER="800") as narrow:
            probes = [status(identifier, bytes(16), b"", b"", SECRET) for identifier in range(16)]
            responses = narrow.fill(ROOM + KEPT)
            with flooded(narrow.proxy.listen, source=OTHER, octets=probes):
                told = narrow.rest(OLD)
            hope("their order", told, [each for each in responses if each in set(told)])
            return len(told)

    best(came, lambda count: count == ROOM + KEPT)


def count_what_is_refused_later(program, work):
    """Of what is kept, what the system then refuses for another reason than a full buffer is lost and counted."""
    with Narrow(program, work, 60_000, WIDE_AFTER="500", WIDE_REFUSED="3") as narrow:
        responses = narrow.fill(ROOM + KEPT)
        told = narrow.rest(OLD)
        hope("what comes", told, responses[:ROOM] + responses[ROOM + 3:])
        narrow.proxy.end()
        hope("what is lost", narrow.lost(), 3)


class Crowded(Ringed):
    """The program, with many NASes behind an interface that takes nothing at first, and everything after some milliseconds. Its clock goes so
    many times as slowly, on a machine that is too busy for what comes in these milliseconds."""

    def __init__(self, program, work, slow):
        self.nases = [bound(f"127.0.1.{number}", 0, 0) for number in range(1, MANY + 1)]
        clients = "".join(f'[[client]]\naddress = "{nas.getsockname()[0]}"\nsecret = "{SECRET.decode()}"\n' for nas in self.nases)
        variables = {"NARROW_FIRST": "1", "NARROW_LAST": "65535", "NARROW_ROOM": "1", "NARROW_MILLISECONDS": "60000", "WIDE_AFTER": "1500"}
        variables |= slowed(work, slow)
        super().__init__(program, work, f"window = 254\nqueue = 5000\n{clients}", linger=20_000, variables=variables)

    def have_come(self, count):
        until(f"{count} are at the home server", lambda: len(self.homes[0].came) == count, apart=0.001)

    def __exit__(self, *words):
        super().__exit__(*words)
        for nas in self.nases:
            nas.close()


def keep_so_many_in_all(program, work):
    """Of what many NASes have to get, 2,048 responses are kept in all: as many for each, its last ones, which it gets in order."""

    slower = iter(SLOWER)

    def shares():
        slow = next(slower)
        with Crowded(program, work, slow) as crowded:
            asked = [crowded.requests(KEPT) for _ in crowded.nases]
            for together in zip(*asked):
                for nas, octets in zip(crowded.nases, together):
                    nas.sendto(octets, crowded.proxy.listen)
                time.sleep(0.005)
            told = []
            time.sleep(2.5 * slow)
            for nas, requests in zip(crowded.nases, asked):
                told.append([])
                while octets := rest_of(nas):
                    told[-1].append(octets)
                responses = [answer(octets, octets[1], b"", SECRET) for octets in requests]
                hope("what a NAS gets, in order", told[-1], [each for each in responses if each in set(told[-1])])
            crowded.proxy.end()
            counts = sorted(map(len, told))
            return sum(counts), counts[-1] - counts[0], crowded.proxy.counter("send_faults_total")

    kept = ALL + 1
    best(shares, lambda seen: seen[0] == kept and seen[1] <= 2 and seen[2] == MANY * KEPT - kept)


def lose_their_own_at_a_tie(program, work):
    """Where one more is kept than may be, and three NASes have the most, that one loses its own oldest that got one more: the second of them."""
    counts = [1, KEPT - 1, KEPT - 2, KEPT - 1, *[KEPT - 2] * (ALL // (KEPT - 2) - 3)]
    counts.append(ALL + 1 - sum(counts))

    slower = iter(SLOWER)

    def others():
        slow = next(slower)
        with Crowded(program, work, slow) as crowded:
            asked, last = [crowded.requests(count) for count in counts], crowded.requests(1)
            for place, (nas, octets) in enumerate(zip(crowded.nases, asked)):
                crowded.ask(nas, octets)
                crowded.have_come(sum(counts[:place + 1]))
            crowded.ask(crowded.nases[2], last)
            time.sleep(OLD * slow)
            asked[2] = asked[2][1:] + last
            wanted = [[answer(octets, octets[1], b"", SECRET) for octets in requests] for requests in asked]
            found = [list(iter(lambda: rest_of(nas), None)) for nas in crowded.nases[:len(counts)]]
            return [place for place, pair in enumerate(zip(found, wanted)) if pair[0] != pair[1]]

    best(others, lambda seen: not seen)


def rest_of(socket):
    """What still waits at a socket, if anything does."""
    try:
        return socket.recv(4096)
    except BlockingIOError:
        return None


def keep_each_before_it_is_sent(program, folder):
    """The ledger has a response before it is sent. Of eleven that the front takes in one turn the first eight are sent once there is a
    ninth: while the first of them is sent, slowly, the ledger has nine."""
    ledger, nas = folder / "ledger", bound()
    ledger.mkdir()
    variables = {"LD_PRELOAD": built(folder, "slow_files"), "SLOW_PORT": str(nas.getsockname()[1]), "SLOW_SEND": "4000", "RAD_PROXY_LEDGER": str(ledger)}

    def kept():
        return sum(file.read_bytes().count(b'"type":"entry"') for file in ledger.iterdir())

    with Stage(program, folder, "first_wait = 60000\n", 1 + TAKEN, variables=variables) as stage, nas:
        stage.nas.socket.close()
        stage.nas.socket = nas
        for lane in range(1 + TAKEN):
            stage.nas.ask(f"h{lane}")
        came = [stage.came(lane) for lane in range(1 + TAKEN)]
        stage.homes[0].answer(*came[0])
        until("the first entry", lambda: kept() == 1)
        for home, asked in zip(stage.homes[1:], came[1:]):
            home.answer(*asked)
        nas.recv(4096)
        until("the entries of a turn", lambda: kept() > 1)
        hope("entries while the next is sent", (not is_so(lambda: kept() != 1 + TOGETHER, 1), kept()), (True, 1 + TOGETHER))


TESTS = (load_both, cut_beside_another_lane, keep_order, pass_one_place, serve_beside_a_full_ring, end_at_a_full_ring, go_on_after_a_stop, take_no_longer,
         pass_a_slow_interface, keep_no_longer, keep_beside_what_is_sent, count_what_is_refused_later, keep_so_many_in_all, lose_their_own_at_a_tie, keep_each_before_it_is_sent)


if __name__ == "__main__":
    try_in_folders(TESTS, __doc__)
