"""When the program does what it has to do, and how often: wakes, resendings and idle time.

usage: python3 -m tests.timing.wakes_and_resendings PROGRAM [TEST ..]

A test is a function below; its first line says what holds. Home servers and the NAS are sockets of this script. A machine may
have much else to do, so a bound of time is kept where the best of TRIES keeps it; what a bound of time does not concern holds each
time. The last line is `N passed, M failed`.
"""
import contextlib
import itertools
import os
import pathlib
import random
import select
import signal
import sys
import time
from collections import Counter

from tests.lib import (NOTHING_LEFT, SECRET, STATUS_SERVER, TRIES, Nas, Stage, answer, best, built, classes, is_so, need, request,
                       try_in_folders, user_name)
from tests.lib.waiting import stalled

PATIENCE = 30
TICKS = os.sysconf("SC_CLK_TCK")
# A worker that nobody wakes looks again after 20 milliseconds.
LATE = 0.012
# The octets of a request that is longer than whatever else the program allocates memory for.
LONG = 3001


class Wakes:
    """What counted_calls.c counts of the program, of which each receive that finds a datagram takes some milliseconds."""

    def __init__(self, folder, milliseconds=0):
        self.file = pathlib.Path(folder, "wakes")
        library = built(folder, "counted_calls")
        self.variables = {"LD_PRELOAD": library, "WAKES_FILE": str(self.file), "RECEIVE_MILLISECONDS": str(milliseconds)}

    def numbers(self):
        octets = self.file.read_bytes()
        return [int.from_bytes(octets[at : at + 8], sys.byteorder) for at in range(0, len(octets), 8)]

    def counts(self):
        """How many receives there were, and wakes, and waits that ended without an event, by the millisecond of twenty."""
        receives, wakes, _, _, _, _, *ends = self.numbers()
        return receives, wakes, ends

    def together(self):
        """How many sends there were of a worker that received no datagram since its last send."""
        return self.numbers()[2]

    def datagrams(self):
        """How many datagrams were received, and how many sent."""
        return self.numbers()[3:5]

    def longest(self):
        """The most datagrams that a worker received from one send to the next."""
        return self.numbers()[5]

    def during(self, seconds):
        """How many there were of each in so many seconds."""
        receives, wakes, ends = self.counts()
        time.sleep(seconds)
        more_receives, more_wakes, more_ends = self.counts()
        return more_receives - receives, more_wakes - wakes, [more - end for end, more in zip(ends, more_ends)]


def no_wake_is_late(program, folder):
    """Of 100 round trips, one after the other, next to none waits for a worker that nobody woke."""
    with Stage(program, folder) as stage:
        best(lambda: sum(stage.round_trip() > LATE for _ in range(100)), lambda late: late <= 5)


def no_wake_is_late_at_any_port(program, folder):
    """The same at each of four source ports, of which each takes 256 requests before the next one does."""
    with Stage(program, folder, "ports = 4\n") as stage:
        best(lambda: sum(stage.round_trip() > LATE for _ in range(4 * 256)), lambda late: late <= 4 * 12)


def no_wake_is_late_at_any_lane(program, folder):
    """The same at each of eight home servers in turn."""
    with Stage(program, folder, count=8) as stage:
        best(lambda: Counter(trip % 8 for trip in range(208) if stage.round_trip(trip % 8) > LATE), lambda late: max(late.values(), default=0) <= 6)


def no_wake_is_lost_while_a_worker_works(program, folder):
    """Of 600 pairs of requests, the second of which comes while the workers are at the first, next to none is forwarded late."""
    chance = random.Random(1)
    with Stage(program, folder) as stage:

        def pair():
            asked = [stage.nas.ask()]
            second = time.monotonic() + chance.uniform(0, 0.0004)
            while time.monotonic() < second:
                pass
            begun = stage.proxy.clock()
            asked.append(stage.nas.ask())
            came = [stage.came() for _ in asked]
            forwarded = stage.proxy.clock() - begun
            for packet, sender in came:
                stage.homes[0].answer(packet, sender)
            need(all(stage.nas.is_answered(each) for each in asked), "other responses came")
            return forwarded > LATE

        best(lambda: sum(pair() for _ in range(600)), lambda late: late <= 6)


def no_notification_is_lost_before_a_sleep(program, folder):
    """Of 100 round trips less than half are late where each receive that finds nothing takes some milliseconds, so that most
    requests come while a worker is about to sleep. On a busy machine some are late; were a notification lost, most would be."""
    chance = random.Random(1)
    variables = {"LD_PRELOAD": built(folder, "failing_sockets"), "EMPTY_MILLISECONDS": "2"}
    with Stage(program, folder, variables=variables) as stage:

        def trip():
            time.sleep(chance.uniform(0, 0.002))
            return stage.round_trip()

        best(lambda: sum(trip() > LATE for _ in range(100)), lambda late: late <= 45)


def no_wake_is_lost_where_datagrams_come_together(program, folder):
    """Of 100 times that four requests come together, the last of them for another home server than the others, next to none has one
    that is forwarded late, or an answer of the four that come together then."""
    lanes = [1, 0, 0, 0]
    with Stage(program, folder, count=2) as stage:

        def is_late():
            asked = [stage.nas.ask(f"h{lane}") for lane in reversed(lanes)]
            begun = stage.proxy.clock()
            came = [stage.came(lane) for lane in lanes]
            forwarded = stage.proxy.clock() - begun
            for lane, (packet, sender) in zip(lanes, came):
                stage.homes[lane].answer(packet, sender)
            begun = stage.proxy.clock()
            found = {stage.nas.socket.recv(4096) for _ in asked}
            need(found == {answer(each, each[1], b"", SECRET) for each in asked}, "other responses came")
            return max(forwarded, stage.proxy.clock() - begun) > LATE

        best(lambda: sum(is_late() for _ in range(100)), lambda late: late <= 10)


def replies_that_come_at_three_ports_together_are_heard(program, folder):
    """Of three source ports of a lane each has a request outstanding, and the replies to all of them come before the lane's worker sees any:
    each is answered, though none is sent again."""
    with Stage(program, folder, "ports = 4\nfirst_wait = 60000\n") as stage:
        asked, came = [], []
        for _ in range(3):
            asked.append(stage.nas.ask())
            came.append(stage.came())
            for _ in range(255):
                stage.round_trip()
        need(len({sender for _, sender in came}) == 3, "they left from", *(sender for _, sender in came))
        with stopped(stage):
            for packet, sender in came:
                stage.homes[0].answer(packet, sender)
        found = {stage.nas.socket.recv(4096) for _ in asked}
        need(found == {answer(each, each[1], b"", SECRET) for each in asked}, "other responses came")


def requests_that_come_together_wake_a_lane_once_for_eight(program, folder):
    """While 24 requests wait, of which the front takes one in three milliseconds, their lane, which sleeps after each, is woken for
    the first one, once for eight of the others, and at the end."""
    wakes = Wakes(folder, milliseconds=3)
    with Stage(program, folder, variables=wakes.variables) as stage:
        stage.round_trip()

        def woken():
            _, before, _ = wakes.counts()
            asked = [stage.nas.ask() for _ in range(24)]
            came = [stage.came() for _ in asked]
            _, after, _ = wakes.counts()
            for packet, sender in came:
                stage.homes[0].answer(packet, sender)
            for _ in asked:
                stage.nas.socket.recv(4096)
            time.sleep(0.1)
            return after - before

        best(woken, lambda count: 3 <= count <= 8)


def state_of(thread):
    """The letter of a thread's state."""
    return (thread / "stat").read_text().rpartition(")")[2].split()[0]


@contextlib.contextmanager
def stopped(stage):
    """Stops the program, each of its threads, and lets it go on at the end."""
    threads = pathlib.Path("/proc", str(stage.proxy.ran.pid), "task")
    os.kill(stage.proxy.ran.pid, signal.SIGSTOP)
    try:
        need(is_so(lambda: all(state_of(thread) == "T" for thread in threads.iterdir())), "it does not stop")
        yield
    finally:
        os.kill(stage.proxy.ran.pid, signal.SIGCONT)


def what_a_lane_sends_while_replies_come_goes_together(program, folder):
    """Eight requests are outstanding and eight wait, and eight replies come at once. The lane sends the next eight behind each other,
    with no receive in between, and so does the front the eight responses: of these sixteen sends most follow another one."""
    wakes = Wakes(folder)
    with Stage(program, folder, "window = 8\n", variables=wakes.variables) as stage:
        stage.round_trip()

        def together():
            for _ in range(16):
                stage.nas.ask()
            came = [stage.came() for _ in range(8)]
            before = wakes.together()
            with stopped(stage):
                for packet, sender in came:
                    stage.homes[0].answer(packet, sender)
            came = [stage.came() for _ in range(8)]
            for _ in range(8):
                stage.nas.socket.recv(4096)
            after = wakes.together()
            for packet, sender in came:
                stage.homes[0].answer(packet, sender)
            for _ in range(8):
                stage.nas.socket.recv(4096)
            return after - before

        best(together, lambda count: count >= 11)


def an_answer_leaves_within_eight_receives(program, folder):
    """A Status-Server waits, and behind it 200 datagrams that are dropped. Its answer is sent before the front has received nine of
    these, although more of them wait."""
    wakes = Wakes(folder)
    with Stage(program, folder, variables=wakes.variables) as stage:
        stage.round_trip()
        with stopped(stage):
            stage.nas.ask_status()
            for _ in range(200):
                stage.nas.socket.sendto(b"x", stage.proxy.listen)
        stage.nas.socket.recv(4096)
        dropped = 'rad_proxy_dropped_total{reason="Unread"}'
        need(is_so(lambda: stage.counters()[dropped] == 200), "not all were dropped", stage.counters())
        need(wakes.longest() <= 9, "it received", wakes.longest(), "datagrams before it sent the answer")


def answers_leave_in_order_where_memory_is_refused(program, folder):
    """A Status-Server is answered. From then on each growth of memory is refused, and three Status-Servers wait. All three are
    answered, in their order."""
    switch = pathlib.Path(folder, "refused")
    variables = {"LD_PRELOAD": built(folder, "refused_memory"), "REFUSE_WHILE": str(switch)}
    with Stage(program, folder, variables=variables) as stage:
        stage.nas.ask_status()
        stage.nas.socket.recv(4096)
        switch.touch()
        with stopped(stage):
            for identifier in (2, 3, 4):
                stage.nas.ask_status(identifier)
        answered = [stage.nas.socket.recv(4096)[1] for _ in range(3)]
        switch.unlink()
        need(answered == [2, 3, 4], "answered were", answered)
        stage.round_trip()


def what_waits_behind_a_failed_receive_is_received(program, folder):
    """The first 50 receives of each socket fail. A Status-Server that comes meanwhile is answered, although no other datagram comes
    behind it, and so is a request with its reply."""
    variables = {"LD_PRELOAD": built(folder, "failing_sockets"), "RECEIVE_FAULTS": "50"}
    with Stage(program, folder, "first_wait = 60000\n", variables=variables) as stage:
        stage.nas.ask_status()
        need(select.select([stage.nas.socket], [], [], PATIENCE)[0], "a Status-Server was not answered")
        stage.nas.socket.recv(4096)
        stage.round_trip()


def all_that_is_answered_before_the_end_is_sent(program, folder):
    """While 400 Status-Servers wait, of which each takes four milliseconds, the input ends. Each one that was received before the end
    is answered."""
    wakes = Wakes(folder, milliseconds=4)
    for _ in range(TRIES):
        with Stage(program, folder, linger=20_000, variables=wakes.variables) as stage:
            with stopped(stage):
                for _ in range(400):
                    stage.nas.ask_status()
            time.sleep(0.05)
            _, line, status = stage.ends()
            need((line, status) == (NOTHING_LEFT, 0), line, status)
            received, sent = wakes.datagrams()
            need(0 < received < 400, "the end did not come among them", received)
            need(received == sent, "of", received, "datagrams", sent, "were answered")


def a_send_that_fails_is_told_with_its_own_destination(program, folder):
    """The first two sends of the front fail. Four home servers answer two access servers at once, while other requests come. A line
    is told for each of the two responses that do not arrive, with its own access server."""
    variables = {"LD_PRELOAD": built(folder, "failing_sockets"), "SEND_FAULTS": "2"}
    for _ in range(TRIES):
        with Stage(program, folder, "first_wait = 500\n", count=4, level="debug", variables=variables) as stage:
            sides = [stage.nas, Nas(stage.proxy)]
            for lane in range(4):
                sides[lane % 2].ask(f"h{lane}")
            came = [stage.came(lane) for lane in range(4)]
            with stopped(stage):
                for home, (packet, sender) in zip(stage.homes, came):
                    home.answer(packet, sender)
                for _ in range(40):
                    stage.nas.ask("h0")

            def ports():
                lines = stage.proxy.lines("send-fault")
                return sorted(int(line["port"]) for line in lines if line["worker"] == "front" and "port" in line)

            def arrived(nas):
                return sum(bool(select.select([nas.socket], [], [], 0.1)[0] and nas.socket.recv(4096)) for _ in range(2))

            need(is_so(lambda: len(ports()) >= 2), "too few lines", ports())
            lost = sorted(nas.socket.getsockname()[1] for nas in sides for _ in range(2 - arrived(nas)))
            need(ports() == lost, "lines for", ports(), "and not for", lost)
            sides[1].socket.close()


def an_idle_worker_looks_again_after_twenty_milliseconds(program, folder):
    """Each of nine workers that have nothing to do ends 40 to 60 waits a second."""
    wakes = Wakes(folder)
    with Stage(program, folder, count=8, variables=wakes.variables) as stage:
        stage.round_trip()

        def each_second():
            """The waits of a worker in a second, and in one in which no worker waits for a processor."""
            begun, before = time.monotonic(), stalled(stage.proxy.ran.pid)
            _, _, ends = wakes.during(2)
            passed = 9 * (time.monotonic() - begun)
            return sum(ends) / passed, sum(ends) / (passed - (stalled(stage.proxy.ran.pid) - before))

        best(each_second, lambda ends: ends[0] <= 60 and not 0 < ends[1] < 40)


def idle_lanes_wake_together_and_receive_nothing(program, folder):
    """However the last datagrams came, most waits of sixteen lanes that have nothing to do end within four milliseconds of twenty.
    A wait that ends so is followed by no receive."""
    chance = random.Random(1)
    wakes = Wakes(folder)
    with Stage(program, folder, count=16, variables=wakes.variables) as stage:

        def together():
            for lane in range(16):
                time.sleep(chance.uniform(0, 0.02))
                stage.round_trip(lane)
            time.sleep(0.2)
            receives, _, ends = wakes.during(1)
            need(receives == 0, "receives:", receives)
            return max(sum((ends + ends)[at : at + 4]) for at in range(20)) / sum(ends)

        best(together, lambda part: part >= 0.7)


def heaps_grow_by_large_pieces(program, folder):
    """Of 1000 requests, each of which is kept, at most 24 have the memory of the program grow."""
    with Stage(program, folder) as stage:

        def memory():
            lines = pathlib.Path(f"/proc/{stage.proxy.ran.pid}/maps").read_text().splitlines()
            ranges = [line.split()[0].split("-") for line in lines if " rw-p " in line]
            return sum(int(end, 16) - int(begin, 16) for begin, end in ranges)

        def grown():
            stage.round_trip()
            return memory()

        sizes = [grown() for _ in range(1000)]
        growths = sum(later > earlier for earlier, later in zip(sizes, sizes[1:]))
        need(growths <= 24, "it grew", growths, "times")


def resendings_come_at_their_moment(program, folder):
    """A request is sent again first_wait after its first sending, and then after twice as long, with the same octets."""
    with Stage(program, folder, "first_wait = 600\ntries = 4\n") as stage:

        def waited():
            stage.nas.ask()
            first, sender = stage.came()
            moments = [(time.monotonic(), stage.proxy.clock())]
            for _ in range(2):
                again, _ = stage.came()
                moments.append((time.monotonic(), stage.proxy.clock()))
                need(again.octets == first.octets, "other octets are sent again")
            stage.homes[0].answer(first, sender)
            stage.nas.socket.recv(4096)
            # The least time that passed by a clock, and the most by that which stands still where the machine is busy.
            return [(round(later[0] - earlier[0], 3), round(later[1] - earlier[1], 3)) for earlier, later in zip(moments, moments[1:])]

        best(waited, lambda waits: all(passed > wanted - 0.05 and worked < wanted + 0.05 for (passed, worked), wanted in zip(waits, (0.6, 1.2))))


def probes_come_at_their_moments(program, folder):
    """A home server that is down is probed at once and then each probe_every, with other random octets each time."""
    limits = "first_wait = 500\ntries = 1\nprobe_every = 1000\ndown_wait = 600000\n"
    with Stage(program, folder, limits, count=4) as stage:
        for lane in range(4):
            stage.nas.ask(f"h{lane}")
        probes = []

        def waited():
            """The seconds from each probe of a lane to the next: those that passed, and without those that a busy machine takes."""
            moments, end = {}, time.monotonic() + 5.8
            while time.monotonic() < end:
                for lane, home in enumerate(stage.homes):
                    before = len(home.came)
                    home.hear(0.005)
                    for packet, _ in home.came[before:]:
                        if packet.code == STATUS_SERVER:
                            probes.append(packet)
                            moments.setdefault(lane, []).append((time.monotonic(), stage.proxy.clock()))
            return [(round(later[0] - earlier[0], 3), round(later[1] - earlier[1], 3))
                    for of_lane in moments.values() for earlier, later in zip(of_lane, of_lane[1:])]

        best(waited, lambda waits: 2 * sum(passed > 0.94 and worked < 1.06 for passed, worked in waits) >= len(waits) > 0)
        need(len(probes) >= 16, "too few probes:", len(probes))
        authenticators = {packet.octets[4:20] for packet in probes}
        need(len(authenticators) == len(probes), "two probes have the same Authenticator")
        still = [place for place in range(16) if len({one[place] for one in authenticators}) == 1]
        need(not still, "octets that are the same in each Authenticator:", still)
        twice = [pair for pair in itertools.combinations(range(16), 2) if all(one[pair[0]] == one[pair[1]] for one in authenticators)]
        need(not twice, "octets that stand in each Authenticator twice:", twice)


def worked(stage):
    """How many seconds of a processor the program has taken."""
    return sum(map(int, pathlib.Path(f"/proc/{stage.proxy.ran.pid}/stat").read_text().rsplit(")", 1)[1].split()[11:13])) / TICKS


def ten_idle_seconds_cost_little(program, folder):
    """A proxy that has nothing to do takes less than half a second of a processor in ten seconds."""
    with Stage(program, folder, count=2) as stage:
        stage.round_trip()
        before = worked(stage)
        time.sleep(10)
        took = worked(stage) - before
        need(took < 0.5, "it took", took)


def a_worker_sleeps_until_its_lane_is_free(program, folder):
    """While the front holds a lane for two seconds, since memory for a request comes late, the lane's worker sleeps."""
    head = user_name(b"bob@h0.example")
    asked = request(1, head + classes(LONG - 20 - len(head)), SECRET)
    slow = {"LD_PRELOAD": built(folder, "refused_memory"), "SLOW_OCTETS": str(len(asked)), "SLOW_TIME": "2000"}
    with Stage(program, folder, variables=slow) as stage:
        stage.round_trip()
        begun, before = time.monotonic(), worked(stage)
        stage.nas.socket.sendto(asked, stage.proxy.listen)
        stage.came()
        took = worked(stage) - before
        need(time.monotonic() - begun > 1.9, "memory did not come late")
        need(took < 0.7, "it took", took)


def ends_once_the_last_response_is_sent(program, folder):
    """The input ends, and then the last reply comes while the front has Status-Servers to answer, of which each takes 20 milliseconds.
    The response is sent before the end."""
    wakes = Wakes(folder, milliseconds=20)
    for _ in range(TRIES):
        with Stage(program, folder, linger=20_000, variables=wakes.variables) as stage:
            asked = stage.nas.ask()
            came = stage.came()
            stage.proxy.ran.stdin.close()
            for _ in range(30):
                stage.nas.ask_status()
            stage.homes[0].answer(*came)
            stage.proxy.ran.stdin = None
            _, line, status = stage.ends()
            need((line, status) == (NOTHING_LEFT, 0), line, status)
            found = []
            while select.select([stage.nas.socket], [], [], 0)[0]:
                found.append(stage.nas.socket.recv(4096))
            need(answer(asked, asked[1], b"", SECRET) in found, "the response did not come, but", len(found), "others")


TESTS = [
    no_wake_is_late, no_wake_is_late_at_any_port, no_wake_is_late_at_any_lane, no_wake_is_lost_while_a_worker_works,
    no_notification_is_lost_before_a_sleep, no_wake_is_lost_where_datagrams_come_together,
    replies_that_come_at_three_ports_together_are_heard, requests_that_come_together_wake_a_lane_once_for_eight,
    what_a_lane_sends_while_replies_come_goes_together,
    an_answer_leaves_within_eight_receives, answers_leave_in_order_where_memory_is_refused,
    what_waits_behind_a_failed_receive_is_received, all_that_is_answered_before_the_end_is_sent,
    a_send_that_fails_is_told_with_its_own_destination, an_idle_worker_looks_again_after_twenty_milliseconds,
    idle_lanes_wake_together_and_receive_nothing, heaps_grow_by_large_pieces, resendings_come_at_their_moment,
    probes_come_at_their_moments, ten_idle_seconds_cost_little, a_worker_sleeps_until_its_lane_is_free, ends_once_the_last_response_is_sent,
]


if __name__ == "__main__":
    try_in_folders(TESTS, __doc__)
