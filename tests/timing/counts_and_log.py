"""What the program counts and logs while it serves: each number, each event with its level, and an output that takes nothing.

usage: python3 -m tests.timing.counts_and_log PROGRAM [TEST ..]

A test is a function below; its first line says what holds. Home servers and the NAS are sockets of this script. A bound of time is
kept where the best of TRIES keeps it. The last line is `N passed, M failed`.
"""
import contextlib
import os
import re
import resource
import time

from tests.lib import NOTHING_LEFT, TOP, Stage, best, built, is_so, need, try_in_folders

UP_REASONS = ["answered", "probe answered", "down_wait over"]
LEVELS = {"error", "warn", "info", "debug", "trace"}


def state_and_drain_tell_each_lane(program, folder):
    """`state` and `drain` tell of each lane its own numbers; a drained lane refuses, and its numbers stay."""
    with Stage(program, folder, "first_wait = 60000\n", count=3) as stage:
        for lane in range(3):
            for _ in range(lane + 1):
                stage.round_trip(lane)
        stage.nas.ask("h1")
        stage.came(1)
        waiting = [0, 1, 0]
        for door in ("open", "draining"):
            wanted = []
            for lane in range(3):
                taken = lane + 1 + waiting[lane]
                state = door if door == "open" or waiting[lane] else "done"
                wanted.append(f"lane {lane} h{lane} up {state} accepted {taken} queued 0 outstanding {waiting[lane]} "
                              f"answered {lane + 1} opening 0")
            told = stage.say(b"state", 3)
            need(told == wanted, told, "and not", wanted)
            told = stage.say(b"drain", 3)
            need(told == ["drain: 0 1", "drain: 1 3", "drain: 2 3"], told)


def counts_each_lane(program, folder, count):
    """Sends other numbers of requests to each of so many lanes, and compares every counter."""
    soft, hard = resource.getrlimit(resource.RLIMIT_NOFILE)
    resource.setrlimit(resource.RLIMIT_NOFILE, (min(hard, 4096), hard))
    with Stage(program, folder, "first_wait = 60000\n", count=count) as stage:
        asked = [lane % 3 + 1 for lane in range(count)]
        for lane in range(count):
            for _ in range(asked[lane]):
                stage.round_trip(lane)
        strays = [0] * count
        for lane in (0, count - 1):
            packet, sender = None, None
            again = stage.nas.ask(f"h{lane}")
            packet, sender = stage.came(lane)
            stage.homes[lane].answer(packet, sender)
            need(stage.nas.is_answered(again), "another response came")
            asked[lane] += 1
            stage.homes[lane].ear.sendto(b"no packet", sender)
            stage.homes[lane].answer(packet, sender)
            strays[lane] += 1
        stage.nas.socket.sendto(b"no packet", stage.proxy.listen)
        wanted = {}
        for lane in range(count):
            labels = f'lane="{lane}",home="h{lane}"'
            wanted |= {f"rad_proxy_sent_total{{{labels}}}": asked[lane], f"rad_proxy_probes_total{{{labels}}}": 0}
            wanted |= {f'rad_proxy_ups_total{{{labels},reason="{reason}"}}': 0 for reason in UP_REASONS}
            wanted[f"rad_proxy_downs_total{{{labels}}}"] = 0
            wanted |= {f"rad_proxy_{way}_faults_total{{{labels}}}": 0 for way in ("send", "receive")}
            wanted |= {f"rad_proxy_marked_total{{{labels}}}": 0, f"rad_proxy_cut_total{{{labels}}}": 0}
            for reason in ("Unread", "Unknown"):
                wanted[f'rad_proxy_unheard_total{{{labels},reason="{reason}"}}'] = strays[lane]
            for reason in ("NotHome", "RingFull", "WrongCode", "BadAuthenticator", "NoProxyState", "OutOfMemory"):
                wanted[f'rad_proxy_unheard_total{{{labels},reason="{reason}"}}'] = 0
        wanted['rad_proxy_dropped_total{reason="Unread"}'] = 1
        wanted['rad_proxy_dropped_total{reason="NoRealm"}'] = 0
        wanted['rad_proxy_refused_total{reason="BookFull"}'] = 0

        def are_so():
            found = stage.counters()
            return {name: found.get(name) for name in wanted} == wanted

        if not is_so(are_so):
            found = stage.counters()
            raise AssertionError({name: (found.get(name), count) for name, count in wanted.items() if found.get(name) != count})
        stage.ends()
        found = stage.counters()
        need({name: found.get(name) for name in wanted} == wanted, "the last text has other numbers")


def counts_of_two_lanes(program, folder):
    """Each counter of two lanes has what came and went there, and nothing else."""
    counts_each_lane(program, folder, 2)


def counts_of_sixty_four_lanes(program, folder):
    """The same of 64 lanes, the first and the last one too."""
    counts_each_lane(program, folder, 64)


def counters_are_replaced(program, folder):
    """The file of the counters is another one each time: whoever has it open reads one text to its end."""
    with Stage(program, folder) as stage:
        is_so(stage.proxy.counters.exists)
        with stage.proxy.counters.open("rb") as kept:
            text = kept.read()
            for _ in range(3):
                stage.round_trip()
            need(is_so(lambda: stage.counters()['rad_proxy_sent_total{lane="0",home="h0"}'] == 3), "three requests are not counted")
            kept.seek(0)
            need(kept.read() == text, "the file was written in place")
            need(os.fstat(kept.fileno()).st_ino != stage.proxy.counters.stat().st_ino, "it is the same file")
        stage.round_trip()
        stage.ends()
        need(stage.counters()['rad_proxy_sent_total{lane="0",home="h0"}'] == 4, "the last text has not the last request")
        left = [name for name in os.listdir(folder) if ".new" in name]
        need(not left, "files are left behind:", left)


def reports_come_each_second(program, folder):
    """The file of the counters is replaced once a second, and what was dropped since is told in a line then."""
    with Stage(program, folder) as stage:
        stage.next_report()

        def told():
            before = len(stage.proxy.lines("dropped"))
            begun = time.monotonic()
            stage.nas.socket.sendto(b"no packet", stage.proxy.listen)
            need(is_so(lambda: len(stage.proxy.lines("dropped")) > before), "no line tells of what is dropped")
            stage.next_report()
            stage.next_report()
            return round(time.monotonic() - begun, 3)

        best(told, lambda seconds: seconds < 3.5)
        stage.next_report()
        stage.counters()


def sends_that_fail_are_counted(program, folder):
    """A sending that the system refuses is counted as sent and as a fault of that lane, and of no other; it ends nothing."""
    with Stage(program, folder, "first_wait = 500\ntries = 2\n", count=1, addresses=["255.255.255.255:9"]) as stage:
        stage.nas.ask("h1")
        of_lane = '{lane="1",home="h1"}'

        def is_counted():
            found = stage.counters()
            return found[f"rad_proxy_send_faults_total{of_lane}"] >= 2 and found[f"rad_proxy_downs_total{of_lane}"] == 1

        need(is_so(is_counted), "no fault is counted")
        found = stage.counters()
        sent = found[f"rad_proxy_sent_total{of_lane}"] + found[f"rad_proxy_probes_total{of_lane}"]
        need(found[f"rad_proxy_send_faults_total{of_lane}"] == sent, found)
        for other in ('{side="clients"}', '{lane="0",home="h0"}'):
            need(found[f"rad_proxy_send_faults_total{other}"] == 0, "faults of", other)
        need(found[f"rad_proxy_receive_faults_total{of_lane}"] == 0, "a receive is told to have failed")
        told = is_so(lambda: any(line["worker"] == "h1" for line in stage.proxy.lines("send-fault")))
        need(told and all(line["level"] == "warn" for line in stage.proxy.lines("send-fault")), "no line of a send that failed")
        stage.round_trip()


def faults_are_counted(program, folder):
    """Receives and sends that fail are counted, each once, at the side where they failed; they end nothing."""
    variables = {"LD_PRELOAD": built(folder, "failing_sockets"), "RECEIVE_FAULTS": "3", "SEND_FAULTS": "2"}
    with Stage(program, folder, "first_wait = 500\n", count=2, variables=variables) as stage:
        for lane in range(2):
            need(stage.is_answered_in_the_end(stage.nas.ask(f"h{lane}"), lane), "a request is never answered")
        sides = {"front": '{side="clients"}', "h0": '{lane="0",home="h0"}', "h1": '{lane="1",home="h1"}'}
        for way, count in (("receive", 3), ("send", 2)):
            for worker, labels in sides.items():
                counted = is_so(lambda: stage.counters()[f"rad_proxy_{way}_faults_total{labels}"] >= count)
                found = stage.counters()[f"rad_proxy_{way}_faults_total{labels}"]
                need(counted and found == count, way, worker, found)
                lines = [line for line in stage.proxy.lines(f"{way}-fault") if line["worker"] == worker]
                need(sum(int(line["count"]) for line in lines) == count, way, worker, lines)


def levels_of(table):
    """The levels of each event, by the table of docs/formats.md."""
    levels = {}
    for line in table.splitlines():
        cells = [cell.strip() for cell in line.strip("|").split("|")]
        if len(cells) == 3 and cells[0].startswith("`") and set(cells[1].split(", ")) <= LEVELS:
            for event in re.findall(r"`([a-z-]+)`", cells[0]):
                levels.setdefault(event, set()).update(cells[1].split(", "))
    return levels


def each_event_has_its_level(program, folder):
    """At `trace` each event of a proxy that serves is told, at each level that the table has for it and at no other."""
    limits = "first_wait = 500\ntries = 1\ndown_wait = 600000\nbook = 2\nspan = 1000\n"
    with Stage(program, folder, limits, level="trace") as stage:
        stage.round_trip()
        stage.nas.socket.sendto(b"no packet", stage.proxy.listen)
        asked = stage.nas.ask()
        packet, sender = stage.came()
        stage.homes[0].ear.sendto(b"no packet", sender)
        need(is_so(lambda: stage.proxy.lines("down")), "it does not go down")
        stage.nas.ask()
        need(is_so(lambda: stage.proxy.lines("refused")), "a full book refuses nothing")
        stage.homes[0].answer(packet, sender)
        need(stage.nas.is_answered(asked), "another response came")
        need(is_so(lambda: {"info", "debug"} <= {line["level"] for line in stage.proxy.lines("cut")}), "nothing is cut")
        stage.ends()
        wanted = levels_of((TOP / "docs" / "formats.md").read_text("utf-8"))
        found = {}
        for line in stage.proxy.log.read_text("utf-8").splitlines():
            level, event = re.match(r"level=([a-z]+) event=([a-z-]+)", line).groups()
            found.setdefault(event, set()).add(level)
        told = ["down", "up", "cut", "dropped", "refused", "unheard", "accepted", "answered", "returned", "came", "went"]
        need(set(told) <= found.keys(), "not told:", set(told) - found.keys())
        for event, levels in found.items():
            need(levels == wanted.get(event), event, levels, "and not", wanted.get(event))


def what_is_refused_is_told(program, folder):
    """Requests that a drained lane refuses are counted, and told in one line of so many."""
    with Stage(program, folder) as stage:
        stage.say(b"drain", 1)
        for _ in range(3):
            stage.nas.ask()
        need(is_so(lambda: stage.counters()['rad_proxy_refused_total{reason="Draining"}'] == 3), "three are not counted")
        stage.ends()
        lines = stage.proxy.lines("refused")
        need(sum(int(line["count"]) for line in lines) == 3, lines)
        need(all((line["level"], line["reason"]) == ("warn", "Draining") for line in lines), lines)


def serves_beside(program, folder, is_gone):
    """A program that logs more than its standard error takes answers requests, and ends well and soon."""
    reading, writing = os.pipe()
    try:
        if is_gone:
            os.close(reading)
        with Stage(program, folder, level="trace", errors=writing) as stage:
            for _ in range(30):
                for _ in range(100):
                    stage.nas.socket.sendto(b"no packet", stage.proxy.listen)
                best(stage.round_trip, lambda seconds: seconds < 0.5)
            seconds, line, status = stage.ends()
            need((line, status) == (NOTHING_LEFT, 0), line, status)
            need(seconds < 5, "it ended after", seconds)
            if is_gone:
                return
            os.set_blocking(reading, False)
            text = os.read(reading, 1 << 20)
            need(text.startswith(b"level=") and len(text) >= 4096, "its log begins with", text[:80])
    finally:
        os.close(writing)
        if not is_gone:
            os.close(reading)


def serves_beside_a_full_pipe(program, folder):
    """Where standard error is a pipe that nobody reads, requests are answered, and the end comes."""
    serves_beside(program, folder, False)


def serves_though_its_log_has_no_reader(program, folder):
    """Where the reader of standard error is gone, requests are answered, and the end comes."""
    serves_beside(program, folder, True)


def starts_beside_a_full_pipe(program, folder):
    """Where standard error takes nothing from the start on, a line that is logged before the threads run holds nothing up."""
    reading, writing = os.pipe()
    try:
        os.set_blocking(writing, False)
        with contextlib.suppress(BlockingIOError):
            while True:
                os.write(writing, b"x" * 4096)
        os.set_blocking(writing, True)
        with Stage(program, folder, level="loud", errors=writing) as stage:
            stage.round_trip()
            seconds, line, status = stage.ends()
            need((line, status) == (NOTHING_LEFT, 0), line, status)
            need(seconds < 5, "it ended after", seconds)
    finally:
        os.close(writing)
        os.close(reading)


TESTS = [
    state_and_drain_tell_each_lane, counts_of_two_lanes, counts_of_sixty_four_lanes, counters_are_replaced, reports_come_each_second,
    sends_that_fail_are_counted, faults_are_counted, each_event_has_its_level, what_is_refused_is_told, serves_beside_a_full_pipe,
    starts_beside_a_full_pipe, serves_though_its_log_has_no_reader,
]


if __name__ == "__main__":
    try_in_folders(TESTS, __doc__)
