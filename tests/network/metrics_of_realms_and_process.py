"""The numbers of realms, of the time for which a home server is down, and of the program's process.

usage: python3 -m tests.network.metrics_of_realms_and_process PROGRAM [TEST ..]

What they have to be is counted and measured here, or read of /proc. A test is a function below; its first line says what holds. The
last line is `N passed, M failed`.
"""
import os
import pathlib
import re
import time

from tests.lib import (HERE, SECRET, Home, Nas, Proxy, Server, Stage, best, configured, environment, free_port, hope, is_so, need, request,
                       try_in_folders, turned, until, user_name)

DOWN = "first_wait = 500\ntries = 1\ndown_wait = 600000\nprobe_every = 1000\n"
# Names of realms, in order, with their home servers, and as their label has them. The last one is as long as a name may be.
REALMS = [("b.example", 1, "b.example"), ("a.example", 0, "a.example"), ('q"\\\\ =%\\n', 1, "q%22%5c%20%3d%25%0a"), ("é", 0, "%c3%a9"),
          ("z" * 252, 1, "z" * 252)]


def served(program, folder, homes, other=None):
    """A program with two home servers, of which each realm leads to one, what has none to the first one, and all others to none or this one."""
    port = free_port()
    servers = [Server(f"h{lane}", home.port, "book = 2\nspan = 60000\n", secret=SECRET.decode()) for lane, home in enumerate(homes)]
    text = configured(f"{HERE}:{port}", servers, secret=SECRET.decode(), linger=0, default="h0", other=other)
    text += "".join(f'[[realm]]\nname = "{name}"\nhome = "h{lane}"\n' for name, lane, _ in REALMS)
    proxy = Proxy(program, folder, text.replace('"q"', '"q\\"'), (HERE, port))
    proxy.start(env=environment() | {"RAD_PROXY_COUNTERS": str(proxy.counters)})
    proxy.listens()
    return proxy


def realms_of(proxy):
    """What the lines of the realms say, in their order."""
    proxy.ran.stdin.close()
    proxy.ran.wait()
    return re.findall(r'^rad_proxy_realm_requests_total\{realm="(.*)"\} (\d+)$', proxy.counters.read_text("utf-8"), re.M)


def each_realm_has_its_requests(program, folder):
    """New requests, repeats and those that are refused count for their realm, in the order of the configuration, in letters of either case;
    others do not: without a realm, of an unknown one, with a wrong authenticator, and Status-Servers."""
    homes = [Home(), Home()]
    proxy = served(program, folder, homes)
    try:
        nas = Nas(proxy)
        wanted = {}

        def asks(name, identifier, count=1):
            for _ in range(count):
                nas.socket.sendto(request(identifier, user_name(b"@" + name), SECRET), proxy.listen)

        for number, (name, lane, label) in enumerate(REALMS):
            octets = name.replace("\\\\", "\\").replace("\\n", "\n").encode()
            asks(octets, number, number + 1)
            wanted[label] = number + 1
        asks(b"A.Example", 50)
        wanted["a.example"] += 1
        asks(b"b.example", 51, 2)
        wanted["b.example"] += 2
        asks(b"none.example", 60)
        nas.socket.sendto(request(61, user_name(b"bob"), SECRET), proxy.listen)
        nas.socket.sendto(turned(request(62, user_name(b"bob@a.example"), SECRET), 4), proxy.listen)
        nas.ask_status()
        nas.socket.recv(4096)
        found = realms_of(proxy)
        hope("realms", [name for name, _ in found], [label for _, _, label in REALMS])
        hope("requests", {name: int(count) for name, count in found}, wanted)
    finally:
        proxy.kill()


def all_other_realms_have_one_label(program, folder):
    """With `other_home` requests of realms that are not listed count under one label, the last one, be they of as many names as they like."""
    proxy = served(program, folder, [Home(), Home()], "h1")
    try:
        nas = Nas(proxy)
        others = [b"none.example", b"None.Example", b"@other", b"b.example.", b"\xff\"}\n", b"a.exampl", b"z" * 251, *(b"r%d" % it for it in range(50))]
        for number, name in enumerate([*others, others[0], b"B.EXAMPLE", b"z" * 252, b"", b"x@"]):
            nas.socket.sendto(request(number, user_name(b"@" + name), SECRET), proxy.listen)
        nas.socket.sendto(request(250, user_name(b"bob"), SECRET), proxy.listen)
        nas.ask_status()
        nas.socket.recv(4096)
        found = realms_of(proxy)
        hope("labels", [name for name, _ in found], [label for _, _, label in REALMS] + ["@other"])
        hope("requests", [int(count) for _, count in found], [1, 0, 0, 0, 1, len(others) + 1])
    finally:
        proxy.kill()


def without_realms_none_is_told(program, folder):
    """Without a realm the family has no line."""
    home = Home()
    with Stage(program, folder) as stage:
        stage.next_report()
        hope("one realm", stage.counters()['rad_proxy_realm_requests_total{realm="h0.example"}'], 0)
    text = configured(f"{HERE}:{free_port()}", [Server("h0", home.port, secret=SECRET.decode())], secret=SECRET.decode(), default="h0")
    proxy = Proxy(program, folder, text, (HERE, 0), "other")
    proxy.start(env=environment() | {"RAD_PROXY_COUNTERS": str(proxy.counters)})
    proxy.listens()
    hope("realms", realms_of(proxy), [])
    need("# TYPE rad_proxy_realm_requests_total counter\n" in proxy.counters.read_text("utf-8"), "there is no family")


def seconds_down(stage, lane=0):
    """For how long the next text says that a home server was down."""
    stage.next_report()
    return stage.counters()[f'rad_proxy_home_down_seconds_total{{lane="{lane}",home="h{lane}"}}']


def goes_down(stage):
    """Has the first home server marked down. Gives when that was possible at the earliest, and when it was seen."""
    earliest = time.monotonic() + 0.45
    before = len(stage.proxy.lines("down", "h0"))
    stage.nas.ask()
    need(is_so(lambda: len(stage.proxy.lines("down", "h0")) > before), "it is not marked down")
    return earliest, time.monotonic()


def goes_up(stage):
    """Has it marked up by the answer to what was not answered. Gives when that was possible at the earliest, and when it was seen."""
    earliest = time.monotonic()
    before = len(stage.proxy.lines("up", "h0"))
    for packet, sender in stage.homes[0].requests():
        stage.homes[0].answer(packet, sender)
    need(is_so(lambda: len(stage.proxy.lines("up", "h0")) > before), "it is not marked up")
    return earliest, time.monotonic()


def see_down(seconds, begun, ended):
    """Sees that so many seconds lie between two moments, of each of which it is known when it was at the earliest and at the latest."""
    least, most = ended[0] - begun[1], ended[1] - begun[0]
    need(least <= seconds <= most, seconds, "seconds, and not from", least, "to", most)


def down_time_is_the_time_between_the_marks(program, folder):
    """The time grows while the home server is marked down, over several times, and stands while it is up; another one's stays 0."""
    with Stage(program, folder, DOWN, count=2) as stage:
        hope("before", seconds_down(stage), 0.0)
        down = goes_down(stage)
        stage.next_report()
        asked = time.monotonic()
        stage.next_report()
        first = seconds_down(stage)
        # The text is of a moment after that at which the one before it was there.
        see_down(first, down, (asked, time.monotonic()))
        up = goes_up(stage)
        stage.next_report()
        whole = seconds_down(stage)
        see_down(whole, down, up)
        need(whole > first > 0, first, "and then", whole)
        stage.next_report()
        hope("while it is up", seconds_down(stage), whole)
        down = goes_down(stage)
        stage.next_report()
        up = goes_up(stage)
        stage.next_report()
        twice = seconds_down(stage)
        see_down(twice - whole, down, up)
        need(twice > whole, whole, "and then", twice)
        hope("of the other one", seconds_down(stage, 1), 0.0)
        need(re.search(r'^rad_proxy_home_down_seconds_total\{lane="0",home="h0"\} \d+\.\d{3}$', stage.proxy.counters.read_text("utf-8"), re.M),
             "it has not three decimals")


def own(stage, name):
    return stage.counters()[f"rad_proxy_process_{name}"]


def told_by_the_system(stage):
    """What /proc tells of the program: its memory in octets, its descriptors, its processor time and when it began."""
    folder = pathlib.Path("/proc", str(stage.proxy.ran.pid))
    resident = int(re.search(r"^VmRSS:\s+(\d+) kB$", (folder / "status").read_text(), re.M)[1]) * 1024
    words = (folder / "stat").read_text().rpartition(")")[2].split()
    ticks = os.sysconf("SC_CLK_TCK")
    began = time.time() - float(pathlib.Path("/proc/uptime").read_text().split()[0]) + int(words[19]) / ticks
    return resident, len(os.listdir(folder / "fd")), (int(words[11]) + int(words[12])) / ticks, began


def the_process_is_as_the_system_tells(program, folder):
    """Memory, descriptors, processor time and start are those of /proc, and the descriptors are those of other lanes too."""
    seen = []
    for count in (1, 9):
        with Stage(program, folder, "ports = 4\n", count=count) as stage:
            for lane in range(count):
                stage.round_trip(lane)
            # The system counts processor time in hundredths of a second.
            until("processor time", lambda: stage.round_trip() and told_by_the_system(stage)[2] >= 0.03, apart=0)

            def differences():
                before = told_by_the_system(stage)
                # The first text may be of a moment before that.
                stage.next_report()
                stage.next_report()
                found = own(stage, "resident_memory_bytes"), own(stage, "open_fds"), own(stage, "cpu_seconds_total")
                after = told_by_the_system(stage)
                need(before[2] - 0.05 <= found[2] <= after[2] + 0.05, found[2], "seconds of the processor, and not from", before[2], after[2])
                need(abs(own(stage, "start_time_seconds") - after[3]) < 2, "it began at", after[3])
                hope("start", own(stage, "start_time_seconds"), stage.counters()["rad_proxy_start_time_seconds"])
                return abs(found[0] / after[0] - 1), found[1] - after[1]

            best(differences, lambda pair: pair[0] < 0.01 and pair[1] == 0)
            seen.append((own(stage, "open_fds"), own(stage, "cpu_seconds_total")))
    need(seen[1][0] - seen[0][0] >= 8 * 4, "the descriptors of eight more lanes:", seen)
    need(min(seconds for _, seconds in seen) > 0, "no processor time")


TESTS = [each_realm_has_its_requests, all_other_realms_have_one_label, without_realms_none_is_told, down_time_is_the_time_between_the_marks,
         the_process_is_as_the_system_tells]


if __name__ == "__main__":
    try_in_folders(TESTS, __doc__)
