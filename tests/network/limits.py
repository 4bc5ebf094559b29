"""Has the program serve at its limits: the most of each, the least of each, the longest, and what lies behind 16 and 32 bits.

usage: python3 -m tests.network.limits PROGRAM [TEST ..]

Each test is a function below, and its first line tells what holds. The last line is `N passed, M failed`.
"""
import contextlib
import json
import pathlib
import re
import select
import signal
import socket
import sys
import time

from tests.lib import (ACCT_STATUS_TYPE, HERE, NOTHING_LEFT, PATIENCE, SECRET, STATUS_SERVER, Home, Proxy, Server, Stage, answer, attribute,
                       bound, built, classes, configured, environment, flooded, free_port, hope, is_so, loads, mark, need, read, request,
                       states_of, try_in_folders, until, user_name)

# The greatest numbers of a configuration, and how many requests pass one lane.
HOMES, CLIENTS, REALMS, PORTS, LONGEST, MANY = 64, 256, 256, 4, 4096, 70_000
# Milliseconds of which a count in 31 or 32 bits ends.
ENDS = (1 << 31, 1 << 32)
LONGEST_LINGER, LONGEST_SPAN, LONGEST_RING = 600_000, 600_000, 4096
HALF_OF_A_BOOK = 65_536
# How many datagrams flood a worker, and for how many seconds at most.
MILLION, FLOODED = 1_000_000, 180
# Over how many lanes responses are sent slowly, and how many of each.
SENDING_LANES, SENT_EACH = 4, 60
# How many other sockets the machine has, and behind how many of them that of the program stands.
TABLE, BEHIND = 900, 600
# How many responses the front sends together, at most.
AT_ONCE = 9
# How many milliseconds before and behind a moment it is looked, and how many seconds nothing may come.
EARLY, LATE, QUIET = 20_000, 100, 0.2


def arrived(stage, asked, lane=0):
    """The next packet that has the attributes of a request in front. What is sent again of others, and probes, are passed over."""
    while True:
        packet, sender = stage.came(lane)
        if packet.octets[20:].startswith(asked[20:]):
            return packet, sender


def served(stage, lane):
    """Whether a request of a lane is answered."""
    asked = stage.nas.ask(f"h{lane}")
    stage.homes[lane].answer(*arrived(stage, asked, lane))
    return stage.nas.is_answered(asked)


def values(stage, name):
    """The values of a number, by the text of its labels, in the order of the text."""
    return [value for key, value in stage.counters().items() if key.startswith(f"rad_proxy_{name}{{")]


def last_lines(folder):
    """The entries of a ledger in this folder, and its last line."""
    lines = [json.loads(line) for file in sorted(folder.iterdir()) for line in file.read_text("utf-8").splitlines()]
    return [line for line in lines if line["type"] == "entry"], lines[-1]


def sixty_four_home_servers_each_answer_once(program, folder):
    """Each lane answers, is counted, has its entry and its count in the ledger, and the end waits for none of them."""
    ledger = folder / "ledger"
    ledger.mkdir()
    with Stage(program, folder, "", HOMES, variables={"RAD_PROXY_LEDGER": str(ledger)}, linger=LONGEST_LINGER) as stage:
        hope("answered", [served(stage, lane) for lane in range(HOMES)], [True] * HOMES)
        until("each is counted", lambda: values(stage, "answered_total") == [1] * HOMES)
        hope("the end", stage.ends()[1:], (NOTHING_LEFT, 0))
        entries, last = last_lines(ledger)
        hope("the entries", sorted(entry["lane"] for entry in entries), list(range(HOMES)))
        hope("the end line", [(lane["lane"], lane["entries"]) for lane in last["lanes"]], [(lane, 1) for lane in range(HOMES)])


def each_of_sixty_four_home_servers_is_logged(program, folder):
    """What a lane hears in vain is logged as that of its home server."""
    with Stage(program, folder, "", HOMES) as stage:
        for lane in range(HOMES):
            _, sender = arrived(stage, stage.nas.ask(f"h{lane}"), lane)
            stage.homes[lane].ear.sendto(bytes(1), sender)
        until("each", lambda: {line["home"] for line in stage.proxy.lines("unheard")} == {f"h{lane}" for lane in range(HOMES)})


def the_last_of_sixty_four_home_servers_is_waited_for(program, folder):
    """The program ends only once what is outstanding at the last home server alone is answered."""
    with Stage(program, folder, "first_wait = 60000\n", HOMES, linger=LONGEST_LINGER) as stage:
        asked = stage.nas.ask(f"h{HOMES - 1}")
        packet, sender = arrived(stage, asked, HOMES - 1)
        stage.proxy.ran.stdin.close()
        need(not is_so(lambda: stage.proxy.ran.poll() is not None, 1.5), "it ends at once")
        stage.homes[-1].answer(packet, sender)
        need(stage.nas.is_answered(asked), "another response came")
        need(is_so(lambda: stage.proxy.ran.poll() is not None), "it does not end")
        hope("the end", (stage.proxy.ran.stdout.read().splitlines()[-1], stage.proxy.ran.returncode), (NOTHING_LEFT.encode(), 0))


def a_drain_of_sixty_four_lanes_drains_each(program, folder):
    """Some home servers are marked down, with a request or more. After each `drain` each other lane is at its end, and all refuse what is
    new."""
    held = {2: 3, 5: 2, HOMES - 1: 1}
    accepted = [held.get(lane, 0) for lane in range(HOMES)]
    with Stage(program, folder, "tries = 1\nfirst_wait = 100\n", HOMES) as stage:
        for lane, count in held.items():
            for _ in range(count):
                stage.nas.ask(f"h{lane}")
        until("these are down", lambda: values(stage, "home_up") == [int(not count) for count in accepted])
        hope("the state", [line.split()[3] for line in stage.say(b"state", HOMES)], ["down" if count else "up" for count in accepted])
        for which in ("first", "second", "third"):
            hope(f"the {which} drain", stage.say(b"drain", HOMES), [f"drain: {lane} {count}" for lane, count in enumerate(accepted)])
        hope("the modes", [line.split()[4] for line in stage.say(b"state", HOMES)], ["draining" if count else "done" for count in accepted])
        for lane in (0, 31, 32, HOMES - 1):
            stage.nas.ask(f"h{lane}")
        until("refused", lambda: sum(values(stage, "refused_total")) == 4)
        hope("the end", stage.ends()[1:], (f"end: queued 0 outstanding {sum(accepted)} untaken 0", 3))


def each_of_sixty_four_books_is_cut(program, folder):
    """Of each lane, whose book is short, answered requests are cut off."""
    with Stage(program, folder, "book = 4\nspan = 0\n", HOMES) as stage:
        hope("answered", [served(stage, lane) for lane in range(HOMES) for _ in range(3)], [True] * 3 * HOMES)
        until("each is cut", lambda: len(cut := values(stage, "cut_total")) == HOMES and all(cut))


def two_hundred_fifty_six_clients_are_counted(program, folder):
    """The counters of the last client are as those of the first."""
    home, port = Home(), free_port()
    home.ear.settimeout(PATIENCE)
    clients = [f"127.0.{1 + place // 128}.{1 + place % 128}" for place in range(CLIENTS)]
    server = Server("h0", home.port, "first_wait = 60000\n", "h0.example", SECRET.decode())
    text = configured(f"{HERE}:{port}", [server], clients, SECRET.decode())
    proxy = Proxy(program, folder, text, (HERE, port))
    try:
        proxy.start(env=environment("off") | {"RAD_PROXY_COUNTERS": str(proxy.counters)})
        proxy.listens()
        for place, client in enumerate(clients):
            with bound(client) as nas:
                nas.sendto(request(place, user_name(b"bob@h0.example"), SECRET), (HERE, port))
                octets, sender = home.ear.recvfrom(LONGEST)
                home.answer(read(octets), sender)
                nas.recv(LONGEST)
        for name in ("received", "accepted", "responses"):
            until(name, lambda: proxy.counters.exists() and len(re.findall(rf"^rad_proxy_client_{name}_total\{{.*\}} 1$",
                                                                         proxy.counters.read_text(), re.M)) == CLIENTS)
    finally:
        proxy.kill()
        home.ear.close()


def two_hundred_fifty_six_realms_are_counted(program, folder):
    """The requests for the first and for the last realm are counted as theirs, where all lead to one home server."""
    home, port = Home(), free_port()
    text = configured(f"{HERE}:{port}", [Server("h0", home.port, secret=SECRET.decode())], secret=SECRET.decode())
    text += "".join(f'[[realm]]\nname = "r{number}.example"\nhome = "h0"\n' for number in range(REALMS))
    proxy = Proxy(program, folder, text, (HERE, port))
    try:
        proxy.start(env=environment("off") | {"RAD_PROXY_COUNTERS": str(proxy.counters)})
        proxy.listens()
        with bound() as nas:
            for number in [*range(REALMS), REALMS - 1]:
                nas.sendto(request(number % 256, user_name(f"bob@r{number}.example".encode()), SECRET), (HERE, port))
        until("each is counted", lambda: proxy.counters.exists() and re.findall(
            r'^rad_proxy_realm_requests_total\{realm="r(\d+).example"\} (\d+)$', proxy.counters.read_text(), re.M)
            == [(str(number), "2" if number == REALMS - 1 else "1") for number in range(REALMS)])
    finally:
        proxy.kill()
        home.ear.close()


def the_widest_window_is_out_at_once(program, folder):
    """As many as four ports have Identifiers for, but two, are out at once, and the time of each is measured. Once those of the first port
    are answered, the oldest one is of another port."""
    count = 256 * PORTS - 2
    with Stage(program, folder, f"ports = {PORTS}\nwindow = {count}\nfirst_wait = 60000\n") as stage:
        out = [(stage.nas.ask(), *stage.came()) for _ in range(count)]
        hope("the ports", len({sender for _, _, sender in out}), PORTS)
        for place, (asked, packet, sender) in enumerate(out):
            if place == 256:
                hope("the first port", {sender for _, _, sender in out[:place]} & {sender for _, _, sender in out[place:]}, set())
                stage.next_report()
                stage.next_report()
                need(values(stage, "oldest_outstanding_age_seconds")[0] > 0, "none is outstanding")
            stage.homes[0].answer(packet, sender)
            need(stage.nas.is_answered(asked), "another response came")
        for name in ("reply_seconds_count", "response_seconds_count"):
            until(name, lambda: values(stage, name) == [count])


def the_longest_packets_pass_both_ways(program, folder):
    """A request that has just room for the mark, the longest reply, and a status of four octets; the ledger has each octet.
    Asked again, the longest response is sent again."""
    ledger = folder / "ledger"
    ledger.mkdir()
    with Stage(program, folder, variables={"RAD_PROXY_LEDGER": str(ledger)}) as stage:
        head = user_name(b"bob@h0.example") + attribute(ACCT_STATUS_TYPE, bytes([1, 2, 3, 4]))
        asked = request(1, head + classes(LONGEST - 20 - 12 - len(head)), SECRET)
        stage.nas.socket.sendto(asked, stage.proxy.listen)
        packet, sender = stage.came()
        hope("the longest request", (len(asked), packet.octets), (LONGEST - 12, request(packet.identifier, asked[20:] + mark(0, 0), SECRET)))
        states = states_of(packet)
        more = classes(LONGEST - 20 - len(states))
        stage.homes[0].ear.sendto(answer(packet.octets, packet.identifier, more + states, SECRET), sender)
        response = stage.nas.socket.recv(2 * LONGEST)
        hope("the longest response", response, answer(asked, 1, more, SECRET))
        stage.nas.socket.sendto(asked, stage.proxy.listen)
        hope("sent again", stage.nas.socket.recv(2 * LONGEST), response)
        hope("the end", stage.ends()[1:], (NOTHING_LEFT, 0))
        entries, _ = last_lines(ledger)
        hope("the entries", [(len(entry["sent"]), len(entry["reply"]), entry["response"], entry["status"]) for entry in entries],
             [(2 * LONGEST, 2 * LONGEST, response.hex(), 0x01020304)])


def one_of_each(program, folder):
    """With a ring, a queue, a book and a window of one each request is served, and the time of each is measured."""
    count = 40
    limits = "ring = 1\nqueue = 1\nbook = 1\nwindow = 1\nspan = 0\n"
    with Stage(program, folder, limits) as stage:
        for _ in range(count):
            asked = stage.nas.ask()
            need(stage.is_answered_in_the_end(asked, 0), "a request is not answered")
        # What the NAS sends again once it is answered is another request, since the span is over.
        until("as many are measured as are answered", lambda: are_measured(stage, count))


def are_measured(stage, least):
    """Whether at least so many were answered, and the time of each was measured."""
    counts = [sum(values(stage, name)) for name in ("answered_total", "reply_seconds_count", "response_seconds_count")]
    return min(counts) >= least and len(set(counts)) == 1


class ManyProxy(loads.Loaded):
    """The program under a load of which nothing but the answers is looked at, with a clock that can be moved."""

    linger = LONGEST_LINGER

    def settings(self, library, folder):
        self.clock = Ahead(folder)
        return {"LD_PRELOAD": str(library), "RAD_PROXY_LOG": "info", **self.clock.variables()}


def seventy_thousand_requests_pass_one_lane(program, folder):
    """More requests than 16 bits count pass a lane whose book is cut again and again, and are answered."""
    loads.build(folder)
    load = loads.Load("many", book=2000, span=0, out=[64])
    with loads.serving(program, folder, load, built(folder, "wrong_clock"), ManyProxy) as (proxy, generator):
        hope("accepted", generator.ask_until(64, MANY) >= MANY, True)
        until("at rest", proxy.is_at_rest)
        proxy.end_well()


def all_that_is_over_is_cut_at_once(program, folder):
    """Of 65,536 requests, which fill half a book, none is cut before the longest span is over, and then all are, which is logged."""
    loads.build(folder)
    load = loads.Load("cut", book=2 * HALF_OF_A_BOOK, span=LONGEST_SPAN, out=[64])
    with loads.serving(program, folder, load, built(folder, "wrong_clock"), ManyProxy) as (proxy, generator):
        while (missing := HALF_OF_A_BOOK - settled(proxy)) > 0:
            generator.ask(64, missing, PATIENCE)
        hope("accepted and cut", tuple(proxy.counts()), (HALF_OF_A_BOOK, 0, 0, 0))
        proxy.clock.move(LONGEST_SPAN - 100_000)
        need(not is_so(lambda: tuple(proxy.counts())[3], 0.5), "some are cut before the span is over")
        proxy.clock.move(LONGEST_SPAN)
        until("all are cut", lambda: tuple(proxy.counts())[3] == HALF_OF_A_BOOK)
        until("the sum", lambda: proxy.lines("cut"))
        hope("the sums", [line["count"] for line in proxy.lines("cut")], [str(HALF_OF_A_BOOK)])
        begun = time.monotonic()
        proxy.end_well()
        need(time.monotonic() - begun < PATIENCE, "it waits at its end")


def settled(proxy):
    """How many requests were accepted, once all are answered and no more is under way."""
    before = -1, -1, -1
    while (now := tuple(proxy.counts())[:3]) != (before[0], 0, 0):
        before = now
        time.sleep(QUIET)
    return now[0]


class Ahead:
    """A clock that is ahead by the milliseconds that a file says."""

    def __init__(self, folder):
        self.file = folder / "ahead"
        self.move(0)

    def variables(self):
        return {"CLOCK_MOVED": str(self.file)}

    def move(self, milliseconds):
        """Moves the clock on, to so many milliseconds ahead."""
        new = self.file.with_suffix(".new")
        new.write_text(str(milliseconds))
        new.replace(self.file)


class Moved(Stage):
    """A stage whose program has a clock that can be moved."""

    def __init__(self, program, folder, linger, limits):
        self.clock = Ahead(folder)
        super().__init__(program, folder, limits, linger=linger, variables={"LD_PRELOAD": built(folder, "wrong_clock"), **self.clock.variables()})
        self.begun = time.monotonic()

    def go_to(self, milliseconds):
        """Has so many milliseconds pass, by the clock of the program, since `begun`."""
        self.clock.move(milliseconds - int(1000 * (time.monotonic() - self.begun)))

    def is_silent(self):
        """Whether nothing comes to the home server for a while."""
        return not select.select([self.homes[0].ear], [], [], QUIET)[0]


def moments_go_on_behind_32_bits(program, folder):
    """Where the clock passes what 31 and 32 bits count, requests are answered, sent again, the home server goes down and up, and when it
    answered is told by the clock of the day."""
    with Moved(program, folder, 0, "tries = 2\nfirst_wait = 500\ndown_wait = 1000\nspan = 0\n") as stage:
        for end in ENDS:
            stage.clock.move(end - 300)
            need(served(stage, 0), "not answered before", end)
            asked = stage.nas.ask()
            packet, _ = arrived(stage, asked)
            again, sender = arrived(stage, asked)
            hope("sent again", again.octets, packet.octets)
            stage.clock.move(end + 5000)
            stage.homes[0].answer(again, sender)
            need(stage.nas.is_answered(asked), "not answered across", end)
            need(served(stage, 0), "not answered behind", end)
            stage.next_report()
            stage.next_report()
            for name in ("home_report", "last_answer"):
                need(abs(values(stage, f"{name}_time_seconds")[0] - time.time()) < PATIENCE, name, values(stage, f"{name}_time_seconds"))


def the_longest_linger_is_no_short_one(program, folder):
    """With the longest the program waits for an answer at its end, and ends when it is over."""
    with Moved(program, folder, LONGEST_LINGER, "first_wait = 60000\n") as stage:
        stage.nas.ask()
        stage.came()
        stage.proxy.ran.stdin.close()
        need(not is_so(lambda: stage.proxy.ran.poll() is not None, 1.5), "it ends at once")
        stage.clock.move(LONGEST_LINGER - EARLY)
        need(not is_so(lambda: stage.proxy.ran.poll() is not None, 1.5), "it ends before")
        stage.clock.move(LONGEST_LINGER + LATE)
        need(is_so(lambda: stage.proxy.ran.poll() is not None), "it does not end")
        hope("the end", (stage.proxy.ran.stdout.read().splitlines()[-1], stage.proxy.ran.returncode),
             (b"end: queued 0 outstanding 1 untaken 0", 3))


def no_linger_ends_at_once(program, folder):
    """Without a wait the program ends with what is outstanding."""
    with Stage(program, folder, "first_wait = 60000\n", linger=0) as stage:
        stage.nas.ask()
        stage.came()
        took, line, status = stage.ends()
        hope("the end", (line, status), ("end: queued 0 outstanding 1 untaken 0", 3))
        need(took < 5, "it took", took)


def the_longest_times_pass(program, folder):
    """With the longest times a request is sent ten times, at most two minutes apart, the home server is probed each ten minutes for an
    hour, and a response is sent again for ten minutes."""
    limits = "tries = 10\nfirst_wait = 60000\nprobe_every = 600000\ndown_wait = 3600000\nspan = 600000\n"
    with Moved(program, folder, 0, limits) as stage:
        asked = stage.nas.ask()
        sent, _ = stage.came()
        due = 0
        for wait in [60_000] + 8 * [120_000]:
            stage.go_to(due + wait - EARLY)
            need(stage.is_silent(), "it is sent again before", wait)
            due += wait
            stage.go_to(due + LATE)
            hope("sent again", stage.came()[0].octets, sent.octets)
        stage.go_to(due + 120_000 - EARLY)
        need(stage.is_silent(), "it is sent an eleventh time")
        hope("not down yet", stage.proxy.lines("down"), [])
        down = due + 120_000 + LATE
        stage.go_to(down)
        for number in range(6):
            hope("a probe", stage.came()[0].code, STATUS_SERVER)
            stage.go_to(down + number * 600_000 + 600_000 - EARLY)
            need(stage.is_silent(), "it is probed before ten minutes")
            stage.go_to(down + number * 600_000 + 600_000 + LATE)
        again, sender = arrived(stage, asked)
        hope("sent again", again.octets, sent.octets)
        until("it is up", lambda: [line["reason"] for line in stage.proxy.lines("up")] == ["down_wait over"])
        stage.homes[0].answer(again, sender)
        need(stage.nas.is_answered(asked), "another response came")
        until("its times are measured", lambda: are_measured(stage, 1))
        answered = down + 3_600_000 + LATE
        for name in ("reply_seconds_sum", "response_seconds_sum"):
            need(abs(values(stage, name)[0] - answered / 1000) < EARLY / 1000, name, values(stage, name))
        stage.go_to(answered + LONGEST_SPAN - EARLY)
        stage.nas.socket.sendto(asked, stage.proxy.listen)
        need(stage.nas.is_answered(asked), "another response came again")
        need(stage.is_silent(), "it is another request before the span is over")
        stage.go_to(answered + LONGEST_SPAN + EARLY)
        stage.nas.socket.sendto(asked, stage.proxy.listen)
        hope("another request", arrived(stage, asked)[0].octets[-12:], mark(0, 1))


def an_identifier_wraps_beside_a_probe(program, folder):
    """A probe has the first Identifier behind the last one, while the last one is that of a request, and its answer is heard."""
    with Stage(program, folder, "tries = 2\nfirst_wait = 1000\nprobe_every = 1000\ndown_wait = 600000\n") as stage:
        for number in range(255):
            asked = stage.nas.ask()
            packet, sender = arrived(stage, asked)
            hope("the Identifier", packet.identifier, number)
            stage.homes[0].answer(packet, sender)
            need(stage.nas.is_answered(asked), "another response came")
        asked = stage.nas.ask()
        hope("the last Identifier", [arrived(stage, asked)[0].identifier for _ in range(2)], [255, 255])
        for number in range(3):
            packet, sender = stage.came()
            hope("a probe", (packet.code, packet.identifier), (STATUS_SERVER, number))
        stage.homes[0].ear.sendto(answer(packet.octets, packet.identifier, b"", SECRET), sender)
        until("it is up", lambda: [line["reason"] for line in stage.proxy.lines("up")] == ["probe answered"])
        again, sender = arrived(stage, asked)
        stage.homes[0].answer(again, sender)
        need(stage.nas.is_answered(asked), "another response came")


def the_longest_ring_fills(program, folder):
    """While the front sends, 4096 responses find room, besides those that it sends, and no more is heard."""
    nas = bound()
    slow = {"LD_PRELOAD": built(folder, "slow_files"), "SLOW_PORT": str(nas.getsockname()[1]), "SLOW_SEND": "300000"}
    limits = f"ring = {LONGEST_RING}\nwindow = 254\nfirst_wait = 60000\n"
    with Stage(program, folder, limits, variables=slow) as stage, nas:
        home = stage.homes[0]
        stage.nas.socket.close()
        stage.nas.socket = nas

        def answers():
            before = len(home.came)
            home.hear(0.1)
            for packet, sender in home.came[before:]:
                home.answer(packet, sender)
            return int(stage.say(b"state", 1)[0].split()[12])

        for number in range(1, LONGEST_RING + 2 * AT_ONCE):
            stage.nas.ask()
            if number % 100 == 0:
                until("accepted", lambda: int(stage.say(b"state", 1)[0].split()[6]) >= number)
        def is_at_rest():
            before = answers()
            return before > LONGEST_RING and not is_so(lambda: answers() != before, 0.5)

        until("the ring is full", is_at_rest)
        stage.next_report()
        stage.next_report()
        # The front is sending the first of those that it took. Of the ninth, which waits for that, it was not reported that it was taken.
        sent = sum(values(stage, "client_responses_total"))
        hope("how many wait", (answers() - min(sent, AT_ONCE - 1), 0 < sent <= AT_ONCE), (LONGEST_RING, True))


def workers_go_on_behind_a_million_turns(program, folder):
    """Where more than a million datagrams came to the front, and to a lane, each of which is a turn, both serve on."""
    with Stage(program, folder, "first_wait = 60000\n") as stage:
        asked = stage.nas.ask()
        packet, sender = stage.came()
        with flooded(stage.proxy.listen, sender):
            until("a million", lambda: min(sum(values(stage, name)) for name in ("dropped_total", "unheard_total")) > MILLION, FLOODED)
        stage.homes[0].answer(packet, sender)
        need(stage.nas.is_answered(asked), "another response came")
        need(served(stage, 0), "not answered behind them")


def responses_of_the_least_ring_are_measured(program, folder):
    """With a ring of one a response that the front is still sending, and the one behind it in the ring, are both measured."""
    nas = bound()
    slow = {"LD_PRELOAD": built(folder, "slow_files"), "SLOW_PORT": str(nas.getsockname()[1]), "SLOW_SEND": "2"}
    with Stage(program, folder, "ring = 1\nwindow = 200\nfirst_wait = 60000\n", SENDING_LANES, variables=slow) as stage, nas:
        stage.nas.socket.close()
        stage.nas.socket = nas
        nas.setblocking(False)
        # The front sends eight datagrams together, those of the Status-Servers among them, so at times while it has just taken a response.
        for _ in range(SENT_EACH):
            for lane in range(SENDING_LANES):
                stage.nas.ask(f"h{lane}")
        for home in stage.homes:
            until("all are sent", lambda: len(home.requests()) == SENT_EACH)
        for sent in zip(*(home.requests() for home in stage.homes)):
            for home, (packet, sender) in zip(stage.homes, sent):
                home.answer(packet, sender)
            stage.nas.ask_status()
        counts = lambda name: values(stage, name)
        until("each is answered", lambda: stage.nas.ask_status() or counts("answered_total") == [SENT_EACH] * SENDING_LANES)
        until("each is measured", lambda: stage.nas.ask_status() or counts("response_seconds_count") == [SENT_EACH] * SENDING_LANES)


def drops_are_counted_in_a_long_table(program, folder):
    """What the system drops of a socket is counted, where more than 256 lines of its table stand before that of the socket."""
    with contextlib.ExitStack() as others:
        for _ in range(TABLE):
            others.enter_context(bound())
        port = until("a port far behind", lambda: next((port for port in [free_port()] if line_of(port) > BEHIND), None))
        with Stage(program, folder, port=port) as stage:
            need(line_of(port) > BEHIND - TABLE // 100, "it stands in line", line_of(port))
            stage.proxy.ran.send_signal(signal.SIGSTOP)
            while not dropped_at(stage.proxy.listen):
                stage.nas.socket.sendto(bytes(1000), stage.proxy.listen)
            stage.proxy.ran.send_signal(signal.SIGCONT)
            until("the drops", lambda: values(stage, "socket_drops_total")[0] == dropped_at(stage.proxy.listen) > 0)


def line_of(port):
    """In which line of the system's table a socket of this port stands, or would stand."""
    with contextlib.ExitStack() as held:
        with contextlib.suppress(OSError):
            held.enter_context(bound(port=port))
        rows = pathlib.Path("/proc/net/udp").read_text().splitlines()
    return next(at for at, row in enumerate(rows) if f":{port:04X} " in row[:24])


def drops_are_counted_behind_16_bits(program, folder):
    """What the system drops of a socket is counted, where it is more than 16 bits count."""
    with Stage(program, folder) as stage:
        stage.next_report()
        stage.proxy.ran.send_signal(signal.SIGSTOP)
        while dropped_at(stage.proxy.listen) <= 1 << 16:
            for _ in range(1000):
                stage.nas.socket.sendto(bytes(20), stage.proxy.listen)
        stage.proxy.ran.send_signal(signal.SIGCONT)
        until("the drops", lambda: values(stage, "socket_drops_total")[0] == dropped_at(stage.proxy.listen) > 1 << 16)


def dropped_at(place):
    """How many datagrams Linux dropped at a socket of this address and port."""
    address, port = int.from_bytes(socket.inet_aton(place[0]), sys.byteorder), place[1]
    rows = [line.split() for line in pathlib.Path("/proc/net/udp").read_text().splitlines()]
    return next(int(row[-1]) for row in rows if row[1] == f"{address:08X}:{port:04X}")


TESTS = [
    sixty_four_home_servers_each_answer_once,
    each_of_sixty_four_home_servers_is_logged,
    the_last_of_sixty_four_home_servers_is_waited_for,
    a_drain_of_sixty_four_lanes_drains_each,
    each_of_sixty_four_books_is_cut,
    two_hundred_fifty_six_clients_are_counted,
    two_hundred_fifty_six_realms_are_counted,
    the_widest_window_is_out_at_once,
    the_longest_packets_pass_both_ways,
    one_of_each,
    seventy_thousand_requests_pass_one_lane,
    all_that_is_over_is_cut_at_once,
    moments_go_on_behind_32_bits,
    the_longest_linger_is_no_short_one,
    no_linger_ends_at_once,
    the_longest_times_pass,
    an_identifier_wraps_beside_a_probe,
    the_longest_ring_fills,
    workers_go_on_behind_a_million_turns,
    responses_of_the_least_ring_are_measured,
    drops_are_counted_in_a_long_table,
    drops_are_counted_behind_16_bits,
]

if __name__ == "__main__":
    try_in_folders(TESTS, __doc__)
