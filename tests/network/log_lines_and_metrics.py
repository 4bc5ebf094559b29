"""A conversation of access servers, the program and two home servers: each line of its log, at each level, and all its metrics.

usage: python3 -m tests.network.log_lines_and_metrics PROGRAM [TEST ..]

What `came` and `went` have to tell is what passed over the sockets of this script. The other lines, the levels and the metrics are
those of docs/formats.md; no line is logged besides. A test is a function below; its first line says what holds. The last line is
`N passed, M failed`.
"""
import collections
import re
import time

from tests.lib import (ACCOUNTING_REQUEST, ACCT_SESSION_ID, HERE, NOTHING_LEFT, SECRET, STATUS_SERVER, USER_NAME, Fault, Stage, answer,
                       attribute, bound, built, is_so, mark, need, packet, read, reply, request, status, text_of, try_in_folders, turned,
                       user_name)

ELSEWHERE = "127.0.0.2"
LEVELS = ["off", "error", "warn", "info", "debug", "trace"]
# A third request of a lane finds the book full. The first one that is not answered has its home server marked down.
LIMITS = "book = 2\nfirst_wait = 1000\ntries = 1\ndown_wait = 600000\n"
NO_LEVEL = 'level=warn event=no-such-level reason="RAD_PROXY_LOG is none of off, error, warn, info, debug, trace"'
# Octets that are escaped in a line, and some that are not.
ODD_SESSION, ODD_REALM = b'S 1=\xff@', b'e%x ="\x7f.'
ESCAPED = "session=S%201%3d%ff@ realm=e%25x%20%3d%22%7f."
# The reasons for which one datagram each is dropped at the clients' socket, and at that of the first lane; and the lanes' labels.
DROPS = ["Unread", "WrongCode", "BadAuthenticator", "BadMessageAuthenticator", "MessageAuthenticatorHere", "NoRealm"]
UNHEARD = ["Unknown", "Unread", "NotHome"]
HOMES = ['lane="0",home="h0"', 'lane="1",home="h1"']
REALMS = ['realm="h0.example"', 'realm="h1.example"']


def words_of(octets):
    """What a line has of a datagram: its Identifier, session and realm; nothing of one that is no packet."""
    try:
        found = read(octets)
    except Fault:
        return ""
    sessions, names = found.of_type(ACCT_SESSION_ID), found.of_type(USER_NAME)
    session = "".join(f" session={value.decode()}" for value, _ in sessions)
    realm = "".join(f" realm={value.decode().rpartition('@')[2]}" for value, _ in names if b"@" in value)
    return f" identifier={found.identifier}{session}{realm}"


def passed(event, worker, peer, octets, words=None):
    """The line of a datagram that a worker received or sends."""
    try:
        read(octets)
        told = f"code={octets[0]} length={len(octets)}{words_of(octets) if words is None else words}"
    except Fault as fault:
        told = f'octets={len(octets)} reason="{fault}"'
    return f"level=trace event={event} worker={worker} address={peer[0]} port={peer[1]} {told}"


class Talk:
    """What is said over a stage, and the lines that have to be logged of it."""

    def __init__(self, stage):
        self.stage, self.lines, self.codes = stage, [], collections.Counter()
        self.stranger = bound(ELSEWHERE)

    def tell(self, level, words):
        """A line that has to be logged."""
        self.lines.append(f"level={level} event={words}")

    def ask(self, octets, asker=None, words=None):
        """A datagram to the clients' socket. Gives who sends it, as lines name a client."""
        asker = asker or self.stage.nas.socket
        asker.sendto(octets, self.stage.proxy.listen)
        self.lines.append(passed("came", "front", asker.getsockname(), octets, words))
        return "client={} client_port={}".format(*asker.getsockname())

    def hear(self):
        """What comes to the access server next."""
        octets = self.stage.nas.socket.recv(4096)
        self.lines.append(passed("went", "front", self.stage.nas.socket.getsockname(), octets))
        return octets

    def came(self, lane):
        """What comes to a home server next, and from where."""
        found, sender = self.stage.came(lane)
        self.lines.append(passed("went", f"h{lane}", (HERE, self.stage.homes[lane].port), found.octets))
        self.codes[lane, found.octets[0]] += 1
        return found, sender

    def say(self, lane, octets, to, sayer=None):
        """A datagram to a lane's socket. Gives who sends it."""
        sayer = sayer or self.stage.homes[lane].ear
        sayer.sendto(octets, to)
        self.lines.append(passed("came", f"h{lane}", sayer.getsockname(), octets))
        return "address={} port={}".format(*sayer.getsockname())

    def accept(self, lane, number, octets):
        """A request that its lane accepts."""
        client = self.ask(octets)
        self.tell("trace", f"accepted home=h{lane} number={number}{words_of(octets)}")
        return client, *self.came(lane)

    def answer(self, lane, serial, found, sender):
        """A home server's reply, and the response."""
        octets = reply(found, SECRET)
        self.say(lane, octets, sender)
        # The requests of a lane are answered in the order in which they came.
        session = words_of(found.octets).partition(" realm=")[0].partition(" session=")[2]
        request = f"home=h{lane} serial={serial} number={serial}" + (f" session={session}" if session else "")
        self.tell("trace", f"answered {request}")
        self.hear()
        self.tell("trace", f"returned {request}")
        return octets

    def drop(self, reason, octets, asker=None, words=None, realm=""):
        """A datagram that is dropped: that is told at once, and in a sum."""
        client = self.ask(octets, asker, words)
        said = words_of(octets) if words is None else words
        self.tell("debug", f'dropped {client}{said} reason="{reason}"')
        self.tell("info", f'dropped reason="{reason.split()[0]}" count=1 {client}{realm}')

    def drain(self):
        """What still came to the home servers."""
        for lane, home in enumerate(self.stage.homes):
            home.ear.settimeout(0)
            try:
                while True:
                    self.came(lane)
            except BlockingIOError:
                home.ear.settimeout(1)


def of(name, lane, *more):
    """The attributes of a request of a user for a lane."""
    return user_name(f"{name}@h{lane}.example".encode()) + b"".join(more)


def is_asked_and_asks_again(talk):
    """A request is answered, and so is its repeat, and a Status-Server."""
    octets = request(7, of("bob", 0, attribute(ACCT_SESSION_ID, b"S1")), SECRET)
    _, found, sender = talk.accept(0, 0, octets)
    said = talk.answer(0, 0, found, sender)
    client = talk.ask(octets)
    talk.tell("trace", f"repeated {client}{words_of(octets)} repeat=again")
    need(talk.hear() == answer(octets, 7, b"", SECRET), "another response came")
    return said, sender


def drops_what_comes(talk):
    """Datagrams that are dropped, each for another reason, and a Status-Server behind them, which is answered."""
    session = attribute(ACCT_SESSION_ID, ODD_SESSION)
    odd = request(1, user_name(b"bob@" + ODD_REALM) + session, SECRET)
    talk.drop("NoRealm", odd, words=f" identifier=1 {ESCAPED}", realm=" " + ESCAPED.partition(" ")[2])
    talk.drop("WrongCode", packet(1, 2, bytes(16), of("bob", 0)))
    talk.drop("Unread Short", b"no packet")
    talk.drop("BadAuthenticator", turned(request(3, of("bob", 0), SECRET), 4))
    talk.drop("BadMessageAuthenticator", turned(status(4, bytes(16), b"", b"", SECRET), 30))
    talk.drop("MessageAuthenticatorHere", request(5, of("bob", 0, attribute(80, bytes(16))), SECRET))
    talk.drop("UnknownClient", request(6, of("bob", 0), SECRET), talk.stranger)
    talk.ask(status(8, bytes(16), b"", b"", SECRET))
    talk.hear()


def ignores_what_answers_nothing(talk, said, sender):
    """A reply that was heard before, a datagram that is no packet, and one from elsewhere are not heard."""
    talk.say(0, said, sender)
    talk.tell("debug", f'unheard home=h0 identifier={said[1]} reason="Unknown"')
    talk.say(0, b"no packet", sender)
    talk.tell("debug", 'unheard home=h0 reason="Unread Short"')
    words = talk.say(0, said, sender, talk.stranger)
    talk.tell("debug", f'unheard home=h0 {words} identifier={said[1]} reason="NotHome"')
    for reason in UNHEARD:
        talk.tell("info", f'unheard home=h0 reason="{reason}" count=1')


def goes_down_and_up(talk):
    """Of three requests the third finds the book full. The first is not answered, a probe is, and then the others are."""
    session = attribute(ACCT_SESSION_ID, b"S2")
    first = request(11, of("bob", 1, session), SECRET)
    client, *held = talk.accept(1, 0, first)
    talk.tell("trace", f"repeated {talk.ask(first)}{words_of(first)} repeat=waiting")
    _, *second = talk.accept(1, 1, request(12, of("eve", 1), SECRET))
    third = request(13, of("joe", 1, session), SECRET)
    talk.ask(third)
    talk.tell("debug", f'refused {client}{words_of(third)} reason="BookFull"')
    talk.tell("warn", f'refused reason="BookFull" count=1 {client}')
    probe, sender = talk.came(1)
    need(probe.code == STATUS_SERVER, "what comes is no probe")
    talk.tell("warn", f"down home=h1 number=0 {client} session=S2 age=AGE")
    talk.say(1, answer(probe.octets, probe.identifier, b"", SECRET), sender)
    talk.tell("info", 'up home=h1 reason="probe answered"')
    talk.answer(1, 0, *held)
    talk.answer(1, 1, *second)


def converse(talk):
    """The whole conversation, in which each event of which there is a sum happens once."""
    said = is_asked_and_asks_again(talk)
    drops_what_comes(talk)
    ignores_what_answers_nothing(talk, *said)
    goes_down_and_up(talk)


def logged(stage):
    """The lines of the log, of which that of a home server that went down has an age."""
    lines = stage.proxy.log.read_text("utf-8").splitlines()
    ages = [int(age) for line in lines for age in re.findall(r" age=(\d+)$", line)]
    need(all(1000 <= age < 30_000 for age in ages), "ages:", ages)
    return sorted(re.sub(r" age=\d+$", " age=AGE", line) for line in lines)


def see_lines(stage, lines):
    """Whether exactly these lines are logged."""
    found = collections.Counter(logged(stage))
    wanted = collections.Counter(lines)
    need(found == wanted, "logged besides:", sorted(found - wanted), "and not logged:", sorted(wanted - found))


def up_to(level, lines):
    """Those of these lines that are logged at a level."""
    told = [f"level={each} " for each in LEVELS[1 : LEVELS.index(level) + 1]]
    return [line for line in lines if line.startswith(tuple(told))]


def see_conversation(program, folder, word, level, more=()):
    """Has the conversation where the environment names a level so, and sees that it is this one."""
    with Stage(program, folder, LIMITS, count=2, level=word) as stage:
        talk = Talk(stage)
        converse(talk)
        _, line, status = stage.ends()
        need((line, status) == (NOTHING_LEFT, 0), line, status)
        talk.drain()
        see_lines(stage, [*more, *up_to(level, talk.lines)])


def each_line_is_logged(program, folder):
    """At `trace` each line of the conversation is logged, and no other one."""
    see_conversation(program, folder, "trace", "trace")


def each_level_has_its_lines(program, folder):
    """At each other level exactly the lines of that and the more urgent levels are logged. Letters of either case name it."""
    for word, level in (("Debug", "debug"), ("info", "info"), ("WARN", "warn"), ("error", "error"), ("off", "off")):
        see_conversation(program, folder, word, level)


def see_drops(program, folder, word, more):
    """Has datagrams dropped where the environment names a level so, and sees that these lines are logged and those of `info`."""
    with Stage(program, folder, count=2, level=word) as stage:
        talk = Talk(stage)
        drops_what_comes(talk)
        stage.ends()
        see_lines(stage, [*more, *up_to("info", talk.lines)])


def other_words_name_no_level(program, folder):
    """Of any other value a line tells, and `info` applies."""
    for word in ("loud", "", "a word of more than sixteen", b"\xff"):
        see_drops(program, folder, word, [NO_LEVEL])


def no_word_is_info(program, folder):
    """Without the variable `info` applies, and no line tells of that."""
    see_drops(program, folder, None, [])


def numbers_of_clients(talk):
    """What the conversation has counted of the clients, by the names and labels of the metrics."""
    came = [line for line in talk.lines if f"event=came worker=front address={HERE} " in line]
    client = f'client="{HERE}"'
    numbers = {"strangers_total": 1, f"client_received_total{{{client}}}": len(came), f"client_accepted_total{{{client}}}": 3,
               f"client_responses_total{{{client}}}": 5, f'client_repeats_total{{{client},repeat="again"}}': 1,
               f'client_repeats_total{{{client},repeat="waiting"}}': 1, 'realm_requests_total{realm="h0.example"}': 2,
               'realm_requests_total{realm="h1.example"}': 4, f'client_refused_total{{{client},reason="BookFull"}}': 1, 'refused_total{reason="BookFull"}': 1,
               'dropped_total{reason="UnknownClient"}': 1}
    for reason in DROPS:
        numbers |= {f'client_dropped_total{{{client},reason="{reason}"}}': 1, f'dropped_total{{reason="{reason}"}}': 1}
    return numbers


def numbers_of_home(talk, lane):
    """What it has counted of a home server: the first one answered one request, the second one two and a probe."""
    home, done = HOMES[lane], lane + 1
    sent, probes = talk.codes[lane, ACCOUNTING_REQUEST], talk.codes[lane, STATUS_SERVER]
    numbers = {f"{name}{{{home}}}": done for name in ("accepted_total", "answered_total", "book")}
    for name in ("reply", "response"):
        numbers |= {f'{name}_seconds_bucket{{{home},le="+Inf"}}': done, f"{name}_seconds_count{{{home}}}": done}
    numbers |= {f"sent_total{{{home}}}": sent, f"probes_total{{{home}}}": probes, f"resent_total{{{home}}}": sent - done}
    numbers |= {f"home_up{{{home}}}": 1, f"draining{{{home}}}": 1, f"downs_total{{{home}}}": lane, f"book_limit{{{home}}}": 2}
    numbers[f'ups_total{{{home},reason="probe answered"}}'] = lane
    numbers |= {f"home_down_seconds_total{{{home}}}": "AGE"} if lane else {}
    numbers |= {f'unheard_total{{{home},reason="{reason}"}}': 1 - lane for reason in UNHEARD}
    return numbers


def all_metrics_are_written(program, folder):
    """After the conversation, and once each lane drains, the text of the metrics has each line that is wanted, in order, and no other one."""
    begun = time.time()
    with Stage(program, folder, LIMITS, count=2) as stage:
        talk = Talk(stage)
        converse(talk)
        stage.say(b"drain", 2)
        stage.next_report()
        stage.next_report()
        stage.ends()
        talk.drain()
        numbers = numbers_of_clients(talk) | numbers_of_home(talk, 0) | numbers_of_home(talk, 1)
        wanted = text_of(numbers, HERE, HOMES, f"{HERE}:{stage.proxy.listen[1]}", REALMS)
        see_metrics(stage.proxy.counters.read_text("utf-8").splitlines(), wanted, (begun, time.time()))


def see_metrics(found, wanted, times):
    """Whether lines of metrics are those that are wanted. Of a line that has a word for its value the value is looked at by that."""
    need(len(found) == len(wanted), [line for line in found if line.split(" ")[0] not in {line.split(" ")[0] for line in wanted}])
    for line, right in zip(found, wanted):
        name, _, value = right.rpartition(" ")
        if value not in ("TIME", "AGE", "SOME", "SECONDS"):
            need(line == right, line, "and not", right)
            continue
        need(line.rpartition(" ")[0] == name, line, "and not", right)
        number = float(line.rpartition(" ")[2])
        need(value != "TIME" or times[0] - 0.001 <= number <= times[1], line)
        need(value != "AGE" or re.search(r" \d+\.\d{3}$", line) and 0 <= number < 60, line)
        need(value != "SOME" or re.search(r" \d+$", line), line)
        need(value != "SECONDS" or re.search(r" \d+\.\d{6}$", line) and 0 <= number < 60, line)


def summed(lines):
    """How many events these lines have."""
    return sum(int(line["count"]) for line in lines)


def told_of(stage, event, octets, asker):
    """The sums of an event that each of these datagrams is."""
    before = len(stage.proxy.lines(event))
    for each in octets:
        asker.sendto(each, stage.proxy.listen)
    need(is_so(lambda: summed(stage.proxy.lines(event)[before:]) >= len(octets)), f"too few {event}:", stage.proxy.lines(event))
    return stage.proxy.lines(event)[before:]


def sums_have_what_came_since_the_last_one(program, folder):
    """What comes in several bursts is in sums that together have each datagram once, and that name the client of the last burst."""
    with Stage(program, folder) as stage:
        for count in (3, 1, 2):
            with bound() as asker:
                told = told_of(stage, "dropped", count * [request(1, user_name(b"bob"), SECRET)], asker)
                ports = {line["client_port"] for line in told}
                need(summed(told) == count and ports == {str(asker.getsockname()[1])}, "of", count, "it tells", told)
        stage.ends()
        need(summed(stage.proxy.lines("dropped")) == 6, stage.proxy.lines("dropped"))
        need(stage.counters()['rad_proxy_dropped_total{reason="NoRealm"}'] == 6, "the counter has others")


def marked(count):
    """A request that has so many Proxy-States of the program's form."""
    marks = b"".join(mark(3, number) for number in range(count))
    return request(count, user_name(f"user{count}@h0.example".encode()) + marks, SECRET)


def a_sum_has_the_most_marks_of_a_request(program, folder):
    """Of requests with several numbers of Proxy-States of the program's form the greatest is told, and later ones have their own."""
    with Stage(program, folder) as stage:
        for counts in ((4, 7, 3), (2,), (5, 6)):
            told = told_of(stage, "marked", [marked(count) for count in counts], stage.nas.socket)
            need(max(int(line["proxy_states"]) for line in told) == max(counts), "of", counts, "it tells", told)
            need({line["level"] for line in told} == {"warn"}, told)


def each_fault_is_a_line(program, folder):
    """At `debug` a receive and a send that fail are a line each, beside their sums."""
    variables = {"LD_PRELOAD": built(folder, "failing_sockets"), "RECEIVE_FAULTS": "1", "SEND_FAULTS": "1"}
    with Stage(program, folder, level="debug", variables=variables) as stage:
        stage.nas.ask_status()
        to = "address={} port={}".format(*stage.nas.socket.getsockname())
        sent = f"level=debug event=send-fault worker=front {to}"
        need(is_so(lambda: sent in stage.proxy.log.read_text("utf-8").splitlines()), "no line:", sent)
        stage.ends()
        lines = [line for line in stage.proxy.log.read_text("utf-8").splitlines() if "worker=front" in line]
        sums = [f"level=warn event={way}-fault worker=front count=1" for way in ("receive", "send")]
        need(sorted(lines) == sorted([sent, "level=debug event=receive-fault worker=front", *sums]), lines)


TESTS = [each_line_is_logged, each_level_has_its_lines, other_words_name_no_level, no_word_is_info, all_metrics_are_written,
         sums_have_what_came_since_the_last_one, a_sum_has_the_most_marks_of_a_request, each_fault_is_a_line]


if __name__ == "__main__":
    try_in_folders(TESTS, __doc__)
