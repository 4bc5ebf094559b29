"""What is logged of a user, a session or a client that a file names, while the program serves: each line of it, and no other one.

usage: python3 -m tests.network.traced_lines PROGRAM [TEST ..]

The lines are those of docs/formats.md. A test is a function below; its first line says what holds. The last line is
`N passed, M failed`.
"""
import contextlib
import os
import re
import time

from tests.lib import (ACCT_SESSION_ID, HERE, PATIENCE, SECRET, USER_NAME, Stage, answer, attribute, best, bound, hope, is_so, need,
                       pairs_of, reply, request, try_in_folders, turned)

ELSEWHERE = "127.0.0.2"
# How many requests a second a client sends that is traced, for how many seconds, with how many unanswered at most, so that none is
# lost; and how many lines are logged in a second at most. A line is seen a moment after it is logged, so less than a second is looked at.
RATE, SECONDS, UNANSWERED, MOST, LOOKED = 1000, 4, 32, 200, 0.8
# How many lines there are of each request of a client that is answered.
LINES = 6
ODD, ODD_TEXT = b"S 1=\xff", "S%201%3d%FF"
# A text of the file, and why it names nothing.
FAULTS = [
    (b"user\n", "line 1 is none of user NAME, session ID, client ADDRESS"),
    (b"user \n", "line 1 is none of user NAME, session ID, client ADDRESS"),
    (b"session S1\n\nclient 127.0.0.256\n", "line 3 is none of user NAME, session ID, client ADDRESS"),
    (b"realm h0.example\n", "line 1 is none of user NAME, session ID, client ADDRESS"),
    (b"session S%2\n", "line 1 is none of user NAME, session ID, client ADDRESS"),
    (b"session S%2g\n", "line 1 is none of user NAME, session ID, client ADDRESS"),
    (b"session " + b"s" * 254 + b"\n", "line 1 is none of user NAME, session ID, client ADDRESS"),
    (b"session \xff\n", "no text"),
    (b"session S\n" * 17, "more than 16 lines"),
    (b"\n" * 4097, "more than 4096 octets"),
]


class Tracing:
    """A stage whose program looks at a file for what to trace, and the lines that it has logged of that."""

    def __init__(self, program, folder, level="info", limits=""):
        self.file = folder / "trace"
        self.stage = Stage(program, folder, limits, level=level, variables={"RAD_PROXY_TRACE": str(self.file)})
        self.looked = 0

    def __enter__(self):
        return self

    def __exit__(self, *_):
        self.stage.__exit__()

    def log(self):
        return self.stage.proxy.log.read_text("utf-8").splitlines()

    def name(self, text, *lines):
        """Has the file this text, and waits until the log has these lines of it."""
        new = self.file.with_name("new")
        new.write_bytes(text)
        os.replace(new, self.file)
        self.await_told(*lines)

    def await_told(self, *lines):
        """Waits until these are the last lines that the log has of the file."""
        wanted = list(lines)
        need(not wanted or is_so(lambda: self.told()[-len(wanted):] == wanted), "of the file:", self.told())

    def told(self):
        return [line for line in self.log() if "event=trace " in line or "event=trace-fault " in line]

    def traced(self):
        """The lines about what is traced that came since the last call: those of the log that end in a number of it."""
        return [line for line in self.log() if " trace=" in line][self.looked:]

    def lines(self, count=0):
        """These lines, once there are so many, and a moment later."""
        need(is_so(lambda: len(self.traced()) >= count), "of", count, "lines there are", self.traced())
        time.sleep(0.2)
        found = self.traced()
        self.looked += len(found)
        return found

    def asks(self, identifier, user=b"bob@h0.example", session=None, asker=None):
        """A request that is sent."""
        values = attribute(USER_NAME, user) + (b"" if session is None else attribute(ACCT_SESSION_ID, session))
        octets = request(identifier, values, SECRET)
        (asker or self.stage.nas.socket).sendto(octets, self.stage.proxy.listen)
        return octets

    def is_answered(self):
        """The home server answers what came, and the access server gets the response."""
        self.stage.homes[0].answer(*self.stage.came())
        return self.stage.nas.socket.recv(4096)


def lines_of_request(tracing, octets, number, words, place, sent):
    """The lines of a request that is accepted, sent as these octets and answered; the last one of a client has one more."""
    client = "address={} port={}".format(*tracing.stage.nas.socket.getsockname())
    home = f"address={HERE} port={tracing.stage.homes[0].port}"
    packet = f"identifier={octets[1]}{words}"
    session = words.partition(" realm=")[0]
    return sorted(f"level=trace {line} trace={place}" for line in (
        f"event=came worker=front {client} code=4 length={len(octets)} {packet}",
        f"event=accepted home=h0 number={number} {packet}",
        f"event=went worker=h0 {home} code=4 length={len(sent)} identifier={sent[1]}{words}",
        f"event=answered home=h0 serial={number} number={number}{session}",
        f"event=returned home=h0 serial={number} number={number}{session}"))


def see_request(tracing, identifier, number, words, place, **what):
    """Has a request answered, and sees that just its lines are traced."""
    octets = tracing.asks(identifier, **what)
    found, sender = tracing.stage.came()
    tracing.stage.homes[0].answer(found, sender)
    tracing.stage.nas.socket.recv(4096)
    wanted = lines_of_request(tracing, octets, number, words, place, found.octets)
    hope("traced", sorted(tracing.lines(len(wanted))), wanted)


def has_others(tracing, identifier, user=b"eve@h0.example", session=b"S2"):
    """Has a request answered of which nothing is traced."""
    tracing.asks(identifier, user, session)
    tracing.is_answered()
    hope("traced of another one", tracing.lines(), [])


def a_session_is_traced(program, folder):
    """Each line of a session's request has its session and number; one of another session is not told, nor one without a session."""
    with Tracing(program, folder, level="error") as tracing:
        # At this level nothing is told of the file.
        tracing.name(b"session S1\n")
        time.sleep(2)
        see_request(tracing, 1, 0, " session=S1 realm=h0.example", 1, session=b"S1")
        has_others(tracing, 2)
        has_others(tracing, 3, session=b"S11")
        has_others(tracing, 4, user=b"S1@h0.example", session=b"")


def a_user_is_traced_and_not_named(program, folder):
    """The requests of a user are told, with and without a session, and the log never has the user's name."""
    with Tracing(program, folder) as tracing:
        tracing.name(b"user bob@h0.example\n", "level=info event=trace count=1")
        see_request(tracing, 1, 0, " session=S1 realm=h0.example", 1, session=b"S1")
        see_request(tracing, 2, 1, " realm=h0.example", 1)
        has_others(tracing, 3)
        has_others(tracing, 4, user=b"bob@H0.example")
        need("bob" not in "\n".join(tracing.log()), "the log has the user")


def a_client_is_traced(program, folder):
    """All datagrams from and to a client's address are told, also those of a stranger, and nothing of another address."""
    with Tracing(program, folder) as tracing, bound(ELSEWHERE) as stranger:
        tracing.name(f"client {ELSEWHERE}\n".encode(), "level=info event=trace count=1")
        has_others(tracing, 1)
        octets = tracing.asks(2, asker=stranger)
        peer = stranger.getsockname()
        packet = "identifier=2 realm=h0.example"
        wanted = [
            f"level=trace event=came worker=front address={ELSEWHERE} port={peer[1]} code=4 length={len(octets)} {packet} trace=1",
            f'level=debug event=dropped client={ELSEWHERE} client_port={peer[1]} {packet} reason="UnknownClient" trace=1']
        hope("traced", tracing.lines(2), wanted)
        tracing.name(f"client {HERE}\n".encode(), *2 * ["level=info event=trace count=1"])
        octets = tracing.asks(3)
        sent, sender = tracing.stage.came()
        tracing.stage.homes[0].answer(sent, sender)
        response = tracing.stage.nas.socket.recv(4096)
        nas = tracing.stage.nas.socket.getsockname()
        went = f"level=trace event=went worker=front address={HERE} port={nas[1]} code=5 length={len(response)} identifier=3 trace=1"
        wanted = sorted([*lines_of_request(tracing, octets, 1, " realm=h0.example", 1, sent.octets), went])
        hope("traced", sorted(tracing.lines(len(wanted))), wanted)


def what_is_not_answered_is_traced(program, folder):
    """Of a session also a repeat that waits or is answered again, a retransmission, a reply that is dropped and a refusal are told."""
    with Tracing(program, folder, limits="book = 1\nfirst_wait = 500\nspan = 60000\n") as tracing:
        tracing.name(b"session S1\n", "level=info event=trace count=1")
        tracing.asks(1, session=b"S1")
        found, sender = tracing.stage.came()
        tracing.asks(1, session=b"S1")
        tracing.asks(2, session=b"S1")
        tracing.stage.homes[0].ear.sendto(turned(reply(found, SECRET), 5), sender)
        again, _ = tracing.stage.came()
        hope("sent again", again.octets, found.octets)
        tracing.stage.homes[0].answer(found, sender)
        tracing.stage.nas.socket.recv(4096)
        tracing.asks(1, session=b"S1")
        tracing.stage.nas.socket.recv(4096)
        lines = [pairs_of(line) for line in tracing.lines(13)]
        told = sorted((line["event"], line.get("repeat", line.get("reason", line.get("worker", "")))) for line in lines)
        hope("traced", told, sorted([
            ("came", "front"), ("accepted", ""), ("went", "h0"), ("came", "front"), ("repeated", "waiting"), ("came", "front"),
            ("refused", "BookFull"), ("unheard", "BadAuthenticator"), ("went", "h0"), ("answered", ""), ("returned", ""),
            ("came", "front"), ("repeated", "again")]))
        hope("numbers", {(line["number"], line["session"]) for line in lines if "serial" in line}, {("0", "S1")})


def each_line_of_the_file_has_its_number(program, folder):
    """Several lines are traced, each under its place among those that name something; octets may be written as in the log."""
    with Tracing(program, folder) as tracing:
        tracing.name(f"user b%6Fb@h0.example\n\nsession {ODD_TEXT}\nclient {ELSEWHERE}\n".encode(), "level=info event=trace count=3")
        see_request(tracing, 1, 0, " session=S2 realm=h0.example", 1, session=b"S2")
        see_request(tracing, 2, 1, " session=S%201%3d%ff realm=h0.example", 2, user=b"eve@h0.example", session=ODD)
        has_others(tracing, 3)


def the_longest_lines_are_whole(program, folder):
    """A session and a realm of as many octets as there can be, none of which is text, are told whole."""
    session, realm = b"\xff" * 253, b"\xfe" * 252
    with Tracing(program, folder) as tracing:
        tracing.name(b"session " + b"%ff" * 253 + b"\n", "level=info event=trace count=1")
        see_request(tracing, 1, 0, f" session={'%ff' * 253} realm=h0.example", 1, session=session)
        octets = tracing.asks(2, b"@" + realm, session)
        client = "{}={} {}={}"
        address, port = tracing.stage.nas.socket.getsockname()
        packet = f"identifier=2 session={'%ff' * 253} realm={'%fe' * 252}"
        hope("traced", tracing.lines(2), [
            f"level=trace event=came worker=front {client.format('address', address, 'port', port)} code=4 length={len(octets)} {packet} trace=1",
            f'level=debug event=dropped {client.format("client", address, "client_port", port)} {packet} reason="NoRealm" trace=1'])


def the_longest_file_is_read(program, folder):
    """Of a file of 4096 octets, sixteen lines of which name something, each is traced."""
    with Tracing(program, folder) as tracing:
        tracing.name((b"session S\n" * 15 + b"session S1\n").ljust(4096, b"\n"), "level=info event=trace count=16")
        see_request(tracing, 1, 0, " session=S1 realm=h0.example", 16, session=b"S1")


def what_is_removed_is_traced_no_more(program, folder):
    """Once the file names something else, or is gone, nothing is told of what it named before."""
    with Tracing(program, folder) as tracing:
        tracing.name(b"session S1\n", "level=info event=trace count=1")
        see_request(tracing, 1, 0, " session=S1 realm=h0.example", 1, session=b"S1")
        tracing.name(b"session S3\nsession S4\n", "level=info event=trace count=2")
        has_others(tracing, 2, session=b"S1")
        tracing.file.unlink()
        tracing.await_told("level=info event=trace count=0")
        has_others(tracing, 3, session=b"S3")
        _, _, status = tracing.stage.ends()
        hope("status", status, 0)
        hope("of the file", tracing.told(), [f"level=info event=trace count={count}" for count in (1, 2, 0)])


def faults_are_told_once(program, folder):
    """A file that names nothing that can be traced is told, once for each text, and nothing is traced."""
    with Tracing(program, folder) as tracing:
        for count, (text, reason) in enumerate(FAULTS, 1):
            tracing.name(b"user bob@h0.example\n", "level=info event=trace count=1")
            tracing.name(text, f'level=warn event=trace-fault reason="{reason}"')
            has_others(tracing, count, user=b"bob@h0.example", session=b"S1")
        tracing.file.unlink()
        tracing.await_told("level=info event=trace count=0")
        os.mkfifo(tracing.file)
        tracing.await_told('level=warn event=trace-fault reason="no regular file"')
        time.sleep(2)
        hope("lines", len(tracing.told()), 2 * len(FAULTS) + 2)
        tracing.file.unlink()
        tracing.await_told("level=info event=trace count=0")


def at_trace_each_line_is_logged_once(program, folder):
    """At the level `trace` all lines are logged, once each, and those of what is traced have its number."""
    with Tracing(program, folder, level="trace") as tracing:
        tracing.name(b"session S1\n", "level=info event=trace count=1")
        see_request(tracing, 1, 0, " session=S1 realm=h0.example", 1, session=b"S1")
        has_others(tracing, 2)
        answered = [pairs_of(line) for line in tracing.log() if "event=answered" in line]
        hope("answered", [(line["number"], line["session"], line.get("trace")) for line in answered], [("0", "S1", "1"), ("1", "S2", None)])


def it_begins_within_a_second(program, folder):
    """A file takes effect within a second of its making, and no longer than a second after its end."""
    with Tracing(program, folder) as tracing:

        def seconds():
            begun = tracing.stage.proxy.clock()
            before = len(tracing.told())
            tracing.name(b"session S1\n")
            need(is_so(lambda: len(tracing.told()) > before), "it is not told")
            named = tracing.stage.proxy.clock() - begun
            begun = tracing.stage.proxy.clock()
            tracing.file.unlink()
            tracing.await_told("level=info event=trace count=0")
            return max(named, tracing.stage.proxy.clock() - begun)

        best(seconds, lambda passed: passed < 1.2)


def without_a_name_nothing_is_looked_at(program, folder):
    """Without the variable, or where it is empty, no file is looked at; a value that is no text is told."""
    for value, told in ((None, []), ("", []), (b"\xff", ['level=warn event=trace-fault reason="RAD_PROXY_TRACE is no text"'])):
        (folder / "trace").write_bytes(b"session S1\n")
        variables = {} if value is None else {"RAD_PROXY_TRACE": value}
        with Stage(program, folder, variables=variables) as stage:
            stage.next_report()
            stage.next_report()
            stage.ends()
            hope("told", [line for line in stage.proxy.log.read_text("utf-8").splitlines() if "trace" in line], told)


class Load:
    """A client's requests, so many a second, which a home server answers, and how many lines are traced meanwhile."""

    def __init__(self, tracing):
        self.tracing, self.sent, self.answered, self.seen = tracing, 0, 0, [(time.monotonic(), 0)]
        self.log = tracing.stage.proxy.log.open("rb")
        self.nas, self.ear = tracing.stage.nas.socket, tracing.stage.homes[0].ear
        for each in (self.nas, self.ear):
            each.setblocking(False)

    def run(self, seconds):
        """Sends for so long, and until all are answered."""
        begun, before = time.monotonic(), self.sent
        while (passed := time.monotonic() - begun) < seconds or self.answered < self.sent:
            need(passed < seconds + PATIENCE, "answered are", self.answered, "of", self.sent)
            while passed < seconds and self.sent - before < RATE * passed and self.sent - self.answered < UNANSWERED:
                self.tracing.asks(self.sent % 256, session=f"S{self.sent}".encode())
                self.sent += 1
            self.serve()
            if time.monotonic() > self.seen[-1][0] + 0.01:
                self.look()
            time.sleep(0.0005)

    def serve(self):
        with contextlib.suppress(BlockingIOError):
            while True:
                octets, sender = self.ear.recvfrom(4096)
                self.ear.sendto(answer(octets, octets[1], octets[-12:], SECRET), sender)
        with contextlib.suppress(BlockingIOError):
            while self.nas.recv(4096):
                self.answered += 1

    def look(self):
        """Keeps how many lines of what is traced there are at this moment."""
        more = len(re.findall(rb" trace=[0-9]+\n", self.log.read()))
        self.seen.append((time.monotonic(), self.seen[-1][1] + more))

    def most(self):
        """The most lines that came in less than a second."""
        return max(after - before for first, before in self.seen for last, after in self.seen if 0 <= last - first <= LOOKED)

    def count(self):
        """How many lines of what is traced there are now."""
        self.look()
        return self.seen[-1][1]

    def dropped(self):
        """How many lines the log dropped, since others held its buffer for too long."""
        return sum(int(pairs_of(line)["count"]) for line in self.tracing.log() if "event=lines-dropped" in line)

    def left_out(self):
        """How many lines were left out each time that it was told, and that nothing else is in these lines."""
        told = [line for line in self.tracing.log() if "trace-left-out" in line]
        counts = [re.fullmatch("level=info event=trace-left-out count=([0-9]+)", line) for line in told]
        need(all(counts), "not as it should be:", told)
        return [int(found[1]) for found in counts]


def at_most_200_lines_a_second(program, folder):
    """Of a thousand requests a second of a client at most 200 lines are logged in a second, and how many were left out is told, so that
    together they are all. A burst and a pause later each line is there again."""

    def most(number):
        room = folder / str(number)
        room.mkdir()
        with Tracing(program, room, limits="first_wait = 60000\n") as tracing:
            tracing.name(f"client {HERE}\n".encode(), "level=info event=trace count=1")
            load = Load(tracing)
            load.run(SECONDS)
            time.sleep(2.5)
            logged, left_out = load.count(), load.left_out()
            hope("logged, left out and dropped", logged + sum(left_out) + load.dropped(), LINES * load.sent)
            need(0 < len(left_out) <= SECONDS + 3, "how many lines tell it:", left_out)
            need(logged >= MOST * (SECONDS - 1), "logged are only", logged)
            tracing.stage.nas.socket.settimeout(PATIENCE)
            tracing.stage.homes[0].ear.settimeout(PATIENCE)
            tracing.asks(7)
            tracing.is_answered()
            need(is_so(lambda: load.count() == logged + LINES), "of one more request there are", load.count() - logged)
            _, _, status = tracing.stage.ends()
            hope("status, and left out at the end", (status, load.left_out()), (0, left_out))
            return load.most()

    tries = iter(range(99))
    best(lambda: most(next(tries)), lambda count: count <= MOST)


def what_is_left_out_is_told_at_the_end(program, folder):
    """Where the program ends right behind a burst, how many lines were left out is told before it has ended."""
    with Tracing(program, folder, limits="first_wait = 60000\n") as tracing:
        tracing.name(f"client {HERE}\n".encode(), "level=info event=trace count=1")
        load = Load(tracing)
        load.run(0.5)
        tracing.stage.ends()
        hope("logged, left out and dropped", load.count() + sum(load.left_out()) + load.dropped(), LINES * load.sent)


def at_its_own_level_no_line_is_left_out(program, folder):
    """Where the log has the level `trace`, each line is there, also beyond 200 a second, and none is told as left out."""
    with Tracing(program, folder, level="trace", limits="first_wait = 60000\n") as tracing:
        tracing.name(f"client {HERE}\n".encode(), "level=info event=trace count=1")
        load = Load(tracing)

        def is_enough():
            load.run(0.02)
            return load.sent > MOST // LINES * 4 and load.most() > MOST

        need(is_so(is_enough, apart=0.05), "too few were sent:", load.sent, load.most())
        need(is_so(lambda: load.count() + load.dropped() == LINES * load.sent), "lines", load.count(), "of", LINES * load.sent)
        tracing.stage.ends()
        hope("left out", load.left_out(), [])


TESTS = [a_session_is_traced, a_user_is_traced_and_not_named, a_client_is_traced, what_is_not_answered_is_traced,
         each_line_of_the_file_has_its_number, the_longest_lines_are_whole, the_longest_file_is_read, what_is_removed_is_traced_no_more,
         faults_are_told_once, at_trace_each_line_is_logged_once, it_begins_within_a_second, without_a_name_nothing_is_looked_at, at_most_200_lines_a_second,
         what_is_left_out_is_told_at_the_end, at_its_own_level_no_line_is_left_out]


if __name__ == "__main__":
    try_in_folders(TESTS, __doc__)
