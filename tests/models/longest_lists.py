"""The lists of a lane at their greatest lengths, over `replay`: that they hold what they should, in order, and that no call moves them.

usage: python3 -m tests.models.longest_lists PROGRAM

`replay` is given scripts of as many requests as a queue may hold: all are taken, one more is refused, all are sent, answered
and handed out in order, and all are cut at once. Thousands of requests go through a window, to replies short and long that are signed
here. Of a lane that is cut again and again each line is what model.py answers, and what the lane answers without the cuts.
Then one list stays long while its front is cut off, a request at a time: that
takes next to nothing beside the same script without the cuts, and twice the requests take twice the time. Times are those of
the program's own processor time, and the best of several tries counts. Each of as many lanes
as there may be is drained by itself. The last line is `N passed, M failed`.
"""
import pathlib
import resource
import subprocess
import sys

from tests.lib import ACCT_SESSION_ID, BOB, Replay, answer, answers, attribute, best, classes, mark, request, rows, try_each, user_name

QUEUE = 65_536
KEPT, CUTS = 80_000, 6_000
SPAN = 100_000
CONFIGURATION = (rows.ROWS / "default-home.toml").read_text("utf-8")
LIMITS = f"window = 254\nqueue = {QUEUE}\nbook = 100000\nspan = {SPAN}\n"
WINDOW, TIMES, LONG_ONES, LANES = 64, 80, 8, 64
# Rounds of a lane that is cut: a request is over in the third round after its answer.
ROUNDS, APART, ROUND_SPAN, NEW_ONES = 80, 400, 1000, 16


def configured(limits):
    """The configuration of one home server with these limits."""
    return CONFIGURATION.replace("\n[[realm]]", f"{limits}\n[[realm]]")


def script(events, limits=LIMITS):
    """A script of one home server, which by default has room for all of it."""
    return "".join([configured(limits), "%%\n", *(f"{event}\n" for event in events)])


def asks(number):
    """A request without attributes, which repeats no other one."""
    return f"nas 10.0.0.1 {1024 + number // 256} make 4 {number % 256} -"


def replies(number, identifier):
    """The reply to a request that was sent under this Identifier."""
    return f"home 0 make 5 {identifier} {mark(0, number).hex()}"


def replayed(program, text):
    """The lines of a script, and the processor time that it took."""
    before = resource.getrusage(resource.RUSAGE_CHILDREN)
    ran = subprocess.run([program, "replay"], input=text, capture_output=True, text=True, timeout=300)
    after = resource.getrusage(resource.RUSAGE_CHILDREN)
    if ran.returncode not in (0, 3) or ran.stderr:
        raise AssertionError(f"it ended with status {ran.returncode}: {ran.stderr}")
    return ran.stdout.splitlines(), after.ru_utime + after.ru_stime - before.ru_utime - before.ru_stime


def sent_and_answered(count):
    """Each request is sent, answered and handed out; the Identifiers come in cyclic order."""
    for number in range(count):
        yield from ("step 0", replies(number, number % 256), "take 0")


def a_full_queue(program):
    """As many requests as a queue may hold: taken, sent, answered, handed out and cut, all in order."""
    events = [*map(asks, range(QUEUE + 1)), *sent_and_answered(QUEUE), f"at {SPAN}", "turn 0", asks(0), "state"]
    wanted = [*(f"nas: new 0 {number}" for number in range(QUEUE)), "nas: refused QueueFull"]
    for number in range(QUEUE):
        response = f"take: 10.0.0.1 {1024 + number // 256} 5 {number % 256} 20 -"
        wanted += [f"step: sent 4 {number % 256} 32 {mark(0, number).hex()}", f"home: answer 0 {number}", response]
    wanted += [f"turn: 0 {QUEUE} {QUEUE}", f"nas: new 0 {QUEUE}"]
    wanted += [f"lane 0 h1 up open accepted {QUEUE + 1} queued 1 outstanding 0 answered {QUEUE} opening {QUEUE}"]
    wanted += ["end: queued 1 outstanding 0 untaken 0"]
    return fault_in(replayed(program, script(events))[0], wanted)


def fault_in(found, wanted):
    """Where lines are not what they should be."""
    for place, (line, right) in enumerate(zip(found, wanted)):
        if line != right:
            return f"line {place + 1} is {line[:200]!r}, and not {right[:200]!r}"
    return None if len(found) == len(wanted) else f"{len(found)} lines, and not {len(wanted)}"


def of_lane(lane):
    """The tables of the home server and of the realm of a lane."""
    home = f'[[home]]\nname = "h{lane}"\naddress = "127.0.0.1:{2000 + lane}"\nsecret = "home{lane}-secret"\n'
    return f'{home}[[realm]]\nname = "r{lane}.example"\nhome = "h{lane}"\n'


def each_lane_is_drained(program):
    """Each of 64 lanes tells at the drain how many requests it took, and no two beside each other took as many."""
    head = 'listen = "127.0.0.1:1813"\n[[client]]\naddress = "10.0.0.1"\nsecret = "nas-secret"\n'
    counts = [lane % 5 for lane in range(LANES)]
    asked = [(lane, count) for lane in range(LANES) for count in range(counts[lane])]
    users = [user_name(b"bob@r%d.example" % lane).hex() for lane, _ in asked]
    events = [f"nas 10.0.0.1 {40000 + lane} make 4 {count} {user}" for (lane, count), user in zip(asked, users)]
    wanted = [f"nas: new {lane} {count}" for lane, count in asked] + [f"drain: {lane} {counts[lane]}" for lane in range(LANES)]
    text = "".join([head, *map(of_lane, range(LANES)), "%%\n", *(f"{event}\n" for event in [*events, "drain"])])
    return fault_in(replayed(program, text)[0], [*wanted, f"end: queued {sum(counts)} outstanding 0 untaken 0"])


def asks_of(count):
    """The attributes of a request that repeats no other one by its session, and the event of the request."""
    attributes = BOB + attribute(ACCT_SESSION_ID, count.to_bytes(2, "big"))
    return attributes, f"nas 10.0.0.1 40000 make 4 {count % 256} {attributes.hex()}"


def classes_of(count):
    """What a reply of the thousands has beside the mark: up to 127 octets, and in the last ones the most that there may be."""
    first_long = WINDOW * TIMES - LONG_ONES
    octets = count % 128 if count < first_long else 4096 - 20 - len(mark(0, 0)) - (WINDOW * TIMES - 1 - count)
    return b"" if octets == 1 else classes(octets)


def thousands_are_answered(program):
    """As many requests as the window has room for are taken, sent and answered, again and again. The replies are signed here, over
    the Authenticators that what is sent has to have."""
    events, wanted = [], []
    for first in range(0, WINDOW * TIMES, WINDOW):
        counts = range(first, first + WINDOW)
        for count in counts:
            events.append(asks_of(count)[1])
            wanted.append(f"nas: new 0 {count}")
        for count in counts:
            sent = asks_of(count)[0] + mark(0, count)
            events.append("step 0")
            wanted.append(f"step: sent 4 {count % 256} {20 + len(sent)} {sent.hex()}")
        for count in counts:
            forwarded, more = request(count % 256, asks_of(count)[0] + mark(0, count), b"home-secret"), classes_of(count)
            reply = answer(forwarded, count % 256, more + mark(0, count), b"home-secret")
            events += [f"home 0 raw {reply.hex()}", "take 0"]
            response = f"take: 10.0.0.1 40000 5 {count % 256} {20 + len(more)} {more.hex() or '-'}"
            wanted += [f"home: answer 0 {count}", response]
    found, _ = replayed(program, script(events, f"window = {WINDOW}\nbook = 100000\n"))
    return fault_in(found, [*wanted, "end: queued 0 outstanding 0 untaken 0"])


class Rounds:
    """A script of rounds, each with requests, the replies to them and two cuts. What comes is told to the model, since a reply has to
    be to what the lane sent."""

    def __init__(self):
        self.model = Replay(configured(f"span = {ROUND_SPAN}\n"))
        self.events, self.late = [], []

    def tell(self, event):
        self.events.append(event)
        return self.model.told(event)

    def send(self, count):
        """Has a request taken, and steps. What is sent has its reply among those that are given."""
        self.tell(asks_of(count)[1])
        (told,) = self.tell("step 0")
        if not told.startswith("step: sent"):
            return []
        identifier, octets = told.split(" ")[3], bytes.fromhex(told.split(" ")[5])
        return [f"home 0 make 5 {identifier} {octets[-len(mark(0, 0)) :].hex()}"]

    def hear(self, given):
        """The replies come, the last one first. The one to the first request comes a round later, as the last one there."""
        for reply in [*reversed(given[1:]), *self.late]:
            self.tell(reply)
            self.tell("take 0")
        self.late = given[:1]

    def play(self):
        for place in range(ROUNDS):
            self.tell(f"at {APART * place}")
            given = [reply for count in counts_of(place) for reply in self.send(count)]
            self.tell("turn 0")
            self.hear(given)
            self.tell("turn 0")
        self.tell("state")
        return self.events


def counts_of(place):
    """The requests of a round: new ones, one that was answered in the round before, and one that was answered so long ago that it is
    new again."""
    again = [(1, 3), (5, 5)]
    first = NEW_ONES * place
    return [*range(first, first + NEW_ONES), *(NEW_ONES * (place - back) + at for back, at in again if place >= back)]


def cuts_lose_nothing(program):
    """A lane that is cut twice a round answers as the model does, and all else as without the cuts. The request that a round has first
    is answered last, in the next round; so the first cut of a round removes the fourth round before, and the second one nothing."""
    limits, events = f"span = {ROUND_SPAN}\n", Rounds().play()
    text = script(events, limits)
    found, _ = replayed(program, text)
    if fault := fault_in(found, answers(text)[0]):
        return fault
    cuts = [line.split(" ") for line in found if line.startswith("turn: 0")]
    removed = sum(int(count) for _, _, count, _ in cuts)
    refused = found.count("turn: refused NothingToTurn")
    if (len(cuts), removed, refused) != (76, 1287, 84):
        return f"{len(cuts)} cuts of {removed} requests in all, and {refused} refused"
    whole, _ = replayed(program, script([event for event in events if event != "turn 0"], limits))
    kept = [line.replace("opening 1287", "opening 0") for line in found if not line.startswith("turn")]
    return fault_in(kept, whole)


def kept(count):
    """So many requests, each answered a millisecond after the one before it."""
    for number in range(count):
        yield from (f"at {number}", asks(number), "step 0", replies(number, number % 256), "take 0")


def times_of(program, *texts):
    """The processor time that each of these scripts takes."""
    return [replayed(program, text)[1] for text in texts]


def cuts_cost_what_they_cut(program):
    """A long list whose front is cut off, a request at a time, is not moved for that."""
    turns = [event for number in range(CUTS) for event in (f"at {SPAN + number}", "turn 0")]
    idle = [event for number in range(CUTS) for event in (f"at {SPAN + number}", "state")]
    long_one, beside = script([*kept(KEPT), *turns]), script([*kept(KEPT), *idle])
    found, _ = replayed(program, long_one)
    cuts = [line for line in found if line.startswith("turn")]
    if cuts != [f"turn: 0 1 {number + 1}" for number in range(CUTS)]:
        return f"other cuts: {cuts[:3]}"
    best(lambda: times_of(program, long_one, beside), lambda times: times[0] < times[1] + 0.4)


def times_are_linear(program):
    """Twice the requests take no more than some more than twice the time."""
    texts = [script(kept(count)) for count in (KEPT // 2, KEPT)]
    best(lambda: times_of(program, *texts), lambda times: times[1] < 2.7 * times[0])


def fault_of(test, program):
    """What is wrong, where something is."""
    try:
        return test(program)
    except (AssertionError, subprocess.SubprocessError) as failure:
        return str(failure)


def main():
    if len(sys.argv) != 2:
        sys.exit(__doc__)
    program = str(pathlib.Path(sys.argv[1]).resolve())
    tests = [a_full_queue, each_lane_is_drained, thousands_are_answered, cuts_lose_nothing, cuts_cost_what_they_cut, times_are_linear]
    try_each(tests, lambda test: fault_of(test, program))


if __name__ == "__main__":
    main()
