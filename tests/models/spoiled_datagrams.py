"""Tells `replay` datagrams that were spoiled in many ways, and compares each answer and the counts after it with the model.

usage: python3 -m tests.models.spoiled_datagrams PROGRAM [DATAGRAMS [SEED]]

The packets of tests/rows, and right replies to what the proxy sent, are flipped, cut, doubled and spliced, by chance from
a seed; some are signed again after that, and some stay as they are, so that the book goes on. They are dealt into scripts
of SCRIPT datagrams each. A script whose answers differ is kept in out/, with the first lines that differ told. An answer
of docs/formats.md that no datagram had is a failure too. The last line is `N passed, M failed`, of datagrams and answers.
"""
import collections
import pathlib
import random
import subprocess
import sys

from tests.lib import Replay, answer, attribute, conclude, request, rows, signed, status, user_name

DATAGRAMS, SEED = 20_000, 1
SCRIPT = 400
PATIENCE = 300
OF_EACH_ROW = 12
CLIENT, STRANGER = "10.0.0.1", "10.0.0.9"
NAS_SECRET = b"nas-secret"
LIMITS = "window = 6\nqueue = 4\nring = 3\nbook = 12\ntries = 2\nspan = 5000\nprobe_every = 3000\ndown_wait = 9000\n"
CONFIGURATION = (rows.ROWS / "two-homes.toml").read_text("utf-8").replace("[[home]]", f"[[home]]\n{LIMITS}")
CONFIGURATION = CONFIGURATION.replace('name = "h2"', 'name = "h2"\nports = 2')
# What else the top of a configuration has, in a conversation each.
TOPS = ["", "", 'other_home = "h1"\n', 'other_home = "h2"\n', 'default_home = "h2"\nother_home = "h1"\n']
REALMS = [b"example.org", b"example.net"]
FAULTS = ["Unread Short", "Unread BadLength", "Unread Truncated", "Unread BadAttribute", "WrongCode", "BadAuthenticator"]
FAULTS += ["MessageAuthenticatorHere"]
ANSWERS = {
    *(f"nas: {answer}" for answer in ("new", "waiting", "again", "status")),
    *(f"nas: dropped {fault}" for fault in (*FAULTS, "UnknownClient", "BadMessageAuthenticator", "NoRealm")),
    *(f"nas: refused {fault}" for fault in ("Draining", "BookFull", "QueueFull", "TooLong")),
    *(f"home: {answer}" for answer in ("answer", "probe")),
    *(f"home: dropped {fault}" for fault in (*FAULTS, "Unknown", "NoProxyState", "RingFull")),
}


def attributes_of_rows(side, chance):
    """The attributes of the packets that the rows make on one side, a few of each row."""
    found = set()
    for file in sorted(rows.ROWS.rglob("*.row")):
        lines = rows.Row(str(file.relative_to(rows.ROWS).with_suffix(""))).streams["<"].split(b"\n")
        texts = [line.rpartition(b" ")[2] for line in lines if line.startswith(side) and b" make " in line]
        made = [bytes.fromhex(text.decode()) for text in texts if len(text) % 2 == 0 and set(text) <= set(b"0123456789abcdef")]
        found |= set(chance.sample(made, min(OF_EACH_ROW, len(made))))
    return sorted(found)


def flipped(chance, octets, _):
    place = chance.randrange(len(octets))
    return octets[:place] + bytes([octets[place] ^ 1 << chance.randrange(8)]) + octets[place + 1 :]


def cut(chance, octets, _):
    return octets[: chance.randrange(len(octets))]


def doubled(chance, octets, _):
    begin = chance.randrange(len(octets))
    end = chance.randint(begin, len(octets))
    return octets[:end] + octets[begin:end] + octets[end:]


def spliced(chance, octets, other):
    return octets[: chance.randrange(len(octets))] + other[chance.randrange(len(other)) :]


def overwritten(chance, octets, _):
    """One octet of the first four or of some attribute's first two is another: the places that lead a reader on."""
    places = [0, 1, 2, 3, *range(20, min(len(octets), 24))]
    place = chance.choice([place for place in places if place < len(octets)])
    return octets[:place] + bytes([chance.choice([0, 1, 2, 4, 5, 12, 80, 255])]) + octets[place + 1 :]


SPOILING = [flipped, cut, doubled, spliced, overwritten]


def with_its_length(octets):
    """The octets with their count as the Length."""
    return octets[:2] + len(octets).to_bytes(2, "big") + octets[4:]


class Conversation:
    """A script of datagrams, and the lines that have to come of it."""

    def __init__(self, seed, asked, replied):
        self.chance = random.Random(seed)
        self.asked, self.replied, self.made = asked, replied, []
        self.configuration = random.Random(f"top {seed}").choice(TOPS) + CONFIGURATION
        self.proxy, self.moment = Replay(self.configuration), 0
        self.events, self.lines, self.events_of_lines = [], [], []
        self.answers = collections.Counter()

    def tell(self, event):
        lines = self.proxy.told(event)
        self.events.append(event)
        self.lines += lines
        self.events_of_lines += [event] * len(lines)
        return lines

    def go_on(self):
        """What happens between datagrams: time passes, lanes make steps, and responses are taken."""
        chance = self.chance
        self.moment += chance.choice([0, 0, 10, 200, 1500])
        self.tell(f"at {max(0, self.moment - chance.choice([0, 0, 0, 5000]))}")
        for _ in range(chance.choice([0, 1, 2])):
            self.tell(f"step {chance.randrange(2)}")
        if chance.random() < 0.2:
            self.tell(f"take {chance.randrange(2)}")
        if chance.random() < 0.03:
            self.tell(f"turn {chance.randrange(2)}")

    def go_round(self, lane, count):
        """Requests of a lane that are each answered and forgotten before the next, so that its identifiers go on."""
        attributes = user_name(b"bob@" + REALMS[lane.number]).hex()
        for place in range(count):
            self.tell(f"at {self.moment}")
            self.tell(f"nas {CLIENT} 40000 make 4 {place % 256} {attributes}")
            self.tell(f"step {lane.number}")
            sent = lane.under[lane.place]
            port = f".{lane.place // 256}" if lane.place >= 256 else ""
            self.tell(f"home {lane.number}{port} make 5 {sent[1]} {sent[-12:].hex()}")
            self.tell(f"take {lane.number}")
            self.moment += lane.limits["span"]
            self.tell(f"at {self.moment}")
            self.tell(f"turn {lane.number}")

    def answered(self):
        """The requests that were answered, the last one last."""
        known = [request for lane in self.proxy.lanes for request in lane.book if request.answered is not None]
        return [request.request.octets for request in sorted(known, key=lambda request: request.answered)]

    def request_of_nas(self):
        """A packet as the NAS sends it, how it is signed, and from where it comes."""
        chance = self.chance
        identifier, kind = chance.randrange(8), chance.random()
        if self.made and kind < 0.2:
            made = chance.choice(self.made[-9:] + self.answered()[-4:])
        elif kind < 0.3:
            state = attribute(33, chance.randbytes(chance.randrange(4)))
            made = status(identifier, chance.randbytes(16), state, state, NAS_SECRET)
        else:
            made = request(identifier, chance.choice(self.asked), NAS_SECRET)
            self.made.append(made)
        head = f"nas {CLIENT if chance.random() < 0.98 else STRANGER} {40000 + chance.randrange(2)}"
        return made, lambda octets: signed(octets[0], octets[1], bytes(16), octets[20:], NAS_SECRET), head

    def reply_of_home(self, lane):
        """A packet as a lane's home server sends it, how it is signed, and to which port."""
        chance = self.chance
        known = lane.out if lane.out and chance.random() < 0.8 else lane.under
        place = chance.choice(sorted(known)) if known else chance.randrange(lane.places)
        port, identifier, sent = place // 256, place % 256, lane.under.get(place, bytes(20))
        own, others = sent[-12:], chance.choice(self.replied)
        attributes = chance.choice([own, others + own, own + others, others])[: 4096 - 20]
        made = answer(sent, identifier, attributes, lane.secret)
        head = f"home {lane.number}.{port if chance.random() < 0.95 else chance.randrange(4)}"
        return made, lambda octets: signed(octets[0], octets[1], sent[4:20], octets[20:], lane.secret), head

    def spoiled(self, made, sign, other):
        """A packet that was changed once or more; some are signed again."""
        chance = self.chance
        for _ in range(chance.choice([1, 1, 1, 2, 3])):
            made = chance.choice(SPOILING)(chance, made, other) or made
        if len(made) >= 20 and chance.random() < 0.5:
            made = sign(with_its_length(made[: chance.choice([4096, 5000])]))
        return made

    def one_datagram(self):
        """Tells one datagram, right or spoiled, and what the book is after it."""
        chance, lane = self.chance, self.chance.choice(self.proxy.lanes)
        sides = [self.request_of_nas(), self.reply_of_home(lane)]
        chance.shuffle(sides)
        (made, sign, head), (other, _, _) = sides
        if chance.random() < 0.7:
            made = self.spoiled(made, sign, chance.choice([made, other]))
        line = self.tell(f"{head} raw {made.hex() or '-'}")[0]
        self.answers[next((known for known in ANSWERS if line.startswith(known)), line)] += 1
        self.tell("state")

    def run(self, datagrams):
        """Makes the whole script, which drains near its end; in some the identifiers have gone round before."""
        if self.chance.random() < 0.2:
            for lane in self.proxy.lanes:
                self.go_round(lane, self.chance.randrange(lane.places - 20, lane.places))
        for count in range(datagrams):
            self.go_on()
            if count == datagrams * 9 // 10:
                self.tell("drain")
            self.one_datagram()
        return f"{self.configuration}%%\n" + "".join(f"{event}\n" for event in self.events)


def difference(conversation, ran):
    """The first line that is not as it should be, with its event; nothing where all are."""
    last, left = conversation.proxy.end()
    wanted, got = [*conversation.lines, last], ran.stdout.decode().splitlines()
    for event, line, other in zip([*conversation.events_of_lines, "the end"], wanted, [*got, *[None] * len(wanted)]):
        if line != other:
            return f"after {event[:200]}\n  wanted {line[:200]}\n  got    {(other or 'nothing')[:200]}"
    if (ran.returncode, ran.stderr, len(got)) != (left, b"", len(wanted)):
        return f"it ended with status {ran.returncode}, {len(got)} lines and {ran.stderr!r}; wanted status {left}"
    return None


def main():
    if not 2 <= len(sys.argv) <= 4:
        sys.exit(__doc__)
    program = str(pathlib.Path(sys.argv[1]).resolve())
    datagrams, seed = (int(word) for word in (*sys.argv[2:], *(DATAGRAMS, SEED)[len(sys.argv) - 2 :]))
    chance = random.Random(seed)
    asked, replied = (attributes_of_rows(side, chance) for side in (b"nas ", b"home "))
    seen, failed, done = collections.Counter(), 0, 0
    while done < datagrams:
        count = min(SCRIPT, datagrams - done)
        conversation = Conversation(f"{seed} {done}", asked, replied)
        script = conversation.run(count)
        ran = subprocess.run([program, "replay"], input=script.encode(), capture_output=True, timeout=PATIENCE)
        told = difference(conversation, ran)
        if told is not None:
            kept = rows.TOP / "out" / f"spoiled-{seed}-{done}.replay"
            kept.parent.mkdir(exist_ok=True)
            kept.write_text(script, "utf-8")
            print(f"{kept}: {told}", flush=True)
            failed += count
        seen += conversation.answers
        done += count
    for line, count in sorted(seen.items()):
        print(f"{count:7} {line}")
    unseen = ANSWERS - set(seen)
    if unseen:
        print(f"no datagram was answered by {', '.join(sorted(unseen))}")
    conclude(done - failed, failed + len(unseen))


if __name__ == "__main__":
    main()
