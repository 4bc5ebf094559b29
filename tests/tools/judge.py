"""Has `rad_trial judge` read captures that are made, with faults that are planted, that are damaged, and of three proxies under losses.

usage: python3 -m tests.tools.judge PROGRAM [--long | NAME ..]

Names choose tests, and `--long` those that take a minute or more. What fails or is left out is told, and the last line is
`N passed, M failed`. Those with proxies want root, `unshare`, tcpdump and the proxy, and are left out where one is not here.
"""
import functools
import json
import os
import pathlib
import random
import re
import shutil
import struct
import subprocess
import sys
import tempfile
import time

from tests.lib import (ACCT_SESSION_ID, ACCT_STATUS_TYPE, CLASS, HOME_SECRET, NAS_SECRET, LeftOut, answer, attribute, hope, is_asked, mark,
                       request, status, try_in_folders, user_name)
from tests.lib.tools import capturing
from tests.lib.tools.capturing import COOKED, COOKED_2, ETHERNET, RAW, START, framed, ipv4, pcap, pcapng, udp
from tests.lib.tools.running import TOOLS, run, want

# The modules of the tools find those beside them.
sys.path.insert(0, str(TOOLS))
from tools.trial.faults import Fault  # noqa: E402
from tools.trial.judge import Judge, findings  # noqa: E402
from tools.trial.settings import read_settings  # noqa: E402

tool = functools.partial(run, "rad_trial")

NAS, PROXY, OUT, HOME = ("192.0.2.10", 40000), ("192.0.2.1", 1813), ("192.0.2.1", 50000), ("198.51.100.20", 1813)
CONFIG = f"""listen = "0.0.0.0:1813"
[[client]]
address = "{NAS[0]}"
secret = "nas-secret"
[[home]]
name = "billing"
address = "{HOME[0]}:{HOME[1]}"
secret = "home-secret"
[[realm]]
name = "example.org"
home = "billing"
"""
KINDS = {
    "never": "requests that were never answered",
    "early": "answers to a NAS before a home server answered",
    "wrong": "answers to a NAS that answer another request (wrong Response Authenticator)",
    "wrong home": "answers of a home server that answer another request (wrong Response Authenticator)",
    "twice": "records at a home server under several Identifiers, Authenticators or ports, more than their NAS sent them under",
    "overtaken": "records that a later record of their session overtook on the way to a home server",
}
DELAY_TIME = 41
# What tcpdump is asked for beside each proxy.
CAPTURED = {"rad_proxy": ("-i", "any"), "radsecproxy": ("-i", "any", "-y", "LINUX_SLL"), "FreeRADIUS": ("-i", "lo")}


def record(session=b"S1", kind=1, user=b"bob@example.org", more=b""):
    """The attributes of a record."""
    return user_name(user) + attribute(ACCT_STATUS_TYPE, bytes([0, 0, 0, kind])) + attribute(ACCT_SESSION_ID, session) + more


class Scene:
    """What a capture sees of a NAS, a proxy and a home server."""

    def __init__(self):
        self.seen, self.time, self.number = [], START, 0

    def pass_by(self, source, target, octets, seconds=0.001):
        self.seen.append((self.time, source, target, octets))
        self.time += seconds
        return octets

    def wait(self, seconds):
        self.time += seconds

    def asks(self, identifier, attributes):
        return self.pass_by(NAS, PROXY, request(identifier, attributes, NAS_SECRET))

    def again(self, asked):
        return self.pass_by(NAS, PROXY, asked)

    def sends(self, identifier, attributes, out=OUT):
        """The proxy sends on, with a Proxy-State of its own."""
        self.number += 1
        return self.pass_by(out, HOME, request(identifier, attributes + mark(0, self.number), HOME_SECRET))

    def replies(self, sent, out=OUT, answered=None):
        return self.pass_by(HOME, out, answer(answered or sent, sent[1], sent[-12:], HOME_SECRET))

    def answers(self, asked, answered=None):
        return self.pass_by(PROXY, NAS, answer(answered or asked, asked[1], b"", NAS_SECRET))

    def whole(self, identifier, attributes):
        """A request that is answered as it should be."""
        asked = self.asks(identifier, attributes)
        self.replies(self.sends(identifier + 100, attributes))
        self.answers(asked)

    def frames(self, link=ETHERNET, **more):
        return [(moment, framed(link, ipv4(source, target, udp(source, target, octets)), **more))
                for moment, source, target, octets in self.seen]


def clean(scene):
    for number in range(5):
        scene.whole(number, record(b"S%d" % number))
        scene.whole(number + 20, record(b"S%d" % number, 2))
    asked = scene.pass_by(NAS, PROXY, status(7, bytes(16), b"", b"", NAS_SECRET))
    scene.answers(asked)


def is_repeated(scene):
    """A NAS sends again, and is answered twice; the proxy sends again, and the home server answers twice."""
    asked = scene.asks(1, record(b"S9"))
    sent = scene.sends(9, record(b"S9"))
    scene.again(asked)
    scene.pass_by(OUT, HOME, sent)
    scene.replies(sent)
    scene.answers(asked)
    scene.replies(sent)
    scene.again(asked)
    scene.answers(asked)


def is_never_answered(scene):
    scene.asks(1, record(b"S9"))
    scene.sends(8, record(b"S9"))
    scene.wait(60)


def is_open(scene):
    """The last request has no answer in the capture: that is no fault."""
    scene.wait(1)
    scene.asks(1, record(b"S9"))


def is_open_since_it_was_sent_again(scene):
    """The last request was sent first before the last seconds, and again in them: that is no fault either."""
    asked = scene.asks(1, record(b"S9"))
    scene.wait(12)
    scene.again(asked)
    scene.wait(1)
    scene.whole(50, record(b"S10"))


def is_answered_early(scene):
    asked = scene.asks(1, record(b"S9"))
    sent = scene.sends(8, record(b"S9"))
    scene.answers(asked)
    scene.replies(sent)


def is_answered_by_the_proxy(scene):
    scene.answers(scene.asks(1, record(b"S9")))


def has_two_identifiers(scene):
    asked = scene.asks(1, record(b"S9"))
    scene.sends(8, record(b"S9"))
    scene.replies(scene.sends(9, record(b"S9")))
    scene.answers(asked)


def has_two_authenticators(scene):
    """The Identifier and the port are the same, the Proxy-State is another."""
    asked = scene.asks(1, record(b"S9"))
    scene.sends(8, record(b"S9"))
    scene.replies(scene.sends(8, record(b"S9")))
    scene.answers(asked)


def has_two_of_the_nas(scene):
    """The NAS itself sends the record anew, under another Identifier and with an Acct-Delay-Time."""
    first, second = record(b"S9"), record(b"S9", more=attribute(DELAY_TIME, bytes([0, 0, 0, 5])))
    before = scene.asks(1, first)
    scene.sends(8, first)
    scene.wait(5)
    asked = scene.asks(2, second)
    scene.replies(scene.sends(9, second))
    scene.answers(asked)
    scene.answers(before)


def is_overtaken(scene):
    start, stop = scene.asks(1, record(b"S9", 1)), scene.asks(2, record(b"S9", 2))
    for asked, kind in ((stop, 2), (start, 1)):
        scene.replies(scene.sends(kind, record(b"S9", kind)))
        scene.answers(asked)


def other_sessions_overtake(scene):
    """Records of different sessions have no order."""
    first, second = scene.asks(1, record(b"S9")), scene.asks(2, record(b"S8"))
    for asked, session in ((second, b"S8"), (first, b"S9")):
        scene.replies(scene.sends(asked[1], record(session)))
        scene.answers(asked)


def answers_another_request(scene):
    first, second = scene.asks(1, record(b"S8")), scene.asks(2, record(b"S9"))
    scene.replies(scene.sends(8, record(b"S8")))
    scene.replies(scene.sends(9, record(b"S9")))
    scene.answers(second, first)
    scene.answers(second)
    scene.answers(first)


def home_answers_another_request(scene):
    asked = scene.asks(1, record(b"S9"))
    other = scene.sends(7, record(b"S7"))
    sent = scene.sends(8, record(b"S9"))
    scene.replies(sent, answered=other)
    scene.replies(sent)
    scene.answers(asked)


def leaves_the_identifier_to_the_next(scene):
    """An Identifier goes from request to request, and late answers are right for the request that they are for."""
    first = scene.asks(1, record(b"S8"))
    scene.replies(scene.sends(8, record(b"S8")))
    second = scene.asks(1, record(b"S9"))
    scene.replies(scene.sends(8, record(b"S9")))
    scene.answers(first)
    scene.answers(second)


def has_its_realm_off(scene):
    """The proxy takes the realm off."""
    asked = scene.asks(1, record(b"S9"))
    scene.replies(scene.sends(8, record(b"S9", user=b"bob")))
    scene.answers(asked)


PLANTED = {
    clean: {}, is_repeated: {}, is_never_answered: {"never": 1}, is_open: {}, is_open_since_it_was_sent_again: {}, is_answered_early: {"early": 1},
    is_answered_by_the_proxy: {"early": 1}, has_two_identifiers: {"twice": 1}, has_two_authenticators: {"twice": 1},
    has_two_of_the_nas: {}, is_overtaken: {"overtaken": 1}, other_sessions_overtake: {}, answers_another_request: {"wrong": 1},
    home_answers_another_request: {"wrong home": 1}, leaves_the_identifier_to_the_next: {}, has_its_realm_off: {},
}


def scene_of(*parts):
    scene = Scene()
    for part in parts:
        part(scene)
    return scene


def counted(text):
    """What a report has of each kind, where it is not nothing."""
    found = {kind: re.search(rf"^(\d+) {re.escape(words)}$", text, re.MULTILINE) for kind, words in KINDS.items()}
    hope("kinds", [kind for kind, it in found.items() if not it], [])
    return {kind: int(it[1]) for kind, it in found.items() if int(it[1])}


class Files:
    """A folder with the configuration, in which captures are judged."""

    def __init__(self, folder, config=CONFIG):
        self.folder = pathlib.Path(folder)
        self.config = self.write("rad_proxy.toml", config.encode())

    def write(self, name, octets):
        path = os.path.join(os.fsencode(self.folder), os.fsencode(name))
        pathlib.Path(os.fsdecode(path)).write_bytes(octets)
        return os.fsdecode(path)

    def judged(self, *captures, words=(), status=None):
        """The report of captures."""
        paths = [self.write(f"capture-{at}", it) if isinstance(it, bytes) else it for at, it in enumerate(captures)]
        ran = tool("judge", *words, self.config, *paths)
        text = ran.stdout.decode("ascii", "backslashreplace")
        hope(f"status: {ran.stderr!r} {text}", ran.returncode, (3 if counted(text) else 0) if status is None else status)
        hope("standard error", ran.stderr, b"")
        return text


def see(files, wanted, *captures, **more):
    text = files.judged(*captures, **more)
    if counted(text) != wanted:
        raise AssertionError(f"{counted(text)}, and not {wanted}: {text}")
    return text


def each_fault_is_told(program, folder):
    """Each planted fault is told beside a clean conversation, and nothing else is."""
    files = Files(folder)
    for part, wanted in PLANTED.items():
        try:
            see(files, wanted, pcap(scene_of(*{part: 0, clean: 0}).frames()))
        except AssertionError as fault:
            raise AssertionError(f"{part.__name__}: {fault}") from None


def all_faults_are_told_together(program, folder):
    """One capture with all faults has each of them as often as it was planted. What was open is now unanswered."""
    text = see(Files(folder), {kind: 1 for kind in KINDS} | {"never": 3, "early": 2, "twice": 2}, all_in_one())
    hope("what names the one that was never answered", "session S-is_never_answered realm example.org" in text, True)
    hope("which others are answered", re.findall("; it answers the request of [0-9:.]+: (.*)", text),
         ["client 192.0.2.10 port 40000 identifier 1 session S-answers_another_request8 realm example.org", "a record of no NAS"])


def all_in_one():
    frames, at = [], 0.0
    for part in PLANTED:
        frames += [(time + at, frame) for time, frame in Named(part).frames()]
        at = frames[-1][0] - START + 100
    return pcap(frames)


class Named(Scene):
    """A scene whose sessions have the name of its part, and whose Identifiers are used by no other."""

    def __init__(self, part):
        super().__init__()
        self.part = part.__name__.encode()
        part(self)

    def named(self, attributes):
        at = attributes.index(bytes([ACCT_SESSION_ID]), 2 + attributes[1])
        name = b"S-" + self.part + attributes[at + 3 : at + 4].replace(b"9", b"")
        return attributes[:at] + attribute(ACCT_SESSION_ID, name) + attributes[at + attributes[at + 1] :]

    def asks(self, identifier, attributes):
        return super().asks(identifier, self.named(attributes))

    def sends(self, identifier, attributes, out=OUT):
        return super().sends(identifier, self.named(attributes), out)


def each_form_is_read(program, folder):
    """Link types, tags, orders of octets and resolutions of times make no difference."""
    files, scene = Files(folder), scene_of(clean, has_two_identifiers)
    right = see(files, {"twice": 1}, pcap(scene.frames()))
    forms = {
        "raw": pcap(scene.frames(RAW), RAW),
        "cooked": pcap(scene.frames(COOKED), COOKED),
        "cooked 2": pcap(scene.frames(COOKED_2), COOKED_2),
        "vlan": pcap(scene.frames(tags=(7,))),
        "two tags": pcap(scene.frames(tags=(7, 8))),
        "vlan cooked": pcap(scene.frames(COOKED, tags=(7,)), COOKED),
        "vlan cooked 2": pcap(scene.frames(COOKED_2, tags=(7, 9)), COOKED_2),
        "big": pcap(scene.frames(), order=">"),
        "nanoseconds": pcap(scene.frames(), nanoseconds=True),
        "pcapng": pcapng(scene.frames()),
        "pcapng big": pcapng(scene.frames(), order=">"),
        "pcapng nanoseconds": pcapng(scene.frames(), resolution=9),
        "two interfaces": pcapng([(*it, at % 2) for at, it in enumerate(scene.frames())], (ETHERNET, ETHERNET)),
    }
    for name, octets in forms.items():
        text = files.judged(octets)
        if text != right:
            raise AssertionError(f"{name}: {text}, and not {right}")


def fragments_are_put_together(program, folder):
    """In order, in reverse, and between others; one that is missing is told."""
    files, scene = Files(folder), Scene()
    more = b"".join(attribute(CLASS, bytes([number]) * 200) for number in range(15))
    scene.whole(1, record(b"S1", more=more))
    scene.whole(2, record(b"S2", more=more))
    for turned in (False, True):
        frames = []
        for identity, (moment, source, target, octets) in enumerate(scene.seen):
            parts = list(capturing.fragments(source, target, octets, 800, identity))
            frames += [(moment, framed(ETHERNET, part)) for part in (reversed(parts) if turned else parts)]
        see(files, {}, pcap(frames))
        text = files.judged(pcap(frames[:-5] + frames[-4:]))
        hope("a lost fragment", "left out: 1 datagrams of which a fragment is missing" in text, True)


def copies_are_left_out(program, folder):
    """What two interfaces or two files saw is one datagram; what one saw twice is two."""
    files, scene = Files(folder), scene_of(clean, has_two_identifiers)
    right = files.judged(pcap(scene.frames()))
    twice = sorted(scene.frames(COOKED_2, interface=2) + scene.frames(COOKED_2, interface=3))
    left_out = f"left out: {len(scene.seen)} copies of a datagram that another interface or file has too\n"
    for captures in ([pcap(twice, COOKED_2)], [pcap(scene.frames()), pcap(scene.frames(COOKED), COOKED)]):
        text = files.judged(*captures)
        hope("the copies", left_out in text, True)
        hope("the report", text.replace(left_out, ""), right)
    frames = [it for it in scene.frames() for _ in range(2)]
    text = files.judged(pcap(frames))
    hope("seen twice at one interface", ("copies" in text, "11 requests of NASes and 11 retransmissions" in text), (False, True))


def what_is_no_radius_is_left_out(program, folder):
    """Other traffic, IPv6, packets that are cut by the snap length, and frames of another kind."""
    files, scene = Files(folder), scene_of(clean)
    frames = scene.frames()
    other = framed(ETHERNET, ipv4(NAS, PROXY, udp(NAS, PROXY, b"hello")))
    tcp = framed(ETHERNET, ipv4(NAS, PROXY, bytes(40), protocol=6))
    six = framed(ETHERNET, bytes([0x60, 0, 0, 0, 0, 8, 17, 1]) + bytes(40), kind=0x86DD)
    text = see(files, {}, pcap(frames + [(START + 5, it) for it in (other, tcp, six, b"", b"\0" * 13, framed(ETHERNET, b"", kind=0x0806))]))
    hope("no packet", "\n1 datagrams that are no RADIUS packet\n" in text, True)
    hope("IPv6", "left out: 1 UDP over IPv6" in text, True)
    ran = tool("judge", files.config, files.write("snap", pcap(frames, snap=60)))
    hope("all cut", (ran.returncode, b"no datagram" in ran.stderr), (4, True))
    text = files.judged(pcapng(frames, lost=12))
    hope("lost", "it says itself that it lost 12 frames" in text, True)


def faults_of(path, config):
    """What the tool's judge says of a capture, in this process: its lines, or its fault in words."""
    try:
        made = Judge(read_settings(config), [path], None, set(), 5)
        made.read()
        return [*findings(made)], [*made.reader.notes()]
    except Fault as fault:
        return str(fault), []


def cut_anywhere_it_is_right_or_refused(program, folder):
    """A capture that is cut after any octet gives what its whole frames give, and says that it was cut; or it is refused in words."""
    see_cuts(Files(folder), scene_of(has_two_identifiers, is_open).frames())


def longer_ones_are_cut_anywhere(program, folder):
    """The same of one with several faults."""
    see_cuts(Files(folder), scene_of(has_two_identifiers, is_overtaken, answers_another_request).frames())


def see_cuts(files, frames):
    """Whether it is so of a capture of these frames, in both forms."""
    for make in (pcap, pcapng):
        whole, least = make(frames), len(make([]))
        ends = {len(make(frames[:count])): count for count in range(len(frames) + 1)}
        right = {}
        for length in range(len(whole) + 1):
            count = max((it for end, it in ends.items() if end <= length), default=0)
            if count not in right:
                right[count] = faults_of(files.write("part", make(frames[:count])), files.config)[0]
            lines, notes = faults_of(files.write("cut", whole[:length]), files.config)
            is_told = length in ends or length < least or any("cut short after" in it for it in notes)
            if not (isinstance(lines, str) or is_told and lines == right[count]):
                raise AssertionError(f"{make.__name__} cut after {length} octets: {lines} {notes}, and not {right[count]}")


def spoiled_anywhere_it_ends_in_words(program, folder):
    """Octets that are turned anywhere, 250 times in both forms, give a report or one line, and no traceback."""
    see_spoiled(folder, 250)


def spoiled_often_it_ends_in_words(program, folder):
    """The same 3000 times."""
    see_spoiled(folder, 3000)


def see_spoiled(folder, count):
    """Whether it is so of so many spoiled captures in each form, and of files that are none."""
    files, chance = Files(folder), random.Random(1)
    frames = scene_of(clean, has_two_identifiers, is_overtaken).frames()
    for made in (pcap(frames), pcapng(frames)):
        for _ in range(count):
            octets = bytearray(made)
            for _ in range(chance.choice((1, 1, 3))):
                at = chance.randrange(len(octets)) if chance.random() < 0.7 else chance.randrange(120)
                octets[at] = chance.choice((octets[at] ^ 1 << chance.randrange(8), 0, 255))
            found, _ = faults_of(files.write("spoiled", bytes(octets)), files.config)
            hope("a fault of one line", isinstance(found, str) and ("\n" in found or not found), False)
    late = pcapng([(2**60, frames[0][1])], resolution=0)
    for octets in (b"", b"\n", b"nothing", made[:3], bytes(100), b"\x0a\x0d\x0d\x0a" + bytes(100), late):
        ran = tool("judge", files.config, files.write("other", octets))
        hope("status", (ran.returncode, ran.stdout, ran.stderr.count(b"\n"), b"Traceback" in ran.stderr), (4, b"", 1, False))


def names_are_printed_in_ascii(program, folder):
    """Control characters and octets that are not UTF-8, in names of users, realms, sessions and files."""
    files, scene = Files(folder), Scene()
    scene.asks(1, record(b"S\n\x1b[2J\xff\x00", user=b"b\xc3\xa9b@\xff\nexample.org"))
    scene.wait(60)
    scene.whole(2, record(b"S2"))
    path = files.write(b"na\nme\xff\x1b", pcap(scene.frames())[:-1])
    ran = tool("judge", files.config, path)
    hope("the status", ran.returncode, 3)
    text = ran.stdout.decode("utf-8")
    hope("not printable", [it for it in text if not it.isprintable() and it != "\n"], [])
    hope("the session", "session S%0A%1B[2J%FF%00 realm %FF%0Aexample.org; at no home server" in text, True)
    hope("the file", "na%0Ame%FF%1B: cut short" in text, True)
    ran = tool("judge", files.config, path + "x")
    hope("a file that is not there", ran.stderr.count(b"\n"), 1)


def secrets_are_judged(program, folder):
    """Under another secret of a client or a home server it says that the Authenticators are wrong."""
    files, capture = Files(folder, CONFIG.replace("nas-secret", "other")), pcap(scene_of(clean).frames())
    hope("a client's", "10 requests with a wrong Request Authenticator under the client's secret" in files.judged(capture), True)
    files = Files(folder, CONFIG.replace("home-secret", "other"))
    text = files.judged(capture)
    hope("a home server's", "10 requests to a home server with a wrong Request Authenticator under its secret" in text, True)


def attributes_are_ignored(program, folder):
    """An attribute that the proxy adds makes another record of each, until it is left out."""
    files, scene = Files(folder), Scene()
    for number in range(3):
        asked, attributes = scene.asks(number, record(b"S%d" % number)), record(b"S%d" % number, more=attribute(CLASS, b"added"))
        scene.replies(scene.sends(number, attributes))
        scene.answers(asked)
    text = see(files, {"early": 3}, pcap(scene.frames()))
    hope("a hint", "--ignore TYPE,.. leaves attributes out" in text, True)
    see(files, {}, pcap(scene.frames()), words=("--ignore", f"99,{CLASS}"))


def one_side_is_not_enough(program, folder):
    """Of a capture of one side it says so."""
    files, scene = Files(folder), scene_of(clean)
    for places in ((NAS, PROXY), (OUT, HOME)):
        part = Scene()
        part.seen = [it for it in scene.seen if it[1] in places and it[2] in places]
        text = tool("judge", files.config, files.write("part", pcap(part.frames()))).stdout.decode()
        hope(text, "the capture has not both sides" in text or "the capture lost requests" in text, True)


def another_port_is_named(program, folder):
    """The proxy of today may listen elsewhere."""
    files = Files(folder, CONFIG.replace("0.0.0.0:1813", "192.0.2.77:1899"))
    capture = pcap(scene_of(clean, is_overtaken).frames())
    see(files, {"overtaken": 1}, capture, words=("--proxy", f"{PROXY[0]}:{PROXY[1]}"))


def errors_are_one_line(program, folder):
    """Calls and configurations that are wrong."""
    files, capture = Files(folder), pcap(scene_of(clean).frames())
    path, other = files.write("capture", capture), files.write("other.toml", b"listen = 3\n")
    both = (files.config, path)
    calls = {
        1: [(), (files.config,), ("--no", *both), ("--ignore", "x", *both), ("--ignore", "0", *both), ("--show", "x", *both),
            ("--proxy", "here", *both), ("--a\nb", *both), ("--proxy", "a\nb", *both)],
        2: [(other, path), (path, path)],
        4: [(folder, path), (files.config, folder), (files.config, "/nowhere"), ("/nowhere", path), (files.config, files.config)],
    }
    for status, words in ((status, words) for status, several in calls.items() for words in several):
        ran = tool("judge", *words)
        found = ran.returncode, ran.stdout, ran.stderr.count(b"\n"), b"Traceback" in ran.stderr
        hope(f"{words}: {ran.stderr}", found, (status, b"", 1, False))
    for word in ("--help", "--version"):
        ran = tool(word)
        hope(word, (ran.returncode, ran.stderr, b"rad_trial" in ran.stdout), (0, b"", True))


def captures_take_bounded_time_and_memory(program, folder):
    """20,000 requests, each answered, at 2000 a second, from eight NASes' ports."""
    see_bounds(Files(folder), 20_000, 120, 20)


def long_captures_take_bounded_time_and_memory(program, folder):
    """The same of 300,000 requests."""
    see_bounds(Files(folder), 300_000, 500, 200)


def see_bounds(files, count, mebibytes, bound):
    """Whether so many requests take no more memory, and no more seconds of a processor."""
    path = files.folder / "long"
    with path.open("wb") as file:
        file.write(pcap([]))
        for at in range(count):
            file.write(conversation(at))
    began = time.monotonic()
    words = [sys.executable, "-c", MEASURED, TOOLS / "rad_trial", "judge", files.config, path]
    ran = subprocess.run(words, capture_output=True, check=False)
    text, (seconds, memory) = ran.stdout.decode(), map(float, ran.stderr.split()[-2:])
    print(f"{count} requests, {path.stat().st_size / 1e6:.0f} MB: {time.monotonic() - began:.0f} s, {seconds:.0f} s of a processor, "
          f"{memory / 1024:.0f} MiB", flush=True)
    hope("its requests", f"{count} requests of NASes and 0 retransmissions, {count} answers" in text, True)
    hope("findings", counted(text), {})
    hope(f"memory below {mebibytes} MiB", memory < mebibytes * 1024, True)
    hope(f"less than {bound} s of a processor", seconds < bound, True)


def captures_are_begun(program, folder):
    """The proxies that are here go through losses, each in a network of its own, while the other tests run."""
    want("ip", "tcpdump", root=True)
    captures(program)


@functools.cache
def captures(program):
    """A process of losses.py for each proxy that is here, and the folder that has a folder for each."""
    made, begun = tempfile.TemporaryDirectory(), {}
    for name, words in CAPTURED.items():
        if name == "rad_proxy" or shutil.which(name.lower()):
            folder = pathlib.Path(made.name, name)
            folder.mkdir()
            begun[name] = subprocess.Popen(
                ["unshare", "--net", sys.executable, "-m", "tests.lib.tools.losses", name, program, folder, "12", *words])
    return made, begun


def losses(program, name):
    """A proxy under losses, captured by tcpdump: the judge finds what both sides know, in number."""
    want("ip", "tcpdump", *({name.lower()} - {"rad_proxy"}), root=True)
    made, begun = captures(program)
    hope("how losses.py ended", begun[name].wait(300), 0)
    folder = pathlib.Path(made.name, name)
    truth = json.loads(pathlib.Path(folder, "truth").read_text())
    ran = tool("judge", os.path.join(folder, "rad_proxy.toml"), os.path.join(folder, "capture"))
    text, counts = ran.stdout.decode(), truth["counts"]
    wanted = (f"{counts['requests']} requests of NASes and {counts['again']} retransmissions, {counts['answers']} answers; "
              f"{counts['home']} requests to home servers ")
    hope("the first line", text[: len(wanted)], wanted)
    hope(text, counted(text), truth["found"])
    hope("the status", ran.returncode, 3 if truth["found"] else 0)
    return truth["found"]


def the_program_loses_nothing(program, folder):
    """The program under losses, captured at all interfaces: nothing is found."""
    hope("findings", losses(program, "rad_proxy"), {})


def radsecproxy_is_judged_right(program, folder):
    """radsecproxy under losses, captured at all interfaces in the older cooked form."""
    losses(program, "radsecproxy")


def freeradius_is_judged_right(program, folder):
    """FreeRADIUS under losses, captured at an interface."""
    losses(program, "FreeRADIUS")


def dpkt_reads_the_same(program, folder):
    """Debian's python3-dpkt reads the same datagrams out of captures, and what it writes as pcapng is read."""
    want("/usr/bin/python3")
    if subprocess.run(["/usr/bin/python3", "-c", "import dpkt.pcapng"], stderr=subprocess.DEVNULL, check=False).returncode:
        raise LeftOut("it wants python3-dpkt")
    files, scene = Files(folder), scene_of(clean, has_two_identifiers)
    written, path = files.folder / "written", files.write("read", pcap(scene.frames(tags=(7,))))
    ran = subprocess.run(["/usr/bin/python3", "-c", WITH_DPKT, path, written], capture_output=True, check=True)
    hope("the datagrams", ran.stdout.decode().split(), [octets.hex() for _, _, _, octets in scene.seen])
    hope("the report", files.judged(str(written)), files.judged(path))


WITH_DPKT = """
import dpkt, sys
with open(sys.argv[1], "rb") as read, open(sys.argv[2], "wb") as write:
    writer = dpkt.pcapng.Writer(write)
    for time, octets in dpkt.pcap.Reader(read):
        print(dpkt.ethernet.Ethernet(octets).ip.data.data.hex())
        writer.writepkt(octets, time)
"""
MEASURED = ("import resource, subprocess, sys; subprocess.run(sys.argv[1:]); "
            "it = resource.getrusage(resource.RUSAGE_CHILDREN); print(it.ru_utime + it.ru_stime, it.ru_maxrss, file=sys.stderr)")


def conversation(at):
    """The four frames of a request, in a file."""
    moment, port, identifier = START + at / 2000, 40000 + at % 8, at // 8 % 256
    attributes = record(b"%08x" % at, user=b"user%d@example.org" % (at % 5000), more=attribute(CLASS, bytes(100)))
    asked, out = request(identifier, attributes, NAS_SECRET), ("192.0.2.1", 50000 + at % 4)
    sent = request(at // 4 % 256, attributes + mark(0, at), HOME_SECRET)
    passed = (((NAS[0], port), PROXY, asked), (out, HOME, sent), (HOME, out, answer(sent, sent[1], mark(0, at), HOME_SECRET)),
              (PROXY, (NAS[0], port), answer(asked, identifier, b"", NAS_SECRET)))
    made = b""
    for step, (source, target, octets) in enumerate(passed):
        frame, whole = framed(ETHERNET, ipv4(source, target, udp(source, target, octets))), round((moment + step / 10000) * 1e6)
        made += struct.pack("<IIII", whole // 10**6, whole % 10**6, len(frame), len(frame)) + frame
    return made


TESTS = [captures_are_begun, each_fault_is_told, all_faults_are_told_together, each_form_is_read, fragments_are_put_together,
         copies_are_left_out, what_is_no_radius_is_left_out, cut_anywhere_it_is_right_or_refused, spoiled_anywhere_it_ends_in_words,
         names_are_printed_in_ascii, secrets_are_judged, attributes_are_ignored, one_side_is_not_enough, another_port_is_named,
         errors_are_one_line, dpkt_reads_the_same, the_program_loses_nothing, radsecproxy_is_judged_right, freeradius_is_judged_right,
         captures_take_bounded_time_and_memory]
LONG = [longer_ones_are_cut_anywhere, spoiled_often_it_ends_in_words, long_captures_take_bounded_time_and_memory]


if __name__ == "__main__":
    try_in_folders(LONG if is_asked("--long") else TESTS, __doc__)
