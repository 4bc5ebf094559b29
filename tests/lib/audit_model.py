#!/usr/bin/env python3
"""What `rad_audit` answers, written a second time: from docs/formats.md, by Python's datetime, json, hashlib and tomllib.

usage: audit_model.py [--from] [--partial] [--all] [--sum RUN:FILE:SUM].. CONFIG FILE..    audits as the program does

Of a configuration it looks at the addresses, names and secrets alone.
"""
import hashlib
import json
import os
import pathlib
import re
import sys
import tomllib
import unicodedata
from datetime import date

MOST_CONFIG, MOST_LINE = 1_048_576, 65_536
REQUEST, RESPONSE, PROXY_STATE, MESSAGE_AUTHENTICATOR = 4, 5, 33, 80
USER_NAME, STATUS_TYPE, SESSION_ID = 1, 40, 44
MOST_RANGES = 4096
WORDS_THAT_ASK = "--from", "--partial", "--all"
USAGE = "usage: rad_audit [--rows] [--from] [--partial] [--all] [--sum RUN:FILE:SUM].. CONFIG FILE.."
# The exit status of each finding: the first of these that was found.
STATUSES = {"wrong": 5, "contradicted": 9, "file": 8, "gap": 3, "part": 7, "nothing": 10, "open": 6}
OCTETS, ADDRESS = re.compile(r"([0-9a-fA-F]{2})*"), re.compile(r"(0|[1-9][0-9]{0,2})(\.(0|[1-9][0-9]{0,2})){3}")
TIME = re.compile(r"[0-9]{4}-[0-9]{2}-[0-9]{2}T[0-9]{2}:[0-9]{2}:[0-9]{2}\.[0-9]{3}Z")
HEAD = {"type", "run", "time"}
ENTRY = HEAD | {"home", "lane", "serial", "record", "client", "port", "identifier", "authenticator", "sent", "reply", "response"}
WORDS = {"realm", "session", "user"}
OPTIONAL = WORDS | {f"{word}_octets" for word in WORDS} | {"status"}
LEFT = HEAD | {"home", "lane", "record", "client", "port", "identifier", "authenticator", "state", "request"}
STATES = {"queued", "outstanding", "untaken"}
LIMITS = {"lane": 2**16, "serial": 2**63, "record": 2**64, "port": 2**16, "identifier": 2**8, "status": 2**32, "file": 2**64, "entries": 2**64,
          "accepted": 2**64, "left": 2**64, "sendings": 2**32, "hidden": 2**32, "count": 2**64, "answer_lane": 2**16, "answer_serial": 2**63, "first_lane": 2**16,
          "first_record": 2**64}
SHA_256 = re.compile("[0-9a-fA-F]{64}")
KINDS = "entry", "left", "unsent", "again", "resumed"
COUNT = HEAD | {"home", "lane", "record", "count"}
# What an `again` line has if an earlier run answered, and a line of a request that was taken over.
EARLIER = HEAD | {"home", "lane", "answer_run", "answer_lane", "answer_serial", "count"}
RESUMED = HEAD | {"home", "lane", "record", "first_run", "first_lane", "first_record"}
RUN = re.compile("[0-9a-fA-F]{16}")
# The end of a line, which has its sum: in lower case, and last.
TAIL = re.compile(rb'(?s)(.*),"sum":"([0-9a-f]{64})"\}')
# The categories of characters that are not printed as they are.
HIDDEN = {"Cc", "Cf", "Zl", "Zp"}


class Ends(Exception):
    """The program ends early: with this line on standard error, and this status."""


class NoLine(Exception):
    """It is no line of a ledger."""


def need(fact):
    if not fact:
        raise NoLine


def is_hidden(character):
    """Whether a character is a control (Cc), a format character (Cf), or a separator of lines or paragraphs (Zl, Zp)."""
    return unicodedata.category(character) in HIDDEN


def shown(word):
    """A word as it is printed: each octet of a control or format character, or of a separator of lines, as `%` and two digits."""
    return "".join("".join(f"%{octet:02x}" for octet in c.encode()) if is_hidden(c) else c for c in word)


# Lines.


def members(pairs):
    need(len({key for key, _ in pairs}) == len(pairs))
    return dict(pairs)


def no_number(text):
    raise NoLine


def is_time(text):
    """Whether a text has the form of a moment, and is one. Before the year 1 this looks at a year that has as many days in each month."""
    if not TIME.fullmatch(text):
        return False
    year, month, day = int(text[:4]), int(text[5:7]), int(text[8:10])
    try:
        date(year or 400, month, day)
    except ValueError:
        return False
    return text[11:13] < "24" and text[14:16] < "60" and text[17:19] < "60"


def whole(text):
    """A number without sign: `-0` is none."""
    need(not text.startswith("-"))
    return int(text)


def are_right(keys, line):
    """Whether the members at these keys have their forms."""
    for key in keys:
        value, limit = line[key], LIMITS.get(key)
        need(type(value) is str if limit is None else type(value) is int and 0 <= value < limit)
        if key in ("sent", "reply", "response", "request") or key.endswith("_octets"):
            need(OCTETS.fullmatch(value))


def read_lanes(line, *forms):
    """The lanes of a line, each of which has the keys of one of these forms."""
    need(type(line["lanes"]) is list)
    for lane in line["lanes"]:
        need(type(lane) is dict and set(lane) in forms)
        are_right(lane.keys(), lane)


def read_request(keys, least, line):
    """What an entry and a request that was left both have."""
    need(least <= keys <= least | OPTIONAL | {"sendings", "accepted"} | ({"kept"} if least == LEFT else set()))
    need(not any({word, f"{word}_octets"} <= keys for word in WORDS))
    are_right(keys - {"accepted", "kept"}, line)
    need(line.get("kept", True) is True)
    need(ADDRESS.fullmatch(line["client"]) and all(int(number) < 256 for number in line["client"].split(".")))
    need(re.fullmatch("[0-9a-fA-F]{32}", line["authenticator"]))


def read_sum(line, key):
    need(type(line[key]) is str and SHA_256.fullmatch(line[key]))


def read_before(line):
    """The file of another run that a line names, if it names one. An earlier version had `octets` and `sha256` of it."""
    if "before" in line:
        before = line["before"]
        need(type(before) is dict and {"name"} <= set(before) <= {"name", "sum", "octets", "sha256"})
        are_right({"name"}, before)
        if "sum" in before:
            read_sum(before, "sum")


def read_line(octets):
    """The members of a line."""
    need(len(octets) <= MOST_LINE)
    try:
        line = json.loads(octets.decode("utf-8"), object_pairs_hook=members, parse_int=whole, parse_float=no_number, parse_constant=no_number)
    except (ValueError, RecursionError):
        raise NoLine from None
    need(type(line) is dict)
    if "sum" in line:
        read_sum(line, "sum")
    keys, kind = set(line) - {"sum"}, line.get("type")
    if kind == "hidden":
        need("sum" in line and keys <= {"type", "lane", "kind"} and line.get("kind", KINDS[0]) in KINDS)
        are_right(keys & {"lane"}, line)
        return line
    need(HEAD <= keys)
    are_right(HEAD, line)
    need(RUN.fullmatch(line["run"]) and is_time(line["time"]))
    need(kind in ("begin", "end", *KINDS))
    if kind == "begin":
        need(keys - {"before", "hidden"} == HEAD | {"version", "file", "lanes"})
        are_right({"version", "file"} | keys & {"hidden"}, line)
        read_before(line)
        read_lanes(line, {"lane", "home", "serial"})
    elif kind == "end":
        need(keys - {"hidden"} == HEAD | {"lanes"})
        are_right(keys & {"hidden"}, line)
        read_lanes(line, {"lane", "entries"}, {"lane", "entries", "accepted", "left"})
    elif kind in ("unsent", "again"):
        need((keys == COUNT or kind == "again" and keys == EARLIER) and line["count"])
        are_right(keys, line)
        need(RUN.fullmatch(line.get("answer_run", line["run"])))
    elif kind == "resumed":
        need(keys == RESUMED)
        are_right(keys, line)
        need(RUN.fullmatch(line["first_run"]))
    else:
        read_request(keys, ENTRY if kind == "entry" else LEFT, line)
        accepted = line.get("accepted", line["time"])
        need(type(accepted) is str and is_time(accepted) and (kind == "entry" or line["state"] in STATES))
    return line


def line_sum(octets, line):
    """The SHA-256 of what stands before the sum of a line, if nothing of that is left out, and the sum; None where it has none at its end."""
    if line["type"] == "hidden":
        return None, bytes.fromhex(line["sum"])
    found = TAIL.fullmatch(octets)
    if not found:
        return None
    return None if "hidden" in line else hashlib.sha256(found[1]).digest(), bytes.fromhex(found[2].decode())


# Packets.


def attributes(packet):
    """The attributes' texts; None where they are none."""
    found, at = [], 20
    while at < len(packet):
        length = packet[at + 1] if at + 1 < len(packet) else 0
        if length < 2 or at + length > len(packet):
            return None
        found.append(packet[at : at + length])
        at += length
    return found


def is_packet(octets):
    return 20 <= len(octets) <= 4096 and int.from_bytes(octets[2:4], "big") == len(octets) and attributes(octets) is not None


def is_right(packet, authenticator, secret):
    return packet[4:20] == hashlib.md5(packet[:4] + authenticator + packet[20:] + secret).digest()


def last_proxy_state(found):
    places = [at for at, attribute in enumerate(found) if attribute[0] == PROXY_STATE]
    return places[-1] if places else None


def is_request(head, sent, mark, client):
    """Whether what was sent has the attributes of the request of this Identifier and Authenticator, and the mark behind them."""
    *its, last = attributes(sent) or [None]
    identifier, authenticator = head
    asked = bytes([REQUEST]) + identifier + (20 + len(b"".join(its))).to_bytes(2, "big") + authenticator + b"".join(its)
    return last == mark and is_right(asked, bytes(16), client)


def is_reply(reply, sent, mark, home):
    """Whether a reply is right for what was sent, and returns its mark."""
    found = attributes(reply)
    at = last_proxy_state(found)
    is_plain = not any(attribute[0] == MESSAGE_AUTHENTICATOR for attribute in found)
    is_its = reply[0] == RESPONSE and reply[1] == sent[1] and is_right(reply, sent[4:20], home)
    return is_its and is_plain and at is not None and found[at] == mark


def without_last_state(reply):
    """The attributes of a reply without its last Proxy-State."""
    found = attributes(reply)
    at = last_proxy_state(found)
    return b"".join(found[:at] + found[at + 1 :])


def is_response(head, response, others, client):
    """Whether a response is right for the request of this Identifier and Authenticator, and has these attributes where they are known."""
    identifier, authenticator = head
    is_its = response[:2] == bytes([RESPONSE]) + identifier and others in (None, response[20:])
    return is_its and is_right(response, authenticator, client)


def value_of(packet, kind):
    """The Value of the first attribute of a Type."""
    return next((attribute[2:] for attribute in attributes(packet) if attribute[0] == kind), None)


def word_of(line, key):
    """A word of a line, as octets."""
    octets = line.get(f"{key}_octets")
    return line[key].encode() if key in line else None if octets is None else bytes.fromhex(octets)


def told_words(line):
    """What a line says of its realm, session, user and status."""
    return *(word_of(line, key) for key in ("realm", "session", "user")), line.get("status")


def words_of(packet):
    """What a request says of its realm, session, user and status."""
    user, status = value_of(packet, USER_NAME), value_of(packet, STATUS_TYPE)
    realm = user.rpartition(b"@")[2] if user is not None and b"@" in user else None
    number = int.from_bytes(status, "big") if status is not None and len(status) == 4 else None
    return realm, value_of(packet, SESSION_ID), user, number


class Numbers:
    """The numbers of a lane's requests, and from which one on it is known which are there."""

    def __init__(self):
        self.numbers, self.ranges, self.exact_from = set(), 0, 0

    def has(self, number):
        return number >= self.exact_from and number in self.numbers

    def add(self, number):
        """Adds one that is not there. If there are too many ranges then, all is there from the lowest one on to the next one."""
        if number in self.numbers:
            return
        self.numbers.add(number)
        self.ranges += 1 - (number - 1 in self.numbers) - (number + 1 in self.numbers)
        if self.ranges > MOST_RANGES:
            end = min(self.numbers)
            while end in self.numbers:
                end += 1
            first = min(other for other in self.numbers if other > end)
            self.numbers.update(range(end, first))
            self.ranges, self.exact_from = self.ranges - 1, max(self.exact_from, first)


class Chain:
    """The chain of a run: the sum of its last line, or None if any is right behind it, and whether sums are looked at."""

    def __init__(self):
        self.last, self.is_sealed, self.next, self.hidden, self.is_bare = bytes(32), True, 0, 0, False

    def fits(self, its):
        """Whether the sum of a line is right behind the last one."""
        digest, told = its
        return None in (self.last, digest) or hashlib.sha256(self.last + digest).digest() == told

    def begin(self, file, its):
        """Whether the sum of a `begin` is right."""
        if its is None:
            is_right = self.next == 0 or not self.is_sealed
        else:
            is_right = file != self.next or not self.is_sealed or self.fits(its)
        self.last, self.is_sealed, self.next = its and its[1], its is not None, min(file + 1, 2**64 - 1)
        self.is_bare = self.is_bare or its is None
        return is_right

    def take(self, its):
        """Whether the sum of another line is right."""
        if not self.is_sealed:
            return True
        is_right = its is not None and self.fits(its)
        self.last = its and its[1]
        return is_right


class Audit:
    """What is known of the runs, and what was printed."""

    def __init__(self, config, asked=(), sums=()):
        self.asked, self.found, self.files, self.before, self.begun = asked, set(), {}, {}, None
        self.chains, self.sums, self.kept, self.last, self.ended = {}, sums, set(), None, set()
        self.returns, self.is_packed = False, False
        # The sums of other runs' lines that are looked for, each with whether it was found.
        self.ties = {}
        self.homes = {home["name"]: home["secret"].encode() for home in config["home"]}
        self.clients = {client["address"]: client["secret"].encode() for client in config["client"]}
        self.runs, self.printed = {}, []

    def is_wrong(self, place, reason):
        self.printed.append(f"{place}: {reason}")
        self.found.add("wrong")

    def lacks(self, place, name, first, last):
        self.printed.append(f"{place}: {name} gap {first} to {last}")

    def lane(self, run, number):
        return next((lane for lane in self.runs.get(run, []) if lane["lane"] == number), None)

    def packets(self, entry):
        """What is wrong with the packets of an entry."""
        sent, reply, response = (bytes.fromhex(entry[key]) for key in ("sent", "reply", "response"))
        if not all(map(is_packet, (sent, reply, response))):
            return "NoPacket"
        home, client = self.homes.get(entry["home"]), self.clients.get(entry["client"])
        mark = bytes([PROXY_STATE, 12]) + entry["lane"].to_bytes(2, "big") + entry["record"].to_bytes(8, "big")
        head = bytes([entry["identifier"]]), bytes.fromhex(entry["authenticator"])
        if home is not None and (sent[0] != REQUEST or not is_right(sent, bytes(16), home) or attributes(sent)[-1:] != [mark]):
            return "WrongSent"
        if client is not None and not is_request(head, sent, mark, client):
            return "WrongRequest"
        if home is not None and not is_reply(reply, sent, mark, home):
            return "WrongReply"
        others = None if home is None else without_last_state(reply)
        return None if client is None or is_response(head, response, others, client) else "WrongResponse"

    def take_entry(self, place, entry):
        run = entry["run"].lower()
        lane = self.lane(run, entry["lane"])
        lane = lane if lane and lane["home"] == entry["home"] else None
        reason = self.packets(entry) or ("UnknownLane" if lane is None else None)
        if reason is None and entry["serial"] < lane["next"]:
            reason = "SerialNotAbove"
        if reason is None and lane["numbers"].has(entry["record"]):
            reason = "RecordTwice"
        if reason is None and told_words(entry) != words_of(bytes.fromhex(entry["sent"])):
            reason = "WrongWords"
        if reason is not None:
            if lane:
                lane["wrong sent"] += reason == "WrongSent"
            return self.is_wrong(place, reason)
        lane["back"], lane["last"] = lane["back"] + (entry["time"] < lane["last"]), entry["time"]
        lane["numbers"].add(entry["record"])
        lane["not judged"] += entry["home"] not in self.homes or entry["client"] not in self.clients
        lane["events"].append(None)
        if lane["next"] < entry["serial"]:
            gap = lane["next"], entry["serial"] - 1
            lane["gap"] = lane["gap"] or gap
            self.lacks(place, named(run, lane), *gap)
        lane["next"], lane["entries"] = entry["serial"] + 1, lane["entries"] + 1

    def request(self, left):
        """What is wrong with the packet of a request that was left."""
        request, client = bytes.fromhex(left["request"]), self.clients.get(left["client"])
        if not is_packet(request):
            return "NoPacket"
        is_its = request[:2] == bytes([REQUEST, left["identifier"]]) and request[4:20] == bytes.fromhex(left["authenticator"])
        return None if is_its and (client is None or is_right(request, bytes(16), client)) else "WrongSent"

    def take_left(self, place, left):
        lane = self.lane(left["run"].lower(), left["lane"])
        lane = lane if lane and lane["home"] == left["home"] else None
        reason = self.request(left) or ("UnknownLane" if lane is None else None)
        if reason is None and lane["numbers"].has(left["record"]):
            reason = "RecordTwice"
        if reason is None and told_words(left) != words_of(bytes.fromhex(left["request"])):
            reason = "WrongWords"
        if reason is not None:
            return self.is_wrong(place, reason)
        lane["numbers"].add(left["record"])
        lane["left"] += 1
        lane["not judged"] += left["client"] not in self.clients
        lane["events"].append(None)

    def take_end(self, place, end):
        run = end["run"].lower()
        self.ended |= {run} & self.runs.keys()
        for count in end["lanes"]:
            lane = self.lane(run, count["lane"])
            if lane is None:
                self.is_wrong(place, "UnknownLane")
                continue
            lane["end"], lane["told"] = count["entries"], (count["accepted"], count["left"]) if "left" in count else None
            lane["events"].append((lane["end"], lane["told"]))
            if lane["next"] < lane["end"]:
                self.lacks(place, named(run, lane), lane["next"], lane["end"] - 1)
            if lane["resumed"] and lane["told"] and any(number >= lane["told"][0] for number, _ in lane["resumed"]):
                self.is_wrong(place, "UnknownRecord")

    def take_count(self, place, line):
        """A count of what became of a response."""
        lane = self.lane(line["run"].lower(), line["lane"])
        if lane is None or lane["home"] != line["home"]:
            return self.is_wrong(place, "UnknownLane")
        numbers = lane["numbers"]
        if "answer_run" in line:
            if line["answer_run"].lower() == line["run"].lower():
                return self.is_wrong(place, "UnknownRecord")
            return lane["events"].append(None)
        if line["record"] >= numbers.exact_from and line["record"] not in numbers.numbers and lane["entries"] == lane["next"]:
            return self.is_wrong(place, "UnknownRecord")
        lane["events"].append(None)

    def take_resumed(self, place, line):
        """A request that a lane took over from an earlier run."""
        lane = self.lane(line["run"].lower(), line["lane"])
        if lane is None or lane["home"] != line["home"]:
            return self.is_wrong(place, "UnknownLane")
        run, old, number = line["first_run"].lower(), line["first_lane"], line["first_record"]
        if run == line["run"].lower():
            return self.is_wrong(place, "UnknownRecord")
        last, first = lane["resumed"][-1] if lane["resumed"] else (-1, None)
        if lane["numbers"].has(line["record"]) or line["record"] <= last or first and first[:2] == (run, old) and number <= first[2]:
            return self.is_wrong(place, "RecordTwice")
        lane["resumed"].append((line["record"], (run, old, number)))
        lane["events"].append(None)

    def expect(self, begin):
        """Looks for the line of another run that a first line names by its sum."""
        before = begin.get("before", {})
        name = parts_of(before.get("name", ""))
        if name and "sum" in before:
            run, its = name[0], bytes.fromhex(before["sum"])
            self.ties.setdefault((run, its), run in self.chains and self.chains[run].last == its)

    def see(self, run, file, its):
        """Takes the sum of a line of a run in this file."""
        self.kept |= {word for word in self.sums if word[1:] == (run, file, its)}
        if (run, its) in self.ties:
            self.ties[run, its] = True

    def chain(self, place, line, octets):
        """Adds a line to the chain of its run, and judges its sum."""
        kind, its = line["type"], line_sum(octets, line)
        run = self.last if kind == "hidden" else line["run"].lower()
        if kind == "begin":
            self.chains.setdefault(run, Chain())
        chain = self.chains.get(run)
        if chain is None:
            return self.is_wrong(place, "UnknownLane") if kind == "hidden" else None
        self.last = run
        if kind == "begin":
            if chain.next == line["file"] and None not in (chain.last, its):
                self.kept |= {word for word in self.sums if word[1:] == (run, line["file"], chain.last)}
            is_right = chain.begin(line["file"], its)
        else:
            is_right = chain.take(its)
        if its is not None:
            chain.hidden += its[0] is None
            if chain.is_sealed:
                self.see(run, max(chain.next - 1, 0), its[1])
        if kind == "hidden":
            lane = self.lane(run, line.get("lane"))
            if lane and line.get("kind") in lane["hidden"]:
                lane["hidden"][line["kind"]] += 1
        if not is_right:
            self.is_wrong(place, "WrongSum")

    def take_begin(self, place, begin):
        fresh = {"gap": None, "end": None, "told": None, "entries": 0, "left": 0, "not judged": 0, "last": "", "back": 0, "wrong sent": 0}
        run, file = begin["run"].lower(), begin["file"]
        if self.begun not in (None, run):
            self.printed.append(f"{place}: run {run} behind another run")
        self.begun = run
        first, following = self.files.get(run, (file, file))
        if run in self.runs:
            if file < following:
                self.is_wrong(place, "FileAgain")
            elif not goes_on(self.runs[run], begin["lanes"]):
                self.is_wrong(place, "OtherLanes")
        if file > following:
            self.printed.append(f"{place}: run {run} files {following} to {file - 1} missing")
            self.found.add("file")
        self.files[run] = first, max(following, min(file + 1, 2**64 - 1))
        if run not in self.runs:
            self.before[run] = begin.get("before")
            self.runs[run] = [{**lane, **fresh, "numbers": Numbers(), "events": [], "resumed": [], "next": lane["serial"], "hidden": {"entry": 0, "left": 0}}
                              for lane in begin["lanes"]]
            self.expect(begin)

    def take(self, place, line, octets):
        kind = line["type"]
        if kind == "begin":
            self.take_begin(place, line)
        self.chain(place, line, octets)
        if kind == "entry":
            self.take_entry(place, line)
        elif kind == "left":
            self.take_left(place, line)
        elif kind in ("unsent", "again"):
            self.take_count(place, line)
        elif kind == "resumed":
            self.take_resumed(place, line)
        elif kind == "end":
            self.take_end(place, line)

    def read(self, file, octets):
        """Reads the lines of a file."""
        *lines, last = octets.split(b"\n")
        followers, self.begun = [*lines[1:], last], None
        self.returns |= any(line[: MOST_LINE + 1].endswith(b"\r") for line in [*lines, last])
        self.is_packed |= octets[:2] == b"\x1f\x8b"
        for number, (line, behind) in enumerate(zip(lines, followers), 1):
            place = f"{shown(file)}:{number}"
            try:
                self.take(place, read_line(line), line)
            except NoLine:
                if len(line) <= MOST_LINE and len(line) < len(behind) and behind.startswith(line):
                    self.printed.append(f"{place}: torn")
                else:
                    self.is_wrong(place, "NotEntry")
        if last:
            self.printed.append(f"{shown(file)}:{len(lines) + 1}: torn")

    def look_ahead(self, octets):
        """Reads the first line of a file, for the line of another run that it names."""
        line, end, _ = octets.partition(b"\n")
        try:
            first = read_line(line) if end else {}
        except NoLine:
            return
        if first.get("type") == "begin":
            self.expect(first)

    def end(self):
        """Tells of each lane, and gives the status."""
        if not any(self.runs.values()):
            self.found.add("nothing")
        for run, lanes in self.runs.items():
            for lane in lanes:
                self.tell(run, lane)
            self.tell_of_all(run)
            untied = [other for other in self.runs if self.before[other] is None and not self.files[other][0]]
            if "--all" in self.asked and run in untied[1:]:
                self.printed.append(f"run {run} untied")
                self.found.add("nothing")
        for kept in self.sums:
            if kept not in self.kept:
                self.is_wrong(kept[0], "WrongSum")
        return next((status for finding, status in STATUSES.items() if finding in self.found), 0)

    def hints(self):
        """What may be the cause where lines are wrong alike."""
        if self.returns:
            yield "hint: line ends with a carriage return"
        if self.is_packed:
            yield "hint: file is compressed with gzip"
        for run, lanes in self.runs.items():
            for lane in lanes:
                if lane["wrong sent"] and not lane["entries"]:
                    yield f"hint: {named(run, lane)}: each entry is WrongSent; is the secret in CONFIG the one of its time?"
                    return

    def tell(self, run, lane):
        """Tells of a lane."""
        gap = lane["gap"]
        if gap is None and lane["end"] is not None and lane["next"] < lane["end"]:
            gap = lane["next"], lane["end"] - 1
        late = bool(lane["serial"] or self.files[run][0])
        unknown = {"no-sum": self.chains[run].is_bare, "no-counts": run in self.ended and not lane["told"], "not-judged": lane["not judged"]}
        if is_contradicted(lane):
            verdict = "contradicted"
        elif gap:
            verdict = f"gap {gap[0]} to {gap[1]}"
        elif lane["end"] is None:
            verdict = "open"
        else:
            verdict = "unaccounted" if not is_settled(lane) else "part" if late or any(unknown.values()) else "whole"
        if not ("--partial" in self.asked and verdict.startswith(("gap", "unaccounted")) and is_covered(lane)):
            self.found.add({"whole": "whole", "part": "whole", "unaccounted": "gap"}.get(verdict, verdict.split()[0]))
        if late and not {"--from", "--partial"} & set(self.asked) or any(unknown.values()) and "--partial" not in self.asked:
            self.found.add("part")
        counts = f"from {lane['serial']} entries {lane['entries']} not judged {lane['not judged']}"
        self.printed.append(f"{named(run, lane)} {counts} {verdict}")
        reasons = [reason for reason, is_so in {"late": late, **unknown}.items() if is_so]
        if reasons:
            self.printed.append(" ".join([f"{named(run, lane)} part:", *reasons]))
        if lane["told"]:
            self.printed.append(f"{named(run, lane)} accepted {lane['told'][0]} answered {lane['entries']} left {lane['left']}")
        if lane["numbers"].exact_from:
            self.printed.append(f"{named(run, lane)} more than {MOST_RANGES} ranges")
        if lane["back"]:
            self.printed.append(f"{named(run, lane)} steps back in time {lane['back']}")
        if lane["resumed"]:
            self.printed.append(f"{named(run, lane)} resumed {len(lane['resumed'])}")

    def tell_of_all(self, run):
        """Tells of a run what is told of all its lanes together."""
        if self.chains[run].hidden:
            self.printed.append(f"run {run} hidden {self.chains[run].hidden}")
            if "--partial" not in self.asked:
                self.found.add("part")
        before = self.before[run]
        if before is not None and not self.has(before):
            self.printed.append(f"run {run} before {shown(before['name'])} missing")
            if "--all" in self.asked:
                self.found.add("nothing")

    def has(self, before):
        """Whether the line that a run names by its sum was read; without that, whether the file is the last one of its run that was."""
        found = parts_of(before["name"])
        if found is None:
            return False
        if "sum" in before:
            return self.ties[found[0], bytes.fromhex(before["sum"])]
        return found[0] in self.files and self.files[found[0]][1] == min(found[1] + 1, 2**64 - 1)


def parts_of(name):
    """The run and the number of a file of this name."""
    found = re.fullmatch(r"(?s:.*)([0-9a-fA-F]{16})-(\+?[0-9]+)\.jsonl", name)
    return (found[1].lower(), int(found[2])) if found and int(found[2]) < 2**64 else None


def goes_on(lanes, starts):
    """Whether the lanes that a later file names are those of the run."""
    return [(lane["lane"], lane["home"]) for lane in lanes] == [(start["lane"], start["home"]) for start in starts]


def is_covered(lane):
    """Whether lines that are left out may be all that is missing of a lane."""
    missing = max(lane["next"], lane["end"] or 0) - lane["serial"] - lane["entries"]
    if missing > 0:
        return missing <= lane["hidden"]["entry"]
    return bool(lane["told"] and lane["hidden"]["left"]) and lane["told"][1] - lane["left"] <= lane["hidden"]["left"]


def is_contradicted(lane):
    """Whether anything but the same end line stands behind an end line, or the last one counts less than there is."""
    events = lane["events"]
    behind = any(event is not None and any(later != event for later in events[at:]) for at, event in enumerate(events))
    return behind or lane["end"] is not None and lane["end"] < lane["next"]


def is_settled(lane):
    """Whether each request that was accepted has a line, and only one, as far as an end line says how many were accepted. Where the lane
    begins with a later serial, the responses before that count as lines."""
    numbers = lane["numbers"]
    if numbers.exact_from or not lane["told"]:
        return not numbers.exact_from
    accepted, left = lane["told"]
    are_all = bool(lane["serial"]) or len(numbers.numbers) == accepted and all(number < accepted for number in numbers.numbers)
    return are_all and left == lane["left"] and lane["serial"] + lane["entries"] + left == accepted


def named(run, lane):
    return f"run {run} lane {lane['lane']} {shown(lane['home'])}"


def read_file(path, most=None):
    try:
        octets = pathlib.Path(path).read_bytes()
    except OSError:
        octets = None
    if octets is None or most is not None and len(octets) > most:
        raise Ends(f"file: {shown(path)}", 4)
    return octets


def configured(path):
    octets = read_file(path, MOST_CONFIG)
    try:
        config = tomllib.loads(octets.decode("utf-8"))
    except ValueError:
        raise Ends("configuration: Toml", 2) from None
    if type(config.get("listen")) is not str:
        raise Ends("configuration: ..", 2)
    return config


def kept_sums(words):
    """The sums that words name, each with its word; and the other words."""
    sums, words = [], [*words]
    while "--sum" in words[:-1]:
        at = words.index("--sum")
        word = words[at + 1]
        found = re.fullmatch(r"([0-9a-fA-F]{16}):(\+?[0-9]+):([0-9a-fA-F]{64})", word)
        if found is None or int(found[2]) >= 2**64:
            return None, words
        sums.append((word, found[1].lower(), int(found[2]), bytes.fromhex(found[3])))
        del words[at : at + 2]
    return sums, words


def main(words):
    """Audits, and gives the status."""
    asked = [word for word in words if word in WORDS_THAT_ASK]
    sums, given = kept_sums([word for word in words if word not in WORDS_THAT_ASK])
    if sums is None or len(given) < 2 or len(asked) != len(set(asked)) or any(word.startswith("-") for word in given):
        print(USAGE, file=sys.stderr)
        return 1
    audit, fault, hints = None, None, []
    try:
        audit = Audit(configured(given[0]), asked, sums)
        for path in given[1:]:
            if pathlib.Path(path).is_file() and os.access(path, os.R_OK):
                audit.look_ahead(pathlib.Path(path).read_bytes())
        for path in given[1:]:
            audit.read(path, read_file(path))
        status, hints = audit.end(), list(audit.hints())
    except Ends as ended:
        fault, status = ended.args
    try:
        for line in audit.printed if audit else []:
            print(line)
        sys.stdout.flush()
    except OSError:
        sys.stdout = None
        return 4
    for line in hints if fault is None else [fault]:
        print(line, file=sys.stderr)
    return status


if __name__ == "__main__":
    sys.exit(main(sys.argv[1:]))
