"""Tries what the pages of an operator advise around the proxy, with FreeRADIUS, radsecproxy, SQLite and systemd-tmpfiles of Debian.

usage: python3 -m tests.tools.advised PROGRAM [NAME ..]

PROGRAM is rad_proxy. A case that wants what is not here is left out. Names choose cases. What fails or is left out is told, and the last
line is `N passed, M failed`.
"""
import contextlib
import os
import pathlib
import re
import select
import sqlite3
import subprocess
import time
from dataclasses import dataclass

from tests.lib import (ACCT_SESSION_ID, ACCT_STATUS_TYPE, CLASS, HERE, SECRET, TOP, Home, LeftOut, Proxy, Server, answer, attribute, bound,
                       configured, environment, free_ports, hope, request, started, try_in_folders, until, user_name)
from tests.lib.packets import NAS_IP_ADDRESS
from tests.lib.tools.running import want

NAS_PORT, ACCT_DELAY_TIME, INPUT_OCTETS = 5, 41, 42
BEGIN, STOP, ON = 1, 2, 7
DAY = 86400
PACKAGED = "/etc/freeradius/3.0/mods-config/sql/main/sqlite/queries.conf"


def number(kind, value):
    """An attribute whose value is a number."""
    return attribute(kind, value.to_bytes(4, "big"))


def record(status, session=b"1", user=b"bob@example.org", nas=1, port=1, more=b""):
    """The attributes of a record; one of an access server itself has neither user nor session."""
    ends = b"" if user is None else user_name(user) + attribute(ACCT_SESSION_ID, session) + number(NAS_PORT, port)
    return number(ACCT_STATUS_TYPE, status) + attribute(NAS_IP_ADDRESS, bytes([192, 0, 2, nas])) + ends + more


def page(name):
    """The text of a page of an operator."""
    return (TOP / "docs" / "operating" / name).read_text("utf-8")


def changed(example, place, changes):
    """Writes an example with lines that are changed, each of which it has to have."""
    text = (TOP / "examples" / example).read_text("utf-8")
    for old, new in changes:
        text, count = re.subn(f"{old}$", new, text, flags=re.MULTILINE)
        hope(f"{old} is there", count > 0, True)
    place.write_text(text)


@dataclass
class Room:
    """The program, a folder, what ends when a case does, and how many requests were sent."""

    program: pathlib.Path
    folder: pathlib.Path
    stack: contextlib.ExitStack
    sent: int = 0

    def freeradius(self, name, port, changes=(), place=None):
        """FreeRADIUS by one of the examples, at a port of its own, with lines that are changed. The result is the folder that it has."""
        want("freeradius")
        folder = self.folder / (place or name)
        folder.mkdir()
        lines = [(f"out/{name}", str(folder)), ('secret = ".*"', f'secret = "{SECRET.decode()}"'), (r"port = \d813", f"port = {port}")]
        changed(f"freeradius/{name}/radiusd.conf", folder / "radiusd.conf", [*changes, *lines])
        self.run(folder / "told", "freeradius", "-f", "-l", "stdout", "-d", folder)
        until(f"FreeRADIUS serves: {folder}", lambda: b"Ready to process" in (folder / "told").read_bytes())
        return folder

    def run(self, file, *words):
        """Runs a program until the case ends, with a file for what it tells."""
        with file.open("wb") as told:
            self.stack.enter_context(started(words, stdout=told, stderr=told))

    def proxy(self, servers, default=None):
        """The program with these home servers."""
        listen = (HERE, free_ports(1)[0])
        made = Proxy(self.program, self.folder, configured(f"{HERE}:{listen[1]}", servers, secret=SECRET.decode(), default=default), listen)
        self.stack.callback(made.kill)
        made.start(env=environment() | {"RAD_PROXY_COUNTERS": str(made.counters)})
        made.listens()
        return made

    def is_answered(self, place, attributes, seconds=5.0):
        """Whether an access server gets the answer to a request of these attributes, which it sends there."""
        self.sent += 1
        octets = request(self.sent % 256, attributes, SECRET)
        with bound() as nas:
            nas.sendto(octets, place)
            return bool(select.select([nas], [], [], seconds)[0]) and nas.recv(4096) == answer(octets, octets[1], b"", SECRET)


def a_session_is_one_row_by_its_unique_id(room):
    """FreeRADIUS' `acct_unique` keeps sessions of one number apart by user, access server and port, and what comes again in one row."""
    if not os.access(PACKAGED, os.R_OK):
        raise LeftOut(f"it wants {PACKAGED}")
    port, = free_ports(1)
    folder = room.freeradius("sqlite", port)
    proxy = room.proxy([Server("billing", port, realm="example.org", secret=SECRET.decode())])

    def rows(*given):
        hope("answered", [room.is_answered(proxy.listen, attributes) for attributes in given], [True] * len(given))
        with contextlib.closing(sqlite3.connect(folder / "accounting.db")) as kept:
            return kept.execute("SELECT username, nasipaddress, nasportid, acctinputoctets, acctstoptime - acctstarttime FROM radacct "
                                "ORDER BY radacctid").fetchall()

    def stop(octets, delay=0):
        return record(STOP, more=number(INPUT_OCTETS, octets) + number(ACCT_DELAY_TIME, delay))

    early = number(ACCT_DELAY_TIME, 100)
    bob = ("bob@example.org", "192.0.2.1", "1")
    hope("a session", [row[:4] for row in rows(record(BEGIN, more=early), stop(100))], [(*bob, 100)])
    (again,) = rows(record(BEGIN, more=number(ACCT_DELAY_TIME, 101)), stop(100, 1))
    hope("the same once more, as new requests", (again[:4], 98 <= again[4] <= 105), ((*bob, 100), True))
    others = rows(record(BEGIN, nas=2), record(BEGIN, user=b"eve@example.org"), record(BEGIN, port=2))
    hope("other access server, user, port", [row[:3] for row in others],
         [bob, (bob[0], "192.0.2.2", "1"), ("eve@example.org", *bob[1:]), (*bob[:2], "2")])
    hope("the number again, with all the same", rows(record(BEGIN), stop(7))[0][:4], (*bob, 7))
    given = attribute(CLASS, b"ai:0123456789abcdef0123456789abcdef")
    hope("and with a Class of FreeRADIUS", len(rows(record(BEGIN, more=given))), 5)
    records = (folder / "detail").read_text().count("Acct-Status-Type = ")
    hope("what the detail file has", records, room.sent)


def a_sink_takes_what_has_no_realm(room):
    """Accounting-On is dropped without a default home server, and goes to it alone where there is one: FreeRADIUS writes it down."""
    port, = free_ports(1)
    billing = Home()
    room.stack.callback(billing.ear.close)
    servers = [Server("billing", billing.port, realm="example.org", secret=SECRET.decode()), Server("sink", port, secret=SECRET.decode())]
    proxy = room.proxy(servers)
    hope("without a default", room.is_answered(proxy.listen, record(ON, user=None), 0.5), False)
    until("it is counted", lambda: proxy.counters.exists() and 'dropped_total{reason="NoRealm"} 1\n' in proxy.counters.read_text())
    proxy.kill()
    folder = room.freeradius("sink", port)
    proxy = room.proxy(servers, default="sink")
    hope("with a sink", room.is_answered(proxy.listen, record(ON, user=None)), True)
    hope("a realm's record waits", room.is_answered(proxy.listen, record(BEGIN), 0.5), False)
    hope("it is at its home server alone", len(billing.requests()), 1)
    (written,) = folder.glob("detail-*")
    found = re.findall(r"(Acct-Status-Type|NAS-IP-Address) = (\S+)", written.read_text())
    hope("what the sink wrote", sorted(found), [("Acct-Status-Type", "Accounting-On"), ("NAS-IP-Address", "192.0.2.1")])


def with_a_silent_one(room, *senders):
    """A proxy with a home server that answers and one that doesn't; and what tells whether a user's record is answered by way of a sender."""
    port, = free_ports(1)
    silent = Home()
    room.stack.callback(silent.ear.close)
    room.freeradius("sink", port)
    proxy = room.proxy([Server("good", port, realm="example.org", secret=SECRET.decode()),
                        Server("silent", silent.port, realm="silent.example", secret=SECRET.decode())])

    def answered(user, *asked):
        return [room.is_answered((HERE, it), record(BEGIN, user=user), 1.0) for it in asked or senders]

    return proxy.listen[1], answered


def freeradius_keeps_a_proxy_that_it_asks_for_its_status(room):
    """A record of a silent home server has FreeRADIUS count the whole proxy as dead, or not where it asks the proxy by Status-Server."""
    senders = free_ports(2)
    port, answered = with_a_silent_one(room, *senders)
    changes = [("port = 1813", f"port = {port}"), ("response_window = .*", "response_window = 1"), ("zombie_period = .*", "zombie_period = 1"),
               ("check_interval = .*", "check_interval = 6")]
    unchecked = [*changes, ("status_check = .*", "status_check = none")]
    folders = [room.freeradius("sender", *it) for it in zip(senders, (unchecked, changes), ("without", "with"))]

    def is_dead():
        hope("of the silent one", answered(b"bob@silent.example"), [False, False])
        return b"as dead" in (folders[0] / "told").read_bytes()

    hope("at first", answered(b"bob@example.org"), [True, True])
    until("it counts as dead", is_dead)
    until("with it the others are answered", lambda: answered(b"bob@example.org", senders[1]) == [True])
    hope("and without it not", answered(b"bob@example.org", senders[0]), [False])


def radsecproxy_keeps_a_proxy_that_it_asks_for_its_status(room):
    """A record of a silent home server has radsecproxy send the others to its second server, or not where it asks by Status-Server."""
    want("radsecproxy")
    senders, seconds = free_ports(2), [Home(), Home()]
    port, answered = with_a_silent_one(room, *senders)
    for at, second in enumerate(seconds):
        room.stack.callback(second.ear.close)
        file = room.folder / f"{at}.conf"
        block = f"server second {{\n\ttype udp\n\thost {HERE}\n\tport {second.port}\n\tsecret {SECRET.decode().replace(' ', '%20')}\n}}\n"
        changed("radsecproxy/sender.conf", file, [
            ("ListenUDP .*", f"ListenUDP {HERE}:{senders[at]}"), ("port 1813", f"port {port}"),
            ("secret .*", f'secret "{SECRET.decode()}"'), ("retryCount 3", "retryCount 1"), ("retryInterval 5", "retryInterval 1"),
            ("realm [*] {", block + "realm * {"), ("accountingServer rad_proxy", "accountingServer rad_proxy\n\taccountingServer second"),
            *([("statusServer on", "statusServer off")] if at == 0 else [])])
        room.run(room.folder / f"{at}.told", "radsecproxy", "-f", "-c", file)
    until("they serve", lambda: answered(b"bob@example.org") == [True, True])
    hope("of the silent one", answered(b"bob@silent.example"), [False, False])
    until("it counts as dead", lambda: b"rad_proxy dead" in (room.folder / "0.told").read_bytes())
    hope("then", answered(b"bob@example.org"), [False, True])
    hope("what the second servers get", [len(it.requests()) for it in seconds], [1, 0])


def old_files_of_a_ledger_are_removed(room):
    """The line of the page for systemd-tmpfiles removes what is older than it says, by the time of the last write alone."""
    want("systemd-tmpfiles")
    (line,) = re.findall(r"^    (e /var/lib/rad_proxy .*)$", page("sizing.md"), re.MULTILINE)
    days = int(re.search(r"(\d+)d$", line)[1])
    ledgers, file = room.folder / "ledgers", room.folder / "it.conf"
    ledgers.mkdir()
    for name, age in (("old.jsonl", days + 1), ("old.jsonl.gz", days + 1), ("young.jsonl", days - 1), ("now.jsonl", 0)):
        (ledgers / name).write_text("{}\n")
        os.utime(ledgers / name, (time.time(), time.time() - age * DAY))
    file.write_text(line.replace("/var/lib/rad_proxy", str(ledgers)) + "\n")
    subprocess.run(["systemd-tmpfiles", "--clean", file], check=True)
    hope("what is left", sorted(it.name for it in ledgers.iterdir()), ["now.jsonl", "young.jsonl"])


CASES = [a_session_is_one_row_by_its_unique_id, a_sink_takes_what_has_no_realm, freeradius_keeps_a_proxy_that_it_asks_for_its_status,
         radsecproxy_keeps_a_proxy_that_it_asks_for_its_status, old_files_of_a_ledger_are_removed]


def in_room(case):
    """A case as a test, with a room of its own."""

    def test(program, folder):
        with contextlib.ExitStack() as stack:
            case(Room(program, folder, stack))

    test.__name__ = case.__name__
    return test


if __name__ == "__main__":
    try_in_folders([in_room(case) for case in CASES], __doc__)
