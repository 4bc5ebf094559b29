"""Sends a signed Accounting-Request of each client of a site through a proxy, and answers it as the site's home servers."""
import contextlib
import select
import subprocess
import time

from tests.lib import (ACCOUNTING_REQUEST, ACCT_SESSION_ID, ACCT_STATUS_TYPE, USER_NAME, ZEROS, answer, attribute, bound, is_signed, is_so,
                       read, reply, request, started, user_name)
from tests.lib.tools import table


def asked(identifier, user, session, secret):
    """A request of a session's start."""
    start = attribute(ACCT_STATUS_TYPE, bytes([0, 0, 0, 1])) + attribute(ACCT_SESSION_ID, session)
    return request(identifier, user_name(user) + start, secret)


def value(packet, kind):
    """The value of a packet's attribute that it has once."""
    ((found, _),) = packet.of_type(kind)
    return found


def is_request(packet, secret):
    """Whether a packet is an Accounting-Request that is signed under a secret."""
    return packet.code == ACCOUNTING_REQUEST and is_signed(packet, ZEROS, secret)


def is_answer(octets, to, secret):
    """Whether octets are an answer to a request that is signed under a secret."""
    return octets == answer(to, to[1], octets[20:], secret)


def answered(home, where):
    """Answers a request under a home server's secret. The result is what is wrong with the request, or its user."""
    octets, sender = where.recvfrom(4096)
    packet = read(octets)
    if not is_request(packet, home.secret):
        return f"no Accounting-Request under the secret of {home.name}"
    where.sendto(reply(packet, home.secret), sender)
    return value(packet, USER_NAME).decode()


def faults(site, seconds=5):
    """What is wrong with a site's proxy, which serves already: of each client, a line or none."""
    with contextlib.ExitStack() as stack:
        homes = {stack.enter_context(bound(home.address, home.port)): home for home in site.homes}
        told = []
        for number, client in enumerate(site.clients):
            nas = stack.enter_context(bound(client.address))
            realm = site.realms[number % len(site.realms)]
            fault = fault_of(site, client, realm, number, nas, homes, seconds)
            if fault:
                told.append(f"client {client.address}, {client.secret!r}, at {realm.name}: {fault}")
        return told


def fault_of(site, client, realm, number, nas, homes, seconds):
    """What is wrong with one request and its answer."""
    user = f"user{number}@{realm.name}"
    sent = asked(number, user.encode(), b"S%d" % number, client.secret)
    nas.sendto(sent, (table.FRONT, site.port))
    until = time.monotonic() + seconds
    while time.monotonic() < until:
        for ready in select.select([nas, *homes], [], [], 0.2)[0]:
            if ready is nas:
                return None if is_answer(nas.recv(4096), sent, client.secret) else "the answer is not signed under the client's secret"
            found = answered(homes[ready], ready)
            if found != user or homes[ready].name != realm.home:
                return f"{homes[ready].name} gets {found}"
    return "no answer"


@contextlib.contextmanager
def serving(words, site, where):
    """A proxy that runs while its site is talked to."""
    with (where / "told").open("wb") as told, started(words, stdin=subprocess.PIPE, stdout=told, stderr=told, cwd=where) as ran:
        if not is_so(lambda: ran.poll() is not None or is_taken(site)) or ran.poll() is not None:
            raise AssertionError(f"the proxy does not serve: {(where / 'told').read_text()}")
        time.sleep(0.5)
        yield
        ran.terminate()


def is_taken(site):
    """Whether the port of a site is taken."""
    try:
        bound(table.FRONT, site.port).close()
    except OSError:
        return True
    return False
