"""Ledgers whose entries have exchanged their NAS's halves, without a secret, with what the auditor has to print of each and its status.

Who sent the request, its Identifier and Authenticator, and the response are moved between entries, each alone and together.
chained_cases.py has each with its sums as they were and with sums made anew. Of what is moved only `port`, and `client` among clients of one secret, is in no packet.
"""
import itertools

from tests.lib.ledger.cases import HOME, NAME, OTHER, changed, config, counted, fates, lines_of, one, signed_response, signed_sent, two
from tests.lib.ledgers import Lane, Run, chained, text
from tests.lib.packets import CLASS, attribute, mark

KEYS = "client", "port", "identifier", "authenticator", "response"
NAS = "192.0.2.10", b"nas-secret"
OF_ITS_SECRET = "192.0.2.11", b"nas-secret"
OF_ANOTHER = "192.0.2.12", b"another-nas-secret"


def clients(**how):
    """The configuration with all three clients."""
    tables = (f'[[client]]\naddress = "{address}"\nsecret = "{secret.decode()}"\n' for address, secret in (OF_ITS_SECRET, OF_ANOTHER))
    return config(**how) + "".join(tables)


def exchanged(lines, one_place, other_place, keys=KEYS):
    """The lines, where two have exchanged what they have at these keys."""
    first, second = lines[one_place], lines[other_place]
    made = list(lines)
    made[one_place] = changed(first, **{key: second[key] for key in keys})
    made[other_place] = changed(second, **{key: first[key] for key in keys})
    return made


def of_clients(client):
    """A run of five entries, each of another session, whose second came from this client."""
    run = one()
    entries = (run.entry(client=client if place == 1 else NAS, session=b"S%d" % place) for place in range(5))
    return chained([run.begin(), *entries, run.end_of_all()])


def reason_of(keys, one_secret):
    """What is wrong with two entries that have exchanged what they have at these keys, by docs/formats.md."""
    if {"identifier", "authenticator"} & keys or ("client" in keys and not one_secret):
        return "WrongRequest"
    return "WrongResponse" if "response" in keys else None


def of_two(reason):
    """What is printed of a run of five where the second and the third entry are wrong for this reason, and the status."""
    if reason is None:
        return [counted(0, "h1", 0, 5, "whole"), fates(5, 5, 0)], 0
    gap = f"ledger:5: run {NAME:016x} lane 0 h1 gap 1 to 2"
    return [f"ledger:3: {reason}", f"ledger:4: {reason}", gap, counted(0, "h1", 0, 3, "gap 1 to 2"), fates(5, 3, 0)], 5


def within_a_lane():
    """Each set of keys is exchanged between two entries of a lane."""
    for count in range(1, len(KEYS) + 1):
        for keys in itertools.combinations(KEYS, count):
            for name, client in {"one-secret": OF_ITS_SECRET, "two-secrets": OF_ANOTHER}.items():
                lines = of_clients(client)
                its = exchanged(lines, 2, 3, keys)
                yield f"{'-'.join(keys)}-exchanged-under-{name}", lines, its, *of_two(reason_of(set(keys), client is OF_ITS_SECRET)), clients()


def moved():
    """What is exchanged or copied otherwise, as in `tampers` of chained_cases.py."""
    yield from within_a_lane()
    run = two()
    lines = chained([run.begin(), *(run.entry(place, session=b"S%d" % at) for at, place in enumerate((0, 1, 0, 1))), run.end_of_all()])
    printed = ["ledger:2: WrongRequest", "ledger:3: WrongRequest"]
    printed += [f"ledger:{4 + at}: run {NAME:016x} lane {at} h{1 + at} gap 0 to 0" for at in (0, 1)]
    for at in (0, 1):
        printed += [counted(at, f"h{1 + at}", 0, 1, "gap 0 to 0"), fates(2, 1, 0, at, f"h{1 + at}")]
    yield "the-nas's-half-exchanged-between-lanes", lines, exchanged(lines, 1, 2), printed, 5

    lines = of_clients(NAS)
    first = {key: lines[1][key] for key in KEYS}
    printed = [f"ledger:{line}: WrongRequest" for line in range(3, 7)]
    gap = f"ledger:7: run {NAME:016x} lane 0 h1 gap 1 to 4"
    yield "one-nas's-half-in-all-entries", lines, [*lines[:2], *(changed(line, **first) for line in lines[2:6]), lines[6]], [
        *printed, gap, counted(0, "h1", 0, 1, "gap 1 to 4"), fates(5, 1, 0)], 5

    forged = changed(signed_response(lines[2], attribute(CLASS, b"CLS"), secret=OF_ANOTHER[1]), client=OF_ANOTHER[0])
    gap = f"ledger:4: run {NAME:016x} lane 0 h1 gap 1 to 1"
    alone = ["ledger:3: WrongRequest", gap, counted(0, "h1", 0, 4, "gap 1 to 1"), fates(5, 4, 0)]
    yield "an-entry-under-a-client-of-another-secret", lines, [*lines[:2], forged, *lines[3:]], alone, 5, clients()
    # The home server's secret is not known: the NAS's half is judged all the same.
    unknown = clients(homes=(("h2", OTHER),))
    printed, status = of_two("WrongRequest")
    printed = [line.replace("not judged 0", "not judged 3") for line in printed]
    for name, client in {"one-secret": OF_ITS_SECRET, "two-secrets": OF_ANOTHER}.items():
        its = of_clients(client)
        yield f"the-nas's-half-exchanged-under-{name}-at-an-unknown-home-server", its, exchanged(its, 2, 3), printed, status, unknown


def at_an_unknown_home():
    """An entry of a home server whose secret is not known: the change of it, and what is told of that."""
    passed_on = attribute(CLASS, b"CLS")
    yield "nothing", lambda line: line, None
    yield "another-reply", lambda line: changed(line, reply=line["sent"]), None
    yield "other-attributes-of-the-response", lambda line: signed_response(line, b""), None
    yield "no-mark", lambda line: signed_sent(line, passed_on, OTHER), "WrongRequest"
    yield "another-mark", lambda line: changed(line, record=7), "WrongRequest"
    yield "a-mark-that-is-not-last", lambda line: signed_sent(line, mark(0, 1) + passed_on, OTHER), "WrongRequest"
    yield "other-attributes", lambda line: signed_sent(line, passed_on + mark(0, 1), OTHER), "WrongRequest"
    yield "another-identifier", lambda line: changed(line, identifier=9), "WrongRequest"
    yield "another-authenticator", lambda line: changed(line, authenticator="00" * 16), "WrongRequest"
    yield "a-response-of-another-identifier", lambda line: signed_response(line, passed_on, identifier=78), "WrongResponse"
    yield "a-response-of-another-code", lambda line: changed(line, response=line["sent"]), "WrongResponse"
    yield "a-response-under-another-secret", lambda line: signed_response(line, passed_on, secret=OTHER), "WrongResponse"


def unjudged():
    """These as whole cases: files, what is printed, the status and the configuration."""
    for name, change, reason in at_an_unknown_home():
        lines = lines_of(one(), 3)
        lines[2] = change(lines[2])
        printed = [counted(0, "h1", 0, 3, "part", 3)], 7
        if reason is not None:
            printed = [f"ledger:3: {reason}", f"ledger:4: run {NAME:016x} lane 0 h1 gap 1 to 1", counted(0, "h1", 0, 2, "gap 1 to 1", 2)], 5
        yield f"{name}-at-an-unknown-home-server", {"ledger": text(lines)}, *printed, config(homes=(("h2", OTHER),))


def between_runs():
    """The NAS's half exchanged between two runs, each of one entry, with all sums made anew."""
    made = []
    for name, session in ((NAME, b"S1"), (NAME + 1, b"S2")):
        run = Run(name, [Lane(0, "h1", HOME)])
        made.append([run.begin(), run.entry(session=session), run.end_of_all()])
    a, b = made
    both = exchanged([a[1], b[1]], 0, 1)
    files = {"a": text(chained([a[0], both[0], a[2]])), "b": text(chained([b[0], both[1], b[2]]))}
    printed, at_end = [], []
    for file, run in (("a", NAME), ("b", NAME + 1)):
        printed += [f"{file}:2: WrongRequest", f"{file}:3: run {run:016x} lane 0 h1 gap 0 to 0"]
        at_end += [counted(0, "h1", 0, 0, "gap 0 to 0", run=run), fates(1, 0, 0).replace(f"{NAME:016x}", f"{run:016x}")]
    yield "the-nas's-half-exchanged-between-runs", files, [*printed, *at_end], 5
