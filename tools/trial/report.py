"""What a trial tells: lines for the captures, the clients and their realms, the home servers, and the senders with the most drops."""
from collections import Counter

from .datagrams import address

MOST_ROWS, MOST_DROPPING = 200, 10


def told(reasons):
    """Reasons with their counts, the greatest first."""
    return ", ".join(f"{reason} {count}" for reason, count in reasons.most_common())


COLUMNS = ("came", "accepted", "repeated", "status", "refused", "dropped")
ROW = "{:<15}  {:<24}" + "  {:>8}" * len(COLUMNS) + "  {}"


def rows_of_clients(settings, metrics, log):
    """A row for each client, by the metrics, and below it one for each of its realms, by the log."""
    yield ROW.format("CLIENT", "REALM", *map(str.upper, COLUMNS), "WHY").rstrip()
    silent, of = 0, {}
    for (client, realm), counts in log.counts.items():
        of.setdefault(client, []).append((realm, counts))
    for client in map(address, settings.clients):
        came = metrics.of("client_received_total", client=client)
        if not came:
            silent += 1
            continue
        refused, dropped = (metrics.reasons(f"client_{word}_total", client=client) for word in ("refused", "dropped"))
        accepted, repeated = metrics.of("client_accepted_total", client=client), metrics.of("client_repeats_total", client=client)
        status = came - accepted - repeated - refused.total() - dropped.total()
        counts = came, accepted, repeated, status, refused.total(), dropped.total()
        yield ROW.format(client, "all", *counts, told(refused + dropped)).rstrip()
        rows = sorted(of.get(client, []), key=lambda row: -row[1]["came"])
        for realm, counts in rows[:MOST_ROWS]:
            why = told(log.why.get((client, realm), Counter()))
            yield ROW.format(client, realm, *(counts[word] for word in COLUMNS), why).rstrip()
        if len(rows) > MOST_ROWS:
            yield f"{client}: {len(rows) - MOST_ROWS} realms more"
    strangers = metrics.of("strangers_total")
    if strangers:
        yield f"senders that are no client: {strangers} datagrams"
    if silent:
        yield f"clients that sent nothing: {silent}"


def row_of_home(home, lane, metrics):
    """A home server: how far its limits were used, and how long its answers took."""
    limits = home.numbers
    yield (f"home {home.name} queue {lane.queue} of {limits['queue']} book {lane.book} of {limits['book']} "
           f"window {lane.window} of {limits['window']}")
    of = {word: metrics.of(f"{word}_total", home=home.name) for word in ("accepted", "answered", "resent", "downs")}
    yield (f"home {home.name} accepted {of['accepted']} answered {of['answered']} resent {of['resent']} marked down {of['downs']} times, "
           f"left {lane.left}, longest reply {metrics.longest('reply_seconds', home.name)}, "
           f"longest response {metrics.longest('response_seconds', home.name)}")


def rows_of_drops(log):
    """The senders with the most datagrams that were dropped or refused, and why."""
    of = {}
    for (client, _), reasons in log.why.items():
        of.setdefault(client, Counter()).update(reasons)
    rows = sorted(of.items(), key=lambda row: -row[1].total())
    yield f"most drops and refusals, of {len(rows)} senders that had any:"
    for client, reasons in rows[:MOST_DROPPING]:
        yield f"{client} {reasons.total()}: {told(reasons)}"


def report(settings, played):
    requests, metrics, log = played.requests, played.metrics, played.log
    version = next((labels["version"] for labels, _ in metrics.all("build_info")), "?")
    yield (f"rad_proxy {version}: {len(requests.kept)} datagrams of {requests.senders()} senders in {requests.seconds():.1f} s, "
           f"played in {played.seconds:.1f} s, at most {played.nases.late:.3f} s late")
    yield from requests.notes()
    if played.nases.unsent:
        yield f"left out: {played.nases.unsent} datagrams that the system does not send from their address and port"
    lost = len(requests.kept) - played.nases.unsent - metrics.of("client_received_total") - metrics.of("strangers_total")
    if lost:
        full = metrics.of("socket_drops_total", side="clients")
        yield (f"lost: {lost} datagrams before the program, {full} of them since the receive buffer of the clients' socket was full "
               "(net.core.rmem_max)")
    if log.missing:
        yield f"missing: {log.missing} lines of the log; what stands of realms is less than what was"
    yield ""
    yield from rows_of_clients(settings, metrics, log)
    yield ""
    for home in settings.homes:
        yield from row_of_home(home, played.lanes[home.name], metrics)
    yield ""
    yield from rows_of_drops(log)
    yield played.end
