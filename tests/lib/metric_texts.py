"""The text of all metrics, written out by the rules of docs/formats.md: of a program that keeps no ledger and no spool, and what each adds.

`text_of` makes it of the numbers that are known. A metric whose value depends on the time has a word in its place: TIME for a moment,
AGE for a time that has passed, SECONDS for the sum of a histogram and SOME for what it counts up to a bound.
"""
import pathlib

from tools.version import VERSION

COUNTER, GAUGE, HISTOGRAM = "counter", "gauge", "histogram"
DROPS = ["UnknownClient", "Unread", "WrongCode", "BadAuthenticator", "BadMessageAuthenticator", "MessageAuthenticatorHere", "NoRealm"]
REFUSALS = ["Draining", "BookFull", "QueueFull", "TooLong", "OutOfMemory", "WrongLane"]
UNHEARD = ["NotHome", "RingFull", "Unread", "WrongCode", "Unknown", "BadAuthenticator", "MessageAuthenticatorHere", "NoProxyState",
           "OutOfMemory"]
UPS = ["answered", "probe answered", "down_wait over"]
BOUNDS = ["0.00025", "0.0005", "0.001", "0.0025", "0.005", "0.01", "0.025", "0.05", "0.1", "0.25", "0.5", "1", "2.5", "5", "10", "30",
          "60"]
LARGEST_BUFFER = 1 << 20
# Of whom a metric is: the program, all clients, both sides, each client, each realm, each home server, or the sockets.
PROGRAM, CLIENTS, SIDES, CLIENT, REALM, HOME, SOCKET = range(7)
# Each metric: its name, kind and help text, of whom it is, the reasons or the like that it is told apart by, and its value where none
# is known.
METRICS = [
    ("dropped_total", COUNTER, "Datagrams at the clients' sockets that were dropped.", CLIENTS, ("reason", DROPS), "0"),
    ("refused_total", COUNTER, "Requests that were refused.", CLIENTS, ("reason", REFUSALS), "0"),
    ("unheard_total", COUNTER, "Datagrams at a home server's sockets that were dropped.", HOME, ("reason", UNHEARD), "0"),
    ("send_faults_total", COUNTER, "Sends that failed.", SIDES, None, "0"),
    ("receive_faults_total", COUNTER, "Receives that failed.", SIDES, None, "0"),
    ("downs_total", COUNTER, "How often the home server was marked down.", HOME, None, "0"),
    ("sent_total", COUNTER, "Accounting-Requests for the home server, for the first time and again, also those that the system refused to send.", HOME, None, "0"),
    ("probes_total", COUNTER, "Status-Servers sent to the home server.", HOME, None, "0"),
    ("cut_total", COUNTER, "Answered requests that were removed from the book.", HOME, None, "0"),
    ("marked_total", COUNTER, "Requests for the home server that arrived with a Proxy-State of this proxy's form.", HOME, None, "0"),
    ("build_info", GAUGE, "The version of the running program.", PROGRAM, ("version", None), "1"),
    ("start_time_seconds", GAUGE, "When the program started, in seconds since 1970.", PROGRAM, None, "TIME"),
    ("report_time_seconds", GAUGE, "When these metrics were collected, in seconds since 1970.", PROGRAM, None, "TIME"),
    ("strangers_total", COUNTER, "Datagrams from senders that are not clients.", PROGRAM, None, "0"),
    ("process_start_time_seconds", GAUGE, "When the program started, in seconds since 1970.", PROGRAM, None, "TIME"),
    ("process_resident_memory_bytes", GAUGE, "The memory of the program that is not swapped out.", PROGRAM, None, "SOME"),
    ("process_open_fds", GAUGE, "The file descriptors that the program has open.", PROGRAM, None, "SOME"),
    ("process_cpu_seconds_total", COUNTER, "The processor time of the program, its own and the system's for it.", PROGRAM, None, "AGE"),
    ("client_received_total", COUNTER, "Datagrams received from the client.", CLIENT, None, "0"),
    ("client_accepted_total", COUNTER, "New requests from the client that were accepted.", CLIENT, None, "0"),
    ("client_repeats_total", COUNTER, "Retransmitted requests from the client: unanswered, or answered less than a span ago.", CLIENT,
     ("repeat", ["waiting", "again"]), "0"),
    ("client_responses_total", COUNTER, "Responses to the client, also to repeats and to Status-Servers, and those that the system refused to send.", CLIENT, None,
     "0"),
    ("client_refused_total", COUNTER, "New requests from the client that were refused.", CLIENT, ("reason", REFUSALS), "0"),
    ("client_dropped_total", COUNTER, "Datagrams from the client that were dropped.", CLIENT, ("reason", DROPS[1:]), "0"),
    ("realm_requests_total", COUNTER, "Requests for the realm: new ones, repeats, and those that were refused.", REALM, None, "0"),
    ("book_limit", GAUGE, "The most requests that the book may hold.", HOME, None, "100000"),
    ("queue_limit", GAUGE, "The most requests that may wait to be sent.", HOME, None, "4096"),
    ("window_limit", GAUGE, "The most requests that may be outstanding.", HOME, None, "64"),
    ("ring_limit", GAUGE, "The most responses that the ring may hold.", HOME, None, "256"),
    ("span_seconds", GAUGE, "How long after its answer a retransmitted request is answered again.", HOME, None, "30.000"),
    ("home_up", GAUGE, "Whether the home server is marked up.", HOME, None, "0"),
    ("home_since_time_seconds", GAUGE, "Since when the home server is marked up or down, in seconds since 1970.", HOME, None, "TIME"),
    ("home_down_seconds_total", COUNTER, "How long the home server was marked down since the start.", HOME, None, "0.000"),
    ("home_report_time_seconds", GAUGE, "When the lane reported these metrics, in seconds since 1970.", HOME, None, "TIME"),
    ("draining", GAUGE, "Whether the lane accepts no new requests.", HOME, None, "0"),
    ("accepted_total", COUNTER, "Requests accepted since the start.", HOME, None, "0"),
    ("answered_total", COUNTER, "Requests answered by the home server since the start.", HOME, None, "0"),
    ("queued", GAUGE, "Requests that wait to be sent.", HOME, None, "0"),
    ("outstanding", GAUGE, "Requests sent and not answered.", HOME, None, "0"),
    ("book", GAUGE, "Requests that the book holds.", HOME, None, "0"),
    ("resent_total", COUNTER, "Accounting-Requests sent to the home server again.", HOME, None, "0"),
    ("oldest_queued_age_seconds", GAUGE, "How long the first request of the queue has waited.", HOME, None, "0.000"),
    ("oldest_outstanding_age_seconds", GAUGE, "How long ago the first request that is not answered was sent.", HOME, None, "0.000"),
    ("oldest_held_age_seconds", GAUGE, "How long ago the first request in the book was accepted.", HOME, None, "AGE"),
    ("last_answer_time_seconds", GAUGE, "When the home server last answered a request, in seconds since 1970, and 0 before that.", HOME,
     None, "TIME"),
    ("ups_total", COUNTER, "How often the home server was marked up again.", HOME, ("reason", UPS), "0"),
    ("reply_seconds", HISTOGRAM, "From the first sending of a request to the home server's reply.", HOME, None, "0"),
    ("response_seconds", HISTOGRAM, "From the acceptance of a request to the response to the client.", HOME, None, "0"),
    ("socket_buffer_bytes", GAUGE, "The receive buffer that the system granted to the socket.", SOCKET, None, None),
    ("socket_drops_total", COUNTER, "Datagrams that the system dropped because the socket's receive buffer was full.", SOCKET, None, "0"),
]
# Those of a ledger, which stand behind the others if there is one.
LEDGER_METRICS = [
    ("ledger_written_total", COUNTER, "Entries that were written to the ledger.", PROGRAM, None, "0"),
    ("ledger_waiting", GAUGE, "Entries that wait to be written to the ledger.", PROGRAM, None, "0"),
    ("ledger_dropped_total", COUNTER, "Entries that are missing from the ledger because too many waited.", PROGRAM, None, "0"),
    ("ledger_lost_total", COUNTER, "Entries that were written to a file of the ledger that is gone.", PROGRAM, None, "0"),
    ("ledger_oldest_waiting_seconds", GAUGE, "The age of the oldest entry that waits.", PROGRAM, None, "0.000"),
    ("ledger_unsynced_seconds", GAUGE, "The age of the oldest part of the ledger that is not synced.", PROGRAM, None, "0.000"),
    ("client_ledger_dropped_total", COUNTER, "Entries of the client that are missing from the ledger because too many waited.", CLIENT, None,
     "0"),
]
# Those of a spool, which stand behind all others if there is one.
SPOOL_METRICS = [
    ("spool_open_requests", GAUGE, "Requests in the spool that are not answered.", PROGRAM, None, "0"),
    ("spool_unsynced_requests", GAUGE, "Those of them that are not on disk yet.", PROGRAM, None, "0"),
    ("spool_unsynced_seconds", GAUGE, "How long ago all of them were on disk.", PROGRAM, None, "AGE"),
    ("spool_oldest_seconds", GAUGE, "How long ago the oldest of them came in, and 0 without one.", PROGRAM, None, "0.000"),
    ("spool_bytes", GAUGE, "The size of the spool's files.", PROGRAM, None, "0"),
    ("spool_lost_total", COUNTER, "Requests and responses that found no room on their way to the spool.", PROGRAM, None, "0"),
    ("spool_written_total", COUNTER, "Entries that were written to the spool.", PROGRAM, None, "0"),
    ("spool_faults_total", COUNTER, "How often the spool could not be written.", PROGRAM, None, "0"),
    ("spool_failing", GAUGE, "Whether the spool can't be written.", PROGRAM, None, "0"),
    ("spool_dropped_requests", GAUGE, "Requests of earlier runs that no longer pass the checks.", PROGRAM, None, "0"),
    ("spool_held_total", COUNTER, "Datagrams that waited for requests of earlier runs.", PROGRAM, None, "0"),
]


def buffer():
    """The receive buffer that the system grants."""
    return str(min(int(pathlib.Path("/proc/sys/net/core/rmem_max").read_text("utf-8")), LARGEST_BUFFER))


def labels_of(whose, apart, client, homes, socket, realms):
    """The labels of each line of a metric, in order."""
    owners = {PROGRAM: [""], CLIENTS: [""], SIDES: ['side="clients"', *homes], CLIENT: [f'client="{client}"'], REALM: realms, HOME: homes,
              SOCKET: [f'side="clients",socket="{socket}"', *(f'{home},port="0"' for home in homes)]}[whose]
    if apart is None:
        return owners
    name, values = apart
    return [",".join(filter(None, [owner, f'{name}="{value}"'])) for owner in owners for value in values or [VERSION]]


def names_of(name, kind, labels):
    """The name of each line of a metric with these labels, and the value of a histogram's where none is known."""
    if kind != HISTOGRAM:
        return [(f"{name}{{{labels}}}" if labels else name, None)]
    buckets = [(f'{name}_bucket{{{labels},le="{bound}"}}', "SOME") for bound in BOUNDS]
    last = f'{name}_bucket{{{labels},le="+Inf"}}'
    return [*buckets, (last, None), (f"{name}_sum{{{labels}}}", "SECONDS"), (f"{name}_count{{{labels}}}", None)]


def text_of(numbers, client, homes=(), socket="", realms=(), metrics=METRICS):
    """The lines of metrics, of all but a ledger's and a spool's if no others are named, where these numbers are known, by their names and labels: of
    this client, of the home servers and the realms with these labels, and of the clients' socket at this address."""
    lines = []
    for name, kind, about, whose, apart, value in metrics:
        lines += [f"# HELP rad_proxy_{name} {about}", f"# TYPE rad_proxy_{name} {kind}"]
        for labels in labels_of(whose, apart, client, homes, socket, realms):
            for each, word in names_of(name, kind, labels):
                lines.append(f"rad_proxy_{each} {numbers.get(each, word or value or buffer())}")
    return lines
