"""What is hardly meant in a configuration and the program does not tell: a part, an index, a key, the event of a line, and its reason."""
import re

# The ports of RADIUS that serve something else than accounting.
OTHER_PORTS = {1812: "authentication: accounting has 1813", 1645: "authentication: accounting has 1646 or 1813",
               3799: "changes of authorization: accounting has 1813", 2083: "RADIUS over TLS: accounting over UDP has 1813"}
# The secrets that stand in the configurations and pages of other servers.
KNOWN_SECRETS = {"testing123", "testing123-1", "testing123-2", "xyzzy5461", "radiussecret", "sharedsecret", "shared_secret", "mysecret",
                 "changeme", "password", "secret123"}
VARIABLE = re.compile(r"\$\{.*|\$ENV\{.*|%\{.*|\{\{.*|<.*>|@[A-Z_]+@")
# The names that other servers take for all realms or for none, of which the program tells in letters of either case.
CATCH_ALLS = {"*", "default", "null"}
PATTERN = re.compile(r"[~^$()\[\]{}|\\+?]")
# The least `linger` that is not 0 and the greatest, in ms: a unit of systemd stops for 90 s, ten of them for the ledger.
LEAST_LINGER, MOST_LINGER = 1000, 80_000


def port_of(place):
    return int(place.rpartition(":")[2])


def octets_of(place):
    return [int(part) for part in place.partition(":")[0].split(".")]


def of_port(place):
    """What is doubtful in an address and port, where something is."""
    port = port_of(place)
    return f"port {port} is for {OTHER_PORTS[port]}" if port in OTHER_PORTS else None


def of_linger(linger):
    if 0 < linger < LEAST_LINGER:
        return f"a stop waits for answers for {linger} ms, which are no seconds"
    if linger > MOST_LINGER:
        return f"beyond {MOST_LINGER} ms: TimeoutStopSec of the unit ends the service before, where it is 110"
    return None


def of_client(address, listen):
    """What is doubtful in the address of a client, where something is."""
    first, at = octets_of(address)[0], octets_of(listen)[0]
    if first == 0 or first >= 224:
        return "no host sends from it: one [[client]] for each address"
    if at == 127 and first != 127:
        return "it does not reach listen, which is an address of this machine for itself"
    return None


def of_secret(secret):
    """What is doubtful in a secret, where something is. It is never told itself."""
    if secret != secret.strip():
        return "it begins or ends with a blank"
    if not secret.isprintable() and all(ord(letter) >= 128 or letter.isprintable() for letter in secret):
        return "it has a character that is not shown"
    if secret.casefold() in KNOWN_SECRETS:
        return "pages of other servers have this secret"
    if VARIABLE.fullmatch(secret):
        return "it looks like a variable, which nothing replaces"
    return None


def of_realm(name):
    """What is doubtful in the name of a realm, where something is that the program does not tell."""
    if any(letter.isspace() for letter in name):
        return "it has a blank"
    if name.lower() in CATCH_ALLS or name.startswith(("/", "~")):
        return None
    if name == "LOCAL":
        return "FreeRADIUS has it for its own users; here it is a realm of this name"
    if name.startswith(("*", ".")):
        return "it begins with * or ., but a realm is a whole name, not the end of one"
    if PATTERN.search(name):
        return "it has a character of a pattern, but a realm is a name"
    return None


def of_book(home, rate):
    """What is doubtful in the size of a book, where something is."""
    waiting = home["queue"] + home["window"]
    if home["book"] < waiting:
        return f"below queue and window together, {waiting}: new requests are refused (BookFull) before the queue is full"
    needed = waiting + rate * home["span"] // 1000
    if home["book"] < needed:
        return f"below what a span brings at {rate} a second, queue and window together, {needed}: new requests are refused (BookFull)"
    return None


def of_tables(tables, rate):
    """All doubts, in the order of the tables; None in place of a reason where there is none."""
    listen = tables["listen"]
    yield "top", 0, "listen", "port", of_port(listen)
    yield "top", 0, "linger", "linger", of_linger(tables["linger"])
    for at, client in enumerate(tables["client"]):
        yield "client", at, "address", "client-address", of_client(client["address"], listen)
        yield "client", at, "secret", "weak-secret", of_secret(client["secret"])
    for at, home in enumerate(tables["home"]):
        yield "home", at, "address", "port", of_port(home["address"])
        yield "home", at, "secret", "weak-secret", of_secret(home["secret"])
        yield "home", at, "book", "small-book", of_book(home, rate)
        yield "home", at, "tries", "one-try", "one datagram that is lost has it marked down" if home["tries"] == 1 else None
    for at, realm in enumerate(tables.get("realm", ())):
        yield "realm", at, "name", "realm-name", of_realm(realm["name"])


def doubts(tables, rate):
    """The doubts about a configuration, with so many requests a second to each home server, or 0 where that is not known."""
    return [doubt for doubt in of_tables(tables, rate) if doubt[-1] is not None]
