"""What NASes sent to the proxy of today, out of captures."""
from collections import Counter

from .datagrams import Reader, address
from .faults import Fault
from .radius import REQUEST, STATUS

MOST = 300_000


class Requests:
    """The datagrams that came to the proxy of today, in order. The first 300,000 are kept."""

    def __init__(self, settings, paths, proxy):
        self.settings, self.proxy = settings, proxy or settings.listen
        self.homes = {(home.address, home.port) for home in settings.homes}
        self.reader, self.beyond = Reader(paths, self.is_for_proxy), 0
        self.kept = []
        for datagram in self.reader.datagrams():
            if len(self.kept) < MOST:
                self.kept.append(datagram)
            else:
                self.beyond += 1
        self.kept.sort(key=lambda it: it.time)
        self.choose()
        if not self.kept:
            place = f"{address(self.proxy[0])}:{self.proxy[1]}"
            raise Fault(f"no datagram to a proxy at {place} in the captures; --proxy ADDRESS:PORT names another")

    def is_for_proxy(self, it):
        """Whether a datagram may be one to the proxy of today."""
        if it.target_port != self.proxy[1] or (it.target, it.target_port) in self.homes or (it.source, it.source_port) in self.homes:
            return False
        return self.proxy[0] in (bytes(4), it.target)

    def choose(self):
        """At 0.0.0.0 the proxy had the addresses that requests came to; what came to others are answers to NASes."""
        if self.proxy[0] != bytes(4):
            self.target = self.proxy[0]
            return
        asked = Counter(it.target for it in self.kept if it.octets[:1] and it.octets[0] in (REQUEST, STATUS))
        self.kept = [it for it in self.kept if it.target in asked]
        self.target = max(asked, key=asked.get, default=bytes(4))

    def seconds(self):
        return (self.kept[-1].time - self.kept[0].time) / 1e9

    def senders(self):
        return len({it.source for it in self.kept})

    def notes(self):
        """What there is to say of the captures."""
        yield from self.reader.notes()
        if self.beyond:
            yield f"left out: {self.beyond} datagrams behind the first {MOST}"
