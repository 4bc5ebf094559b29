"""Two programs that send each other what is not listed: how often a request goes round, and what else is answered meanwhile.

usage: python3 -m tests.network.loops PROGRAM

The `other_home` of each is the other one. A request of a realm that neither has goes round, with one Proxy-State of 12 octets more each
time, and is never answered. It goes on until it is too long, or until both windows are full: each bound is worked out here from the
rules of docs/protocol.md. Meanwhile a request of a listed realm is answered, and one at the other proxy too. The last line is
`N passed, M failed`, of tests.
"""
import time

from tests.lib import SECRET, Home, Proxy, answer, bound, free_ports, hope, is_so, request, try_in_folders, until, user_name

# The greatest Length of a request that is forwarded, and the octets of the Proxy-State that it gets.
GREATEST, STATE = 4084, 12
UNLISTED = b"bob@nowhere.example"
# The default of `window`.
WINDOW = 64
# Nothing is sent again in a test of this wait.
LONG_WAIT, QUIET = "first_wait = 60000\n", 2.5


class Round:
    """Two programs, each the other's `other_home`, and a home server with a realm at both."""

    def __init__(self, program, folder, limits):
        self.home, self.nas, self.asked = Home(), bound(), 0
        self.home.ear.settimeout(0.05)
        ports = free_ports(2)
        homes = [{"other": (ports[1 - place], limits), "quick": (self.home.port, "")} for place in (0, 1)]
        self.two = [Proxy.serving(program, folder, f"loop-{place}", homes[place], ports[place], other="other") for place in (0, 1)]

    def __enter__(self):
        return self

    def __exit__(self, *_):
        for proxy in self.two:
            proxy.kill()
        self.home.ear.close()
        self.nas.close()

    def ask(self, proxy, name):
        self.asked += 1
        octets = request(self.asked % 256, user_name(name), SECRET)
        self.nas.sendto(octets, proxy.listen)
        return octets

    def is_answered(self, proxy):
        """Whether a request of a listed realm comes to its home server, and its answer back."""
        asked = self.ask(proxy, b"eve@Quick.example")

        def comes():
            before = len(self.home.came)
            self.home.hear(0.05)
            for packet, sender in self.home.came[before:]:
                self.home.answer(packet, sender)
            return len(self.home.came) > before

        self.nas.settimeout(5)
        return is_so(comes) and self.nas.recv(4096) == answer(asked, asked[1], b"", SECRET)

    def counts(self, name):
        """A counter of each of the two, for the lane of the other one."""
        found = []
        for proxy in self.two:
            lines = proxy.counters.read_text("utf-8").splitlines() if proxy.counters.exists() else []
            found.append(sum(int(line.rpartition(" ")[2]) for line in lines if line.startswith(f'rad_proxy_{name}{{lane="0"')))
        return found

    def came_to_rest(self, wanted):
        """Whether so many are accepted in the end, and no more some seconds later."""
        if not is_so(lambda: sum(self.counts("accepted_total")) >= wanted):
            return self.counts("accepted_total")
        time.sleep(QUIET)
        return sum(self.counts("accepted_total"))


def ends_when_it_is_too_long(program, folder):
    """With windows that have room for all, a request ends as one that is too long for another Proxy-State."""
    longest = 1 + (GREATEST - 20 - 2 - len(UNLISTED)) // STATE
    hope("how often it is accepted", longest, 337)
    with Round(program, folder, f"window = 254\n{LONG_WAIT}") as both:
        both.ask(both.two[0], UNLISTED)
        hope("accepted", both.came_to_rest(longest), longest)
        hope("by both in turn", both.counts("accepted_total"), [169, 168])
        hope("sent", (sum(both.counts("sent_total")), sum(both.counts("resent_total"))), (longest, 0))
        refused = until("a refusal is told", lambda: [line for proxy in both.two for line in proxy.lines("refused")])
        hope("the refusals", [line["reason"] for line in refused], ["TooLong"])
        hope("marked", both.counts("marked_total"), [168, 169])
        hope("a listed realm is answered", [both.is_answered(proxy) for proxy in both.two], [True, True])
        marked = [until("a loop is told", lambda: proxy.lines("marked")) for proxy in both.two]
        hope("the first line of both", [lines[0]["level"] for lines in marked], ["warn", "warn"])


def fills_both_windows(program, folder):
    """With the default windows it stands still when both are full, and what is listed is answered."""
    with Round(program, folder, LONG_WAIT) as both:
        both.ask(both.two[0], UNLISTED)
        hope("accepted", both.came_to_rest(2 * WINDOW + 1), 2 * WINDOW + 1)
        hope("by both in turn", both.counts("accepted_total"), [WINDOW + 1, WINDOW])
        hope("sent", both.counts("sent_total"), [WINDOW, WINDOW])
        hope("a listed realm is answered", [both.is_answered(proxy) for proxy in both.two], [True, True])


def is_sent_again_for_ever(program, folder):
    """What went round stays outstanding: it is sent again, and a probe that is answered marks the other one up. None is accepted anew."""
    with Round(program, folder, "window = 20\nfirst_wait = 100\ntries = 2\nprobe_every = 1000\n") as both:
        both.ask(both.two[0], UNLISTED)
        hope("accepted", both.came_to_rest(41), 41)
        hope("sent again, and no end of it", is_so(lambda: min(both.counts("resent_total")) > 200), True)
        hope("down and up", min(both.counts("downs_total")) > 1 and min(both.counts("ups_total")) > 1, True)
        hope("accepted in the end", both.counts("accepted_total"), [21, 20])
        hope("a listed realm is answered", [both.is_answered(proxy) for proxy in both.two], [True, True])


if __name__ == "__main__":
    try_in_folders([ends_when_it_is_too_long, fills_both_windows, is_sent_again_for_ever], __doc__)
