"""What the log of `run` tells of home servers that go down and up, of cuts, of realms that lead nowhere, and of loops.

usage: python3 -m tests.network.log_of_downs_cuts_loops PROGRAM

The home servers are sockets of this script, which answer what each trial has them answer; two proxies that are each other's
default home are the program twice. What each line has to say is taken from docs/formats.md. Requests and answers are made by
Python's hashlib. The last line is `N passed, M failed`, of what was looked at.
"""
import time

from tests.lib import (ACCT_SESSION_ID, HERE, PATIENCE, PROXY_STATE, SECRET, Home, Proxy, attribute, bound, free_ports, is_so, mark,
                       request, trying, user_name)

CUT_REQUESTS, CUT_BOOK = 300, 10


class Trial(trying.Trial):
    """What is looked at, and the one NAS."""

    def __init__(self, program, folder):
        super().__init__(program, folder)
        self.nas, self.asked, self.proxies = bound(), 0, []

    def run(self):
        self.tell_of_homes()
        self.tell_of_cuts("info")
        self.tell_of_cuts("debug")
        self.tell_of_cuts_of_each_lane()
        self.tell_of_realms()
        self.tell_of_loops()
        self.tell_of_a_chain()

    def proxy(self, *words, **more):
        made = Proxy.serving(self.program, self.folder, *words, **more)
        self.proxies.append(made)
        return made

    def ask(self, proxy, name, more=b""):
        """Sends a new request of this User-Name."""
        self.asked += 1
        octets = request(self.asked % 256, user_name(name) + more, SECRET)
        self.nas.sendto(octets, proxy.listen)
        return octets

    def goes_down(self, proxy, name, home, session, number):
        """Whether a line tells that a home server went down by this request of this NAS."""
        self.see(f"{name} goes down", is_so(lambda: proxy.lines("down", name)))
        told = proxy.lines("down", name)[0]
        right = {"level": "warn", "number": str(number), "client": HERE, "client_port": str(self.nas.getsockname()[1])}
        self.see(f"{name}'s request is named", right.items() <= told.items() and told.get("session") == session, told)
        self.see("its age is told", told.get("age", "").isdigit() and 500 <= int(told["age"]) <= 30_000, told)
        self.see("it is told once", len(proxy.lines("down", name)) == 1)
        home.hear()

    def goes_up(self, proxy, name, reason):
        """Whether a line tells that a home server went up for this reason."""
        self.see(f"{name} goes up", is_so(lambda: proxy.lines("up", name)))
        told = proxy.lines("up", name)[0]
        self.see(f"{name} goes up for this reason: {reason}", told == {"level": "info", "event": "up", "home": name, "reason": reason}, told)

    def tell_of_homes(self):
        """Home servers that go down by one of several requests, and come up for each reason."""
        homes = {name: Home() for name in ("probed", "answering", "dead")}
        limits = "tries = 1\nfirst_wait = 600\nprobe_every = 1000\ndown_wait = {}\n"
        waits = {"probed": 600_000, "answering": 600_000, "dead": 1000}
        proxy = self.proxy("homes", {name: (home.port, limits.format(waits[name])) for name, home in homes.items()})
        for name, home in homes.items():
            for session in (b"first", b"S 1=\xff", b"third"):
                count = len(home.requests())
                self.ask(proxy, f"bob@{name}.example".encode(), attribute(ACCT_SESSION_ID, session))
                self.see("a request comes", is_so(lambda: len(home.requests()) > count))
                if session == b"first":
                    home.answer(*home.requests()[0])
        for name, home in homes.items():
            self.goes_down(proxy, name, home, "S%201%3d%ff", 1)
        self.see("a probe is answered", is_so(homes["probed"].answers_a_probe))
        self.goes_up(proxy, "probed", "probe answered")
        homes["answering"].answer(*homes["answering"].requests()[1])
        self.goes_up(proxy, "answering", "answered")
        self.goes_up(proxy, "dead", "down_wait over")
        proxy.end()

    def serve(self, proxy, home, count, name="quick"):
        """Has so many requests answered, one after the other, and gives how many seconds that took."""
        start = time.monotonic()
        for _ in range(count):
            self.ask(proxy, f"bob@{name}.example".encode())
            home.came.clear()
            home.hear(1.0)
            for packet, sender in home.came:
                home.answer(packet, sender)
            time.sleep(0.005)
        return time.monotonic() - start

    def tell_of_cuts(self, level):
        """A book that is cut again and again: a sum a second, and at `debug` each cut besides."""
        home = Home()
        limits = f"book = {CUT_BOOK}\nspan = 0\nfirst_wait = 60000\n"
        proxy = self.proxy(f"cuts-{level}", {"quick": (home.port, limits)}, level=level)
        seconds = self.serve(proxy, home, CUT_REQUESTS)
        sum_of_cuts = lambda: sum(int(pairs["count"]) for pairs in proxy.lines("cut", "quick") if pairs["level"] == "info")
        has_all = is_so(lambda: proxy.counter("cut_total") == sum_of_cuts() >= CUT_REQUESTS - 2 * CUT_BOOK)
        self.see("the counter has as many", has_all, (proxy.counter("cut_total"), sum_of_cuts()))
        proxy.end()
        told = proxy.lines("cut", "quick")
        sums = [pairs for pairs in told if pairs["level"] == "info"]
        each = [pairs for pairs in told if pairs["level"] == "debug"]
        cut = sum(int(pairs["count"]) for pairs in sums)
        self.see("most of it was cut", CUT_REQUESTS - 2 * CUT_BOOK <= cut <= CUT_REQUESTS, cut)
        self.see(f"sums are told once a second: {len(sums)} in {seconds:.1f} s", 1 <= len(sums) <= seconds + 3, sums)
        is_each = sum(int(pairs["count"]) for pairs in each) == cut and len(each) >= CUT_REQUESTS // CUT_BOOK / 2
        self.see(f"at {level} each is a line or none is", is_each if level == "debug" else not each, len(each))

    def tell_of_cuts_of_each_lane(self):
        """The book of each of five lanes is cut, the last ones' too, and each is told by its name."""
        homes = {f"home{lane}": Home() for lane in range(5)}
        limits = f"book = {CUT_BOOK}\nspan = 0\nfirst_wait = 60000\n"
        proxy = self.proxy("lanes", {name: (home.port, limits) for name, home in homes.items()})
        for name, home in homes.items():
            self.serve(proxy, home, 2 * CUT_BOOK, name)
        for name in homes:
            self.see("its cuts are told", is_so(lambda: proxy.lines("cut", name), 3), name)
        proxy.end()

    def tell_of_realms(self):
        """Requests whose realm leads nowhere: the sum names the last one's."""
        proxy = self.proxy("realms", {"quick": (Home().port, "")})
        names = (b"bob@nowhere.example", b"bob@no where=\n", b"bob")
        for place, name in enumerate(names):
            self.ask(proxy, name)
            self.see("a drop is told", is_so(lambda: len(proxy.lines("dropped")) > place))
        realms = [pairs.get("realm") for pairs in proxy.lines("dropped")]
        self.see("each sum names the last realm", realms == ["nowhere.example", "no%20where%3d%0a", None], realms)
        for _ in range(50):
            self.ask(proxy, b"bob@flood.example")
        self.ask(proxy, b"bob@last.example")
        is_last = is_so(lambda: proxy.lines("dropped")[-1].get("realm") == "last.example")
        self.see("of many the last one is named", is_last, proxy.lines("dropped")[3:])
        proxy.end()

    def tell_of_loops(self):
        """A request that another proxy sent is told as such; one that goes round between two proxies is told as a loop."""
        ports = free_ports(2)
        homes = [{"other": (ports[1], "window = 8\n")}, {"other": (ports[0], "window = 8\n")}]
        two = [
            self.proxy(f"loop-{place}", homes[place], port=ports[place], default="other") for place in (0, 1)
        ]
        self.ask(two[0], b"bob")
        for proxy in two:
            self.see("a loop is told", is_so(lambda: [each for each in proxy.lines("marked") if each["level"] == "warn"]))
            self.see_a_loop(proxy)
            proxy.end()
            marked = sum(int(pairs["count"]) for pairs in proxy.lines("marked"))
            self.see("the counter has as many", proxy.counter("marked_total") == marked, proxy.counter("marked_total"))

    def see_a_loop(self, proxy):
        told = [pairs for pairs in proxy.lines("marked") if pairs["level"] == "warn"]
        right = {"home": "other", "client": HERE}
        self.see("it is told with how many Proxy-States", all(int(pairs["proxy_states"]) >= 2 for pairs in told), told)
        self.see("it is told of its home server", all(right.items() <= pairs.items() for pairs in told), told)
        self.see("it is told once a second at most", len(proxy.lines("marked")) <= PATIENCE)

    def tell_of_a_chain(self):
        """A request with one Proxy-State of this form, as behind another proxy, is told at `info`, or at `warn` where realms that are not
        listed lead on; one with two is told at `warn`, and one with none is not."""
        marks = mark(3, 77), mark(3, 77) + mark(2, 9)
        for level, other, states in (("info", None, 1), ("warn", "quick", 1), ("warn", None, 2)):
            proxy = self.proxy(f"chain-{level}-{states}", {"quick": (Home().port, "")}, other=other)
            self.ask(proxy, b"bob@quick.example", attribute(PROXY_STATE, b"abc"))
            self.ask(proxy, b"bob@quick.example", marks[states - 1])
            self.see("it is told", is_so(lambda: proxy.lines("marked")))
            told = proxy.lines("marked")
            right = {"level": level, "home": "quick", "count": "1", "proxy_states": str(states), "client": HERE}
            self.see("it is told as one", len(told) == 1 and right.items() <= told[0].items(), told)
            proxy.end()

    def stop(self):
        """Ends whatever is left running."""
        for proxy in self.proxies:
            proxy.kill()


def main():
    trying.run_trial(Trial, __doc__)


if __name__ == "__main__":
    main()
