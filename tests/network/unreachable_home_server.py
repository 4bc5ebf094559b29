"""Kills a home server and leaves another one's port closed, and sees that the program serves on and logs each of it once.

usage: python3 -m tests.network.unreachable_home_server PROGRAM
       python3 -m tests.network.unreachable_home_server --serve PORT SECRET     a home server on loopback: it answers what is right

Of three home servers one answers, in a process of its own; one is killed by SIGKILL and comes back later on the same port;
and where the third one should be nobody is, so that the kernel answers each datagram to it by ICMP: port unreachable. The
log has to be one line for each that goes down and one for the one that comes up, whatever number of turns and sendings lie
between; only what was sent twice to a slow home server may be told as Unknown. Requests to the first one are answered all the time; that of the killed one is answered once it is back; and what
is left at the end is the request to nobody. The last line is `N passed, M failed`, of what was looked at.
"""
import os
import subprocess
import sys
import time

from tests.lib import (ACCOUNTING_REQUEST, HERE, NAS_SECRET, STATUS_SERVER, TOP, ZEROS, Proxy, Server, answer, bound, configured,
                       free_port, is_right_status, is_signed, is_so, read, reply, request, trying, user_name)

NAMES = ["there", "killed", "nobody"]
LIMITS = "tries = 2\nprobe_every = 1000\ndown_wait = 600000\n"
FIRST_WAIT = {"there": 60_000, "killed": 500, "nobody": 500}
TOLD_TWICE = {"event": "unheard", "reason": "Unknown"}
A_WHILE, APART = 3, 0.05


def secret_of(name):
    return f"{name}-secret"


def serve(port, secret):
    """Answers whatever is right, for ever."""
    ear = bound(port=port, patience=None)
    print("ready", flush=True)
    while True:
        octets, sender = ear.recvfrom(4096)
        came = read(octets)
        if came.code == STATUS_SERVER and is_right_status(came, secret):
            ear.sendto(answer(octets, came.identifier, b"", secret), sender)
        elif came.code == ACCOUNTING_REQUEST and is_signed(came, ZEROS, secret):
            ear.sendto(reply(came, secret), sender)


class Trial(trying.Trial):
    """The program, its home servers and its one NAS."""

    def __init__(self, program, folder):
        super().__init__(program, folder)
        self.ports, self.homes = {name: free_port() for name in NAMES}, {}
        self.nas, self.asked = bound(), 0
        self.nas.settimeout(0.2)
        listen = HERE, free_port()
        servers = [Server(name, port, f"first_wait = {FIRST_WAIT[name]}\n{LIMITS}", f"{name}.example", secret_of(name))
                   for name, port in self.ports.items()]
        self.proxy = Proxy(program, folder, configured(f"{HERE}:{listen[1]}", servers), listen)
        self.proxy.start(env=os.environ)

    def see(self, what, is_right):
        super().see(what, is_right, f"the log is {self.logged()}")

    def logged(self):
        """What the log tells: each event, and of whom."""
        lines = self.proxy.log.read_text("utf-8").replace('"', "").splitlines()
        told = [dict(pair.split("=", 1) for pair in line.split() if "=" in pair) for line in lines]
        told = [pairs for pairs in told if not TOLD_TWICE.items() <= pairs.items()]
        return [f"{pairs.get('event')} {pairs.get('home')}" for pairs in told]

    def start(self, name):
        """Starts a home server, and waits until it listens."""
        words = [sys.executable, "-m", __spec__.name, "--serve", str(self.ports[name]), secret_of(name)]
        self.homes[name] = subprocess.Popen(words, stdout=subprocess.PIPE, cwd=TOP)
        self.homes[name].stdout.readline()

    def kill(self, name):
        self.homes[name].kill()
        self.homes.pop(name).communicate()

    def ask(self, name):
        """A new request for a home server's realm, sent once."""
        self.asked += 1
        octets = request(self.asked, user_name(f"bob@{name}.example".encode()), NAS_SECRET)
        self.nas.sendto(octets, self.proxy.listen)
        return octets

    def is_answered(self, asked):
        """Whether the response to a request comes, which is sent again where it does not come soon."""

        def comes():
            try:
                return self.nas.recv(4096) == answer(asked, asked[1], b"", NAS_SECRET)
            except TimeoutError:
                self.nas.sendto(asked, self.proxy.listen)
                return False

        return is_so(comes)

    def run(self):
        self.proxy.listens()
        for name in ("there", "killed"):
            self.start(name)
            self.see(f"{name} answers", self.is_answered(self.ask(name)))
        self.ask("nobody")
        down = ["down nobody"]
        self.see("a home server whose port is closed goes down", is_so(lambda: self.logged() == down))
        self.kill("killed")
        late = self.ask("killed")
        down.append("down killed")
        self.see("a home server that was killed goes down", is_so(lambda: self.logged() == down))
        answered, end = [], time.monotonic() + A_WHILE
        while time.monotonic() < end:
            answered.append(self.is_answered(self.ask("there")))
            time.sleep(APART)
        self.see("the other home server answers all the while", all(answered))
        self.see("nothing more is logged, whatever is sent to both", self.logged() == down)
        self.start("killed")
        up = [*down, "up killed"]
        self.see("the one that comes back goes up", is_so(lambda: self.logged() == up))
        self.see("its request is answered", self.is_answered(late))
        self.end(up)

    def end(self, log):
        """Ends the program, whose log has to be these lines."""
        printed, _ = self.proxy.ran.communicate()
        last = printed.decode().splitlines()[-1:]
        self.see(f"it ends as it should: {last}", last == ["end: queued 0 outstanding 1 untaken 0"])
        self.see(f"its status is 3: {self.proxy.ran.returncode}", self.proxy.ran.returncode == 3)
        self.see("its log is complete", self.logged() == [*log, "left nobody"])

    def stop(self):
        """Ends whatever is left running."""
        for process in (self.proxy.ran, *self.homes.values()):
            process.kill()
            process.communicate()


def main():
    if len(sys.argv) == 4 and sys.argv[1] == "--serve":
        serve(int(sys.argv[2]), sys.argv[3].encode())
    trying.run_trial(Trial, __doc__)


if __name__ == "__main__":
    main()
