"""What the program tells of itself in numbers, in the file of its counters: that they fit together, and when each was.

usage: python3 -m tests.timing.metrics_over_time PROGRAM [TEST ..]

A test is a function below; its first line says what holds. The last line is `N passed, M failed`.
"""
import contextlib
import pathlib
import signal
import time

from tests.lib import HERE, Stage, best, bound, is_so, need, try_in_folders
from tools.version import VERSION

HOME = '{lane="0",home="h0"}'
OF_ONE_HOLD = ["accepted_total", "queued", "outstanding", "answered_total"]


def seen(stage, *names):
    """Numbers of the first home server, of one text."""
    found = stage.counters()
    return [found[f"rad_proxy_{name}{HOME}"] for name in names]


def of_client(stage, name, label=""):
    return stage.counters()[f'rad_proxy_client_{name}{{client="{HERE}"{label}}}']


def numbers_of_a_home_fit_together(program, folder):
    """In each text what was accepted is what waits, is out and was answered, while requests come faster than they are answered."""
    with Stage(program, folder, "window = 8\nqueue = 2000\nfirst_wait = 60000\n") as stage:
        told, last = set(), time.monotonic() + 6
        home = stage.homes[0]
        while time.monotonic() < last:
            for _ in range(4):
                stage.nas.ask()
            before = len(home.came)
            home.hear(0.002)
            for packet, sender in home.came[before:]:
                home.answer(packet, sender)
            if stage.proxy.counters.exists():
                told.add(tuple(seen(stage, *OF_ONE_HOLD)))
        for accepted, queued, outstanding, answered in told:
            need(accepted == queued + outstanding + answered, told)
        need(len(told) > 3, "few texts:", told)


def ages_grow_until_an_answer(program, folder):
    """A request that is out and one that waits grow old as time goes by; an answer ends that, and is the last one."""
    begun = time.time()
    with Stage(program, folder, "window = 1\nfirst_wait = 60000\n") as stage:
        for _ in range(2):
            stage.nas.ask()
        packet, sender = stage.came()
        ages = ["oldest_queued_age_seconds", "oldest_held_age_seconds"]
        need(is_so(lambda: min(seen(stage, *ages)) > 1.5), "no request grows old")
        told, queued, held, answer = seen(stage, "home_report_time_seconds", *ages, "last_answer_time_seconds")
        need(abs(queued - held) < 0.5 and held < told - begun + 0.5 and answer == 0, told - begun, queued, held, answer)
        stage.homes[0].answer(packet, sender)
        answered = time.time()
        need(is_so(lambda: seen(stage, "answered_total") == [1]), "no answer is counted")
        queued, answer = seen(stage, "oldest_queued_age_seconds", "last_answer_time_seconds")
        need(queued == 0 and abs(answer - answered) < 1, queued, answer, answered)


def what_became_of_a_home_is_told(program, folder):
    """When a home server went down and up is told, and by what; sendings are told apart from those that were sent again."""
    with Stage(program, folder, "first_wait = 300\ntries = 2\nprobe_every = 1000\n") as stage:
        need(stage.counters()["rad_proxy_start_time_seconds"] <= time.time(), "it starts later than now")
        asked = stage.nas.ask()
        need(is_so(lambda: seen(stage, "home_up", "downs_total") == [0, 1]), "it is not down")
        went = time.time()
        since, sent, again = seen(stage, "home_since_time_seconds", "sent_total", "resent_total")
        need(went - 3 < since <= went and (sent, again) == (2, 1), since, went, sent, again)
        need(is_so(stage.homes[0].answers_a_probe), "no probe comes")
        reasons = [f'rad_proxy_ups_total{HOME[:-1]},reason="{reason}"}}' for reason in ("answered", "probe answered", "down_wait over")]
        need(is_so(lambda: [stage.counters()[name] for name in reasons] == [0, 1, 0]), "no probe took it up")
        need(stage.is_answered_in_the_end(asked, 0), "the request is never answered")
        need(is_so(lambda: seen(stage, "home_since_time_seconds")[0] > since), "since when it is up is not told")


def a_client_is_counted(program, folder):
    """What one client sent and what became of it stands under its address, and what came from elsewhere under no address."""
    with Stage(program, folder, "queue = 1\nwindow = 1\nfirst_wait = 60000\n") as stage, contextlib.closing(bound()) as noise:
        asked = stage.nas.ask()
        packet, sender = stage.came()
        stage.nas.socket.sendto(asked, stage.proxy.listen)
        need(is_so(lambda: of_client(stage, "repeats_total", ',repeat="waiting"') == 1), "no repeat that waits")
        stage.homes[0].answer(packet, sender)
        need(stage.nas.is_answered(asked), "another response came")
        stage.nas.socket.sendto(asked, stage.proxy.listen)
        need(stage.nas.is_answered(asked), "another response came")
        stage.nas.ask()
        stage.came()
        for _ in range(2):
            stage.nas.ask()
        noise.sendto(b"no packet", stage.proxy.listen)
        wanted = {"received_total": 7, "accepted_total": 3, "responses_total": 2}
        need(is_so(lambda: {name: of_client(stage, name) for name in wanted} == wanted), wanted, stage.counters())
        for name, label, count in (("repeats_total", 'repeat="again"', 1), ("refused_total", 'reason="QueueFull"', 1),
                                   ("dropped_total", 'reason="Unread"', 1), ("dropped_total", 'reason="NoRealm"', 0)):
            need(of_client(stage, name, f",{label}") == count, name, label)


def limits_are_told(program, folder):
    """The limits of a home server stand beside what they limit, and the version beside the program."""
    with Stage(program, folder, "book = 5000\nqueue = 70\nwindow = 9\nring = 11\nspan = 1500\n") as stage:
        need(is_so(stage.proxy.counters.exists), "there are no numbers")
        names = ["book_limit", "queue_limit", "window_limit", "ring_limit", "span_seconds"]
        need(seen(stage, *names) == [5000, 70, 9, 11, 1.5], seen(stage, *names))
        need(stage.counters()[f'rad_proxy_build_info{{version="{VERSION}"}}'] == 1, "the version is not", VERSION)


def latencies_are_counted(program, folder):
    """A reply after 60 milliseconds, to a request that waited 300 before, is counted between its bounds; each is counted once. The program is
    older than that."""

    def counted():
        """The buckets of replies and responses, where both sums are at least what was waited."""
        with Stage(program, folder, "window = 1\nfirst_wait = 60000\n") as stage:
            time.sleep(2)
            first, second = stage.nas.ask(), stage.nas.ask()
            for asked, wait in ((first, 0.3), (second, 0.06)):
                packet, sender = stage.came()
                time.sleep(wait)
                stage.homes[0].answer(packet, sender)
                need(stage.nas.is_answered(asked), "another response came")

            def counts(name):
                found = stage.counters()
                return [found[f'rad_proxy_{name}_seconds_bucket{HOME[:-1]},le="{bound}"}}'] for bound in ("0.05", "0.25", "2.5", "+Inf")]

            need(is_so(lambda: counts("reply")[-1] == counts("response")[-1] == 2), counts("reply"), counts("response"))
            of_all = seen(stage, "reply_seconds_count", "response_seconds_count")
            sums = seen(stage, "reply_seconds_sum", "response_seconds_sum")
            need(of_all == [2, 2] and 0.36 <= sums[0] and 0.66 <= sums[1], of_all, sums)
            return counts("reply"), counts("response"), sums

    best(counted, lambda found: found[:2] == ([0, 1, 2, 2], [0, 0, 2, 2]) and found[2][0] < 2 and found[2][1] < 2)


def what_the_system_drops_is_told(program, folder):
    """Datagrams for which the receive buffer has no room are counted at their socket, as the system counts them, and at no other."""
    with Stage(program, folder) as stage:
        need(is_so(stage.proxy.counters.exists), "there are no numbers")
        stage.proxy.ran.send_signal(signal.SIGSTOP)
        for _ in range(4000):
            stage.nas.socket.sendto(bytes(1000), stage.proxy.listen)
        stage.proxy.ran.send_signal(signal.SIGCONT)
        port = f":{stage.proxy.listen[1]:04X} "
        lines = pathlib.Path("/proc/net/udp").read_text().splitlines()
        [dropped] = [int(line.split()[-1]) for line in lines if port in line[:40]]
        need(dropped > 0, "nothing was dropped")
        clients = f'{{side="clients",socket="{HERE}:{stage.proxy.listen[1]}"}}'
        need(is_so(lambda: stage.counters()[f"rad_proxy_socket_drops_total{clients}"] == dropped), dropped)
        found = stage.counters()
        need(found[f'rad_proxy_socket_drops_total{HOME[:-1]},port="0"}}'] == 0, "the home server's socket dropped some")
        most = int(pathlib.Path("/proc/sys/net/core/rmem_max").read_text())
        need(found[f"rad_proxy_socket_buffer_bytes{clients}"] == min(most, 1 << 20), found[f"rad_proxy_socket_buffer_bytes{clients}"])


def the_last_text_has_all_counts(program, folder):
    """What came between the report before the last one and the end is counted in the text of the end, for each lane."""
    with Stage(program, folder, "window = 2\nfirst_wait = 60000\n", count=3) as stage:
        stage.next_report()
        for lane in range(3):
            for _ in range(lane + 1):
                stage.round_trip(lane)
            for _ in range(3 * (lane == 1)):
                stage.nas.ask("h1")
        for _ in range(2):
            stage.came(1)
        printed, status = stage.ends()[1:]
        need((printed, status) == ("end: queued 1 outstanding 2 untaken 0", 3), printed, status)
        found = stage.counters()
        for lane, counts in enumerate([(1, 0, 0, 1), (5, 1, 2, 2), (3, 0, 0, 3)]):
            told = tuple(found[f'rad_proxy_{name}{{lane="{lane}",home="h{lane}"}}'] for name in OF_ONE_HOLD)
            need(told == counts, "lane", lane, told, "and not", counts)


TESTS = [numbers_of_a_home_fit_together, the_last_text_has_all_counts, ages_grow_until_an_answer, what_became_of_a_home_is_told, a_client_is_counted, limits_are_told,
         what_the_system_drops_is_told, latencies_are_counted]


if __name__ == "__main__":
    try_in_folders(TESTS, __doc__)
