"""When the program ends where requests are answered, outstanding, or answered after the end of the input.

usage: python3 -m tests.timing.end_with_requests_left PROGRAM [TEST ..]

A test is a function below; its first line says what holds. Home servers and the NAS are sockets of this script. A bound of time is
kept where the best of TRIES keeps it. The last line is `N passed, M failed`.
"""
import time

from tests.lib import NOTHING_LEFT, Stage, best, need, try_in_folders


def ends_at_once_where_nothing_is_left(program, folder):
    """Where all is answered the end comes at once, however long it might linger, and at whatever moment between two reports."""

    def ended():
        with Stage(program, folder, linger=20_000, count=3) as stage:
            stage.round_trip(2)
            stage.next_report()
            time.sleep(0.2)
            seconds, line, status = stage.ends()
            need((line, status) == (NOTHING_LEFT, 0), line, status)
            return round(seconds, 3)

    best(ended, lambda seconds: seconds < 0.4)


def lingers_for_a_home_that_is_silent(program, folder):
    """Where a request is not answered the end comes after `linger`, and not before."""

    def ended():
        with Stage(program, folder, "first_wait = 60000\n", linger=1500) as stage:
            stage.nas.ask()
            stage.came()
            seconds, line, status = stage.ends()
            need((line, status) == ("end: queued 0 outstanding 1 untaken 0", 3), line, status)
            need(seconds >= 1.45, "it ended after", seconds)
            return round(seconds, 3)

    best(ended, lambda seconds: seconds < 1.9)


def ends_as_the_last_answer_comes(program, folder):
    """A request of the last of three home servers that is answered after the end of the input is answered to the NAS, and then
    the end comes at once."""

    def ended():
        with Stage(program, folder, linger=20_000, count=3) as stage:
            asked = stage.nas.ask("h2")
            came = stage.came(2)
            stage.proxy.ran.stdin.close()
            time.sleep(0.25)
            begun = time.monotonic()
            stage.homes[2].answer(*came)
            need(stage.nas.is_answered(asked), "another response came")
            stage.proxy.ran.stdin = None
            _, line, status = stage.ends()
            need((line, status) == (NOTHING_LEFT, 0), line, status)
            return round(time.monotonic() - begun, 3)

    best(ended, lambda seconds: seconds < 0.4)


TESTS = [ends_at_once_where_nothing_is_left, lingers_for_a_home_that_is_silent, ends_as_the_last_answer_comes]


if __name__ == "__main__":
    try_in_folders(TESTS, __doc__)
