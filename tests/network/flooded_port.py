"""Floods one source port of a lane with garbage from strangers, and sees that the answers at its other one are heard.

usage: python3 -m tests.network.flooded_port PROGRAM

A lane of two source ports sends its first 256 requests from one of them and the next ones from the other. Once the second
one is in use the first one is flooded, faster than the lane reads, and 200 requests more go out from the second. Each has
to be answered, and sent to the home server once. The last line is `N passed, M failed`.
"""
from tests.lib import HERE, Stage, flooded, need, try_in_folders

FIRST, ASKED = 256, 200


def ask(stage):
    """Has a new request answered, and answers the port that it was forwarded from."""
    asked = stage.nas.ask()
    packet, sender = stage.came()
    stage.homes[0].answer(packet, sender)
    need(stage.nas.is_answered(asked), f"request {stage.nas.asked} has another response")
    return sender[1]


def answers_at_the_other_port_are_heard(program, folder):
    """While the first source port is flooded, requests go out from the second one alone, and their answers are heard."""
    with Stage(program, folder, "ports = 2\nfirst_wait = 60000\n") as stage:
        (first,) = {ask(stage) for _ in range(FIRST)}
        second = ask(stage)
        need(second != first, "the second port is not in use")
        with flooded((HERE, first)):
            others = [ask(stage) for _ in range(ASKED)]
        need(set(others) == {second}, "not all went out from the second port")


if __name__ == "__main__":
    try_in_folders([answers_at_the_other_port_are_heard], __doc__)
