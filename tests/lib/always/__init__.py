"""What holds in every script, whatever it tries: each datagram of the program is a packet, and no counter falls.

What does not hold is noted, and told at the end of the script, where it counts as a failure.
"""
from tests.lib.always.counters import WATCH, watch_counters
from tests.lib.always.datagrams import Ear
from tests.lib.always.notes import NOTED


def told_always():
    """Tells what was noted, and gives how much that is."""
    WATCH.look()
    for text in NOTED:
        print(f"not so: {text}", flush=True)
    return len(NOTED)
