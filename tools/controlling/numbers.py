"""What the numbers of a home server carry, and those that are recommended, chosen by one question."""

# Each block: what is so, and its numbers.
BLOCKS = [("it takes more than two seconds an answer under load", {"window": 254, "first_wait": 6000}),
          ("it is rather absent than slow", {"first_wait": 1000, "tries": 2, "probe_every": 1000}),
          ("thousands of requests come at once, as after a restart of access servers", {"queue": 65536, "book": 200_000})]
DEFAULTS = {"window": 64, "first_wait": 2000, "tries": 3, "probe_every": 10_000, "queue": 4096, "book": 100_000}


def shown(number):
    return f"{number:.1f}" if number < 10 else f"{number:.0f}"


def carried(home, rate):
    """A line of what a home server's numbers carry, with so many requests a second to it, or 0 where that is not known."""
    window, wait, queue = home["window"], home["first_wait"], home["queue"]
    slow = f"home {home['name']}: {shown(1000 * window / wait)} a second where an answer takes first_wait, {wait} ms (window {window})"
    if not rate:
        return f"{slow}; {queue} more wait (queue)"
    answer = f"at {rate} a second an answer may take {shown(1000 * window / rate)} ms"
    return f"{slow}; {answer}, and the queue of {queue} holds {shown(queue / rate)} s"


def advice(homes):
    """Lines of the blocks, where some home server has the default of each number that they have."""
    names = [home["name"] for home in homes if all(home[key] == number for key, number in DEFAULTS.items())]
    if not names:
        return []
    blocks = [f"  {'; '.join(f'{key} = {number}' for key, number in numbers.items())}: if {what}" for what, numbers in BLOCKS]
    return [f"home {' '.join(names)}: the default numbers. Better ones, by how it answers:", *blocks]


def lines(tables, rate):
    return [*(carried(home, rate) for home in tables["home"]), *advice(tables["home"])]
