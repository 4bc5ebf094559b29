"""Compares the metrics that rad_proxyctl makes of an answer with those that the running program exports.

usage: python3 -m tests.service.rad_proxyctl_metrics PROGRAM [TEST ..]

Without counters `rad_proxyctl metrics` makes its metrics of the lines of `state`, by the function `metrics_of`, which has their names,
kinds and help texts once more. A test is a function below; its first line says what holds. The last line is
`N passed, M failed`.
"""
import sys

from tests.lib import TOP, Stage, hope, is_so, need, try_in_folders

# The families that only rad_proxyctl has.
OWN = set()


def made_of(state):
    """What `metrics_of` makes of lines of `state`."""
    sys.path.insert(0, str(TOP / "tools"))
    from controlling.lanes import lanes_of
    from controlling.metrics import metrics_of

    return metrics_of(lanes_of(state))


def families(lines):
    """The kind and the help text of each family, and the names of its lines with their labels."""
    found = {}
    for line in lines:
        sign, word, name, *rest = line.split(" ", 3) if line.startswith("# ") else ("", "", line.partition(" ")[0])
        family = found.setdefault(name if sign else name.partition("{")[0], {"names": []})
        if sign:
            need(word not in family and rest, f"{line!r} stands twice, or is empty")
            family[word] = rest[0]
        else:
            family["names"].append(name)
    return found


def both(program, folder):
    """The families of rad_proxyctl and those of the program, of the same lanes."""
    with Stage(program, folder, count=2) as stage:
        stage.round_trip(1)
        state = stage.say(b"state", 2)
        need(is_so(stage.proxy.counters.exists), "there are no counters")
        return families(made_of(state)), families(stage.proxy.counters.read_text("utf-8").splitlines())


def each_family_is_the_programs(program, folder):
    """Each name, kind, help text and line with its labels that rad_proxyctl prints is the program's, or is listed as its own."""
    made, exported = both(program, folder)
    need(len(made) > 5, "too few families:", sorted(made))
    for name in made.keys() - OWN:
        hope(name, made[name], exported.get(name))


def what_is_listed_is_its_own(program, folder):
    """What is listed as rad_proxyctl's own is printed by it, and not by the program."""
    made, exported = both(program, folder)
    hope("listed and not printed", sorted(OWN - made.keys()), [])
    hope("listed, and the program's", sorted(OWN & exported.keys()), [])


TESTS = [each_family_is_the_programs, what_is_listed_is_its_own]


if __name__ == "__main__":
    try_in_folders(TESTS, __doc__)
