"""The program's metrics, which are in the text format of Prometheus."""
import re
from collections import Counter

LABELS = re.compile(r'(\w+)="((?:[^"\\]|\\.)*)"')


class Metrics:
    """The program's metrics, by name and labels."""

    def __init__(self, values):
        self.values = {}
        for name, value in values.items():
            name, _, labels = name.partition("{")
            self.values.setdefault(name.removeprefix("rad_proxy_"), []).append((dict(LABELS.findall(labels)), value))

    def all(self, name, **labels):
        return [(found, value) for found, value in self.values.get(name, []) if labels.items() <= found.items()]

    def of(self, name, **labels):
        return int(sum(value for _, value in self.all(name, **labels)))

    def reasons(self, name, **labels):
        return Counter({found["reason"]: int(value) for found, value in self.all(name, **labels) if value})

    def longest(self, name, home):
        """The bounds between which the longest of a histogram is, in words."""
        buckets = [(0.0, 0), *sorted((float(found["le"]), value) for found, value in self.all(f"{name}_bucket", home=home))]
        if not buckets[-1][1]:
            return "none"
        at = next(at for at, (_, value) in enumerate(buckets) if value == buckets[-1][1])
        return f"{buckets[at - 1][0]:g} to {buckets[at][0]:g} s" if at < len(buckets) - 1 else f"more than {buckets[at - 1][0]:g} s"
