"""Draws panels of examples/grafana-dashboard.json as SVG, over what a Prometheus scraped.

usage: python3 -m bench.panels URL SECONDS FILE TITLE..      the Prometheus, how far to look back, the picture, and titles of panels
"""
import json
import pathlib
import re
import sys
import time
import urllib.parse
import urllib.request

from bench import pictures

DASHBOARD = pathlib.Path(__file__).parent.parent / "examples" / "grafana-dashboard.json"
STEP, INTERVAL = 5, "1m"
COLOURS = ["#0060a8", "#d35400", "#1b8a5a", "#7a3fa0", "#8a8a8a", "#b03060"]


def asked(url, expression, end, seconds):
    """The series of an expression over some time: the labels, and points of seconds since the begin and values."""
    words = {"query": expression.replace("$__rate_interval", INTERVAL), "start": end - seconds, "end": end, "step": STEP}
    with urllib.request.urlopen(f"{url}/api/v1/query_range?{urllib.parse.urlencode(words)}", timeout=10) as answer:
        found = json.load(answer)["data"]["result"]
    for series in found:
        points = [(at - end + seconds, float(value)) for at, value in series["values"] if value != "NaN"]
        if points:
            yield series["metric"], points


def panel_of(url, panel, end, seconds):
    """A panel of the dashboard, with a line for each series of its expressions."""
    lines = {}
    for target in panel["targets"]:
        for labels, points in asked(url, target["expr"], end, seconds):
            lines[re.sub(r"{{(\w+)}}", lambda found: labels.get(found[1], ""), target["legendFormat"])] = points
    greatest = max((value for points in lines.values() for _, value in points), default=0) or 1
    unit = {"s": "seconds", "reqps": "a second", "percent": "percent"}.get(panel["fieldConfig"]["defaults"].get("unit"), "")
    return pictures.Panel(panel["title"], pictures.Axis("seconds", 0, seconds), pictures.Axis(unit, 0, 1.08 * greatest), lines, False)


def main():
    if len(sys.argv) < 5:
        sys.exit(__doc__)
    url, seconds, file, titles = sys.argv[1], int(sys.argv[2]), sys.argv[3], sys.argv[4:]
    end = time.time()
    wanted = {panel["title"]: panel for panel in json.loads(DASHBOARD.read_text())["panels"]}
    panels = [panel_of(url, wanted[title], end, seconds) for title in titles]
    names = list(dict.fromkeys(name for panel in panels for name in panel.lines))
    pictures.NAMES = names
    pictures.COLOURS = {name: COLOURS[place % len(COLOURS)] for place, name in enumerate(names)}
    pictures.DASHES = {name: "" if place < len(COLOURS) else "6 3" for place, name in enumerate(names)}
    pathlib.Path(file).write_text(pictures.picture("Panels of the dashboard", panels))
    print(f"{file} has {len(panels)} panels and {len(names)} lines")


if __name__ == "__main__":
    main()
