"""Puts the figures of a run into docs/performance.md: each table between the marks that name it, with its picture where there
is one, and the pictures into the folder beside it.

usage: python3 -m bench.page FOLDER        the folder that `make bench` wrote

A table that the run has no figures for stays as it is.
"""
import json
import pathlib
import re
import sys

from bench import tables
from bench.pictures import draw

DOCS = pathlib.Path(__file__).parent.parent / "docs"
PAGE, PICTURES = DOCS / "performance.md", DOCS / "performance"
SHOWS = {
    "throughput": "requests a second by how many are out at once",
    "latency": "time to the answer by rate",
    "cpu": "processor time a request by rate",
    "growth": "time a request and memory by the requests in the book",
    "steady": "p99.9 second by second",
}
MARKED = re.compile(r"(<!-- figures: (\w+) -->\n).*?(<!-- end of figures -->)", re.DOTALL)


def with_tables(text, made, drawn):
    """The page with each table of the run in its place, below its picture."""

    def put(found):
        begin, name, end = found.groups()
        if name not in made:
            return found.group()
        picture = f"![{SHOWS[name]}](performance/{name}.svg)\n\n" if f"{name}.svg" in drawn else ""
        return f"{begin}\n{picture}{made[name]}\n{end}"

    return MARKED.sub(put, text)


def main():
    if len(sys.argv) != 2:
        sys.exit(__doc__)
    lines = pathlib.Path(sys.argv[1], "results.jsonl").read_text().splitlines()
    results = [json.loads(line) for line in lines]
    drawn = draw(results)
    page = with_tables(PAGE.read_text(), tables.made(results), drawn)
    PAGE.write_text(page)
    PICTURES.mkdir(exist_ok=True)
    for name, picture in drawn.items():
        if f"performance/{name}" in page:
            (PICTURES / name).write_text(picture)
    print(f"{PAGE.relative_to(DOCS.parent)} has the figures of {len(results)} measurements")


if __name__ == "__main__":
    main()
