"""Measures the program that was built, a bare relay, and radsecproxy and FreeRADIUS where they are installed, in turns.

usage: python3 -m bench.run PROGRAM [--rounds N] [--seconds N] [--long N] [--rate N] [--octets N] [--port N] [--only MEASURE,..]
                            [--subjects NAME,..] [--out FOLDER]

measuring.py tells the measures. A round measures each subject in turn, the first one another each time. All traffic is on
127.0.0.1, from --port up. Each measurement starts its proxy and its home servers anew, and ends them. It writes what it
measured to FOLDER/results.jsonl, and tables and pictures beside it.
"""
import argparse
import pathlib
import signal
import subprocess
import sys
import tempfile

from bench import selftest, tables
from bench.compiling import compile_all
from bench.measuring import Bench
from bench.pictures import draw


def read_plan():
    parser = argparse.ArgumentParser(description="Measures the program, and a bare relay, radsecproxy and FreeRADIUS beside it.")
    parser.add_argument("program")
    parser.add_argument("--rounds", type=int, default=5)
    parser.add_argument("--seconds", type=int, default=3, help="of each load")
    parser.add_argument("--long", type=int, help="seconds of the steady run; else 20 times rounds times seconds")
    parser.add_argument("--rate", type=int, default=20_000, help="requests a second of the steady run")
    parser.add_argument("--octets", type=int, default=60, help="octets of each request")
    parser.add_argument("--port", type=int, default=23_000, help="the proxy's; the home servers' follow")
    parser.add_argument("--only", help="measures, with commas between them")
    parser.add_argument("--subjects", help="subjects, with commas between them")
    parser.add_argument("--out", default="out/bench")
    plan = parser.parse_args()
    plan.long = plan.long or 20 * plan.rounds * plan.seconds
    return plan


def main():
    plan = read_plan()
    for ending in (signal.SIGINT, signal.SIGTERM, signal.SIGHUP):
        signal.signal(ending, lambda number, _: sys.exit(128 + number))
    folder = pathlib.Path(plan.out)
    folder.mkdir(parents=True, exist_ok=True)
    with tempfile.TemporaryDirectory(prefix="bench-") as work:
        compile_all(pathlib.Path(work))
        selftest.check(pathlib.Path(work), plan.port)
        bench = Bench(plan, folder, pathlib.Path(work))
        bench.run()
    print(tables.as_text(bench.results))
    (folder / "tables.md").write_text(tables.as_text(bench.results))
    for name, picture in draw(bench.results).items():
        (folder / name).write_text(picture)
    print(f"{folder}/results.jsonl, tables.md and pictures are there; `make figures` puts them into docs/performance.md")


if __name__ == "__main__":
    try:
        main()
    except (RuntimeError, subprocess.CalledProcessError) as trouble:
        sys.exit(f"bench: {trouble}")
