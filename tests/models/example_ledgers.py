"""Makes ledgers, by Python's hashlib and json alone.

usage: python3 -m tests.models.example_ledgers            writes the ledgers that stand in the repository
       python3 -m tests.models.example_ledgers --check    compares those that stand there with those made here

They are of the configuration examples/one-home.toml: examples/one-home.jsonl is an example that is whole, and the one in
crates/rad_audit/data, of which the auditor's stored run is, has a line of each kind that is printed. The last line of --check is
`N passed, M failed`.
"""
import json
import sys

from tests.lib import TOP, Lane, Run, ledgers, text
from tests.lib.ledgers import chained, hidden


def spoiled():
    """Three runs: of one an entry is wrong and another one missing, which its end line's sum shows too; one is whole, with a line that was
    cut short and written again; and one goes on, with a line that is left out, in a file whose last line has no line end yet."""
    run = Run(0x1000000000000001, [Lane(0, "billing", ledgers.SECRET)])
    lines = chained([run.begin(), *(run.entry(client=ledgers.CLIENT) for _ in range(6)), run.end_of_all()])
    lines[2]["response"] = lines[1]["response"]
    del lines[4]
    run = Run(0x1000000000000002, [Lane(0, "billing", ledgers.SECRET), Lane(1, "elsewhere", b"a secret that is not there")])
    second = chained([run.begin(), run.entry(client=ledgers.CLIENT), run.entry(1, client=ledgers.CLIENT), run.end_of_all()])
    second.insert(1, json.dumps(second[1], separators=(",", ":"))[:200])
    run = Run(0x1000000000000003, [Lane(0, "billing", ledgers.SECRET)])
    third = chained([run.begin(), *(run.entry(client=ledgers.CLIENT) for _ in range(3))])
    third[2] = hidden(third[2])
    return text([*lines, *second, *third])[:-30]


FILES = {
    "examples/one-home.jsonl": ledgers.example,
    "crates/rad_audit/data/spoiled.jsonl": spoiled,
    "crates/rad_audit/data/config.toml": lambda: (TOP / "examples" / "one-home.toml").read_text("utf-8"),
}


def main(words):
    if words not in ([], ["--check"]):
        print(__doc__.strip(), file=sys.stderr)
        return 2
    if not words:
        for file, made in FILES.items():
            (TOP / file).write_text(made(), "utf-8")
        return 0
    wrong = [file for file, made in FILES.items() if (TOP / file).read_text("utf-8") != made()]
    for file in wrong:
        print(f"{file} is not what is made here")
    print(f"{len(FILES) - len(wrong)} passed, {len(wrong)} failed")
    return 1 if wrong else 0


if __name__ == "__main__":
    sys.exit(main(sys.argv[1:]))
