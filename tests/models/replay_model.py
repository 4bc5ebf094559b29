"""Compares the model of `replay` with the rows, whose answers were worked out one by one.

usage: python3 -m tests.models.replay_model --check

tests/lib/model.py answers the scripts of tests/rows that are well formed. The last line is `N passed, M failed`.
"""
import sys

from tests.lib import answers, rows


def is_well_formed(row):
    """Whether a row is a script that ends well, for standard output that takes it all."""
    return row.words == ["replay"] and not row.is_full and not row.streams["!"] and b"\n%%\n" in row.streams["<"]


def check():
    """Compares the model with the rows."""
    names = sorted(str(file.relative_to(rows.ROWS).with_suffix("")) for file in rows.ROWS.rglob("*.row"))
    known = {name: row for name in names if is_well_formed(row := rows.Row(name))}
    wrong = []
    for name, row in known.items():
        lines, left = answers(row.streams["<"].decode())
        told = rows.difference(row.streams[">"], "".join(f"{line}\n" for line in lines).encode())
        if told or left != row.status:
            print(f"{name}: the model answers otherwise, status {left}:", *told, sep="\n")
            wrong.append(name)
    print(f"{len(known) - len(wrong)} passed, {len(wrong)} failed")
    return 1 if wrong or not known else 0


if __name__ == "__main__":
    sys.exit(check() if sys.argv[1:] == ["--check"] else __doc__)
