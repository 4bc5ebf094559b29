"""Configurations, each with its first fault, or none, and with the lines of the log before that, as docs/formats.md says of each.

usage: python3 -m tests.configuration.first_faults PROGRAM

Each text is read by `check` without a log, by `check` with one, and by `replay`, which logs nothing. The clients, home servers and
realms of a text without a fault are counted by Python's TOML reader. The last line is `N passed, M failed`, of what was looked at.
"""
from tests.lib.configurations import try_tables
from tests.lib.tables.first_faults import TABLES

if __name__ == "__main__":
    try_tables(__doc__, texts=TABLES)
