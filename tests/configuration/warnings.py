"""Configurations with the lines of the log for them: unread keys, where a text stops being TOML, and addresses of home servers.

usage: python3 -m tests.configuration.warnings PROGRAM

They are read as those of first_faults.py are. The last line is `N passed, M failed`, of what was looked at.
"""
from tests.lib.configurations import try_tables
from tests.lib.tables.warnings import TABLES

if __name__ == "__main__":
    try_tables(__doc__, texts=TABLES)
