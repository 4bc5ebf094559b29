"""Compares the model of the auditor with what each ledger of ledger/auditor_verdicts.py has to give.

usage: python3 -m tests.models.auditor_model --check

tests/lib/audit_model.py is audited as the program is. The last line is `N passed, M failed`.
"""
import os
import sys

from tests.lib import audit_model

if __name__ == "__main__":
    if sys.argv[1:] != ["--check"]:
        sys.exit(__doc__)
    os.execv(sys.executable, [sys.executable, "-m", "tests.ledger.auditor_verdicts", audit_model.__file__])
