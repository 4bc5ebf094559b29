"""The parts of rad_ledger(1)."""
