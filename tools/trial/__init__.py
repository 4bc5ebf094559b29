"""The parts of rad_trial(1)."""
