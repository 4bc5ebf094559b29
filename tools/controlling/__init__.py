"""The parts of rad_proxyctl(8)."""
