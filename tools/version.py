"""The version of rad_proxy and its tools. What can't read it here, the gate compares with it."""
VERSION = "0.1.0"
