"""The programs of `make bench` and what measures with them."""
import sys

sys.dont_write_bytecode = True
