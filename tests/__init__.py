"""The tests of the repository: a folder for each thing that is tested, and what they share in lib/."""
import sys

sys.dont_write_bytecode = True
