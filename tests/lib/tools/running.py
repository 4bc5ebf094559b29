"""Runs a tool of tools/, and says what is not here that a test of it wants."""
import functools
import os
import shutil
import subprocess
import sys

from tests.lib import TOP, LeftOut

TOOLS = TOP / "tools"
# Where the proxies are, and `ip`.
os.environ["PATH"] += ":/usr/sbin:/sbin"


def run(tool, *words, seconds=900, **how):
    """Runs a tool without any input, and gives what became of it."""
    pipes = {"stdin": subprocess.DEVNULL, "stdout": subprocess.PIPE, "stderr": subprocess.PIPE}
    return subprocess.run([sys.executable, TOOLS / tool, *words], **(pipes | {"timeout": seconds, "check": False} | how))


@functools.cache
def is_root():
    """Whether namespaces of its own are given to who runs this."""
    if os.geteuid() or not shutil.which("unshare"):
        return False
    return subprocess.run(["unshare", "--net", "--mount", "true"], stderr=subprocess.DEVNULL, check=False).returncode == 0


def want(*programs, root=False):
    """Leaves a test out where one of these programs is not here, or the right of root to namespaces."""
    missing = [program for program in programs if not shutil.which(program)] + ["root"] * (root and not is_root())
    if missing:
        raise LeftOut(f"it wants {', '.join(missing)}")
