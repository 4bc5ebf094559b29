"""Shows the program at work over UDP, as `make run` does, or serves until Ctrl-D, as `make serve` does.

usage: python3 -m tests.gate.first_run run PROGRAM [AUDITOR]    a conversation of a NAS, the program and a home server
       python3 -m tests.gate.first_run serve PROGRAM [CONFIG]   the program, and a home server that answers

The configuration is examples/try.toml. The log and the ledger of the conversation are in out/try.
"""
import contextlib
import pathlib
import subprocess
import sys
import threading

from tests.lib import TOP, environment
from tests.lib.model import Fault, read
from tests.gate.conversing import Setting, Talk, told

CONFIGURATION, FOLDER = TOP / "examples" / "try.toml", TOP / "out" / "try"


def run(program, auditor=None):
    """Has the conversation and prints it."""
    setting = Setting.of(CONFIGURATION.read_text("utf-8"))
    with Talk(program, FOLDER, setting, lambda line: print(line, flush=True)) as talk:
        talk.run(auditor)
    print(f"\nThe log and the ledger are in {FOLDER.relative_to(TOP)}.")
    print(f"Talk to it yourself: `make serve`, and from another terminal\n  {setting.radclient()}")


def answer_all(home):
    """Answers each request and each probe that comes to the home server, and tells it."""
    home.ear.settimeout(None)
    while True:
        octets, sender = home.ear.recvfrom(4096)
        with contextlib.suppress(Fault, OSError):
            packet = read(octets)
            home.answer(packet, sender)
            print(f"home server: {told(packet)}: answered", flush=True)


def serve(program, configuration=CONFIGURATION):
    """Serves until the end of input, and gives the program's status."""
    setting = Setting.of(pathlib.Path(configuration).read_text("utf-8"))
    home = setting.home_server()
    threading.Thread(target=answer_all, args=[home], daemon=True).start()
    print(f"Type `state` or `drain`; Ctrl-D ends it. From another terminal:\n  {setting.radclient()}", flush=True)
    return subprocess.run([program, "run", configuration], env=environment()).returncode


def main():
    kind, *rest = sys.argv[1:] or [""]
    words = [pathlib.Path(word).resolve() for word in rest]
    if kind not in ("run", "serve") or len(words) not in (1, 2):
        sys.exit(__doc__)
    try:
        sys.exit(run(*words) if kind == "run" else serve(*words))
    except (AssertionError, OSError) as fault:
        sys.exit(f"not so: {fault}")


if __name__ == "__main__":
    try:
        main()
    except KeyboardInterrupt:
        sys.exit("stopped")
