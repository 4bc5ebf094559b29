"""Compares what `make run` shows with what README.md shows of it, and sees what `make` and `make serve` say.

usage: python3 -m tests.service.first_run PROGRAM [TEST ..]

The conversation is had with the configuration examples/try.toml, at ports that nobody has. Where the auditor is built, it judges the
ledger. A test is a function below; its first line says what holds. The last line is `N passed, M failed`.
"""
import re
import subprocess
import sys

from tests.lib import BOB, HERE, PATIENCE, TOP, answer, bound, free_ports, hope, is_so, need, request, try_in_folders
from tests.gate.conversing import Setting, Talk

README, CONFIGURATION = TOP / "README.md", TOP / "examples" / "try.toml"
AUDITOR = TOP / "crates" / "rad_audit" / "out" / "rad_audit"
LEFT_OUT = ".."


def blocks():
    """The stretches of code of README, each as its lines."""
    found = re.findall(r"(?:^    .*\n|^\n(?=    ))+", README.read_text("utf-8"), re.M)
    return [[line[4:] for line in block.strip("\n").split("\n")] for block in found]


def block_after(command):
    """The lines below a command of README, up to the end of that stretch."""
    block = next((block for block in blocks() if f"$ {command}" in block), None)
    need(block is not None, f"README does not have {command!r}")
    return block[block.index(f"$ {command}") + 1 :]


def settings(text):
    """The lines of a configuration without comments and empty lines."""
    return [line for line in text.splitlines() if line and not line.startswith("#")]


def elsewhere():
    """The configuration at ports that nobody has."""
    setting = Setting.of(CONFIGURATION.read_text("utf-8"))
    text = setting.text
    for (_, port), free in zip((setting.listen, setting.home), free_ports(2)):
        text = text.replace(f":{port}", f":{free}")
    return Setting.of(text)


def parts_of(lines):
    """The parts of a stretch that leaves something out between them."""
    parts = [[]]
    for line in lines:
        if line.strip() == LEFT_OUT:
            parts.append([])
        else:
            parts[-1].append(line)
    return [part for part in parts if part]


def what_is_shown_is_what_is_said(program, folder):
    """README's part of the conversation is what the program, its NAS and its home server say, in this order."""
    setting = elsewhere()
    with Talk(program, folder, setting, lambda line: None) as talk:
        talk.run(AUDITOR if AUDITOR.exists() else None)
    usual = Setting.of(CONFIGURATION.read_text("utf-8"))
    said, at = [line.replace(f":{setting.listen[1]}", f":{usual.listen[1]}") for line in talk.lines], 0
    for part in parts_of(block_after("make run")):
        places = [place for place in range(at, len(said)) if said[place : place + len(part)] == part]
        need(places, "this is not said, or not here:", *part)
        at = places[0] + len(part)


def the_configuration_is_that_of_the_example(program, folder):
    """The configuration in README is that of examples/try.toml."""
    wanted = settings(CONFIGURATION.read_text("utf-8"))
    need(wanted in [settings("\n".join(block)) for block in blocks()], "README has another configuration")


def the_line_for_radclient_is_the_one_that_is_told(program, folder):
    """README has the line that `make run` and `make serve` tell."""
    line = Setting.of(CONFIGURATION.read_text("utf-8")).radclient()
    need(block_after(line), "README does not show what comes")


def serves_until_its_input_ends(program, folder):
    """`make serve` serves, with a home server that answers, obeys commands, and ends well with its input."""
    setting, file = elsewhere(), folder / "try.toml"
    file.write_text(setting.text, "utf-8")
    words = [sys.executable, "-m", "tests.gate.first_run", "serve", program, file]
    pipes = {"stdin": subprocess.PIPE, "stdout": subprocess.PIPE, "stderr": subprocess.DEVNULL}
    with subprocess.Popen(words, cwd=TOP, encoding="utf-8", **pipes) as ran, bound(patience=1) as nas:
        try:
            asked = request(1, BOB, setting.nas_secret.encode())
            need(is_so(lambda: is_answered(nas, setting, asked)), "no response comes")
            printed, _ = ran.communicate("state\n", PATIENCE)
        finally:
            ran.kill()
    lines = printed.splitlines()
    need(any(setting.radclient() in line for line in lines), "the line for radclient is not told:", printed)
    need("lane 0 billing up open accepted 1 queued 0 outstanding 0 answered 1 opening 0" in lines, "the state is not told:", printed)
    hope("its end", (lines[-1], ran.returncode), ("end: queued 0 outstanding 0 untaken 0", 0))


def is_answered(nas, setting, asked):
    """Whether a request is answered within a second."""
    try:
        nas.sendto(asked, setting.listen)
        return nas.recv(4096) == answer(asked, asked[1], b"", setting.nas_secret.encode())
    except OSError:
        return False


def says_that_a_port_is_not_free(program, folder):
    """Where another has the home server's port, that is said, and the status is 1."""
    setting, file = elsewhere(), folder / "try.toml"
    file.write_text(setting.text, "utf-8")
    with bound(*setting.home):
        words = [sys.executable, "-m", "tests.gate.first_run", "serve", program, file]
        ran = subprocess.run(words, cwd=TOP, stdin=subprocess.DEVNULL, capture_output=True, encoding="utf-8", timeout=PATIENCE)
    hope("its status", ran.returncode, 1)
    need(f"{HERE}:{setting.home[1]}" in ran.stderr and "Traceback" not in ran.stderr, "it says:", ran.stderr)


def make_alone_lists_the_targets(program, folder):
    """`make` lists each target that is called by hand, with a line each, and does nothing else."""
    ran = subprocess.run(["make", "--no-print-directory"], cwd=TOP, capture_output=True, encoding="utf-8", timeout=PATIENCE)
    makefile = (TOP / "Makefile").read_text("utf-8")
    targets = set(re.findall(r"^([a-z][a-z-]*):", makefile, re.M)) - {"help", "install-proxy", "install-tools", "uninstall"}
    listed = [line.split()[:2] for line in ran.stdout.splitlines()]
    hope("its targets", sorted(listed), sorted(["make", target] for target in targets))
    need(all(len(line.split()) > 4 for line in ran.stdout.splitlines()), "a target is not explained:", ran.stdout)
    hope("its status", ran.returncode, 0)


TESTS = [
    what_is_shown_is_what_is_said,
    the_configuration_is_that_of_the_example,
    the_line_for_radclient_is_the_one_that_is_told,
    serves_until_its_input_ends,
    says_that_a_port_is_not_free,
    make_alone_lists_the_targets,
]


if __name__ == "__main__":
    try_in_folders(TESTS, __doc__)
