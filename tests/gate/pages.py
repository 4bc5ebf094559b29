"""Prints the list of the scripts, by the first line of each; of what they share it has the folders alone.

usage: python3 -m tests.gate.pages            prints it
       python3 -m tests.gate.pages --check    looks that each script says what it does, and that the gate runs it

What a script says of itself is the first line of its docstring, or of the comment that it begins with; the words that it is called
with are those of its first line of usage, without those in brackets. The last line of --check is `N passed, M failed`.
"""
import re
import sys

from tests.lib import TOP, conclude
from tests.gate.scripts import SCRIPTS

TESTS = TOP / "tests"
FOLDERS = {
    "gate": "the gate, and what else is run of the repository itself",
    "models": "second implementations, and the program beside them",
    "rows": "scripted conversations with the built program, in folders by topic",
    "configuration": "what is read, and what is said of it",
    "network": "the program at its sockets, between access servers and home servers",
    "timing": "when it does what it has to do",
    "faults": "memory, files, descriptors, inputs and outputs that fail",
    "ledger": "the ledger, and the auditor over ledgers",
    "service": "`serve` and `rad_proxyctl`",
    "tools": "the tools of a move, over other proxies' files and captures",
    "cluster": "the recipes of examples/cluster/ and examples/container/, in network namespaces, as root",
    "packaging": "the package and the service in a clean system",
    "preload": "libraries that are loaded into the program before its own, by `LD_PRELOAD`",
    "lib": "what the others share",
    "lib/ledger": "what those of `ledger/` share",
    "lib/always": "what holds in each",
    "lib/tools": "what those of `tools/` share",
    "lib/cluster": "what those of `cluster/` share",
    "lib/tables": "what those of `configuration/` share",
    "lib/spool": "segments of a spool, by another hand",
    "lib/mutants": "single changes of sources, and the programs that have them",
}
# Folders of what is no script. The list leaves out what is in them.
SHARED = ("preload", "lib", "lib/always", "lib/ledger", "lib/tools", "lib/cluster", "lib/tables", "lib/spool", "lib/mutants")
MOST_OF_A_FOLDER = 15


def first_line(file):
    """What a file says of itself, in one sentence or more."""
    lines = file.read_text("utf-8").splitlines()
    found = next(line for line in lines if not line.startswith("#!") and line != "/*")
    return re.sub(r'^("""|# | \* )|"""$', "", found)


def usage(file):
    """The words that a script has to be called with, where it says that it is called."""
    found = re.search(rf"^(?:# )?usage: (?:python3 -m )?\S*\b{file.stem}(?:\.py)?((?: \S+)*)", file.read_text("utf-8"), re.M)
    return found and re.sub(r" \[(?:[^][]|\[[^][]*\])*\]", "", found[1])


def shown(file):
    """The name of a file as it is called, with its words: a module without `tests.`, or the path of a script of the shell."""
    words, place = usage(file), file.relative_to(TESTS).as_posix()
    if not file.suffix:
        called = f"tests/{place}{words or ''}"
    elif words is not None and not place.startswith("lib/"):
        called = f"{file.parent.name}.{file.stem}{words}"
    else:
        called = place
    return f"`{called}`"


def files_of(folder):
    """The scripts of a folder."""
    found = (file for file in (TESTS / folder).iterdir() if file.is_file() and file.name != "__init__.py")
    return sorted(file for file in found if file.suffix in ("", ".py", ".c"))


def text():
    """The list."""
    parts = []
    for folder, title in FOLDERS.items():
        listed = [] if folder in SHARED else [f"* {shown(file)}: {first_line(file)}" for file in files_of(folder)]
        parts += [f"`tests/{folder}/`: {title}.", "", *listed, *([""] if listed else [])]
    return "\n".join(parts)


def is_whole(line):
    return line.endswith(".") and not line.endswith("..")


def faults():
    """What is not as it should be, of all that is looked at."""
    folders = {file.parent.relative_to(TESTS).as_posix() for file in TESTS.glob("*/**/*.py")} | {"packaging", "preload"}
    yield from (f"tests/{name}: the list has no such folder" for name in folders - FOLDERS.keys())
    for folder in FOLDERS:
        files = files_of(folder)
        if len(files) > MOST_OF_A_FOLDER:
            yield f"tests/{folder}: {len(files)} scripts, and at most {MOST_OF_A_FOLDER} may be in a folder"
        yield from (f"{file}: its first line is no whole sentence" for file in files if not is_whole(first_line(file)))
        if folder != "gate" and folder not in SHARED:
            run = {script.file for script in SCRIPTS}
            yield from (f"{file}: the gate does not run it" for file in files if file.suffix == ".py" and file not in run)
    yield from (f"{script.file}: there is no such script" for script in SCRIPTS if not script.file.is_file())


def main():
    if sys.argv[1:] not in ([], ["--check"]):
        sys.exit(__doc__)
    if not sys.argv[1:]:
        print(text())
        return
    told = list(faults())
    print(*told, sep="\n", end="\n" if told else "")
    conclude(int(not told), len(told))


if __name__ == "__main__":
    main()
