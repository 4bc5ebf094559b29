"""What the functions of a crate cost to prove, in seconds, the most expensive first, and for what.

usage: python3 -m tests.gate.slow CRATE [--tests] [--over SECONDS]

It proves the crate from nothing by `rt check --jobs 1`, with --tests as its tests are proved, over what earlier checks kept of the
libraries below it. A check makes some modules for each function, and writes a file for each module as it ends with it. So a module
took the time since the file before. A line has the cost of a function, and what of it each kind of module took:

    Lts      what the function does, on each of its paths
    Proof    the goals that have no written answer, for which the prover searches
    Answers  the written answers
    Tie      that each call of a generic function meets its bounds
    others   all other modules

Functions that cost less than SECONDS, 2 where none are said, are not shown. What a file of lemmas took is shown under the name of that
file. The last lines have what all took, and what the check took before its first module, which is the reading of the crate and of
the libraries. The seconds are those that passed, so nothing else may run meanwhile. What was kept of the crate's own proof is put
aside meanwhile, and comes back where the check is cut off.
"""
import collections
import os
import shutil
import subprocess
import sys
import time

from tests.lib import TOP

RT = os.environ.get("RT", "rt").split()
KINDS = ("Lts", "Proof", "Answers", "Tie")
# The other modules that are made for each function.
OTHERS = {"Code", "Goals", "Given", "Invariants", "Key", "Kinds", "Layout", "Met", "Mir", "Named", "Reads", "Statement", "Symbol", "View"}


def written(folder):
    """Each module whose file is below a folder, with the moment at which that was last written, in this order."""
    files = folder.rglob("*.oantt")
    found = ((file.stat().st_mtime, file.name.removesuffix(".oantt").removesuffix(".decls")) for file in files)
    return sorted(found)


def function_of(module):
    """The function or file of lemmas that a module is of, and the module's kind."""
    name, kind = module.split("-proofs.", 1)[-1], "others"
    while (last := name.rpartition(".")) and (last[2] in KINDS or last[2] in OTHERS):
        name, kind = last[0], last[2] if last[2] in KINDS else kind
    return name, kind


def costs(modules, began):
    """What each function took, by kinds, and what came before the first module."""
    found, before = collections.defaultdict(collections.Counter), began
    for moment, module in modules:
        name, kind = function_of(module)
        found[name if before > began else ""][kind] += moment - before
        before = moment
    return found, sum(found.pop("", {}).values())


def shown(found, least):
    """The lines of the functions that cost so much, the most expensive first, and the sums of all."""
    rows = sorted(((sum(kinds.values()), name, kinds) for name, kinds in found.items()), key=lambda row: -row[0])
    all_of = sum((kinds for _, _, kinds in rows), collections.Counter())
    rows = [row for row in rows if row[0] >= least] + [(sum(all_of.values()), f"all {len(rows)}", all_of)]
    head = "".join(f"{word:>9}" for word in ("seconds", *KINDS, "others"))
    lines = ["".join(f"{kinds[kind]:9.1f}" for kind in (*KINDS, "others")) for _, _, kinds in rows]
    return [head, *(f"{cost:9.1f}{line}  {name}" for (cost, name, _), line in zip(rows, lines))]


def main():
    words = sys.argv[1:]
    least = float(words.pop(words.index("--over") + 1)) if "--over" in words[:-1] else 2.0
    flags = ["--test"] if "--tests" in words else []
    names = [word for word in words if word not in ("--over", "--tests")]
    if len(names) != 1 or not (TOP / "crates" / names[0] / "src").is_dir():
        sys.exit(__doc__)
    folder = TOP / "crates" / names[0]
    kept, aside = folder / "out" / "incremental", folder / "out" / "incremental-aside"
    # The libraries are built first, so that the check has nothing else to do.
    subprocess.run([*RT, "check", "--jobs", "1", "--only", ""], cwd=folder, stdout=subprocess.DEVNULL, stdin=subprocess.DEVNULL)
    if kept.is_dir():
        shutil.rmtree(aside, ignore_errors=True)
        kept.rename(aside)
    # Where the folder is missing, a check begins with what another checkout on this machine kept.
    kept.mkdir(parents=True)
    status = 1
    try:
        began = time.time()
        status = subprocess.run([*RT, "check", "--jobs", "1", *flags], cwd=folder, stdin=subprocess.DEVNULL).returncode
        found, reading = costs(written(kept), began)
        print(*shown(found, least), f"{reading:9.1f} before the first module", sep="\n")
    finally:
        if status and aside.is_dir():
            shutil.rmtree(kept, ignore_errors=True)
            aside.rename(kept)
        shutil.rmtree(aside, ignore_errors=True)
    sys.exit(status)


if __name__ == "__main__":
    try:
        main()
    except KeyboardInterrupt:
        sys.exit("stopped")
