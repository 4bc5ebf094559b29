"""Tries the machine that plants changes: over a small file of Rattle, a small program with numbers, and a small tool with its script."""
import pathlib
import shutil
import subprocess
import tempfile
from types import SimpleNamespace

from tests.gate import mutants
from tests.gate.scripts import Script
from tests.lib import TOP, hope, try_each
from tests.lib.mutants import script_changes as scripts
from tests.lib.mutants.program import State, kit
from tests.lib.mutants.rattle_changes import Names, Source, joined, tokens_of, written
from tests.lib.trying import fault_of

RATTLE = '''//! A file of the test.

struct Room {
    octets: u64,
    lines: u64,
}

fn is_full(room: &Room, most: u64) -> bool {
    room.octets >= most
}

fn told(room: &Room) -> u64
    ensures { result ≡ room.now.octets }
{
    room.octets
}

fn tell(room: &mut Room, kind: Option<u64>) {
    match kind {
        Some(1) => room.clear(),
        _ => {}
    }
    if let Some(kind) = kind {
        send(kind, 2);
    }
}

impl Display for Room {
    ghost output = { λ _. [] };

    fn fmt(&self) -> u64 {
        2
    }
}
'''
WANTED = '''//! A file of the test.

struct Room {
    octets: u64,
    lines: u64,
}

fn is_full(room: &Room, most: u64) -> bool {
    if mutants::chosen(4) { return true; }
if mutants::chosen(5) { return false; }
(
if mutants::chosen(1) { room.lines >= most } else 
if mutants::chosen(2) { room.octets > most } else 
if mutants::chosen(3) { room.octets <= most } else 
{ room.octets >= most })
}

fn told(room: &Room) -> u64
    ensures { result ≡ room.now.octets }
{
    room.octets
}

fn tell(room: &mut Room, kind: Option<u64>) {
    if mutants::chosen(11) { return; }
match kind {
        Some(1) if !mutants::chosen(6)
=> room.clear(),
        _ => {}
    }
    if !mutants::chosen(7) &&
let Some(kind) = kind {
        
if mutants::chosen(8) {  } else 
if mutants::chosen(9) { send(kind, 3); } else 
if mutants::chosen(10) { send(kind, 1); } else 
{ send(kind, 2); }
    }
}

impl Display for Room {
    ghost output = { λ _. [] };

    fn fmt(&self) -> u64 {
        2
    }
}
'''
PROGRAM = '''#include <stdio.h>
int getrlimit(int, void *);
int main(void) { printf("%d%d%d", getrlimit(100001, 0), getrlimit(100007, 0), getrlimit(165535, 0)); }
'''
TOOL = '''"""A tool."""


def is_less(one, other):
    """A comment."""
    if one < other and one != other:
        return True
    return False


def larger(one):
    return one + 1
'''
TEST = '''from tools.less import is_less
assert is_less(1, 2) and not is_less(2, 2) and not is_less(3, 2)
'''

NAMED = '''import os, sys
from tests.lib import try_in_folders
from tools.less import is_less, larger


def ran(name):
    with open("ran", "a") as file:
        file.write(name + "\\n")


def one(program, folder):
    ran("one")
    assert is_less(1, 2)


def other(program, folder):
    ran("other")
    assert is_less(1, 2) and larger(1) == 2 and not os.path.exists("fails")


def third(program, folder):
    ran("third")


if __name__ == "__main__":
    try_in_folders([one, other, third], "")
'''


def test_a_file_of_rattle_has_each_change_behind_its_number():
    with tempfile.TemporaryDirectory() as folder:
        file = pathlib.Path(folder, "room.rt")
        file.write_text(RATTLE, "utf-8")
        tokens, names = tokens_of(kit(), file), Names()
        names.read(joined([token for token in tokens if token.kind in ("Code", "Literal")]))
        source = Source("room.rt", file.read_bytes(), tokens, names)
        pieces = source.pieces()
        for number, change in enumerate((change for piece in pieces for change in piece.changes), 1):
            change.number = number
        hope("the text", written(source, pieces).decode(), WANTED)
        hope("the lines", [(it.line, it.what) for piece in pieces for it in piece.changes][:3],
             [(9, ".octets is .lines"), (9, ">= is >"), (9, ">= is <=")])


def test_a_program_asks_a_file_which_number_is_chosen_and_notes_what_it_asked():
    with tempfile.TemporaryDirectory() as folder:
        source, program, state = (pathlib.Path(folder, name) for name in ("asking.c", "asking", "state"))
        source.write_text(PROGRAM)
        subprocess.run(["cc", f'-DSTATE="{state}"', source, TOP / "tests/lib/mutants/chosen.c", "-o", program], check=True)
        for chosen, wanted in ((0, "-1-1-1"), (7, "-10-1"), (65535, "-1-10")):
            State(state).choose(chosen)
            hope(f"the answers where {chosen} is chosen", subprocess.run([program], capture_output=True, text=True).stdout, wanted)
            hope("what was reached", State(state).reached(), {1, 7, 65535})


def test_a_script_sees_a_change_of_a_tool_and_not_what_is_the_same():
    script = Script("less_is_less", "tools/less.py")
    with tempfile.TemporaryDirectory() as folder:
        room = mutants.Room(0)
        room.folder = pathlib.Path(folder)
        room.state = State(room.folder / "state")
        for file, text in (("tools/less.py", TOOL), ("tests/less_is_less.py", TEST)):
            (room.folder / file).parent.mkdir()
            room.put(file, text)
        plants = SimpleNamespace(runs_of=lambda _: [mutants.Run(script, (), 1)], texts={"tools/less.py": TOOL})
        changes = {change.what: change for change in scripts.script_changes("tools/less.py", TOOL)}
        seen = {what: mutants.seen_by(room, change, plants, 10)[0] for what, change in changes.items()}
        hope("what was seen", {what for what, by in seen.items() if by}, 
             {"a condition negated", "an early return", "and is or", "True is False", "False is True", "!= is =="})
        hope("what was not", {what for what, by in seen.items() if not by}, {"< is <=", "+ is -", "1 is one more"})
        hope("the tool afterwards", (room.folder / "tools/less.py").read_text(), TOOL)


def test_those_tests_of_a_script_run_that_reach_a_change():
    """What fails without a change sees none."""
    script = Script("named", "tools/less.py")
    with tempfile.TemporaryDirectory() as folder:
        room = mutants.Room(0)
        room.folder = pathlib.Path(folder)
        room.state, room.notes = State(room.folder / "state"), room.folder / "notes"
        room.notes.mkdir()
        for its in ("tests/lib", "bench", "tools"):
            shutil.copytree(TOP / its, room.folder / its)
        room.put("tests/named.py", NAMED)
        room.put("tools/less.py", scripts.noting("tools/less.py", TOOL, room.notes))
        told = mutants.looked_at(room, script)
        hope("it passes", (told["passed"], (room.folder / "said").read_text()), (True, "3 passed, 0 failed\n"))
        hope("what each test reaches", [(it["test"], it["notes"]) for it in told["tests"]],
             [("one", ["tools/less.py:4"]), ("other", ["tools/less.py:11", "tools/less.py:4"]), ("third", [])])
        plants = mutants.Plants([], {script: told}, {"tools/less.py": TOOL})
        found = {}
        for change in plants.changes:
            if change.what in ("< is <=", "+ is -"):
                room.put("ran", "")
                found[change.what] = mutants.seen_by(room, change, plants, 10)[0], sorted((room.folder / "ran").read_text().split())
        # Each test that is named runs, and the one that failed without the change, and with it again.
        hope("what runs", found, {"< is <=": (None, ["one", "other"]), "+ is -": ("named", ["other"] * 3)})
        room.put("fails", "")
        hope("what fails without it", [mutants.seen_by(room, change, plants, 10)[0] for change in plants.changes if change.what == "+ is -"], [None])


def test_a_noting_tool_notes_the_functions_that_are_called():
    with tempfile.TemporaryDirectory() as folder:
        exec(scripts.noting("tools/less.py", TOOL, folder) + "\nis_less(1, 2)\n", {})
        hope("the notes", [file.name for file in pathlib.Path(folder).iterdir()], ["tools+less.py:4"])
        hope("the functions", [scripts.line_of_function(TOOL, line) for line in (5, 10, 12)], [4, None, 11])


TESTS = [value for name, value in list(globals().items()) if name.startswith("test_")]


def main():
    try_each(TESTS, fault_of)
