"""Has the built auditor read ledgers that Python makes, one for each reason and verdict, and compares what it prints and its status.

usage: python3 -m tests.ledger.auditor_verdicts AUDITOR    the path of rad_audit

The last line is `N passed, M failed`.
"""
import gzip
import pathlib
import subprocess
import sys
import tempfile

from tests.lib import TOP, audit_model, ledgers, text
from tests.lib.ledger.chained_cases import all_cases
from tests.lib.ledger.cases import NAME, OTHER, config, lines_of, one
from tests.lib.ledgers import chained

SECONDS = 60


def calls(folder):
    """Calls that end early: the words, and what has to come out, on standard error, and as the status."""
    good, bad, long = folder / "good.toml", folder / "bad.toml", folder / "long.toml"
    good.write_text(config())
    bad.write_text("listen = 1\n")
    long.write_text("#" * 1048577)
    (folder / "none.jsonl").write_text("")
    usage, word = audit_model.USAGE, f"{NAME:016x}:0:{'0' * 64}"
    yield [], usage, 1
    yield [str(good)], usage, 1
    yield ["--every", str(good), "x"], usage, 1
    yield ["--from", "--partial", "--all", str(good)], usage, 1
    for asked in "--from", "--partial", "--all":
        yield [asked, asked, str(good), "none.jsonl"], usage, 1
    yield [str(good), "none.jsonl", "--sum"], usage, 1
    for wrong in (word[1:], word[:-1], f"{word}0", word.replace(":0:", "::"), word.replace(":0:", ":-1:"), word.replace(":0:", f":{2**64}:"),
                  word.replace(":0:", ":"), f"g{word[1:]}", f"{word[:-1]}g", ""):
        yield ["--sum", wrong, str(good), "none.jsonl"], usage, 1
    yield [str(folder / "absent.toml"), "none.jsonl"], f"file: {folder}/absent.toml", 4
    yield [str(folder), "none.jsonl"], f"file: {folder}", 4
    yield [str(long), "none.jsonl"], f"file: {long}", 4
    yield [str(bad), "none.jsonl"], "configuration: ", 2
    yield [str(good), "absent.jsonl"], "file: absent.jsonl", 4
    yield [str(good), "none.jsonl", "."], "file: .", 4
    yield [str(good), "a\nb"], "file: a%0ab", 4
    yield [str(good), "a\u202eb"], "file: a%e2%80%aeb", 4


def audited(program, words, folder):
    how = {"capture_output": True, "timeout": SECONDS, "cwd": folder}
    ran = subprocess.run([program, *words], **how)
    return ran.stdout.decode("utf-8", "replace"), ran.stderr.decode("utf-8", "replace"), ran.returncode


def without_hints(err):
    """What stands on standard error besides hints."""
    return "".join(line for line in err.splitlines(keepends=True) if not line.startswith("hint: "))


def hinted(program, folder):
    """What is told of a cause where lines are wrong alike, once each."""
    lines = chained([*lines_of(one(), 3)])
    other, whole = config((("h1", b"another one"), ("h2", OTHER))), text(lines).encode()
    secret = f"hint: run {NAME:016x} lane 0 h1: each entry is WrongSent; is the secret in CONFIG the one of its time?\n"
    returns, packed = "hint: line ends with a carriage return\n", "hint: file is compressed with gzip\n"
    cases = {
        "another secret": (other, whole, secret, 5),
        "another secret, of one entry": (config(), text([*lines[:2], {**lines[2], "sent": lines[2]["sent"][:-1] + "0"}]).encode(), "", 5),
        "carriage returns": (config(), whole.replace(b"\n", b"\r\n"), returns, 7),
        "gzip": (config(), gzip.compress(whole), packed, 5),
        "all of these": (other, b"\x1f\x8b\n" + whole.replace(b"\n", b"\r\n"), returns + packed + secret, 5),
    }
    for name, (configuration, octets, wanted, status) in cases.items():
        (folder / "good.toml").write_text(configuration)
        (folder / "a").write_bytes(octets)
        _, err, ended = audited(program, ["good.toml", "a"], folder)
        yield f"hint: {name}", None if (err, ended) == (wanted, status) else f"{(err, ended)} and not {(wanted, status)}"


def ended_early(program, folder):
    """What is told where a file can't be read behind one that can: what was found until then, and no more."""
    (folder / "good.toml").write_text(config())
    lines = lines_of(one(), 2)
    (folder / "a").write_text(text([lines[0], lines[2], lines[1]]))
    out, err, status = audited(program, ["good.toml", "a", "absent", "a"], folder)
    wanted = f"a:2: run {NAME:016x} lane 0 h1 gap 0 to 0\na:3: SerialNotAbove\n", "file: absent\n", 4
    yield "a file that is absent behind another", None if (out, err, status) == wanted else f"{(out, err, status)} and not {wanted}"


def to_full_disk(program, folder):
    """What the program tells where nothing can be printed: nothing, and by its status that it failed."""
    (folder / "good.toml").write_text(config())
    (folder / "a").write_text(text(lines_of(one(), 2)))
    (folder / "none").write_text("")
    for name, file, wanted in (("what can't be printed", "a", 4), ("nothing to print", "none", 10)):
        with open("/dev/full", "wb") as full:
            ran = subprocess.run([program, "good.toml", file], cwd=folder, stdout=full, stderr=subprocess.PIPE, timeout=SECONDS)
        found = ran.stderr, ran.returncode
        yield name, None if found == (b"", wanted) else f"{found} and not {wanted}"


def shown(program):
    """The name of each case, and what was wrong with it: nothing where it is as it has to be."""
    for name, files, lines, status, configuration, words in all_cases():
        with tempfile.TemporaryDirectory() as made:
            folder = pathlib.Path(made)
            (folder / "config.toml").write_text(configuration)
            for file, content in files.items():
                (folder / file).write_bytes(content.encode("utf-8", "surrogateescape"))
            out, err, ended = audited(program, [*words, "config.toml", *files], folder)
            found = out, without_hints(err), ended
        wanted = "".join(f"{line}\n" for line in lines), "", status
        yield name, None if found == wanted else f"{found}\nand not {wanted}"
    with tempfile.TemporaryDirectory() as made:
        for words, line, status in calls(pathlib.Path(made)):
            out, err, ended = audited(program, words, made)
            right = out == "" and err.startswith(line) and err.endswith("\n") and ended == status
            yield " ".join(words), None if right else f"{(out, err, ended)} and not {(line, status)}"
    for ends in ended_early, to_full_disk, hinted:
        with tempfile.TemporaryDirectory() as made:
            yield from ends(program, pathlib.Path(made))
    example = audited(program, ["one-home.toml", "one-home.jsonl"], TOP / "examples")
    name = f"run {0x0123456789ABCDEF:016x} lane 0 billing"
    wanted = f"{name} from 0 entries 4 not judged 0 whole\n{name} accepted 4 answered 4 left 0\n", "", 0
    yield "the example", None if example == wanted else f"{example} and not {wanted}"
    yield "the example is as it is made", None if ledgers.EXAMPLE.read_text("utf-8") == ledgers.example() else "it is not"


def main():
    if len(sys.argv) != 2:
        sys.exit(__doc__)
    program = str(pathlib.Path(sys.argv[1]).resolve())
    passed = failed = 0
    for name, wrong in shown(program):
        if wrong is None:
            passed += 1
        else:
            failed += 1
            print(f"{name}: {wrong}")
    print(f"{passed} passed, {failed} failed")
    sys.exit(1 if failed else 0)


if __name__ == "__main__":
    main()
