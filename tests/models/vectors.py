"""Makes the octets that the tests of the crates expect, by Python's hashlib and hmac alone.

usage: python3 -m tests.models.vectors                    prints each array and line, as it stands in a test
       python3 -m tests.models.vectors CRATE [NAME ..]    prints those of one crate, or those of these names
       python3 -m tests.models.vectors --check            compares what stands in the tests with what is made here

A packet is made from its code, identifier and attributes (RFC 2865 section 3). An Accounting-Request and its answer are
signed as RFC 2866 section 3 says, a Status-Server as RFC 5997 section 3 does. For an array more, add a line to the
function of its crate, print it and copy it into the test. The last line of --check is `N passed, M failed`.
"""
import re
import sys

from tests.lib import FROM_NAS, TOP, WORDS, ledgers, of_lanes, of_services
from tests.lib.spool import segments


def of_ledgers():
    """Lines of a ledger, without their line ends."""
    run = ledgers.Run(0xA0B1C2D3E4F50617, [ledgers.Lane(2, "h3", b"home-secret", serial=5, record=300)])
    binary = {"user": b"bob@\xff", "session": b"\xfe", "status": None}
    lines = [run.begin(), run.entry(status=3, more=FROM_NAS), run.entry(**binary), run.end()]
    # the least and the greatest of each number, with no word and with empty packets
    ends = ledgers.Run(0, [], version='0.1.0 "x"')
    least = {"home": "h1", "lane": 0, "serial": 0, "record": 0, "client": "0.0.0.0", "port": 0, "identifier": 0, "authenticator": "00" * 16}
    empty = {"sent": "", "reply": "", "response": ""}
    lines += [{**ends.head("entry"), **least, **empty}]
    ends.run, most = 2**64 - 1, 2**63 - 1
    greatest = {"lane": 65535, "serial": most, "record": ends.run, "client": "255.255.255.255", "port": 65535, "identifier": 255}
    others = {"authenticator": "ff" * 16, "status": 2**32 - 1, "sent": "ffffff", "reply": "00ff", "response": "80"}
    lines += [{**ends.head("entry"), **least, **greatest, **others}]
    # no lanes, and lanes with names that JSON writes by others
    lanes = [(0, "h1", 0), (7, '"\\\n\U0001f600', 1), (65535, "", most)]
    for some in ([], lanes):
        ends.file, ends.lanes = ends.run, [ledgers.Lane(number, home, b"", serial) for number, home, serial in some]
        lines += [ends.begin(), ends.end()]
    lines[-1]["lanes"][-1]["entries"] = ends.run
    # each form of a realm with another one of a session, without the characters that may not stand in a source
    forms = [word.replace(b"\x7f", b"").replace("\ufeff\u2028".encode(), b"") for word in WORDS]
    for at, realm in enumerate(forms):
        words = {**ledgers.worded("realm", realm), **ledgers.worded("session", forms[(at + 3) % len(forms)])}
        lines += [{**ends.head("entry"), **least, **words, **empty}]
    first, last = run.begin(), run.end_of_all()
    head, lanes = {key: value for key, value in first.items() if key != "lanes"}, {"lanes": first["lanes"]}
    for more in ({}, {"sum": bytes(range(224, 256)).hex()}):
        before = {"name": "2026-01-30-0123456789abcdef-000007.jsonl", **more}
        lines += ledgers.chained([{**head, "before": before, **lanes}, last], bytes(range(32)))
    entry = {**ends.head("entry"), **least, **empty, "accepted": "2026-01-31T00:00:00.125Z", "sendings": 2**32 - 1}
    lines += ledgers.chained([first, entry], bytes(range(32)))
    return {"LINES": [ledgers.text([line])[:-1] for line in lines]}


def made():
    """What the tests of each crate expect, by the names that it has there."""
    return {
        "library_tests": {**of_lanes(), **of_services(), **of_ledgers(), **segments.of_segments()},
    }


ARRAY = re.compile(r"const (\w+): (?:\[u8; \d+\] = |&\[u8\] = &)\[((?:\s*0x[0-9a-f]{2},?)+)\s*\];")
LINES = re.compile(r'const (\w+): &\[&str\] = &\[((?:\s+r#"\{"type":.*"#,)+)\s*\];')


def as_written(name, octets):
    """Lines or an array as a test has it, the array with sixteen octets to a line; a test may have a slice in its place."""
    if isinstance(octets, list):
        rows = "".join(f'    r#"{line}"#,\n' for line in octets)
        return f"const {name}: &[&str] = &[\n{rows}];"
    lines = [octets[at : at + 16] for at in range(0, len(octets), 16)]
    rows = "".join(f"    {', '.join(f'0x{octet:02x}' for octet in line)},\n" for line in lines)
    return f"const {name}: [u8; {len(octets)}] = [\n{rows}];"


def standing():
    """The arrays in hexadecimal and the lines that stand in the tests: the crate and the name, the file, and the value."""
    found = []
    for file in sorted(TOP.glob("crates/*/src/**/*.rt")):
        path = file.relative_to(TOP)
        if "test" in str(path):
            text = file.read_text(encoding="utf-8")
            values = [(name, bytes.fromhex("".join(re.findall(r"0x(..)", array)))) for name, array in ARRAY.findall(text)]
            values += [(name, re.findall(r'r#"(.*)"#', rows)) for name, rows in LINES.findall(text)]
            found += [((path.parts[1], name), path, value) for name, value in values]
    return found


def check():
    """Compares what stands with what is made, each way, and says where they differ."""
    expected = {(crate, name): octets for crate, arrays in made().items() for name, octets in arrays.items()}
    found = standing()
    lacking = sorted(expected.keys() - {key for key, _, _ in found})
    wrong = [(file, key) for key, file, octets in found if expected.get(key) != octets]
    for crate, name in lacking:
        print(f"{crate}: no test has {name}")
    for file, key in wrong:
        print(f"{file}: {key[1]} is {'not what is made here' if key in expected else 'not made here'}")
    failed = len(lacking) + len(wrong)
    print(f"{len(found) - len(wrong)} passed, {failed} failed")
    return 1 if failed else 0


def main(words):
    if words == ["--check"]:
        return check()
    all_made = made()
    crate, names = (words[0], words[1:]) if words else (None, [])
    if crate not in [None, *all_made] or any(name not in all_made[crate] for name in names):
        print(__doc__.strip(), file=sys.stderr)
        return 2
    for of, arrays in all_made.items():
        for name, octets in arrays.items():
            if crate in (None, of) and (not names or name in names):
                print(f"// {of}\n{as_written(name, octets)}\n")
    return 0


if __name__ == "__main__":
    sys.exit(main(sys.argv[1:]))
