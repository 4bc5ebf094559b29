"""Compares the rows that the built auditor prints with what Python reads in the packets of ledgers.

usage: python3 -m tests.ledger.rows AUDITOR [TEST ..]    the path of rad_audit

The last line is `N passed, M failed`.
"""
import re
import subprocess
from urllib.parse import unquote_to_bytes

from tests.lib import TOP, Lane, Run, attribute, audit_model, hope, need, packets, read, text, try_in_folders
from tests.lib.ledger import cases, left_cases
from tests.lib.ledger.chained_cases import all_cases, sealed
from tests.lib.packets import ACCT_SESSION_ID, ACCT_STATUS_TYPE, USER_NAME
from tools.version import VERSION

SECONDS = 60
INPUT_OCTETS, OUTPUT_OCTETS, SESSION_TIME, INPUT_GIGAWORDS, OUTPUT_GIGAWORDS = 42, 43, 46, 52, 53

# Format characters, such as the marks of a direction, and the separators of lines and paragraphs: of one to four octets in UTF-8.
FORMATS = ("\u00ad\u0600\u061c\u06dd\u180e\u200b\u200e\u200f\u2028\u2029\u202a\u202b\u202c\u202d\u202e\u2060\u2066\u2067\u2068\u2069"
           "\ufeff\ufffb\U000110bd\U000e0001\U000e007f")
# Values that a word can't have as they are, or that look like others: as the user's name and as the session.
VALUES = [*packets.WORDS, b"-", b"--", b" - ", b"a\tb", b"a\nb", b"a\r\n", b"a\\tb", b"\\N", b"\\", b"%", b"%2d", b"a%09b", b"=\"'", b" ",
          b"\x7f", b"~", "\x80\x9f\xa0".encode(), "m\u00fcller@\u4f8b.org".encode(), b"\xff\t\\%-@\xfe", b"A" * 253, "\u00e9".encode() * 126,
          *(f"a{one}b".encode() for one in FORMATS), "\u2027\u202f\u2070\u00ac\u00ae".encode()]


def escaped(octets):
    return "".join(f"%{octet:02x}" for octet in octets)


def word(octets):
    """A value as a row has it."""
    if octets is None:
        return "-"
    if octets == b"-":
        return "%2d"
    try:
        return "".join(escaped(c.encode()) if audit_model.is_hidden(c) or c in "%\\" else c for c in octets.decode("utf-8"))
    except UnicodeDecodeError:
        return "".join(chr(octet) if 32 <= octet < 127 and octet not in b"%\\" else escaped([octet]) for octet in octets)


def first(packet, kind):
    """The value of the first attribute of a type."""
    return next((value for value, _ in packet.of_type(kind)), None)


def number(value):
    return None if value is None or len(value) != 4 else int.from_bytes(value, "big")


def octets(packet, kind, gigawords):
    """The octets that a packet counts, with its gigawords."""
    low, high = number(first(packet, kind)), first(packet, gigawords)
    high = 0 if high is None else number(high)
    return None if low is None or high is None else 2**32 * high + low


def row(file, place, line):
    """The row of an entry, or of a request that was left."""
    is_left = line["type"] == "left"
    sent, response = (read(bytes.fromhex(line[key])) for key in (("request", "request") if is_left else ("sent", "response")))
    name = first(sent, USER_NAME)
    realm = name.rpartition(b"@")[2] if name is not None and b"@" in name else None
    numbers = [number(first(sent, ACCT_STATUS_TYPE)), octets(sent, INPUT_OCTETS, INPUT_GIGAWORDS),
               octets(sent, OUTPUT_OCTETS, OUTPUT_GIGAWORDS), number(first(sent, SESSION_TIME))]
    words = [word(file.encode()), place, line["run"], line["lane"], line.get("serial", "-"), line["record"], line["time"], line["client"], line["port"],
             response.identifier, word(line["home"].encode()), *(word(value) for value in (realm, first(sent, ACCT_SESSION_ID), name)),
             *("-" if one is None else one for one in numbers), line.get("state", "answered")]
    return "\t".join(map(str, words))


def rows_of(files, wrong=()):
    """The rows of files of lines, without those of these places."""
    return [row(file, place, line) for file, lines in files.items() for place, line in enumerate(lines, 1)
            if line["type"] in ("entry", "left") and (file, place) not in wrong]


def ran(program, folder, words, out=subprocess.PIPE, err=subprocess.PIPE):
    """What the program printed, as octets, and its status."""
    done = subprocess.run([program, *words], stdout=out, stderr=err, timeout=SECONDS, cwd=folder)
    return done.stdout, done.stderr, done.returncode


def told(program, folder, files, config=cases.config(), words=()):
    """What the program tells of these files, by these words, with rows and without: the rows, the other lines and the status."""
    (folder / "config.toml").write_text(config)
    for file, content in files.items():
        (folder / file).write_bytes(content.encode("utf-8", "surrogateescape"))
    plain, nothing, its = ran(program, folder, [*words, "config.toml", *files])
    rows, lines, status = ran(program, folder, ["--rows", *words, "config.toml", *files])
    hope("without rows", (nothing, its), (b"", status))
    hope("the other lines", lines, plain)
    need(rows == b"" or rows.endswith(b"\n"), "no line end behind", rows[-99:])
    return rows.decode("utf-8").split("\n")[:-1], lines.decode("utf-8").splitlines(), status


def compare(program, folder, files, status=0, wrong=()):
    """Compares the rows of files of lines with those that Python makes."""
    rows, _, ended = told(program, folder, sealed({file: text(lines) for file, lines in files.items()}))
    wanted = rows_of(files, wrong)
    for found, other in zip(rows, wanted):
        hope("row", found, other)
    hope("rows", len(rows), len(wanted))
    hope("status", ended, status)


def counter(kind, value):
    """An attribute of a counter: of a number four octets, and of octets these."""
    return attribute(kind, value.to_bytes(4, "big") if type(value) is int else value)


def a_run(*entries, lanes=None):
    """The lines of a run, of entries as the words of `Run.entry`."""
    run = Run(cases.NAME, lanes or [Lane(0, "h1", cases.HOME)])
    return [run.begin(), *(run.entry(**words) for words in entries), run.end_of_all()]


def the_example(program, folder):
    """The rows of the example, and its lane on standard error."""
    lines = (TOP / "examples" / "one-home.jsonl").read_text("utf-8")
    rows, lanes, status = told(program, folder, {"one-home.jsonl": lines}, (TOP / "examples" / "one-home.toml").read_text("utf-8"))
    hope("rows", [line.split("\t")[9:] for line in rows], [
        ["0", "billing", "example.org", "4f2a", "bob@example.org", "1", "-", "-", "-", "answered"],
        ["7", "billing", "example.org", "4f2a", "bob@example.org", "3", "-", "-", "-", "answered"],
        ["14", "billing", "example.org", "4f2a", "bob@example.org", "2", "-", "-", "-", "answered"],
        ["21", "billing", "-", "%ff%00", "bob", "1", "-", "-", "-", "answered"]])
    hope("lanes", lanes, [f"run 0123456789abcdef lane 0 billing {its}" for its in ("from 0 entries 4 not judged 0 whole", "accepted 4 answered 4 left 0")])
    hope("status", status, 0)


def words_of_every_kind(program, folder):
    """Names and sessions of every kind: each is one word, and gives its octets back."""
    more = [attribute(USER_NAME, value) + attribute(ACCT_SESSION_ID, value) for value in VALUES]
    lines = a_run(*({"user": b"", "session": b"", "more": each} for each in more))
    compare(program, folder, {"ledger": lines})
    rows, _, _ = told(program, folder, {"ledger": text(lines)})
    for line, value in zip(rows, VALUES):
        need(not re.search(r"[\x00-\x08\x0a-\x1f\x7f-\x9f\\]", line), "not escaped:", repr(line))
        _, _, session, user = line.split("\t")[10:14]
        need("-" not in (session, user), "none, and not", value)
        hope("octets", (unquote_to_bytes(session), unquote_to_bytes(user)), (value, value))


def counters(program, folder):
    """Octets with and without gigawords, of any length."""
    values = [None, 0, 1, 2**31, 2**32 - 1, b"", b"\x00", b"\x00\x00\x01", b"\x00\x00\x00\x00\x01", b"\xff" * 253]
    counted = lambda low, high, kinds: b"".join(counter(kind, value) for kind, value in zip(kinds, (low, high)) if value is not None)
    pairs = [(low, high) for low in values for high in values]
    more = [counted(low, high, (INPUT_OCTETS, INPUT_GIGAWORDS)) + counted(high, low, (OUTPUT_GIGAWORDS, OUTPUT_OCTETS)[::-1]) for low, high in pairs]
    compare(program, folder, {"ledger": a_run(*({"more": each} for each in more))})


def numbers(program, folder):
    """Session times and statuses of any length, and none."""
    values = [b"", 0, 1, 2**32 - 1, b"\x01", b"\x00\x00\x00\x00\x01"]
    more = [b"", *(counter(SESSION_TIME, value) for value in values), *(counter(ACCT_STATUS_TYPE, value) for value in values)]
    compare(program, folder, {"ledger": a_run(*({"status": None, "more": each} for each in more))})


def nothing_at_all(program, folder):
    """A request without attributes, and one with one of each."""
    each = b"".join(counter(kind, kind) for kind in (INPUT_OCTETS, OUTPUT_OCTETS, SESSION_TIME, INPUT_GIGAWORDS, OUTPUT_GIGAWORDS))
    lines = a_run({"user": b"", "session": b"", "status": None}, {"more": each})
    compare(program, folder, {"ledger": lines})
    rows, _, _ = told(program, folder, {"ledger": text(lines)})
    hope("no attributes", rows[0].split("\t")[11:], ["-"] * 7 + ["answered"])
    hope("one of each", rows[1].split("\t")[14:], ["1", str(2**32 * 52 + 42), str(2**32 * 53 + 43), "46", "answered"])


def twice(program, folder):
    """Of an attribute that is there twice the first counts, also where its value is none."""
    pairs = [(kind, value, other) for kind in (ACCT_STATUS_TYPE, INPUT_OCTETS, OUTPUT_OCTETS, SESSION_TIME, INPUT_GIGAWORDS, OUTPUT_GIGAWORDS)
             for value, other in ((5, 6), (b"\x01", 7), (8, b""))]
    base = counter(INPUT_OCTETS, 3) + counter(OUTPUT_OCTETS, 4)
    more = [counter(kind, value) + counter(kind, other) + base for kind, value, other in pairs]
    more += [attribute(kind, value) + attribute(kind, other) for kind in (USER_NAME, ACCT_SESSION_ID) for value, other in ((b"a@b", b"c@d"), (b"", b"c"))]
    compare(program, folder, {"ledger": a_run(*({"user": b"", "session": b"", "status": None, "more": each} for each in more))})


def what_the_line_says(program, folder):
    """Lanes, runs, serials, clients and ports, and a file whose name is no word; the response has the Identifier."""
    lanes = [Lane(0x1234, "h1", cases.HOME, 2**63 - 3, 2**63 - 3), Lane(65535, "h2", cases.OTHER)]
    lines = a_run({}, {"place": 1}, {"place": 1}, {}, lanes=lanes)
    lines[1]["port"], lines[2]["port"] = 65535, 0
    other = Run(2**64 - 1, [Lane(0, "-", b"x"), Lane(1, "h\t1\n\\%", b"x")])
    strange = [other.begin(), other.entry(0), other.entry(1), other.end_of_all()]
    strange[1]["identifier"], strange[1]["client"] = 99, "255.255.255.255"
    compare(program, folder, {"a\tb\nc\\d%": lines, "-": strange}, 7)


def no_row_of_what_is_wrong(program, folder):
    """Lines that are wrong, torn or out of order have no row, and those behind a gap have one."""
    lines = a_run(*[{}] * 6)
    mixed = [lines[0], lines[1], cases.turned(lines[2], "sent", 7), lines[4], lines[3], lines[5], lines[7]]
    compare(program, folder, {"ledger": mixed}, 5, {("ledger", 3), ("ledger", 5)})
    cut = text(lines[1:2])[:99]
    rows, told_lines, status = told(program, folder, sealed({"ledger": text(lines[:1]) + cut + "\n" + text(lines[1:3]) + cut}))
    hope("rows", rows, [row("ledger", 3, lines[1]), row("ledger", 4, lines[2])])
    hope("lines", told_lines[:2], ["ledger:2: torn", "ledger:5: torn"])
    hope("status", status, 6)


def what_was_left(program, folder):
    """Requests that were left, with their state and no serial, with words of every kind; none of one that is wrong."""
    compare(program, folder, {"ledger": left_cases.some_left()})
    run = Run(cases.NAME, [Lane(7, "h1", cases.HOME)])
    lines = [run.begin(), *(run.left(state=state, user=value, session=value) for value in VALUES if value for state in left_cases.STATES), run.end_of_all()]
    compare(program, folder, {"ledger": lines})
    for files, _, status in left_cases.LEFT_REASONS.values():
        rows, told_lines, ended = told(program, folder, sealed(files))
        wrong = int(told_lines[0].split(":")[1])
        hope("places", [int(line.split("\t")[1]) for line in rows], [place for place in range(2, 8) if place != wrong])
        hope("status", ended, status)


def every_audit(program, folder):
    """With rows, the other lines and the status of each case of chained_cases.py, and a row for each entry that is right."""
    for name, files, lines, status, config, words in all_cases():
        rows, found, ended = told(program, folder, files, config, words)
        hope(name, (found, ended), (lines, status))
        counts = (re.search(r" entries (\d+) not judged ", line) for line in lines)
        hope(f"rows of {name}", sum(row.endswith("\tanswered") for row in rows), sum(int(count[1]) for count in counts if count))


def where_nothing_can_be_printed(program, folder):
    """Rows, or the other lines, that can't be printed: the status tells of it."""
    (folder / "config.toml").write_text(cases.config())
    (folder / "ledger").write_text(text(a_run({})))
    words = ["--rows", "config.toml", "ledger"]
    with open("/dev/full", "wb") as full:
        hope("no rows", ran(program, folder, words, out=full)[2], 4)
        hope("no lines", ran(program, folder, words, err=full)[2], 4)


def what_cannot_be_read(program, folder):
    """Faults are told as without rows, behind the rows of what could be read."""
    (folder / "config.toml").write_text(cases.config())
    lines = a_run({}, {})
    (folder / "ledger").write_text(text(lines))
    out, err, status = ran(program, folder, ["--rows", "config.toml", "ledger", "absent"])
    hope("absent", (out.decode().splitlines(), err, status), (rows_of({"ledger": lines}), b"file: absent\n", 4))
    for words in (["--rows"], ["--rows", "config.toml"], ["--rows", "--rows", "config.toml", "ledger"], ["--row", "config.toml", "ledger"]):
        hope(f"{words}", ran(program, folder, words), (b"", f"{audit_model.USAGE}\n".encode(), 1))
    hope("behind", ran(program, folder, ["config.toml", "ledger", "--rows"])[0].decode().splitlines(), rows_of({"ledger": lines}))


def help_and_version(program, folder):
    """Help and the version are on standard output, with status 0; the version is that of the proxy."""
    for words in (["--help"], ["-h"]):
        out, err, status = ran(program, folder, words)
        need(all(word in out.decode() for word in ("--rows", "<CONFIG>", "<FILE>...", "--version")), "help", out)
        hope("help", (err, status), (b"", 0))
    for words in (["--version"], ["-V"]):
        hope("version", ran(program, folder, words), (f"rad_audit {VERSION}\n".encode(), b"", 0))
    with open("/dev/full", "wb") as full:
        hope("no help", ran(program, folder, ["--help"], out=full)[2], 4)


TESTS = [the_example, words_of_every_kind, counters, numbers, nothing_at_all, twice, what_the_line_says, no_row_of_what_is_wrong, what_was_left,
         every_audit, where_nothing_can_be_printed, what_cannot_be_read, help_and_version]


if __name__ == "__main__":
    try_in_folders(TESTS, __doc__)
