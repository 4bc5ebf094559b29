"""Ledgers with sums that Python makes, and what somebody may make of them, with what the auditor has to print of each and its status."""
import re

from tests.lib import audit_model
from tests.lib.ledger import exchanged_cases
from tests.lib.ledger.cases import (HOME, NAME, REASONS, backward, changed, config, counted, fates, lines_of, one, runs, signed_response,
                                    told, two)
from tests.lib.ledger.left_cases import LEFT_REASONS, accounts
from tests.lib.ledgers import Lane, Run, bare, body, chained, hidden, sum_after, sum_of, text, told_hidden


COUNTED = re.compile(r"(run ([0-9a-f]{16}) lane ([0-9]+) \S+) from ([0-9]+) entries ([0-9]+) not judged ([0-9]+) (.+)")


def lines_in(files):
    """The lines of ledgers in these files."""
    for content in files.values():
        for line in content.split("\n")[:-1]:
            try:
                yield audit_model.read_line(line.encode("utf-8", "surrogateescape"))
            except audit_model.NoLine:
                pass


def with_counts(end):
    """An `end` line that says of each lane that all requests were answered, where it says nothing of them."""
    lanes = [lane if "left" in lane else {**lane, "accepted": lane["entries"], "left": 0} for lane in end["lanes"]]
    return {**end, "lanes": lanes}


def with_fates(files, printed):
    """What is printed where each `end` line has the counts that `with_counts` gives it."""
    bare = {(line["run"].lower(), lane["lane"]): lane["entries"]
            for line in lines_in(files) if line["type"] == "end" for lane in line["lanes"] if "left" not in lane}
    for line in printed:
        yield line
        its = COUNTED.fullmatch(line)
        if its and (its[2], int(its[3])) in bare:
            yield f"{its[1]} accepted {bare[its[2], int(its[3])]} answered {its[5]} left 0"


def with_reasons(files, printed):
    """What is printed, and behind a lane that is only a part the reasons for that."""
    found = list(lines_in(files))
    for line in printed:
        yield line
        its = COUNTED.fullmatch(line)
        if its:
            begins, ends = ([it for it in found if (it["type"], it.get("run", "").lower()) == (kind, its[2])] for kind in ("begin", "end"))
            told = [lane for end in ends for lane in end["lanes"] if lane["lane"] == int(its[3])]
            reasons = {"late": its[4] != "0" or begins[0]["file"], "no-sum": any(next(reversed(begin)) != "sum" or begin["sum"] != begin["sum"].lower() for begin in begins),
                       "no-counts": ends and not (told and "left" in told[-1]), "not-judged": its[6] != "0"}
            if any(reasons.values()):
                yield " ".join([its[1], "part:", *(reason for reason, is_so in reasons.items() if is_so)])


def counting(files):
    """The files with the counts in each line that ends a run."""
    return {name: "\n".join(map(counting_line, content.split("\n"))) for name, content in files.items()}


def counting_line(line):
    try:
        found = audit_model.read_line(line.encode("utf-8", "surrogateescape"))
    except audit_model.NoLine:
        return line
    return text([with_counts(found)])[:-1] if found["type"] == "end" else line


TAIL = re.compile(',"sum":"[0-9a-fA-F]*"}$')


def sealed(files):
    """The files with the right sum in each line of a ledger, the last of its keys."""
    sums, made = {}, {}
    for name, content in files.items():
        *lines, last = content.split("\n")
        made[name] = "".join(f"{seal(line, sums)}\n" for line in lines) + last
    return made


def seal(line, sums):
    """A line with its sum, where it is one of a run that is known. `sums` has the last sum of each run."""
    try:
        found = audit_model.read_line(line.encode("utf-8", "surrogateescape"))
    except audit_model.NoLine:
        return line
    if found["type"] == "hidden":
        return line
    run = found["run"].lower()
    if found["type"] == "begin":
        sums.setdefault(run, bytes(32))
    if run not in sums:
        return line
    front = TAIL.sub("", line) if TAIL.search(line) else line.rstrip()[:-1]
    if "sum" in found and front.endswith("}") is False and '"sum"' in front:
        front = text([{key: value for key, value in found.items() if key != "sum"}])[:-2]
    sums[run] = sum_after(sums[run], front.encode("utf-8", "surrogateescape"))
    return f'{front},"sum":"{sums[run].hex()}"}}'


def wrong(place):
    return f"{place}: WrongSum"


def wrong_sums(lines):
    """The numbers of the lines of one run whose sum is not that of the line before and of their own octets. In a first line that is of a
    later file any is right."""
    before, found = None if lines[0]["file"] else bytes(32), []
    for number, line in enumerate(lines, 1):
        its = bytes.fromhex(line["sum"])
        if before is not None and its != sum_after(before, body(line)):
            found.append(number)
        before = its
    return found


def with_wrong(numbers, printed):
    """What is printed, with the wrong sums of the lines of these numbers, each before whatever else is told of its line."""
    for number in numbers:
        at = sum(line.startswith("ledger:") and int(line.split(":")[1]) < number for line in printed)
        printed = [*printed[:at], wrong(f"ledger:{number}"), *printed[at:]]
    return printed


def kept(run, file, its):
    """The word of a sum that somebody kept."""
    return f"{run:016x}:{file}:{its.hex()}"


def of_run(name, lines):
    """The same of another run."""
    return [line.replace(f"{NAME:016x}", f"{name:016x}") for line in lines]


def without(lines, place, **end):
    """The lines without the entry at this place, the later ones renumbered, and other counts in the end line."""
    return told([*lines[:place], *(changed(line, serial=line["serial"] - 1) for line in lines[place + 1 : -1]), lines[-1]], **end)


def tampers():
    """What somebody makes of a whole run of two lanes with an editor and without a secret: the run and the lines then, what is printed of them
    where all sums are written anew, the status then, and the configuration, if it is another one."""
    run = one()
    lines, whole = chained([*lines_of(run, 5, False), run.end_of_all()]), [counted(0, "h1", 0, 5, "whole"), fates(5, 5, 0)]
    gap = f"ledger:8: run {NAME:016x} lane 0 h1 gap 5 to 5"
    yield "an-entry-taken-out", lines, without(lines, 2, entries=4), [counted(0, "h1", 0, 4, "unaccounted"), fates(5, 4, 0)], 3
    yield "an-entry-taken-out-and-not-accepted", lines, without(lines, 2, entries=4, accepted=4), [counted(0, "h1", 0, 4, "unaccounted"), fates(4, 4, 0)], 3
    yield "the-last-entry-taken-out-and-not-accepted", lines, without(lines, 5, entries=4, accepted=4), [counted(0, "h1", 0, 4, "whole"), fates(4, 4, 0)], 0
    yield "the-tail-cut", lines, told([*lines[:4], lines[6]], entries=3, accepted=3), [counted(0, "h1", 0, 3, "whole"), fates(3, 3, 0)], 0
    yield "an-entry-doubled", lines, [*lines[:6], changed(lines[2], serial=5), told(lines, entries=6)[-1]], [
        "ledger:7: RecordTwice", gap, counted(0, "h1", 0, 5, "gap 5 to 5"), fates(5, 5, 0)], 5
    swapped = [*lines[:2], changed(lines[3], serial=1), changed(lines[2], serial=2), *lines[4:]]
    yield "neighbours-swapped", lines, swapped, [*whole, backward(0, "h1", 1)], 0
    yield "neighbours-swapped-with-their-times", lines, [
        *lines[:2], changed(swapped[2], time=lines[2]["time"]), changed(swapped[3], time=lines[3]["time"]), *lines[4:]], whole, 0
    raised = [changed(lines[0], lanes=[{"lane": 0, "home": "h1", "serial": 2}]), *lines[3:]]
    yield "begin's-serial-raised", lines, raised, [counted(0, "h1", 2, 3, "part"), fates(5, 3, 0)], 7
    yield "begin-of-a-later-file", lines, [changed(lines[0], file=1), *lines[1:]], [counted(0, "h1", 0, 5, "part"), fates(5, 5, 0)], 7
    yield "an-entry-and-the-counts-taken-out", lines, without(lines, 2, entries=4, accepted=None, left=None), [counted(0, "h1", 0, 4, "part")], 7
    yield "another-version", lines, [changed(lines[0], version="9"), *lines[1:]], whole, 0
    yield "a-begin-of-another-time", lines, [changed(lines[0], time="2026-01-30T00:00:00.000Z"), *lines[1:]], whole, 0
    for key, value in {"port": 1, "time": "2026-01-31T00:00:00.751Z"}.items():
        yield f"another-{key}", lines, [*lines[:2], changed(lines[2], **{key: value}), *lines[3:]], whole, 0
    far = [*lines[:5], changed(lines[5], time="2026-12-31T00:00:00.000Z"), *lines[6:]]
    yield "a-time-far-ahead", lines, far, whole, 0
    another = config() + '[[client]]\naddress = "192.0.2.11"\nsecret = "nas-secret"\n'
    client = [*lines[:2], changed(lines[2], client="192.0.2.11"), *lines[3:]]
    yield "a-client-of-the-same-secret", lines, client, whole, 0, another
    unjudged = [counted(0, "h1", 0, 5, "part", 1), fates(5, 5, 0)]
    yield "a-client-that-is-not-there", lines, client, unjudged, 7
    forged = changed(signed_response(client[2], b"\x19\x05abc", identifier=77, secret=b"of anybody"), identifier=77, authenticator="ab" * 16)
    yield "a-client-that-is-not-there-with-a-forged-response", lines, [*lines[:2], forged, *lines[3:]], unjudged, 7

    run = two()
    both = chained([run.begin(), run.entry(0), run.entry(1), run.entry(0), run.end_of_all()])
    first, second = both[0]["lanes"]
    struck = [changed(both[0], lanes=[first]), both[1], both[3], changed(both[4], lanes=both[4]["lanes"][:1])]
    yield "a-lane-struck-out", both, struck, [counted(0, "h1", 0, 2, "whole"), fates(2, 2, 0)], 0
    emptied = [*both[:2], both[3], changed(both[4], lanes=[both[4]["lanes"][0], {"lane": 1, "entries": 0, "accepted": 0, "left": 0}])]
    yield "a-lane-emptied", both, emptied, [counted(0, "h1", 0, 2, "whole"), fates(2, 2, 0), counted(1, "h2", 0, 0, "whole"), fates(0, 0, 0, 1, "h2")], 0

    run = Run(NAME, [Lane(0, "h1", HOME), Lane(1, "h2", HOME)])
    both = chained([run.begin(), run.entry(0), run.entry(1), run.entry(0), run.end_of_all()])
    other = {"h1": "h2", "h2": "h1"}
    exchanged = [changed(line, home=other[line["home"]]) if "home" in line else line for line in both]
    exchanged[0] = changed(both[0], lanes=[{**lane, "home": other[lane["home"]]} for lane in both[0]["lanes"]])
    its = [counted(0, "h2", 0, 2, "whole"), fates(2, 2, 0, 0, "h2"), counted(1, "h1", 0, 1, "whole"), fates(1, 1, 0, 1, "h1")]
    yield "home-servers'-names-swapped-under-one-secret", both, exchanged, its, 0, config((("h1", HOME), ("h2", HOME)))

    run = one()
    mine = [*lines_of(run, 2, False), *(run.left() for _ in range(2)), run.end_of_all()]
    lines = chained(mine)
    yield "a-left-line-taken-out", lines, [*lines[:3], *lines[4:]], [counted(0, "h1", 0, 2, "unaccounted"), fates(4, 2, 1)], 3
    yield "a-state-edited", lines, [*lines[:3], changed(lines[3], state="untaken"), *lines[4:]], [counted(0, "h1", 0, 2, "whole"), fates(4, 2, 2)], 0


def uncounted():
    """Runs whose `end` line lacks something of what was counted, with all sums written anew."""
    run = two()
    lines = chained([run.begin(), run.entry(0), run.entry(1), run.entry(0), run.end_of_all()])
    first, second = lines[-1]["lanes"]
    fewer = {"lane": 1, "entries": 1}
    whole, its = [counted(0, "h1", 0, 2, "whole"), fates(2, 2, 0)], {"ledger": text(chained([*lines[:-1], changed(lines[-1], lanes=[first, fewer])]))}
    yield "counts-taken-out-of-the-end", its, [*whole, counted(1, "h2", 0, 1, "part")], 7
    yield "counts-taken-out-of-the-end, as asked", its, [*whole, counted(1, "h2", 0, 1, "part")], 0, config(), ["--partial"]
    without_lane = {"ledger": text(chained([*lines[:-1], changed(lines[-1], lanes=[first])]))}
    yield "a-lane-taken-out-of-the-end", without_lane, [*whole, counted(1, "h2", 0, 1, "open")], 7
    none = {"ledger": text(chained([*lines[:-1], changed(lines[-1], lanes=[])]))}
    yield "all-lanes-taken-out-of-the-end", none, [counted(0, "h1", 0, 2, "open"), counted(1, "h2", 0, 1, "open")], 7
    twice = {"ledger": text(chained([*lines[:-1], changed(lines[-1], lanes=[first, fewer]), lines[-1]]))}
    yield "an-end-without-counts-before-the-other", twice, [*whole, counted(1, "h2", 0, 1, "contradicted"), fates(1, 1, 0, 1, "h2")], 9


def tampered():
    """Each of these with the sums as they were, of which each changed line contradicts its own; with all sums written anew, of which the
    pages say that it is not found; and this beside the last sum, which somebody kept."""
    for name, before, lines, printed, status, *rest in [*tampers(), *exchanged_cases.moved()]:
        places = wrong_sums(lines)
        yield f"{name}, beside its sums", {"ledger": text(lines)}, with_wrong(places, printed), 5 if places else status, *rest
        anew = {"ledger": text(chained(lines))}
        yield f"{name}, all sums anew", anew, printed, status, *rest
        yield f"{name}, without sums", {"ledger": text(bare(lines))}, [line.replace(" whole", " part") for line in printed], status or 7, *rest
        word = kept(NAME, 0, sum_of(before))
        yield f"{name}, all sums anew, and one kept", anew, [*printed, wrong(word)], 5, rest[0] if rest else config(), ["--sum", word]


def spoiled_sums():
    """Whole runs of which somebody spoils one line and leaves the sums of the others: that line alone is told, or the next one where it is
    gone. Also the lines of a run that was killed."""
    run = one()
    lines = chained([*lines_of(run, 3, False), run.left(), run.end_of_all()])
    whole = [counted(0, "h1", 0, 3, "whole"), fates(4, 3, 1)]
    killed, cut = lines[:4], [counted(0, "h1", 0, 3, "open")]
    for at in range(len(lines)):
        spoil = lambda its, at=at: {"ledger": text([*lines[:at], *its, *lines[at + 1 :]])}
        stripped = changed(lines[at], sum=None)
        if at:
            yield f"line-{at}-without-its-sum", spoil([stripped]), [wrong(f"ledger:{at + 1}"), *whole], 5
        first = {**{key: value for key, value in lines[at].items() if key == "sum"}, **stripped}
        lacks = [wrong(f"ledger:{at + 1}"), *whole] if at else [whole[0].replace("whole", "part"), whole[1]]
        yield f"line-{at}-with-its-sum-first", spoil([first]), lacks, 5 if at else 7
        upper = {**stripped, "sum": lines[at]["sum"].upper()}
        yield f"line-{at}-with-its-sum-in-capitals", spoil([upper]), lacks, 5 if at else 7
        later = changed(lines[at], time=lines[at]["time"][:-2] + "9Z")
        yield f"line-{at}-of-another-time", spoil([later]), [wrong(f"ledger:{at + 1}"), *whole], 5
        zero = changed(lines[at], sum="0" * 64)
        both = [wrong(f"ledger:{place}") for place in (at + 1, at + 2) if place <= len(lines)]
        yield f"line-{at}-of-a-sum-of-zeros", spoil([zero]), [*both, *whole], 5
    yield "all-sums-taken-away", {"ledger": text(bare(lines))}, [whole[0].replace("whole", "part"), whole[1]], 7
    yield "all-sums-but-the-first-taken-away", {"ledger": text([lines[0], *bare(lines[1:])])}, [
        *(wrong(f"ledger:{at}") for at in range(2, 7)), *whole], 5
    yield "the-last-line-of-a-killed-run-changed", {"ledger": text([*killed[:3], changed(killed[3], port=1)])}, [wrong("ledger:4"), *cut], 5
    yield "the-last-line-of-a-killed-run-taken-away", {"ledger": text(killed[:3])}, [counted(0, "h1", 0, 2, "open")], 6
    fewer = changed(lines[-1], lanes=[{"lane": 0, "entries": 3}])
    yield "two-keys-deleted-from-the-end", {"ledger": text([*lines[:-1], fewer])}, [
        wrong("ledger:6"), counted(0, "h1", 0, 3, "part")], 5
    yield "a-left-line-doubled", {"ledger": text([*lines[:5], lines[4], lines[5]])}, [
        wrong("ledger:6"), "ledger:6: RecordTwice", *whole], 5


def left_out():
    """Lines that are left out with their lane and their kind, and lines of which lanes are left out."""
    run = two()
    lines = chained([run.begin(), *(run.entry(place) for place in (0, 1, 0, 1, 1)), run.left(1), run.end_of_all()])
    mine = [counted(0, "h1", 0, 2, "whole"), fates(2, 2, 0)]
    handed = [told_hidden(line) if line.get("home") == "h2" else line for line in lines]
    gone = [*mine, counted(1, "h2", 0, 0, "gap 0 to 2"), fates(4, 0, 0, 1, "h2"), f"run {NAME:016x} hidden 4"]
    gap = f"ledger:8: run {NAME:016x} lane 1 h2 gap 0 to 2"
    partial = config(), ["--partial"]
    yield "a-lane-left-out", {"ledger": text(handed)}, [gap, *gone], 3
    yield "a-lane-left-out, as asked", {"ledger": text(handed)}, [gap, *gone], 0, *partial
    fewer = [*handed[:2], *handed[3:]]
    yield "a-lane-left-out-and-a-line-gone, as asked", {"ledger": text(fewer)}, [
        wrong("ledger:3"), gap.replace(":8:", ":7:"), *gone[:-1], f"run {NAME:016x} hidden 3"], 5, *partial
    shown = [line if at != 2 else lines[2] for at, line in enumerate(handed)]
    yield "a-lane-of-which-one-is-there, as asked", {"ledger": text(shown)}, [
        gap.replace("0 to 2", "1 to 2"), *mine, counted(1, "h2", 0, 1, "gap 1 to 2"), fates(4, 1, 0, 1, "h2"), f"run {NAME:016x} hidden 3"], 0, *partial
    lefts = [told_hidden(line) if line["type"] == "left" else line for line in lines]
    yield "a-left-line-left-out", {"ledger": text(lefts)}, [
        *mine, counted(1, "h2", 0, 3, "unaccounted"), fates(4, 3, 0, 1, "h2"), f"run {NAME:016x} hidden 1"], 3
    yield "a-left-line-left-out, as asked", {"ledger": text(lefts)}, [
        *mine, counted(1, "h2", 0, 3, "unaccounted"), fates(4, 3, 0, 1, "h2"), f"run {NAME:016x} hidden 1"], 0, *partial
    cut = [{**{key: value for key, value in line.items() if key != "sum"}, "lanes": line["lanes"][:1], "hidden": 1, "sum": line["sum"]}
           if "lanes" in line else line for line in handed]
    yield "a-lane-and-its-name-left-out", {"ledger": text(cut)}, [*mine, f"run {NAME:016x} hidden 6"], 7
    yield "a-lane-and-its-name-left-out, as asked", {"ledger": text(cut)}, [*mine, f"run {NAME:016x} hidden 6"], 0, *partial
    edited = [*cut[:3], changed(cut[3], port=7), *cut[4:]]
    yield "a-line-edited-beside-what-is-left-out, as asked", {"ledger": text(edited)}, [wrong("ledger:4"), *mine, f"run {NAME:016x} hidden 6"], 5, *partial
    taken = [*cut[:1], *cut[2:]]
    yield "a-line-taken-from-what-is-handed-out, as asked", {"ledger": text(taken)}, [
        f"ledger:3: run {NAME:016x} lane 0 h1 gap 0 to 0", counted(0, "h1", 0, 1, "gap 0 to 0"), fates(2, 1, 0), f"run {NAME:016x} hidden 6"], 3, *partial
    for name, keys in {"of-no-kind": {"lane": 1}, "of-no-lane": {"kind": "entry"}, "of-a-lane-that-is-not-there": {"lane": 7, "kind": "entry"}}.items():
        its = [*lines[:2], hidden(lines[2], **keys), *lines[3:]]
        yield f"a-line-left-out-{name}, as asked", {"ledger": text(its)}, [
            f"ledger:5: run {NAME:016x} lane 1 h2 gap 0 to 0", *mine, counted(1, "h2", 0, 2, "gap 0 to 0"), fates(4, 2, 1, 1, "h2"), f"run {NAME:016x} hidden 1"], 3, *partial
    for name, keys in {"of-another-kind": {"lane": 1, "kind": "begin"}, "of-a-lane-that-is-too-great": {"lane": 65536}, "of-a-run": {"run": lines[2]["run"]}}.items():
        its = [*lines[:2], hidden(lines[2], **keys), *lines[3:]]
        yield f"a-line-left-out-{name}", {"ledger": text(its)}, [
            "ledger:3: NotEntry", wrong("ledger:4"), f"ledger:5: run {NAME:016x} lane 1 h2 gap 0 to 0", *mine,
            counted(1, "h2", 0, 2, "gap 0 to 0"), fates(4, 2, 1, 1, "h2")], 5


def counts_of_responses():
    """Lines that count what became of a response, and entries with when they were accepted and how often they were sent."""
    run = one()
    begin, entry = run.begin(), run.entry()
    of = lambda kind, **keys: changed({**run.head(kind), "home": "h1", "lane": 0, "record": 0, "count": 2}, **keys)
    lines = [begin, entry, of("unsent"), of("again"), run.entry(), of("again", record=1), run.end_of_all()]
    whole = [counted(0, "h1", 0, 2, "whole"), fates(2, 2, 0)]
    yield "counts-of-responses", {"ledger": text(chained(lines))}, whole, 0
    other = lambda line: {"ledger": text(chained([begin, entry, line, *lines[4:]]))}
    for kind in ("unsent", "again"):
        for name, keys in {"lane": {"lane": 1}, "home-server": {"home": "h2"}}.items():
            yield f"{kind}-of-another-{name}", other(of(kind, **keys)), ["ledger:3: UnknownLane", *whole], 5
        yield f"{kind}-of-another-run", other(of(kind, run=f"{NAME + 1:016x}")), [
            "ledger:3: UnknownLane", wrong("ledger:4"), *whole], 5
        yield f"{kind}-of-a-record-that-comes-later", other(of(kind, record=1)), ["ledger:3: UnknownRecord", *whole], 5
        yield f"{kind}-as-often-as-can-be", other(of(kind, count=2**64 - 1)), whole, 0
        for name, keys in {"never": {"count": 0}, "with-a-key-more": {"serial": 0}, "without-its-record": {"record": None},
                           "too-often": {"count": 2**64}}.items():
            yield f"{kind}-{name}", other(of(kind, **keys)), ["ledger:3: NotEntry", wrong("ledger:4"), *whole], 5
    behind = chained([*lines, of("again")])
    yield "again-behind-an-end", {"ledger": text(behind)}, [whole[0].replace("whole", "contradicted"), whole[1]], 9
    serials = [{**begin["lanes"][0], "serial": 1}]
    late = chained([changed(begin, file=1, lanes=serials), of("again"), changed(lines[4]), told([lines[-1]])[-1]])
    yield "again-in-a-later-file", {"ledger": text(late)}, [counted(0, "h1", 1, 1, "part"), fates(2, 1, 0)], 7
    for name, keys in {"accepted": {"accepted": "2026-01-31T00:00:00.125Z"}, "sendings": {"sendings": 2**32 - 1},
                       "both": {"accepted": "2026-01-31T00:00:00.125Z", "sendings": 0}}.items():
        yield f"an-entry-with-{name}", {"ledger": text(chained([begin, {**entry, **keys}, *lines[4:]]))}, whole, 0
    for name, keys in {"no-moment": {"accepted": "2026-01-31"}, "too-many-sendings": {"sendings": 2**32}}.items():
        its = {"ledger": text(chained([begin, {**entry, **keys}, *lines[4:]]))}
        yield f"an-entry-with-{name}", its, [
            "ledger:2: NotEntry", wrong("ledger:3"), f"ledger:3: run {NAME:016x} lane 0 h1 gap 0 to 0", counted(0, "h1", 0, 1, "gap 0 to 0"), fates(2, 1, 0)], 5


def earlier_runs():
    """Lines of requests that a lane took over from earlier runs, and of responses of such runs that were sent again."""
    run, older, old = two(), f"{NAME + 1:016x}", f"{NAME + 2:016x}"
    begin, name = run.begin(), f"{NAME:016x}"
    of = lambda record, first=0, lane=0, **keys: changed({
        **run.head("resumed"), "home": f"h{lane + 1}", "lane": lane, "record": record, "first_run": older, "first_lane": lane, "first_record": first}, **keys)
    entries = [run.entry(), run.entry(1), run.entry(), run.left(1), run.entry()]
    end = run.end_of_all()
    whole = [counted(0, "h1", 0, 3, "whole"), fates(3, 3, 0), counted(1, "h2", 0, 1, "whole"), fates(2, 1, 1, 1, "h2")]
    resumed = lambda first, second: [*whole[:2], *([f"run {name} lane 0 h1 resumed {first}"] if first else []),
                                     *whole[2:], *([f"run {name} lane 1 h2 resumed {second}"] if second else [])]
    case = lambda *lines: {"ledger": text(chained([begin, *lines, *entries, end]))}
    yield "resumed", case(of(0), of(1, 1), of(0, lane=1), of(2, 2)), resumed(3, 1), 0
    yield "resumed-behind-other-entries", {"ledger": text(chained([begin, of(0, 7), *entries[:2], of(1, 9), of(1, 7, 1), *entries[2:], end]))}, resumed(2, 1), 0
    yield "resumed-from-two-runs", case(of(0, 9), of(1, 0, first_run=old), of(2, 3, first_run=old, first_lane=9)), resumed(3, 0), 0
    yield "resumed-from-two-lanes", case(of(0, 9), of(1, 0, first_lane=1), of(2, 1, first_lane=1)), resumed(3, 0), 0
    yield "resumed-from-the-last-lane", case(of(0, 2**64 - 1, first_lane=65535, first_run="f" * 16)), resumed(1, 0), 0
    yield "resumed-from-its-own-run", case(of(0), of(1, 1, first_run=name), of(2, 2)), ["ledger:3: UnknownRecord", *resumed(2, 0)], 5
    yield "resumed-from-its-own-run-in-capitals", case(of(0, first_run=name.upper())), ["ledger:2: UnknownRecord", *whole], 5
    for what, line in {"twice": of(1, 1), "twice-under-another-number": of(2, 1), "twice-from-another-run": of(1, 5, first_run=old),
                       "out-of-order": of(0, 2), "from-a-lower-number": of(2, 0)}.items():
        yield f"resumed-{what}", case(of(1, 1), line), ["ledger:3: RecordTwice", *resumed(1, 0)], 5
    yield "resumed-behind-its-entry", {"ledger": text(chained([begin, entries[0], of(0), *entries[1:], end]))}, ["ledger:3: RecordTwice", *whole], 5
    late = {"ledger": text(chained([begin, *entries[:4], of(1, 0, 1), entries[4], end]))}
    yield "resumed-behind-what-was-left", late, ["ledger:6: RecordTwice", *whole], 5
    yield "resumed-of-another-lane", case(of(0, lane=2)), ["ledger:2: UnknownLane", *whole], 5
    yield "resumed-of-another-home-server", case(of(0, home="h2")), ["ledger:2: UnknownLane", *whole], 5
    yield "resumed-of-a-run-that-is-not-there", case(of(0, run=old, first_run=name)), ["ledger:2: UnknownLane", wrong("ledger:3"), *whole], 5
    yield "resumed-and-never-accepted", case(of(2), of(3, 1), of(1, lane=1)), ["ledger:10: UnknownRecord", *resumed(2, 1)], 5
    never = case(of(3), of(2, lane=1), of(1, 1, first_run=name))
    yield "resumed-and-never-accepted-by-two", never, ["ledger:4: UnknownRecord", "ledger:10: UnknownRecord", "ledger:10: UnknownRecord", *resumed(1, 1)], 5
    behind = {"ledger": text(chained([begin, *entries, end, of(3, 0)]))}
    yield "resumed-behind-an-end", behind, [resumed(1, 0)[0].replace("whole", "contradicted"), *resumed(1, 0)[1:]], 9
    bare_end = {**end, "lanes": [{key: lane[key] for key in ("lane", "entries")} for lane in end["lanes"]]}
    uncounted_end = {"ledger": text(chained([begin, of(9), *entries, bare_end]))}
    yield "resumed-without-counts", uncounted_end, [counted(0, "h1", 0, 3, "part"), f"run {name} lane 0 h1 resumed 1", counted(1, "h2", 0, 1, "part")], 7
    for what, keys in {"without-its-first-record": {"first_record": None}, "of-no-run": {"first_run": "1234"}, "with-a-key-more": {"count": 1},
                       "with-a-home-server-more": {"first_home": "h1"}, "of-a-lane-that-is-too-great": {"first_lane": 65536},
                       "of-a-record-that-is-too-great": {"first_record": 2**64}, "of-a-record-as-text": {"first_record": "0"}}.items():
        yield f"resumed-{what}", case(of(0, **keys)), ["ledger:2: NotEntry", wrong("ledger:3"), *whole], 5
    again = lambda lane=0, **keys: changed({**run.head("again"), "home": f"h{lane + 1}", "lane": lane, "answer_run": older, "answer_lane": lane,
                                            "answer_serial": 7, "count": 2}, **keys)
    yield "again-of-an-earlier-run", case(again(), again(1, answer_lane=9, answer_serial=2**63 - 1), again()), whole, 0
    yield "again-of-its-own-run", case(again(answer_run=name)), ["ledger:2: UnknownRecord", *whole], 5
    yield "again-of-an-earlier-run-and-another-lane", case(again(2)), ["ledger:2: UnknownLane", *whole], 5
    yield "again-of-an-earlier-run-and-another-home-server", case(again(home="h2")), ["ledger:2: UnknownLane", *whole], 5
    yield "again-of-an-earlier-run-behind-an-end", {"ledger": text(chained([begin, *entries, end, again(1)]))}, [
        *whole[:2], whole[2].replace("whole", "contradicted"), whole[3]], 9
    for what, keys in {"with-a-record": {"record": 0}, "without-its-serial": {"answer_serial": None}, "that-is-none": {"answer_run": "x" * 16}, "never": {"count": 0},
                       "of-a-serial-that-is-too-great": {"answer_serial": 2**63}, "of-a-lane-that-is-too-great": {"answer_lane": 65536}}.items():
        yield f"again-of-an-earlier-run-{what}", case(again(**keys)), ["ledger:2: NotEntry", wrong("ledger:3"), *whole], 5
    yield "unsent-of-an-earlier-run", case(again(type="unsent")), ["ledger:2: NotEntry", wrong("ledger:3"), *whole], 5
    for what in ("resumed", "again"):
        its = chained([begin, of(0), *entries[:2], again(), *entries[2:], end])
        place = next(at for at, line in enumerate(its) if line["type"] == what)
        yield f"{what}-left-out", {"ledger": text([*its[:place], hidden(its[place], lane=0, kind=what), *its[place + 1 :]])}, [
            *resumed(int(what == "again"), 0), f"run {name} hidden 1"], 7


def between_runs():
    """What somebody makes of two whole runs, as above."""
    lines, others = with_sums(), with_sums(NAME + 1)
    whole = [counted(0, "h1", 0, 3, "whole"), fates(3, 3, 0)]
    both, name, its = [*whole, *of_run(NAME + 1, whole)], lines[0]["run"], others[0]["run"]
    mixed = [*lines[:2], changed(others[2], run=name, time="2026-01-31T00:00:00.751Z"), *lines[3:],
             *others[:2], changed(lines[2], run=its), *others[3:]]
    second = f"ledger:6: run {its} behind another run"
    yield "entries-exchanged-between-runs", {"ledger": text(mixed)}, [
        wrong("ledger:3"), wrong("ledger:4"), second, wrong("ledger:8"), wrong("ledger:9"), *both], 5
    yield "entries-exchanged-between-runs, all sums anew", sealed({"ledger": text(mixed)}), [second, *both], 0
    moved = [*lines[:4], changed(others[2], run=name, serial=3), told(lines, entries=4)[-1]]
    its_gap = f"ledger:6: run {name} lane 0 h1 gap 3 to 3"
    yield "an-entry-moved-to-another-run", sealed({"ledger": text(moved)}), [
        "ledger:5: RecordTwice", its_gap, counted(0, "h1", 0, 3, "gap 3 to 3"), fates(3, 3, 0)], 5
    renamed = [changed(line, run=its) for line in lines]
    yield "a-run-under-another-name", {"ledger": text(renamed)}, [
        *(wrong(f"ledger:{place}") for place in (1, 2, 3, 4, 5)), *of_run(NAME + 1, whole)], 5
    yield "a-run-under-another-name, all sums anew", sealed({"ledger": text(renamed)}), of_run(NAME + 1, whole), 0
    forged = [changed(line, home="h9") if "home" in line else line for line in lines]
    forged[0] = changed(lines[0], lanes=[{**lines[0]["lanes"][0], "home": "h9"}])
    forged[1:4] = [changed(line, reply=line["sent"]) for line in forged[1:4]]
    yield "a-ledger-of-an-unknown-home-server", sealed({"ledger": text(forged)}), [counted(0, "h9", 0, 3, "part", 3), fates(3, 3, 0, 0, "h9")], 7


def named(lines, its, **keys):
    """What names the file of these lines and the sum of the last one, and what keys have in its place."""
    name = f"2026-01-31-{its[0]['run']}-{its[0]['file']:06}.jsonl"
    before = changed({"name": name, "sum": its[-1].get("sum")}, **keys)
    return chained([changed(line, **({"before": before} if line["type"] == "begin" and line["file"] == 0 else {})) for line in lines])


def runs_before():
    """Runs of which one names the last file of the one before."""
    lines, others = with_sums(), with_sums(NAME + 1)
    whole = [counted(0, "h1", 0, 3, "whole"), fates(3, 3, 0)]
    later, its = named(others, lines), of_run(NAME + 1, whole)
    name = f"2026-01-31-{NAME:016x}-000000.jsonl"
    missing = f"run {NAME + 1:016x} before {name} missing"
    both = {"a": text(lines), "b": text(later)}
    every = config(), ["--all"]
    yield "a-run-that-the-next-one-names", both, [*whole, *its], 0
    yield "a-run-that-the-next-one-names, all asked for", both, [*whole, *its], 0, *every
    yield "a-run-behind-the-one-that-names-it", {"b": text(later), "a": text(lines)}, [*its, *whole], 0, *every
    untied = f"run {NAME + 1:016x} untied"
    yield "a-run-that-names-none-behind-another-one", {"a": text(lines), "b": text(others)}, [*whole, *its], 0
    yield "a-run-that-names-none-behind-another-one, all asked for", {"a": text(lines), "b": text(others)}, [*whole, *its, untied], 10, *every
    yield "a-whole-run-left-out", {"b": text(later)}, [*its, missing], 0
    yield "a-whole-run-left-out, all asked for", {"b": text(later)}, [*its, missing], 10, *every
    yield "a-whole-run-left-out, and a line", {"b": text([*later[:2], *later[3:]])}, [
        wrong("b:3"), f"b:3: run {NAME + 1:016x} lane 0 h1 gap 1 to 1", counted(0, "h1", 0, 2, "gap 1 to 1", run=NAME + 1),
        *of_run(NAME + 1, [fates(3, 2, 0)]), missing], 5, *every
    yield "a-whole-run-left-out-before-one-that-is-open", {"b": text(later[:-1])}, [counted(0, "h1", 0, 3, "open", run=NAME + 1), missing], 10, *every
    yield "the-first-run-of-all", {"a": text(lines)}, whole, 0, *every
    cut = [counted(0, "h1", 0, 3, "open"), *its, missing]
    yield "a-run-whose-last-line-is-left-out", {"a": text(lines[:-1]), "b": text(later)}, cut, 6
    yield "a-run-whose-last-line-is-left-out, all asked for", {"a": text(lines[:-1]), "b": text(later)}, cut, 10, *every
    edited = {"a": text(chained([*lines[:2], changed(lines[2], port=lines[2]["port"] + 1), *lines[3:]])), "b": text(later)}
    yield "a-run-before-written-anew", edited, [*whole, *its, missing], 0
    yield "a-run-before-written-anew, all asked for", edited, [*whole, *its, missing], 10, *every
    for at in range(len(lines)):
        yield f"a-run-of-which-line-{at}-is-named", {"a": text(lines), "b": text(named(others, lines[: at + 1]))}, [*whole, *its], 0, *every
    beside = named(others, lines[:2])
    yield "two-runs-in-one-file", {"ledger": text([*lines[:2], *beside[:3], *lines[2:], *beside[3:]])}, [
        f"ledger:3: run {NAME + 1:016x} behind another run", *whole, *its], 0, *every
    for form, file in {"the-file": 0, "another-file": 1}.items():
        by_name = {"name": name.replace("-000000", f"-{file:06}")}
        tied = chained([changed(others[0], before=by_name), *others[1:]])
        lacks = [missing.replace("-000000", f"-{file:06}")] if file else []
        yield f"a-run-tied-by-{form}-alone", {"a": text(lines), "b": text(tied)}, [*whole, *its, *lacks], 10 if file else 0, *every
    for count in (2, 3, 4):
        files = {f"a{place}": text(file) for place, file in enumerate(in_files(*[1] * count))}
        tied = chained([changed(others[0], before={"name": name.replace("-000000", f"-{count - 1:06}")}), *others[1:]])
        yield f"a-run-tied-by-the-last-of-{count}-files-alone", files | {"b": text(tied)}, [
            counted(0, "h1", 0, count, "whole"), fates(count, count, 0), *its], 0, *every
    yield "a-run-tied-to-one-without-sums", {"a": text(bare(lines)), "b": text(named(others, bare(lines)))}, [
        whole[0].replace("whole", "part"), whole[1], *its], 7, *every
    for form, odd in {"of-no-ledger": "notes.jsonl", "without-a-number": f"{NAME:016x}.jsonl",
                      "of-a-shorter-run": f"{NAME:016x}"[1:] + "-000000.jsonl", "with-more-behind": f"{name}.gz", "of-a-run-that-is-not-there": f"{NAME - 1:016x}-000000.jsonl",
                      "of-controls": f"a\n{name}\n"}.items():
        yield f"a-name-{form}-before", {"a": text(lines), "b": text(named(others, lines, name=odd))}, [
            *whole, *its, missing.replace(name, odd.replace("\n", "%0a"))], 10, *every
    for form, odd in {"without-a-date": f"{NAME:016x}-000000.jsonl", "of-seven-digits": f"{NAME:016x}-0000000.jsonl", "behind-controls": f"a\n-{name}",
                      "behind-digits": f"a{NAME:016x}-000000.jsonl", "of-a-sign": f"{NAME:016x}-+0.jsonl", "of-another-number": f"{NAME:016x}-000001.jsonl"}.items():
        yield f"a-name-{form}-before", {"a": text(lines), "b": text(named(others, lines, name=odd))}, [*whole, *its], 0, *every
    a, b, c = in_files(2, 1, 2)
    whole = [counted(0, "h1", 0, 5, "whole"), fates(5, 5, 0)]
    for file, last in {"a": a, "b": b, "c": c}.items():
        files = {"a": text(a), "b": text(b), "c": text(c), "d": text(named(others, last))}
        yield f"a-run-of-three-files-of-which-{file}-is-named", files, [*whole, *its], 0, *every
    behind, parts = chained([changed(lines[0], file=2**32), *lines[1:]]), [counted(0, "h1", 0, 3, "part"), fates(3, 3, 0)]
    yield "a-run-whose-file-behind-32-bits-is-named", {"a": text(behind), "b": text(named(others, behind))}, [*parts, *its], 7, *every
    yield "a-sum-of-a-file-behind-32-bits", {"a": text(behind)}, parts, 7, config(), ["--sum", kept(NAME, 2**32, sum_of(behind))]
    third = named(with_sums(NAME + 2), later)
    files = {"a": text(lines), "c": text(third)}
    yield "the-middle-run-left-out", files, [
        *[counted(0, "h1", 0, 3, "whole"), fates(3, 3, 0)], *of_run(NAME + 2, [counted(0, "h1", 0, 3, "whole"), fates(3, 3, 0)]),
        f"run {NAME + 2:016x} before {name.replace(f'{NAME:016x}', f'{NAME + 1:016x}')} missing"], 10, *every


def with_sums(name=NAME):
    """The lines of a run of three entries, with its sums."""
    run = Run(name, [Lane(0, "h1", HOME)])
    return chained([*lines_of(run, 3, False), run.end_of_all()])


def in_files(*counts):
    """The files of a run with so many entries in each, with its sums."""
    run, lines, files = one(), [], []
    for count in counts:
        lines.append([run.begin(), *(run.entry() for _ in range(count))])
    lines[-1].append(run.end_of_all())
    all_lines = chained([line for file in lines for line in file])
    for file in lines:
        files.append(all_lines[: len(file)])
        del all_lines[: len(file)]
    return files


def without_sums():
    """Runs without sums, which are a part at most."""
    lines, part = lines_of(one(), 3), [counted(0, "h1", 0, 3, "part")]
    files = {"ledger": text(lines)}
    yield "without-sums", files, part, 7
    yield "without-sums, as asked", files, part, 0, config(), ["--partial"]
    yield "without-sums, and another word", files, part, 7, config(), ["--from"]
    yield "without-sums-and-open", {"ledger": text(lines[:-1])}, [counted(0, "h1", 0, 3, "open")], 7
    yield "without-sums-and-open, as asked", {"ledger": text(lines[:-1])}, [counted(0, "h1", 0, 3, "open")], 6, config(), ["--partial"]
    gap = [f"ledger:3: run {NAME:016x} lane 0 h1 gap 1 to 1", counted(0, "h1", 0, 2, "gap 1 to 1")]
    yield "without-sums-and-not-all", {"ledger": text([*lines[:2], *lines[3:]])}, gap, 3
    run = one()
    yield "without-sums-and-unaccounted", {"ledger": text(told([*lines_of(run, 2, False), run.end_of_all()], accepted=3))}, [
        counted(0, "h1", 0, 2, "unaccounted"), fates(3, 2, 0)], 3
    yield "a-run-with-sums-and-one-without", {"a": text(with_sums()), "b": text(lines_of(Run(NAME + 1, [Lane(0, "h1", HOME)]), 1))}, [
        counted(0, "h1", 0, 3, "whole"), fates(3, 3, 0), counted(0, "h1", 0, 1, "part", run=NAME + 1)], 7


def chains():
    """Runs with sums, as above; behind these the words that name sums that somebody kept."""
    lines, whole = with_sums(), [counted(0, "h1", 0, 3, "whole"), fates(3, 3, 0)]
    changed_at = lambda at, **keys: {"ledger": text([*lines[:at], changed(lines[at], **keys), *lines[at + 1 :]])}
    yield "sums", {"ledger": text(lines)}, whole, 0
    yield "sums-in-capitals", {"ledger": text(chained([changed(line, run=line["run"].upper()) for line in lines]))}, whole, 0
    yield "a-begin-of-another-sum", {"ledger": text(chained(lines, bytes(31) + b"\1"))}, [wrong("ledger:1"), *whole], 5
    yield "a-begin-of-another-sum-alone", changed_at(0, sum="1" * 64), [wrong("ledger:1"), wrong("ledger:2"), *whole], 5
    yield "a-begin-without-its-sum", changed_at(0, sum=None), [whole[0].replace("whole", "part"), whole[1]], 7
    yield "an-end-of-another-sum", changed_at(4, sum="1" * 64), [wrong("ledger:5"), *whole], 5
    yield "an-end-without-its-sum", changed_at(4, sum=None), [wrong("ledger:5"), *whole], 5
    for name, value in {"a-short-sum": "1" * 62, "a-sum-that-is-no-digits": "g" * 64, "a-sum-that-is-a-number": 1}.items():
        yield name, changed_at(4, sum=value), ["ledger:5: NotEntry", counted(0, "h1", 0, 3, "open")], 5

    gap = f"ledger:4: run {NAME:016x} lane 0 h1 gap 1 to 1"
    left_out = [gap, counted(0, "h1", 0, 2, "gap 1 to 1"), fates(3, 2, 0), f"run {NAME:016x} hidden 1"]
    hides = lambda line: {"ledger": text([*lines[:2], line, *lines[3:]])}
    yield "a-line-left-out", hides(hidden(lines[2])), left_out, 3
    later = with_sums(NAME + 1)
    both = {"ledger": text([lines[0], later[0], lines[1], hidden(lines[2]), lines[3], *later[1:], lines[4]])}
    yield "a-line-left-out-of-the-run-before-the-newest", both, [
        f"ledger:2: run {NAME + 1:016x} behind another run", gap.replace(":4:", ":5:"), *left_out[1:], *of_run(NAME + 1, [counted(0, "h1", 0, 3, "whole"), fates(3, 3, 0)])], 3
    yield "a-line-left-out-in-capitals", hides({"sum": hidden(lines[2])["sum"].upper(), "type": "hidden"}), left_out, 3
    yield "another-line-left-out", hides(hidden(lines[1])), [wrong("ledger:4"), gap, *left_out[1:]], 5
    yield "a-line-taken-out", {"ledger": text([*lines[:2], *lines[3:]])}, [
        wrong("ledger:3"), gap.replace(":4:", ":3:"), *left_out[1:3]], 5
    yield "a-line-left-out-of-no-run", {"ledger": text([hidden(lines[2]), *lines])}, ["ledger:1: UnknownLane", *whole], 5
    for name, line in {"of-a-run": {**hidden(lines[2]), "run": lines[2]["run"]}, "without-a-sum": {"type": "hidden"},
                       "of-a-short-sum": {"type": "hidden", "sum": "1" * 62}}.items():
        yield f"a-line-left-out-{name}", hides(line), ["ledger:3: NotEntry", wrong("ledger:4"), gap, *left_out[1:3]], 5
    run = two()
    its = chained([run.begin(), *(run.entry(place) for place in (0, 1, 0, 1, 1)), run.end_of_all()])
    handed = [hidden(line) if line.get("home") == "h2" else line for line in its]
    yield "the-lines-of-a-home-server-left-out", {"ledger": text(handed)}, [
        f"ledger:7: run {NAME:016x} lane 1 h2 gap 0 to 2", counted(0, "h1", 0, 2, "whole"), fates(2, 2, 0),
        counted(1, "h2", 0, 0, "gap 0 to 2"), fates(3, 0, 0, 1, "h2"), f"run {NAME:016x} hidden 3"], 3
    yield "all-left-out", {"ledger": text([lines[0], *map(hidden, lines[1:])])}, [counted(0, "h1", 0, 0, "open"), f"run {NAME:016x} hidden 4"], 7
    more = {"ledger": text(chained([*lines[:2], hidden(lines[2]), *lines[2:]]))}
    yield "a-line-more-that-is-left-out", more, [*whole, f"run {NAME:016x} hidden 1"], 7
    yield "a-line-more-that-is-left-out, as asked", more, [*whole, f"run {NAME:016x} hidden 1"], 0, ["--partial"]
    yield "a-line-more-that-is-left-out, and another word", more, [*whole, f"run {NAME:016x} hidden 1"], 7, ["--from"]

    a, b, c = in_files(2, 1, 2)
    whole = [counted(0, "h1", 0, 5, "whole"), fates(5, 5, 0)]
    yield "three-files", {"a": text(a), "b": text(b), "c": text(c)}, whole, 0
    yield "three-files-in-one", {"ledger": text([*a, *b, *c])}, whole, 0
    yield "a-line-of-the-first-file-edited", {"a": text([a[0], changed(a[1], port=7), a[2]]), "b": text(b), "c": text(c)}, [wrong("a:2"), *whole], 5
    part = [counted(0, "h1", 0, 5, "part"), fates(5, 5, 0)]
    yield "the-second-file-without-sums", {"a": text(a), "b": text([changed(b[0], sum=None), b[1]]), "c": text(c)}, [wrong("b:1"), *part], 5
    bare = [changed(line, sum=None) for line in (a[0], b[0], c[0], c[3])]
    yield "no-sums-in-any-file", {"a": text([bare[0], *a[1:]]), "b": text([bare[1], *b[1:]]), "c": text([bare[2], *c[1:3], bare[3]])}, part, 7
    yield "sums-from-the-second-file-on", {"a": text([bare[0], *a[1:]]), "b": text(b), "c": text(c)}, part, 7
    missing = [f"c:1: run {NAME:016x} files 1 to 1 missing", f"c:2: run {NAME:016x} lane 0 h1 gap 2 to 2"]
    yield "a-file-missing", {"a": text(a), "c": text(c)}, [*missing, counted(0, "h1", 0, 4, "gap 2 to 2"), fates(5, 4, 0)], 8
    later = [counted(0, "h1", 2, 3, "part"), fates(5, 3, 0)]
    yield "from-the-second-file-on", {"b": text(b), "c": text(c)}, later, 7
    yield "from-the-second-file-on, as asked", {"b": text(b), "c": text(c)}, later, 0, ["--from"]
    late = {"a": text(a), "c": text([changed(c[0], file=9, sum=c[0]["sum"]), *c[1:]])}
    yield "files-missing-and-a-begin-edited", late, [
        f"c:1: run {NAME:016x} files 1 to 8 missing", missing[1], counted(0, "h1", 0, 4, "gap 2 to 2"), fates(5, 4, 0)], 8
    skipped = {"a": text(a), "b": text([changed(b[0], file=0, sum="1" * 64), *b[1:]]), "c": text([changed(c[0], file=3), *c[1:]])}
    yield "a-file-too-late-and-files-missing", skipped, [
        "b:1: FileAgain", wrong("b:2"), f"c:1: run {NAME:016x} files 1 to 2 missing", *whole], 5
    yield "the-first-file-twice", {"a": text(a), "b": text(a), "c": text(b), "d": text(c)}, [
        "b:1: FileAgain", "b:2: SerialNotAbove", "b:3: SerialNotAbove", *whole], 5
    yield "files-in-another-order", {"a": text(b), "b": text(a), "c": text(c)}, [
        "b:1: FileAgain", "b:2: SerialNotAbove", "b:3: SerialNotAbove", *later], 5
    yield "a-begin-of-a-file-put-in", {"a": text(a), "b": text([b[0], b[1], changed(b[0], sum="1" * 64)]), "c": text(c)}, ["b:3: FileAgain", wrong("c:1"), *whole], 5
    cut = text(b[1:2])[:99]
    yield "torn-and-written-again-with-sums", {"a": text(a) + cut, "b": text([b[0], cut, *b[1:]]), "c": text(c)}, ["a:4: torn", "b:2: torn", *whole], 0

    file_before = "2026-01-30-0123456789abcdef-000003.jsonl"
    before = {"name": file_before, "sum": "ab" * 32}
    names = lambda its: {"ledger": text(chained([changed(lines[0], before=its), *lines[1:]]))}
    whole = [counted(0, "h1", 0, 3, "whole"), fates(3, 3, 0)]
    yield "a-file-of-before", names(before), [*whole, f"run {NAME:016x} before {file_before} missing"], 0
    for name, its in {"without-its-name": changed(before, name=None), "of-a-short-sum": changed(before, sum="ab"), "of-a-sum-that-is-a-number": changed(before, sum=1),
                      "with-a-key-more": {**before, "run": "x"}, "that-is-a-text": "x"}.items():
        yield f"a-file-of-before-{name}", names(its), [
            "ledger:1: NotEntry", *(f"ledger:{place}: UnknownLane" for place in (2, 3, 4, 5))], 5

    earlier = {"name": file_before, "octets": 7, "sha256": "ab" * 32}
    for name, its in {"of-an-earlier-version": earlier, "of-an-earlier-version-and-any-octets": {**earlier, "octets": "x"}}.items():
        yield f"a-file-of-before-{name}", names(its), [*whole, f"run {NAME:016x} before {file_before} missing"], 0

    places = {"before-all": (0, []), "behind-its-first-line": (0, a[:1]), "within-a-file": (0, a[:2]), "behind-a-file": (0, a), "before-a-file": (1, a),
              "within-another-file": (1, [*a, *b[:1]]), "behind-all": (2, [*a, *b, *c])}
    whole = [counted(0, "h1", 0, 5, "whole"), fates(5, 5, 0)]
    files = {"a": text(a), "b": text(b), "c": text(c)}
    words = [kept(NAME, file, sum_of(its)) for file, its in places.values()]
    for name, word in zip(places, words):
        yield f"a-sum-{name}", files, whole, 0, ["--sum", word]
    yield "all-these-sums", files, whole, 0, [it for word in words for it in ("--sum", word)]
    strange = {"of-another-file": kept(NAME, 1, bytes(32)), "of-a-file-that-is-not-there": kept(NAME, 3, sum_of([*a, *b, *c])),
               "of-a-run-that-is-not-there": kept(NAME + 1, 0, bytes(32)), "of-no-place": kept(NAME, 0, b"\1" * 32), "of-the-file-before": kept(NAME, 0, sum_of([*a, *b]))}
    for name, word in strange.items():
        yield f"a-sum-{name}", files, [*whole, wrong(word)], 5, ["--sum", word]
    both = ["--sum", words[0], "--sum", strange["of-no-place"], "--sum", strange["of-another-file"]]
    yield "sums-that-fit-and-that-do-not", files, [*whole, wrong(both[3]), wrong(both[5])], 5, both
    yield "a-sum-of-a-run-without-sums", {"ledger": text(lines_of(one(), 2))}, [counted(0, "h1", 0, 2, "part"), wrong(words[0])], 5, ["--sum", words[0]]


def written_cases():
    """All cases: name, files, what is printed, status, configuration, and the words before it."""
    for name, files, lines, status, *rest in [
            *((name, *case) for name, case in {**REASONS, **LEFT_REASONS}.items()), *runs(), *exchanged_cases.unjudged()]:
        yield name, sealed(counting(files)), with_fates(files, lines), status, *rest, *(config(), [])[len(rest) :]
    for name, files, lines, status, *rest in accounts():
        yield name, sealed(files), lines, status, *rest, *(config(), [])[len(rest) :]
    for name, files, lines, status, *words in chains():
        yield name, files, lines, status, config(), words[0] if words else []
    for name, files, lines, status, *rest in [
            *tampered(), *spoiled_sums(), *left_out(), *counts_of_responses(), *earlier_runs(), *between_runs(), *exchanged_cases.between_runs(), *runs_before(), *without_sums(), *uncounted()]:
        yield name, files, lines, status, *rest, *(config(), [])[len(rest) :]


def all_cases():
    """All cases, with the reasons of each part."""
    for name, files, lines, *rest in written_cases():
        yield name, files, list(with_reasons(files, lines)), *rest
