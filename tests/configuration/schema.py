"""Holds the JSON schema of the configuration, packaging/rad_proxy.schema.json, against each configuration of tests/ and examples/.

usage: python3 -m tests.configuration.schema --check

The schema has to take a text where `check` has no fault and no unread key to tell, and to refuse each other one, except for what a schema
can't say (CANNOT_SAY). It wants Debian's python3-jsonschema, and says so where it is not there. The last line is `N passed, M failed`.
"""
import json
import re
import sys
import tomllib

from tests.lib import TOP, conclude
from tests.lib.configurations import CLIENT, HOME, LISTEN, REALM
from tests.lib.rows import ROWS, Row
from tests.lib.tables import first_faults, warnings

SCHEMA = TOP / "packaging" / "rad_proxy.schema.json"
# The faults that a schema has no words for: what is there twice, and what is named and not there.
CANNOT_SAY = {"DoubleName", "UnknownHome"}
# The keys whose lengths the program counts in octets, and a schema in characters; a number 64.0 is whole for a schema.
IN_OCTETS = re.compile("OutOfRange at .* (secret|name)")
WHOLE_FLOAT = re.compile(r"= -?\d+\.0\b")


def rows_of_tables():
    """The texts of the other tests of configurations, each with its first fault, or none."""
    for module in (first_faults, warnings):
        for table in module.TABLES:
            for place, (what, octets, *rest) in enumerate(table()):
                yield f"{table.__name__}, row {place}, {what}", octets, rest[0] if rest else None


def rows_of_conversations():
    """The configurations of tests/rows, by what is wanted of them."""
    for file in sorted(ROWS.rglob("*.row")):
        row = Row(str(file.relative_to(ROWS).with_suffix("")))
        text = row.streams["<"]
        if "FILE" not in row.words:
            text = re.split(rb"^%%$", text, maxsplit=1, flags=re.MULTILINE)[0]
        fault = re.search(rb"^configuration: (.*)$", row.streams["!"], re.MULTILINE)
        if fault and fault[1] != b"Toml" or row.status in (0, 3):
            yield str(file.relative_to(TOP)), text, fault and fault[1].decode()


def files():
    """The configurations that are files, none of which has a fault."""
    for file in sorted([*TOP.glob("examples/**/*.toml"), *TOP.glob("tests/**/*.toml")]):
        yield str(file.relative_to(TOP)), file.read_bytes(), None


# A configuration without a fault, and values of its keys, each of which alone makes it one that is refused.
WHOLE = LISTEN + CLIENT + HOME + REALM
NUMBERS = tuple(key for key, value in tomllib.loads(warnings.ALL)["home"][0].items() if isinstance(value, int))
WRONG = {
    "top": {"client": [None, 1, [], [1]], "home": [None, 1, [], [1]], "realm": [1, [1]], "other": [1]},
    "client": {"address": [1], "other": [1]},
    "home": {"name": [1], "address": [1], "other": [1], **{key: ["1", True, -1] for key in NUMBERS}},
    "realm": {"name": [1, "", "a@b"], "other": [1]},
}
# How many requests may be outstanding for so many ports.
WINDOWS = {1: 254, 2: 510, 3: 766, 4: 1022}


def changed():
    """Documents that are the whole one but for one value, and whether each has no fault and no unread key."""
    for part, keys in WRONG.items():
        for key, values in keys.items():
            for value in values:
                doc = tomllib.loads(WHOLE)
                table = doc if part == "top" else doc[part][0]
                table[key] = value
                if value is None:
                    del table[key]
                yield f"{part} {key} = {value!r}", doc, False
    for ports, window in WINDOWS.items():
        for more in (0, 1):
            doc = tomllib.loads(WHOLE)
            doc["home"][0] |= {"ports": ports, "window": window + more}
            yield f"window {window + more} of {ports} ports", doc, not more


def has_unread(doc):
    """Whether a document has a key that is not read, by the text of the warnings that has each key."""
    known = tomllib.loads(warnings.ALL)
    tables = [(table, known[part][0]) for part in ("client", "home", "realm") for table in doc.get(part, ())]
    return any(key not in keys for table, keys in ((doc, known), *tables) for key in table)


def document(octets):
    """The document of a text, or None where it is not TOML."""
    try:
        return tomllib.loads(octets.decode("utf-8-sig"))
    except (UnicodeDecodeError, tomllib.TOMLDecodeError):
        return None


def can_say(octets, fault):
    """Whether a schema can tell this fault of a text."""
    if fault is None:
        return True
    text = octets.decode("utf-8", "replace")
    of_octets = IN_OCTETS.match(fault) and not text.isascii()
    of_float = fault.startswith("WrongType") and WHOLE_FLOAT.search(text)
    return not (fault.split(" ")[0] in CANNOT_SAY or of_octets or of_float)


def main():
    if sys.argv[1:] != ["--check"]:
        sys.exit(__doc__)
    try:
        import jsonschema
    except ImportError:
        print("left out: there is no python3-jsonschema (Debian has it in the package python3-jsonschema)")
        conclude(0, 0)
        return
    schema = json.loads(SCHEMA.read_text("utf-8"))
    kind = jsonschema.validators.validator_for(schema)
    kind.check_schema(schema)
    validator = kind(schema)
    cases, left = list(changed()), 0
    for name, octets, fault in (*rows_of_tables(), *rows_of_conversations(), *files()):
        doc = document(octets)
        if doc is None or not can_say(octets, fault):
            left += 1
        else:
            cases.append((name, doc, fault is None and not has_unread(doc)))
    wrong = [(name, wanted) for name, doc, wanted in cases if validator.is_valid(doc) != wanted]
    for name, wanted in wrong:
        print(f"{name}: the schema {'refuses' if wanted else 'takes'} it")
    print(f"{left} texts are left out, which are not TOML or have a fault that a schema can't say")
    conclude(len(cases) - len(wrong), len(wrong))


if __name__ == "__main__":
    main()
