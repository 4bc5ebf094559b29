"""The text of a configuration with what is wrong in it replaced by stand-ins, so that the program reads the rest of it.

A line keeps its number in the file. What stands in is remembered by its table and key, so that nothing is told of it.
"""
import re

PARTS = ("client", "home", "realm")
HEADER = re.compile(r"\s*\[\[\s*(client|home|realm)\s*\]\]\s*(#.*)?")
ONE_BRACKET = re.compile(r"(\s*)\[\s*(client|home|realm)\s*\]\s*(#.*)?")
BROKEN_HEADER = re.compile(r"\s*\[+\s*\"?(client|home|realm)s?\"?\s*\]*\s*(#.*)?")
KEY = re.compile(r"""\s*["']?([A-Za-z0-9_-]+)["']?\s*(=?)""")
NAME = re.compile(r"""\s*["']?name["']?\s*=\s*["']([A-Za-z0-9._-]{1,64})["']\s*(?:#.*)?""")
MULTILINE = re.compile(r'"""|\'\'\'')
FAULT = re.compile(r"(\w+) at (?:(top) |(client|home|realm) (\d+) )(\w+)(?: at line (\d+), column \d+)?")
STAND_IN = "stand-in"
# A stand-in of each text, whose number makes it another one than all others: addresses that are for nobody, or for documents.
TEXTS = {
    ("top", "listen"): "192.0.2.254:9", ("client", "address"): "240.0.{}.{}", ("client", "secret"): "a stand-in of a secret",
    ("home", "name"): "stand-in-{}-{}", ("home", "address"): "198.18.{}.{}:9", ("home", "secret"): "a stand-in of a secret",
    ("realm", "name"): "stand-in-{}-{}.invalid",
}
TABLES = {"client": ("address", "secret"), "home": ("name", "address", "secret"), "realm": ("name", "home")}


def with_stand_in(part, key, number):
    """A line that gives a key a stand-in."""
    return f'{key} = "{TEXTS[part, key].format(number // 256, number % 256)}"'


def is_whole(line):
    """Whether an array or table that begins in a line ends there too."""
    return line.count("[") == line.count("]") and line.count("{") == line.count("}")


def has_end(line):
    """Whether a text of several lines begins or ends in a line."""
    return len(MULTILINE.findall(line)) % 2 == 1


class Text:
    """The lines of a configuration, each with its number in the file, from 1 on."""

    def __init__(self, octets):
        text = octets.decode("utf-8", "replace").removeprefix("\ufeff")
        self.lines = [[number, line.removesuffix("\r")] for number, line in enumerate(text.split("\n"), 1)]
        # The tables and keys that have a stand-in; whether a name of a home server does; and whether what stands behind was left out.
        self.replaced, self.has_other_names, self.is_cut, self.is_unsure = set(), False, False, False
        self.count = 0

    def octets(self):
        return "\n".join(line for _, line in self.lines).encode()

    def number_of(self, line):
        """The number in the file of a line that the program counts from 1."""
        return self.lines[min(line, len(self.lines)) - 1][0]

    def at_its_place(self, told):
        """What the program tells, with the lines of the file in place of those of this text."""
        return re.sub(r"\bline (\d+)\b", lambda found: f"line {self.number_of(int(found[1]))}", told)

    def starts(self):
        """Each place in the lines where a header or a key may stand: not within a text of several lines."""
        is_within = False
        for at, (_, line) in enumerate(self.lines):
            if not is_within:
                yield at
            if has_end(line):
                is_within = not is_within

    def one_brackets(self):
        """Gives the headers of one bracket, each with its line and column, two brackets, as tables of an array have."""
        for at in list(self.starts()):
            number, line = self.lines[at]
            if found := ONE_BRACKET.fullmatch(line):
                self.lines[at][1] = f"{found[1]}[[{found[2]}]]"
                yield number, len(found[1]) + 1, found[2]

    def keys(self):
        """Each header and key: its place in the lines, its table's part and index, and the key, or none of a header."""
        part, index, counts = "top", 0, dict.fromkeys(PARTS, 0)
        for at in self.starts():
            line = self.lines[at][1]
            if found := HEADER.fullmatch(line):
                part, index = found[1], counts[found[1]]
                counts[part] += 1
                yield at, part, index, None
            elif line.lstrip().startswith("["):
                part = None
            elif part and (found := KEY.match(line)):
                yield at, part, index, found[1]

    def places(self):
        """The line and column of each header and key, by part, index and key; a header's key is None."""
        found = {}
        for at, part, index, key in self.keys():
            number, line = self.lines[at]
            found.setdefault((part, index, key), (number, 1 + len(line) - len(line.lstrip())))
        return found

    def table_at(self, at):
        """The part and index of the table that a line stands in."""
        return next(((part, index) for place, part, index, _ in reversed(list(self.keys())) if place <= at), ("top", 0))

    def put(self, at, part, index, key):
        """Gives a key a stand-in, in place of its line, or none where it need not be there."""
        self.replaced.add((part, index, key))
        self.has_other_names |= (part, key) == ("home", "name")
        self.is_unsure |= (part, key) in (("home", "name"), ("realm", "home"), ("top", "default_home"), ("top", "other_home"))
        self.count += 1
        if key == "home":
            self.lines[at][1] = f'home = "{self.some_home()}"'
        elif (part, key) in TEXTS:
            self.lines[at][1] = with_stand_in(part, key, self.count)
        else:
            self.lines[at][1] = ""

    def some_home(self):
        """The name of a home server, of which there may be as many as there may be; of one that is added where there is none."""
        for at, part, _, key in self.keys():
            if (part, key) == ("home", "name") and (found := NAME.fullmatch(self.lines[at][1])):
                return found[1]
        self.add_home()
        return STAND_IN

    def add_home(self):
        """Adds the home server that stands in."""
        if ("home", STAND_IN, None) not in self.replaced:
            self.replaced.add(("home", STAND_IN, None))
            last = self.lines[-1][0]
            self.lines += [[last, it] for it in ("", "[[home]]", f'name = "{STAND_IN}"', 'address = "198.18.255.255:9"',
                                                 'secret = "a stand-in of a secret"')]

    def add_table(self, part):
        """Adds a table of a part that has none."""
        if part == "home":
            return self.add_home()
        self.replaced.add((part, 0, None))
        self.count += 1
        last = self.lines[-1][0]
        self.lines += [[last, it] for it in ("", f"[[{part}]]", *(with_stand_in(part, key, self.count) for key in TABLES[part]))]

    def mend(self, told):
        """Mends what the reason of a fault tells of. Answers whether it could."""
        found = FAULT.match(told)
        if not found or found[1] == "TooMany":
            return False
        fault, part, index, key = found[1], found[2] or found[3], int(found[4] or 0), found[5]
        at = int(found[6]) - 1 if found[6] else None
        if part == "top" and key in PARTS:
            if at is not None:
                self.lines[at][1] = ""
            self.is_unsure = True
            self.add_table(key)
        elif fault == "Missing":
            return self.add(part, index, key, at)
        else:
            name = KEY.match(self.lines[at][1]) if at is not None and is_whole(self.lines[at][1]) else None
            if not name or name[1] != key:
                return False
            self.empty_behind(at)
            self.put(at, part, index, key)
        return True

    def empty_behind(self, at):
        """Empties the lines behind this one that its text goes on in."""
        if has_end(self.lines[at][1]):
            last = next((place for place in range(at + 1, len(self.lines)) if has_end(self.lines[place][1])), at)
            for line in self.lines[at + 1:last + 1]:
                line[1] = ""

    def add(self, part, index, key, at):
        """Adds a key that is missing below its table's header, or at the top."""
        if part == "top":
            self.lines.insert(0, [1, ""])
            self.put(0, part, index, key)
            return True
        if at is None or not HEADER.fullmatch(self.lines[at][1]):
            return False
        self.lines.insert(at + 1, [self.lines[at][0], ""])
        self.put(at + 1, part, index, key)
        return True

    def mend_line(self, line, message):
        """Mends a line that is not TOML. Answers whether it could: not beyond the last one, nor within a text or an array of lines."""
        at = line - 1
        if not 0 <= at < len(self.lines) or at not in set(self.starts()) or not self.lines[at][1].strip():
            return False
        text = self.lines[at][1]
        if found := BROKEN_HEADER.fullmatch(text):
            self.lines[at][1] = f"[[{found[1]}]]"
            return self.lines[at][1] != text
        found, (part, index) = KEY.match(text), self.table_at(at)
        if found and message != "duplicate key" and (found[1] in TABLES.get(part, ()) or part == "top" and found[1] == "listen"):
            before = self.lines[at][1]
            self.put(at, part, index, found[1])
            return self.lines[at][1] != before
        if found or text.lstrip().startswith(("[", "=")) or message.startswith("invalid key"):
            self.lines[at][1] = ""
            return True
        return False

    def cut(self, line, is_toml):
        """Leaves out what stands from some line up to this one on, so that what is left is TOML."""
        whole, fits, fails = self.lines, 0, min(line, len(self.lines))
        while fails - fits > 1:
            half = (fits + fails) // 2
            self.lines = whole[:half]
            fits, fails = (half, fails) if is_toml(self.octets()) else (fits, half)
        self.lines, self.is_cut = whole[:fits] or [[1, ""]], True

    def follows(self, reason):
        """Whether what a reason tells may be for the stand-ins alone, or for what was left out."""
        found = FAULT.match(reason)
        if found:
            part, index, key = found[2] or found[3], int(found[4] or 0), found[5]
            missing = found[1] == "Missing" and (self.is_cut or (part, index, key) in self.replaced)
            return missing or found[1] == "UnknownHome" and (self.is_cut or self.has_other_names)
        return self.is_replaced(reason)

    def is_replaced(self, reason):
        """Whether a doubt is about a stand-in, or may be for one."""
        if reason.startswith(("top realm: no realm", f"home {STAND_IN}")) or "lead to it" in reason:
            return self.is_unsure or self.is_cut
        found = re.match(r"(client|home|realm) (\d+) (\w+)", reason)
        return bool(found) and (found[1], int(found[2]), found[3]) in self.replaced
