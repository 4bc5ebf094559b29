"""How FreeRADIUS 3 writes its configuration: sections, pairs, templates, variables and included files."""
import dataclasses
import os
import re

from .reading import Fault, Place, shown

# FreeRADIUS refuses longer lines and values.
LINE = 8190
VALUE = 8191

# So deep sections are nested at most.
DEPTH = 64

# So many sections and pairs are read at most, those of templates included.
ITEMS = 200_000

# Operators and brackets, in the order in which they are looked for.
TOKENS = [b"=~", b"!~", b"{", b"}", b"(", b")", b",", b"++", b"+=", b"-=", b":=", b"=*", b"!*", b"==", b"^=", b"=", b"!=", b">=",
          b">", b"<=", b"<", b"#", b";"]
TOKEN = re.compile(b"|".join(re.escape(token) for token in TOKENS))
ASSIGNMENTS = {b"=", b":=", b"^="}
UPDATES = {b"++", b"+=", b"-=", b"==", b"<=", b">=", b"!*"}
SPACES = b" \t\r\n\v\f"
BARE = re.compile(rb"[^ \t\r\n\v\f,]*")
STOPPED = re.compile(rb"(?:(?!" + TOKEN.pattern + rb")[^ \t\r\n\v\f,])*")

# What is included within these is not read: modules and policies are not carried over.
UNREAD = {b"modules", b"policy"}


@dataclasses.dataclass
class Pair:
    """A name and its value, which is None where none is written. `why` says why a value is not known."""

    name: bytes
    value: bytes | None
    place: Place
    why: str | None = None


class Section:
    """A section: its kind, its name, which may be empty, and the pairs and sections in it."""

    def __init__(self, kind, name, place, parent):
        self.kind = kind
        self.name = name or b""
        self.place = place
        self.parent = parent
        self.items = []
        self.named = {Pair: {}, Section: {}}
        self.template = None
        self.depth = parent.depth + 1 if parent else 0

    def add(self, item):
        """Adds a pair or a section at the end."""
        self.items.append(item)
        name = item.kind if isinstance(item, Section) else item.name
        self.named[type(item)].setdefault(name, []).append(item)

    def sections(self, kind):
        """The sections of a kind."""
        return self.named[Section].get(kind, [])

    def pairs(self, name):
        """The pairs of a name."""
        return self.named[Pair].get(name, [])

    def pair(self, *names):
        """The first pair of the first of these names that has one."""
        return next((pair for name in names for pair in self.pairs(name)), None)

    def section(self, kind, name=None):
        """The first section of a kind, and of a name if one is given."""
        return next((one for one in self.sections(kind) if name is None or one.name == name), None)


def word_of(text, place, stops=True, unescape=False):
    """The next word of a text: its kind, its octets and the text behind it.

    The kind is `end`, the token itself, the quotation mark, or `word`. With `stops`, a token ends a word.
    """
    text = text.lstrip(SPACES)
    if not text:
        return "end", b"", text
    token = TOKEN.match(text) if stops else None
    if token:
        return token[0].decode(), token[0], text[token.end():].lstrip(SPACES)
    if text[:1] in (b"'", b'"', b"`"):
        word, rest = _quoted(text, place, unescape)
        return text[:1].decode(), word, rest.lstrip(SPACES)
    length = (STOPPED if stops else BARE).match(text).end()
    return "word", text[:length], text[length:].lstrip(SPACES)


def _quoted(text, place, unescape):
    """The octets between quotation marks, and the text behind them. A `\\` before the mark stands for the mark alone."""
    mark, made, index = text[0], bytearray(), 1
    while index < len(text):
        octet = text[index]
        if octet == mark:
            return bytes(made), text[index + 1:]
        if octet != ord("\\"):
            made.append(octet)
            index += 1
            continue
        if index + 1 == len(text):
            break
        index += 1
        if unescape:
            index = _unescape(text, index, made)
            continue
        if text[index] != mark:
            made.append(octet)
        made.append(text[index])
        index += 1
    raise Fault(f"{place}: a quotation mark has no partner")


def _unescape(text, index, made):
    """Adds the octet that is escaped at an index. The result is the index behind it."""
    found = re.compile(rb"[0-7]{1,3}").match(text, index)
    if found:
        made.append(int(found[0], 8) & 0xFF)
        return index + 3
    made.append({ord("r"): 13, ord("n"): 10, ord("t"): 9}.get(text[index], text[index]))
    return index + 1


def _bare_value(text):
    """A value without quotation marks, which may have tokens, and the text behind it."""
    found = re.match(rb"[^\x00-\x20,]*", text)
    return found[0], text[found.end():]


class Reader:
    """Reads a configuration into one section."""

    def __init__(self, library):
        self.library = library
        self.root = Section(b"main", None, None, None)
        self.files = set()
        self.items = 0

    def read(self, path):
        """Reads a file and those that it includes. The folder of the file is `confdir`."""
        self.root.place = Place(path, 1)
        self.root.add(Pair(b"confdir", os.path.dirname(path) or b".", self.root.place))
        self.read_into(path, self.root)

    def read_into(self, path, current, asked=None):
        """Reads a file into a section."""
        self.files.add(os.path.realpath(path))
        with self.library.reading(path, asked) as lines:
            self._read(path, lines, current)

    def _read(self, path, lines, current):
        inner, joined, begun, strips, number = current, b"", 0, False, 1
        for number, line in enumerate(lines, 1):
            if not begun and (not line.strip(SPACES) or line.lstrip(SPACES).startswith(b"#")):
                continue
            begun = begun or number
            place = Place(path, begun)
            joined += (line.lstrip(SPACES) if strips else line).rstrip(b"\r\n")
            if len(joined) > LINE:
                raise Fault(f"{place}: a line of more than {LINE} octets, which FreeRADIUS refuses")
            if joined.endswith(b"\\"):
                strips = strips or joined.endswith(b'"\\')
                joined = joined[:-1]
                continue
            inner = self._line(joined, place, inner, current)
            joined, begun, strips = b"", 0, False
        if begun:
            raise Fault(f"{Place(path, begun)}: the file ends in a continued line")
        if inner is not current:
            raise Fault(f"{Place(path, number)}: the file ends within the section of line {inner.place.line}")

    def _line(self, line, place, inner, outer):
        """Takes a line in a section. The result is the section of the next line."""
        rest = line.lstrip(SPACES)
        while rest and not rest.startswith(b"#"):
            inner, rest = self._one(rest, place, inner, outer)
            rest = rest.lstrip(SPACES)
        return inner

    def _one(self, text, place, inner, outer):
        """Takes one pair, or the beginning or the end of a section."""
        if text.startswith(b"%{"):
            return inner, b""
        kind, name, rest = word_of(text, place, unescape=True)
        if kind == "}":
            return self._end(place, inner, outer), rest
        if kind == "word":
            low = name.lower()
            if low in (b"$include", b"$-include"):
                self._include(rest, place, inner, low == b"$-include")
                return inner, b""
            if low == b"$template":
                self._template(rest, place, inner)
                return inner, b""
            if name in (b"if", b"elsif"):
                return self._condition(name, rest, place, inner)
        return self._pair_or_section(name, rest, place, inner)

    def _end(self, place, inner, outer):
        if inner is outer:
            raise Fault(f"{place}: }} without a section")
        if inner.template:
            template, inner.template = inner.template, None
            self._merge(inner, template)
        return inner.parent

    def _pair_or_section(self, name, rest, place, inner):
        kind, second, after = word_of(rest, place)
        if kind in ("end", "#", ","):
            self._add(inner, Pair(name, None, place))
            return inner, after if kind == "," else b""
        if second in ASSIGNMENTS and kind not in ("word", '"', "'", "`") or kind.encode() in UPDATES:
            return inner, self._value(name, after, place, inner)
        if kind == "{":
            return self._begin(name, None, place, inner), after
        if kind in ("word", '"', "'"):
            brace, _, behind = word_of(after, place)
            if brace in ('"', "'"):
                brace, _, behind = word_of(behind, place)
            if brace == "{":
                return self._begin(name, second, place, inner), behind
        raise Fault(f"{place}: neither a value nor the beginning of a section behind {shown(name)}")

    def _value(self, name, text, place, inner):
        text = text.lstrip(SPACES)
        if not text or text.startswith(b"#"):
            self._add(inner, Pair(name, None, place))
            return b""
        mark = text[:1]
        if mark in (b'"', b"'", b"`"):
            _, value, rest = word_of(text, place)
        elif mark == b"/":
            _, value, rest = word_of(text, place, stops=False)
        else:
            value, rest = _bare_value(text)
        why = None
        if mark != b"'" and mark != b"/" and b"$" in value:
            value, why = self._expanded(value, place, inner)
        self._add(inner, Pair(name, value, place, why))
        rest = rest.lstrip(SPACES)
        if rest.startswith(b","):
            return rest[1:]
        if rest and not rest.startswith((b"#", b"}")):
            raise Fault(f"{place}: something behind the value of {shown(name)}")
        return rest

    def _begin(self, kind, name, place, inner):
        made = Section(kind, name, place, inner)
        if made.depth > DEPTH:
            raise Fault(f"{place}: sections are nested more than {DEPTH} deep")
        self._add(inner, made)
        return made

    def _add(self, section, item):
        self.items += 1
        if self.items > ITEMS:
            raise Fault(f"{item.place}: more than {ITEMS} sections and pairs")
        section.add(item)

    def _condition(self, name, text, place, inner):
        """Begins the section of a condition, whose `{` is the first one outside of brackets and quotation marks."""
        depth, index = 0, 0
        while index < len(text):
            letter = text[index:index + 1]
            if letter in (b"'", b'"', b"`") or letter == b"/" and text[:index].rstrip(SPACES).endswith((b"=~", b"!~")):
                _, rest = _quoted(text[index:], place, False)
                index = len(text) - len(rest)
                continue
            if letter == b"{" and depth == 0 and text[index - 1:index] != b"%":
                return self._begin(name, text[:index].strip(), place, inner), text[index + 1:]
            depth += {b"(": 1, b")": -1, b"{": 1, b"}": -1}.get(letter, 0)
            index += 1
        raise Fault(f"{place}: no {{ behind the condition")

    def _include(self, text, place, inner, is_optional):
        section = inner
        while section.parent and section.parent.parent:
            section = section.parent
        if section.kind in UNREAD:
            return
        _, name, rest = word_of(text, place, stops=False)
        if rest.strip(SPACES) or not name:
            raise Fault(f"{place}: $INCLUDE needs one name")
        value, why = self._expanded(name, place, inner)
        if why:
            raise Fault(f"{place}: {why}")
        if not name.startswith(b"$") and not value.startswith(b"/"):
            value = os.path.join(os.path.dirname(place.file) or b".", value)
        if value.endswith(b"/"):
            self._include_folder(value, place, inner)
        elif not is_optional or os.path.exists(value):
            self.read_into(value, inner, place)

    def _include_folder(self, path, place, inner):
        try:
            names = sorted(os.listdir(path))
        except OSError as fault:
            raise Fault(f"{place}: {shown(path)}: {fault.strerror}") from None
        for name in names:
            file = path + name
            if not re.fullmatch(rb"[A-Za-z0-9_-][A-Za-z0-9_.-]*", name) or os.path.isdir(file):
                continue
            if os.path.realpath(file) not in self.files:
                self.read_into(file, inner, place)

    def _template(self, text, place, inner):
        _, name, rest = word_of(text, place, stops=False)
        if rest.strip(SPACES) or not name:
            raise Fault(f"{place}: $template needs one name")
        templates = self.root.section(b"templates")
        found = templates and (self._reference(name, templates))
        if not isinstance(found, Section):
            raise Fault(f"{place}: there is no template {shown(name)} before it")
        if inner.template:
            raise Fault(f"{place}: the section has a template already")
        inner.template = found

    def _merge(self, section, template):
        """Adds what a template has and a section has not."""
        for item in list(template.items):
            if isinstance(item, Pair):
                if not section.pair(item.name):
                    self._add(section, item)
                continue
            same = next((one for one in section.sections(item.kind) if one.name == item.name), None)
            if same is None:
                same = self._begin(item.kind, item.name, item.place, section)
            self._merge(same, item)

    def _expanded(self, value, place, inner):
        """A value with its variables filled in, and why one of them is not known."""
        why = None

        def filled(found):
            nonlocal why
            if found[1] is not None:
                octets = os.environb.get(found[1])
                if octets is None:
                    why = why or f"$ENV{{{shown(found[1])}}} is not set here"
                return octets or b""
            item = self._reference(found[2].partition(b":")[0], inner)
            if isinstance(item, Section) and found[2].endswith((b":name", b":instance")):
                return item.kind if found[2].endswith(b":name") else item.name or item.kind
            if not isinstance(item, Pair):
                why = why or f"${{{shown(found[2])}}} is not known here"
                return b""
            why = why or item.why
            return item.value or b""

        if re.search(rb"\$(?:ENV)?\{[^}]*$", value):
            raise Fault(f"{place}: a variable has no }}")
        made = re.sub(rb"\$ENV\{([^}]*)\}|\$\{([^}]*)\}", filled, value)
        if len(made) > VALUE:
            raise Fault(f"{place}: a value of more than {VALUE} octets, which FreeRADIUS refuses")
        return made, why

    def _reference(self, text, inner):
        """The pair or the section that a name refers to, or None."""
        section = inner
        if text.startswith(b"."):
            text = text[1:]
            while text.startswith(b"."):
                section = section.parent or section
                text = text[1:]
            if not text:
                return section
        elif b"." in text or b"[" in text:
            section = self.root
        local = section
        parts = re.findall(rb"([^.\[\]]+)(?:\[([^\]]*)\])?", text)
        for kind, name in parts[:-1]:
            local = local.section(kind, name or None)
            if local is None:
                return None
        if not parts:
            return None
        kind, name = parts[-1]
        for place in (local, self.root) if local is inner else (local,):
            found = place.section(kind, name) if name else place.pair(kind) or place.section(kind)
            if found:
                return found
        return None

