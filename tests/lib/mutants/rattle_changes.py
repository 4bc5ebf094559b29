"""The single changes of a file of Rattle, and its text with each of them behind its number.

A body is read from the tokens of the kit. Its pieces are the expressions that hold no block: a condition, what is matched, a value, a
statement. A changed piece stands beside the one that is there, as in `if mutants::chosen(7) { a <= b } else { a < b }`, so that a change
keeps the type. What the compiler refuses all the same is dropped by whoever compiles it.
"""
import json
import re
import subprocess
from collections import namedtuple
from dataclasses import dataclass, field

Token = namedtuple("Token", "line start end kind text")
CLOSES = {"(": ")", "[": "]", "{": "}"}
NUMBERS = {f"{sign}{bits}" for sign in "ui" for bits in (8, 16, 32, 64, "size")}
OPENERS = ("if", "match", "for", "while", "loop", "unsafe", "{")
# Words of two characters or more that the kit gives a character at a time, the longest first.
JOINED = ("<=", ">=", "==", "!=", "&&", "||", "=>", "->", "::", "+=", "-=", "..")
TURNED = {"<": ("<=", ">"), ">": (">=", "<"), "<=": ("<", ">="), ">=": (">", "<="), "==": ("!=",), "!=": ("==",), "&&": ("||",),
          "||": ("&&",), "+": ("-",), "-": ("+",), "*": ("+",), "/": ("*",), "+=": ("-=",), "-=": ("+=",)}
OTHER = {"true": "false", "false": "true", "min": "max", "max": "min", "saturating_add": "saturating_sub", "is_some": "is_none",
         "saturating_sub": "saturating_add", "is_none": "is_some", "is_ok": "is_err", "is_err": "is_ok", "any": "all", "all": "any"}
EARLY = {"bool": ("true", "false"), "Result < ( )": ("Ok(())",), "Option <": ("None",), "u64": ("0",), "usize": ("0",), "u32": ("0",),
         "u16": ("0",), "u8": ("0",), "": ("",)}


@dataclass
class Change:
    """A change: where it is, and what becomes of the piece, or of the place before it."""

    file: str
    line: int
    what: str
    text: str
    number: int = 0

    @property
    def key(self):
        return f"{self.file}:{self.line}: {self.what}: {self.text}"


@dataclass
class Piece:
    """A part of a file that changes stand for: a value, a statement, a guard of an arm, or a place before a statement."""

    kind: str
    start: int
    end: int
    changes: list = field(default_factory=list)


def tokens_of(kit, file):
    """The tokens of a file, of which those that are code alone count, and where the others stand."""
    ran = subprocess.run([kit / "bin" / "rattle", "fmt", "--tokens", file], capture_output=True, encoding="utf-8", check=True)
    rows = (row.split(" ", 4) for row in ran.stdout.split("\n")[1:] if row)
    return [Token(int(line), int(start), int(end), kind, json.loads(text)) for line, start, end, kind, text in rows]


def joined(tokens):
    """The tokens, where operators of several characters are one."""
    found = []
    for token in tokens:
        last = found[-1] if found else None
        if last and last.end == token.start and last.text + token.text in JOINED:
            found[-1] = last._replace(end=token.end, text=last.text + token.text)
        else:
            found.append(token)
    return found


class Names:
    """What may stand for one another: variants of an enum that hold the same, fields of a struct that are of one type, and constants that
    are numbers."""

    def __init__(self):
        self.variants, self.fields, self.types, self.structs, self.numbers = {}, {}, {}, {}, set()

    def read(self, tokens):
        words = [token.text for token in tokens]
        for at, word in enumerate(words[:-3]):
            if word in ("struct", "enum") and words[at + 1].isidentifier():
                opens = next((n for n in range(at, len(words)) if words[n] in "{;("), len(words))
                if opens < len(words) and words[opens] == "{":
                    self.take(word, words[at + 1], words[opens + 1:closing(words, opens)])
            if word == "const" and words[at + 3] in NUMBERS:
                self.numbers.add(words[at + 1])

    def take(self, kind, name, words):
        parts = [without_heads(part) for part in split(words)]
        parts = [(part[0], " ".join(part[1:])) for part in parts if part]
        if kind == "struct":
            for one, held in parts:
                held = held.removeprefix(": ")
                self.structs[one] = name if self.structs.get(one, name) == name else None
                # A name that several structs use for several types stands for none.
                self.types[one] = held if self.types.get(one, held) == held else None
        for (one, held), (other, as_well) in zip(parts, parts[1:] + parts[:1]):
            if held == as_well and one != other:
                where, key = (self.variants, (name, one)) if kind == "enum" else (self.fields, one)
                where[key] = other


def without_heads(words):
    """The words of a field or of a variant, without its attributes and `pub`."""
    while words[:1] == ["#"]:
        words = words[closing(words, 1) + 1:]
    if words[:1] == ["pub"]:
        words = words[closing(words, 1) + 1 if words[1:2] == ["("] else 1:]
    return words


def closing(words, at):
    """Where the bracket at a place is closed."""
    close, depth = CLOSES[words[at]], 0
    for place in range(at, len(words)):
        depth += (words[place] == words[at]) - (words[place] == close)
        if not depth:
            return place
    return len(words)


def split(words):
    """The parts between commas that no bracket holds; `<` is one here, as in a type."""
    parts, depth = [[]], 0
    for word in words:
        depth += (word in "([{<") - (word in ")]}>")
        if word == "," and not depth:
            parts.append([])
        else:
            parts[-1].append(word)
    return parts


class Body:
    """The body of a function, whose pieces are found."""

    def __init__(self, source, tokens, early, types):
        self.source, self.tokens, self.early, self.types, self.pieces = source, tokens, early, types, []
        self.words = [token.text for token in tokens]

    def find(self):
        starts = self.block(0, len(self.words))
        # A function of one statement returns early where that is left out. One that gives nothing may also leave out its last alone.
        if self.early and (len(starts) > 1 or self.early != EARLY[""]):
            places = starts[:1] + (starts[-1:] if self.early == EARLY[""] and len(starts) > 2 else [])
            for at in places:
                self.add("before", at, at, [(f"an early return of {value or 'nothing'}", f"return {value};".replace(" ;", ";"))
                                                 for value in self.early])
        return self.pieces

    def add(self, kind, start, end, changes):
        """Adds a piece from one token to another, with what it may become."""
        first = self.tokens[start]
        last = self.tokens[end - 1] if end > start else first
        begins, ends = first.start, last.end if end > start else first.start
        if self.source.has_proof(begins, ends):
            return
        made = [Change(self.source.name, line or first.line, what, text) for what, text, line in
                ((*change, None)[:3] for change in changes)]
        if made:
            self.pieces.append(Piece(kind, begins, ends, made))

    def until(self, at, end, *stops):
        """The next place of one of these words that no bracket holds."""
        while at < end and self.words[at] not in stops:
            at = closing(self.words, at) if self.words[at] in CLOSES else at
            at += 1
        return min(at, end)

    def block(self, at, end):
        """Where the statements between two places begin, each of which is read."""
        starts = []
        while at < end:
            starts += [at] * (self.words[at] != ";")
            at = self.statement(at, end)
        return starts

    def statement(self, at, end):
        """One statement or the value of the block; gives where the next one is."""
        word = self.words[at]
        if word in ("use", "ghost", "const", "#", ";"):
            return self.until(at, end, ";") + 1
        if word in OPENERS:
            return self.opened(at, end)
        stop = self.until(at, end, ";")
        if word == "let":
            return self.binding(at, stop, end)
        if word == "return":
            self.value(at + 1, stop)
        elif stop < end:
            self.piece("statement", at, stop + 1)
        else:
            self.value(at, stop)
        return stop + 1

    def binding(self, at, stop, end):
        """A `let`, whose value may be a block, or may be followed by an `else`."""
        equal = self.until(at, stop, "=") + 1
        other = next((n for n in range(equal, stop) if self.words[n] == "else"), None)
        if equal < stop and self.words[equal] in OPENERS:
            return self.opened(equal, end)
        if other is not None and self.words[other + 1] == "{":
            self.value(equal, other)
            self.block(other + 2, closing(self.words, other + 1))
        else:
            self.value(equal, stop)
        return stop + 1

    def opened(self, at, end):
        """What begins with a word that opens a block."""
        opens = self.until(at, end, "{")
        while opens < end and self.words[closing(self.words, opens) + 1:][:1] == ["="]:
            # These are the braces of a pattern.
            opens = self.until(closing(self.words, opens) + 1, end, "{")
        if opens >= end:
            return end
        close = closing(self.words, opens)
        word = self.words[at]
        if word == "if":
            self.condition(at + 1, opens)
        if word == "match":
            self.value(at + 1, opens)
            self.arms(opens + 1, close)
        else:
            self.block(opens + 1, close)
        if self.words[close + 1:close + 2] == ["else"] and close + 1 < end:
            return self.opened(close + 2, end)
        # What goes on behind the block, as a method of it, is a piece of nothing.
        ends = self.words[close + 1:close + 2] in (["."], ["?"])
        return self.until(close, end, ";") + 1 if ends else close + 1

    def condition(self, at, end):
        if "let" in self.words[at:end]:
            self.add("before", at, at, [("an arm left out", "!{chosen} &&", self.tokens[at].line)])
        else:
            text = self.source.text(self.tokens[at].start, self.tokens[end - 1].end)
            self.piece("value", at, end, [("a condition negated", f"!({text})")])

    def arms(self, at, end):
        """The arms of a match. One may be left out where another one takes all."""
        last = self.last_arm(at, end)
        while at < end:
            arrow = self.until(at, end, "=>")
            guard = next((n for n in range(at, arrow) if self.words[n] == "if"), None)
            if at < last and arrow < end:
                words = "&& !{chosen}" if guard else "if !{chosen}"
                self.add("before", arrow, arrow, [("an arm left out", words, self.tokens[at].line)])
            if guard and self.words[guard + 1] != "let":
                self.piece("value", guard + 1, arrow)
            at = self.arm(arrow + 1, end)

    def last_arm(self, at, end):
        """Where the arm begins that takes all, or nothing does."""
        found = -1
        while at < end:
            arrow = self.until(at, end, "=>")
            if self.words[at:arrow] == ["_"]:
                found = at
            after = arrow + 1
            stop = closing(self.words, after) + 1 if self.words[after:after + 1] == ["{"] else self.until(after, end, ",")
            at = stop + (self.words[stop:stop + 1] == [","])
        return found

    def arm(self, at, end):
        """The value of an arm; gives where the next arm is."""
        if at < end and self.words[at] == "{":
            close = closing(self.words, at)
            self.block(at + 1, close)
            stop = close + 1
        else:
            stop = self.until(at, end, ",")
            if at < stop and self.words[at] in OPENERS:
                self.opened(at, stop)
            else:
                self.value(at, stop)
        return stop + (self.words[stop:stop + 1] == [","])

    def value(self, at, end):
        if at < end:
            self.piece("value", at, end)

    def piece(self, kind, at, end, more=()):
        """A piece, where it holds no block, with what a change of one of its words makes of it."""
        if at >= end or not self.is_plain(at, end):
            return
        made = list(more)
        if kind == "statement" and self.words[at] not in ("break", "continue"):
            made.append(("a statement left out", ""))
        for place in range(at, end):
            made += [(what, self.changed(at, end, *edit), self.tokens[place].line) for what, *edit in self.edits(place, at, end)]
        self.add(kind, at, end, made)

    def is_plain(self, at, end):
        """Whether no block or closure is between two places; a value of a struct is none."""
        words = self.words
        braces = [n for n in range(at, end) if words[n] == "{"]
        return all(n > at and words[n - 1][:1].isupper() and words[n + 2] in (":", ",", "}", ".") for n in braces) and not any(
            words[n] in ("match", "if", "|", "move", "return", "break", "continue") for n in range(at, end))

    def changed(self, at, end, first, last, text):
        """The text of a piece in which some tokens are another text."""
        text_of = self.source.text
        head, tail = self.tokens[at].start, self.tokens[end - 1].end
        return text_of(head, self.tokens[first].start) + text + text_of(self.tokens[last].end, tail)

    def edits(self, at, first, end):
        """What may become of one word: what it is, the first and the last token, and the text for them."""
        words, word = self.words, self.words[at]
        before = words[at - 1] if at > first else ""
        after = words[at + 1] if at + 1 < end else ""
        if ";" in (before, self.before_sum(at, first)):
            # The length of an array decides its type.
            return
        if word in TURNED and before and self.has_spaces(at, end):
            for other in TURNED[word]:
                yield f"{word} is {other}", at, at, other
        elif re.fullmatch(r"\d[\d_]*", word) and before != ".":
            yield f"{word} is one more", at, at, f"{int(word.replace('_', '')) + 1}"
            if int(word.replace("_", "")):
                yield f"{word} is one less", at, at, f"{int(word.replace('_', '')) - 1}"
        elif word in self.source.names.numbers and "::" not in (before, after):
            yield f"{word} is one more", at, at, f"({word} + 1)"
        elif word in OTHER and (word in ("true", "false") or before == "." and after == "("):
            yield f"{word} is {OTHER[word]}", at, at, OTHER[word]
        elif before == "." and after != "(" and self.source.names.structs.get(word) and word in self.source.names.fields:
            yield f".{word} is .{self.source.names.fields[word]}", at, at, self.source.names.fields[word]
        elif before == "::" and at - 2 >= first and self.source.names.variants.get((words[at - 2], word)):
            other = self.source.names.variants[words[at - 2], word]
            yield f"{words[at - 2]}::{word} is {other}", at, at, other
        elif word == "(" and re.match(r"\w", before):
            yield from self.exchanged(at)
        elif word == "!" and after not in ("(", "[") and not re.match(r"\w", before):
            yield "a condition negated", at, at, ""

    def before_sum(self, at, first):
        """The word before the first part of a sum that a word is in."""
        while at - 2 >= first and self.words[at - 1] in ("+", "-", "*", "/"):
            at -= 2
        return self.words[at - 1] if at > first else ""

    def has_spaces(self, at, end):
        return at + 1 < end and self.tokens[at - 1].end < self.tokens[at].start and self.tokens[at].end < self.tokens[at + 1].start

    def exchanged(self, at):
        """Two arguments beside one another, exchanged, where both are short."""
        close, starts = closing(self.words, at), [at + 1]
        while (comma := self.until(starts[-1], close, ",")) < close:
            starts.append(comma + 1)
        parts = [(one, other - 1) for one, other in zip(starts, starts[1:] + [close + 1]) if one < other - 1]
        for (one, ends), (other, last) in zip(parts, parts[1:]):
            texts = [self.source.text(self.tokens[a].start, self.tokens[b - 1].end) for a, b in ((one, ends), (other, last))]
            if texts[0] != texts[1] and self.type_of(texts[0]) == self.type_of(texts[1]) is not None:
                yield f"{texts[0]} and {texts[1]} exchanged", one, last - 1, f"{texts[1]}, {texts[0]}"


    def type_of(self, text):
        """The type of an argument, where it is a number, a parameter or a field, by what is declared."""
        lent, name = re.match(r"(&?)(.*)", text, re.S).groups()
        if re.fullmatch(r"\d+", name):
            return "number"
        own = self.types.get(name) if "." not in name else self.source.names.types.get(name.rpartition(".")[2])
        return own and lent + own


class Source:
    """A file of a crate, with its functions that have no contract on what they give."""

    def __init__(self, name, data, tokens, names):
        self.name, self.data, self.names = name, data, names
        self.proofs = [token.start for token in tokens if token.kind in ("Head", "Antt", "End")]
        self.heads = {token.start for token in tokens if token.kind == "Head" and token.text == "ensures"}
        self.outputs = [token.start for token in tokens if token.kind == "Head" and token.text == "output"]
        self.tokens = joined([token for token in tokens if token.kind in ("Code", "Literal")])

    def text(self, start, end):
        return self.data[start:end].decode()

    def has_proof(self, start, end):
        return any(start <= at < end for at in self.proofs)

    def pieces(self):
        words, found = [token.text for token in self.tokens], []
        for at, word in enumerate(words):
            if word == "fn" and not self.is_test(at, words):
                opens = next(n for n in range(at, len(words)) if words[n] in ("{", ";"))
                if words[opens] == "{" and not self.has_contract(at, opens):
                    inside = self.tokens[opens + 1:closing(words, opens)]
                    head = words[at:opens]
                    found += Body(self, inside, self.early(head), parameters(head)).find() if inside else []
        return found

    def has_contract(self, at, opens):
        """Whether a clause says what a function gives, or the text that `fmt` writes is defined in its impl."""
        start = self.tokens[at].start
        block = max((token.start for token in self.tokens[:at] if token.text == "impl"), default=start)
        is_defined = self.tokens[at + 1].text == "fmt" and any(block < output < start for output in self.outputs)
        return is_defined or any(start < head < self.tokens[opens].start for head in self.heads)

    def is_test(self, at, words):
        return "test" in words[max(0, at - 4):at] or words[at - 1] == "const"

    @staticmethod
    def early(words):
        """What a function may return at once, by the type that it gives. A `drop` has to take its value apart on each way out."""
        if "->" not in words:
            return EARLY[""] if words[1] != "drop" else ()
        given = words[len(words) - words[::-1].index("->"):]
        given = " ".join(given[:given.index("where")] if "where" in given else given)
        kinds = [kind for kind in EARLY if kind and (given == kind or kind[-1] in "<)" and given.startswith(kind))]
        return EARLY[kinds[0]] if kinds else ()


def parameters(head):
    """The parameters of a function, with their types."""
    opens = head.index("(", head.index(">") if head[2] == "<" and ">" in head else 0)
    parts = [without_heads(part) for part in split(head[opens + 1:closing(head, opens)])]
    return {part[part.index(":") - 1]: " ".join(part[part.index(":") + 1:]) for part in parts if ":" in part}


def written(source, pieces, dropped=()):
    """The text of a file with the changes of its pieces behind their numbers, but those that are dropped."""
    text = source.data
    for piece in sorted(pieces, key=lambda piece: (-piece.start, piece.kind == "before")):
        kept = [change for change in piece.changes if change.number not in dropped]
        if kept:
            text = text[:piece.start] + beside(piece, kept, text[piece.start:piece.end].decode()).encode() + text[piece.end:]
    return text


def beside(piece, changes, text):
    """A piece with what it may become. It stays in one line for each change, whose number is in it, so that faults name it."""
    if piece.kind == "before":
        words = [it.text.replace("{chosen}", call(it)) if "{chosen}" in it.text else f"if {call(it)} {{ {it.text} }}" for it in changes]
        return "".join(f"{word}\n" for word in words) + text
    chain = "".join(f"\nif {call(it)} {{ {flat(it.text)} }} else " for it in changes)
    return f"({chain}\n{{ {text} }})" if piece.kind == "value" else f"{chain}\n{{ {text} }}"


def flat(text):
    """A text in one line; comments end with their lines, and are left out."""
    return " ".join(re.sub(r"//.*", "", line).strip() for line in text.split("\n"))


def call(change):
    return f"mutants::chosen({change.number})"
