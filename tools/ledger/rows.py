"""The rows that `rad_audit --rows` prints: one for each record, whose words have a tab between them."""
import re
from typing import NamedTuple

from trial.faults import Fault

# What a row has where there is no value, and the Acct-Status-Type of a Stop (RFC 2866 section 5.1).
NONE, STOP = "-", "2"
ESCAPE = re.compile(rb"%([0-9a-fA-F]{2})")
# The first and the last of each run of Unicode's format characters, and of its separators of lines and paragraphs, as rad_audit has them.
FORMAT_RUNS = (
    (0xAD, 0xAD), (0x600, 0x605), (0x61C, 0x61C), (0x6DD, 0x6DD), (0x70F, 0x70F), (0x890, 0x891), (0x8E2, 0x8E2), (0x180E, 0x180E),
    (0x200B, 0x200F), (0x2028, 0x202E), (0x2060, 0x206F), (0xFEFF, 0xFEFF), (0xFFF9, 0xFFFB), (0x110BD, 0x110BD), (0x110CD, 0x110CD),
    (0x13430, 0x1343F), (0x1BCA0, 0x1BCA3), (0x1D173, 0x1D17A), (0xE0001, 0xE0001), (0xE0020, 0xE007F),
)


class Row(NamedTuple):
    """A record. Each value is text, as it is printed; `seconds` is its Acct-Session-Time."""

    file: str
    line: str
    run: str
    lane: str
    serial: str
    record: str
    time: str
    client: str
    port: str
    identifier: str
    home: str
    realm: str
    session: str
    user: str
    status: str
    input: str
    output: str
    seconds: str
    state: str

    @property
    def is_answered(self):
        return self.state == "answered"

    @property
    def volumes(self):
        """Octets in, octets out and seconds; nothing is 0."""
        return [0 if it == NONE else int(it) for it in (self.input, self.output, self.seconds)]


def row_of(octets):
    """The row in a line, without its line end."""
    words = octets.decode("utf-8", "replace").split("\t")
    if len(words) != len(Row._fields):
        raise Fault(f"rad_audit prints rows of {len(words)} words, and not of {len(Row._fields)}")
    return Row._make(words)


def cell(octets):
    """A value as a row has it."""
    if octets == b"-":
        return "%2d"
    try:
        text = octets.decode("utf-8")
    except UnicodeDecodeError:
        return "".join(chr(one) if 0x20 <= one < 0x7F and one not in b"%\\" else f"%{one:02x}" for one in octets)
    return "".join(escaped(one) if is_hidden(one) or one in "%\\" else one for one in text)


def is_hidden(one):
    """Whether a character is a control or format character, or a separator of lines or paragraphs."""
    return one < " " or "\x7f" <= one < "\xa0" or any(first <= ord(one) <= last for first, last in FORMAT_RUNS)


def escaped(one):
    return "".join(f"%{octet:02x}" for octet in one.encode())


def unescaped(octets):
    """The octets of a value that is given as it is printed."""
    return ESCAPE.sub(lambda found: bytes([int(found[1], 16)]), octets)


def visible(text):
    """A value for a terminal: what is not printable, such as what turns the direction of a line, is escaped too."""
    return text if text.isprintable() else "".join(one if one.isprintable() else escaped(one) for one in text)
