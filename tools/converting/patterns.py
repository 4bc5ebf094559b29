"""Which requests a pattern of radsecproxy takes: those of a realm, of each realm, or without one.

A pattern is an extended regular expression of POSIX that radsecproxy looks for in the whole User-Name, without regard to case. Python's
`re` finds the same where a pattern has only the signs of TOKEN, no two bounds in a row and no bound at a beginning. A User-Name is taken
to have one `@` and something before it; `minds_names` says where another `@` makes a difference.
"""
import re

ALL, NONE, SOME = "all", "none", "some"
TOKEN = re.compile(rb"\\[][.()*+?{}|^$@/\\-]|\[\^?(?:[A-Za-z0-9._@%+](?:-[A-Za-z0-9])?)+-?\]|\{\d{1,3}(?:,\d{0,3})?\}"
                   rb"|[A-Za-z0-9_@:/%&=~,;!<>\"' -]|[.^$()|*+?]")
BOUNDS = (b"*", b"+", b"?", b"{")
BEGINNINGS = (b"(", b"|", b"^")

# The patterns that take each User-Name with a realm behind its last `@`, and those that take each without an `@`.
REALM, BARE = "realm", "bare"
EACH = {
    rb"\^?(?:\.[*+]?)?|(?:\.[*+]?)?\$|\^\.[*+]\$": {REALM, BARE},
    rb"(?:\^?\.\*|\[\^@\]\*)?\\?@(?:(?:\.|\[\^@\])(?:[*+]\$?)?)?": {REALM},
    rb"\^\[\^@\]\*\\?@(?:\.(?:[*+]\$?)?)?": {REALM},
    rb"\^\[\^@\][*+]\$": {BARE},
}


def pattern_of(name):
    """The pattern that radsecproxy makes of a realm's name."""
    if name.startswith(b"/"):
        return name[1:-1] if len(name) > 1 and name.endswith(b"/") else name[1:]
    return b".*" if name == b"*" else b"@" + name.replace(b".", b"\\.") + b"$"


def taken(name, realm):
    """Whether the pattern of a name takes all requests of a realm, none, or some; SOME also where it is not known."""
    tokens = tokens_of(pattern_of(name))
    if tokens is None:
        return SOME
    try:
        found = {_taken(one, b"@" + realm) for one in alternatives(tokens)}
    except re.error:
        return SOME
    return ALL if ALL in found else NONE if found == {NONE} else SOME


def minds_names(name, realm):
    """Whether a pattern, which takes all or none of a realm, may do otherwise where what is before the realm has an `@`."""
    parts = alternatives(tokens_of(pattern_of(name)) or [])
    if taken(name, realm) == ALL:
        return any(one[:1] == [b"^"] and one[1:2] and one[1].startswith(b"[^") and b"@" in one[1] for one in parts)
    ended = [one[:-1] for one in parts if one[-1:] == [b"$"] and fits(last_octets(one[:-1]), b"@" + realm)]
    return any(sum(map(crosses, one)) > 1 for one in ended) or any(any(map(crosses, one)) for one in parts if one[-1:] != [b"$"])


def each(name):
    """What the pattern of a name takes all of: REALM, BARE, both, or nothing. radsecproxy drops an empty User-Name itself."""
    return next((kinds for form, kinds in EACH.items() if re.fullmatch(form, pattern_of(name))), set())


def tokens_of(pattern):
    """The tokens of a pattern that means the same to Python, or None."""
    tokens, at = [], 0
    while at < len(pattern):
        found = TOKEN.match(pattern, at)
        if not found:
            return None
        tokens.append(found[0])
        at = found.end()
    for before, token in zip([b"(", *tokens], tokens):
        if token.startswith(BOUNDS) and (before in BEGINNINGS or before.startswith(BOUNDS)):
            return None
    return tokens


def alternatives(tokens):
    """The tokens of each alternative, of those that stand in no group."""
    made, depth = [[]], 0
    for token in tokens:
        depth += (token == b"(") - (token == b")")
        if token == b"|" and depth == 0:
            made.append([])
        else:
            made[-1].append(token)
    return made


def _taken(tokens, tail):
    """Whether one alternative takes the User-Names that end in `tail`: `@` and the realm."""
    tokens = without_name(tokens)
    text = re.compile(b"".join(rb"\Z" if token == b"$" else token for token in tokens), re.IGNORECASE | re.DOTALL)
    if tokens[:1] in ([b"@"], [b"\\@"]) and not (len(tokens) > 1 and tokens[1].startswith(BOUNDS)):
        return ALL if text.match(tail) else NONE
    if tokens[-1:] == [b"$"] and not fits(last_octets(tokens[:-1]), tail):
        return NONE
    if b"^" in tokens:
        return SOME
    if text.search(tail):
        return ALL
    return NONE if tokens[-1:] == [b"$"] and b"$" not in tokens[:-1] and not any(map(crosses, tokens)) else SOME


def crosses(token):
    """Whether a token takes an `@`."""
    return token in (b".", b"@", b"\\@") or token.startswith(b"[") and (b"@" in token) != token.startswith(b"[^")


def last_octets(tokens):
    """The octets that all of these tokens end in."""
    made = b""
    for token in reversed(tokens):
        if len(token) != 1 + token.startswith(b"\\") or token in (b".", b"^", b"$", b"(", b")", b"*", b"+", b"?"):
            break
        made = token[-1:] + made
    return made


def fits(octets, tail):
    """Whether a text may end in both."""
    size = min(len(octets), len(tail))
    return not size or octets[-size:].lower() == tail[-size:].lower()


def without_name(tokens):
    """The tokens without what stands for any name before the `@`."""
    rest = tokens[1:] if tokens[:1] == [b"^"] else tokens
    if len(rest) > 1 and rest[1] in (b"*", b"+"):
        if rest[0] == b"." or rest[0] == b"[^@]" and rest[2:3] in ([b"@"], [b"\\@"]):
            return rest[2:]
    return tokens
