"""The lines of `state`: lane LANE NAME WATCH MODE accepted A queued Q outstanding O answered R opening P."""


def whole(text):
    """A number of an answer: 0 for what is none."""
    return int(text) if text.isascii() and text.isdigit() else 0


class Lane:
    """What a line says of a lane."""

    def __init__(self, line):
        words = line.split() + 15 * [""]
        self.line, self.number, self.home, self.watch, self.mode = line, *words[1:5]
        self.accepted, self.queued, self.outstanding, self.answered, self.opening = (whole(words[place]) for place in (6, 8, 10, 12, 14))

    def is_busy(self):
        return self.queued + self.outstanding > 0


def lanes_of(lines):
    """The lanes, one for each line."""
    return [Lane(line) for line in lines]
