"""List texts and command texts as docs/TEXTS.md describes them.

A text is cut into tokens first, and then the tokens are held against the grammar. Each question is asked of each token,
and of all that fail the earliest place decides, then the lower number.
"""

import re

from networks import Draft, Line, Refused

MOST_BYTES = 65_536
# A token: a bracket or newline, a longest run of letters or of digits, or one bad byte. Spaces are between tokens.
TOKEN = re.compile(rb"(?P<word>[a-z]+)|(?P<number>[0-9]+)|(?P<mark>[()\n])|(?P<bad>[^a-z0-9()\n ])")
PARTS = [("delay", 0, 1_000_000), ("rate", 0, 10_000), ("class", 0, 7), ("room", 1, 1_000), ("jitter", 0, 1_000), ("loss", 0, 1_000)]
MOST_COMMAND_NUMBER = 4_294_967_295


class Fault(Exception):
    """A fault of a text, by number and place."""

    def __init__(self, number, place):
        super().__init__(number, place)
        self.number = number
        self.place = place

    def __str__(self):
        layer = 1 if self.number <= 2 else 2 if self.number <= 4 else 3
        return f"(fault {layer} {self.number} {self.place})"


class Tokens:
    """The tokens of a text, taken one by one; each wish that is not met is a fault."""

    def __init__(self, text):
        if len(text) > MOST_BYTES:
            raise Fault(1, MOST_BYTES)
        self.length = len(text)
        self.found = [(match.lastgroup, match.group(), match.start()) for match in TOKEN.finditer(text)]
        self.found.reverse()

    def take(self, kind):
        if not self.found:
            raise Fault(3, self.length)
        found, data, place = self.found.pop()
        if found == "bad":
            raise Fault(2, place)
        if found != kind:
            raise Fault(3, place)
        return data, place

    def mark(self, wanted):
        data, place = self.take("mark")
        if data != wanted:
            raise Fault(3, place)

    def word(self, *wanted):
        data, place = self.take("word")
        if data.decode() not in wanted:
            raise Fault(3, place)
        return data.decode(), place

    def number(self, least=None, most=None):
        data, place = self.take("number")
        value = int(data)
        if len(data) > 10 or (least is not None and not least <= value <= most):
            raise Fault(4, place)
        return value, place

    def part(self, word, least, most):
        self.mark(b"(")
        self.word(word)
        value, _ = self.number(least, most)
        self.mark(b")")
        return value

    def end(self):
        if self.found:
            kind, _, place = self.found[-1]
            raise Fault(2 if kind == "bad" else 3, place)


def at(place, question):
    """What the draft says of a token, as a fault at its place."""
    try:
        question()
    except Refused as refused:
        raise Fault(refused.number, place) from None


def read_list(text, held=None):
    """The draft that a list text makes of the one held, which stays as it is."""
    draft = Draft()
    if held is not None:
        draft.points, draft.lines = held.points, list(held.lines)
    tokens = Tokens(text)
    tokens.mark(b"(")
    tokens.word("points")
    points, place = tokens.number(2, 64)
    at(place, lambda: draft.set_points(points))
    tokens.mark(b")")
    tokens.mark(b"\n")
    while True:
        tokens.mark(b"(")
        word, place = tokens.word("line", "end")
        if word == "end":
            break
        if len(draft.lines) >= 512:
            raise Fault(6, place)
        ends = []
        for _ in range(2):
            value, place = tokens.number()
            if value >= draft.points:
                raise Fault(5, place)
            ends.append(value)
        delay, rate, grade, room, jitter, loss = (tokens.part(*part) for part in PARTS)
        tokens.mark(b")")
        tokens.mark(b"\n")
        draft.add(Line(*ends, delay, rate, grade, room, jitter, loss))
    tokens.mark(b")")
    tokens.mark(b"\n")
    tokens.end()
    return draft


def read_command(text):
    """The command's word and its numbers."""
    tokens = Tokens(text)
    tokens.mark(b"(")
    word, _ = tokens.word("fastest", "widest")
    numbers = [tokens.number(0, MOST_COMMAND_NUMBER)[0] for _ in range(2)]
    if word == "fastest":
        numbers.append(tokens.part("room", 0, MOST_COMMAND_NUMBER))
    tokens.mark(b")")
    tokens.end()
    return word, numbers
