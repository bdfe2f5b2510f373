"""Networks as docs/NETWORKS.md describes them: drafts, lists, rings, loads."""

from collections import namedtuple

Line = namedtuple("Line", "start end delay rate grade room jitter loss")
NO_LINE = Line(0, 0, 0, 0, 0, 0, 0, 0)

# The greatest value of each number besides the ends.
GREATEST = {"delay": 1_000_000, "rate": 10_000, "grade": 7, "room": 1_000, "jitter": 1_000, "loss": 1_000}
MOST_LINES = 512


class Refused(Exception):
    """A refusal, by its number."""

    def __init__(self, number):
        super().__init__(number)
        self.number = number


def must(condition, number):
    """One question of a call: a "no" refuses it with the number."""
    if not condition:
        raise Refused(number)


def terms_fit(line, least_room):
    numbers = line._asdict()
    return all(0 <= numbers[name] <= top for name, top in GREATEST.items()) and line.room >= least_room


class Network:
    """A point count and lines, which answers zeros past the last line."""

    def __init__(self, points, lines):
        self.points = points
        self.lines = tuple(lines)

    def line(self, number):
        return self.lines[number] if number < len(self.lines) else NO_LINE


class Draft:
    """What a list is made from; each call refuses before it changes anything."""

    def __init__(self):
        self.points = 2
        self.lines = []

    def set_points(self, points):
        must(2 <= points <= 64, 4)
        must(all(max(line.start, line.end) < points for line in self.lines), 5)
        self.points = points

    def add(self, line):
        must(terms_fit(line, least_room=1), 4)
        must(max(line.start, line.end) < self.points, 5)
        must(len(self.lines) < MOST_LINES, 6)
        self.lines.append(line)

    def sealed(self):
        return Network(self.points, self.lines)


def ring(points, terms):
    """Lines that lead on, then lines that lead back, all on the same terms."""
    must(2 <= points <= 64 and terms_fit(terms, least_room=0), 4)
    onward = [(p, (p + 1) % points) for p in range(points)]
    backward = [(b, a) for a, b in onward]
    return Network(points, [terms._replace(start=a, end=b) for a, b in onward + backward])


def loaded(network, loads):
    """The network with each room lowered by the line's load."""
    padded = list(loads) + [0] * len(network.lines)
    lowered = [line._replace(room=max(0, line.room - load)) for line, load in zip(network.lines, padded)]
    return Network(network.points, lowered)
