"""The route method as docs/METHOD.md describes it.

No column is filled from the ones before it. A column search keeps the steps of each point: the weights at which its least
delay falls, and what it falls to. They are found by taking runs from a heap, the lightest first; a cell is read off them.
"""

from bisect import bisect_right
from collections import namedtuple
from heapq import heappop, heappush
from math import isqrt

from networks import Network, must

Arc = namedtuple("Arc", "start end delay price open")
Margin = namedtuple("Margin", "p q")
Question = namedtuple("Question", "start end limit")
Answer = namedtuple("Answer", "lines price delay low tests column")

NO_RUN = 4_294_967_295


def prepared(network, tariff, marks):
    """The network with arcs for lines: each priced by the tariff, and open if its mark says so."""
    pairs = zip(network.lines, marks)
    return Network(network.points, [Arc(line.start, line.end, line.delay, tariff(line), mark) for line, mark in pairs])


def priced(network, number, price):
    """The arcs with one of them at another price."""
    must(price <= 1_000_000, 4)
    must(number < len(network.lines), 22)
    arcs = list(network.lines)
    arcs[number] = arcs[number]._replace(price=price)
    return Network(network.points, arcs)


def make_margin(p, q):
    must(1 <= p <= q <= 1_000, 7)
    return Margin(p, q)


def make_question(network, start, end, limit):
    must(start < network.points and end < network.points, 11)
    must(start != end, 12)
    must(limit <= 63_000_000, 14)
    return Question(start, end, limit)


def cells_needed(points, margin):
    return points * (4 * (points - 1) * margin.q // margin.p + points)


class Search:
    """A column search: the weights of the allowed arcs, by their numbers, and the last column."""

    def __init__(self, network, question, weights, last):
        self.network, self.question, self.weights, self.last = network, question, weights, last
        self.find_steps()

    def find_steps(self):
        """Fills in each point's steps: rising weights, and the delay that falls at each of them."""
        self.rises = [[] for _ in range(self.network.points)]
        self.delays = [[] for _ in range(self.network.points)]
        leaving = [[] for _ in range(self.network.points)]
        for number, weight in self.weights.items():
            arc = self.network.lines[number]
            leaving[arc.start].append((weight, arc.delay, arc.end))
        heap = [(0, 0, self.question.start)]
        while heap:
            weight, delay, point = heappop(heap)
            if not self.is_faster(point, delay):
                continue
            self.rises[point].append(weight)
            self.delays[point].append(delay)
            for more_weight, more_delay, end in leaving[point]:
                if weight + more_weight <= self.last and self.is_faster(end, delay + more_delay):
                    heappush(heap, (weight + more_weight, delay + more_delay, end))

    def is_faster(self, point, delay):
        """Whether no run to the point that was taken, all of them as light or lighter, has this delay or less."""
        return not self.delays[point] or delay < self.delays[point][-1]

    def cell(self, point, column):
        """The least delay of a run to the point that weighs at most the column; below column 0 there is none."""
        steps = bisect_right(self.rises[point], column)
        return self.delays[point][steps - 1] if steps else NO_RUN

    def found_column(self):
        """The least column that keeps the limit, or None."""
        for column, delay in zip(self.rises[self.question.end], self.delays[self.question.end]):
            if delay <= self.question.limit:
                return column
        return None

    def traced(self):
        """The line numbers of the run in the found column, from the first point on."""
        point, column, lines = self.question.end, self.found_column(), []
        while point != self.question.start:
            number = min(self.lines_into(point, column))
            lines.insert(0, number)
            point, column = self.network.lines[number].start, column - self.weights[number]
        return lines

    def lines_into(self, point, column):
        """The allowed lines that can be the last one of a run that the cell stands for."""
        for number, weight in self.weights.items():
            arc = self.network.lines[number]
            before = self.cell(arc.start, column - weight)
            if arc.end == point and before != NO_RUN and before + arc.delay == self.cell(point, column):
                yield number

    def cells(self):
        """All cells, in the order of the table."""
        return [self.cell(point, column) for point in range(self.network.points) for column in range(self.last + 1)]


def bottleneck(network, question):
    """The smallest price up to which the open lines have a run that keeps the limit, or None."""
    for price in sorted({arc.price for arc in network.lines if arc.open}):
        if unit_search(network, question, price).found_column() is not None:
            return price
    return None


def unit_search(network, question, most):
    """Open lines up to a price, each of weight 1; a run with no point twice has at most n - 1 of them."""
    weights = {number: 1 for number, arc in enumerate(network.lines) if arc.open and arc.price <= most}
    return Search(network, question, weights, network.points - 1)


def scaled_search(network, question, times, part, last):
    """All open lines, each of the weight that its price has when it is multiplied by one number and divided by another."""
    weights = {number: arc.price * times // part + 1 for number, arc in enumerate(network.lines) if arc.open}
    return Search(network, question, weights, last)


def narrowed(network, question, low, high):
    """Low and high once high is at most four times low, and the tests that were made."""
    tests, short = [], network.points - 1
    while high > 4 * low:
        middle = isqrt(low * high // 2)
        tests.append(scaled_search(network, question, short, middle, 2 * short))
        if tests[-1].found_column() is not None:
            high = 2 * middle
        else:
            low = middle + 1
    return low, high, tests


def searches(network, question, margin):
    """Low, the tests, and the last search."""
    price = bottleneck(network, question)
    must(price is not None, 20)
    if price == 0:
        return 0, [], unit_search(network, question, 0)
    short = network.points - 1
    low, high, tests = narrowed(network, question, price, short * price)
    times, part = short * margin.q, low * margin.p
    return low, tests, scaled_search(network, question, times, part, high * times // part + short)


def near_cheapest(network, question, margin, cells):
    """The answer, and what the table of cells holds afterwards. A refusal leaves it; 24, which writes it, never comes."""
    must(len(cells) >= cells_needed(network.points, margin), 17)
    low, tests, last = searches(network, question, margin)
    for search in [*tests, last]:
        written = search.cells()
        cells = written + cells[len(written) :]
    column = last.found_column()
    must(column is not None, 24)
    lines = last.traced()
    price, delay = sums(network, lines)
    return Answer(lines, price, delay, low, len(tests), column), cells


def sums(network, lines):
    """The price and the delay of a run."""
    return sum(network.lines[number].price for number in lines), sum(network.lines[number].delay for number in lines)


def simple_runs(network, point, end, passed=()):
    """Every run of open lines between two points with no point twice: brute force, for small networks."""
    if point == end:
        yield []
        return
    passed += (point,)
    for number, arc in enumerate(network.lines):
        if arc.open and arc.start == point and arc.end not in passed:
            for rest in simple_runs(network, arc.end, end, passed):
                yield [number, *rest]


def keeping(network, question):
    """The price and the lines of every such run that keeps the limit."""
    for lines in simple_runs(network, question.start, question.end):
        price, delay = sums(network, lines)
        if delay <= question.limit:
            yield price, lines


def cheapest(network, question):
    """The least price of a run that keeps the limit, by brute force, or None."""
    return min((price for price, _ in keeping(network, question)), default=None)
