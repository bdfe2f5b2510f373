#!/usr/bin/env python3
"""Holds the method of method.py against brute force: every promise of docs/METHOD.md, on networks made from a seed.

trial.py [COUNT] [SEED]     so many networks (500) from a seed (1)
"""

import random
import sys

import method
from method import NO_RUN, Arc
from networks import Network, Refused

# With more walks than this inside its last column, a search is not tiny: its cells are not held against its walks.
MOST_WALKS = 20_000
PAIR = Network(2, [Arc(0, 1, 0, 0, True)])
# Each question that is asked once, on both sides of its edges, and the number that it is refused with.
EDGES = [
    (method.make_margin, (0, 1), 7),
    (method.make_margin, (1, 1), None),
    (method.make_margin, (2, 1), 7),
    (method.make_margin, (1000, 1000), None),
    (method.make_margin, (1, 1001), 7),
    (method.make_question, (PAIR, 0, 1, 63_000_000), None),
    (method.make_question, (PAIR, 0, 1, 63_000_001), 14),
    (method.make_question, (PAIR, 1, 1, 63_000_001), 12),
    (method.make_question, (PAIR, 2, 2, 63_000_001), 11),
    (method.make_question, (PAIR, 1, 2, 0), 11),
    (method.priced, (PAIR, 0, 1_000_000), None),
    (method.priced, (PAIR, 1, 1_000_000), 22),
    (method.priced, (PAIR, 1, 1_000_001), 4),
]


class Wrong(Exception):
    """A promise that was not kept."""


def sure(condition, promise):
    if not condition:
        raise Wrong(promise)


def made_arc(rng, start, end):
    delay = rng.choice([0, 0, 1, rng.randint(0, 3), rng.randint(0, 12), rng.choice([500, 1_000_000])])
    price = rng.choice([0, 1, 1, rng.randint(0, 3), rng.randint(0, 40), rng.choice([999, 10_000, 1_000_000])])
    return Arc(start, end, delay, price, rng.random() < 0.9)


def small_network(rng):
    points = rng.randint(2, 6)
    count = max(rng.randint(0, 12), rng.randint(0, 12))
    return Network(points, [made_arc(rng, rng.randrange(points), rng.randrange(points)) for _ in range(count)])


def chain(rng):
    """Many points in a row and a few lines beside: there the narrowing makes tests."""
    points = rng.randint(7, 64)
    price, delay = rng.choice([1, 2, 7, 1000]), rng.randint(0, 3)
    arcs = [Arc(point, point + 1, delay, price - rng.randint(0, 1), True) for point in range(points - 1)]
    for _ in range(rng.randint(0, 6)):
        start = rng.randrange(points)
        arcs.append(made_arc(rng, start, min(points - 1, start + rng.randint(0, 12))))
    rng.shuffle(arcs)
    return Network(points, arcs)


def made(rng, number):
    """A network, a question with a limit that is mostly near the delay of some run, and a margin."""
    if number % 10 == 9:
        network, q = chain(rng), rng.choice([1, 2, 10])
        ends = [0, network.points - 1]
    else:
        network, q = small_network(rng), rng.choice([1, 1, 2, 3, 10, 100, 1000])
        ends = rng.sample(range(network.points), 2)
    runs = list(method.simple_runs(network, *ends)) or [[]]
    near = method.sums(network, rng.choice(runs))[1] + rng.randint(-1, 1)
    limit = rng.choice([near, near, rng.randint(0, 20), 63_000_000])
    return network, method.make_question(network, *ends, max(0, limit)), method.make_margin(rng.randint(1, q), q)


def refusal(call, *given):
    """The number that a call is refused with, or None."""
    try:
        call(*given)
    except Refused as refused:
        return refused.number
    return None


def check_edges():
    for call, given, number in EDGES:
        sure(refusal(call, *given) == number, f"{call.__name__}{given} is refused with {number}")


def check_route(network, question, answer):
    """The route is real."""
    arcs = [network.lines[number] for number in answer.lines]
    points = [question.start] + [arc.end for arc in arcs]
    sure([arc.start for arc in arcs] == points[:-1] and points[-1] == question.end, "the route is joined")
    sure(all(arc.open for arc in arcs), "the route is open")
    sure(answer.price == sum(arc.price for arc in arcs), "the price is the sum")
    sure(answer.delay == sum(arc.delay for arc in arcs) <= question.limit, "the delay is the sum, and keeps the limit")
    sure(len(set(points)) == len(points) and len(arcs) <= network.points - 1, "no point comes twice")
    sure(len(set(answer.lines)) == len(arcs), "no line comes twice")


def check_price(network, question, margin, answer, kept):
    """The price, low and the bottleneck price, against all runs that keep the limit."""
    least = method.cheapest(network, question)
    sure(margin.q * answer.price <= (margin.q + margin.p) * least, "near the cheapest")
    sure(answer.low <= least, "none is below low")
    sure(answer.tests <= 3, "few tests")
    dearest = [max(network.lines[number].price for number in lines) for _, lines in kept]
    sure(method.bottleneck(network, question) == min(dearest), "the bottleneck price")


def walks(search):
    """Every walk that weighs no more than the last column, with its end, weight and delay; None if there are many."""
    found = [(search.question.start, 0, 0, [])]
    for point, weight, delay, lines in found:
        for number, more in search.weights.items():
            arc = search.network.lines[number]
            if arc.start == point and weight + more <= search.last:
                found.append((arc.end, weight + more, delay + arc.delay, [*lines, number]))
        if len(found) > MOST_WALKS:
            return None
    return found


def least_delays(search, found):
    """The table of cells, from the list of all walks."""
    at = {}
    for point, weight, delay, _ in found:
        at.setdefault((point, weight), []).append(delay)
    for point in range(search.network.points):
        least = NO_RUN
        for column in range(search.last + 1):
            least = min([least, *at.get((point, column), [])])
            yield least


def check_walks(search, answer, found):
    """Cells, found column and traced run, against all walks.

    Tracing takes the lowest-numbered last line, then the lowest-numbered before it, and so on: of the fastest walks in
    the column it is the first, if their lines are read backwards.
    """
    sure(search.cells() == list(least_delays(search, found)), "every cell is a least delay")
    ending = [walk[1:] for walk in found if walk[0] == search.question.end]
    column = min(weight for weight, delay, _ in ending if delay <= search.question.limit)
    sure(answer.column == column, "the found column is the least")
    delay, backwards = min((delay, lines[::-1]) for weight, delay, lines in ending if weight <= column)
    sure(answer.delay == delay and answer.lines == backwards[::-1], "the traced run has the lowest-numbered lines")


def check(network, question, margin, cells):
    """Every promise for one question: the answer, or None after 20, and whether all walks were looked at."""
    before = list(cells)
    needed = method.cells_needed(network.points, margin)
    short = refusal(method.near_cheapest, network, question, margin, cells[: needed - 1])
    sure(short == 17, "17 comes before all else")
    kept = list(method.keeping(network, question))
    if not kept:
        number = refusal(method.near_cheapest, network, question, margin, cells)
        sure(number == 20 and cells == before, "20 comes without a run, and leaves the table")
        return None, False
    answer, after = method.near_cheapest(network, question, margin, cells)
    check_route(network, question, answer)
    check_price(network, question, margin, answer, kept)
    _, tests, last = method.searches(network, question, margin)
    for search in [*tests, last]:
        sure(network.points * (search.last + 1) <= needed, "the table suffices")
    written = last.cells()
    sure(after == written + before[len(written) :], "the table holds the last search, and all else as before")
    found = walks(last)
    if found is not None:
        check_walks(last, answer, found)
    return answer, found is not None


def report(number, network, question, margin, error):
    print(f"trial: network {number} FAILED: {error!r}")
    print(f"{network.points} points, {question}, {margin}")
    for place, arc in enumerate(network.lines):
        print(f"line {place}: {arc}")


def main(words):
    count, seed = [int(word) for word in words] + [500, 1][len(words) :]
    rng = random.Random(seed)
    answers, tiny = [], 0
    check_edges()
    for number in range(count):
        network, question, margin = made(rng, number)
        room = method.cells_needed(network.points, margin) + rng.randint(0, 5)
        try:
            answer, all_walks = check(network, question, margin, list(range(room)))
        except Exception as error:
            report(number, network, question, margin, error)
            return 1
        if answer:
            answers.append(answer)
            tiny += all_walks
    most = max([answer.tests for answer in answers], default=0)
    print(f"trial: {count} passed: {len(answers)} with a route ({tiny} against all walks, at most {most} tests)")
    return 0


if __name__ == "__main__":
    sys.exit(main(sys.argv[1:]))
