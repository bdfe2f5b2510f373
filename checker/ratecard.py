"""The printout of docs/RATECARD.md."""

import tariffs
from networks import Draft, Line, Refused, ring

STUDIO = [
    Line(0, 1, 1200, 30, 0, 4, 3, 2),
    Line(1, 2, 800, 45, 2, 2, 5, 1),
    Line(2, 3, 2500, 12, 7, 8, 0, 0),
    Line(3, 0, 40, 0, 1, 1, 12, 30),
    Line(0, 2, 1000000, 10000, 6, 1000, 1000, 1000),
    Line(2, 0, 0, 7, 3, 16, 40, 0),
]
EXTRA = Line(1, 4, 900, 25, 1, 3, 2, 2)
RING_TERMS = Line(0, 0, 100, 30, 0, 0, 3, 2)
MEANINGS = [
    "Delays are in microseconds, room in channels, loss per million. Rate: the price is the rate.",
    "P0 to P3: rate x weight of the period and class; class 7 is free; in period 3 a price of 0 becomes 1.",
    "Balanced (jitter bound 10, loss bound 4): the larger of jitter x 4 and loss x 10.",
]
# Each column's heading and width; the bar parts a line from its prices.
COLUMNS = [("line", 4), ("from", 5), ("to", 5), ("delay", 9), ("rate", 7), ("class", 6), ("room", 6), ("jitter", 7), ("loss", 6)]
PRICES = [("Rate", 8), ("P0", 8), ("P1", 8), ("P2", 8), ("P3", 8), ("Balanced", 9)]


def weight(period, grade):
    return 1 + period * (grade + 1)


def in_period(period):
    tariff = tariffs.Period()
    for row in range(4):
        for grade in range(8):
            tariff.set_weight(row, grade, weight(row, grade))
    tariff.set_period(period)
    return tariff.price


def flush_right(cells, columns):
    return "".join(f"{cell:>{width}}" for cell, (_, width) in zip(cells, columns))


def table(network):
    yield flush_right([name for name, _ in COLUMNS], COLUMNS) + " |" + flush_right([name for name, _ in PRICES], PRICES)
    card = [tariffs.rate] + [in_period(period) for period in range(4)] + [tariffs.balanced(10, 4)]
    for number, line in enumerate(network.lines):
        yield flush_right([number, *line], COLUMNS) + " |" + flush_right([price(line) for price in card], PRICES)


def printout():
    yield "RATE CARD: what each line costs under every tariff"
    yield ""
    draft = Draft()
    draft.set_points(4)
    for line in STUDIO:
        draft.add(line)
    try:
        draft.add(EXTRA)
    except Refused as refused:
        yield f"Refused: a line from point {EXTRA.start} to point {EXTRA.end}, with number {refused.number} (an end is no point of the network)."
        yield ""
    yield "Weights of the period tariff, by period and class"
    yield "period" + "".join(f"{'c' + str(grade):>4}" for grade in range(8))
    for period in range(4):
        yield f"{period:>6}" + "".join(f"{weight(period, grade):>4}" for grade in range(8))
    studio = draft.sealed()
    yield ""
    yield f"Studio network, sealed: {studio.points} points, {len(studio.lines)} lines"
    yield from table(studio)
    circle = ring(3, RING_TERMS)
    yield ""
    yield f"Ring: {circle.points} points, {len(circle.lines)} lines, all on the same terms"
    yield from table(circle)
    yield ""
    yield from MEANINGS
