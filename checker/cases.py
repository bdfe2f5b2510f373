"""The printout of docs/WORKED-CASES.md."""

import tariffs
from networks import NO_LINE


def weight_five():
    tariff = tariffs.Period()
    tariff.set_weight(0, 0, 5)
    return tariff.price


def busy():
    tariff = tariffs.Period()
    tariff.set_period(3)
    return tariff.price


# What is priced, the tariff, the line, and the price as worked out by hand.
PRICES = [
    ("balanced, bounds J 10 and L 4; jitter 3, loss 2", tariffs.balanced(10, 4), NO_LINE._replace(jitter=3, loss=2), 20),
    ("period 0, weight 5 for class 0; class 0, rate 30", weight_five(), NO_LINE._replace(rate=30), 150),
    ("period 3, weights 1; class 7, rate 30", busy(), NO_LINE._replace(rate=30, grade=7), 1),
]


def printout():
    yield "WORKED CASES: what the code gives, and what was worked out"
    yield ""
    yield f"{'price of a line':<52}{'given':>8}{'worked':>8}"
    for name, tariff, line, worked in PRICES:
        yield f"{name:<52}{tariff(line):>8}{worked:>8}"
    yield ""
    yield f"{len(PRICES)} cases in the table that is proved"
