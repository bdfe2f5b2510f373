"""Tariffs as docs/TARIFFS.md describes them. A tariff is a function from a line to its price."""

from networks import must

# The greatest value of each number that a tariff sees.
SEEN = {"rate": 10_000, "grade": 7, "jitter": 1_000, "loss": 1_000}


def charged(price):
    """A tariff that asks nothing where a number is out of a line's range."""

    def asked(line):
        numbers = line._asdict()
        if any(not 0 <= numbers[name] <= top for name, top in SEEN.items()):
            return 0
        return price(line)

    return asked


rate = charged(lambda line: line.rate)


def balanced(jitter_bound, loss_bound):
    must(1 <= jitter_bound <= 1_000 and 1 <= loss_bound <= 1_000, 9)
    return charged(lambda line: max(line.jitter * loss_bound, line.loss * jitter_bound))


class Period:
    """The period tariff with its settings."""

    def __init__(self):
        self.period = 0
        self.weights = {(period, grade): 1 for period in range(4) for grade in range(8)}

    def set_period(self, period):
        must(0 <= period <= 3, 8)
        self.period = period

    def set_weight(self, period, grade, weight):
        must((period, grade) in self.weights and 1 <= weight <= 100, 8)
        self.weights[period, grade] = weight

    def price(self, line):
        def weighed(line):
            price = 0 if line.grade == 7 else line.rate * self.weights[self.period, line.grade]
            return 1 if self.period == 3 and price == 0 else price

        return charged(weighed)(line)
