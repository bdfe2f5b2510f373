"""Fastest and widest as docs/SWEEPS.md describes them, by rounds over all lines until nothing changes."""

from networks import must


def is_open(line, byte, channels):
    return byte == 0 and line.room >= channels


def best_values(network, closures, channels, start, first, extend, better):
    """Each point's best value over all runs of open lines from the start, or None."""
    best = [None] * network.points
    best[start] = first
    usable = [line for line, byte in zip(network.lines, closures) if is_open(line, byte, channels)]
    changed = True
    while changed:
        changed = False
        for line in usable:
            if best[line.start] is None:
                continue
            value = extend(best[line.start], line)
            if best[line.end] is None or better(value, best[line.end]):
                best[line.end] = value
                changed = True
    return best


def ask(network, closures, start, end, places, channels=None):
    """The questions of both calls, in their order; widest asks for no channels."""
    must(start < network.points and end < network.points, 11)
    must(start != end, 12)
    if channels is not None:
        must(1 <= channels <= 1_000, 13)
    must(len(closures) >= len(network.lines), 16)
    must(places >= network.points, 17)


def fastest(network, closures, start, end, channels, places):
    ask(network, closures, start, end, places, channels)
    best = best_values(network, closures, channels, start, 0, lambda value, line: value + line.delay, lambda a, b: a < b)
    must(best[end] is not None, 20)
    return best[end]


def widest(network, closures, start, end, places):
    ask(network, closures, start, end, places)
    best = best_values(network, closures, 1, start, 1_000, lambda value, line: min(value, line.room), lambda a, b: a > b)
    must(best[end] is not None, 20)
    return best[end]
