"""Every channel of few columns, whole or but for the names of its nets, and channels without their parked pins."""
import itertools
from collections import Counter


def named_channels(width, nets):
    """Every channel of a width with these net numbers, 1 up."""
    for pins in itertools.product(range(nets + 1), repeat=2 * width):
        yield list(pins[:width]), list(pins[width:])


def shapes(width):
    """Every channel of a width, but for the names of its nets: a new net takes the next number."""
    def extend(pins, nets):
        if len(pins) == 2 * width:
            yield pins[:width], pins[width:]
            return
        for net in range(nets + 2):
            yield from extend(pins + (net,), max(nets, net))
    return extend((), 0)


def shape_of(top, bot):
    name = {0: 0}
    for net in [*top, *bot]:
        name.setdefault(net, len(name))
    return tuple(name[n] for n in top), tuple(name[n] for n in bot)


def parked_in(top, bot):
    """The parked nets: the numbers with just one pin."""
    counts = Counter([*top, *bot])
    return {net for net, pins in counts.items() if net and pins == 1}


def without_parked(top, bot):
    """The same channel with the parked pins removed."""
    parked = parked_in(top, bot)
    return [0 if n in parked else n for n in top], [0 if n in parked else n for n in bot]
