"""Channels with several rings: long and short ones, as many nets through other columns, and as many through other nets,
made by hand and drawn."""
import random

import random_channels
import row_cases

# TOP, BOT, and the pairs of the ring with the fewest nets, worked out by hand.
BY_HAND = (
    (*row_cases.EXAMPLES["A"], []),
    (*row_cases.EXAMPLES["C"], [(1, 1), (2, 2)]),  # the walk's ring, begun at the same net
    (*row_cases.EXAMPLES["D"], [(2, 2), (3, 3)]),  # net 1 is above the ring and no part of it
    (*row_cases.EXAMPLES["F"], []),
    ([1, 2, 3, 4, 2, 1], [2, 3, 4, 1, 1, 2], [(1, 1), (2, 5)]),  # the walk shows four nets
    ([1, 2, 3, 3], [2, 3, 1, 2], [(2, 2), (3, 4)]),  # the walk shows three; the shorter ring begins at a higher net
    ([1, 1, 2, 2], [2, 2, 1, 1], [(1, 1), (2, 3)]),  # ties by column
    ([2, 2, 1, 1], [1, 1, 2, 2], [(1, 3), (2, 1)]),  # by the lowest net's column first
    ([3, 4, 1, 2], [4, 3, 2, 1], [(1, 3), (2, 4)]),  # ties by net: the lower net's columns are higher
    ([1, 1, 3, 2], [3, 2, 1, 1], [(1, 1), (3, 3)]),  # a lower column wins over a lower net behind it
    ([1, 1, 2, 3], [2, 3, 1, 1], [(1, 1), (2, 3)]),
    ([1, 2, 3, 4, 1, 5], [2, 3, 1, 5, 5, 4], [(4, 4), (5, 6)]),  # a ring of two beyond a ring of three
    ([5, 3, 1, 4, 2], [4, 1, 5, 2, 3], [(1, 3), (5, 1), (4, 4), (2, 5), (3, 2)]),  # one ring through all, mixed
    ([1, 2, 3, 0], [2, 1, 3, 3], [(1, 1), (2, 2)]),  # a net over itself is no step
    ([1, 2, 2, 4], [2, 1, 5, 1], [(1, 1), (2, 2)]),  # parked pins above and below
    ([1, 2, 3], [2, 3, 4], []),  # a chain between parked pins
    ([511, 1], [1, 511], [(1, 2), (511, 1)]),
)


def layers(count, breadth=2):
    """Layers of nets, each above all of the next layer, and those of the last above those of the first: many rings, all
    of as many nets as there are layers."""
    top, bot = [], []
    for layer in range(count):
        here, after = layer * breadth, (layer + 1) % count * breadth
        for upper in range(breadth):
            for lower in range(breadth):
                top.append(here + upper + 1)
                bot.append(after + lower + 1)
    return top, bot


def pairs(count):
    """So many rings of two nets."""
    return ([n for k in range(count) for n in (2 * k + 1, 2 * k + 2)],
            [n for k in range(count) for n in (2 * k + 2, 2 * k + 1)])


def doubled(rng, top, bot):
    """The same channel with some columns once more, so that there are rings through other columns."""
    again = [rng.randrange(len(top)) for _ in range(rng.randint(1, 4))]
    return top + [top[c] for c in again], bot + [bot[c] for c in again]


def crossed(rng, nets, more):
    """A ring of nets with so many steps more between them: shorter rings, and several of one length."""
    top, bot = row_cases.ring(nets)
    for _ in range(more):
        upper, lower = rng.sample(range(1, nets + 1), 2)
        top.append(upper)
        bot.append(lower)
    return top, bot


def drawn(rng):
    """A channel with rings, most often several of few nets."""
    kind = rng.randrange(6)
    if kind == 0:
        rows = crossed(rng, rng.randint(3, 9), rng.randint(1, 4))
    elif kind == 1:
        rows = doubled(rng, *crossed(rng, rng.randint(2, 6), rng.randint(0, 2)))
    elif kind == 2:
        rows = layers(rng.randint(2, 5), rng.choice((1, 2, 2, 3)))
    elif kind == 3:
        rows = pairs(rng.randint(1, 6))
    elif kind == 4:
        rows = row_cases.random_channel(rng, 12, rng.randint(2, 7), 24)
    else:
        rows = random_channels.tangled(rng, 6)
    return random_channels.renumbered(rng, *random_channels.parking(rng, *random_channels.shuffled(rng, *rows)))


def large(rng):
    """The dearest ones: a ring through all nets, many rings of one length, and steps between many nets."""
    yield random_channels.renumbered(rng, *random_channels.shuffled(rng, *row_cases.ring(511)))
    yield random_channels.shuffled(rng, *layers(128))
    yield random_channels.shuffled(rng, *layers(14, 6))
    yield random_channels.shuffled(rng, *pairs(255))
    yield random_channels.renumbered(rng, *random_channels.shuffled(rng, *crossed(rng, 500, 12)))
    yield crossed(rng, 200, 312)


def add_all(cases):
    rng = random.Random(5)
    for top, bot, _ in BY_HAND:
        cases.fewest(top, bot)
    for _ in range(60):
        cases.fewest(*drawn(rng))
    for rows in large(rng):
        cases.fewest(*rows)
