"""Pairs and threes of pin lists for one panel (Req 09): made by hand with what they are joined to or refused with, and
drawn, most often about the highest number or the last column that a panel has."""
import random

import random_channels
import row_cases

A, B, C, D, F, G = (row_cases.EXAMPLES[name] for name in "ABCDFG")
L = row_cases.PARKED[0]
HIGHEST, WIDEST = 511, 512
FAR = 65535  # the highest number that a case of the gate can hold
NONE = [], []


def free(columns):
    """A list of so many columns without a pin."""
    return [0] * columns, [0] * columns


def same(net, columns=1):
    """A list of so many columns with one net in every place."""
    return [net] * columns, [net] * columns


# Two lists and the joined rows, worked out by hand.
JOINED = (
    (A, A, ([0, 1, 2, 3, 0, 4, 5, 6], [1, 2, 0, 3, 4, 5, 0, 6])),
    (B, B, ([0, 1, 6, 1, 2, 3, 5, 0, 7, 12, 7, 8, 9, 11], [6, 3, 5, 4, 0, 2, 4, 12, 9, 11, 10, 0, 8, 10])),
    (A, C, ([0, 1, 2, 3, 4, 5], [1, 2, 0, 3, 5, 4])),  # the second is tangled
    (C, A, ([1, 2, 0, 3, 4, 5], [2, 1, 3, 4, 0, 5])),  # the first
    (C, D, ([1, 2, 3, 4, 5, 3], [2, 1, 4, 5, 4, 0])),  # both
    (F, A, ([0, 0, 1, 2, 3], [0, 1, 2, 0, 3])),  # no net in the first: nothing is raised
    (A, F, ([0, 1, 2, 3, 0], [1, 2, 0, 3, 0])),
    (F, F, ([0, 0], [0, 0])),
    (G, G, ([5, 10], [5, 10])),  # one net, and its number is 5
    (([9, 4, 4], [9, 0, 2]), A, ([9, 4, 4, 0, 10, 11, 12], [9, 0, 2, 10, 11, 0, 12])),  # gaps, the highest first
    (L, L, ([1, 0, 2, 0], [0, 0, 0, 0])),
    (([1, 1, 9], [0, 0, 0]), G, ([1, 1, 9, 14], [0, 0, 0, 14])),  # the highest number is parked
    (([1, 1, 0], [0, 0, 9]), G, ([1, 1, 0, 14], [0, 0, 9, 14])),  # and stands in BOT
    (([0, 3], [7, 3]), ([0, 1], [1, 0]), ([0, 3, 0, 8], [7, 3, 8, 0])),
    (([1, 1], [0, 0]), ([1], [2]), ([1, 1, 2], [0, 0, 3])),  # what is parked in the second stays so
    (([1], [2]), ([1, 2], [2, 1]), ([1, 3, 4], [2, 4, 3])),  # parked pins, then a ring of the same numbers
    (same(500), same(11), ([500, 511], [500, 511])),  # the highest number that there is
    (same(500), ([11, 0, 10], [0, 9, 11]), ([500, 511, 0, 510], [500, 0, 509, 511])),
    (([510], [0]), ([1], [0]), ([510, 511], [0, 0])),
    (same(511), F, ([511, 0], [511, 0])),
    (F, same(511), ([0, 511], [0, 511])),
    (([255, 0], [0, 256]), ([0, 255], [254, 0]), ([255, 0, 0, 511], [0, 256, 510, 0])),
    (free(511), same(511), ([0] * 511 + [511], [0] * 511 + [511])),  # the last column that there is
    (same(1), free(511), ([1] + [0] * 511, [1] + [0] * 511)),
    (same(2, 256), same(1, 256), ([2] * 256 + [3] * 256, [2] * 256 + [3] * 256)),
)

# Two lists, and the number and place that they are refused with, found by hand.
REFUSED = (
    # the first list alone
    (NONE, A, (4, 1)), (([1, 1], [0]), A, (4, 2)), (([], [1]), A, (4, 1)), (same(512), A, (5, 1)),
    (([0, 0], [0, 600]), A, (5, 4)), (([1, FAR, 512], [512, 0, 0]), A, (5, 2)), (free(513), A, (3, 513)),
    (([0] * 513, [0]), A, (3, 513)), (([0], [0] * 513), A, (3, 513)),
    # the second alone: its places are those that it has alone
    (A, NONE, (4, 1)), (A, ([1], [1, 1]), (4, 2)), (A, ([1], []), (4, 1)), (A, ([0, 512], [0, 0]), (5, 2)),
    (A, ([0, 0], [0, FAR]), (5, 4)), (A, ([3, 3, 3], [600, 0, 700]), (5, 4)), (A, free(513), (3, 513)),
    (A, ([0], [0] * 513), (3, 513)), (C, same(512), (5, 1)), (F, same(512), (5, 1)),
    # both: the first's is told
    (NONE, NONE, (4, 1)), (([1], []), same(600), (4, 1)), (same(600), NONE, (5, 1)), (same(600), free(513), (5, 1)),
    (([1, 700], [0, 0]), ([700, 1], [0, 0]), (5, 2)), (([0, 0], [0, 512]), ([512], [0]), (5, 4)),
    (([1, 2, 3], [1]), ([1], []), (4, 2)), (free(513), NONE, (3, 513)), (free(513), same(512), (3, 513)),
    (([0, 0], [0]), free(513), (4, 2)),
    # the panel is too wide
    (free(512), F, (3, 513)), (F, free(512), (3, 513)), (free(256), free(257), (3, 513)),
    (free(512), free(512), (3, 513)), (same(1, 512), C, (3, 513)),
    # the second list's own refusal goes before that
    (free(512), same(512), (5, 1)), (free(512), NONE, (4, 1)), (same(511, 512), ([0, 0], [0, 513]), (5, 4)),
    # the panel is full
    (same(500), same(12), (18, 512)), (([511], [0]), ([1], [0]), (18, 512)), (([0], [511]), ([0], [1]), (18, 512)),
    (same(511), same(511), (18, 1022)), (same(1), same(511), (18, 512)), (C, same(511), (18, 513)),
    (same(510), ([9, 4, 1], [7, 3, 2]), (18, 512)),  # 519, 514, 511, 517, 513 and 512
    (same(511), ([9, 4], [7, 3]), (18, 514)),  # the lowest is the last
    (same(300), ([212, 300, 211], [0, 0, 0]), (18, 512)), (same(100), ([500, 411, 0], [450, 412, 411]), (18, 512)),
    (same(511), ([0, 0, 7], [0, 0, 7]), (18, 518)), (([1, 1, 509], [0, 0, 0]), ([3, 2], [2, 4]), (18, 512)),
    (([511, 1], [1, 511]), C, (18, 512)),  # both tangled
    # too wide and full: the former is told
    (same(511, 512), same(1), (3, 513)), (same(1, 2), same(511, 511), (3, 513)),
    (same(511, 256), same(511, 257), (3, 513)),
)


def numbered(rng, rows, highest):
    """The same list with other net numbers, of which the highest is as given, if that is enough for its nets."""
    nets = sorted({*rows[0], *rows[1]} - {0})
    numbers = rng.sample(range(1, max(highest, len(nets))), len(nets) - 1) + [max(highest, len(nets))] if nets else []
    rng.shuffle(numbers)
    name = dict(zip(nets, numbers))
    return [name.get(net, 0) for net in rows[0]], [name.get(net, 0) for net in rows[1]]


def small(rng):
    """A list of few columns and low numbers, with gaps at times."""
    rows = random_channels.escaping(rng)
    return numbered(rng, rows, len({*rows[0], *rows[1]}) + rng.choice((-1, -1, 0, 3, 30)))


def full(rng, lists):
    """So many lists whose highest numbers together are 511 or nearly so."""
    left = HIGHEST + rng.choice((-1, 0, 0, 0, 1, 2, 40))
    for position in range(lists, 0, -1):
        highest = left if position == 1 else rng.choice((1, left // 2, left - 1, left, rng.randint(1, HIGHEST)))
        rows = numbered(rng, random_channels.escaping(rng), min(max(highest, 1), HIGHEST))
        left -= max(rows[0] + rows[1])
        yield rows


def wide(rng, lists):
    """So many lists that have 512 columns together, or nearly so."""
    left = WIDEST + rng.choice((-1, 0, 0, 0, 1, 9))
    for position in range(lists, 0, -1):
        columns = left if position == 1 else rng.choice((1, left // 2, left - 1, rng.randint(1, WIDEST)))
        columns = min(max(columns, 1), WIDEST)
        left -= columns
        nets = rng.randint(1, 250)
        yield row_cases.random_channel(rng, columns, nets, rng.randint(0, 2 * columns))


def fitting(rng, lists=2):
    """Lists that are not refused alone; most of them fit on a panel."""
    kind = rng.randrange(10)
    if kind < 5:
        return [small(rng) for _ in range(lists)]
    return list((full if kind < 9 else wide)(rng, lists))


def drawn(rng):
    """Two lists: in half of the draws such as fit or nearly so, else with one or both refused alone."""
    first, second = fitting(rng)
    kind = rng.randrange(8)
    if kind in (4, 6):
        first = random_channels.refused(rng)
    if kind in (5, 6):
        second = random_channels.refused(rng)
    if kind == 7:
        first, second = random_channels.wide(rng), random_channels.refused(rng)
    return first, second


def add_all(cases):
    rng = random.Random(9)
    for first, second, _ in JOINED + REFUSED:
        cases.join(first, second)
    for _ in range(60):
        cases.join(*([[min(net, FAR) for net in row] for row in rows] for rows in drawn(rng)))
    for _, _, rows in JOINED[:12]:  # what is asked of any list, of these
        cases.channel_cases(*rows)
