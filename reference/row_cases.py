"""Channels and boards for the cases program: fills, rings, bounds, parked pins, and boards for the judge, good ones and
each fault."""
import random

import channel
from small_channels import without_parked

EXAMPLES = {
    "A": ([0, 1, 2, 3], [1, 2, 0, 3]),
    "B": ([0, 1, 6, 1, 2, 3, 5], [6, 3, 5, 4, 0, 2, 4]),
    "C": ([1, 2], [2, 1]),
    "D": ([1, 2, 3, 1], [2, 3, 2, 0]),
    "E": ([1, 0, 1, 2, 0, 2], [0, 3, 0, 0, 3, 0]),
    "F": ([0], [0]),
    "G": ([5], [5]),
}


def chained(nets):
    """Net k above net k + 1 in column k + 1; every net has two pins."""
    top = [1] + list(range(1, nets))
    bot = [0] + list(range(2, nets + 1))
    return top + [0], bot + [nets]


def ring(nets, above=0):
    """A ring of nets, with a chain of further nets above it."""
    top, bot = list(range(1, nets + 1)), list(range(2, nets + 1)) + [1]
    for k in range(above):
        upper = nets + 1 + k
        top += [upper, upper]
        bot += [1 if k == 0 else upper - 1, 0]
    return top, bot


def nested(nets):
    """Nets one inside the other and no two in a column: the density is the number of nets."""
    return list(range(1, nets + 1)) + list(range(nets, 0, -1)), [0] * (2 * nets)


def crowded():
    """All 511 numbers on 512 columns, two of them parked: a chain of 509 nets, whose two free places have the parked
    pins, and two columns more of its last net."""
    top, bot = chained(509)
    bot[0], top[-1] = 510, 511
    return top + [509, 509], bot + [509, 509]


def random_channel(rng, width, nets, fill):
    """Any channel: so many pins of nets up to a number; those with one pin are parked."""
    places = rng.sample(range(2 * width), min(2 * width, fill))
    pins = [0] * (2 * width)
    for place in places:
        pins[place] = rng.randint(1, nets)
    return pins[:width], pins[width:]


def random_free(rng, width, nets):
    """A channel with no two nets in a column, parked ones not counted."""
    top, bot = [0] * width, [0] * width
    for c in range(width):
        net = rng.randint(0, nets)
        row = rng.randrange(3)
        if row != 1:
            top[c] = net
        if row != 0:
            bot[c] = net
    return top, bot


def reserved(rng, top, bot, share, any_place=True):
    """The same channel with a share of its places, or of its free places, given to parked pins."""
    rows = list(top), list(bot)
    unused = sorted(set(range(1, 512)) - set(top + bot))
    rng.shuffle(unused)
    for row in rows:
        for c in range(len(row)):
            if unused and (any_place or row[c] == 0) and rng.random() < share:
                row[c] = unused.pop()
    return rows


# Small channels with a parked pin or several.
PARKED = (
    ([1, 0], [0, 0]),  # example L
    ([1], [0]),
    ([0], [511]),
    ([1], [2]),  # two in one column
    ([1, 2], [3, 4]),
    ([2, 1, 2], [0, 0, 0]),  # within a span
    ([2, 0, 2], [1, 0, 0]),  # opposite the first pin of a net
    ([1, 0, 2], [2, 0, 3]),  # above its first pin and below its last
    ([1, 2, 2], [2, 0, 3]),
    ([2, 1, 3], [1, 3, 0]),  # above a chain of two nets
    ([5, 1, 6], [5, 0, 6]),  # between straight nets
    ([1, 2, 3], [2, 3, 4]),  # at both ends of a chain of two
    ([1, 2, 4], [2, 1, 5]),  # beside a ring
    ([1, 3, 0, 2], [2, 4, 5, 1]),  # between the columns of a ring
    ([3, 1, 2, 1], [1, 2, 1, 4]),  # above a ring and below it
    ([4, 4, 0, 1, 2], [1, 0, 3, 2, 1]),  # beside a ring that has a net above it
)


def parked_channels(rng):
    """Channels with a few, many and nothing but parked pins."""
    yield from PARKED
    yield list(range(1, 512)) + [1], [0] * 512  # net 1 and 510 parked pins
    yield list(range(1, 512)) + [0], [0] * 512  # 511 parked pins
    yield [n if n % 2 else 0 for n in range(512)], [0 if n % 2 else n for n in range(512)]
    yield list(range(1, 257)), [*range(257, 512), 0]  # two in each column but one
    yield crowded()
    for share in (0.02, 0.1, 0.5):
        yield reserved(rng, *EXAMPLES["B"], share)
        yield reserved(rng, *nested(200), share)
        yield reserved(rng, *chained(300), share)
        yield reserved(rng, *ring(40, 3), share)
        yield reserved(rng, *random_free(rng, 30, 9), share)
        yield reserved(rng, [0] * 9, [0] * 9, share)


def channels():
    rng = random.Random(71)
    yield from EXAMPLES.values()
    yield [7, 7, 7], [0, 7, 0]  # three pins and four
    yield [1, 2, 3, 4], [1, 2, 3, 4]  # straight nets alone
    yield [1, 2, 1], [2, 2, 1]
    yield [1, 1, 0, 2, 2], [0, 2, 2, 0, 1]
    for nets in (2, 3, 5, 40, 255, 511):
        yield chained(nets)
    for nets in (2, 3, 4, 17, 128, 255):
        yield ring(nets)
        yield ring(nets, 3)
    for nets in (1, 2, 40, 256):
        yield nested(nets)
    yield from parked_channels(rng)
    yield [n % 511 + 1 for n in range(512)], [(n + 255) % 511 + 1 for n in range(512)]
    for _ in range(30):
        width = rng.choice((2, 3, 4, 6, 9, 14))
        yield random_channel(rng, width, rng.randint(1, width), rng.randint(2, 2 * width))
    for _ in range(15):
        yield random_free(rng, rng.choice((5, 12, 30)), rng.randint(1, 12))
    yield random_channel(rng, 512, 300, 500)
    yield without_parked(*random_channel(rng, 512, 300, 500))
    yield random_channel(rng, 512, 511, 1024)
    yield random_free(rng, 512, 511)
    yield [600, 1], [1, 0]  # refused
    yield [], []


def damaged(rng, tracks, pieces, width):
    """A board's pieces with one of many slips."""
    out = list(pieces)
    kind = rng.randrange(9)
    i = rng.randrange(len(out)) if out else 0
    if kind == 0 and out:
        del out[i]
    elif kind == 1 and out:
        out.append(out[i])
    elif kind == 2 and out:
        k, line, a, b = out[i]
        less = max(a - 1, 0 if k == 1 else 1)
        out[i] = (k, line, less, b if k != 2 else less)
    elif kind == 3 and out:
        k, line, a, b = out[i]
        more = min(b + 1, (width, tracks + 1, max(tracks, 1))[k])
        out[i] = (k, line, a if k != 2 else more, more)
    elif kind == 4 and tracks:
        out.insert(i, (2, rng.randint(1, width), *[rng.randint(1, tracks)] * 2))
    elif kind == 5 and tracks and width > 1:
        a = rng.randint(1, width - 1)
        out.insert(i, (0, rng.randint(1, tracks), a, rng.randint(a + 1, width)))
    elif kind > 6 and out:  # a piece over the whole width or height
        k, line, a, b = out[i]
        out[i] = (0, line, 1, width) if k == 0 and width > 1 else (1, line, 0, tracks + 1)
    else:
        low = rng.randint(0, tracks)
        out.append((1, rng.randint(1, width), low, rng.randint(low + 1, tracks + 1)))
    return out


def judged(cases):
    rng = random.Random(113)
    top, bot = EXAMPLES["A"]
    tracks, _, pieces = channel.draw(top, bot)
    for change in (pieces, pieces[:7] + pieces[8:], pieces[:3] + [(1, 2, 1, 3)] + pieces[4:],
                   pieces + [(0, 2, 3, 4)]):  # good, H, I, J
        cases.judge(top, bot, channel.encode(4, tracks, change))
    for name in "BEFG":
        rows = EXAMPLES[name]
        t, _, ps = channel.draw(*rows)
        cases.judge(*rows, channel.encode(len(rows[0]), t, ps))
        for _ in range(8):
            cases.judge(*rows, channel.encode(len(rows[0]), t, damaged(rng, t, ps, len(rows[0]))))
    wide = ([1, 0, 2], [2, 0, 1])
    # a tangled channel with a good layout of split trunks: net 1 from TOP 1 on track 3 to column 2, down to track 1, on
    # to BOT 3; net 2 on track 2
    good = [(0, 3, 1, 2), (0, 1, 2, 3), (0, 2, 1, 3), (1, 1, 3, 4), (2, 1, 3, 3), (1, 2, 1, 3), (2, 2, 3, 3),
            (2, 2, 1, 1), (1, 3, 0, 1), (2, 3, 1, 1), (1, 1, 0, 2), (2, 1, 2, 2), (1, 3, 2, 4), (2, 3, 2, 2)]
    cases.judge(*wide, channel.encode(3, 3, good))
    cases.judge(*wide, channel.encode(3, 3, good[1:]))
    cases.judge(*wide, channel.encode(3, 3, good + good))
    # a branch over edge places without a pin floats, or goes on from a net
    cases.judge([1, 0], [1, 0], channel.encode(2, 1, [(1, 1, 0, 2), (1, 2, 0, 2)]))
    beyond = [(0, 1, 1, 3), (1, 1, 1, 2), (2, 1, 1, 1), (1, 3, 0, 2), (2, 3, 1, 1)]
    cases.judge([1, 0, 1], [0, 0, 0], channel.encode(3, 1, beyond))
    for _ in range(60):
        width = rng.choice((3, 5, 8))
        rows = random_channel(rng, width, rng.randint(1, width), rng.randint(2, 2 * width))
        try:
            t, _, ps = channel.draw(*rows)
        except channel.Refused:
            t, ps = rng.randint(0, 3), []
        for _ in range(rng.randrange(3)):
            ps = damaged(rng, t, ps, width)
        cases.judge(*rows, channel.encode(width, t, ps))
    parked_boards(cases)
    refused(cases, top, bot, channel.encode(4, tracks, pieces))
    large(cases)


# Boards of channels with parked pins: TOP, BOT, tracks, pieces. The good ones come first.
PARKED_BOARDS = (
    ([1, 0], [0, 0], 0, []),  # example L
    ([1, 0], [0, 0], 3, []),
    ([1, 0], [0, 0], 1, [(1, 1, 1, 2)]),  # copper on a parked pin alone
    ([1, 0], [0, 0], 0, [(1, 1, 0, 1)]),  # on to an edge place without a pin
    ([1, 0], [0, 0], 1, [(1, 1, 1, 2), (2, 1, 1, 1), (0, 1, 1, 2), (2, 2, 1, 1), (1, 2, 0, 2)]),  # to the next column
    ([1], [2], 2, [(1, 1, 0, 1), (1, 1, 2, 3)]),
    ([2, 1, 2], [0, 0, 0], 1, [(0, 1, 1, 3), (1, 1, 1, 2), (2, 1, 1, 1), (1, 3, 1, 2), (2, 3, 1, 1), (1, 2, 0, 2)]),
    ([2, 2], [1, 0], 1, [(0, 1, 1, 2), (1, 1, 1, 2), (2, 1, 1, 1), (1, 2, 1, 2), (2, 2, 1, 1)]),
    ([1], [2], 0, [(1, 1, 0, 1)]),  # two parked pins are joined
    ([1], [2], 1, [(1, 1, 0, 1), (1, 1, 1, 2)]),
    ([1, 2], [0, 0], 1, [(1, 1, 1, 2), (1, 2, 1, 2), (2, 1, 1, 1), (2, 2, 1, 1), (0, 1, 1, 2)]),
    ([0, 0], [9, 4], 1, [(1, 1, 0, 1), (1, 2, 0, 2), (2, 1, 1, 1), (2, 2, 1, 1), (0, 1, 1, 2)]),
    # a parked pin is joined to a net, in its own column and opposite a pin
    ([2, 1, 2], [0, 0, 0], 1, [(0, 1, 1, 3), (1, 1, 1, 2), (2, 1, 1, 1), (1, 3, 1, 2), (2, 3, 1, 1), (1, 2, 1, 2),
                               (2, 2, 1, 1)]),
    ([2, 2], [1, 0], 1, [(0, 1, 1, 2), (1, 1, 0, 2), (2, 1, 1, 1), (1, 2, 1, 2), (2, 2, 1, 1)]),
    ([1, 0], [2, 2], 1, [(0, 1, 1, 2), (1, 1, 0, 2), (2, 1, 1, 1), (1, 2, 0, 1), (2, 2, 1, 1)]),
    ([2, 2], [1, 0], 1, [(0, 1, 1, 2), (1, 1, 0, 2), (2, 1, 1, 1)]),  # and that net is open: the short goes before
    ([2, 2], [1, 0], 1, [(0, 1, 1, 2), (1, 1, 1, 2), (2, 1, 1, 1)]),  # open alone
    ([1, 0], [0, 0], 1, [(1, 1, 1, 2), (1, 2, 0, 2)]),  # floating beside it
    ([1, 0], [0, 0], 2, [(1, 1, 0, 2)]),  # floating below it
    ([1, 0], [0, 0], 1, [(0, 1, 1, 2), (1, 1, 1, 2)]),  # floating across it: there is no contact
)


def parked_boards(cases):
    for top, bot, tracks, pieces in PARKED_BOARDS:
        cases.judge(top, bot, channel.encode(len(top), tracks, pieces))
    rng = random.Random(131)
    for top, bot in parked_channels(rng):
        width = len(top)
        try:
            tracks, _, pieces = channel.draw(top, bot)
        except channel.Refused:
            continue
        cases.judge(top, bot, channel.encode(width, tracks, pieces))
        if width < 10:
            cases.judge(top, bot, channel.encode(width, tracks, damaged(rng, tracks, pieces, width)))
            through = [(1, c, 0, tracks + 1) for c in range(1, width + 1)]
            cases.judge(top, bot, channel.encode(width, tracks, pieces + through))


def refused(cases, top, bot, file):
    cases.judge(top[:3], bot[:3], file)
    cases.judge(top + [0], bot + [0], file)
    cases.judge([512], [512], file)
    cases.judge([1, 1], [0], file)
    cases.judge(top, bot, file[:-1])
    cases.judge(top, bot, b"")
    cases.judge(top, bot, bytes([file[0], file[1], file[2], file[3] | 1]) + file[4:])
    cases.judge(top, bot, file[:4] + b"\xff\xff\xff\xff" + file[8:])


def large(cases):
    """The widest boards, and files of 4,095 pieces."""
    top, bot = nested(256)
    t, _, ps = channel.draw(top, bot)
    cases.judge(top, bot, channel.encode(512, t, ps))
    full = ps + [ps[k % len(ps)] for k in range(4095 - len(ps))]  # repeated pieces are allowed
    cases.judge(top, bot, channel.encode(512, t, full))
    cases.judge(top, bot, channel.encode(512, t, full[:-1] + [(2, 512, t, t)]))
    cases.judge([1] * 512, [1] * 512, channel.encode(512, 1, [(1, c, 0, 2) for c in range(1, 513)] + [(0, 1, 1, 512)]))


def add_all(cases):
    for rows in channels():
        cases.channel_cases(*rows)
    judged(cases)
