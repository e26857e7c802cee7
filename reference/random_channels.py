"""Channels drawn by a seeded generator: every shape that routes or is tangled, with and without parked pins, and rows
that refusals 3 to 5 catch."""
import row_cases
import small_channels

NETS = range(1, 512)


def renumbered(rng, top, bot):
    """The same channel with other net numbers, gaps among them; the lowest and the highest number are drawn often."""
    nets = sorted(set(top + bot) - {0})
    numbers = set(rng.sample(NETS, len(nets)))
    if 0 < len(nets) < 500 and rng.random() < 0.3:
        numbers = set(rng.sample(range(2, 511), len(nets) - 1)) | {rng.choice((1, 511))}
    numbers = list(numbers)
    rng.shuffle(numbers)
    name = dict(zip(nets, numbers))
    return [name.get(n, 0) for n in top], [name.get(n, 0) for n in bot]


def shuffled(rng, top, bot):
    """The same columns in another order."""
    order = list(range(len(top)))
    rng.shuffle(order)
    return [top[c] for c in order], [bot[c] for c in order]


def parking(rng, top, bot):
    """The same channel as it is, with some, or with many of its places given to parked pins, or with none parked."""
    kind = rng.randrange(8)
    if kind < 2:
        return small_channels.without_parked(top, bot)
    if kind < 4:
        return top, bot
    return row_cases.reserved(rng, top, bot, rng.choice((0.03, 0.1, 0.1, 0.3, 0.6, 1)), kind == 4)


def narrow(rng, widest=14):
    """Any channel: pins in most places, or in few."""
    width = rng.randint(1, widest)
    return row_cases.random_channel(rng, width, rng.randint(1, width + 1), rng.randint(0, 2 * width))


def ranked(rng, width, nets):
    """Nets have ranks and the TOP one of a column ranks higher: many steps, paths of several nets, and no ring."""
    top, bot = [], []
    for _ in range(width):
        pair = sorted(rng.randint(1, nets) for _ in range(2))
        top.append(pair[1] if rng.random() < 0.8 else 0)
        bot.append(pair[0] if rng.random() < 0.8 else 0)
    return top, bot


def paired(rng, width, nets):
    """Nets of two or three pins near each other, as a sparse channel has: many nets share a track. Where one pin takes
    the place of another, a net may be left parked."""
    top, bot = [0] * width, [0] * width
    for net in range(1, nets + 1):
        column = rng.randrange(width)
        for _ in range(rng.randint(2, 3)):
            row = rng.choice((top, bot))
            row[min(width - 1, column + rng.randrange(8))] = net
    return top, bot


def straight(rng, width):
    """Straight nets between others."""
    nets = max(1, width // 3)
    top, bot = row_cases.random_free(rng, width, nets)
    for net in range(nets + 1, nets + 1 + rng.randint(1, width)):
        c = rng.randrange(width)
        top[c] = bot[c] = net
    return top, bot


def chained(rng, longest=30):
    return shuffled(rng, *row_cases.chained(rng.randint(2, longest)))


def tangled(rng, longest=20):
    """A ring with nets above it, which are stuck and no part of it, and at times some free columns or a loose channel
    beside it."""
    top, bot = row_cases.ring(rng.randint(2, longest), rng.randint(0, 4))
    free = [0] * rng.choice((0, 0, 1, 3))
    top, bot = top + free, bot + free
    if rng.random() < 0.5:
        more = narrow(rng, 8)
        above = max(top + bot)
        top = top + [n and n + above for n in more[0]]
        bot = bot + [n and n + above for n in more[1]]
    return shuffled(rng, top, bot)


def escaping(rng):
    """A narrow channel that escapes refusals 3 to 5."""
    kind = rng.randrange(8)
    width = rng.randint(1, 20)
    if kind < 2:
        rows = narrow(rng)
    elif kind == 2:
        rows = row_cases.random_free(rng, width, rng.randint(1, 12))
    elif kind == 3:
        rows = ranked(rng, width, rng.randint(2, 9))
    elif kind == 4:
        rows = paired(rng, 2 * width, width)
    elif kind == 5:
        rows = straight(rng, width)
    elif kind == 6:
        rows = chained(rng)
    else:
        rows = tangled(rng)
    return renumbered(rng, *parking(rng, *rows))


def wide(rng):
    """A channel of 512 columns, or nearly so, that escapes refusals 3 to 5."""
    width = rng.choice((512, 512, 511, 500, rng.randint(100, 512)))
    kind = rng.randrange(8)
    if kind == 0:
        rows = row_cases.random_channel(rng, width, rng.randint(1, 511), rng.randint(2, 2 * width))
    elif kind == 1:
        rows = row_cases.random_free(rng, width, rng.randint(2, 511))
    elif kind == 2:
        rows = ranked(rng, width, rng.randint(2, 200))
    elif kind == 3:
        rows = paired(rng, width, rng.randint(50, 400))
    elif kind == 4:
        rows = tangled(rng, 255)
    elif kind == 5:
        rows = row_cases.nested(rng.randint(2, 256))
    elif kind == 6:
        rows = chained(rng, 511)
    else:
        rows = [0] * width, [0] * width  # for parked pins alone
    return renumbered(rng, *parking(rng, *rows))


def high(rng, top, bot):
    """Some numbers over 511, the last ones of 32 bits among them."""
    rows = list(top), list(bot)
    for _ in range(rng.randint(1, 3)):
        row = rng.choice(rows)
        row[rng.randrange(len(row))] = rng.choice((512, 513, 1023, 65535, 65536, 65537, 2**31, 2**32 - 1))
    return rows


def uneven(rng, top, bot):
    """Rows cut or lengthened, each by itself."""
    rows = []
    for row in (top, bot):
        length = rng.choice((0, 1, len(row), len(row) + 1, rng.randint(0, 520), 512, 513))
        rows.append((row + [0] * 600)[:length])
    return rows


def refused(rng):
    """Rows that refusals 3 to 5 mostly catch, two of them at once at times."""
    rows = escaping(rng)
    for change in rng.choice(((high,), (high,), (uneven,), (high, uneven))):
        rows = change(rng, *rows)
    return list(rows[0]), list(rows[1])
