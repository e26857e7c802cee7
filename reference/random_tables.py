"""Tables of blanks drawn by a seeded generator, and tracks to ask them for: tables that pass, odd ones and damaged
ones."""
import channel
import table_cases

ODD = (0, 1, 2, 63, 64, 65, 511, 512, 513, 1023, 2**16, 2**16 + 8, 2**31, table_cases.HIGHEST)


def rising(rng, length):
    """So many entries that pass, drawn from all, or from few about one of them, where gaps are rare."""
    low = rng.randint(0, channel.MOST_TRACKS - length)
    high = rng.choice((channel.MOST_TRACKS, min(channel.MOST_TRACKS, low + length + 8)))
    return sorted(rng.sample(range(low + 1, high + 1), length))


def good(rng):
    return rising(rng, rng.choice((1, 2, 3, rng.randint(1, 12), rng.randint(1, 64), 63, 64)))


def odd(rng):
    """Too many entries that would pass, or few of any kind."""
    if rng.random() < 0.4:
        return rising(rng, rng.choice((65, 66, rng.randint(65, 200), 512)))
    return [rng.choice(ODD) if rng.random() < 0.6 else rng.randint(0, 520) for _ in range(rng.randint(0, 6))]


def damaged(rng):
    """A table that passes, with one entry changed, doubled or left out, or two exchanged; at times twice."""
    table = good(rng)
    for _ in range(rng.choice((1, 1, 2))):
        i, j, slip = rng.randrange(len(table)), rng.randrange(len(table)), rng.randrange(7)
        if slip < 3:
            table[i] = rng.choice((rng.choice(ODD), rng.randint(0, 520), max(0, table[i] - 1), table[i] + 1, table[j]))
        elif slip < 5:
            table[i], table[j] = table[j], table[i]
        elif slip == 5:
            table.insert(i, table[i])
        elif len(table) > 1:
            del table[i]
    return table


def drawn(rng):
    return rng.choice((good, good, damaged, damaged, odd))(rng)


def tracks(rng, table):
    """Tracks about an entry, of any number that some table holds or nearly, or odd ones."""
    kind = rng.random()
    if kind < 0.5 and table:
        return min(max(0, rng.choice(table) + rng.choice((-1, 0, 1))), table_cases.HIGHEST)
    return rng.randint(0, 520) if kind < 0.85 else rng.choice(ODD)
