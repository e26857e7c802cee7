"""A customer's own tables of blanks (Req 03): made by hand, each rule just kept and just broken; every table of few
entries over telling numbers; long ones with one slip; and those of the cases program."""
import itertools

import channel

HIGHEST = 2**32 - 1  # the highest number of an entry's 32 bits
FULL = [*range(8, 512, 8), 512]  # 64 entries, the most
GOOD = (
    [1], [2], [8], [511], [512], [1, 2], [1, 512], [511, 512], [1, 2, 3], [100, 200, 300], list(channel.STOCK),
    list(range(1, 64)), list(range(1, 65)), list(range(449, 513)), FULL,
)  # fmt: skip
BAD = (
    [], [0], [513], [0, 1], [1, 0], [0, 0], [8, 8], [8, 8, 12], [8, 12, 12], [12, 8], [8, 16, 12, 24], [3, 2, 1],
    [512, 511], [512, 512], [512, 513], [513, 512], [8, 0, 12], [8, 513, 12], [8, 12, 513], [8, 600, 601], [0, 513],
    [1, 1, 2, 2], [8, 12, 8, 12],
    # none may be taken for the number that its lower bits have
    [2**16], [2**16 + 8], [8, 2**16 + 12], [2**31 + 8], [8, 2**24 + 12], [HIGHEST], [8, HIGHEST], [HIGHEST - 7, 8],
    [0, *FULL[1:]], [*FULL[:-1], 513], [*FULL[:-1], 504], [*FULL[:-1], 8], [*FULL[:-2], 512, 512], FULL[::-1], [1] * 64,
    # over 64 entries: no entry is the place, whether all are good or none is
    list(range(1, 66)), [*FULL, 513], [*FULL, 512], [0] * 65, [513] * 65, list(range(65, 0, -1)), list(range(1, 129)),
    list(range(1, 513)), [8] * 1000,
)  # fmt: skip
SMALL_NUMBERS = (0, 1, 2, 3, 511, 512, 513, HIGHEST)
SMALL_TRACKS = (0, 1, 2, 3, 4, 510, 511, 512, 513, HIGHEST)
RISING_NUMBERS = (1, 2, 3, 4, 5, 508, 509, 510, 511, 512)
RISING_TRACKS = (*range(7), *range(507, 514))
LONG_TRACKS = (0, 9, 256, 512, 513)


def tracks_about(table):
    """Numbers of tracks that tell: about each entry, about the bounds, and some whose lower bits are low numbers."""
    near = {entry + by for entry in table for by in (-1, 0, 1)}
    return sorted(tracks for tracks in near | {0, 1, 511, 512, 513, 2**16, 2**16 + 1, 2**31, HIGHEST}
                  if 0 <= tracks <= HIGHEST)


def small(longest):
    """Every table of up to so many entries over a few numbers, with telling tracks."""
    for length in range(longest + 1):
        for table in itertools.product(SMALL_NUMBERS, repeat=length):
            yield from itertools.product([table], SMALL_TRACKS)


def rising():
    """Every table that passes over a few other numbers, with telling tracks."""
    for length in range(1, len(RISING_NUMBERS) + 1):
        for table in itertools.combinations(RISING_NUMBERS, length):
            yield from itertools.product([table], RISING_TRACKS)


def slips(table):
    """A table with one slip in each of its places: a bad number, that of the entry before, two entries exchanged, an
    entry doubled or left out."""
    for i, entry in enumerate(table):
        before, behind = table[:i], table[i + 1:]
        for other in (0, 513, *before[-1:]):
            yield [*before, other, *behind]
        yield [*before, *behind[:1], entry, *behind[1:]]
        yield [*before, entry, entry, *behind]
        yield [*before, *behind]


def long():
    """Tables of the most entries, as they are and with a slip, with telling tracks."""
    for table in (FULL, list(range(1, 65))):
        for slip in (table, *slips(table)):
            yield from itertools.product([slip], LONG_TRACKS)


def by_hand():
    """The tables made by hand with telling tracks, and the stock as a table with every number of tracks up to 600."""
    for table in GOOD + BAD:
        yield from itertools.product([table], tracks_about(table))
    yield from itertools.product([list(channel.STOCK)], range(601))


def in_two_bytes(numbers):
    return [number for number in numbers if number < 2**16]


def add_all(cases):
    """Each table made by hand with all its tracks, where its numbers fit into two bytes; the stock with tracks 0 to
    600; the stock with a slip; and a table that is asked for nothing."""
    for table in GOOD + BAD:
        if table == in_two_bytes(table):
            cases.own_blank(table, in_two_bytes(tracks_about(table)))
    cases.own_blank(channel.STOCK, range(601))
    for table in slips(channel.STOCK):
        cases.own_blank(table, LONG_TRACKS)
    cases.own_blank([8, 12], [])
