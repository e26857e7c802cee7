"""Boards made to hurt a judge that sweeps lines: many pieces on few lines, one range in another, equal ones, ones that
end where the next starts, contacts at their ends, pins at both rows, and no track."""
import channel
import random_boards

TRUNK, BRANCH, CONTACT = range(3)
LAST = 9
# Ranges from 0 to 9, in the order of a file. Two have a place in common where one starts at or before the other's end.
RANGES = (
    ((0, 9), (1, 2), (3, 4), (8, 9)), ((0, 5), (1, 2), (4, 9)), ((0, 6), (1, 5), (2, 4), (3, 4), (6, 9)),
    ((0, 3), (3, 6), (6, 9)), ((0, 3), (4, 6), (6, 9)), ((0, 5), (0, 5), (5, 9), (5, 9)),
    ((0, 2), (0, 7), (0, 4), (6, 9)), ((0, 9), (4, 9), (7, 9)), ((0, 2), (1, 9), (3, 4), (5, 6)), ((2, 7),),
    ((0, 2), (1, 3), (5, 7), (6, 9)),
    ((0, 1), (1, 2), (2, 3), (4, 9)), ((0, 8), (1, 7), (2, 3), (9, 10)), ((0, 4), (1, 2), (5, 9)), ((0, 1), (8, 9)), (),
)
NETS = ((1, 1), (1, 2), (1, 0), (0, 1))


def orders(pieces):
    """As they are, from behind, and by their ends."""
    return pieces, pieces[::-1], sorted(pieces, key=lambda p: (p[3], p[2]))


def on_column(ranges, top, bot):
    """Branches of the middle one of three columns between its two pins."""
    pieces = [(BRANCH, 2, a, b) for a, b in ranges]
    for some in orders(pieces):
        yield ([0, top, 0], [0, bot, 0]), LAST - 1, some


def on_track(ranges, top, bot):
    """Trunks of the middle one of three tracks, with a pin above its first column and one below its last; the contacts
    of their branches stand at the ends of the line, or one is missing."""
    trunks = [(TRUNK, 2, a + 1, b + 1) for a, b in ranges]
    ends = [(BRANCH, 1, 2, 4), (CONTACT, 1, 2, 2), (BRANCH, LAST + 1, 0, 2), (CONTACT, LAST + 1, 2, 2)]
    width = max([LAST + 1, *(p[3] for p in trunks)])
    rows = [top, *[0] * (width - 1)], [*[0] * LAST, bot, *[0] * (width - LAST - 1)]
    for some in orders(trunks):
        for wired in (ends + some, some + ends, ends[:3] + some, some + ends[1:]):
            yield rows, 3, wired


def at_ends():
    """A trunk and a branch joined by a contact at an end of the trunk, one column beside it, and in its middle, or by
    three at one point; above its track or not."""
    for column in range(1, 7):
        for low, high in ((2, 4), (0, 2), (1, 3)):
            pieces = [(TRUNK, 2, 2, 5), (CONTACT, column, 2, 2), (BRANCH, column, low, high)]
            alone = [int(c == column) for c in range(1, 7)]
            rising = [1, 2, 3, 4, 5, 6]
            for rows in ((alone, [0] * 6), ([0] * 6, alone), ([1] * 6, [0] * 6), (rising, rising[::-1])):
                for some in (*orders(pieces), [pieces[1]] * 2 + pieces):
                    yield rows, 3, some


def no_track():
    """Branches from pin to pin where there is no track, each once or twice, and places without pins."""
    for rows in (([1], [1]), ([1], [2]), ([1], [0]), ([0], [0]), ([1, 2, 1], [1, 2, 3]), ([1, 2, 0], [2, 2, 1])):
        width = len(rows[0])
        every = [(BRANCH, c, 0, 1) for c in range(1, width + 1)]
        for subset in range(1 << width):
            some = [p for i, p in enumerate(every) if subset >> i & 1]
            yield rows, 0, some
            yield rows, 0, some * 2


def by_hand():
    """Rows, tracks and pieces."""
    for ranges in RANGES:
        for top, bot in NETS:
            if all(b <= LAST for _, b in ranges):
                yield from on_column(ranges, top, bot)
            yield from on_track(ranges, top, bot)
    yield from at_ends()
    yield from no_track()


def crowded_piece(rng, width, tracks, columns, lines):
    """A piece on one of few lines; a contact is near the grid's edges as often as not."""
    kind = rng.choice((TRUNK, BRANCH, CONTACT)) if tracks else BRANCH
    if kind == TRUNK and width > 1:
        first = rng.randint(1, width - 1)
        return kind, rng.choice(lines), first, rng.randint(first + 1, width)
    if kind == CONTACT:
        track = rng.choice(lines)
        return kind, rng.choice((1, width, rng.choice(columns))), track, track
    low = rng.choice((0, rng.randint(0, tracks)))
    return BRANCH, rng.choice(columns), low, rng.choice((tracks + 1, rng.randint(low + 1, tracks + 1)))


def drawn(rng):
    """Pieces on few lines with a channel that they fit, or with any rows: rows, tracks and pieces."""
    width, tracks = rng.randint(1, 8), rng.choice((0, 1, 2, 3, 8))
    columns = [rng.randint(1, width) for _ in range(rng.choice((1, 2, 3)))]
    lines = [rng.randint(1, max(1, tracks)) for _ in range(rng.choice((1, 2)))]
    pieces = [crowded_piece(rng, width, tracks, columns, lines) for _ in range(rng.choice((3, 8, 20, 60)))]
    if rng.random() < 0.5:
        return random_boards.fitted(rng, width, tracks, pieces)
    nets = rng.choice((1, 2, 3))
    rows = tuple([rng.randint(0, nets) for _ in range(width)] for _ in range(2))
    return rows, tracks, pieces


def add_all(cases):
    """One in five of those made by hand, for the gate."""
    for rows, tracks, pieces in list(by_hand())[::5]:
        cases.judge(*rows, channel.encode(len(rows[0]), tracks, pieces))
