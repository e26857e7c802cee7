"""Lists of calls to a draft (Req 14): made by hand with what each call answers, from an empty draft and from words of
any kind; every list of few calls over a few of them; and drawn ones."""
import random
from itertools import product

import batch
import drafts

HIGHEST, LAST, MOST = drafts.HIGHEST_NET, drafts.COLUMNS, 2**32 - 1
FAR = 65535  # the highest number that a case of the gate can hold
CLEAR, GREATEST = ("clear",), ("greatest",)
# Numbers of no net and columns that are none; some have the lower bits of good ones.
NO_NETS = (0, 512, 513, 600, 1023, FAR, 2**16, 2**16 + 1, 2**31, 2**31 + 7, MOST)
OUTSIDE = (0, 513, 514, 1024, FAR, 2**16, 2**16 + 1, 2**31 + 1, 2**32 - 511, MOST)
# Columns that do not rise within 1 to 512.
NO_SPANS = ((0, 0), (0, 1), (0, 512), (1, 1), (7, 7), (512, 512), (2, 1), (512, 1), (1, 0), (1, 513), (512, 513),
            (513, 514), (513, 513), (1, FAR), (FAR, 1), (2**16 + 1, 2**16 + 2), (1, 2**16 + 2), (2**16 + 1, 9),
            (2**31, 2**31 + 1), (1, MOST), (MOST, 1), (MOST, MOST), (0, MOST), (MOST, 0))
# Numbers about the ends of words of 64 bits, and of their halves.
ABOUT_WORDS = (1, 2, 31, 32, 33, 62, 63, 64, 65, 95, 96, 127, 128, 129, 191, 192, 255, 256, 257, 319, 320, 383, 384,
               447, 448, 449, 480, 510, 511)


def arrive(net, first, last):
    return "arrive", net, first, last


def leave(net):
    return "leave", net


def count(column):
    return "count", column


def split(pairs):
    """Calls with their answers as two lists; an answer is a value, or the number and place of a refusal."""
    return [call for call, _ in pairs], [due if isinstance(due, tuple) else (0, due) for _, due in pairs]


def every_count(dues):
    """All columns from 1 on are asked; those that no number is given for have none."""
    return [(count(c), dues[c - 1] if c <= len(dues) else 0) for c in range(1, LAST + 1)]


def outside():
    return [(count(column), 0) for column in OUTSIDE]


def refused(net):
    """A net arrives with each pair of columns that do not rise."""
    return [(arrive(net, *columns), (21, net)) for columns in NO_SPANS]


def nested(net):
    """The span of a net of the fullest draft: the 511 nets lie one in the other by twos, all in columns 256 and 257."""
    return 1 + (net - 1) // 2, LAST - (net - 1) // 2


# The columns that the gate asks for in lists made by hand.
GATE_COLUMNS = (*range(8), 10, 11, 20, 21, 30, 40, 41, 255, 256, 257, *range(509, 515), FAR)


# --- made by hand ---------------------------------------------------------------------------------------------------

COMING = [
    (GREATEST, 0), (count(1), 0), (leave(1), (23, 1)), (arrive(1, 1, 3), 0), *every_count([1, 1, 1]), (GREATEST, 1),
    (arrive(2, 3, 5), 0), *every_count([1, 1, 2, 1, 1]), (GREATEST, 2), *outside(), (leave(1), 0),
    *every_count([0, 0, 1, 1, 1]), (GREATEST, 1), (leave(1), (23, 1)), (arrive(2, 1, 2), (22, 2)),
    (arrive(1, 5, 6), 0), *every_count([0, 0, 1, 1, 2, 1]), (GREATEST, 2), (leave(2), 0), (GREATEST, 1),
    (leave(2), (23, 2)), (leave(1), 0), (GREATEST, 0), (count(5), 0),
]
CLEARING = [
    (CLEAR, 0), (arrive(5, 1, 512), 0), (arrive(511, 2, 511), 0), (GREATEST, 2), (CLEAR, 0), (GREATEST, 0),
    *every_count([]), (leave(5), (23, 5)), (arrive(5, 2, 3), 0), (CLEAR, 0), (CLEAR, 0), (leave(5), (23, 5)),
    (arrive(511, 511, 512), 0), (GREATEST, 1), (count(512), 1), (count(510), 0),
]
NUMBERS = [
    *((arrive(net, 1, 2), (21, net)) for net in NO_NETS), *((leave(net), (21, net)) for net in NO_NETS),
    (GREATEST, 0), (arrive(1, 1, 2), 0), (arrive(511, 511, 512), 0), *((leave(net), (21, net)) for net in NO_NETS),
    *((arrive(net, 3, 3), (21, net)) for net in NO_NETS), *every_count([1, 1] + [0] * 508 + [1, 1]), (GREATEST, 1),
    *outside(), (leave(511), 0), (leave(1), 0), (GREATEST, 0),
]
# 21 goes before 22: the columns are looked at also where the net is here.
SPANS = [
    *refused(5), *every_count([]), (arrive(5, 1, 512), 0), *refused(5), (GREATEST, 1), (arrive(5, 1, 2), (22, 5)),
    *refused(6), *every_count([1] * 512), (leave(5), 0), *refused(5), (leave(5), (23, 5)), (arrive(5, 1, 2), 0),
    (leave(5), 0), (arrive(5, 511, 512), 0), *every_count([0] * 510 + [1, 1]), *refused(511), (GREATEST, 1),
]
# The net is here wherever it is marked, and not only where it would come.
HERE = [
    (arrive(7, 10, 20), 0),
    *((arrive(7, *columns), (22, 7)) for columns in (
        (30, 40), (1, 5), (1, 9), (21, 22), (15, 16), (10, 20), (1, 512), (5, 12), (19, 30), (511, 512), (1, 2))),
    *every_count([0] * 9 + [1] * 11), (GREATEST, 1), (leave(8), (23, 8)), (leave(6), (23, 6)), (leave(71), (23, 71)),
    (leave(39), (23, 39)), (arrive(71, 1, 512), 0), (leave(7), 0), *every_count([1] * 512), (arrive(7, 30, 40), 0),
    *every_count([1] * 29 + [2] * 11 + [1] * 472), (leave(7), 0), (leave(7), (23, 7)), (leave(71), 0), (GREATEST, 0),
]
WORDS = [
    *((arrive(net, 2, 3), 0) for net in ABOUT_WORDS), *every_count([0, 29, 29]), (GREATEST, 29),
    *((arrive(net, 4, 5), (22, net)) for net in ABOUT_WORDS),
    *(pair for i, net in enumerate(ABOUT_WORDS) for pair in (
        (leave(net), 0), (leave(net), (23, net)), (count(2), 28 - i), (count(3), 28 - i), (GREATEST, 28 - i))),
    *every_count([]),
]
# The greatest stands in the first columns, in the last ones, in one between, or in all.
ENDS = [
    (arrive(1, 1, 2), 0), (arrive(2, 1, 3), 0), (leave(1), 0), (arrive(3, 1, 2), 0), (arrive(4, 2, 4), 0),
    (GREATEST, 3), (leave(4), 0), (GREATEST, 2), (CLEAR, 0), (arrive(9, 511, 512), 0), (arrive(10, 510, 511), 0),
    (GREATEST, 2), (leave(10), 0), (arrive(11, 256, 512), 0), (GREATEST, 2), (count(512), 2), (count(511), 2),
    (count(510), 1), (CLEAR, 0), (arrive(100, 1, 256), 0), (arrive(101, 256, 512), 0), (GREATEST, 2), (count(256), 2),
    (leave(100), 0), (arrive(100, 1, 255), 0), (GREATEST, 1), *every_count([1] * 512),
]
FULLEST = [
    *((arrive(net, *nested(net)), 0) for net in range(1, HIGHEST + 1)), (GREATEST, 511),
    *every_count([2 * c for c in range(1, 256)] + [511, 511] + [2 * (513 - c) for c in range(258, 513)]), *outside(),
    *((arrive(net, 1, 2), (22, net)) for net in ABOUT_WORDS), *((leave(net), 0) for net in range(2, 511, 2)),
    *every_count([*range(1, 257), *range(256, 0, -1)]), (GREATEST, 256), (arrive(510, 1, 512), 0), (GREATEST, 257),
    (count(1), 2), (count(512), 2), (CLEAR, 0), (GREATEST, 0), *every_count([]),
]
BY_HAND = (COMING, CLEARING, NUMBERS, SPANS, HERE, WORDS, ENDS, FULLEST)
# Each call, and each refusal but 1.
SELF = [
    (arrive(5, 2, 4), 0), (arrive(5, 1, 2), (22, 5)), (arrive(512, 1, 2), (21, 512)), (count(3), 1), (GREATEST, 1),
    (leave(5), 0), (leave(5), (23, 5)), (CLEAR, 0),
]
# Every call refuses with 1 where fewer than 4,096 words are lent, whatever else is wrong.
SHORT = [(call, (1, 4096)) for call in (CLEAR, arrive(1, 1, 2), arrive(0, 1, 2), arrive(1, 2, 2), leave(1), leave(0),
                                        count(1), count(0), GREATEST)]
SHORT_WORDS = (0, 1, 8, 64, 512, 4088, 4095)
# What the words hold before, the words put in, and the calls with their answers.
DAMAGED = (
    (batch.ONES, {}, [
        (GREATEST, 512), *every_count([512] * 512), *outside(), (arrive(5, 1, 2), (22, 5)), (leave(5), 0),
        (GREATEST, 511), (leave(5), (23, 5)), (arrive(5, 511, 512), 0), (GREATEST, 512), (count(510), 511),
        (leave(511), 0), *every_count([510] * 510 + [511, 511]), (leave(0), (21, 0)), (CLEAR, 0), (GREATEST, 0)]),
    # net 9 in columns 3 and 400, and no others: it leaves both
    (batch.ZEROS, {16: 1 << 9, 3192: 1 << 9}, [
        (count(3), 1), (count(4), 0), (count(400), 1), (GREATEST, 1), *((arrive(9, *columns), (22, 9)) for columns in (
            (1, 2), (4, 5), (3, 4), (399, 400), (401, 402), (511, 512))), (leave(9), 0), *every_count([]),
        (leave(9), (23, 9)), (arrive(9, 1, 2), 0), (GREATEST, 1)]),
    # net 511 in the first and the last column, net 448 in the last
    (batch.ZEROS, {7: 1 << 63, 4095: 1 << 63 | 1}, [
        (count(1), 1), (count(512), 2), (GREATEST, 2), (arrive(511, 5, 6), (22, 511)), (arrive(448, 5, 6), (22, 448)),
        (leave(511), 0), (count(1), 0), (count(512), 1), (leave(448), 0), (GREATEST, 0)]),
    # the mark of number 0, which is no net: it counts, and cannot leave
    (batch.ZEROS, {0: 1, 800: 1, 808: 3}, [
        (count(1), 1), (count(101), 1), (count(102), 2), (GREATEST, 2), (leave(0), (21, 0)), (arrive(0, 1, 2), (21, 0)),
        (arrive(64, 1, 2), 0), (count(1), 2), (leave(1), 0), (GREATEST, 2), (CLEAR, 0), (GREATEST, 0)]),
    # the greatest in the first column alone, then in the last, which no calls make of an empty draft
    (batch.ZEROS, {0: 30, 7: 1 << 63, 15: 1 << 63, 4088: 48, 4095: 1 << 62}, [
        (count(1), 5), (count(2), 1), (count(511), 0), (count(512), 3), (GREATEST, 5), (leave(1), 0), (GREATEST, 4),
        (leave(2), 0), (leave(3), 0), (count(1), 2), (GREATEST, 3), (leave(4), 0), (count(1), 1), (count(512), 2),
        (GREATEST, 2), (leave(5), 0), (leave(510), 0), (GREATEST, 1)]),
    # every second column of net 64, each word of column 2 in one bit
    (batch.ZEROS, {**{16 * c + 1: 1 for c in range(256)}, **{8 + i: 1 << 9 * i for i in range(8)}}, [
        (count(1), 1), (count(2), 8), (count(3), 1), (count(512), 0), (GREATEST, 8), (arrive(64, 2, 3), (22, 64)),
        (leave(64), 0), (leave(64), (23, 64)), (count(1), 0), (count(2), 8), (leave(73), 0), (count(2), 7),
        (leave(511), 0), (GREATEST, 6)]),
)


def by_hand():
    """The calls made by hand from an empty draft, and how many words are lent."""
    short = [(split(SHORT)[0], words) for words in SHORT_WORDS]
    longer = [(split(COMING)[0], 4097), (split(CLEARING)[0], 5000)]
    return [*short, *((split(pairs)[0], drafts.WORDS) for pairs in BY_HAND), *longer]


# --- every list of few calls ----------------------------------------------------------------------------------------

# Two nets of neighbouring words in three columns; and calls about the ends of all that is bounded.
SMALL = (CLEAR, leave(1), leave(64),
         *(arrive(net, *columns) for net in (1, 64) for columns in ((1, 2), (2, 3), (1, 3))))
SMALL_ASKS = (*map(count, range(5)), count(512), count(513), GREATEST)
BOUNDS = (CLEAR, leave(511), leave(448), leave(0), leave(512), arrive(511, 511, 512), arrive(511, 1, 512),
          arrive(448, 1, 2), arrive(63, 1, 512), arrive(0, 1, 2), arrive(512, 1, 2), arrive(511, 512, 513),
          arrive(448, 0, 1), arrive(448, 512, 512))
BOUNDS_ASKS = (*map(count, (0, 1, 2, 3, 510, 511, 512, 513)), GREATEST)


def small(calls):
    """Every list of so many of the first calls, and of one fewer of the second, each with its asks behind."""
    for some, asks, length in ((SMALL, SMALL_ASKS, calls), (BOUNDS, BOUNDS_ASKS, calls - 1)):
        for some_calls in product(some, repeat=length):
            yield [*some_calls, *asks], drafts.WORDS


# --- drawn ----------------------------------------------------------------------------------------------------------

def span(rng):
    """Columns of a net: short ones, wide ones, and such as end with the draft; at times ones that do not rise."""
    kind = rng.randrange(12)
    if kind == 0:
        return rng.choice(NO_SPANS)
    if kind == 1:
        return rng.randint(0, 520), rng.randint(0, 520)
    first = rng.choice((1, 2, rng.randint(1, 20), rng.randint(1, 511), 510, 511))
    return first, rng.choice((first + 1, min(first + rng.randint(1, 9), LAST), rng.randint(first + 1, LAST), LAST))


def one(rng, nets):
    """A call about a few nets and any column."""
    kind = rng.randrange(100)
    net = rng.choice(NO_NETS) if rng.randrange(20) == 0 else rng.choice(nets)
    if kind < 45:
        return arrive(net, *span(rng))
    if kind < 73:
        return leave(net)
    if kind < 91:
        return count(rng.choice((rng.randint(1, 20), rng.randint(0, 514), rng.choice(OUTSIDE), 1, LAST)))
    return GREATEST if kind < 97 else CLEAR


def drawn(rng):
    """A list of calls about a few nets, or about all of them."""
    if rng.randrange(25) == 0:
        return crowded(rng)
    nets = rng.sample(ABOUT_WORDS, rng.randint(1, 4)) + rng.sample(range(1, HIGHEST + 1), rng.randint(1, 3))
    calls = [one(rng, nets) for _ in range(rng.randint(1, 60))]
    return calls + [count(c) for c in range(515)] if rng.randrange(10) == 0 else calls


def drawn_few(rng):
    """A list of calls about few nets, of which those that come have short spans, so that few words are marked."""
    nets = rng.sample(ABOUT_WORDS, rng.randint(1, 3)) + [rng.randint(1, HIGHEST)]
    for _ in range(rng.randint(1, 30)):
        call = one(rng, nets)
        if call[0] != "arrive" or call[3] - call[2] < 10 or rng.randrange(100) == 0:
            yield call


def crowded(rng):
    """All nets arrive in any order, a good part about one column; then some leave and come again."""
    nets, middle = rng.sample(range(1, HIGHEST + 1), HIGHEST), rng.randint(2, LAST - 1)
    calls = [arrive(net, rng.randint(1, middle - 1), rng.randint(middle, LAST)) if rng.random() < 0.8
             else arrive(net, *span(rng)) for net in nets]
    return [*calls, GREATEST, count(middle), *(one(rng, nets) for _ in range(100)), GREATEST]


def damage(rng):
    """What a draft's words hold before that no calls have left so: any words, or marks with gaps."""
    kind = rng.randrange(10)
    if kind == 0:
        return batch.FILLED, {}
    if kind == 1:
        return batch.ONES, {rng.randrange(4096): rng.getrandbits(64) for _ in range(rng.randint(0, 9))}
    if kind < 4:
        return batch.ZEROS, {rng.randrange(4096): rng.getrandbits(64) for _ in range(rng.randint(1, 300))}
    if kind < 6:  # the first or the last column alone
        first = rng.choice((0, drafts.WORDS - drafts.COLUMN_WORDS))
        return batch.ZEROS, {first + i: rng.getrandbits(64) for i in range(drafts.COLUMN_WORDS)}
    marks = [(column, net) for net in rng.sample((0, *ABOUT_WORDS), rng.randint(1, 9))
             for column in rng.sample(range(1, LAST + 1), rng.choice((1, 2, 5, 100)))]
    return batch.ZEROS, drafts.bits_of(marks)


def in_two_bytes(call):
    return all(number <= FAR for number in call[1:])


def add_all(cases):
    """Drafts for the gate: the lists made by hand but for the fullest, as far as their numbers fit into two bytes, each
    behind a clear; all nets in two columns; calls to the words that a case begins with, 7777, which mark the numbers
    below in each column; short and longer drafts; and drawn lists."""
    rng, marked = random.Random(14), [64 * i + bit for i in range(8) for bit in (0, 5, 6, 9, 10, 11, 12)]
    for pairs in (*BY_HAND[:-1], SELF):
        calls = [call for call, _ in pairs if in_two_bytes(call) and (call[0] != "count" or call[1] in GATE_COLUMNS)]
        cases.draft([CLEAR, *calls])
    cases.draft([CLEAR, *(arrive(net, 256, 257) for net in range(1, HIGHEST + 1)), GREATEST, *map(count, GATE_COLUMNS)])
    cases.draft([*SMALL_ASKS, *map(leave, (0, 1, 4, 7, 511)), *(arrive(net, 1, 2) for net in marked), GREATEST,
                 *(call for net in marked for call in (leave(net), leave(net), count(1), count(512), GREATEST)), CLEAR])
    cases.draft([arrive(5, 1, 2), leave(5), arrive(5, 1, 2), count(1), count(2), count(3), GREATEST, leave(6), CLEAR])
    for words in (*SHORT_WORDS, drafts.WORDS + 1, cases.ROOM):
        cases.draft([call for call, _ in SHORT], words)
    for _ in range(120):
        calls = [call for call in drawn_few(rng) if in_two_bytes(call)]
        cases.draft([CLEAR, *calls], rng.choice((drafts.WORDS,) * 5 + (cases.ROOM,)))
