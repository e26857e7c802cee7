"""Cases for the C entries, made in jobs that several processes can share. A job draws from its own generator, so a seed
settles every case."""
import random
from collections import Counter

import batch
import channel
import crowded_boards
import draft_lists
import drafts
import panel_lists
import piece_sets
import random_boards
import random_channels
import random_tables
import random_texts
import ring_channels
import ring_checks
import row_cases
import small_channels
import table_cases
import text_cases

# What must be shown by some good board, some good or faulty board of few pieces, some channel or board with parked
# pins, some text that is read, some text that is garbled, some looks, some ceiling, some answer of the ring with the
# fewest nets, some two lists that are joined, some that are not, some entry chosen of a table of blanks, some table
# that is refused, some calls to a draft, and some words that it holds before; and the refusals that looks, ceiling,
# that ring, joining and those calls must have.
GOOD = ("several trunks a net", "a tangled channel", "copper at an edge place without a pin",
        "copper on a parked pin", "a parked pin without copper")
SWEPT = ("a range inside another", "ranges that end where the next starts", "equal ranges",
         "a contact at a trunk's end", "contacts at one point", "a branch from pin to pin", "no track")
PARKED = ("a routed channel", "a channel of nothing else", "a refused ring", "a short")
READ = ("runs of spaces", "a carriage return in each line", "one in TOP alone", "one in BOT alone")
GARBLED = ("a carriage return in the place", "one before the place", "a tab in the place",
           "a space before a line's end in the place")
LOOKS = ("a ring and no track", "a ring above some tracks", "as many as the ceiling", "fewer than the ceiling",
         "parked pins")
FEWEST_RING = ("no ring", "no ring and parked pins", "a ring of two nets", "a long ring", "the walk's ring",
               "fewer nets than the walk's", "a lowest net above the walk's", "as many nets through other columns",
               "as many nets from a higher lowest net", "parked pins and a ring")
CEILING = ("no net that spans", "parked pins and no net that spans")
JOIN = ("no net in the first list", "no net in the second", "gaps below the highest number", "that number parked",
        "that number in BOT alone", "parked pins in the second list", "neither list tangled", "the first tangled alone",
        "the second tangled alone", "both tangled", "512 columns", "a raised number of 511", "longer rows lent")
NO_JOIN = ("a refused list and joined rows too short", "the first list refused alone", "the second refused alone",
           "both refused", "512 columns in one list and too many together", "too many together and numbers over 511",
           "too many together and the second refused", "several numbers over 511, the lowest not first",
           "a number of 512 and no higher", "numbers over 511 and a list tangled")
OWN_BLANK = ("no tracks", "as many tracks as the entry holds", "the first entry of several", "an inner one",
             "the last of several", "a table of one entry", "a table of 64")
NO_OWN_BLANK = ("no entry", "over 64 entries", "a 0 in the place", "a number over 512 in the place",
                "equal neighbours in the place", "a fall in the place", "tracks just above the last entry",
                "over 512 tracks and a bad table")
DRAFT = ("a net that comes again", "one that comes elsewhere", "one that is here and has a bad span",
         "nets that are cleared", "511 nets", "a count over 255", "a column that is none", "words behind it")
HELD = ("words of any kind", "a net with gaps", "a mark of number 0", "the greatest in column 1 alone",
        "the greatest in column 512 alone")  # a net has two columns or more, so that no calls make the last two
REFUSED = (*(f"refusal {number} of {name}" for name in ("looks", "ceiling", "fewest ring", "join")
             for number in (3, 4, 5)), "refusal 1 of fewest ring", "refusal 1 of join", "refusal 18 of join",
           *(f"refusal {number} of {name}" for number, names in (
               (1, drafts.CALLS), (21, ("arrive", "leave")), (22, ("arrive",)), (23, ("leave",))) for name in names))
SMALL_CHANNELS = [tuple(map(list, rows)) for rows in small_channels.shapes(2)]


def lent(rng, needed):
    """A length that suffices, mostly just so; at times one that does not."""
    if rng.random() < 0.9:
        return needed
    return rng.choice((0, 1, needed - 1, needed + 1, needed + 40, rng.randint(0, needed)))


def rows_cases(rows, fill=0):
    """The cases of the entries that take rows alone."""
    return batch.bounds(*rows, fill), batch.looks(*rows, fill), batch.ceiling(*rows, fill)


def ring_job(rng):
    """Channels with several rings, and rows that are refused."""
    for _ in range(400):
        rows = ring_channels.drawn(rng) if rng.random() < 0.8 else random_channels.refused(rng)
        yield batch.fewest_ring(*rows, rng.randrange(256), lent(rng, channel.RING))


def fixed_ring_job(rng):
    """Channels whose shortest rings were found by hand, and the dearest ones."""
    for top, bot, _ in ring_channels.BY_HAND:
        yield batch.fewest_ring(top, bot)
    for rows in ring_channels.large(rng):
        yield batch.fewest_ring(*rows, rng.randrange(256))


def panel_job(rng):
    """Two lists on one panel, many about its highest number or its last column, many refused."""
    for _ in range(400):
        first, second = panel_lists.drawn(rng)
        yield batch.join(first, second, rng.randrange(256), lent(rng, channel.ROW), lent(rng, channel.ROW))


def fixed_panel_job(_):
    """Lists that were joined or refused by hand, into rows that are short for some; and numbers that wrap where 32
    bits end, if they are raised before they are checked."""
    for first, second, _ in panel_lists.JOINED + panel_lists.REFUSED:
        for fill, top, bot in ((0, 512, 512), (1, 512, 512), (2, 513, 600), (3, 511, 512), (4, 512, 511), (5, 0, 0)):
            yield batch.join(first, second, fill, top, bot)
    for far in (2**16, 2**31, 2**32 - 511, 2**32 - 1):
        for first, second in ((panel_lists.same(far), panel_lists.A), (panel_lists.same(511), panel_lists.same(far)),
                              (panel_lists.A, ([1, 0], [0, far])), (panel_lists.same(far), panel_lists.same(far))):
            yield batch.join(first, second, 6)


def draft_job(rng):
    """Lists of calls to a draft, many refused; half of them from an empty draft, the others from words of any kind."""
    for _ in range(80):
        calls, words = draft_lists.drawn(rng), rng.choice((*(drafts.WORDS,) * 11, 4097, 4104, 5000, 4095, 0))
        if words < drafts.WORDS or rng.randrange(2):
            yield batch.draft(calls, rng.randrange(256), words)
        else:
            yield batch.draft([draft_lists.GREATEST, *calls], rng.randrange(256), words, *draft_lists.damage(rng))


def fixed_draft_job(_):
    """Lists that were answered by hand, of drafts with nothing behind them, with a word and with a column; words of any
    kind; and drafts that are short, by a word or by all."""
    for fill, pairs in enumerate(draft_lists.BY_HAND):
        calls, _ = draft_lists.split(pairs)
        yield batch.draft(calls, fill)
        yield batch.draft(calls, fill, (4097, 4104, 5000)[fill % 3])
    for held, puts, pairs in draft_lists.DAMAGED:
        calls, _ = draft_lists.split(pairs)
        yield batch.draft(calls, 2, drafts.WORDS, held, puts)
    calls, _ = draft_lists.split(draft_lists.SHORT)
    for words in (*draft_lists.SHORT_WORDS, drafts.WORDS):
        for fill in (2, 3):
            yield batch.draft(calls, fill, words)
            yield batch.draft(calls, fill, words, batch.FILLED)


def table_job(rng):
    for _ in range(300):
        table = random_tables.drawn(rng)
        for _ in range(3):
            yield batch.own_blank(table, random_tables.tracks(rng, table), rng.randrange(256))


def fixed_table_job(_):
    """Tables of blanks made by hand; one without entries is lent as NULL for each odd number of tracks."""
    for table, tracks in table_cases.by_hand():
        yield batch.own_blank(table, tracks, tracks % 256)


def text_job(rng):
    for _ in range(300):
        text = random_texts.drawn(rng, *random_channels.escaping(rng))
        yield batch.read(text, rng.randrange(256), lent(rng, channel.ROW), lent(rng, channel.ROW))
        yield batch.read(random_texts.noise(rng), rng.randrange(256))
        yield batch.read(random_texts.typed(rng, *random_channels.refused(rng)), rng.randrange(256))


def channel_job(rng):
    for _ in range(300):
        rows = random_channels.escaping(rng)
        yield batch.route(*rows, rng.randrange(256), lent(rng, channel.RING), lent(rng, channel.BOARD))
        yield batch.fewest_ring(*rows, rng.randrange(256), lent(rng, channel.RING))
        yield from rows_cases(rows, rng.randrange(256))
        rows = random_channels.refused(rng)
        yield batch.route(*rows, rng.randrange(256), lent(rng, channel.RING), lent(rng, channel.BOARD))
        yield batch.fewest_ring(*rows, rng.randrange(256), lent(rng, channel.RING))
        yield from rows_cases(rows, rng.randrange(256))
        bare = channel.encode(max(1, len(rows[0])), 0, [])
        yield batch.judge(*rows, bare, rng.randrange(256), lent(rng, channel.SCRATCH))


def damages(rng, rows, tracks, pieces, times):
    """A board as it is, and damaged in its pieces and in its bytes."""
    width = len(rows[0])
    file = channel.encode(width, tracks, pieces)
    yield batch.judge(*rows, file, rng.randrange(256), lent(rng, channel.SCRATCH))
    if small_channels.parked_in(*rows):
        stubs = random_boards.stubbed(rng, rows, tracks, pieces)
        yield batch.judge(*rows, channel.encode(width, tracks, stubs), rng.randrange(256))
    for _ in range(times):
        slip = random_boards.damaged_pieces(rng, tracks, pieces, width)
        yield batch.judge(*rows, channel.encode(width, tracks, slip), rng.randrange(256))
        yield batch.judge(*rows, random_boards.damaged_file(rng, file), rng.randrange(256))


def own_board_job(rng):
    """The router's own boards; the rows may be another channel's, of the same width or not."""
    for _ in range(150):
        rows = random_channels.escaping(rng)
        tracks, pieces = random_boards.routed(rng, rows)
        yield from damages(rng, rows, tracks, pieces, 3)
        other = random_channels.escaping(rng)
        yield batch.judge(*other, channel.encode(len(rows[0]), tracks, pieces), rng.randrange(256))


def maze_job(rng):
    """Good layouts with split trunks, a good part of them of tangled channels."""
    for _ in range(100):
        rows = random_channels.narrow(rng, 6) if rng.random() < 0.4 else random_channels.tangled(rng, 3)
        rows = random_boards.spaced(rng, *rows, 0.5)
        rows = row_cases.reserved(rng, *rows, rng.choice((0, 0.05, 0.2)), any_place=False)
        rows = random_channels.renumbered(rng, *rows)
        tracks = rng.randint(0, 3) + len(set(rows[0] + rows[1]))
        yield from damages(rng, *random_boards.mazed(rng, *rows, tracks), 3)


def scatter_job(rng):
    for _ in range(150):
        width = rng.randint(1, 9)
        yield from damages(rng, *random_boards.scattered(rng, width, rng.randint(0, 6), rng.randint(2, 5 * width)), 2)


def crowded_job(rng):
    """Boards made to hurt a sweep."""
    for _ in range(250):
        yield from damages(rng, *crowded_boards.drawn(rng), 1)


def fixed_crowded_job(_):
    """The same, made by hand."""
    for rows, tracks, pieces in crowded_boards.by_hand():
        yield batch.judge(*rows, channel.encode(len(rows[0]), tracks, pieces))


def wide_job(rng):
    """Channels of up to 512 columns, and boards of up to 4,095 pieces."""
    for _ in range(4):
        rows = random_channels.wide(rng)
        yield batch.route(*rows, rng.randrange(256))
        yield batch.fewest_ring(*rows, rng.randrange(256))
        yield from rows_cases(rows, rng.randrange(256))
        yield batch.read(random_texts.typed(rng, *rows), rng.randrange(256))
    tracks, pieces = random_boards.routed(rng, rows)
    yield from damages(rng, rows, tracks, pieces, 1)
    rows, tracks, pieces = random_boards.scattered(rng, rng.randint(400, 512), rng.randint(1, 40), 1000)
    yield from damages(rng, rows, tracks, pieces, 1)
    full = (pieces * 4095)[:4095]
    yield batch.judge(*rows, channel.encode(len(rows[0]), tracks, full), rng.randrange(256))


def small_board_job(_):
    """Every layout that has each piece at most once on 2 columns and 1 track, with every channel of 2 columns but for
    the names of its nets."""
    pieces = piece_sets.every_piece(2, 1)
    for subset in range(1 << len(pieces)):
        file = channel.encode(2, 1, [p for i, p in enumerate(pieces) if subset >> i & 1])
        for rows in SMALL_CHANNELS:
            yield batch.judge(*rows, file)


def fixed_job(_):
    """Blanks, texts about the programs' limit and garbled ones, the channels of the gate, the tallest boards, boards
    with parked pins, a split trunk made by hand, each buffer too short where other refusals would follow, and rows that
    several refusals fit."""
    for tracks in [*range(0, 600), 2**16, 2**31, 2**32 - 1]:
        yield batch.blank(tracks)
    for text in [*list(random_texts.long_texts())[::2], *text_cases.BAD, text_cases.GOOD, text_cases.PADDED]:
        yield batch.read(text, 1)
    for rows in row_cases.channels():
        yield batch.route(*rows)
        yield batch.fewest_ring(*rows)
        yield from rows_cases(rows)
    for rows in (row_cases.chained(511), row_cases.crowded()):  # the most tracks, and the most beside two parked pins
        tracks, _, pieces = channel.draw(*rows)
        yield batch.judge(*rows, channel.encode(512, tracks, pieces))
    for top, bot, tracks, pieces in row_cases.PARKED_BOARDS:
        yield batch.judge(top, bot, channel.encode(len(top), tracks, pieces))
    for pieces in (random_boards.SPLIT, random_boards.SPLIT * 2, random_boards.SPLIT[1:]):
        yield batch.judge(*random_boards.SPLIT_ROWS, channel.encode(3, 3, pieces))
    for fill in (2, 3):
        for top, bot in ((0, 0), (511, 512), (512, 511), (513, 513)):
            yield batch.read(b"TOP 0", fill, top, bot)
        for ring, board in ((0, 0), (1021, 10239), (1022, 10239), (1021, 10240), (1023, 10241)):
            yield batch.route([], [700], fill, ring, board)
            yield batch.route([1, 2], [2, 1], fill, ring, board)
        for ring in (0, 1021, 1022, 1023):
            yield batch.fewest_ring([], [700], fill, ring)
            yield batch.fewest_ring([1, 2], [2, 1], fill, ring)
            yield batch.fewest_ring([1, 1], [0, 0], fill, ring)
        for scratch in (0, 5118, 5119, 5120):
            yield batch.judge([], [700], b"", fill, scratch)
        for rows in (([], []), ([], [700]), ([0] * 513, []), ([0] * 513, [700] * 514), ([1, 2], [700])):
            yield from rows_cases(rows, fill)
            yield batch.fewest_ring(*rows, fill)


JOBS = ((fixed_job, 1), (small_board_job, 1), (wide_job, 10), (maze_job, 8), (own_board_job, 8), (channel_job, 10),
        (scatter_job, 6), (crowded_job, 6), (fixed_crowded_job, 1), (text_job, 12), (fixed_table_job, 1),
        (table_job, 4), (fixed_ring_job, 1), (ring_job, 4), (fixed_panel_job, 1), (panel_job, 4),
        (fixed_draft_job, 1), (draft_job, 4))


def jobs(seed):
    """The names of all jobs, dear ones first."""
    return [(seed, kind.__name__, part) for kind, parts in JOBS for part in range(parts)]


def made(job):
    """The cases of a job, and how many of them show each feature."""
    seed, name, part = job
    cases = list(globals()[name](random.Random(f"{seed} {name} {part}")))
    return cases, Counter(feature for case in cases for feature in features(case))


def features(case):
    if case.kind() == batch.JUDGE and case.number() == 0:
        yield from good_features(case)
    if case.kind() == batch.JUDGE and case.number() in (0, 11, 12, 13):
        yield from swept_features(case)
    if case.kind() in (batch.ROUTE, batch.JUDGE) and case.number() in (0, 7, 11):
        yield from parked_features(case)
    if case.kind() == batch.READ and case.number() in (0, 2):
        yield from text_features(case)
    if case.kind() in (batch.LOOKS, batch.CEILING):
        yield from looks_features(case)
    if case.kind() == batch.OWN_BLANK:
        yield from own_blank_features(case)
    if case.kind() == batch.FEWEST_RING:
        yield from fewest_ring_features(case)
    if case.kind() == batch.JOIN:
        yield from join_features(case) if case.number() == 0 else no_join_features(case)
    if case.kind() == batch.DRAFT:
        yield from draft_features(case)


def good_features(case):
    """What a good board shows."""
    rows, file = case.inputs()
    _, tracks, pieces = channel.open_board(file)
    groups = random_boards.groups_of(pieces)
    several, tangled, unpinned, stub, bare = GOOD
    if any(sum(p[0] == random_boards.TRUNK for p in group) > 1 for group in groups):
        yield several
    try:
        channel.fill(*rows)
    except channel.Refused:
        yield tangled
    reached = {rows[row][column - 1] for group in groups for row, column in random_boards.edges_of(group, tracks)}
    parked = small_channels.parked_in(*rows)
    if 0 in reached:
        yield unpinned
    if parked & reached:
        yield stub
    if parked - reached:
        yield bare


def swept_features(case):
    """What a board of few pieces shows to a judge that sweeps lines."""
    (top, bot), file = case.inputs()
    _, tracks, pieces = channel.open_board(file)
    if len(pieces) > 64:
        return
    contacts = [(c, r) for kind, c, r, _ in pieces if kind == random_boards.CONTACT]
    ranges = [(kind, line, a, b) for kind, line, a, b in pieces if kind != random_boards.CONTACT]
    pairs = [((a, b), (c, d)) for i, (kind, line, a, b) in enumerate(ranges) for other, same, c, d in ranges[i + 1:]
             if (kind, line) == (other, same)]
    ends = {(c, r) for kind, r, *columns in ranges if kind == random_boards.TRUNK for c in columns}
    shown = (any(a < c and d < b or c < a and b < d for (a, b), (c, d) in pairs),
             any(b == c or d == a for (a, b), (c, d) in pairs), any(p == q for p, q in pairs), ends & set(contacts),
             len(set(contacts)) < len(contacts),
             any(p[0] == random_boards.BRANCH and p[2:] == (0, tracks + 1) and top[p[1] - 1] and bot[p[1] - 1]
                 for p in ranges), ranges and tracks == 0)
    yield from (name for name, seen in zip(SWEPT, shown) if seen)


def parked_features(case):
    """What an answer shows of parked pins."""
    (top, bot), _ = case.inputs()
    parked = small_channels.parked_in(top, bot)
    routed, nothing_else, ring, short = PARKED
    if not parked:
        return
    if case.kind() == batch.ROUTE:
        yield routed if case.number() == 0 else ring
        if parked == set(top + bot) - {0}:
            yield nothing_else
    elif case.number() == 11 and (top + bot)[case.place() - 1] in parked:
        yield short


def text_features(case):
    """What a text that is read shows of spaces and line ends; or one that is garbled, in the place."""
    _, text = case.inputs()
    if case.number() == 0:
        returns = [line.endswith(b"\r") for line in text.split(b"\n")[:2]]
        shown = b"  " in text, all(returns), returns == [True, False], returns == [False, True]
    else:
        here, before = text[case.place():][:1], text[:case.place()][-1:]
        shown = here == b"\r", before == b"\r", here == b"\t", before == b" " and here in (b"\r", b"\n")
    yield from (name for name, seen in zip(GARBLED if case.number() else READ, shown) if seen)


def looks_features(case):
    """What the looks or the ceiling of a channel show, or their refusal."""
    if case.number() != 0:
        yield f"refusal {case.number()} of {batch.NAMES[case.kind()]}"
        return
    rows, _ = case.inputs()
    value, parked, ceiling = case.place(), small_channels.parked_in(*rows), channel.ceiling(*rows)
    if case.kind() == batch.CEILING:
        names, shown = CEILING, (ceiling == 0, ceiling == 0 and parked)
    else:
        tracks, _, left = channel.filled(*rows)
        names, shown = LOOKS, (left and not tracks, left and tracks, 0 < value == ceiling, value < ceiling, parked)
    yield from (name for name, seen in zip(names, shown) if seen)


def fewest_ring_features(case):
    """What the ring with the fewest nets of a channel shows, or its refusal."""
    if case.number() != 0:
        yield f"refusal {case.number()} of {batch.NAMES[case.kind()]}"
        return
    rows, _ = case.inputs()
    nets, parked, walk = case.place(), small_channels.parked_in(*rows), ring_checks.walk_of(*rows)
    pairs = channel.fewest_ring(*rows)
    # other rings are tried where there are few
    rings = [ring for ring in ring_checks.rings(*rows) if len(ring) == nets] if 0 < len(rows[0]) <= 9 else []
    shown = (nets == 0, nets == 0 and parked, nets == 2, nets > 9, 0 < nets and list(walk) == pairs,
             0 < nets < len(walk), 0 < nets and min(walk) < min(pairs),
             any({n for n, _ in ring} == {n for n, _ in pairs} and set(ring) != set(pairs) for ring in rings),
             any(min(ring) > min(pairs) for ring in rings), 0 < nets and parked)
    yield from (name for name, seen in zip(FEWEST_RING, shown) if seen)


def join_features(case):
    """What two lists that are joined show."""
    first, second = case.lists()
    nets, more = ({*rows[0], *rows[1]} - {0} for rows in (first, second))
    highest = max(nets, default=0)
    tangled = [bool(channel.filled(*rows)[2]) for rows in (first, second)]
    shown = (not nets, not more, len(nets) < highest, highest in small_channels.parked_in(*first),
             highest and highest not in first[0], small_channels.parked_in(*second), tangled == [False, False],
             tangled == [True, False], tangled == [False, True], tangled == [True, True], case.place() == 512,
             highest and max(more, default=0) + highest == 511, min(case.lent()) > channel.ROW)
    yield from (name for name, seen in zip(JOIN, shown) if seen)


def no_join_features(case):
    """What two lists that are not joined show, with their refusal."""
    number, (first, second) = case.number(), case.lists()
    yield f"refusal {number} of {batch.NAMES[case.kind()]}"
    bad = [batch.answered(channel.check, *rows)[0] != 0 for rows in (first, second)]
    widths, highest = [len(rows[0]) for rows in (first, second)], max(first[0] + first[1], default=0)
    over = [net + highest for net in second[0] + second[1] if net and net + highest > 511]
    wide, panel = sum(widths) > 512, bad == [False, False]
    shown = (number == 1 and any(bad), number > 1 and bad == [True, False], number > 1 and bad == [False, True],
             number > 1 and bad == [True, True], number == 3 and panel and 512 in widths,
             number == 3 and panel and over, number > 1 and wide and bad == [False, True],
             number == 18 and over[0] > min(over), number == 18 and set(over) == {512},
             number == 18 and any(channel.filled(*rows)[2] for rows in (first, second)))
    yield from (name for name, seen in zip(NO_JOIN, shown) if seen)


def own_blank_features(case):
    """What the choice from a table of blanks shows, or its refusal."""
    ((table, _), _), (tracks, _) = case.inputs(), case.lent()
    number, place, last = case.number(), case.place(), len(table) - 1
    if number == 0:
        at = table.index(place)
        names, shown = OWN_BLANK, (tracks == 0, tracks == place, at == 0 < last, 0 < at < last, at == last > 0,
                                   last == 0, last == 63)
    else:
        before, entry = [0, *table][place - 1:place + 1] if number == 15 and place else (0, 1)
        names, shown = NO_OWN_BLANK, (number == 15 and not table, number == 15 and len(table) > 64, entry == 0,
                                      entry > 512, 0 < entry == before, 0 < entry < before,
                                      number == 16 and tracks == table[-1] + 1,
                                      number == 14 and not channel.is_rising(table))
    yield from (name for name, seen in zip(names, shown) if seen)


def draft_features(case):
    """What a list of calls to a draft shows, each thing once, and its refusals."""
    told = list(batch.calls_told(case.due))
    shown = {f"refusal {number} of {name}" for (name, *_), (number, *_) in zip(case.calls(), told) if number}
    words, held = case.lent()
    if words >= drafts.WORDS:
        shown.update(*draft_steps(case, told))
        if held or case.puts():
            shown.update(held_features(batch.memory_of(words, case.question[1], held, case.puts())))
    yield from sorted(shown)


def draft_steps(case, told):
    """What each call of a draft shows, of the nets that have come by calls."""
    here, gone = {}, {}
    for (name, *given), (number, value, _) in zip(case.calls(), told):
        came, counted = name == "arrive" and number == 0, name == "count" and number == 0
        shown = (came and given[0] in gone, came and gone.get(given[0], given[1:]) != given[1:],
                 name == "arrive" and number == 21 and given[0] in here, name == "clear" and here, len(here) == 511,
                 counted and value > 255, counted and not 1 <= given[0] <= 512, case.lent()[0] > drafts.WORDS)
        yield {word for word, seen in zip(DRAFT, shown) if seen}
        if number == 0:
            here, gone = draft_after(name, given, here, gone)


def held_features(memory):
    """What words of any kind show before the calls."""
    marks = drafts.Marks(memory)
    counts = [len(numbers) for numbers in marks.columns]
    places = [[column for column, _ in marks.marked(net)] for net in draft_lists.ABOUT_WORDS]
    shown = (True, any(columns and columns[-1] - columns[0] >= len(columns) for columns in places), marks.marked(0),
             counts[0] > max(counts[1:]), counts[-1] > max(counts[:-1]))
    return {word for word, seen in zip(HELD, shown) if seen}


def draft_after(name, given, here, gone):
    """The nets on the draft and those that have left it, after a call that is not refused."""
    if name == "arrive":
        return {**here, given[0]: given[1:]}, gone
    if name == "leave":
        left = {net: span for net, span in here.items() if net != given[0]}
        return left, {**gone, given[0]: here.get(given[0])}
    return ({}, {**gone, **here}) if name == "clear" else (here, gone)
