"""The adapter board channel, written from the scope alone, by other means than the proved code where that is
natural.

Rows stay as they were handed over; each number in them is asked whether it is a net or parked. Nets are kept in
dictionaries and sets, the form of a text is a regular expression, the chain is found by removing nets from the bottom
up, the ring with the fewest nets from the sets of nets that so many steps lead to, of all nets at once, the looks of a
fill are summed from the tracks of its nets, the judge floods grid points layer by layer, and a table of blanks is
compared with the set of its entries. Every function answers the scope's numbers: a refusal is
`Refused(number, place)`, raised or returned.
"""
import re
from bisect import bisect_left

ROW, RECORDS, RING, BOARD, SCRATCH = 512, 511, 1022, 10240, 5119
HIGHEST_NET, WIDEST, LIMIT = 511, 512, 65536
STOCK = (8, 12, 16, 24, 32, 48, 64, 96, 128, 192, 256, 512)
MOST_TRACKS, MOST_ENTRIES = 512, 64  # of an entry of a customer's own table of blanks, and of such a table (Req 03)


class Refused(Exception):
    """A refusal or fault: its number and place, and the ring's pairs under 7."""

    def __init__(self, number, place, ring=()):
        super().__init__(f"refused {number} {place}")
        self.number, self.place, self.ring = number, place, tuple(ring)


# --- pin lists ------------------------------------------------------------------------------------------------------

# Req 01: one or more spaces before each number, and at most one carriage return before the line feed of each line.
ROW_FORM = rb"((?: +(?:0|[1-9][0-9]*))+)\r?\n"
FORM = re.compile(rb"TOP" + ROW_FORM + rb"BOT" + ROW_FORM)
SHORTEST = b"TOP 0\nBOT 0\n"


def starts_a_form(text):
    """Whether some text of the form begins with these bytes: then some end of the shortest one completes them."""
    return any(FORM.fullmatch(text + SHORTEST[at:]) for at in range(len(SHORTEST) + 1))


def parse(text):
    """The two rows of a text, or refusal 2."""
    match = FORM.fullmatch(text)
    if match:
        # a part has spaces and digits alone; a number of more than nine digits is some number over 511, whatever it is
        return [[int(n) if len(n) < 10 else 10**9 for n in part.split()] for part in match.groups()]
    low, high = 0, len(text)  # sharing a start with a text of the form is lost once and for all
    while low < high:
        middle = (low + high + 1) // 2
        if starts_a_form(text[:middle]):
            low = middle
        else:
            high = middle - 1
    raise Refused(2, low)


def check(top, bot):
    """Refusals 3 to 5 of rows handed over as numbers."""
    if max(len(top), len(bot)) > WIDEST:
        raise Refused(3, WIDEST + 1)
    if len(top) != len(bot) or not top:
        raise Refused(4, min(len(top), len(bot)) + 1)
    for position, net in enumerate(top + bot, 1):
        if net > HIGHEST_NET:
            raise Refused(5, position)


def turned(top, bot):
    """The rows of the board turned over (Req 02): TOP and BOT exchanged."""
    return bot, top


def raised(row, by):
    """A row with each net number raised; 0 is no net and stays."""
    return [net + by if net else 0 for net in row]


def join(first, second, top=ROW, bot=ROW):
    """The rows of two lists on one panel (Req 09), for joined rows lent with so many numbers; or refusals 1, 3 to 5 of
    the first list, then of the second, 3 and 18. The joined rows fill the fronts of those lent, whose rest stays; under
    a refusal they stay whole."""
    if min(top, bot) < ROW:
        raise Refused(1, ROW)
    check(*first)
    check(*second)
    if len(first[0]) + len(second[0]) > WIDEST:
        raise Refused(3, WIDEST + 1)
    highest = max([*first[0], *first[1]])
    upper, lower = (raised(row, highest) for row in second)
    over = {net for net in upper + lower if net > HIGHEST_NET}
    if over:
        raise Refused(18, min(over))
    return [*first[0], *upper], [*first[1], *lower]


# --- spans and constraints ------------------------------------------------------------------------------------------

def columns_of(top, bot):
    """For each net its pin columns, rising; a net with just one pin is parked and left out."""
    pins = {}
    for c, pair in enumerate(zip(top, bot), 1):
        for net in pair:
            if net:
                pins.setdefault(net, []).append(c)
    return {net: sorted(set(columns)) for net, columns in pins.items() if len(columns) > 1}


def spans_of(top, bot):
    return {n: (cs[0], cs[-1]) for n, cs in columns_of(top, bot).items() if cs[0] < cs[-1]}


def steps_of(top, bot):
    """(upper net, lower net, column) for each column with two different nets, parked ones not counted."""
    nets = columns_of(top, bot)
    return [(a, b, c) for c, (a, b) in enumerate(zip(top, bot), 1) if a in nets and b in nets and a != b]


def below_of(steps):
    """For each net that is above some the nets directly below it."""
    below = {}
    for a, b, _ in steps:
        below.setdefault(a, set()).add(b)
    return below


def bounds(top, bot):
    """Density, and the chain: 0 where a path returns to its start."""
    check(top, bot)
    spans = spans_of(top, bot)
    density = max((sum(a <= c <= b for a, b in spans.values()) for c in range(1, len(top) + 1)), default=0)
    below = below_of(steps_of(top, bot))
    # nets are removed from the bottom up: what is left over lies on or above a ring
    longest, rest = {}, set(spans)
    while True:
        ready = {n for n in rest if not below.get(n, set()) & rest}
        if not ready:
            break
        for n in ready:
            longest[n] = 1 + max((longest[m] for m in below.get(n, ())), default=0)
        rest -= ready
    return density, 0 if rest else max(longest.values(), default=0)


# --- filling and drawing --------------------------------------------------------------------------------------------

def filled(top, bot):
    """The number of tracks filled, the track of each net placed, and the nets left: none, or those at which a track
    stayed empty."""
    spans, below = spans_of(top, bot), below_of(steps_of(top, bot))
    unplaced = sorted(spans, key=lambda n: (spans[n][0], n))
    track_of, tracks = {}, 0
    while unplaced:
        end, passed = 0, []
        for n in unplaced:
            if spans[n][0] > end and all(lower in track_of for lower in below.get(n, ())):
                track_of[n], end = tracks + 1, spans[n][1]
            else:
                passed.append(n)
        if len(passed) == len(unplaced):
            break
        tracks, unplaced = tracks + 1, passed
    return tracks, track_of, unplaced


def fill(top, bot):
    """The number of tracks and the track of each net; or refusal 7 with its ring."""
    tracks, track_of, left = filled(top, bot)
    if left:
        ring = ring_of(steps_of(top, bot), set(left))
        raise Refused(7, len(ring), ring)
    return tracks, track_of


def ring_of(steps, unplaced):
    net, walked = min(unplaced), []
    while net not in [n for n, _ in walked]:
        column, lower = min((c, b) for a, b, c in steps if a == net and b in unplaced)
        walked.append((net, column))
        net = lower
    return walked[[n for n, _ in walked].index(net):]


def fewest_ring(top, bot, ring=RING):
    """The pairs of the ring with the fewest nets (Req 05), none if there is no ring; of several the lowest list, each
    begun at its lowest net."""
    if ring < RING:
        raise Refused(1, RING)
    check(top, bot)
    steps = steps_of(top, bot)
    # reached[k][n] has the bit of each net to which k steps down lead from net n; if steps lead a net back to itself, so
    # do some that are no more than there are nets
    reached = [{n: 1 << n for n in {*top, *bot}}]
    for _ in columns_of(top, bot):
        further = dict.fromkeys(reached[0], 0)
        for a, b, _ in steps:
            further[a] |= reached[-1][b]
        reached.append(further)
        back = [n for n, nets in further.items() if nets >> n & 1]
        if back:
            return ring_by(steps, min(back), reached)
    return []


def ring_by(steps, begin, reached):
    """The pairs from a net back to it, each through the lowest column from which the steps left lead there."""
    net, pairs = begin, []
    for nets in reversed(reached[:-1]):
        column, lower = min((c, b) for a, b, c in steps if a == net and nets[b] >> begin & 1)
        pairs.append((net, column))
        net = lower
    return pairs


def looks(top, bot):
    """How many nets the scans of the fill examine (Req 07). A net on track k was unplaced as scans 1 to k began; one
    that is left was so as every scan began, the empty one included."""
    check(top, bot)
    tracks, track_of, left = filled(top, bot)
    return sum(track_of.values()) + len(left) * (tracks + 1)


def ceiling(top, bot):
    """What the looks do not pass, for n nets with spans: n times (n + 1), halved."""
    check(top, bot)
    nets = len(spans_of(top, bot))
    return nets * (nets + 1) // 2


def draw(top, bot):
    """The number of tracks, the records and the pieces (kind, line, from, to)."""
    tracks, track_of = fill(top, bot)
    records, pieces = [], []
    for net, columns in sorted(columns_of(top, bot).items()):
        first, last, track = columns[0], columns[-1], track_of.get(net, 0)
        records.append((net, first, last, track))
        if first == last:
            pieces.append((1, first, 0, tracks + 1))
            continue
        pieces.append((0, track, first, last))
        for c in columns:
            low = 0 if bot[c - 1] == net else track
            high = tracks + 1 if top[c - 1] == net else track
            pieces += [(1, c, low, high), (2, c, track, track)]
    return tracks, records, pieces


def route(top, bot, ring=RING, board=BOARD, records=RECORDS):
    """Refusals 1, 3 to 5 and 7, or tracks, records and pieces."""
    for lent, needed in ((records, RECORDS), (ring, RING), (board, BOARD)):
        if lent < needed:
            raise Refused(1, needed)
    check(top, bot)
    return draw(top, bot)


# --- board files ----------------------------------------------------------------------------------------------------

def bits(fields):
    """Fields of (value, width), most significant first, as bytes."""
    text = "".join(format(value, f"0{width}b") for value, width in fields)
    return int(text, 2).to_bytes(len(text) // 8, "big")


def encode(width, tracks, pieces):
    return bits([(width, 10), (tracks, 9), (len(pieces), 12), (0, 1)]) + b"".join(
        bits([(kind, 2), (line, 10), (a, 10), (b, 10)]) for kind, line, a, b in pieces)


def fields_of(word, widths):
    text, out = format(int.from_bytes(word, "big"), "032b"), []
    for w in widths:
        out.append(int(text[:w], 2))
        text = text[w:]
    return out


def piece_right(width, tracks, piece):
    kind, line, a, b = piece
    if kind == 0:
        return 1 <= line <= tracks and 1 <= a < b <= width
    if kind == 1:
        return 1 <= line <= width and 0 <= a < b <= tracks + 1
    return kind == 2 and 1 <= line <= width and 1 <= a <= tracks and a == b


def open_board(file):
    """Width, tracks and pieces; or refusals 8 and 9."""
    if len(file) < 4:
        raise Refused(8, 4)
    width, tracks, count, spare = fields_of(file[:4], (10, 9, 12, 1))
    if len(file) != 4 + 4 * count:
        raise Refused(8, 4 + 4 * count)
    if not 1 <= width <= WIDEST or spare:
        raise Refused(9, 0)
    pieces = [tuple(fields_of(file[4 * i:4 * i + 4], (2, 10, 10, 10))) for i in range(1, count + 1)]
    for number, piece in enumerate(pieces, 1):
        if not piece_right(width, tracks, piece):
            raise Refused(9, number)
    return width, tracks, pieces


def read_piece(file, number):
    """The piece of a number, from 1. A file that does not open has none."""
    try:
        pieces = open_board(file)[2]
    except Refused:
        pieces = []
    if not 1 <= number <= len(pieces):
        raise Refused(9, number)
    return pieces[number - 1]


# --- the judge ------------------------------------------------------------------------------------------------------

def points_of(piece):
    """The points of a piece, each with its layer: trunks on layer 0, branches on 1, contacts on both."""
    kind, line, a, b = piece
    if kind == 0:
        return [(0, c, line) for c in range(a, b + 1)]
    if kind == 1:
        return [(1, line, r) for r in range(a, b + 1)]
    return [(0, line, a), (1, line, a)]


def flood(pieces):
    """A colour for each piece, the same for joined pieces: copper of one layer over a point is one conductor there."""
    over = {}
    for i, piece in enumerate(pieces):
        for point in points_of(piece):
            over.setdefault(point, []).append(i)
    colour, colours = [None] * len(pieces), 0
    for start in range(len(pieces)):
        if colour[start] is None:
            colour[start], wave = colours, [start]
            while wave:
                for point in points_of(pieces[wave.pop()]):
                    for j in over[point]:
                        if colour[j] is None:
                            colour[j] = colours
                            wave.append(j)
            colours += 1
    return colour


def coloured_pins(top, bot, tracks, pieces, colour):
    """Position, net and colour of each pin: the one colour of the branches over its point, or a colour of its own."""
    branches = {}
    for i, piece in enumerate(pieces):
        if piece[0] == 1:
            for _, c, r in points_of(piece):
                branches[c, r] = colour[i]
    pins = []
    for row, nets, before in ((tracks + 1, top, 0), (0, bot, len(top))):
        for c, net in enumerate(nets, 1):
            if net:
                pins.append((before + c, net, branches.get((c, row), ("alone", before + c))))
    return pins


def judge(top, bot, file, scratch=SCRATCH):
    """The tracks of a good board; or refusals 1, 3 to 5, 8 to 10 and faults 11 to 13. Parked pins count as any do."""
    if scratch < SCRATCH:
        raise Refused(1, SCRATCH)
    check(top, bot)
    width, tracks, pieces = open_board(file)
    if width != len(top):
        raise Refused(10, width)
    colour = flood(pieces)
    pins = coloured_pins(top, bot, tracks, pieces, colour)
    owner, first = {}, {}
    for position, net, group in pins:
        if owner.setdefault(group, net) != net:
            raise Refused(11, position)
    for position, net, group in pins:
        if first.setdefault(net, group) != group:
            raise Refused(12, position)
    for number, group in enumerate(colour, 1):
        if group not in owner:
            raise Refused(13, number)
    return tracks


# --- blanks and programs --------------------------------------------------------------------------------------------

def blank(tracks):
    for held in STOCK:
        if tracks <= held:
            return held
    raise Refused(14, tracks)


def is_rising(entries):
    """Whether entries are 1 to 512 and rise strictly: then they are the set of such numbers among them, in order."""
    return list(entries) == sorted({entry for entry in entries if 1 <= entry <= MOST_TRACKS})


def own_blank(table, tracks):
    """The smallest entry of a customer's own table that holds so many tracks (Req 03); or refusals 14 to 16."""
    if tracks > MOST_TRACKS:
        raise Refused(14, tracks)
    if not 1 <= len(table) <= MOST_ENTRIES:
        raise Refused(15, 0)
    rising = max(length for length in range(len(table) + 1) if is_rising(table[:length]))
    if rising < len(table):
        raise Refused(15, rising + 1)
    lower = bisect_left(table, tracks)  # how many entries are below the tracks
    if lower == len(table):
        raise Refused(16, tracks)
    return table[lower]


def line(word, *numbers):
    return " ".join([word, *map(str, numbers)]).encode() + b"\n"


def refused_lines(refusal):
    return line("REFUSED", refusal.number, refusal.place) + b"".join(line("RING", n, c) for n, c in refusal.ring)


def within_limit(data):
    if len(data) > LIMIT:
        raise Refused(0, LIMIT)
    return data


def read(text):
    top, bot = parse(within_limit(text))
    check(top, bot)
    return top, bot


def listing(text):
    try:
        top, bot = read(text)
        tracks, records, pieces = route(top, bot)
        density, chain = bounds(top, bot)
        return (line("BOARD", len(top), tracks, blank(tracks)) + line("BOUND", density, chain)
                + b"".join(line("NET", *r) for r in records) + line("END", len(pieces)))
    except Refused as refusal:
        return refused_lines(refusal)


def board(text):
    try:
        top, bot = read(text)
        tracks, _, pieces = route(top, bot)
        return encode(len(top), tracks, pieces)
    except Refused as refusal:
        return refused_lines(refusal)


def ring_lines(text):
    """The pairs of the ring with the fewest nets, a line each, or NONE (Req 05)."""
    try:
        return b"".join(line("RING", n, c) for n, c in fewest_ring(*read(text))) or line("NONE")
    except Refused as refusal:
        return refused_lines(refusal)


def panel(first, second):
    """The pin list of two lists on one panel (Req 09); the first is refused before the second is read."""
    try:
        top, bot = join(read(first), read(second))
        return line("TOP", *top) + line("BOT", *bot)
    except Refused as refusal:
        return refused_lines(refusal)


def judged(pins, file):
    try:
        top, bot = read(pins)
        return line("GOOD", judge(top, bot, within_limit(file)))
    except Refused as refusal:
        return refused_lines(refusal)
