"""Board files drawn by a seeded generator: the router's own, good layouts that it would not draw, and damaged files."""
import channel
import random_channels
import row_cases
import small_channels

TRUNK, BRANCH, CONTACT = range(3)
# A tangled channel with a good layout: net 1 goes from TOP 1 on track 3 to column 2, down to track 1, and on to BOT 3;
# net 2 is on track 2.
SPLIT_ROWS = ([1, 0, 2], [2, 0, 1])
SPLIT = [(TRUNK, 3, 1, 2), (TRUNK, 1, 2, 3), (TRUNK, 2, 1, 3), (BRANCH, 1, 3, 4), (CONTACT, 1, 3, 3), (BRANCH, 2, 1, 3),
         (CONTACT, 2, 3, 3), (CONTACT, 2, 1, 1), (BRANCH, 3, 0, 1), (CONTACT, 3, 1, 1), (BRANCH, 1, 0, 2),
         (CONTACT, 1, 2, 2), (BRANCH, 3, 2, 4), (CONTACT, 3, 2, 2)]


def piece(rng, width, tracks, longest):
    """A piece on the grid, or None where its kind has no place there; a branch often begins or ends at an edge."""
    kind = rng.choice((TRUNK, BRANCH, BRANCH, CONTACT))
    if kind == BRANCH:
        low = rng.choice((0, rng.randint(0, tracks)))
        high = rng.choice((tracks + 1, rng.randint(low + 1, tracks + 1), min(tracks + 1, low + 1)))
        return kind, rng.randint(1, width), low, high
    if tracks == 0 or (kind == TRUNK and width == 1):
        return None
    if kind == TRUNK:
        first = rng.randint(1, width - 1)
        return kind, rng.randint(1, tracks), first, min(width, first + rng.randint(1, longest))
    track = rng.randint(1, tracks)
    return kind, rng.randint(1, width), track, track


def crossings(rng, pieces, share):
    """Contacts at a share of the points where a trunk and a branch cross."""
    trunks = {point[1:] for p in pieces if p[0] == TRUNK for point in channel.points_of(p)}
    branches = {point[1:] for p in pieces if p[0] == BRANCH for point in channel.points_of(p)}
    return [(CONTACT, c, r, r) for c, r in sorted(trunks & branches) if rng.random() < share]


def groups_of(pieces):
    """The pieces in groups that copper joins."""
    over = {}
    for number, one in enumerate(pieces):
        for point in channel.points_of(one):
            over.setdefault(point, []).append(number)
    groups, seen = [], set()
    for start in range(len(pieces)):
        if start in seen:
            continue
        seen.add(start)
        group = [start]
        for number in group:  # the list grows while it is gone through
            for point in channel.points_of(pieces[number]):
                met = [n for n in over.pop(point, ()) if n not in seen]
                seen.update(met)
                group += met
        groups.append([pieces[n] for n in group])
    return groups


def edges_of(group, tracks):
    """The edge places that a group's branches reach: (row of the channel, column); 0 is TOP."""
    ends = [(row, line) for kind, line, *ends in group if kind == BRANCH for row in ends]
    return sorted({(0 if row else 1, line) for row, line in ends if row in (0, tracks + 1)})


def scattered(rng, width, tracks, count, longest=4):
    """A good layout of pieces drawn one by one, and a channel that it fits: rows, tracks and pieces."""
    drawn = [p for p in (piece(rng, width, tracks, longest) for _ in range(count)) if p]
    return fitted(rng, width, tracks, drawn + crossings(rng, drawn, rng.choice((0.1, 0.4, 0.8))))


def fitted(rng, width, tracks, drawn):
    """What of some pieces reaches an edge, and a channel that it fits, with pins at most edge places that its copper
    reaches, and parked pins at some that it does not: rows, tracks and pieces."""
    rows, kept, nets = ([0] * width, [0] * width), [], 0
    unreached = {(row, column) for row in (0, 1) for column in range(1, width + 1)}
    for group in groups_of(drawn):
        edges = edges_of(group, tracks)
        if not edges or nets == 511:
            continue
        nets += 1
        for row, column in edges if rng.random() < 0.7 else rng.sample(edges, rng.randint(1, len(edges))):
            rows[row][column - 1] = nets
        unreached -= set(edges)
        kept += group
    for row, column in rng.sample(sorted(unreached), min(len(unreached), 511 - nets, rng.randint(0, 3))):
        nets += 1
        rows[row][column - 1] = nets
    rng.shuffle(kept)
    repeated = rng.sample(kept, min(len(kept), rng.choice((0, 0, 1, 3))))
    return random_channels.renumbered(rng, *rows), tracks, kept + repeated


def beside(point, width, tracks):
    """The points one step from a point: up and down on the branches' layer, left and right on the trunks', and through
    a contact."""
    layer, c, r = point
    steps = [(1, c, r - 1), (1, c, r + 1), (0, c, r)] if layer else [(0, c - 1, r), (0, c + 1, r), (1, c, r)]
    return [p for p in steps if 1 <= p[1] <= width and (1 <= p[2] <= tracks or p[0] == 1 and p[2] in (0, tracks + 1))]


def path(rng, sources, goal, taken, width, tracks):
    """A shortest way from some source to the goal over points that are not taken, or None."""
    wave, came = list(sources), dict.fromkeys(sources)
    rng.shuffle(wave)
    for point in wave:  # the list grows while it is gone through
        if point == goal:
            way = [point]
            while came[way[-1]]:
                way.append(came[way[-1]])
            return way
        steps = beside(point, width, tracks)
        rng.shuffle(steps)
        for p in steps:
            if p not in came and p not in taken:
                came[p] = point
                wave.append(p)
    return None


def copper(way):
    """The pieces of a way: a trunk or branch for each run on a layer, a contact for each change of layer."""
    pieces, run = [], [way[0]]
    for point in way[1:] + [None]:
        if point and point[0] == run[-1][0]:
            run.append(point)
            continue
        (layer, c, r), (_, d, s) = run[0], run[-1]
        if len(run) > 1:
            pieces.append((BRANCH, c, min(r, s), max(r, s)) if layer else (TRUNK, r, min(c, d), max(c, d)))
        if point:
            pieces.append((CONTACT, point[1], point[2], point[2]))
            run = [point]
    return pieces


def net_through(rng, places, taken, width, tracks):
    """Pieces that join some places, and the points that they cover; or None where a place can't be reached. A parked
    pin may have copper too: it is drawn to any point that is free, or to none."""
    own, pieces = [places[0]], []
    goals = places[1:] or [(rng.randint(0, 1), rng.randint(1, width), rng.randint(1, max(1, tracks)))]
    for goal in goals:
        way = path(rng, own, goal, taken, width, tracks)
        if way is None and len(places) > 1:
            return None
        pieces += copper(way or own)
        own += [p for p in way or () if p not in own]
    return pieces, own


def mazed(rng, top, bot, tracks):
    """A good layout with as many trunks a net as it takes, found net by net as through a maze, for tangled channels
    too. A net that finds no way is left out: rows, tracks and pieces."""
    width = len(top)
    pins = {(1, c, row): net for nets, row in ((top, tracks + 1), (bot, 0)) for c, net in enumerate(nets, 1) if net}
    order, points_of_net, pieces, left_out = sorted(set(pins.values())), {}, [], set()
    rng.shuffle(order)
    for net in order:
        places = [p for p in pins if pins[p] == net]
        taken = {p for points in points_of_net.values() for p in points} | (set(pins) - set(places))
        found = net_through(rng, rng.sample(places, len(places)), taken, width, tracks)
        if found is None:
            left_out.add(net)
        else:
            pieces += found[0]
            points_of_net[net] = found[1]
    rng.shuffle(pieces)
    return ([0 if n in left_out else n for n in top], [0 if n in left_out else n for n in bot]), tracks, pieces


def spaced(rng, top, bot, share):
    """The same channel with empty columns put in: there a net can change its track."""
    out = []
    for pair in zip(top, bot):
        out += [(0, 0)] * (rng.random() < share) + [pair]
    return [a for a, _ in out], [b for _, b in out]


def stubbed(rng, rows, tracks, pieces):
    """A layout with a branch added at some parked pins. One that reaches no other pin and no copper is good, and so is
    one that meets copper of its own; others make a short."""
    out, width = list(pieces), len(rows[0])
    parked = small_channels.parked_in(*rows)
    for position, net in enumerate([*rows[0], *rows[1]]):
        if net in parked and len(out) < 4095 and rng.random() < 0.5:
            row = rng.choice((0, tracks, rng.randint(0, tracks)))
            ends = (tracks - row, tracks + 1) if position < width else (0, row + 1)
            out.insert(rng.randint(0, len(out)), (BRANCH, position % width + 1, *ends))
    return out


def routed(rng, rows):
    """The router's own layout of rows; of a tangled channel a layout of few tracks and no pieces."""
    try:
        tracks, _, pieces = channel.draw(*rows)
        return tracks, pieces
    except channel.Refused:
        return rng.randint(0, 3), []


def moved(rng, tracks, pieces, width):
    """A piece on another line, two in other order, or one in two parts."""
    out = list(pieces)
    i = rng.randrange(len(out))
    kind, line, a, b = out[i]
    change = rng.randrange(4)
    if change == 0:
        out[i] = (kind, rng.randint(1, max(1, tracks) if kind == TRUNK else width), a, b)
    elif change == 1:
        j = rng.randrange(len(out))
        out[i], out[j] = out[j], out[i]
    elif kind != CONTACT and b > a + 1:
        cut = rng.randint(a + 1, b - 1)
        out[i:i + 1] = [(kind, line, a, cut), (kind, line, cut + rng.randint(0, 1) if cut + 1 < b else cut, b)]
    return out


def damaged_pieces(rng, tracks, pieces, width):
    """A slip or two in a layout; pieces that leave the grid among them."""
    for _ in range(rng.choice((1, 1, 1, 2, 3))):
        change = moved if pieces and rng.random() < 0.3 else row_cases.damaged
        pieces = change(rng, tracks, pieces, width)
    return pieces


def field_changed(rng, file):
    """A field of some piece takes any value, or one beside its own."""
    words = bytearray(file)
    at = 4 * rng.randint(1, len(file) // 4 - 1)
    fields = channel.fields_of(bytes(words[at:at + 4]), (2, 10, 10, 10))
    i = rng.randrange(4)
    size = 4 if i == 0 else 1024
    fields[i] = rng.choice((fields[i] + 1, fields[i] - 1, rng.randrange(size), 0, size - 1)) % size
    words[at:at + 4] = channel.bits(list(zip(fields, (2, 10, 10, 10))))
    return bytes(words)


def header_changed(rng, file):
    """A width, number of tracks, count or spare bit of any kind."""
    sizes = (10, 9, 12, 1)
    fields = channel.fields_of(file[:4], sizes)
    i = rng.randrange(4)
    size = 1 << sizes[i]
    fields[i] = rng.choice((fields[i] + 1, fields[i] - 1, rng.randrange(size), 0, size - 1)) % size
    return channel.bits(list(zip(fields, sizes))) + file[4:]


def bits_flipped(rng, file):
    out = bytearray(file)
    for _ in range(rng.randint(1, 3)):
        out[rng.randrange(len(out))] ^= 1 << rng.randrange(8)
    return bytes(out)


def torn(rng, file):
    """A file that lacks bytes, or has some more."""
    lacking = file[:rng.randint(0, len(file))], file[:rng.randint(0, 4)], file[:-1]
    return rng.choice((*lacking, file + bytes(rng.randint(1, 8)), file + file[-4:], file + file[-1:]))


def damaged_file(rng, file):
    """A board file with a slip in its bytes."""
    changes = [bits_flipped, header_changed, torn] + [field_changed] * (3 if len(file) >= 8 else 0)
    return rng.choice(changes)(rng, file)
