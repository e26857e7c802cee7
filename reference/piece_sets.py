"""Tries every set of pieces on the smallest grids: of which channels each is a good layout, by the wiring rule."""
import itertools

import channel
from layout_search import BRANCH, CONTACT, TRUNK, every_trunk


def every_piece(width, tracks):
    columns, rows = range(1, width + 1), range(tracks + 2)
    branches = [(BRANCH, c, a, b) for c in columns for a in rows for b in rows if a < b]
    return every_trunk(width, tracks) + branches + [(CONTACT, c, r, r) for c in columns for r in rows[1:-1]]


def shortest_pieces(width, tracks):
    """Pieces of one step, and contacts. A trunk or branch is a row of such that touch, so where a net may have any
    number of trunks these are enough."""
    return [p for p in every_piece(width, tracks) if p[0] == CONTACT or p[3] == p[2] + 1]


def masks_of(width, tracks, pieces):
    """The points of each piece as a number, one bit a point and layer, so that two touch if they share a bit; and
    whether it is a trunk. The edge place of pin position p is bit p - 1."""
    bit = {}
    for position in range(2 * width):
        bit[1, position % width + 1, tracks + 1 if position < width else 0] = position
    for piece in pieces:
        for point in channel.points_of(piece):
            bit.setdefault(point, len(bit))
    return [(sum(1 << bit[point] for point in channel.points_of(p)), p[0] == TRUNK) for p in pieces]


def reached(width, tracks, pieces):
    """Of every set of the pieces: the edge places that each joined part reaches, and whether no part has two trunks.
    A part that reaches none floats, so its set is left out."""
    masks, edges, found = masks_of(width, tracks, pieces), (1 << 2 * width) - 1, set()

    def extend(number, parts):
        if number == len(masks):
            places = [mask & edges for mask, _ in parts]
            if all(places):
                found.add((frozenset(places), all(trunks < 2 for _, trunks in parts)))
            return
        extend(number + 1, parts)
        mask, trunks = masks[number]
        apart = []
        for part in parts:
            if part[0] & mask:
                mask, trunks = mask | part[0], trunks + part[1]
            else:
                apart.append(part)
        extend(number + 1, apart + [(mask, trunks)])

    extend(0, [])
    return found


def choices(places, fewest):
    """Every choice of so many edge places or more, as the list of their bits."""
    bits = [1 << i for i in range(places.bit_length()) if places >> i & 1]
    return [chosen for size in range(fewest, len(bits) + 1) for chosen in itertools.combinations(bits, size)]


def good_channels(width, tracks, pieces, one_trunk, fewest=1):
    """The channels, all their nets of so many pins or more, of which some set of the pieces is a good layout: each part
    of the set has the pins of one net, and a pin at another edge place is parked. A channel is shown as the set of its
    nets, each the bits of its pin positions."""
    good, edges = set(), (1 << 2 * width) - 1
    for parts, single in reached(width, tracks, pieces):
        if single or not one_trunk:
            alone = choices(edges & ~sum(parts), 0) if fewest == 1 else [()]
            for nets in itertools.product(*([sum(pins) for pins in choices(part, fewest)] for part in parts)):
                good.update(frozenset(nets + parked) for parked in alone)
    return good


def nets_of(top, bot):
    """A channel as good_channels shows it."""
    nets = {}
    for position, net in enumerate([*top, *bot]):
        if net:
            nets[net] = nets.get(net, 0) | 1 << position
    return frozenset(nets.values())


def rows_of(nets, width):
    """The rows of a channel shown so; its nets are numbered in some order."""
    pins = [0] * (2 * width)
    for number, places in enumerate(sorted(nets), 1):
        for position in range(2 * width):
            if places >> position & 1:
                pins[position] = number
    return pins[:width], pins[width:]
