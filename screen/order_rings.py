"""The rings of a tangled list, as the order screen should mark and tell them: those of the independent program."""
import itertools

from order_drawing import channel, text_of
from order_keys import GUTTER, PITCH

BESIDE = 76  # cells of the narrowest window in which both rings stand beside each other
FEWEST_AT = 40  # the cell in which the fewest ring stands there
FEWEST = "the fewest wires to move"


def rings_of(rows):
    """The pairs of the walk's ring and of the ring with the fewest nets."""
    lines = channel.listing(text_of(rows)).decode().splitlines()[1:]
    return [tuple(map(int, line.split()[1:])) for line in lines], channel.fewest_ring(*rows)


def pair_words(ring):
    return [f"net {net} above net {lower} in column {column}"
            for (net, column), (lower, _) in zip(ring, ring[1:] + ring[:1])]


def told(rows):
    """The lines of the fewest ring: a heading and its pairs, or that it is the walk's."""
    walk, fewest = rings_of(rows)
    if set(walk) == set(fewest):
        return [f"{FEWEST}: {len(fewest)} nets, the same ring"]
    return [f"{FEWEST}: {len(fewest)} nets", *pair_words(fewest)]


def lines_below(rows, across=80):
    """The lines of both rings below the rows of a full screen: beside each other where there is room for two."""
    walk, fewest = pair_words(rings_of(rows)[0]), told(rows)
    if across < BESIDE or len(fewest) == 1:
        return [f"  {line}" for line in walk + fewest]
    both = itertools.zip_longest(walk, fewest, fillvalue="")
    return [f"  {left}".ljust(FEWEST_AT if right else 0) + right for left, right in both]


def signs(rows, sign):
    """The sign of each column: the walk's, f for the fewest ring, F for both, or none. The fewest ring has none of its
    own where it is the walk's."""
    walk, fewest = rings_of(rows)
    columns = {column for _, column in walk}
    other = set() if set(walk) == set(fewest) else {column for _, column in fewest}
    return {c: "F" if c in columns & other else "f" if c in other else sign if c in columns else ""
            for c in range(1, len(rows[0]) + 1)}


def marks_line(rows, side, sign):
    """The line of signs over TOP (side 0) or under BOT in a full screen: one over each digit."""
    of_column = signs(rows, sign)
    return (" " * GUTTER + "".join((of_column[c] * len(str(net))).rjust(PITCH)
                                   for c, net in enumerate(rows[side], 1))).rstrip()


def marks_piped(rows, side, sign):
    """The same through a pipe, where the rows stand as they were typed."""
    of_column = signs(rows, sign)
    return "    " + " ".join((of_column[c] * len(str(net))).ljust(len(str(net)))
                             for c, net in enumerate(rows[side], 1)).rstrip()
