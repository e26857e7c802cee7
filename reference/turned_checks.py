"""The board turned over (Req 02): channel.py and the layout search against the words of the request, on small channels
and drawn ones; and the entry for density and chain, asked both ways up.

Usage: python3 reference/turned_checks.py
"""
import itertools
import random
import sys

sys.dont_write_bytecode = True  # the modules below leave nothing beside them

import batch
import channel
import random_channels
import row_cases
from layout_search import TRUNK, fewest
from small_channels import named_channels, parked_in, shapes

COLUMNS = 4  # every channel of up to so many columns is tried; with as many the search only where no pin is parked
DRAWN = 600  # channels, and as many rows that may be refused
# The router takes 3 tracks of this channel, and 2 of the same turned over. No channel of fewer columns takes more
# tracks one way up than the other, and none of as many columns with two nets; three nets with spans have six pins.
SIDED = ([1, 2, 1, 3, 3], [0, 0, 0, 0, 2])


# --- what stays -----------------------------------------------------------------------------------------------------

def facts(rows):
    """What is the same of rows turned over, in words: their refusal's number; or that they are tangled, and their
    density; or density and chain."""
    try:
        density, chain = channel.bounds(*rows)
    except channel.Refused as refusal:
        return f"refused {refusal.number}"
    left = channel.filled(*rows)[2]
    return f"tangled, density {density}" if left else f"density {density}, chain {chain}"


def facts_fault(rows):
    """How rows differ from the same turned over, or None."""
    here, over = facts(rows), facts(channel.turned(*rows))
    return None if here == over else f"{here}; and turned over {over}"


def turned_pieces(tracks, pieces):
    """The same copper turned over: a trunk or contact of track k is on track tracks + 1 - k, a branch over rows a to b
    over rows tracks + 1 - b to tracks + 1 - a."""
    edge = tracks + 1
    return [(kind, edge - line, a, b) if kind == TRUNK else (kind, line, edge - b, edge - a)
            for kind, line, a, b in pieces]


def layout_fault(rows, tracks, pieces):
    """What is wrong with a good layout turned over, as one of the rows turned over; or None."""
    file = channel.encode(len(rows[0]), tracks, turned_pieces(tracks, pieces))
    try:
        channel.judge(*channel.turned(*rows), file)
    except channel.Refused as refusal:
        return f"a layout of {tracks} tracks is no good layout turned over: {refusal}"
    return None


def drawing_fault(rows):
    """The same of the layout that is drawn of rows. A tangled channel and refused rows have none."""
    try:
        tracks, _, pieces = channel.route(*rows)
    except channel.Refused:
        return None
    return layout_fault(rows, tracks, pieces)


def search_fault(rows):
    """The search, which knows nothing of constraints, finds a layout of both or of none, on as few tracks."""
    here, over = fewest(rows), fewest(channel.turned(*rows))
    if (here and here[0]) != (over and over[0]):
        return f"the search finds {here}, and turned over {over}"
    return layout_fault(rows, *here) if here else None


# --- what does not stay: the tracks that the router takes -----------------------------------------------------------

def tracks_taken(rows):
    """The tracks that the router takes of rows, and of the same turned over; None of a tangled channel."""
    ways = channel.filled(*rows), channel.filled(*channel.turned(*rows))
    return tuple(None if left else tracks for tracks, _, left in ways)


def is_sided(rows):
    """Whether the router takes more tracks one way up."""
    here, over = tracks_taken(rows)
    return here != over


def numbering_fault(rows):
    """What is wrong if the router takes more tracks one way up, for some order of the numbers of the nets with spans,
    which is all that the fill sees of numbers; or None."""
    nets = sorted(channel.spans_of(*rows))
    for order in itertools.permutations(nets):
        name = dict(zip(nets, order))
        named = tuple([name.get(net, net) for net in row] for row in rows)
        if is_sided(named):
            return f"numbered {named} it takes {tracks_taken(named)} tracks, the latter turned over"
    return None


# --- the floor ------------------------------------------------------------------------------------------------------

def floor_fault(rows, tracks):
    """What is wrong if rows have a good layout with one trunk a net on so many tracks, or None."""
    density, chain = channel.bounds(*rows)
    if tracks >= max(density, chain):
        return None
    return f"a layout of {tracks} tracks with one trunk a net, and density {density}, chain {chain}"


def floor_differences(found):
    """No layout that the search found of a shape has fewer tracks than density or chain."""
    for shape, layout in found.items():
        fault = layout and floor_fault(shape, layout[0])
        if fault:
            yield fault, shape


# --- all of it ------------------------------------------------------------------------------------------------------

def fewer_nets_differences():
    """No channel with two nets, as wide as the sided one, is sided itself."""
    for rows in named_channels(len(SIDED[0]), 2):
        if is_sided(rows):
            yield f"it takes {tracks_taken(rows)} tracks, the latter turned over", rows


def checks_of(rows):
    """What a small channel is put to."""
    searched = len(rows[0]) < COLUMNS or not parked_in(*rows)
    return facts_fault, drawing_fault, numbering_fault, *((search_fault,) if searched else ())


def drawn():
    """Channels drawn, tangled and wide ones among them, and the one that is sided."""
    rng = random.Random("turned")
    for _ in range(DRAWN):
        yield random_channels.escaping(rng)
    for _ in range(DRAWN // 100):
        yield random_channels.wide(rng)
    yield from (row_cases.chained(60), row_cases.nested(60), row_cases.ring(40, 9), SIDED)


def refused():
    """Rows that refusals 3 to 5 mostly catch."""
    rng = random.Random("turned and refused")
    for _ in range(DRAWN):
        yield random_channels.refused(rng)


def small_differences(channels):
    """Each fault of channels of few columns, none refused, with its channel."""
    for rows in channels:
        for check in checks_of(rows):
            fault = check(rows)
            if fault:
                yield fault, rows


def large_differences(channels):
    """The same of channels of any width, and of refused rows."""
    for rows in channels:
        fault = facts_fault(rows) or drawing_fault(rows)
        if fault:
            yield fault, rows


def differences():
    """Each fault of the independent program on all these, with its channel."""
    yield from small_differences(rows for width in range(1, COLUMNS + 1) for rows in shapes(width))
    yield from large_differences([*drawn(), *refused()])
    yield from fewer_nets_differences()
    if tracks_taken(SIDED) != (3, 2):
        yield f"it takes {tracks_taken(SIDED)} tracks, the latter turned over; 3 and 2 are due", SIDED


def entry_differences(channels, program=batch.PROGRAM):
    """The entry's density and chain are those of the channel turned over, and those of channel.py."""
    cases = [batch.bounds(*asked, 1) for rows in channels for asked in (rows, channel.turned(*rows))]
    lines = batch.answers([case.question for case in cases], program)
    for rows, case, here, over in zip(channels, cases[::2], lines[::2], lines[1::2]):
        if here != over:
            yield f"density and chain are told as '{here}', and turned over as '{over}'", rows
        if here != case.due:
            yield f"density and chain are told as '{here}', here '{case.due}'", rows


def all_differences():
    """The faults of the independent program, and those of the entry on channels that are drawn."""
    return [*differences(), *entry_differences(list(drawn()))]


if __name__ == "__main__":
    FOUND = list(differences())
    print("\n".join(f"{rows}: {fault}" for fault, rows in FOUND) or
          f"turned over: every channel of up to {COLUMNS} columns and {2 * DRAWN} drawn ones are as the request says")
    sys.exit(bool(FOUND))
