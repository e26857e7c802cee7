"""Compares the router with a search for good layouts with at most one trunk a net, on small channels.

Usage: python3 reference/exhaustive.py [SEED]

The router is asked for every channel of up to 3 columns with nets 1 to 3, for every channel of 4 columns but for the
names of its nets, and for some of 5; parked pins are among them all. It has to refuse as tangled just those of which
layout_search.py finds no layout, and to answer a channel as the same without its parked pins. Of the same channels the
looks and their ceiling are asked, and density and chain both ways up; no layout with one trunk a net has fewer tracks
than these.
"""
import random
import re
import sys
from collections import Counter
from multiprocessing import Pool

sys.dont_write_bytecode = True  # the modules below leave nothing beside them

import batch
import channel
import looks_checks
import parked_checks
import random_boards
import random_channels
import turned_checks
from layout_search import TRUNK, Search, fewest
from piece_sets import every_piece, good_channels, nets_of, rows_of, shortest_pieces
from small_channels import named_channels, parked_in, shape_of, shapes, without_parked

SEARCH_GRIDS = ((1, 0), (1, 1), (1, 2), (1, 3), (2, 0), (2, 1), (2, 2), (3, 0), (3, 1))  # columns, tracks
# Columns, tracks and the fewest pins of a net. On 5 columns no net is parked, since all sets with parked pins take too
# long: their copper is joined to no other pin, so the set without it is a layout of the channel without them.
FLOOR_GRIDS = ((1, 0, 1), (2, 0, 1), (3, 0, 1), (4, 0, 1), (4, 1, 1), (5, 0, 2), (5, 1, 2))
PART = 400  # channels that a process takes at a time
ROUTED = re.compile(r"(\d+) (\d+) ring((?: \d+)*) kept board((?: [0-9a-f]+)?) kept inputs kept")


# --- channels -------------------------------------------------------------------------------------------------------

def free(top, bot):
    """Whether no column holds pins of two different nets, parked pins not counted."""
    return all(0 in pair or pair[0] == pair[1] for pair in zip(*without_parked(top, bot)))


def asked(seed):
    """The channels that the router is asked for."""
    rng = random.Random(f"{seed} exhaustive")
    rows = [r for width in (1, 2, 3) for r in named_channels(width, 3)]
    rows += [random_channels.renumbered(rng, *map(list, shape)) for shape in shapes(4)]
    for _ in range(6000):
        top, bot = random_channels.narrow(rng, 5) if rng.random() < 0.7 else random_channels.tangled(rng, 5)
        if len(top) == 5:
            rows.append(random_channels.renumbered(rng, *random_channels.parking(rng, top, bot)))
    return rows


# --- the search against all sets of pieces --------------------------------------------------------------------------

def search_differences():
    """Whether the search finds a layout, against all sets of all pieces; and that no such set is below the floor of
    layouts with one trunk a net."""
    for width, tracks in SEARCH_GRIDS:
        good = good_channels(width, tracks, every_piece(width, tracks), True)
        for top, bot in shapes(width):
            if (Search(top, bot, tracks).layout() is not None) != (nets_of(top, bot) in good):
                yield f"the search and all sets of pieces differ on {tracks} tracks", (top, bot)
            fault = nets_of(top, bot) in good and turned_checks.floor_fault((top, bot), tracks)
            if fault:
                yield fault, (top, bot)


def floor_differences():
    """Where no column holds pins of two nets, parked pins not counted, no layout, split trunks included, has fewer
    tracks than the density."""
    for width, tracks, pins in FLOOR_GRIDS:
        good = good_channels(width, tracks, shortest_pieces(width, tracks), False, pins)
        for top, bot in (rows_of(nets, width) for nets in good):
            if free(top, bot) and channel.bounds(top, bot)[0] > tracks:
                yield f"a layout of {tracks} tracks is below the density", (top, bot)


def aside(name):
    """The differences of one of these, for a process of its own."""
    return list(ASIDE[name]())


ASIDE = {"turned": turned_checks.all_differences, "records": parked_checks.record_differences,
         "floor": floor_differences, "search": search_differences}


# --- the router -----------------------------------------------------------------------------------------------------

def ring_right(top, bot, pairs):
    """Whether pairs of net and column are a ring: different nets, each above the next, and the last above the first."""
    nets = [net for net, _ in pairs]
    steps = zip(pairs, nets[1:] + nets[:1])
    return len(set(nets)) == len(nets) > 0 and all(
        1 <= c <= len(top) and (top[c - 1], bot[c - 1]) == (net, below) for (net, c), below in steps)


def router_fault(rows, line, found):
    """What is wrong with the router's answer to rows for which the search found this, or None."""
    answer = ROUTED.fullmatch(line)
    if not answer:
        return f"the router's answer is '{line}'"
    number, value, ring = int(answer[1]), int(answer[2]), list(map(int, answer[3].split()))
    if number not in (0, 7) or (number == 7) != (found is None):
        layouts = "no layout" if found is None else f"a layout of {found[0]} tracks"
        return f"the router answers {number} {value}, and the search finds {layouts}"
    if number == 7:
        right = len(ring) == 2 * value and ring_right(*rows, list(zip(ring[::2], ring[1::2])))
        return None if right else f"{ring} is no ring of {value} nets"
    return board_fault(rows, bytes.fromhex(answer[4]), found[0])


def board_fault(rows, file, least):
    """What is wrong with the router's board, or None."""
    try:
        tracks = channel.judge(*rows, file)
    except channel.Refused as refusal:
        return f"the router's board is faulty: {refusal}"
    groups = random_boards.groups_of(channel.open_board(file)[2])
    if any(sum(piece[0] == TRUNK for piece in group) > 1 for group in groups):
        return "a net has two trunks"
    if not least <= tracks <= len(set(rows[0] + rows[1]) - {0} - parked_in(*rows)):
        return f"the board has {tracks} tracks, and {least} are the fewest"
    if free(*rows) and not tracks == least == channel.bounds(*rows)[0]:
        return f"the board has {tracks} tracks, the fewest are {least}; the density is {channel.bounds(*rows)[0]}"
    return parked_checks.copper_fault(rows, tracks, groups)


def router_differences(channels, found, program=batch.PROGRAM):
    """The router against what the search found of each shape; the layouts found go to both judges."""
    questions = [parked_checks.question(rows) for rows in channels]
    judged = [batch.judge(list(top), list(bot), channel.encode(len(top), *layout))
              for (top, bot), layout in found.items() if layout]
    lines = batch.answers(questions + [case.question for case in judged], program)
    for rows, line in zip(channels, lines):
        fault = router_fault(rows, line, found[shape_of(*rows)])
        if fault:
            yield fault, rows
    for case, line in zip(judged, lines[len(questions):]):
        if line != case.due or case.number() != 0:
            yield f"a layout that the search found is judged {line}, here {case.due}", case.inputs()[0]


def told(difference):
    """A difference for people, with the channel as a pin list."""
    fault, (top, bot) = difference
    return "\n".join([fault, batch.joined("TOP", *top), batch.joined("BOT", *bot)])


def shapes_of(rows):
    """The shape of a channel without its parked pins, and its own."""
    return shape_of(*without_parked(*rows)), shape_of(*rows)


def checked(channels):
    """The differences of some channels, and how many are tangled, have no column with two nets, have parked pins, take
    as many looks as the ceiling, or take more tracks one way up; for a process of its own."""
    found = {shape: fewest(shape) for shape in {shape for rows in channels for shape in shapes_of(rows)}}
    differences = [*router_differences(channels, found), *parked_checks.search_differences(channels, found),
                   *parked_checks.router_differences(channels), *looks_checks.entry_differences(channels),
                   *turned_checks.entry_differences(channels), *turned_checks.floor_differences(found)]
    return differences, Counter(tangled=sum(found[shape_of(*rows)] is None for rows in channels),
                                free=sum(free(*rows) for rows in channels),
                                parked=len(parked_checks.with_parked(channels)),
                                most_looks=sum(0 < channel.looks(*rows) == channel.ceiling(*rows) for rows in channels),
                                sided=sum(turned_checks.is_sided(rows) for rows in channels))


def compare(seed):
    """The first difference, or None; and what was compared, in words."""
    channels = sorted(asked(seed), key=shapes_of)  # the search is run once a shape, but where a part ends
    parts = [channels[start:start + PART] for start in range(0, len(channels), PART)]
    with Pool(batch.WORKERS) as pool:
        others = [pool.apply_async(aside, (name,)) for name in ASIDE]
        results = pool.map(checked, parts, chunksize=1)
        differences = [d for other in others for d in other.get()] + [d for found, _ in results for d in found]
    counts = sum((count for _, count in results), Counter())
    different = len({shape_of(*rows) for rows in channels})
    return told(differences[0]) if differences else None, (
        f"{len(channels)} channels, {different} but for the names of nets; {counts['tangled']} have no layout with one"
        f" trunk a net and are refused, the others are routed well; {counts['free']} have no column with two nets and"
        f" as many tracks as the density; {counts['parked']} have parked pins and are answered as without them;"
        f" {counts['most_looks']} with nets to place take as many looks as the ceiling, none takes more; turned over"
        " each is tangled as it was and has the same density and chain, and the router's tracks differ in"
        f" {counts['sided']}; no layout with one trunk a net has fewer tracks than density or chain")


def main(arguments):
    if len(arguments) > 1:
        print("usage: exhaustive.py [SEED]", file=sys.stderr)
        return 2
    batch.need(parked_checks.LISTING)
    batch.build()
    difference, counts = compare(arguments[0] if arguments else "2026")
    print(difference or f"exhaustive: {counts}")
    return 1 if difference else 0


if __name__ == "__main__":
    sys.exit(main(sys.argv[1:]))
