"""The ring with the fewest nets (Req 05): channel.fewest_ring and the C entry against the words of the request, by
trying all rings of small channels; and channels worked out by hand.

Usage: python3 reference/ring_checks.py
"""
import random
import sys
from itertools import islice
from multiprocessing import Pool

sys.dont_write_bytecode = True  # the modules below leave nothing beside them

import batch
import channel
import ring_channels
from small_channels import named_channels, parked_in

COLUMNS, NETS = 4, 4  # every channel of so many columns and nets is tried
DRAWN = 4000
PART = 15625  # channels that a process takes at a time


# --- the words of the request ---------------------------------------------------------------------------------------

def rings(top, bot):
    """Every ring: "any list of different nets, each above the next, and the last above the first, in a named column",
    begun at each of its nets. A parked pin has no part in it (Req 04)."""
    parked = parked_in(top, bot)
    columns = [(c, a, b) for c, (a, b) in enumerate(zip(top, bot), 1)
               if a and b and a != b and a not in parked and b not in parked]

    def grow(pairs, net):
        for c, a, b in columns:
            if a == net:
                longer = pairs + [(a, c)]
                if b == longer[0][0]:
                    yield longer
                elif b not in [n for n, _ in longer]:
                    yield from grow(longer, b)

    for net in {a for _, a, _ in columns}:
        yield from grow([], net)


def numbers(pairs):
    return [n for pair in pairs for n in pair]


def fewest(top, bot):
    """The ring with the fewest nets, "among equals the lowest list of pairs .., each begun at its lowest net"; none if
    there is no ring."""
    begun = [pairs for pairs in rings(top, bot) if pairs[0] == min(pairs)]
    return min(begun, key=lambda pairs: (len(pairs), numbers(pairs)), default=[])


# --- the independent program and the entry --------------------------------------------------------------------------

def faults():
    """What channel.py answers otherwise, in words."""
    for top, bot, due in ring_channels.BY_HAND:
        told = channel.fewest_ring(top, bot), fewest(top, bot)
        if told != (due, due):
            yield f"{top} {bot}: the ring with the fewest nets is {told}, by hand {due}"
    rng = random.Random("fewest")
    for rows in [ring_channels.drawn(rng) for _ in range(600)]:
        if channel.fewest_ring(*rows) != fewest(*rows):
            yield f"{rows}: the ring is {channel.fewest_ring(*rows)}, of all rings {fewest(*rows)}"


def line_due(pairs):
    """The line of the batch program, of a ring."""
    return batch.joined(0, len(pairs), "ring", batch.listed(numbers(pairs)), "kept inputs kept")


def entry_differences(channels, program=batch.PROGRAM):
    """The entry's answer, and the independent program's, against all rings."""
    questions = [batch.Case(batch.FEWEST_RING, "", 1, (channel.RING, 0), top, bot).question for top, bot in channels]
    for rows, line in zip(channels, batch.answers(questions, program)):
        due = fewest(*rows)
        if line != line_due(due):
            yield f"the ring with the fewest nets is told as '{line}', of all rings it is {due}", rows
        if channel.fewest_ring(*rows) != due:
            yield f"channel.py has the ring {channel.fewest_ring(*rows)}, of all rings it is {due}", rows


def checked(part):
    """The differences of a part of the channels, and how many have rings; for a process of its own."""
    kind, start = part
    if kind == "drawn":
        rng = random.Random(f"{start} rings")
        channels = [ring_channels.drawn(rng) for _ in range(DRAWN)]
    else:
        channels = list(islice(named_channels(kind, NETS), start, start + PART))
    found = [len(channel.fewest_ring(*rows)) for rows in channels]
    longer = sum(0 < nets < len(walk_of(*rows)) for nets, rows in zip(found, channels))
    return list(entry_differences(channels)), len(channels), sum(nets > 0 for nets in found), longer


def walk_of(top, bot):
    """The ring that the walk of refusal 7 shows."""
    try:
        channel.fill(top, bot)
    except channel.Refused as refusal:
        return refusal.ring
    return ()


def told(difference):
    """A difference for people, with the channel as a pin list."""
    fault, (top, bot) = difference
    return "\n".join([fault, batch.joined("TOP", *top), batch.joined("BOT", *bot)])


def compare(seed):
    """The first difference, or None; and what was compared, in words."""
    parts = [(width, start) for width in range(COLUMNS, 0, -1)
             for start in range(0, (NETS + 1) ** (2 * width), PART)] + [("drawn", seed)]
    with Pool(batch.WORKERS) as pool:
        results = pool.map(checked, parts, chunksize=1)
    differences = [difference for found, *_ in results for difference in found]
    channels, tangled, longer = (sum(counts) for counts in zip(*(counts for _, *counts in results)))
    return told(differences[0]) if differences else None, (
        f"{channels} channels, every one of up to {COLUMNS} columns and {NETS} nets among them; {tangled} have rings"
        f" and get the lowest of the shortest of all their rings, in {longer} a shorter one than the walk's; the others"
        " get none")


def main(arguments):
    if arguments:
        print("usage: ring_checks.py", file=sys.stderr)
        return 2
    batch.build()
    difference, counts = compare("2026")
    fault = next(faults(), None)
    print(fault or difference or f"rings: {counts}")
    return 1 if fault or difference else 0


if __name__ == "__main__":
    sys.exit(main(sys.argv[1:]))
