"""Looks and their ceiling: channel.py against the words of Req 07, each look counted as it is taken, and the entries
against channel.py on small channels."""
import random

import batch
import channel
import random_channels
import row_cases
from small_channels import shapes, without_parked

# Channels, how many nets each scan examines, and the ceiling, worked out by hand.
BY_HAND = (
    (row_cases.EXAMPLES["A"], [2, 1], 3),
    (row_cases.EXAMPLES["B"], [6, 5, 4, 2, 1], 21),
    (row_cases.EXAMPLES["C"], [2], 3),
    (row_cases.EXAMPLES["D"], [3], 6),
    (row_cases.EXAMPLES["E"], [3, 1], 6),
    (row_cases.EXAMPLES["F"], [], 0),
    (row_cases.EXAMPLES["G"], [], 0),
    (([1, 2, 3, 3, 4, 5], [2, 1, 0, 0, 4, 0]), [3, 2], 6),  # one track, then a ring; net 4 is straight, net 5 parked
    (row_cases.chained(4), [4, 3, 2, 1], 10),
)
COLUMNS, DRAWN = 3, 600  # every channel of up to so many columns is tried, and so many drawn ones


def scanned(top, bot):
    """How many nets each scan of the fill examines, and how many have spans: those that stand in several columns."""
    columns = {n: [c for c, pair in enumerate(zip(top, bot), 1) if n in pair] for n in {*top, *bot} - {0}}
    spans = {n: (cs[0], cs[-1]) for n, cs in columns.items() if len(cs) > 1}
    below = {n: {b for a, b in zip(top, bot) if a == n and b in spans and b != n} for n in spans}
    placed, scans, stuck = set(), [], False
    while len(placed) < len(spans) and not stuck:
        end, stuck = 0, True
        scans.append(0)
        for n in sorted(set(spans) - placed, key=lambda n: (spans[n][0], n)):
            scans[-1] += 1
            if spans[n][0] > end and below[n] <= placed:
                placed.add(n)
                end, stuck = spans[n][1], False
    return scans, len(spans)


def tried():
    """Small channels and drawn ones, tangled ones among them, and some with many scans."""
    rng = random.Random("looks")
    for width in range(1, COLUMNS + 1):
        yield from shapes(width)
    for _ in range(DRAWN):
        yield random_channels.escaping(rng)
    yield from (row_cases.chained(60), row_cases.nested(60), row_cases.ring(40, 9))


def faults():
    """What channel.py answers otherwise, in words."""
    for rows, scans, ceiling in BY_HAND:
        told = scanned(*rows)[0], channel.looks(*rows), channel.ceiling(*rows)
        if told != (scans, sum(scans), ceiling):
            yield f"{rows}: scans, looks and ceiling are {told}, by hand {scans}, {sum(scans)} and {ceiling}"
    for rows in tried():
        (scans, nets), looks, ceiling = scanned(*rows), channel.looks(*rows), channel.ceiling(*rows)
        if looks != sum(scans) or 2 * ceiling != nets * (nets + 1) or looks > ceiling:
            yield f"{rows}: {looks} looks and ceiling {ceiling}; {nets} nets have spans, and the scans examine {scans}"


def questions(channels):
    """The cases of both entries for each channel; what is due is left open."""
    return [batch.Case(kind, "", 1, top=top, bot=bot).question
            for top, bot in channels for kind in (batch.LOOKS, batch.CEILING)]


def entry_differences(channels, program=batch.PROGRAM):
    """The entries' looks and ceiling are those of channel.py, and those of the channel with the parked pins removed;
    the looks do not pass the ceiling."""
    bare = [without_parked(*rows) for rows in channels]
    lines = batch.answers(questions(channels) + questions(bare), program)
    answers = list(zip(lines[::2], lines[1::2]))
    for rows, told, told_bare in zip(channels, answers, answers[len(channels):]):
        looks, ceiling = channel.looks(*rows), channel.ceiling(*rows)
        if told != (f"0 {looks} inputs kept", f"0 {ceiling} inputs kept") or looks > ceiling:
            yield f"looks and ceiling are told as {told}, here {looks} and {ceiling}", rows
        if told != told_bare:
            yield f"looks and ceiling are told as {told}, and {told_bare} where the parked pins are removed", rows
