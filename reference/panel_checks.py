"""Two lists on one panel (Req 09): channel.join and the C entry against the words of the request, on every pair of
small lists and on drawn ones; what the joined list is then, by channel.py and by the entries for bounds and routing;
and three lists in either grouping.

Usage: python3 reference/panel_checks.py
"""
import random
import re
import struct
import sys
from collections import Counter
from functools import lru_cache
from itertools import chain, islice, product
from multiprocessing import Pool

sys.dont_write_bytecode = True  # the modules below leave nothing beside them

import batch
import channel
import panel_lists
import text_cases
from small_channels import named_channels, parked_in, shapes

# Every two lists of up to so many columns and the numbers up to NUMBERS are tried; and every list of a column more with
# as many nets, but for their names, beside each such list of up to so many columns, first and second.
COLUMNS, NUMBERS = 2, 3
DRAWN = 2500  # pairs of lists, and threes
PART = 12500  # pairs or threes that a process takes at a time
LENT = ((channel.ROW, channel.ROW),) * 8 + ((511, 512), (512, 511), (0, 0), (513, 600))
ROWS = re.compile(r"(\d+) (\d+) top((?: \d+)*) kept bot((?: \d+)*) kept inputs kept")
BOUNDED = re.compile(r"(\d+) (\d+) inputs kept")
ROUTED = re.compile(r"(\d+) \d+ ring(?: \d+)* kept board ?([0-9a-f]*) kept inputs kept")


# --- the words of the request ---------------------------------------------------------------------------------------

def refusals(first, second, lent):
    """What the request refuses two lists with, in its order: the first is told. What is beyond it holds only where
    there is none before."""
    if min(lent) < 512:
        yield 1, 512
    for rows in (first, second):  # "each list is checked alone, one then two"
        number, place = batch.answered(channel.check, *rows)
        if number:
            yield number, place
    if len(first[0]) + len(second[0]) > 512:
        yield 3, 513
    over = [net + highest(first) for net in chain(*second) if net and net + highest(first) > 511]
    if over:
        yield 18, sorted(over)[0]


def highest(rows):
    """"The first's highest (0 if none)": of all its numbers, parked ones among them."""
    return max(chain(*rows), default=0)


def rows_fault(first, second, rows):
    """The first sentence of the request that joined rows break, or None."""
    width, by = len(first[0]), highest(first)
    behind = [(net, was) for row, old in zip(rows, second) for net, was in zip(row[width:], old)]
    kept = {
        "the joined rows are as long as both lists": all(len(row) == width + len(second[0]) for row in rows),
        "the first list stands in front": all(list(row[:width]) == list(old) for row, old in zip(rows, first)),
        "a column of the second has pins where it had": all((net == 0) == (was == 0) for net, was in behind),
        "its net numbers are raised by the first's highest": all(net == was + by for net, was in behind if was),
        "the joined list escapes 3 to 5": batch.answered(channel.check, *rows)[0] == 0,
    }
    return next((words for words, right in kept.items() if not right), None)


def answer_fault(question, number, value, rows):
    """What is wrong with an answer, by the words of the request, or None."""
    first, second, lent = question
    due = next(refusals(first, second, lent), None)
    if due or number:
        return None if due == (number, value) else f"it is refused with {number} {value}, by the request with {due}"
    if len(rows[0]) != value:
        return f"the joined rows have {len(rows[0])} columns, told {value}"
    return rows_fault(first, second, rows)


# --- what the joined list is ----------------------------------------------------------------------------------------

def facts(rows):
    """Whether a list is tangled, its tracks, the track of each net, its density and chain, by channel.py."""
    tracks, track_of, left = channel.filled(*rows)
    return bool(left), tracks, track_of, *channel.bounds(*rows)


@lru_cache(maxsize=2048)
def known(top, bot):
    """The same of one of few lists."""
    return facts((top, bot))


def joined_fault(first, second, rows):
    """How the joined list differs from what the request says of it: tangled exactly when either part is; else each net
    on the track that it has alone, the larger track count, and density and chain the larger ones."""
    one, two = (known(*map(tuple, part)) for part in (first, second))
    tangled, tracks, track_of, density, longest = facts(rows)
    if tangled != (one[0] or two[0]):
        return f"tangled alone: {one[0]}, {two[0]}; joined: {tangled}"
    if density != max(one[3], two[3]):
        return f"density {density} of {one[3]} and {two[3]}"
    if tangled:
        return None if longest == 0 else f"it is tangled, and its chain is {longest}"
    alone = {**one[2], **{net + highest(first): track for net, track in two[2].items()}}
    if track_of != alone or tracks != max(one[1], two[1]):
        return f"{tracks} tracks {track_of}, alone {alone} on {one[1]} and {two[1]}"
    return None if longest == max(one[4], two[4]) else f"chain {longest} of {one[4]} and {two[4]}"


# --- the independent program ----------------------------------------------------------------------------------------

def joined(first, second, lent=LENT[0]):
    """0 and the joined rows, or the number and place of a refusal."""
    return batch.answered(lambda: channel.join(first, second, *lent))


def all_joined(pairs):
    return [joined(*pair) for pair in pairs]


def differences(questions):
    """Each answer of channel.py that breaks the request, in words, with the lists."""
    for first, second, lent in questions:
        number, value = joined(first, second, lent)
        rows = value if number == 0 else ((), ())
        fault = answer_fault((first, second, lent), number, len(rows[0]) if number == 0 else value, rows)
        fault = fault or number == 0 and joined_fault(first, second, rows)
        if fault:
            yield f"channel.py: {fault}", (first, second)


def faults():
    """What channel.py, or the words as they are put here, have otherwise than by hand."""
    for first, second, due in panel_lists.JOINED:
        text = channel.panel(text_cases.text(*first), text_cases.text(*second))
        if joined(first, second) != (0, due) or channel.read(text) != due:
            yield f"{first} {second}: joined to {joined(first, second)}, read {text}, by hand {due}"
    for first, second, due in panel_lists.REFUSED:
        told = joined(first, second), next(refusals(first, second, LENT[0]), None)
        if told != (due, due):
            yield f"{first} {second}: refused {told}, by hand {due}"
    yield from (fault for fault, _ in differences(by_hand()))


# --- the entries ----------------------------------------------------------------------------------------------------

def ask(kind, lent, channels, program):
    """The lines of an entry that takes one list, for each of some lists."""
    questions = [batch.Case(kind, "", 1, lent, *rows).question for rows in channels]
    return batch.answers(questions, program)


def joins(questions, program):
    """The line of the entry for each question; and the number, value and rows that it tells, None if it tells none."""
    asked = [batch.Case(batch.JOIN, "", 1, lent, *first, second=second).question for first, second, lent in questions]
    for line in batch.answers(asked, program):
        parts = ROWS.fullmatch(line)
        yield line, parts and (int(parts[1]), int(parts[2]), [list(map(int, parts[k].split())) for k in (3, 4)])


def trunks(board):
    """The tracks of a board file in hexadecimal, and the track, first and last column of each trunk, in its order,
    which is that of the net numbers."""
    head, *words = struct.unpack(f">{len(board) // 8}I", bytes.fromhex(board))
    return head >> 13 & 511, [(w >> 20 & 1023, w >> 10 & 1023, w & 1023) for w in words if w >> 30 == 0]


class Told:
    """What the entries tell of lists, joined or not: bounds, and the router's answer with its trunks."""

    def __init__(self, channels, program):
        self.lines = {}
        channels = list({key(rows): rows for rows in channels}.values())
        bounds = ask(batch.BOUNDS, (0, 0), channels, program)
        routes = ask(batch.ROUTE, (channel.RING, channel.BOARD), channels, program)
        for rows, *lines in zip(channels, bounds, routes):
            self.lines[key(rows)] = lines

    def bounds(self, rows):
        """The number, -1 if there is none, and the value or place."""
        parts = BOUNDED.fullmatch(self.lines[key(rows)][0])
        return (int(parts[1]), int(parts[2])) if parts else (-1, 0)

    def route(self, rows):
        """The number, -1 if there is none, and tracks and trunks where it is 0."""
        parts = ROUTED.fullmatch(self.lines[key(rows)][1])
        return int(parts[1]) if parts else -1, *(trunks(parts[2]) if parts and parts[1] == "0" else (None, None))


def key(rows):
    return tuple(map(tuple, rows))


def refusal_fault(told, question, number, value):
    """A refusal 3 to 5 is the one that the entry for bounds tells of the first list, or of the second; where it tells
    none of either, only 3 for the columns together is left."""
    first, second, _ = question
    refused = [answer for answer in map(told.bounds, (first, second)) if answer[0]]
    if number in (3, 4, 5) and (refused or [(3, 513)])[0] != (number, value):
        return f"refused {number} {value}, and by the entry for bounds {refused}"
    return f"joined, and by the entry for bounds refused {refused}" if refused and number == 0 else None


def entry_fault(told, question, rows):
    """How bounds and routing of joined rows differ from what the request says of them, by the entries alone."""
    first, second, _ = question
    (_, one), (_, two), (_, both) = (told.bounds(part) for part in (first, second, rows))
    first_routed, second_routed, routed = (told.route(part) for part in (first, second, rows))
    tangled = 7 in (first_routed[0], second_routed[0])
    chains = one & 65535, two & 65535
    if both != max(one >> 16, two >> 16) << 16 | (0 if tangled else max(chains)):
        return f"bounds {both:x} of {one:x} and {two:x}"
    if tangled or routed[0]:
        return None if tangled and routed[0] == 7 else f"the router answers {first_routed}, {second_routed}, {routed}"
    shifted = [(track, a + len(first[0]), b + len(first[0])) for track, a, b in second_routed[2]]
    if routed != (0, max(first_routed[1], second_routed[1]), first_routed[2] + shifted):
        return f"routed {routed}, alone {first_routed} and {second_routed}"
    return None


def entry_differences(questions, program=batch.PROGRAM):
    """Each answer of the entry that is not that of channel.py, with the sentence that it breaks, and the lists; and
    what the entries for bounds and routing tell otherwise of joined lists."""
    answers = list(joins(questions, program))
    told = Told([rows for (first, second, _), (_, answer) in zip(questions, answers)
                 for rows in (first, second, *([answer[2]] if answer and answer[0] == 0 else []))], program)
    for question, (line, answer) in zip(questions, answers):
        first, second, lent = question
        due = batch.join(first, second, 1, *lent).due
        if line != due:
            fault = answer_fault(question, *answer) if answer else "the line is not one of joined rows"
        else:
            number, value, rows = answer
            fault = refusal_fault(told, question, number, value) or number == 0 and entry_fault(told, question, rows)
        if fault or line != due:
            yield f"the entry answers '{line}', here '{due}'; broken: {fault or 'nothing'}", (first, second)


def entry_joined(pairs, program=batch.PROGRAM):
    """0 and the joined rows, or the number and place of a refusal, for each two lists, by the entry."""
    told = joins([(*pair, LENT[0]) for pair in pairs], program)
    return [(answer[0], answer[1] if answer[0] else answer[2]) if answer else (-1, line) for line, answer in told]


# --- three lists ----------------------------------------------------------------------------------------------------

def grouped(threes, join_all, inner, outer):
    """What comes of each three lists when those that `inner` tells are joined first, and the result with the third as
    `outer` tells: 0 and the rows, or a refusal."""
    answers = join_all([inner(*lists) for lists in threes])
    fitting = [k for k, (number, _) in enumerate(answers) if number == 0]
    again = join_all([outer(*threes[k], answers[k][1]) for k in fitting])
    for k, answer in zip(fitting, again):
        answers[k] = answer
    return answers


def three_differences(threes, join_all):
    """Each three that gives other rows in the other grouping, or fits in one alone."""
    front = grouped(threes, join_all, lambda a, b, c: (a, b), lambda a, b, c, both: (both, c))
    back = grouped(threes, join_all, lambda a, b, c: (b, c), lambda a, b, c, both: (a, both))
    for lists, *answers in zip(threes, front, back):
        fault = grouping_fault(*answers)
        if fault:
            yield fault, lists


def grouping_fault(front, back):
    """How the two answers of three lists differ, or None; a refusal may be another one."""
    if (front[0] == 0) != (back[0] == 0):
        return f"one grouping fits and the other does not: {front}, {back}"
    if front[0] == 0 and list(front[1]) != list(back[1]):
        return f"the groupings differ: {front[1]}, {back[1]}"
    return None


# --- all of it ------------------------------------------------------------------------------------------------------

def small_lists():
    """Every list of few columns and low numbers."""
    return [rows for width in range(1, COLUMNS + 1) for rows in named_channels(width, NUMBERS)]


def small_pairs():
    """Every two of them; and each list of a column more beside each of them, but for the names of nets."""
    *some, wider = ([rows for rows in shapes(width) if highest(rows) <= NUMBERS] for width in range(1, COLUMNS + 2))
    some = list(chain(*some))
    for first, second in chain(product(small_lists(), repeat=2), product(some, wider), product(wider, some)):
        yield first, second, LENT[0]


def small_threes():
    """Every three lists of one column and two numbers."""
    return list(product(named_channels(1, 2), repeat=3))


def by_hand():
    """The pairs made by hand, each with joined rows that are lent as they should be, and short."""
    lists = [pair[:2] for pair in panel_lists.JOINED + panel_lists.REFUSED]
    return [(*pair, lent) for lent in (LENT[0], *LENT[-4:-1]) for pair in lists]


def drawn_pairs(seed, count=DRAWN):
    rng = random.Random(f"{seed} panels")
    return [(*panel_lists.drawn(rng), rng.choice(LENT)) for _ in range(count)]


def drawn_threes(seed, count=DRAWN):
    rng = random.Random(f"{seed} panels of three")
    return [panel_lists.fitting(rng, 3) for _ in range(count)]


def shown_by(questions):
    """How many pairs are joined, how many of them are tangled or have parked pins, and how many are refused with 18."""
    counts = Counter()
    for first, second, lent in questions:
        number, _ = joined(first, second, lent)
        counts["joined" if number == 0 else number] += 1
        if number == 0:
            counts["tangled"] += any(known(*map(tuple, part))[0] for part in (first, second))
            counts["parked"] += any(parked_in(*part) for part in (first, second))
    return counts


def checked(part):
    """The differences of a part, and what it shows; for a process of its own."""
    kind, start = part
    if kind == "threes":
        threes = [*small_threes(), *drawn_threes(start)]
        found = [*three_differences(threes, all_joined), *three_differences(threes, entry_joined)]
        answers = grouped(threes, all_joined, lambda a, b, c: (a, b), lambda a, b, c, both: (both, c))
        return found, Counter({"threes": len(threes), "fitting": sum(number == 0 for number, _ in answers)})
    questions = [*drawn_pairs(start), *by_hand()] if kind == "drawn" else list(
        islice(small_pairs(), start, start + PART))
    found = [*differences(questions), *entry_differences(questions)]
    return found, Counter({"pairs": len(questions)}) + shown_by(questions)


def told(difference):
    """A difference for people, with the lists as pin lists."""
    fault, lists = difference
    return "\n".join([fault, *(batch.joined(word, *row) for rows in lists for word, row in zip(("TOP", "BOT"), rows))])


def compare(seed):
    """The first difference, or None; and what was compared, in words."""
    parts = [("drawn", seed), ("threes", seed),
             *(("small", start) for start in range(0, sum(1 for _ in small_pairs()), PART))]
    with Pool(batch.WORKERS) as pool:
        results = pool.map(checked, parts, chunksize=1)
    found = [difference for differing, _ in results for difference in differing]
    counts = sum((count for _, count in results), Counter())
    return told(found[0]) if found else None, (
        f"{counts['pairs']} pairs of lists, every two of up to {COLUMNS} columns and the numbers up to {NUMBERS} among"
        f" them; {counts['joined']} are joined, {counts['parked']} of them with parked pins and {counts['tangled']}"
        f" tangled as one part is, in the others each net is on the track that it has alone; {counts[18]} are refused"
        f" with 18; of {counts['threes']} threes {counts['fitting']} fit, and give the same rows in either"
        " grouping")


def main(arguments):
    if arguments:
        print("usage: panel_checks.py", file=sys.stderr)
        return 2
    batch.build()
    difference, counts = compare("2026")
    fault = next(faults(), None)
    print(fault or difference or f"panels: {counts}")
    return 1 if fault or difference else 0


if __name__ == "__main__":
    sys.exit(main(sys.argv[1:]))
