"""Nets that come and go on a draft (Req 14): drafts.Draft, drafts.Marks and the C entries against the words of the
request, on every list of few calls, on lists made by hand and on drawn ones; and against each other on words of any
kind.

Usage: python3 reference/draft_checks.py
"""
import random
import sys
from collections import Counter
from itertools import chain, islice
from multiprocessing import Pool

sys.dont_write_bytecode = True  # the modules below leave nothing beside them

import batch
import draft_lists
import drafts

CALLS = 4  # of the small lists
DRAWN, PARTS = 150, 4  # lists in a part, and parts; and as many lists of calls to words of any kind as in one part
PART = 1500  # small lists that a process takes at a time
ENOUGH = (4096,) * 9 + (4097, 5000)
LENT = ENOUGH + (4095,)
KEPT = " draft kept inputs kept"


# --- the words of the request ---------------------------------------------------------------------------------------

def is_bad(name, given):
    """"A number outside 1 to 511 or columns not rising within 1 to 512"."""
    if name == "arrive":
        net, first, last = given
        return net not in range(1, 512) or first not in range(1, 513) or last not in range(first + 1, 513)
    return name == "leave" and given[0] not in range(1, 512)


def over(here):
    """How many nets there are over each column, those that have arrived and not left since."""
    return Counter(column for first, last in here.values() for column in range(first, last + 1))


def value_due(call, here):
    """What is told where nothing is refused."""
    if call[0] == "count":
        return sum(call[1] in range(first, last + 1) for first, last in here.values())
    return max(over(here).values(), default=0) if call[0] == "greatest" else 0


def broken(call, answer, here, lent):
    """The first sentence of the request that the answer of a call breaks, or None."""
    (name, *given), (number, value) = call, answer
    net, passed = given[0] if name in ("arrive", "leave") else None, number not in (1, 21)
    kept = {
        "1 is for fewer than 4,096 words in every call, and for these alone": (number == 1) == (lent < 4096),
        "the place of 1 is 4,096": number != 1 or value == 4096,
        "21 is for a bad span, and for such alone": number == 1 or (number == 21) == is_bad(name, given),
        "22 is for a net that is here": not passed or (number == 22) == (name == "arrive" and net in here),
        "23 is for a net that is not": not passed or (number == 23) == (name == "leave" and net not in here),
        "the place is the net number in all three": number not in (21, 22, 23) or value == net,
        "there is no other refusal": number in (0, 1, 21, 22, 23),
        "the value is that of the nets here": number != 0 or value == value_due(call, here),
    }
    return next((words for words, right in kept.items() if not right), None)


def happened(call, here):
    """What becomes of the nets here by a call that is not refused."""
    name, *given = call
    if name == "arrive":
        return {**here, given[0]: tuple(given[1:])}
    if name == "leave":
        return {net: span for net, span in here.items() if net != given[0]}
    return {} if name == "clear" else here


def list_fault(calls, answers, lent):
    """The first sentence that the answers to a list of calls from an empty draft break, or None. The nets that are here
    are those of its calls that were not refused."""
    here = {}
    for call, answer in zip(calls, answers):
        words = broken(call, answer, here, lent)
        if words:
            return f"{batch.joined(*call)} is answered {answer}; broken: {words}"
        here = happened(call, here) if answer[0] == 0 else here
    return None


def marks_due(call, here):
    """The marks that a call changes if it is not refused: "each column keeps the set of nets over it, one mark a
    net"."""
    after = happened(call, here)
    changed = {*here.items()} ^ {*after.items()}
    return {(column, net) for net, (first, last) in changed for column in range(first, last + 1)}


def words_fault(calls, told):
    """What is wrong with the words that calls from an empty draft change, of an entry's line that breaks nothing else,
    or None."""
    here = {}
    for call, (number, _, runs) in zip(calls, told):
        changed = {(place // 8 + 1 + i, place % 8 * 64 + bit) for place, count, bits in runs
                   for bit in range(64) if bits >> bit & 1 for i in range(count)}
        if number != 0 and changed:
            return f"{batch.joined(*call)} is refused with {number} and changes words; broken: it has no effect"
        if number == 0 and changed != marks_due(call, here):
            return f"{batch.joined(*call)} changes the marks {sorted(changed)[:9]}; broken: one mark a net"
        here = happened(call, here) if number == 0 else here
    return None


# --- the independent programs ---------------------------------------------------------------------------------------

def answers_of(model, calls):
    """What each call answers, and the marks that it changes."""
    for call in calls:
        answer, marks = drafts.answer_of(model, call)
        yield answer, sorted(marks)


def differences(lists):
    """Each list of which an independent program breaks the request, in words; and each on which the two differ."""
    for calls, lent in lists:
        told = list(answers_of(drafts.Draft(lent), calls))
        fault = list_fault(calls, [answer for answer, _ in told], lent)
        if not fault and told != list(answers_of(drafts.Marks([0] * lent), calls)):
            fault = "the nets with their spans and the sets of marks differ"
        if fault:
            yield f"drafts.py: {fault}", calls


def faults():
    """What the independent programs, or the words as they are put here, have otherwise than by hand."""
    lists = [(batch.ZEROS, {}, pairs) for pairs in draft_lists.BY_HAND]
    for held, puts, pairs in [*lists, *draft_lists.DAMAGED]:
        calls, dues = draft_lists.split(pairs)
        models = [drafts.Marks(batch.memory_of(drafts.WORDS, 0, held, puts))]
        models += [] if puts or held else [drafts.Draft()]
        for model in models:
            for call, due, (answer, _) in zip(calls, dues, answers_of(model, calls)):
                if answer != due:
                    yield f"{type(model).__name__} answers {answer} to {batch.joined(*call)}, by hand {due}"
    for pairs in draft_lists.BY_HAND:
        fault = list_fault(*draft_lists.split(pairs), drafts.WORDS)
        if fault:
            yield f"by hand: {fault}"
    yield from (fault for fault, _ in differences(draft_lists.by_hand()))


# --- the entries ----------------------------------------------------------------------------------------------------

def cases_of(lists):
    return [batch.draft(calls, 1, lent) for calls, lent in lists]


def entry_differences(cases, program=batch.PROGRAM):
    """Each list of calls of which the entries break the request, in words, or are otherwise than drafts.py."""
    for case, line in zip(cases, batch.answers([case.question for case in cases], program)):
        calls, (lent, _) = list(case.calls()), case.lent()
        if not line.endswith(KEPT):
            yield f"the entries leave '{line[-80:]}'", calls
            continue
        told = list(batch.calls_told(line))
        fault = list_fault(calls, [answer[:2] for answer in told], lent) or words_fault(calls, told)
        if fault or line != case.due:
            yield f"the entries: {fault or 'otherwise than drafts.py; broken: nothing'}", calls


def damaged_differences(cases, program=batch.PROGRAM):
    """Each list of calls to words of any kind that the entries answer otherwise than drafts.Marks."""
    for case, line in zip(cases, batch.answers([case.question for case in cases], program)):
        if line != case.due:
            yield "the entries answer words of any kind otherwise than drafts.Marks", list(case.calls())


# --- all of it ------------------------------------------------------------------------------------------------------

def drawn_lists(seed, count=DRAWN):
    rng = random.Random(f"{seed} drafts")
    return [(draft_lists.drawn(rng), rng.choice(LENT)) for _ in range(count)]


def damaged_cases(seed, count=DRAWN):
    """Calls to words of any kind, made by hand and drawn."""
    rng = random.Random(f"{seed} damaged drafts")
    made = [batch.draft(draft_lists.split(pairs)[0], 1, 4096, held, puts) for held, puts, pairs in draft_lists.DAMAGED]
    return made + [batch.draft(draft_lists.drawn(rng), rng.randrange(256), rng.choice(ENOUGH), *draft_lists.damage(rng))
                   for _ in range(count)]


def checked(part):
    """The differences of a part, and what it shows; for a process of its own."""
    kind, start = part
    if kind == "damaged":
        cases = damaged_cases(start)
        return list(damaged_differences(cases)), Counter({"damaged": len(cases)})
    if kind == "small":
        lists = list(islice(draft_lists.small(CALLS), start, start + PART))
    else:
        lists = draft_lists.by_hand() if kind == "by hand" else drawn_lists(start)
    answers = chain(*(answers_of(drafts.Draft(lent), calls) for calls, lent in lists))
    shown = Counter(number for (number, _), _ in answers)
    return [*differences(lists), *entry_differences(cases_of(lists))], shown + Counter({"lists": len(lists)})


def told(difference):
    """A difference for people, with the calls."""
    fault, calls = difference
    return "\n".join([fault, *(batch.joined(*call) for call in calls)])


def compare(seed):
    """The first difference, or None; and what was compared, in words."""
    parts = [*(("drawn", f"{seed} {part}") for part in range(PARTS)), ("by hand", None), ("damaged", seed),
             *(("small", start) for start in range(0, sum(1 for _ in draft_lists.small(CALLS)), PART))]
    with Pool(batch.WORKERS) as pool:
        results = pool.map(checked, parts, chunksize=1)
    found = [difference for differing, _ in results for difference in differing]
    counts = sum((count for _, count in results), Counter())
    calls = sum(counts[number] for number in (0, 1, 21, 22, 23))
    return told(found[0]) if found else None, (
        f"{counts['lists']} lists of calls to an empty draft, every one of {CALLS} calls over two nets and three"
        f" columns among them: {calls} calls, of which {counts[1]} are refused with 1, {counts[21]} with 21,"
        f" {counts[22]} with 22 and {counts[23]} with 23; counts, the greatest and all words are those of the nets that"
        f" have arrived and not left since; and {counts['damaged']} lists of calls to words of any kind")


def main(arguments):
    if arguments:
        print("usage: draft_checks.py", file=sys.stderr)
        return 2
    batch.build()
    difference, counts = compare("2026")
    fault = next(faults(), None)
    print(fault or difference or f"drafts: {counts}")
    return 1 if fault or difference else 0


if __name__ == "__main__":
    sys.exit(main(sys.argv[1:]))
