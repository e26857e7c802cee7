#!/usr/bin/env python3
"""Compares the five programs and the C entries with channel.py on cases drawn from a seed, the router with a search on
small channels, the ring with the fewest nets with all rings of small channels, two lists on one panel with the words of
their request on small lists, nets that come and go on a draft with those of theirs on short lists of calls, and the
choice of own blanks with those of its own on small tables.

    python3 reference/compare.py [SEED]        runs the test of the comparison itself, then all parts
    python3 reference/compare.py --self-test   runs that test alone

It needs the programs in target/bin and target/staticlib/libscreen_api.a. A difference is printed with the input that
shows it, and the exit status is 1.
"""
import sys
import time
from collections import Counter
from multiprocessing import Pool

sys.dont_write_bytecode = True  # the modules below leave nothing beside them

import batch
import draft_checks
import entry_cases
import exhaustive
import own_checks
import panel_checks
import program_cases
import ring_checks
import self_test

DEFAULT_SEED = "2026"
PROGRAMS = ("listing", "board_writer", "board_judge", "ring_finder", "panel_joiner")
# No answer has number 6, 17, 19 or 20. The programs lend enough memory, have a blank for every channel, take no other
# table and keep no draft, so 1, 14 to 16 and 21 to 23 never show. None is an output other than a refusal.
PROGRAM_NUMBERS = {None, 0, *range(2, 6), *range(7, 14), 18}
ENTRY_NUMBERS = {*range(6), *range(7, 17), 18, 21, 22, 23}


def first_difference(cases, answers):
    """The first case with another answer than the one due, for people; or None."""
    for case, answer in zip(cases, answers):
        if answer != case.due:
            return f"{case.shown()}\ndue: {shown(case.due)}\ngot: {shown(answer)}"
    return None


def shown(answer):
    """A line as it is; of a program's output the text, or the bytes in hexadecimal."""
    if isinstance(answer, str):
        return answer
    printable = all(byte == 10 or 32 <= byte < 127 for byte in answer)
    return answer.decode("ascii").rstrip("\n") if printable else f"{len(answer)} bytes {answer.hex()}"


def lacking(numbers, due):
    """What to say if some number that should be answered was not; or None."""
    missing = sorted(map(str, set(due) - set(numbers)))
    return f"never answered: {' '.join(missing)}" if missing else None


def having(features, names):
    """How many cases have each feature."""
    return ", ".join(f"{features[name]} with {name}" for name in names)


def counted(numbers):
    """How often each number was answered."""
    rising = sorted(numbers, key=lambda n: -1 if n is None else n)
    return ", ".join(f"{'not refused' if n is None else n}: {numbers[n]}" for n in rising)


def programs(seed):
    with Pool(batch.WORKERS) as pool:
        parts = pool.map(program_cases.made_and_run, program_cases.jobs(seed), chunksize=1)
    cases = [case for made, _ in parts for case in made]
    difference = first_difference(cases, [written for _, outputs in parts for written in outputs])
    numbers = Counter(case.number() for case in cases)
    each = Counter(case.program for case in cases)
    kinds = ", ".join(f"{name} {each[name]}" for name in PROGRAMS)
    return difference or lacking(numbers, PROGRAM_NUMBERS), f"{len(cases)} cases ({kinds}); answers {counted(numbers)}"


def entries(seed):
    with Pool(batch.WORKERS) as pool:
        parts = pool.map(entry_cases.made, entry_cases.jobs(seed), chunksize=1)
    cases = [case for made, _ in parts for case in made]
    difference = first_difference(cases, batch.answers([case.question for case in cases]))
    numbers = Counter(number for case in cases for number in case.numbers())
    each = Counter(batch.NAMES[case.kind()] for case in cases)
    kinds = ", ".join(f"{name} {each[name]}" for name in batch.NAMES)
    features = sum((found for _, found in parts), Counter())
    parked = ", ".join(f"{name} {features[name]}" for name in entry_cases.PARKED)
    due = (entry_cases.GOOD + entry_cases.SWEPT + entry_cases.PARKED + entry_cases.READ + entry_cases.GARBLED
           + entry_cases.LOOKS + entry_cases.CEILING + entry_cases.FEWEST_RING + entry_cases.JOIN
           + entry_cases.NO_JOIN + entry_cases.OWN_BLANK + entry_cases.NO_OWN_BLANK + entry_cases.DRAFT
           + entry_cases.HELD + entry_cases.REFUSED)
    return difference or lacking(numbers, ENTRY_NUMBERS) or lacking(features, due), (
        f"{len(cases)} cases in one process ({kinds}); answers {counted(numbers)}; good boards"
        f" {having(features, entry_cases.GOOD)}; boards swept {having(features, entry_cases.SWEPT)}; parked pins in"
        f" {parked}; texts read {having(features, entry_cases.READ)}; garbled"
        f" {having(features, entry_cases.GARBLED)}; looks {having(features, entry_cases.LOOKS)}; ceilings"
        f" {having(features, entry_cases.CEILING)}; rings with the fewest nets"
        f" {having(features, entry_cases.FEWEST_RING)}; lists joined {having(features, entry_cases.JOIN)}, and refused"
        f" {having(features, entry_cases.NO_JOIN)}; own blanks {having(features, entry_cases.OWN_BLANK)}, and refused"
        f" {having(features, entry_cases.NO_OWN_BLANK)}; drafts {having(features, entry_cases.DRAFT)}, and before"
        f" their calls {having(features, entry_cases.HELD)}")


def run(name, part, *arguments):
    """Runs a part and prints its line; whether it found no difference."""
    start = time.monotonic()
    difference, counts = part(*arguments)
    if difference:
        print(f"{name}: differs\n{difference}")
    else:
        print(f"{name}: {counts} ({time.monotonic() - start:.1f} s)", flush=True)
    return not difference


def main(arguments):
    alone = arguments == ["--self-test"]
    if len(arguments) > 1 or (arguments and arguments[0].startswith("-") and not alone):
        print("usage: compare.py [SEED | --self-test]", file=sys.stderr)
        return 2
    for name in PROGRAMS:
        batch.need(program_cases.BINS / name)
    batch.build()
    right = run("self-test", self_test.compare, first_difference, lacking)
    if alone or not right:
        return 0 if right else 1
    seed = arguments[0] if arguments else DEFAULT_SEED
    print(f"seed {seed}", flush=True)
    parts = (("programs", programs), ("entries", entries), ("exhaustive", exhaustive.compare),
             ("rings", ring_checks.compare), ("panels", panel_checks.compare), ("drafts", draft_checks.compare),
             ("own blanks", own_checks.compare))
    results = [run(name, part, seed) for name, part in parts]
    return 0 if all(results) else 1


if __name__ == "__main__":
    sys.exit(main(sys.argv[1:]))
