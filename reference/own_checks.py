"""A customer's own blanks (Req 03): channel.own_blank and the C entry against the words of the request, each asked of
every entry of a table, on every small table, on long ones and on tables made by hand; and the stock as such a table.

Usage: python3 reference/own_checks.py
"""
import re
import sys

sys.dont_write_bytecode = True  # the modules below leave nothing beside them

import batch
import channel
import table_cases

ANSWER = re.compile(r"(\d+) (\d+) inputs kept")
LONGEST = 4  # entries of the small tables
STOCK_TRACKS = (*range(601), 2**16, 2**31, table_cases.HIGHEST)


# --- the words of the request ---------------------------------------------------------------------------------------

def bad_places(table):
    """The places that 15 may tell of a table, the first one first: 0 if it has no entries or more than 64, else those
    of its bad entries, from 1."""
    if not 1 <= len(table) <= 64:
        return [0]
    return [i + 1 for i, entry in enumerate(table)
            if entry < 1 or entry > 512 or i > 0 and entry <= table[i - 1]]


def broken(table, tracks, number, value):
    """The first sentence of the request that an answer breaks, or None."""
    bad, holding = bad_places(table), [entry for entry in table if entry >= tracks]
    passed = number not in (14, 15)
    kept = {
        "14 is for over 512 tracks, and for these alone": (number == 14) == (tracks > 512),
        "15 is for a bad table, and for such alone": number == 14 or (number == 15) == bool(bad),
        "the place of 15 is the first bad entry": number != 15 or bad[:1] == [value],
        "16 is for tracks that no entry holds, and for these alone": not passed or (number == 16) != bool(holding),
        "the place of 14 and 16 is the tracks": number not in (14, 16) or value == tracks,
        "there is no other refusal": number in (0, 14, 15, 16),
        "the entry is in the table": number != 0 or value in table,
        "the entry holds the tracks": number != 0 or value >= tracks,
        "every entry that holds the tracks is at least as large": number != 0 or all(value <= e for e in holding),
    }
    return next((words for words, right in kept.items() if not right), None)


def asked(longest):
    """The tables and tracks that are tried: every table of up to so many entries over telling numbers, and others."""
    return [*table_cases.small(longest), *table_cases.rising(), *table_cases.long(), *table_cases.by_hand()]


# --- the independent program and the entry --------------------------------------------------------------------------

def differences(questions):
    """Each answer of the independent program that breaks the request, in words, with its table and tracks."""
    for table, tracks in questions:
        answer = batch.answered(channel.own_blank, table, tracks)
        words = broken(table, tracks, *answer)
        if words:
            yield f"the independent program answers {answer}; broken: {words}", (table, tracks)


def cases_of(questions):
    return [batch.own_blank(table, tracks, 1) for table, tracks in questions]


def entry_differences(cases, program=batch.PROGRAM):
    """The same of the entry; and where it answers otherwise than the independent program."""
    for case, line in zip(cases, batch.answers([case.question for case in cases], program)):
        (table, _), (tracks, _) = case.inputs()[0], case.lent()
        answer = ANSWER.fullmatch(line)
        words = broken(table, tracks, *map(int, answer.groups())) if answer else "an answer is a number and a value"
        if words or line != case.due:
            yield f"the entry answers '{line}', here '{case.due}'; broken: {words or 'nothing'}", (table, tracks)


def stock_differences(program=batch.PROGRAM):
    """Where the entry for own blanks answers otherwise of the stock than the entry for stock blanks."""
    stock, own = [[ask(tracks).question for tracks in STOCK_TRACKS]
                  for ask in (batch.blank, lambda tracks: batch.own_blank(channel.STOCK, tracks))]
    lines = batch.answers(stock + own, program)
    for tracks, line, own_line in zip(STOCK_TRACKS, lines, lines[len(stock):]):
        if line != own_line:
            yield f"the stock is answered '{line}', and '{own_line}' as a table", (channel.STOCK, tracks)


def compare(_):
    """The first difference, or None; and what was compared, in words."""
    questions = asked(LONGEST)
    found = [*differences(questions), *entry_differences(cases_of(questions)), *stock_differences()]
    tables = {tuple(table) for table, _ in questions}
    passing = sum(not bad_places(table) for table in tables)
    return told(found[0]) if found else None, (
        f"{len(questions)} questions to {len(tables)} tables, {passing} of which pass: the entry chosen is the smallest"
        " that holds the tracks, and 14, 15 and 16 come just where they should; the stock as a table is answered as the"
        f" stock for {len(STOCK_TRACKS)} numbers of tracks")


def told(difference):
    """A difference for people."""
    fault, (table, tracks) = difference
    return "\n".join([fault, f"tracks {tracks}", batch.joined("TABLE", *table)])


if __name__ == "__main__":
    batch.build()
    DIFFERENCE, COUNTS = compare(None)
    print(DIFFERENCE or f"own blanks: {COUNTS}")
    sys.exit(bool(DIFFERENCE))
