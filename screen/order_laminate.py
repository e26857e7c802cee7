"""A customer's own laminate, as the order screen should choose from it and tell of it: worked out from the request's
words, and the explanations from the table of refusals."""
import textwrap

from cases_pipe import table_of_refusals
from order_drawing import channel
from order_keys import ENTER, LAMINATE, expect_message

MOST = 2**32 - 1  # a larger number is handed over as this one
TEXT_LINES = 3  # between title and ruler


def choice(table, tracks):
    """The smallest entry that holds so many tracks; or number and place of the refusal."""
    if not 1 <= len(table) <= 64:
        return 15, 0
    for place, (before, entry) in enumerate(zip([0, *table], table), 1):
        if entry not in range(1, 513) or entry <= before:
            return 15, place
    return next((entry for entry in table if entry >= tracks), (16, tracks))


def own_words(table, tracks):
    """What stands after the blank."""
    chosen = choice(table, tracks)
    return f"own REFUSED {chosen[0]} {chosen[1]}" if isinstance(chosen, tuple) else f"own {chosen}"


def summary(rows, table=None):
    """The summary of a list that has a board, with the entry of a table if one is loaded."""
    (density, chain), (tracks, _, pieces) = channel.bounds(*rows), channel.draw(*rows)
    own = "" if table is None else "  " + own_words(table, tracks)
    return (f"width {len(rows[0])}  tracks {tracks}  blank {channel.blank(tracks)}{own}  density {density}  "
            f"chain {chain}  pieces {len(pieces)}")


def explained(number, place):
    """Why a table is refused, and what to do, as the one table of refusals has it."""
    word, meaning, remedy = (text.replace("%p", str(place)) for text in table_of_refusals()[number])
    return meaning if word in meaning else f"{word}: {meaning}", f"What to do: {remedy}."


def entries(table):
    return f"{len(table)} {'entry' if len(table) == 1 else 'entries'}"


def name_line(table, name):
    return f"own laminate of {entries(table)}: {name}"


def not_taken(name, line, column, stray):
    """What is told of a file that is no table: what stands where."""
    return f"not loaded: line {line}, column {column} has {stray}; {name} is no table"


def text_lines(rows, table, name, across=80, parked=""):
    """The lines between title and ruler: the verdict, why the table is refused, its name if there is a line left; and
    the parked pins, for which a line is kept."""
    chosen, kept = choice(table, channel.fill(*rows)[0]), TEXT_LINES - bool(parked)
    texts = [summary(rows, table), *(explained(*chosen) if isinstance(chosen, tuple) else ())]
    lines = [line for text in texts for line in textwrap.wrap(text, across, break_on_hyphens=False)]
    lines = [*lines, name_line(table, name)[:across].rstrip()][:kept] + [parked] * bool(parked)
    return lines + [""] * (TEXT_LINES - len(lines))


def give(s, folder, table, name="own"):
    """Has a table loaded from a file, in place of the one before."""
    (folder / name).write_text(" ".join(map(str, table)))
    s.type(LAMINATE + name + ENTER)


def load_laminate(s, folder, table, name="own"):
    """The same, in a window of 24 lines that shows what is told of it."""
    give(s, folder, table, name)
    expect_message(s, f"loaded {table[:9]}", f"loaded {name} ({entries(table)})")
