"""Asking for a blank: a small C program calls the proved choice. What is no whole answer with status 0, or is none that
these tracks and this table can have, is a failure of that step."""
from command import answers, compiled, places, programs
from command.failure import Failure
from command.refusals import BAD_TABLE, NO_BLANK, NO_STOCK

LARGEST = 4294967295  # that the choice can be handed
LONGEST = len(str(LARGEST))
MOST_TRACKS, MOST_ENTRIES = 512, 64  # of any blank, and of a table


def is_number(word):
    """Whether a word is a number that can be handed over, digits alone and without a leading zero."""
    plain = word.isascii() and word.isdigit() and (word == "0" or not word.startswith("0"))
    return plain and len(word) <= LONGEST and int(word) <= LARGEST


def handed(entry):
    """An entry as it is handed over: one that is larger than can be is as bad as the largest, at the same place."""
    return entry if is_number(entry) else str(LARGEST)


def chosen(tracks, table=None):
    """What the chooser writes of so many tracks, and what it means: a blank or a refusal. Without a table it is asked
    for a stock blank."""
    compiled.ready(compiled.CHOOSER)
    words = ["stock", str(tracks)] if table is None else ["own", str(tracks), *map(handed, table.entries)]
    output = programs.run_step(compiled.CHOOSER.called, [places.CHOOSER, *words])
    answer = answers.blank_of(output) or answers.refusal_of(output)
    if answer is None:
        fail(f"its output is neither a blank nor a refusal ({programs.shown(output)})")
    if not possible(answer, tracks, table):
        fail(f"of {tracks} tracks it says {output.decode().rstrip()}, which is no answer")
    return output, answer


def fail(words):
    raise Failure(f"{compiled.CHOOSER.called} failed: {words}")


def possible(answer, tracks, table):
    """Whether an answer can be one of these tracks and this table. Which of its entries it is, is not asked again, and
    which blanks the stock has is not known here."""
    entries = () if table is None else table.entries
    if tracks > MOST_TRACKS:
        return answer == answers.Verdict("REFUSED", NO_BLANK, tracks, ())
    if isinstance(answer, answers.Blank):
        return tracks <= answer.tracks <= MOST_TRACKS and (table is None or str(answer.tracks) in entries)
    if answer.number == BAD_TABLE:
        counted = 1 <= len(entries) <= MOST_ENTRIES
        return table is not None and (1 <= answer.place <= len(entries) if counted else answer.place == 0)
    return answer.number == NO_STOCK and answer.place == tracks and bool(entries)
