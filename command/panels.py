"""Two pin lists joined on one panel: the proved panel joiner is asked for it. The listing program answers of each list
by itself and of the panel. What is no whole answer with status 0, or not what is due by the answers of the two lists,
is a failure of that step."""
from collections import namedtuple

from command import answers, inputs, programs
from command.failure import Failure
from command.pinlist import SIDES, rows_of
from command.possible import HIGHEST_NET, MOST_COLUMNS, refuses_text
from command.refusals import PANEL_FULL, TANGLED, TOO_WIDE

FILES = ("first", "second")  # of the folder that the panel joiner reads

# a list that is to be joined, and what the listing program writes of it, as bytes and as an answer
Part = namedtuple("Part", "name pins listed answer")
# what messages say of a list that is not refused
Described = namedtuple("Described", "name width highest")


def part_of(name, pins):
    """A list by itself. A refusal that its text cannot have is no answer of the listing program."""
    part = Part(name, pins, *programs.listing(pins))
    if is_refused(part) and not refuses_text(part.answer, pins):
        fail(programs.LISTING, f"what it says of {inputs.called(name)} is no answer of that list "
                               f"({programs.shown(part.listed)})")
    return part


def fail(program, words):
    raise Failure(f"{programs.STEPS[program]} failed: {words}; nothing is written")


def is_tangled(part):
    return isinstance(part.answer, answers.Verdict) and part.answer.number == TANGLED


def is_refused(part):
    """Whether a list cannot be joined. A tangled one can."""
    return isinstance(part.answer, answers.Verdict) and not is_tangled(part)


def first_refused(parts):
    return next(filter(is_refused, parts), None)


def rows_in(part):
    """The two rows of a list that is not refused, as numbers."""
    try:
        top, bot = ([int(net) for net in row] for row in rows_of(part.pins))
    except ValueError:
        top, bot = [], []
    if not 0 < len(top) == len(bot):
        fail(programs.LISTING, f"it does not refuse {inputs.called(part.name)}, which is no pin list")
    return top, bot


def described(part):
    top, bot = rows_in(part)
    return Described(inputs.called(part.name), len(top), max(top + bot))


def joined(first, second):
    """What the panel joiner writes of two lists, and the refusal that it is; None where it is a panel."""
    output = programs.run_on_files(programs.JOINER, dict(zip(FILES, (first.pins, second.pins))))
    refusal = answers.refusal_of(output)
    if refusal is None and not answers.is_pin_list(output):
        fail(programs.JOINER, f"its output is neither a pin list nor a refusal ({programs.shown(output)})")
    if output != due(first, second):
        fail(programs.JOINER, f"what it says is not what is due of these two lists ({programs.shown(output)})")
    if refusal is None:
        refuse_another_listing(first, second, output)
    return output, refusal


def due(first, second):
    """What the panel joiner has to write: the refusal of a list, the first one's before the second's, then that of the
    panel, and else the joined rows."""
    refused = first_refused((first, second))
    if refused is not None:
        return refused.listed
    highest = described(first).highest
    rows = [row + [net + highest if net else 0 for net in more]
            for row, more in zip(rows_in(first), rows_in(second))]
    over = [net for row in rows for net in row if net > HIGHEST_NET]
    if max(map(len, rows)) > MOST_COLUMNS:
        return answers.line("REFUSED", TOO_WIDE, MOST_COLUMNS + 1)
    if over:
        return answers.line("REFUSED", PANEL_FULL, min(over))
    return b"".join(answers.line(word, *row) for word, row in zip(SIDES, rows))


def refuse_another_listing(first, second, panel):
    """The listing program is to say of a panel what is promised of it: that it is tangled exactly if one of its lists
    is, and else just what follows from their listings."""
    output, answer = programs.listing(panel)
    if is_tangled(first) or is_tangled(second):
        right = isinstance(answer, answers.Verdict) and answer.number == TANGLED
    else:
        right = output == listing_due(first, second)
    if not right:
        fail(programs.LISTING, "what it says of the panel does not follow from what it says of its two lists "
                               f"({programs.shown(output)})")


def listing_due(first, second):
    """The listing of a panel from those of its lists, which are not tangled: tracks, blank and bounds are the larger
    ones, and each net stands where it stood, the second list's renumbered and behind the first's columns."""
    highest, before = described(first).highest, first.answer.width
    larger = answers.Facts(*map(max, first.answer, second.answer))
    nets = answers.nets_of(first.listed) + [(net + highest, left + before, right + before, track)
                                            for net, left, right, track in answers.nets_of(second.listed)]
    return b"".join((
        answers.line("BOARD", before + second.answer.width, larger.tracks, larger.blank),
        answers.line("BOUND", larger.density, larger.chain), *(answers.line("NET", *net) for net in nets),
        answers.line("END", first.answer.pieces + second.answer.pieces)))


def begin_words(first, second):
    """Where the second list begins on the panel, and by how much its numbers are raised."""
    one, column = described(first), described(first).width + 1
    return (f"panel: {inputs.called(second.name)} begins in column {column}, its net numbers raised by {one.highest} "
            f"(channel picture --second {column} shows it)")
