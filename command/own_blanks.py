"""A customer's own laminate: a file with a table of track counts. Only the form of the file is looked at here. Which
tables are good the proved choice decides, which is handed every number that stands there."""
import re
from collections import namedtuple

from command import inputs, slips
from command.failure import Failure

# as much of a text as some table begins with
START = re.compile(rb"(?: |\r?\n|(?<![0-9])(?:0|[1-9][0-9]*))*")
SLIPS = ("track counts are parted by spaces or line ends and nothing else",
         "a track count is a whole number without a sign", "a table of blanks has no comments",
         "a track count is a number, without letters")
DUE = "track counts are due there, parted by spaces or line ends"

# entries are as they are written: a number may have more digits than any machine word
Table = namedtuple("Table", "name entries")


def table_of(text, name):
    """The table that a file holds. A text of another form is a failure of the command, whatever its numbers are."""
    called = f"{inputs.called(name)}: this is no table of blanks"
    if len(text) > inputs.MOST:
        raise Failure(f"{called}: it has more than {inputs.MOST} bytes")
    place = START.match(text).end()
    if place < len(text):
        line, column = slips.line_and_column(text, place)
        raise Failure(f"{called}: at line {line}, column {column} {slips.standing(text, place)}: {slip(text, place)}")
    return Table(name, text.decode("ascii").split())


def chosen_words(choice, table, stock):
    """On which blank of a table a board goes, beside the stock blank; nothing where there is no table."""
    if table is None:
        return ""
    return f"its board goes on the {choice.tracks}-track blank of {inputs.called(table.name)} (stock: {stock})"


def slip(text, place):
    """The slip that is likely behind a byte that no table has there."""
    if text[place] == slips.RETURN:
        return slips.LONE_RETURN
    for find in (slips.slip_of_file, slips.slip_of_space):
        words = find(text, place, *slips.line_and_column(text, place))
        if words:
            return words
    return slips.slip_of_number(text, place, *slips.line_and_column(text, place), SLIPS) or DUE
