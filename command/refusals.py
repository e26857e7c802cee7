"""The one table of refusals and faults: number, word, what it means, what to do."""
from collections import namedtuple
from pathlib import Path

TABLE = Path(__file__).resolve().parent / "refusals.tsv"
HEADING = ["number", "word", "meaning", "remedy"]
UNUSED = (6, 17, 19, 20)  # stand for no refusal; the numbers after them are as the scope has them
NUMBERS = tuple(number for number in range(24) if number not in UNUSED)
TOO_WIDE, TANGLED = 3, 7
OF_BOARDS, FAULTS = range(8, 14), range(11, 14)  # of a board file: all, and those that the judge finds in a layout
NO_BLANK, BAD_TABLE, NO_STOCK = 14, 15, 16  # what a choice of a blank is refused with
PANEL_FULL = 18

Refusal = namedtuple("Refusal", HEADING)


class BadTable(Exception):
    """The table of refusals is not of its form."""


def read_table(path=TABLE):
    """The refusals by number, in rising number, just those of NUMBERS. Raises OSError or BadTable."""
    lines = [line.split("\t") for line in Path(path).read_text(encoding="utf-8").splitlines()]
    if not lines or lines[0] != HEADING:
        raise BadTable(f"{path}: the first line must be the heading")
    if len(lines) != 1 + len(NUMBERS):
        raise BadTable(f"{path}: {len(NUMBERS)} refusals are due, one a line, and {len(lines) - 1} are there")
    table = {}
    for at, (number, fields) in enumerate(zip(NUMBERS, lines[1:]), 2):
        if len(fields) != 4 or not all(fields) or fields[0] != str(number):
            raise BadTable(f"{path}, line {at}: refusal {number} with three texts is due")
        table[number] = Refusal(number, *fields[1:])
    return table


def filled(text, place):
    """A text of the table with the place put in."""
    return text.replace("%p", str(place))
