"""channel picture PINS [BOARD] [--second COLUMN] > PICTURE

Writes an SVG picture on standard output: of the router's board of a pin list, or of a board file with what the judge
says of it. A refused list or board is drawn with the refused place marked, a tangled list with its ring and the ring
that has the fewest nets, and the status is 1. Parked pins are hollow. One of PINS and BOARD may be - for standard
input.

With --second the picture of a panel shows where its second list begins: a dashed line stands before that column, which
is 2 to the width of the list. A text that is no pin list has no columns, and its picture no such line.
"""
from command import answers, inputs, programs, rings, told
from command.chooser import is_number
from command.explain import meaning_of
from command.failure import Failure
from command.pinlist import rows_of
from command.possible import MOST_COLUMNS
from command.standard import write_output

SUMMARY = "draw a board, a fault or the rings of a tangled list"
OPERANDS = (1, 2)
OPTIONS = {"--second": "a COLUMN"}
GOOD_WORDS = ("judged good: two pins are joined exactly if they carry one net number, and every piece is joined to "
              "some pin")
NO_ROWS = (0, 2)  # refusals of a text, of which no columns are drawn


def run(pins_name, board_name=None, second=None):
    inputs.refuse_standard_twice(pins_name, board_name)
    column = column_of(second, pins_name)
    pins = inputs.read(pins_name)
    board = None if board_name is None else inputs.read(board_name)
    programs.ready(*programs.FOR_PICTURES)
    _, answer = programs.listing(pins)
    refuse_column_past(column, answer, pins, pins_name)
    board, verdict = drawn(pins, board, answer)
    fewest = rings.found_beside(pins, verdict) if verdict.number == told.TANGLED else None
    from picture.draw import draw  # pylint: disable=import-outside-toplevel  (the other commands need no pictures)
    words = GOOD_WORDS if verdict.word == "GOOD" else meaning_of(verdict)
    facts = None if isinstance(answer, answers.Verdict) else answer
    write_output(draw(pins, facts, board, verdict, words, fewest, column).encode())
    return told.status(verdict, pins, board, pins_name, board_name or "the board file")


def drawn(pins, board, answer):
    """The board file that is drawn, and the verdict that belongs to it: the file given, or else the router's board, if
    the list has one."""
    if board is not None:
        return board, programs.judge(pins, board)[1]
    if isinstance(answer, answers.Verdict):
        return b"", answer
    board, verdict = programs.judged_board(pins)
    programs.refuse_disagreement(answer, board, verdict)
    return board, verdict


def column_of(word, pins_name):
    """The column that --second names, if it is there; no list is wider than the last that may be."""
    if word is None:
        return None
    if not is_number(word) or not 2 <= int(word) <= MOST_COLUMNS:
        raise wrong_column(word, pins_name, f"at most {MOST_COLUMNS}")
    return int(word)


def refuse_column_past(column, answer, pins, pins_name):
    """Refuses a column that stands behind those of the list. A text that is no pin list has none."""
    if column is None or isinstance(answer, answers.Verdict) and answer.number in NO_ROWS:
        return
    width = max(map(len, rows_of(pins)))
    if column > width:
        raise wrong_column(column, pins_name, f"which is {width}")


def wrong_column(word, pins_name, width_words):
    return Failure("--second needs the COLUMN in which the second list begins, a whole number from 2 to the width of "
                   f"{inputs.called(pins_name)}, {width_words}, without sign or leading zero, and not '{word}'")
