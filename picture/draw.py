"""An SVG picture of a channel, from what the proved programs answered. No answer is found here."""
from command.pinlist import rows_of
from command.refusals import FAULTS, TANGLED
from picture.garbled import draw_text
from picture.refused import draw_rings, draw_rows
from picture.scenes import draw_board, draw_pins_only


def draw(text, facts, board, verdict, words, fewest=None, second=None):
    """The picture that belongs to a verdict, as text.

    The text is the pin list's; the facts are the listing's, or None where the list is refused; the board is a board
    file's bytes. The verdict is the judge's, or the refusal where a board was wanted of a list that has none. The words
    say what it means. The fewest is the ring with the fewest nets of a list that is refused as tangled. The second is
    the column in which the second list of a panel begins, if it is to be shown. A text over the limit is refused before
    its rows are known.
    """
    if verdict.number == 2 or (verdict.word == "REFUSED" and verdict.number == 0 and len(text) > verdict.place):
        return draw_text(text, verdict, words)
    rows = rows_of(text)
    if 3 <= verdict.number <= 5:
        return draw_rows(rows, verdict, words, second)
    if verdict.number == TANGLED:
        return draw_rings(rows, verdict, fewest, words, second)
    if verdict.word == "GOOD" or verdict.number in FAULTS:
        return draw_board(rows, board, facts, verdict, words, second)
    return draw_pins_only(rows, board, verdict, words, second)
