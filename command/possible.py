"""Which refusals a text can have as a pin list, as far as that is known without reading it by the rules again. What a
program says of a text has to be one of them."""
from command import inputs
from command.pinlist import rows_of

MOST_COLUMNS, HIGHEST_NET = 512, 511


def refuses_text(refusal, pins):
    """Whether a refusal is one of 0 and 2 to 5 and can be of this text."""
    if refusal.number == 0 or len(pins) > inputs.MOST:
        return (refusal.number, refusal.place) == (0, inputs.MOST) and len(pins) > inputs.MOST
    if refusal.number == 2:
        return refusal.place <= len(pins)
    return refuses_rows(refusal, *map(len, rows_known(pins)))


def rows_known(pins):
    """The two rows of a text; a text that has no two lines of ASCII has none."""
    try:
        top, bot = rows_of(pins)
    except ValueError:
        return (), ()
    return top, bot


def refuses_rows(refusal, top, bot):
    """Whether a refusal is one of 3 to 5 and can be of rows of these lengths."""
    if refusal.number == 3:
        return refusal.place == MOST_COLUMNS + 1 and max(top, bot) > MOST_COLUMNS
    if refusal.number == 4:
        return refusal.place == min(top, bot) + 1 and top != bot
    return refusal.number == 5 and top == bot and 1 <= refusal.place <= top + bot
