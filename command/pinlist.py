"""A pin list's rows and pin places, for messages and pictures. Which texts are pin lists the proved reader decides."""
SIDES = ("TOP", "BOT")


def rows_of(text):
    """The two rows of a text of the form, as written: a number may have more digits than any machine word. No other
    white space than spaces stands between its numbers, and none but a carriage return at the end of a line."""
    return tuple(line.decode("ascii").split()[1:] for line in text.split(b"\n")[:2])


def side_and_column(position, width):
    """Where a pin position stands: 1 to w for TOP, w + 1 to 2w for BOT."""
    return (SIDES[0], position) if position <= width else (SIDES[1], position - width)


def place_words(position, width):
    """A pin position as messages name it."""
    side, column = side_and_column(position, width)
    return f"column {column}, {side}"
