"""Keys, lines and questions of the full screen, for its tests."""
import re
from pathlib import Path

ORDER = Path(__file__).resolve().parent.parent / "target" / "order_tested"  # its own, also where another is built
UP, DOWN, RIGHT, LEFT = "\x1b[A", "\x1b[B", "\x1b[C", "\x1b[D"
HOME, END, DELETE, PAGE_DOWN, ERASE = "\x1b[H", "\x1b[F", "\x1b[3~", "\x1b[6~", "\x7f"
ENTER, ESCAPE, TAB = "\r", "\x1b", "\t"
HELP, UNDO, REDO, TURN, LAMINATE = "\x1bOP", "\x1b[15~", "\x1b[17~", "\x1b[19~", "\x1b[20~"
LOAD, SAVE, SAVE_PINS, JUDGE = "\x0f", "\x13", "\x17", "\x07"
QUIT, MARK, CLEAR = "\x11", "\x0e", "\x15"
SCROLL_UP, SCROLL_DOWN, SCROLL_RIGHT, SCROLL_LEFT = (f"\x1b[1;5{letter}" for letter in "ABCD")
# lines of a screen of 24
TITLE, VERDICT, MORE, _, RULER, TOP_MARKS, TOP_LINE, BOT_LINE, BOT_MARKS, DENSITY, DRAWING = range(11)
MESSAGE, KEYS = 22, 23
PITCH, GUTTER = 4, 5  # cells of a column, and before the first


def paste(text):
    return "\x1b[200~" + text + "\x1b[201~"


def row(word, numbers):
    """A typed row as it is shown: each number at the right of its column."""
    return (word.ljust(GUTTER) + "".join(str(n).rjust(PITCH) for n in numbers)).rstrip()


def columns(*marked, sign):
    """A line of marks at the right of columns."""
    last = max(marked, default=0)
    return "".join([" " * GUTTER] + [(sign if c in marked else "").rjust(PITCH) for c in range(1, last + 1)]).rstrip()


def fill(s, top, bot):
    """Types both rows anew."""
    s.type(UP + CLEAR + top + DOWN + CLEAR + bot)


def expect_rows(s, what, top, bot):
    s.expect_lines(what, TOP_LINE, [row("TOP", top), row("BOT", bot)])


def expect_message(s, what, due):
    """Waits for a message; a bar of looks may stand in what is left of its line."""
    bar = re.compile(r"(^|  )looks \d+ of at most \d+( \[#* *\])?$")
    s.expect(what, lambda: bar.sub("", s.grid.line(MESSAGE)), due)


def in_sight(lines, rows=24):
    """The lines of a drawing that a window shows of it at first: where not all fit, the pins stay in sight, if more
    than two fit."""
    room = rows - DRAWING - 2
    return lines if len(lines) <= room else [*lines[:room - 1], lines[-1]] if room > 2 else lines[:room]


def expect_cursor(s, what, y, x):
    s.expect(what, lambda: (s.grid.y, s.grid.x), (y, x))


def leave(s, what, status=0):
    """Quits, also with a list that is not saved."""
    s.type(QUIT + "y")
    s.finish(what, status)
