"""Padded lists and their line ends, loaded and saved as files, for the tests of the full screen."""
import itertools

from order_keys import ENTER, LOAD, PITCH, SAVE_PINS, expect_message
from pseudo_terminal import check

NAMES = (f"list{n}" for n in itertools.count())
ENDS = (b"\n", b"\r\n")
# what is told of the ends of a list that is loaded or saved
CR_LF = " (lines end in CR LF)"
TOP_ONLY, BOT_ONLY = " (TOP ends in CR LF, BOT in LF)", " (TOP ends in LF, BOT in CR LF)"


def padded(rows, cells=PITCH, end=b"\r\n"):
    """The text of a list, each number at the right of so many cells."""
    top, bot = (b"".join(b"%*d" % (cells, net) for net in row) for row in rows)
    return b"TOP" + top + end + b"BOT" + bot + end


def load(s, folder, text, told="", unsaved=False):
    """Loads a text from a file of its own, also over a list that is not saved."""
    name = next(NAMES)
    (folder / name).write_bytes(text)
    s.type(LOAD + name + ENTER + ("y" if unsaved else ""))
    expect_message(s, f"loaded {text[:60]}", f"loaded {name}{told}")


def expect_saved(s, folder, what, due, told=""):
    """Saves the list as a file of its own, and looks at its bytes."""
    name = next(NAMES)
    s.type(SAVE_PINS + name + ENTER)
    expect_message(s, f"{what}: saved", f"saved {len(due)} bytes as {name}{told}")
    check(what, (folder / name).read_bytes(), due)
