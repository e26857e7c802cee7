"""The full screen: windows of all sizes, scrolling, colours, glyphs, signals."""
import os
import re
import signal
import subprocess
import sys
import time
from pathlib import Path

from order_drawing import A, B, drawing, text_of, written
from order_keys import (BOT_LINE, CLEAR, DOWN, DRAWING, END, ENTER, ERASE, HOME, KEYS, LOAD, MARK, MESSAGE, ORDER,
                        PAGE_DOWN, PITCH, QUIT, RIGHT, RULER, SCROLL_DOWN, SCROLL_LEFT, SCROLL_RIGHT, SCROLL_UP,
                        TOP_LINE, TOP_MARKS, UP, VERDICT, expect_rows, fill, in_sight, leave)
from pseudo_terminal import PATIENCE, Session, check

JOB_SHELL = Path(__file__).resolve().parent / "job_shell.py"


def words_at(line):
    """The numbers of a line by the cell in which each ends."""
    return {match.end(): int(match.group()) for match in re.finditer(r"\d+", line)}


def under_each_other(s):
    """The numbers of a column end in the same cell, in both rows and under the column's number; also scrolled."""
    top, bot = [k % 2 * 99 + 1 for k in range(60)], [511 - k for k in range(60)]
    fill(s, " ".join(map(str, top)), " ".join(map(str, bot)))

    def shown():
        ruler, above, below = (words_at(s.grid.line(y)) for y in (RULER, TOP_LINE, BOT_LINE))
        return {column: (above.get(end), below.get(end)) for end, column in ruler.items()}

    for keys, first, last in ((HOME, 1, 18), (END, 44, 60), (UP + END, 44, 60), (DOWN + HOME, 1, 18)):
        s.type(keys)
        s.expect("each column has its own numbers", shown,
                 {c: (top[c - 1], bot[c - 1]) for c in range(first, last + 1)})


def shrink_and_grow(s):
    """A window that shrinks and grows again shows what it showed before."""
    for keys, column in ((HOME + RIGHT * 47, 12), (END, 60)):
        s.type(keys)
        s.expect("the cursor's column", lambda: [s.grid.line(RULER)[x] for x in s.grid.cells_marked(RULER)],
                 list(str(column)))
        s.quiet()
        before = [s.grid.line(y) for y in range(24)]
        s.resize(14, 40)
        s.expect_start("a small window", 13, " F1 help")
        check("the cursor is in sight", 0 <= s.grid.x < 40, True)
        s.resize(5, 20)
        s.expect_start("too small", 0, "Too small a window:")
        s.resize(24, 80)
        s.expect_lines("as before", 0, before)
    fill(s, "0 1 2 3 " * 4, "0")
    s.resize(14, 40)
    s.expect("scrolled in the small window", lambda: s.grid.line(RULER)[:9] != "col     1", True)
    s.resize(24, 80)
    s.expect_start("all of the row is back in sight", RULER, "col     1   2   3   4")


def too_small(s):
    """A window too small says so, shows nothing else, and takes no keys but those that leave."""
    fill(s, "0 1 2 3", "1 2 0 3")
    expect_rows(s, "a list", *A)
    s.resize(5, 20)
    s.expect_lines("20 by 5", 0, ["Too small a window:", "40 by 14 cells are", "needed, here are 20", "by 5.", ""])
    s.type("77 77" + CLEAR + LOAD)
    s.resize(13, 80)
    s.expect_start("one line too few", 0, "Too small a window: 40 by 14 cells are needed, here are 80 by 13.")
    s.resize(14, 40)
    s.expect_start("just large enough", 13, " F1 help  ^Q quit  ^O load")
    expect_rows(s, "no key was taken", *A)
    for y in range(14):
        check("no line is too long", len(s.grid.line(y)) <= 40, True)
    s.resize(5, 20)
    s.type(QUIT)
    s.expect_line("leaving is asked", 4, "List not saved. Quit")
    s.type("n")
    s.expect_line("not left", 4, "")
    s.resize(40, 100)
    s.expect_start("the keys at the new bottom", 39, " F1 help")
    s.resize(24, 80)
    s.expect_start("the old window", KEYS, " F1 help")


def last_columns(due, line):
    """A line of a drawing of 512 columns in a window of 80 cells, scrolled to the right: its gutter and 17 columns, as
    the cursor stands after them."""
    return (due[line][:5] + due[line].ljust(5 + 4 * 512)[-68:]).rstrip()


def largest(s, folder):
    """A board larger than any window."""
    chain = (list(range(1, 512)) + [0], list(range(512)))
    (folder / "chain").write_bytes(text_of(chain))
    due = drawing(chain, written(chain), PITCH)
    s.type(LOAD + "chain" + ENTER + "y")
    s.expect_start("the largest board", VERDICT, "width 512  tracks 511  blank 512  density 2  chain 511  pieces 2555")
    s.expect_line("its first track shown", DRAWING + 2, due[3][:77].rstrip())
    s.expect("its rows go on", lambda: s.grid.line(TOP_LINE)[-2:] + s.grid.line(BOT_LINE)[-2:], "8>7>")
    s.expect_line("BOT stays in sight", 21, due[-1][:77].rstrip())
    s.type(SCROLL_RIGHT + SCROLL_DOWN)
    s.expect_start("scrolled to the right", RULER, "col    11  12  13")
    s.expect_start("the rows with it", TOP_LINE, "TOP <  11  12  13")
    s.expect_line("scrolled down", DRAWING + 2, (due[4][:5] + due[4][45:117]).rstrip())
    s.expect("the cursor is out of sight", lambda: 25 in s.grid.modes, False)
    s.type(SCROLL_LEFT + SCROLL_UP)
    s.expect_start("scrolled back", RULER, "col     1   2   3")
    start = time.monotonic()
    s.type(PAGE_DOWN * 200 + END)
    s.expect("its last track shown", lambda: s.grid.line(20), last_columns(due, -2))
    s.expect_line("the cursor's column is in sight", RULER, last_columns(due, 0))
    check("200 pages and the end of the row in 4 seconds", time.monotonic() - start < 4, True)
    (folder / "wide").write_bytes(text_of(([0] * 513, [0] * 513)))
    s.type(LOAD + "wide" + ENTER)
    s.expect_start("M, 513 columns", VERDICT, "REFUSED 3 513  too wide")
    s.expect("M: a sign that the mark is beyond", lambda: s.grid.line(TOP_MARKS).strip(), ">")
    s.type(MARK)
    s.expect("M: the mark comes in sight", lambda: s.grid.line(TOP_MARKS).strip("< "), "v")


def signals(folder):
    """However it ends, the terminal is as it was."""
    for name, number in (("SIGTERM", signal.SIGTERM), ("SIGINT", signal.SIGINT), ("SIGHUP", signal.SIGHUP),
                         ("SIGSEGV", signal.SIGSEGV)):
        s = Session(ORDER, "a.pins", folder=folder)
        s.expect_start(f"{name}: started on a file", VERDICT, "width 4")
        s.process.send_signal(number)
        s.finish(name, -number)


def stopping(folder):
    """Ctrl-Z gives the terminal back to the shell, whose fg brings the screen back."""
    s = Session(sys.executable, "-B", JOB_SHELL, ORDER, "a.pins", folder=folder)
    s.expect_start("in a shell", VERDICT, "width 4")
    s.type("\x1a")
    s.expect("the shell has its terminal", lambda: (s.settings_change(), s.grid.modes), (False, s.grid.FIRST_MODES))
    s.grid.resize(24, 80)
    s.type("fg\n")
    s.expect_start("the screen is back", KEYS, " F1 help")
    expect_rows(s, "with its rows", *A)
    s.type(QUIT)
    s.finish("stopped and brought back", 0)


def hung_up(folder):
    """Where the terminal goes away and the signal for it is ignored, the program ends all the same."""
    s = Session(ORDER, "a.pins", folder=folder, ignored=(signal.SIGHUP,))
    s.expect_start("started", VERDICT, "width 4")
    os.close(s.master)
    os.close(s.slave)
    check("the end of a terminal", s.process.wait(PATIENCE), 1)


def environment(folder):
    s = Session(ORDER, "a.pins", folder=folder, NO_COLOR="1", LINES="10", COLUMNS="30")
    s.expect_start("NO_COLOR", VERDICT, "width 4")
    s.expect_start("LINES and COLUMNS count for nothing", KEYS, " F1 help")
    colours = {n for line in s.grid.cells for _, style in line for n in style if n >= 30}
    check("NO_COLOR: no colours", colours, set())
    s.type("\x1a")
    s.quiet()
    s.type(UP + CLEAR)
    s.expect_start("after Ctrl-Z, where no shell waits", VERDICT, "REFUSED 2 4")
    s.expect("the screen is whole after it", lambda: s.grid.line(KEYS)[:8], " F1 help")
    leave(s, "NO_COLOR")
    for kind in ("dumb", "no-such-terminal"):
        s, sent = Session(ORDER, folder=folder, TERM=kind), []
        s.grid.feed = sent.append
        s.type("TOP 1\nBOT 1\nshow\nquit\n")
        s.finish(kind, 0)
        said = b"".join(sent)
        check(f"{kind}: lines, no escapes", (b"width 1  tracks 0" in said, b"\x1b" in said), (True, False))


def has_utf8():
    return "C.utf8" in subprocess.run(["locale", "-a"], stdout=subprocess.PIPE, text=True, check=False).stdout.split()


def unicode_glyphs(folder):
    if not has_utf8():
        return
    s = Session(ORDER, "b.pins", folder=folder, LC_ALL="C.UTF-8")
    table = str.maketrans("-|+o", "\u2500\u2502\u253c\u25cf")
    due = in_sight(drawing(B, written(B), PITCH)[1:])
    s.expect_lines("B in UTF-8", DRAWING, [line.translate(table) for line in due])
    s.type(LOAD + "\u00e9")
    s.expect_line("a name in UTF-8", MESSAGE, "Load the pin list from file: \u00e9")
    s.type(ERASE + "a.pins" + ENTER)
    s.expect_start("one character erased", VERDICT, "width 4")
    s.type(QUIT)
    s.finish("UTF-8", 0)


def run(folder):
    (folder / "b.pins").write_bytes(text_of(B))
    (folder / "a.pins").write_bytes(text_of(A))
    s = Session(ORDER, folder=folder)
    s.expect_start("started", KEYS, " F1 help")
    under_each_other(s)
    shrink_and_grow(s)
    too_small(s)
    largest(s, folder)
    s.type(QUIT)
    s.finish("quit", 0)
    signals(folder)
    stopping(folder)
    hung_up(folder)
    environment(folder)
    unicode_glyphs(folder)
