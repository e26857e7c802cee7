"""The full screen: what typing, pasting and undoing do, and how refusals are shown."""
from order_drawing import A, drawing, text_of, written
from order_keys import (BOT_LINE, BOT_MARKS, CLEAR, DOWN, DRAWING, END, ERASE, HELP, HOME, KEYS, LEFT, MARK,
                        MESSAGE, MORE, ORDER, PITCH, REDO, RIGHT, RULER, SAVE, TITLE, TOP_LINE, TOP_MARKS, UNDO, UP,
                        VERDICT, columns, expect_message, expect_rows, fill, leave, paste, row)
from pseudo_terminal import Session, check

ONLY_DIGITS = "a pin list has digits and spaces only"


def greeting(s):
    """An empty list is greeted, and not refused."""
    s.expect_start("a greeting", VERDICT, "Type the TOP row's net numbers, Tab, then the BOT row's. F1")
    s.expect_start("the keys", KEYS, " F1 help  ^Q quit")
    shown = "\n".join(s.grid.line(y) for y in range(24))
    check("nothing is refused yet", ("REFUSED" in shown, s.grid.line(TOP_MARKS), s.grid.bells), (False, "", 0))
    check("settings while it runs differ", s.settings_change(), True)


def example_a(s):
    s.type("0 1 2 3\t1 2 0 3")
    s.expect_line("A: summary", VERDICT, "width 4  tracks 2  blank 8  density 2  chain 2  pieces 11")
    expect_rows(s, "A: rows", *A)
    s.expect("A: cursor", lambda: (s.grid.y, s.grid.x), (BOT_LINE, 21))
    s.expect("A: summary is green", lambda: s.grid.cells[VERDICT][0][1], (1, 32))
    s.expect_line("A: columns are numbered", RULER, "col     1   2   3   4")
    s.expect_lines("A: drawing", DRAWING, [
        "TOP     .   1   2   3", "            |   |   |", "  2     o---o   |   |", "        |       |   |",
        "  1     |   o---o   |", "        |   |       |", "BOT     1   2   .   3"])
    s.expect_lines("A: drawing as the board file has it", DRAWING, drawing(A, written(A), PITCH)[1:])
    s.expect("A: colour of a trunk", lambda: s.grid.cells[DRAWING + 2][9], ("-", (36,)))
    s.expect("A: colour of a branch", lambda: s.grid.cells[DRAWING + 3][8], ("|", (33,)))


def moving(s):
    s.type(LEFT * 3)
    s.expect("three to the left", lambda: (s.grid.y, s.grid.x), (BOT_LINE, 16))
    s.type(UP)
    s.expect("up, in the same column", lambda: (s.grid.y, s.grid.x), (TOP_LINE, 16))
    s.type(RIGHT)
    s.expect("one to the right", lambda: (s.grid.y, s.grid.x), (TOP_LINE, 17))
    s.type(DOWN + HOME)
    s.expect("home", lambda: (s.grid.y, s.grid.x), (BOT_LINE, 8))


def first_refusals(s):
    s.type(END + ERASE)
    s.expect_start("a number due", VERDICT, "REFUSED 2 22  garbled: this is no pin list: the byte at offset 22")
    s.expect_start("a number due: where", MORE, "belong there (BOT column 4: the row ends where a number is due)")
    s.expect_line("a number due: mark", BOT_MARKS, " " * 21 + "^")
    s.expect_start("a number due: what to do", DRAWING, "  What to do: write two lines, 'TOP' and 'BOT', one or more")
    s.type("512")
    s.expect_start("high net", VERDICT, "REFUSED 5 8  high net: the net at pin position 8 is over 511")
    s.expect_line("high net: mark under BOT", BOT_MARKS, " " * 18 + "^^^")
    s.expect("high net: cells of BOT", lambda: s.grid.cells_marked(BOT_LINE), [18, 19, 20])
    s.expect_line("high net: no mark over TOP", TOP_MARKS, "")
    s.expect("high net: red", lambda: s.grid.cells[VERDICT][0][1], (1, 31))
    s.type(ERASE * 3 + "0")
    s.expect_start("no pin there", VERDICT, "width 4  tracks 2")


def letters(s):
    """Nothing but digits and spaces is taken."""
    bells = s.grid.bells
    for key in ("x", "-", "\xe9", "T"):
        s.type(key)
        expect_message(s, f"{key!r} is refused", ONLY_DIGITS)
        s.type(LEFT + RIGHT)
        expect_message(s, "the message goes", "")
    expect_rows(s, "the rows are as they were", A[0], [1, 2, 0, 0])
    check("a bell for each letter", s.grid.bells >= bells + 4, True)
    s.type("\x1b[99;9x\x1b[15;5~\x1bOz\x1bk")
    s.quiet()
    s.expect("keys that nobody knows type nothing", lambda: s.grid.line(BOT_LINE), row("BOT", [1, 2, 0, 0]))


def more_refusals(s):
    fill(s, "1 2", "2 1")
    s.expect_start("C", VERDICT, "REFUSED 7 2  the channel is tangled: 2 nets form a ring")
    s.expect_line("C: marks over TOP", TOP_MARKS, columns(1, 2, sign="v"))
    s.expect_line("C: marks under BOT", BOT_MARKS, columns(1, 2, sign="^"))
    s.expect_lines("C: ring", DRAWING, ["  net 1 above net 2 in column 1", "  net 2 above net 1 in column 2"])
    s.expect_start("C: what to do", DRAWING + 4, "  What to do: move or exchange a pin in one column of the ring")
    fill(s, "1 2 3 1", "2 3 2 0")
    s.expect_start("D", VERDICT, "REFUSED 7 2  the channel is tangled:")
    s.expect_line("D: marks over TOP", TOP_MARKS, columns(2, 3, sign="v"))
    fill(s, "1 1 1", "0 0")
    s.expect_start("uneven", VERDICT, "REFUSED 4 3  uneven: the rows differ in length or are empty")
    s.expect("uneven: marks", lambda: (s.grid.line(TOP_MARKS), s.grid.line(BOT_MARKS)),
             (columns(3, sign="v"), " " * 13 + "^"))
    fill(s, "0", "1 1")
    s.expect_start("uneven, TOP shorter", VERDICT, "REFUSED 4 2  uneven:")
    s.expect("uneven, TOP shorter: marks", lambda: (s.grid.line(TOP_MARKS), s.grid.line(BOT_MARKS)),
             (" " * 9 + "v", columns(2, sign="^")))
    fill(s, "1 1 512", "0 0 1000")
    s.expect_start("high net", VERDICT, "REFUSED 5 3  high net: the net at pin position 3 is over 511")
    s.expect("high net: where", lambda: "(TOP column 3)" in s.grid.line(VERDICT) + s.grid.line(MORE), True)
    s.expect_line("high net: mark", TOP_MARKS, " " * 18 + "vvv")
    s.expect_line("a number of four digits has two cells of four", BOT_LINE, "BOT     0   0    1000")
    fill(s, "01", "1")
    s.expect_start("K", VERDICT, "REFUSED 2 5  garbled")
    s.expect_line("K: mark", TOP_MARKS, columns(1, sign="v"))
    s.type(MARK)
    s.expect("the cursor goes to the mark", lambda: (s.grid.y, s.grid.x), (TOP_LINE, 8))
    s.type(SAVE)
    s.expect_line("no board to save", MESSAGE, "there is no board to save: the pin list is refused")


def pasting(s):
    """However the lines of a list end, and with labels or without, a paste fills both rows."""
    for name, text in (("with labels", text_of(A).decode()), ("CR LF", "TOP 0 1 2 3\r\nBOT 1 2 0 3\r\n"),
                       ("CR", "0 1 2 3\r1 2 0 3"), ("no labels, CR LF", "0 1 2 3\r\n1 2 0 3\r\n"),
                       ("tabs", "0\t1\t2\t3\n1\t2\t0\t3\n")):
        fill(s, "9", "8")
        s.expect_line(f"{name}: before", BOT_LINE, row("BOT", [8]))
        s.type(paste(text))
        expect_rows(s, f"{name}: pasted", *A)
        s.expect_start(f"{name}: a good list", VERDICT, "width 4  tracks 2")
    for name, text, due in (("letters", "1 x 2", ONLY_DIGITS), ("a label amid", "1\nTOP 2\n", ONLY_DIGITS),
                            ("three lines", "1\n2\n3", "a pin list has two lines: the pasted text was not taken")):
        s.type(paste(text))
        expect_message(s, f"{name}: refused", due)
        expect_rows(s, f"{name}: rows as before", *A)
    s.type(paste("BOT 4 5\n"))
    expect_rows(s, "one row with its label", A[0], [4, 5])
    s.type(UP + HOME + paste("77 "))
    expect_rows(s, "one line without a label, at the cursor", [77] + A[0], [4, 5])
    s.type(UP + CLEAR + DOWN + CLEAR + UP + "0 1 2 3\r\n1 2 0 3\r\n")
    expect_rows(s, "CR LF as keys", *A)
    for end in ("\r\n", "\r", "\n"):
        fill(s, "9", "8")
        s.expect_line("before a paste that is not marked", BOT_LINE, row("BOT", [8]))
        s.type(text_of(A).decode().replace("\n", end))
        expect_rows(s, f"lines with labels and {end!r} as keys", *A)


def undoing(s):
    fill(s, "", "")
    s.type(UP + "12 34 5")
    s.expect_line("typed", TOP_LINE, row("TOP", [12, 34, 5]))
    for due in ([12, 34], [12], []):
        s.type(UNDO)
        s.expect_line("a number at a time is undone", TOP_LINE, row("TOP", due))
    for due in ([12], [12, 34]):
        s.type(REDO)
        s.expect_line("and done again", TOP_LINE, row("TOP", due))
    s.expect("the cursor is at the change", lambda: (s.grid.y, s.grid.x), (TOP_LINE, 13))
    s.type(" 7")
    s.expect_line("another number", TOP_LINE, row("TOP", [12, 34, 7]))
    s.type(REDO)
    s.expect_line("what was undone is gone after it", MESSAGE, "there is nothing to do again")
    s.type(paste(text_of(A).decode()))
    expect_rows(s, "a paste", *A)
    s.type(UNDO)
    expect_rows(s, "a paste undone", [12, 34, 7], [])
    s.type("\x19")
    expect_rows(s, "a paste done again by Ctrl-Y", *A)
    s.type(CLEAR + "\x1f")
    expect_rows(s, "a cleared row is brought back by Ctrl-_", *A)
    s.type(UNDO * 200)
    s.expect_line("to the start", MESSAGE, "there is nothing to undo")
    s.expect_start("where the list is empty", VERDICT, "Type the TOP row's net numbers")
    check("and no longer counts as typed", "not saved" in s.grid.line(TITLE), False)
    s.type(REDO * 200)
    expect_rows(s, "and all the way back, with the clearing", [], A[1])
    s.type(UNDO)
    expect_rows(s, "but for the clearing", *A)


def helping(s):
    s.type(HELP)
    s.expect_line("F1", TITLE, " Keys; any key goes back to the list.")
    s.expect("F1 tells of undoing", lambda: any("F5 or ^_ undo" in s.grid.line(y) for y in range(24)), True)
    s.type("1")
    expect_rows(s, "a key goes back, and types nothing", *A)
    s.resize(14, 40)
    s.type(HELP)
    s.expect_line("a page of the help", TITLE, " Keys; any key shows more.")
    s.type("1")
    s.expect("another page", lambda: any("judge" in s.grid.line(y) for y in range(2, 13)), True)
    s.type("1")
    s.expect_line("the last page", TITLE, " Keys; any key goes back to the list.")
    s.type("1")
    expect_rows(s, "and back after it", *A)
    s.resize(24, 80)
    s.type(HELP + paste("4 4\n4 4\n"))
    expect_rows(s, "a paste over the help goes into the rows", [4, 4], [4, 4])


def full_row(s):
    """A row takes 65,536 bytes and no more, whether typed or pasted."""
    s.type(paste("TOP " + "1" * 65520 + "\nBOT 1\n") + UP)
    s.expect_start("65,520 digits", VERDICT, "REFUSED 5 1  high net")
    s.type(END + "2" * 16)
    s.expect_start("16 more", VERDICT, "REFUSED 0 65536  too long: the input has more than 65536 bytes")
    bells = s.grid.bells
    s.type("3")
    s.expect_line("one too many", MESSAGE, "the row is full: it holds 65536 bytes")
    check("one too many: a bell", s.grid.bells, bells + 1)
    s.type(ERASE * 20 + paste("4" * 30))
    s.expect_line("a paste that has no room", MESSAGE, "the row is full: it holds 65536 bytes")
    s.type(paste("TOP " + "0 " * 32768 + "\nBOT 1\n") + UP + END)
    s.expect("32,769 columns, the last without a number", lambda: s.grid.line(RULER).split()[-1], "32768")
    s.type(UNDO * 50)
    s.expect_start("and undone", VERDICT, "Type the TOP row")


def run(folder):
    s = Session(ORDER, folder=folder)
    for part in (greeting, example_a, moving, first_refusals, letters, more_refusals, pasting, undoing, helping):
        part(s)
    leave(s, "typing")
    s = Session(ORDER, folder=folder)
    greeting(s)
    full_row(s)
    leave(s, "a full row")
