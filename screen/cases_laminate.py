"""A customer's own laminate in the full screen: the entry beside the blank, refusals, and files that are no table."""
from cases_looks import C, typed
from cases_turned import UNLIKE
from cases_window import has_utf8
from order_drawing import A, B, damaged, drawing, text_of, written
from order_keys import (DRAWING, END, ENTER, ERASE, ESCAPE, HELP, JUDGE, KEYS, LAMINATE, LEFT, LOAD, MESSAGE, ORDER,
                        PITCH, REDO, SAVE, TAB, TITLE, TURN, UNDO, VERDICT, expect_cursor, expect_message, expect_rows,
                        in_sight, leave, paste)
from order_laminate import (TEXT_LINES, choice, explained, give, load_laminate, name_line, not_taken, summary,
                            text_lines)
from order_looks import bar_of, beside, looks_of
from pseudo_terminal import Session, check

CONTROL_B = "\x02"
QUESTION, OTHER = "Load the laminate from file:", "Laminate file (none: drop it):"
OWN = [1, 2, 3, 6, 16]
PARKED = ([1, 1, 30], [2, 0, 0])  # nets 2 and 30 are parked
PARKED_LINE = "2 pins parked: nets 2, 30"
CHAIN = (list(range(1, 512)) + [0], list(range(512)))
GOOD, BAD = (1, 32), (1, 31)
REFUSED = {"no entries": [], "65 entries": list(range(1, 66)), "an entry of 0": [0, 9], "an entry of 513": [5, 9, 513],
           "an entry twice": [1, 7, 7, 9], "a falling entry": [9, 8], "an entry over 32 bits": [4, 5, 2**40],
           "no stock for 5 tracks": [1, 4]}
STRAY = {b"3 4\n5\t6": (2, 2, "a tab"), b"3,4": (1, 2, "','"), b"\n\n 3 -4": (3, 4, "'-'"),
         b"3 04": (1, 3, "a leading zero"), b"# own\n3": (1, 1, "'#'"), b"3\r4": (1, 2, "a lone carriage return"),
         b"\xef\xbb\xbf3 4": (1, 1, "a byte order mark"), b"3 \x80": (1, 3, "byte 80 (hexadecimal)"),
         b"3 4\r": (1, 4, "a lone carriage return"), b"3\r\n4\r\r\n": (2, 2, "a lone carriage return")}
SMALLEST = 14, 40


def shown(s):
    """All cells with their styles, but for the message line."""
    return [list(line) for y, line in enumerate(s.grid.cells) if y != MESSAGE]


def expect_text(s, what, due):
    s.expect_lines(what, VERDICT, due)


def both_keys(s, folder):
    """F9 and Ctrl-B ask for a file; the entry stands beside the blank, and an empty name drops it again."""
    (folder / "own").write_bytes(b" 1 2\r\n\n3   6\n16\r\n")
    typed(s, A)
    s.expect_line("no laminate", VERDICT, summary(A))
    s.quiet()
    before = shown(s)
    for key in (LAMINATE, CONTROL_B):
        s.type(key)
        s.expect_line("the question", MESSAGE, QUESTION)
        s.type("own" + ENTER)
        s.expect_line("loaded: told", MESSAGE, beside("loaded own (5 entries)", *looks_of(A), 80))
        expect_text(s, "loaded", ["width 4  tracks 2  blank 8  own 2  density 2  chain 2  pieces 11",
                                  "own laminate of 5 entries: own", ""])
        check("loaded: as it is due", text_lines(A, OWN, "own"), [s.grid.line(VERDICT + i) for i in range(TEXT_LINES)])
        s.expect_lines("loaded: the drawing stays", DRAWING, drawing(A, written(A), PITCH)[1:])
        s.type(LEFT + key)
        s.expect_line("another?", MESSAGE, OTHER)
        s.type(ESCAPE)
        s.expect_line("Escape keeps it", VERDICT, summary(A, OWN))
        s.type(key + ENTER)
        expect_message(s, "dropped: told", "dropped the laminate own")
        s.type(END)
        expect_message(s, "the message goes", "")
        s.expect("dropped: the screen is as it was", lambda: shown(s), before)
    bells = s.grid.bells
    s.type(LAMINATE + ENTER + CONTROL_B + ESCAPE)
    s.quiet()
    expect_message(s, "none to drop: no message", "")
    check("none to drop: as it was, without a bell", (shown(s), s.grid.bells), (before, bells))


def follows_the_list(s, folder):
    """The entry is that of the list as it stands: typed, erased, undone, turned over, loaded."""
    load_laminate(s, folder, OWN)
    typed(s, UNLIKE)
    expect_text(s, "typed", text_lines(UNLIKE, OWN, "own"))
    for key, rows, own in ((TURN, UNLIKE[::-1], "own 2"), (UNDO, UNLIKE, "own 3"), (REDO, UNLIKE[::-1], "own 2"),
                           (TURN, UNLIKE, "own 3")):
        s.type(key)
        expect_rows(s, f"{key!r}: rows", *rows)
        expect_text(s, f"{key!r}: text", text_lines(rows, OWN, "own"))
        check(f"{key!r}: entry", own in s.grid.line(VERDICT), True)
    for rows in (([1, 1], [0, 0]), ([1, 0], [1, 0]), A, B):
        typed(s, rows)
        expect_text(s, f"{rows}: text", text_lines(rows, OWN, "own"))
    s.type(ERASE + "0")
    expect_text(s, "the last pin erased", text_lines((B[0], B[1][:-1] + [0]), OWN, "own", parked="1 pin parked: net 4"))
    s.type(UNDO * 2)
    expect_text(s, "undone", text_lines(B, OWN, "own"))
    (folder / "a.pins").write_bytes(text_of(A))
    s.type(LOAD + "a.pins" + ENTER + "y")
    expect_text(s, "a list loaded", text_lines(A, OWN, "own"))
    s.type(UNDO)
    expect_text(s, "undone: the laminate is no part of the list", text_lines(B, OWN, "own"))
    check("nor of what is saved", "not saved" in s.grid.line(TITLE), True)


def refused(s, folder):
    """A refused table is told beside the blank and explained; the list's own verdict, board and file stay."""
    typed(s, B)
    for what, table in REFUSED.items():
        load_laminate(s, folder, table)
        expect_text(s, what, text_lines(B, table, "own"))
        why = explained(*choice(table, 5))[0][:40]
        s.expect_start(f"{what}: explained", VERDICT + 1, why)
        check(f"{what}: the list is good, the table is not", [s.grid.cells[y][0][1] for y in (VERDICT, VERDICT + 1)],
              [GOOD, BAD])
        s.expect_lines(f"{what}: drawing", DRAWING, in_sight(drawing(B, written(B), PITCH)[1:]))
    s.expect_line("no stock: what to do", VERDICT + 2, explained(16, 5)[1])
    s.type(SAVE + "b.board" + ENTER)
    expect_message(s, "the board is saved", "saved 124 bytes as b.board")
    check("the board's file", (folder / "b.board").read_bytes(), written(B))
    typed(s, ([1, 1], [0, 0]))
    expect_text(s, "in stock for 1 track", text_lines(([1, 1], [0, 0]), [1, 4], "own"))


def no_table(s, folder):
    """A file that can't be read, or is no table, is not loaded; the laminate before it stays."""
    load_laminate(s, folder, OWN)
    typed(s, A)
    for text, stray in STRAY.items():
        (folder / "stray").write_bytes(text)
        bells = s.grid.bells
        s.type(LAMINATE + "stray" + ENTER)
        s.expect_line(f"{text}: told", MESSAGE, beside(not_taken("stray", *stray), *looks_of(A), 80))
        check(f"{text}: red, with a bell", (s.grid.cells[MESSAGE][0][1], s.grid.bells), (BAD, bells + 1))
        expect_text(s, f"{text}: the laminate stays", text_lines(A, OWN, "own"))
    (folder / "long").write_bytes(b"9 " * 32768 + b" ")
    for name, due in (("none", "cannot read none: No such file or directory"),
                      (".", "cannot read .: not a regular file"),
                      ("long", "not loaded: over 65536 bytes; long is no table")):
        s.type(LAMINATE + name + ENTER)
        expect_message(s, f"{name}: told", due)
        expect_text(s, f"{name}: the laminate stays", text_lines(A, OWN, "own"))
    s.type(LAMINATE + ENTER + LAMINATE + "stray" + ENTER)
    expect_text(s, "where none is loaded, none is", [summary(A), "", ""])


def elsewhere(s, folder):
    """Nothing is shown of it where no blank is: beside a refused or an empty list, a judged board. Loading leaves that
    board in sight."""
    for name, board in damaged().items():
        (folder / name).write_bytes(board)
    load_laminate(s, folder, OWN)
    for rows in (C, ([1, 1], [0]), ([1, 512], [0, 0]), (["01"], [1]), ([], [])):
        typed(s, rows)
        s.expect_start(f"{rows}: refused", VERDICT, "REFUSED " if rows[0] else "Type the TOP row's")
        s.quiet()
        lines = " ".join(map(s.grid.line, range(MESSAGE)))
        check(f"{rows}: nothing of the laminate", "own " in lines, False)
    for name, verdict in (("good", "GOOD 2"), ("h", "REFUSED 12 6")):
        typed(s, A)
        s.type(JUDGE + name + ENTER)
        s.expect_start(f"{name}: judged", VERDICT, verdict)
        s.quiet()
        judged = shown(s)
        for table in (REFUSED["a falling entry"], [4, 9, 512]):
            load_laminate(s, folder, table)
            s.expect(f"{name}: the board stays, and nothing else is shown", lambda due=judged: shown(s) == due, True)
        s.type(ESCAPE)
        expect_text(s, f"{name}: the list's own board", text_lines(A, [4, 9, 512], "own"))


def names(s, folder):
    """Names are completed and pasted as for a pin list; a long one is cut at the window's edge."""
    typed(s, A)
    (folder / "laminates").mkdir()
    (folder / "laminates" / "mill.txt").write_bytes(b"4 9")
    s.type(LAMINATE + "lami" + TAB + "m" + TAB)
    s.expect_line("completed", MESSAGE, f"{OTHER} laminates/mill.txt")
    s.type(ENTER)
    expect_text(s, "the completed name", text_lines(A, [4, 9], "laminates/mill.txt"))
    (folder / "pasted").write_bytes(b"7")
    s.type(LAMINATE + paste("pasted\r\n") + ENTER)
    expect_message(s, "a pasted name", "loaded pasted (1 entry)")
    for length in (53, 54, 200):
        name = f"n{length}".ljust(length, "n")
        give(s, folder, OWN, name)
        s.expect_start("a long name", MESSAGE, f"loaded {name} (5 entries)"[:80])
        expect_text(s, f"a name of {length} characters", [summary(A, OWN), name_line(OWN, name)[:80], ""])
    (folder / name).write_bytes(b"1 2 x")
    s.type(LAMINATE + name + ENTER)
    s.expect_start("a long name: the place comes first", MESSAGE, "not loaded: line 1, column 5 has 'x'; n200nn")


def windows(s, folder):
    """In windows of all sizes: a line is kept for parked pins, the name and the explanation have what is left."""
    for rows, across in (SMALLEST, (24, 80), (30, 132), (14, 41), (50, 64)):
        s.resize(rows, across)
        for table in (OWN, *REFUSED.values()):
            for pins, parked in ((A, ""), (B, ""), (PARKED, PARKED_LINE)):
                give(s, folder, table)
                typed(s, pins)
                expect_text(s, f"{across} by {rows}, {table[:5]}", text_lines(pins, table, "own", across, parked))
    s.resize(*SMALLEST)
    s.type(LAMINATE + "n" * 30)
    s.expect_line("a question in the smallest window", 12, f"{OTHER} {'n' * 8}")
    s.type(ESCAPE)
    s.type(LAMINATE + "stray" + ENTER)
    s.expect_line("no table, in the smallest window", 12, "not loaded: line 2, column 2 has a lone")
    s.resize(5, 20)
    s.expect_start("too small", 0, "Too small a window:")
    s.type(LAMINATE + ENTER)
    s.resize(24, 80)
    expect_text(s, "no key is taken in too small a window", text_lines(PARKED, table, "own", parked=PARKED_LINE))


def largest(s, folder):
    """The widest summary in the smallest window, and the longest table that a file holds."""
    (folder / "chain").write_bytes(text_of(CHAIN))
    (folder / "longest").write_bytes(b"9 " * 32768)
    s.type(LOAD + "chain" + ENTER + "y")
    s.resize(*SMALLEST)
    for table in ([511], [512], [510], list(range(1, 65))):
        give(s, folder, table)
        expect_text(s, f"{table[:3]}: the chain", text_lines(CHAIN, table, "own", 40))
    s.resize(24, 80)
    s.type(LAMINATE + "longest" + ENTER)
    expect_message(s, "65,536 bytes", "loaded longest (32768 entries)")
    expect_text(s, "65,536 bytes: refused", text_lines(CHAIN, [9] * 32768, "longest"))


def keys_elsewhere(s, folder):
    """In a question and over the help the keys do nothing; wide windows and the help tell of them."""
    load_laminate(s, folder, OWN)
    typed(s, A)
    for keys in (LOAD + LAMINATE + ESCAPE, SAVE + CONTROL_B + ESCAPE, HELP + LAMINATE, HELP + CONTROL_B):
        s.type(keys)
        s.quiet()
        s.expect_line(f"{keys!r}: nothing is asked", MESSAGE, bar_of(A, 80))
    s.type("0" + LAMINATE)
    expect_cursor(s, "the cursor is at the question", MESSAGE, len(OTHER) + 1)
    s.type(ESCAPE + ERASE)
    expect_rows(s, "and back in the row", *A)
    s.resize(24, 120)
    s.expect("the keys of a wide window", lambda: s.grid.line(KEYS).endswith("  F8 turn over  F9 laminate"), True)
    s.resize(24, 80)
    s.type(HELP)
    s.expect("F1 tells of it", lambda: " F9 or ^B        load a laminate's table" in map(s.grid.line, range(24)), True)
    s.type("1")


def in_utf8(folder):
    """A name in UTF-8 is shown as it is, and cut between two characters."""
    if not has_utf8():
        return
    name = "\u00e9" * 90
    (folder / name).write_bytes(b"2")
    s = Session(ORDER, folder=folder, LC_ALL="C.UTF-8")
    s.expect_start("started in UTF-8", KEYS, " F1 help")
    typed(s, A)
    s.type(LAMINATE + name + ENTER)
    expect_text(s, "a name in UTF-8", text_lines(A, [2], name))
    leave(s, "a laminate in UTF-8")


def without_colours(folder):
    """Where there are no colours, words tell a refused table from a good one."""
    s = Session(ORDER, folder=folder, NO_COLOR="1")
    s.expect_start("started without colours", KEYS, " F1 help")
    typed(s, B)
    for table in (OWN, REFUSED["a falling entry"]):
        load_laminate(s, folder, table)
        expect_text(s, "NO_COLOR", text_lines(B, table, "own"))
        colours = {n for line in s.grid.cells for _, style in line for n in style if n >= 30}
        check("NO_COLOR: no colours", colours, set())
    leave(s, "a laminate without colours")


def run(folder):
    s = Session(ORDER, folder=folder)
    s.expect_start("started", KEYS, " F1 help")
    for part in (both_keys, follows_the_list, refused, no_table, elsewhere, names, windows, largest, keys_elsewhere):
        part(s, folder)
    leave(s, "a laminate")
    for part in (in_utf8, without_colours):
        part(folder)
