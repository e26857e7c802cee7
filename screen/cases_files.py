"""The full screen: loading, saving, judging, and the questions that keep typed work and files."""
import os

from order_drawing import A, B, damaged, drawing, text_of, written
from order_keys import (BOT_MARKS, DRAWING, ENTER, ERASE, ESCAPE, JUDGE, KEYS, LOAD, MESSAGE, MORE, ORDER, PITCH, QUIT,
                        SAVE, SAVE_PINS, TAB, TITLE, TOP_MARKS, UNDO, VERDICT, columns, expect_message, expect_rows,
                        in_sight, leave, paste)
from pseudo_terminal import Session, check

NOT_SAVED = "List not saved. "


def saving(s, folder):
    """Loads example B, saves its board over nothing, and over a file only if told so."""
    s.type(LOAD + "b.pins" + ENTER)
    s.expect_line("B: summary", VERDICT, "width 7  tracks 5  blank 8  density 4  chain 3  pieces 30")
    s.expect_lines("B: drawing", DRAWING, in_sight(drawing(B, written(B), PITCH)[1:]))
    due = written(B)
    s.type(SAVE + "b.board" + ENTER)
    s.expect_start("saved", MESSAGE, "saved 124 bytes as b.board")
    check("B: the file saved", (folder / "b.board").read_bytes(), due)
    (folder / "b.board").write_bytes(b"old")
    s.type(SAVE + "b.board" + ENTER)
    s.expect_start("replace?", MESSAGE, "This file exists. Replace (y or n)?")
    s.type("n")
    expect_message(s, "not replaced", "not saved")
    check("the old file stays", (folder / "b.board").read_bytes(), b"old")
    s.type(SAVE + "b.board" + ENTER + "y")
    s.expect_start("replaced", MESSAGE, "saved 124 bytes as b.board")
    check("B: the file replaced", (folder / "b.board").read_bytes(), due)
    s.type(SAVE + "none/b.board" + ENTER)
    s.expect("a missing folder", lambda: "No such file or directory" in s.grid.line(MESSAGE), True)
    s.type(SAVE + paste("pasted.board\r\n") + ENTER)
    s.expect_start("a pasted name", MESSAGE, "saved 124 bytes as pasted.board")
    s.type(JUDGE + "b.board" + ENTER)
    s.expect_start("B is good", VERDICT, "GOOD 5")
    check("no other file is left", sorted(p.name for p in folder.iterdir() if p.name.startswith(".")), [])


def keeping_work(s, folder):
    """What was typed is thrown away only if told so; once saved, nobody asks."""
    s.type(ESCAPE)
    s.expect_start("back to the list's own board", VERDICT, "width 7")
    s.type("1 ")
    s.expect("typed work shows in the title", lambda: "list not saved" in s.grid.line(TITLE), True)
    s.type(LOAD + "a.pins" + ENTER)
    s.expect_start("load over it?", MESSAGE, NOT_SAVED + "Load anyway")
    s.type("n")
    expect_rows(s, "not loaded", [1] + B[0], B[1])
    for key in (QUIT, "\x03", "\x1b[21~"):
        s.type(key)
        s.expect_start("quit?", MESSAGE, NOT_SAVED + "Quit anyway")
        s.type("n")
        s.expect_line("not quit", MESSAGE, "")
    s.type(SAVE_PINS + "typed.pins" + ENTER)
    s.expect_start("the list is saved, though refused", MESSAGE, "saved 38 bytes as typed.pins")
    check("the list's file", (folder / "typed.pins").read_bytes(), text_of(([1] + B[0], B[1])))
    s.expect("nothing is left to save", lambda: "not saved" in s.grid.line(TITLE), False)
    s.type("2 " + SAVE_PINS + "typed.pins" + ENTER)
    s.expect_start("replace the list's file?", MESSAGE, "This file exists. Replace (y or n)?")
    s.type("y")
    s.expect_start("the list's file replaced", MESSAGE, "saved 40 bytes as typed.pins")
    check("the list's new file", (folder / "typed.pins").read_bytes(), text_of(([1, 2] + B[0], B[1])))
    s.type(LOAD + "a.pins" + ENTER)
    s.expect_start("a saved list gives way unasked", VERDICT, "width 4")
    s.type(UNDO)
    expect_rows(s, "a load can be undone", [1, 2] + B[0], B[1])
    s.type(LOAD + "a.pins" + ENTER + "y")
    s.expect_start("loaded over it, as told", VERDICT, "width 4")


def completing(s, folder):
    (folder / "some" / "folder").mkdir(parents=True)
    (folder / "some" / "folder" / "list.pins").write_bytes(text_of(A))
    (folder / "some" / "folder" / ".hidden").write_bytes(b"")
    (folder / "some" / "folder" / "list.board").write_bytes(b"")
    s.type(LOAD + "so" + TAB)
    s.expect_line("a folder completed", MESSAGE, "Load the pin list from file: some/")
    s.type("f" + TAB + TAB)
    s.expect_line("what several names share", MESSAGE, "Load the pin list from file: some/folder/list.")
    s.expect_line("the names", DRAWING, "  list.board  list.pins")
    bells = s.grid.bells
    s.type("x" + TAB)
    s.expect("no such name: a bell", lambda: s.grid.bells, bells + 1)
    s.expect_line("the name stays", MESSAGE, "Load the pin list from file: some/folder/list.x")
    s.type(ERASE + "p" + TAB + ENTER)
    expect_message(s, "the completed name is loaded", "loaded some/folder/list.pins")


def judging(s, folder):
    """A board file's verdict, and its fault marked at its place in the rows and in the drawing."""
    boards = damaged()
    for name, board in boards.items():
        (folder / name).write_bytes(board)

    def judge(name, verdict):
        s.type(JUDGE + name + ENTER)
        s.expect_start(f"{name}: verdict", VERDICT, verdict)
        if name in boards:
            s.expect_lines(f"{name}: drawing", DRAWING, drawing(A, boards[name], PITCH)[1:])

    judge("good", "GOOD 2")
    judge("h", "REFUSED 12 6  an open: the pin at position 6")
    s.expect("H: where", lambda: "(BOT column 2)" in s.grid.line(VERDICT) + s.grid.line(MORE), True)
    s.expect_line("H: mark under BOT", BOT_MARKS, columns(2, sign="^"))
    s.expect("H: pin marked in the drawing", lambda: s.grid.cells_marked(DRAWING + 6), [12])
    judge("i", "REFUSED 11 3  a short: the pin at position 3")
    s.expect_line("I: mark over TOP", TOP_MARKS, columns(3, sign="v"))
    s.expect("I: pin marked in the drawing", lambda: s.grid.cells_marked(DRAWING), [16])
    judge("j", "REFUSED 13 12  floating: piece 12 of the board floats")
    s.expect_line("J: the piece in words", MORE, "a trunk on track 2, columns 3 to 4")
    s.expect_start("J: what to do", MORE + 1, "What to do: take the piece out, or write the board again")
    s.expect("J: piece marked in the drawing", lambda: s.grid.cells_marked(DRAWING + 2), [16, 17, 18, 19, 20])
    judge("b.board", "REFUSED 10 7  wrong board")
    s.expect_lines("a wider board is drawn without pins", DRAWING,
                   in_sight(drawing(([0] * 7, [0] * 7), written(B), PITCH)[1:]))
    (folder / "torn").write_bytes(boards["good"][:-1])
    judge("torn", "REFUSED 8 48  torn")
    (folder / "long").write_bytes(bytes(65537))
    judge("long", "REFUSED 0 65536  too long")
    s.type(ESCAPE)
    s.expect_start("back to the list", VERDICT, "width 4")


def refused_files(s, folder):
    (folder / "wide").write_bytes(text_of(([0] * 513, [0] * 513)))
    (folder / "text").write_bytes(b"TOP" + b" 0" * 34998 + b"\n")
    s.type(LOAD + "text" + ENTER)
    s.expect_start("70,000 bytes", MESSAGE, "REFUSED 0 65536  too long: not loaded, text has more")
    s.type(LOAD + "." + ENTER)
    expect_message(s, "a folder", "cannot read .: not a regular file")


def full_disk(folder):
    """Where a file may not grow, the old one stays, no other is left, and the reason is told."""
    (folder / "old").write_bytes(b"old")
    before = sorted(os.listdir(folder))
    s = Session(ORDER, "b.pins", folder=folder, file_size=10)
    s.expect_start("started", VERDICT, "width 7")
    for key in (SAVE, SAVE_PINS):
        s.type(key + "old" + ENTER + "y")
        expect_message(s, "no room for the file", "cannot write old: File too large")
        s.type(key + "new" + ENTER)
        expect_message(s, "no room for a new file", "cannot write new: File too large")
    check("the old file is as it was", (folder / "old").read_bytes(), b"old")
    check("no other file is left", sorted(os.listdir(folder)), before)
    s.type(QUIT)
    s.finish("a full disk", 0)


def run(folder):
    (folder / "b.pins").write_bytes(text_of(B))
    (folder / "a.pins").write_bytes(text_of(A))
    s = Session(ORDER, folder=folder)
    s.expect_start("started", KEYS, " F1 help")
    for part in (saving, keeping_work, completing, judging, refused_files):
        part(s, folder)
    s.type(QUIT)
    s.finish("a saved list is left unasked", 0)
    s = Session(ORDER, "a.pins", folder=folder)
    s.expect_start("started on a file", VERDICT, "width 4")
    s.type(" ")
    s.expect("typed", lambda: "not saved" in s.grid.line(TITLE), True)
    leave(s, "quit all the same")
    full_disk(folder)
