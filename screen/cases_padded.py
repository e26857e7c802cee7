"""Numbers padded with spaces: shown and drawn in columns, moved over, marked, answered as without pads, and saved."""
import random

from cases_pipe import piped
from cases_window import words_at
from order_drawing import A, B, damaged, drawing, text_of, written
from order_keys import (BOT_LINE, BOT_MARKS, CLEAR, DELETE, DOWN, DRAWING, END, ENTER, ERASE, GUTTER, HOME, JUDGE, KEYS,
                        LEFT, MARK, MESSAGE, MORE, ORDER, PITCH, RIGHT, RULER, TITLE, TOP_LINE, TOP_MARKS, UNDO, UP,
                        VERDICT, columns, expect_cursor, expect_rows, fill, in_sight, leave, paste)
from order_lists import BOT_ONLY, CR_LF, ENDS, TOP_ONLY, expect_saved, load, padded
from pseudo_terminal import Session, check


def columns_of_four(s, folder):
    """A list padded into columns of four is shown as it is written, with the board of the plain list."""
    load(s, folder, padded(B), CR_LF)
    expect_rows(s, "padded: rows", *B)
    s.expect_line("padded: summary", VERDICT, "width 7  tracks 5  blank 8  density 4  chain 3  pieces 30")
    s.expect_lines("padded: drawing", DRAWING, in_sight(drawing(B, written(B), PITCH)[1:]))
    check("padded: nothing is left to save", "not saved" in s.grid.line(TITLE), False)
    expect_saved(s, folder, "padded: the same bytes", padded(B), CR_LF)


def moving(s, folder):
    """The cursor goes over pads, which can be erased; numbers stay at the right of their columns."""
    expect_cursor(s, "at the first pad", TOP_LINE, GUTTER + 1)
    for x in (7, 8, 9, 10, 11, 12, 13):
        s.type(RIGHT)
        expect_cursor(s, "over pads, number and parting space", TOP_LINE, x)
    s.type(DOWN)
    expect_cursor(s, "down after a number", BOT_LINE, 13)
    s.type(LEFT * 2 + UP)
    expect_cursor(s, "up at a pad", TOP_LINE, 11)
    s.type(ERASE)
    expect_cursor(s, "a pad erased, the number stays", TOP_LINE, 11)
    s.type(DELETE)
    expect_cursor(s, "the other pad", TOP_LINE, 12)
    expect_rows(s, "the rows look the same", *B)
    expect_saved(s, folder, "without two pads", padded(B).replace(b"0   1", b"0 1"), CR_LF)
    s.type(UNDO * 2)
    expect_saved(s, folder, "the pads are back", padded(B), CR_LF)


def beside_a_plain_row(s, folder):
    """Up and down between a padded and a plain row: in the same column, at the same digit where there is one."""
    load(s, folder, b"TOP  12   3\nBOT 12 3\n")
    expect_rows(s, "padded and plain", [12, 3], [12, 3])
    for keys, y, x in ((RIGHT, TOP_LINE, 7), (DOWN, BOT_LINE, 7), (RIGHT, BOT_LINE, 8), (UP, TOP_LINE, 8),
                       (HOME, TOP_LINE, 6), (DOWN, BOT_LINE, 7), (END, BOT_LINE, 13), (UP, TOP_LINE, 13),
                       (LEFT * 3, TOP_LINE, 10), (DOWN, BOT_LINE, 12), (UP, TOP_LINE, 12)):
        s.type(keys)
        expect_cursor(s, "beside a plain row", y, x)


def wide_columns(s, folder):
    """A column is as wide as its pads need, in the rows and in the drawing."""
    load(s, folder, padded(B, 6, b"\n"))
    s.expect_line("columns of six have two fours", TOP_LINE, "TOP  " + "".join(f"{n:8}" for n in B[0]))
    s.expect_lines("the drawing too", DRAWING, in_sight(drawing(B, written(B), 8)[1:]))
    s.expect_line("and the ruler", RULER, drawing(B, written(B), 8)[0])
    load(s, folder, b"TOP 0 1      6 1 2 3 5\nBOT 6 3 5 4 0         2 4\r\n", BOT_ONLY)
    ends = [GUTTER + end for end in (4, 8, 16, 20, 24, 36, 40)]
    for y, due in ((RULER, range(1, 8)), (TOP_LINE, B[0]), (BOT_LINE, B[1])):
        s.expect("columns of different width", lambda y=y: words_at(s.grid.line(y)), dict(zip(ends, due)))
    for y, due in ((DRAWING, B[0]), (MESSAGE - 1, B[1])):
        s.expect("each pin over its copper", lambda y=y: words_at(s.grid.line(y)),
                 {end: net for end, net in zip(ends, due) if net})
    s.expect_line("a trunk over a wide column", DRAWING + 2, "  5         o-------+---o   |           |   |")


def wider_than_the_window(s, folder):
    """Columns of 40 cells: the title tells which are in sight, and a fault of a board is brought in sight."""
    def part():
        return s.grid.line(TITLE).split("  ")[-1].strip()

    load(s, folder, padded(A, 40, b"\n"))
    s.expect("two of four columns", part, "columns 1 to 2 of 4")
    (folder / "short").write_bytes(damaged()["i"])
    s.type(JUDGE + "short" + ENTER)
    s.expect_start("a short in a wide column", VERDICT, "REFUSED 11 3  a short")
    s.expect("the pin at fault is in sight", lambda: [s.grid.line(DRAWING)[x] for x in s.grid.cells_marked(DRAWING)],
             ["2"])
    s.expect("its column too", part, "columns 2 to 3 of 4")
    s.expect_line("with its mark", TOP_MARKS, " " * s.grid.cells_marked(DRAWING)[0] + "v")


def marks(s, folder):
    """Marks stand at numbers, not at their pads."""
    load(s, folder, padded(([1, 1, 512], [0, 0, 7])), CR_LF)
    s.expect_start("padded: high net", VERDICT, "REFUSED 5 3  high net")
    s.expect_line("padded: high net, mark", TOP_MARKS, " " * 14 + "vvv")
    load(s, folder, padded(([1, 2, 0], [2, 1, 30])), CR_LF)
    s.expect_start("padded: tangled", VERDICT, "REFUSED 7 2  the channel is tangled")
    s.expect_line("padded: ring", TOP_MARKS, columns(1, 2, sign="v"))
    s.expect_line("padded: ring and parked pin", BOT_MARKS, columns(1, 2, sign="^") + "   p")
    s.expect("padded: only numbers are marked", lambda: s.grid.cells_marked(TOP_LINE), [8, 12])
    for place in ((TOP_LINE, 8), (TOP_LINE, 12), (BOT_LINE, 8), (BOT_LINE, 12), (BOT_LINE, 15), (TOP_LINE, 8)):
        s.type(MARK)
        expect_cursor(s, "to the number of each mark", *place)


def typing(s, folder):
    """More than one space may be typed and pasted; at a row's end they wait for a number."""
    load(s, folder, text_of(B))
    fill(s, "0  1 2   3", "  1 2 0 3")
    expect_rows(s, "typed with pads", *A)
    s.expect_start("typed with pads: a good list", VERDICT, "width 4  tracks 2")
    expect_saved(s, folder, "typed with pads", b"TOP 0  1 2   3\nBOT   1 2 0 3\n")
    s.type(paste(padded(A, 3).decode()))
    expect_saved(s, folder, "pasted with pads", padded(A, 3, b"\n"))
    for keys, place, column in ((UP + CLEAR + "  ", 6, 1), ("7  ", 9, 2)):
        s.type(keys)
        s.expect_start("spaces at the end", VERDICT, f"REFUSED 2 {place}  garbled")
        s.expect("a number is due", lambda column=column: f"(TOP column {column}: the row ends where a number is due)"
                 in f"{s.grid.line(VERDICT)} {s.grid.line(MORE)}", True)
        s.expect_line("a mark where it is due", TOP_MARKS, " " * (GUTTER + PITCH * column) + "v")


def most_pads(s, folder):
    """65,536 bytes of pads: the numbers stand far apart, and so does their copper."""
    text = b"TOP 1" + b"1\r\nBOT 0 0\n".rjust(65531)
    load(s, folder, text, TOP_ONLY, unsaved=True)
    s.expect_start("65,536 bytes", VERDICT, "width 2  tracks 1  blank 8  density 1  chain 1  pieces 5")
    s.expect_line("the first column", TOP_LINE, "TOP     1".ljust(77) + ">")
    s.expect_line("its trunk goes on", DRAWING + 2, "  1     o".ljust(77, "-"))
    s.type(END)
    s.expect_line("the last column", TOP_LINE, "TOP <".ljust(72) + "1")
    s.expect_line("its trunk", DRAWING + 2, "  1  ".ljust(72, "-") + "o")
    expect_saved(s, folder, "65,536 bytes: the same", text, TOP_ONLY)
    s.type("1")
    s.expect_start("one byte more", VERDICT, "REFUSED 0 65536  too long")
    (folder / "long").write_bytes(text.replace(b"\n", b" \n"))
    check("one byte more in a file", piped(folder, b"load long\n")[1][0][:30], "order: line 1: REFUSED 0 65536")


def through_pipes(folder):
    """Signs stand at numbers there too, and each row as it is typed."""
    out, _, _ = piped(folder, padded(([1, 1, 30], [2, 0, 0])) + b"show\n")
    check("piped: padded, parked pins", out[:4], [" " * 14 + "p", "TOP   1   1  30", "BOT   2   0   0", " " * 6 + "p"])
    out, _, _ = piped(folder, padded(([1, 1, 7], [0, 0, 512])) + b"show\n")
    check("piped: padded, high net", out[:3], ["TOP   1   1   7", "BOT   0   0 512", " " * 12 + "^^^"])


def random_list(chance):
    """The text of a list with any pads and line ends, and of the same list without."""
    width = chance.randint(1, 12)
    rows = tuple([chance.choice((0, 0, 1, 2, 103)) for _ in range(width)] for _ in range(2))
    lines = [b"".join(b" " * chance.choice((1, 1, 2, 5)) + b"%d" % net for net in row) for row in rows]
    return b"TOP%s%sBOT%s%s" % (lines[0], chance.choice(ENDS), lines[1], chance.choice(ENDS)), text_of(rows)


def random_lists(folder):
    """The answer to a list with any pads and line ends is that to the plain list."""
    chance = random.Random(3)
    commands, lists = b"", [random_list(chance) for _ in range(100)]
    for n, texts in enumerate(lists):
        for name, text in zip(("padded", "plain"), texts):
            (folder / f"{name}{n}").write_bytes(text)
            commands += b"load %s%d\nshow\n" % (name.encode(), n)
    answers = []
    for line in piped(folder, commands)[0]:
        if line.startswith("loaded"):
            answers.append([])
        if answers[-1] or line.startswith(("width", "REFUSED 7")):
            answers[-1].append(line)
    check("random lists: answers", (len(answers), all(answers)), (2 * len(lists), True))
    for n, (text, _) in enumerate(lists):
        check(f"{text}: as the plain list", answers[2 * n], answers[2 * n + 1])


def run(folder):
    s = Session(ORDER, folder=folder)
    s.expect_start("started", KEYS, " F1 help")
    for part in (columns_of_four, moving, beside_a_plain_row, wide_columns, wider_than_the_window, marks, typing,
                 most_pads):
        part(s, folder)
    leave(s, "padded lists")
    for part in (through_pipes, random_lists):
        part(folder)
