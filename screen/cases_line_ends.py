"""Lines that end in LF or in CR LF, each by itself: kept, undone, saved; and bytes at their ends that no list has."""
import random

from cases_pipe import piped
from order_drawing import A
from order_keys import (BOT_LINE, DELETE, DOWN, END, ERASE, GUTTER, MARK, MORE, ORDER, PITCH, REDO, TITLE, TOP_LINE,
                        TOP_MARKS, UNDO, VERDICT, expect_cursor, expect_message, expect_rows, fill, leave, paste)
from order_lists import BOT_ONLY, CR_LF, ENDS, TOP_ONLY, expect_saved, load, padded
from pseudo_terminal import Session, check

RETURNS = b"TOP 1 1\r\nBOT 0 0\r\n"


def loading(s, folder):
    """The carriage return of a line's end is no byte of the row, and is saved again."""
    expect_message(s, "started on a file", "loaded returns" + CR_LF)
    s.expect_start("the board is there", VERDICT, "width 2  tracks 1  blank 8  density 1  chain 1  pieces 5")
    expect_rows(s, "no carriage return is shown", [1, 1], [0, 0])
    s.type(END)
    expect_cursor(s, "nor passed by the cursor", TOP_LINE, 13)
    s.type(DELETE)
    expect_saved(s, folder, "nor deleted", RETURNS, CR_LF)
    for text, told in ((b"TOP 1 1\r\nBOT 0 0\n", TOP_ONLY), (b"TOP 1 1\nBOT 0 0\r\n", BOT_ONLY),
                       (b"TOP 1 1\nBOT 0 0\n", ""), (RETURNS, CR_LF)):
        load(s, folder, text, told)
        expect_saved(s, folder, "each line by itself", text, told)


def keeping(s, folder):
    """Lines end as they did when the list was loaded, whatever is typed or pasted."""
    fill(s, "1", "1")
    expect_saved(s, folder, "typed", b"TOP 1\r\nBOT 1\r\n", CR_LF)
    s.type(paste("BOT 1\n") + DOWN + paste("2") + paste("TOP 12\n"))
    expect_saved(s, folder, "one line pasted", b"TOP 12\r\nBOT 12\r\n", CR_LF)
    s.type(paste("1\n1\n"))
    expect_saved(s, folder, "two lines pasted", b"TOP 1\r\nBOT 1\r\n", CR_LF)


def undoing(s, folder):
    """A load is undone whole, also one that changes nothing but line ends, or those and one digit."""
    s.type(DOWN + END + ERASE + "1")
    load(s, folder, b"TOP 1\nBOT 12\n")
    s.type(UNDO)
    expect_saved(s, folder, "a load of one digit and line ends undone", b"TOP 1\r\nBOT 1\r\n", CR_LF)
    s.type(REDO)
    expect_saved(s, folder, "and done again", b"TOP 1\nBOT 12\n")
    load(s, folder, b"TOP 1\nBOT 12\r\n", BOT_ONLY)
    s.type(UNDO)
    s.expect("a line end undone is not saved", lambda: "list not saved" in s.grid.line(TITLE), True)
    expect_cursor(s, "the cursor is at it", BOT_LINE, 9)
    expect_saved(s, folder, "a load of a line end undone", b"TOP 1\nBOT 12\n")
    load(s, folder, padded(A), CR_LF)
    s.type(UNDO)
    expect_rows(s, "a padded list undone", [1], [12])
    expect_saved(s, folder, "with its line ends", b"TOP 1\nBOT 12\n")
    s.type(REDO)
    expect_rows(s, "a padded list again", *A)
    expect_saved(s, folder, "with its pads and line ends", padded(A), CR_LF)


def expect_garbled(s, text, place, where, marked):
    s.expect_start(f"{text}", VERDICT, f"REFUSED 2 {place}  garbled")
    s.expect(f"{text}: where", lambda: f"({where})" in f"{s.grid.line(VERDICT)} {s.grid.line(MORE)}", True)
    s.expect_line(f"{text}: mark", TOP_MARKS, " " * marked + "v")


def no_number(s, folder):
    """A row that ends where a number is due, and a tab where a space is."""
    for text, place, column in ((b"TOP 1 1 \r\nBOT 0 0\r\n", 8, 3), (b"TOP \r\nBOT 0\r\n", 4, 1)):
        load(s, folder, text, CR_LF)
        expect_garbled(s, text, place, f"TOP column {column}: the row ends where a number is due",
                       GUTTER + PITCH * column)
    text = b"TOP 1\t1\r\nBOT 0 0\r\n"
    load(s, folder, text, CR_LF)
    expect_garbled(s, text, 5, "TOP column 1, character 2 of the row", 7)
    s.expect_line("a tab is shown", TOP_LINE, "TOP   1?1")


def other_returns(s, folder):
    """A carriage return that ends no line is a byte of its row, shown and kept."""
    where = "TOP column 2, character 5 of the row, after a carriage return"
    two, bare = b"TOP 1 1\r\r\nBOT 0 0\n", b"TOP 1 1\r1\nBOT 0 0\n"
    load(s, folder, two, TOP_ONLY)
    expect_garbled(s, two, 8, where, 13)
    s.expect_line("one of two is shown", TOP_LINE, "TOP     1  1?")
    expect_saved(s, folder, "two carriage returns", two, TOP_ONLY)
    load(s, folder, bare)
    expect_garbled(s, bare, 8, where, 12)
    s.expect_line("a carriage return is shown", TOP_LINE, "TOP     1 1?1")
    expect_saved(s, folder, "a carriage return within a row", bare)
    s.type(MARK + DELETE)
    s.expect_start("now it is part of the line's end", VERDICT, "width 2")
    expect_rows(s, "and not of the row", [1, 1], [0, 0])
    expect_cursor(s, "the cursor is at the end", TOP_LINE, 13)
    expect_saved(s, folder, "as it is saved", b"TOP 1 1\r\nBOT 0 0\n", TOP_ONLY)
    s.type(UNDO)
    s.expect_line("undone", TOP_LINE, "TOP     1 1?1")
    expect_saved(s, folder, "undone, in the row again", bare)
    load(s, folder, bare.replace(b"\n", b"\r\n"), CR_LF)
    s.type(MARK + DELETE)
    s.expect_line("one is part of the line's end already", TOP_LINE, "TOP     1  1?")
    expect_saved(s, folder, "both are saved", b"TOP 1 1\r\r\nBOT 0 0\r\n", CR_LF)


def lines_of_commands(folder):
    """A command may end in CR LF, and a row keeps that end."""
    out, err, status = piped(folder, b"TOP   1   1\r\n\r\nBOT   0   0\nsave-pins mixed\r\nshow\r\nquit\r\nshow\n")
    check("commands that end in CR LF: complaints, status", (err, status), ([], 0))
    check("commands that end in CR LF", out[:5], [
        f"saved 25 bytes as mixed{TOP_ONLY}", "TOP   1   1", "BOT   0   0", "DENSITY 1 1",
        "width 2  tracks 1  blank 8  density 1  chain 1  pieces 5"])
    check("quit", len([line for line in out if line.startswith("width")]), 1)
    check("the rows' ends", (folder / "mixed").read_bytes(), b"TOP   1   1\r\nBOT   0   0\n")
    out, _, _ = piped(folder, b"load mixed\r\nTOP 1 1\nBOT 0 0\r\nsave-pins other\n")
    check("a file that is named so", out[0], f"loaded mixed{TOP_ONLY}")
    check("rows that are set anew", (folder / "other").read_bytes(), b"TOP 1 1\nBOT 0 0\r\n")
    out, err, status = piped(folder, b"TOP 1 1\r\r\nBOT 0 0\nshow\nshow\r\r\n")
    check("two carriage returns", (out[:4], out[4][:11]), (["        v", "TOP 1 1?", "BOT 0 0", "DENSITY 0 0"],
                                                           "REFUSED 2 8"))
    check("two after a command", (err, status), (["order: line 4: this is no command (try help): show?"], 1))
    full = b"TOP " + b" " * 65535 + b"1"
    check("a full row", piped(folder, full + b"\n" + full + b"\r\n")[1:], ([], 0))
    _, err, _ = piped(folder, full + b" \n" + full + b" \r\n")
    check("rows one byte too long", [line[:30] for line in err], [f"order: line {n}: REFUSED 0 65536" for n in (1, 2)])


def random_text(chance):
    """Two labelled lines of bytes as they stand in lists and near their ends."""
    def line(label):
        return label + bytes(chance.choices(b" 012\r\t", (9, 3, 9, 9, 1, 1), k=chance.randint(0, 12)))

    return line(b"TOP ") + chance.choice(ENDS) + line(b"BOT ") + chance.choice(ENDS)


def random_texts(folder):
    """Whatever stands between the labels is kept; a sign stands at the byte that the reader stops at."""
    chance = random.Random(2)
    commands, texts, garbled = b"", [random_text(chance) for _ in range(300)], 0
    for n, text in enumerate(texts):
        (folder / f"text{n}").write_bytes(text)
        commands += b"load text%d\nsave-pins kept%d\nshow\n" % (n, n)
    said = "\n".join(piped(folder, commands)[0]).split("loaded ")[1:]
    check("random texts: answers", len(said), len(texts))
    for n, text in enumerate(texts):
        check(f"{text}: kept", (folder / f"kept{n}").read_bytes(), text)
        lines = said[n].split("\n")[2:]
        for refused in (line for line in lines if line.startswith("REFUSED 2 ")):
            garbled += 1
            place, second = int(refused.split()[2]), text.index(b"\n") + 1
            signs = lines[0] if place < second else lines[2]
            check(f"{text}: sign", signs, " " * place + "v" if place < second else " " * (place - second) + "^")
    check("random texts: many are garbled, some are not", 100 < garbled < 280, True)


def run(folder):
    (folder / "returns").write_bytes(RETURNS)
    s = Session(ORDER, "returns", folder=folder)
    for part in (loading, keeping, undoing, no_number, other_returns):
        part(s, folder)
    leave(s, "line ends")
    for part in (lines_of_commands, random_texts):
        part(folder)
