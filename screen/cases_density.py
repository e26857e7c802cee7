"""The bars of density under the rows: their counts and heights after every kind of edit, in every window."""
import random

from cases_looks import typed
from cases_pipe import piped
from cases_window import has_utf8
from order_density import BLOCKS, NETS, density_line, densities, text_rows
from order_drawing import A, B, channel, damaged, text_of
from order_keys import (BOT_LINE, CLEAR, DELETE, DENSITY, DOWN, DRAWING, END, ENTER, ERASE, ESCAPE, GUTTER, HELP, HOME,
                        JUDGE, KEYS, LAMINATE, LOAD, ORDER, PITCH, REDO, RIGHT, SCROLL_DOWN, SCROLL_LEFT, SCROLL_RIGHT,
                        TITLE, TOP_LINE, TURN, UNDO, UP, VERDICT, fill, leave, paste)
from order_lists import load, padded
from pseudo_terminal import Session, check

C, D = ([1, 2], [2, 1]), ([1, 2, 3, 1], [2, 3, 2, 0])
E = ([1, 0, 1, 2, 0, 2], [0, 3, 0, 0, 3, 0])
EXAMPLES = {"A": (A, [1, 2, 1, 0]), "B": (B, [1, 3, 4, 4, 4, 4, 2]), "C": (C, [2, 2]), "D": (D, [2, 3, 3, 1]),
            "E": (E, [1, 2, 2, 2, 2, 1]), "straight and parked": (([1, 0, 2], [1, 0, 0]), [0, 0, 0])}
REFUSED = {  # rows that are no list, or are refused; the counts that they have all the same
    "uneven": ("1 2 3 1", "2", [2, 2, 1, 1]), "one row": ("", "4 0 4", [1, 1, 1]),
    "high nets": ("512 1 512 1 600", "0 0 0 99999999999 0", [0, 1, 1, 1, 0]),
    "a leading zero": ("1 01 1 07", "7 0 0 007", [1, 1, 1, 0]), "a space at the end": ("1 1 ", "2 0 2  ", [2, 2, 1]),
    "pads": ("   5     6 5", "6", [2, 2, 1]), "tangled": ("1 2", "2 1", [2, 2]), "a zero": ("0", "", [0]),
}
GARBLED = {b"TOP 1 x 1\nBOT 2 2x 2\r2\n": [1, 1, 1], b"TOP 3\t3 3 -3 3\nBOT +4 4 4.0 4\n": [0, 2, 2, 2],
           b"TOP \xb9 1 9\nBOT 9 1 \xe9\n": [1, 1, 1]}
STAIRS = (list(range(1, 10)) + list(range(1, 10)), [0] * 18)  # counts of 1 to 9 and back
# 511 nets that begin in columns 1 to 256 and end in columns 257 to 512: all of them lie over two columns
ALL = ([*range(1, 512, 2)] * 2, [*range(2, 511, 2), 0] * 2)
WIDE = ([n % 37 + 1 for n in range(60)], [7 * n % 90 for n in range(60)])
SMALLEST = 14, 40
BOLD, DIM, CYAN = (1,), (2,), (36,)
HELP_LINE = " dens: how many nets lie over a column."


def expect_bars(s, what, top, bot, utf8=False):
    """The bars of two rows in a window of 80 cells, which shows them all."""
    s.expect_lines(f"{what}: rows", TOP_LINE, [shown_row("TOP", top), shown_row("BOT", bot)])
    s.expect_line(what, DENSITY, density_line(top, bot, utf8=utf8))


def shown_row(word, text):
    return (word.ljust(GUTTER) + "".join(number.rjust(PITCH) for number in text.split())).rstrip()


def numbers():
    """What the tests work out is the scope's density: of its examples, and of lists that the other program takes."""
    for name, (rows, due) in EXAMPLES.items():
        check(f"{name}: counts", densities(*text_rows(rows)), due)
    for name, (top, bot, due) in REFUSED.items():
        check(f"{name}: counts", densities(top, bot), due)
    chance = random.Random(14)
    for _ in range(300):
        rows = random_rows(chance)
        check(f"{rows}: density", max(densities(*text_rows(rows))), channel.bounds(*rows)[0])
    check("511 nets", densities(*text_rows(ALL)).count(NETS), 2)


def random_rows(chance):
    width, most = chance.randint(1, 30), chance.choice((3, 12, 511))
    return tuple([chance.randint(0, most) for _ in range(width)] for _ in range(2))


def key_by_key(s, utf8=False):
    """After each key: typed, erased from the end, deleted from the front, with columns put in and taken out before
    others."""
    (top, bot), seen = text_rows(B), []
    fill(s, "", "")
    s.expect_line("nothing typed: no bars", DENSITY, "")
    s.type(UP)
    for n in range(1, len(top) + 1):
        s.type(top[n - 1])
        expect_bars(s, f"typed {top[:n]!r}", top[:n], "", utf8)
    s.type(DOWN + HOME)
    for n in range(1, len(bot) + 1):
        s.type(bot[n - 1])
        expect_bars(s, f"typed {bot[:n]!r} under it", top, bot[:n], utf8)
        seen.append(s.grid.line(DENSITY))
    check("the bars change while a customer types: five of them", len(set(seen)), 5)
    s.type(HOME + "9 ")
    expect_bars(s, "all columns of a row moved", top, f"9 {bot}", utf8)
    s.type(ERASE * 2)
    expect_bars(s, "and back", top, bot, utf8)
    for n in range(1, len(bot) + 1):
        s.type(DELETE)
        expect_bars(s, f"deleted up to {bot[n:]!r}", top, bot[n:], utf8)
    s.type(UP + END)
    for n in range(len(top) - 1, -1, -1):
        s.type(ERASE)
        expect_bars(s, f"erased down to {top[:n]!r}", top[:n], "", utf8)


def examples(s, utf8=False):
    for name, (rows, _) in EXAMPLES.items():
        fill(s, *text_rows(rows))
        expect_bars(s, name, *text_rows(rows), utf8)
    for name, (top, bot, _) in REFUSED.items():
        fill(s, top, bot)
        s.expect_line(name, DENSITY, density_line(top, bot, utf8=utf8))


def all_edits(s, folder):
    """Pasted, loaded, turned over, cleared, undone and done again; bytes that no list has are not on the draft."""
    (top, bot), (one, other) = text_rows(B), text_rows(E)
    fill(s, top, bot)
    s.type(paste(f"{one}\n{other}\n"))
    expect_bars(s, "two lines pasted", one, other)
    s.type(UP + HOME + paste("5 0 "))
    expect_bars(s, "a line pasted at the cursor", f"5 0 {one}", other)
    s.type(TURN)
    expect_bars(s, "turned over", other, f"5 0 {one}")
    s.type(UNDO)
    expect_bars(s, "turned back by undoing", f"5 0 {one}", other)
    s.type(UNDO)
    expect_bars(s, "the line undone", one, other)
    s.type(UNDO)
    expect_bars(s, "both lines undone", top, bot)
    s.type(REDO * 3)
    expect_bars(s, "all done again", other, f"5 0 {one}")
    s.type(CLEAR)
    s.expect("a row cleared", lambda: s.grid.line(DENSITY) in (density_line(other, ""), density_line("", f"5 0 {one}")),
             True)
    load(s, folder, text_of(B), unsaved=True)
    expect_bars(s, "loaded", top, bot)
    for text, due in GARBLED.items():
        load(s, folder, text)
        rows = [line[4:].decode("latin-1") for line in text.split(b"\n")[:2]]
        s.expect_line(f"{text}: loaded", DENSITY, density_line(*rows))
        check(f"{text}: counts", densities(*rows), due)
    s.type(UNDO * len(GARBLED))
    expect_bars(s, "loaded lists undone", top, bot)


def wide_columns(s, folder):
    """A bar stands under the last digit of its column, as wide as that is."""
    for cells in (4, 6, 9):
        load(s, folder, padded(B, cells, b"\n"), unsaved=cells == 4)
        rows = [line[4:].decode() for line in padded(B, cells, b"\n").splitlines()]
        s.expect_line(f"columns of {cells}", DENSITY, density_line(*rows))
    s.expect("columns of 9: each bar under its number",
             lambda: [x for x, glyph in enumerate(s.grid.line(DENSITY)) if glyph == "#"],
             [GUTTER + 12 * column - 1 for column in (3, 4, 5, 6)])


def scrolled(s):
    """The bars scroll with the rows, and signs tell that they go on."""
    typed(s, WIDE)
    rows = text_rows(WIDE)
    s.type(HOME)
    for scroll in (0, 40, 80, 120, 160):
        s.expect_line(f"scrolled by {scroll} cells", DENSITY, density_line(*rows, scroll=scroll))
        s.type(SCROLL_RIGHT)
    s.expect_line("scrolled to the end", DENSITY, density_line(*rows, scroll=172))
    s.type(SCROLL_LEFT * 9)
    s.expect_line("scrolled back", DENSITY, density_line(*rows))


def largest(s, folder):
    """Counts of three digits fill their columns; columns and nets that no list has are left out."""
    load(s, folder, text_of(ALL))
    rows = text_rows(ALL)
    s.expect_line("511 nets: the first columns", DENSITY, density_line(*rows))
    s.type(RIGHT * 980)
    s.expect("511 nets: a column under the cursor", lambda: "511#511#509 507" in s.grid.line(DENSITY), True)
    s.type(END)
    s.expect_start("511 nets: the last columns", TOP_LINE, "TOP < 479")
    s.expect_line("511 nets: the last counts", DENSITY, density_line(*rows, scroll=4 * 495))
    too_wide = tuple([*row, 1, 1] for row in ALL)
    load(s, folder, text_of(too_wide))
    s.expect_start("514 columns", VERDICT, "REFUSED 3 513")
    s.type(END)
    s.expect_start("514 columns: the last", TOP_LINE, "TOP < 483")
    check("514 columns: the same counts", densities(*text_rows(too_wide)), densities(*rows))
    s.expect_line("514 columns: bars up to 512", DENSITY, density_line(*text_rows(too_wide), scroll=4 * 497))


def windows(s):
    """In windows of all sizes, the name where there is room for it; in too small a one nothing."""
    for rows, across in (SMALLEST, (14, 300), (24, 80), (30, 132), (50, 41), (15, 44), (15, 43)):
        s.resize(rows, across)
        for pins in (B, E, C, STAIRS):
            typed(s, pins)
            s.type(HOME)
            s.expect_line(f"{across} by {rows}", DENSITY, density_line(*text_rows(pins), across=across))
            s.expect_start(f"{across} by {rows}: keys", rows - 1, " F1 help")
    s.resize(*SMALLEST)
    typed(s, E)
    s.expect_line("the smallest window: the name fits", DENSITY, "dens   1   2#  2#  2#  2#  1   density 2")
    typed(s, B)
    s.expect_line("the smallest window: no room for it", DENSITY, "dens   1   3   4#  4#  4#  4#  2")
    s.expect_start("the smallest window: the drawing under it", DRAWING, "TOP     .   1   6")
    for title, keys in (("no track of 5", SCROLL_DOWN), ("track 5 of 5", SCROLL_DOWN * 2),
                        ("track 4 of 5", SCROLL_DOWN * 20), ("no track of 5", "")):
        s.expect(f"the smallest window: {title}", lambda title=title: s.grid.line(TITLE).endswith(title), True)
        s.type(keys)
    s.resize(13, 80)
    s.expect_start("too small", 0, "Too small a window:")
    s.quiet()
    check("too small: no bars", any("dens" in s.grid.line(y) for y in range(13)), False)
    s.resize(24, 80)
    s.expect_line("and back", DENSITY, density_line(*text_rows(B)))


def elsewhere(s, folder):
    """A question, a judged board and a laminate leave the bars; the help covers them and tells of them."""
    for name, board in damaged().items():
        (folder / name).write_bytes(board)
    typed(s, A)
    due = density_line(*text_rows(A))
    for keys in (LOAD, LAMINATE, ESCAPE, JUDGE + "good" + ENTER, JUDGE + "i" + ENTER, ESCAPE):
        s.type(keys)
        s.quiet()
        s.expect_line(f"after {keys!r}", DENSITY, due)
        s.type(ESCAPE)
    s.type(HELP)
    s.expect("F1 tells of them", lambda: HELP_LINE in map(s.grid.line, range(24)), True)
    s.expect_line("F1 in one page", TITLE, " Keys; any key goes back to the list.")
    s.type("1")
    s.expect_line("back from the help", DENSITY, due)
    typed(s, ([], []))
    s.expect_lines("no list: no bars", TOP_LINE, ["TOP", "BOT", "", ""])
    s.expect_start("no list: what a list is", DRAWING, "  A pin list has two rows of the same length")


def styles(s):
    typed(s, A)
    s.expect_line("A", DENSITY, "dens   1   2#  1    .  density 2")
    for x, due in ((0, ("d", DIM)), (7, ("1", ())), (11, ("2", BOLD)), (12, ("#", CYAN)), (20, (".", DIM)),
                   (23, ("d", DIM))):
        s.expect(f"style of cell {x}", lambda x=x: s.grid.cells[DENSITY][x], due)


def in_utf8(folder):
    """All eight heights, after every key too."""
    if not has_utf8():
        return
    s = Session(ORDER, folder=folder, LC_ALL="C.UTF-8")
    s.expect_start("started in UTF-8", KEYS, " F1 help")
    examples(s, utf8=True)
    key_by_key(s, utf8=True)
    for nets in (1, 2, 3, 5, 7, 8, 9):
        rows = (list(range(1, nets + 1)) * 2, [0] * 2 * nets)
        typed(s, rows)
        s.type(HOME)
        expect_bars(s, f"stairs of {nets}", *text_rows(rows), utf8=True)
        if nets == 8:
            check("each height", [c for c in s.grid.line(DENSITY) if c in BLOCKS], [*BLOCKS, *BLOCKS[::-1]])
    typed(s, B)
    s.expect_line("B", DENSITY, "dens   1\u2582  3\u2586  4\u2588  4\u2588  4\u2588  4\u2588  2\u2584  density 4")
    leave(s, "density in UTF-8")


def told(out):
    return [line for line in out if line.startswith("DENSITY")]


def through_pipes(folder):
    for name, (rows, due) in EXAMPLES.items():
        out, _, _ = piped(folder, text_of(rows) + b"show\n")
        at = next(i for i, line in enumerate(out) if line.startswith("DENSITY"))
        check(f"piped {name}", (out[at], out[at + 1].split()[0] in ("width", "REFUSED")),
              (" ".join(["DENSITY", *map(str, due)]), True))
    for name, (top, bot, due) in REFUSED.items():
        out, _, _ = piped(folder, f"TOP {top}\nBOT {bot}\nshow\n".encode())
        check(f"piped: {name}", told(out), [" ".join(["DENSITY", *map(str, due)])])
    for rows in (b"", b"TOP \nBOT \n", b"TOP    \nBOT  \n", text_of(B) + b"TOP \nBOT \n"):
        check(f"piped: nothing in the rows {rows}", told(piped(folder, rows + b"show\n")[0]), [])
    for name, board in damaged().items():
        (folder / name).write_bytes(board)
    check("piped: judged", told(piped(folder, text_of(A) + b"judge good\njudge i\n")[0]), ["DENSITY 1 2 1 0"] * 2)
    helped = piped(folder, b"help\n")[0]
    check("piped: help", any(line.startswith("DENSITY tells how many nets lie over each") for line in helped), True)


def random_word(chance):
    small = (str(chance.randint(0, most)) for most in (6, 12))
    return chance.choice((*small, "0", "511", "512", "01", "x", "4294967297"))


def random_edits(folder):
    """Rows of any length and words, set one at a time, loaded and turned over, each followed by what is shown of it."""
    chance, rows, commands, due = random.Random(41), ["", ""], b"", []
    for n in range(700):
        step, side = chance.randrange(8), chance.randrange(2)
        if step == 0 and any(rows):
            rows.reverse()
            commands += b"turn\n"
        elif step == 1:
            rows = [" ".join(map(str, row)) for row in random_rows(chance)]
            (folder / f"list{n}").write_text("TOP {}\nBOT {}\n".format(*rows))
            commands += b"load list%d\n" % n
        elif step < 5 and rows[side]:
            words = rows[side].split(" ")
            words[chance.randrange(len(words))] = random_word(chance)
            rows[side] = " ".join(words)
        else:
            rows[side] = " ".join(random_word(chance) for _ in range(chance.choice((0, 1, 5, 20, 60))))
        commands += "TOP {}\nBOT {}\nshow\n".format(*rows).encode()
        due += [" ".join(["DENSITY", *map(str, densities(*rows))])] if any(rows) else []
    check("random edits", told(piped(folder, commands)[0]), due)


def run(folder):
    numbers()
    s = Session(ORDER, folder=folder)
    s.expect_start("started", KEYS, " F1 help")
    check("no bars at the start", (s.grid.line(DENSITY), s.grid.line(BOT_LINE)), ("", "BOT"))
    for part in (key_by_key, examples, scrolled, windows, styles):
        part(s)
    for part in (all_edits, wide_columns, largest, elsewhere):
        part(s, folder)
    leave(s, "density")
    s = Session(ORDER, folder=folder, NO_COLOR="1")
    s.expect_start("started without colours", KEYS, " F1 help")
    typed(s, B)
    s.expect_line("NO_COLOR: the signs are there", DENSITY, density_line(*text_rows(B)))
    leave(s, "density without colours")
    for part in (in_utf8, through_pipes, random_edits):
        part(folder)
