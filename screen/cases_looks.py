"""The bar of looks: its numbers and cells, its place in the message line, and where there is none."""
import os
import random
import subprocess

from cases_pipe import piped
from cases_typing import ONLY_DIGITS
from cases_window import has_utf8
from order_drawing import A, B, channel, damaged, drawing, text_of, written
from order_keys import (BOT_LINE, CLEAR, DOWN, DRAWING, ENTER, ESCAPE, HELP, JUDGE, KEYS, LOAD, MESSAGE, MORE, ORDER,
                        PITCH, QUIT, RIGHT, SAVE, SAVE_PINS, TITLE, UP, VERDICT, expect_cursor, fill, in_sight, leave)
from order_looks import PIPED, bar, bar_of, beside, looks_of
from pseudo_terminal import Session, check

C, D = ([1, 2], [2, 1]), ([1, 2, 3, 1], [2, 3, 2, 0])
E = ([1, 0, 1, 2, 0, 2], [0, 3, 0, 0, 3, 0])
EXAMPLES = {"B": (B, 18, 21), "C": (C, 2, 3), "D": (D, 3, 6), "E": (E, 4, 6)}  # looks and ceiling of the scope
STRAIGHT, LONE = ([1, 0, 2], [1, 0, 2]), ([1, 0], [0, 0])
PARKED = ([1, 1, 30, 4, 4], [2, 0, 0, 5, 1])  # nets 2, 5 and 30 are parked, and nobody looks at them
CHAIN = (list(range(1, 512)) + [0], list(range(512)))  # each track takes one net, so the bar is full
REFUSED = {"uneven": b"TOP 1 1\nBOT 2\n", "high net": b"TOP 1 512\nBOT 1 0\n", "garbled": b"TOP 1 01\nBOT 1 0\n"}
SMALLEST = 14, 40  # lines and cells of the smallest window
BOLD = 1
HELP_LINES = ("The bar: looks that the routing took, of the most that so many nets take.",
              "For each track the router looks once at every net that is not placed yet.")


def typed(s, rows):
    fill(s, *(" ".join(map(str, row)) for row in rows))


def numbers():
    """The looks that the tests count are the scope's; where all nets are placed, each was looked at once a track."""
    for name, (rows, *due) in EXAMPLES.items():
        check(f"{name}: looks and ceiling", list(looks_of(rows)), due)
    for rows in (A, B, E, STRAIGHT, PARKED, CHAIN):
        check("looks of a routed list", looks_of(rows)[0], sum(channel.fill(*rows)[1].values()))


def texts(folder):
    """The bar itself, in any room and for any numbers."""
    here = ORDER.parent.parent / "screen"
    flags = ["-std=c11", "-Wall", "-Wextra", "-Werror", *os.environ.get("CFLAGS", "").split()]
    subprocess.run([os.environ.get("CC", "cc"), *flags, here / "test_looks_bar.c", here / "looks_bar.c", "-o",
                    folder / "bars"], check=True)
    pairs = ((0, 0), (0, 9), (1, 1), (1, 130816), (2, 3), (18, 21), (130815, 130816), (130816, 130816), (9, 4),
             (2**32 - 1, 2**32 - 1))
    cases = [(*pair, across) for pair in pairs for across in (*range(90), *range(250, 260), 2**40)]
    out = subprocess.run([folder / "bars"], input="".join(f"{n} {of} {across}\n" for n, of, across in cases), text=True,
                         stdout=subprocess.PIPE, check=True).stdout.splitlines()
    check("bars: as many as cases", len(out), len(cases))
    for line, case in zip(out, cases):
        first, end, text = line.split(" ", 2)
        check(f"bar of {case}", (text, text[int(first):int(end)], len(text) <= case[2]),
              (bar(*case), "#" * text.count("#"), True))


def bold_cells(s):
    return [x for x, (_, style) in enumerate(s.grid.cells[MESSAGE]) if style]


def examples(s):
    """The scope's examples, where no message is in the line."""
    for name, (rows, looks, ceiling) in EXAMPLES.items():
        typed(s, rows)
        s.expect_line(f"{name}: bar", MESSAGE, bar(looks, ceiling, 80))
    typed(s, B)
    s.expect_line("B: 47 of 55 cells", MESSAGE, "looks 18 of at most 21 [" + "#" * 47 + " " * 8 + "]")
    s.expect("B: the filled cells are bold", lambda: bold_cells(s), list(range(24, 71)))
    check("B: no other style", {style for _, style in s.grid.cells[MESSAGE]}, {(), (BOLD,)})
    s.expect_lines("B: the drawing over it", DRAWING, in_sight(drawing(B, written(B), PITCH)[1:]))


def other_lists(s):
    for what, rows in (("straight nets alone", STRAIGHT), ("no net", LONE)):
        typed(s, rows)
        s.expect_line(what, MESSAGE, "looks 0 of at most 0")
    typed(s, PARKED)
    s.expect_line("parked pins", MORE, "3 pins parked: nets 2, 5, 30")
    s.expect_line("parked pins: bar", MESSAGE, bar(3, 3, 80))
    typed(s, A)
    s.expect_line("a full bar", MESSAGE, bar(3, 3, 80))


def none(s):
    """An empty list and a refused one have no bar, also in the smallest window, and no message brings one."""
    for rows, across in (SMALLEST, (24, 80)):
        s.resize(rows, across)
        for what, text in (*REFUSED.items(), ("empty", b"TOP \nBOT \n")):
            typed(s, B)
            s.expect_line(f"{what}: the bar before it", rows - 2, bar(18, 21, across))
            fill(s, *(line[4:] for line in text.decode().splitlines()))
            s.expect_start(what, VERDICT, "Type the TOP row" if what == "empty" else "REFUSED ")
            s.expect_line(f"{what}: no bar", rows - 2, "")
            s.type("x")
            s.expect_line(f"{what}: no bar beside a message", rows - 2, ONLY_DIGITS)


def judged(s, folder):
    """A judged board's verdict speaks of another board than the list's own: there is no bar until that is back."""
    for name, board in damaged().items():
        (folder / name).write_bytes(board)
    for rows, looks, ceiling in ((A, 3, 3), (C, 2, 3)):
        for name in ("good", "h", "j"):
            typed(s, rows)
            s.expect_line("the list's bar", MESSAGE, bar(looks, ceiling, 80))
            s.type(JUDGE + name + ENTER)
            s.expect_line(f"{name}: judged", MESSAGE, "this is the file's board; Esc goes back to the list's own")
            s.type(UP)
            s.expect_line(f"{name}: no bar without the message", MESSAGE, "")
            s.type(ESCAPE)
            s.expect_line(f"{name}: the list's own board has it again", MESSAGE, bar(looks, ceiling, 80))


def windows(s):
    """In windows of all sizes the bar takes the message line, of up to 255 cells, or what a message leaves of it."""
    typed(s, B)
    due = drawing(B, written(B), PITCH)[1:]
    for rows, across in (SMALLEST, (14, 300), (24, 80), (30, 132), (50, 41)):
        s.resize(rows, across)
        s.expect_line(f"{across} by {rows}: bar", rows - 2, bar(18, 21, across))
        s.expect_lines(f"{across} by {rows}: drawing", DRAWING,
                       [line[:across - 4].rstrip() for line in in_sight(due, rows)])
        s.type("x")
        s.expect_line(f"{across} by {rows}: message", rows - 2, beside(ONLY_DIGITS, 18, 21, across))
        s.type(LOAD)
        s.expect_line(f"{across} by {rows}: a question", rows - 2, "Load the pin list from file:")
        expect_cursor(s, "the cursor is at it", rows - 2, 29)
        s.type(ESCAPE)
        s.expect_line(f"{across} by {rows}: the bar is back", rows - 2, bar(18, 21, across))
        s.expect_start(f"{across} by {rows}: keys", rows - 1, " F1 help")
    typed(s, C)
    s.resize(*SMALLEST)
    s.expect_lines("the ring in the smallest window", DRAWING, [
        "  net 1 above net 2 in column 1", "  net 2 above net 1 in column 2", bar(2, 3, 40)])
    s.resize(24, 80)
    s.type("x")
    s.expect_line("a tangled list and a message", MESSAGE, beside(ONLY_DIGITS, 2, 3, 80))
    check("a bad message colours no bar", {style for _, style in s.grid.cells[MESSAGE][len(ONLY_DIGITS):]},
          {(), (BOLD,)})


def messages(folder):
    """A message has all of its cells; the bar has the rest, or its words have, or nothing of it is shown."""
    (folder / "b.pins").write_bytes(text_of(B))
    s = Session(ORDER, "b.pins", folder=folder)
    s.expect_line("started on a file", MESSAGE, "loaded b.pins  looks 18 of at most 21 [" + "#" * 34 + " " * 6 + "]")
    s.expect("the filled cells are bold", lambda: bold_cells(s), list(range(39, 73)))
    s.type(RIGHT)
    s.expect_line("the message goes", MESSAGE, bar(18, 21, 80))
    rests = {48: "  looks 18 of at most 21 [#### ]", 49: "  looks 18 of at most 21", 56: "  looks 18 of at most 21",
             57: "", 77: "", 78: "", 79: "", 80: "", 200: ""}
    for length, rest in rests.items():
        message = f"loaded {length}".ljust(length, "n")
        (folder / message[7:]).write_bytes(text_of(B))
        s.type(LOAD + message[7:] + ENTER)
        s.expect_line(f"a message of {length} cells", MESSAGE, message[:80] + rest)
        check("as it is due", beside(message, 18, 21, 80), message[:80] + rest)
    s.type(QUIT)
    s.finish("messages", 0)


def questions(s, folder):
    """While a question is asked there is no bar, as the name needs the room; Escape brings it back."""
    (folder / "b.pins").write_bytes(text_of(B))
    typed(s, B)
    for keys, due in ((LOAD, "Load the pin list from file:"), (SAVE + "b", "Save the board as file: b"),
                      (SAVE_PINS + "b", "Save the pin list as file: b"), (JUDGE, "Judge the board file:"),
                      (LOAD + "b.pins" + ENTER, "List not saved. Load anyway (y or n)?"),
                      (QUIT, "List not saved. Quit anyway (y or n)?")):
        s.type(keys)
        s.expect_line("a question alone", MESSAGE, due)
        s.type(ESCAPE)
        s.expect_line("the bar is back", MESSAGE, bar(18, 21, 80))
    s.type(SAVE + "b.pins" + ENTER)
    s.expect_line("a question about a file", MESSAGE, "This file exists. Replace (y or n)?")
    s.type(ESCAPE)
    s.expect_line("and what came of it", MESSAGE, beside("not saved", 18, 21, 80))


def in_utf8(folder):
    """Characters of several bytes count as the cells that they take."""
    if not has_utf8():
        return
    name = "\u00e9" * 30
    (folder / name).write_bytes(text_of(B))
    s = Session(ORDER, name, folder=folder, LC_ALL="C.UTF-8")
    s.expect_line("a name in UTF-8", MESSAGE, beside(f"loaded {name}", 18, 21, 80))
    s.type(QUIT)
    s.finish("UTF-8", 0)


def largest(s, folder):
    (folder / "chain").write_bytes(text_of(CHAIN))
    s.type(LOAD + "chain" + ENTER + "y")
    s.expect_line("the highest ceiling", MESSAGE, beside("loaded chain", 130816, 130816, 80))
    s.resize(*SMALLEST)
    s.expect_line("in the smallest window", 12, "loaded chain")
    s.type(RIGHT)
    s.expect_line("where the message goes", 12, "looks 130816 of at most 130816 [#######]")
    s.resize(24, 80)
    s.type(UP + CLEAR + DOWN + CLEAR)
    s.expect_line("both rows cleared", BOT_LINE, "BOT")


def helping(s):
    s.type(HELP)
    for line in HELP_LINES:
        s.expect(f"F1: {line}", lambda line=line: f" {line}" in map(s.grid.line, range(24)), True)
    s.type("1")
    s.resize(*SMALLEST)
    for key in (HELP, "1", "1"):
        s.type(key)
        s.quiet()
    s.expect_line("F1 in the smallest window: the last page", TITLE, " Keys; any key goes back to the list.")
    shown = " ".join(s.grid.line(y).strip() for y in range(2, 13))
    check("F1 in the smallest window", [line in shown for line in HELP_LINES], [True, True])
    s.type("1")
    s.resize(24, 80)


def through_pipes(folder):
    def told(commands):
        return [line for line in piped(folder, commands)[0] if line.startswith("looks ")]

    for name, (rows, looks, ceiling) in EXAMPLES.items():
        out, _, status = piped(folder, text_of(rows) + b"show\n")
        tangled = name in "CD"
        at = next(i for i, line in enumerate(out) if line.startswith("REFUSED 7" if tangled else "width"))
        check(f"piped {name}", (out[at + 1], status), (bar(looks, ceiling, PIPED), int(tangled)))
    check("piped B, C", told(text_of(B) + b"show\n" + text_of(C) + b"show\n"), [
        "looks 18 of at most 21 [" + "#" * 30 + " " * 5 + "]", "looks 2 of at most 3 [" + "#" * 24 + " " * 13 + "]"])
    check("piped: straight nets", told(text_of(STRAIGHT) + b"show\n"), ["looks 0 of at most 0"])
    for what, text in REFUSED.items():
        check(f"piped: {what}", told(text_of(B) + text + b"show\n"), [])
    check("piped: an empty list", told(b"show\n"), [])
    for rows in (A, C):
        check("piped: judged", told(text_of(rows) + b"judge good\njudge h\n"), [])
        check("piped: the list after it", told(text_of(rows) + b"judge good\nshow\n"), [bar_of(rows)])
    helped = " ".join(piped(folder, b"help\n")[0])
    check("piped: help", [line in helped for line in HELP_LINES], [True, True])


def random_lists(folder):
    """Routed and tangled lists of up to twelve columns, in the order in which they are asked for."""
    chance, lists = random.Random(7), []
    for _ in range(400):
        width, most = chance.randint(1, 12), chance.randint(1, 8)
        lists.append(tuple([chance.randint(0, most) for _ in range(width)] for _ in range(2)))
    out, _, _ = piped(folder, b"".join(text_of(rows) + b"show\n" for rows in lists))
    seen = [line for line in out if line.startswith("looks ")]
    check("random lists: bars", len(seen), len(lists))
    for line, rows in zip(seen, lists):
        check(f"random list {rows}", line, bar_of(rows))
    tangled = sum(line.startswith("REFUSED 7") for line in out)
    check("random lists: many are tangled, many are not", 50 < tangled < 350, True)


def run(folder):
    numbers()
    texts(folder)
    s = Session(ORDER, folder=folder)
    s.expect_start("started", KEYS, " F1 help")
    check("no bar at the start", s.grid.line(MESSAGE), "")
    for part in (examples, other_lists, none, windows, helping):
        part(s)
    for part in (questions, judged, largest):
        part(s, folder)
    leave(s, "looks")
    s = Session(ORDER, folder=folder, NO_COLOR="1")
    s.expect_start("started without colours", KEYS, " F1 help")
    typed(s, B)
    s.expect_line("NO_COLOR: the signs are there", MESSAGE, bar(18, 21, 80))
    leave(s, "looks without colours")
    for part in (messages, in_utf8, through_pipes, random_lists):
        part(folder)
