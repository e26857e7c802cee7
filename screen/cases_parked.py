"""Parked pins on the order screen: marked by signs of their own, counted in a line, and without copper."""
import re

from cases_pipe import piped
from order_drawing import A, channel, drawing, text_of
from order_keys import (BOT_LINE, BOT_MARKS, CLEAR, DOWN, DRAWING, ENTER, ESCAPE, HELP, HOME, JUDGE, KEYS, MARK, MORE,
                        ORDER, PITCH, RULER, TOP_LINE, TOP_MARKS, UP, VERDICT, columns, fill, leave)
from order_looks import bar_of
from pseudo_terminal import Session, check

L = ([1, 0], [0, 0])
OPPOSITE = ([1, 1, 30], [2, 0, 0])  # nets 2 and 30 are parked, 2 opposite a pin of net 1
TANGLED = ([1, 2, 3, 1, 0, 8], [2, 3, 2, 0, 41, 0])
MAGENTA = (35,)


def typed(s, rows):
    fill(s, *(" ".join(map(str, row)) for row in rows))


def board_of(rows):
    """The board file of the independent program."""
    return channel.board(text_of(rows))


def said(s):
    """The lines between verdict and ruler that speak of parked pins."""
    return [s.grid.line(y) for y in range(VERDICT, RULER) if " parked" in s.grid.line(y)]


def example_l(s):
    typed(s, L)
    s.expect_line("L: summary", VERDICT, "width 2  tracks 0  blank 8  density 0  chain 0  pieces 0")
    s.expect_line("L: its parked pin", MORE, "1 pin parked: net 1")
    s.expect_line("L: the sign over TOP", TOP_MARKS, columns(1, sign="p"))
    s.expect_line("L: none under BOT", BOT_MARKS, "")
    s.expect_lines("L: drawing", DRAWING, ["TOP    p1   .", "", "BOT     .   ."])
    s.expect("L: the summary is green", lambda: s.grid.cells[VERDICT][0][1], (1, 32))
    for y, x in ((MORE, 0), (TOP_MARKS, 8), (TOP_LINE, 8), (DRAWING, 7), (DRAWING, 8)):
        s.expect("L: the colour of parked pins", lambda y=y, x=x: s.grid.cells[y][x][1], MAGENTA)
    s.expect("L: no sign of an error", lambda: s.grid.cells_marked(TOP_LINE) + s.grid.cells_marked(DRAWING), [])


def opposite_a_net(s):
    typed(s, OPPOSITE)
    s.expect_start("opposite: summary", VERDICT, "width 3  tracks 1  blank 8  density 1  chain 1  pieces 5")
    s.expect_line("opposite: parked pins", MORE, "2 pins parked: nets 2, 30")
    s.expect_line("opposite: the sign over TOP is at the last digit", TOP_MARKS, columns(3, sign="p"))
    s.expect_line("opposite: the sign under BOT", BOT_MARKS, columns(1, sign="p"))
    s.expect_lines("opposite: drawing", DRAWING, ["TOP     1   1 p30", "        |   |", "  1     o---o", "",
                                                  "BOT    p2   .   ."])
    s.expect("opposite: both digits in colour", lambda: [s.grid.cells[TOP_LINE][x][1] for x in (15, 16)], [MAGENTA] * 2)
    s.type(UP + HOME)
    for place in ((TOP_LINE, 15), (BOT_LINE, 8), (TOP_LINE, 15)):
        s.type(MARK)
        s.expect("the cursor goes to parked pins", lambda: (s.grid.y, s.grid.x), place)
    s.type(UP + CLEAR + "0 7" + DOWN + CLEAR + "0 0" + MARK)
    s.expect("also if it is typed ahead", lambda: (s.grid.y, s.grid.x), (TOP_LINE, 12))
    s.expect_line("to those of the new list", MORE, "1 pin parked: net 7")


def tangled(s):
    typed(s, TANGLED)
    s.expect_start("tangled", VERDICT, "REFUSED 7 2  the channel is tangled")
    s.expect("tangled: parked pins", lambda: said(s), ["2 pins parked: nets 8, 41"])
    s.expect_line("tangled: signs over TOP", TOP_MARKS, "            v   v           p")
    s.expect_line("tangled: signs under BOT", BOT_MARKS, "            ^   ^       p")
    s.expect("tangled: only the ring is red", lambda: s.grid.cells_marked(TOP_LINE), [12, 16])
    s.type(UP + HOME)
    for place in ((TOP_LINE, 12), (TOP_LINE, 16), (TOP_LINE, 28), (BOT_LINE, 12)):
        s.type(MARK)
        s.expect("the cursor goes to all marks in turn", lambda: (s.grid.y, s.grid.x), place)
    s.resize(14, 40)
    s.expect("tangled, in the smallest window", lambda: said(s), ["2 pins parked: nets 8, 41"])
    s.resize(24, 80)


def nothing_to_say(s):
    """Neither where no pin is parked, nor where the rows are refused before that matters, whatever stood there."""
    for what, rows in (("no parked pin", A), ("uneven", ([1, 2], [3])), ("high net", ([1, 512], [2, 2])),
                       ("garbled", ([1, "02"], [3, 0]))):
        typed(s, OPPOSITE)
        s.expect(f"{what}: parked pins before", lambda: said(s), ["2 pins parked: nets 2, 30"])
        typed(s, rows)
        s.expect(what, lambda: (said(s), "p" in s.grid.line(TOP_MARKS) + s.grid.line(BOT_MARKS)), ([], False))


def many(s):
    """A long list of nets is cut to the window, and tells how many more there are; signs tell that marks go on."""
    typed(s, (list(range(1, 41)), [0] * 40))
    s.expect_line("many: cut", MORE, "40 pins parked: nets 1, 2, 3, 4, 5, 6, 7, 8, 9, 10, 11, 12, 13, 14 and 26 more")
    s.expect("many: signs go on", lambda: s.grid.line(TOP_MARKS).strip()[0], "<")
    s.type(UP + HOME)
    s.expect("many: to the right", lambda: s.grid.line(TOP_MARKS)[-1:], ">")
    s.resize(14, 40)
    s.expect("many: in the smallest window", lambda: said(s), ["40 pins parked: nets 1, 2, 3 and 37 more"])
    s.resize(24, 80)


def judged(s, folder):
    """Copper joined to a parked pin alone is good, joined to another net's a short."""
    width, tracks, pieces = channel.open_board(board_of(OPPOSITE))
    boards = {"alone": channel.encode(width, tracks, pieces + [(1, 3, 1, 2)]),
              "short": channel.encode(width, tracks, pieces + [(1, 1, 0, 1)])}
    typed(s, OPPOSITE)
    for name, board in boards.items():
        (folder / name).write_bytes(board)
        s.type(JUDGE + name + ENTER)
        s.expect_lines(f"{name}: drawing", DRAWING, drawing(OPPOSITE, board, PITCH)[1:])
        if name == "alone":
            s.expect_start("alone: good", VERDICT, "GOOD 1")
            s.expect_line("alone: parked pins", MORE, "2 pins parked: nets 2, 30")
    s.expect_start("short", VERDICT, "REFUSED 11 4  a short")
    s.expect("short: the parked pin is marked", lambda: s.grid.cells_marked(DRAWING + 4), [8])
    s.expect_line("short: the mark of the fault stands first", BOT_MARKS, columns(1, sign="^"))
    s.type(ESCAPE)
    s.expect_line("back to the list", MORE, "2 pins parked: nets 2, 30")


def helping(s):
    s.type(HELP)
    s.expect("F1 tells of parked pins", lambda: any(s.grid.line(y).startswith(" p marks a parked pin: its number")
                                                    for y in range(24)), True)
    s.type("1")


def through_pipes(folder):
    out, err, status = piped(folder, text_of(OPPOSITE) + b"show\n")
    check("piped, opposite a net", out, [
        "         p", "TOP 1 1 30", "BOT 2 0 0", "    p", "DENSITY 1 1 0",
        "width 3  tracks 1  blank 8  density 1  chain 1  pieces 5", bar_of(OPPOSITE), "2 pins parked: nets 2, 30",
        *drawing(OPPOSITE, board_of(OPPOSITE))])
    check("piped, opposite a net: complaints, status", (err, status), ([], 0))
    out, _, status = piped(folder, text_of(L) + b"show\n")
    check("piped L", out[:7], ["    p", "TOP 1 0", "BOT 0 0", "DENSITY 0 0",
                               "width 2  tracks 0  blank 8  density 0  chain 0  pieces 0", bar_of(L),
                               "1 pin parked: net 1"])
    check("piped L: status", status, 0)
    out, _, status = piped(folder, text_of(TANGLED) + b"show\n")
    check("piped, tangled: signs", (out[0], out[3]), ("      v v     p", "      ^ ^    p"))
    check("piped, tangled: parked pins", out[6:8], [bar_of(TANGLED), "2 pins parked: nets 8, 41"])
    check("piped, tangled: status", status, 1)
    out, _, status = piped(folder, text_of(L) + b"save l.board\nreplace l.board\nsave-pins l.pins\njudge l.board\n")
    check("piped: told of a board that is saved", out[:5], ["saved 4 bytes as l.board", "1 pin parked: net 1"] * 2 +
          ["saved 16 bytes as l.pins"])
    check("piped: L is good", [line for line in out if line.startswith("GOOD")],
          ["GOOD 0  the board is good, on 0 tracks"])
    check("piped: L, status", status, 0)
    out, _, _ = piped(folder, text_of((list(range(1, 512)), [0] * 511)) + b"show\n")
    line = next(line for line in out if " parked: " in line)
    named = [int(n) for n in re.findall(r"\d+", line)]
    check("piped: 511 parked pins", (named[0], named[1:-1], named[-1], len(line) <= 100),
          (511, list(range(1, len(named) - 1)), 511 - (len(named) - 2), True))
    check("piped: none is parked", [line for line in piped(folder, text_of(A) + b"show\n")[0] if "parked" in line], [])
    for rows in (b"TOP 1 2\nBOT 3\n", b"TOP 1 512\nBOT 0 2\n", b"TOP 1 02\nBOT 3 0\n"):
        out, _, _ = piped(folder, text_of(OPPOSITE) + rows + b"show\n")
        check("piped: refused rows", [line for line in out if "parked" in line or not line.strip(" p")], [])
    out, _, _ = piped(folder, text_of(OPPOSITE) + b"judge short\n")
    check("piped: a short at a parked pin", (out[-2:], "2 pins parked: nets 2, 30" in out),
          (["BOT   p2  .  .", "       ^"], True))


def run(folder):
    s = Session(ORDER, folder=folder)
    s.expect_start("started", KEYS, " F1 help")
    for part in (example_l, opposite_a_net, tangled, nothing_to_say, many, helping):
        part(s)
    judged(s, folder)
    leave(s, "parked pins")
    s = Session(ORDER, folder=folder, NO_COLOR="1")
    s.expect_start("started without colours", KEYS, " F1 help")
    typed(s, L)
    s.expect_line("NO_COLOR: the sign is there", TOP_MARKS, columns(1, sign="p"))
    leave(s, "parked pins without colours")
    through_pipes(folder)
