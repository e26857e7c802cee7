"""The list turned over: its rows exchanged, each with its pads and its line end, and what is told of it."""
import random

from cases_looks import C, typed
from cases_pipe import piped
from order_density import piped_line
from order_drawing import A, B, channel, damaged, drawing, text_of, written
from order_keys import (BOT_LINE, BOT_MARKS, CLEAR, DOWN, DRAWING, END, ENTER, ESCAPE, HELP, HOME, JUDGE, KEYS, LEFT,
                        LOAD, MESSAGE, ORDER, PITCH, REDO, RIGHT, SAVE_PINS, TITLE, TOP_LINE, TOP_MARKS, TURN, UNDO, UP,
                        VERDICT, columns, expect_cursor, expect_message, expect_rows, in_sight, leave)
from order_lists import BOT_ONLY, CR_LF, ENDS, TOP_ONLY, expect_saved, load, padded
from order_looks import bar_of, beside, looks_of
from pseudo_terminal import Session, check

CONTROL_T = "\x14"
UNLIKE = ([1, 2, 1, 3, 3], [0, 0, 0, 0, 2])  # the smallest list with other tracks turned over: 3, and 2
NOTHING = "there is nothing to turn over"
MIXED = {b"TOP  12   3\r\nBOT 12 3\n": (TOP_ONLY, BOT_ONLY), b"TOP 1 1\nBOT   0   0\r\n": (BOT_ONLY, TOP_ONLY),
         padded(UNLIKE): (CR_LF, CR_LF), padded(UNLIKE, 6, b"\n"): ("", ""),
         b"TOP 1\t1\r\r\nBOT x 0\n": (TOP_ONLY, BOT_ONLY), b"TOP \nBOT  7 \r\n": (BOT_ONLY, TOP_ONLY)}


def turned_text(text):
    """The text of a list with what stands after the labels exchanged, carriage returns too."""
    top, bot, _ = text.split(b"\n")
    return b"TOP " + bot[4:] + b"\nBOT " + top[4:] + b"\n"


def tracks_of(rows):
    """The tracks of a list; None where it is tangled."""
    try:
        return channel.fill(*rows)[0]
    except channel.Refused:
        return None


def told_of(rows):
    """What is due to be told when a list is turned over."""
    before, tracks = tracks_of(rows), tracks_of(rows[::-1])
    if tracks is None:
        return "turned over"
    return f"turned over: {tracks} track{'s' * (tracks != 1)}, {'as' if tracks == before else before} before"


def expect_board(s, what, rows, summary):
    expect_rows(s, f"{what}: rows", *rows)
    s.expect_line(f"{what}: summary", VERDICT, summary)
    s.expect_lines(f"{what}: drawing", DRAWING, in_sight(drawing(rows, written(rows), PITCH)[1:]))


def both_keys(s):
    """F8 and Ctrl-T, typed ahead too: the board of the turned list, and the tracks of both."""
    for key in (TURN, CONTROL_T):
        typed(s, UNLIKE)
        expect_board(s, "typed", UNLIKE, "width 5  tracks 3  blank 8  density 2  chain 2  pieces 15")
        bells = s.grid.bells
        s.type(key)
        expect_board(s, "turned", UNLIKE[::-1], "width 5  tracks 2  blank 8  density 2  chain 2  pieces 15")
        s.expect_line("turned: told", MESSAGE,
                      beside("turned over: 2 tracks, 3 before", *looks_of(UNLIKE[::-1]), 80))
        check("turned: no bad message", (s.grid.bells, s.grid.cells[MESSAGE][0][1]), (bells, ()))
        s.type(key)
        expect_board(s, "turned back", UNLIKE, "width 5  tracks 3  blank 8  density 2  chain 2  pieces 15")
        expect_message(s, "turned back: told", "turned over: 3 tracks, 2 before")
        s.type(LEFT)
        expect_message(s, "the message goes", "")
        typed(s, A)  # which has 2 tracks
        s.type(UP + CLEAR + "1 2 1 3 3" + DOWN + CLEAR + "0 0 0 0 2" + key)
        expect_message(s, "typed ahead: told", "turned over: 2 tracks, 3 before")
        expect_rows(s, "typed ahead: rows", *UNLIKE[::-1])


def as_before(s):
    """Lists as good both ways up, also one whose rows are the same."""
    for rows, due in ((A, "2 tracks"), (([1, 1], [0, 0]), "1 track"), (([1, 7, 0], [1, 0, 0]), "0 tracks"),
                      (([1, 1], [1, 1]), "1 track")):
        typed(s, rows)
        expect_rows(s, "as before: typed", *rows)
        for turned in (rows[::-1], rows):
            s.type(TURN)
            expect_message(s, f"{rows}: told", f"turned over: {due}, as before")
            expect_rows(s, f"{rows}: turned", *turned)
            s.expect_start(f"{rows}: its board", VERDICT, f"width {len(rows[0])}  tracks {due[0]} ")
            s.type(LEFT)
            expect_message(s, "the message goes", "")


def tangled(s):
    """A tangled list stays so; its ring is that of the turned list."""
    typed(s, C)
    s.type(TURN)
    expect_message(s, "C: told", "turned over")
    expect_rows(s, "C: turned", *C[::-1])
    s.expect_start("C: still tangled", VERDICT, "REFUSED 7 2  the channel is tangled")
    s.expect_lines("C: its ring", DRAWING, ["  net 1 above net 2 in column 2", "  net 2 above net 1 in column 1"])
    s.type(TURN)
    s.expect_lines("C: and back", DRAWING, ["  net 1 above net 2 in column 1", "  net 2 above net 1 in column 2"])
    typed(s, ([1, 2, 3], [2, 1, 0]))
    s.expect("a parked pin over TOP", lambda: s.grid.line(TOP_MARKS)[-1:], "p")
    s.type(TURN)
    s.expect_line("its sign goes with it", BOT_MARKS, "        ^   ^   p")


def refused(s, folder):
    """Any list is turned; marks and places are those of the turned one."""
    for rows, first, then, marks in (
            (([1, 1, 1], [0, 0]), "4 3  uneven", "4 3  uneven", (" " * 13 + "v", columns(3, sign="^"))),
            (([1, 512], [0, 0]), "5 2  high net", "5 4  high net", ("", " " * 10 + "^^^")),
            ((["01"], [1]), "2 5  garbled", "2 11  garbled", ("", columns(1, sign="^"))),
            (([1, 1], []), "2 12  garbled", "2 4  garbled", (" " * 9 + "v", ""))):
        typed(s, rows)
        s.expect_start(f"{rows}: refused", VERDICT, f"REFUSED {first}")
        s.type(TURN)
        expect_message(s, f"{rows}: told", "turned over")
        s.expect_start(f"{rows}: refused, turned", VERDICT, f"REFUSED {then}")
        s.expect(f"{rows}: marks", lambda: (s.grid.line(TOP_MARKS), s.grid.line(BOT_MARKS)), marks)
    load(s, folder, b"TOP 1\tx\nBOT 0 0\r\n", BOT_ONLY, unsaved=True)
    s.type(TURN)
    s.expect_lines("a garbled row", TOP_LINE, ["TOP     0   0", "BOT   1?x"])
    s.expect_start("a garbled row: where", VERDICT, "REFUSED 2 14  garbled")
    expect_saved(s, folder, "a garbled row", b"TOP 0 0\r\nBOT 1\tx\n", TOP_ONLY)


def undoing(s, folder):
    """A turn is one step, apart from what is typed before and after it."""
    load(s, folder, text_of(UNLIKE))
    s.type(END + "1" + TURN)
    expect_rows(s, "turned after a digit", UNLIKE[1], UNLIKE[0][:4] + [31])
    s.type("1")
    expect_rows(s, "and a digit after it", UNLIKE[1], UNLIKE[0][:4] + [311])
    for rows in ((UNLIKE[1], UNLIKE[0][:4] + [31]), (UNLIKE[0][:4] + [31], UNLIKE[1]), UNLIKE):
        s.type(UNDO)
        expect_rows(s, "a step undone", *rows)
    s.expect_start("undone: its board", VERDICT, "width 5  tracks 3")
    s.type(REDO * 2)
    expect_rows(s, "done again", UNLIKE[1], UNLIKE[0][:4] + [31])
    expect_message(s, "done again: no message", "")
    s.type(UNDO * 2 + TURN + UNDO)
    expect_rows(s, "turned and undone at once", *UNLIKE)
    expect_cursor(s, "the cursor is at the change", TOP_LINE, 25)
    s.type(REDO)
    expect_board(s, "turned again", UNLIKE[::-1], "width 5  tracks 2  blank 8  density 2  chain 2  pieces 15")
    load(s, folder, b"TOP 1\r\nBOT 1\n", TOP_ONLY, unsaved=True)
    s.type(TURN)
    s.expect("line ends alone are turned", lambda: "not saved" in s.grid.line(TITLE), True)
    s.type(UNDO)
    expect_saved(s, folder, "and undone", b"TOP 1\r\nBOT 1\n", TOP_ONLY)


def saving(s, folder):
    """Pads and line ends stay with their text; turned twice, the list has the same bytes, and counts as saved."""
    for text, ends in MIXED.items():
        load(s, folder, text, ends[0])
        for due in (True, False):
            s.type(TURN)
            s.expect(f"{text}: not saved", lambda: "list not saved" in s.grid.line(TITLE), due)
        expect_saved(s, folder, f"{text}: turned twice", text, ends[0])
        s.type(TURN)
        expect_saved(s, folder, f"{text}: turned", turned_text(text), ends[1])


def cursor(s, folder):
    """The cursor goes with its row, and stands on the same number."""
    load(s, folder, b"TOP  12   3\nBOT 4 511 6\n")
    for keys, y, x in ((HOME, TOP_LINE, 6), (END, BOT_LINE, 13), (LEFT * 3, TOP_LINE, 10), (UP, TOP_LINE, 10),
                       (END, BOT_LINE, 17), (LEFT * 2, TOP_LINE, 13), (UP + HOME + RIGHT * 2, TOP_LINE, 8)):
        s.type(keys)
        expect_cursor(s, f"{keys!r}: before", y, x)
        s.type(TURN)
        expect_cursor(s, f"{keys!r}: turned", TOP_LINE + BOT_LINE - y, x)
    typed(s, ([k % 9 + 1 for k in range(60)], [0] * 59))
    s.type(UP + END)
    s.expect_start("a wide row, scrolled", TOP_LINE, "TOP <")
    expect_cursor(s, "at the end of a wide row", TOP_LINE, 73)
    s.type(TURN)
    expect_cursor(s, "at the end of the same row", BOT_LINE, 73)
    s.type("7")
    s.expect("what is typed goes on there", lambda: s.grid.line(BOT_LINE)[-2:], "67")


def judged(s, folder):
    """A judged board gives way to that of the turned list; the tracks told are those of the list."""
    boards = damaged()
    tracks, _, pieces = channel.draw(*A)
    taller = [(kind, line, a, b + (kind == 1 and b > tracks)) for kind, line, a, b in pieces]
    boards["good"] = channel.encode(4, tracks + 1, taller)  # a track more than the list's own board has
    for name in ("good", "h"):
        (folder / name).write_bytes(boards[name])
        load(s, folder, text_of(A), unsaved=name == "good")
        s.type(JUDGE + name + ENTER)
        s.expect_start(f"{name}: judged", VERDICT, "GOOD 3" if name == "good" else "REFUSED 12 6")
        s.type(TURN)
        expect_board(s, f"{name}: turned", A[::-1], "width 4  tracks 2  blank 8  density 2  chain 2  pieces 11")
        expect_message(s, f"{name}: told", "turned over: 2 tracks, as before")
        s.expect(f"{name}: no mark is left", lambda: s.grid.line(TOP_MARKS) + s.grid.line(BOT_MARKS), "")
        s.type(JUDGE + name + ENTER)
        s.expect_start(f"{name}: against the turned list", VERDICT, "REFUSED 1")
        s.type(UNDO)
        expect_board(s, f"{name}: turned back", A, "width 4  tracks 2  blank 8  density 2  chain 2  pieces 11")


def elsewhere(s, folder):
    """In a question, over the help and in too small a window the key turns nothing; in the smallest it does."""
    load(s, folder, text_of(B))
    for keys in (LOAD + TURN + ESCAPE, SAVE_PINS + CONTROL_T + ESCAPE, HELP + TURN, HELP + CONTROL_T):
        s.type(keys)
        s.quiet()
        expect_rows(s, f"{keys!r}: nothing is turned", *B)
    s.resize(5, 20)
    s.expect_start("too small", 0, "Too small a window:")
    s.type(TURN)
    s.resize(14, 40)
    expect_rows(s, "in too small a window: nothing is turned", *B)
    s.type(TURN)
    expect_rows(s, "in the smallest window", *B[::-1])
    s.expect_line("in the smallest window: told", 12, beside(told_of(B), *looks_of(B[::-1]), 40))
    s.resize(24, 100)
    s.expect("the keys of a wide window", lambda: s.grid.line(KEYS).endswith("  F6 redo  F8 turn over"), True)
    s.resize(24, 80)
    s.type(HELP)
    s.expect("F1 tells of turning", lambda: " F8 or ^T        turn the list over: exchange TOP and BOT"
             in map(s.grid.line, range(24)), True)
    s.type("1")


def empty(s):
    """Two empty rows are not turned, and nothing is there to undo; one row alone goes to the other place."""
    for key in (TURN, CONTROL_T):
        bells = s.grid.bells
        s.type(key)
        s.expect_line("empty: told", MESSAGE, NOTHING)
        s.expect("empty: a bell", lambda: s.grid.bells, bells + 1)
        s.expect_start("empty: still greeted", VERDICT, "Type the TOP row's net numbers")
        expect_cursor(s, "empty: the cursor stays", TOP_LINE, 9)
        s.type(UNDO)
        s.expect_line("empty: no step", MESSAGE, "there is nothing to undo")
    s.type("7" + TURN)
    expect_message(s, "one row: told", "turned over")
    s.expect_lines("one row", TOP_LINE, ["TOP", "BOT     7"])
    s.type(UNDO * 2)
    s.expect_lines("one row: two steps", TOP_LINE, ["TOP", "BOT"])
    s.type(UNDO)
    s.expect_line("one row: and no more", MESSAGE, "there is nothing to undo")
    s.type(REDO * 2)
    s.expect_lines("one row: done again", TOP_LINE, ["TOP", "BOT     7"])


def through_pipes(folder):
    """The message is the answer, as for `load`; the list is shown and judged where that is asked for."""
    out, err, status = piped(folder, text_of(UNLIKE) + b"turn\nshow\nturn\r\n")
    check("piped", out, ["turned over: 2 tracks, 3 before", *text_of(UNLIKE[::-1]).decode().splitlines(),
                         piped_line(UNLIKE), "width 5  tracks 2  blank 8  density 2  chain 2  pieces 15",
                         bar_of(UNLIKE[::-1]), *drawing(UNLIKE[::-1], channel.board(text_of(UNLIKE[::-1]))),
                         "turned over: 3 tracks, 2 before"])
    check("piped: complaints, status", (err, status), ([], 0))
    check("piped A", piped(folder, text_of(A) + b"turn\n"), (["turned over: 2 tracks, as before"], [], 0))
    for rows in (b"TOP 1 2\nBOT 2 1\n", b"TOP 1 1\nBOT 0\n", b"TOP 1x\nBOT 0\n", b"TOP 512\nBOT 0\n", b"BOT 7\n"):
        check(f"piped {rows}", piped(folder, rows + b"turn\n"), (["turned over"], [], 0))
    out, _, status = piped(folder, b"TOP 1 2\nBOT 2 1\nturn\nshow\n")
    check("piped C: shown", (out[:4], out[5], out[6][:11], status),
          (["turned over", "    v v", "TOP 2 1", "BOT 1 2"], "DENSITY 2 2", "REFUSED 7 2", 1))
    check("piped: nothing to turn", piped(folder, b"turn\n"), ([], [f"order: line 1: {NOTHING}"], 1))
    for line in ("turn over", "Turn", "turned"):
        check(f"piped: {line}", piped(folder, text_of(A) + line.encode() + b"\n"),
              ([], [f"order: line 3: this is no command (try help): {line}"], 1))
    check("piped: help", [line.split()[0] for line in piped(folder, b"help\n")[0]][:4], ["TOP", "BOT", "turn", "show"])
    (folder / "good").write_bytes(damaged()["good"])
    out, _, status = piped(folder, text_of(A) + b"judge good\nturn\njudge good\n")
    first = [line.split()[0] for line in out]
    check("piped: judged", [word for word in first if word in ("GOOD", "turned", "REFUSED")],
          ["GOOD", "turned", "REFUSED"])
    check("piped: judged, status", status, 1)
    for n, (text, ends) in enumerate(MIXED.items()):
        (folder / "text").write_bytes(text)
        out, _, _ = piped(folder, b"load text\nturn\nsave-pins once%d\nturn\nsave-pins twice%d\n" % (n, n))
        check(f"piped {text}: saved", [(folder / f"{word}{n}").read_bytes() for word in ("once", "twice")],
              [turned_text(text), text])
        check(f"piped {text}: told", out[2], f"saved {len(text)} bytes as once{n}{ends[1]}")


def random_rows(chance):
    """The rows of a list, and their text with any pads and line ends."""
    width = chance.randint(1, 40)
    nets = [0] * chance.randint(0, width // 2) + list(range(1, chance.randint(2, width + 3)))
    rows = tuple([chance.choice(nets) for _ in range(width)] for _ in range(2))
    top, bot = (b"".join(b" " * chance.choice((1, 1, 2, 5)) + b"%d" % net for net in row) for row in rows)
    return rows, b"TOP" + top + chance.choice(ENDS) + b"BOT" + bot + chance.choice(ENDS)


def bounds_shown(line):
    """Density and chain of a summary, or REFUSED 7."""
    words = line.split()
    return words[:2] if words[0] == "REFUSED" else words[6:10]


def random_lists(folder):
    """The tracks told are those of the independent program, both ways up; density, chain and tangled stay."""
    chance = random.Random(5)
    commands, lists = b"", [random_rows(chance) for _ in range(400)]
    for n, (_, text) in enumerate(lists):
        (folder / f"list{n}").write_bytes(text)
        commands += b"load list%d\nshow\nturn\nsave-pins turned%d\nshow\n" % (n, n)
    out = piped(folder, commands)[0]
    told = [line for line in out if line.startswith("turned over")]
    shown = [bounds_shown(line) for line in out if line.startswith(("width ", "REFUSED "))]
    check("random lists: answers", (len(told), len(shown)), (len(lists), 2 * len(lists)))
    for n, (rows, text) in enumerate(lists):
        check(f"{rows}: told", told[n], told_of(rows))
        check(f"{rows}: turned", (folder / f"turned{n}").read_bytes(), turned_text(text))
        check(f"{rows}: density and chain, or tangled", shown[2 * n], shown[2 * n + 1])
    alike, refused_lists = (sum(line.endswith(end) for line in told) for end in ("as before", "over"))
    check("random lists: many of each kind",
          (alike > 100, refused_lists > 50, len(lists) - alike - refused_lists > 20), (True, True, True))


def run(folder):
    s = Session(ORDER, folder=folder)
    s.expect_start("started", KEYS, " F1 help")
    empty(s)
    for part in (both_keys, as_before, tangled):
        part(s)
    for part in (refused, undoing, saving, cursor, judged, elsewhere):
        part(s, folder)
    leave(s, "turned over")
    for part in (through_pipes, random_lists):
        part(folder)
