"""The ring with the fewest nets beside the walk's ring: its marks, its words, and answers that no tangled list has."""
import os
import random
import subprocess
import textwrap

from cases_build import BUILD, build
from cases_pipe import piped, table_of_refusals
from order_density import piped_line
from order_drawing import A, channel, text_of
from order_keys import (BOT_LINE, BOT_MARKS, DRAWING, ENTER, ESCAPE, GUTTER, HELP, HOME, JUDGE, KEYS, MARK, ORDER,
                        PAGE_DOWN, PITCH, SCROLL_DOWN, SCROLL_LEFT, SCROLL_UP, TOP_LINE, TOP_MARKS, TURN, UP, VERDICT,
                        columns, fill, leave)
from order_rings import FEWEST, lines_below, marks_line, marks_piped, pair_words, rings_of, told
from pseudo_terminal import PATIENCE, Session, check

C, D = ([1, 2], [2, 1]), ([1, 2, 3, 1], [2, 3, 2, 0])
LONGER = ([1, 2, 3, 4, 2], [2, 3, 4, 1, 1])
OTHERS = {  # lists whose fewest ring is another than the walk's
    "longer": LONGER,
    "apart": ([2, 5, 3, 1, 4], [4, 3, 1, 5, 2]),
    "as many nets": ([5, 5, 1, 3], [3, 1, 5, 5]),
    "three digits": ([101, 20, 3, 511, 20, 7], [20, 3, 511, 101, 101, 7]),
}
SAME = {"C": C, "D": D, "begun at another net": ([1, 1, 5, 3], [5, 0, 3, 5])}
LONG = (list(range(1, 41)) + [2], list(range(2, 41)) + [1, 1])  # the walk goes through 40 nets
HALVES = (list(range(1, 512)), list(range(2, 257)) + [1] + list(range(258, 512)) + [257])  # rings of 256 and 255 nets
SMALLEST = 14, 40
RED, YELLOW = (1, 31), (1, 33)  # bold
RED_MARK, YELLOW_MARK = (1, 7, 31), (1, 7, 33)
HELP_LINE = "v ^ mark what is refused, f the ring with the fewest nets, F both rings."
WRONG_LIBRARY = """
#include <stdlib.h>
#include "channel.h"

uint64_t __wrap_cabjirt_fewest_ring(const uint32_t *top, size_t top_length, const uint32_t *bot, size_t bot_length,
                                    uint32_t *ring, size_t ring_length);

/* Answers the numbers of a variable: the halves of the answer, then what stands at the front of the ring. */
uint64_t __wrap_cabjirt_fewest_ring(const uint32_t *top, size_t top_length, const uint32_t *bot, size_t bot_length,
                                    uint32_t *ring, size_t ring_length)
{
    char *at = getenv("ANSWER");
    uint64_t number = strtoull(at, &at, 10), value = strtoull(at, &at, 10);
    (void)top, (void)top_length, (void)bot, (void)bot_length;
    for (size_t i = 0; *at != '\\0' && i < ring_length; i++)
        ring[i] = (uint32_t)strtoul(at, &at, 10);
    return number << 32 | value;
}
"""
NO_RINGS = {  # answers that LONGER cannot have
    "none": "0 0", "one net": "0 1 1 1", "nothing in the ring": "0 2", "too many": "0 512",
    "far too many": "0 4294967295", "more than the walk's": "0 5 1 1 2 2 3 3 4 4 5 5", "no ring": "0 2 1 1 2 2",
    "cut": "0 1 1 1 2 5", "begun at another net": "0 2 2 5 1 1", "a net twice": "0 4 1 1 2 5 1 1 2 5",
    "no column": "0 2 1 0 2 5", "a column too many": "0 2 1 1 2 6", "no net": "0 2 0 1 2 5",
    "a high net": "0 2 1 1 600 5", "refused": "1 1022",
    "refused rows": "3 513", "tangled": "7 2 1 1 2 5", "a refusal of no table": "99 4294967295",
}


def typed(s, rows):
    fill(s, *(" ".join(map(str, row)) for row in rows))


def remedy():
    return f"What to do: {table_of_refusals()[7][2]}."


def numbers():
    """The rings that the tests speak of are the request's."""
    check("C", rings_of(C), ([(1, 1), (2, 2)], [(1, 1), (2, 2)]))
    check("D", rings_of(D), ([(2, 2), (3, 3)], [(2, 2), (3, 3)]))
    check("longer", rings_of(LONGER), ([(1, 1), (2, 2), (3, 3), (4, 4)], [(1, 1), (2, 5)]))
    for name, rows in OTHERS.items():
        check(f"{name}: another", len(told(rows)) > 1, True)
    walk, fewest = rings_of(SAME["begun at another net"])
    check("the same, begun at another net", (walk != fewest, set(walk) == set(fewest)), (True, True))
    check("40 and 2 nets", tuple(map(len, rings_of(LONG))), (40, 2))
    check("256 and 255 nets", tuple(map(len, rings_of(HALVES))), (256, 255))


def expect_rings(s, what, rows, across=80):
    """Marks and words of a list that is shown, and after them what to do."""
    due = lines_below(rows, across)
    s.expect_start(f"{what}: refused", VERDICT, f"REFUSED 7 {len(rings_of(rows)[0])}  the channel is tangled")
    s.expect_line(f"{what}: marks over TOP", TOP_MARKS, marks_line(rows, 0, "v"))
    s.expect_line(f"{what}: marks under BOT", BOT_MARKS, marks_line(rows, 1, "^"))
    s.expect_lines(f"{what}: rings", DRAWING, due + [""])
    s.expect_start(f"{what}: what to do", DRAWING + len(due) + 1, f"  {remedy()[:70]}")


def both_rings(s):
    for name, rows in {**OTHERS, **SAME}.items():
        typed(s, rows)
        expect_rings(s, name, rows)
    typed(s, LONGER)
    expect_rings(s, "longer again", LONGER)
    check("longer: over TOP", s.grid.line(TOP_MARKS), "        F   v   v   v   f")
    check("longer: under BOT", s.grid.line(BOT_MARKS), "        F   ^   ^   ^   f")
    check("longer: beside each other", s.grid.line(DRAWING),
          "  net 1 above net 2 in column 1         the fewest wires to move: 2 nets")


def colours(s):
    """A number of both rings is marked as the walk's is, under a sign of the fewest ring's colour."""
    typed(s, LONGER)
    expect_rings(s, "colours", LONGER)
    due = {(TOP_MARKS, 8): YELLOW, (TOP_LINE, 8): RED_MARK, (TOP_MARKS, 12): RED, (TOP_LINE, 12): RED_MARK,
           (TOP_MARKS, 24): YELLOW, (TOP_LINE, 24): YELLOW_MARK, (BOT_LINE, 24): YELLOW_MARK, (BOT_MARKS, 24): YELLOW,
           (DRAWING, 2): (), (DRAWING, 40): YELLOW, (DRAWING + 1, 40): ()}
    for (y, x), style in due.items():
        s.expect(f"the style of cell {y}, {x}", lambda y=y, x=x: s.grid.cells[y][x][1], style)


def next_mark(s):
    """Ctrl-N goes to the marks of both rings."""
    rows = OTHERS["apart"]
    typed(s, rows)
    expect_rings(s, "next mark", rows)
    s.type(UP + HOME)
    for place in ((TOP_LINE, 12), (TOP_LINE, 16), (TOP_LINE, 20), (TOP_LINE, 24), (BOT_LINE, 8), (BOT_LINE, 12)):
        s.type(MARK)
        s.expect("the cursor goes to all marks in turn", lambda: (s.grid.y, s.grid.x), place)


def windows(s):
    """A narrow window has the fewest ring after the walk's; a long walk scrolls."""
    typed(s, LONGER)
    for rows, across in ((24, 75), (24, 76), (30, 132), (24, 41), (24, 80)):
        s.resize(rows, across)
        s.expect_lines(f"{across} cells: rings", DRAWING, lines_below(LONGER, across) + [""])
    s.resize(*SMALLEST)
    due = lines_below(LONGER, 40)
    s.expect_lines("the smallest window", DRAWING, due[:2])
    s.type(SCROLL_DOWN * 4)
    s.expect_lines("scrolled to the fewest ring", DRAWING, due[4:6])
    check("its heading", due[4], f"  {FEWEST}: 2 nets")
    s.type(PAGE_DOWN * 20)
    s.expect_line("scrolled to the end of what to do", 11, "  other there.")
    s.resize(24, 80)
    typed(s, LONG)
    s.type(SCROLL_UP * 20)
    s.expect_lines("40 nets and 2", DRAWING, lines_below(LONG)[:12])
    s.expect_line("40 nets and 2: the last marks", TOP_MARKS, "    <" + marks_line(LONG, 0, "v")[GUTTER + 24 * PITCH:])
    s.type(SCROLL_LEFT * 10)
    s.expect_start("40 nets and 2: the marks", TOP_MARKS, "        F   v   v")
    s.expect("40 nets and 2: they go on to the right", lambda: s.grid.line(TOP_MARKS)[-1:], ">")
    s.type(SCROLL_DOWN * 31)
    s.expect_lines("40 nets and 2: the end of the walk's", DRAWING,
                   lines_below(LONG)[31:] + ["", *(f"  {line}" for line in textwrap.wrap(remedy(), 78))])


def unmarked(s, folder):
    """A judged board's verdict speaks of no ring; nor do other lists."""
    (folder / "torn").write_bytes(b"")
    typed(s, LONGER)
    s.type(JUDGE + "torn" + ENTER)
    s.expect_start("judged", VERDICT, "REFUSED 8 ")
    s.expect("judged: no marks", lambda: s.grid.line(TOP_MARKS) + s.grid.line(BOT_MARKS), "")
    s.expect("judged: no words", lambda: any(FEWEST in s.grid.line(y) for y in range(24)), False)
    s.type(ESCAPE)
    expect_rings(s, "back at the list", LONGER)
    typed(s, A)
    s.expect_start("no ring", VERDICT, "width 4  tracks 2")
    s.expect("no ring: no words", lambda: any(FEWEST in s.grid.line(y) for y in range(24)), False)
    typed(s, ([1, 2, 3, 4, 2], [2, 3, 4, 1]))
    s.expect_start("uneven", VERDICT, "REFUSED 4 5")
    s.expect_line("uneven: its own mark alone", TOP_MARKS, columns(5, sign="v"))


def turned(s):
    """The rings are those of the list as it stands, either way up."""
    for rows in OTHERS.values():
        typed(s, rows)
        expect_rings(s, "before", rows)
        s.type(TURN)
        expect_rings(s, "turned", rows[::-1])


def helping(s):
    s.type(HELP)
    s.expect("F1 tells of the signs", lambda: f" {HELP_LINE}" in map(s.grid.line, range(24)), True)
    s.type("1")


def shown(rows):
    """What `show` prints of a tangled list without parked pins, but for the bar."""
    walk, _ = rings_of(rows)
    meaning = table_of_refusals()[7][1].replace("%p", str(len(walk)))
    return [marks_piped(rows, 0, "v"), *text_of(rows).decode().splitlines(), marks_piped(rows, 1, "^"),
            piped_line(rows), f"REFUSED 7 {len(walk)}  {meaning}", remedy(), *pair_words(walk), *told(rows)]


def without_bar(lines):
    return [line for line in lines if not line.startswith("looks ")]


def through_pipes(folder):
    for name, rows in {**OTHERS, **SAME, "40 nets and 2": LONG, "256 and 255 nets": HALVES}.items():
        out, err, status = piped(folder, text_of(rows) + b"show\n")
        check(f"piped {name}", ([line.rstrip() for line in without_bar(out)], err, status),
              ([line.rstrip() for line in shown(rows)], [], 1))
    out, _, _ = piped(folder, text_of(LONGER) + b"show\n")
    check("piped, longer: signs", (out[0], out[3]), ("    F v v v f", "    F ^ ^ ^ f"))
    check("piped, longer: the fewest after the walk's", out[-4:], [
        "net 4 above net 1 in column 4", f"{FEWEST}: 2 nets", "net 1 above net 2 in column 1",
        "net 2 above net 1 in column 5"])
    out, _, _ = piped(folder, text_of((list(range(1, 512)), list(range(2, 512)) + [1])) + b"show\n")
    check("piped, a ring of 511 nets", out[-1], f"{FEWEST}: 511 nets, the same ring")
    for rows in (text_of(A), b"TOP 1 2\nBOT 2\n", b"TOP 512\nBOT 0\n"):
        out, _, _ = piped(folder, rows + b"show\n")
        check("piped: no ring, no word", [line for line in out if FEWEST in line], [])
    (folder / "torn").write_bytes(b"")
    out, _, _ = piped(folder, text_of(LONGER) + b"judge torn\n")
    check("piped: judged, no word", [line for line in out if FEWEST in line or not line.strip(" v^fF")], [])
    helped = piped(folder, b"help\n")[0]
    check("piped: help", any("f the numbers of the ring with the fewest nets, F those of both" in line
                             for line in helped), True)


def random_lists(folder):
    """Tangled lists of up to fourteen columns, one after the other: the marks and rings of each are its own."""
    chance, lists = random.Random(5), []
    while len(lists) < 300:
        width, nets = chance.randint(4, 14), chance.randint(3, 12)
        rows = tuple([chance.choice((0, *range(1, nets + 1))) for _ in range(width)] for _ in range(2))
        if channel.fewest_ring(*rows):
            lists.append(rows)
    out, _, _ = piped(folder, b"".join(text_of(rows) + b"show\n" for rows in lists))
    out = [line.replace("p", " ").rstrip() if not line.strip(" v^fFp") else line for line in without_bar(out)]
    out = [line for line in out if line and " parked: " not in line]
    check("random lists", out, [line.rstrip() for rows in lists for line in shown(rows)])
    same = sum(len(told(rows)) == 1 for rows in lists)
    check("random lists: many have another ring, many do not", 30 < same < 270, True)


def wrong_answers(folder):
    """What is no answer of a tangled list is told as a failure of the library, beside the walk's ring, and marks
    nothing."""
    (folder / "wrong.c").write_text(WRONG_LIBRARY)
    wrong, flags = folder / "order_wrong", f"-I{BUILD.parent} -Wl,--wrap=cabjirt_fewest_ring {folder / 'wrong.c'}"
    check("an order screen with another entry", build(wrong, CFLAGS=f"{os.environ.get('CFLAGS', '')} {flags}"), (0, ""))

    def answered(answer):
        done = subprocess.run([str(wrong)], input=text_of(LONGER) + b"show\n", stdout=subprocess.PIPE, cwd=folder,
                              env={**os.environ, "ANSWER": answer}, timeout=4 * PATIENCE, check=False)
        return without_bar(done.stdout.decode().splitlines()), done.returncode

    due = shown(LONGER)
    check("the right answer", answered("0 2 1 1 2 5"), (due, 1))
    alone = ["    v v v v", *due[1:3], "    ^ ^ ^ ^", *due[4:-3]]
    for name, answer in NO_RINGS.items():
        check(name, answered(answer), (alone + [failure(answer)], 1))
    s = Session(wrong, folder=folder, ANSWER="0 0")
    s.expect_start("started with no answer", KEYS, " F1 help")
    typed(s, LONGER)
    s.expect_line("no answer: the walk's marks", TOP_MARKS, "        v   v   v   v")
    s.expect_line("no answer: the last pair of the walk's", DRAWING + 3, "  net 4 above net 1 in column 4")
    s.expect("no answer: told", lambda: " ".join(s.grid.line(DRAWING + y).strip() for y in (4, 5)), failure("0 0"))
    s.expect("no answer: in red", lambda: s.grid.cells[DRAWING + 4][2][1], RED)
    s.expect_start("no answer: what to do", DRAWING + 7, "  What to do: ")
    leave(s, "no answer")


def failure(answer):
    number, value = answer.split()[:2]
    return f"{FEWEST} are not known: the library answered number {number}, value {value}, which is no ring of this list"


def run(folder):
    numbers()
    s = Session(ORDER, folder=folder)
    s.expect_start("started", KEYS, " F1 help")
    for part in (both_rings, colours, next_mark, windows, turned, helping):
        part(s)
    unmarked(s, folder)
    leave(s, "rings")
    s = Session(ORDER, folder=folder, NO_COLOR="1")
    s.expect_start("started without colours", KEYS, " F1 help")
    typed(s, LONGER)
    expect_rings(s, "NO_COLOR: the signs are there", LONGER)
    leave(s, "rings without colours")
    for part in (through_pipes, random_lists, wrong_answers):
        part(folder)
