"""How the draft under the bars of density is kept: just the nets that an edit moves leave and arrive, and an answer
that is none of a draft is told."""
import os
import random
import subprocess

from cases_build import BUILD, build
from order_density import density_line, failed, spans_of, text_rows
from order_drawing import B, drawing, text_of, written
from order_keys import (CLEAR, DELETE, DENSITY, DOWN, DRAWING, END, ENTER, ERASE, ESCAPE, HOME, KEYS, LEFT, LOAD, PITCH,
                        REDO, TOP_LINE, TURN, UNDO, UP, VERDICT, fill, in_sight, leave, paste)
from pseudo_terminal import PATIENCE, Session, check

ENTRIES = ("clear", "arrive", "leave", "count", "greatest")
RED = (1, 31)
MOST = 2**32 - 1
# the call that is answered wrong, and the halves of the answer that are told; B has a density of 4
WRONG = {
    "clear 1 1 4096": (1, 4096), "clear 1 0 1": (0, 1), "arrive 1 22 1": (22, 1), "arrive 3 21 3": (21, 3),
    "arrive 6 0 6": (0, 6), "arrive 2 99 4294967295": (99, MOST), "leave 1 23 1": (23, 1), "leave 2 0 9": (0, 9),
    "count 2561 1 4096": (1, 4096), "count 2600 0 512": (0, 512), "count 2600 0 5": (0, 5),
    "greatest 5 1 4096": (1, 4096), "greatest 5 0 512": (0, 512), "greatest 5 0 5": (0, 5), "greatest 5 0 0": (0, 1),
    "greatest 5 0 3": (0, 4),
}


def built(folder):
    """An order screen with test_draft_calls.c before the entries of a draft."""
    order = folder / "order_noted"
    wraps = " ".join(f"-Wl,--wrap=cabjirt_draft_{name}" for name in ENTRIES)
    flags = f"{os.environ.get('CFLAGS', '')} {wraps} {BUILD.parent / 'test_draft_calls.c'}"
    check("an order screen whose calls are noted", build(order, CFLAGS=flags), (0, ""))
    return order


def due_calls(before, after):
    """The calls that two pairs of rows are due: for each net whose span differs, its departure, then its arrival."""
    old, new = spans_of(*before), spans_of(*after)
    calls = []
    for net in sorted({*old, *new}):
        if old.get(net) != new.get(net):
            calls += [f"leave {net} 0 0"] if net in old else []
            calls += ["arrive {} {} {}".format(net, *new[net])] if net in new else []
    return calls


class Noted:
    """A screen of noted calls: after each edit those since the one before it."""

    def __init__(self, folder):
        self.file, self.rows, self.seen = folder / "calls", ("", ""), 0
        self.file.write_text("")
        self.s = Session(folder / "order_noted", folder=folder, CALLS=str(self.file))
        self.s.expect_start("started", KEYS, " F1 help")
        check("the draft is cleared at the start", self.new(), ["clear 0 0 0"])

    def new(self):
        calls = self.file.read_text().splitlines()[self.seen:]
        self.seen += len(calls)
        return calls

    def edit(self, what, keys, top, bot, most=None):
        """Types keys that lead to two rows; the nets that come and go are those whose span differs, at most so many."""
        self.s.type(keys)
        self.s.expect_line(f"{what}: bars", DENSITY, density_line(top, bot))
        self.s.quiet()
        calls = self.new()
        check(f"{what}: calls", calls, due_calls(self.rows, (top, bot)))
        if most is not None:
            check(f"{what}: few nets", len({call.split()[1] for call in calls}) <= most, True)
        self.rows = top, bot


def single_pins(noted):
    """A number that becomes another moves two nets at most, and a net that keeps its first and last column none."""
    top, bot = "1 2 3 4 5 6 7 8 9 9", "9 8 7 6 5 4 3 2 1 1"
    noted.edit("two lines", paste(f"{top}\n{bot}\n"), top, bot)
    check("all but the straight net arrived", noted.seen, 1 + 8)
    noted.edit("erased", UP + HOME + DELETE, top[1:], bot)
    noted.edit("typed", "1", top, bot)
    noted.edit("one pin of a net", END + ERASE, top[:-1], bot, most=1)
    noted.edit("another net's", "2", f"{top[:-1]}2", bot, most=1)
    noted.edit("a parked pin", ERASE + "77", f"{top[:-1]}77", bot, most=1)
    noted.edit("no pin", ERASE * 2 + "0", f"{top[:-1]}0", bot, most=0)
    noted.edit("two nets get longer", ERASE + "5 6", f"{top[:-1]}5 6", bot, most=2)
    noted.edit("a pin within its net moves the other alone", LEFT * 2 + ERASE + "6", f"{top[:-1]}6 6", bot, most=1)
    noted.edit("a column before all moves all", HOME + "0 ", f"0 {top[:-1]}6 6", bot)


def other_edits(noted, folder):
    """Turning over moves no net, nor does what changes no number."""
    top, bot = noted.rows
    (folder / "b").write_bytes(text_of(B))
    for what, keys in (("keys that only move", HOME + END + UP + DOWN), ("a question", LOAD + "b" + ESCAPE),
                       ("a bad key", "x")):
        noted.edit(what, keys, top, bot, most=0)
    noted.edit("turned over", TURN, bot, top, most=0)
    noted.edit("and back", UNDO, top, bot, most=0)
    noted.edit("done again", REDO, bot, top, most=0)
    noted.edit("a list is loaded", LOAD + "b" + ENTER + "y", *text_rows(B))
    noted.edit("undone", UNDO, bot, top)
    noted.edit("done again", REDO, *text_rows(B))
    noted.edit("a row cleared", UP + CLEAR, "", text_rows(B)[1])
    noted.edit("both rows cleared", DOWN + CLEAR, "", "")


def random_edits(folder):
    """Rows that are set through a pipe, one after another, each like the one before but for a few words."""
    chance, rows, due, commands = random.Random(1), ["", ""], ["clear 0 0 0"], b""
    for n in range(600):
        before, side = tuple(rows), chance.randrange(2)
        words = rows[side].split()
        for _ in range(chance.choice((1, 1, 1, 3))):
            at, word = chance.randint(0, len(words)), str(chance.choice((0, 511, 512, *range(1, 30))))
            words[at:at + chance.randrange(2)] = [word] if chance.randrange(5) else []
        rows[side] = " ".join(words if chance.randrange(50) else [])
        commands += f"{('TOP', 'BOT')[side]} {rows[side]}\n".encode() + (b"show\n" if n % 9 == 0 else b"")
        due += due_calls(before, tuple(rows))
    file = folder / "random_calls"
    noted(folder, commands, CALLS=str(file))
    check("random edits: calls", file.read_text().splitlines(), due)
    check("random edits: cleared once", due.count("clear 0 0 0"), 1)


def noted(folder, commands, **environment):
    """What an order screen of noted calls answers through a pipe, and its status."""
    done = subprocess.run([str(folder / "order_noted")], input=commands, stdout=subprocess.PIPE, cwd=folder,
                          env={**os.environ, **environment}, timeout=4 * PATIENCE, check=False)
    return done.stdout.decode().splitlines(), done.returncode


def wrong_answers(folder):
    """Such an answer is told in place of the counts, and the status is 1; the rest of what is shown stays."""
    commands = b"TOP 1 1 2 2\nTOP 3 3 2 2\n" + text_of(B) + b"show\n"
    right, status = noted(folder, commands)
    at = right.index("DENSITY 1 3 4 4 4 4 2")
    check("the right answers", status, 0)
    for wrong, halves in WRONG.items():
        check(wrong, noted(folder, commands, WRONG=wrong), ([*right[:at], failed(*halves), *right[at + 1:]], 1))


def stays_wrong(folder):
    """The first such answer is told from then on, and nothing more is asked of the draft."""
    file = folder / "wrong_calls"
    out, status = noted(folder, text_of(B) + b"show\nTOP 1 1\nBOT 2 2\nshow\nturn\nshow\n", CALLS=str(file),
                        WRONG="arrive 3 22 5")
    check("told each time", ([line for line in out if line.startswith(("density", "DENSITY"))], status),
          ([failed(22, 5)] * 3, 1))
    calls = file.read_text().splitlines()
    check("no more calls", (len(calls), calls[-1].split()[0]), (4, "arrive"))


def wrong_on_screen(folder):
    """In a terminal: in red, the two numbers whole in the smallest window too, and the list has its board."""
    s = Session(folder / "order_noted", folder=folder, WRONG=f"arrive 2 {MOST} {MOST}")
    s.expect_start("started", KEYS, " F1 help")
    fill(s, *text_rows(B))
    s.expect_line("told", DENSITY, failed(MOST, MOST))
    s.expect("in red", lambda: {style for _, style in s.grid.cells[DENSITY][:75]} - {()}, {RED})
    s.expect_line("the list's own verdict", VERDICT, "width 7  tracks 5  blank 8  density 4  chain 3  pieces 30")
    s.expect_lines("and board", DRAWING, in_sight(drawing(B, written(B), PITCH)[1:]))
    for across in (75, 74, 40):
        s.resize(14, across)
        s.expect_line(f"{across} cells", DENSITY, failed(MOST, MOST, across))
    check("both numbers in 40 cells", len(failed(MOST, MOST, 40)), 40)
    s.resize(24, 80)
    s.type(CLEAR + UP + CLEAR)
    s.expect_lines("nothing in the rows: still told", TOP_LINE, ["TOP", "BOT", "", failed(MOST, MOST)])
    leave(s, "wrong")
    s = Session(folder / "order_noted", folder=folder, WRONG="clear 1 1 4096")
    s.expect_line("told before anything is typed", DENSITY, failed(1, 4096))
    leave(s, "wrong from the start")


def run(folder):
    built(folder)
    screen = Noted(folder)
    single_pins(screen)
    other_edits(screen, folder)
    leave(screen.s, "noted")
    check("nothing at the end", screen.new(), [])
    for part in (random_edits, wrong_answers, stays_wrong, wrong_on_screen):
        part(folder)
