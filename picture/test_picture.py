"""Runs ./channel picture on the examples of the scope, on wide channels and on mistakes, and reads the pictures back.

Usage: python3 picture/test_picture.py

Every place is mapped back from the sheet to column and row by the board's rectangle alone, and compared with the pieces
that the independent program of reference/ decodes from the same board file.
"""
import sys
import tempfile
from collections import Counter
from concurrent.futures import ThreadPoolExecutor
from pathlib import Path

sys.dont_write_bytecode = True
from read_back import SVG  # noqa: E402  (no compiled copies are to be left in the tree)
from test_cases import (A, D, GOOD, OPPOSITE, PADDED, REFUSED_BOARDS, REFUSED_ROWS, REFUSED_TEXTS, RINGS,  # noqa: E402
                        channel, runs)
from test_runs import ROOT, answered, check, failures, held, picture, run, sheet_of  # noqa: E402
from test_second import check_second, check_wrong_columns  # noqa: E402


def check_copper(name, sheet, pieces):
    """As many shapes of each kind as pieces, each from point to point as its piece."""
    shapes = sheet.inside("copper", "trunk", "branch", "contact")
    found = []
    for e in shapes:
        ends = (("cx", "cy"), ("cx", "cy")) if e.get("class") == "contact" else (("x1", "y1"), ("x2", "y2"))
        found.append((e.get("class"), *(sheet.grid_point(e.get(x), e.get(y)) for x, y in ends)))
    due = [("trunk", (a, line), (b, line)) if kind == 0 else (("branch", "contact")[kind - 1], (line, a), (line, b))
           for kind, line, a, b in pieces]
    for kind in ("trunk", "branch", "contact"):
        check(f"{name}: {kind} count", sum(f[0] == kind for f in found) == sum(d[0] == kind for d in due))
    check(f"{name}: copper places", Counter(found) == Counter(due))


def check_frame(name, sheet, top, bot):
    """Pins at their points with their nets, numbers at their columns and tracks, and no two labels over each other."""
    above = sheet.tracks + 1
    due = {(c, r) for r, row in ((above, top), (0, bot)) for c, net in enumerate(row, 1) if net}
    pins = sheet.inside("pins", "pin")
    check(f"{name}: pins", len(pins) == len(due) and {sheet.middle(e) for e in pins} == due)
    nets = sheet.inside("pins", "net", "no-pin")
    check(f"{name}: nets", [e.text for e in nets] == [str(n) for n in top + bot])
    columns = [round(sheet.point(float(e.get("x")), 0)[0] - 0.2 * ("transform" in e.keys())) for e in nets]
    check(f"{name}: nets' columns", columns == 2 * list(range(1, len(top) + 1)))
    numbers = sheet.inside("numbers", "column-number")
    check(f"{name}: column numbers", numbers and all(
        abs(sheet.point(float(e.get("x")), 0)[0] - int(e.text)) < 0.03 for e in numbers))
    size = float(next(g.get("font-size") for g in sheet.root.iter(SVG + "g") if g.get("class") == "numbers"))
    places = [(float(e.get("x")), 0.6 * size * len(e.text)) for e in numbers]
    check(f"{name}: column numbers apart", all(b - a >= (v + w) / 2 for (a, v), (b, w) in zip(places, places[1:])))
    heights = [(int(e.text), float(e.get("y"))) for e in sheet.inside("numbers", "track-number")]
    check(f"{name}: track numbers", bool(heights) == bool(sheet.tracks) and all(
        abs(sheet.point(0, y - 0.38 * size)[1] - t) < 0.1 for t, y in heights))
    check(f"{name}: track numbers apart", all(a - b >= size for (_, a), (_, b) in zip(heights, heights[1:])))


def check_parked(name, answer, sheet, due):
    """Just these points are marked as parked; legend, caption and standard error tell of them, or of none."""
    marked = sheet.inside("parked", "parked-pin")
    check(f"{name}: parked pins", len(marked) == len(due) and {sheet.middle(e) for e in marked} == due)
    check(f"{name}: parked in the legend", len(sheet.inside("legend", "parked-pin")) == bool(due))
    words = "1 pin is parked" if len(due) == 1 else f"{len(due)} pins are parked"
    for told in (sheet.words(), answer[2].decode()):
        check(f"{name}: parked in words", (words in told) == bool(due) and (" parked" in told) == bool(due))


def parked_by_listing(pins, tracks):
    """The points of the pins whose number has no NET line."""
    nets = {int(line.split()[1]) for line in answered("listing", pins).splitlines() if line.startswith(b"NET ")}
    rows = zip((tracks + 1, 0), channel.parse(pins))
    return {(c, r) for r, row in rows for c, net in enumerate(row, 1) if net and net not in nets}


def check_board(name, answer, pins, file, status=0):
    width, tracks, pieces = channel.open_board(file)
    check(f"{name}: status", answer[0] == status)
    sheet = sheet_of(name, answer, tracks)
    check(f"{name}: width", sheet.columns == width)
    check_copper(name, sheet, pieces)
    check_frame(name, sheet, *channel.parse(pins))
    check(f"{name}: verdict", (" GOOD " in sheet.words()) == (status == 0))
    return sheet


def check_routed(name, answer, pins):
    sheet = check_board(name, answer, pins, answered("board_writer", pins))
    board, bound = (line.split() for line in answered("listing", pins).decode().splitlines()[:2])
    title = "width {} · tracks {} · blank {} · density {} · chain {}".format(*board[1:], *bound[1:])
    check(f"{name}: title", title in sheet.words())
    check(f"{name}: no marks", not sheet.inside("marks", "mark", "partner", "piece-mark"))
    check_parked(name, answer, sheet, parked_by_listing(pins, sheet.tracks))


def boxed(sheet, class_="mark"):
    """The pin points that boxes stand round: column by the middle, row by the edge that they lie across."""
    found = set()
    for e in sheet.inside("marks", class_):
        x, y, w, h = (float(e.get(k)) for k in ("x", "y", "width", "height"))
        column, _ = sheet.point(x + w / 2, y)
        edge = [row for row in (sheet.tracks + 1, 0) if sheet.point(x, y + h)[1] < row < sheet.point(x, y)[1]]
        found.add((round(column, 1), *edge))
    return found


def pairs_of(lines):
    """The pairs of net and column of RING lines."""
    return [tuple(map(int, line.split()[1:])) for line in lines.decode().splitlines()]


def onward(ring):
    return zip(ring, ring[1:] + ring[:1])


def check_ring(name, answer, pins):
    ring, fewest = pairs_of(answered("listing", pins).partition(b"\n")[2]), pairs_of(answered("ring_finder", pins))
    top, bot = channel.parse(pins)
    check(f"{name}: status", answer[0] == 1 and b"tangled" in answer[2])
    sheet = sheet_of(name, answer)
    check_frame(name, sheet, top, bot)
    check_copper(name, sheet, [])
    due = {(c, row) for _, c in ring for row in (1, 0)}
    check(f"{name}: ring pins", {sheet.middle(e) for e in sheet.inside("marks", "ring-pin")} == due)
    bands = [sheet.point(float(e.get("x")) + float(e.get("width")) / 2, 0)[0] for e in sheet.inside("bands", "band")]
    check(f"{name}: bands", [round(c, 1) for c in bands] == sorted(c for _, c in ring))
    check_steps(name, sheet, "", ring, {c for _, c in ring})
    above = {f"{top[c - 1]} above {bot[c - 1]}" for _, c in ring + fewest}
    pills = {e.text for g in sheet.root.iter(SVG + "g") if g.get("class") == "pills" for e in g.iter(SVG + "text")}
    check(f"{name}: above", pills and pills <= above and (len(ring) > 40 or pills == above))
    check(f"{name}: words", "lie above itself" in sheet.words())
    check_fewest(name, sheet, ring, fewest)
    once = {net for net, count in Counter(top + bot).items() if net and count == 1}
    check_parked(name, answer, sheet, {(c, r) for r, row in ((1, top), (0, bot)) for c, net in enumerate(row, 1)
                                       if net in once})


def check_steps(name, sheet, of, ring, columns):
    """Arrows in these columns, and a line from the lower pin of each column of the ring to the next."""
    arrows = [sheet.grid_point(e.get("x1"), e.get("y1")) for e in sheet.inside("marks", f"{of}above")]
    check(f"{name}: {of}arrows", sorted(arrows) == sorted((c, 1) for c in columns))
    same = [(sheet.grid_point(e.get("x1"), e.get("y1")), sheet.grid_point(e.get("x2"), e.get("y2")))
            for e in sheet.inside("marks", f"{of}same")]
    check(f"{name}: {of}same nets", sorted(same) == sorted(((a, 0), (b, 1)) for (_, a), (_, b) in onward(ring)))


def check_fewest(name, sheet, ring, fewest):
    """The ring with the fewest nets has marks of its own, and none where it is the one that is drawn already."""
    is_same = set(ring) == set(fewest)
    other = [] if is_same else fewest
    alone = {c for _, c in other} - {c for _, c in ring}
    check_steps(name, sheet, "fewest-", other, alone)
    pins = [sheet.middle(e) for e in sheet.inside("marks", "fewest-pin")]
    check(f"{name}: fewest pins", sorted(pins) == sorted((c, row) for c in alone for row in (1, 0)))
    check_caps(name, sheet, [c for _, c in other])
    pills = len(sheet.inside("pills", "fewest-pill"))
    check(f"{name}: fewest pills", pills <= len(alone) and (len(ring) > 40 or pills == len(alone)))
    for kind in ("cap", "fewest-same"):
        check(f"{name}: {kind} in the legend", len(sheet.inside("legend", kind)) == (not is_same))
    said = f"The fewest wires to move: {len(fewest)} nets"
    (net, column), (lower, _) = fewest[0], fewest[1]
    spelt = f"{said}: net {net} above net {lower} in column {column}, "
    check(f"{name}: fewest in words", (f"{said}, the same ring." if is_same else spelt) in sheet.words())


def check_caps(name, sheet, columns):
    """Two caps for each column, between the numbers of columns and the nets, and below these."""
    high, low = (float(sheet.board.get("y")) + at * float(sheet.board.get("height")) for at in (0, 1))
    numbers = max(float(e.get("y")) for e in sheet.inside("numbers", "column-number"))
    legend = min(float(e.get("y")) for g in sheet.root.iter(SVG + "g") if g.get("class") == "legend"
                 for e in g.iter(SVG + "text"))
    found = {1: [], 0: []}
    for e in sheet.inside("caps", "cap"):
        x, y, wide, tall = (float(e.get(k)) for k in ("x", "y", "width", "height"))
        column, row = sheet.point(x + wide / 2, 0)[0], 1 if y < high else 0
        found[row].append(round(column, 1))
        check(f"{name}: the place of a cap", numbers < y < y + tall < high if row else low < y < y + tall < legend - 9)
        check(f"{name}: the width of a cap", wide < float(sheet.board.get("width")) / sheet.columns)
    check(f"{name}: caps", found == {1: sorted(columns), 0: sorted(columns)})


def check_rows(name, answer, columns, marks):
    """Rows with the refused places marked."""
    check(f"{name}: status", answer[0] == 1 and answer[2].count(b"\n") == 2)
    sheet = sheet_of(name, answer)
    check(f"{name}: columns", sheet.columns == columns)
    check(f"{name}: marks", boxed(sheet) == marks)
    check_parked(name, answer, sheet, set())


def check_text(name, answer, cell, shown, words):
    """A line of the text with one cell marked, and words on its byte."""
    check(f"{name}: status", answer[0] == 1)
    sheet = sheet_of(name, answer)
    cells, marks = sheet.inside("line", "cell"), sheet.inside("marks", "mark")
    check(f"{name}: mark", len(marks) == 1 and cells[cell].get("x") == marks[0].get("x"))
    check(f"{name}: bytes", [e.text for e in sheet.inside("line", "byte")] == shown)
    check(f"{name}: words", words in sheet.words())


def check_faults(answers, files):
    sheets = {name: check_board(name, answers[name], A, files[name], 1) for name in "HIJ"}
    check("H: marks", boxed(sheets["H"]) == {(2, 0)} and boxed(sheets["H"], "partner") == {(3, 3)})
    check("I: marks", boxed(sheets["I"]) == {(3, 3)} and not boxed(sheets["I"], "partner"))
    piece = sheets["J"].inside("marks", "piece-mark")
    x, y, w, h = (float(piece[0].get(k)) for k in ("x", "y", "width", "height"))
    first, last = sheets["J"].point(x, y + h), sheets["J"].point(x + w, y)
    check("J: mark", len(piece) == 1 and 2.5 < first[0] < 3 and 4 < last[0] < 4.5)
    check("J: mark's track", 1.5 < first[1] < 2 < last[1] < 2.5)
    check("J: words", "trunk, track 2, columns 3 to 4" in sheets["J"].words())
    for name, fault in (("H", "12 6: open"), ("I", "11 3: short"), ("J", "13 12: floating")):
        check(f"{name}: fault", f"REFUSED {fault}" in sheets[name].words() and b"\n" == answers[name][2][-1:])


def check_at_parked_pins(answers, table):
    """Copper may end at a parked pin alone; joined to another net's pin it is a short."""
    for name, status in (("copper at a parked pin", 0), ("short to a parked pin", 1)):
        sheet = check_board(name, answers[name], OPPOSITE, table[name][1], status)
        check_parked(name, answers[name], sheet, {(1, 0), (3, 2)})
    check("short to a parked pin: mark", boxed(sheet) == {(1, 0)} and "REFUSED 11 4: short" in sheet.words())


def check_boards_refused(answers):
    for name, (_, words) in REFUSED_BOARDS.items():
        check(f"{name}: status", answers[name][0] == 1)
        sheet = sheet_of(name, answers[name])
        check_frame(name, sheet, *channel.parse(A))
        check_copper(name, sheet, [])
        check(f"{name}: words", words in sheet.words())


def check_wrong_use(folder):
    pins = Path(folder, "A")
    pins.write_bytes(A)
    wrong = {"no file": (), "three files": (pins, pins, pins), "no such file": (folder + "/none",),
             "a folder": (folder,), "no such board": (pins, folder + "/none"), "twice standard input": ("-", "-"),
             "no column": (pins, "--second"), "a column twice": (pins, "--second=2", "--second=2")}
    for name, arguments in wrong.items():
        status, output, words = run(*arguments)
        check(f"{name}: refused", status == 2 and output == b"" and words.count(b"\n") == 1)


def main():
    files, table = runs()
    with tempfile.TemporaryDirectory() as folder, ThreadPoolExecutor(4) as pool:
        answers = dict(zip(table, pool.map(lambda case: picture(folder, *case), table.values())))
        check_wrong_use(folder)
        check_wrong_columns(Path(folder))
    for name, pins in GOOD.items():
        check_routed(name, answers[name], pins)
    for name, pins in RINGS.items():
        check_ring(f"ring {name}", answers[f"ring {name}"], pins)
    check_faults(answers, files)
    for name, (_, columns, marks) in REFUSED_ROWS.items():
        check_rows(name, answers[name], columns, marks)
    for name, (_, *due) in REFUSED_TEXTS.items():
        check_text(name, answers[name], *due)
    check_boards_refused(answers)
    check_at_parked_pins(answers, table)
    check_second(answers, table)
    split = check_board("split", answers["split"], D, table["split"][1])
    check("split: title", "tracks 4 · tangled list" in split.words())
    taller = check_board("taller", answers["taller"], A, table["taller"][1])
    check("taller: title", "tracks 5 (the router fills 2, blank 8)" in taller.words())
    check("a board file of the router's is drawn the same", answers["A again"] == answers["A"])
    for name in PADDED:
        check(f"{name}, padded: the same picture", answers[f"{name}, padded"][:2] == answers[name][:2])
    check("standard input", answers["standard input"] == answers["B"])
    for example, name in (("B", "example_b"), ("ring D", "example_d")):
        check(f"docs/{name}.svg", (ROOT / "docs" / f"{name}.svg").read_bytes() == answers[example][1])
    for failure in failures:
        print(f"pictures: failed: {failure}")
    print(f"pictures: {len(held)} checks passed" + (f", {len(failures)} failed" if failures else ""))
    return bool(failures)


if __name__ == "__main__":
    sys.exit(main())
