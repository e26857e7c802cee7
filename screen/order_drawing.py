"""What the order screen should draw, made from points of the grid and not as the screen does it."""
import subprocess
import sys
from collections import Counter
from pathlib import Path

ROOT = Path(__file__).resolve().parent.parent
sys.path.insert(0, str(ROOT / "reference"))
import channel  # noqa: E402

A = ([0, 1, 2, 3], [1, 2, 0, 3])
B = ([0, 1, 6, 1, 2, 3, 5], [6, 3, 5, 4, 0, 2, 4])


def text_of(rows):
    return b"".join(b"%s %s\n" % (word, " ".join(map(str, row)).encode()) for word, row in zip((b"TOP", b"BOT"), rows))


def written(rows):
    """The board file that the proved program writes."""
    program = ROOT / "target" / "bin" / "board_writer"
    return subprocess.run([str(program)], input=text_of(rows), stdout=subprocess.PIPE, check=True).stdout


def drawing(rows, board, pitch=None):
    """The lines that a board should be drawn as: the column numbers, then each row of the grid, and between two rows
    the branches that go on. A net with one pin has a p before its number. Where no pitch is given the columns are as
    narrow as can be."""
    width, tracks, pieces = channel.open_board(board)
    pins_of = Counter(rows[0] + rows[1])
    pitch = pitch or max(3, len(str(max([width] + rows[0] + rows[1]))) + 1)
    trunks, branches, contacts = [{point for piece in pieces if piece[0] == kind for point in channel.points_of(piece)}
                                  for kind in range(3)]
    steps = {(c, r) for kind, c, a, b in pieces if kind == 1 for r in range(a, b)}
    runs = {(c, r) for kind, r, a, b in pieces if kind == 0 for c in range(a, b)}
    lines = ["col  " + "".join(f"{c:{pitch}}" for c in range(1, width + 1))]
    for r in range(tracks + 1, -1, -1):
        pins = rows[0] if r == tracks + 1 else rows[1] if r == 0 else [0] * width
        line = ""
        for c in range(1, width + 1):
            trunk, branch, contact = (0, c, r) in trunks, (1, c, r) in branches, (0, c, r) in contacts
            edge = "." if r in (0, tracks + 1) else " "
            copper = "o" if contact else "+" if trunk and branch else "-" if trunk else "|" if branch else edge
            net = pins[c - 1]
            shown = ("p" if pins_of[net] == 1 else "") + str(net) if net else copper
            line += shown.rjust(pitch, "-" if (c - 1, r) in runs else " ")
        gutter = "TOP  " if r == tracks + 1 else "BOT  " if r == 0 else f"{r:3}  "
        lines.append(gutter + line)
        if r:
            between = ["|" if (c, r - 1) in steps else " " for c in range(1, width + 1)]
            lines.append("     " + "".join(cell.rjust(pitch) for cell in between))
    return [line.rstrip() for line in lines]


def damaged():
    """Boards of example A: good, and those of the scope's examples H, I and J."""
    tracks, _, pieces = channel.draw(*A)
    without = [p for p in pieces if p != (2, 2, 1, 1)]
    longer = [(1, 2, 1, 3) if p == (1, 2, 2, 3) else p for p in pieces]
    return {name: channel.encode(4, tracks, ps) for name, ps in
            (("good", pieces), ("h", without), ("i", longer), ("j", pieces + [(0, 2, 3, 4)]))}
