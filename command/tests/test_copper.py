"""Which copper is joined: pieces that share a point, trunks with branches at contacts only."""
import random
import unittest

from command.boardfile import Board, Piece
from command.copper import Copper

KINDS = ("trunk", "branch", "contact")


def drawn(width, tracks, draw):
    """Random pieces on a grid."""
    pieces = []
    for _ in range(draw.randint(1, 14)):
        kind = draw.choice(KINDS)
        if kind == "contact":
            track = draw.randint(1, tracks)
            pieces.append(Piece(kind, draw.randint(1, width), track, track))
        elif kind == "trunk":
            pieces.append(Piece(kind, draw.randint(1, tracks), *sorted(draw.sample(range(1, width + 1), 2))))
        else:
            pieces.append(Piece(kind, draw.randint(1, width), *sorted(draw.sample(range(tracks + 2), 2))))
    return pieces


def covered(piece):
    """The points of a piece, column and row."""
    if piece.kind == "trunk":
        return {(column, piece.line) for column in range(piece.start, piece.end + 1)}
    return {(piece.line, row) for row in range(piece.start, piece.end + 1)}


def joined_to(pieces, point):
    """All pieces joined to a pin's point, by the wiring rule word for word."""
    points = [covered(piece) for piece in pieces]

    def touch(i, j):
        kinds = pieces[i].kind, pieces[j].kind
        return (kinds[0] == kinds[1] or "contact" in kinds) and not points[i].isdisjoint(points[j])
    found = {i for i, piece in enumerate(pieces) if piece.kind == "branch" and point in points[i]}
    todo = list(found)
    while todo:
        here = todo.pop()
        new = {i for i in range(len(pieces)) if i not in found and touch(here, i)}
        found |= new
        todo += new
    return found


class Joined(unittest.TestCase):
    def test_pins_are_joined_as_the_wiring_rule_says(self):
        draw, joined = random.Random(2026), 0
        for _ in range(150):
            width, tracks = draw.randint(2, 5), draw.randint(1, 4)
            pieces = drawn(width, tracks, draw)
            copper = Copper(Board(width, tracks, pieces))
            pins = [(side, column) for side in ("TOP", "BOT") for column in range(1, width + 1)]
            reached = {pin: joined_to(pieces, (pin[1], 0 if pin[0] == "BOT" else tracks + 1)) for pin in pins}
            for one in pins:
                for two in pins:
                    due = bool(reached[one] & reached[two])
                    got = copper.at_pin(*one) is not None and copper.at_pin(*one) == copper.at_pin(*two)
                    self.assertEqual(got, due, (pieces, one, two))
                    joined += due and one != two
        self.assertGreater(joined, 100)
