"""The bytes of a board file as pieces (SCOPE, "Board file"), for messages and pictures. Nothing is judged here."""
from collections import namedtuple

KINDS = ("trunk", "branch", "contact", "none")
HEADER = 4

Piece = namedtuple("Piece", "kind line start end")
Board = namedtuple("Board", "width tracks pieces")


def fields_of(word, *widths):
    """The fields of a 32-bit word, most significant bit first."""
    value, left, fields = int.from_bytes(word, "big"), 32, []
    for width in widths:
        left -= width
        fields.append(value >> left & (1 << width) - 1)
    return fields


def header_of(board):
    """Width, tracks, count of pieces and the spare bit."""
    return fields_of(board[:HEADER], 10, 9, 12, 1)


def length_due(board):
    """The length that a file's header asks for."""
    return HEADER + 4 * header_of(board)[2] if len(board) >= HEADER else HEADER


def piece_of(board, number):
    """The piece of a number, counted from 1."""
    kind, line, start, end = fields_of(board[4 * number:4 * number + 4], 2, 10, 10, 10)
    return Piece(KINDS[kind], line, start, end)


def board_of(board):
    """A board file that the judge has opened."""
    width, tracks, count, _ = header_of(board)
    return Board(width, tracks, [piece_of(board, number) for number in range(1, count + 1)])


def described(piece):
    """A piece in words, also one out of range."""
    if piece.kind == "trunk":
        return f"trunk, track {piece.line}, columns {piece.start} to {piece.end}"
    if piece.kind == "branch":
        return f"branch, column {piece.line}, rows {piece.start} to {piece.end}"
    if piece.kind == "contact" and piece.start == piece.end:
        return f"contact, column {piece.line}, track {piece.start}"
    return f"{piece.kind}, line {piece.line}, from {piece.start}, to {piece.end}"
