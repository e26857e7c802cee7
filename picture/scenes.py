"""Pictures of a board: its copper over the channel's pins, with a fault marked if the judge found one."""
from command.boardfile import board_of, described, piece_of
from command.refusals import read_table
from picture.frame import Frame
from picture.svg import dashes

COPPER = ["trunk", "branch", "contact", "crossing", "pin"]


def status_of(verdict):
    """The judge's or router's line, with the shop's word."""
    if verdict.word == "GOOD":
        return "GOOD"
    return f"REFUSED {verdict.number} {verdict.place}: {read_table()[verdict.number].word}"


def title_of(board, facts):
    """Blank, density and chain are the listing's; a board file with other tracks than the router's says so."""
    if facts is None:
        return f"width {board.width} · tracks {board.tracks} · tangled list, so no blank, density or chain"
    blank = f" · blank {facts.blank}"
    if facts.tracks != board.tracks:
        blank = f" (the router fills {facts.tracks}, blank {facts.blank})"
    return f"width {board.width} · tracks {board.tracks}{blank} · density {facts.density} · chain {facts.chain}"


def ends_of(frame, piece):
    """Where the piece's first and last point stand on the sheet."""
    if piece.kind == "trunk":
        return frame.x(piece.start), frame.y(piece.line), frame.x(piece.end), frame.y(piece.line)
    return frame.x(piece.line), frame.y(piece.start), frame.x(piece.line), frame.y(piece.end)


def draw_gaps(frame, branches):
    """The board's own colour around every branch, so that trunks below seem cut; ends inside the board get it too."""
    around = frame.copper / 2 + max(0.7, min(2.5, 0.36 * frame.copper))
    gaps = []
    for x, y1, _, y2 in (ends_of(frame, branch) for branch in branches):
        low, high = min(y1 + around, frame.y(0)), max(y2 - around, frame.y(frame.tracks + 1))
        gaps.append(f"M{x:.2f} {low:.2f}V{high:.2f}")
    if gaps:
        frame.sheet.add("path", class_="gap", stroke_width=2 * around, d="".join(gaps))


def draw_copper(frame, pieces):
    """Trunks, then gaps, branches and contacts: a crossing shows as one line passing over the other."""
    numbered = list(enumerate(pieces, 1))
    with frame.sheet.group("copper", stroke_width=frame.copper):
        for kind in ("trunk", "branch", "contact"):
            if kind == "branch":
                draw_gaps(frame, [piece for piece in pieces if piece.kind == "branch"])
            for number, piece in numbered:
                if piece.kind == kind:
                    draw_piece(frame, piece, f"piece {number}: {described(piece)}")


def draw_piece(frame, piece, words):
    x1, y1, x2, y2 = ends_of(frame, piece)
    if piece.kind == "contact":
        frame.sheet.add("circle", words, class_="contact", cx=x1, cy=y1, r=1.15 * frame.copper)
    else:
        frame.sheet.add("line", words, class_=piece.kind, x1=x1, y1=y1, x2=x2, y2=y2)


def mark_pins(frame, verdict, _):
    """Boxes the pin of a short or an open; answers what the legend and the caption add."""
    side, column, row = frame.pin_place(verdict.place)
    pins = frame.rows[0] + frame.rows[1]
    net = pins[verdict.place - 1]
    frame.mark_pin(column, row)
    words = f"Position {verdict.place} is the {side} pin of column {column}, of net {net}."
    if verdict.number == 11:
        return ["mark"], words
    first_side, first_column, first_row = frame.pin_place(pins.index(net) + 1)
    frame.mark_pin(first_column, first_row, "partner")
    return ["mark", "partner"], f"{words} Net {net}'s first pin is the {first_side} pin of column {first_column}."


def mark_piece(frame, verdict, pieces):
    piece, u = pieces[verdict.place - 1], frame.unit
    x1, y1, x2, y2 = ends_of(frame, piece)
    around = max(1.5 * frame.copper, 5 * u)
    frame.sheet.add("rect", class_="piece-mark", x=x1 - around, y=y2 - around, width=x2 - x1 + 2 * around,
                    height=y1 - y2 + 2 * around, rx=around, stroke_width=1.6 * u, stroke_dasharray=dashes(u))
    return ["piece"], f"Piece {verdict.place} of the file: {described(piece)}."


def draw_board(rows, board_bytes, facts, verdict, words, second=None):
    """A board that the judge called good, or in which it found a short, an open or floating copper."""
    board = board_of(board_bytes)
    frame, title = Frame(rows, board.tracks, second), title_of(board, facts)
    frame.draw_title(title, status_of(verdict), verdict.word == "GOOD")
    frame.draw_grid()
    if verdict.number in (11, 12):
        frame.draw_bands([frame.pin_place(verdict.place)[1]])
    draw_copper(frame, board.pieces)
    frame.draw_pins()
    parked, of_parked = frame.draw_parked()
    marks, sentences = [], [words]
    if verdict.word != "GOOD":
        mark = mark_piece if verdict.number == 13 else mark_pins
        with frame.sheet.group("marks"):
            marks, more = mark(frame, verdict, board.pieces)
        sentences.append(more)
    return frame.finish(title, COPPER + parked + marks, sentences + of_parked)


def draw_pins_only(rows, board_bytes, verdict, words, second=None):
    """A board file that does not open, or that is for another width: there is no copper to show."""
    frame = Frame(rows, 0, second, track_step=110)
    title = f"width {frame.columns} · no board"
    frame.draw_title(title, status_of(verdict), False)
    frame.draw_grid()
    frame.draw_pins()
    parked, of_parked = frame.draw_parked()
    sentences = [words]
    if verdict.number == 9 and verdict.place:
        sentences.append(f"Piece {verdict.place} of the file reads: {described(piece_of(board_bytes, verdict.place))}.")
    return frame.finish(title, ["pin", *parked], sentences + of_parked)
