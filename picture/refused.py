"""Pictures of a refused pin list: a tangled one with its rings, or rows with the refused place marked."""
from command.rings import is_same, words_of
from picture.frame import Frame, labelled
from picture.legend import draw_arrow
from picture.scenes import status_of
from picture.svg import dashes, words_wide

WIDEST = 512
PAIRS_SPELT = 12
OF_FEWEST = "fewest-"  # what the classes of shapes of the ring with the fewest nets begin with


# A tangled list: a ring runs down each of its columns, and from there along a net to the next. The router's walk shows
# one; the ring with the fewest nets is drawn beside it where it is another.

def draw_rings(rows, verdict, fewest, words, second=None):
    frame = Frame(rows, 0, second, column_step=84 if len(rows[0]) <= 10 else None, track_step=190)
    title = f"width {frame.columns} · tangled: a ring of {verdict.place} nets"
    other = () if is_same(fewest, verdict.ring) else fewest.pairs
    walk = {column for _, column in verdict.ring}
    frame.draw_title(title, status_of(verdict), False)
    frame.draw_grid()
    frame.draw_bands(walk)
    if other:
        frame.draw_caps(column for _, column in other)
    frame.draw_pins()
    parked, more = frame.draw_parked()
    with frame.sheet.group("marks"):
        draw_same_nets(frame, other, OF_FEWEST, stroke_width=min(2.2 * frame.unit, frame.dx / 2))
        draw_same_nets(frame, verdict.ring, stroke_width=1.4 * frame.unit, stroke_dasharray=dashes(frame.unit))
        for _, column in verdict.ring:
            draw_step(frame, column)
        for column in sorted({column for _, column in other} - walk):
            draw_step(frame, column, OF_FEWEST)
        draw_pills(frame, verdict.ring, other)
    kinds = ["pin", *parked, "ring", "above", "same", *(("fewest", "fewest-same") if other else ())]
    return frame.finish(title, kinds, [words, *spelt(verdict.ring), words_of(fewest, verdict.ring), *more])


def onward(ring):
    """Each pair of the ring with the next, the last with the first."""
    return list(zip(ring, ring[1:] + ring[:1]))


def draw_same_nets(frame, ring, of="", **line):
    """From the lower pin of each column to the next column, where the same net is the upper one."""
    for (_, column), (net, following) in onward(ring):
        frame.sheet.add("line", f"net {net} again", class_=f"{of}same", x1=frame.x(column), y1=frame.y(0),
                        x2=frame.x(following), y2=frame.y(1), **line)


def draw_step(frame, column, of=""):
    """The two pins of a ring's column and the arrow from the upper to the lower."""
    size = min(1.3 * frame.unit, frame.dx / 10)
    draw_arrow(frame.sheet, frame.x(column), frame.y(1), frame.y(0) - frame.pad / 2, size, of)
    for row in (1, 0):
        frame.sheet.add("rect", class_=f"{of or 'ring-'}pin", x=frame.x(column) - frame.pad / 2,
                        y=frame.y(row) - frame.pad / 2, width=frame.pad, height=frame.pad)


def draw_pills(frame, ring, other):
    """'a above b' on each arrow; turned where columns are narrow, and left out where even then two would overlap. The
    ring with the fewest nets, if it is another, has its own before the walk's."""
    size = 12 * frame.unit
    steps = {column: f"{net} above {lower}" for (net, column), (lower, _) in onward(other) + onward(ring)}
    walk, first = ({column for _, column in pairs} for pairs in (ring, other))
    long, high = max(words_wide(words, size) for words in steps.values()) + 8 * frame.unit, 1.7 * size
    upright = long + 4 <= frame.dx
    wide, tall = (long, high) if upright else (high, long)
    placed = []
    with frame.sheet.group("pills", font_size=size):
        for column in sorted(steps, key=lambda column: (column not in first, column)):
            x = frame.x(column)
            if all(abs(x - there) >= wide for there in placed):
                placed.append(x)
                draw_pill(frame, x, wide, tall, steps[column], "" if column in walk else OF_FEWEST)


def draw_pill(frame, x, wide, tall, words, of):
    """Words in a box half way down a column; turned if it is higher than wide."""
    size, y = 12 * frame.unit, (frame.y(0) + frame.y(1)) / 2
    frame.sheet.add("rect", class_=f"{of}pill", x=x - wide / 2, y=y - tall / 2, width=wide, height=tall, rx=0.4 * size)
    if wide > tall:
        frame.sheet.text(x, y + 0.36 * size, words, text_anchor="middle")
    else:
        frame.sheet.turned(x + 0.36 * size, y, words, text_anchor="middle")


def spelt(ring):
    """The ring in words, in full if it is short."""
    steps = [f"column {column}: trunk {net} above trunk {lower}" for (net, column), (lower, _) in onward(ring)]
    if len(steps) > PAIRS_SPELT:
        steps[PAIRS_SPELT:] = [f"and so on, through {len(ring)} columns in all"]
    return ["In a column of the ring one net's branch comes down from TOP, the other's up from BOT, on one side of the "
            "board. So that they do not meet, the upper net's trunk must lie above the lower net's", "; ".join(steps),
            f"So trunk {ring[0][0]} would have to lie above itself, and there is no board with one trunk a net"]


# Rows that were made out but are refused.

def draw_rows(rows, verdict, words, second=None):
    """Rows far too wide are shown a little beyond the widest."""
    shown = tuple(row[:WIDEST + 4] for row in rows)
    frame = Frame(shown, 0, second, track_step=110)
    title = f"columns: TOP {len(rows[0])}, BOT {len(rows[1])}"
    frame.draw_title(title, status_of(verdict), False)
    frame.draw_grid()
    places, more = refused_places(frame, rows, verdict)
    frame.draw_bands(column for column, _ in places)
    frame.draw_pins()
    with frame.sheet.group("marks"):
        for column, row in places:
            frame.mark_pin(column, row)
    return frame.finish(title, ["pin", "refused"], [words, more])


def refused_places(frame, rows, verdict):
    """The columns and rows to mark for refusals 3 to 5, and what the caption adds."""
    place, pins = verdict.place, rows[0] + rows[1]
    if verdict.number == 3:
        places = [(place, 1 - i) for i, row in enumerate(rows) if len(row) >= place]
        cut = max(map(len, rows)) - frame.columns
        return places, f"Column {place} is the first too many." + (f" {cut} more are not drawn." if cut else "")
    if verdict.number == 4:
        row, side = (1, "TOP") if len(rows[0]) < len(rows[1]) else (0, "BOT")
        return [(place, row)], f"{side} ends before column {place}, and the other row goes on."
    side, column, row = frame.pin_place(place)
    return [(column, row)], f"Net {labelled(pins[place - 1])} is at the {side} pin of column {column}."
