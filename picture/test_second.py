"""The line that shows where a panel's second list begins: it stands before its column, the legend tells of it, and no
other shape or word of the picture changes."""
import re

from read_back import SVG
from test_cases import A, NO_COLUMNS, SECOND, channel
from test_runs import check, run, sheet_of

# no numbers, and numbers under 2 or over the largest width
NO_COLUMN = ("0", "1", "513", "4294967298", "02", "+2", "-2", " 2", "2 ", "2.0", "x", "2 3", "²", "-")


def check_second(answers, table):
    for name, column in SECOND.items():
        tracks, title = tracks_of(*table[name]), f"{name}, second {column}"
        plain, drawn = answers[name], answers[f"{name}, second"]
        before, sheet = sheet_of(name, plain, tracks), sheet_of(title, drawn, tracks)
        check(f"{title}: status and words on standard error", said(drawn) == said(plain))
        check_line(title, sheet, column)
        words = f"the second list begins in column {column}"
        check(f"{title}: legend", len(sheet.inside("legend", "second")) == 1 and f" {words} " in sheet.words())
        check(f"{title}: the other words", sheet.words().replace(f" {words}", "") == before.words())
        check(f"{title}: the other shapes", [s for s in shapes(sheet) if s[1] != "panel"] == shapes(before))
        check(f"{name}: no line", b"second" not in plain[1])
    for name in NO_COLUMNS:
        check(f"{name}, second: the same picture", answers[f"{name}, second"][:2] == answers[name][:2])


def check_line(title, sheet, column):
    """It stands half way between two columns, clear of their pins, and crosses the whole board and the labels."""
    lines = sheet.inside("panel", "second")
    x, high, end, low, wide = (float(lines[0].get(k)) for k in ("x1", "y1", "x2", "y2", "stroke-width"))
    top, tall, across = (float(sheet.board.get(k)) for k in ("y", "height", "width"))
    check(f"{title}: one line", len(lines) == 1)
    check(f"{title}: its column", x == end and abs(sheet.point(x, 0)[0] - (column - 0.5)) < 0.03)
    check(f"{title}: its ends", high < top - 9 and low > top + tall + 9)
    check(f"{title}: its width", 0 < wide <= 0.4 * across / sheet.columns + 0.01)
    check(f"{title}: dashed", re.fullmatch(r"[1-9][\d.]* [1-9][\d.]*", lines[0].get("stroke-dasharray")))


def tracks_of(pins, board=None):
    """The tracks of the board that is drawn; 0 where none is."""
    try:
        top, bot = channel.read(pins)
        return channel.route(top, bot)[0] if board is None else channel.judge(top, bot, board)
    except channel.Refused as refusal:
        return channel.open_board(board)[1] if refusal.number > 10 else 0


def shapes(sheet):
    """What is drawn but for texts and the legend, each shape with the group that it stands in."""
    return [(e.tag, g.get("class"), sorted(e.items())) for g in sheet.root.iter(SVG + "g") if g.get("class") != "legend"
            for e in g if e.tag != SVG + "text"]


def said(answer):
    """Status and words; a file is named without its folder, which each run has for itself."""
    return answer[0], re.sub(rb"/\S*/", b"", answer[2])


def check_wrong_columns(folder):
    """What is no column from 2 to the width is wrong use, and the message says what is due."""
    for name, pins, width in (("four columns", A, 4), ("one column", b"TOP 5\nBOT 5\n", 1)):
        file = folder / name
        file.write_bytes(pins)
        for word in (*NO_COLUMN, str(width + 1)):
            status, output, words = run(file, f"--second={word}")
            check(f"{name}, second {word}: wrong use", (status, output, words.count(b"\n")) == (2, b"", 1))
            known = "at most 512" if word in NO_COLUMN else f"which is {width}"
            due = f"2 to the width of {file}, {known}, without sign or leading zero, and not '{word}'\n"
            check(f"{name}, second {word}: why", words.decode().endswith(due))
    file.write_bytes(b"")
    check("no list, no column: wrong use", run(file, "--second=1")[:2] == (2, b""))
