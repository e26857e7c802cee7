"""Picture of a text that is no pin list: the line with the byte that does not belong, byte by byte."""
from command.slips import line_and_column, named
from picture.frame import NARROWEST, finished
from picture.scenes import status_of
from picture.svg import Sheet

BEFORE, AFTER = 24, 12  # how many bytes of the line are shown around the marked one
CELL, TALL, MARGIN = 16, 26, 24
GLYPHS = {0x09: "TAB", 0x0a: "LF", 0x0d: "CR", 0x20: "·"}


def glyph(byte):
    """A byte as its cell shows it; what cannot be seen has a short name, or is written in hexadecimal."""
    return chr(byte) if 0x20 < byte < 0x7f else GLYPHS.get(byte, f"{byte:02X}")


def line_around(text, place):
    """The offset of the first byte shown of its line, the bytes shown, and whether the line is cut at either side."""
    start = text.rfind(b"\n", 0, place) + 1
    end = text.find(b"\n", place) + 1 or len(text)
    shown, last = max(start, place - BEFORE), min(end, place + AFTER + 1)
    return shown, text[shown:last], shown > start, last < end


def draw_text(text, verdict, words):
    place, sheet = verdict.place, Sheet()
    number, within = line_and_column(text, place)
    shown, line, cut_left, cut_right = line_around(text, place)
    title = f"line {number} of the text"
    sheet.text(NARROWEST / 2, 26, title, class_="title", font_size=16, text_anchor="middle")
    sheet.text(NARROWEST / 2, 46, status_of(verdict), class_="bad", font_size=13, text_anchor="middle")
    with sheet.group("line"):
        for i, byte in enumerate(line):
            draw_cell(sheet, i, glyph(byte))
        if place >= len(text):
            draw_cell(sheet, len(line), "end")
    draw_cuts(sheet, len(line), cut_left, cut_right)
    mark_cell(sheet, place - shown, place)
    what = f"it is {named(text[place])}" if place < len(text) else "the text ends before it"
    more = f"Offset {place} is byte {within} of line {number}; {what}."
    return finished(sheet, NARROWEST, 148, 1, title, [words, more])


def mark_cell(sheet, i, place):
    middle = MARGIN + (i + 0.5) * CELL
    with sheet.group("marks"):
        sheet.add("rect", class_="mark", x=middle - CELL / 2, y=66, width=CELL, height=TALL, rx=2, stroke_width=2.4)
        sheet.add("polygon", class_="head", points=f"{middle - 5},106 {middle + 5},106 {middle},97")
        sheet.text(max(MARGIN, middle - 26), 120, f"offset {place}", class_="bad", font_size=11)


def draw_cell(sheet, i, words):
    x, size = MARGIN + i * CELL, 15 if len(words) == 1 else 20 / len(words)
    sheet.add("rect", class_="cell", x=x, y=66, width=CELL, height=TALL)
    sheet.text(x + CELL / 2, 84, words, class_="byte", font_size=size, text_anchor="middle")


def draw_cuts(sheet, count, left, right):
    """Three dots where the line goes on."""
    if left:
        sheet.text(MARGIN - 3, 84, "…", text_anchor="end", font_size=14)
    if right:
        sheet.text(MARGIN + count * CELL + 4, 84, "…", font_size=14)
