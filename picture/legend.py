"""The legend: a sample of each kind of shape in the picture, with its words, in as many lines as the sheet needs."""
from picture.svg import dashes, words_wide

WORDS = {
    "trunk": "trunk side",
    "branch": "branch side",
    "contact": "contact: the sides are joined",
    "crossing": "crossing: not joined",
    "pin": "pin with its net",
    "parked": "parked pin: its number stands just once",
    "mark": "the place of the fault",
    "refused": "the refused place",
    "ring": "pin of the ring",
    "piece": "floating piece",
    "partner": "first pin of its net",
    "above": "the upper net's trunk must lie above the lower net's",
    "same": "the same net again",
    "fewest": "column of the ring with the fewest nets",
    "fewest-same": "the same net again in that ring",
    "second": "the second list begins in column {}",
}
SAMPLE = 26


def draw_legend(sheet, kinds, width, y, unit, second=None):
    """Answers where the next thing below may stand. The second is the column that the words of that kind name."""
    size, x, margin = 12 * unit, 24 * unit, 24 * unit
    with sheet.group("legend", font_size=size, stroke_width=4 * unit):
        for kind in kinds:
            words = WORDS[kind].format(second)
            room = (SAMPLE + 8) * unit + words_wide(words, size) + 14 * unit
            if x > margin and x + room > width - margin:
                x, y = margin, y + 22 * unit
            draw_sample(sheet, kind, x, y, unit)
            sheet.text(x + (SAMPLE + 8) * unit, y + 4 * unit, words)
            x += room
    return y + 32 * unit


def draw_sample(sheet, kind, x, y, u):
    end, middle = x + SAMPLE * u, x + SAMPLE * u / 2
    if kind in ("trunk", "contact", "crossing"):
        sheet.add("line", class_="trunk", x1=x, y1=y, x2=end, y2=y)
    if kind == "crossing":
        sheet.add("line", class_="paper-gap", x1=middle, y1=y - 9 * u, x2=middle, y2=y + 9 * u, stroke_width=7 * u)
    if kind in ("contact", "crossing"):
        sheet.add("line", class_="branch", x1=middle, y1=y - 9 * u, x2=middle, y2=y + 9 * u)
    if kind == "branch":
        sheet.add("line", class_="branch", x1=x, y1=y, x2=end, y2=y)
    if kind == "contact":
        sheet.add("circle", class_="contact", cx=middle, cy=y, r=4.5 * u)
    if kind == "pin":
        sheet.add("rect", class_="pin", x=middle - 5 * u, y=y - 5 * u, width=10 * u, height=10 * u)
    if kind == "parked":
        sheet.add("rect", class_="parked-pin", x=middle - 4 * u, y=y - 4 * u, width=8 * u, height=8 * u,
                  stroke_width=2 * u)
    if kind == "ring":
        sheet.add("rect", class_="ring-pin", x=middle - 5 * u, y=y - 5 * u, width=10 * u, height=10 * u)
    if kind in ("mark", "refused", "partner"):
        sheet.add("rect", class_="mark", x=middle - 6 * u, y=y - 9 * u, width=12 * u, height=18 * u, rx=3 * u,
                  stroke_width=2 * u, stroke_dasharray=dashes(0.7 * u) if kind == "partner" else "none")
    if kind == "piece":
        sheet.add("rect", class_="piece-mark", x=x, y=y - 6 * u, width=SAMPLE * u, height=12 * u, rx=5 * u,
                  stroke_width=1.6 * u, stroke_dasharray=dashes(u))
    if kind == "above":
        draw_arrow(sheet, middle, y - 9 * u, y + 9 * u, u)
    if kind == "same":
        sheet.add("line", class_="same", x1=x, y1=y, x2=end, y2=y, stroke_width=1.4 * u, stroke_dasharray=dashes(u))
    if kind == "fewest":
        sheet.add("rect", class_="cap", x=middle - 8 * u, y=y - 9 * u, width=16 * u, height=4 * u)
        sheet.add("rect", class_="fewest-pin", x=middle - 5 * u, y=y - 3 * u, width=10 * u, height=10 * u)
    if kind == "fewest-same":
        sheet.add("line", class_="fewest-same", x1=x, y1=y, x2=end, y2=y, stroke_width=2.2 * u)
    if kind == "second":
        draw_second(sheet, middle, y - 9 * u, y + 9 * u, u, 2 * u)


def draw_second(sheet, x, high, low, unit, wide):
    """A dashed line straight down, before the first column of a panel's second list. It has its colour with it, so that
    the style of other pictures need not name it."""
    sheet.add("line", class_="second", stroke="#1d2733", x1=x, y1=high, x2=x, y2=low, stroke_width=wide,
              stroke_dasharray=dashes(unit))


def draw_arrow(sheet, x, high, low, unit, of=""):
    """An arrow straight down, its head ending at the low place; its classes begin with the name of what it is of."""
    sheet.add("line", class_=f"{of}above", x1=x, y1=high, x2=x, y2=low - 6 * unit, stroke_width=2 * unit)
    corners = ((x - 4.5 * unit, low - 8 * unit), (x + 4.5 * unit, low - 8 * unit), (x, low))
    points = " ".join(f"{across:.2f},{down:.2f}" for across, down in corners)
    sheet.add("polygon", class_=f"{of}head", stroke="none", points=points)
