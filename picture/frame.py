"""The frame of every channel picture: title, numbered grid and pins, and below them legend and caption.

A frame without tracks has its two pin rows one tall step apart.
"""
import textwrap

from command.parked import parked_of, parked_words
from picture.legend import draw_legend, draw_second
from picture.svg import Sheet, dashes, digits_wide

NARROWEST = 640  # the width of a sheet at which legend and caption still read well
COLUMN_STEPS = ((14, 48), (28, 36), (56, 24), (110, 16), (220, 12))
TRACK_STEPS = ((12, 36), (24, 26), (64, 16), (160, 10))
LONGEST_LABEL = 6


def step(table, count, least):
    return next((size for limit, size in table if count <= limit), least)


def thinned(count, size, room):
    """Which of the numbers 1 to count get a label: all, or multiples of a round number that leaves them room."""
    every = next(n for n in (1, 2, 5, 10, 20, 50, 100, 200, 500) if n * size >= room)
    return [n for n in range(1, count + 1) if n % every == 0 or (n == 1 and every >= 5)]


def labelled(net):
    """A net's number as its pin shows it: one that is far too high is cut off."""
    return net if len(net) <= LONGEST_LABEL else net[:LONGEST_LABEL - 1] + "…"


class Frame:
    def __init__(self, rows, tracks, second=None, column_step=None, track_step=None):
        self.rows, self.tracks, self.second, self.sheet = rows, tracks, second, Sheet()
        self.columns = max(map(len, rows))
        self.dx = column_step or step(COLUMN_STEPS, self.columns, 9)
        self.unit = max(1.0, self.columns * self.dx / 1100)  # texts grow with the sheet, which may be shown small
        self.dy = track_step or step(TRACK_STEPS, tracks, 7)
        self.dy *= 1 if tracks else self.unit
        self.pad = min(0.34 * self.dx, 13)
        self._measure_labels()
        across = self.columns * self.dx
        self.width = max(NARROWEST, across + 108 * self.unit)
        self.left = max(80 * self.unit, (self.width - across) / 2)
        self.top = 78 * self.unit + self.label_room + self.pad / 2
        self.copper = max(1.6, min(7, 0.19 * min(self.dx, self.dy)))

    def _measure_labels(self):
        """Net numbers stand upright where columns are wide enough for the longest, else they are turned."""
        longest = max(len(labelled(net)) for row in self.rows for net in row)
        self.upright = digits_wide(longest, 14) + 3 <= self.dx
        self.label_size = 14 if self.upright else min(13, 0.8 * self.dx)
        self.label_room = 20 if self.upright else digits_wide(longest, self.label_size) + 7

    def x(self, column):
        return self.left + (column - 0.5) * self.dx

    def y(self, row):
        return self.top + (self.tracks + 1 - row) * self.dy

    def pin_place(self, position):
        """Side, column and row of a pin position: 1 to w for TOP, then BOT."""
        w = len(self.rows[0])
        return ("TOP", position, self.tracks + 1) if position <= w else ("BOT", position - w, 0)

    def draw_title(self, title, status, good):
        u, middle, style = self.unit, self.width / 2, "good" if good else "bad"
        size = min(16 * u, (self.width - 24 * u) / (0.65 * len(title)))
        self.sheet.text(middle, 26 * u, title, class_="title", font_size=size, text_anchor="middle")
        self.sheet.text(middle, 46 * u, status, class_=style, font_size=13 * u, text_anchor="middle")

    def draw_grid(self):
        """The board with a light line for each column and track, numbered where numbers have room."""
        sheet, u, right = self.sheet, self.unit, self.left + self.columns * self.dx
        sheet.add("rect", class_="board", x=self.left, y=self.y(self.tracks + 1), width=right - self.left,
                  height=self.y(0) - self.y(self.tracks + 1), stroke_width=1.2)
        with sheet.group("grid", stroke_width=min(1, 0.1 * self.dx)):
            for c in range(1, self.columns + 1):
                sheet.add("line", class_="column", x1=self.x(c), y1=self.y(self.tracks + 1), x2=self.x(c), y2=self.y(0))
            for t in range(1, self.tracks + 1):
                sheet.add("line", class_="track", x1=self.left, y1=self.y(t), x2=right, y2=self.y(t))
        with sheet.group("numbers", font_size=10.5 * u):
            room = digits_wide(len(str(self.columns)), 10.5 * u) + 5 * u
            for c in thinned(self.columns, self.dx, room):
                sheet.text(self.x(c), 70 * u, str(c), class_="column-number", text_anchor="middle")
            for t in thinned(self.tracks, self.dy, 14 * u):
                sheet.text(self.left - 8 * u, self.y(t) + 4 * u, str(t), class_="track-number", text_anchor="end")
        self._draw_sides()
        if self.second is not None:
            self._draw_second()

    def _draw_sides(self):
        u, edge = self.unit, self.left - 32 * self.unit
        with self.sheet.group("sides", font_size=10.5 * u):
            self.sheet.text(edge, 70 * u, "column", class_="side", text_anchor="end")
            self.sheet.text(edge, self.y(self.tracks + 1) + 4 * u, "TOP", class_="side", text_anchor="end")
            self.sheet.text(edge, self.y(0) + 4 * u, "BOT", class_="side", text_anchor="end")
            if self.tracks:
                middle = self.y((self.tracks + 1) / 2)
                self.sheet.turned(edge, middle, "track", class_="side", text_anchor="middle")

    def _draw_second(self):
        """A line before the first column of a panel's second list, from the TOP labels to the BOT labels."""
        (high, low), x = self._labels_end(), self.left + (self.second - 1) * self.dx
        with self.sheet.group("panel"):
            draw_second(self.sheet, x, high, low, self.unit, min(2 * self.unit, 0.4 * self.dx))

    def draw_pins(self):
        """A square for each pin with its net outside the board, a pale 0 where there is none."""
        with self.sheet.group("pins", font_size=self.label_size):
            for row, nets in ((self.tracks + 1, self.rows[0]), (0, self.rows[1])):
                for c, net in enumerate(nets, 1):
                    if net != "0":
                        self._draw_square(c, row, self.pad, class_="pin")
                    self._draw_net(c, row, labelled(net))

    def draw_parked(self):
        """A hollow square over each parked pin's own, in rows that escape refusals 3 to 5. Answers what the legend and
        the caption add."""
        parked, line = parked_of(self.rows), min(2.2, 0.22 * self.pad)
        if not parked:
            return [], []
        with self.sheet.group("parked", stroke_width=line):
            for position in parked:
                _, column, row = self.pin_place(position)
                self._draw_square(column, row, self.pad - line, class_="parked-pin")
        return ["parked"], [parked_words(self.rows)]

    def _draw_square(self, column, row, size, class_):
        self.sheet.add("rect", class_=class_, x=self.x(column) - size / 2, y=self.y(row) - size / 2, width=size,
                       height=size)

    def _draw_net(self, column, row, net):
        x, y, side = self.x(column), self.y(row), 1 if row == 0 else -1
        style = "no-pin" if net == "0" else "net"
        away = y + side * (self.pad / 2 + 5)
        if self.upright:
            self.sheet.text(x, away + (11 if side > 0 else 0), net, class_=style, text_anchor="middle")
        else:
            self.sheet.turned(x + 0.36 * self.label_size, away, net, class_=style,
                              text_anchor="end" if side > 0 else "start")

    def _labels_end(self):
        """Where the labels of TOP begin and those of BOT end."""
        return (self.y(self.tracks + 1) - self.pad / 2 - self.label_room, self.y(0) + self.pad / 2 + self.label_room)

    def draw_bands(self, columns):
        """Tints columns from the TOP label to the BOT label."""
        high, low = self._labels_end()
        with self.sheet.group("bands"):
            for column in sorted(set(columns)):
                self.sheet.add("rect", class_="band", x=self.x(column) - self.dx / 2, y=high, width=self.dx,
                               height=low - high)

    def draw_caps(self, columns):
        """A bar over the TOP label of each column, below its number, and one under the BOT label."""
        (high, low), u, wide = self._labels_end(), self.unit, 0.84 * self.dx
        with self.sheet.group("caps"):
            for column in sorted(set(columns)):
                for y in (high - 6.5 * u, low + 0.5 * u):
                    self.sheet.add("rect", class_="cap", x=self.x(column) - wide / 2, y=y, width=wide, height=6 * u)

    def mark_pin(self, column, row, class_="mark"):
        """A box round a pin and its net, large enough to be found on a sheet shown small; a partner's is dashed."""
        half = max(0.4 * self.dx, self.pad / 2 + 3, 5 * self.unit)
        inner = max(self.pad / 2 + 4, half / 2)
        outer = self.pad / 2 + self.label_room + 3
        self.sheet.add("rect", class_=class_, x=self.x(column) - half, y=self.y(row) - (inner if row == 0 else outer),
                       width=2 * half, height=inner + outer, rx=half / 3, stroke_width=2.2 * self.unit,
                       stroke_dasharray=dashes(self.unit) if class_ == "partner" else "none")

    def finish(self, title, kinds, sentences):
        """Legend and caption; answers the whole file."""
        below = self._labels_end()[1] + 24 * self.unit
        kinds = [*kinds, *(() if self.second is None else ("second",))]
        below = draw_legend(self.sheet, kinds, self.width, below, self.unit, self.second)
        return finished(self.sheet, self.width, below, self.unit, title, sentences)


def finished(sheet, width, below, unit, title, sentences):
    """Writes the caption, wrapped to the sheet, and ends the picture below it."""
    size = 13 * unit
    with sheet.group("caption", font_size=size):
        for sentence in filter(None, sentences):
            sentence = sentence[0].upper() + sentence[1:].rstrip(".") + "."
            for line in textwrap.wrap(sentence, int((width - 48 * unit) / (0.57 * size))):
                sheet.text(24 * unit, below, line)
                below += 19 * unit
    return sheet.document(width, below + 8 * unit, title)
