"""The cells of a terminal of the xterm kind, as far as ncurses makes use of it; anything else is a failure."""
import codecs
import re


class Unknown(Exception):
    """Something sent that this terminal does not know."""


class Grid:
    SEQUENCE = re.compile(r"\x1b(?:\[(\??)([0-9;]*)([A-Za-z@])|[()][0AB]|[=>M78])")
    FIRST_MODES = {7, 25}  # on when a terminal starts: lines wrap, the cursor is shown

    def __init__(self, rows, across):
        self.decoder, self.rest = codecs.getincrementaldecoder("utf-8")(), ""
        self.modes, self.bells = set(self.FIRST_MODES), 0
        self.styles, self.last = set(), " "
        self.resize(rows, across)

    def resize(self, rows, across):
        """A new size begins with an empty screen: what a terminal keeps is its own affair."""
        self.rows, self.across, self.y, self.x, self.wraps = rows, across, 0, 0, False
        self.top, self.bottom = 0, rows - 1
        self.cells = [self.blank_line() for _ in range(rows)]

    def blank_line(self):
        return [(" ", ())] * self.across

    def feed(self, data):
        self.rest += self.decoder.decode(data)
        while self.rest:
            if self.rest[0] == "\x1b":
                match = self.SEQUENCE.match(self.rest)
                if not match:
                    if len(self.rest) > 20:
                        raise Unknown(f"an escape that this terminal does not know: {self.rest[:20]!r}")
                    return
                self.rest = self.rest[match.end():]
                self.escape(match)
            else:
                character, self.rest = self.rest[0], self.rest[1:]
                self.put(character)

    def put(self, character):
        if character == "\a":
            self.bells += 1
        elif character == "\b":
            self.go(self.y, self.x - 1)
        elif character == "\r":
            self.go(self.y, 0)
        elif character == "\n":
            self.line_feed()
        elif character >= " ":
            self.glyph(character)
        else:
            raise Unknown(f"a control character that this terminal does not know: {character!r}")

    def glyph(self, character):
        if self.wraps:
            self.go(self.y, 0)
            self.line_feed()
        self.cells[self.y][self.x] = (character, tuple(sorted(self.styles)))
        self.last = character
        self.wraps = self.x == self.across - 1
        self.x = min(self.x + 1, self.across - 1)

    def go(self, y, x):
        self.y, self.x, self.wraps = max(0, min(y, self.rows - 1)), max(0, min(x, self.across - 1)), False

    def line_feed(self):
        if self.y == self.bottom:
            self.scroll(1, self.top)
        else:
            self.go(self.y + 1, self.x)

    def line_back(self):
        if self.y == self.top:
            self.scroll(-1, self.top)
        else:
            self.go(self.y - 1, self.x)

    def scroll(self, count, first):
        """Lines first to bottom go up by count, or down if it is below 0."""
        for _ in range(abs(count)):
            if count > 0:
                del self.cells[first]
                self.cells.insert(self.bottom, self.blank_line())
            else:
                del self.cells[self.bottom]
                self.cells.insert(first, self.blank_line())

    def escape(self, match):
        private, parameters, final = match.groups()
        if final is None:
            if match.group() == "\x1bM":
                self.line_back()
            return
        numbers = [int(n or 0) for n in parameters.split(";")]
        if private and final in "hl":
            for mode in numbers:
                (self.modes.add if final == "h" else self.modes.discard)(mode)
        elif final == "m":
            self.style(numbers)
        elif not private and final not in "hlt":
            self.control(final, numbers, numbers[0] or 1)

    def style(self, numbers):
        for n in numbers:
            if n == 0:
                self.styles = set()
            elif n in (22, 27, 39, 49):
                gone = {22: {1, 2}, 27: {7}, 39: set(range(30, 38)), 49: set(range(40, 48))}[n]
                self.styles -= gone
            elif n in (1, 2, 7) or 30 <= n <= 37:
                self.styles = {s for s in self.styles if n < 30 or s < 30} | {n}
            else:
                raise Unknown(f"a style that this terminal does not know: {n}")

    def control(self, final, numbers, count):
        row = self.cells[self.y]
        if final == "H":
            self.go(count - 1, (numbers + [1])[1] - 1 if len(numbers) > 1 else 0)
        elif final in "ABCD":
            self.go(self.y + {"A": -count, "B": count}.get(final, 0), self.x + {"C": count, "D": -count}.get(final, 0))
        elif final in "Gd":
            self.go(*((self.y, count - 1) if final == "G" else (count - 1, self.x)))
        elif final in "JKX":
            self.erase(final, numbers[0], count)
        elif final in "P@":
            for _ in range(count):
                row.insert(*((self.across, (" ", ())) if final == "P" else (self.x, (" ", ()))))
                del row[self.x if final == "P" else self.across]
        elif final in "LMST":
            self.scroll(count if final in "MS" else -count, self.y if final in "LM" else self.top)
        elif final == "b":
            for _ in range(count):
                self.glyph(self.last)
        elif final == "r":
            self.top, self.bottom = count - 1, (numbers[1] if len(numbers) > 1 else self.rows) - 1
            self.go(0, 0)
        else:
            raise Unknown(f"an escape that this terminal does not know: {numbers}{final}")

    def erase(self, final, which, count):
        first, last = {0: (self.x, self.across), 1: (0, self.x + 1), 2: (0, self.across)}[which if final != "X" else 0]
        last = min(last, self.x + count) if final == "X" else last
        self.cells[self.y][first:last] = [(" ", ())] * (last - first)
        for y in range(self.rows if final == "J" else 0):
            if (which in (0, 2) and y > self.y) or (which in (1, 2) and y < self.y):
                self.cells[y] = self.blank_line()

    def line(self, y):
        return "".join(c for c, _ in self.cells[y]).rstrip() if y < self.rows else ""

    def cells_marked(self, y):
        """The cells of a line that are shown reversed."""
        return [x for x, (_, style) in enumerate(self.cells[y]) if 7 in style]
