"""A picture read back: its shapes, and the points of the grid that they stand for."""
import xml.etree.ElementTree as ET

SVG = "{http://www.w3.org/2000/svg}"


class Sheet:
    """A picture of a channel with so many tracks, or of a text."""

    def __init__(self, output, tracks):
        self.root, self.tracks = ET.fromstring(output), tracks
        self.board = next((e for e in self.root.iter(SVG + "rect") if e.get("class") == "board"), None)
        self.columns = sum(e.get("class") == "column" for e in self.root.iter(SVG + "line"))

    def inside(self, group, *classes):
        """The shapes of these classes in the groups of a name."""
        return [e for g in self.root.iter(SVG + "g") if g.get("class") == group for e in g.iter()
                if e.get("class") in classes]

    def words(self):
        return " ".join(e.text or "" for e in self.root.iter(SVG + "text"))

    def point(self, x, y):
        """Column and row of a place on the sheet."""
        left, top, width, height = (float(self.board.get(k)) for k in ("x", "y", "width", "height"))
        return (x - left) / width * self.columns + 0.5, (top + height - y) / height * (self.tracks + 1)

    def grid_point(self, x, y):
        """The same, where it has to be a point of the grid."""
        exact = self.point(float(x), float(y))
        whole = tuple(map(round, exact))
        return whole if max(abs(a - b) for a, b in zip(exact, whole)) < 0.03 else ("off the grid", exact)

    def middle(self, e):
        """The point in the middle of a rectangle."""
        x, y, w, h = (float(e.get(k)) for k in ("x", "y", "width", "height"))
        return self.grid_point(x + w / 2, y + h / 2)
