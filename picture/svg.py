"""A sheet that collects SVG shapes as text, with escaping, and the colours that all pictures share.

Blue, orange and near black stay apart for colour-blind readers; marks are magenta and, besides, dashed or ringed. The
ring with the fewest nets is blue, as no copper is drawn beside it, and its columns are capped.
"""
from contextlib import contextmanager
from html import escape

STYLE = """
text { font-family: 'DejaVu Sans', Verdana, Arial, sans-serif; fill: #1d2733 }
.title, .net { font-weight: bold }
.paper { fill: #fcfcfa }
.board { fill: #eff2f0; stroke: #8d989c }
.column, .track { stroke: #cdd5d8 }
.column-number, .track-number, .side { fill: #5b676d }
.no-pin { fill: #a9b2b6 }
.pin { fill: #46525a }
.parked-pin { fill: #fcfcfa; stroke: #46525a }
.trunk { stroke: #0f6cab; stroke-linecap: round }
.gap { stroke: #eff2f0; fill: none }
.paper-gap { stroke: #fcfcfa }
.branch { stroke: #e58613 }
.contact { fill: #14181b }
.good { fill: #0f6cab; font-weight: bold }
.bad { fill: #a8005c; font-weight: bold }
.band { fill: #a8005c; fill-opacity: 0.13 }
.ring-pin { fill: #a8005c }
.mark { fill: none; stroke: #a8005c }
.piece-mark { fill: #a8005c; fill-opacity: 0.1; stroke: #a8005c }
.partner { fill: none; stroke: #a8005c }
.above { stroke: #a8005c; fill: none }
.head { fill: #a8005c }
.same { stroke: #5b676d; fill: none }
.pill { fill: #ffffff; stroke: #a8005c }
.cap, .fewest-pin, .fewest-head { fill: #0f6cab }
.fewest-above { stroke: #0f6cab; fill: none }
.fewest-same { stroke: #0f6cab; stroke-opacity: 0.7; fill: none }
.fewest-pill { fill: #ffffff; stroke: #0f6cab }
.cell { fill: #eff2f0; stroke: #cdd5d8 }
.byte { font-family: 'DejaVu Sans Mono', Consolas, monospace }
"""


def short(value):
    """A number with at most two decimals, as briefly as it can be written."""
    return f"{value:.2f}".rstrip("0").rstrip(".") if isinstance(value, float) else str(value)


def words_wide(words, size):
    """About how wide a text is; no font is measured."""
    return 0.55 * size * len(words)


def digits_wide(count, size):
    """As wide as so many bold digits are in a wide font."""
    return 0.68 * size * count


def dashes(unit):
    return f"{short(5 * unit)} {short(3.5 * unit)}"


class Sheet:
    """Shapes in the order in which they are painted."""

    def __init__(self):
        self.parts = []

    def _open(self, name, attributes):
        written = "".join(f' {key.rstrip("_").replace("_", "-")}="{escape(short(value))}"'
                          for key, value in attributes.items())
        return f"<{name}{written}"

    def add(self, name, title=None, **attributes):
        """A shape; `class_` is its class, an underscore in a name is a hyphen. The title shows when pointed at."""
        end = "/>" if title is None else f"><title>{escape(title, quote=False)}</title></{name}>"
        self.parts.append(self._open(name, attributes) + end)

    def text(self, x, y, words, **attributes):
        self.parts.append(f"{self._open('text', dict(x=x, y=y, **attributes))}>{escape(words, quote=False)}</text>")

    def turned(self, x, y, words, **attributes):
        """A text that reads upwards from its place."""
        self.text(x, y, words, transform=f"rotate(-90 {short(x)} {short(y)})", **attributes)

    @contextmanager
    def group(self, class_, **attributes):
        self.parts.append(self._open("g", dict(class_=class_, **attributes)) + ">")
        yield
        self.parts.append("</g>")

    def document(self, width, height, title):
        """The whole file, on its own background so that it reads on light and dark pages."""
        w, h = short(width), short(height)
        root = f'<svg xmlns="http://www.w3.org/2000/svg" width="{w}" height="{h}" viewBox="0 0 {w} {h}" role="img">'
        paper = '<rect class="paper" width="100%" height="100%"/>'
        words = f"<title>{escape(title, quote=False)}</title>"
        return "\n".join([root, words, f"<style>{STYLE}</style>", paper, *self.parts, "</svg>", ""])
