"""Where the parts of the command stand: in the tree of its sources, or where ./install has put them."""
from pathlib import Path

ROOT = Path(__file__).resolve().parent.parent
IN_SOURCES = (ROOT / "crates.txt").exists()
TARGET = ROOT / "target"
PROGRAMS = TARGET / "bin" if IN_SOURCES else ROOT / "bin"
LIBRARY = TARGET / "staticlib" / "libscreen_api.a"
ORDER_SCREEN = TARGET / "order" if IN_SOURCES else ROOT / "bin" / "order"
CHOOSER = TARGET / "choose" if IN_SOURCES else ROOT / "bin" / "choose"
VERSION = ROOT / "VERSION"


def shown(path):
    """A path inside the root as a user in that folder would write it."""
    return str(path.relative_to(ROOT)) if path.is_relative_to(ROOT) else str(path)
