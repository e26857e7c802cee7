"""The lines that the programs write, taken apart. Only a whole output of a known form is an answer."""
import re
from collections import namedtuple

from command import refusals

NUMBER = rb"(0|[1-9][0-9]{0,9})"
GOOD = re.compile(rb"GOOD " + NUMBER + rb"\n")
BLANK = re.compile(rb"BLANK " + NUMBER + rb"\n")
RING = rb"RING " + NUMBER + rb" " + NUMBER + rb"\n"
REFUSED = re.compile(rb"REFUSED " + NUMBER + rb" " + NUMBER + rb"\n(?:" + RING + rb")*")
FEWEST = re.compile(rb"NONE\n|(?:" + RING + rb")+")
NET = rb"NET " + rb" ".join([NUMBER] * 4) + rb"\n"
LISTING = re.compile(
    rb"BOARD " + rb" ".join([NUMBER] * 3) + rb"\nBOUND " + NUMBER + rb" " + NUMBER + rb"\n(?:" + NET + rb")*"
    rb"END " + NUMBER + rb"\n")
ROW = rb"(?: " + NUMBER + rb")+\n"
PIN_LIST = re.compile(rb"TOP" + ROW + rb"BOT" + ROW)

Facts = namedtuple("Facts", "width tracks blank density chain pieces")
Blank = namedtuple("Blank", "tracks")
Ring = namedtuple("Ring", "pairs")  # of net and column; none where there is no ring
# word is GOOD or REFUSED; place is the tracks of a good board; ring has pairs of net and column
Verdict = namedtuple("Verdict", "word number place ring")


def line(word, *numbers):
    """A line as the programs write it."""
    return " ".join([word, *map(str, numbers)]).encode() + b"\n"


def numbers_of(match, *groups):
    return [int(match.group(at)) for at in groups]


def pairs_of(lines):
    """The pairs of RING lines."""
    return tuple(tuple(map(int, line.split()[1:])) for line in lines)


def refusal_of(output):
    """The refusal or fault that an output is, or None. Only refusal 7 has a ring, with as many pairs as it says."""
    match = REFUSED.fullmatch(output)
    if match is None:
        return None
    number, place = numbers_of(match, 1, 2)
    ring = pairs_of(output.splitlines()[1:])
    if number not in refusals.NUMBERS or len(ring) != (place if number == 7 else 0):
        return None
    return Verdict("REFUSED", number, place, ring)


def verdict_of(output):
    """GOOD and its tracks, or a refusal; None for any other output."""
    match = GOOD.fullmatch(output)
    return Verdict("GOOD", 0, int(match.group(1)), ()) if match else refusal_of(output)


def blank_of(output):
    """The blank that an output names; None for any other output."""
    match = BLANK.fullmatch(output)
    return Blank(int(match.group(1))) if match else None


def ring_of(output):
    """The ring that an output is, or that there is none; None for any other output."""
    if FEWEST.fullmatch(output) is None:
        return None
    return Ring(() if output == b"NONE\n" else pairs_of(output.splitlines()))


def facts_of(output):
    """What a listing says of its board; None for any other output."""
    match = LISTING.fullmatch(output)
    return Facts(*numbers_of(match, 1, 2, 3, 4, 5, match.re.groups)) if match else None


def nets_of(listing):
    """The four numbers of each NET line of a listing."""
    return [tuple(map(int, words.split()[1:])) for words in listing.splitlines() if words.startswith(b"NET ")]


def is_pin_list(output):
    """Whether an output is a pin list as the programs write one, with one space before each number."""
    return PIN_LIST.fullmatch(output) is not None
