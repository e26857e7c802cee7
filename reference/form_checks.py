"""The form of a text by other means than the expression in channel.py: places worked out by hand, and a table of states
that is walked byte by byte, on all short ways to go on at each turn of the form.

Usage: python3 reference/form_checks.py
"""
import itertools
import sys

sys.dont_write_bytecode = True  # the modules below leave nothing beside them

import channel

PLACES = {  # where each text is garbled
    b"": 0, b" TOP 1": 0, b"\rTOP 1": 0, b"TOP": 3, b"TOP\t1": 3, b"TOP\r\n": 3, b"TOP\xa01": 3, b"TOP \xa01": 4,
    b"TOP \r\n": 4, b"TOP  \n": 5, b"TOP 01": 5, b"TOP   01": 7, b"TOP 1\t2": 5, b"TOP 1 \t2": 6, b"TOP 1  ": 7,
    b"TOP 1 \n": 6, b"TOP 1  \r\n": 7, b"TOP 1\r": 6, b"TOP 1\rX": 6, b"TOP 1\r\r\n": 6, b"TOP 1\r \n": 6,
    b"TOP 1\r 2": 6, b"TOP 1\n\rBOT": 6, b"TOP 1\n BOT": 6, b"TOP 1\r\n\r\nBOT 1\n": 7, b"TOP 1\r\nBOT 1\r": 13,
    b"TOP 1\r\nBOT 1\r1": 13, b"TOP 1\r\nBOT 1\r\n\r\n": 14, b"TOP 1\nBOT 1\n ": 12,
    b"TOP   1   2\r\nBOT   2   1\nx": 25, b"TOP" + b" " * 65533: 65536,
}
ROWS = {  # texts of the form
    b"TOP 1 2\nBOT 2 1\n": [[1, 2], [2, 1]],
    b"TOP   1   2\r\nBOT   2   1\n": [[1, 2], [2, 1]],
    b"TOP   1  10 511\r\nBOT 511   0   1\r\n": [[1, 10, 511], [511, 0, 1]],
    b"TOP  0\nBOT 0 0\r\n": [[0], [0, 0]],
    b"TOP" + b" " * 65524 + b"1\nBOT 511\n": [[1], [511]],
}
# What may stand in a line behind its word, and where that leads. A digit from 1 up is written 1.
STEPS = {
    "word": {b" ": "gap"},
    "gap": {b" ": "gap", b"0": "zero", b"1": "number"},
    "zero": {b" ": "gap", b"\r": "return", b"\n": "end"},
    "number": {b" ": "gap", b"0": "number", b"1": "number", b"\r": "return", b"\n": "end"},
    "return": {b"\n": "end"},
}
STARTS = (b"", b"TOP", b"TOP 0", b"TOP  1", b"TOP 1\r\n", b"TOP 10\nBOT", b"TOP 1\r\nBOT 0 ", b"TOP 0\nBOT 11")
LETTERS, LONGEST = b"TB 01\r\n\t", 4


def answered(text):
    """The rows of a text by channel.py, or the place where it is garbled."""
    try:
        return channel.parse(text)
    except channel.Refused as refusal:
        return refusal.place


def walked(text):
    """The same by the table of states."""
    at, rows = 0, []
    for word in (b"TOP", b"BOT"):
        for letter in word:
            if text[at:at + 1] != bytes([letter]):
                return at
            at += 1
        state, numbers = "word", b""
        while state != "end":
            byte = text[at:at + 1]
            state = STEPS[state].get(b"1" if byte.isdigit() and byte != b"0" else byte)
            if state is None:
                return at
            numbers, at = numbers + byte, at + 1
        rows.append([int(number) for number in numbers.split()])
    return rows if at == len(text) else at


def short_texts():
    """Each start with all that follows it in up to so many letters."""
    for start in STARTS:
        for length in range(LONGEST + 1):
            for letters in itertools.product(LETTERS, repeat=length):
                yield start + bytes(letters)


def faults():
    """What channel.py answers otherwise, in words."""
    for text, due in [*PLACES.items(), *ROWS.items()]:
        if answered(text) != due or walked(text) != due:
            yield f"{text[:40]}: the form answers {answered(text)}, the states {walked(text)}, by hand {due}"
    for text in short_texts():
        if answered(text) != walked(text):
            yield f"{text}: the form answers {answered(text)}, the states {walked(text)}"


if __name__ == "__main__":
    FOUND = list(faults())
    print("\n".join(FOUND) or f"the form: {len(PLACES) + len(ROWS)} texts by hand and {sum(1 for _ in short_texts())} "
          "by the states are as due")
    sys.exit(bool(FOUND))
