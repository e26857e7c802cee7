"""Texts and rows for the cases program: each of refusals 2 to 5 and its neighbour that passes, plain and padded into
columns; parked pins."""

RETURNS = (b"\r\n", b"\r\n")


def line(word, row, wide=1, end=b"\n"):
    """A line with a space before each number, and more where it has fewer digits than the width."""
    return word + b"".join(b" %*d" % (wide, n) for n in row) + end


def text(top, bot, wide=1, ends=(b"\n", b"\n")):
    return line(b"TOP", top, wide, ends[0]) + line(b"BOT", bot, wide, ends[1])


def in_columns(plain):
    """A text of the form as order screens pad it: in columns of four bytes, a carriage return before each line feed."""
    lines = (row.split() for row in plain.splitlines())
    return b"".join(word + b"".join(b" " + n.rjust(3) for n in row) + b"\r\n" for word, *row in lines)


def padded(top, bot):
    return in_columns(text(top, bot))


GOOD = text([0, 1, 2, 3], [1, 2, 0, 3])
PADDED = padded([0, 1, 2, 3], [1, 2, 0, 3])
BAD = (
    b"TOP 01", b"TOP 00\nBOT 0\n", b"TOP 0\nBOT 01\n", b"TOP\nBOT\n", b"TOP 1\n\nBOT 1\n", b"top 1\nBOT 1\n",
    b"BOT 1\nTOP 1\n", b"TOP 1\nTOP 1\n", b"TOP -1\nBOT 1\n", b"TOP +1\nBOT 1\n", b"TOP 1a\nBOT 1\n",
    b"TOP 1,1\nBOT 1 1\n", b"TOP 1\nBOT 1", b"TOP 1\nBOT 1\n\n", b"TOP 1\nBOT 1\nLEFT 1\n", b"TOP 1 BOT 1\n",
    b"\xff\xfe", b"\x00", b"TOP 1\x00\nBOT 1\n", b"TOP 9:\nBOT 1\n", b"TOP 9/\nBOT 1\n",
    # no space behind the word, spaces before it, spaces with no number behind them
    b"TOP1\nBOT 1\n", b" TOP 1\nBOT 1\n", b"TOP 1\n BOT 1\n", b"TOP \nBOT \n", b"TOP   ", b"TOP  \nBOT 1\n",
    b"TOP 1 ", b"TOP 1 \nBOT 1\n", b"TOP 1  \r\nBOT 1\n", b"TOP 1\nBOT 1 \n", b"TOP 1\nBOT 1   \r\n",
    b"TOP 1\nBOT 1\n ", b"TOP   01\nBOT 1\n", b"TOP 1\nBOT 1  00\n",
    # carriage returns without a line feed behind them, or where no line may end
    b"TOP 1\r", b"TOP 1\rX", b"TOP 1\rBOT 1\r", b"TOP 1\r\r\nBOT 1\n", b"TOP 1\r \nBOT 1\n", b"TOP 1\r2\nBOT 1\n",
    b"TOP 1\n\rBOT 1\n\r", b"\rTOP 1\nBOT 1\n", b"\r\nTOP 1\nBOT 1\n", b"TOP\r\nBOT\r\n", b"TOP \r\nBOT 1\r\n",
    b"TOP\r 1\nBOT 1\n", b"TOP 1\r\n\r\nBOT 1\r\n", b"TOP 1\nBOT 1\r", b"TOP 1\nBOT 1\r\r\n", b"TOP 1\nBOT 1\n\r\n",
    b"TOP 1\r\nBOT 1\r\n\r", b"TOP 01\r\nBOT 1\r\n",
    # what only looks like a space
    b"TOP\t1\nBOT 1\n", b"TOP \t1\nBOT 1\n", b"TOP 1\t2\nBOT 1 2\n", b"TOP 1 2\t\nBOT 1 2\n", b"TOP\xa01\nBOT 1\n",
    b"TOP \xc2\xa01\nBOT 1\n", b"TOP\x0b1\nBOT 1\n", b"TOP 1\x0c\nBOT 1\n", b"TOP 1\x85BOT 1\n",
    b"TOP   1   2\r\nBOT   2   1\nx", b"TOP" + b" " * 60000,
)


def garbled(cases):
    for good in (GOOD, PADDED):
        for end in range(len(good) + 1):  # every cut, and the whole
            cases.read(good[:end])
    for bad in BAD:
        cases.read(bad)
    for place in range(len(GOOD)):  # one byte changed at each place
        cases.read(GOOD[:place] + b"x" + GOOD[place + 1:])
    for place in range(len(PADDED)):  # each byte of space, where it belongs and where it does not
        for byte in (b" ", b"\r", b"\n", b"\t"):
            if byte != PADDED[place:place + 1]:
                cases.read(PADDED[:place] + byte + PADDED[place + 1:])


def spaced(cases):
    """Texts of the form: spaces that differ from number to number, and line ends that differ from line to line."""
    for good in (b"TOP  1\nBOT 1\n", b"TOP 1\nBOT   1\n", b"TOP 1 0\r\nBOT 0 1\n", b"TOP 1 0\nBOT 0 1\r\n",
                 b"TOP 1  2     3\r\nBOT    3 2  1\r\n", b"TOP   0\r\nBOT 0\r\n", b"TOP  10  0\nBOT 0  10\n",
                 b"TOP" + b" " * 60000 + b"1\r\nBOT 1\n"):
        cases.read(good)


def read_both(cases, top, bot):
    """The same rows, plain and padded: the answer is the same."""
    cases.read(text(top, bot))
    cases.read(padded(top, bot))


def refused(cases):
    for rows in (([511], [511]), ([512], [512]),  # example M
                 ([0] * 512, [0] * 512), ([0] * 513, [0] * 513), ([0] * 512, [0] * 513), ([0] * 600, [0]),
                 ([1, 1], [0]), ([1], [0, 1]), ([5, 600, 700], [0, 5, 0]), ([5, 0, 0], [0, 5, 999]),
                 ([3, 3, 3], [0, 0, 0]), ([7], [7]), ([0], [0]), ([510, 511], [511, 510])):
        read_both(cases, *rows)
    for digits in (6000, 60000):
        cases.read(b"TOP 1\nBOT " + b"7" * digits + b"\n")
    for high in (int("9" * 20), 2**32 + 1, 2**64 + 1):  # none may wrap to net 1 where 32 or 64 bits end
        read_both(cases, [high, 1], [1, 1])


def parked(cases):
    """Rows with parked pins are read as they stand; other refusals come as ever."""
    read_both(cases, [1, 0], [0, 0])  # example L
    for top, bot in (([1], [2]), ([2, 1, 2], [0, 0, 3]), ([1, 2, 2], [2, 1, 9]), ([511, 1], [0, 0]), ([0, 0], [0, 511]),
                     ([1, 512], [0, 0]), ([1, 0], [0]), ([1], [0, 0]), ([9] + [0] * 512, [0] * 513),
                     ([*range(1, 512), 0], [0] * 512), ([0] * 512, [0, *range(1, 512)])):
        read_both(cases, top, bot)
        cases.check(top, bot)


def rows(cases):
    for top, bot in (([], []), ([], [1]), ([1], []), ([0] * 512, [0] * 513), ([0] * 513, [0] * 512),
                     ([0] * 512, [0] * 512), ([0] * 513, [0] * 513), ([65535] * 513, []), ([512, 1], [1, 512]),
                     ([511, 1], [1, 511]), ([0, 65535], [65535, 512]), ([0, 0], [0, 512]), ([1], [2]), ([2, 1], [0, 0]),
                     ([1, 1, 1], [0, 0, 0]), ([1], [1]), ([0], [0]), ([3, 0, 9], [0, 9, 0]), ([600], [0, 0]),
                     ([600] * 513, [600])):
        cases.check(top, bot)
    cases.check(list(range(1, 512)) + [0], list(range(1, 512)) + [0])
    cases.check(list(range(1, 513)), list(range(1, 513)))


def add_all(cases):
    for part in (garbled, spaced, refused, parked, rows):
        part(cases)
