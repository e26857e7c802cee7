"""Texts drawn by a seeded generator: pin lists, and each way that their form can be broken."""
import channel
import text_cases


def replaced(rng, text, old, new):
    """One place of `old`, drawn, becomes `new`; a text without it stays."""
    places = [i for i in range(len(text)) if text.startswith(old, i)]
    if not places:
        return text
    at = rng.choice(places)
    return text[:at] + new + text[at + len(old):]


# How the two lines may end, each by itself.
ENDS = ((b"\n", b"\n"), (b"\r\n", b"\r\n"), (b"\r\n", b"\n"), (b"\n", b"\r\n"))
# What a hand or another system may write in place of each part of a pin list.
SLIPS = {
    b"TOP": (b"top", b"Top", b"TO", b"TOPP", b"", b"BOT", b" TOP", b"\xef\xbb\xbfTOP", b"\tTOP", b"\rTOP", b"\r\nTOP",
             b"TOP\r"),
    b"BOT": (b"bot", b"BO", b"BOTT", b"", b"TOP", b" BOT", b"\nBOT", b"LEFT", b"\tBOT", b"\rBOT", b"\r\nBOT", b"BOT\r"),
    b" ": (b"\t", b"\t ", b" \t", b"", b",", b", ", b"\n", b"\r", b"\r\n", b"\r ", b" \r", b"\xa0", b"\xc2\xa0",
           b" \xa0", b" 0", b" 00", b" -", b" +", b" 0x", b" 1.", b" \x00", b" a", b" /", b" :", b" 1/", b" 1:"),
    b"\r": (b"\r\r", b"\r ", b" \r", b"\t\r", b"\r\t", b"\n", b"\n\r", b"0\r", b"\r0"),
    b"\n": (b" \n", b"   \n", b"\t\n", b"", b"\n\n", b"\r", b"\r\r\n", b"\r \n", b"\n\r", b" ", b"\x00\n", b"\x0b",
            b"0\n", b"\x85"),
}
TAILS = [b"\n", b"\r", b"\r\n", b" ", b"\t", b"0", b" 0", b"\x00", b"TOP", b"BOT 0\n", b"\x1a", b"\xff", b"x"]
LIKELY = b" \r\n\t0"  # bytes that belong in some places and not in others


def of_runs(rng, word, row, end):
    """A line with a run of spaces of any length before each number, mostly a short one."""
    longest = rng.choice((2, 2, 5, 40))
    return word + b"".join(b" " * rng.randint(1, longest) + b"%d" % n for n in row) + end


def typed(rng, top, bot):
    """The rows as a pin list: plain, in columns of a width as order screens pad them, or with spaces as hands type
    them; the lines end in one byte or in two."""
    kind, ends = rng.randrange(4), rng.choice(ENDS)
    if kind == 0:
        return text_cases.text(top, bot)
    if kind < 3:
        return text_cases.text(top, bot, rng.choice((1, 2, 3, 3, 4, 8)), ends)
    return of_runs(rng, b"TOP", top, ends[0]) + of_runs(rng, b"BOT", bot, ends[1])


def byte_changed(rng, text):
    """A text cut at a byte, or with a byte left out, put in, put in its place, or with a bit flipped."""
    at = rng.randrange(len(text))
    before, after = text[:at], text[at + 1:]
    byte = bytes([rng.choice(LIKELY) if rng.random() < 0.5 else rng.randrange(256)])
    flipped = bytes([text[at] ^ 1 << rng.randrange(8)])
    middle = rng.choice((b"", byte + text[at:at + 1], byte, flipped))
    return before if rng.random() < 0.2 else before + middle + after


def number_grown(rng, text):
    """A number gets more digits: net 51 may become 510 or 5,100, and one may pass the bounds of 32 or 64 bits."""
    digits = rng.choice((b"0", b"9", b"00", b"4294967296", b"18446744073709551616", b"7" * rng.randint(1, 80)))
    at = rng.randrange(len(text))
    return text[:at] + digits + text[at:]


def lines_changed(rng, text):
    """Lines exchanged, missing, repeated, run together, or without numbers."""
    top, bot = text.splitlines(keepends=True)[:2]
    words = rng.choice((b"TOP", b"BOT", b"TOP ", b"BOT ", b"TOP   ", b"BOT   ", b""))
    return rng.choice((bot + top, top, bot, top + top, top + bot + bot, top[:-1] + bot, words + b"\n" + bot,
                       top + words + b"\r\n", text[::-1], b"\n" + text, b""))


def damaged(rng, text):
    """A pin list with one slip."""
    kind = rng.randrange(8)
    if kind < 4:
        part = rng.choice([part for part in SLIPS if part in text])
        return replaced(rng, text, part, rng.choice(SLIPS[part]))
    if kind == 4:
        return text + rng.choice(TAILS)
    return (byte_changed, number_grown, lines_changed)[kind - 5](rng, text)


def noise(rng):
    """Bytes of no form, or of the letters that a form is made of."""
    letters = rng.choice((bytes(range(256)), b"TOPBOT 0123456789\r\n", b"TOP \n01", b"  01\r\n", b" 1\r\n\t"))
    start = rng.choice((b"", b"TOP", b"TOP 0", b"TOP 0\r", b"TOP  0\n", b"TOP 0\r\nBOT", b"TOP 0\nBOT   0",
                        b"TOP  0\r\nBOT  0\r\n"))
    return start + bytes(rng.choice(letters) for _ in range(rng.randint(0, 30)))


def drawn(rng, top, bot):
    """The pin list of rows, in half of the draws with a slip or two."""
    text = typed(rng, top, bot)
    for _ in range(rng.choice((0, 0, 1, 2))):
        text = damaged(rng, text) if text.count(b"\n") > 1 else text
    return text


def long_texts():
    """Texts whose lengths lie around the limit of the programs: of the form, or garbled at the front or at the end."""
    for length in range(channel.LIMIT - 2, channel.LIMIT + 3):
        yield b"TOP 1\nBOT " + b"7" * (length - 11) + b"\n"  # a net of many digits
        yield b"TOP 1\nBOT " + b"7" * (length - 10)  # the same, cut
        yield b"TOP" + b" " * (length - 3)
        yield b"TOP" + b" " * (length - 11) + b"1\nBOT 1\n"  # a list that is long by its spaces
        yield b"TOP 1\r\nBOT" + b" " * (length - 13) + b"1\r\n"
        yield b"TOP 1\r\nBOT" + b" " * (length - 12) + b"\r\n"  # the same without its last number
        yield b"TOP 1\r\nBOT" + b" " * (length - 12) + b"1\r"  # without its last line feed
        yield (b"TOP" + b" 0" * length)[:length]
        yield bytes(length)
    columns = (channel.LIMIT - 8) // 4
    yield text_cases.text([0] * columns, [0] * columns)  # too wide
    yield text_cases.text([0] * columns, [0] * columns) + b"\n"
    yield text_cases.text([*range(512)], [*range(511, -1, -1)], 62, text_cases.RETURNS)  # columns of 63 bytes
