"""What stands at the byte where a text stops being a pin list, and the slip that is likely behind it. Tables of blanks
share the slips of a file, of spaces and of numbers."""

NAMES = {0x00: "a zero byte", 0x09: "a tab", 0x0a: "a line feed", 0x0d: "a carriage return", 0x20: "a space"}
MARKS = {b"\xef\xbb\xbf": "the file begins with a byte order mark: save it as plain text without one",
         b"\xff\xfe": "the file is UTF-16 text: save it as ASCII or UTF-8",
         b"\xfe\xff": "the file is UTF-16 text: save it as ASCII or UTF-8"}
WORDS = (b"TOP", b"BOT")
LINE_ENDS = b"\r\n"
RETURN = 0x0d
# No-break and other wide or narrow spaces, as word processors and web pages have them, in Latin-1 and UTF-8.
OTHER_SPACES = (b"\xa0", *(space.encode() for space in "\u00a0\u2002\u2003\u2007\u2009\u202f\u3000"))
# What is said of a comma, of a sign or point, of a comment and of a letter.
SLIPS_OF_NETS = ("numbers are parted by spaces and nothing else", "a net number is a whole number without a sign",
                 "a pin list has no comments", "a net is a number, without letters")
NUMBERS_DUE = "a space and a number are due there"
LONE_RETURN = ("a carriage return stands without a line feed behind it: end lines in a line feed, with or without a "
               "carriage return before it")


def line_and_column(text, place):
    """Line and column of an offset, counted from 1. A line ends in its line feed."""
    return text.count(b"\n", 0, place) + 1, place - text.rfind(b"\n", 0, place)


def named(byte):
    """A byte in words."""
    return f"'{chr(byte)}'" if 0x20 < byte < 0x7f else NAMES.get(byte, f"the byte {byte:02X} (hexadecimal)")


def standing(text, place):
    """What stands at an offset, in words."""
    return f"{named(text[place])} stands" if place < len(text) else "the text ends"


def likely_slip(text, place):
    """A sentence on the likely slip. The place is the longest start that the text shares with some pin list."""
    line, column = line_and_column(text, place)
    for find in (slip_of_file, slip_of_return, slip_of_word, slip_of_end, slip_of_space, slip_of_number):
        slip = find(text, place, line, column)
        if slip:
            return slip
    return what_is_due(text[:place])


def what_is_due(start):
    """What a pin list that begins so goes on with."""
    if start.endswith(b" "):
        return "a number is due there"
    return NUMBERS_DUE if start.endswith(WORDS) else "a space or the end of the line is due there"


def slip_of_file(text, place, _line, _column):
    if not text:
        return "the file is empty"
    return next((words for mark, words in MARKS.items() if place == 0 and text.startswith(mark)), None)


def slip_of_return(text, place, line, _column):
    """The slips behind the carriage return of a line's end, and at one that ends no line."""
    here, following = text[place:place + 1], text[place + 1:place + 2]
    if here and text[:place].endswith(b"\r"):
        return "two carriage returns stand in a row: keep one before the line feed" if here == b"\r" else LONE_RETURN
    return LONE_RETURN if here == b"\r" and following not in (b"\n", b"") and line < 3 else None


def slip_of_word(text, place, line, column):
    """The slips before the first number of a line, and lines after the second."""
    if line > 2:
        return "nothing may follow the BOT line" + (", not even an empty one" if text[place] in LINE_ENDS else "")
    start, word = place - column + 1, WORDS[line - 1].decode()
    if place >= len(text):
        return None
    if text[start:place].rstrip(b" ") == WORDS[line - 1]:
        return f"{word} has no numbers: {what_is_due(text[:place])}" if text[place] in LINE_ENDS else None
    if column > 3:
        return None
    found = text[start:start + 3]
    if found.upper() == WORDS[line - 1]:
        return f"the word is {word}, in capitals"
    if found.upper() in WORDS:
        return f"line 1 begins with TOP and line 2 with BOT; this line begins with {found.decode()}"
    if column == 1 and text[place] in b" \t":
        return f"nothing may stand before the word {word}"
    if column == 1 and text[place] in LINE_ENDS:
        return f"an empty line stands where the {word} line is due"
    return f"the line begins with the word {word}"


def slip_of_end(text, place, line, _column):
    """The slips of a text that ends too early."""
    if place < len(text):
        return None
    behind = " behind the carriage return" if text.endswith(b"\r") else ""
    if behind or text[-1:].isdigit():
        return ("the last line feed is" if line == 2 else "the line feed and the BOT line are") + " missing" + behind
    if line == 2 and text.endswith(b"\n"):
        return "the BOT line is missing"
    return "the text was cut off"


def slip_of_space(text, place, _line, _column):
    """Spaces and tabs at the end of a line; tabs and other kinds of space between numbers."""
    here, before = text[place], text[:place]
    if here in LINE_ENDS and before.endswith(b"  "):
        return "spaces stand at the end of the line: take them away"
    if here in LINE_ENDS and before.endswith(b" "):
        return "a space stands at the end of the line: take it away"
    if here == 0x09 and not text[place:].partition(b"\n")[0].strip(b" \t\r"):
        return "a tab stands at the end of the line: take it away"
    if here == 0x09:
        return "a tab parts numbers: part them by spaces"
    if text.startswith(OTHER_SPACES, place):
        return "a space of another kind parts numbers: part them by plain spaces (hexadecimal 20)"
    return None


def slip_of_number(text, place, _line, _column, words=SLIPS_OF_NETS):
    here, before = chr(text[place]), text[place - 1:place]
    parted, signed, comment, letter = words
    if here.isdecimal() and before == b"0":
        return "a number has no leading zero"
    if here in ",;|":
        return parted
    if here in "+-.":
        return signed
    if here == "#":
        return comment
    return letter if here.isascii() and here.isalpha() else None
