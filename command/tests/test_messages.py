"""What is said of a refusal: line and column, what stands there, the likely slip; nets, pins and pieces by name."""
import subprocess
import sys
import unittest

from command import answers, programs
from command.explain import explained
from command.tests.workshop import A, ROOT

sys.path.insert(0, str(ROOT / "reference"))
import channel  # noqa: E402  (the independent program, which writes the faulty boards)
from text_cases import in_columns  # noqa: E402

SLIPS = {  # the text, and what its message has to have
    b"": ("line 1, column 1 the text ends", "the file is empty"),
    b"\xef\xbb\xbfTOP 1\nBOT 1\n": ("line 1, column 1 the byte EF", "a byte order mark"),
    b"\xff\xfeT\0O\0P\0": ("the byte FF", "UTF-16"),
    b"TOP 1\rBOT 1\r": ("line 1, column 7 'B'", "a carriage return stands without a line feed behind it: end lines in"),
    b"TOP 1\r\nBOT 1\r2": ("line 2, column 7 '2'", "without a line feed behind it"),
    b"TOP 1\r \nBOT 1\n": ("line 1, column 7 a space", "without a line feed behind it"),
    b"TOP 1\n\rBOT 1\n\r": ("line 2, column 1 a carriage return", "without a line feed behind it"),
    b"TOP 1 \r2\nBOT 1\n": ("line 1, column 7 a carriage return", "without a line feed behind it"),
    b"TOP 1\r\r\nBOT 1\n": ("line 1, column 7 a carriage return", "two carriage returns stand in a row"),
    b"TOP 1\r": ("line 1, column 7 the text ends", "the BOT line are missing behind the carriage return"),
    b"TOP 1\r\nBOT 1\r": ("line 2, column 7 the text ends", "the last line feed is missing behind the carriage return"),
    b"TOP\t1\nBOT 1\n": ("line 1, column 4 a tab", "a tab parts numbers: part them by spaces"),
    b"TOP 1\nBOT 1\t2\n": ("line 2, column 6 a tab", "a tab parts numbers: part them by spaces"),
    b"TOP  1  \t  2\r\nBOT 1 2\r\n": ("line 1, column 9 a tab", "a tab parts numbers: part them by spaces"),
    b"TOP 1\t\r\nBOT 1\r\n": ("line 1, column 6 a tab", "a tab stands at the end of the line: take it away"),
    b"TOP 1\xa02\nBOT 1 2\n": ("line 1, column 6 the byte A0", "a space of another kind parts numbers"),
    b"TOP \xc2\xa01\nBOT 1\n": ("line 1, column 5 the byte C2", "part them by plain spaces"),
    b"TOP 1 \nBOT 1\n": ("line 1, column 7 a line feed", "a space stands at the end of the line: take it away"),
    b"TOP   1\r\nBOT   1 \r\n": ("line 2, column 9 a carriage return", "a space stands at the end of the line"),
    b"TOP 1   \r\nBOT 1\n": ("line 1, column 9 a carriage return", "spaces stand at the end of the line: take them"),
    b"TOP 01\nBOT 1\n": ("line 1, column 6 '1'", "no leading zero"),
    b"TOP   1 007\r\n": ("line 1, column 10 '0'", "no leading zero"),
    b"TOP 1\nBOT 1": ("line 2, column 6 the text ends", "the last line feed is missing"),
    b"TOP 1": ("line 1, column 6 the text ends", "the BOT line are missing"),
    b"TOP 1\r\n": ("line 2, column 1 the text ends", "the BOT line is missing"),
    b"TOP 1\nBO": ("line 2, column 3 the text ends", "cut off"),
    b"TOP 1\nBOT   ": ("line 2, column 7 the text ends", "cut off"),
    b"TOP 1\nBOT 1\n\n": ("line 3, column 1 a line feed", "nothing may follow the BOT line, not even an empty one"),
    b"TOP 1\r\nBOT 1\r\n\r\n": ("line 3, column 1 a carriage return", "nothing may follow the BOT line, not even an"),
    b"TOP 1\nBOT 1\nMID 1\n": ("line 3, column 1 'M'", "nothing may follow the BOT line"),
    b"TOP   1   2\r\nBOT   2   1\nx": ("offset 25", "line 3, column 1 'x'", "nothing may follow the BOT line"),
    b"top 1\nbot 1\n": ("line 1, column 1 't'", "TOP, in capitals"),
    b"TOP 1\nBot 1\n": ("line 2, column 2 'o'", "BOT, in capitals"),
    b"BOT 1\nTOP 1\n": ("line 1, column 1 'B'", "this line begins with BOT"),
    b"TOP 1\nTOP 1\n": ("line 2, column 1 'T'", "this line begins with TOP"),
    b" TOP 1\nBOT 1\n": ("line 1, column 1 a space", "nothing may stand before the word TOP"),
    b"\nTOP 1\nBOT 1\n": ("line 1, column 1 a line feed", "an empty line stands where the TOP line is due"),
    b"TOP 1\n\nBOT 1\n": ("line 2, column 1 a line feed", "an empty line stands where the BOT line is due"),
    b"TOP 1\r\n\r\nBOT 1\r\n": ("line 2, column 1 a carriage return", "an empty line stands where the BOT line is due"),
    b"TO\nBOT 1\n": ("line 1, column 3 a line feed", "the line begins with the word TOP"),
    b"1 2\n3 4\n": ("line 1, column 1 '1'", "the line begins with the word TOP"),
    b"TOP\nBOT\n": ("line 1, column 4 a line feed", "TOP has no numbers: a space and a number are due"),
    b"TOP 1\r\nBOT  \r\n": ("line 2, column 6 a carriage return", "BOT has no numbers: a number is due"),
    b"TOP: 1\n": ("line 1, column 4 ':'", "a space and a number are due"),
    b"TOP  : 1\n": ("line 1, column 6 ':'", "a number is due there"),
    b"TOP 1,2\nBOT 1 2\n": ("line 1, column 6 ','", "parted by spaces and nothing else"),
    b"TOP -1\n": ("line 1, column 5 '-'", "without a sign"),
    b"TOP a\nBOT a\n": ("line 1, column 5 'a'", "a net is a number"),
    b"TOP 1 # one\n": ("line 1, column 7 '#'", "no comments"),
    b"TOP 1\0\n": ("line 1, column 6 a zero byte", "a space or the end of the line is due there"),
}
ROWS = {  # texts that are pin lists by their form
    b"TOP 1 2 2\nBOT 1\n": "TOP 3, so BOT is shorter by 2",
    b"TOP 1\nBOT 1 1\n": "TOP has 1, BOT 2, so TOP is shorter by 1",
    b"TOP 0 0\nBOT 512 0\n": "512 stands at column 1, BOT",
    b"TOP " + b"9" * 50 + b"\nBOT 0\n": "999999999999.. (50 digits) stands at column 1, TOP",
    b"TOP" + b" 0" * 513 + b"\nBOT 0\n": "TOP has 513 numbers, BOT 1",
    b"TOP 1 2\nBOT 2 1\n": "the ring: net 1 above net 2 in column 1, net 2 above net 1 in column 2",
    b"TOP" + b" 0" * 40000: "more than 65536 bytes",
}


def boards():
    """Board files judged against A, and what their messages have to have."""
    width, tracks, pieces = channel.open_board(channel.board(A))

    def file(changed, wide=width):
        return channel.encode(wide, tracks, changed)
    return {
        "I": (file(pieces[:3] + [(1, 2, 1, 3)] + pieces[4:]),
              "net 2 at column 3, TOP is joined to net 1 at column 2, TOP"),
        "H": (file(pieces[:7] + pieces[8:]), "net 2 at column 2, BOT is not joined to its first pin at column 3, TOP"),
        "J": (file(pieces + [(0, 2, 3, 4)]), "piece 12 of the board floats: it is joined to no pin; it is a trunk, "
                                             "track 2, columns 3 to 4"),
        "cut": (file(pieces)[:-3], "48 bytes are due; it has 45, 3 too few, for its header says 11 pieces"),
        "longer": (file(pieces) + b"\n", "it has 49, 1 too many"),
        "no header": (b"ab", "it has 2 bytes, less than its header"),
        "wide": (file([], 513), "its width reads 513, of 1 to 512"),
        "spare": (b"\1\0\0\1", "its width reads 4, of 1 to 512, and its spare bit is set"),
        "range": (file([(1, 2, 0, 9)]), "piece 1 (piece 0 is the header); it reads: branch, column 2, rows 0 to 9"),
        "no kind": (file([(3, 2, 0, 9)]), "it reads: none, line 2, from 0, to 9"),
        "other": (file([], 5), "5 columns wide, and the pin list is not; the pin list has 4 columns"),
        "long": (bytes(65537), "the board file: the input has more than 65536 bytes"),
    }


def said(text):
    """What is said of a pin list that is refused."""
    output = subprocess.run([ROOT / "target" / "bin" / "listing"], input=text, stdout=subprocess.PIPE, check=True)
    return explained(answers.refusal_of(output.stdout), text)[0]


class Messages(unittest.TestCase):
    def test_slips_of_a_text(self):
        for text, parts in SLIPS.items():
            with self.subTest(text):
                for part in parts:
                    self.assertIn(part, said(text))

    def test_refused_rows(self):
        for text, part in ROWS.items():
            with self.subTest(text[:30]):
                self.assertIn(part, said(text))
                self.assertEqual(said(in_columns(text)), said(text))

    def test_faults(self):
        for name, (file, part) in boards().items():
            for pins in (A, in_columns(A)):
                with self.subTest(name, pins=pins):
                    _, verdict = programs.judge(pins, file)
                    self.assertIn(part, explained(verdict, pins, file)[0])

    def test_a_long_ring_is_cut_short(self):
        nets = range(1, 41)
        text = f"TOP {' '.join(map(str, nets))}\nBOT {' '.join(map(str, [*nets[1:], 1]))}\n".encode()
        self.assertIn("and so on, 40 nets in all", said(text))

    def test_lines_of_a_message_are_short_of_a_page(self):
        for text in (*SLIPS, *ROWS):
            self.assertLess(len(said(text)), 480)
